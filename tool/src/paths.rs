//! Files and directories as a person names them: IDs, and paths as `[200,200]READS.DAT;1`; and names of
//! files and volumes as text.

use ods1::{FileId, Label, Name, Refusal};

use crate::failure::{Failure, Outcome, While};

/// The directory of a path, and how it is named.
#[derive(Clone, Debug, PartialEq, Eq)]
pub enum Directory {
    /// The master file directory.
    Master,
    /// The text of the entry that it has in the master file directory, as `200200.DIR;1`.
    Listed(String),
}

/// A file as a person names it.
#[derive(Clone, Debug, PartialEq, Eq)]
pub enum FileName {
    Id(FileId),
    /// The directory, and the text after it in capitals, as `READS.DAT;1`, `READS.DAT` or `READS`.
    Path(Directory, String),
}

/// Reads an octal number of one to three digits up to 377: half of a UIC.
fn octal_byte(text: &str) -> Option<u8> {
    let digits =
        (1..=3).contains(&text.len()) && text.bytes().all(|byte| matches!(byte, b'0'..=b'7'));
    digits.then(|| u8::from_str_radix(text, 8).ok()).flatten()
}

/// Reads a UIC, as `[200,200]`: its word has the group in the high byte, the member in the low one
/// (000, 3.4.1.6).
pub fn uic(text: &str) -> Outcome<u16> {
    let inside = text
        .strip_prefix('[')
        .and_then(|text| text.strip_suffix(']'))
        .unwrap_or(text);
    let halves = inside.split_once(',');
    let both = halves.and_then(|(group, member)| Some((octal_byte(group)?, octal_byte(member)?)));
    let (group, member) = both.ok_or_else(|| {
        Failure::Trouble(format!(
            "{text} is not a UIC, as [200,200]: two octal numbers up to 377"
        ))
    })?;
    Ok(u16::from_be_bytes([group, member]))
}

/// Reads a protection word, as `164000`: an octal number of 16 bits.
pub fn protection(text: &str) -> Outcome<u16> {
    let is_octal = text.bytes().all(|byte| matches!(byte, b'0'..=b'7'));
    let word = u16::from_str_radix(text, 8).ok().filter(|_| is_octal);
    word.ok_or_else(|| {
        Failure::Trouble(format!(
            "{text} is not a protection word, as 164000: an octal number up to 177777"
        ))
    })
}

/// A UIC as it is written.
pub fn uic_text(word: u16) -> String {
    let [group, member] = word.to_be_bytes();
    format!("[{group:o},{member:o}]")
}

/// Reads what stands in the brackets of a directory. 000, 4.1.1: "A UIC of [n,m] associates with a
/// directory name of "nnnmmm.DIR;1" where nnn and mmm are n and m padded out to three digits each".
fn directory(inside: &str) -> Outcome<Directory> {
    let name = if inside.contains(',') {
        let [group, member] = uic(&format!("[{inside}]"))?.to_be_bytes();
        format!("{group:03o}{member:03o}")
    } else {
        inside.to_ascii_uppercase()
    };
    if name == "000000" {
        return Ok(Directory::Master);
    }
    Ok(Directory::Listed(format!("{name}.DIR;1")))
}

/// Takes the directory in front of a path off, and answers the rest.
fn split(text: &str) -> Outcome<(Directory, &str)> {
    let Some(inside) = text.strip_prefix('[') else {
        return Ok((Directory::Master, text));
    };
    let (inside, rest) = inside.split_once(']').ok_or_else(|| {
        Failure::Trouble(format!(
            "{text} has no ] after its directory, as [200,200]READS.DAT;1"
        ))
    })?;
    Ok((directory(inside)?, rest))
}

impl FileName {
    /// Reads a file's ID or path.
    pub fn read(text: &str) -> Outcome<FileName> {
        if let Ok(id) = text.parse() {
            return Ok(FileName::Id(id));
        }
        if text.contains(',') && !text.contains('[') {
            return Err(Failure::Trouble(format!(
                "{text} is not an ID, as 6,9,0: three numbers up to 65535"
            )));
        }
        let (directory, rest) = split(text)?;
        if rest.is_empty() {
            return Err(Failure::Trouble(format!(
                "{text} names no file, as [200,200]READS.DAT;1 does"
            )));
        }
        Ok(FileName::Path(directory, rest.to_ascii_uppercase()))
    }

    /// Finds the ID on an image.
    pub fn find(&self, image: &[u8]) -> Outcome<FileId> {
        match self {
            FileName::Id(id) => Ok(*id),
            FileName::Path(directory, text) => look_up(image, directory.find(image)?, text),
        }
    }
}

impl Directory {
    /// Reads a directory: `[200,200]`, `[NAME]`, an ID, or the path of a directory file.
    pub fn read_and_find(text: &str, image: &[u8]) -> Outcome<FileId> {
        match split(text)? {
            (directory, "") if !text.is_empty() => directory.find(image),
            _ => FileName::read(text)?.find(image),
        }
    }

    /// Finds the ID on an image.
    fn find(&self, image: &[u8]) -> Outcome<FileId> {
        match self {
            Directory::Master => Ok(FileId::MASTER),
            Directory::Listed(text) => look_up(image, FileId::MASTER, text),
        }
    }
}

/// Reads a name's text, with a dot and a version put where they are left out.
fn name(text: &str, version: &str) -> ods1::Answer<Name> {
    let dot = if text.contains('.') { "" } else { "." };
    ods1::text_to_name(&format!("{text}{dot};{version}"))
}

/// Reads a name with its version, as `READS.DAT;1`. Small letters count as capitals.
pub fn full_name(text: &str) -> ods1::Answer<Name> {
    let text = text.to_ascii_uppercase();
    match text.split_once(';') {
        Some((before, version)) => name(before, version),
        None => ods1::text_to_name(&text),
    }
}

/// Looks a text up in a directory; the highest version where it has none.
fn look_up(image: &[u8], directory: FileId, text: &str) -> Outcome<FileId> {
    let doing = || format!("looking up {text} in the directory {directory}");
    let found = if text.contains(';') {
        full_name(text).while_doing(doing())?
    } else {
        ods1::open_file(image, directory).while_doing(doing())?;
        highest(image, directory, name(text, "1").while_doing(doing())?)
    };
    ods1::look_up(image, directory, found).while_doing(doing())
}

/// The highest version of a name in a directory; as the name was given where it has none.
fn highest(image: &[u8], directory: FileId, name: Name) -> Name {
    let versions = ods1::records(image, directory).map(|record| record.name);
    let proper =
        versions.filter(|found| found.is_version_of(name) && ods1::name_to_text(*found).is_ok());
    proper.max_by_key(|found| found.version()).unwrap_or(name)
}

/// A name as text; where it is not proper, that there is none, or its words.
pub fn name_text(name: Name) -> String {
    match ods1::name_to_text(name) {
        Ok(text) => text,
        Err(refused) => {
            debug_assert_eq!(refused.refusal, Refusal::Name);
            let [name1, name2, name3, typ, version] = name.0;
            match name.0 {
                [0, 0, 0, 0, 0] => String::from("(no name)"),
                _ => format!("?{name1}.{name2}.{name3}.{typ}.{version}?"),
            }
        }
    }
}

/// The text of a label, up to its padding; what is not ASCII to read is shown as `?`.
pub fn label_text(label: &Label) -> String {
    let filled = label
        .name
        .split(|&byte| byte == 0)
        .next()
        .unwrap_or_default();
    let shown = |&byte: &u8| {
        if (b' '..=b'~').contains(&byte) {
            char::from(byte)
        } else {
            '?'
        }
    };
    filled
        .iter()
        .map(shown)
        .collect::<String>()
        .trim_end()
        .into()
}

#[cfg(test)]
mod tests {
    use super::*;

    fn path(directory: &str, rest: &str) -> FileName {
        let directory = match directory {
            "" => Directory::Master,
            name => Directory::Listed(format!("{name}.DIR;1")),
        };
        FileName::Path(directory, String::from(rest))
    }

    #[test]
    fn files_are_read() {
        let read = |text| FileName::read(text).expect("the text names a file");
        assert_eq!(read("6,9,0"), FileName::Id(FileId::of(6, 9, 0)));
        assert_eq!(read("READS.DAT;1"), path("", "READS.DAT;1"));
        assert_eq!(read("reads.dat"), path("", "READS.DAT"));
        assert_eq!(read("[200,200]READS.DAT;1"), path("200200", "READS.DAT;1"));
        assert_eq!(read("[1,54]READS"), path("001054", "READS"));
        assert_eq!(read("[0,0]READS"), path("", "READS"));
        assert_eq!(read("[000000]READS"), path("", "READS"));
        assert_eq!(read("[001054]READS"), path("001054", "READS"));
        assert_eq!(read("[stations]READS"), path("STATIONS", "READS"));
    }

    #[test]
    fn what_names_no_file_is_trouble() {
        for text in [
            "6,9",
            "6,9,70000",
            "[200,200",
            "[200,200]",
            "[8,1]A",
            "[400,1]A",
            "[1,2,3]A",
            "[,]A",
            "[0001,1]A",
        ] {
            assert!(
                matches!(FileName::read(text), Err(Failure::Trouble(_))),
                "{text}"
            );
        }
    }

    #[test]
    fn uics_are_read_as_they_are_written() {
        for word in [0, 0o100_201, 0xffff, 0x8080] {
            assert_eq!(uic(&uic_text(word)).expect("a UIC"), word);
        }
        assert_eq!(uic("[200,7]").expect("a UIC"), 0x8007);
        assert_eq!(uic("200,7").expect("a UIC"), 0x8007);
        assert!(uic("[200]").is_err());
    }

    #[test]
    fn protection_words_are_octal() {
        let cases = [("0", 0), ("164000", 0xe800), ("177777", 0xffff)];
        for (text, word) in cases {
            assert_eq!(protection(text).expect("a protection word"), word);
        }
        for text in ["", "8", "+1", "-1", "200000", "0x1"] {
            assert!(protection(text).is_err(), "{text}");
        }
    }

    #[test]
    fn a_name_has_its_version() {
        let words = Name([29001, 7160, 0, 6460, 1]);
        assert_eq!(full_name("READS.DAT;1"), Ok(words));
        assert_eq!(full_name("reads.dat;1"), Ok(words));
        assert_eq!(full_name("READS;1"), full_name("READS.;1"));
        for text in ["READS.DAT", "READS", "READS.DAT;", "READS.DAT;1;1"] {
            assert!(full_name(text).is_err(), "{text}");
        }
    }
}
