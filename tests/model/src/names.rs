//! Proper names: five words, and the text that a person writes for them.

use crate::answer::{Answer, Number};
use crate::radix50;

/// The bytes that the longest text needs. Paper 01, "Names and directories": "room for 19 bytes".
pub const ROOM: usize = 19;

/// The lowest version. Paper 01, "Names and directories": "version 1 to 32,767".
pub const FIRST_VERSION: u16 = 1;

/// The highest version. Paper 01, "Names and directories": "version 1 to 32,767".
pub const LAST_VERSION: u16 = 32_767;

/// A name as words, proper or not. Paper 01, "The work and its edge": "look-up and create take a
/// name as its five words".
#[derive(Clone, Copy, Debug, PartialEq, Eq)]
pub struct Name {
    /// The three words of the name.
    pub name: [u16; 3],
    /// The type word.
    pub typ: u16,
    pub version: u16,
}

impl Name {
    /// The name of five words, in the order in which a directory record has them. Paper 01, "Names
    /// and directories": "ID (3 words), name (3), type, version".
    pub fn from_words(words: [u16; 5]) -> Name {
        let [name1, name2, name3, typ, version] = words;
        Name {
            name: [name1, name2, name3],
            typ,
            version,
        }
    }

    /// The five words, in the order in which a directory record has them. Paper 01, "Names and
    /// directories": "ID (3 words), name (3), type, version".
    pub fn words(&self) -> [u16; 5] {
        let [name1, name2, name3] = self.name;
        [name1, name2, name3, self.typ, self.version]
    }
}

/// Paper 01, "Names and directories": "capitals or digits".
pub fn is_capital_or_digit(character: char) -> bool {
    character.is_ascii_uppercase() || character.is_ascii_digit()
}

/// The characters before the blanks, where the words have capitals or digits and then blanks only.
/// Paper 01, "Names and directories": "three words with 1 to 9 capitals or digits, then blanks
/// only; a type word with 0 to 3 likewise".
fn part_of_words(words: &[u16]) -> Option<String> {
    let mut all = String::new();
    for &word in words {
        all.extend(radix50::characters(word)?);
    }
    let part = all.trim_end_matches(' ');
    if part.chars().all(is_capital_or_digit) {
        Some(part.to_string())
    } else {
        None
    }
}

/// The characters of the name's three words. Paper 01, "Names and directories": "A proper name
/// (*house*): three words with 1 to 9 capitals or digits, then blanks only".
fn name_part(words: [u16; 3]) -> Option<String> {
    part_of_words(&words).filter(|part| !part.is_empty())
}

/// The characters of the type word. Paper 01, "Names and directories": "a type word with 0 to 3
/// likewise".
fn type_part(word: u16) -> Option<String> {
    part_of_words(&[word])
}

/// Paper 01, "Names and directories": "version 1 to 32,767".
fn is_version(version: u16) -> bool {
    (FIRST_VERSION..=LAST_VERSION).contains(&version)
}

/// Paper 01, "Names and directories": "A proper name (*house*): three words with 1 to 9 capitals or
/// digits, then blanks only; a type word with 0 to 3 likewise; version 1 to 32,767."
pub fn is_proper(name: &Name) -> bool {
    name_part(name.name).is_some() && type_part(name.typ).is_some() && is_version(name.version)
}

/// The text of a proper name. Paper 01, "Names and directories": "Text: `NAME.TYP;V`, the dot
/// always there, V decimal without leading zero, nothing after it".
pub fn text_of(name: &Name) -> Option<String> {
    if !is_version(name.version) {
        return None;
    }
    let first = name_part(name.name)?;
    let second = type_part(name.typ)?;
    Some(format!("{first}.{second};{}", name.version))
}

/// The words of a part of a text, blanks after it. Paper 01, "Names and directories": "1 to 9
/// capitals or digits, then blanks only" and "0 to 3 likewise".
fn words_of_part<const WORDS: usize>(part: &str) -> Option<[u16; WORDS]> {
    if part.len() > 3 * WORDS || !part.chars().all(is_capital_or_digit) {
        return None;
    }
    let mut characters: Vec<char> = part.chars().collect();
    characters.resize(3 * WORDS, ' ');
    let mut words = [0; WORDS];
    for (word, three) in words.iter_mut().zip(characters.chunks(3)) {
        *word = radix50::word_of_characters([three[0], three[1], three[2]])?;
    }
    Some(words)
}

/// The version that a text gives. Paper 01, "Names and directories": "V decimal without leading
/// zero, nothing after it" and "version 1 to 32,767".
fn version_of_part(part: &str) -> Option<u16> {
    if !part.chars().all(|character| character.is_ascii_digit()) || part.starts_with('0') {
        return None;
    }
    // A number too long for the type has no value here, and no version is that long.
    let version: u16 = part.parse().ok()?;
    Some(version).filter(|&version| is_version(version))
}

/// The proper name that a text gives. Paper 01, "Names and directories": "Text: `NAME.TYP;V`, the
/// dot always there, V decimal without leading zero, nothing after it".
pub fn name_of(text: &[u8]) -> Option<Name> {
    // A byte above 127 is no character of a name, so a text that is not ASCII gives none.
    if !text.is_ascii() {
        return None;
    }
    let text = std::str::from_utf8(text).ok()?;
    let (first, rest) = text.split_once('.')?;
    let (second, third) = rest.split_once(';')?;
    if first.is_empty() {
        return None;
    }
    let [typ] = words_of_part::<1>(second)?;
    Some(Name {
        name: words_of_part::<3>(first)?,
        typ,
        version: version_of_part(third)?,
    })
}

/// The call that makes a name of a text. Paper 01, "Answer numbers": "14 NAME | not proper, text or
/// words" and "DONE has place 0 and as value .. name words". It has no text buffer, so that of
/// "Text calls: 28, then 14" only 14 is left.
pub fn text_to_name(text: &[u8]) -> Answer {
    match name_of(text) {
        None => Answer::refused(Number::Name),
        Some(name) => Answer::done(&name.words().map(u64::from)),
    }
}

/// The call that makes a text of a name. Paper 01, "Answer numbers": "Text calls: 28, then 14.",
/// "28 ROOM | text buffer under 19 bytes", "14 NAME | not proper, text or words", "DONE has place 0
/// and as value .. text length", "every refusal has value 0 or an empty part. Output buffers are
/// unchanged." and "Bytes after what is written stay."
pub fn name_to_text(name: &Name, buffer: &mut [u8]) -> Answer {
    if buffer.len() < ROOM {
        return Answer::refused(Number::Room);
    }
    match text_of(name) {
        None => Answer::refused(Number::Name),
        Some(text) => {
            buffer[..text.len()].copy_from_slice(text.as_bytes());
            Answer::done(&[text.len() as u64])
        }
    }
}

#[cfg(test)]
mod tests {
    use super::*;

    const READS: Name = Name {
        name: [29001, 7160, 0],
        typ: 6460,
        version: 1,
    };

    fn refused(text: &str) {
        assert_eq!(name_of(text.as_bytes()), None, "{text:?}");
        let answer = text_to_name(text.as_bytes());
        assert_eq!(answer, Answer::refused(Number::Name), "{text:?}");
    }

    fn taken(text: &str, words: [u16; 5]) {
        let name = Name::from_words(words);
        assert!(is_proper(&name), "{text:?}");
        assert_eq!(name_of(text.as_bytes()), Some(name), "{text:?}");
        assert_eq!(text_of(&name).as_deref(), Some(text));
        let mut buffer = [0xa5; 24];
        let answer = name_to_text(&name, &mut buffer);
        assert_eq!(answer, Answer::done(&[text.len() as u64]));
        assert_eq!(&buffer[..text.len()], text.as_bytes());
        assert!(buffer[text.len()..].iter().all(|&byte| byte == 0xa5));
    }

    #[test]
    fn the_record_of_volume_v() {
        taken("READS.DAT;1", READS.words());
        let answer = text_to_name(b"READS.DAT;1");
        assert_eq!(answer, Answer::done(&[29001, 7160, 0, 6460, 1]));
    }

    #[test]
    fn the_shortest_and_the_longest_text() {
        taken("A.;1", [1600, 0, 0, 0, 1]);
        assert_eq!("A.;1".len(), 4);
        taken("999999999.999;32767", [63999, 63999, 63999, 63999, 32767]);
        assert_eq!("999999999.999;32767".len(), ROOM);
    }

    #[test]
    fn names_of_the_rt_11_directory() {
        // Source document 003, figures 1-7 and 1-8: names of six characters, here with a version.
        taken("SWAP.SYS;1", [0o75131, 0o62000, 0, 0o75273, 1]);
        taken("RT11XM.SYS;1", [0o71677, 0o142615, 0, 0o75273, 1]);
        taken("RT11FB.SYS;1", [0o71677, 0o141262, 0, 0o75273, 1]);
        taken("DUX.SYS;1", [0o16140, 0, 0, 0o75273, 1]);
        taken("PIP.SAV;1", [0o62570, 0, 0, 0o73376, 1]);
        taken("DUP.SAV;1", [0o16130, 0, 0, 0o73376, 1]);
        taken("DIR.SAV;1", [0o15172, 0, 0, 0o73376, 1]);
        taken("KED.SAV;1", [0o42614, 0, 0, 0o73376, 1]);
        taken("MACRO.SAV;1", [0o50553, 0o71330, 0, 0o73376, 1]);
        taken("LINK.SAV;1", [0o46166, 0o42300, 0, 0o73376, 1]);
        taken("CREF.SAV;1", [0o12625, 0o22600, 0, 0o73376, 1]);
    }

    #[test]
    fn the_dot_and_the_version_are_always_there() {
        for text in [
            "", "A", "A;1", "A.", "A.;", "A;1.", ".;1", ".DAT;1", "A.DAT", "A.DAT;", "A..;1",
            "A.;;1", "A.B.C;1", ";1", ".", ";", ".;", "A.;1;1", "A.;1.",
        ] {
            refused(text);
        }
    }

    #[test]
    fn capitals_or_digits_only() {
        for text in [
            "a.;1",
            "Reads.DAT;1",
            "READS.DAt;1",
            "A$.;1",
            "$.;1",
            "A.$;1",
            "A-B.;1",
            "A_B.;1",
            "A B.;1",
            " A.;1",
            "A .;1",
            "A. ;1",
            "A.B C;1",
            "A.;1 ",
            "A.; 1",
            "\0A.;1",
            "A\0.;1",
            "A.;1\0",
            "A.;1\n",
            "*.;1",
            "A.;*",
            "\u{c9}.;1",
            "A.\u{663};1",
            "A.;\u{661}",
        ] {
            refused(text);
        }
        assert_eq!(name_of(b"A\xff.;1"), None);
        assert_eq!(name_of(b"A.;1\x80"), None);
    }

    #[test]
    fn nine_characters_and_three() {
        taken("ABCDEFGHI.JKL;7", [1683, 6606, 11529, 16452, 7]);
        refused("ABCDEFGHIJ.JKL;7");
        refused("ABCDEFGHI.JKLM;7");
        refused("ABCDEFGHIJ.;1");
    }

    #[test]
    fn versions() {
        for version in [
            "1", "9", "10", "99", "100", "999", "1000", "9999", "10000", "32767",
        ] {
            let expected: u16 = version.parse().expect("a version");
            taken(&format!("A.;{version}"), [1600, 0, 0, 0, expected]);
        }
        for version in [
            "0",
            "00",
            "01",
            "001",
            "-1",
            "+1",
            "1.",
            "1A",
            "A",
            "32768",
            "65535",
            "65536",
            "65537",
            "99999",
            "100000",
            "4294967297",
            "18446744073709551617",
            "032767",
            "0000000000000000000001",
            "0x1",
            "1e1",
            "1,000",
        ] {
            refused(&format!("A.;{version}"));
        }
        refused(&format!("A.;{}", "1".repeat(1000)));
    }

    #[test]
    fn words_that_are_not_proper() {
        let with = |place: usize, word: u16| {
            let mut words = READS.words();
            words[place] = word;
            is_proper(&Name::from_words(words))
        };
        for place in 0..4 {
            for word in [64_000, 65_535, 27, 28, 29, 29 * 1600, 1600 + 29] {
                assert!(!with(place, word), "word {word} at {place}");
            }
        }
        // Names with a blank in front, inside, or nothing but blanks.
        assert!(!with(0, 0));
        assert!(!with(0, 1));
        assert!(!with(0, 1600));
        assert!(!with(1, 0o325));
        assert!(!with(1, 1601));
        assert!(!with(2, 1600));
        assert!(with(1, 0));
        assert!(with(1, 7161) && with(2, 0));
        // Types: nothing, one, two and three characters; a blank in front or inside.
        assert!(with(3, 0) && with(3, 1600) && with(3, 1640) && with(3, 1641));
        assert!(!with(3, 1) && !with(3, 40) && !with(3, 1601));
        // Versions.
        assert!(!with(4, 0) && with(4, 1) && with(4, 32_767) && !with(4, 32_768));
        assert!(!with(4, 65_535));
    }

    #[test]
    fn room_is_tested_before_the_name() {
        for length in 0..40 {
            let mut buffer = vec![0x5a; length];
            let wrong = Name {
                version: 0,
                ..READS
            };
            let expected = if length < 19 {
                Number::Room
            } else {
                Number::Name
            };
            assert_eq!(name_to_text(&wrong, &mut buffer), Answer::refused(expected));
            assert!(buffer.iter().all(|&byte| byte == 0x5a));
        }
    }

    #[test]
    fn a_short_buffer_is_refused_even_where_the_text_would_fit() {
        let mut buffer = [0x5a; 18];
        let answer = name_to_text(&READS, &mut buffer);
        assert_eq!(answer, Answer::refused(Number::Room));
        assert_eq!(buffer, [0x5a; 18]);
        let mut buffer = [0x5a; 19];
        let answer = name_to_text(&READS, &mut buffer);
        assert_eq!(answer, Answer::done(&[11]));
        assert_eq!(&buffer, b"READS.DAT;1\x5a\x5a\x5a\x5a\x5a\x5a\x5a\x5a");
    }
}
