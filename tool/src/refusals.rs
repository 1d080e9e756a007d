//! What each refusal means, and what can be done about it.

use std::fmt;

use ods1::{FileId, Name, Refusal, Refused};
use serde_json::{json, Value};

use crate::paths::name_text;

/// The file that has a number now, by its ID and the name in its header.
#[derive(Debug)]
pub struct Holder {
    id: FileId,
    name: Name,
}

impl Holder {
    /// Whose the number of an ID is now, where SEQUENCE refuses the ID.
    pub fn after(image: &[u8], id: FileId, refused: Refused) -> Option<Holder> {
        if refused.refusal != Refusal::Sequence {
            return None;
        }
        let header = ods1::header(image, id.number).ok()?;
        Some(Holder {
            id: FileId::of(id.number, header.sequence, 0),
            name: header.name,
        })
    }

    /// The file as JSON.
    pub fn json(&self) -> Value {
        json!({"id": self.id.to_string(), "name": name_text(self.name)})
    }
}

impl fmt::Display for Holder {
    fn fmt(&self, f: &mut fmt::Formatter<'_>) -> fmt::Result {
        write!(f, "{} {}", self.id, name_text(self.name))
    }
}

/// What a refusal means, and what to do, each a sentence.
pub struct Explained {
    pub meaning: String,
    pub advice: &'static str,
}

const COPY: &str =
    "Get the image anew from the station, and compare the lengths and checksums of both copies.";
const OTHER_COPY: &str =
    "The volume is damaged: get the image anew from the station, or an older copy, and judge that.";
const LOOK: &str = "Use ods1 audit to see which entries are stale, and ods1 ls for the ID that the directory has now.";

/// Explains a refusal.
pub fn explain(refused: Refused) -> Explained {
    let place = refused.place;
    let (meaning, advice) = match refused.refusal {
        Refusal::Size => ("The image is not a whole number of 512-byte blocks, or has fewer than 100 or more than 1,044,480".into(), COPY),
        Refusal::Home => ("No block at a home position (1, 256, 512 and so on) is a home block: this is no ODS-1 volume, or its home blocks are damaged".into(), COPY),
        Refusal::Geometry => ("The home block's fields do not fit each other or the size of the image, which may have been cut off".into(), COPY),
        Refusal::Index => ("A header of the index file is damaged, links to one that is not as it must be, or does not map the index file as it must".into(), OTHER_COPY),
        Refusal::Storage => ("The header of the storage map file is damaged or does not fit the size of the volume".into(), OTHER_COPY),
        Refusal::Relvol => ("The third word of the ID is not 0, and volume sets are not supported".into(), "Give the ID with 0 as its third word."),
        Refusal::Number => ("The file number is not in use on this volume: the file was deleted, or never was".into(), LOOK),
        Refusal::Header => ("The file's header is damaged".into(), OTHER_COPY),
        Refusal::Sequence => ("The number belongs to a file with another sequence number: the file that this ID names is no more".into(), LOOK),
        Refusal::Segment => ("The number is that of an extension header, and not of a file".into(), "Use the ID of the file's first header."),
        Refusal::Locked => ("The file is locked against access, or marked for deletion: it may not have been closed properly".into(), "Treat its contents as doubtful, and ask the station for the file."),
        Refusal::Chain => ("A link from one of the file's headers to the next is bad".into(), OTHER_COPY),
        Refusal::Vbn => ("The file has no such block".into(), "Use ods1 map to see which VBNs the file has."),
        Refusal::Name => ("This is not a proper name: 1 to 9 capitals or digits, a dot, a type of at most 3, and a version from 1 to 32,767".into(), "Give the name as NAME.TYP;V, for example READS.DAT;1."),
        Refusal::Absent => ("The directory has no such entry".into(), "Use ods1 ls to see which entries it has."),
        Refusal::Work => ("A work area is too short for this volume".into(), "This is a fault of the program: please report it."),
        Refusal::Files => (format!("File number {place} is the lowest whose header is damaged, missing or not what its number asks for"), OTHER_COPY),
        Refusal::Links => (format!("File number {place} is the lowest whose link to an extension header is bad, or that is linked to wrongly"), OTHER_COPY),
        Refusal::Twice => (format!("LBN {place} is the lowest block that two retrieval pointers cover: two files share it"), OTHER_COPY),
        Refusal::Badhome => (format!("LBN {place} is a home position before the home block, and the bad block file does not have it"), OTHER_COPY),
        Refusal::Map => (format!("Bit {place} of the storage map is the lowest that is wrong: a block in use is marked free, or a free one in use"), OTHER_COPY),
        Refusal::Known => ("Files 1 to 5 belong to the volume itself, and are not extended or deleted".into(), "Choose a file with a number above 5."),
        Refusal::Fixed => ("The file is flagged contiguous, and is not extended".into(), "Create another file and extend that."),
        Refusal::Count => ("The number of blocks must be from 1 to 256".into(), "Extend the file several times for more."),
        Refusal::Full => ("The file's last header has no room for another retrieval pointer".into(), "Create another file for the rest."),
        Refusal::Run => ("The volume has no run of so many free blocks".into(), "Use ods1 info to see the free runs, and extend by fewer blocks at a time."),
        Refusal::Nonumber => ("The volume has no file number left".into(), "Delete a file that is not wanted any more."),
        Refusal::Room => ("The buffer for a text is too short".into(), "This is a fault of the program: please report it."),
    };
    Explained { meaning, advice }
}

#[cfg(test)]
mod tests {
    use super::*;

    #[test]
    fn each_refusal_has_sentences() {
        for &refusal in Refusal::ALL {
            let Explained { meaning, advice } = explain(Refused { refusal, place: 77 });
            assert!(
                meaning.len() > 20 && !meaning.ends_with('.'),
                "{}",
                refusal.name()
            );
            assert!(
                advice.len() > 20 && advice.ends_with('.'),
                "{}",
                refusal.name()
            );
            let with_place = (17..=21).contains(&refusal.number());
            assert_eq!(meaning.contains("77"), with_place, "{}", refusal.name());
        }
    }
}
