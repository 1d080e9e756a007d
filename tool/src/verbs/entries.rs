//! Directory entries: name, ID, and what opening the ID answers.

use std::fmt::Write;

use ods1::{Answer, Attributes, FileId, Name, Record, Refusal};
use serde_json::{json, Value};

use crate::output::answer;
use crate::paths::name_text;
use crate::refusals::Holder;

/// System flag SC.DIR, in the flags' word: "Set if the file is a directory" (000, 3.4.1.8).
const DIRECTORY_FLAG: u16 = 32 << 8;

/// The widths of the longest proper name, and of the longest ID.
pub const NAME_WIDTH: usize = "999999999.999;32767".len();
const ID_WIDTH: usize = "65535,65535,65535".len();

/// Blanks for the widest column.
const BLANKS: &str = "                   ";

// A listing has thousands of lines. What follows puts one with a third of the instructions that formats
// take, which is much beside the library's calls.

/// Puts a number.
fn put_number(text: &mut String, number: u32) {
    if number >= 10 {
        put_number(text, number / 10);
    }
    text.push(char::from(b'0' + (number % 10) as u8));
}

/// Puts an ID.
fn put_id(text: &mut String, id: FileId) {
    put_number(text, id.number.into());
    text.push(',');
    put_number(text, id.sequence.into());
    text.push(',');
    put_number(text, id.volume.into());
}

/// Puts what stands in a column, and blanks up to the next column, at least one.
fn put_column(text: &mut String, width: usize, put: impl FnOnce(&mut String)) {
    let start = text.len();
    put(text);
    let filled = text.len() - start;
    text.push_str(&BLANKS[..width.saturating_sub(filled)]);
    text.push(' ');
}

/// An entry of a directory, and what opening its ID answers.
pub struct Entry {
    pub name: Name,
    pub id: FileId,
    pub opened: Answer<Attributes>,
    /// Whose the number is now, where it is another file's.
    now: Option<Holder>,
}

impl Entry {
    /// Opens the ID of a record.
    pub fn of(image: &[u8], record: Record) -> Entry {
        let Record { id, name } = record;
        let opened = ods1::attributes(image, id);
        let refused = opened.as_ref().err();
        let now = refused.and_then(|refused| Holder::after(image, id, *refused));
        Entry {
            name,
            id,
            opened,
            now,
        }
    }

    /// Whether the file that the entry names is no more: opening its ID answers SEQUENCE or NUMBER.
    pub fn is_stale(&self) -> bool {
        let refusal = self.opened.as_ref().err().map(|refused| refused.refusal);
        matches!(refusal, Some(Refusal::Sequence | Refusal::Number))
    }

    /// Whether the entry names a directory that opens: by its type, as `200200.DIR;1`, or its flag.
    pub fn is_directory(&self, type_dir: u16) -> bool {
        let has_flag = |attributes: &Attributes| attributes.flags & DIRECTORY_FLAG != 0;
        let is_typed = self.name.0[3] == type_dir;
        self.opened
            .as_ref()
            .is_ok_and(|attributes| is_typed || has_flag(attributes))
    }

    /// A line of a listing.
    pub fn put_line(&self, text: &mut String) {
        text.push_str(if self.is_stale() { "! " } else { "  " });
        put_column(text, NAME_WIDTH, |text| {
            text.push_str(&name_text(self.name))
        });
        put_column(text, ID_WIDTH, |text| put_id(text, self.id));
        match &self.opened {
            Ok(attributes) => {
                put_number(text, attributes.blocks);
                text.push_str(if attributes.blocks == 1 {
                    " block"
                } else {
                    " blocks"
                });
            }
            Err(refused) => {
                text.push_str(refused.refusal.name());
                if self.is_stale() {
                    text.push_str(": stale");
                }
            }
        }
        if let Some(now) = &self.now {
            write!(text, ", the number is now {now}").expect("a string can be written to");
        }
        text.push('\n');
    }

    /// The entry as JSON.
    pub fn json(&self) -> Value {
        let mut object = json!({
            "name": name_text(self.name),
            "id": self.id.to_string(),
            "answer": answer(self.opened.as_ref().err().copied()),
            "stale": self.is_stale(),
        });
        if let Ok(attributes) = &self.opened {
            object["blocks"] = attributes.blocks.into();
            object["bytes"] = attributes.end.into();
        }
        if let Some(now) = &self.now {
            object["now"] = now.json();
        }
        object
    }
}
