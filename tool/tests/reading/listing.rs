//! What ls and audit are to say of a station's disk, from what its maker knows.

use std::collections::HashMap;

use serde_json::{json, Value};
use volumes::station::{Directory, Station, KNOWN_FILES};

use crate::asked::done;

/// An ID as it is written.
pub fn id_text(id: [u16; 3]) -> String {
    let [number, sequence, volume] = id;
    format!("{number},{sequence},{volume}")
}

/// A number of blocks as it is written.
pub fn blocks_text(blocks: u32) -> String {
    match blocks {
        1 => "1 block".into(),
        _ => format!("{blocks} blocks"),
    }
}

/// How a user file directory is written: its UIC.
pub fn uic_text(directory: &Directory) -> String {
    let [group, member] = directory.uic.to_be_bytes();
    format!("[{group:o},{member:o}]")
}

/// What opening the ID of an entry comes to.
enum Opening {
    Done {
        blocks: u32,
        bytes: u64,
    },
    /// SEQUENCE: the ID that the number has now, and the name of that file.
    Sequence {
        id: String,
        name: String,
    },
    Number,
}

/// An entry of a directory.
pub struct Shown {
    name: String,
    id: String,
    opening: Opening,
}

impl Shown {
    pub fn is_stale(&self) -> bool {
        !matches!(self.opening, Opening::Done { .. })
    }

    /// Its line.
    pub fn line(&self) -> String {
        let mark = if self.is_stale() { '!' } else { ' ' };
        let opening = match &self.opening {
            Opening::Done { blocks, .. } => blocks_text(*blocks),
            Opening::Sequence { id, name } => {
                format!("SEQUENCE: stale, the number is now {id} {name}")
            }
            Opening::Number => "NUMBER: stale".into(),
        };
        format!("{mark} {:<19} {:<17} {opening}\n", self.name, self.id)
    }

    /// Its object.
    pub fn json(&self) -> Value {
        let answer = match self.opening {
            Opening::Done { .. } => done(),
            Opening::Sequence { .. } => json!({"number": 9, "name": "SEQUENCE", "place": 0}),
            Opening::Number => json!({"number": 7, "name": "NUMBER", "place": 0}),
        };
        let mut object = json!({
            "name": self.name,
            "id": self.id,
            "answer": answer,
            "stale": self.is_stale(),
        });
        match &self.opening {
            Opening::Done { blocks, bytes } => {
                object["blocks"] = json!(blocks);
                object["bytes"] = json!(bytes);
            }
            Opening::Sequence { id, name } => object["now"] = json!({"id": id, "name": name}),
            Opening::Number => (),
        }
        object
    }
}

/// A directory as audit names it, with its entries in the order of their records.
pub struct Listing {
    pub name: String,
    pub id: String,
    pub entries: Vec<Shown>,
}

impl Listing {
    /// Its part of an audit.
    pub fn text(&self) -> String {
        let lines: String = self.entries.iter().map(Shown::line).collect();
        format!("{} {}\n{lines}", self.name, self.id)
    }

    pub fn json(&self) -> Value {
        let entries: Vec<Value> = self.entries.iter().map(Shown::json).collect();
        json!({"directory": self.name, "id": self.id, "entries": entries})
    }
}

/// What the maker of a station's disk knows, by number and by name.
struct Knowledge<'a> {
    station: &'a Station,
    /// The texts of names.
    texts: HashMap<[u16; 5], String>,
}

impl<'a> Knowledge<'a> {
    fn of(station: &'a Station) -> Knowledge<'a> {
        let listed = station.files.iter().map(|file| &file.entry);
        let stale = station.old_sequences.iter().chain(&station.not_in_use);
        let entries = listed.chain(stale).map(|entry| &entry.name[..]);
        let directories = station.directories.iter().map(|it| &it.name[..]);
        let texts = KNOWN_FILES.into_iter().chain(directories).chain(entries);
        let texts = texts.map(|text| (volumes::directory::name_words(text), text.into()));
        Knowledge {
            station,
            texts: texts.collect(),
        }
    }

    /// What opening an ID comes to.
    fn opening(&self, id: [u16; 3]) -> Opening {
        let mut files = self.station.volume.files.iter();
        let Some(file) = files.find(|file| file.number() == id[0]) else {
            return Opening::Number;
        };
        let facts = file.headers[0].facts.as_ref().expect("facts of each file");
        if file.id().words() == id {
            return Opening::Done {
                blocks: file.blocks(),
                bytes: facts.end.bytes,
            };
        }
        Opening::Sequence {
            id: id_text(file.id().words()),
            name: self.texts[&facts.name].clone(),
        }
    }

    /// The entries of a directory, by its number.
    fn entries(&self, directory: u16) -> Vec<Shown> {
        let records = self.station.volume.records.iter();
        let mut records: Vec<_> = records
            .filter(|it| it.directory == directory && it.record.id[0] != 0)
            .collect();
        records.sort_by_key(|it| it.place);
        let shown = records.into_iter().map(|it| Shown {
            name: self.texts[&it.record.name].clone(),
            id: id_text(it.record.id),
            opening: self.opening(it.record.id),
        });
        shown.collect()
    }
}

/// The listings of all directories of a station's disk, in the order in which an audit walks them.
pub fn listings(station: &Station) -> Vec<Listing> {
    let knowledge = Knowledge::of(station);
    let master = Listing {
        name: "[0,0]".into(),
        id: "4,4,0".into(),
        entries: knowledge.entries(4),
    };
    let walked = master.entries.iter().filter_map(|entry| {
        let mut directories = station.directories.iter();
        directories.find(|it| it.name == entry.name)
    });
    let walked: Vec<Listing> = walked
        .map(|directory| Listing {
            name: uic_text(directory),
            id: id_text(directory.id.words()),
            entries: knowledge.entries(directory.id.number),
        })
        .collect();
    std::iter::once(master).chain(walked).collect()
}
