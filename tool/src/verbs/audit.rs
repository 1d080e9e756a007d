//! `audit`: every entry of every directory, and what opening its ID answers.

use std::collections::{HashSet, VecDeque};

use clap::ArgMatches;
use ods1::{FileId, Name, Refusal};
use serde_json::{json, Value};

use super::entries::{Entry, NAME_WIDTH};
use crate::failure::{self, Outcome, While};
use crate::output::Report;
use crate::paths::{name_text, uic_text};
use crate::progress::Progress;

/// What an audit counts.
#[derive(Default)]
struct Counts {
    directories: u64,
    entries: u64,
    opened: u64,
    /// Stale entries by the two refusals.
    sequence: u64,
    number: u64,
    /// Entries that other refusals answer.
    refused: u64,
    unlisted: u64,
}

impl Counts {
    fn count(&mut self, entry: &Entry) {
        self.entries += 1;
        let refusal = entry.opened.as_ref().err().map(|refused| refused.refusal);
        let count = match refusal {
            None => &mut self.opened,
            Some(Refusal::Sequence) => &mut self.sequence,
            Some(Refusal::Number) => &mut self.number,
            Some(_) => &mut self.refused,
        };
        *count += 1;
    }

    fn stale(&self) -> u64 {
        self.sequence + self.number
    }

    fn text(&self) -> String {
        format!(
            "directories {}\nentries {}\nopened {}\nstale {} (SEQUENCE {}, NUMBER {})\nrefused {}\nunlisted {}\n",
            self.directories,
            self.entries,
            self.opened,
            self.stale(),
            self.sequence,
            self.number,
            self.refused,
            self.unlisted
        )
    }

    fn json(&self) -> Value {
        json!({
            "directories": self.directories,
            "entries": self.entries,
            "opened": self.opened,
            "stale": self.stale(),
            "sequence": self.sequence,
            "number": self.number,
            "refused": self.refused,
            "unlisted": self.unlisted,
        })
    }
}

/// A directory that is to be walked: how it is named, and its ID.
struct Found {
    name: String,
    id: FileId,
}

/// A directory that was walked, with the entries that are shown.
struct Walked {
    name: String,
    id: FileId,
    shown: Vec<Entry>,
}

impl Walked {
    fn put_lines(&self, text: &mut String) {
        *text += &format!("{} {}\n", self.name, self.id);
        for entry in &self.shown {
            entry.put_line(text);
        }
    }

    fn json(&self) -> Value {
        let list: Vec<Value> = self.shown.iter().map(Entry::json).collect();
        json!({"directory": self.name, "id": self.id.to_string(), "entries": list})
    }
}

/// A UIC of the six octal digits that name its directory.
fn uic_of_digits(digits: &str) -> Option<u16> {
    let (group, member) = digits.get(..3).zip(digits.get(3..))?;
    let half = |half: &str| {
        let byte = u8::from_str_radix(half, 8).ok();
        byte.filter(|_| half.len() == 3)
    };
    Some(u16::from_be_bytes([half(group)?, half(member)?]))
}

/// How a directory is named that a directory lists, as `ls` takes it: in brackets, a UIC where six octal
/// digits name it, if it is `NAME.DIR;1` of the master file directory.
fn directory_name(parent: &Found, entry: &Entry) -> String {
    let text = name_text(entry.name);
    let listed = text.strip_suffix(".DIR;1");
    match listed.filter(|_| parent.id == FileId::MASTER) {
        Some(name) => uic_of_digits(name).map_or_else(|| format!("[{name}]"), uic_text),
        None => format!("{}{text}", parent.name),
    }
}

/// An audit as it goes on.
struct Audit<'a> {
    image: &'a [u8],
    stale_only: bool,
    /// The type word of `DIR`.
    type_dir: u16,
    /// How many file numbers have a slot.
    numbers: u16,
    counts: Counts,
    /// The IDs that entries name, in their order.
    listed: Vec<FileId>,
    /// The directories that are walked, or are ahead.
    met: HashSet<FileId>,
    ahead: VecDeque<Found>,
    walked: Vec<Walked>,
    /// The files above number 5 that no entry names, with the names in their headers.
    unlisted: Vec<(FileId, Name)>,
}

impl<'a> Audit<'a> {
    /// An audit that begins at the master file directory.
    fn new(image: &'a [u8], stale_only: bool) -> Outcome<Audit<'a>> {
        let master = FileId::MASTER;
        failure::open(image, master, ods1::open_file)?;
        let geometry = ods1::geometry(image).while_doing("opening the volume")?;
        let numbers = u16::try_from(geometry.fmax.min(geometry.slots)).unwrap_or(u16::MAX);
        let directory = ods1::text_to_name("0.DIR;1");
        let directory = directory.while_doing("reading the type of directories")?;
        Ok(Audit {
            image,
            stale_only,
            type_dir: directory.0[3],
            numbers,
            counts: Counts::default(),
            listed: Vec::with_capacity(numbers.into()),
            met: HashSet::from([master]),
            ahead: VecDeque::from([Found {
                name: uic_text(0),
                id: master,
            }]),
            walked: Vec::new(),
            unlisted: Vec::new(),
        })
    }

    /// Walks one directory, and keeps the directories that it lists for later.
    fn walk(&mut self, directory: Found, progress: &mut Progress) {
        self.counts.directories += 1;
        let mut shown = Vec::new();
        for record in ods1::records(self.image, directory.id) {
            let entry = Entry::of(self.image, record);
            progress.step(1);
            self.counts.count(&entry);
            self.listed.push(entry.id);
            if entry.is_directory(self.type_dir) && self.met.insert(entry.id) {
                let name = directory_name(&directory, &entry);
                self.ahead.push_back(Found { name, id: entry.id });
            }
            if !self.stale_only || entry.is_stale() {
                shown.push(entry);
            }
        }
        let Found { name, id } = directory;
        if !self.stale_only || !shown.is_empty() {
            self.walked.push(Walked { name, id, shown });
        }
    }

    /// Finds the files that no entry names, once all directories are walked.
    fn find_unlisted(&mut self) {
        self.listed.sort_unstable();
        for number in 6..=self.numbers {
            let Ok(header) = ods1::header(self.image, number) else {
                continue;
            };
            let id = FileId::of(number, header.sequence, 0);
            if header.segment == 0 && self.listed.binary_search(&id).is_err() {
                self.unlisted.push((id, header.name));
            }
        }
        self.counts.unlisted = self.unlisted.len() as u64;
    }

    fn text(&self) -> String {
        let mut text = String::new();
        for directory in &self.walked {
            directory.put_lines(&mut text);
        }
        if !self.stale_only && !self.unlisted.is_empty() {
            text += "in no directory\n";
            for (id, name) in &self.unlisted {
                let name = name_text(*name);
                text += &format!("  {name:<NAME_WIDTH$} {id}\n");
            }
        }
        text + &self.counts.text()
    }

    fn json(&self) -> Value {
        let directories: Vec<Value> = self.walked.iter().map(Walked::json).collect();
        let mut members = json!({"counts": self.counts.json(), "directories": directories});
        if !self.stale_only {
            let unlisted = self.unlisted.iter();
            members["unlisted"] = unlisted
                .map(|(id, name)| json!({"name": name_text(*name), "id": id.to_string()}))
                .collect();
        }
        members
    }
}

pub fn run(arguments: &ArgMatches) -> Outcome<Report> {
    let image = super::image(arguments)?;
    let mut audit = Audit::new(&image, arguments.get_flag("stale"))?;
    let mut progress = Progress::new("auditing", u64::from(audit.numbers));
    while let Some(directory) = audit.ahead.pop_front() {
        audit.walk(directory, &mut progress);
    }
    audit.find_unlisted();
    if arguments.get_flag("json") {
        return Ok(Report::of_members(audit.json()));
    }
    Ok(Report::of_text(audit.text()))
}
