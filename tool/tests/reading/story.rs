//! The user's story: a readings file is deleted, its number is used again, and the old directory entry
//! still names the first file.

use std::path::Path;

use volumes::station::{station_of, Entry, Station, Wanted};

use crate::asked::{expect_refused, members, text};
use crate::common::folder_with;
use crate::listing::{id_text, uic_text};

/// The entry of the disk that is deleted: the first of READS.DAT.
fn victim(station: &Station) -> &Entry {
    let mut entries = station.files.iter().map(|file| &file.entry);
    let found = entries.find(|entry| entry.name.starts_with("READS.DAT;"));
    found.expect("each directory has a file READS.DAT")
}

/// Creates files until one gets a number. Answers its ID, and how many were created.
fn create_with_number(folder: &Path, number: u16) -> (String, u64) {
    for count in 1..100 {
        let out = text(folder, "create --in-place v.dsk NEW.DAT;7");
        let id = out.split_whitespace().nth(1).expect("an ID");
        if id.starts_with(&format!("{number},")) {
            return (id.into(), count);
        }
    }
    panic!("the number {number} is not used again");
}

/// The line of an entry in a listing.
fn line_of(text: &str, entry: &Entry) -> String {
    let (name, id) = (&entry.name, id_text(entry.id.words()));
    let mut lines = text.lines();
    let found = lines.find(|line| line.contains(&format!(" {name} ")) && line.contains(&id));
    found.expect("the entry is listed").into()
}

/// Sees that audit and ls show an entry, in a directory, as stale with this opening.
fn expect_stale(folder: &Path, directory: &str, entry: &Entry, opening: &str) {
    let id = id_text(entry.id.words());
    let stale = format!("! {:<19} {id:<17} {opening}", entry.name);
    let ls = format!("ls v.dsk {directory}");
    for line in ["audit v.dsk", "audit --stale v.dsk", &ls] {
        assert_eq!(line_of(&text(folder, line), entry), stale, "{line}");
    }
}

#[test]
fn a_deleted_file_s_number_is_used_again() {
    let station = station_of(5, Wanted::SMALL);
    let entry = victim(&station);
    let directory = uic_text(&station.directories[entry.directory]);
    let path = format!("{directory}{}", entry.name);
    let doing = format!("opening {}", id_text(entry.id.words()));
    let scratch = folder_with("story", station.image());
    let folder = scratch.folder();

    // Deleted: the entry stays, and its number is not in use.
    text(folder, &format!("delete --in-place v.dsk {path}"));
    expect_stale(folder, &directory, entry, "NUMBER: stale");
    let cat = format!("cat v.dsk {path}");
    expect_refused(folder, &cat, &doing, "answer 7 NUMBER place 0");

    // Another file has the number: the old entry does not lead to it.
    let (new, created) = create_with_number(folder, entry.id.number);
    let [number, sequence, _] = entry.id.words();
    assert_eq!(new, id_text([number, sequence + 1, 0]));
    let opening = format!("SEQUENCE: stale, the number is now {new} NEW.DAT;7");
    expect_stale(folder, &directory, entry, &opening);
    let map = format!("map v.dsk {path}");
    let extract = format!("extract v.dsk {path} out");
    for line in [cat, map, extract] {
        let meaning = expect_refused(folder, &line, &doing, "answer 9 SEQUENCE place 0");
        let now = format!("The number is now {new} NEW.DAT;7.");
        assert!(meaning.contains(&now), "{meaning}");
    }
    assert!(!scratch.path("out").exists());
    expect_counts(folder, &station, created);
}

/// Sees that an audit counts one SEQUENCE more than the disk began with, and the created files as unlisted.
fn expect_counts(folder: &Path, station: &Station, created: u64) {
    let counts = members(folder, "audit v.dsk")["counts"].clone();
    // Numbers that were not in use are used again by the other new files.
    let stale = station.old_sequences.len() + station.not_in_use.len() + 1;
    assert_eq!(counts["entries"], station.entries());
    assert_eq!(counts["stale"], stale);
    assert_eq!(counts["unlisted"], created);
    let out = text(folder, "audit v.dsk");
    let (_, unlisted) = out.split_once("in no directory\n").expect("a list");
    let new = unlisted
        .lines()
        .filter(|line| line.starts_with("  NEW.DAT;7  "));
    assert_eq!(new.count() as u64, created);
    assert!(!text(folder, "audit --stale v.dsk").contains("in no directory"));
}
