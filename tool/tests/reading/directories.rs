//! Odd directories: nested ones, one that lists itself, names that are not proper, a directory without the
//! type of one, and entries of directories that do not open.

use serde_json::json;
use volumes::directory::name_words;
use volumes::header::{Header, Pointer, DEACCESS_LOCKED, DIRECTORY};
use volumes::volume::{File, Record};
use volumes::volume_v::volume_v;
use volumes::Volume;

use crate::asked::{expect_refused, members, text};
use crate::common::folder_with;

/// Gives Volume V a file of one block more, with these flags.
fn add(volume: &mut Volume, number: u16, sequence: u16, user_flags: u8, system_flags: u8) {
    let lbn = 32 + u32::from(number);
    let header = Header {
        user_flags,
        system_flags,
        ..Header::new(number, sequence, vec![Pointer { lbn, blocks: 1 }])
    };
    volume.add(File {
        headers: vec![header],
    });
}

/// Lists IDs under names in a directory, from a place on.
fn list(volume: &mut Volume, directory: u16, from: u32, entries: &[(&str, [u16; 3])]) {
    for (place, (name, id)) in (from..).zip(entries) {
        let record = Record {
            id: *id,
            name: name_words(name),
        };
        volume.put_record(directory, place, record);
    }
}

/// The directories' entries beside Volume V's own: the directory, the place of the first, and each.
type Entries = (u16, u32, &'static [(&'static str, [u16; 3])]);

const ENTRIES: [Entries; 3] = [
    (
        4,
        1,
        &[
            ("000000.DIR;1", [4, 4, 0]),
            ("001002.DIR;1", [7, 1, 0]),
            ("STATIONS.DIR;1", [8, 2, 0]),
            ("FLAGGED.DAT;3", [9, 3, 0]),
            ("LOCKED.DIR;1", [10, 4, 0]),
            ("GONE.DIR;1", [16, 1, 0]),
            ("OLD.DIR;1", [7, 65_535, 0]),
            ("OTHER.DIR;1", [7, 1, 1]),
            ("EIGHTS.DIR;2", [11, 5, 0]),
        ],
    ),
    (
        7,
        0,
        &[
            ("001002.DIR;1", [7, 1, 0]),
            ("SUB.DIR;1", [12, 6, 0]),
            ("BACK.DIR;1", [4, 4, 0]),
        ],
    ),
    (12, 31, &[("SUB.DIR;1", [12, 6, 0])]),
];

/// Volume V with odd directories.
fn odd_directories() -> Volume {
    let mut volume = volume_v();
    for (number, sequence, user_flags, system_flags) in [
        (7, 1, 0, DIRECTORY),
        (8, 2, 0, 0),
        (9, 3, 0, DIRECTORY),
        (10, 4, DEACCESS_LOCKED, DIRECTORY),
        (11, 5, 0, DIRECTORY),
        (12, 6, 0, DIRECTORY),
        (13, 7, 0, 0),
    ] {
        add(&mut volume, number, sequence, user_flags, system_flags);
    }
    for (directory, from, entries) in ENTRIES {
        list(&mut volume, directory, from, entries);
    }
    let improper = Record {
        id: [6, 9, 0],
        name: [64_000, 65_535, 65_535, 65_535, 65_535],
    };
    volume.put_record(8, 5, improper);
    volume.put_storage_map();
    volume
}

const AUDIT: &str = "[0,0] 4,4,0
  READS.DAT;1         6,9,0             3 blocks
  000000.DIR;1        4,4,0             1 block
  001002.DIR;1        7,1,0             1 block
  STATIONS.DIR;1      8,2,0             1 block
  FLAGGED.DAT;3       9,3,0             1 block
  LOCKED.DIR;1        10,4,0            LOCKED
! GONE.DIR;1          16,1,0            NUMBER: stale
! OLD.DIR;1           7,65535,0         SEQUENCE: stale, the number is now 7,1,0 (no name)
  OTHER.DIR;1         7,1,1             RELVOL
  EIGHTS.DIR;2        11,5,0            1 block
[1,2] 7,1,0
  001002.DIR;1        7,1,0             1 block
  SUB.DIR;1           12,6,0            1 block
  BACK.DIR;1          4,4,0             1 block
[STATIONS] 8,2,0
  ?64000.65535.65535.65535.65535? 6,9,0             3 blocks
[0,0]FLAGGED.DAT;3 9,3,0
[0,0]EIGHTS.DIR;2 11,5,0
[1,2]SUB.DIR;1 12,6,0
  SUB.DIR;1           12,6,0            1 block
in no directory
  (no name)           13,7,0
directories 6
entries 15
opened 11
stale 2 (SEQUENCE 1, NUMBER 1)
refused 2
unlisted 1
";

#[test]
fn an_audit_walks_each_directory_once() {
    let scratch = folder_with("odd", &odd_directories().image);
    assert_eq!(text(scratch.folder(), "audit v.dsk"), AUDIT);
    let object = members(scratch.folder(), "audit v.dsk");
    let counts = json!({
        "directories": 6,
        "entries": 15,
        "opened": 11,
        "stale": 2,
        "sequence": 1,
        "number": 1,
        "refused": 2,
        "unlisted": 1,
    });
    assert_eq!(object["counts"], counts);
    assert_eq!(
        object["unlisted"],
        json!([{"name": "(no name)", "id": "13,7,0"}])
    );
    let directories = object["directories"].as_array().expect("a list");
    let named = directories.iter().map(|it| it["directory"].clone());
    let names: Vec<_> = AUDIT.lines().filter(|line| line.starts_with('[')).collect();
    let names = names
        .iter()
        .map(|line| line.split(' ').next().expect("a name"));
    assert!(named.eq(names));
}

/// Each directory as audit names it can be given to ls, which lists as many records.
#[test]
fn ls_takes_the_names_that_audit_gives() {
    let scratch = folder_with("names", &odd_directories().image);
    for (name, id, records) in [
        ("[0,0]", "4,4,0", "10 records"),
        ("[1,2]", "7,1,0", "3 records"),
        ("[STATIONS]", "8,2,0", "1 record"),
        ("[0,0]FLAGGED.DAT;3", "9,3,0", "0 records"),
        ("[0,0]EIGHTS.DIR;2", "11,5,0", "0 records"),
        ("[1,2]SUB.DIR;1", "12,6,0", "1 record"),
    ] {
        let out = text(scratch.folder(), &format!("ls v.dsk {name}"));
        let last = out.lines().last().expect("a line");
        assert_eq!(last, format!("{records} in the directory {id}"));
        assert_eq!(text(scratch.folder(), &format!("ls v.dsk {id}")), out);
    }
}

#[test]
fn directories_that_do_not_open() {
    let scratch = folder_with("closed", &odd_directories().image);
    for (name, id, answer) in [
        ("[LOCKED]", "10,4,0", "answer 11 LOCKED place 0"),
        ("[GONE]", "16,1,0", "answer 7 NUMBER place 0"),
        ("[OLD]", "7,65535,0", "answer 9 SEQUENCE place 0"),
        ("[OTHER]", "7,1,1", "answer 6 RELVOL place 0"),
    ] {
        let line = format!("ls v.dsk {name}");
        expect_refused(scratch.folder(), &line, &format!("opening {id}"), answer);
        let line = format!("cat v.dsk {name}A.DAT;1");
        let doing = format!("looking up A.DAT;1 in the directory {id}");
        expect_refused(scratch.folder(), &line, &doing, answer);
    }
}
