//! Files and directories as a person names them.

use std::path::Path;

use serde_json::{json, Value};
use volumes::directory::name_words;
use volumes::header::{Header, Pointer, DIRECTORY};
use volumes::volume::{File, Record};
use volumes::volume_v::volume_v;

use crate::asked::{bytes, expect_refused, expect_trouble, text};
use crate::common::{folder_with, run, Scratch};

/// Volume V with versions of METER.DAT in the directory [1,2]: each is one block that holds its number.
fn versions() -> Scratch {
    let mut volume = volume_v();
    let header = |number: u16, lbn: u32| Header::new(number, 1, vec![Pointer { lbn, blocks: 1 }]);
    let directory = Header {
        system_flags: DIRECTORY,
        ..header(7, 40)
    };
    volume.add(File {
        headers: vec![directory],
    });
    let entries = [
        (4, 1, "001002.DIR;1", 7),
        (7, 0, "METER.DAT;9", 8),
        (7, 1, "METER.DAT;10", 9),
        (7, 2, "METER.DAT;1", 10),
        (7, 3, "METER.;2", 11),
        (7, 4, "METER.DAT;10", 8),
    ];
    for (number, lbn) in [(8, 41), (9, 42), (10, 43), (11, 44)] {
        volume.add(File {
            headers: vec![header(number, lbn)],
        });
        volume.block_mut(lbn).fill(number as u8);
    }
    for (directory, place, name, number) in entries {
        let record = Record {
            id: [number, 1, 0],
            name: name_words(name),
        };
        volume.put_record(directory, place, record);
    }
    volume.put_storage_map();
    folder_with("paths", &volume.image)
}

/// Sees that a text names the file with this number.
#[track_caller]
fn expect_number(folder: &Path, file: &str, number: u8) {
    let found = bytes(folder, &format!("cat v.dsk {file}"));
    assert!(found == [number; 512], "{file}");
}

#[test]
fn a_file_by_its_path() {
    let scratch = versions();
    for (file, number) in [
        ("[1,2]METER.DAT;9", 8),
        ("[1,2]METER.DAT;10", 9),
        ("[1,2]METER.DAT;1", 10),
        ("[1,2]METER.DAT", 9),
        ("[1,2]METER.", 11),
        ("[1,2]METER", 11),
        ("[1,2]METER;2", 11),
        ("[1,2]meter.dat;9", 8),
        ("[1,2]Meter.Dat", 9),
        ("[001,002]METER.DAT", 9),
        ("[001002]METER.DAT", 9),
        ("8,1,0", 8),
        ("11,1,0", 11),
    ] {
        expect_number(scratch.folder(), file, number);
    }
}

#[test]
fn the_master_file_directory() {
    let scratch = versions();
    let folder = scratch.folder();
    let reads = [30, 31, 25].map(|byte| [byte; 512]).concat();
    for file in [
        "READS.DAT;1",
        "reads.dat",
        "[0,0]READS.DAT;1",
        "[000000]READS.DAT",
        "[000,000]READS.DAT",
        "6,9,0",
    ] {
        assert!(
            bytes(folder, &format!("cat v.dsk {file}")) == reads,
            "{file}"
        );
    }
    let master = text(folder, "ls v.dsk");
    assert!(master.ends_with("2 records in the directory 4,4,0\n"));
    for directory in ["[0,0]", "[000000]", "[000,000]", "4,4,0"] {
        assert_eq!(text(folder, &format!("ls v.dsk {directory}")), master);
    }
    let user = text(folder, "ls v.dsk [1,2]");
    assert!(user.ends_with("5 records in the directory 7,1,0\n"));
    for directory in ["[001002]", "7,1,0", "001002.DIR;1", "[0,0]001002.dir"] {
        assert_eq!(text(folder, &format!("ls v.dsk {directory}")), user);
    }
}

/// Looking up a text in a directory.
fn looking(text: &str, directory: &str) -> String {
    format!("looking up {text} in the directory {directory}")
}

#[test]
fn names_that_a_directory_has_not() {
    let scratch = versions();
    let absent = "answer 15 ABSENT place 0";
    for (file, text, directory) in [
        ("NONE.DAT;1", "NONE.DAT;1", "4,4,0"),
        ("READS.DAT;2", "READS.DAT;2", "4,4,0"),
        ("none", "NONE", "4,4,0"),
        ("[1,2]METER.DAT;2", "METER.DAT;2", "7,1,0"),
        ("[1,2]METER.DA", "METER.DA", "7,1,0"),
        ("[1,3]METER.DAT;2", "001003.DIR;1", "4,4,0"),
        ("[377,377]A", "377377.DIR;1", "4,4,0"),
    ] {
        for verb in ["cat", "map", "ls"] {
            let line = format!("{verb} v.dsk {file}");
            expect_refused(scratch.folder(), &line, &looking(text, directory), absent);
        }
    }
    let line = "ls v.dsk [STATIONS]";
    let doing = looking("STATIONS.DIR;1", "4,4,0");
    expect_refused(scratch.folder(), line, &doing, absent);
}

#[test]
fn names_that_are_not_proper() {
    let scratch = versions();
    for file in [
        "READS.DAT;0",
        "READS.DAT;32768",
        "READS.DAT;01",
        "READS.DAT;",
        "READS.DAT;1;1",
        "READS.DATA;1",
        "READINGS10.DAT;1",
        "RE$DS.DAT;1",
        "RE-DS.DAT",
        "READS.D.T",
        ".DAT;1",
        ".DAT",
        ";1",
        "6;9;0",
        "R\u{c4}DS.DAT",
    ] {
        let line = format!("cat v.dsk {file}");
        let doing = looking(file, "4,4,0");
        expect_refused(scratch.folder(), &line, &doing, "answer 14 NAME place 0");
    }
    let doing = looking("A$B.DIR;1", "4,4,0");
    let line = "ls v.dsk [A$B]";
    expect_refused(scratch.folder(), line, &doing, "answer 14 NAME place 0");
}

#[test]
fn ids_that_are_refused() {
    let scratch = versions();
    for (id, answer) in [
        ("6,8,0", "answer 9 SEQUENCE place 0"),
        ("6,10,0", "answer 9 SEQUENCE place 0"),
        ("6,9,1", "answer 6 RELVOL place 0"),
        ("6,9,65535", "answer 6 RELVOL place 0"),
        ("0,0,0", "answer 7 NUMBER place 0"),
        ("12,1,0", "answer 7 NUMBER place 0"),
        ("17,1,0", "answer 7 NUMBER place 0"),
        ("65535,65535,0", "answer 7 NUMBER place 0"),
    ] {
        for verb in ["cat", "map", "ls"] {
            let line = format!("{verb} v.dsk {id}");
            expect_refused(scratch.folder(), &line, &format!("opening {id}"), answer);
        }
    }
}

#[test]
fn bad_syntax() {
    let scratch = versions();
    let id = "is not an ID, as 6,9,0: three numbers up to 65535";
    let uic = "is not a UIC, as [200,200]: two octal numbers up to 377";
    let bracket = "has no ] after its directory, as [200,200]READS.DAT;1";
    let nothing = "names no file, as [200,200]READS.DAT;1 does";
    for (file, sentence) in [
        ("6,9", format!("6,9 {id}")),
        ("6,9,0,0", format!("6,9,0,0 {id}")),
        ("6,9,65536", format!("6,9,65536 {id}")),
        ("6,9,-1", format!("6,9,-1 {id}")),
        ("[8,1]A", format!("[8,1] {uic}")),
        ("[400,1]A", format!("[400,1] {uic}")),
        ("[1,2,3]A", format!("[1,2,3] {uic}")),
        ("[,]A", format!("[,] {uic}")),
        ("[1,2", format!("[1,2 {bracket}")),
    ] {
        for verb in ["cat", "map", "ls"] {
            expect_trouble(scratch.folder(), &format!("{verb} v.dsk {file}"), &sentence);
        }
    }
    for file in ["[1,2]", "[STATIONS]"] {
        let line = format!("cat v.dsk {file}");
        expect_trouble(scratch.folder(), &line, &format!("{file} {nothing}"));
    }
    let doing = looking("A]", "7,1,0");
    let name = "answer 14 NAME place 0";
    expect_refused(scratch.folder(), "ls v.dsk [1,2]A]", &doing, name);
}

#[test]
fn a_command_line_that_is_none() {
    let scratch = versions();
    for line in [
        "",
        "frobnicate v.dsk",
        "judge",
        "judge v.dsk more",
        "cat v.dsk",
        "cat --stale v.dsk 6,9,0",
        "extract v.dsk 6,9,0",
        "audit --all v.dsk",
        "ls v.dsk [0,0] [0,0]",
    ] {
        let ended = run(scratch.folder(), line);
        assert_eq!((ended.status, &*ended.out), (Some(2), ""), "{line}");
        assert!(ended.err.contains("Usage: ods1"), "{line}: {}", ended.err);
        let ended = run(scratch.folder(), &format!("--json {line}"));
        let object: Value = serde_json::from_str(&ended.out).expect("it is JSON");
        assert_eq!(object, json!({"error": ended.err.trim()}), "{line}");
        assert_eq!(ended.status, Some(2), "{line}");
    }
}
