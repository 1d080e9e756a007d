//! The reading verbs on a station's RL02 disk: 50 directories, 2,000 files, and 21 entries left behind.

use std::collections::BTreeMap;
use std::fs;
use std::sync::OnceLock;

use serde_json::{json, Value};
use volumes::block::BLOCK_BYTES;
use volumes::station::{station as make, Entry, Listed, Station};
use volumes::Random;

use crate::asked::{bytes, expect_refused, members, text};
use crate::common::{folder_with, Scratch};
use crate::listing::{blocks_text, id_text, listings, uic_text, Listing, Shown};

/// The disk, made once.
fn station() -> &'static Station {
    static STATION: OnceLock<Station> = OnceLock::new();
    STATION.get_or_init(|| make(1))
}

/// A folder with the disk in it.
fn folder() -> Scratch {
    folder_with("station", station().image())
}

/// The files that are read one by one: those of three headers, and others at random.
fn sample() -> Vec<&'static Listed> {
    let files = &station().files;
    let mut random = Random::new(11);
    let chained = files.iter().filter(|file| file.headers > 1);
    let any = (0..100).map(|_| random.pick(files));
    let sample: Vec<&Listed> = chained.chain(any).collect();
    assert!(sample.len() == 110 && sample.iter().any(|file| file.extents > 3));
    assert!(sample.iter().any(|file| file.blocks == 0));
    sample
}

/// An entry's path, as `[1,13]READS.DAT;1`.
fn path(entry: &Entry) -> String {
    let directory = &station().directories[entry.directory];
    format!("{}{}", uic_text(directory), entry.name)
}

/// All mapped bytes of a file: what it holds, and what an older file left of its last block.
fn all_blocks(file: &Listed) -> Vec<u8> {
    let mut bytes = file.content.clone();
    bytes.resize(file.blocks as usize * BLOCK_BYTES, 0xe5);
    bytes
}

/// The extents of a file: VBN, LBN and blocks of each.
fn extents(file: &Listed) -> Vec<(u32, u32, u32)> {
    let mut extents: Vec<(u32, u32, u32)> = Vec::new();
    let lbns = station().volume.file(file.entry.id.number).lbns();
    for (vbn, lbn) in (1..).zip(lbns) {
        match extents.last_mut() {
            Some((_, first, blocks)) if *first + *blocks == lbn => *blocks += 1,
            _ => extents.push((vbn, lbn, 1)),
        }
    }
    extents
}

/// A range as it is written.
fn range(first: u32, count: u32) -> String {
    match count {
        1 => first.to_string(),
        _ => format!("{first}-{}", first + count - 1),
    }
}

const COUNTS: &str = "directories 51\n\
    entries 2076\n\
    opened 2055\n\
    stale 21 (SEQUENCE 12, NUMBER 9)\n\
    refused 0\n\
    unlisted 0\n";

fn counts() -> Value {
    json!({
        "directories": 51,
        "entries": 2076,
        "opened": 2055,
        "stale": 21,
        "sequence": 12,
        "number": 9,
        "refused": 0,
        "unlisted": 0,
    })
}

#[test]
fn an_audit_shows_every_entry() {
    assert_eq!(station().entries(), 2076);
    let scratch = folder();
    let listings = listings(station());
    let lists: String = listings.iter().map(Listing::text).collect();
    let audit = text(scratch.folder(), "audit v.dsk");
    assert!(audit == lists + COUNTS, "{audit}");
    let directories: Vec<Value> = listings.iter().map(Listing::json).collect();
    let object = members(scratch.folder(), "audit v.dsk");
    let expected = json!({"counts": counts(), "directories": directories, "unlisted": []});
    assert!(object == expected, "{object}");
}

#[test]
fn an_audit_of_the_stale_entries() {
    let scratch = folder();
    let mut listings = listings(station());
    for listing in &mut listings {
        listing.entries.retain(Shown::is_stale);
    }
    listings.retain(|listing| !listing.entries.is_empty());
    let stale: usize = listings.iter().map(|listing| listing.entries.len()).sum();
    assert_eq!(stale, 21);
    let lists: String = listings.iter().map(Listing::text).collect();
    assert_eq!(
        text(scratch.folder(), "audit --stale v.dsk"),
        lists + COUNTS
    );
    let directories: Vec<Value> = listings.iter().map(Listing::json).collect();
    let object = members(scratch.folder(), "audit --stale v.dsk");
    assert_eq!(
        object,
        json!({"counts": counts(), "directories": directories})
    );
}

#[test]
fn ls_lists_each_directory() {
    let scratch = folder();
    let listings = listings(station());
    assert_eq!(listings.len(), 51);
    for Listing { name, id, entries } in listings {
        let lines: String = entries.iter().map(Shown::line).collect();
        let last = format!("{} records in the directory {id}\n", entries.len());
        let line = format!("ls v.dsk {name}");
        assert_eq!(text(scratch.folder(), &line), lines + &last, "{line}");
        let entries: Vec<Value> = entries.iter().map(Shown::json).collect();
        let object = members(scratch.folder(), &line);
        assert_eq!(
            object,
            json!({"directory": id, "entries": entries}),
            "{line}"
        );
    }
}

#[test]
fn map_shows_where_blocks_lie() {
    let scratch = folder();
    for file in sample() {
        let extents = extents(file);
        assert_eq!(extents.len(), file.extents);
        let id = id_text(file.entry.id.words());
        let pieces = match extents.len() {
            1 => "1 extent".into(),
            count => format!("{count} extents"),
        };
        let mut expected = format!("{id}: {} in {pieces}\n", blocks_text(file.blocks));
        for &(vbn, lbn, blocks) in &extents {
            let (vbns, lbns) = (range(vbn, blocks), range(lbn, blocks));
            expected += &format!("VBN {vbns:<15} LBN {lbns:<15} {}\n", blocks_text(blocks));
        }
        let line = format!("map v.dsk {}", path(&file.entry));
        assert_eq!(text(scratch.folder(), &line), expected);
        assert_eq!(members(scratch.folder(), &line)["id"], id);
    }
}

#[test]
fn the_extents_of_map_are_the_file() {
    let scratch = folder();
    for file in sample() {
        let line = format!("map v.dsk {}", path(&file.entry));
        let object = members(scratch.folder(), &line);
        assert_eq!(object["blocks"], file.blocks);
        let mut found: Vec<u8> = Vec::new();
        for extent in object["extents"].as_array().expect("a list") {
            let number = |name: &str| extent[name].as_u64().expect("a number") as usize;
            assert_eq!(number("vbn"), found.len() / BLOCK_BYTES + 1, "a gap");
            let start = number("lbn") * BLOCK_BYTES;
            found.extend(&station().image()[start..start + number("blocks") * BLOCK_BYTES]);
        }
        assert!(found == all_blocks(file), "{line}");
    }
}

#[test]
fn cat_writes_what_files_hold() {
    let scratch = folder();
    for file in sample() {
        let (path, id) = (path(&file.entry), id_text(file.entry.id.words()));
        let cat = |line: &str| bytes(scratch.folder(), &format!("cat v.dsk {line}"));
        assert!(cat(&path) == file.content, "{path}");
        assert!(cat(&id) == file.content, "{id}");
        assert!(
            cat(&format!("--blocks {path}")) == all_blocks(file),
            "{path}"
        );
        let object = members(scratch.folder(), &format!("cat v.dsk {path}"));
        assert_eq!(object["bytes"], file.content.len());
        let digits = object["base64"].as_str().expect("a text").len();
        assert_eq!(digits, file.content.len().div_ceil(3) * 4);
    }
}

/// The entries of the disk's directories by path without version, with the one of the highest version.
fn highest_versions() -> BTreeMap<String, (u16, &'static Entry)> {
    let files = station().files.iter().map(|file| &file.entry);
    let stale = station().old_sequences.iter().chain(&station().not_in_use);
    let mut highest = BTreeMap::new();
    for entry in files.chain(stale) {
        let path = path(entry);
        let (stem, version) = path.rsplit_once(';').expect("a version");
        let version: u16 = version.parse().expect("a number");
        let found = highest.entry(stem.to_string()).or_insert((version, entry));
        if version > found.0 {
            *found = (version, entry);
        }
    }
    highest
}

#[test]
fn without_a_version_the_highest_is_taken() {
    let scratch = folder();
    let highest = highest_versions();
    let mut random = Random::new(12);
    let stems: Vec<&String> = highest.keys().collect();
    let ninety_nine = stems.iter().filter(|stem| highest[**stem].0 >= 100);
    let some: Vec<&&String> = ninety_nine.take(10).collect();
    assert_eq!(some.len(), 10, "versions on both sides of 99 and 100");
    let any = (0..90).map(|_| random.pick(&stems));
    for stem in some.into_iter().chain(any.collect::<Vec<_>>()) {
        let (_, entry) = highest[*stem];
        let line = format!("cat v.dsk {stem}");
        let file = station().files.iter().find(|file| file.entry == *entry);
        if let Some(file) = file {
            assert!(bytes(scratch.folder(), &line) == file.content, "{stem}");
            continue;
        }
        let is_old = station().old_sequences.contains(entry);
        let answer = if is_old { "9 SEQUENCE" } else { "7 NUMBER" };
        let doing = format!("opening {}", id_text(entry.id.words()));
        let answer = format!("answer {answer} place 0");
        expect_refused(scratch.folder(), &line, &doing, &answer);
    }
}

#[test]
fn entries_left_behind_are_refused() {
    let scratch = folder();
    for (entries, answer) in [
        (&station().old_sequences, "answer 9 SEQUENCE place 0"),
        (&station().not_in_use, "answer 7 NUMBER place 0"),
    ] {
        for entry in entries {
            let doing = format!("opening {}", id_text(entry.id.words()));
            for verb in ["cat", "map", "ls"] {
                let line = format!("{verb} v.dsk {}", path(entry));
                expect_refused(scratch.folder(), &line, &doing, answer);
            }
        }
    }
}

#[test]
fn extract_writes_what_files_hold() {
    let scratch = folder();
    for (place, file) in sample().into_iter().enumerate() {
        let (path, id) = (path(&file.entry), id_text(file.entry.id.words()));
        let cases = [
            ("", format!("to-end-{place}"), file.content.clone()),
            ("--blocks", format!("all-{place}"), all_blocks(file)),
        ];
        for (flag, out, expected) in cases {
            let line = format!("extract {flag} v.dsk {path} {out}");
            let count = match expected.len() {
                1 => "1 byte".into(),
                bytes => format!("{bytes} bytes"),
            };
            let told = format!("{count} of {id} to {out}\n");
            assert_eq!(text(scratch.folder(), &line), told);
            let written = fs::read(scratch.path(&out)).expect("the new file");
            assert!(written == expected, "{line}");
        }
    }
}

/// The free runs of the disk, by LBN: first LBN and blocks.
fn free_runs() -> Vec<(u32, u32)> {
    let mut runs: Vec<(u32, u32)> = Vec::new();
    for (lbn, covered) in (0..).zip(station().volume.covered()) {
        match runs.last_mut() {
            _ if covered => (),
            Some((first, blocks)) if *first + *blocks == lbn => *blocks += 1,
            _ => runs.push((lbn, 1)),
        }
    }
    runs
}

/// What info says before the free runs, and how many blocks are free.
fn described() -> (String, u32) {
    let volume = &station().volume;
    let plan = &volume.plan;
    let claimed: u32 = volume.files.iter().map(|file| file.blocks()).sum();
    let free = plan.blocks - claimed;
    let text = format!(
        "volume \"STATION07\" owner [1,1] protection 0 default 160000\n\
         blocks 20480\n\
         home block LBN 1 level 401\n\
         index map LBN {} highest number {} slots {}\n\
         index file 1 header\n\
         storage map LBN {}\n\
         verdict answer 0 DONE place 0\n\
         claimed {claimed}\n\
         free {free}\n\
         headers {}\n",
        plan.h_iblb,
        plan.h_fmax,
        volume.last_slot(),
        range(plan.storage_map, plan.storage_map_blocks()),
        volume.headers().count()
    );
    (text, free)
}

#[test]
fn info_describes_the_disk() {
    let scratch = folder();
    let mut runs = free_runs();
    let (described, free) = described();
    assert_eq!(runs.iter().map(|run| run.1).sum::<u32>(), free);
    let head = format!("{described}{free} free blocks in {} runs\n", runs.len());
    runs.sort_by_key(|&(lbn, blocks)| (u32::MAX - blocks, lbn));
    let lines: Vec<String> = runs
        .iter()
        .map(|&(lbn, blocks)| format!("  LBN {:<15} {}\n", range(lbn, blocks), blocks_text(blocks)))
        .collect();
    let all = text(scratch.folder(), "info --all v.dsk");
    assert_eq!(all, format!("{head}{}", lines.concat()));
    let more = format!("  and {} more, which --all shows\n", runs.len() - 10);
    let ten = text(scratch.folder(), "info v.dsk");
    assert_eq!(ten, format!("{head}{}{more}", lines[..10].concat()));
}

#[test]
fn info_as_json() {
    let scratch = folder();
    let object = members(scratch.folder(), "info v.dsk");
    let volume = &station().volume;
    let plan = &volume.plan;
    let runs = free_runs();
    let free: u32 = runs.iter().map(|run| run.1).sum();
    let runs: Vec<Value> = runs
        .into_iter()
        .map(|(lbn, blocks)| json!({"lbn": lbn, "blocks": blocks}))
        .collect();
    let expected = json!({
        "label": {
            "name": "STATION07",
            "owner": "[1,1]",
            "protection": 0,
            "characteristics": 0,
            "default_protection": 0o160_000,
        },
        "blocks": 20_480,
        "home": 1,
        "level": 257,
        "index_map": {"lbn": plan.h_iblb, "blocks": 1},
        "highest_number": plan.h_fmax,
        "slots": volume.last_slot(),
        "index_headers": 1,
        "storage_map": {"lbn": plan.storage_map, "blocks": 5},
        "verdict": {"number": 0, "name": "DONE", "place": 0},
        "free_runs": runs,
        "counts": {
            "claimed": 20_480 - free,
            "free": free,
            "headers": volume.headers().count(),
        },
    });
    assert_eq!(object, expected);
}

#[test]
fn judge_accepts_the_disk() {
    let scratch = folder();
    let free: u32 = free_runs().iter().map(|run| run.1).sum();
    let headers = station().volume.headers().count();
    let claimed = 20_480 - free;
    let expected = format!(
        "answer 0 DONE place 0\nblocks 20480\nclaimed {claimed}\nfree {free}\nheaders {headers}\n"
    );
    assert_eq!(text(scratch.folder(), "judge v.dsk"), expected);
    let counts = json!({"blocks": 20_480, "claimed": claimed, "free": free, "headers": headers});
    assert_eq!(members(scratch.folder(), "judge v.dsk"), counts);
}
