//! Every reading verb on Volume V, its whole output.

use serde_json::{json, Value};

use crate::asked::{bytes, members, text};
use crate::common::{contents, folder_with, VOLUME_V};

/// Each line with its whole text on Volume V.
const TEXTS: &[(&str, &str)] = &[
    (
        "judge v.dsk",
        "answer 0 DONE place 0\n\
         blocks 100\n\
         claimed 26\n\
         free 74\n\
         headers 6\n",
    ),
    (
        "audit v.dsk",
        "[0,0] 4,4,0\n  \
           READS.DAT;1         6,9,0             3 blocks\n\
         directories 1\n\
         entries 1\n\
         opened 1\n\
         stale 0 (SEQUENCE 0, NUMBER 0)\n\
         refused 0\n\
         unlisted 0\n",
    ),
    (
        "audit --stale v.dsk",
        "directories 1\n\
         entries 1\n\
         opened 1\n\
         stale 0 (SEQUENCE 0, NUMBER 0)\n\
         refused 0\n\
         unlisted 0\n",
    ),
    (
        "ls v.dsk",
        "  READS.DAT;1         6,9,0             3 blocks\n\
         1 record in the directory 4,4,0\n",
    ),
    (
        "map v.dsk 6,9,0",
        "6,9,0: 3 blocks in 2 extents\n\
         VBN 1-2             LBN 30-31           2 blocks\n\
         VBN 3               LBN 25              1 block\n",
    ),
    ("map v.dsk 5,5,0", "5,5,0: 0 blocks in 0 extents\n"),
    ("info v.dsk", INFO),
    ("info --all v.dsk", INFO),
];

const INFO: &str = "volume \"\" owner [0,0] protection 0 default 0\n\
    blocks 100\n\
    home block LBN 1 level 401\n\
    index map LBN 2 highest number 16 slots 16\n\
    index file 1 header\n\
    storage map LBN 20\n\
    verdict answer 0 DONE place 0\n\
    claimed 26\n\
    free 74\n\
    headers 6\n\
    74 free blocks in 3 runs\n  \
      LBN 32-98           67 blocks\n  \
      LBN 26-29           4 blocks\n  \
      LBN 22-24           3 blocks\n";

#[test]
fn texts() {
    let scratch = folder_with("texts", VOLUME_V);
    for (line, expected) in TEXTS {
        assert_eq!(text(scratch.folder(), line), *expected, "{line}");
    }
}

/// The entry of Volume V as JSON.
fn entry() -> Value {
    json!({
        "name": "READS.DAT;1",
        "id": "6,9,0",
        "answer": {"number": 0, "name": "DONE", "place": 0},
        "stale": false,
        "blocks": 3,
        "bytes": 1536,
    })
}

/// The counts of an audit of Volume V as JSON.
fn counts() -> Value {
    json!({
        "directories": 1,
        "entries": 1,
        "opened": 1,
        "stale": 0,
        "sequence": 0,
        "number": 0,
        "refused": 0,
        "unlisted": 0,
    })
}

fn info() -> Value {
    json!({
        "label": {
            "name": "",
            "owner": "[0,0]",
            "protection": 0,
            "characteristics": 0,
            "default_protection": 0,
        },
        "blocks": 100,
        "home": 1,
        "level": 257,
        "index_map": {"lbn": 2, "blocks": 1},
        "highest_number": 16,
        "slots": 16,
        "index_headers": 1,
        "storage_map": {"lbn": 20, "blocks": 1},
        "verdict": {"number": 0, "name": "DONE", "place": 0},
        "free_runs": [
            {"lbn": 22, "blocks": 3},
            {"lbn": 26, "blocks": 4},
            {"lbn": 32, "blocks": 67},
        ],
        "counts": {"claimed": 26, "free": 74, "headers": 6},
    })
}

/// Sees what the objects of some lines hold.
#[track_caller]
fn expect_objects(cases: &[(&str, Value)]) {
    let scratch = folder_with("objects", VOLUME_V);
    for (line, expected) in cases {
        assert_eq!(members(scratch.folder(), line), *expected, "{line}");
    }
}

#[test]
fn objects_of_volumes_and_directories() {
    let directory = json!({"directory": "[0,0]", "id": "4,4,0", "entries": [entry()]});
    let audit = json!({"counts": counts(), "directories": [directory], "unlisted": []});
    let judge = json!({"blocks": 100, "claimed": 26, "free": 74, "headers": 6});
    expect_objects(&[
        ("judge v.dsk", judge),
        ("audit v.dsk", audit),
        (
            "audit --stale v.dsk",
            json!({"counts": counts(), "directories": []}),
        ),
        (
            "ls v.dsk",
            json!({"directory": "4,4,0", "entries": [entry()]}),
        ),
        ("info v.dsk", info()),
        ("info --all v.dsk", info()),
    ]);
}

#[test]
fn objects_of_files() {
    let extents = json!([
        {"vbn": 1, "lbn": 30, "blocks": 2},
        {"vbn": 3, "lbn": 25, "blocks": 1},
    ]);
    expect_objects(&[
        (
            "map v.dsk READS.DAT",
            json!({"id": "6,9,0", "blocks": 3, "extents": extents}),
        ),
        (
            "cat v.dsk 4,4,0",
            json!({"id": "4,4,0", "bytes": 16, "base64": "BgAJAAAASXH4GwAAPBkBAA=="}),
        ),
        (
            "extract v.dsk 4,4,0 records",
            json!({"id": "4,4,0", "bytes": 16, "out": "records"}),
        ),
        (
            "extract --blocks v.dsk 4,4,0 all",
            json!({"id": "4,4,0", "bytes": 512, "out": "all"}),
        ),
    ]);
}

#[test]
fn the_bytes_of_files() {
    let scratch = folder_with("bytes", VOLUME_V);
    let folder = scratch.folder();
    let reads = [30, 31, 25].map(|byte| [byte; 512]).concat();
    let records = VOLUME_V[512 * 21..512 * 22].to_vec();
    let cases = [
        ("6,9,0", "reads", &reads[..], &reads[..]),
        ("4,4,0", "records", &records[..16], &records[..]),
        ("5,5,0", "nothing", &[], &[]),
    ];
    for (id, out, to_the_end, all) in cases {
        for (flag, expected) in [("", to_the_end), ("--blocks", all)] {
            assert!(bytes(folder, &format!("cat {flag} v.dsk {id}")) == expected);
            let line = format!("extract --force {flag} v.dsk {id} {out}");
            let told = format!("{} bytes of {id} to {out}\n", expected.len());
            assert_eq!(text(folder, &line), told);
            assert!(contents(folder)[out] == expected, "{line}");
        }
    }
}
