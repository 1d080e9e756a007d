//! What a volume and its files say: the cases of Volume V, written out by hand, every end of file and
//! every kind of storage map on it, and the disk of a station, whose files are read by their extents.

use differential::facts::Depth;
use differential::images::{Call, Subject};
use differential::{Random, Run};
use library::Lender;
use model::{Id, Number};
use volumes::directory::name_words;
use volumes::facts::{End, Facts};
use volumes::station::{station, Entry, Listed, Station};
use volumes::volume_v::volume_v;
use volumes::Volume;

/// The sample of the repository.
const SAMPLE: &[u8] = include_bytes!("../../../samples/volume-v.dsk");

/// A file ID without third word.
fn id(number: u16, sequence: u16) -> Id {
    Id::from_words([number, sequence, 0])
}

/// What Volume V answers where it is not refused. Paper 01, "Volume V": "N 100, home 1, H.FMAX 16, m 1,
/// H.IBLB 2. Header 1 covers 0–18; 2: 19–20; 3: 99; 4: 21; 5: none; 6, sequence 9: 30–31, then 25."
fn done() -> Vec<(Call, &'static [u64])> {
    let file_6 = id(6, 9);
    vec![
        (Call::Geometry, &[100, 1, 1, 2, 16, 16, 20, 1, 257, 1]),
        (Call::Label, &[]),
        (Call::Header(1), &[1, 0, 0, 0, 1]),
        (Call::Header(5), &[5]),
        (Call::Header(6), &[9, 0, 0, 0, 2]),
        (Call::Pointer(1, 0), &[0, 19]),
        (Call::Pointer(2, 0), &[19, 2]),
        (Call::Pointer(3, 0), &[99, 1]),
        (Call::Pointer(6, 0), &[30, 2]),
        (Call::Pointer(6, 1), &[25, 1]),
        (Call::Attributes(id(1, 1)), &[19, 9_728]),
        // File 4 ends after its one record, and nothing says where file 6 ends.
        (
            Call::Attributes(id(4, 4)),
            &[1, 16, 0, 0, 0, 0, 0, 0, 1, 16],
        ),
        (Call::Attributes(id(5, 5)), &[]),
        (Call::Attributes(file_6), &[3, 1_536]),
        (Call::Extent(id(1, 1), 1), &[0, 19]),
        (Call::Extent(id(1, 1), 19), &[18, 1]),
        (Call::Extent(file_6, 1), &[30, 2]),
        (Call::Extent(file_6, 2), &[31, 1]),
        (Call::Extent(file_6, 3), &[25, 1]),
        // 22 to 24, 26 to 29, and 32 to 98 are free.
        (Call::FreeRun(0), &[22, 3]),
        (Call::FreeRun(23), &[23, 2]),
        (Call::FreeRun(25), &[26, 4]),
        (Call::FreeRun(30), &[32, 67]),
        (Call::FreeRun(98), &[98, 1]),
    ]
}

/// What Volume V refuses.
fn refused() -> Vec<(Call, Number)> {
    vec![
        (Call::Header(0), Number::Number),
        (Call::Header(7), Number::Number),
        (Call::Header(16), Number::Number),
        (Call::Header(17), Number::Number),
        (Call::Header(65_535), Number::Number),
        (Call::Pointer(7, 0), Number::Number),
        (Call::Pointer(5, 0), Number::Absent),
        (Call::Pointer(6, 2), Number::Absent),
        (Call::Pointer(6, u32::MAX), Number::Absent),
        (Call::Attributes(Id::from_words([6, 9, 1])), Number::Relvol),
        (Call::Attributes(id(7, 0)), Number::Number),
        (Call::Attributes(id(6, 8)), Number::Sequence),
        (Call::Extent(id(6, 10), 1), Number::Sequence),
        (Call::Extent(id(6, 9), 0), Number::Vbn),
        (Call::Extent(id(6, 9), 4), Number::Vbn),
        (Call::Extent(id(5, 5), 1), Number::Vbn),
        (Call::FreeRun(99), Number::Absent),
        (Call::FreeRun(100), Number::Absent),
        (Call::FreeRun(u32::MAX), Number::Absent),
    ]
}

/// The answers that paper 01 and its Volume V fix, word by word.
#[test]
fn worked_cases() {
    let (done, refused) = (done(), refused());
    Run::of(module_path!(), "worked_cases", 43, |run| {
        let mut lender = Lender::new();
        let image = lender.lend(SAMPLE);
        Subject { image, story: &[] }.expect_cases(run, &done, &refused);
    });
}

/// Every number near those of Volume V, and those at the bounds of a word.
#[test]
fn every_number() {
    Run::of(module_path!(), "every_number", 45, |run| {
        let mut lender = Lender::new();
        let image = lender.lend(SAMPLE);
        let subject = Subject { image, story: &[] };
        for number in (0..=40).chain([255, 256, 4_096, 65_535]) {
            let mut random = run.random();
            if run.next_case() {
                subject.compare_few_facts(run, &mut random, &[number]);
            }
        }
        run.expect_met("header", [0], 6);
        run.expect_met("header", [7], 39);
        run.expect_met("pointer", [7, 15], 10);
        run.expect_met("attributes", [0], 5);
        run.expect_met("extent", [13], 3);
    });
}

/// F.EFBK near the last of three blocks, and far from it.
const END_BLOCKS: [u32; 12] = [
    0,
    1,
    2,
    3,
    4,
    5,
    255,
    65_535,
    65_536,
    1 << 24,
    1 << 31,
    u32::MAX,
];

/// F.FFBY near the ends of blocks, and beyond.
const FIRST_FREE: [u16; 14] = [
    0, 1, 255, 256, 511, 512, 513, 1_023, 1_024, 1_535, 1_536, 1_537, 32_768, 65_535,
];

/// The bytes before an end of a file of three blocks.
fn before_end(block: u32, first_free: u16) -> u64 {
    match block {
        0 => 1_536,
        _ => (512 * (u64::from(block) - 1) + u64::from(first_free)).min(1_536),
    }
}

/// File 6 of Volume V, which has three blocks, with every end near its edges.
#[test]
fn every_end() {
    Run::of(module_path!(), "every_end", 168, |run| {
        let mut lender = Lender::new();
        for block in END_BLOCKS {
            for first_free in FIRST_FREE {
                let mut random = run.random();
                if !run.next_case() {
                    continue;
                }
                let bytes = before_end(block, first_free);
                let end = End {
                    block,
                    first_free,
                    bytes,
                };
                let facts = Facts {
                    end,
                    ..Facts::random(&mut random, 3)
                };
                let mut volume = volume_v();
                volume.edit_header(6, |header| header.facts = Some(facts));
                let subject = Subject {
                    image: lender.lend(&volume.image),
                    story: &[("facts", format!("{facts:?}"))],
                };
                subject.expect_facts(run, &volume);
                subject.compare_facts(run, &mut random, &volume, Depth::MUCH);
            }
        }
        run.expect_met("attributes", [0], 1_000);
    });
}

/// Any bits of the storage map of Volume V, those from N on among them: few or many, in long rows or
/// short.
fn put_any_map(random: &mut Random, volume: &mut Volume) {
    let map = volume.storage_map_mut();
    let kind = random.below(6);
    for byte in map.iter_mut() {
        *byte = match kind {
            0 => random.byte(),
            1 => random.byte() & random.byte() & random.byte(),
            2 => random.byte() | random.byte() | random.byte(),
            3 => *random.pick(&[0, 0, 0, 255]),
            4 => *random.pick(&[0, 255, 255, 255]),
            _ => 0,
        };
    }
    if kind == 5 {
        map[random.between(0, 12)] = 1 << random.below(8);
        map[13..].fill(255);
    }
}

/// Every LBN of Volume V, and those past it, with any storage map: only its bits below N count.
#[test]
fn any_storage_map() {
    Run::of(module_path!(), "any_storage_map", 1_000, |run| {
        let mut lender = Lender::new();
        run.random_cases(1_000, |run, random| {
            let mut volume = volume_v();
            put_any_map(random, &mut volume);
            let subject = Subject {
                image: lender.lend(&volume.image),
                story: &[("map", format!("{:02x?}", &volume.block(20)[..14]))],
            };
            subject.compare_free_runs(run, (0..=104).chain([4_095, 4_096, u32::MAX]));
        });
        run.expect_met("free_run", [0], 40_000);
        run.expect_met("free_run", [15], 10_000);
    });
}

/// The bytes of a file before its end, read by its extents as the library answers them.
fn read(image: &[u8], id: Id) -> Vec<u8> {
    let answer = library::attributes(image, id.words());
    assert_eq!(answer[0], 0, "attributes of {id:?}");
    let (blocks, end) = (answer[2] as u32, answer[3] as usize);
    let mut bytes = Vec::new();
    let mut vbn = 1;
    while vbn <= blocks {
        let answer = library::extent(image, id.words(), vbn);
        assert_eq!(answer[0], 0, "extent of {id:?} from {vbn}");
        let start = 512 * answer[2] as usize;
        bytes.extend(&image[start..start + 512 * answer[3] as usize]);
        vbn += answer[3] as u32;
    }
    bytes.truncate(end);
    bytes
}

/// An entry is looked up in its directory as it is listed.
fn expect_entry(run: &mut Run, subject: &Subject, station: &Station, entry: &Entry) {
    let directory = station.directories[entry.directory].id;
    let call = Call::LookUp(directory, name_words(&entry.name));
    subject.expect_words(run, call, &entry.id.words().map(u64::from));
}

/// A file that is listed: its content, and as many extents as it has pieces.
fn expect_listed(run: &mut Run, subject: &Subject, station: &Station, listed: &Listed) {
    expect_entry(run, subject, station, &listed.entry);
    let content = read(subject.image, listed.entry.id);
    assert!(content == listed.content, "{:?}", listed.entry);
}

/// An entry that was left behind: no call on a file takes its ID.
fn expect_left(run: &mut Run, subject: &Subject, station: &Station, entry: &Entry, by: Number) {
    expect_entry(run, subject, station, entry);
    for call in [
        Call::OpenFile(entry.id),
        Call::Map(entry.id, 1),
        Call::Attributes(entry.id),
        Call::Extent(entry.id, 1),
    ] {
        subject.expect(run, call, by);
    }
}

/// The disk of a station: what its volume says, each file by its name, and the entries left behind.
#[test]
fn a_station() {
    Run::of(module_path!(), "a_station", 2_022, |run| {
        let station = station(run.seed());
        let mut lender = Lender::new();
        let subject = Subject {
            image: lender.lend(station.image()),
            story: &[("station", station.volume.describe())],
        };
        if run.next_case() {
            subject.expect_facts(run, &station.volume);
        }
        for listed in &station.files {
            if run.next_case() {
                expect_listed(run, &subject, &station, listed);
            }
        }
        let old = station.old_sequences.iter();
        let old = old.map(|entry| (entry, Number::Sequence));
        let gone = station.not_in_use.iter();
        let gone = gone.map(|entry| (entry, Number::Number));
        for (entry, by) in old.chain(gone) {
            if run.next_case() {
                expect_left(run, &subject, &station, entry, by);
            }
        }
    });
}
