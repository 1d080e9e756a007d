//! Volume V: the cases of paper 01, written out by hand, and every byte of its structure changed.

use differential::asked::{all_of, ids, opening_of, some, some_of};
use differential::facts::{expect_each_met, Depth};
use differential::images::{Call, Subject};
use differential::{Random, Run};
use library::Lender;
use model::{Id, Number};
use volumes::block::{seal_header, seal_home};
use volumes::volume_v::{volume_v, READS};

/// The sample of the repository.
const SAMPLE: &[u8] = include_bytes!("../../../samples/volume-v.dsk");

/// A file ID without third word.
fn id(number: u16, sequence: u16) -> Id {
    Id::from_words([number, sequence, 0])
}

/// The answers that paper 01 and its Volume V fix, word by word.
#[test]
fn worked_cases() {
    let file_6 = id(6, 9);
    let directory = id(4, 4);
    let record = [6, 9, 0, 29_001, 7_160, 0, 6_460, 1, 1];
    let done: [(Call, &[u64]); 17] = [
        (Call::OpenVolume, &[1]),
        (Call::OpenFile(id(1, 1)), &[19]),
        (Call::OpenFile(id(2, 2)), &[2]),
        (Call::OpenFile(id(3, 3)), &[1]),
        (Call::OpenFile(directory), &[1]),
        (Call::OpenFile(id(5, 5)), &[0]),
        (Call::OpenFile(file_6), &[3]),
        (Call::Map(file_6, 1), &[30]),
        (Call::Map(file_6, 2), &[31]),
        (Call::Map(file_6, 3), &[25]),
        (Call::Map(id(1, 1), 1), &[0]),
        (Call::Map(id(1, 1), 19), &[18]),
        (Call::Block(file_6, 1), &[15_360, 512]),
        (Call::Block(file_6, 2), &[15_872, 512]),
        (Call::Block(file_6, 3), &[12_800, 512]),
        (Call::LookUp(directory, READS), &[6, 9, 0]),
        (Call::NextRecord(directory, 0), &record),
    ];
    let other = [READS[0], READS[1], READS[2], READS[3], 2];
    let refused = [
        (Call::OpenFile(Id::from_words([6, 9, 1])), Number::Relvol),
        (Call::OpenFile(id(0, 0)), Number::Number),
        (Call::OpenFile(id(7, 0)), Number::Number),
        (Call::OpenFile(id(17, 0)), Number::Number),
        (Call::OpenFile(id(6, 8)), Number::Sequence),
        (Call::OpenFile(id(6, 10)), Number::Sequence),
        (Call::Map(file_6, 0), Number::Vbn),
        (Call::Map(file_6, 4), Number::Vbn),
        (Call::Map(id(5, 5), 1), Number::Vbn),
        (Call::Block(file_6, 4), Number::Vbn),
        (Call::Block(id(6, 10), 1), Number::Sequence),
        (Call::LookUp(directory, other), Number::Absent),
        (Call::LookUp(directory, [0; 5]), Number::Name),
        (Call::LookUp(id(4, 5), [0; 5]), Number::Sequence),
        (Call::LookUp(id(5, 5), READS), Number::Absent),
        (Call::NextRecord(directory, 1), Number::Absent),
        (Call::NextRecord(directory, 32), Number::Absent),
        (Call::NextRecord(directory, u32::MAX), Number::Absent),
        (Call::NextRecord(id(4, 5), 0), Number::Absent),
        (Call::NextRecord(id(5, 5), 0), Number::Absent),
    ];
    Run::of(module_path!(), "worked_cases", 37, |run| {
        let mut lender = Lender::new();
        let image = lender.lend(SAMPLE);
        Subject { image, story: &[] }.expect_cases(run, &done, &refused);
    });
}

/// The bytes that a block answer points to are the image's own.
#[test]
fn blocks_are_parts_of_the_image() {
    let test = "blocks_are_parts_of_the_image";
    Run::of(module_path!(), test, 3, |run| {
        for (vbn, byte) in [(1, 0x1e), (2, 0x1f), (3, 0x19)] {
            if run.next_case() {
                let answer = library::block(SAMPLE, [6, 9, 0], vbn);
                let [offset, length] = [answer[2] as usize, answer[3] as usize];
                assert_eq!(&SAMPLE[offset..offset + length], [byte; 512]);
            }
        }
    });
}

/// Every number from 0 to 40 with sequences near its own, and every call on those that open.
#[test]
fn every_id() {
    Run::of(module_path!(), "every_id", 1_000, |run| {
        let volume = volume_v();
        let mut lender = Lender::new();
        let image = lender.lend(SAMPLE);
        let subject = Subject { image, story: &[] };
        for number in (0..=40).chain([255, 256, 4_096, 65_535]) {
            for sequence in (0..=12).chain([255, 256, 265, 65_535]) {
                for third in [0, 1] {
                    if !run.next_case() {
                        continue;
                    }
                    let id = Id::from_words([number, sequence, third]);
                    subject.compare_file(run, &all_of(&volume, image, id));
                }
            }
        }
        run.expect_met("open_file", [0, 6, 7, 9], 6);
        run.expect_met("map", [0, 13], 6);
        run.expect_met("look_up", [0, 14, 15], 1);
        run.expect_met("next_record", [0, 15], 1);
    });
}

/// The blocks of Volume V that opening, look-up and the walker read.
const STRUCTURE: [u32; 10] = [1, 2, 3, 4, 5, 6, 7, 8, 19, 21];

/// Puts the checksums of a block of Volume V right, if it has any.
fn seal(lbn: u32, block: &mut [u8]) {
    match lbn {
        1 => seal_home(block),
        3..=8 => seal_header(block),
        _ => (),
    }
}

/// A byte of Volume V that is to be changed.
#[derive(Clone, Copy, Debug)]
struct Change {
    lbn: u32,
    at: usize,
    /// Whether checksums are put right afterwards.
    sealed: bool,
}

/// Compares Volume V with a byte changed by some bits: file 6, the directory, and some IDs.
fn compare_change(run: &mut Run, lender: &mut Lender, change: Change, bits: fn(&mut Random) -> u8) {
    let mut random = run.random();
    if !run.next_case() {
        return;
    }
    let bits = bits(&mut random);
    let volume = volume_v();
    let mut changed = volume.clone();
    let block = changed.block_mut(change.lbn);
    block[change.at] ^= bits;
    if change.sealed {
        seal(change.lbn, block);
    }
    let image = lender.lend(&changed.image);
    let subject = Subject {
        image,
        story: &[("Volume V", format!("{change:?} by {bits:#04x}"))],
    };
    subject.compare_volume(run);
    for id in [id(6, 9), id(4, 4)] {
        subject.compare_file(run, &some_of(&mut random, &volume, image, id));
    }
    for id in some(&mut random, &ids(&volume), 3) {
        subject.compare_file(run, &opening_of(id));
    }
    subject.compare_facts(run, &mut random, &volume, Depth::SOME);
}

/// Every byte of every block that is read, changed in two ways, with checksums put right and left.
#[test]
fn every_byte_changed() {
    let test = "every_byte_changed";
    Run::of(module_path!(), test, 10 * 512 * 4, |run| {
        let mut lender = Lender::new();
        let one_bit = |random: &mut Random| 1 << random.below(8);
        let any_bits = |random: &mut Random| random.byte_between(1, 255);
        for lbn in STRUCTURE {
            for at in 0..512 {
                for sealed in [false, true] {
                    let change = Change { lbn, at, sealed };
                    compare_change(run, &mut lender, change, one_bit);
                    compare_change(run, &mut lender, change, any_bits);
                }
            }
        }
        run.expect_met("open_volume", [0, 2, 4, 5], 500);
        run.expect_met("open_volume", [3], 5);
        run.expect_met("open_file", [6, 7], 500);
        run.expect_met("open_file", [8, 9], 50);
        run.expect_met("open_file", [10, 12], 3);
        run.expect_met("map", [0, 13], 1_000);
        run.expect_met("look_up", [0, 14, 15], 500);
        run.expect_met("next_record", [0, 15], 500);
        expect_each_met(run, &[0, 2, 4, 5], 500);
        run.expect_met("header", [7, 8], 500);
        run.expect_met("pointer", [7, 8, 15], 500);
        run.expect_met("attributes", [6, 7, 8, 9], 50);
        run.expect_met("extent", [6, 7, 8, 9, 13], 50);
        run.expect_met("free_run", [15], 500);
    });
}
