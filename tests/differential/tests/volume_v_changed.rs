//! Volume V changed by create, extend and delete: the cases of paper 01, written out by hand with
//! every byte that changes, and every ID and count near an edge against the model.

use differential::images::{Call, Subject};
use differential::judging::{first_byte, Areas, Desk};
use differential::writing::{Change, Changing};
use differential::{Random, Run};
use model::{Id, Number};
use volumes::directory::name_words;
use volumes::volume_v::READS;

/// The sample of the repository.
const SAMPLE: &[u8] = include_bytes!("../../../samples/volume-v.dsk");

/// READS.DAT;1 with no owner and no protection.
const CREATE: Change = Change::Create(READS, (0, 0));

const FILE_6: Id = Id {
    number: 6,
    sequence: 9,
    volume: 0,
};

/// A file ID without third word.
fn id(number: u16, sequence: u16) -> Id {
    Id::from_words([number, sequence, 0])
}

/// Bytes at a place: LBN, byte in the block, bytes.
type Bytes<'a> = (usize, usize, &'a [u8]);

/// A copy of Volume V, changed by the library and compared with the model at each call.
struct Example<'r> {
    run: &'r mut Run,
    random: Random,
    desk: Desk,
    changing: Changing<'static>,
}

impl<'r> Example<'r> {
    fn new(run: &'r mut Run) -> Example<'r> {
        Example {
            random: run.random(),
            run,
            desk: Desk::default(),
            changing: Changing::new(SAMPLE, &[]),
        }
    }

    /// Makes a call, and sees that it is answered as the paper says.
    fn expect(&mut self, call: Change, expected: Result<&[u64], Number>) {
        let Example {
            run,
            random,
            desk,
            changing,
        } = self;
        changing.expect(run, random, desk, call, expected);
    }

    /// Sees that the image is as it was but for just these bytes.
    fn expect_bytes(&self, before: &[u8], bytes: &[Bytes]) {
        let mut expected = before.to_vec();
        for &(lbn, at, bytes) in bytes {
            let start = 512 * lbn + at;
            expected[start..start + bytes.len()].copy_from_slice(bytes);
        }
        let place = first_byte(&self.changing.image, &expected);
        let told = place.map(|place| (place / 512, place % 512));
        assert_eq!(told, None, "LBN and byte that differ");
    }

    /// Sees what the library answers to a reading call.
    fn expect_read(&mut self, call: Call, expected: Result<&[u64], Number>) {
        let subject = Subject {
            image: &self.changing.image,
            story: &[],
        };
        match expected {
            Ok(value) => subject.expect_words(self.run, call, value),
            Err(number) => subject.expect(self.run, call, number),
        }
    }
}

/// An example as a test.
fn example(test: &'static str, calls: impl FnOnce(&mut Example)) {
    Run::of(module_path!(), test, 1, |run| {
        if run.next_case() {
            calls(&mut Example::new(run));
        }
    });
}

/// Paper 01, "Volume V": "Extend by 4 takes 26 (P)".
#[test]
fn extend_by_4_takes_26() {
    example("extend_by_4_takes_26", |example| {
        example.expect(Change::Extend(FILE_6, 4), Ok(&[26]));
        let bytes: [Bytes; 4] = [
            (8, 100, &[6]),
            (8, 110, &[0x00, 0x03, 0x1a, 0x00]),
            (8, 510, &639_u16.to_le_bytes()),
            (20, 3, &[0x01]),
        ];
        example.expect_bytes(SAMPLE, &bytes);
        example.expect_read(Call::OpenFile(FILE_6), Ok(&[7]));
        for (vbn, lbn) in (1..).zip([30, 31, 25, 26, 27, 28, 29]) {
            example.expect_read(Call::Map(FILE_6, vbn), Ok(&[lbn]));
        }
        example.expect_read(Call::Map(FILE_6, 8), Err(Number::Vbn));
    });
}

/// Paper 01, "Volume V": "by 67 takes 32, by 68 is RUN (P)."
#[test]
fn extend_by_67_takes_32_and_by_68_is_run() {
    let test = "extend_by_67_takes_32_and_by_68_is_run";
    example(test, |example| {
        example.expect(Change::Extend(FILE_6, 68), Err(Number::Run));
        example.expect_bytes(SAMPLE, &[]);
        example.expect(Change::Extend(FILE_6, 67), Ok(&[32]));
        let bytes: [Bytes; 4] = [
            (8, 100, &[6]),
            (8, 110, &[0x00, 0x42, 0x20, 0x00]),
            (8, 510, &16_773_u16.to_le_bytes()),
            (20, 4, &[0; 9]),
        ];
        example.expect_bytes(SAMPLE, &bytes);
        example.expect(Change::Extend(FILE_6, 67), Err(Number::Run));
    });
}

/// Paper 01, "Volume V": "Create gives 7,1,0."
#[test]
fn create_gives_7_1_0() {
    example("create_gives_7_1_0", |example| {
        example.expect(CREATE, Ok(&[7, 1, 0]));
        let bytes: [Bytes; 6] = [
            (2, 0, &[0x7f]),
            (9, 0, &[23, 46, 7, 0, 1, 0, 1, 1]),
            (9, 46, &[0x49, 0x71, 0xf8, 0x1b, 0, 0, 0x3c, 0x19, 1, 0]),
            (9, 98, &[1, 3]),
            (9, 101, &[204]),
            (9, 510, &42_143_u16.to_le_bytes()),
        ];
        example.expect_bytes(SAMPLE, &bytes);
        example.expect_read(Call::OpenFile(id(7, 1)), Ok(&[0]));
        example.expect(Change::Extend(id(7, 1), 3), Ok(&[22]));
        example.expect_read(Call::Map(id(7, 1), 3), Ok(&[24]));
    });
}

/// Paper 01, "Volume V": "Delete 6,9, create: 6,10,0; look-up still gives 6,9,0; opening it is
/// SEQUENCE."
#[test]
fn delete_and_create_again() {
    example("delete_and_create_again", |example| {
        let directory = id(4, 4);
        example.expect(Change::Delete(FILE_6), Ok(&[0]));
        let mut slot = [0; 512];
        slot[4] = 9;
        let deleted: [Bytes; 3] = [(2, 0, &[0x1f]), (8, 0, &slot), (20, 3, &[0xff])];
        example.expect_bytes(SAMPLE, &deleted);
        example.expect_read(Call::OpenFile(FILE_6), Err(Number::Number));
        example.expect(CREATE, Ok(&[6, 10, 0]));
        let created: [Bytes; 8] = [
            (2, 0, &[0x3f]),
            (8, 0, &[0; 512]),
            (8, 0, &[23, 46, 6, 0, 10, 0, 1, 1]),
            (8, 46, &[0x49, 0x71, 0xf8, 0x1b, 0, 0, 0x3c, 0x19, 1, 0]),
            (8, 98, &[1, 3]),
            (8, 101, &[204]),
            (8, 510, &42_151_u16.to_le_bytes()),
            (20, 3, &[0xff]),
        ];
        example.expect_bytes(SAMPLE, &created);
        example.expect_read(Call::LookUp(directory, READS), Ok(&[6, 9, 0]));
        example.expect_read(Call::OpenFile(FILE_6), Err(Number::Sequence));
        example.expect_read(Call::OpenFile(id(6, 10)), Ok(&[0]));
    });
}

/// Volume V until no number and no block is left, and back.
#[test]
fn until_nothing_is_left() {
    example("until_nothing_is_left", |example| {
        for number in 7..=16 {
            example.expect(CREATE, Ok(&[number, 1, 0]));
        }
        example.expect(CREATE, Err(Number::Nonumber));
        let free = (22..=24).chain(26..=29).chain(32..=98);
        for (place, lbn) in free.enumerate() {
            let file = id(7 + (place % 10) as u16, 1);
            example.expect(Change::Extend(file, 1), Ok(&[lbn]));
        }
        example.expect(Change::Extend(id(7, 1), 1), Err(Number::Run));
        for number in 7..=16 {
            example.expect(Change::Delete(id(number, 1)), Ok(&[0]));
            example.expect(Change::Delete(id(number, 1)), Err(Number::Number));
        }
        let left: Vec<Bytes> = (9..=18).map(|lbn| (lbn, 4, &[1][..])).collect();
        example.expect_bytes(SAMPLE, &left);
        for number in 7..=16 {
            example.expect(CREATE, Ok(&[number, 2, 0]));
        }
    });
}

/// Every number from 0 to 20 with sequences near its own, extended by counts at every edge, and
/// deleted; each on Volume V as it is.
#[test]
fn every_id_and_count() {
    Run::of(module_path!(), "every_id_and_count", 500, |run| {
        let mut desk = Desk::default();
        for number in (0..=20).chain([255, 65_535]) {
            for sequence in (0..=10).chain([265, 65_535]) {
                for third in [0, 1] {
                    let mut random = run.random();
                    if !run.next_case() {
                        continue;
                    }
                    let id = Id::from_words([number, sequence, third]);
                    let counts = [0, 1, 3, 4, 67, 68, 255, 256, 257, 260, 65_537, u32::MAX];
                    let extends = counts.map(|count| Change::Extend(id, count));
                    for call in extends.into_iter().chain([Change::Delete(id)]) {
                        let mut changing = Changing::new(SAMPLE, &[]);
                        changing.compare_enough(run, &mut random, &mut desk, call);
                    }
                }
            }
        }
        run.expect_met("extend", [0], 4);
        run.expect_met("extend", [24, 26], 3);
        run.expect_met("extend", [6, 7, 9, 22], 50);
        run.expect_met("delete", [0], 1);
        run.expect_met("delete", [22], 5);
        run.expect_met("delete", [6, 7, 9], 50);
    });
}

/// Every length of the work areas near what is needed, and every kind of name.
#[test]
fn areas_and_names() {
    Run::of(module_path!(), "areas_and_names", 100, |run| {
        let mut desk = Desk::default();
        let names = [
            READS,
            name_words("A.;32767"),
            name_words("999999999.999;1"),
            [0; 5],
            [29_001, 7_160, 0, 6_460, 0],
            [29_001, 7_160, 0, 6_460, 32_768],
            [29_001, 0, 7_160, 6_460, 1],
            [29_001, 7_160, 0, 64_000, 1],
            [64_000, 0, 0, 0, 1],
            [27, 0, 0, 0, 1],
        ];
        for blocks in [0, 99, 100, 101, 5_000] {
            for headers in [0, 15, 16, 17, 5_000] {
                for name in names {
                    let mut random = run.random();
                    if !run.next_case() {
                        continue;
                    }
                    let areas = Areas::random(&mut random, blocks, headers);
                    let words = (random.word(), random.word());
                    let mut changing = Changing::new(SAMPLE, &[]);
                    for call in [
                        Change::Create(name, words),
                        Change::Extend(FILE_6, 4),
                        Change::Delete(FILE_6),
                    ] {
                        changing.compare(run, &mut desk, call, &areas);
                    }
                }
            }
        }
        run.expect_met("create", [0, 14], 27);
        run.expect_met("create", [16], 160);
        run.expect_met("extend", [0], 90);
        run.expect_met("delete", [0], 90);
    });
}
