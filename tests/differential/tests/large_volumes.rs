//! The largest volumes and the longest file: LBNs of three bytes, maps of 126 and 255 blocks, a
//! home at the last position, and a chain of 256 full headers.

use differential::asked::ids;
use differential::facts::{expect_each_met, Depth};
use differential::images::{digest, Asked, Call, Subject};
use differential::{Random, Run};
use library::Lender;
use model::{Id, Number};
use volumes::directory::name_words;
use volumes::facts::{End, Facts};
use volumes::header::{pointers_of, Areas, Header, Pointer, MOST_POINTERS};
use volumes::shapes::MOST_BLOCKS;
use volumes::station::LABEL;
use volumes::volume::{File, Plan, Record, Volume};

/// What the chained file says: its end is in its last block, and F.HIBK has a high word.
const FACTS: Facts = Facts {
    owner: 0x0107,
    protection: 0xe000,
    record_type: 1,
    record_attributes: 8,
    record_size: 512,
    highest: 0x0001_7202,
    end: End {
        block: 29_186,
        first_free: 511,
        bytes: 29_185 * 512 + 511,
    },
    name: [1, 2, 3, 4, 5],
};

/// A volume of N blocks with files 1 to 5 and a chained file of high numbers and high LBNs.
fn large_volume(plan: Plan) -> Volume {
    let blocks = plan.blocks;
    let image = vec![0; 512 * blocks as usize];
    let mut volume = Volume::new(plan, image);
    volume.put_label(LABEL);
    let pointer = |lbn: u32, blocks: u32| Pointer { lbn, blocks };
    let directory = vec![pointer(blocks / 2, 2), pointer(blocks / 4, 1)];
    volume.add_known(Areas::LARGEST, vec![], directory);
    let last = volume.last_number();
    let first = Header {
        facts: Some(FACTS),
        ..Header::new(
            last,
            65_535,
            vec![pointer(65_535, 2), pointer(131_071, 256)],
        )
    };
    let second = Header {
        areas: Areas::LARGEST,
        ..Header::new(last - 1, 0, vec![pointer(blocks - 256, 256); MOST_POINTERS])
    };
    volume.add(File::chain([first, second]));
    let record = Record {
        id: [last, 65_535, 0],
        name: name_words("READS.DAT;1"),
    };
    volume.put_record(4, 95, record);
    volume.put_storage_map();
    volume
}

/// The largest volume: the home is at the last position, and the index file ends at N.
fn largest_plan() -> Plan {
    Plan {
        blocks: MOST_BLOCKS,
        home: 1_044_224,
        h_vlev: 258,
        h_fmax: 65_535,
        h_iblb: MOST_BLOCKS - 32,
        more_slots: (500_000..520_000).collect(),
        control: 1_000_000,
        storage_map: 2,
    }
}

/// The largest volume whose storage map the specification keeps in one way, 126 blocks.
fn plan_of_516_096() -> Plan {
    Plan {
        blocks: 516_096,
        home: 256,
        h_vlev: 257,
        h_fmax: 4_097,
        h_iblb: 65_530,
        more_slots: (400_000..404_081).collect(),
        control: 131_070,
        storage_map: 131_071,
    }
}

/// VBNs around the ends of the chained file's pointers and headers.
const VBNS: [u32; 14] = [
    0,
    1,
    2,
    3,
    257,
    258,
    259,
    260,
    29_185,
    29_186,
    29_187,
    65_536,
    1 << 31,
    u32::MAX,
];

/// What the builder put there, of the chained file and of the storage map.
fn expect_facts(run: &mut Run, subject: &Subject, volume: &Volume) {
    let chained = volume.files[5].id();
    let blocks = u64::from(volume.plan.blocks);
    let words = [
        29_186, 14_943_231, 0x0107, 0xe000, 0, 0x0801, 512, 0x17202, 29_186, 511,
    ];
    subject.expect_words(run, Call::Attributes(chained), &words);
    subject.expect_words(run, Call::Extent(chained, 1), &[65_535, 2]);
    subject.expect_words(run, Call::Extent(chained, 3), &[131_071, 256]);
    // Every pointer of the second header covers the last blocks of all.
    subject.expect_words(run, Call::Extent(chained, 259), &[blocks - 256, 256]);
    subject.expect_words(run, Call::Extent(chained, 29_186), &[blocks - 1, 1]);
    subject.expect(run, Call::Extent(chained, 29_187), Number::Vbn);
    let covered = volume.covered();
    let last = covered.iter().rposition(|&covered| !covered);
    let last = last.expect("a block that is free") as u32;
    subject.expect_words(run, Call::FreeRun(last), &[last.into(), 1]);
    subject.expect(run, Call::FreeRun(last + 1), Number::Absent);
}

/// Compares a volume of N blocks. It is too large to be lent by copy, so that it is lent as it is.
fn compare_large(run: &mut Run, volume: &Volume) {
    if !run.next_case() {
        return;
    }
    let image = &volume.image[..];
    let before = digest(image);
    let story = [("volume", volume.describe())];
    let subject = Subject {
        image,
        story: &story,
    };
    subject.expect_words(run, Call::OpenVolume, &[volume.plan.home.into()]);
    subject.compare_volume(run);
    let chained = volume.files[5].id();
    let blocks = u64::from(volume.plan.blocks);
    subject.expect_words(run, Call::OpenFile(chained), &[258 + 113 * 256]);
    subject.expect_words(run, Call::Map(chained, 1), &[65_535]);
    subject.expect_words(run, Call::Map(chained, 2), &[65_536]);
    subject.expect_words(run, Call::Map(chained, 258), &[131_326]);
    subject.expect_words(run, Call::Map(chained, 29_186), &[blocks - 1]);
    let offset = 512 * (blocks - 1);
    subject.expect_words(run, Call::Block(chained, 29_186), &[offset, 512]);
    subject.expect(run, Call::Map(chained, 29_187), Number::Vbn);
    for id in ids(volume) {
        let asked = Asked {
            id,
            vbns: VBNS.to_vec(),
            names: vec![],
            places: vec![],
        };
        subject.compare_file(run, &asked);
    }
    let directory = Asked {
        id: Id::from_words([4, 4, 0]),
        vbns: VBNS.to_vec(),
        names: vec![name_words("READS.DAT;1"), name_words("READS.DAT;2"), [0; 5]],
        places: vec![0, 31, 32, 94, 95, 96, u32::MAX],
    };
    subject.compare_file(run, &directory);
    expect_facts(run, &subject, volume);
    let mut random = Random::new(run.seed());
    subject.compare_facts(run, &mut random, volume, Depth::LARGE);
    assert_eq!(digest(image), before, "the image was written to");
}

/// Volumes of 516,096 and of 1,044,480 blocks, and one block more.
#[test]
fn the_largest_volumes() {
    Run::of(module_path!(), "the_largest_volumes", 4, |run| {
        compare_large(run, &large_volume(plan_of_516_096()));
        compare_large(run, &large_volume(largest_plan()));
        let image = vec![0; 512 * (MOST_BLOCKS as usize + 1)];
        for (blocks, number) in [(MOST_BLOCKS, Number::Home), (MOST_BLOCKS + 1, Number::Size)] {
            if run.next_case() {
                let subject = Subject {
                    image: &image[..512 * blocks as usize],
                    story: &[],
                };
                subject.expect(run, Call::OpenVolume, number);
                subject.compare_volume(run);
            }
        }
        run.expect_met("open_volume", [0, 1, 2], 1);
        run.expect_met("open_file", [0, 6, 7, 9, 10], 2);
        run.expect_met("map", [0, 13], 30);
        run.expect_met("look_up", [0, 14, 15], 2);
        expect_each_met(run, &[0], 2);
        run.expect_met("pointer", [15], 2);
        run.expect_met("extent", [13], 2);
        run.expect_met("free_run", [15], 2);
    });
}

/// A volume whose file 6 has 256 headers of 113 pointers of 256 blocks: the longest chain,
/// 7,405,568 blocks. All pointers cover the same blocks, which opening does not ask about.
fn longest_file() -> Volume {
    let plan = Plan {
        blocks: 700,
        home: 1,
        h_vlev: 257,
        h_fmax: 300,
        h_iblb: 300,
        more_slots: (400..684).collect(),
        control: 690,
        storage_map: 691,
    };
    let index = pointers_of(&plan.index_lbns());
    let storage = pointers_of(&plan.storage_lbns());
    let mut volume = Volume::new(plan, vec![0; 512 * 700]);
    for header in [Header::new(1, 1, index), Header::new(2, 2, storage)] {
        volume.add(File::of(header));
    }
    let pointer = Pointer {
        lbn: 2,
        blocks: 256,
    };
    volume.add(File::chain((6..262).map(|number| Header {
        areas: Areas::LARGEST,
        ..Header::new(number, 9, vec![pointer; MOST_POINTERS])
    })));
    volume
}

/// The longest file: its last VBN, its last record, and one past them.
#[test]
fn the_longest_file() {
    Run::of(module_path!(), "the_longest_file", 1, |run| {
        if !run.next_case() {
            return;
        }
        let mut volume = longest_file();
        let blocks = 256 * 113 * 256;
        assert_eq!(blocks, 7_405_568);
        let records = 32 * blocks;
        let id = Id::from_words([6, 9, 0]);
        // The only record is the last of the last block that each pointer covers.
        let name = name_words("READS.DAT;1");
        let record = Record {
            id: [6, 9, 0],
            name,
        };
        volume.put_record(6, 256 * 32 - 1, record);
        let mut lender = Lender::new();
        let image = lender.lend(&volume.image);
        let subject = Subject { image, story: &[] };
        subject.expect_words(run, Call::OpenFile(id), &[u64::from(blocks)]);
        subject.expect_words(run, Call::Map(id, blocks), &[257]);
        subject.expect_words(run, Call::Map(id, blocks - 255), &[2]);
        subject.expect(run, Call::Map(id, blocks + 1), Number::Vbn);
        let mut words = vec![6, 9, 0];
        words.extend(name.map(u64::from));
        words.push(u64::from(records));
        subject.expect_words(run, Call::NextRecord(id, records - 1), &words);
        subject.expect(run, Call::NextRecord(id, records), Number::Absent);
        let mut random = Random::new(run.seed());
        let asked = Asked {
            id,
            vbns: (0..50)
                .map(|_| random.long_between(0, blocks + 1))
                .collect(),
            names: vec![name, [0; 5]],
            places: (0..20)
                .map(|_| random.long_between(0, records + 1))
                .chain([0, records - 1, records, u32::MAX])
                .collect(),
        };
        subject.compare_file(run, &asked);
        // Each row is one pointer, since all pointers cover the same blocks.
        subject.expect_words(run, Call::Extent(id, 1), &[2, 256]);
        subject.expect_words(run, Call::Extent(id, blocks - 254), &[3, 255]);
        subject.expect_words(run, Call::Extent(id, blocks), &[257, 1]);
        subject.expect(run, Call::Extent(id, blocks + 1), Number::Vbn);
        let bytes = 512 * u64::from(blocks);
        subject.expect_words(run, Call::Attributes(id), &[u64::from(blocks), bytes]);
        run.expect_met("map", [0], 40);
    });
}
