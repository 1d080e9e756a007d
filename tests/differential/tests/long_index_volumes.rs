//! Sound volumes whose index file has several headers: the library against the builder and against the
//! model, and lists of create, extend and delete calls with what demand 3 says after each.

use differential::asked::opening_of;
use differential::built::{compare_built, expect_built_met};
use differential::facts::{expect_each_met, Depth};
use differential::images::{Asked, Call, Subject};
use differential::judging::Desk;
use differential::lists::{List, ANSWERS, CREATED_FAR, KEPT, NAMED, REMOVED};
use differential::{Random, Run};
use library::Lender;
use model::{Id, Number};
use volumes::flaw::Judged;
use volumes::header::{pointers_of, Areas, Header, Pointer, MOST_POINTERS};
use volumes::long_index::{
    last_slot_of, long_volume, random_long_volume, random_long_volume_to_write, MOST_HEADERS,
};
use volumes::shapes::Size;
use volumes::volume::{File, Plan};
use volumes::Volume;

/// The kinds of volumes that are met: how many headers the index file has; and 1 where a header of it
/// maps no block, has the last slot of those before it, or lies past header 1's part; where a file does,
/// and where a chain goes from one part to another.
const HEADERS: &str = "headers of the index file";
const EMPTY: &str = "header of the index file without blocks";
const LAST_SLOT: &str = "header of the index file in the last slot before it";
const FAR_HEADER: &str = "header of the index file past header 1's part";
const FAR_FILE: &str = "file past header 1's part";
const FAR_CHAIN: &str = "chain over parts";

/// Counts what kinds a volume is of.
fn meet_shape(run: &mut Run, volume: &Volume) {
    let near = last_slot_of(volume, 1);
    let is_far = |header: &Header| u32::from(header.number) > near;
    let index = &volume.file(1).headers;
    run.meet(HEADERS, index.len() as u64);
    for (place, header) in index.iter().enumerate().skip(1) {
        run.meet(EMPTY, u64::from(header.blocks() == 0));
        let is_last = u32::from(header.number) == last_slot_of(volume, place);
        run.meet(LAST_SLOT, u64::from(is_last));
        run.meet(FAR_HEADER, u64::from(is_far(header)));
    }
    for file in volume.files.iter().filter(|file| file.number() > 5) {
        let far = file.headers.iter().filter(|&it| is_far(it)).count();
        run.meet(FAR_FILE, u64::from(is_far(&file.headers[0])));
        run.meet(FAR_CHAIN, u64::from((1..file.headers.len()).contains(&far)));
    }
}

/// Sees that each kind was met often enough.
fn expect_shapes(run: &mut Run, least: u64) {
    run.expect_met(HEADERS, 2..=6, least);
    for kind in [EMPTY, LAST_SLOT, FAR_HEADER, FAR_FILE, FAR_CHAIN] {
        run.expect_met(kind, [0, 1], least);
    }
}

/// A sound volume: as it was built, the verdict, and everything that is asked, against the model.
fn compare_sound(
    run: &mut Run,
    random: &mut Random,
    (lender, desk): (&mut Lender, &mut Desk),
    volume: &Volume,
) {
    meet_shape(run, volume);
    compare_built(run, random, lender, volume);
    let subject = Subject {
        image: lender.lend(&volume.image),
        story: &[("volume", volume.describe())],
    };
    subject.compare_accepted(run, random, desk, volume);
}

/// Volumes of 100 to 400 blocks, and some of up to 6,000.
#[test]
fn sound_volumes() {
    Run::of(module_path!(), "sound_volumes", 300, |run| {
        let mut lender = Lender::new();
        let mut desk = Desk::default();
        run.random_cases(300, |run, random| {
            let size = match random.below(40) {
                0 => Size::Medium,
                1 => Size::Blocks(random.long_between(400, 1_300)),
                _ => Size::Small,
            };
            let volume = random_long_volume(random, size);
            compare_sound(run, random, (&mut lender, &mut desk), &volume);
        });
        let least = 300;
        expect_built_met(run, least);
        run.expect_met("judge", [0], least);
        run.expect_met("judge", [16], 20);
        expect_shapes(run, 10);
    });
}

/// What the builder knows of the headers of file 1 and of the slots that they map.
fn expect_index(run: &mut Run, subject: &Subject, volume: &Volume) {
    let index = volume.file(1);
    let id = index.id();
    subject.expect_words(run, Call::OpenVolume, &[volume.plan.home.into()]);
    subject.expect_words(run, Call::OpenFile(id), &[index.blocks().into()]);
    let mut vbn = 0;
    for (segment, header) in (0_u64..).zip(&index.headers) {
        let further = Id::from_words([header.number, header.sequence, 0]);
        if segment > 0 {
            subject.expect(run, Call::OpenFile(further), Number::Segment);
        }
        for pointer in &header.pointers {
            let lbn = u64::from(pointer.lbn);
            subject.expect_words(run, Call::Map(id, vbn + 1), &[lbn]);
            vbn += pointer.blocks;
            let last = lbn + u64::from(pointer.blocks) - 1;
            subject.expect_words(run, Call::Map(id, vbn), &[last]);
        }
        let past = Call::Pointer(header.number, header.pointers.len() as u32);
        subject.expect(run, past, Number::Absent);
    }
    subject.expect(run, Call::Map(id, vbn + 1), Number::Vbn);
}

/// Index files of 2 to 256 headers.
#[test]
fn every_number_of_headers() {
    let test = "every_number_of_headers";
    Run::of(module_path!(), test, 255, |run| {
        let mut lender = Lender::new();
        let mut desk = Desk::default();
        for headers in 2..=MOST_HEADERS {
            let mut random = run.random();
            if !run.next_case() {
                continue;
            }
            let volume = long_volume(&mut random, 1_300, (300, headers));
            meet_shape(run, &volume);
            let subject = Subject {
                image: lender.lend(&volume.image),
                story: &[("volume", volume.describe())],
            };
            if headers < 12 || headers % 16 == 0 || headers > 250 {
                expect_index(run, &subject, &volume);
                subject.compare_accepted(run, &mut random, &mut desk, &volume);
            }
            subject.compare_volume(run);
            subject.compare_facts(run, &mut random, &volume, Depth::SOME);
        }
        run.expect_met("open_volume", [0], 255);
        run.expect_met(HEADERS, 2..=256, 1);
        expect_each_met(run, &[0], 255);
    });
}

/// A volume whose index file is as long as can be: 256 headers of 113 pointers, all but the first three
/// of 256 blocks. Slots 17 to 272 lie where the fourth says, and the further headers are in some of
/// them; all other pointers cover the same blocks, which opening does not ask about.
fn longest_index() -> Volume {
    let plan = Plan {
        blocks: 700,
        home: 1,
        h_vlev: 257,
        h_fmax: 65_535,
        h_iblb: 300,
        more_slots: (400..656).collect(),
        control: 690,
        storage_map: 691,
    };
    let pointer = |lbn, blocks| Pointer { lbn, blocks };
    let mut first = vec![pointer(0, 1), pointer(1, 1), pointer(300, 32)];
    first.push(pointer(400, 256));
    first.resize(MOST_POINTERS, pointer(2, 256));
    let storage = pointers_of(&plan.storage_lbns());
    let mut volume = Volume::new(plan, vec![0; 512 * 700]);
    let further = vec![pointer(2, 256); MOST_POINTERS];
    let further = (6..261).map(|number| Header::new(number, 9, further.clone()));
    let headers = std::iter::once(Header::new(1, 1, first)).chain(further);
    volume.add(File::chain(headers.map(|header| Header {
        areas: Areas::LARGEST,
        ..header
    })));
    volume.add(File::of(Header::new(2, 2, storage)));
    for number in 3..=5 {
        volume.add(File::of(Header::new(number, number, Vec::new())));
    }
    volume
}

/// The longest index file: its last VBN, slots up to the last number, and one past each.
#[test]
fn the_longest_index_file() {
    Run::of(module_path!(), "the_longest_index_file", 1, |run| {
        if !run.next_case() {
            return;
        }
        let volume = longest_index();
        let index = Id::from_words([1, 1, 0]);
        let blocks = 34 + 256 + 109 * 256 + 255 * 113 * 256;
        assert_eq!(volume.file(1).blocks(), blocks);
        let mut lender = Lender::new();
        let image = lender.lend(&volume.image);
        let subject = Subject { image, story: &[] };
        let m = 16;
        let slots = u64::from(blocks) - 2 - m;
        let geometry = [700, 1, m, 300, 65_535, slots, 691, 1, 257, 256];
        subject.expect_words(run, Call::Geometry, &geometry);
        subject.expect_words(run, Call::OpenFile(index), &[u64::from(blocks)]);
        subject.expect_words(run, Call::Map(index, blocks), &[257]);
        subject.expect(run, Call::Map(index, blocks + 1), Number::Vbn);
        let mut random = Random::new(run.seed());
        subject.compare_volume(run);
        // Number 65,535 has VBN 65,553: 34 blocks, 255 pointers, and 238 blocks of one at LBN 2 come first.
        let last = Id::from_words([65_535, 0, 0]);
        subject.expect(run, Call::OpenFile(last), Number::Number);
        let mut changed = volume.clone();
        Header::new(65_535, 7, Vec::new()).put(changed.block_mut(2 + 238));
        changed.put_in_use(65_535, true);
        let mut other = Lender::new();
        let with_last = Subject {
            image: other.lend(&changed.image),
            story: &[("number", "65,535 in use".to_string())],
        };
        let last = Id::from_words([65_535, 7, 0]);
        with_last.expect_words(run, Call::OpenFile(last), &[0]);
        let mut desk = Desk::default();
        for subject in [&subject, &with_last] {
            let asked = Asked {
                vbns: (0..40)
                    .map(|_| random.long_between(0, blocks + 1))
                    .collect(),
                ..opening_of(index)
            };
            subject.compare_file(run, &asked);
            for number in [1, 6, 16, 17, 260, 261, 272, 273, 4_097, 65_535] {
                for sequence in [1, 7, 9] {
                    let id = Id::from_words([number, sequence, 0]);
                    subject.compare_file(run, &opening_of(id));
                }
            }
            let judged = Judged::Refused(Number::Twice, 2);
            subject.expect_judged(run, &mut random, &mut desk, judged);
            subject.compare_verdict(run, &mut random, &mut desk);
        }
        run.expect_met("map", [0], 40);
        run.expect_met("open_file", [0, 7, 9, 10], 2);
        run.expect_met("judge", [19], 2);
    });
}

/// Lists of calls, most of them on small volumes.
#[test]
fn lists_of_calls() {
    Run::of(module_path!(), "lists_of_calls", 250, |run| {
        let mut desk = Desk::default();
        run.random_cases(250, |run, random| {
            let size = match random.below(40) {
                0 => Size::Medium,
                1..=3 => Size::Blocks(random.long_between(260, 1_100)),
                _ => Size::Small,
            };
            let built = random_long_volume_to_write(random, size);
            meet_shape(run, &built);
            List::compare(run, random, &mut desk, &built);
        });
        for (call, numbers) in ANSWERS {
            run.expect_met(call, numbers.iter().copied(), 4);
        }
        run.expect_met("create", [0], 200);
        run.expect_met("extend", [0], 200);
        run.expect_met("delete", [0], 100);
        run.expect_met(KEPT, [1], 200);
        run.expect_met(NAMED, [1], 200);
        run.expect_met(REMOVED, [7, 9], 20);
        run.expect_met(CREATED_FAR, [0, 1], 50);
        expect_shapes(run, 3);
    });
}
