//! Hub stations' disks: one with over 26,000 files, and the largest with all 65,535 numbers in use, whose
//! index files have 2, 3 and 256 headers. Paper 02, 9/14: "Slots, verdict and all calls read the long
//! map."

use differential::asked::{self, some_or_all};
use differential::both::Both;
use differential::facts::{expect_each_met, Depth};
use differential::images::{digest, Asked, Call, Subject};
use differential::judging::Desk;
use differential::lists::{List, CREATED_FAR, KEPT};
use differential::writing::Change;
use differential::{Random, Run};
use model::{kept, sound, Id, Number};
use volumes::directory::name_words;
use volumes::flaw::Judged;
use volumes::hub::{hub, name_of, sequence_of, Hub};
use volumes::long_index::last_slot_of;
use volumes::writable::put_sequence;
use volumes::Volume;

fn id(number: u16, sequence: u16) -> Id {
    Id::from_words([number, sequence, 0])
}

/// Numbers near every edge: of the known files, of the roles, of the last slot of each part of the index
/// file and the first of the next, as far as there are not too many parts, of its own headers, and of
/// all slots.
fn numbers(volume: &Volume) -> Vec<u16> {
    let roles = volume.roles;
    let mut numbers = vec![0, 1, 2, 3, 4, 5, 6, 16, 17, roles.plain, roles.chained];
    numbers.extend([roles.empty, roles.locked, roles.marked]);
    numbers.extend(volume.unused_number());
    let headers = &volume.file(1).headers;
    for place in (1..=headers.len()).step_by(headers.len().div_ceil(8)) {
        let last = last_slot_of(volume, place);
        numbers.extend([last, last + 1].map(|number| u16::try_from(number).unwrap_or(0)));
        numbers.push(headers[place - 1].number);
    }
    let chained = &volume.file(roles.chained).headers;
    numbers.extend(chained.iter().map(|header| header.number));
    numbers.extend([volume.plan.h_fmax, 65_535]);
    numbers.sort_unstable();
    numbers.dedup();
    numbers
}

/// IDs of these numbers: with the right sequence, with another, and with a third word.
fn ids(volume: &Volume) -> Vec<Id> {
    let ids = numbers(volume).into_iter().flat_map(|number| {
        let sequence = sequence_of(number);
        let other = sequence ^ 1;
        [
            [number, sequence, 0],
            [number, other, 0],
            [number, sequence, 9],
        ]
    });
    ids.map(Id::from_words).collect()
}

/// What is asked of a file: VBNs near its edges, and in the directory names and places.
fn asked_of(random: &mut Random, volume: &Volume, id: Id) -> Asked {
    let vbns = asked::vbns(volume, &volume.image, id);
    let last = volume.records.len() as u32;
    let is_directory = id.number == 4;
    let names = [
        name_of(1),
        name_of(volume.roles.plain),
        name_of(volume.roles.chained),
        volume.records[last as usize - 1].record.name,
        name_words("ABSENT.DAT;1"),
        [0; 5],
    ];
    let places = [0, 1, 31, 32, last - 1, last, last + 1, last + 32, u32::MAX];
    Asked {
        id,
        vbns: some_or_all(random, &vbns, 24),
        names: names.into_iter().filter(|_| is_directory).collect(),
        places: places.into_iter().filter(|_| is_directory).collect(),
    }
}

/// What the builder knows of a hub, of the library alone.
fn expect_as_built(run: &mut Run, subject: &Subject, volume: &Volume) {
    let plan = &volume.plan;
    subject.expect_words(run, Call::OpenVolume, &[plan.home.into()]);
    let index = id(1, 1);
    let blocks = 2 + plan.index_map_blocks() + volume.last_slot();
    subject.expect_words(run, Call::OpenFile(index), &[blocks.into()]);
    let last = *volume.index.last().expect("the index file has blocks");
    subject.expect_words(run, Call::Map(index, blocks), &[last.into()]);
    subject.expect(run, Call::Map(index, blocks + 1), Number::Vbn);
    let directory = id(4, 4);
    for number in [volume.roles.plain, volume.roles.chained, volume.roles.empty] {
        let file = volume.file(number);
        subject.expect_words(run, Call::OpenFile(file.id()), &[file.blocks().into()]);
        let words = file.id().words().map(u64::from);
        let name = name_of(number);
        subject.expect_words(run, Call::LookUp(directory, name), &words);
        for (vbn, lbn) in (1..).zip(file.lbns()) {
            subject.expect_words(run, Call::Map(file.id(), vbn), &[lbn.into()]);
        }
    }
    for header in &volume.file(1).headers[1..] {
        let further = id(header.number, header.sequence);
        subject.expect(run, Call::OpenFile(further), Number::Segment);
    }
}

/// Compares a hub. It is too large to be lent by copy, so that it is lent as it is.
fn compare_hub(run: &mut Run, volume: &Volume) {
    if !run.next_case() {
        return;
    }
    let mut random = Random::new(run.seed());
    let before = digest(&volume.image);
    let subject = Subject {
        image: &volume.image,
        story: &[("volume", volume.describe())],
    };
    expect_as_built(run, &subject, volume);
    subject.compare_volume(run);
    for id in ids(volume) {
        let asked = asked_of(&mut random, volume, id);
        subject.compare_file(run, &asked);
    }
    subject.compare_facts(run, &mut random, volume, Depth::LARGE);
    subject.compare_accepted(run, &mut random, &mut Desk::default(), volume);
    assert_eq!(digest(&volume.image), before, "the image was written to");
}

/// All calls on each hub, on a choice of numbers, and the verdict with its counts.
#[test]
fn all_calls_on_hubs() {
    Run::of(module_path!(), "all_calls_on_hubs", 4, |run| {
        for wanted in [
            Hub::SMALL,
            Hub::STATION,
            Hub::FULL,
            Hub::FULL_WITH_HIGH_HOME,
        ] {
            compare_hub(run, &hub(&wanted));
        }
        run.expect_met("open_volume", [0], 4);
        run.expect_met("open_file", [0, 6, 7, 9, 10, 11], 4);
        run.expect_met("map", [0, 13], 40);
        run.expect_met("block", [0, 13], 40);
        run.expect_met("look_up", [0, 14, 15], 4);
        run.expect_met("next_record", [0, 15], 4);
        run.expect_met("judge", [0], 4);
        expect_each_met(run, &[0], 4);
    });
}

/// What demand 3 says after the calls of a test: the image is sound, and the files that they do not name
/// are kept.
fn expect_demand_3(both: &Both, wanted: &Hub, named: &[Id]) {
    assert!(sound::opens_and_is_sound(&both.library.image));
    let before = hub(wanted);
    let mut files = kept::files(&before.image);
    let all = files.len();
    files.retain(|file| !named.iter().any(|&id| file.is_named_by(id)));
    assert!(files.len() + named.len() >= all && files.len() < all);
    let not_kept = kept::not_kept(&before.image, &both.library.image, &files);
    assert!(not_kept.is_none(), "{not_kept:?} is not kept");
}

/// Create, extend and delete on the disk with over 26,000 files: numbers past header 1's part, and a chain
/// that goes from one part to the other.
#[test]
fn changes_of_a_hub() {
    Run::of(module_path!(), "changes_of_a_hub", 12, |run| {
        let wanted = Hub::STATION;
        let make = || {
            let mut volume = hub(&wanted);
            // The numbers not in use within header 1's part are used up.
            let near = last_slot_of(&volume, 1);
            for number in volume
                .unused_numbers()
                .take_while(|&it| u32::from(it) <= near)
            {
                put_sequence(&mut volume, number, 65_535);
            }
            volume
        };
        let mut both = Both::new(run, make);
        let volume = hub(&wanted);
        let near = last_slot_of(&volume, 1) as u16;
        let plain = volume.file(volume.roles.plain).id();
        let chained = volume.file(volume.roles.chained);
        let further = &volume.file(1).headers[1];
        assert!(plain.number > near && near + 1 < plain.number);
        let free = volume.covered().iter().position(|covered| !covered);
        let free = free.expect("free blocks") as u64;
        let create = Change::Create(name_words("NEW.DAT;1"), (0x0101, 0xfff0));
        both.expect(create, Ok(&[u64::from(near) + 1, 1, 0]));
        both.expect(create, Ok(&[u64::from(near) + 2, 1, 0]));
        both.expect(Change::Extend(id(near + 1, 1), 256), Ok(&[free]));
        both.expect(Change::Extend(plain, 3), Ok(&[free + 256]));
        both.expect(Change::Delete(id(near + 1, 1)), Ok(&[0]));
        both.expect(Change::Extend(id(near + 1, 1), 1), Err(Number::Number));
        both.expect(create, Ok(&[u64::from(near) + 1, 2, 0]));
        both.expect(Change::Delete(chained.id()), Ok(&[0]));
        let first = chained.number();
        let sequence = u64::from(sequence_of(first)) + 1;
        both.expect(create, Ok(&[first.into(), sequence, 0]));
        both.expect(Change::Extend(id(1, 1), 1), Err(Number::Known));
        let further = id(further.number, further.sequence);
        both.expect(Change::Delete(further), Err(Number::Segment));
        both.expect(Change::Delete(plain), Ok(&[0]));
        expect_demand_3(&both, &wanted, &[plain, chained.id()]);
        run.expect_met("create", [0], 4);
        run.expect_met("delete", [0], 3);
    });
}

/// Where every number is in use, create finds none, until one is deleted.
#[test]
fn a_hub_with_every_number_in_use() {
    let test = "a_hub_with_every_number_in_use";
    Run::of(module_path!(), test, 8, |run| {
        let create = Change::Create(name_words("NEW.DAT;1"), (0x0101, 0xfff0));
        for wanted in [Hub::FULL, Hub::FULL_WITH_HIGH_HOME] {
            let volume = hub(&wanted);
            let plain = volume.file(volume.roles.plain).id();
            assert!(u32::from(plain.number) > last_slot_of(&volume, wanted.index_headers - 1));
            let mut both = Both::new(run, || hub(&wanted));
            both.expect(create, Err(Number::Nonumber));
            both.expect(Change::Delete(plain), Ok(&[0]));
            let sequence = u64::from(plain.sequence) + 1;
            both.expect(create, Ok(&[plain.number.into(), sequence, 0]));
            both.expect(create, Err(Number::Nonumber));
            expect_demand_3(&both, &wanted, &[plain]);
        }
        run.expect_met("create", [0], 2);
        run.expect_met("create", [27], 4);
    });
}

/// Changes of the largest hub, each told before those that came first, by its rule or its place.
#[test]
fn flaws_of_a_hub() {
    Run::of(module_path!(), "flaws_of_a_hub", 6, |run| {
        let mut volume = hub(&Hub::FULL);
        let mut random = Random::new(run.seed());
        let mut desk = Desk::default();
        let mut expect = |run: &mut Run, volume: &Volume, number: Number, place: u32| {
            if !run.next_case() {
                return;
            }
            let subject = Subject {
                image: &volume.image,
                story: &[("refused", format!("{} at {place}", number.name()))],
            };
            if number == Number::Index {
                subject.expect(run, Call::OpenVolume, number);
            } else {
                let judged = Judged::Refused(number, place.into());
                subject.expect_judged(run, &mut random, &mut desk, judged);
            }
            subject.compare_verdict(run, &mut random, &mut desk);
        };
        let slot = volume.slot_of(65_535);
        volume.storage_map_mut()[(slot / 8) as usize] |= 1 << (slot % 8);
        expect(run, &volume, Number::Map, slot);
        let chain = volume.file(volume.roles.chained).headers.clone();
        let high = chain.iter().map(|header| header.number).max();
        let high = high.expect("a chain has headers");
        volume.edit_header(high, |header| header.sequence += 1);
        let before = chain.iter().find(|header| header.link.0 == high);
        let before = before.expect("it is linked").number;
        expect(run, &volume, Number::Links, before.into());
        let empty = volume.roles.empty;
        volume.edit_header(empty, |header| header.areas.h_idof = 22);
        expect(run, &volume, Number::Files, empty.into());
        // The last part of the index file is cut off: its first number has no slot any more.
        let index = volume.file(1).headers.clone();
        let first = last_slot_of(&volume, 2) + 1;
        volume.edit_header(index[1].number, |header| header.link = (0, 0));
        expect(run, &volume, Number::Files, first);
        // The second is as well, in which the header of the third lies.
        let first = last_slot_of(&volume, 1) + 1;
        volume.edit_header(1, |header| header.link = (0, 0));
        expect(run, &volume, Number::Files, first);
        volume.edit_header(1, |header| {
            header.link = (index[1].number, index[1].sequence)
        });
        volume.put_in_use(index[1].number, false);
        expect(run, &volume, Number::Index, 0);
        run.expect_met("judge", [17], 3);
        run.expect_met("judge", [4, 18, 21], 1);
    });
}

/// Lists of calls on small hubs: index files of 2 to 256 headers.
#[test]
fn lists_on_hubs() {
    Run::of(module_path!(), "lists_on_hubs", 12, |run| {
        let mut desk = Desk::default();
        run.random_cases(12, |run, random| {
            let index_headers = *random.pick(&[2, 2, 3, 5, 16, 100, 256]);
            let built = hub(&Hub {
                blocks: 2_500,
                home: *random.pick(&[1, 256, 2_304]),
                h_fmax: *random.pick(&[600, 700, 4_097]),
                slots: 600,
                in_use: random.between(400, 599) as u16,
                index_headers,
            });
            List::compare(run, random, &mut desk, &built);
        });
        run.expect_met("create", [0], 20);
        run.expect_met("extend", [0], 40);
        run.expect_met("delete", [0], 20);
        run.expect_met(CREATED_FAR, [1], 5);
        run.expect_met(KEPT, [1], 2_000);
    });
}
