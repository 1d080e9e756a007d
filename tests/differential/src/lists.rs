//! Lists of create, extend and delete calls, each on the image that the last one left, and what
//! demand 3 says of the image after one.

use crate::asked;
use crate::judging::{enough, needed, too_short, Areas, Desk};
use crate::run::Run;
use crate::writing::{Change, Changing};
use model::{kept, sound, verdict, Id, Number};
use volumes::block::word;
use volumes::directory::name_words;
use volumes::header::at;
use volumes::long_index::last_slot_of;
use volumes::writable::unused_numbers;
use volumes::{Random, Volume};

/// How many calls a list has.
pub const CALLS: usize = 20;

/// The kind of what is met where a file that no extend or delete named was compared: 1.
pub const KEPT: &str = "file kept";

/// The kind of what is met where a file was named: 1.
pub const NAMED: &str = "file named";

/// The kind of what is met where a removed ID was refused, with the number of the refusal.
pub const REMOVED: &str = "removed ID";

/// The kind of what is met where a file was created: 1 where its slot is past the part of the index file
/// that header 1 maps, else 0.
pub const CREATED_FAR: &str = "file created past header 1's part";

/// The answers of each call on an image that is accepted. HEADER and CHAIN are not among them: the
/// verdict has seen that no header and no link is bad.
pub const ANSWERS: [(&str, &[u64]); 3] = [
    ("create", &[0, 14, 16, 27]),
    ("extend", &[0, 6, 7, 9, 10, 11, 16, 22, 23, 24, 25, 26]),
    ("delete", &[0, 6, 7, 9, 10, 11, 16, 22]),
];

/// A list under way: the volume as it was built, the image as the calls have left it, and the IDs
/// that calls are made with.
pub struct List<'a> {
    built: &'a Volume,
    pub changing: Changing<'a>,
    /// Files that are there and may be named.
    there: Vec<Id>,
    /// Files that are there and that refuse access.
    locked: Vec<Id>,
    /// Files that are there and that the list does not name.
    aside: Vec<Id>,
    /// Headers that are not the first of their file.
    extensions: Vec<Id>,
    created: Vec<Id>,
    removed: Vec<Id>,
}

impl<'a> List<'a> {
    /// A list on a volume. It leaves each file aside once in three times.
    pub fn new(random: &mut Random, built: &'a Volume, changing: Changing<'a>) -> List<'a> {
        let mut list = List {
            built,
            changing,
            there: Vec::new(),
            locked: Vec::new(),
            aside: Vec::new(),
            extensions: Vec::new(),
            created: Vec::new(),
            removed: Vec::new(),
        };
        for file in &built.files {
            let extensions = file.headers.iter().skip(1);
            let ids = extensions.map(|it| Id::from_words([it.number, it.sequence, 0]));
            list.extensions.extend(ids);
            let files = match file.number() {
                0..=5 => continue,
                _ if random.once_in(3) => &mut list.aside,
                _ if file.is_locked() => &mut list.locked,
                _ => &mut list.there,
            };
            files.push(file.id());
        }
        list
    }

    /// Makes random calls on a volume, compares them, and sees that what demand 3 says then holds.
    pub fn compare(run: &mut Run, random: &mut Random, desk: &mut Desk, built: &Volume) {
        let story = [("volume", built.describe())];
        let changing = Changing::new(&built.image, &story);
        let mut list = List::new(random, built, changing);
        for _ in 0..CALLS {
            list.step(run, random, desk);
        }
        list.expect_demand_3(run, random, desk);
    }

    /// Makes a random call, and compares it.
    pub fn step(&mut self, run: &mut Run, random: &mut Random, desk: &mut Desk) {
        let call = self.random_call(random);
        let needed = needed(&self.changing.image);
        let lengths = if random.once_in(16) {
            too_short(random, needed)
        } else {
            enough(random, needed)
        };
        let areas = Areas::random(random, lengths.0, lengths.1);
        let answer = self.changing.compare(run, desk, call, &areas);
        if answer[0] != 0 {
            return;
        }
        match call {
            Change::Create(..) => {
                let id = [answer[2], answer[3], answer[4]].map(|word| word as u16);
                let id = Id::from_words(id);
                if self.created.contains(&id) {
                    self.fail(run, &format!("{id:?} is created twice"));
                }
                let is_far = u32::from(id.number) > last_slot_of(self.built, 1);
                run.meet(CREATED_FAR, u64::from(is_far));
                self.created.push(id);
                self.there.push(id);
            }
            Change::Extend(..) => (),
            Change::Delete(id) => {
                self.there.retain(|&there| there != id);
                self.removed.push(id);
            }
        }
    }

    /// A random call.
    fn random_call(&self, random: &mut Random) -> Change {
        match random.below(10) {
            0..=2 => Change::Create(self.random_name(random), (random.word(), random.word())),
            3..=7 => Change::Extend(self.random_id(random), self.random_count(random)),
            _ => Change::Delete(self.random_id(random)),
        }
    }

    /// A name: mostly a proper one.
    fn random_name(&self, random: &mut Random) -> [u16; 5] {
        match random.below(6) {
            0 => *random.pick(&asked::names(self.built)),
            1 => name_words("A.;32767"),
            2 => name_words("999999999.999;1"),
            _ => name_words(&format!(
                "R{}.DAT;{}",
                random.below(1_000),
                1 + random.below(9)
            )),
        }
    }

    /// A number of blocks: few, many, as many as there are in a row, one more, and wrong ones.
    fn random_count(&self, random: &mut Random) -> u32 {
        match random.below(12) {
            0 => *random.pick(&[0, 257, 258, 512, 65_536, 65_537, u32::MAX]),
            1 => *random.pick(&[255, 256]),
            2 => self.longest_run().clamp(1, 256),
            3 => (self.longest_run() + 1).min(256),
            4 => random.long_between(1, 256),
            5 | 6 => random.long_between(2, 20),
            _ => random.long_between(1, 3),
        }
    }

    /// The most free blocks in a row, by the map as it is now.
    fn longest_run(&self) -> u32 {
        let plan = &self.built.plan;
        let map = &self.changing.image[512 * plan.storage_map as usize..];
        let (mut longest, mut length) = (0, 0);
        for bit in 0..plan.blocks as usize {
            let is_free = map[bit / 8] >> (bit % 8) & 1 == 1;
            length = if is_free { length + 1 } else { 0 };
            longest = longest.max(length);
        }
        longest
    }

    /// An ID: mostly of a file that is there, and else one of every other kind.
    fn random_id(&self, random: &mut Random) -> Id {
        let known = random.between(1, 5) as u16;
        let known = Id::from_words([known, known, 0]);
        let one_of = |random: &mut Random, ids: &[Id]| match ids {
            [] => known,
            ids => *random.pick(ids),
        };
        let there = one_of(random, &self.there);
        let other = match random.below(8) {
            0 => one_of(random, &self.aside),
            1 => one_of(random, &self.removed),
            2 => one_of(random, &self.extensions),
            3 => one_of(random, &self.locked),
            4 => known,
            5 => self.unused(random),
            _ => there,
        };
        match random.below(24) {
            0 | 1 => stale(random, other),
            2 => Id {
                volume: *random.pick(&[1, 256, 65_535]),
                ..other
            },
            3 => stale(random, there),
            // A file that is left aside is named by no right sequence.
            4..=9 if !self.aside.contains(&other) => other,
            _ => there,
        }
    }

    /// An ID of a number that is not in use at the start, or that has no slot, or none at all; with
    /// the sequence that is in the slot, or the next.
    fn unused(&self, random: &mut Random) -> Id {
        let unused = unused_numbers(self.built);
        let last_slot = self.built.last_slot() as u16;
        let h_fmax = self.built.plan.h_fmax;
        let number = match random.below(3) {
            0 if !unused.is_empty() => *random.pick(&unused),
            1 => *random.pick(&[0, 65_535, h_fmax, h_fmax.wrapping_add(1)]),
            _ => last_slot.wrapping_add(1),
        };
        let slot = self.built.slot(number).filter(|_| number > 0);
        let sequence = slot.map_or(1, |lbn| {
            let start = 512 * lbn as usize;
            word(&self.changing.image[start..], at::H_FSEQ)
        });
        let more = random.below(2) as u16;
        Id::from_words([number, sequence.wrapping_add(more), 0])
    }

    /// Sees that what demand 3 says of the image after the list holds, and what is said of IDs.
    pub fn expect_demand_3(&self, run: &mut Run, random: &mut Random, desk: &mut Desk) {
        self.expect_accepted(run, random, desk);
        self.expect_kept(run);
        self.expect_slots(run);
        self.expect_removed(run, random, desk);
    }

    /// Paper 00, demand 3: "the image after the list is accepted."
    fn expect_accepted(&self, run: &mut Run, random: &mut Random, desk: &mut Desk) {
        let image = &self.changing.image;
        if !sound::opens_and_is_sound(image) {
            self.fail(run, "the image is not sound");
        }
        let mut areas = Areas::enough_for(random, image);
        let verdict = verdict::verdict(image, &mut areas.blocks, &mut areas.headers);
        if verdict.is_err() {
            self.fail(run, &format!("the model judges {verdict:?}"));
        }
        let mut areas = Areas::enough_for(random, image);
        let judged = desk.lend_areas(&mut areas, |blocks, headers| {
            library::judge(image, blocks, headers)
        });
        if judged[0] != 0 {
            self.fail(run, &format!("the library judges {judged:?}"));
        }
    }

    /// Paper 00, demand 3: "Every file numbered above 5 that was in use at the start with a header of
    /// segment 0, and that no extend or delete of the list names, is in use after it and maps the
    /// same blocks in the same order with the same bytes."
    fn expect_kept(&self, run: &mut Run) {
        let before = &self.built.image;
        let ids = self.changing.calls.iter().filter_map(|(call, _)| call.id());
        let ids: Vec<Id> = ids.collect();
        let mut kept = kept::files(before);
        let all = kept.len();
        kept.retain(|file| !ids.iter().any(|&id| file.is_named_by(id)));
        if let Some(file) = kept::not_kept(before, &self.changing.image, &kept) {
            self.fail(run, &format!("{file:?} is not kept"));
        }
        kept.iter().for_each(|_| run.meet(KEPT, 1));
        (kept.len()..all).for_each(|_| run.meet(NAMED, 1));
    }

    /// The sequence word of no slot falls, so that no ID comes again.
    fn expect_slots(&self, run: &mut Run) {
        let before = kept::slot_words(&self.built.image);
        let after = kept::slot_words(&self.changing.image);
        if before.len() != after.len() {
            self.fail(run, "there are other slots");
        }
        let fell = (0..before.len()).find(|&place| after[place] < before[place]);
        if let Some(place) = fell {
            self.fail(run, &format!("the sequence of {} fell", place + 1));
        }
    }

    /// Paper 00, demand 2: "A call that opens, reads or changes a file by an ID whose sequence number
    /// is not the header's is refused." Of an ID that a delete removed, whatever was created since.
    fn expect_removed(&self, run: &mut Run, random: &mut Random, desk: &mut Desk) {
        for &id in &self.removed {
            let image = &self.changing.image;
            let opened = library::open_file(image, id.words());
            let mapped = library::map(image, id.words(), 1);
            let mut same = Changing::new(image, self.changing.story);
            let extended = same.compare_enough(run, random, desk, Change::Extend(id, 1));
            let deleted = same.compare_enough(run, random, desk, Change::Delete(id));
            let numbers = [opened[0], mapped[0], extended[0], deleted[0]];
            let refusals = [Number::Number, Number::Sequence].map(Number::number);
            if !refusals.contains(&opened[0]) || numbers.iter().any(|&it| it != opened[0]) {
                self.fail(
                    run,
                    &format!("{id:?} was removed, and is answered {numbers:?}"),
                );
            }
            run.meet(REMOVED, opened[0]);
        }
    }

    /// Reports a list after which something does not hold.
    fn fail(&self, run: &Run, what: &str) -> ! {
        run.fail(what, &self.changing.lines());
    }
}

/// The ID with another sequence: one off, a byte off, or any.
fn stale(random: &mut Random, id: Id) -> Id {
    let off = match random.below(5) {
        0 => 1,
        1 => 65_535,
        2 => 256,
        3 => 32_768,
        _ => random.word().max(1),
    };
    Id {
        sequence: id.sequence.wrapping_add(off),
        ..id
    }
}
