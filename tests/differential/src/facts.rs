//! The comparisons of the calls that tell what a volume and its files say: geometry and label, headers
//! and their pointers, attributes, blocks of a file in a row, and free blocks in a row.

use crate::asked::{free_starts, ids, numbers, pointer_places, row_vbns, some_or_all};
use crate::images::{Call, Subject};
use crate::run::{Run, FACTS};
use model::volume::{self, Opened};
use model::{facts, file, FileNumber, Id, Number};
use volumes::volume::File;
use volumes::{Random, Volume};

/// How much is asked of a volume at most.
#[derive(Clone, Copy, Debug)]
pub struct Depth {
    /// Of the headers, and of the files, that damages aim at.
    pub aimed: usize,
    /// Of the other headers, and of the other files.
    pub others: usize,
    /// Of the pointers of each header, of the VBNs of each file, and of the LBNs to look for free
    /// blocks from.
    pub places: usize,
}

impl Depth {
    /// What is asked of one volume of many.
    pub const SOME: Depth = Depth {
        aimed: 3,
        others: 2,
        places: 4,
    };

    /// What is asked of a volume of very many blocks, where each call takes milliseconds.
    pub const LARGE: Depth = Depth {
        aimed: 6,
        others: 4,
        places: 10,
    };

    /// What is asked of a volume that is met once.
    pub const MUCH: Depth = Depth {
        aimed: 60,
        others: 60,
        places: 60,
    };
}

/// Sees that each of these numbers was answered often enough by each of the calls that tell what a volume
/// and its files say.
pub fn expect_each_met(run: &mut Run, numbers: &[u64], least: u64) {
    for call in FACTS {
        run.expect_met(call, numbers.iter().copied(), least);
    }
}

/// Sees that DONE, the refusals 2 to 5 of opening, and every other refusal that a call has, were each
/// answered often enough.
pub fn expect_all_met(run: &mut Run, least: u64) {
    expect_each_met(run, &[0, 2, 3, 4, 5], least);
    run.expect_met("header", [7, 8], least);
    run.expect_met("pointer", [7, 8, 15], least);
    run.expect_met("attributes", 6..=12, least);
    run.expect_met("extent", 6..=13, least);
    run.expect_met("free_run", [15], least);
}

impl Subject<'_> {
    /// Compares what a volume says with the model: the headers and files that damages aim at, and some
    /// more. Calls are chosen from what the builder put there.
    pub fn compare_facts(&self, run: &mut Run, random: &mut Random, volume: &Volume, depth: Depth) {
        let opened = volume::open(self.image);
        self.compare_alone(run, Call::Geometry, &opened);
        self.compare_alone(run, Call::Label, &opened);
        let mut headers = some_or_all(random, &aimed(volume), depth.aimed);
        headers.extend(some_or_all(random, &numbers(volume), depth.others));
        for number in headers {
            self.compare_header(run, random, (&opened, number), depth.places);
        }
        let mut files = some_or_all(random, &aimed_ids(volume), depth.aimed);
        files.extend(some_or_all(random, &ids(volume), depth.others));
        for id in files {
            self.compare_file_facts(run, random, (&opened, id), depth.places);
        }
        let starts = free_starts(random, volume);
        for from in some_or_all(random, &starts, depth.places) {
            self.compare_alone(run, Call::FreeRun(from), &opened);
        }
    }

    /// Compares what an image says that may be no volume: of some numbers, each with itself as sequence.
    pub fn compare_few_facts(&self, run: &mut Run, random: &mut Random, numbers: &[u16]) {
        let opened = volume::open(self.image);
        for call in [Call::Geometry, Call::Label, Call::FreeRun(0)] {
            self.compare_alone(run, call, &opened);
        }
        for &number in numbers {
            self.compare_header(run, random, (&opened, number), Depth::SOME.places);
            let id = Id::from_words([number, number, 0]);
            self.compare_file_facts(run, random, (&opened, id), Depth::SOME.places);
        }
    }

    /// Compares the header of a number, and some of its pointers up to past the last.
    fn compare_header(
        &self,
        run: &mut Run,
        random: &mut Random,
        (volume, number): (&Opened, u16),
        most: usize,
    ) {
        self.compare_alone(run, Call::Header(number), volume);
        let header = facts::answer_header(volume, FileNumber(number.into()));
        let places = pointer_places(random, header.value[4] as u32);
        for place in some_or_all(random, &places, most) {
            self.compare_alone(run, Call::Pointer(number, place), volume);
        }
    }

    /// Compares the attributes of a file, and its blocks in a row from some VBNs near every edge.
    fn compare_file_facts(
        &self,
        run: &mut Run,
        random: &mut Random,
        (volume, id): (&Opened, Id),
        most: usize,
    ) {
        let file = file::open_in(volume, id);
        self.compare(run, Call::Attributes(id), (volume, &file));
        let vbns = row_vbns(random, &file);
        for vbn in some_or_all(random, &vbns, most) {
            self.compare(run, Call::Extent(id, vbn), (volume, &file));
        }
    }

    /// Compares the runs of free blocks from these LBNs on.
    pub fn compare_free_runs(&self, run: &mut Run, starts: impl IntoIterator<Item = u32>) {
        let opened = volume::open(self.image);
        for from in starts {
            self.compare_alone(run, Call::FreeRun(from), &opened);
        }
    }

    /// Sees that the library tells of a volume what the builder put there.
    pub fn expect_facts(&self, run: &mut Run, volume: &Volume) {
        let plan = &volume.plan;
        let geometry = [
            plan.blocks,
            plan.home,
            plan.index_map_blocks(),
            plan.h_iblb,
            plan.h_fmax.into(),
            volume.last_slot(),
            plan.storage_map,
            plan.storage_map_blocks(),
            plan.h_vlev.into(),
            volume.file(1).headers.len() as u32,
        ];
        self.expect_words(run, Call::Geometry, &geometry.map(u64::from));
        if let Some(label) = volume.label {
            let name = label.name.chunks_exact(2);
            let mut words: Vec<u16> = name.map(|it| u16::from_le_bytes([it[0], it[1]])).collect();
            words.extend([label.owner, label.protection]);
            words.extend([label.characteristics, label.file_protection]);
            let words: Vec<u64> = words.into_iter().map(u64::from).collect();
            self.expect_words(run, Call::Label, &words);
        }
        for file in &volume.files {
            self.expect_headers(run, file);
            self.expect_file_facts(run, file);
        }
        self.expect_free_runs(run, volume);
    }

    /// Sees that the library tells of a file's headers what the builder put there.
    fn expect_headers(&self, run: &mut Run, file: &File) {
        for header in &file.headers {
            let number = header.number;
            let name = header.facts.filter(|_| header.has_name());
            if let Some(facts) = name {
                let pointers = header.pointers.len() as u64;
                let (next, next_sequence) = header.link;
                let mut words: Vec<u64> = vec![header.sequence.into(), header.segment.into()];
                words.extend([next.into(), next_sequence.into(), pointers]);
                words.extend(facts.name.map(u64::from));
                self.expect_words(run, Call::Header(number), &words);
            }
            for (place, pointer) in (0..).zip(&header.pointers) {
                let words = [pointer.lbn, pointer.blocks].map(u64::from);
                self.expect_words(run, Call::Pointer(number, place), &words);
            }
            let past = Call::Pointer(number, header.pointers.len() as u32);
            self.expect(run, past, Number::Absent);
        }
    }

    /// Sees that the library tells of a file what the builder put there.
    fn expect_file_facts(&self, run: &mut Run, file: &File) {
        let first = &file.headers[0];
        let call = Call::Attributes(file.id());
        if file.is_locked() {
            return self.expect(run, call, Number::Locked);
        }
        if let Some(facts) = first.facts {
            let records = u16::from_le_bytes([facts.record_type, facts.record_attributes]);
            let flags = u16::from_le_bytes([first.user_flags, first.system_flags]);
            let words = [
                file.blocks().into(),
                facts.end.bytes,
                facts.owner.into(),
                facts.protection.into(),
                flags.into(),
                records.into(),
                facts.record_size.into(),
                facts.highest.into(),
                facts.end.block.into(),
                facts.end.first_free.into(),
            ];
            self.expect_words(run, call, &words);
        }
        self.expect_extents(run, file);
    }

    /// Sees that the rows of a file's blocks are answered one after the other, and then VBN.
    fn expect_extents(&self, run: &mut Run, file: &File) {
        let id = file.id();
        let lbns = file.lbns();
        let mut vbn = 1;
        for row in lbns.chunk_by(|before, after| before + 1 == *after) {
            let words = [u64::from(row[0]), row.len() as u64];
            self.expect_words(run, Call::Extent(id, vbn), &words);
            vbn += row.len() as u32;
        }
        self.expect(run, Call::Extent(id, vbn), Number::Vbn);
    }

    /// Sees that the runs of blocks that no file covers are answered one after the other, and then
    /// ABSENT.
    fn expect_free_runs(&self, run: &mut Run, volume: &Volume) {
        let covered = volume.covered();
        let mut lbn = 0;
        for blocks in covered.chunk_by(|before, after| before == after) {
            let length = blocks.len() as u32;
            if !blocks[0] {
                let words = [lbn, length].map(u64::from);
                self.expect_words(run, Call::FreeRun(lbn), &words);
            }
            lbn += length;
        }
        let last = covered.iter().rposition(|&covered| !covered);
        let after = last.map_or(0, |last| last as u32 + 1);
        self.expect(run, Call::FreeRun(after), Number::Absent);
    }
}

/// The numbers of headers that damages aim at.
fn aimed(volume: &Volume) -> Vec<u16> {
    let roles = volume.roles;
    let mut aimed = vec![1, 2, 4, roles.plain, roles.chained];
    aimed.retain(|&number| number != 0);
    let chained = volume.files.iter().find(|it| it.number() == roles.chained);
    aimed.extend(chained.iter().map(|file| file.headers[1].number));
    let further = volume.file(1).headers.iter().skip(1);
    let further: Vec<u16> = further.map(|header| header.number).collect();
    aimed.extend(further.first());
    aimed.extend(further.last());
    aimed
}

/// The IDs of those headers, whether they open a file or not.
fn aimed_ids(volume: &Volume) -> Vec<Id> {
    let headers = aimed(volume).into_iter();
    let headers = headers.map(|number| volume.header(number));
    headers
        .map(|header| Id::from_words([header.number, header.sequence, 0]))
        .collect()
}
