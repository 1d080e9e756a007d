//! What each block of a volume is: a file's, nobody's, or more than one file's.

use std::ops::Range;

use ods1::{Extent, FileId, Geometry, Header, Name, Refusal};

use crate::progress::Progress;

/// Whoever has blocks: a file, or an extension header that no file's chain of headers leads to.
pub struct Holder {
    pub id: FileId,
    pub name: Name,
    pub is_file: bool,
    /// What opening the file is refused with.
    pub refusal: Option<Refusal>,
}

/// What a holder's blocks are for.
#[derive(Clone, Copy, Debug, PartialEq, Eq, PartialOrd, Ord)]
pub enum Part {
    Boot,
    Home,
    IndexMap,
    Headers,
    StorageMap,
    BadBlocks,
    Master,
    File,
}

/// Blocks that lie in a row in their holder and on the volume, all for the same part.
pub struct Held {
    /// The holder's place among the holders.
    pub holder: usize,
    pub part: Part,
    pub vbn: u32,
    pub lbn: u32,
    pub blocks: u32,
}

/// What a block is. `held`, `first` and `last` are places among what is held.
#[derive(Clone, Copy, Debug, PartialEq, Eq)]
pub enum State {
    /// Free by the storage map, and nobody's.
    Free,
    /// Not free by the storage map, and nobody's.
    Lost,
    Held {
        held: usize,
    },
    /// Free by the storage map, and held.
    HeldYetFree {
        held: usize,
    },
    /// Covered so many times, by these among others.
    Twice {
        first: usize,
        last: usize,
        times: u8,
    },
}

/// Blocks in a row that are the same.
#[derive(Clone, Copy, Debug, PartialEq, Eq)]
pub struct Run {
    pub state: State,
    pub lbn: u32,
    pub blocks: u32,
}

/// What is known of a block.
#[derive(Clone, Copy, Default)]
struct Block {
    first: u32,
    last: u32,
    times: u8,
    is_free: bool,
}

/// The headers of a volume by their numbers.
struct Headers {
    /// By number; none is at 0.
    whole: Vec<Option<Header>>,
    /// Whether a header is some holder's already.
    is_taken: Vec<bool>,
    /// Numbers in use whose headers are damaged.
    damaged: Vec<u16>,
}

/// What each block of a volume is.
pub struct Survey {
    pub holders: Vec<Holder>,
    pub held: Vec<Held>,
    /// Numbers in use whose headers are damaged: nobody knows which blocks they have.
    pub damaged: Vec<u16>,
    blocks: Vec<Block>,
}

/// The numbers that have a slot.
fn numbers(geometry: &Geometry) -> u16 {
    let numbers = geometry.fmax.min(geometry.slots);
    u16::try_from(numbers).unwrap_or(u16::MAX)
}

impl Headers {
    /// Reads the headers of all numbers in use.
    fn read(image: &[u8], geometry: &Geometry) -> Headers {
        let last = numbers(geometry);
        let mut headers = Headers {
            whole: vec![None],
            is_taken: vec![false; usize::from(last) + 1],
            damaged: Vec::new(),
        };
        let mut progress = Progress::new("reading headers", last.into());
        for number in 1..=last {
            let header = ods1::header(image, number);
            if matches!(&header, Err(refused) if refused.refusal == Refusal::Header) {
                headers.damaged.push(number);
            }
            headers.whole.push(header.ok());
            progress.step(1);
        }
        headers
    }

    /// The header of a number, if it is whole and no holder's yet.
    fn untaken(&self, number: u16) -> Option<Header> {
        let number = usize::from(number);
        let header = *self.whole.get(number)?;
        header.filter(|_| !self.is_taken[number])
    }

    /// The header that a header links to; none where another is there than it says.
    fn after(&self, header: &Header) -> Option<(u16, Header)> {
        let next = self.untaken(header.next)?;
        let is_meant = next.sequence == header.next_sequence;
        let is_next = header.segment.checked_add(1) == Some(next.segment);
        (is_meant && is_next).then_some((header.next, next))
    }

    /// Takes a header and those that it leads to, for one holder.
    fn take_chain(&mut self, number: u16, header: Header) -> Vec<(u16, Header)> {
        let mut chain = Vec::new();
        let mut next = Some((number, header));
        while let Some((number, header)) = next {
            self.is_taken[usize::from(number)] = true;
            chain.push((number, header));
            next = self.after(&header);
        }
        chain
    }
}

/// What a VBN of a file is for, and the last VBN that is for the same.
fn part_at(number: u16, vbn: u32, geometry: &Geometry) -> (Part, u32) {
    let last_of_map = 2 + geometry.ibsz;
    match (number, vbn) {
        (1, 1) => (Part::Boot, 1),
        (1, 2) => (Part::Home, 2),
        (1, vbn) if vbn <= last_of_map => (Part::IndexMap, last_of_map),
        (1, _) => (Part::Headers, u32::MAX),
        (2, _) => (Part::StorageMap, u32::MAX),
        (3, _) => (Part::BadBlocks, u32::MAX),
        (4, _) => (Part::Master, u32::MAX),
        _ => (Part::File, u32::MAX),
    }
}

impl Survey {
    /// Surveys a volume that opens.
    pub fn of(image: &[u8], geometry: &Geometry) -> Survey {
        let mut headers = Headers::read(image, geometry);
        let mut survey = Survey {
            holders: Vec::new(),
            held: Vec::new(),
            damaged: std::mem::take(&mut headers.damaged),
            blocks: vec![Block::default(); geometry.blocks as usize],
        };
        for is_file in [true, false] {
            survey.add_holders(image, geometry, &mut headers, is_file);
        }
        for run in ods1::free_runs(image) {
            for block in &mut survey.blocks[range(run.lbn, run.blocks)] {
                block.is_free = true;
            }
        }
        survey
    }

    /// Adds the files, or else the headers that no file took.
    fn add_holders(
        &mut self,
        image: &[u8],
        geometry: &Geometry,
        headers: &mut Headers,
        is_file: bool,
    ) {
        for number in 1..=numbers(geometry) {
            let header = headers.untaken(number);
            if let Some(header) = header.filter(|header| (header.segment == 0) == is_file) {
                let id = FileId::of(number, header.sequence, 0);
                let opened = ods1::open_file(image, id);
                self.holders.push(Holder {
                    id,
                    name: header.name,
                    is_file,
                    refusal: opened.err().map(|refused| refused.refusal),
                });
                let chain = headers.take_chain(number, header);
                self.add_blocks(image, geometry, &chain);
            }
        }
    }

    /// Adds the blocks of the last holder, whose headers these are.
    fn add_blocks(&mut self, image: &[u8], geometry: &Geometry, chain: &[(u16, Header)]) {
        let pointers = chain.iter().flat_map(|&(number, header)| {
            (0..header.pointers).filter_map(move |place| ods1::pointer(image, number, place).ok())
        });
        let mut vbn = 1;
        for extent in pointers {
            self.add_extent(geometry, vbn, extent);
            vbn += extent.blocks;
        }
    }

    /// Adds blocks of the last holder, part by part.
    fn add_extent(&mut self, geometry: &Geometry, mut vbn: u32, extent: Extent) {
        let holder = self.holders.len() - 1;
        let number = self.holders[holder].id.number;
        let Extent { mut lbn, blocks } = extent;
        let end = lbn + blocks;
        while lbn < end {
            let (part, last) = part_at(number, vbn, geometry);
            let blocks = (end - lbn).min(last - vbn + 1);
            self.hold(Held {
                holder,
                part,
                vbn,
                lbn,
                blocks,
            });
            (vbn, lbn) = (vbn + blocks, lbn + blocks);
        }
    }

    /// Keeps what is held, and marks its blocks. It is one with what was kept before it where that is
    /// for the same part of the same holder, whose VBNs go on, and the LBNs go on too.
    fn hold(&mut self, held: Held) {
        let blocks = range(held.lbn, held.blocks);
        match self.held.last_mut() {
            Some(before)
                if (before.holder, before.part) == (held.holder, held.part)
                    && before.lbn + before.blocks == held.lbn =>
            {
                before.blocks += held.blocks;
            }
            _ => self.held.push(held),
        }
        let place = u32::try_from(self.held.len() - 1).expect("fewer pointers than four billion");
        for block in &mut self.blocks[blocks] {
            if block.times == 0 {
                block.first = place;
            }
            block.last = place;
            block.times = block.times.saturating_add(1);
        }
    }

    /// The runs of blocks that are the same, in order.
    pub fn runs(&self) -> Vec<Run> {
        let mut runs: Vec<Run> = Vec::new();
        for (lbn, block) in (0..).zip(&self.blocks) {
            let state = block.state();
            match runs.last_mut() {
                Some(run) if run.state == state => run.blocks += 1,
                _ => runs.push(Run {
                    state,
                    lbn,
                    blocks: 1,
                }),
            }
        }
        runs
    }
}

impl Block {
    fn state(&self) -> State {
        let held = self.first as usize;
        match (self.times, self.is_free) {
            (0, true) => State::Free,
            (0, false) => State::Lost,
            (1, false) => State::Held { held },
            (1, true) => State::HeldYetFree { held },
            (times, _) => State::Twice {
                first: held,
                last: self.last as usize,
                times,
            },
        }
    }
}

/// Blocks in a row, as places in the survey's blocks.
fn range(lbn: u32, blocks: u32) -> Range<usize> {
    lbn as usize..lbn as usize + blocks as usize
}

#[cfg(test)]
mod tests {
    use super::*;
    use ods1::{Refused, WorkAreas};
    use volumes::flaw::each_flawed;
    use volumes::header::Pointer;
    use volumes::shapes::Maker;
    use volumes::volume::{put_bit, File};
    use volumes::volume_v::volume_v;
    use volumes::Volume;

    fn survey(volume: &Volume) -> Survey {
        let geometry = ods1::geometry(&volume.image).expect("the volume opens");
        Survey::of(&volume.image, &geometry)
    }

    fn small_volumes(count: u64) -> Vec<Volume> {
        let maker = Maker {
            seed: 1,
            purpose: "picture",
        };
        maker.small(count)
    }

    fn id_of(file: &File) -> FileId {
        let first = &file.headers[0];
        FileId::of(first.number, first.sequence, 0)
    }

    /// The holder of each block of a volume and its VBN, where nothing is wrong with the block.
    fn held_blocks(survey: &Survey) -> Vec<Option<(FileId, u32)>> {
        let blocks = survey.runs().into_iter().flat_map(|run| {
            let held = match run.state {
                State::Held { held } => Some(&survey.held[held]),
                _ => None,
            };
            (run.lbn..run.lbn + run.blocks).map(move |lbn| {
                let held = held?;
                let vbn = held.vbn + lbn - held.lbn;
                Some((survey.holders[held.holder].id, vbn))
            })
        });
        blocks.collect()
    }

    /// Sees that the blocks of a holder are those of a header, and no others.
    fn expect_held(survey: &Survey, volume: &Volume, id: FileId, number: u16) {
        let blocks = held_blocks(survey);
        let mut held: Vec<(u32, u32)> = (0..)
            .zip(blocks)
            .filter_map(|(lbn, block)| Some((block.filter(|block| block.0 == id)?.1, lbn)))
            .collect();
        held.sort_unstable();
        let pointers = volume.header(number).pointers.iter();
        let lbns = pointers.flat_map(|pointer| pointer.lbns());
        assert_eq!(held, (1..).zip(lbns).collect::<Vec<_>>(), "{id}");
    }

    fn holder(survey: &Survey, id: FileId) -> &Holder {
        let mut holders = survey.holders.iter();
        let holder = holders.find(|holder| holder.id == id);
        holder.expect("the ID is a holder's")
    }

    #[test]
    fn every_block_of_a_sound_volume_is_its_files() {
        for volume in small_volumes(200) {
            let mut expected = vec![None; volume.plan.blocks as usize];
            for file in &volume.files {
                for (vbn, lbn) in (1..).zip(file.lbns()) {
                    expected[lbn as usize] = Some((id_of(file), vbn));
                }
            }
            let survey = survey(&volume);
            assert_eq!(held_blocks(&survey), expected, "{}", volume.describe());
            assert_eq!(survey.holders.len(), volume.files.len());
            let free = survey.runs().into_iter();
            let free: u32 = free
                .filter_map(|run| (run.state == State::Free).then_some(run.blocks))
                .sum();
            let held = expected.iter().flatten().count();
            assert_eq!(free as usize + held, expected.len());
        }
    }

    #[test]
    fn locked_files_are_shown() {
        for volume in small_volumes(4) {
            let file = volume.file(volume.roles.locked);
            let survey = survey(&volume);
            let refusal = holder(&survey, id_of(file)).refusal;
            assert_eq!(refusal, Some(Refusal::Locked));
            expect_held(&survey, &volume, id_of(file), file.number());
        }
    }

    #[test]
    fn a_link_to_another_sequence_is_not_followed() {
        for mut volume in small_volumes(20) {
            let chained = volume.file(volume.roles.chained).clone();
            let second = chained.headers[1].number;
            volume.edit_header(second, |header| header.sequence ^= 1);
            let survey = survey(&volume);
            let file = id_of(&chained);
            assert_eq!(holder(&survey, file).refusal, Some(Refusal::Chain));
            expect_held(&survey, &volume, file, file.number);
            let by_itself = FileId::of(second, volume.header(second).sequence, 0);
            assert!(!holder(&survey, by_itself).is_file);
        }
    }

    #[test]
    fn a_header_that_two_files_link_to_is_counted_once() {
        for mut volume in small_volumes(20) {
            let roles = volume.roles;
            let link = volume.file(roles.chained).headers[0].link;
            volume.edit_header(roles.plain, |header| header.link = link);
            let runs = survey(&volume).runs();
            let is_twice = |run: &Run| matches!(run.state, State::Twice { .. });
            assert!(!runs.iter().any(is_twice), "{}", volume.describe());
        }
    }

    /// The lowest block that is covered twice, and the lowest that the storage map is wrong about.
    fn lowest(survey: &Survey) -> [Option<u32>; 2] {
        let runs = survey.runs();
        let first = |test: fn(&State) -> bool| {
            let mut wrong = runs.iter().filter(|run| test(&run.state));
            wrong.next().map(|run| run.lbn)
        };
        [
            first(|state| matches!(state, State::Twice { .. })),
            first(|state| matches!(state, State::Lost | State::HeldYetFree { .. })),
        ]
    }

    /// Whether what is wrong with the blocks of a volume is what the verdict says, if it says so.
    fn is_as_judged(volume: &Volume) -> Option<bool> {
        let mut areas = WorkAreas::for_length(volume.image.len());
        let verdict = ods1::judge(&volume.image, &mut areas);
        let [twice, map] = lowest(&survey(volume)).map(|lbn| lbn.map(u64::from));
        match verdict {
            Ok(_) => Some(twice.is_none() && map.is_none()),
            Err(Refused { refusal, place }) => match refusal {
                Refusal::Twice => Some(twice == Some(place)),
                // A bit from N on is no block's.
                Refusal::Map if place >= volume.plan.blocks.into() => Some(map.is_none()),
                Refusal::Map => Some(twice.is_none() && map == Some(place)),
                _ => None,
            },
        }
    }

    #[test]
    fn what_is_wrong_is_what_the_verdict_says() {
        let mut judged = 0;
        each_flawed(&small_volumes(8), |flawed| {
            let is_so = is_as_judged(&flawed.changed);
            judged += u32::from(is_so.is_some());
            let (name, built) = (&flawed.flaw.name, flawed.changed.describe());
            assert_ne!(is_so, Some(false), "{name}, {built}");
        });
        assert!(judged > 1_000, "{judged} verdicts on blocks");
    }

    #[test]
    fn pointers_that_go_on_from_each_other_are_one_run() {
        let runs = survey(&volume_v()).runs();
        let mut volume = volume_v();
        let single = [30, 31, 25].map(|lbn| Pointer { lbn, blocks: 1 });
        volume.edit_header(6, |header| header.pointers = single.to_vec());
        assert_eq!(survey(&volume).runs(), runs);
    }

    #[test]
    fn the_blocks_of_a_damaged_header_are_lost() {
        let mut volume = volume_v();
        let lbn = volume.slot_of(6);
        volume.block_mut(lbn)[0] ^= 1;
        let survey = survey(&volume);
        assert_eq!(survey.damaged, [6]);
        let lost = survey.runs().into_iter();
        let lost =
            lost.filter_map(|run| (run.state == State::Lost).then_some((run.lbn, run.blocks)));
        assert_eq!(lost.collect::<Vec<_>>(), [(25, 1), (30, 2)]);
    }

    #[test]
    fn what_is_wrong_with_blocks() {
        let mut volume = volume_v();
        for (bit, is_free) in [(25, true), (40, false), (41, false)] {
            put_bit(volume.storage_map_mut(), bit, is_free);
        }
        let again = Pointer { lbn: 31, blocks: 2 };
        volume.edit_header(4, |header| header.pointers.push(again));
        let survey = survey(&volume);
        let states: Vec<State> = (survey.runs().into_iter())
            .flat_map(|run| (0..run.blocks).map(move |_| run.state))
            .collect();
        let place = |lbn, vbn| {
            let mut held = survey.held.iter();
            let place = held.position(|held| (held.lbn, held.vbn) == (lbn, vbn));
            place.expect("it is held")
        };
        assert_eq!(states.len(), 100);
        assert_eq!(states[24], State::Free);
        assert_eq!(states[25], State::HeldYetFree { held: place(25, 3) });
        assert_eq!(states[30], State::Held { held: place(30, 1) });
        let [first, last] = [place(31, 2), place(30, 1)];
        let times = 2;
        assert_eq!(states[31], State::Twice { first, last, times });
        assert_eq!(states[32], State::HeldYetFree { held: first });
        assert_eq!(states[40..43], [State::Lost, State::Lost, State::Free]);
    }
}
