//! The comparisons of the verdict: every word of its answer, and every byte of both work areas.

use crate::images::Subject;
use crate::run::{first_difference, show_answer, Line, Run};
use library::{Lender, Words};
use model::verdict::{self, Offence, Refusal, Verdict};
use model::volume::{self, BadLink};
use model::{sound, Answer};
use volumes::flaw::Judged;
use volumes::{Random, Volume};

/// The two work areas, with what they hold.
#[derive(Clone, Debug, PartialEq, Eq)]
pub struct Areas {
    pub blocks: Vec<u8>,
    pub headers: Vec<u8>,
}

impl Areas {
    /// Areas of these lengths that hold any bytes.
    pub fn random(random: &mut Random, blocks: usize, headers: usize) -> Areas {
        let mut areas = Areas {
            blocks: vec![0; blocks],
            headers: vec![0; headers],
        };
        random.fill(&mut areas.blocks);
        random.fill(&mut areas.headers);
        areas
    }

    /// Areas that are enough for an image, and hold any bytes.
    pub fn enough_for(random: &mut Random, image: &[u8]) -> Areas {
        let (blocks, headers) = enough(random, needed(image));
        Areas::random(random, blocks, headers)
    }

    /// The first mark in which the areas that library and model left differ, where these are the
    /// areas before.
    pub fn difference(&self, library: &Areas, model: &Areas) -> Option<Line> {
        let blocks = (&library.blocks, &model.blocks, &self.blocks);
        let headers = (&library.headers, &model.headers, &self.headers);
        let both = [("block marks", blocks), ("header marks", headers)];
        both.into_iter()
            .find_map(|(name, (library, model, before))| {
                let place = first_byte(library, model)?;
                let differs = format!(
                    "place {place}: library {}, model {}, before {}",
                    library[place], model[place], before[place]
                );
                Some((name, differs))
            })
    }
}

/// The first place in which bytes differ.
pub fn first_byte(left: &[u8], right: &[u8]) -> Option<usize> {
    if left == right {
        return None;
    }
    (0..left.len()).find(|&place| left[place] != right[place])
}

/// The lengths that the work areas of an image must have: N and H.FMAX; where it does not open, any.
pub fn needed(image: &[u8]) -> (usize, usize) {
    match volume::open(image) {
        Ok(volume) => (volume.image().blocks() as usize, volume.h_fmax() as usize),
        Err(_) => (image.len() / 512, 16),
    }
}

/// Lengths of work areas that are enough: just so, or longer.
pub fn enough(random: &mut Random, (blocks, headers): (usize, usize)) -> (usize, usize) {
    let more = |random: &mut Random| match random.below(4) {
        0 => 1,
        1 => random.between(1, 600),
        _ => 0,
    };
    let (more_blocks, more_headers) = (more(random), more(random));
    (blocks + more_blocks, headers + more_headers)
}

/// Lengths of work areas of which at least one is too short: by one, empty, or by any.
pub fn too_short(random: &mut Random, (blocks, headers): (usize, usize)) -> (usize, usize) {
    let less = |random: &mut Random, length: usize| match random.below(4) {
        0 => 0,
        1 => random.between(0, length.saturating_sub(1)),
        _ => length.saturating_sub(1),
    };
    match random.below(3) {
        0 => (less(random, blocks), headers + random.between(0, 2)),
        1 => (blocks + random.between(0, 2), less(random, headers)),
        _ => (less(random, blocks), less(random, headers)),
    }
}

/// The lenders of the two work areas, and of an image that is to be changed.
#[derive(Default)]
pub struct Desk {
    blocks: Lender,
    headers: Lender,
    image: Lender,
}

impl Desk {
    /// What the library answers, and what it leaves in the work areas, which are lent so that a
    /// write or a read beside them is seen.
    fn by_library(&mut self, image: &[u8], areas: &mut Areas) -> Words {
        self.lend_areas(areas, |blocks, headers| {
            library::judge(image, blocks, headers)
        })
    }

    /// Lends the two work areas to a call, so that a write or a read beside them is seen.
    pub fn lend_areas(
        &mut self,
        areas: &mut Areas,
        call: impl FnOnce(&mut [u8], &mut [u8]) -> Words,
    ) -> Words {
        lend_both((&mut self.blocks, &mut self.headers), areas, call)
    }

    /// Lends an image that is to be changed, and the two work areas, so that a write or a read beside
    /// them is seen.
    pub fn lend_all(
        &mut self,
        image: &mut [u8],
        areas: &mut Areas,
        call: impl FnOnce(&mut [u8], &mut [u8], &mut [u8]) -> Words,
    ) -> Words {
        let both = (&mut self.blocks, &mut self.headers);
        self.image.lend_to_write(image, |image| {
            lend_both(both, areas, |blocks, headers| call(image, blocks, headers))
        })
    }
}

/// Lends the two work areas to a call.
fn lend_both(
    (blocks, headers): (&mut Lender, &mut Lender),
    areas: &mut Areas,
    call: impl FnOnce(&mut [u8], &mut [u8]) -> Words,
) -> Words {
    blocks.lend_to_write(&mut areas.blocks, |blocks| {
        headers.lend_to_write(&mut areas.headers, |headers| call(blocks, headers))
    })
}

impl Subject<'_> {
    /// Compares the verdict with work areas that are enough, and now and then with some that are
    /// too short; and sees that an image is accepted just where it opens and is sound.
    pub fn compare_verdict(&self, run: &mut Run, random: &mut Random, desk: &mut Desk) {
        let needed = needed(self.image);
        let lengths = enough(random, needed);
        let areas = Areas::random(random, lengths.0, lengths.1);
        let answer = self.compare_judge(run, desk, &areas);
        let accepted = answer[0] == 0;
        let is_sound = sound::opens_and_is_sound(self.image);
        if accepted != is_sound {
            let what = format!("accepted {accepted}, opens and is sound {is_sound}");
            self.fail_judge(run, &areas, vec![("demand 3", what)]);
        }
        if random.once_in(4) {
            let lengths = too_short(random, needed);
            let areas = Areas::random(random, lengths.0, lengths.1);
            self.compare_judge(run, desk, &areas);
        }
    }

    /// Compares the verdict with these work areas: all words of the answer, and all bytes that are
    /// then in the areas.
    pub fn compare_judge(&self, run: &mut Run, desk: &mut Desk, areas: &Areas) -> Words {
        let mut by_library = areas.clone();
        let answer = desk.by_library(self.image, &mut by_library);
        let mut by_model = areas.clone();
        let verdict = verdict::verdict(self.image, &mut by_model.blocks, &mut by_model.headers);
        let expected = verdict::answer(&verdict).words();
        run.meet("judge", expected[0]);
        meet_offence(run, &verdict);
        if answer != expected {
            let differs = first_difference(&answer, &expected);
            let lines = vec![
                ("differs first", differs),
                ("library", show_answer(&answer)),
                ("model", show_answer(&expected)),
            ];
            self.fail_judge(run, areas, lines);
        }
        if let Some(differs) = areas.difference(&by_library, &by_model) {
            let lines = vec![("model", show_answer(&expected)), differs];
            self.fail_judge(run, areas, lines);
        }
        answer
    }

    /// Sees that the library judges as was expected without the model, whatever the work areas hold.
    pub fn expect_judged(
        &self,
        run: &mut Run,
        random: &mut Random,
        desk: &mut Desk,
        expected: Judged,
    ) {
        let areas = Areas::enough_for(random, self.image);
        let answer = desk.by_library(self.image, &mut areas.clone());
        let judged = match expected {
            Judged::Accepted => answer[..2] == [0, 0],
            Judged::Refused(number, place) => answer == Answer::refused_at(number, place).words(),
        };
        if !judged {
            let lines = vec![
                ("library", show_answer(&answer)),
                ("the paper", format!("{expected:?}")),
            ];
            self.fail_judge(run, &areas, lines);
        }
    }

    /// Sees that the library accepts an image, with these four counts.
    pub fn expect_counts(&self, run: &mut Run, desk: &mut Desk, areas: &Areas, counts: [u64; 4]) {
        let answer = desk.by_library(self.image, &mut areas.clone());
        let expected = Answer::done(&counts).words();
        if answer != expected {
            let lines = vec![
                ("library", show_answer(&answer)),
                ("the builder", show_answer(&expected)),
            ];
            self.fail_judge(run, areas, lines);
        }
    }

    /// Sees that the library accepts a sound volume, with the counts that the builder knows, and
    /// compares the verdict.
    pub fn compare_accepted(
        &self,
        run: &mut Run,
        random: &mut Random,
        desk: &mut Desk,
        volume: &Volume,
    ) {
        let blocks = u64::from(volume.plan.blocks);
        let claimed = volume.files.iter().map(|file| u64::from(file.blocks()));
        let claimed: u64 = claimed.sum();
        let headers = volume.headers().count() as u64;
        let (n, h_fmax) = needed(self.image);
        let areas = Areas::random(random, n, h_fmax);
        let counts = [blocks, claimed, blocks - claimed, headers];
        self.expect_counts(run, desk, &areas, counts);
        self.compare_verdict(run, random, desk);
    }

    /// Reports a verdict that is not as it should be.
    fn fail_judge(&self, run: &Run, areas: &Areas, lines: Vec<Line>) -> ! {
        let mut all = self.story.to_vec();
        all.extend([
            ("image", format!("{} bytes", self.image.len())),
            ("block area", format!("{} bytes", areas.blocks.len())),
            ("header area", format!("{} bytes", areas.headers.len())),
        ]);
        all.extend(lines);
        run.fail("the library judges otherwise", &all);
    }
}

/// The kind of what is met where the verdict refuses: see `offence_number`.
pub const OFFENCE: &str = "offence";

/// The numbers of the offences of FILES but those of a header that is not whole, of which those are
/// 1 to 12.
pub const KNOWN_NOT_IN_USE: u64 = 21;
pub const KNOWN_SEQUENCE: u64 = 22;
pub const KNOWN_SEGMENT: u64 = 23;
pub const NO_SLOT: u64 = 24;

/// The numbers of the offences of LINKS. A bad link to a number without slot, or to a header that is
/// not whole, is never met: FILES refuses it.
pub const LINK_NOT_IN_USE: u64 = 31;
pub const LINK_SEQUENCE: u64 = 32;
pub const LINK_SEGMENT: u64 = 33;
pub const FIRST_IS_LINKED: u64 = 34;
pub const LINKED_BY_NONE: u64 = 35;
pub const LINKED_TWICE: u64 = 36;

/// The numbers of the offences of TWICE, BADHOME and MAP.
pub const TWICE: u64 = 41;
pub const BAD_HOME: u64 = 42;
pub const SET_AND_COVERED: u64 = 43;
pub const CLEAR_AND_COVERED_BY_NONE: u64 = 44;
pub const SET_FROM_N: u64 = 45;

/// Every number of an offence.
pub fn offences() -> impl Iterator<Item = u64> {
    let whole = 1..=12;
    let files = KNOWN_NOT_IN_USE..=NO_SLOT;
    let links = LINK_NOT_IN_USE..=LINKED_TWICE;
    whole.chain(files).chain(links).chain(TWICE..=SET_FROM_N)
}

/// A number for what is wrong with an offender.
fn offence_number(offence: Offence) -> u64 {
    match offence {
        Offence::NotWhole(test) => test as u64,
        Offence::KnownNotInUse => KNOWN_NOT_IN_USE,
        Offence::KnownSequence => KNOWN_SEQUENCE,
        Offence::KnownSegment => KNOWN_SEGMENT,
        Offence::NoSlot => NO_SLOT,
        Offence::BadLink(BadLink::NotInUse) => LINK_NOT_IN_USE,
        Offence::BadLink(BadLink::Sequence) => LINK_SEQUENCE,
        Offence::BadLink(BadLink::Segment) => LINK_SEGMENT,
        Offence::BadLink(link) => panic!("{link:?} where FILES passed"),
        Offence::FirstIsLinked => FIRST_IS_LINKED,
        Offence::LinkedByNone => LINKED_BY_NONE,
        Offence::LinkedTwice => LINKED_TWICE,
        Offence::Twice => TWICE,
        Offence::BadHome => BAD_HOME,
        Offence::SetAndCovered => SET_AND_COVERED,
        Offence::ClearAndCoveredByNone => CLEAR_AND_COVERED_BY_NONE,
        Offence::SetFromN => SET_FROM_N,
    }
}

/// Counts what was wrong with the offender, if there was one.
fn meet_offence(run: &mut Run, verdict: &Verdict) {
    if let Err(Refusal::Offender { offence, .. }) = *verdict {
        run.meet(OFFENCE, offence_number(offence));
    }
}
