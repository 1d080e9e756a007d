//! Flaws: one for each way that a rule of the verdict of paper 01 can be broken on a volume that
//! opens, and one for each change next to it that breaks none. Each tells the offenders, by the
//! paper and not by the model.

mod badhome;
mod files;
mod links;
mod long_index;
mod map;
mod order;
mod twice;

use crate::block::seal_header;
use crate::damage::long_volumes_to_damage;
use crate::header::{at, Areas, Header, Pointer, MOST_POINTERS};
use crate::long_index::long_volume;
use crate::random::Random;
use crate::shapes::{Maker, Size};
use crate::volume::{File, Volume};
use model::Number;

/// What the verdict answers.
#[derive(Clone, Copy, Debug, PartialEq, Eq)]
pub enum Judged {
    /// DONE.
    Accepted,
    /// A refusal, with its place.
    Refused(Number, u64),
}

/// A header of a volume, by its number.
type Which = fn(&Volume) -> u16;

/// The offenders of a rule, in any order: numbers, LBNs or bits. None at all where nothing is wrong.
type Offenders = Vec<u32>;

/// A change of a volume: it answers the offenders, or none where the volume has nothing that it
/// could change.
type Edit = Box<dyn Fn(&mut Volume) -> Option<Offenders>>;

/// A flaw with a name, and the rule that it breaks.
pub struct Flaw {
    pub name: String,
    rule: Number,
    edit: Edit,
}

impl Flaw {
    /// A flaw of a rule. No rule before it is broken.
    fn new(
        rule: Number,
        name: impl Into<String>,
        edit: impl Fn(&mut Volume) -> Option<Offenders> + 'static,
    ) -> Flaw {
        Flaw {
            name: format!("{}: {}", rule.name(), name.into()),
            rule,
            edit: Box::new(edit),
        }
    }

    /// Changes a sound volume, and answers what the verdict then is; none where this flaw does not
    /// apply. A volume that another flaw has changed can be changed further; what is then answered
    /// holds of this flaw alone.
    pub fn apply(&self, volume: &mut Volume) -> Option<Judged> {
        let roles = volume.roles;
        let needed = [3, 4, 5, roles.plain, roles.chained, roles.empty];
        let has = |number: &u16| volume.files.iter().any(|file| file.number() == *number);
        if !needed.iter().all(has) {
            return None;
        }
        let offenders = (self.edit)(volume)?;
        let lowest = offenders.into_iter().min();
        Some(match lowest {
            None => Judged::Accepted,
            Some(place) => Judged::Refused(self.rule, u64::from(place)),
        })
    }
}

/// Every flaw.
pub fn flaws() -> Vec<Flaw> {
    let mut all = Vec::new();
    all.extend(files::flaws());
    all.extend(links::flaws());
    all.extend(twice::flaws());
    all.extend(badhome::flaws());
    all.extend(map::flaws());
    all.extend(order::flaws());
    all
}

/// Every flaw of a volume whose index file has several headers: those of any, and those of the index
/// file.
pub fn long_index_flaws() -> Vec<Flaw> {
    let mut all = flaws();
    all.extend(long_index::flaws());
    all
}

/// A volume with a flaw: the flaw, the sound volume, the changed one, and what the verdict then is.
pub struct Flawed<'a> {
    pub flaw: &'a Flaw,
    pub sound: &'a Volume,
    pub changed: Volume,
    pub judged: Judged,
}

/// From so many blocks, or headers of its index file, on a volume takes long to change and to judge.
const LARGE: u32 = 2_000;
const LONG: usize = 60;

/// One in how many things is tried on a volume that others have shown often enough: all of them, unless
/// it takes long to change and to judge.
pub fn tried_one_in(volume: &Volume) -> usize {
    match volume.file(1).headers.len() {
        headers if headers > LONG => 16,
        _ if volume.plan.blocks > LARGE => 4,
        _ => 1,
    }
}

/// Gives each flaw on each volume that it applies to. Answers the flaws that apply to none.
pub fn each_flawed(volumes: &[Volume], each: impl FnMut(Flawed)) -> Vec<String> {
    each_flawed_by(&flaws(), volumes, each)
}

/// Gives each of some flaws on each volume that it applies to; where it takes long, some of those that
/// other volumes have shown often enough. Answers the flaws that apply to none.
pub fn each_flawed_by(
    flaws: &[Flaw],
    volumes: &[Volume],
    mut each: impl FnMut(Flawed),
) -> Vec<String> {
    let mut none = Vec::new();
    for (number, flaw) in flaws.iter().enumerate() {
        let mut applied = 0;
        for (place, sound) in volumes.iter().enumerate() {
            if applied >= 6 && (number + place) % tried_one_in(sound) != 0 {
                continue;
            }
            let mut changed = sound.clone();
            if let Some(judged) = flaw.apply(&mut changed) {
                applied += 1;
                each(Flawed {
                    flaw,
                    sound,
                    changed,
                    judged,
                });
            }
        }
        if applied == 0 {
            none.push(flaw.name.clone());
        }
    }
    none
}

/// No offender: the volume stays sound, once its storage map is put right.
fn still_sound(volume: &mut Volume) -> Option<Offenders> {
    volume.put_storage_map();
    Some(vec![])
}

/// Makes a header not whole, by its H.FLEV; its checksum is right.
fn break_header(volume: &mut Volume, number: u16) {
    let lbn = volume.slot_of(number);
    let block = volume.block_mut(lbn);
    block[at::H_FLEV] = 0;
    seal_header(block);
}

/// Puts a pointer after the last of a header, if there is room for one more.
fn add_pointer(volume: &mut Volume, number: u16, lbn: u32, blocks: u32) -> Option<()> {
    if volume.header(number).pointers.len() == MOST_POINTERS {
        return None;
    }
    volume.edit_header(number, |header| {
        header.pointers.push(Pointer { lbn, blocks });
        if 2 * header.pointers.len() > usize::from(header.areas.m_max) {
            header.areas = Areas::LARGEST;
        }
    });
    Some(())
}

/// The number of the last header of the index file: what it maps more moves no block of the index file.
fn last_index_header(volume: &Volume) -> u16 {
    let last = volume.file(1).headers.last();
    last.expect("a file has a header").number
}

/// Puts a header without pointers into the slot of an unused number, and the number in use.
fn add_header(volume: &mut Volume, sequence: u16, segment: u8) -> Option<u16> {
    let number = volume.unused_number()?;
    let header = Header {
        segment,
        ..Header::new(number, sequence, Vec::new())
    };
    volume.add(File::of(header));
    Some(number)
}

/// The blocks that no pointer covers, in order.
fn free_lbns(volume: &Volume) -> Vec<u32> {
    let covered = volume.covered();
    let lbns = (0..).zip(covered).filter(|&(_, covered)| !covered);
    lbns.map(|(lbn, _)| lbn).collect()
}

/// The first of `count` free blocks in a row.
fn free_run(volume: &Volume, count: u32) -> Option<u32> {
    let free = free_lbns(volume);
    let mut runs = free.windows(count as usize);
    let run = runs.find(|run| run[count as usize - 1] == run[0] + count - 1)?;
    Some(run[0])
}

/// Volumes to judge, of every kind that some flaw needs: small ones, one whose chained file has 256
/// headers, some with homes passed over, one whose N is a multiple of a map block's bits, and one
/// with numbers in use past the first block of the index map.
pub fn volumes_to_judge(seed: u64, small: u64) -> Vec<Volume> {
    let maker = Maker {
        seed,
        purpose: "volumes_to_judge",
    };
    let mut volumes = maker.small(small);
    volumes.push(maker.longest_chain());
    volumes.push(maker.find(Size::Blocks(1_405), |volume| volume.plan.home == 1_024));
    volumes.push(maker.find(Size::Blocks(900), |volume| {
        volume.plan.home == 768 && volume.file(3).headers.len() > 2
    }));
    volumes.push(maker.find(Size::Blocks(4_096), |volume| volume.plan.home == 512));
    volumes.push(maker.find(Size::Blocks(4_099), |volume| {
        volume.plan.home == 1 && volume.last_slot() > u32::from(volume.plan.h_fmax)
    }));
    volumes.push(maker.find(Size::Blocks(13_000), |volume| {
        volume.headers().any(|header| header.number > 4_096)
    }));
    volumes
}

/// Volumes to judge whose index file has several headers, of every kind that some flaw needs: those to
/// damage, some with homes passed over, and one whose chained file has 256 headers. Those that take long
/// come last.
pub fn long_volumes_to_judge(seed: u64, small: u64) -> Vec<Volume> {
    let mut volumes = long_volumes_to_damage(seed, small);
    let random = |number| Random::of_case(seed, "long_volumes_to_judge", number);
    let find = |blocks, shape, test: &dyn Fn(&Volume) -> bool| {
        let mut all = (0..).map(|number| long_volume(&mut random(number), blocks, shape));
        let found = all.find(|volume| test(volume));
        found.expect("there is always another one")
    };
    volumes.push(find(1_405, (60, 3), &|volume| volume.plan.home == 1_024));
    volumes.push(find(1_405, (60, 30), &|volume| volume.plan.home == 768));
    volumes.push(find(1_900, (475, 20), &|volume| {
        let chained = volume.file(volume.roles.chained);
        chained.headers.len() == 256 && volume.unused_number().is_some()
    }));
    volumes.sort_by_key(tried_one_in);
    volumes
}

#[cfg(test)]
mod tests {
    use super::*;
    use model::verdict::{self, Refusal};
    use model::{sound, volume};
    use std::collections::BTreeMap;

    #[test]
    fn names_are_told_apart() {
        let all = long_index_flaws().into_iter();
        let mut names: Vec<String> = all.map(|flaw| flaw.name).collect();
        let all = names.len();
        names.sort_unstable();
        names.dedup();
        assert_eq!(names.len(), all);
        assert!(all > 550, "{all} flaws");
    }

    /// Judges a volume by the model, and holds what sound means to that.
    fn judged(image: &[u8], blocks: &mut [u8], headers: &mut [u8]) -> Judged {
        let verdict = verdict::verdict(image, blocks, headers);
        assert_eq!(verdict.is_ok(), sound::opens_and_is_sound(image));
        match verdict {
            Ok(_) => Judged::Accepted,
            Err(Refusal::BeforeJudging(number)) => Judged::Refused(number, 0),
            Err(Refusal::Offender { number, place, .. }) => Judged::Refused(number, place),
        }
    }

    /// Sees that each flaw applies to some of the volumes and is judged as it says, and that each rule
    /// is met often enough.
    fn expect_judged(flaws: &[Flaw], volumes: &[Volume]) {
        let mut blocks = vec![0; 13_000];
        let mut headers = vec![0; 65_535];
        let mut met = BTreeMap::new();
        let none = each_flawed_by(flaws, volumes, |flawed| {
            let image = &flawed.changed.image;
            let (name, built) = (&flawed.flaw.name, flawed.sound.describe());
            assert!(volume::open(image).is_ok(), "{name}, {built}");
            let judged = judged(image, &mut blocks, &mut headers);
            assert_eq!(judged, flawed.judged, "{name}, {built}");
            let number = match judged {
                Judged::Accepted => Number::Done,
                Judged::Refused(number, _) => number,
            };
            *met.entry(number.number()).or_insert(0) += 1;
        });
        assert!(none.is_empty(), "{none:?} do not apply");
        for number in [0, 17, 18, 19, 20, 21] {
            let times = met.get(&number).copied().unwrap_or(0);
            assert!(times >= 60, "number {number} {times} times");
        }
    }

    #[test]
    fn every_flaw_is_judged_as_the_paper_says() {
        expect_judged(&flaws(), &volumes_to_judge(5, 16));
    }

    #[test]
    fn every_flaw_on_a_long_index_is_judged_as_the_paper_says() {
        expect_judged(&long_index_flaws(), &long_volumes_to_judge(5, 8));
    }
}
