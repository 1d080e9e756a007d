//! Damages: one for each way that a rule of paper 01 can be broken, and one for each change next to
//! it that breaks none. Each tells what a call then answers, by the paper and not by the model.

mod chain;
pub(crate) mod header;
mod home;
mod known;
mod links;
mod long_index;
mod number;

use crate::block::{is_sealed_header, is_sealed_home, seal_header, seal_home};
use crate::flaw::tried_one_in;
use crate::hub::{hub, Hub};
use crate::long_index::{fragmented_volume, long_volume, random_long_volume, MOST_HEADERS};
use crate::random::Random;
use crate::shapes::{Maker, Size};
use crate::volume::Volume;
use model::{Id, Number};

/// What a call answers after a damage.
#[derive(Clone, Copy, Debug, PartialEq, Eq)]
pub enum Expected {
    /// Opening the volume answers this number.
    Volume(Number),
    /// Opening this file answers this number.
    File(Id, Number),
}

impl Expected {
    /// The number that is answered.
    pub fn number(self) -> Number {
        match self {
            Expected::Volume(number) | Expected::File(_, number) => number,
        }
    }
}

/// What becomes of the checksums of the blocks that a damage changes.
#[derive(Clone, Copy, Debug, PartialEq, Eq)]
pub enum Checksums {
    /// They are put right, so that the damage itself is seen.
    PutRight,
    /// They are left as they were, so that mostly they are wrong.
    Left,
}

/// A change of a volume: it answers what is then expected, or none where the volume has nothing
/// that it could change.
type Edit = Box<dyn Fn(&mut Volume) -> Option<Expected>>;

/// A damage with a name.
pub struct Damage {
    pub name: String,
    edit: Edit,
    /// Whether it is a damage of a checksum itself.
    of_checksum: bool,
}

impl Damage {
    /// A damage of anything but a checksum.
    fn new(
        name: impl Into<String>,
        edit: impl Fn(&mut Volume) -> Option<Expected> + 'static,
    ) -> Damage {
        Damage {
            name: name.into(),
            edit: Box::new(edit),
            of_checksum: false,
        }
    }

    /// A damage of a checksum, which is not put right afterwards.
    fn of_checksum(
        name: impl Into<String>,
        edit: impl Fn(&mut Volume) -> Option<Expected> + 'static,
    ) -> Damage {
        Damage {
            of_checksum: true,
            ..Damage::new(name, edit)
        }
    }

    /// Damages a volume, and answers what is then expected; none where this damage does not apply.
    pub fn apply(&self, volume: &mut Volume, checksums: Checksums) -> Option<Expected> {
        if self.of_checksum && checksums == Checksums::PutRight {
            return None;
        }
        let mut sealed = sealed_blocks(volume);
        let expected = (self.edit)(volume)?;
        sealed.retain(|block| block.is_changed(volume));
        let changed = sealed;
        match checksums {
            Checksums::PutRight => {
                changed.iter().for_each(|block| block.seal(volume));
                Some(expected)
            }
            Checksums::Left => {
                let wrong = changed.iter().filter(|block| !block.is_sealed(volume));
                let seen = wrong.map(|block| block.expected);
                let first = seen.min_by_key(|expected| expected.number().number());
                Some(first.unwrap_or(expected))
            }
        }
    }
}

/// A block with a checksum.
struct Sealed {
    lbn: u32,
    before: Vec<u8>,
    is_home: bool,
    /// What is answered where its checksum is wrong.
    expected: Expected,
}

impl Sealed {
    /// Puts its checksums right.
    fn seal(&self, volume: &mut Volume) {
        let block = volume.block_mut(self.lbn);
        if self.is_home {
            seal_home(block);
        } else {
            seal_header(block);
        }
    }

    /// Whether its checksums are right.
    fn is_sealed(&self, volume: &Volume) -> bool {
        let block = volume.block(self.lbn);
        if self.is_home {
            is_sealed_home(block)
        } else {
            is_sealed_header(block)
        }
    }

    /// Whether it is not as it was.
    fn is_changed(&self, volume: &Volume) -> bool {
        volume.block(self.lbn) != self.before
    }
}

/// The home block and the headers of files, as they are.
fn sealed_blocks(volume: &Volume) -> Vec<Sealed> {
    let home = volume.plan.home;
    let mut blocks = vec![Sealed {
        lbn: home,
        before: volume.block(home).to_vec(),
        is_home: true,
        expected: Expected::Volume(Number::Home),
    }];
    for file in &volume.files {
        for header in &file.headers {
            let expected = match (file.number(), header.segment) {
                (1, _) => Expected::Volume(Number::Index),
                (2, _) => Expected::Volume(Number::Storage),
                (_, 0) => Expected::File(file.id(), Number::Header),
                _ => Expected::File(file.id(), Number::Chain),
            };
            let lbn = volume.slot_of(header.number);
            blocks.push(Sealed {
                lbn,
                before: volume.block(lbn).to_vec(),
                is_home: false,
                expected,
            });
        }
    }
    blocks
}

/// That the index file has one header, where a damage tells nothing of one that has several: there it
/// may or may not be one of a further header.
fn one_index_header(volume: &Volume) -> Option<()> {
    let headers = &volume.file(1).headers;
    (headers.len() == 1).then_some(())
}

/// Every damage.
pub fn damages() -> Vec<Damage> {
    let mut all = Vec::new();
    all.extend(home::damages());
    all.extend(header::damages());
    all.extend(known::damages());
    all.extend(number::damages());
    all.extend(chain::damages());
    all
}

/// Every damage of an index file that has several headers, and of what stands on it. They apply to no
/// volume whose index file has one.
pub fn long_index_damages() -> Vec<Damage> {
    long_index::damages()
}

/// Volumes to damage, of every kind that some damage needs: small ones, one whose chained file has
/// 256 headers, and one whose maps have more than one block.
pub fn volumes_to_damage(seed: u64, small: u64) -> Vec<Volume> {
    let maker = Maker {
        seed,
        purpose: "volumes_to_damage",
    };
    let mut volumes = maker.small(small);
    volumes.push(maker.longest_chain());
    volumes.push(maker.find(Size::Blocks(4_097), |volume| {
        volume.plan.home > 1 && volume.plan.h_fmax > 4_096
    }));
    volumes
}

/// Volumes to damage whose index file has several headers, of every kind that some damage needs: small
/// ones, some whose index file has 256 headers and that have numbers not in use, some whose maps have
/// more than one block, one whose index headers are full, and a hub. Those that take long come last.
pub fn long_volumes_to_damage(seed: u64, small: u64) -> Vec<Volume> {
    let random = |number| Random::of_case(seed, "long_volumes_to_damage", number);
    let mut volumes: Vec<Volume> = (0..small)
        .map(|number| random_long_volume(&mut random(number), Size::Small))
        .collect();
    let find = |make: &dyn Fn(&mut Random) -> Volume, test: &dyn Fn(&Volume) -> bool| {
        let mut all = (1_000_000..).map(|number| make(&mut random(number)));
        all.find(|volume| test(volume)).expect("another one")
    };
    let has_unused = |volume: &Volume| volume.unused_number().is_some();
    let most = |random: &mut Random| long_volume(random, 1_300, (300, MOST_HEADERS));
    volumes.push(find(&most, &has_unused));
    volumes.push(find(&most, &|volume| {
        has_unused(volume) && volume.plan.index_map_blocks() > 1
    }));
    volumes.push(find(
        &|random| long_volume(random, 4_097, (900, 40)),
        &|volume| volume.plan.home > 1 && volume.plan.h_fmax > 4_096,
    ));
    volumes.push(fragmented_volume(&mut random(2_000_000), 900));
    volumes.push(hub(&Hub::SMALL));
    volumes.sort_by_key(tried_one_in);
    volumes
}

#[cfg(test)]
mod tests {
    use super::*;
    use model::{file, volume};

    /// What the model answers where a damage says what is expected.
    fn answered(image: &[u8], expected: Expected) -> Number {
        match expected {
            Expected::Volume(_) => volume::open_volume(image).number,
            Expected::File(id, _) => file::open_file(image, id).number,
        }
    }

    #[test]
    fn names_are_told_apart() {
        let damages = damages().into_iter().chain(long_index_damages());
        let mut names: Vec<String> = damages.map(|damage| damage.name).collect();
        let all = names.len();
        names.sort_unstable();
        names.dedup();
        assert_eq!(names.len(), all);
        assert!(all > 400, "{all} damages");
    }

    /// How often a damage applies to volumes; each time it is answered as it says.
    fn applied(damage: &Damage, volumes: &[Volume], checksums: Checksums) -> usize {
        let mut applied = 0;
        for sound in volumes {
            let mut damaged = sound.clone();
            let Some(expected) = damage.apply(&mut damaged, checksums) else {
                continue;
            };
            applied += 1;
            let number = answered(&damaged.image, expected);
            let (name, volume) = (&damage.name, sound.describe());
            assert_eq!(
                number,
                expected.number(),
                "{name}, checksums {checksums:?}, {expected:?}, {volume}"
            );
        }
        applied
    }

    /// Sees that each damage applies to some of the volumes, and is answered as it says.
    fn expect_applied(damages: Vec<Damage>, volumes: &[Volume]) {
        for damage in damages {
            let left = applied(&damage, volumes, Checksums::Left);
            let put_right = applied(&damage, volumes, Checksums::PutRight);
            assert!(left > 0, "{} does not apply", damage.name);
            assert_eq!(put_right, if damage.of_checksum { 0 } else { left });
        }
    }

    #[test]
    fn every_damage_is_answered_as_the_paper_says() {
        expect_applied(damages(), &volumes_to_damage(6, 20));
    }

    #[test]
    fn every_damage_of_a_long_index_is_answered_as_the_paper_says() {
        let volumes = long_volumes_to_damage(6, 20);
        expect_applied(long_index_damages(), &volumes);
        let all = damages();
        let apply = all.iter().filter(|damage| {
            let times = applied(damage, &volumes[..10], Checksums::Left);
            times + applied(damage, &volumes[10..], Checksums::PutRight) > 0
        });
        assert!(apply.count() + 10 > all.len());
    }
}
