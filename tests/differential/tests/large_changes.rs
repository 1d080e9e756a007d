//! Create, extend and delete on the largest volumes: maps of 126 and 255 blocks, LBNs of three bytes,
//! and numbers past the first block of the index map.

use differential::both::Both;
use differential::writing::Change;
use differential::Run;
use model::{Id, Number};
use volumes::directory::name_words;
use volumes::large::{fill_but, large_volume, largest_plan, plan_of_516_096, HIGH_FILE};
use volumes::volume::Plan;
use volumes::Volume;

/// The volume of a plan, changed before it is written to.
fn volume_of(plan: Plan, change: impl Fn(&mut Volume)) -> Volume {
    let mut volume = large_volume(plan);
    change(&mut volume);
    volume
}

fn id(number: u16, sequence: u16) -> Id {
    Id::from_words([number, sequence, 0])
}

/// The largest volume: every 256th block is a bad one, so that 255 in a row are the most.
#[test]
fn the_largest_volume() {
    Run::of(module_path!(), "the_largest_volume", 8, |run| {
        let create = Change::Create(name_words("LAST.DAT;32767"), (0x0101, 0xfff0));
        let mut both = Both::new(run, || large_volume(largest_plan()));
        both.expect(create, Ok(&[6, 1, 0]));
        both.expect(Change::Extend(id(6, 1), 255), Ok(&[257]));
        both.expect(Change::Extend(id(6, 1), 256), Err(Number::Run));
        both.expect(Change::Delete(id(HIGH_FILE, 65_535)), Ok(&[0]));
        // All blocks but some of the last ones are taken.
        let mut both = Both::new(both.run, || {
            volume_of(largest_plan(), |volume| {
                fill_but(volume, 1_000_001, 1_000_020);
            })
        });
        both.expect(Change::Extend(id(4_096, 1), 20), Ok(&[1_000_001]));
        both.expect(Change::Extend(id(4_096, 1), 1), Err(Number::Run));
        both.expect(Change::Delete(id(2_000, 1)), Ok(&[0]));
        both.expect(create, Ok(&[6, 1, 0]));
        run.expect_met("create", [0], 2);
        run.expect_met("extend", [0, 26], 2);
        run.expect_met("delete", [0], 2);
    });
}

/// The volume whose storage map has 126 blocks, all of them full.
#[test]
fn the_volume_of_516_096_blocks() {
    let test = "the_volume_of_516_096_blocks";
    Run::of(module_path!(), test, 6, |run| {
        let create = Change::Create(name_words("A.;1"), (0, 0));
        let mut both = Both::new(run, || {
            volume_of(plan_of_516_096(), |volume| {
                // The blocks at the end of the volume are all that is free.
                fill_but(volume, 515_840, 516_095);
            })
        });
        both.expect(create, Ok(&[6, 1, 0]));
        both.expect(Change::Extend(id(6, 1), 256), Ok(&[515_840]));
        both.expect(Change::Extend(id(6, 1), 1), Err(Number::Run));
        both.expect(Change::Delete(id(4_097, 0)), Ok(&[0]));
        both.expect(Change::Extend(id(6, 1), 255), Ok(&[460_801]));
        both.expect(Change::Delete(id(6, 1)), Ok(&[0]));
        run.expect_met("delete", [0], 2);
    });
}
