//! Damaged volumes whose index file has several headers: each named damage and flaw against what the
//! paper says of it, and those and random ones against the model.

use differential::damaged::{
    compare_changed, compare_flawed, compare_named, damage_together, expect_flawed_met,
};
use differential::facts::expect_all_met;
use differential::images::{BAD_FIRST_BLOCKS, BAD_HEADER_1, BAD_INDEX, BAD_LINK, UNMET_TEST};
use differential::judging::{offences, Desk, OFFENCE};
use differential::{Random, Run};
use library::Lender;
use volumes::accident::{random_changes, random_flaws, random_index_changes};
use volumes::damage::{damages, long_index_damages, long_volumes_to_damage, Checksums, Damage};
use volumes::flaw::{each_flawed_by, long_index_flaws, long_volumes_to_judge, tried_one_in};
use volumes::long_index::random_long_volume;
use volumes::shapes::Size;
use volumes::Volume;

/// The damages of any volume, and those of an index file with several headers.
fn all_damages() -> Vec<Damage> {
    let all = damages().into_iter();
    all.chain(long_index_damages()).collect()
}

/// The bad links: a header that is not whole, a number not in use or without slot, a wrong sequence or
/// segment.
const LINKS: std::ops::RangeInclusive<u64> = 1..=16;

/// The bad links but those to a header that is not whole.
const OTHER_LINKS: std::ops::RangeInclusive<u64> = 13..=16;

/// Every named damage on some volumes, with checksums put right and left; where a volume takes long, some
/// of those that other volumes have shown often enough.
#[test]
fn named_damages() {
    Run::of(module_path!(), "named_damages", 5_000, |run| {
        let volumes = long_volumes_to_damage(run.seed(), 3);
        let mut lender = Lender::new();
        let mut desk = Desk::default();
        for (number, damage) in all_damages().iter().enumerate() {
            let mut applied = 0;
            for (place, sound) in volumes.iter().enumerate() {
                if applied >= 4 && (number + place) % tried_one_in(sound) != 0 {
                    continue;
                }
                for checksums in [Checksums::PutRight, Checksums::Left] {
                    let lenders = (&mut lender, &mut desk);
                    let met = compare_named(run, lenders, (damage, checksums), sound);
                    applied += usize::from(met);
                }
            }
        }
        run.expect_met("open_volume", [0, 2, 4, 5], 200);
        run.expect_met("open_volume", [3], 40);
        run.expect_met("open_file", 6..=12, 200);
        run.expect_met(BAD_INDEX, LINKS, 5);
        run.expect_met(BAD_INDEX, [BAD_HEADER_1, BAD_FIRST_BLOCKS], 20);
        run.expect_met(UNMET_TEST, 1..=12, 5);
        run.expect_met(BAD_LINK, 1..=16, 5);
        run.expect_met("judge", [0, 2, 4, 5, 16, 17, 18], 100);
        run.expect_met("judge", [3], 40);
        expect_all_met(run, 50);
    });
}

/// Two to four named damages at once: the first refusal is given.
#[test]
fn damages_together() {
    Run::of(module_path!(), "damages_together", 2_000, |run| {
        let volumes = long_volumes_to_damage(run.seed(), 40);
        let small = &volumes[..40];
        // Those of the index file come as often as all others.
        let mut damages = all_damages();
        damages.extend(long_index_damages());
        let mut lender = Lender::new();
        let mut desk = Desk::default();
        run.random_cases(2_000, |run, random| {
            let sound = random.pick(small);
            let change = |random: &mut Random, damaged: &mut Volume| {
                damage_together(random, &damages, damaged)
            };
            let tools = (&mut lender, &mut desk);
            compare_changed(run, random, tools, sound, ("damages", change));
        });
        run.expect_met("open_volume", [0, 2, 3, 4, 5], 20);
        run.expect_met(BAD_INDEX, OTHER_LINKS, 5);
        run.expect_met("open_file", 7..=12, 10);
        run.expect_met("judge", [16, 17], 20);
        expect_all_met(run, 5);
    });
}

/// Random changes where the rules look, mostly of the index file, on a new volume each time.
#[test]
fn random_damages() {
    Run::of(module_path!(), "random_damages", 6_000, |run| {
        let mut lender = Lender::new();
        let mut desk = Desk::default();
        run.random_cases(6_000, |run, random| {
            let size = if random.once_in(200) {
                Size::Medium
            } else {
                Size::Small
            };
            let sound = random_long_volume(random, size);
            let change = |random: &mut Random, damaged: &mut Volume| {
                if random.once_in(4) {
                    random_changes(random, damaged)
                } else {
                    random_index_changes(random, damaged)
                }
            };
            let tools = (&mut lender, &mut desk);
            compare_changed(run, random, tools, &sound, ("changes", change));
        });
        run.expect_met("open_volume", [2, 3, 5], 20);
        run.expect_met("open_volume", [0, 4], 1_000);
        run.expect_met(BAD_INDEX, OTHER_LINKS, 200);
        run.expect_met(BAD_INDEX, [BAD_HEADER_1, BAD_FIRST_BLOCKS], 100);
        run.expect_met("open_file", [0].into_iter().chain(4..=12), 50);
        run.expect_met("map", [0, 4, 5, 7, 13], 50);
        run.expect_met("block", [0, 4, 5, 7, 13], 50);
        run.expect_met("look_up", [0, 4, 14, 15], 50);
        run.expect_met("next_record", [0, 15], 500);
        run.expect_met("judge", [0, 4, 5, 16, 17, 18], 50);
        run.expect_met("judge", [19, 21], 20);
        expect_all_met(run, 20);
    });
}

/// Every flaw on some volumes.
#[test]
fn named_flaws() {
    Run::of(module_path!(), "named_flaws", 4_000, |run| {
        let volumes = long_volumes_to_judge(run.seed(), 3);
        let mut lender = Lender::new();
        let mut desk = Desk::default();
        each_flawed_by(&long_index_flaws(), &volumes, |flawed| {
            compare_flawed(run, (&mut lender, &mut desk), &flawed);
        });
        run.expect_met("judge", [0, 16, 17, 18, 19, 21], 200);
        run.expect_met("judge", [20], 40);
        run.expect_met(OFFENCE, offences(), 5);
        expect_flawed_met(run, 100);
    });
}

/// Random changes where the rules of the verdict look, on a new volume each time.
#[test]
fn random_flaws_of_volumes() {
    let test = "random_flaws_of_volumes";
    Run::of(module_path!(), test, 1_500, |run| {
        let mut lender = Lender::new();
        let mut desk = Desk::default();
        run.random_cases(1_500, |run, random| {
            let size = match random.below(40) {
                0 => Size::Medium,
                1..=9 => Size::Blocks(600),
                _ => Size::Small,
            };
            let sound = random_long_volume(random, size);
            let tools = (&mut lender, &mut desk);
            compare_changed(run, random, tools, &sound, ("changes", random_flaws));
        });
        run.expect_met("judge", [0, 16, 17, 18, 19, 21], 80);
        run.expect_met("judge", [20], 3);
        run.expect_met(OFFENCE, 31..=36, 5);
        run.expect_met(OFFENCE, 43..=45, 5);
    });
}
