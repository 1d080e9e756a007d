//! Lists of create, extend and delete calls on sound volumes of every shape: each call against the
//! model, and after each list what demand 3 says.

use differential::judging::Desk;
use differential::lists::{List, ANSWERS, KEPT, NAMED, REMOVED};
use differential::{Random, Run};
use volumes::shapes::Size;
use volumes::writable::random_volume_to_write;
use volumes::Volume;

/// The kinds of volumes that are met: home positions, and 1 where there are numbers past the first
/// block of the index map, numbers without slot, and a chain of several headers.
const HOME: &str = "home";
const LARGE_H_FMAX: &str = "H.FMAX above 4,096";
const NO_SLOT: &str = "numbers without slot";
const CHAIN: &str = "chain of four headers or more";

/// Counts what kinds a volume is of.
fn meet_shape(run: &mut Run, volume: &Volume) {
    let h_fmax = volume.plan.h_fmax;
    let chain = volume.file(volume.roles.chained).headers.len();
    run.meet(HOME, volume.plan.home.into());
    run.meet(LARGE_H_FMAX, u64::from(h_fmax > 4_096));
    run.meet(NO_SLOT, u64::from(volume.last_slot() < h_fmax.into()));
    run.meet(CHAIN, u64::from(chain >= 4));
}

/// A list of random calls on a random volume.
fn compare_list(run: &mut Run, random: &mut Random, desk: &mut Desk, size: Size) {
    let built = random_volume_to_write(random, size);
    meet_shape(run, &built);
    List::compare(run, random, desk, &built);
}

/// Lists on volumes of 100 to 6,000 blocks, most of them small.
#[test]
fn lists_of_calls() {
    Run::of(module_path!(), "lists_of_calls", 300, |run| {
        let mut desk = Desk::default();
        run.random_cases(300, |run, random| {
            let size = match random.below(24) {
                0 => Size::Medium,
                1..=4 => Size::Blocks(random.long_between(260, 1_100)),
                _ => Size::Small,
            };
            compare_list(run, random, &mut desk, size);
        });
        for (call, numbers) in ANSWERS {
            run.expect_met(call, numbers.iter().copied(), 10);
        }
        run.expect_met("create", [0], 500);
        run.expect_met("extend", [0], 500);
        run.expect_met("delete", [0], 300);
        run.expect_met(KEPT, [1], 500);
        run.expect_met(NAMED, [1], 500);
        run.expect_met(REMOVED, [7, 9], 50);
        run.expect_met(HOME, [1], 100);
        run.expect_met(HOME, [256, 512], 3);
        run.expect_met(LARGE_H_FMAX, [1], 10);
        run.expect_met(NO_SLOT, [1], 50);
        run.expect_met(CHAIN, [1], 50);
    });
}

/// Lists on volumes as the stations have them.
#[test]
fn lists_on_rl02_volumes() {
    Run::of(module_path!(), "lists_on_rl02_volumes", 3, |run| {
        let mut desk = Desk::default();
        run.random_cases(3, |run, random| {
            compare_list(run, random, &mut desk, Size::Rl02);
        });
        run.expect_met("create", [0], 5);
        run.expect_met("extend", [0], 5);
        run.expect_met("delete", [0], 3);
    });
}
