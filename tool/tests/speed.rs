//! How long audit and judge take at most, on a disk as stations have it and on the largest volume.

#[path = "common/scratch.rs"]
mod scratch;

use std::fs;
use std::process::Command;
use std::time::{Duration, Instant};

use scratch::Scratch;
use volumes::large::{large_volume, largest_plan};
use volumes::station::station;

/// What a run takes less than.
const BAR: Duration = Duration::from_millis(200);

/// How often a verb is run; the shortest run counts, since others may be kept waiting.
const RUNS: usize = 5;

/// Sees that a verb ends well on an image, in less time than the bar.
fn expect_quick(verb: &str, image: &[u8]) {
    let scratch = Scratch::new("speed");
    fs::write(scratch.path("v.dsk"), image).expect("an image can be written");
    let runs = (0..RUNS).map(|_| {
        let mut command = Command::new(env!("CARGO_BIN_EXE_ods1"));
        command.args([verb, "v.dsk"]).current_dir(scratch.folder());
        let started = Instant::now();
        let output = command.output().expect("the tool can be run");
        let taken = started.elapsed();
        assert!(output.status.success(), "{verb}: {}", output.status);
        taken
    });
    let least = runs.min().expect("there are runs");
    assert!(least < BAR, "{verb} takes {least:?}");
}

/// One after the other, so that neither is kept waiting by the other.
#[test]
fn audit_and_judge_are_quick() {
    expect_quick("audit", station(1).image());
    expect_quick("judge", &large_volume(largest_plan()).image);
}
