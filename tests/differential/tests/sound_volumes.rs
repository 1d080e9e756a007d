//! Sound volumes of every shape: the library against the builder, which knows what it put where,
//! and against the model.

use differential::built::{compare_built, expect_built_met};
use differential::Run;
use library::Lender;
use volumes::shapes::{random_volume, Size};

/// Random sound volumes of a size.
fn compare_volumes(test: &'static str, usual: u64, size: Size) {
    Run::of(module_path!(), test, usual, |run| {
        let mut lender = Lender::new();
        run.random_cases(usual, |run, random| {
            let volume = random_volume(random, size);
            compare_built(run, random, &mut lender, &volume);
        });
        expect_built_met(run, usual);
        run.expect_met("attributes", [10, 11], usual / 4);
        run.expect_met("extent", [10, 11], usual / 4);
    });
}

/// Volumes of 100 to 400 blocks.
#[test]
fn small_volumes() {
    compare_volumes("small_volumes", 600, Size::Small);
}

/// Volumes of 400 to 6,000 blocks.
#[test]
fn medium_volumes() {
    compare_volumes("medium_volumes", 60, Size::Medium);
}

/// Volumes as the stations have them.
#[test]
fn rl02_volumes() {
    compare_volumes("rl02_volumes", 5, Size::Rl02);
}
