//! The verdict: Volume V, sound volumes of every shape, each flaw against what the paper says of it,
//! random flaws, and work areas of every length; and all of it against the model.

use differential::damaged::{compare_flawed, expect_flawed_met};
use differential::facts::Depth;
use differential::images::Subject;
use differential::judging::{needed, offences, Areas, Desk, OFFENCE};
use differential::{Random, Run};
use library::Lender;
use model::Number;
use volumes::accident::random_flaws;
use volumes::block::{seal_header, seal_home};
use volumes::flaw::{each_flawed, flaws, volumes_to_judge, Judged};
use volumes::header::Pointer;
use volumes::shapes::{random_volume, Size};
use volumes::volume_v::volume_v;
use volumes::Volume;

/// The sample of the repository.
const SAMPLE: &[u8] = include_bytes!("../../../samples/volume-v.dsk");

/// Volume V: the counts of the paper, and every length of the work areas near what is needed.
#[test]
fn volume_v_with_every_length_of_the_areas() {
    let test = "volume_v_with_every_length_of_the_areas";
    Run::of(module_path!(), test, 80, |run| {
        let mut lender = Lender::new();
        let mut desk = Desk::default();
        let image = lender.lend(SAMPLE);
        let subject = Subject { image, story: &[] };
        for blocks in [0, 1, 98, 99, 100, 101, 102, 4_096, 5_000] {
            for headers in [0, 1, 14, 15, 16, 17, 18, 4_096, 5_000] {
                let mut random = run.random();
                if !run.next_case() {
                    continue;
                }
                let areas = Areas::random(&mut random, blocks, headers);
                subject.compare_judge(run, &mut desk, &areas);
                if blocks >= 100 && headers >= 16 {
                    // Paper 01, "Volume V": "blocks 100, claimed 26, free 74, headers 6".
                    subject.expect_counts(run, &mut desk, &areas, [100, 26, 74, 6]);
                }
            }
        }
        run.expect_met("judge", [0], 25);
        run.expect_met("judge", [16], 50);
    });
}

/// Random sound volumes: the counts and marks that the builder knows, and the model.
fn sound_volumes(test: &'static str, usual: u64, size: Size) {
    Run::of(module_path!(), test, usual, |run| {
        let mut lender = Lender::new();
        let mut desk = Desk::default();
        run.random_cases(usual, |run, random| {
            let volume = random_volume(random, size);
            let subject = Subject {
                image: lender.lend(&volume.image),
                story: &[("volume", volume.describe())],
            };
            subject.compare_accepted(run, random, &mut desk, &volume);
        });
        run.expect_met("judge", [0], usual);
    });
}

/// Sound volumes of 100 to 400 blocks.
#[test]
fn small_volumes_are_accepted() {
    sound_volumes("small_volumes_are_accepted", 1_500, Size::Small);
}

/// Sound volumes of 400 to 6,000 blocks.
#[test]
fn medium_volumes_are_accepted() {
    sound_volumes("medium_volumes_are_accepted", 80, Size::Medium);
}

/// Sound volumes as the stations have them.
#[test]
fn rl02_volumes_are_accepted() {
    sound_volumes("rl02_volumes_are_accepted", 4, Size::Rl02);
}

/// Every flaw on many volumes.
#[test]
fn named_flaws() {
    Run::of(module_path!(), "named_flaws", 8_000, |run| {
        let volumes = volumes_to_judge(run.seed(), 12);
        let mut lender = Lender::new();
        let mut desk = Desk::default();
        each_flawed(&volumes, |flawed| {
            compare_flawed(run, (&mut lender, &mut desk), &flawed);
        });
        run.expect_met("judge", [0, 16, 17, 18, 19, 21], 400);
        run.expect_met("judge", [20], 60);
        run.expect_met(OFFENCE, offences(), 10);
        expect_flawed_met(run, 200);
    });
}

/// Two to four flaws one after the other, as far as they apply: the first rule that is broken, and
/// its lowest offender.
#[test]
fn flaws_together() {
    Run::of(module_path!(), "flaws_together", 3_000, |run| {
        let volumes = volumes_to_judge(run.seed(), 20);
        // The largest is left to the flaws that come alone.
        let volumes: Vec<&Volume> = volumes.iter().filter(|it| it.plan.blocks < 2_000).collect();
        let flaws = flaws();
        let mut lender = Lender::new();
        let mut desk = Desk::default();
        run.random_cases(3_000, |run, random| {
            let sound = *random.pick(&volumes);
            let mut changed = sound.clone();
            let mut told = Vec::new();
            for _ in 0..random.between(2, 4) {
                let flaw = random.pick(&flaws);
                if flaw.apply(&mut changed).is_some() {
                    told.push(flaw.name.clone());
                }
            }
            let subject = Subject {
                image: lender.lend(&changed.image),
                story: &[("volume", sound.describe()), ("flaws", told.join("; "))],
            };
            subject.compare_verdict(run, random, &mut desk);
            subject.compare_facts(run, random, sound, Depth::SOME);
        });
        run.expect_met("judge", [17, 18, 19, 21], 50);
        expect_flawed_met(run, 50);
    });
}

/// Random changes where the rules of the verdict look, on a new volume each time.
#[test]
fn random_flaws_of_volumes() {
    let test = "random_flaws_of_volumes";
    Run::of(module_path!(), test, 6_000, |run| {
        let mut lender = Lender::new();
        let mut desk = Desk::default();
        run.random_cases(6_000, |run, random| {
            let size = match random.below(40) {
                0 => Size::Medium,
                1..=9 => Size::Blocks(600),
                _ => Size::Small,
            };
            let sound = random_volume(random, size);
            let mut changed = sound.clone();
            let changes = random_flaws(random, &mut changed);
            let subject = Subject {
                image: lender.lend(&changed.image),
                story: &[("volume", sound.describe()), ("changes", changes)],
            };
            subject.compare_verdict(run, random, &mut desk);
            subject.compare_facts(run, random, &sound, Depth::SOME);
        });
        run.expect_met("judge", [0, 16, 17, 18, 19, 21], 400);
        run.expect_met("judge", [20], 20);
        run.expect_met(OFFENCE, 31..=36, 20);
        run.expect_met(OFFENCE, 43..=45, 20);
        expect_flawed_met(run, 20);
    });
}

/// The blocks of Volume V that the verdict reads.
const STRUCTURE: [u32; 9] = [1, 2, 3, 4, 5, 6, 7, 8, 20];

/// Every byte of every block of Volume V that the verdict reads, changed, with checksums put right
/// and left.
#[test]
fn every_byte_of_volume_v_changed() {
    let test = "every_byte_of_volume_v_changed";
    Run::of(module_path!(), test, 9 * 512 * 2, |run| {
        let mut lender = Lender::new();
        let mut desk = Desk::default();
        for lbn in STRUCTURE {
            for at in 0..512 {
                for sealed in [false, true] {
                    let mut random = run.random();
                    if !run.next_case() {
                        continue;
                    }
                    let bits = match random.below(2) {
                        0 => 1 << random.below(8),
                        _ => random.byte_between(1, 255),
                    };
                    let mut changed = volume_v();
                    let block = changed.block_mut(lbn);
                    block[at] ^= bits;
                    match lbn {
                        1 if sealed => seal_home(block),
                        3..=8 if sealed => seal_header(block),
                        _ => (),
                    }
                    let told = format!("LBN {lbn}: byte {at} by {bits:#04x}, sealed {sealed}");
                    let subject = Subject {
                        image: lender.lend(&changed.image),
                        story: &[("Volume V", told)],
                    };
                    subject.compare_verdict(run, &mut random, &mut desk);
                }
            }
        }
        run.expect_met("judge", [0, 17, 21], 200);
        run.expect_met("judge", [18], 3);
    });
}

/// Every bit of the storage map of Volume V: the place is the bit.
#[test]
fn every_bit_of_the_storage_map() {
    let test = "every_bit_of_the_storage_map";
    Run::of(module_path!(), test, 4_096, |run| {
        let mut lender = Lender::new();
        let mut desk = Desk::default();
        for bit in 0..4_096 {
            let mut random = run.random();
            if !run.next_case() {
                continue;
            }
            let mut changed = volume_v();
            changed.storage_map_mut()[bit / 8] ^= 1 << (bit % 8);
            let subject = Subject {
                image: lender.lend(&changed.image),
                story: &[("bit", bit.to_string())],
            };
            let expected = Judged::Refused(Number::Map, bit as u64);
            subject.expect_judged(run, &mut random, &mut desk, expected);
        }
    });
}

/// A file of one block at each LBN of Volume V: TWICE where something has it.
#[test]
fn a_pointer_more_at_every_block() {
    let test = "a_pointer_more_at_every_block";
    Run::of(module_path!(), test, 200, |run| {
        let mut lender = Lender::new();
        let mut desk = Desk::default();
        for lbn in 0..100 {
            for put_right in [false, true] {
                let mut random = run.random();
                if !run.next_case() {
                    continue;
                }
                let mut changed = volume_v();
                let taken = changed.covered()[lbn as usize];
                let pointer = Pointer { lbn, blocks: 1 };
                changed.edit_header(5, |header| header.pointers.push(pointer));
                if put_right {
                    changed.put_storage_map();
                }
                let told = format!("{lbn}, storage map put right: {put_right}");
                let subject = Subject {
                    image: lender.lend(&changed.image),
                    story: &[("file 5 covers", told)],
                };
                let place = u64::from(lbn);
                let expected = match (taken, put_right) {
                    (true, _) => Judged::Refused(Number::Twice, place),
                    (false, false) => Judged::Refused(Number::Map, place),
                    (false, true) => Judged::Accepted,
                };
                subject.expect_judged(run, &mut random, &mut desk, expected);
                subject.compare_verdict(run, &mut random, &mut desk);
            }
        }
        run.expect_met("judge", [0], 70);
        run.expect_met("judge", [19], 50);
        run.expect_met("judge", [21], 70);
    });
}

/// The work areas of a random volume, of every kind of length, whatever the verdict is.
#[test]
fn areas_of_every_length() {
    Run::of(module_path!(), "areas_of_every_length", 400, |run| {
        let mut lender = Lender::new();
        let mut desk = Desk::default();
        run.random_cases(400, |run, random| {
            let mut volume = random_volume(random, Size::Small);
            let mut told = "sound".to_string();
            if random.once_in(2) {
                told = random_flaws(random, &mut volume);
            }
            let subject = Subject {
                image: lender.lend(&volume.image),
                story: &[("volume", volume.describe()), ("changes", told)],
            };
            let (n, h_fmax) = needed(subject.image);
            for blocks in lengths(random, n) {
                for headers in lengths(random, h_fmax) {
                    let areas = Areas::random(random, blocks, headers);
                    subject.compare_judge(run, &mut desk, &areas);
                }
            }
        });
        run.expect_met("judge", [0, 17], 100);
        run.expect_met("judge", [16], 2_000);
    });
}

/// Lengths near one that is needed: none, one too few, just so, one more, a page more.
fn lengths(random: &mut Random, needed: usize) -> [usize; 5] {
    let more = random.between(2, 5_000);
    [0, needed - 1, needed, needed + 1, needed + more]
}
