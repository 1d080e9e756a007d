//! Damaged volumes: each named damage against what the paper says of it, and those and random ones
//! against the model.

use differential::asked::ids;
use differential::damaged::{compare_changed, compare_damaged, compare_named, damage_together};
use differential::facts::{expect_all_met, expect_each_met, Depth};
use differential::images::{Asked, Subject, BAD_LINK, UNMET_TEST};
use differential::judging::{Desk, OFFENCE};
use differential::{Random, Run};
use library::Lender;
use model::Id;
use volumes::accident::{random_changes, random_image, random_length};
use volumes::damage::{damages, volumes_to_damage, Checksums};
use volumes::shapes::{random_volume, Size};
use volumes::volume_v::{volume_v, READS};
use volumes::Volume;

/// Every named damage on many volumes, with checksums put right and left.
#[test]
fn named_damages() {
    Run::of(module_path!(), "named_damages", 8_000, |run| {
        let volumes = volumes_to_damage(run.seed(), 12);
        let mut lender = Lender::new();
        let mut desk = Desk::default();
        for damage in damages() {
            for sound in &volumes {
                for checksums in [Checksums::PutRight, Checksums::Left] {
                    let lenders = (&mut lender, &mut desk);
                    compare_named(run, lenders, (&damage, checksums), sound);
                }
            }
        }
        run.expect_met("open_volume", [2, 3, 4, 5], 200);
        run.expect_met("open_file", 6..=12, 200);
        run.expect_met(UNMET_TEST, 1..=12, 10);
        run.expect_met(BAD_LINK, 1..=16, 10);
        run.expect_met("judge", [0, 2, 3, 4, 5, 16, 17, 18], 200);
        run.expect_met("judge", [19], 20);
        run.expect_met(OFFENCE, 1..=12, 10);
        expect_all_met(run, 100);
    });
}

/// Two to four named damages at once: the first refusal is given.
#[test]
fn damages_together() {
    Run::of(module_path!(), "damages_together", 4_000, |run| {
        let volumes = volumes_to_damage(run.seed(), 40);
        let small = &volumes[..40];
        let damages = damages();
        let mut lender = Lender::new();
        let mut desk = Desk::default();
        run.random_cases(4_000, |run, random| {
            let sound = random.pick(small);
            let change = |random: &mut Random, damaged: &mut Volume| {
                damage_together(random, &damages, damaged)
            };
            let tools = (&mut lender, &mut desk);
            compare_changed(run, random, tools, sound, ("damages", change));
        });
        run.expect_met("open_volume", [0, 2, 3, 4, 5], 50);
        run.expect_met("open_file", 7..=12, 20);
        run.expect_met("judge", [16, 17], 50);
        run.expect_met("judge", [18], 20);
        expect_all_met(run, 25);
    });
}

/// Random changes where the rules look, on a new volume each time.
#[test]
fn random_damages() {
    Run::of(module_path!(), "random_damages", 12_000, |run| {
        let mut lender = Lender::new();
        let mut desk = Desk::default();
        run.random_cases(12_000, |run, random| {
            let size = if random.once_in(200) {
                Size::Medium
            } else {
                Size::Small
            };
            let sound = random_volume(random, size);
            let tools = (&mut lender, &mut desk);
            compare_changed(run, random, tools, &sound, ("changes", random_changes));
        });
        run.expect_met("open_volume", [0, 2, 3, 4, 5], 100);
        run.expect_met("open_file", [0].into_iter().chain(2..=12), 100);
        run.expect_met("map", [0].into_iter().chain(2..=13), 20);
        run.expect_met("block", [0].into_iter().chain(2..=13), 20);
        run.expect_met("look_up", [0].into_iter().chain(2..=12), 10);
        run.expect_met("look_up", [14, 15], 500);
        run.expect_met("next_record", [0, 15], 500);
        run.expect_met(UNMET_TEST, 1..=12, 5);
        run.expect_met(BAD_LINK, [13, 15, 16], 20);
        run.expect_met("judge", [0, 2, 3, 4, 5, 16, 17, 18], 100);
        run.expect_met("judge", [19, 21], 40);
        run.expect_met(OFFENCE, (1..=12).chain(31..=35), 5);
        expect_all_met(run, 100);
    });
}

/// Random changes of Volume V.
#[test]
fn random_damages_of_volume_v() {
    let test = "random_damages_of_volume_v";
    Run::of(module_path!(), test, 6_000, |run| {
        let mut lender = Lender::new();
        let mut desk = Desk::default();
        let sound = volume_v();
        run.random_cases(6_000, |run, random| {
            let mut damaged = sound.clone();
            let changes = random_changes(random, &mut damaged);
            let subject = Subject {
                image: lender.lend(&damaged.image),
                story: &[("changes of V", changes)],
            };
            compare_damaged(run, random, &mut desk, &sound, &subject);
        });
        run.expect_met("open_volume", [0, 2, 3, 4, 5], 100);
        run.expect_met("open_file", [7, 8, 9, 10, 11, 12], 20);
        run.expect_met("judge", [0, 16, 17, 18, 19, 21], 20);
        expect_all_met(run, 10);
    });
}

/// A few calls on a file.
fn few_of(id: Id) -> Asked {
    Asked {
        id,
        vbns: vec![0, 1],
        names: vec![READS],
        places: vec![0],
    }
}

/// Images of any bytes, some with a home block, and lengths of every kind.
#[test]
fn random_images() {
    Run::of(module_path!(), "random_images", 6_000, |run| {
        let mut lender = Lender::new();
        let mut desk = Desk::default();
        run.random_cases(6_000, |run, random| {
            let mut image = random_image(random);
            let mut told = format!("{} bytes", image.len());
            if random.once_in(4) {
                told = random_length(random, &mut image);
            }
            let subject = Subject {
                image: lender.lend(&image),
                story: &[("any bytes", told)],
            };
            subject.compare_volume(run);
            subject.compare_verdict(run, random, &mut desk);
            for number in [0, 1, 2, 17] {
                let id = Id::from_words([number, number, 0]);
                subject.compare_file(run, &few_of(id));
            }
            subject.compare_few_facts(run, random, &[0, 1, 2, 17]);
        });
        run.expect_met("open_volume", [1, 2, 3, 4, 5], 50);
        run.expect_met("next_record", [15], 1_000);
        run.expect_met("judge", [1, 2, 3, 4, 5], 50);
        expect_each_met(run, &[1, 2, 3, 4, 5], 50);
    });
}

/// Makes an image longer or shorter, by bytes or by blocks, and tells.
fn make_other_length(random: &mut Random, image: &mut Vec<u8>) -> String {
    if random.once_in(2) {
        return random_length(random, image);
    }
    let blocks = random.between(98, image.len() / 512 + 3);
    image.resize(512 * blocks, 0);
    format!("{blocks} blocks")
}

/// Sound volumes cut short or made longer: by bytes it is SIZE, by blocks it may be anything.
#[test]
fn other_lengths() {
    Run::of(module_path!(), "other_lengths", 2_000, |run| {
        let mut lender = Lender::new();
        let mut desk = Desk::default();
        run.random_cases(2_000, |run, random| {
            let sound = random_volume(random, Size::Small);
            let mut image = sound.image.clone();
            let told = make_other_length(random, &mut image);
            let subject = Subject {
                image: lender.lend(&image),
                story: &[("volume", sound.describe()), ("made", told)],
            };
            subject.compare_volume(run);
            subject.compare_verdict(run, random, &mut desk);
            let ids = ids(&sound);
            for id in [sound.file(sound.roles.plain).id(), *random.pick(&ids)] {
                subject.compare_file(run, &few_of(id));
            }
            subject.compare_facts(run, random, &sound, Depth::SOME);
        });
        run.expect_met("open_volume", [0, 1, 2, 4, 5], 20);
        run.expect_met("open_file", [1], 500);
        run.expect_met("map", [1], 500);
        run.expect_met("block", [1], 500);
        run.expect_met("look_up", [1], 500);
        run.expect_met("judge", [1], 500);
        run.expect_met("judge", [0, 4, 5, 17, 21], 10);
        expect_each_met(run, &[1], 500);
        expect_each_met(run, &[0, 2, 4, 5], 20);
    });
}
