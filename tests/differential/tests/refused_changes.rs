//! Create, extend and delete on volumes that the verdict refuses: each is refused as the verdict is,
//! with its marks, and no byte of the image changes. What is next to a flaw and is none is accepted,
//! and the calls are made.

use differential::judging::{needed, too_short, Areas, Desk};
use differential::run::show_answer;
use differential::writing::{Change, Changing};
use differential::{Random, Run};
use model::{verdict, Answer, Id, Number};
use volumes::accident::{
    random_changes, random_flaws, random_image, random_index_changes, random_length,
};
use volumes::damage::{damages, volumes_to_damage, Checksums, Expected};
use volumes::directory::name_words;
use volumes::flaw::{each_flawed, volumes_to_judge, Judged};
use volumes::long_index::random_long_volume;
use volumes::shapes::{random_volume, Size};
use volumes::Volume;

/// The three calls on a volume, mostly with arguments that nothing is wrong with.
fn calls(random: &mut Random, volume: &Volume) -> [Change; 3] {
    let mut name = name_words("NEW.DAT;1");
    let mut count = random.long_between(1, 3);
    let roles = volume.roles;
    let numbers = [roles.plain, roles.chained, roles.empty, 4];
    let file = |random: &mut Random| {
        let number = *random.pick(&numbers);
        let mut files = volume.files.iter();
        let file = files.find(|file| file.number() == number);
        file.map_or(Id::from_words([6, 9, 0]), |file| file.id())
    };
    let (mut extended, mut deleted) = (file(random), file(random));
    if random.once_in(4) {
        name[4] = 0;
        count = *random.pick(&[0, 257]);
        extended.sequence ^= 1;
        deleted.volume = 1;
    }
    let words = (random.word(), random.word());
    [
        Change::Create(name, words),
        Change::Extend(extended, count),
        Change::Delete(deleted),
    ]
}

/// Compares the three calls on an image, each on the image as it is; where the verdict refuses it,
/// they answer what the verdict does. Answers the verdict.
fn compare_calls(
    run: &mut Run,
    random: &mut Random,
    desk: &mut Desk,
    (built, image): (&Volume, &[u8]),
    story: &[(&'static str, String)],
) -> Answer {
    let mut areas = Areas::enough_for(random, image);
    let verdict = verdict::verdict(image, &mut areas.blocks, &mut areas.headers);
    let judged = verdict::answer(&verdict);
    run.meet("judge", judged.number.number());
    for call in calls(random, built) {
        let mut changing = Changing::new(image, story);
        let answer = changing.compare_enough(run, random, desk, call);
        if judged.number != Number::Done && answer != judged.words() {
            let told = format!("{call:?}: {}", show_answer(&answer));
            run.fail("a call is not refused as the verdict is", &[("call", told)]);
        }
        let is_refused_for_the_volume = matches!(answer[0], 1..=5 | 17..=21);
        if judged.number == Number::Done && is_refused_for_the_volume {
            let told = format!("{call:?}: {}", show_answer(&answer));
            run.fail("a call is refused for the volume", &[("call", told)]);
        }
        if random.once_in(6) {
            let (blocks, headers) = too_short(random, needed(image));
            let areas = Areas::random(random, blocks, headers);
            Changing::new(image, story).compare(run, desk, call, &areas);
        }
    }
    judged
}

/// The three calls.
const CALLS: [&str; 3] = ["create", "extend", "delete"];

/// Sees that each call met each of some answers.
fn expect_met(run: &mut Run, numbers: &[u64], least: u64) {
    for call in CALLS {
        run.expect_met(call, numbers.iter().copied(), least);
    }
}

/// Every flaw of the verdict on many volumes.
#[test]
fn named_flaws() {
    Run::of(module_path!(), "named_flaws", 3_000, |run| {
        let mut volumes = volumes_to_judge(run.seed(), 3);
        // The largest is left to the verdict's own tests.
        volumes.retain(|volume| volume.plan.blocks < 5_000);
        let mut desk = Desk::default();
        each_flawed(&volumes, |flawed| {
            let mut random = run.random();
            if !run.next_case() {
                return;
            }
            let story = [
                ("volume", flawed.sound.describe()),
                ("flaw", flawed.flaw.name.clone()),
            ];
            let image = &flawed.changed.image[..];
            let both = (flawed.sound, image);
            let judged = compare_calls(run, &mut random, &mut desk, both, &story);
            let expected = match flawed.judged {
                Judged::Accepted => (Number::Done, 0),
                Judged::Refused(number, place) => (number, place),
            };
            assert_eq!((judged.number, judged.place), expected, "{story:?}");
        });
        expect_met(run, &[16, 17, 18, 19, 21], 150);
        expect_met(run, &[20], 30);
        run.expect_met("judge", [0], 300);
    });
}

/// Every named damage on some volumes, with checksums put right and left; on large ones every other
/// damage, with checksums put right.
#[test]
fn named_damages() {
    Run::of(module_path!(), "named_damages", 2_000, |run| {
        let volumes = volumes_to_damage(run.seed(), 3);
        let mut desk = Desk::default();
        for (place, damage) in damages().iter().enumerate() {
            for sound in &volumes {
                for checksums in [Checksums::PutRight, Checksums::Left] {
                    let is_large = sound.plan.blocks > 1_000;
                    if is_large && (checksums == Checksums::Left || place % 2 == 1) {
                        continue;
                    }
                    let mut random = run.random();
                    let mut damaged = sound.clone();
                    let Some(expected) = damage.apply(&mut damaged, checksums) else {
                        continue;
                    };
                    if !run.next_case() {
                        continue;
                    }
                    let story = [
                        ("volume", sound.describe()),
                        ("damage", format!("{} ({checksums:?})", damage.name)),
                    ];
                    let both = (sound, &damaged.image[..]);
                    let judged = compare_calls(run, &mut random, &mut desk, both, &story);
                    // A volume that does not open is refused by that number, which the paper says.
                    if let Expected::Volume(number) = expected {
                        let is_open = number == Number::Done;
                        assert!(is_open || judged.number == number, "{story:?}: {judged:?}");
                    }
                }
            }
        }
        expect_met(run, &[2, 3, 4, 5, 16, 17, 18], 50);
        run.expect_met("judge", [0], 100);
    });
}

/// Random changes of volumes, images of any bytes, and lengths of every kind.
#[test]
fn random_damages() {
    Run::of(module_path!(), "random_damages", 1_500, |run| {
        let mut desk = Desk::default();
        run.random_cases(1_500, |run, random| {
            let sound = random_volume(random, Size::Small);
            let mut changed = sound.clone();
            let mut told = match random.below(8) {
                0 => {
                    changed.image = random_image(random);
                    "any bytes".to_string()
                }
                1..=3 => random_changes(random, &mut changed),
                _ => random_flaws(random, &mut changed),
            };
            if random.once_in(12) {
                told += "; ";
                told += &random_length(random, &mut changed.image);
            }
            let story = [("volume", sound.describe()), ("changes", told)];
            let both = (&sound, &changed.image[..]);
            compare_calls(run, random, &mut desk, both, &story);
        });
        expect_met(run, &[1, 2, 4, 5, 16, 17, 18, 21], 20);
        run.expect_met("judge", [0], 100);
    });
}

/// Random changes of volumes whose index file has several headers.
#[test]
fn random_damages_of_long_indexes() {
    let test = "random_damages_of_long_indexes";
    Run::of(module_path!(), test, 800, |run| {
        let mut desk = Desk::default();
        run.random_cases(800, |run, random| {
            let sound = random_long_volume(random, Size::Small);
            let mut changed = sound.clone();
            let told = match random.below(3) {
                0 => random_flaws(random, &mut changed),
                _ => random_index_changes(random, &mut changed),
            };
            let story = [("volume", sound.describe()), ("changes", told)];
            let both = (&sound, &changed.image[..]);
            compare_calls(run, random, &mut desk, both, &story);
        });
        expect_met(run, &[4], 200);
        expect_met(run, &[16, 17, 18, 19, 21], 10);
        run.expect_met("judge", [0], 50);
    });
}
