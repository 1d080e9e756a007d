//! The comparisons of a volume that is damaged or has a flaw: what the paper says of each that has a
//! name, and the model.

use crate::asked::some_of_volume;
use crate::facts::{expect_each_met, Depth};
use crate::images::{Call, Subject};
use crate::judging::Desk;
use crate::run::Run;
use library::Lender;
use model::Number;
use volumes::damage::{Checksums, Damage, Expected};
use volumes::flaw::Flawed;
use volumes::{Random, Volume};

/// The calls that a damage says the answer of.
fn calls_of(expected: Expected) -> Vec<Call> {
    match expected {
        Expected::Volume(_) => vec![Call::OpenVolume, Call::Geometry, Call::Label],
        Expected::File(id, Number::Number | Number::Header) => vec![
            Call::OpenFile(id),
            Call::Attributes(id),
            Call::Extent(id, 0),
            Call::Header(id.number),
            Call::Pointer(id.number, 0),
        ],
        Expected::File(id, _) => vec![Call::OpenFile(id), Call::Attributes(id)],
    }
}

/// Compares a damaged volume with the model, and its verdict. Calls are chosen from what was there
/// before.
pub fn compare_damaged(
    run: &mut Run,
    random: &mut Random,
    desk: &mut Desk,
    sound: &Volume,
    subject: &Subject,
) {
    subject.compare_volume(run);
    subject.compare_verdict(run, random, desk);
    for asked in some_of_volume(random, sound, subject.image) {
        subject.compare_file(run, &asked);
    }
    subject.compare_facts(run, random, sound, Depth::SOME);
}

/// Changes a volume, which is told as `kind`, and compares it so.
pub fn compare_changed(
    run: &mut Run,
    random: &mut Random,
    (lender, desk): (&mut Lender, &mut Desk),
    sound: &Volume,
    (kind, change): (
        &'static str,
        impl FnOnce(&mut Random, &mut Volume) -> String,
    ),
) {
    let mut damaged = sound.clone();
    let told = change(random, &mut damaged);
    let subject = Subject {
        image: lender.lend(&damaged.image),
        story: &[("volume", sound.describe()), (kind, told)],
    };
    compare_damaged(run, random, desk, sound, &subject);
}

/// One named damage of a volume: what the paper says of it, and the model. False where it does not
/// apply.
pub fn compare_named(
    run: &mut Run,
    (lender, desk): (&mut Lender, &mut Desk),
    (damage, checksums): (&Damage, Checksums),
    sound: &Volume,
) -> bool {
    let mut random = run.random();
    let mut damaged = sound.clone();
    let Some(expected) = damage.apply(&mut damaged, checksums) else {
        return false;
    };
    if !run.next_case() {
        return true;
    }
    let story = [
        ("volume", sound.describe()),
        ("damage", damage.name.clone()),
        ("checksums", format!("{checksums:?}")),
        ("expected", format!("{expected:?}")),
    ];
    let subject = Subject {
        image: lender.lend(&damaged.image),
        story: &story,
    };
    for call in calls_of(expected) {
        subject.expect(run, call, expected.number());
    }
    compare_damaged(run, &mut random, desk, sound, &subject);
    true
}

/// Damages a volume in some ways one after the other, and tells them.
pub fn damage_together(random: &mut Random, damages: &[Damage], volume: &mut Volume) -> String {
    let count = random.between(2, 4);
    let mut told = Vec::new();
    while told.len() < count {
        let damage = random.pick(damages);
        let checksums = *random.pick(&[Checksums::PutRight, Checksums::Left]);
        let mut damaged = volume.clone();
        if damage.apply(&mut damaged, checksums).is_some() {
            told.push(format!("{} ({checksums:?})", damage.name));
            *volume = damaged;
        }
    }
    told.join("; ")
}

/// A volume with a flaw: what the paper says of it, and the model.
pub fn compare_flawed(run: &mut Run, (lender, desk): (&mut Lender, &mut Desk), flawed: &Flawed) {
    let mut random = run.random();
    if !run.next_case() {
        return;
    }
    let expected = flawed.judged;
    let story = [
        ("volume", flawed.sound.describe()),
        ("flaw", flawed.flaw.name.clone()),
        ("expected", format!("{expected:?}")),
    ];
    let subject = Subject {
        image: lender.lend(&flawed.changed.image),
        story: &story,
    };
    subject.expect_judged(run, &mut random, desk, expected);
    subject.compare_verdict(run, &mut random, desk);
    subject.compare_facts(run, &mut random, flawed.sound, Depth::SOME);
}

/// A volume with a flaw mostly opens, and tells what it says: each answer, often enough.
pub fn expect_flawed_met(run: &mut Run, least: u64) {
    expect_each_met(run, &[0], least);
    run.expect_met("header", [7, 8], least);
    run.expect_met("pointer", [7, 8, 15], least);
    run.expect_met("attributes", 6..=12, least);
    run.expect_met("extent", 6..=13, least);
    run.expect_met("free_run", [15], least);
}
