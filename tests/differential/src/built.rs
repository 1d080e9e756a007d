//! The comparisons of a sound volume: the library against the builder, which knows what it put where,
//! and against the model.

use crate::asked::{all_of, ids, opening_of, places, some, some_of};
use crate::facts::{expect_each_met, Depth};
use crate::images::{Call, Subject};
use crate::run::Run;
use library::Lender;
use model::Number;
use volumes::volume::File;
use volumes::{Random, Volume};

/// The records of a directory that are not empty, in order, with their places.
fn records(volume: &Volume, directory: u16) -> Vec<(u32, [u64; 8])> {
    let mut records = Vec::new();
    for (vbn, lbn) in (0..).zip(volume.file(directory).lbns()) {
        for (number, bytes) in (0..).zip(volume.block(lbn).chunks_exact(16)) {
            let mut words = [0; 8];
            for (word, two) in words.iter_mut().zip(bytes.chunks_exact(2)) {
                *word = u64::from(two[0]) | u64::from(two[1]) << 8;
            }
            if words[0] != 0 {
                records.push((32 * vbn + number, words));
            }
        }
    }
    records
}

/// Some of a file's blocks, each where the builder put it.
fn expect_blocks(run: &mut Run, random: &mut Random, subject: &Subject, file: &File) {
    let lbns = file.lbns();
    let id = file.id();
    let mut vbns: Vec<usize> = (1..=lbns.len()).collect();
    if vbns.len() > 40 {
        let mut some = some(random, &vbns, 38);
        some.extend([1, lbns.len()]);
        vbns = some;
    }
    for vbn in vbns {
        let lbn = u64::from(lbns[vbn - 1]);
        let vbn = vbn as u32;
        subject.expect_words(run, Call::Map(id, vbn), &[lbn]);
        subject.expect_words(run, Call::Block(id, vbn), &[512 * lbn, 512]);
    }
    let past = lbns.len() as u32 + 1;
    for vbn in [0, past, u32::MAX] {
        subject.expect(run, Call::Map(id, vbn), Number::Vbn);
        subject.expect(run, Call::Block(id, vbn), Number::Vbn);
    }
}

/// A walk over all records of a directory, each answered in turn, and then ABSENT.
fn expect_walk(run: &mut Run, subject: &Subject, volume: &Volume, directory: u16) {
    let id = volume.file(directory).id();
    let mut place = 0;
    for (found, words) in records(volume, directory) {
        let mut value = words.to_vec();
        value.push(u64::from(found) + 1);
        subject.expect_words(run, Call::NextRecord(id, place), &value);
        place = found + 1;
    }
    subject.expect(run, Call::NextRecord(id, place), Number::Absent);
    subject.expect(run, Call::NextRecord(id, place), Number::Absent);
}

/// What the builder knows of a volume, of the library alone.
fn expect_as_built(run: &mut Run, random: &mut Random, subject: &Subject, volume: &Volume) {
    subject.expect_words(run, Call::OpenVolume, &[volume.plan.home.into()]);
    for file in &volume.files {
        let id = file.id();
        if file.is_locked() {
            subject.expect(run, Call::OpenFile(id), Number::Locked);
            continue;
        }
        subject.expect_words(run, Call::OpenFile(id), &[file.blocks().into()]);
        expect_blocks(run, random, subject, file);
    }
    for directory in [4, volume.roles.directory] {
        expect_walk(run, subject, volume, directory);
    }
    subject.expect_facts(run, volume);
}

/// Sees that each number that the calls on sound volumes answer was answered often enough.
pub fn expect_built_met(run: &mut Run, least: u64) {
    run.expect_met("open_volume", [0], least);
    run.expect_met("open_file", [0, 6, 7, 9, 10, 11], least);
    run.expect_met("map", [0, 13], least);
    run.expect_met("block", [0, 13], least);
    run.expect_met("look_up", [0, 14, 15], least);
    run.expect_met("next_record", [0, 15], least);
    expect_each_met(run, &[0], least);
    run.expect_met("header", [7], least);
    run.expect_met("pointer", [7, 15], least);
    run.expect_met("attributes", [6, 7, 9], least);
    run.expect_met("extent", [6, 7, 9, 13], least);
    run.expect_met("free_run", [15], least);
}

/// Compares a sound volume: as it was built, and everything that is asked, against the model.
pub fn compare_built(run: &mut Run, random: &mut Random, lender: &mut Lender, volume: &Volume) {
    let image = lender.lend(&volume.image);
    let subject = Subject {
        image,
        story: &[("volume", volume.describe())],
    };
    expect_as_built(run, random, &subject, volume);
    subject.compare_volume(run);
    let ids = ids(volume);
    for &id in &ids {
        subject.compare_file(run, &opening_of(id));
    }
    for number in [1, 4, volume.roles.chained, volume.roles.directory] {
        let id = volume.file(number).id();
        let mut asked = all_of(volume, image, id);
        asked.vbns = some(random, &asked.vbns, 40);
        asked.places = some(random, &places(volume, image, id), 20);
        subject.compare_file(run, &asked);
    }
    for id in some(random, &ids, 6) {
        let asked = some_of(random, volume, image, id);
        subject.compare_file(run, &asked);
    }
    subject.compare_facts(run, random, volume, Depth::MUCH);
}
