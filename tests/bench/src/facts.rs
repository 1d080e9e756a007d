//! The calls that tell what a volume, its headers and its files say, and where blocks lie in a row.

use crate::calls::{Calls, Plain};
use crate::plain::Answer;
use crate::reading::{rl02, walk, READINGS};
use crate::table::{Line, Run};
use crate::volumes_to_judge;
use std::cell::LazyCell;
use volumes::station::{station, Station};
use volumes::Volume;

/// The seed of the station's disk.
const SEED: u64 = 7;

/// The header of each number up to H.FMAX.
pub fn measure_headers(line: Line, volume: &Volume) {
    let numbers: Vec<u16> = (1..=volume.plan.h_fmax).collect();
    line.read(&volume.image, &numbers, |side, image, number, answer| {
        side.header(image, number, answer);
    });
}

/// The last pointer of each header, or the first, which is absent, where it has none.
fn measure_pointers(line: Line, volume: &Volume) {
    let last = volume
        .headers()
        .map(|it| (it.number, it.pointers.len().saturating_sub(1) as u32));
    let last: Vec<(u16, u32)> = last.collect();
    line.read(
        &volume.image,
        &last,
        |side, image, (number, place), answer| side.pointer(image, number, place, answer),
    );
}

/// The attributes of files.
fn measure_attributes(line: Line, image: &[u8], ids: &[[u16; 3]]) {
    line.read(image, ids, |side, image, id, answer| {
        side.attributes(image, id, answer);
    });
}

/// The extents of files, from the first of each to the refusal past its last.
fn measure_extents(line: Line, image: &[u8], ids: &[[u16; 3]]) {
    let after = |vbn: u32, answer: &Answer| u64::from(vbn) + answer[3];
    let vbns = |&id: &[u16; 3]| {
        let step = |vbn, answer: &mut Answer| Plain.extent(image, id, vbn, answer);
        let vbns = walk(1, step, after);
        vbns.into_iter().map(move |vbn| (id, vbn))
    };
    let extents: Vec<([u16; 3], u32)> = ids.iter().flat_map(vbns).collect();
    line.read(image, &extents, |side, image, (id, vbn), answer| {
        side.extent(image, id, vbn, answer);
    });
}

/// The LBNs that a walk over all free runs asks from; the last one is refused.
fn free_starts(image: &[u8]) -> Vec<u32> {
    let step = |from, answer: &mut Answer| Plain.free_run(image, from, answer);
    walk(0, step, |_, answer| answer[2] + answer[3])
}

/// The free runs from some LBNs on.
fn measure_free_runs(line: Line, image: &[u8], starts: &[u32]) {
    line.read(image, starts, |side, image, from, answer| {
        side.free_run(image, from, answer);
    });
}

/// The IDs of a station's files.
fn ids(station: &Station) -> Vec<[u16; 3]> {
    let files = station.files.iter();
    files.map(|file| file.entry.id.words()).collect()
}

/// Measures all lines.
pub fn measure(run: &Run) {
    let station = LazyCell::new(|| station(SEED));
    run.line("geometry, RL02", |line| {
        line.read(station.image(), &[(); 2_000], |side, image, (), answer| {
            side.geometry(image, answer);
        });
    });
    run.line("label, RL02", |line| {
        line.read(station.image(), &[(); 2_000], |side, image, (), answer| {
            side.label(image, answer);
        });
    });
    run.line("header of each number, station's RL02", |line| {
        measure_headers(line, &station.volume);
    });
    run.line("last pointer of each header, station's RL02", |line| {
        measure_pointers(line, &station.volume);
    });
    run.line("attributes of 2,000 files, station's RL02", |line| {
        measure_attributes(line, station.image(), &ids(&station));
    });
    run.line("extents of a file of 612 pointers, RL02", |line| {
        measure_extents(line, &rl02().image, &[READINGS]);
    });
    run.line("extents of 2,000 files, station's RL02", |line| {
        measure_extents(line, station.image(), &ids(&station));
    });
    run.line("free runs, station's RL02", |line| {
        measure_free_runs(line, station.image(), &free_starts(station.image()));
    });
    let largest = LazyCell::new(volumes_to_judge::largest_in_pieces);
    // Before the refusal there is one long run, and before that there are runs of one block.
    let starts = LazyCell::new(|| free_starts(&largest.image));
    run.line("free runs of one block, 1,044,480 blocks", |line| {
        measure_free_runs(line, &largest.image, &starts[..starts.len() - 2]);
    });
    run.line("the one long free run after them", |line| {
        let long = starts[starts.len() - 2];
        measure_free_runs(line, &largest.image, &[long]);
    });
}
