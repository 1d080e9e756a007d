//! A hub station's disk, and the largest disk with all numbers in use: index files of several headers
//! (02, 9/14).

use crate::facts::measure_headers;
use crate::reading::{open_volume, DIRECTORY};
use crate::table::{Line, Run};
use std::cell::LazyCell;
use volumes::hub::{hub, Hub};
use volumes::Volume;

/// The largest disk with all numbers in use, and an index file of as many headers as can be.
const OF_256: Hub = Hub {
    index_headers: 256,
    ..Hub::FULL
};

/// Mapping the first VBN of each file that has one and that can be opened.
fn map_each_file(line: Line, volume: &Volume) {
    let files = volume.files.iter();
    let files = files.filter(|file| file.blocks() > 0 && !file.is_locked());
    let ids: Vec<[u16; 3]> = files.map(|file| file.id().words()).collect();
    line.read(&volume.image, &ids, |side, image, id, answer| {
        side.map(image, id, 1, answer);
    });
}

/// Looking up the names of some records, from the first to the last.
fn look_up_some(line: Line, volume: &Volume) {
    let records = volume.records.iter().step_by(volume.records.len() / 64);
    let names: Vec<[u16; 5]> = records.map(|placed| placed.record.name).collect();
    line.read(&volume.image, &names, |side, image, name, answer| {
        side.look_up(image, DIRECTORY, name, answer);
    });
}

/// Measures all lines.
pub fn measure(run: &Run) {
    let station = LazyCell::new(|| hub(&Hub::STATION));
    run.line("open volume, hub station, 2 index headers", |line| {
        open_volume(line, &station.image);
    });
    run.line("map VBN 1 of each file, hub station", |line| {
        map_each_file(line, &station);
    });
    run.line("header of each number, hub station", |line| {
        measure_headers(line, &station);
    });
    run.line("verdict, hub station, 26,600 headers", |line| {
        line.judge(&station, 26_600);
    });
    run.line("create, extend, delete, hub station", |line| {
        line.change(|| hub(&Hub::STATION));
    });
    let full = LazyCell::new(|| hub(&Hub::FULL));
    run.line("open volume, full hub, 3 index headers", |line| {
        open_volume(line, &full.image);
    });
    run.line("map VBN 1 of each file, full hub", |line| {
        map_each_file(line, &full);
    });
    run.line("look up names, full hub, 2,048 blocks", |line| {
        look_up_some(line, &full);
    });
    run.line("header of each number, full hub", |line| {
        measure_headers(line, &full);
    });
    run.line("verdict, full hub, 65,535 headers", |line| {
        line.judge(&full, 65_535);
    });
    let longest = LazyCell::new(|| hub(&OF_256));
    run.line("open volume, full hub, 256 index headers", |line| {
        open_volume(line, &longest.image);
    });
    run.line("header of each number, full hub, 256 of index", |line| {
        measure_headers(line, &longest);
    });
    run.line("verdict, full hub, 256 index headers", |line| {
        line.judge(&longest, 65_535);
    });
}
