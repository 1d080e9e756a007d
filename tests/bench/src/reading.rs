//! Opening volumes and files, mapping, looking up and walking, on volumes whose index file has one header.

use crate::calls::{answer_of, Calls, Plain};
use crate::plain::Answer;
use crate::table::{Line, Run};
use std::cell::LazyCell;
use volumes::directory::name_words;
use volumes::header::{Areas, Header, Pointer};
use volumes::shapes::{MOST_BLOCKS, RL02_BLOCKS};
use volumes::volume::{File, Plan, Record, Volume};

/// The ID of the file that is mapped.
pub const READINGS: [u16; 3] = [9, 3, 0];

/// The ID of the directory.
pub const DIRECTORY: [u16; 3] = [4, 4, 0];

/// A volume with a readings file of some headers with 102 pointers each, and a directory.
fn volume(plan: Plan, headers: u16, blocks: u32, directory: u32) -> Volume {
    let image = vec![0; 512 * plan.blocks as usize];
    let start = plan.storage_map + plan.storage_map_blocks();
    let mut volume = Volume::new(plan, image);
    let records = Pointer {
        lbn: start,
        blocks: directory,
    };
    volume.add_known(Areas::USUAL, vec![], vec![records]);
    volume.add(readings_file(start + directory, headers, blocks));
    put_records(&mut volume, directory);
    volume.put_storage_map();
    volume
}

/// A file of some headers with 102 pointers each, as the stations write them; the pointers are of
/// `blocks` blocks, with one block between.
fn readings_file(start: u32, headers: u16, blocks: u32) -> File {
    let pointers = usize::from(Areas::USUAL.m_max) / 2;
    let [number, sequence, _] = READINGS;
    let header = |segment: u16| {
        let first = u32::from(segment) * pointers as u32;
        let pointers = (first..first + pointers as u32).map(|place| Pointer {
            lbn: start + place * (blocks + 1),
            blocks,
        });
        Header::new(number + segment, sequence, pointers.collect())
    };
    File::chain((0..headers).map(header))
}

/// Fills the directory with records, all of other names than the one that is looked up.
fn put_records(volume: &mut Volume, blocks: u32) {
    let [name1, name2, name3, typ, _] = name_words("READS.DAT;1");
    for place in 0..32 * blocks {
        let version = 1 + (place % 32_000) as u16;
        let record = Record {
            id: READINGS,
            name: [name1, name2, name3, typ, version],
        };
        // Every fourth record is empty.
        if place % 4 != 3 {
            volume.put_record(4, place, record);
        }
    }
}

/// An RL02 disk: a readings file of 6 headers and 9,792 blocks, a directory of 200 blocks.
pub fn rl02() -> Volume {
    let plan = Plan {
        blocks: RL02_BLOCKS,
        home: 1,
        h_vlev: 257,
        h_fmax: 2_000,
        h_iblb: 2,
        more_slots: (19..119).collect(),
        control: 300,
        storage_map: 301,
    };
    volume(plan, 6, 16, 200)
}

/// The largest volume: a readings file of 4 headers and 104,448 blocks, a directory of 64 blocks.
fn largest() -> Volume {
    let plan = Plan {
        blocks: MOST_BLOCKS,
        home: 1,
        h_vlev: 257,
        h_fmax: 65_535,
        h_iblb: 500_000,
        more_slots: (600_000..602_000).collect(),
        control: 700_000,
        storage_map: 700_001,
    };
    volume(plan, 4, 256, 64)
}

/// Opening a volume.
pub fn open_volume(line: Line, image: &[u8]) {
    line.read(image, &[(); 2_000], |side, image, (), answer| {
        side.open_volume(image, answer);
    });
}

/// Opening the readings file.
fn open_readings(line: Line, image: &[u8]) {
    line.read(image, &[(); 200], |side, image, (), answer| {
        side.open_file(image, READINGS, answer);
    });
}

/// Mapping each VBN of the readings file, which has so many blocks.
fn map_every_vbn(line: Line, image: &[u8], blocks: u32) {
    let vbns: Vec<u32> = (1..=blocks).collect();
    line.read(image, &vbns, |side, image, vbn, answer| {
        side.map(image, READINGS, vbn, answer);
    });
}

/// Looking up a name that no record has.
fn look_up_absent(line: Line, image: &[u8]) {
    let absent = name_words("READS.DAT;32767");
    line.read(image, &[(); 200], |side, image, (), answer| {
        side.look_up(image, DIRECTORY, absent, answer);
    });
}

/// The places that a walk asks from: the first, then each that follows from the answer before, up to
/// one that is refused.
pub fn walk(
    first: u32,
    step: impl Fn(u32, &mut Answer),
    next: impl Fn(u32, &Answer) -> u64,
) -> Vec<u32> {
    let mut places = vec![first];
    loop {
        let place = places[places.len() - 1];
        let answer = answer_of(|answer| step(place, answer));
        if answer[0] != 0 {
            return places;
        }
        places.push(next(place, &answer) as u32);
    }
}

/// Walking all records of a directory.
fn walk_directory(line: Line, image: &[u8]) {
    let step = |place, answer: &mut Answer| Plain.next_record(image, DIRECTORY, place, answer);
    let places = walk(0, step, |_, answer| answer[10]);
    line.read(image, &places, |side, image, place, answer| {
        side.next_record(image, DIRECTORY, place, answer);
    });
}

/// Measures all lines.
pub fn measure(run: &Run) {
    let rl02 = LazyCell::new(rl02);
    run.line("map every VBN, RL02, 6 headers, 612 pointers", |line| {
        map_every_vbn(line, &rl02.image, 9_792);
    });
    run.line("open a file, RL02, 6 headers, 612 pointers", |line| {
        open_readings(line, &rl02.image);
    });
    run.line("open volume, RL02", |line| open_volume(line, &rl02.image));
    run.line("look up an absent name, 200 blocks", |line| {
        look_up_absent(line, &rl02.image);
    });
    let largest = LazyCell::new(largest);
    run.line("map every VBN, 1,044,480 blocks, 408 pointers", |line| {
        map_every_vbn(line, &largest.image, 104_448);
    });
    run.line("open volume, 1,044,480 blocks", |line| {
        open_volume(line, &largest.image);
    });
    run.line("walk a directory of 64 blocks by next_record", |line| {
        walk_directory(line, &largest.image);
    });
}
