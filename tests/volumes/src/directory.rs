//! The directories of random volumes.

use crate::random::Random;
use crate::volume::{Record, Volume, BLOCK_RECORDS};
use model::names;

/// Names of records: some are there twice, and some files have one each.
const NAMES: [&str; 8] = [
    "READS.DAT;1",
    "READS.DAT;2",
    "READS.DAT;32767",
    "A.;1",
    "RATIO.CFG;3",
    "999999999.999;9",
    "INDEXF.SYS;1",
    "BITMAP.SYS;1",
];

/// The words of a proper name's text.
pub fn name_words(text: &str) -> [u16; 5] {
    let name = names::name_of(text.as_bytes());
    name.expect("a proper name").words()
}

/// Puts records into file 4 and into the directory: of files, old ones, double ones and wrong ones.
pub fn put_directories(random: &mut Random, volume: &mut Volume) {
    for directory in [4, volume.roles.directory] {
        let blocks = volume.file(directory).blocks();
        let clear: Vec<u32> = volume.file(directory).lbns();
        for lbn in clear {
            volume.block_mut(lbn).fill(0);
        }
        let places = blocks * BLOCK_RECORDS;
        for place in 0..places {
            if random.once_in(3) {
                let record = random_record(random, volume);
                volume.put_record(directory, place, record);
            }
        }
        put_edges(random, volume, directory, places);
    }
}

/// Puts a record at the first place and at the last, more often than by chance.
fn put_edges(random: &mut Random, volume: &mut Volume, directory: u16, places: u32) {
    for place in [0, places.saturating_sub(1)] {
        if places > 0 && random.once_in(2) {
            let record = random_record(random, volume);
            volume.put_record(directory, place, record);
        }
    }
}

/// A random record: mostly one that names a file by its ID.
fn random_record(random: &mut Random, volume: &Volume) -> Record {
    let file = random.pick(&volume.files);
    let mut id = file.id().words();
    let text = *random.pick(&NAMES);
    let mut name = name_words(text);
    match random.below(10) {
        // Old: the header has another sequence.
        0 => id[1] = id[1].wrapping_sub(1),
        1 => id[1] = random.word(),
        // A third word, which is answered as it is stored.
        2 => id[2] = random.word(),
        // Empty, though it has a name.
        3 => id[0] = 0,
        // A name that no look-up may ask for.
        4 => name[random.between(0, 3)] = *random.pick(&[29, 27, 1, 64_000, 65_535]),
        5 => name[4] = *random.pick(&[0, 32_768, 65_535]),
        6 => {
            id = [random.word(), random.word(), random.word()];
            name = [(); 5].map(|()| random.word());
        }
        _ => (),
    }
    Record { id, name }
}
