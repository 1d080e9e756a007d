//! What is asked of a volume: IDs, VBNs, names and record places near every edge.

use crate::images::Asked;
use model::file::{self, Opened};
use model::{runs, Id};
use volumes::block::word;
use volumes::directory::name_words;
use volumes::header::at;
use volumes::volume::{BLOCK_RECORDS, MAP_BITS};
use volumes::{Random, Volume};

/// IDs near every edge: those of files and of extension headers, with the right sequence, with one
/// that is one off, and with a third word; and numbers at the bounds.
pub fn ids(volume: &Volume) -> Vec<Id> {
    let mut ids = Vec::new();
    for file in &volume.files {
        let [number, sequence, _] = file.id().words();
        ids.push([number, sequence, 0]);
        ids.push([number, sequence.wrapping_add(1), 0]);
        ids.push([number, sequence.wrapping_sub(1), 0]);
        ids.push([number, sequence, 1]);
        if let Some(extension) = file.headers.get(1) {
            ids.push([extension.number, extension.sequence, 0]);
            ids.push([extension.number, extension.sequence ^ 1, 0]);
        }
    }
    for number in bounds(volume) {
        let sequence = sequence_of(volume, number);
        ids.push([number, sequence, 0]);
        ids.push([number, sequence ^ 1, 0]);
        ids.push([number, sequence, 32_768]);
    }
    ids.sort_unstable();
    ids.dedup();
    ids.into_iter().map(Id::from_words).collect()
}

/// Numbers at the bounds: of the known files, of the first slots, of H.FMAX, of all slots and of
/// everything.
fn bounds(volume: &Volume) -> [u16; 13] {
    let h_fmax = volume.plan.h_fmax;
    let last_slot = u16::try_from(volume.last_slot()).unwrap_or(u16::MAX);
    [
        0,
        1,
        5,
        6,
        7,
        16,
        17,
        h_fmax - 1,
        h_fmax,
        h_fmax.wrapping_add(1),
        last_slot,
        last_slot.wrapping_add(1),
        65_535,
    ]
}

/// Numbers of headers: those of every header of a file, and those at the bounds.
pub fn numbers(volume: &Volume) -> Vec<u16> {
    let mut numbers = bounds(volume).to_vec();
    numbers.extend(volume.headers().map(|header| header.number));
    numbers.extend(volume.unused_number());
    numbers.sort_unstable();
    numbers.dedup();
    numbers
}

/// Places of retrieval pointers near every edge of a header that has so many: the first, the last, one
/// past it, the last that any header can have, and beyond.
pub fn pointer_places(random: &mut Random, pointers: u32) -> Vec<u32> {
    let mut places = vec![0, 1, 101, 102, 112, 113, 255, 1 << 31, u32::MAX];
    places.extend([pointers.saturating_sub(1), pointers, pointers + 1]);
    if pointers > 2 {
        places.push(random.long_between(1, pointers - 1));
    }
    places.sort_unstable();
    places.dedup();
    places
}

/// VBNs near every edge of the rows of a file's blocks, as the model finds them: where each starts, one
/// after it, the last of all and one past it; and some of any kind.
pub fn row_vbns(random: &mut Random, opened: &Opened) -> Vec<u32> {
    let mut vbns = vec![0, 1, 2, u32::MAX];
    if let Ok(file) = opened {
        let blocks = file.blocks() as u32;
        let starts = runs::row_starts(file).into_iter();
        vbns.extend(starts.flat_map(|it| [it.0 as u32, it.0 as u32 + 1]));
        vbns.extend([blocks.saturating_sub(1), blocks, blocks + 1]);
        vbns.extend((0..3).map(|_| random.long_between(0, blocks + 1)));
    }
    vbns.sort_unstable();
    vbns.dedup();
    vbns
}

/// LBNs to look for free blocks from: the bounds of the image and of the blocks of its map, and some of
/// any kind.
pub fn free_starts(random: &mut Random, volume: &Volume) -> Vec<u32> {
    let blocks = volume.plan.blocks;
    let mut starts = vec![0, 1, blocks - 1, blocks, blocks + 1, 1 << 31, u32::MAX];
    if blocks > MAP_BITS {
        let edge = MAP_BITS * random.long_between(1, (blocks - 1) / MAP_BITS);
        starts.extend([edge - 1, edge, edge + 1]);
    }
    starts.extend((0..4).map(|_| random.long_between(0, blocks - 1)));
    starts
}

/// All items, or so many of them where there are more.
pub fn some_or_all<Item: Copy>(random: &mut Random, items: &[Item], most: usize) -> Vec<Item> {
    if items.len() <= most {
        items.to_vec()
    } else {
        some(random, items, most)
    }
}

/// The sequence in a number's slot, so that the ID may open; 1 where there is no slot.
fn sequence_of(volume: &Volume, number: u16) -> u16 {
    let slot = volume.slot(number).filter(|_| number > 0);
    slot.map_or(1, |lbn| word(volume.block(lbn), at::H_FSEQ))
}

/// VBNs near every edge of a file: of the whole, of each header and of each pointer, as it was
/// built and as the model finds it.
pub fn vbns(volume: &Volume, image: &[u8], id: Id) -> Vec<u32> {
    let mut vbns = vec![0, 1, 2, 255, 256, 257, 1 << 31, u32::MAX - 1, u32::MAX];
    let opened = file::open(image, id);
    let blocks = opened.map_or(0, |file| file.blocks()) as u32;
    vbns.extend([blocks.saturating_sub(1), blocks, blocks + 1]);
    let built = volume.files.iter().find(|file| file.number() == id.number);
    if let Some(built) = built {
        let mut last = 0;
        for pointer in built.pointers() {
            vbns.extend([last, last + 1, last + 2]);
            last += pointer.blocks;
        }
        vbns.extend([last, last + 1]);
    }
    vbns.sort_unstable();
    vbns.dedup();
    vbns
}

/// Names that are in records of a volume, proper or not, and some that are in none.
pub fn names(volume: &Volume) -> Vec<[u16; 5]> {
    let mut names: Vec<[u16; 5]> = volume.records.iter().map(|it| it.record.name).collect();
    names.extend(["ABSENT.DAT;1", "READS.DAT;3", "A.A;1", "ZZZ.;9"].map(name_words));
    // No name, a version too low and too high, a blank and a dollar inside.
    let [first, second, third, typ, version] = name_words("READS.DAT;1");
    names.extend([
        [0; 5],
        [65_535; 5],
        [first, second, third, typ, 0],
        [first, second, third, typ, 32_768],
        [0, second, third, typ, version],
        [first, 0, 1_600, typ, version],
        [first, second, third, 27, version],
        [first, second, third, 64_000, version],
        [first, second, third, typ, version + 255],
        [second, first, third, typ, version],
    ]);
    names.sort_unstable();
    names.dedup();
    names
}

/// Record places near every edge of a file: the first and the last of all and of each block, where
/// the records are, and beyond.
pub fn places(volume: &Volume, image: &[u8], id: Id) -> Vec<u32> {
    let mut places = vec![0, 1, 31, 32, 33, 1 << 31, u32::MAX - 1, u32::MAX];
    let opened = file::open(image, id);
    let end = opened.map_or(0, |file| file.blocks()) as u32 * BLOCK_RECORDS;
    places.extend([end.saturating_sub(1), end, end + 1, end + 31, end + 32]);
    let own = volume.records.iter();
    let own = own.filter(|placed| placed.directory == id.number);
    places.extend(own.flat_map(|placed| [placed.place, placed.place + 1]));
    places.sort_unstable();
    places.dedup();
    places
}

/// Everything that is asked of one file.
pub fn all_of(volume: &Volume, image: &[u8], id: Id) -> Asked {
    Asked {
        id,
        vbns: vbns(volume, image, id),
        names: names(volume),
        places: places(volume, image, id),
    }
}

/// Nothing but opening the file is asked.
pub fn opening_of(id: Id) -> Asked {
    Asked {
        id,
        vbns: Vec::new(),
        names: Vec::new(),
        places: Vec::new(),
    }
}

/// Some of what could be asked of one file.
pub fn some_of(random: &mut Random, volume: &Volume, image: &[u8], id: Id) -> Asked {
    let all = all_of(volume, image, id);
    Asked {
        id,
        vbns: some(random, &all.vbns, 4),
        names: some(random, &all.names, 3),
        places: some(random, &all.places, 3),
    }
}

/// Some of the items, of which there is at least one.
pub fn some<Item: Copy>(random: &mut Random, items: &[Item], count: usize) -> Vec<Item> {
    (0..count).map(|_| *random.pick(items)).collect()
}

/// What is asked of a damaged volume: the files that damages aim at, and some IDs more, of which
/// some are only opened.
pub fn some_of_volume(random: &mut Random, volume: &Volume, image: &[u8]) -> Vec<Asked> {
    let roles = volume.roles;
    let mut aimed = vec![1, 4, roles.plain, roles.chained, roles.directory];
    aimed.retain(|&number| number != 0);
    let ids = ids(volume);
    let mut asked: Vec<Asked> = some(random, &ids, 6).into_iter().map(opening_of).collect();
    for number in aimed {
        let id = volume.file(number).id();
        if random.once_in(2) {
            asked.push(some_of(random, volume, image, id));
        } else {
            asked.push(opening_of(id));
        }
    }
    let other = *random.pick(&ids);
    asked.push(some_of(random, volume, image, other));
    asked
}

#[cfg(test)]
mod tests {
    use super::*;
    use volumes::volume_v::volume_v;

    fn id(words: [u16; 3]) -> Id {
        Id::from_words(words)
    }

    #[test]
    fn ids_of_volume_v() {
        let volume = volume_v();
        let ids = ids(&volume);
        for words in [
            [6, 9, 0],
            [6, 8, 0],
            [6, 10, 0],
            [6, 9, 1],
            [0, 1, 0],
            [5, 5, 0],
            [7, 0, 0],
            [16, 0, 0],
            [17, 1, 0],
            [65_535, 1, 0],
        ] {
            assert!(ids.contains(&id(words)), "{words:?}");
        }
    }

    #[test]
    fn vbns_and_places_of_volume_v() {
        let volume = volume_v();
        let found = vbns(&volume, &volume.image, id([6, 9, 0]));
        for vbn in [0, 1, 2, 3, 4, u32::MAX] {
            assert!(found.contains(&vbn), "{vbn}");
        }
        let found = places(&volume, &volume.image, id([4, 4, 0]));
        for place in [0, 1, 31, 32, 33, u32::MAX] {
            assert!(found.contains(&place), "{place}");
        }
    }

    #[test]
    fn numbers_and_pointer_places_of_volume_v() {
        let numbers = numbers(&volume_v());
        for number in [0, 1, 6, 7, 16, 17, 65_535] {
            assert!(numbers.contains(&number), "{number}");
        }
        let places = pointer_places(&mut Random::new(1), 2);
        for place in [0, 1, 2, 3, u32::MAX] {
            assert!(places.contains(&place), "{place}");
        }
    }

    #[test]
    fn rows_and_free_starts_of_volume_v() {
        let volume = volume_v();
        let mut random = Random::new(1);
        let opened = file::open(&volume.image, id([6, 9, 0]));
        let vbns = row_vbns(&mut random, &opened);
        for vbn in [0, 1, 2, 3, 4, u32::MAX] {
            assert!(vbns.contains(&vbn), "{vbn}");
        }
        let starts = free_starts(&mut random, &volume);
        for start in [0, 99, 100, 101, u32::MAX] {
            assert!(starts.contains(&start), "{start}");
        }
    }

    #[test]
    fn names_of_volume_v() {
        let names = names(&volume_v());
        assert!(names.contains(&volumes::volume_v::READS));
        assert!(names.contains(&[0; 5]));
    }
}
