//! A hub station's disk: many files, and an index file of several headers. Paper 02, 9/14: "Two hub
//! stations keep over 26,000 files", and "The header of each further segment must have its slot in the
//! part that earlier segments map."
//!
//! What is on one follows from what is wanted of it, and from nothing drawn at random. The slots lie
//! in runs of at most 256 blocks, the last run of the disk first, and the header of each further
//! segment has the last slot that those before it map.

use crate::block::put_word;
use crate::directory::name_words;
use crate::facts::{End, Facts};
use crate::header::{
    pointers_of, Areas, Header, Pointer, DEACCESS_LOCKED, MARKED_FOR_DELETE, MOST_POINTERS,
};
use crate::shapes::{bad_block_shares, home_positions, MOST_BLOCKS};
use crate::station::LABEL;
use crate::volume::{File, Placed, Plan, Record, Roles, Volume, BLOCK_RECORDS, FIRST_HEADERS};
use std::collections::VecDeque;

/// What a hub station's disk is to hold.
#[derive(Clone, Copy, Debug, PartialEq, Eq)]
pub struct Hub {
    /// N.
    pub blocks: u32,
    /// The LBN of the home block, one of its positions below N.
    pub home: u32,
    pub h_fmax: u16,
    /// How many numbers have a slot: 17 to H.FMAX, and one more at least for each further header.
    pub slots: u16,
    /// How many headers are in use, of all files.
    pub in_use: u16,
    /// How many headers the index file has: 2 to 256.
    pub index_headers: usize,
}

impl Hub {
    /// A disk with 26,000 files and more. 102 pointers, which is what the stations' headers have room
    /// for, map 26,112 blocks at most.
    pub const STATION: Hub = Hub {
        blocks: 171_798,
        home: 1,
        h_fmax: 30_000,
        slots: 28_000,
        in_use: 26_600,
        index_headers: 2,
    };

    /// The largest disk, with every number in use.
    pub const FULL: Hub = Hub {
        blocks: MOST_BLOCKS,
        home: 1,
        h_fmax: 65_535,
        slots: 65_535,
        in_use: 65_535,
        index_headers: 3,
    };

    /// The largest disk with its home at the last position, and 4,079 passed over.
    pub const FULL_WITH_HIGH_HOME: Hub = Hub {
        home: 1_044_224,
        index_headers: 256,
        ..Hub::FULL
    };

    /// A small disk, for tests that make many.
    pub const SMALL: Hub = Hub {
        blocks: 800,
        home: 1,
        h_fmax: 200,
        slots: 180,
        in_use: 150,
        index_headers: 4,
    };
}

/// A hub station's disk. It is sound, and has a file for each role.
pub fn hub(wanted: &Hub) -> Volume {
    let mut land = Land::new(wanted);
    let plan = plan(wanted, &mut land);
    let index = index_file(&plan, &even_parts(&plan, wanted.index_headers));
    let storage = pointers_of(&plan.storage_lbns());
    let mut numbers = other_numbers(wanted, &index);
    let bad_blocks = bad_block_file(&plan, &mut numbers);
    let image = vec![0; 512 * plan.blocks as usize];
    let mut volume = Volume::new(plan, image);
    volume.put_label(LABEL);
    volume.add(index);
    volume.add(File::of(Header::new(2, 2, storage)));
    volume.add(bad_blocks);
    volume.add(File::of(directory_header(&mut land, numbers.len())));
    volume.add(File::of(Header::new(5, 5, Vec::new())));
    add_files(&mut volume, &mut land, numbers);
    put_records(&mut volume);
    volume.put_storage_map();
    volume
}

/// The blocks that are still to be had, from the lowest on.
struct Land {
    blocks: u32,
    next: u32,
    /// The boot block, the home block, and the positions passed over, rising.
    kept: VecDeque<u32>,
}

impl Land {
    /// The land of a disk on which nothing lies.
    fn new(wanted: &Hub) -> Land {
        let positions = home_positions(wanted.blocks);
        assert!(positions.contains(&wanted.home), "a position of a home");
        let kept = positions.into_iter().filter(|&it| it <= wanted.home);
        Land {
            blocks: wanted.blocks,
            next: 0,
            kept: std::iter::once(0).chain(kept).collect(),
        }
    }

    /// Takes the next block, if there is one.
    fn take(&mut self) -> Option<u32> {
        while self.kept.front() == Some(&self.next) {
            self.kept.pop_front();
            self.next += 1;
        }
        let lbn = self.next;
        self.next += 1;
        (lbn < self.blocks).then_some(lbn)
    }

    /// Takes the next blocks in a row, which there are.
    fn take_run(&mut self, count: u32) -> u32 {
        let mut start = self.take().expect("a block");
        let mut length = 1;
        while length < count {
            let lbn = self.take().expect("blocks in a row");
            if lbn != start + length {
                start = lbn;
                length = 0;
            }
            length += 1;
        }
        start
    }

    /// Takes the next blocks, or none if there are not so many.
    fn take_blocks(&mut self, count: u32) -> Vec<u32> {
        let lbns: Option<Vec<u32>> = (0..count).map(|_| self.take()).collect();
        lbns.unwrap_or_default()
    }
}

/// The home block, the index file and the storage map file of a hub.
fn plan(wanted: &Hub, land: &mut Land) -> Plan {
    let mut plan = Plan {
        blocks: wanted.blocks,
        home: wanted.home,
        h_vlev: 258,
        h_fmax: wanted.h_fmax,
        h_iblb: 0,
        more_slots: Vec::new(),
        control: 0,
        storage_map: 0,
    };
    assert!((17..=wanted.h_fmax).contains(&wanted.slots));
    plan.h_iblb = land.take_run(plan.index_map_blocks() + FIRST_HEADERS);
    plan.control = land.take_run(1);
    plan.storage_map = land.take_run(plan.storage_map_blocks());
    let more = u32::from(wanted.slots) - FIRST_HEADERS;
    let slots = land.take_blocks(more);
    assert!(slots.len() as u32 == more, "blocks for the slots");
    let runs = pointers_of(&slots).into_iter().rev();
    plan.more_slots = runs.flat_map(Pointer::lbns).collect();
    plan
}

/// How many blocks of the index file each of so many headers maps: the first as many as the rules ask
/// for at least, and otherwise as even as can be. Paper 02, 9/14: "The first segment must still map
/// VBN 1 to m+18."
pub fn even_parts(plan: &Plan, headers: usize) -> Vec<u32> {
    let least = 2 + plan.index_map_blocks() + FIRST_HEADERS;
    let mut left = plan.index_lbns().len() as u32;
    let mut parts = Vec::new();
    for headers in (1..=headers as u32).rev() {
        let even = left / headers;
        let part = if parts.is_empty() {
            even.max(least)
        } else {
            even
        };
        parts.push(part);
        left -= part;
    }
    parts
}

/// File 1, with so many blocks of the index file to each header, in order. The number of each further
/// header is the last that those before it have a slot for: no two are the same, since each maps a
/// block. Paper 02, 9/14: "The header of each further segment must have its slot in the part that
/// earlier segments map."
fn index_file(plan: &Plan, parts: &[u32]) -> File {
    assert!((2..=256).contains(&parts.len()), "2 to 256 headers");
    let lbns = plan.index_lbns();
    let mut numbers = Vec::new();
    let mut shares = Vec::new();
    let mut mapped = 0;
    for &part in parts {
        assert!(part > 0, "each header maps a block");
        let number = match mapped {
            0 => 1,
            _ => mapped - 2 - plan.index_map_blocks(),
        };
        numbers.push(u16::try_from(number).expect("a number"));
        let end = mapped + part;
        shares.push(pointers_of(&lbns[mapped as usize..end as usize]));
        mapped = end;
    }
    chain(&numbers, shares)
}

/// The usual areas where they have room for so many pointers, else the largest.
fn areas_for(pointers: usize) -> Areas {
    assert!(pointers <= MOST_POINTERS, "pointers in one header");
    if 2 * pointers <= usize::from(Areas::USUAL.m_max) {
        Areas::USUAL
    } else {
        Areas::LARGEST
    }
}

/// The sequence of a number's header.
pub fn sequence_of(number: u16) -> u16 {
    match number {
        1..=5 => number,
        _ => 1 + number % 97,
    }
}

/// The numbers of the headers in use that are not of known files and not of the index file: half of
/// them the lowest, half of them the highest, so that the numbers that are left lie in the middle.
fn other_numbers(wanted: &Hub, index: &File) -> VecDeque<u16> {
    let taken = 5 + index.headers.len() - 1;
    let count = usize::from(wanted.in_use) - taken;
    let is_taken: Vec<u16> = index.headers.iter().map(|header| header.number).collect();
    let free = (6..=wanted.slots).filter(|number| !is_taken.contains(number));
    let free: Vec<u16> = free.collect();
    let (low, high) = (count.div_ceil(2), count / 2);
    let highest = &free[low..][free.len() - low - high..];
    free[..low].iter().chain(highest).copied().collect()
}

/// The numbers of a chain's headers: each further one has the highest that is left, or one in the
/// middle, so that the chain goes to and fro.
fn chain_numbers(numbers: &mut VecDeque<u16>, count: usize) -> Vec<u16> {
    let mut chain = vec![numbers.pop_front().expect("a number")];
    while chain.len() < count {
        let number = if chain.len() % 2 == 1 {
            numbers.pop_back()
        } else {
            numbers.remove(numbers.len() / 2)
        };
        chain.push(number.expect("a number"));
    }
    chain
}

/// A chain of headers, with the pointers of each.
fn chain(numbers: &[u16], pointers: Vec<Vec<Pointer>>) -> File {
    let headers = numbers.iter().zip(pointers);
    File::chain(headers.map(|(&number, pointers)| Header {
        areas: areas_for(pointers.len()),
        ..Header::new(number, sequence_of(number), pointers)
    }))
}

/// File 3 with the home positions passed over, in as many headers as they need.
fn bad_block_file(plan: &Plan, numbers: &mut VecDeque<u16>) -> File {
    let shares = bad_block_shares(plan);
    let mut names = vec![3];
    if shares.len() > 1 {
        numbers.push_front(3);
        names = chain_numbers(numbers, shares.len());
    }
    chain(&names, shares)
}

/// The header of file 4, with room for a record of each of so many headers, or for as many as a
/// quarter of the land that is left has room for.
fn directory_header(land: &mut Land, records: usize) -> Header {
    let blocks = (records as u32 + 5).div_ceil(BLOCK_RECORDS);
    let most = (land.blocks - land.next.min(land.blocks)) / 4;
    let pointers = pointers_of(&land.take_blocks(blocks.min(most)));
    Header {
        areas: areas_for(pointers.len()),
        ..Header::new(4, 4, pointers)
    }
}

/// Adds the files of the roles, chains of three headers, and files of one header, until each number
/// has a header.
fn add_files(volume: &mut Volume, land: &mut Land, mut numbers: VecDeque<u16>) {
    let mut role = |blocks: u32, user_flags: u8, system_flags: u8| {
        let number = numbers.pop_back().expect("a number for each role");
        let mut file = file_of(land, &[number], blocks);
        file.headers[0].user_flags = user_flags;
        file.headers[0].system_flags = system_flags;
        volume.add(file);
        number
    };
    let mut roles = Roles {
        plain: role(5, 0, 0),
        empty: role(0, 0, 0),
        locked: role(1, DEACCESS_LOCKED, 0),
        marked: role(1, 0, MARKED_FOR_DELETE),
        chained: 0,
        directory: 4,
    };
    roles.chained = *numbers.front().expect("a number for a chain");
    volume.roles = roles;
    for _ in 0..(numbers.len() / 8).clamp(1, 200) {
        let chain = chain_numbers(&mut numbers, 3);
        volume.add(file_of(land, &chain, 2));
    }
    for number in numbers {
        let blocks = u32::from(number % 4);
        volume.add(file_of(land, &[number], blocks));
    }
}

/// A file whose headers have so many blocks each, as far as there is land, and its name.
fn file_of(land: &mut Land, numbers: &[u16], blocks: u32) -> File {
    let shares = numbers
        .iter()
        .map(|_| pointers_of(&land.take_blocks(blocks)));
    let mut file = chain(numbers, shares.collect());
    let blocks = file.blocks();
    file.headers[0].facts = Some(Facts {
        owner: 0x0107,
        protection: 0xe000,
        record_type: 1,
        record_attributes: 0,
        record_size: 32,
        highest: blocks,
        end: End::after(512 * u64::from(blocks)),
        name: name_of(numbers[0]),
    });
    file
}

/// The name of a file, by its number.
pub fn name_of(number: u16) -> [u16; 5] {
    name_words(&format!("F{number:05}.DAT;1"))
}

/// Puts a record for each file into file 4, as far as there is room, and the number of each file into
/// its blocks.
fn put_records(volume: &mut Volume) {
    let directory = volume.file(4).lbns();
    let places = directory.len() as u32 * BLOCK_RECORDS;
    let ids = volume.files.iter().map(|file| file.id().words());
    let records = ids.map(|id| Record {
        id,
        name: name_of(id[0]),
    });
    let records: Vec<Placed> = (0..places)
        .zip(records)
        .map(|(place, record)| Placed {
            directory: 4,
            place,
            record,
        })
        .collect();
    for placed in &records {
        let lbn = directory[(placed.place / BLOCK_RECORDS) as usize];
        placed.put(volume.block_mut(lbn));
    }
    volume.records = records;
    let files = volume.files.iter().filter(|file| file.number() > 5);
    let blocks = files.flat_map(|file| file.lbns().into_iter().map(|lbn| (lbn, file.number())));
    let blocks: Vec<(u32, u16)> = blocks.collect();
    for (lbn, number) in blocks {
        put_word(volume.block_mut(lbn), 0, number);
    }
}

#[cfg(test)]
mod tests {
    use super::*;
    use model::{sound, verdict, Answer};

    /// Sees that what is put is what is wanted, that no block is taken twice, and that the header of
    /// each further segment of file 1 has its slot in the part before.
    fn expect_as_wanted(wanted: &Hub) -> Volume {
        let volume = hub(wanted);
        assert_eq!(volume.headers().count(), usize::from(wanted.in_use));
        assert_eq!(volume.last_slot(), u32::from(wanted.slots));
        let index = volume.file(1);
        assert_eq!(index.headers.len(), wanted.index_headers);
        assert!(index.lbns() == volume.index);
        let m = volume.plan.index_map_blocks();
        let mut mapped = index.headers[0].blocks();
        assert!(mapped >= m + 18);
        for header in &index.headers[1..] {
            assert!(2 + m + u32::from(header.number) <= mapped);
            mapped += header.blocks();
        }
        let mut taken = vec![false; volume.plan.blocks as usize];
        for lbn in volume.files.iter().flat_map(File::lbns) {
            assert!(!taken[lbn as usize], "block {lbn} is taken twice");
            taken[lbn as usize] = true;
        }
        for number in [volume.roles.plain, volume.roles.locked] {
            assert!(volume.file(number).blocks() > 0);
        }
        assert!(volume.records.len() > 5);
        expect_accepted(&volume);
        volume
    }

    /// Sees that a hub is sound, and that the verdict counts what was put there.
    fn expect_accepted(volume: &Volume) {
        let (blocks, h_fmax) = (volume.plan.blocks, volume.plan.h_fmax);
        let claimed: u32 = volume.files.iter().map(File::blocks).sum();
        let headers = volume.headers().count() as u32;
        let counts = [blocks, claimed, blocks - claimed, headers].map(u64::from);
        let (mut marks, mut links) = (vec![7; blocks as usize], vec![7; h_fmax.into()]);
        let answer = verdict::judge(&volume.image, &mut marks, &mut links);
        assert_eq!(answer, Answer::done(&counts), "{}", volume.describe());
        assert!(sound::opens_and_is_sound(&volume.image));
    }

    #[test]
    fn hubs_are_as_wanted() {
        for wanted in [
            Hub::SMALL,
            Hub::STATION,
            Hub::FULL,
            Hub::FULL_WITH_HIGH_HOME,
        ] {
            expect_as_wanted(&wanted);
        }
        let files = hub(&Hub::STATION).files.len();
        assert!(files > 26_000, "{files} files");
    }

    #[test]
    fn hubs_of_every_number_of_index_headers() {
        for index_headers in 2..=256 {
            expect_as_wanted(&Hub {
                blocks: 1_300,
                home: [1, 256, 512, 1_024][index_headers % 4],
                h_fmax: 600,
                slots: 500,
                in_use: 400,
                index_headers,
            });
        }
    }
}
