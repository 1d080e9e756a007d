//! Accidents: random changes of a volume, mostly where the rules look, and images of any bytes.

mod index;

use crate::block::{put_long, put_word, seal_header, seal_home, BLOCK_BYTES};
use crate::header::{at, in_map, Areas, Pointer, MOST_POINTERS};
use crate::random::Random;
use crate::volume::{in_home, Volume, FORMAT, MAP_BITS, RECORD_BYTES};

pub use index::random_index_changes;

/// Makes one to four changes of a volume at random, and answers them in words.
pub fn random_changes(random: &mut Random, volume: &mut Volume) -> String {
    let count = 1 + random.below(4);
    let changes: Vec<String> = (0..count).map(|_| random_change(random, volume)).collect();
    changes.join("; ")
}

/// Makes one change of a volume at random, and answers it in words.
fn random_change(random: &mut Random, volume: &mut Volume) -> String {
    match random.below(12) {
        0 => home_field(random, volume),
        1..=4 => header_field(random, volume),
        5 => pointer(random, volume),
        6 => in_use_bit(random, volume),
        7 => other_slot(random, volume),
        8 => record_byte(random, volume),
        9 => whole_block(random, volume),
        _ => some_byte(random, volume),
    }
}

/// Makes one to three changes at random where the rules of the verdict look, and answers them in
/// words. The volume mostly opens still, checksums are right, and half of the time the storage map
/// is put right again.
pub fn random_flaws(random: &mut Random, volume: &mut Volume) -> String {
    let count = 1 + random.below(3);
    let mut told: Vec<String> = (0..count).map(|_| random_flaw(random, volume)).collect();
    if random.once_in(2) {
        volume.put_storage_map();
        told.push("storage map put right".to_string());
    }
    if random.once_in(8) {
        told.push(random_change(random, volume));
    }
    told.join("; ")
}

/// Makes one change at random where the rules of the verdict look.
fn random_flaw(random: &mut Random, volume: &mut Volume) -> String {
    match random.below(10) {
        0 => in_use_bit(random, volume),
        1 | 2 => link(random, volume),
        3 => sequence_or_segment(random, volume),
        4 | 5 => more_blocks(random, volume),
        6 | 7 => fewer_blocks(random, volume),
        _ => storage_bit(random, volume),
    }
}

/// Links a header to another, to none, or to any number.
fn link(random: &mut Random, volume: &mut Volume) -> String {
    let number = random_header(random, volume);
    let other = random_header(random, volume);
    let sequence = volume.header(other).sequence;
    let link = match random.below(6) {
        0 => (0, 0),
        1 => (other, sequence ^ 1),
        2 => (random.word(), random.word()),
        3 => (volume.unused_number().unwrap_or(other), sequence),
        _ => (other, sequence),
    };
    // Header 2 has no link on a volume that opens.
    if number == 2 {
        return format!("header {number} stays");
    }
    volume.edit_header(number, |header| header.link = link);
    format!("header {number} links to {link:?}")
}

/// Changes the sequence or the segment of a header.
fn sequence_or_segment(random: &mut Random, volume: &mut Volume) -> String {
    let number = random_header(random, volume);
    if number < 3 {
        return format!("header {number} stays");
    }
    let byte = edge_byte(random, volume.header(number).segment);
    if random.once_in(2) {
        volume.edit_header(number, |header| header.segment = byte);
        format!("header {number}: segment {byte}")
    } else {
        volume.edit_header(number, |header| header.sequence ^= u16::from(byte));
        format!("header {number}: sequence changed by {byte}")
    }
}

/// Puts a pointer more into a header, below N.
fn more_blocks(random: &mut Random, volume: &mut Volume) -> String {
    let number = random_header(random, volume);
    let blocks = volume.plan.blocks;
    let count = *random.pick(&[1, 1, 1, 2, 3, 40, 256]);
    let count = count.min(blocks);
    let lbn = match random.below(4) {
        0 => blocks - count,
        1 => *random.pick(&[0, 1, volume.plan.home, volume.plan.control]),
        _ => random.below(u64::from(blocks - count + 1)) as u32,
    };
    let lbn = lbn.min(blocks - count);
    if number == 2 || volume.header(number).pointers.len() == MOST_POINTERS {
        return format!("header {number} stays");
    }
    let pointer = Pointer { lbn, blocks: count };
    volume.edit_header(number, |header| {
        header.pointers.push(pointer);
        header.areas = Areas::LARGEST;
    });
    format!("header {number}: {pointer:?} more")
}

/// Takes a pointer out of a header, or of file 3, as often; files 1 and 2 keep theirs.
fn fewer_blocks(random: &mut Random, volume: &mut Volume) -> String {
    let number = if random.once_in(2) {
        random.pick(&volume.file(3).headers).number
    } else {
        random_header(random, volume)
    };
    let pointers = volume.header(number).pointers.len();
    if number < 3 || pointers == 0 {
        return format!("header {number} stays");
    }
    let place = random.between(0, pointers - 1);
    volume.edit_header(number, |header| {
        header.pointers.remove(place);
    });
    format!("header {number}: pointer {place} less")
}

/// Turns a bit of the storage map over.
fn storage_bit(random: &mut Random, volume: &mut Volume) -> String {
    let end = MAP_BITS * volume.plan.storage_map_blocks();
    let blocks = volume.plan.blocks;
    let bit = match random.below(5) {
        0 => random.below(u64::from(end)) as u32,
        1 => (blocks + random.below(10) as u32).min(end - 1),
        2 => blocks - 1 - random.below(10) as u32,
        _ => random.below(u64::from(blocks)) as u32,
    };
    volume.storage_map_mut()[(bit / 8) as usize] ^= 1 << (bit % 8);
    format!("bit {bit} of the storage map turned over")
}

/// One of the headers of files, with its number.
fn random_header(random: &mut Random, volume: &Volume) -> u16 {
    let roles = volume.roles;
    let file = match random.below(4) {
        0 => volume.file(*random.pick(&[1, 2, roles.plain, roles.directory])),
        1 | 2 if roles.chained != 0 => volume.file(roles.chained),
        _ => random.pick(&volume.files),
    };
    random.pick(&file.headers).number
}

/// Puts the checksum of a header right, mostly, and tells.
fn seal_mostly(random: &mut Random, block: &mut [u8]) -> &'static str {
    if random.once_in(8) {
        "checksum left"
    } else {
        seal_header(block);
        "checksum put right"
    }
}

/// A byte that some rule begins or ends at, or any.
fn edge_byte(random: &mut Random, old: u8) -> u8 {
    match random.below(6) {
        0 => old.wrapping_add(1),
        1 => old.wrapping_sub(1),
        2 => old ^ (1 << random.below(8)),
        3 | 4 => *random.pick(&[0, 1, 2, 3, 22, 23, 24, 64, 127, 128, 250, 251, 254, 255]),
        _ => random.byte(),
    }
}

/// The fields of a header that a change aims at, outside the map area.
const FIELDS: [(&str, usize); 10] = [
    ("H.IDOF", at::H_IDOF),
    ("H.MPOF", at::H_MPOF),
    ("H.FNUM", at::H_FNUM),
    ("H.FNUM high", at::H_FNUM + 1),
    ("H.FSEQ", at::H_FSEQ),
    ("H.FSEQ high", at::H_FSEQ + 1),
    ("H.FLEV", at::H_FLEV),
    ("H.FLEV high", at::H_FLEV + 1),
    ("user flags", at::USER_FLAGS),
    ("system flags", at::SYSTEM_FLAGS),
];

/// The fields of the map area that a change aims at.
const MAP_FIELDS: [(&str, usize); 10] = [
    ("segment", in_map::SEGMENT),
    ("M.ERVN", in_map::M_ERVN),
    ("M.EFNU", in_map::M_EFNU),
    ("M.EFNU high", in_map::M_EFNU + 1),
    ("M.EFSQ", in_map::M_EFSQ),
    ("M.EFSQ high", in_map::M_EFSQ + 1),
    ("M.CTSZ", in_map::M_CTSZ),
    ("M.LBSZ", in_map::M_LBSZ),
    ("M.USE", in_map::M_USE),
    ("M.MAX", in_map::M_MAX),
];

/// Changes a byte of a header's field.
fn header_field(random: &mut Random, volume: &mut Volume) -> String {
    let number = random_header(random, volume);
    field_of(random, volume, number)
}

/// Changes a byte of a field of the header of a number.
fn field_of(random: &mut Random, volume: &mut Volume, number: u16) -> String {
    let lbn = volume.slot_of(number);
    let block = volume.block_mut(lbn);
    let map = 2 * usize::from(block[at::H_MPOF]);
    let (name, place) = if random.once_in(3) {
        *random.pick(&FIELDS)
    } else {
        let (name, place) = *random.pick(&MAP_FIELDS);
        (name, (map + place).min(BLOCK_BYTES - 1))
    };
    let byte = edge_byte(random, block[place]);
    block[place] = byte;
    let sum = seal_mostly(random, block);
    format!("header {number}: {name} {byte}, {sum}")
}

/// Changes one of a header's pointers: where it starts, or its count.
fn pointer(random: &mut Random, volume: &mut Volume) -> String {
    let number = random_header(random, volume);
    pointer_of(random, volume, number)
}

/// Changes one of the pointers of the header of a number.
fn pointer_of(random: &mut Random, volume: &mut Volume, number: u16) -> String {
    let lbn = volume.slot_of(number);
    let blocks = volume.plan.blocks;
    let block = volume.block_mut(lbn);
    let start = 2 * usize::from(block[at::H_MPOF]) + in_map::POINTERS;
    let m_use = usize::from(block[(start - 2).min(BLOCK_BYTES - 1)]);
    let place = start + 4 * random.between(0, m_use / 2);
    if place + 4 > BLOCK_BYTES {
        return format!("header {number}: no such pointer");
    }
    let count = match random.below(3) {
        0 => u32::from(random.byte()) + 1,
        1 => 1,
        _ => u32::from(block[place + 1]) + 1,
    };
    let lbn = match random.below(6) {
        0 => blocks,
        1 => blocks.saturating_sub(count),
        2 => (blocks + 1).saturating_sub(count),
        3 => random.below(1 << 24) as u32,
        _ => random.below(u64::from(blocks)) as u32,
    };
    let pointer = Pointer { lbn, blocks: count };
    block[place..place + 4].copy_from_slice(&pointer.bytes());
    let sum = seal_mostly(random, block);
    format!("header {number}: pointer at byte {place} is {pointer:?}, {sum}")
}

/// Changes a field of the home block.
fn home_field(random: &mut Random, volume: &mut Volume) -> String {
    let home = volume.plan.home;
    let blocks = volume.plan.blocks;
    let edge = *random.pick(&[0, 1, 2, 15, 16, 17, 257, 258, 4_095, 4_096, 4_097, 65_535]);
    let block = volume.block_mut(home);
    let name = match random.below(6) {
        0 => {
            put_word(block, in_home::H_IBSZ, edge);
            "H.IBSZ"
        }
        1 => {
            put_word(block, in_home::H_FMAX, edge);
            "H.FMAX"
        }
        2 => {
            let past = random.below(40) as u32;
            let base = *random.pick(&[0, blocks.saturating_sub(20), u32::MAX - 39]);
            put_long(block, in_home::H_IBLB, base + past);
            "H.IBLB"
        }
        3 => {
            put_word(block, in_home::H_SBCL, edge);
            "H.SBCL"
        }
        4 => {
            put_word(block, in_home::H_VLEV, edge);
            "H.VLEV"
        }
        _ => {
            let place = in_home::H_INDF + random.between(0, FORMAT.len() - 1);
            block[place] = random.byte();
            "H.INDF"
        }
    };
    if random.once_in(8) {
        return format!("home: {name}, checksums left");
    }
    seal_home(block);
    format!("home: {name}, checksums put right")
}

/// Changes whether a number is in use.
fn in_use_bit(random: &mut Random, volume: &mut Volume) -> String {
    let number = match random.below(3) {
        0 => 1 + random.below(u64::from(volume.plan.h_fmax)) as u16,
        _ => random_header(random, volume),
    };
    let in_use = random.once_in(4);
    volume.put_in_use(number, in_use);
    format!("number {number} in use: {in_use}")
}

/// Puts a header into the slot of another, as it is or with that number.
fn other_slot(random: &mut Random, volume: &mut Volume) -> String {
    let from = random_header(random, volume);
    let to = random_header(random, volume);
    let block = volume.block(volume.slot_of(from)).to_vec();
    let lbn = volume.slot_of(to);
    let slot = volume.block_mut(lbn);
    slot.copy_from_slice(&block);
    if random.once_in(2) {
        return format!("header {from} in the slot of {to}");
    }
    put_word(slot, at::H_FNUM, to);
    seal_header(slot);
    format!("header {from} in the slot of {to}, with its number")
}

/// Changes a byte of a directory.
fn record_byte(random: &mut Random, volume: &mut Volume) -> String {
    let directory = *random.pick(&[4, volume.roles.directory]);
    let lbns = volume.file(directory).lbns();
    if lbns.is_empty() {
        return format!("directory {directory} is empty");
    }
    let lbn = *random.pick(&lbns);
    let place = random.between(0, BLOCK_BYTES - 1);
    let byte = random.byte();
    volume.block_mut(lbn)[place] = byte;
    let record = place / RECORD_BYTES;
    format!("directory {directory}: byte {byte} in record {record} of LBN {lbn}")
}

/// The blocks that opening reads.
fn blocks_read(random: &mut Random, volume: &Volume) -> u32 {
    let plan = &volume.plan;
    match random.below(6) {
        0 => plan.home,
        1 => plan.h_iblb,
        2 => plan.control,
        _ => volume.slot_of(random_header(random, volume)),
    }
}

/// Fills a block that opening reads with zeros or any bytes, or copies another block over it.
fn whole_block(random: &mut Random, volume: &mut Volume) -> String {
    let lbn = blocks_read(random, volume);
    match random.below(3) {
        0 => {
            volume.block_mut(lbn).fill(0);
            format!("LBN {lbn} is all 0")
        }
        1 => {
            random.fill(volume.block_mut(lbn));
            format!("LBN {lbn} is any bytes")
        }
        _ => {
            let from = random.below(u64::from(volume.plan.blocks)) as u32;
            let block = volume.block(from).to_vec();
            volume.block_mut(lbn).copy_from_slice(&block);
            format!("LBN {lbn} is as LBN {from}")
        }
    }
}

/// Changes one byte of a block that opening reads.
fn some_byte(random: &mut Random, volume: &mut Volume) -> String {
    let lbn = blocks_read(random, volume);
    let is_home = lbn == volume.plan.home;
    let is_slot = !is_home && lbn != volume.plan.h_iblb && lbn != volume.plan.control;
    let block = volume.block_mut(lbn);
    let place = random.between(0, BLOCK_BYTES - 1);
    let byte = edge_byte(random, block[place]);
    block[place] = byte;
    let mut sums = "no checksum put right";
    if random.once_in(2) && is_home {
        seal_home(block);
        sums = "checksums put right";
    } else if random.once_in(2) && is_slot {
        seal_header(block);
        sums = "checksum put right";
    }
    format!("LBN {lbn}: byte {place} is {byte}, {sums}")
}

/// An image of any bytes, with a home block of any geometry or without, and a header 1 or without.
pub fn random_image(random: &mut Random) -> Vec<u8> {
    let blocks = random.long_between(100, 130);
    let mut image = vec![0; blocks as usize * BLOCK_BYTES];
    if random.once_in(2) {
        random.fill(&mut image);
    }
    if random.once_in(8) {
        return image;
    }
    let h_fmax = *random.pick(&[16, 17, 4_096, 4_097, 15, 0]);
    let h_ibsz = *random.pick(&[1, 1, 1, 2, 0]);
    let h_iblb = random.long_between(0, blocks);
    let home = &mut image[BLOCK_BYTES..2 * BLOCK_BYTES];
    put_word(home, in_home::H_IBSZ, h_ibsz);
    put_long(home, in_home::H_IBLB, h_iblb);
    put_word(home, in_home::H_FMAX, h_fmax);
    put_word(home, in_home::H_SBCL, 1);
    put_word(home, in_home::H_VLEV, 257);
    home[in_home::H_INDF..in_home::H_INDF + FORMAT.len()].copy_from_slice(FORMAT);
    seal_home(home);
    let slot = (h_iblb + u32::from(h_ibsz)) as usize * BLOCK_BYTES;
    if let Some(slot) = image.get_mut(slot..slot + BLOCK_BYTES) {
        put_index_header(random, slot, h_iblb, blocks);
    }
    image
}

/// Puts a header 1 that is almost right.
fn put_index_header(random: &mut Random, slot: &mut [u8], h_iblb: u32, blocks: u32) {
    let lbns: Vec<u32> = [0, 1].into_iter().chain(h_iblb..blocks).collect();
    let count = random.between(0, lbns.len());
    let pointers = crate::header::pointers_of(&lbns[..count]);
    crate::header::Header::new(1, 1, pointers).put(slot);
}

/// Makes an image longer or shorter, and tells by how much.
pub fn random_length(random: &mut Random, image: &mut Vec<u8>) -> String {
    let before = image.len();
    let by = *random.pick(&[1, 2, 255, 256, 511, 512, 513, 1_024, 51_200]);
    let after = match random.below(4) {
        0 => before + by,
        1 => before.saturating_sub(by),
        2 => *random.pick(&[0, 1, 511, 512, 50_688, 51_199, 51_200, 51_201]),
        _ => random.between(0, before),
    };
    image.resize(after, 0);
    format!("{after} bytes and not {before}")
}

#[cfg(test)]
mod tests {
    use super::*;
    use crate::shapes::{random_volume, Size};
    use model::{file, sound, verdict, volume, Number};

    /// How often each number is met, of 0 to 12.
    fn expect_met(met: &[u64; 29], numbers: std::ops::RangeInclusive<usize>, least: u64) {
        for number in numbers {
            let name = Number::from_number(number as u64).expect("a number").name();
            assert!(met[number] >= least, "{name} {} times", met[number]);
        }
    }

    #[test]
    fn random_changes_meet_every_refusal_of_a_volume_and_a_file() {
        let mut met = [0; 29];
        for seed in 0..4_000 {
            let mut random = Random::new(seed);
            let mut volume = random_volume(&mut random, Size::Small);
            let ids: Vec<_> = volume.files.iter().map(|it| it.id()).collect();
            random_changes(&mut random, &mut volume);
            for id in ids {
                let answer = file::open_file(&volume.image, id);
                met[answer.number.number() as usize] += 1;
            }
        }
        expect_met(&met, 0..=0, 1_000);
        expect_met(&met, 2..=5, 100);
        expect_met(&met, 7..=12, 20);
    }

    #[test]
    fn random_flaws_meet_every_refusal_of_the_verdict() {
        let mut met = [0; 29];
        let mut headers = vec![0; 65_535];
        for seed in 0..3_000 {
            let mut random = Random::new(seed);
            let size = if random.once_in(3) {
                Size::Blocks(600)
            } else {
                Size::Small
            };
            let mut volume = random_volume(&mut random, size);
            let told = random_flaws(&mut random, &mut volume);
            let mut blocks = vec![0; volume.plan.blocks as usize];
            let answer = verdict::judge(&volume.image, &mut blocks, &mut headers);
            met[answer.number.number() as usize] += 1;
            let sound = sound::opens_and_is_sound(&volume.image);
            assert_eq!(answer.number == Number::Done, sound, "{seed}: {told}");
        }
        expect_met(&met, 0..=0, 200);
        expect_met(&met, 17..=19, 200);
        expect_met(&met, 20..=20, 15);
        expect_met(&met, 21..=21, 200);
    }

    #[test]
    fn random_images_meet_the_refusals_of_a_volume() {
        let mut met = [0; 29];
        for seed in 0..4_000 {
            let mut random = Random::new(seed);
            let mut image = random_image(&mut random);
            if random.once_in(8) {
                random_length(&mut random, &mut image);
            }
            let answer = volume::open_volume(&image);
            met[answer.number.number() as usize] += 1;
        }
        expect_met(&met, 1..=5, 20);
    }

    #[test]
    fn same_seed_same_change() {
        let change = || {
            let mut random = Random::new(9);
            let mut volume = random_volume(&mut random, Size::Small);
            let told = random_changes(&mut random, &mut volume);
            (told, volume.image)
        };
        assert!(change() == change());
    }
}
