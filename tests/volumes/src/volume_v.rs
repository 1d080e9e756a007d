//! Volume V, byte by byte. Paper 01, "Volume V": "N 100, home 1, H.FMAX 16, m 1, H.IBLB 2. Header 1
//! covers 0–18; 2: 19–20; 3: 99; 4: 21; 5: none; 6, sequence 9: 30–31, then 25. Unused slots are
//! zero. Block 21 has one record, READS.DAT;1 to 6,9,0."
//!
//! What the paper leaves free is 0, but for two things: blocks 25, 30 and 31 each hold a byte of
//! their own, so that their blocks can be told apart, and header 4 says where its file ends.

use crate::block::{put_word, seal_header};
use crate::header::{Header, Pointer};
use crate::volume::{File, Plan, Record, Volume};

/// READS.DAT;1 as words.
pub const READS: [u16; 5] = [29_001, 7_160, 0, 6_460, 1];

/// The sequence of each header, number 1 first.
const SEQUENCES: [u16; 6] = [1, 2, 3, 4, 5, 9];

/// The pointers of each header, number 1 first: LBN and blocks.
const POINTERS: [&[(u32, u32)]; 6] = [
    &[(0, 19)],
    &[(19, 2)],
    &[(99, 1)],
    &[(21, 1)],
    &[],
    &[(30, 2), (25, 1)],
];

/// Where a header says in which block its file ends, and at which byte of it.
const END_OF_FILE: usize = 24;

/// Volume V.
pub fn volume_v() -> Volume {
    let plan = Plan {
        blocks: 100,
        home: 1,
        h_vlev: 257,
        h_fmax: 16,
        h_iblb: 2,
        more_slots: Vec::new(),
        control: 19,
        storage_map: 20,
    };
    let mut volume = Volume::new(plan, vec![0; 51_200]);
    for (number, (sequence, pointers)) in (1..).zip(SEQUENCES.into_iter().zip(POINTERS)) {
        let pointers = pointers
            .iter()
            .map(|&(lbn, blocks)| Pointer { lbn, blocks });
        let header = Header::new(number, sequence, pointers.collect());
        volume.add(File::of(header));
    }
    put_end_of_file(volume.block_mut(6));
    let record = Record {
        id: [6, 9, 0],
        name: READS,
    };
    volume.put_record(4, 0, record);
    for lbn in [25, 30, 31] {
        volume.block_mut(lbn).fill(lbn as u8);
    }
    volume.put_storage_map();
    volume.roles.plain = 6;
    volume.roles.directory = 4;
    volume.roles.empty = 5;
    volume
}

/// Header 4's file ends in its first block, after the one record.
fn put_end_of_file(header: &mut [u8]) {
    put_word(header, END_OF_FILE, 1);
    put_word(header, END_OF_FILE + 2, 16);
    seal_header(header);
}

#[cfg(test)]
mod tests {
    use super::*;
    use crate::block::word;

    /// The sample of the repository. `cargo run -p volumes --bin volume_v` writes it to standard
    /// output.
    const SAMPLE: &[u8] = include_bytes!("../../../samples/volume-v.dsk");

    #[test]
    fn the_sample_is_volume_v() {
        assert!(SAMPLE == volume_v().image, "samples/volume-v.dsk differs");
    }

    /// Every byte that is not 0, with its place: block, byte in the block, bytes.
    #[test]
    fn every_byte_that_is_not_0() {
        let mut expected = vec![0; 51_200];
        let mut put = |lbn: usize, at: usize, bytes: &[u8]| {
            let start = 512 * lbn + at;
            expected[start..start + bytes.len()].copy_from_slice(bytes);
        };
        // The home block; its checksums are 277 and 27,792.
        put(1, 0, &[1, 0, 0, 0, 2, 0, 16, 0, 1, 0, 0, 0, 1, 1]);
        put(1, 58, &[0x15, 0x01]);
        put(1, 496, b"DECFILE11A  ");
        put(1, 510, &[0x90, 0x6c]);
        // The index map: numbers 1 to 6.
        put(2, 0, &[0x3f]);
        // The headers' first bytes, map areas and checksums.
        for (number, sequence) in [(1, 1), (2, 2), (3, 3), (4, 4), (5, 5), (6, 9)] {
            let lbn = usize::from(number) + 2;
            put(lbn, 0, &[23, 46, number, 0, sequence, 0, 1, 1]);
            put(lbn, 98, &[1, 3]);
            put(lbn, 101, &[204]);
        }
        put(3, 100, &[2, 204, 0, 18, 0, 0]);
        put(4, 100, &[2, 204, 0, 1, 19, 0]);
        put(5, 100, &[2, 204, 0, 0, 99, 0]);
        put(6, 100, &[2, 204, 0, 0, 21, 0]);
        put(8, 100, &[4, 204, 0, 1, 30, 0, 0, 0, 25, 0]);
        put(6, 24, &[1, 0, 16, 0]);
        let sums: [u16; 6] = [4_125, 65_330, 65_156, 65_097, 65_059, 65_379];
        for (lbn, sum) in (3..).zip(sums) {
            put(lbn, 510, &sum.to_le_bytes());
        }
        // The control block and the storage map: 22 to 24, 26 to 29, and 32 to 98 are free.
        put(19, 3, &[1]);
        put(20, 2, &[0xc0, 0x3d]);
        put(20, 4, &[0xff; 8]);
        put(20, 12, &[0x07]);
        // The record, and the blocks of file 6.
        put(21, 0, &[6, 0, 9, 0, 0, 0, 0x49, 0x71, 0xf8, 0x1b, 0, 0]);
        put(21, 12, &[0x3c, 0x19, 1, 0]);
        put(25, 0, &[0x19; 512]);
        put(30, 0, &[0x1e; 512]);
        put(31, 0, &[0x1f; 512]);

        let volume = volume_v();
        for (lbn, block) in (0..).zip(expected.chunks_exact(512)) {
            assert!(volume.block(lbn) == block, "block {lbn} differs");
        }
        assert_eq!(word(volume.block(1), 510), 27_792);
    }

    #[test]
    fn counts_of_the_paper() {
        // Paper 01, "Volume V": "blocks 100, claimed 26, free 74, headers 6".
        let volume = volume_v();
        let covered: u32 = volume.files.iter().map(File::blocks).sum();
        let free: u32 = volume.block(20).iter().map(|byte| byte.count_ones()).sum();
        let in_use: u32 = volume.block(2).iter().map(|byte| byte.count_ones()).sum();
        assert_eq!([covered, free, in_use], [26, 74, 6]);
    }
}
