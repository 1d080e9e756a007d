//! A file header: its fields, its retrieval pointers, and when it is whole.

use crate::image::{checksum_is_right, word, FileNumber, Lbn, Vbn};

/// The words of a header block. Paper 01, "The header": "H.MPOF+5+M.MAX ≤ 255", which leaves word
/// 255 to the checksum.
const CHECKSUM_WORD: u64 = 255;

/// The words of the map area before its pointers. Paper 01, "The header": "pointers from 10".
const MAP_WORDS: u64 = 5;

/// Paper 01, "The header": "A pointer: high LBN byte, count byte, low LBN word; count c covers c+1
/// blocks."
#[derive(Clone, Copy, Debug, PartialEq, Eq)]
pub struct Pointer {
    pub lbn: Lbn,
    /// How many blocks it covers, c+1.
    pub blocks: u64,
}

impl Pointer {
    /// The pointer of four bytes. Paper 01, "The header": "A pointer: high LBN byte, count byte,
    /// low LBN word; count c covers c+1 blocks."
    fn of(bytes: &[u8]) -> Pointer {
        Pointer {
            lbn: Lbn(65_536 * u64::from(bytes[0]) + word(bytes, 2)),
            blocks: u64::from(bytes[1]) + 1,
        }
    }

    /// The four bytes of a pointer. Paper 01, "The header": "A pointer: high LBN byte, count byte,
    /// low LBN word; count c covers c+1 blocks."
    pub fn bytes(&self) -> [u8; 4] {
        let low = self.lbn.0 % 65_536;
        [
            (self.lbn.0 / 65_536) as u8,
            (self.blocks - 1) as u8,
            (low % 256) as u8,
            (low / 256) as u8,
        ]
    }

    /// The blocks that it covers, in order. Paper 01, "The header": "count c covers c+1 blocks".
    pub fn lbns(&self) -> impl Iterator<Item = Lbn> {
        let first = self.lbn.0;
        (first..first + self.blocks).map(Lbn)
    }

    /// The last block that it covers. Paper 01, "The header": "each pointer ends below N".
    pub fn last(&self) -> Lbn {
        Lbn(self.lbn.0 + self.blocks - 1)
    }
}

/// How many blocks pointers cover together. Paper 01, "The header": "count c covers c+1 blocks".
pub fn blocks_of(pointers: &[Pointer]) -> u64 {
    pointers.iter().map(|pointer| pointer.blocks).sum()
}

/// The LBN of a VBN, if there is one. Paper 01, "The header": "VBNs run through its pointers in
/// order." and "The work and its edge": "Virtual block numbers (VBN, from 1)".
pub fn lbn_of(pointers: &[Pointer], vbn: Vbn) -> Option<Lbn> {
    let mut before = 0;
    for pointer in pointers {
        if before < vbn.0 && vbn.0 <= before + pointer.blocks {
            return Some(Lbn(pointer.lbn.0 + (vbn.0 - before - 1)));
        }
        before += pointer.blocks;
    }
    None
}

/// A block that is read as a header, whole or not.
#[derive(Clone, Copy, Debug)]
pub struct Header<'a> {
    block: &'a [u8],
}

impl<'a> Header<'a> {
    /// The header that a block holds. Paper 01, "The header": "Bytes: H.IDOF 0, H.MPOF 1, .."
    pub fn of(block: &'a [u8]) -> Header<'a> {
        Header { block }
    }

    /// Paper 01, "The header": "H.IDOF 0".
    pub fn h_idof(&self) -> u64 {
        u64::from(self.block[0])
    }

    /// Paper 01, "The header": "H.MPOF 1".
    pub fn h_mpof(&self) -> u64 {
        u64::from(self.block[1])
    }

    /// Paper 01, "The header": "H.FNUM 2".
    pub fn h_fnum(&self) -> FileNumber {
        FileNumber(word(self.block, 2))
    }

    /// Paper 01, "The header": "H.FSEQ 4".
    pub fn h_fseq(&self) -> u64 {
        word(self.block, 4)
    }

    /// Paper 01, "The header": "H.FLEV 6".
    pub fn h_flev(&self) -> u64 {
        word(self.block, 6)
    }

    /// Paper 01, "The header": "H.FOWN 8".
    pub fn h_fown(&self) -> u64 {
        word(self.block, 8)
    }

    /// Paper 01, "The header": "H.FPRO 10".
    pub fn h_fpro(&self) -> u64 {
        word(self.block, 10)
    }

    /// Paper 01, "The header": "user flags 12".
    pub fn user_flags(&self) -> u8 {
        self.block[12]
    }

    /// Paper 01, "The header": "system flags 13".
    pub fn system_flags(&self) -> u8 {
        self.block[13]
    }

    /// The attribute area. Paper 01, "The header": "attributes 14 to 45".
    pub fn attributes(&self) -> &'a [u8] {
        &self.block[14..46]
    }

    /// The bytes from the ident area on. Paper 000, 3.4.2: "The ident area of the file header begins
    /// at the word indicated by H.IDOF."
    pub fn ident_area(&self) -> &'a [u8] {
        &self.block[2 * self.h_idof() as usize..]
    }

    /// The bytes of the block. Paper 01, "The header": "Bytes: H.IDOF 0, H.MPOF 1, .."
    pub fn block(&self) -> &'a [u8] {
        self.block
    }

    /// Where the map area starts. Paper 01, "The header": "Map area at byte 2·H.MPOF".
    pub fn map_area_at(&self) -> usize {
        2 * self.h_mpof() as usize
    }

    /// The bytes from the map area on. Paper 01, "The header": "Map area at byte 2·H.MPOF".
    fn map_area(&self) -> &'a [u8] {
        &self.block[self.map_area_at()..]
    }

    /// Paper 01, "The header": "segment number 0".
    pub fn segment(&self) -> u64 {
        u64::from(self.map_area()[0])
    }

    /// Paper 01, "The header": "M.ERVN 1".
    pub fn m_ervn(&self) -> u64 {
        u64::from(self.map_area()[1])
    }

    /// Paper 01, "The header": "M.EFNU 2".
    pub fn m_efnu(&self) -> FileNumber {
        FileNumber(word(self.map_area(), 2))
    }

    /// Paper 01, "The header": "M.EFSQ 4".
    pub fn m_efsq(&self) -> u64 {
        word(self.map_area(), 4)
    }

    /// Paper 01, "The header": "M.CTSZ 6".
    pub fn m_ctsz(&self) -> u64 {
        u64::from(self.map_area()[6])
    }

    /// Paper 01, "The header": "M.LBSZ 7".
    pub fn m_lbsz(&self) -> u64 {
        u64::from(self.map_area()[7])
    }

    /// Paper 01, "The header": "M.USE 8".
    pub fn m_use(&self) -> u64 {
        u64::from(self.map_area()[8])
    }

    /// Paper 01, "The header": "M.MAX 9".
    pub fn m_max(&self) -> u64 {
        u64::from(self.map_area()[9])
    }

    /// The pointers in use: two words each, M.USE words together. Paper 01, "The header": "pointers
    /// from 10" and "M.USE even".
    pub fn pointers(&self) -> Vec<Pointer> {
        let words = &self.map_area()[10..];
        let bytes = &words[..2 * self.m_use() as usize];
        bytes.chunks_exact(4).map(Pointer::of).collect()
    }

    /// Paper 01, "The header": "M.EFNU is 0", where the chain ends.
    pub fn ends_chain(&self) -> bool {
        self.m_efnu() == FileNumber(0)
    }

    /// Paper 01, "The header": "H.MPOF+5+M.MAX ≤ 255". Where H.MPOF+5 alone is above 255 the block
    /// has no M.MAX, and whatever it were the sum would be too large.
    fn map_area_fits(&self) -> bool {
        let before = self.h_mpof() + MAP_WORDS;
        before <= CHECKSUM_WORD && before + self.m_max() <= CHECKSUM_WORD
    }

    /// The first of the twelve tests, from 1, that the header does not meet; none if it is whole.
    /// Paper 01, "The header": "*Whole* for n: checksum right; H.FLEV 257; H.FNUM n; H.IDOF ≥ 23;
    /// H.MPOF ≥ H.IDOF; H.MPOF+5+M.MAX ≤ 255; M.USE even and ≤ M.MAX; M.CTSZ 1, M.LBSZ 3, M.ERVN 0;
    /// M.EFSQ 0 where M.EFNU is 0; each pointer ends below N."
    pub fn first_unmet(&self, n: FileNumber, blocks: u64) -> Option<usize> {
        let tests: [&dyn Fn() -> bool; 12] = [
            &|| checksum_is_right(self.block),
            &|| self.h_flev() == 257,
            &|| self.h_fnum() == n,
            &|| self.h_idof() >= 23,
            &|| self.h_mpof() >= self.h_idof(),
            &|| self.map_area_fits(),
            &|| self.m_use() % 2 == 0 && self.m_use() <= self.m_max(),
            &|| self.m_ctsz() == 1,
            &|| self.m_lbsz() == 3,
            &|| self.m_ervn() == 0,
            &|| self.m_efnu() != FileNumber(0) || self.m_efsq() == 0,
            &|| self.pointers().iter().all(|it| it.last() < Lbn(blocks)),
        ];
        let unmet = tests.iter().position(|test| !test());
        unmet.map(|place| place + 1)
    }

    /// Paper 01, "The header": "*Whole* for n: ..".
    pub fn is_whole(&self, n: FileNumber, blocks: u64) -> bool {
        self.first_unmet(n, blocks).is_none()
    }

    /// Paper 01, "The header": "User flag 64 (deaccess-locked) or system flag 128 (marked for
    /// delete) in the first header refuses access."
    pub fn refuses_access(&self) -> bool {
        self.user_flags() & 64 != 0 || self.system_flags() & 128 != 0
    }
}

#[cfg(test)]
mod tests {
    use super::*;

    /// Header 6 of Volume V with the usual areas: 30-31, then 25.
    fn header_6() -> Vec<u8> {
        let mut block = vec![0; 512];
        block[..8].copy_from_slice(&[23, 46, 6, 0, 9, 0, 1, 1]);
        block[92 + 6..92 + 10].copy_from_slice(&[1, 3, 4, 204]);
        block[102..110].copy_from_slice(&[0, 1, 30, 0, 0, 0, 25, 0]);
        seal(&mut block);
        block
    }

    fn seal(block: &mut [u8]) {
        let sum = crate::image::sum_of_words(block, 255) as u16;
        block[510..].copy_from_slice(&sum.to_le_bytes());
    }

    /// The first unmet test of header 6 with some bytes changed and the checksum put right.
    fn unmet(changes: &[(usize, u8)]) -> Option<usize> {
        let mut block = header_6();
        for &(at, byte) in changes {
            block[at] = byte;
        }
        seal(&mut block);
        Header::of(&block).first_unmet(FileNumber(6), 100)
    }

    #[test]
    fn header_6_of_volume_v() {
        let block = header_6();
        assert_eq!(word(&block, 510), 65_379);
        let header = Header::of(&block);
        assert!(header.is_whole(FileNumber(6), 100));
        assert_eq!(header.h_fseq(), 9);
        assert_eq!(header.segment(), 0);
        assert!(header.ends_chain() && !header.refuses_access());
        let pointers = header.pointers();
        assert_eq!(blocks_of(&pointers), 3);
        let lbns = [0, 1, 2, 3, 4, 1 << 32].map(|vbn| lbn_of(&pointers, Vbn(vbn)));
        let expected = [None, Some(30), Some(31), Some(25), None, None];
        assert_eq!(lbns, expected.map(|lbn| lbn.map(Lbn)));
    }

    #[test]
    fn each_of_the_twelve_tests() {
        assert_eq!(unmet(&[]), None);
        let mut block = header_6();
        block[300] = 1;
        let header = Header::of(&block);
        assert_eq!(header.first_unmet(FileNumber(6), 100), Some(1));
        assert_eq!(unmet(&[(6, 0)]), Some(2));
        assert_eq!(unmet(&[(7, 2)]), Some(2));
        assert_eq!(unmet(&[(2, 7)]), Some(3));
        assert_eq!(unmet(&[(3, 1)]), Some(3));
        assert_eq!(unmet(&[(0, 22)]), Some(4));
        assert_eq!(unmet(&[(0, 46)]), None);
        assert_eq!(unmet(&[(0, 47)]), Some(5));
        assert_eq!(unmet(&[(101, 205)]), Some(6));
        assert_eq!(unmet(&[(100, 3)]), Some(7));
        assert_eq!(unmet(&[(101, 3)]), Some(7));
        assert_eq!(unmet(&[(101, 4)]), None);
        assert_eq!(unmet(&[(98, 2)]), Some(8));
        assert_eq!(unmet(&[(99, 2)]), Some(9));
        assert_eq!(unmet(&[(93, 1)]), Some(10));
        assert_eq!(unmet(&[(96, 1)]), Some(11));
        assert_eq!(unmet(&[(97, 1)]), Some(11));
        assert_eq!(unmet(&[(96, 1), (94, 7)]), None);
        assert_eq!(unmet(&[(108, 99)]), None);
        assert_eq!(unmet(&[(108, 100)]), Some(12));
        assert_eq!(unmet(&[(104, 98)]), None);
        assert_eq!(unmet(&[(104, 99)]), Some(12));
        assert_eq!(unmet(&[(102, 1)]), Some(12));
        assert_eq!(unmet(&[(103, 255)]), Some(12));
        // The words past M.USE are free.
        assert_eq!(unmet(&[(110, 255), (111, 255)]), None);
    }

    #[test]
    fn no_byte_past_the_block_is_read() {
        for h_mpof in 251..=255 {
            assert_eq!(unmet(&[(1, h_mpof)]), Some(6), "{h_mpof}");
        }
        // The last map area that the block can hold ends at the checksum: it has no pointers.
        let last = [(1, 250), (506, 1), (507, 3)];
        assert_eq!(unmet(&last), None);
        assert_eq!(unmet(&[&last[..], &[(509, 1)]].concat()), Some(6));
        assert_eq!(unmet(&[&last[..], &[(508, 2)]].concat()), Some(7));
    }

    #[test]
    fn the_largest_map_has_113_pointers() {
        let mut block = vec![0; 512];
        block[..8].copy_from_slice(&[23, 23, 6, 0, 9, 0, 1, 1]);
        block[46 + 6..46 + 10].copy_from_slice(&[1, 3, 226, 227]);
        for pointer in block[56..56 + 452].chunks_exact_mut(4) {
            pointer.copy_from_slice(&[0, 255, 0, 0]);
        }
        seal(&mut block);
        let header = Header::of(&block);
        assert!(header.is_whole(FileNumber(6), 256));
        assert!(!header.is_whole(FileNumber(6), 255));
        assert_eq!(header.pointers().len(), 113);
        assert_eq!(blocks_of(&header.pointers()), 28_928);
    }

    #[test]
    fn flags_that_refuse_access() {
        for bit in 0..8 {
            let mut block = header_6();
            block[12] = 1 << bit;
            assert_eq!(Header::of(&block).refuses_access(), bit == 6);
            block[12] = 0;
            block[13] = 1 << bit;
            assert_eq!(Header::of(&block).refuses_access(), bit == 7);
        }
    }

    #[test]
    fn the_high_byte_of_an_lbn() {
        let pointer = Pointer::of(&[0x0f, 3, 0x34, 0x12]);
        assert_eq!(pointer.lbn, Lbn(0x0f_1234));
        assert_eq!(pointer.blocks, 4);
        assert_eq!(pointer.last(), Lbn(0x0f_1237));
        assert_eq!(pointer.bytes(), [0x0f, 3, 0x34, 0x12]);
    }
}
