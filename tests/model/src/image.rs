//! An image: its blocks, words and bits, and the checksum.

/// The bytes of a block. Paper 01, "The work and its edge": "a lent image of 512·N bytes".
pub const BLOCK_BYTES: usize = 512;

/// The fewest blocks. Paper 01, "The work and its edge": "N from 100 to 1,044,480".
pub const LEAST_BLOCKS: u64 = 100;

/// The most blocks. Paper 01, "The work and its edge": "N from 100 to 1,044,480".
pub const MOST_BLOCKS: u64 = 1_044_480;

/// Paper 01, "The work and its edge": "logical block numbers (LBN, from 0)".
#[derive(Clone, Copy, Debug, PartialEq, Eq, PartialOrd, Ord)]
pub struct Lbn(pub u64);

/// Paper 01, "The work and its edge": "Virtual block numbers (VBN, from 1)".
#[derive(Clone, Copy, Debug, PartialEq, Eq, PartialOrd, Ord)]
pub struct Vbn(pub u64);

/// Paper 01, "The work and its edge": "file numbers are three counts that the specification keeps
/// apart; so must the code", together with VBN and LBN.
#[derive(Clone, Copy, Debug, PartialEq, Eq, PartialOrd, Ord)]
pub struct FileNumber(pub u64);

/// An image whose length is one that a volume can have.
#[derive(Clone, Copy, Debug)]
pub struct Image<'a> {
    bytes: &'a [u8],
}

impl<'a> Image<'a> {
    /// Paper 01, "The work and its edge": "The library works over a lent image of 512·N bytes, N
    /// from 100 to 1,044,480, else SIZE."
    pub fn of(bytes: &'a [u8]) -> Option<Image<'a>> {
        let blocks = (bytes.len() / BLOCK_BYTES) as u64;
        let is_whole_blocks = bytes.len() % BLOCK_BYTES == 0;
        if is_whole_blocks && (LEAST_BLOCKS..=MOST_BLOCKS).contains(&blocks) {
            Some(Image { bytes })
        } else {
            None
        }
    }

    /// N. Paper 01, "The work and its edge": "a lent image of 512·N bytes".
    pub fn blocks(&self) -> u64 {
        (self.bytes.len() / BLOCK_BYTES) as u64
    }

    /// The bytes of a block. Paper 01, "Names and directories": "A block is answered as the image's
    /// own 512 bytes, not a copy."
    pub fn block(&self, lbn: Lbn) -> &'a [u8] {
        let start = offset(lbn) as usize;
        &self.bytes[start..start + BLOCK_BYTES]
    }
}

/// Where a block starts in the image, in bytes. Paper 01, "The work and its edge": "a lent image of
/// 512·N bytes" and "logical block numbers (LBN, from 0)".
pub fn offset(lbn: Lbn) -> u64 {
    lbn.0 * BLOCK_BYTES as u64
}

/// Paper 01, "The work and its edge": "Words are two bytes, low byte first."
pub fn word(bytes: &[u8], at: usize) -> u64 {
    u64::from(bytes[at]) + 256 * u64::from(bytes[at + 1])
}

/// Puts a word. Paper 01, "The work and its edge": "Words are two bytes, low byte first."
pub fn put_word(bytes: &mut [u8], at: usize, word: u64) {
    bytes[at] = (word % 256) as u8;
    bytes[at + 1] = (word / 256) as u8;
}

/// Paper 01, "The volume": "H.IBLB 2 (high word first)".
pub fn two_words_high_first(bytes: &[u8], at: usize) -> u64 {
    65_536 * word(bytes, at) + word(bytes, at + 2)
}

/// Paper 01, "The volume": "The sum of the first 255 words, kept to 16 bits", and for H.CHK1 "the
/// same sum over words 0 to 28".
pub fn sum_of_words(bytes: &[u8], words: usize) -> u64 {
    let sum: u64 = (0..words).map(|number| word(bytes, 2 * number)).sum();
    sum % 65_536
}

/// Paper 01, "The volume": "Checksum. The sum of the first 255 words, kept to 16 bits, equals word
/// 255 (headers, home block)."
pub fn checksum_is_right(block: &[u8]) -> bool {
    sum_of_words(block, 255) == word(block, 2 * 255)
}

/// Paper 01, "The volume": "Bit j is bit j mod 8 of byte j/8."
pub fn bit(bytes: &[u8], j: u64) -> bool {
    let byte = bytes[(j / 8) as usize];
    byte >> (j % 8) & 1 == 1
}

/// Puts a bit. Paper 01, "The volume": "Bit j is bit j mod 8 of byte j/8."
pub fn put_bit(bytes: &mut [u8], j: u64, set: bool) {
    let byte = &mut bytes[(j / 8) as usize];
    let others = *byte & !(1 << (j % 8));
    *byte = others | u8::from(set) << (j % 8);
}

#[cfg(test)]
mod tests {
    use super::*;

    #[test]
    fn lengths_that_a_volume_can_have() {
        let bytes = vec![0; 512 * 1_044_481];
        let blocks = |length: usize| Image::of(&bytes[..length]).map(|image| image.blocks());
        assert_eq!(blocks(0), None);
        assert_eq!(blocks(512 * 99), None);
        assert_eq!(blocks(512 * 100 - 1), None);
        assert_eq!(blocks(512 * 100), Some(100));
        assert_eq!(blocks(512 * 100 + 1), None);
        assert_eq!(blocks(512 * 100 + 511), None);
        assert_eq!(blocks(512 * 101), Some(101));
        assert_eq!(blocks(512 * 1_044_480), Some(1_044_480));
        assert_eq!(blocks(512 * 1_044_480 + 1), None);
        assert_eq!(blocks(512 * 1_044_481), None);
    }

    #[test]
    fn words_have_the_low_byte_first_and_h_iblb_the_high_word_first() {
        let bytes = [0x12, 0x34, 0x56, 0x78, 0x9a];
        assert_eq!(word(&bytes, 0), 0x3412);
        assert_eq!(word(&bytes, 1), 0x5634);
        assert_eq!(two_words_high_first(&bytes, 0), 0x3412_7856);
        let mut bytes = bytes;
        put_word(&mut bytes, 1, 0xfedc);
        assert_eq!(bytes, [0x12, 0xdc, 0xfe, 0x78, 0x9a]);
    }

    #[test]
    fn the_sum_of_the_paper() {
        // Paper 01, "Volume V": "words 65535, 2, rest 0 sum to 1 (P)".
        let mut block = [0; 512];
        block[..4].copy_from_slice(&[0xff, 0xff, 2, 0]);
        assert_eq!(sum_of_words(&block, 255), 1);
        assert!(!checksum_is_right(&block));
        block[510] = 1;
        assert!(checksum_is_right(&block));
        block[511] = 1;
        assert!(!checksum_is_right(&block));
    }

    #[test]
    fn the_last_word_is_no_part_of_the_sum_and_the_one_before_is() {
        let mut block = [0; 512];
        block[510] = 7;
        assert_eq!(sum_of_words(&block, 255), 0);
        block[508] = 7;
        assert_eq!(sum_of_words(&block, 255), 7);
        assert_eq!(sum_of_words(&block, 254), 0);
    }

    #[test]
    fn bits_from_the_lowest_on() {
        let bytes = [0b0000_0001, 0b1000_0010];
        let set: Vec<u64> = (0..16).filter(|&j| bit(&bytes, j)).collect();
        assert_eq!(set, [0, 9, 15]);
        let mut bytes = bytes;
        put_bit(&mut bytes, 15, true);
        put_bit(&mut bytes, 9, false);
        put_bit(&mut bytes, 7, true);
        assert_eq!(bytes, [0b1000_0001, 0b1000_0000]);
    }

    #[test]
    fn blocks_of_an_image() {
        let mut bytes = vec![0; 512 * 100];
        bytes[512 * 99] = 9;
        let image = Image::of(&bytes).expect("100 blocks");
        assert_eq!(image.block(Lbn(99))[0], 9);
        assert_eq!(image.block(Lbn(98))[511], 0);
        assert_eq!(offset(Lbn(99)), 50_688);
    }
}
