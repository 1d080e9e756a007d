//! Blocks as bytes: words, and the checksums of headers and home blocks.

/// The bytes of a block.
pub const BLOCK_BYTES: usize = 512;

/// Where the checksum of a header or home block is.
pub const CHECKSUM: usize = 510;

/// Where the home block's first checksum is, over the words before it.
pub const CHECKSUM_1: usize = 58;

/// A word, low byte first.
pub fn word(bytes: &[u8], at: usize) -> u16 {
    u16::from_le_bytes([bytes[at], bytes[at + 1]])
}

/// Puts a word, low byte first.
pub fn put_word(bytes: &mut [u8], at: usize, word: u16) {
    bytes[at..at + 2].copy_from_slice(&word.to_le_bytes());
}

/// Adds to a word, kept to 16 bits.
pub fn add_to_word(bytes: &mut [u8], at: usize, more: u16) {
    let sum = word(bytes, at).wrapping_add(more);
    put_word(bytes, at, sum);
}

/// Puts two words, the high one first.
pub fn put_long(bytes: &mut [u8], at: usize, long: u32) {
    put_word(bytes, at, (long >> 16) as u16);
    put_word(bytes, at + 2, long as u16);
}

/// Puts words one after the other.
pub fn put_words(bytes: &mut [u8], at: usize, words: &[u16]) {
    for (number, &word) in words.iter().enumerate() {
        put_word(bytes, at + 2 * number, word);
    }
}

/// The sum of the words before a place, kept to 16 bits.
pub fn sum_before(bytes: &[u8], at: usize) -> u16 {
    let words = bytes[..at].chunks_exact(2);
    words.fold(0, |sum, bytes| sum.wrapping_add(word(bytes, 0)))
}

/// Puts the sum of the words before a place there.
fn put_sum(bytes: &mut [u8], at: usize) {
    let sum = sum_before(bytes, at);
    put_word(bytes, at, sum);
}

/// Puts the checksum of a header right.
pub fn seal_header(block: &mut [u8]) {
    put_sum(block, CHECKSUM);
}

/// Puts both checksums of a home block right.
pub fn seal_home(block: &mut [u8]) {
    put_sum(block, CHECKSUM_1);
    put_sum(block, CHECKSUM);
}

/// Whether the checksum of a header is right.
pub fn is_sealed_header(block: &[u8]) -> bool {
    sum_before(block, CHECKSUM) == word(block, CHECKSUM)
}

/// Whether both checksums of a home block are right.
pub fn is_sealed_home(block: &[u8]) -> bool {
    is_sealed_header(block) && sum_before(block, CHECKSUM_1) == word(block, CHECKSUM_1)
}

#[cfg(test)]
mod tests {
    use super::*;

    #[test]
    fn sealed_blocks_have_right_checksums() {
        let mut block: Vec<u8> = (0..512).map(|at| (at % 251) as u8).collect();
        assert!(!is_sealed_header(&block) && !is_sealed_home(&block));
        seal_header(&mut block);
        assert!(is_sealed_header(&block) && !is_sealed_home(&block));
        seal_home(&mut block);
        assert!(is_sealed_home(&block));
        block[57] ^= 1;
        assert!(!is_sealed_home(&block));
        seal_header(&mut block);
        assert!(is_sealed_header(&block) && !is_sealed_home(&block));
    }

    #[test]
    fn longs_have_the_high_word_first() {
        let mut bytes = [0; 6];
        put_long(&mut bytes, 1, 0x1234_5678);
        assert_eq!(bytes, [0, 0x34, 0x12, 0x78, 0x56, 0]);
    }
}
