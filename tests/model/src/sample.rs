//! Volume V of paper 01, for the tests of the model, and changes of it.

use crate::file::Id;
use crate::image::sum_of_words;

/// The sample of the repository.
pub const VOLUME_V: &[u8] = include_bytes!("../../../samples/volume-v.dsk");

/// The ID of file 6 of Volume V.
pub const FILE_6: Id = Id {
    number: 6,
    sequence: 9,
    volume: 0,
};

/// A file ID without third word.
pub fn id(number: u16, sequence: u16) -> Id {
    Id::from_words([number, sequence, 0])
}

/// LBNs of Volume V.
pub const HOME: usize = 1;
pub const INDEX_MAP: usize = 2;
pub const CONTROL: usize = 19;
pub const DIRECTORY: usize = 21;

/// The LBN of the slot of a number.
pub fn slot(number: usize) -> usize {
    number + 2
}

/// Where the map area of each header of Volume V is.
pub const MAP: usize = 92;

/// Puts the sum of the words before a place there.
fn put_sum(block: &mut [u8], at: usize) {
    let sum = sum_of_words(block, at / 2) as u16;
    block[at..at + 2].copy_from_slice(&sum.to_le_bytes());
}

/// Puts the checksum of a header right, by its LBN.
pub fn seal(image: &mut [u8], lbn: usize) {
    put_sum(&mut image[512 * lbn..], 510);
}

/// Volume V with bytes changed: LBN, byte in the block, bytes. The checksums of the blocks up to
/// header 6 are put right, but for that of the index map, which has none.
pub fn changed(changes: &[(usize, usize, &[u8])]) -> Vec<u8> {
    let mut image = VOLUME_V.to_vec();
    for &(lbn, at, bytes) in changes {
        let start = 512 * lbn + at;
        image[start..start + bytes.len()].copy_from_slice(bytes);
    }
    put_sum(&mut image[512 * HOME..], 58);
    put_sum(&mut image[512 * HOME..], 510);
    for number in 1..=6 {
        seal(&mut image, slot(number));
    }
    image
}
