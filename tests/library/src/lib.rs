//! The library's calls as the tests make them, over the bindings, which declare the functions.
//!
//! Each call answers the twelve words that the library wrote: number, place, ten value words. A
//! word that the library did not write is seen as [`UNWRITTEN`], and one that it wrote beside them
//! ends the test.
//!
//! [`Lender`] lends an image so that a write to it, or a read beside it, ends the run, and a work
//! area, or an image that is to be changed, so that a write or a read beside it does.

mod lend;

use ods1::words;

pub use lend::Lender;
pub use ods1::words::{Words, ANSWER_WORDS};

/// What stands in each word of an answer before the call. No call answers it.
pub const UNWRITTEN: u64 = 0xa5c3_96e1_b4d2_8778;

/// Makes a call with a place for the answer, and sees that no word beside it was written.
fn answer_of(call: impl FnOnce(&mut Words)) -> Words {
    const BESIDE: Words = [UNWRITTEN; ANSWER_WORDS];
    let mut places = [BESIDE; 3];
    // The pointer is made from the whole array, so that a write beside the answer is seen.
    let place = places.as_mut_ptr().wrapping_add(1);
    // SAFETY: the place is the second of the three, and nothing else refers to it during the call.
    call(unsafe { &mut *place });
    let [before, answer, after] = places;
    assert!(before == BESIDE, "words before the answer were written");
    assert!(after == BESIDE, "words after the answer were written");
    answer
}

/// `ods1_text_to_name`: the five words of a name's text.
pub fn text_to_name(text: &[u8]) -> Words {
    answer_of(|answer| words::text_to_name(text, answer))
}

/// `ods1_name_to_text`: the text of a name's five words (name, type, version), into `text`.
pub fn name_to_text(words: [u16; 5], text: &mut [u8]) -> Words {
    answer_of(|answer| words::name_to_text(words, text, answer))
}

/// `ods1_open_volume`: the home's LBN.
pub fn open_volume(image: &[u8]) -> Words {
    answer_of(|answer| words::open_volume(image, answer))
}

/// `ods1_open_file`: the block count of the file with this ID (number, sequence, volume).
pub fn open_file(image: &[u8], id: [u16; 3]) -> Words {
    answer_of(|answer| words::open_file(image, id, answer))
}

/// `ods1_map`: the LBN of a file's VBN.
pub fn map(image: &[u8], id: [u16; 3], vbn: u32) -> Words {
    answer_of(|answer| words::map(image, id, vbn, answer))
}

/// `ods1_block`: where in the image the block of a file's VBN is, and how long.
pub fn block(image: &[u8], id: [u16; 3], vbn: u32) -> Words {
    answer_of(|answer| words::block(image, id, vbn, answer))
}

/// `ods1_look_up`: the ID that a directory has for a name's five words (name, type, version).
pub fn look_up(image: &[u8], id: [u16; 3], name: [u16; 5]) -> Words {
    answer_of(|answer| words::look_up(image, id, name, answer))
}

/// `ods1_next_record`: the first record of a directory from a place on, and the place after it.
pub fn next_record(image: &[u8], id: [u16; 3], place: u32) -> Words {
    answer_of(|answer| words::next_record(image, id, place, answer))
}

/// `ods1_judge`: the verdict's four counts (blocks, claimed, free, headers), with work areas for the
/// marks of blocks and of headers.
pub fn judge(image: &[u8], blocks: &mut [u8], headers: &mut [u8]) -> Words {
    answer_of(|answer| words::judge(image, blocks, headers, answer))
}

/// `ods1_create`: the ID of a new file with this name (five words), owner and protection.
pub fn create(
    image: &mut [u8],
    name: [u16; 5],
    rights: (u16, u16),
    blocks: &mut [u8],
    headers: &mut [u8],
) -> Words {
    answer_of(|answer| words::create(image, name, rights, blocks, headers, answer))
}

/// `ods1_extend`: the first of so many blocks more of the file with this ID.
pub fn extend(
    image: &mut [u8],
    id: [u16; 3],
    count: u32,
    blocks: &mut [u8],
    headers: &mut [u8],
) -> Words {
    answer_of(|answer| words::extend(image, id, count, blocks, headers, answer))
}

/// `ods1_delete`: nothing but that the file with this ID is no more.
pub fn delete(image: &mut [u8], id: [u16; 3], blocks: &mut [u8], headers: &mut [u8]) -> Words {
    answer_of(|answer| words::delete(image, id, blocks, headers, answer))
}

/// `ods1_geometry`: where the parts of a volume lie.
pub fn geometry(image: &[u8]) -> Words {
    answer_of(|answer| words::geometry(image, answer))
}

/// `ods1_label`: the label in a volume's home block.
pub fn label(image: &[u8]) -> Words {
    answer_of(|answer| words::label(image, answer))
}

/// `ods1_header`: what the header of a file number says.
pub fn header(image: &[u8], number: u16) -> Words {
    answer_of(|answer| words::header(image, number, answer))
}

/// `ods1_pointer`: a retrieval pointer, from 0, of the header of a file number.
pub fn pointer(image: &[u8], number: u16, place: u32) -> Words {
    answer_of(|answer| words::pointer(image, number, place, answer))
}

/// `ods1_attributes`: what a file says of itself.
pub fn attributes(image: &[u8], id: [u16; 3]) -> Words {
    answer_of(|answer| words::attributes(image, id, answer))
}

/// `ods1_extent`: the LBN of a file's VBN, and how many blocks from there on lie in a row.
pub fn extent(image: &[u8], id: [u16; 3], vbn: u32) -> Words {
    answer_of(|answer| words::extent(image, id, vbn, answer))
}

/// `ods1_free_run`: the first run of free blocks from an LBN on.
pub fn free_run(image: &[u8], from: u32) -> Words {
    answer_of(|answer| words::free_run(image, from, answer))
}
