//! The calls as the library makes them: each writes the twelve words of its answer, which are its
//! number, its place and ten value words.
//!
//! The functions at the root of this crate read those words; these are for whoever wants them as
//! they are.

use crate::{exported, kinds};

/// How many words an answer has.
pub const ANSWER_WORDS: usize = 12;

/// An answer as the library writes it.
pub type Words = [u64; ANSWER_WORDS];

// SAFETY, of every call: the function is one of the library, and of the kind that it is called as.

/// `ods1_text_to_name`: the five words of a name's text.
pub fn text_to_name(text: &[u8], answer: &mut Words) {
    // SAFETY: as above.
    unsafe { kinds::of_image(exported::ods1_text_to_name, text, answer) }
}

/// `ods1_name_to_text`: the text of a name's five words (name, type, version), into `text`.
pub fn name_to_text(words: [u16; 5], text: &mut [u8], answer: &mut Words) {
    let [name1, name2, name3, typ, version] = words;
    let (start, length) = (text.as_mut_ptr(), text.len());
    // SAFETY: as above. The text passes as its pointer and its length and outlives the call, and nothing
    // else refers to it or to the answer meanwhile.
    unsafe { exported::ods1_name_to_text(name1, name2, name3, typ, version, start, length, answer) }
}

/// `ods1_open_volume`: the home's LBN.
pub fn open_volume(image: &[u8], answer: &mut Words) {
    // SAFETY: as above.
    unsafe { kinds::of_image(exported::ods1_open_volume, image, answer) }
}

/// `ods1_open_file`: the block count of the file with this ID (number, sequence, volume).
pub fn open_file(image: &[u8], id: [u16; 3], answer: &mut Words) {
    // SAFETY: as above.
    unsafe { kinds::of_file(exported::ods1_open_file, image, id, answer) }
}

/// `ods1_map`: the LBN of a file's VBN.
pub fn map(image: &[u8], id: [u16; 3], vbn: u32, answer: &mut Words) {
    // SAFETY: as above.
    unsafe { kinds::of_file_and_place(exported::ods1_map, image, id, vbn, answer) }
}

/// `ods1_block`: where in the image the block of a file's VBN is, and how long.
pub fn block(image: &[u8], id: [u16; 3], vbn: u32, answer: &mut Words) {
    // SAFETY: as above.
    unsafe { kinds::of_file_and_place(exported::ods1_block, image, id, vbn, answer) }
}

/// `ods1_look_up`: the ID that a directory has for a name's five words (name, type, version).
pub fn look_up(image: &[u8], id: [u16; 3], name: [u16; 5], answer: &mut Words) {
    // SAFETY: as above.
    unsafe { kinds::look_up(exported::ods1_look_up, image, id, name, answer) }
}

/// `ods1_next_record`: the first record of a directory from a place on, and the place after it.
pub fn next_record(image: &[u8], id: [u16; 3], place: u32, answer: &mut Words) {
    // SAFETY: as above.
    unsafe { kinds::of_file_and_place(exported::ods1_next_record, image, id, place, answer) }
}

/// `ods1_judge`: the verdict's four counts (blocks, claimed, free, headers), with work areas for the
/// marks of blocks and of headers.
pub fn judge(image: &[u8], blocks: &mut [u8], headers: &mut [u8], answer: &mut Words) {
    // SAFETY: as above.
    unsafe { kinds::judge(exported::ods1_judge, image, blocks, headers, answer) }
}

/// `ods1_create`: the ID of a new file with this name (five words), owner and protection.
pub fn create(
    image: &mut [u8],
    name: [u16; 5],
    rights: (u16, u16),
    blocks: &mut [u8],
    headers: &mut [u8],
    answer: &mut Words,
) {
    // SAFETY: as above.
    unsafe {
        kinds::create(
            exported::ods1_create,
            image,
            name,
            rights,
            blocks,
            headers,
            answer,
        )
    }
}

/// `ods1_extend`: the first of so many blocks more of the file with this ID.
pub fn extend(
    image: &mut [u8],
    id: [u16; 3],
    count: u32,
    blocks: &mut [u8],
    headers: &mut [u8],
    answer: &mut Words,
) {
    // SAFETY: as above.
    unsafe {
        kinds::extend(
            exported::ods1_extend,
            image,
            id,
            count,
            blocks,
            headers,
            answer,
        )
    }
}

/// `ods1_delete`: nothing but that the file with this ID is no more.
pub fn delete(
    image: &mut [u8],
    id: [u16; 3],
    blocks: &mut [u8],
    headers: &mut [u8],
    answer: &mut Words,
) {
    // SAFETY: as above.
    unsafe { kinds::delete(exported::ods1_delete, image, id, blocks, headers, answer) }
}

/// `ods1_geometry`: where the parts of a volume lie: blocks, home LBN, H.IBSZ, H.IBLB, H.FMAX, slots,
/// LBN and number of blocks of the storage map's bits, H.VLEV.
pub fn geometry(image: &[u8], answer: &mut Words) {
    // SAFETY: as above.
    unsafe { kinds::of_image(exported::ods1_geometry, image, answer) }
}

/// `ods1_label`: six words of the volume's name, its owner, protection, characteristics and default
/// file protection.
pub fn label(image: &[u8], answer: &mut Words) {
    // SAFETY: as above.
    unsafe { kinds::of_image(exported::ods1_label, image, answer) }
}

/// `ods1_header`: what the header of a file number says: sequence, segment, the number and sequence
/// of the next header, how many retrieval pointers, five words of its name.
pub fn header(image: &[u8], number: u16, answer: &mut Words) {
    // SAFETY: as above.
    unsafe { kinds::of_number(exported::ods1_header, image, number, answer) }
}

/// `ods1_pointer`: the first LBN and the number of blocks of a retrieval pointer, from 0, of a header.
pub fn pointer(image: &[u8], number: u16, place: u32, answer: &mut Words) {
    // SAFETY: as above.
    unsafe { kinds::of_number_and_place(exported::ods1_pointer, image, number, place, answer) }
}

/// `ods1_attributes`: what a file says: blocks, bytes before its end, owner, protection, flags, record
/// type and attributes, record size, F.HIBK, F.EFBK, F.FFBY.
pub fn attributes(image: &[u8], id: [u16; 3], answer: &mut Words) {
    // SAFETY: as above.
    unsafe { kinds::of_file(exported::ods1_attributes, image, id, answer) }
}

/// `ods1_extent`: the LBN of a file's VBN, and how many blocks from there on lie in a row.
pub fn extent(image: &[u8], id: [u16; 3], vbn: u32, answer: &mut Words) {
    // SAFETY: as above.
    unsafe { kinds::of_file_and_place(exported::ods1_extent, image, id, vbn, answer) }
}

/// `ods1_free_run`: the first run of free blocks from an LBN on: its first LBN and its length.
pub fn free_run(image: &[u8], from: u32, answer: &mut Words) {
    // SAFETY: as above.
    unsafe { kinds::of_place(exported::ods1_free_run, image, from, answer) }
}
