//! The functions of `libods1.a`, declared as the library exports them.

use crate::words::Words;

// A slice passes as its pointer, and then its length.
extern "C" {
    pub fn ods1_open_volume(image: *const u8, image_len: usize, answer: *mut Words);

    pub fn ods1_open_file(
        image: *const u8,
        image_len: usize,
        number: u16,
        sequence: u16,
        volume: u16,
        answer: *mut Words,
    );

    pub fn ods1_map(
        image: *const u8,
        image_len: usize,
        number: u16,
        sequence: u16,
        volume: u16,
        vbn: u32,
        answer: *mut Words,
    );

    pub fn ods1_block(
        image: *const u8,
        image_len: usize,
        number: u16,
        sequence: u16,
        volume: u16,
        vbn: u32,
        answer: *mut Words,
    );

    pub fn ods1_look_up(
        image: *const u8,
        image_len: usize,
        number: u16,
        sequence: u16,
        volume: u16,
        name1: u16,
        name2: u16,
        name3: u16,
        typ: u16,
        version: u16,
        answer: *mut Words,
    );

    pub fn ods1_next_record(
        image: *const u8,
        image_len: usize,
        number: u16,
        sequence: u16,
        volume: u16,
        place: u32,
        answer: *mut Words,
    );

    pub fn ods1_judge(
        image: *const u8,
        image_len: usize,
        blocks: *mut u8,
        blocks_len: usize,
        headers: *mut u8,
        headers_len: usize,
        answer: *mut Words,
    );

    pub fn ods1_create(
        image: *mut u8,
        image_len: usize,
        name1: u16,
        name2: u16,
        name3: u16,
        typ: u16,
        version: u16,
        owner: u16,
        protection: u16,
        blocks: *mut u8,
        blocks_len: usize,
        headers: *mut u8,
        headers_len: usize,
        answer: *mut Words,
    );

    pub fn ods1_extend(
        image: *mut u8,
        image_len: usize,
        number: u16,
        sequence: u16,
        volume: u16,
        count: u32,
        blocks: *mut u8,
        blocks_len: usize,
        headers: *mut u8,
        headers_len: usize,
        answer: *mut Words,
    );

    pub fn ods1_delete(
        image: *mut u8,
        image_len: usize,
        number: u16,
        sequence: u16,
        volume: u16,
        blocks: *mut u8,
        blocks_len: usize,
        headers: *mut u8,
        headers_len: usize,
        answer: *mut Words,
    );

    pub fn ods1_text_to_name(text: *const u8, text_len: usize, answer: *mut Words);

    pub fn ods1_name_to_text(
        name1: u16,
        name2: u16,
        name3: u16,
        typ: u16,
        version: u16,
        text: *mut u8,
        text_len: usize,
        answer: *mut Words,
    );

    pub fn ods1_geometry(image: *const u8, image_len: usize, answer: *mut Words);

    pub fn ods1_label(image: *const u8, image_len: usize, answer: *mut Words);

    pub fn ods1_header(image: *const u8, image_len: usize, number: u16, answer: *mut Words);

    pub fn ods1_pointer(
        image: *const u8,
        image_len: usize,
        number: u16,
        place: u32,
        answer: *mut Words,
    );

    pub fn ods1_attributes(
        image: *const u8,
        image_len: usize,
        number: u16,
        sequence: u16,
        volume: u16,
        answer: *mut Words,
    );

    pub fn ods1_extent(
        image: *const u8,
        image_len: usize,
        number: u16,
        sequence: u16,
        volume: u16,
        vbn: u32,
        answer: *mut Words,
    );

    pub fn ods1_free_run(image: *const u8, image_len: usize, from: u32, answer: *mut Words);
}
