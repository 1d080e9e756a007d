//! The kinds of functions that the library exports, by what they take, and how one of each is called.
//!
//! [`crate::words`] calls those that are linked. Whoever finds those of another build while the program
//! runs calls them in the same way.
//!
//! # Safety
//!
//! Whoever makes a call knows that the function is one of the library, and does what its kind says. The
//! rest is seen to here: a slice passes as its pointer and its length and outlives the call; what is lent
//! to be read is written by nobody meanwhile, and what is lent to be written, the answer's twelve words
//! among it, nothing else refers to during the call. No function asks for more than that.

use crate::words::Words;

pub type OfImage = unsafe extern "C" fn(*const u8, usize, *mut Words);
pub type OfNumber = unsafe extern "C" fn(*const u8, usize, u16, *mut Words);
pub type OfNumberAndPlace = unsafe extern "C" fn(*const u8, usize, u16, u32, *mut Words);
pub type OfPlace = unsafe extern "C" fn(*const u8, usize, u32, *mut Words);
pub type OfFile = unsafe extern "C" fn(*const u8, usize, u16, u16, u16, *mut Words);
pub type OfFileAndPlace = unsafe extern "C" fn(*const u8, usize, u16, u16, u16, u32, *mut Words);
pub type LookUp =
    unsafe extern "C" fn(*const u8, usize, u16, u16, u16, u16, u16, u16, u16, u16, *mut Words);
pub type Judge = unsafe extern "C" fn(*const u8, usize, *mut u8, usize, *mut u8, usize, *mut Words);
pub type Create = unsafe extern "C" fn(
    *mut u8,
    usize,
    u16,
    u16,
    u16,
    u16,
    u16,
    u16,
    u16,
    *mut u8,
    usize,
    *mut u8,
    usize,
    *mut Words,
);
pub type Extend = unsafe extern "C" fn(
    *mut u8,
    usize,
    u16,
    u16,
    u16,
    u32,
    *mut u8,
    usize,
    *mut u8,
    usize,
    *mut Words,
);
pub type Delete =
    unsafe extern "C" fn(*mut u8, usize, u16, u16, u16, *mut u8, usize, *mut u8, usize, *mut Words);

/// Of an image, or of a text.
#[inline]
pub unsafe fn of_image(function: OfImage, image: &[u8], answer: &mut Words) {
    function(image.as_ptr(), image.len(), answer)
}

/// Of a file number.
#[inline]
pub unsafe fn of_number(function: OfNumber, image: &[u8], number: u16, answer: &mut Words) {
    function(image.as_ptr(), image.len(), number, answer)
}

/// Of a file number, and a place in its header.
#[inline]
pub unsafe fn of_number_and_place(
    function: OfNumberAndPlace,
    image: &[u8],
    number: u16,
    place: u32,
    answer: &mut Words,
) {
    function(image.as_ptr(), image.len(), number, place, answer)
}

/// Of a place in the image.
#[inline]
pub unsafe fn of_place(function: OfPlace, image: &[u8], place: u32, answer: &mut Words) {
    function(image.as_ptr(), image.len(), place, answer)
}

/// Of the file with this ID (number, sequence, volume).
#[inline]
pub unsafe fn of_file(
    function: OfFile,
    image: &[u8],
    [number, sequence, volume]: [u16; 3],
    answer: &mut Words,
) {
    let (start, length) = (image.as_ptr(), image.len());
    function(start, length, number, sequence, volume, answer)
}

/// Of the file with this ID, and a place in it.
#[inline]
pub unsafe fn of_file_and_place(
    function: OfFileAndPlace,
    image: &[u8],
    [number, sequence, volume]: [u16; 3],
    place: u32,
    answer: &mut Words,
) {
    let (start, length) = (image.as_ptr(), image.len());
    function(start, length, number, sequence, volume, place, answer)
}

/// Of a directory, and a name's five words (name, type, version).
#[inline]
pub unsafe fn look_up(
    function: LookUp,
    image: &[u8],
    [number, sequence, volume]: [u16; 3],
    [name1, name2, name3, typ, version]: [u16; 5],
    answer: &mut Words,
) {
    let (start, length) = (image.as_ptr(), image.len());
    function(
        start, length, number, sequence, volume, name1, name2, name3, typ, version, answer,
    )
}

/// Of an image, with work areas for the marks of blocks and of headers.
#[inline]
pub unsafe fn judge(
    function: Judge,
    image: &[u8],
    blocks: &mut [u8],
    headers: &mut [u8],
    answer: &mut Words,
) {
    function(
        image.as_ptr(),
        image.len(),
        blocks.as_mut_ptr(),
        blocks.len(),
        headers.as_mut_ptr(),
        headers.len(),
        answer,
    )
}

/// Of a name, an owner and a protection, with work areas.
#[inline]
pub unsafe fn create(
    function: Create,
    image: &mut [u8],
    [name1, name2, name3, typ, version]: [u16; 5],
    (owner, protection): (u16, u16),
    blocks: &mut [u8],
    headers: &mut [u8],
    answer: &mut Words,
) {
    function(
        image.as_mut_ptr(),
        image.len(),
        name1,
        name2,
        name3,
        typ,
        version,
        owner,
        protection,
        blocks.as_mut_ptr(),
        blocks.len(),
        headers.as_mut_ptr(),
        headers.len(),
        answer,
    )
}

/// Of a file and a number of blocks, with work areas.
#[inline]
pub unsafe fn extend(
    function: Extend,
    image: &mut [u8],
    [number, sequence, volume]: [u16; 3],
    count: u32,
    blocks: &mut [u8],
    headers: &mut [u8],
    answer: &mut Words,
) {
    function(
        image.as_mut_ptr(),
        image.len(),
        number,
        sequence,
        volume,
        count,
        blocks.as_mut_ptr(),
        blocks.len(),
        headers.as_mut_ptr(),
        headers.len(),
        answer,
    )
}

/// Of a file, with work areas.
#[inline]
pub unsafe fn delete(
    function: Delete,
    image: &mut [u8],
    [number, sequence, volume]: [u16; 3],
    blocks: &mut [u8],
    headers: &mut [u8],
    answer: &mut Words,
) {
    function(
        image.as_mut_ptr(),
        image.len(),
        number,
        sequence,
        volume,
        blocks.as_mut_ptr(),
        blocks.len(),
        headers.as_mut_ptr(),
        headers.len(),
        answer,
    )
}
