//! Lends an image to the library so that a wrong access ends the run at once: the bytes can be read
//! and not written, and those beside them can not even be read. A work area, and the image of a call
//! that changes it, are lent in the same way, but that they can be written.

use std::ffi::c_void;
use std::{ptr, slice};

/// The bytes that access is given or taken for at once, on x86-64.
const PAGE: usize = 4096;

/// What may be done with pages.
const NOTHING: i32 = 0;
const READ: i32 = 1;
const READ_AND_WRITE: i32 = 3;

/// Pages of one's own, without a file.
const PRIVATE_AND_ANONYMOUS: i32 = 0x22;

extern "C" {
    fn mmap(
        place: *mut c_void,
        length: usize,
        access: i32,
        flags: i32,
        file: i32,
        offset: i64,
    ) -> *mut c_void;
    fn mprotect(place: *mut c_void, length: usize, access: i32) -> i32;
    fn munmap(place: *mut c_void, length: usize) -> i32;
}

/// What stands in the first page before the bytes that are lent, where the page has room.
const BESIDE: u8 = 0xc3;

/// Pages to lend images in, with a page before and a page after them that nobody may touch.
pub struct Lender {
    /// Where the room starts, after the page before it.
    pages: *mut u8,
    /// The bytes of the pages between the two.
    room: usize,
    /// Where the pages start that may be touched now, up to the end of the room.
    touchable: usize,
}

impl Lender {
    /// A lender with no room yet.
    pub fn new() -> Lender {
        Lender {
            pages: ptr::null_mut(),
            room: 0,
            touchable: 0,
        }
    }

    /// Lends an image: a copy of the bytes, which ends where the page that nobody may touch begins.
    /// The page before the image's first one cannot be touched either.
    pub fn lend(&mut self, image: &[u8]) -> &[u8] {
        let start = self.put(image, READ);
        // SAFETY: the bytes were just written, may be read, and stay as they are until the borrow
        // of `self` ends.
        unsafe { slice::from_raw_parts(self.pages.add(start), image.len()) }
    }

    /// Lends a work area, or an image that is to be changed, to a call: a copy of the bytes, which
    /// may be written and which ends where the page that nobody may touch begins. What the call
    /// leaves in it is copied back. The bytes before it, in its first page, are seen to be unchanged.
    pub fn lend_to_write<Answer>(
        &mut self,
        bytes: &mut [u8],
        call: impl FnOnce(&mut [u8]) -> Answer,
    ) -> Answer {
        let start = self.put(bytes, READ_AND_WRITE);
        let before = start - start % PAGE;
        // SAFETY: the bytes were just written, may be read and written, and nobody else refers to
        // them while the call has them.
        let lent = unsafe { slice::from_raw_parts_mut(self.pages.add(start), bytes.len()) };
        let answer = call(lent);
        // SAFETY: these bytes may be read, and the loan has ended.
        let (beside, left) = unsafe {
            let beside = slice::from_raw_parts(self.pages.add(before), start - before);
            let left = slice::from_raw_parts(self.pages.add(start), bytes.len());
            (beside, left)
        };
        let is_unchanged = beside.iter().all(|&byte| byte == BESIDE);
        assert!(is_unchanged, "bytes before what was lent were written");
        bytes.copy_from_slice(left);
        answer
    }

    /// Copies bytes to the end of the room, sets what may be done with their pages, and answers
    /// where they start in it. The pages before them cannot be touched.
    fn put(&mut self, bytes: &[u8], access: i32) -> usize {
        if self.pages.is_null() || bytes.len() > self.room {
            self.release();
            self.acquire(bytes.len().next_multiple_of(PAGE).max(PAGE));
        }
        let start = self.room - bytes.len();
        let before = start - start % PAGE;
        if self.touchable < before {
            self.allow(self.touchable, before - self.touchable, NOTHING);
        }
        self.touchable = before;
        self.allow(before, self.room - before, READ_AND_WRITE);
        // SAFETY: the room is the lender's own, may be written to, and is at least as long as the
        // bytes; nobody else refers to it, since the last loan ended with the borrow of `self`.
        unsafe {
            ptr::write_bytes(self.pages.add(before), BESIDE, start - before);
            ptr::copy_nonoverlapping(bytes.as_ptr(), self.pages.add(start), bytes.len());
        }
        if access != READ_AND_WRITE {
            self.allow(before, self.room - before, access);
        }
        start
    }

    /// Sets what may be done with some of the pages.
    fn allow(&mut self, start: usize, length: usize, access: i32) {
        if length == 0 {
            return;
        }
        // SAFETY: the range lies in the lender's own pages, and nobody refers to them.
        let refused = unsafe { mprotect(self.pages.add(start).cast(), length, access) };
        assert!(refused == 0, "access to pages is set");
    }

    /// Gets pages, and two more that stay out of bounds.
    fn acquire(&mut self, room: usize) {
        let (anywhere, length) = (ptr::null_mut(), PAGE + room + PAGE);
        // SAFETY: new pages, wherever there is place for them.
        let all = unsafe { mmap(anywhere, length, NOTHING, PRIVATE_AND_ANONYMOUS, -1, 0) };
        assert!(all as isize != -1, "pages for {room} bytes are had");
        // SAFETY: the first of the pages just got is followed by others.
        self.pages = unsafe { all.cast::<u8>().add(PAGE) };
        self.room = room;
        self.touchable = room;
    }

    /// Gives the pages back.
    fn release(&mut self) {
        if self.pages.is_null() {
            return;
        }
        let length = PAGE + self.room + PAGE;
        // SAFETY: these are the lender's own pages, all of them, and nobody refers to them.
        let refused = unsafe { munmap(self.pages.sub(PAGE).cast(), length) };
        assert!(refused == 0, "pages are given back");
        self.pages = ptr::null_mut();
        self.room = 0;
        self.touchable = 0;
    }
}

impl Default for Lender {
    fn default() -> Lender {
        Lender::new()
    }
}

impl Drop for Lender {
    fn drop(&mut self) {
        self.release();
    }
}
