//! How images and work areas are lent: a write to an image that is to be read, or a read past the
//! end of either, ends the run, and a write before a work area, or before an image that is to be
//! changed, is seen.

use library::Lender;
use std::fs;
use std::panic::catch_unwind;

/// What may be done with the byte at an address: the four letters of the system's list of pages.
fn access(address: usize) -> String {
    let maps = fs::read_to_string("/proc/self/maps").expect("the list of pages can be read");
    for line in maps.lines() {
        let (range, rest) = line.split_once(' ').expect("a range and more");
        let (start, end) = range.split_once('-').expect("a start and an end");
        let number = |text: &str| usize::from_str_radix(text, 16).expect("an address");
        if (number(start)..number(end)).contains(&address) {
            return rest[..4].to_string();
        }
    }
    "none".to_string()
}

/// The image itself can be read and not written; the byte after it, and the page before its first,
/// can be neither.
#[test]
fn a_lent_image_is_fenced_in() {
    let mut lender = Lender::new();
    for length in [51_200, 0, 1, 511, 51_200, 4_096, 200_000, 51_201] {
        let image: Vec<u8> = (0..length).map(|at| (at % 251) as u8).collect();
        let lent = lender.lend(&image);
        assert_eq!(lent, image);
        let first = lent.as_ptr() as usize;
        let end = first + length;
        assert_eq!(access(end), "---p", "after {length} bytes");
        if length > 0 {
            assert_eq!(access(first), "r--p", "first of {length} bytes");
            assert_eq!(access(end - 1), "r--p", "last of {length} bytes");
            let page = first & !4_095;
            assert_eq!(access(page - 1), "---p", "before {length} bytes");
        }
    }
}

/// What is lent to be written can be read and written; the byte after it, and the page before its
/// first, can be neither. What is written stays, and is copied back.
#[test]
fn what_is_lent_to_be_written_is_fenced_in() {
    let mut lender = Lender::new();
    for length in [100, 0, 1, 4_096, 65_535, 16, 8_191, 20_480, 51_200, 200_192] {
        let before: Vec<u8> = (0..length).map(|at| (at % 251) as u8).collect();
        let mut area = before.clone();
        let told = lender.lend_to_write(&mut area, |lent| {
            assert_eq!(lent, before);
            let first = lent.as_ptr() as usize;
            let end = first + length;
            assert_eq!(access(end), "---p", "after {length} bytes");
            if length > 0 {
                assert_eq!(access(first), "rw-p", "first of {length} bytes");
                assert_eq!(access(end - 1), "rw-p", "last of {length} bytes");
                let page = first & !4_095;
                assert_eq!(access(page - 1), "---p", "before {length} bytes");
            }
            lent.iter_mut().for_each(|byte| *byte ^= 0xff);
            length
        });
        assert_eq!(told, length);
        assert!(area
            .iter()
            .zip(before)
            .all(|(&after, before)| after == !before));
    }
}

/// A write just before what is lent to be written, and one at the start of its first page.
#[test]
fn a_write_before_what_is_lent_is_seen() {
    for length in [1, 100, 4_095, 5_000, 51_200] {
        for far in [false, true] {
            let seen = catch_unwind(|| {
                let mut area = vec![7; length];
                Lender::new().lend_to_write(&mut area, |lent| {
                    let first = lent.as_mut_ptr() as usize;
                    let place = if far { first & !4_095 } else { first - 1 };
                    // SAFETY: the byte is in the lender's own pages, which may be written; it is
                    // what a call that writes beside the area would do.
                    unsafe { (place as *mut u8).write_volatile(0) };
                });
            });
            assert!(seen.is_err(), "{length} bytes, far {far}");
        }
    }
}
