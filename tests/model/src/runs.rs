//! Blocks in a row: those of a file from a VBN on, and the free ones from an LBN on.

use crate::answer::{Answer, Number};
use crate::file::{self, File, Id, Opened};
use crate::image::{Lbn, Vbn};
use crate::volume::{self, Volume};

/// How many VBNs from one on, which has this LBN, have LBNs that rise by one. Paper 01, "The header":
/// "VBNs run through its pointers in order.", over all pointers of all headers.
fn row_of(file: &File, vbn: Vbn, lbn: Lbn) -> u64 {
    let rises = |&more: &u64| file.lbn(Vbn(vbn.0 + more)) == Some(Lbn(lbn.0 + more));
    (0..).take_while(rises).count() as u64
}

/// The VBNs of a file whose LBN is not one above that of the VBN before: where its blocks in a row
/// begin. Paper 01, "The header": "VBNs run through its pointers in order."
pub fn row_starts(file: &File) -> Vec<Vbn> {
    let mut starts = Vec::new();
    let mut after = None;
    for (vbn, lbn) in (1..).zip(file.lbns_in_order()) {
        if after != Some(lbn) {
            starts.push(Vbn(vbn));
        }
        after = Some(Lbn(lbn.0 + 1));
    }
    starts
}

/// The LBN of a VBN, and how many blocks from there on lie in a row. Paper 01, "Answer numbers": "LBN
/// (map)", "13 VBN | 0 or beyond the last".
fn extent_words(file: &File, vbn: Vbn) -> Result<Vec<u64>, Number> {
    let lbn = file.lbn(vbn).ok_or(Number::Vbn)?;
    Ok(vec![lbn.0, row_of(file, vbn, lbn)])
}

/// The answer of extent. Paper 01, "Answer numbers": "Order: 1 to 5; .. 6 to 12; then by number."
pub fn answer_extent(file: &Opened, vbn: Vbn) -> Answer {
    Answer::on(file, |file| extent_words(file, vbn))
}

/// The first free block from an LBN on, below N, and how many from it on are free in a row. Paper 01,
/// "The volume": "Then q blocks of bits: set means free". Where there is none, ABSENT, as past the last
/// record.
fn free_run_words(volume: &Volume, from: Lbn) -> Result<Vec<u64>, Number> {
    let free = volume.free_blocks();
    let mut from_on = (0..).zip(&free).skip(from.0 as usize);
    let first = from_on.find(|(_, &is_free)| is_free);
    let (first, _) = first.ok_or(Number::Absent)?;
    let row = free[first..].iter().take_while(|&&is_free| is_free);
    Ok(vec![first as u64, row.count() as u64])
}

/// The answer of free run. Paper 01, "Answer numbers": "Order: 1 to 5; .. then by number."
pub fn answer_free_run(volume: &volume::Opened, from: Lbn) -> Answer {
    Answer::on(volume, |volume| free_run_words(volume, from))
}

/// The call. Paper 01, "The work and its edge": "Every call on a volume opens it first".
pub fn extent(bytes: &[u8], id: Id, vbn: Vbn) -> Answer {
    answer_extent(&file::open(bytes, id), vbn)
}

/// The call. Paper 01, "The work and its edge": "Every call on a volume opens it first".
pub fn free_run(bytes: &[u8], from: Lbn) -> Answer {
    answer_free_run(&volume::open(bytes), from)
}

#[cfg(test)]
mod tests {
    use super::*;
    use crate::sample::{changed, id, slot, CONTROL, FILE_6, MAP, VOLUME_V};

    /// The LBN of the storage map's bits.
    const BITS: usize = 20;

    #[test]
    fn extents_of_volume_v() {
        let answer = |vbn| extent(VOLUME_V, FILE_6, Vbn(vbn));
        assert_eq!(answer(1), Answer::done(&[30, 2]));
        assert_eq!(answer(2), Answer::done(&[31, 1]));
        assert_eq!(answer(3), Answer::done(&[25, 1]));
        for vbn in [0, 4, u64::from(u32::MAX)] {
            assert_eq!(answer(vbn), Answer::refused(Number::Vbn));
        }
        let index = extent(VOLUME_V, id(1, 1), Vbn(3));
        assert_eq!(index, Answer::done(&[2, 17]));
        let empty = extent(VOLUME_V, id(5, 5), Vbn(1));
        assert_eq!(empty, Answer::refused(Number::Vbn));
        let old = extent(VOLUME_V, id(6, 8), Vbn(0));
        assert_eq!(old, Answer::refused(Number::Sequence));
    }

    #[test]
    fn a_row_goes_on_over_pointers_and_headers() {
        // 30 and 31, then 32; header 5 goes on with 33 and 34, then 35, and ends with 35 again.
        let image = changed(&[
            (slot(6), MAP + 2, &[5, 0, 5, 0]),
            (slot(6), 100, &[4, 204, 0, 1, 30, 0, 0, 0, 32, 0]),
            (slot(5), MAP, &[1]),
            (
                slot(5),
                100,
                &[6, 204, 0, 1, 33, 0, 0, 0, 35, 0, 0, 0, 35, 0],
            ),
        ]);
        let answer = |vbn| extent(&image, FILE_6, Vbn(vbn));
        for (vbn, words) in [(1, [30, 6]), (3, [32, 4]), (6, [35, 1]), (7, [35, 1])] {
            assert_eq!(answer(vbn), Answer::done(&words));
        }
        assert_eq!(answer(8), Answer::refused(Number::Vbn));
        let file = file::open(&image, FILE_6).expect("file 6 opens");
        assert_eq!(row_starts(&file), [Vbn(1), Vbn(7)]);
    }

    #[test]
    fn starts_of_rows() {
        let starts = |id| row_starts(&file::open(VOLUME_V, id).expect("a file of Volume V"));
        assert_eq!(starts(FILE_6), [Vbn(1), Vbn(3)]);
        assert_eq!(starts(id(1, 1)), [Vbn(1)]);
        assert_eq!(starts(id(5, 5)), []);
    }

    #[test]
    fn free_runs_of_volume_v() {
        // 22 to 24, 26 to 29, and 32 to 98 are free.
        let answer = |from| free_run(VOLUME_V, Lbn(from));
        for (from, words) in [
            (0, [22, 3]),
            (22, [22, 3]),
            (24, [24, 1]),
            (25, [26, 4]),
            (30, [32, 67]),
            (98, [98, 1]),
        ] {
            assert_eq!(answer(from), Answer::done(&words), "{from}");
        }
        for from in [99, 100, 101, u64::from(u32::MAX)] {
            assert_eq!(answer(from), Answer::refused(Number::Absent), "{from}");
        }
    }

    #[test]
    fn only_the_bits_below_n_count() {
        // All bits set: the boot block is free, and nothing from N on is.
        let all = changed(&[(BITS, 0, &[255; 512])]);
        assert_eq!(free_run(&all, Lbn(0)), Answer::done(&[0, 100]));
        assert_eq!(free_run(&all, Lbn(99)), Answer::done(&[99, 1]));
        assert_eq!(free_run(&all, Lbn(100)), Answer::refused(Number::Absent));
        let none = changed(&[(BITS, 0, &[0; 12]), (BITS, 12, &[0xf0])]);
        assert_eq!(free_run(&none, Lbn(0)), Answer::refused(Number::Absent));
        let closed = changed(&[(CONTROL, 3, &[7])]);
        assert_eq!(free_run(&closed, Lbn(0)), Answer::refused(Number::Storage));
    }
}
