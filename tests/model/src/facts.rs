//! What a volume and its headers say: where the parts of a volume lie, the label in its home block,
//! the fields of a header, and its retrieval pointers.

use crate::answer::{Answer, Number};
use crate::file::whole_header;
use crate::image::{word, FileNumber};
use crate::volume::{self, Opened, Volume};

/// Some words one after the other. Paper 01, "The work and its edge": "Words are two bytes, low byte
/// first."
fn words_at(bytes: &[u8], at: usize, count: usize) -> impl Iterator<Item = u64> + '_ {
    (0..count).map(move |number| word(bytes, at + 2 * number))
}

/// Where the parts of a volume lie: N, the home LBN, H.IBSZ, H.IBLB, H.FMAX, how many numbers have a
/// slot, the LBN of the storage map's first block of bits, q, H.VLEV, and how many headers the index
/// file has. Paper 01, "The volume": "m = H.IBSZ = H.FMAX/4096 rounded up", "The slot of file n is VBN
/// 2+m+n; past the mapped blocks n has no slot.", "Byte 3 of its first block is q; .. Then q blocks of
/// bits", "H.VLEV 12". Paper 02, 9/14: "all headers in the chain of file 1".
fn geometry_words(volume: &Volume) -> Vec<u64> {
    let bits = volume.storage_map_lbns();
    vec![
        volume.image().blocks(),
        volume.home().0,
        volume.h_ibsz(),
        volume.h_iblb(),
        volume.h_fmax(),
        volume.slots(),
        bits[0].0,
        bits.len() as u64,
        word(volume.home_block(), 12),
        volume.index_headers(),
    ]
}

/// The label of a volume: the six words of H.VNAM, then H.VOWN, H.VPRO, H.VCHA and H.DFPR. Paper 000,
/// 5.1.2.7: "This area contains the volume label as an ASCII string. It is padded out to 12 bytes with
/// nulls.", with 5.1.2.9 to 5.1.2.12; and 5.1.3, where H.VNAM follows H.VLEV, which is at byte 12, and
/// four unused bytes come between H.VNAM and H.VOWN.
fn label_words(volume: &Volume) -> Vec<u64> {
    let home = volume.home_block();
    let (h_vnam, h_vown) = (14, 14 + 12 + 4);
    let name = words_at(home, h_vnam, 6);
    name.chain(words_at(home, h_vown, 4)).collect()
}

/// What the header of a number says: H.FSEQ, its segment number, M.EFNU, M.EFSQ, how many pointers are
/// in use, and its ident area's I.FNAM, I.FTYP and I.FVER. Paper 01, "The header": "H.FSEQ 4", "segment
/// number 0, .. M.EFNU 2, M.EFSQ 4", and "pointers from 10", two words each, M.USE words together.
/// Paper 000, 3.4.2.1 to 3.4.2.3: three words of the name, one of the type, one of the version.
fn header_words(volume: &Volume, n: FileNumber) -> Result<Vec<u64>, Number> {
    let header = whole_header(volume, n)?;
    let mut words = vec![
        header.h_fseq(),
        header.segment(),
        header.m_efnu().0,
        header.m_efsq(),
        header.m_use() / 2,
    ];
    words.extend(words_at(header.ident_area(), 0, 5));
    Ok(words)
}

/// A pointer of the header of a number, by its place from 0: its first LBN, and how many blocks it
/// covers. Paper 01, "The header": "A pointer: high LBN byte, count byte, low LBN word; count c covers
/// c+1 blocks." Past the pointers in use there is none, as there is no record past the last: "15
/// ABSENT".
fn pointer_words(volume: &Volume, n: FileNumber, place: u64) -> Result<Vec<u64>, Number> {
    let header = whole_header(volume, n)?;
    let mut pointers = header.pointers().into_iter();
    let pointer = pointers.nth(place as usize).ok_or(Number::Absent)?;
    Ok(vec![pointer.lbn.0, pointer.blocks])
}

/// The answer of geometry. Paper 01, "The work and its edge": "Every call on a volume opens it first".
pub fn answer_geometry(volume: &Opened) -> Answer {
    Answer::on(volume, |volume| Ok(geometry_words(volume)))
}

/// The answer of label. Paper 01, "The work and its edge": "Every call on a volume opens it first".
pub fn answer_label(volume: &Opened) -> Answer {
    Answer::on(volume, |volume| Ok(label_words(volume)))
}

/// The answer of header. Paper 01, "Answer numbers": "7 NUMBER | 0, above H.FMAX, no slot, not in
/// use", "8 HEADER | not whole".
pub fn answer_header(volume: &Opened, n: FileNumber) -> Answer {
    Answer::on(volume, |volume| header_words(volume, n))
}

/// The answer of pointer. Paper 01, "Answer numbers": "7 NUMBER | 0, above H.FMAX, no slot, not in
/// use", "8 HEADER | not whole", "then by number".
pub fn answer_pointer(volume: &Opened, n: FileNumber, place: u64) -> Answer {
    Answer::on(volume, |volume| pointer_words(volume, n, place))
}

/// The call. Paper 01, "The work and its edge": "Every call on a volume opens it first".
pub fn geometry(bytes: &[u8]) -> Answer {
    answer_geometry(&volume::open(bytes))
}

/// The call. Paper 01, "The work and its edge": "Every call on a volume opens it first".
pub fn label(bytes: &[u8]) -> Answer {
    answer_label(&volume::open(bytes))
}

/// The call. Paper 01, "The work and its edge": "Every call on a volume opens it first".
pub fn header(bytes: &[u8], n: FileNumber) -> Answer {
    answer_header(&volume::open(bytes), n)
}

/// The call. Paper 01, "The work and its edge": "Every call on a volume opens it first".
pub fn pointer(bytes: &[u8], n: FileNumber, place: u64) -> Answer {
    answer_pointer(&volume::open(bytes), n, place)
}

#[cfg(test)]
mod tests {
    use super::*;
    use crate::sample::{changed, slot, CONTROL, HOME, INDEX_MAP, MAP, VOLUME_V};

    #[test]
    fn geometry_of_volume_v() {
        // Paper 01, "Volume V": "N 100, home 1, H.FMAX 16, m 1, H.IBLB 2. Header 1 covers 0–18; 2:
        // 19–20".
        let words = [100, 1, 1, 2, 16, 16, 20, 1, 257, 1];
        assert_eq!(geometry(VOLUME_V), Answer::done(&words));
    }

    #[test]
    fn geometry_changed() {
        let value = |changes: &[_]| geometry(&changed(changes)).value;
        assert_eq!(value(&[(HOME, 12, &[2])])[8], 258);
        assert_eq!(value(&[(HOME, 6, &[0, 16])])[4], 4_096);
        // Slots are counted by the mapped blocks, whatever H.FMAX is: 0 to 22, and then 50 and 51.
        let more: &[u8] = &[4, 204, 0, 22, 0, 0, 0, 1, 50, 0];
        assert_eq!(value(&[(slot(1), 100, more)])[5], 22);
        // The bits are where the second pointer says.
        let apart: &[u8] = &[4, 204, 0, 0, 19, 0, 0, 0, 50, 0];
        assert_eq!(value(&[(slot(2), 100, apart)])[6..8], [50, 1]);
    }

    #[test]
    fn label_of_a_home() {
        assert_eq!(label(VOLUME_V), Answer::done(&[]));
        let name = b"STATION07\0\0\0";
        let rest = [1, 2, 3, 4, 5, 6, 7, 8];
        // The four bytes after H.VNAM, and those after H.DFPR, are no part of it.
        let image = changed(&[
            (HOME, 14, name),
            (HOME, 26, &[255; 4]),
            (HOME, 30, &rest),
            (HOME, 38, &[255; 6]),
        ]);
        let words = [
            0x5453, 0x5441, 0x4f49, 0x304e, 0x0037, 0, 0x0201, 0x0403, 0x0605, 0x0807,
        ];
        assert_eq!(label(&image), Answer::done(&words));
    }

    #[test]
    fn headers_of_volume_v() {
        let pointers = [1, 1, 1, 1, 0, 2];
        let sequences = [1, 2, 3, 4, 5, 9];
        for (n, (sequence, count)) in (1..).zip(sequences.into_iter().zip(pointers)) {
            let answer = header(VOLUME_V, FileNumber(n));
            assert_eq!(answer, Answer::done(&[sequence, 0, 0, 0, count]));
        }
        for n in [0, 7, 16, 17, 65_535] {
            let refused = Answer::refused(Number::Number);
            assert_eq!(header(VOLUME_V, FileNumber(n)), refused);
            assert_eq!(pointer(VOLUME_V, FileNumber(n), 0), refused);
        }
    }

    #[test]
    fn fields_of_a_header() {
        let image = changed(&[
            (slot(6), MAP, &[7]),
            (slot(6), MAP + 2, &[1, 2, 3, 4]),
            (slot(6), 0, &[25]),
            (slot(6), 46, &[255; 4]),
            (slot(6), 50, &[1, 1, 2, 2, 3, 3, 4, 4, 5, 5, 6]),
        ]);
        // No flag, link or segment is judged here; a bad link is no refusal.
        let words = [9, 7, 0x0201, 0x0403, 2, 0x101, 0x202, 0x303, 0x404, 0x505];
        assert_eq!(header(&image, FileNumber(6)), Answer::done(&words));
    }

    #[test]
    fn an_ident_area_at_the_end_of_the_block() {
        // The map area is the last of the block, and the ident area is there as well.
        let image = changed(&[
            (slot(5), 0, &[250, 250]),
            (slot(5), 500, &[0, 0, 0, 0, 0, 0, 1, 3, 0, 0]),
        ]);
        let words = [5, 0, 0, 0, 0, 0, 0, 0, 0x0301, 0];
        assert_eq!(header(&image, FileNumber(5)), Answer::done(&words));
    }

    #[test]
    fn pointers_of_volume_v() {
        let answer = |n, place| pointer(VOLUME_V, FileNumber(n), place);
        assert_eq!(answer(1, 0), Answer::done(&[0, 19]));
        assert_eq!(answer(6, 0), Answer::done(&[30, 2]));
        assert_eq!(answer(6, 1), Answer::done(&[25, 1]));
        for (n, place) in [(6, 2), (6, 102), (6, u64::from(u32::MAX)), (1, 1), (5, 0)] {
            assert_eq!(answer(n, place), Answer::refused(Number::Absent));
        }
    }

    #[test]
    fn refusals_in_their_order() {
        let whole: (usize, usize, &[u8]) = (slot(6), 6, &[2]);
        let number: (usize, usize, &[u8]) = (INDEX_MAP, 0, &[0x1f]);
        let storage: (usize, usize, &[u8]) = (CONTROL, 3, &[7]);
        let mut all = Vec::new();
        for (more, expected) in [
            (whole, Number::Header),
            (number, Number::Number),
            (storage, Number::Storage),
        ] {
            all.push(more);
            let image = changed(&all);
            let refused = Answer::refused(expected);
            assert_eq!(header(&image, FileNumber(6)), refused);
            assert_eq!(pointer(&image, FileNumber(6), 9), refused);
        }
        let image = changed(&all);
        assert_eq!(geometry(&image), Answer::refused(Number::Storage));
        assert_eq!(label(&image), Answer::refused(Number::Storage));
        assert_eq!(label(&image[1..]), Answer::refused(Number::Size));
    }
}
