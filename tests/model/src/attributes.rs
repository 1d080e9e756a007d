//! What a file says of itself: its blocks, its end, its owner and protection, its flags and the
//! attributes of its records.

use crate::answer::{Answer, Number};
use crate::file::{self, Id};
use crate::header::{blocks_of, Header};
use crate::image::{two_words_high_first, word, BLOCK_BYTES};
use crate::volume::{self, Opened, Volume};

/// Where a file ends.
#[derive(Clone, Copy, Debug, PartialEq, Eq)]
struct End {
    /// Paper 000, 6.1.5: "This 32-bit number is the VBN is which the end of file is located."
    f_efbk: u64,
    /// Paper 000, 6.1.6: "This word is a count of the number of bytes in use in the virtual block
    /// containing the end of file".
    f_ffby: u64,
}

impl End {
    /// How many bytes of a file of so many blocks lie before its end: all, where F.EFBK is 0, which is
    /// no VBN ("VBN, from 1", paper 01, "The work and its edge"), and where the end is past the mapped
    /// blocks. Paper 000, 6.1.6: "it is the offset to the first byte of the file available for
    /// appending."
    fn bytes_before(&self, blocks: u64) -> u64 {
        let block_bytes = BLOCK_BYTES as u64;
        let all = block_bytes * blocks;
        if self.f_efbk == 0 {
            return all;
        }
        let said = block_bytes * (self.f_efbk - 1) + self.f_ffby;
        said.min(all)
    }
}

/// The attributes of a file, which are those of its first header: its block count, the bytes before
/// its end, H.FOWN, H.FPRO, its flags (user flags and 256 times the system flags), F.RTYP and F.RATT,
/// F.RSIZ, F.HIBK, F.EFBK, F.FFBY. Paper 01, "The header": "H.FOWN 8, H.FPRO 10, user flags 12, system
/// flags 13, attributes 14 to 45". Paper 000, 6.2: F.RTYP, F.RATT, F.RSIZ, F.HIBK, F.EFBK and F.FFBY
/// one after the other, and 6.1.5: "Both F.HIBK and F.EFBK are stored with the high order half in the
/// first two bytes".
fn attribute_words(volume: &Volume, id: Id) -> Result<Vec<u64>, Number> {
    let chain = file::headers(volume, id)?;
    let blocks = chain.iter().map(|it| blocks_of(&it.pointers())).sum();
    let first: &Header = &chain[0];
    let area = first.attributes();
    let end = End {
        f_efbk: two_words_high_first(area, 8),
        f_ffby: word(area, 12),
    };
    Ok(vec![
        blocks,
        end.bytes_before(blocks),
        first.h_fown(),
        first.h_fpro(),
        u64::from(first.user_flags()) + 256 * u64::from(first.system_flags()),
        word(area, 0),
        word(area, 2),
        two_words_high_first(area, 4),
        end.f_efbk,
        end.f_ffby,
    ])
}

/// The answer of attributes. Paper 01, "Answer numbers": "Order: 1 to 5; .. 6 to 12".
pub fn answer_attributes(volume: &Opened, id: Id) -> Answer {
    Answer::on(volume, |volume| attribute_words(volume, id))
}

/// The call. Paper 01, "The work and its edge": "Every call on a volume opens it first".
pub fn attributes(bytes: &[u8], id: Id) -> Answer {
    answer_attributes(&volume::open(bytes), id)
}

#[cfg(test)]
mod tests {
    use super::*;
    use crate::sample::{changed, id, slot, FILE_6, MAP, VOLUME_V};

    #[test]
    fn attributes_of_volume_v() {
        // Nothing says where file 6 ends; file 4 ends after its one record.
        assert_eq!(
            attributes(VOLUME_V, FILE_6),
            Answer::done(&[3, 1_536, 0, 0, 0, 0, 0, 0, 0, 0])
        );
        assert_eq!(
            attributes(VOLUME_V, id(4, 4)),
            Answer::done(&[1, 16, 0, 0, 0, 0, 0, 0, 1, 16])
        );
        assert_eq!(attributes(VOLUME_V, id(5, 5)), Answer::done(&[]));
    }

    #[test]
    fn every_field() {
        let bytes: Vec<u8> = (1..=38).collect();
        let mut bytes_8 = bytes.clone();
        // No flag that refuses access.
        bytes_8[4..6].copy_from_slice(&[0xbf, 0x7f]);
        let image = changed(&[(slot(6), 8, &bytes_8)]);
        let words = [
            3,
            1_536,
            0x0201,
            0x0403,
            0x7fbf,
            0x0807,
            0x0a09,
            0x0c0b_0e0d,
            0x100f_1211,
            0x1413,
        ];
        assert_eq!(attributes(&image, FILE_6), Answer::done(&words));
    }

    #[test]
    fn ends_of_a_file_of_three_blocks() {
        for (f_efbk, f_ffby, before) in [
            (0, 0, 1_536),
            (0, 7, 1_536),
            (1, 0, 0),
            (1, 1, 1),
            (1, 512, 512),
            (2, 0, 512),
            (1, 513, 513),
            (3, 511, 1_535),
            (3, 512, 1_536),
            (3, 513, 1_536),
            (4, 0, 1_536),
            (4, 1, 1_536),
            (1, 1_536, 1_536),
            (1, 65_535, 1_536),
            (65_536, 0, 1_536),
            (u64::from(u32::MAX), 65_535, 1_536),
        ] {
            let end = End { f_efbk, f_ffby };
            assert_eq!(end.bytes_before(3), before, "{end:?}");
            assert_eq!(end.bytes_before(0), 0, "{end:?}");
        }
    }

    #[test]
    fn the_first_header_speaks_for_the_chain() {
        let image = changed(&[
            (slot(6), MAP + 2, &[5, 0, 5, 0]),
            (slot(6), 24, &[5, 0, 7, 0]),
            (slot(5), MAP, &[1]),
            (slot(5), 100, &[2, 204, 0, 1, 40, 0]),
            (slot(5), 8, &[255; 38]),
        ]);
        let words = [5, 2_055, 0, 0, 0, 0, 0, 0, 5, 7];
        assert_eq!(attributes(&image, FILE_6), Answer::done(&words));
        let refused = Answer::refused(Number::Segment);
        assert_eq!(attributes(&image, id(5, 5)), refused);
    }

    #[test]
    fn refusals_of_opening() {
        let refused = |words| attributes(VOLUME_V, Id::from_words(words)).number;
        assert_eq!(refused([6, 9, 1]), Number::Relvol);
        assert_eq!(refused([7, 0, 0]), Number::Number);
        assert_eq!(refused([6, 8, 0]), Number::Sequence);
        let locked = changed(&[(slot(6), 12, &[64])]);
        assert_eq!(attributes(&locked, FILE_6).number, Number::Locked);
        let chain = changed(&[(slot(6), MAP + 2, &[7])]);
        assert_eq!(attributes(&chain, FILE_6).number, Number::Chain);
        assert_eq!(attributes(&[], FILE_6).number, Number::Size);
    }
}
