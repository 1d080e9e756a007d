//! What a header says of its file, and a home block of its volume, that no rule of opening asks about:
//! owners, protections, names, and where a file ends.

use crate::block::{put_long, put_word, BLOCK_BYTES};
use crate::header::at;
use crate::random::Random;
use crate::volume::{in_home, Volume};

/// Where things are in the attribute area.
mod in_attributes {
    pub const F_RTYP: usize = 0;
    pub const F_RATT: usize = 1;
    pub const F_RSIZ: usize = 2;
    pub const F_HIBK: usize = 4;
    pub const F_EFBK: usize = 8;
    pub const F_FFBY: usize = 12;
}

/// Where the attributes of a header say that its file ends.
#[derive(Clone, Copy, Debug, PartialEq, Eq)]
pub struct End {
    /// F.EFBK.
    pub block: u32,
    /// F.FFBY.
    pub first_free: u16,
    /// How many bytes of the file are before it, which this maker chose.
    pub bytes: u64,
}

impl End {
    /// No end is given: F.EFBK is 0, and every byte of the blocks is before it.
    pub fn none(blocks: u32, first_free: u16) -> End {
        End {
            block: 0,
            first_free,
            bytes: bytes_of(blocks),
        }
    }

    /// After so many bytes. Where that is at the end of a block, the end is in the block after it.
    pub fn after(bytes: u64) -> End {
        let block = BLOCK_BYTES as u64;
        End {
            block: (bytes / block) as u32 + 1,
            first_free: (bytes % block) as u16,
            bytes,
        }
    }

    /// After so many blocks, all bytes of the last of which are before it.
    pub fn of_full(blocks: u32) -> End {
        End {
            block: blocks,
            first_free: BLOCK_BYTES as u16,
            bytes: bytes_of(blocks),
        }
    }

    /// Past the last byte of a file of so many blocks.
    fn past(block: u32, first_free: u16, blocks: u32) -> End {
        End {
            block,
            first_free,
            bytes: bytes_of(blocks),
        }
    }

    /// A random end of a file of less than 65,536 blocks: none, at the mapped end in either way, past
    /// it by a byte, by many in its last block and by far, or before it.
    fn random(random: &mut Random, blocks: u32) -> End {
        let all = bytes_of(blocks);
        match random.below(12) {
            0 => End::none(blocks, 0),
            1 => End::none(blocks, random.word()),
            2 => End::after(all),
            3 if blocks > 0 => End::of_full(blocks),
            4 => End::past(blocks + 1, 1, blocks),
            5 => End::past(blocks.max(1), random.word() | 1 << 15, blocks),
            6 => End::past(random.number() as u32 | 1 << 16, random.word(), blocks),
            7 => End::after(all.saturating_sub(1)),
            8 => End::after(0),
            _ => End::after(random.below(all + 1)),
        }
    }
}

/// The bytes of so many blocks.
fn bytes_of(blocks: u32) -> u64 {
    u64::from(blocks) * BLOCK_BYTES as u64
}

/// What a header says of its file.
#[derive(Clone, Copy, Debug, PartialEq, Eq)]
pub struct Facts {
    pub owner: u16,
    pub protection: u16,
    pub record_type: u8,
    pub record_attributes: u8,
    pub record_size: u16,
    /// F.HIBK.
    pub highest: u32,
    pub end: End,
    /// The name in the ident area.
    pub name: [u16; 5],
}

impl Facts {
    /// Any facts of a file of so many blocks.
    pub fn random(random: &mut Random, blocks: u32) -> Facts {
        Facts {
            owner: random.word(),
            protection: random.word(),
            record_type: random.byte(),
            record_attributes: random.byte(),
            record_size: random.word(),
            highest: random.number() as u32,
            end: End::random(random, blocks),
            name: [(); 5].map(|()| random.word()),
        }
    }

    /// Puts the facts into a header, but for the name, whose place is the header's to know.
    pub fn put(&self, block: &mut [u8]) {
        put_word(block, at::H_FOWN, self.owner);
        put_word(block, at::H_FPRO, self.protection);
        let area = &mut block[at::ATTRIBUTES..];
        area[in_attributes::F_RTYP] = self.record_type;
        area[in_attributes::F_RATT] = self.record_attributes;
        put_word(area, in_attributes::F_RSIZ, self.record_size);
        put_long(area, in_attributes::F_HIBK, self.highest);
        put_long(area, in_attributes::F_EFBK, self.end.block);
        put_word(area, in_attributes::F_FFBY, self.end.first_free);
    }
}

/// What a home block says of its volume.
#[derive(Clone, Copy, Debug, PartialEq, Eq)]
pub struct Label {
    /// ASCII, padded with nulls.
    pub name: [u8; 12],
    pub owner: u16,
    pub protection: u16,
    pub characteristics: u16,
    /// The protection of files that are created without one.
    pub file_protection: u16,
}

impl Label {
    /// Any label: a name as stations give them, or any bytes.
    pub fn random(random: &mut Random) -> Label {
        let mut name = *b"STATION07\0\0\0";
        if random.once_in(2) {
            random.fill(&mut name);
        }
        Label {
            name,
            owner: random.word(),
            protection: random.word(),
            characteristics: random.word(),
            file_protection: random.word(),
        }
    }

    /// Puts the label into a home block.
    pub fn put(&self, block: &mut [u8]) {
        block[in_home::H_VNAM..in_home::H_VNAM + 12].copy_from_slice(&self.name);
        put_word(block, in_home::H_VOWN, self.owner);
        put_word(block, in_home::H_VPRO, self.protection);
        put_word(block, in_home::H_VCHA, self.characteristics);
        put_word(block, in_home::H_DFPR, self.file_protection);
    }
}

/// Gives most headers of a volume any facts, and most volumes a label. What is left has the bytes of
/// the image.
pub fn put_facts(random: &mut Random, volume: &mut Volume) {
    let headers = volume.files.iter().flat_map(|file| {
        let blocks = file.blocks();
        file.headers.iter().map(move |it| (it.number, blocks))
    });
    let headers: Vec<(u16, u32)> = headers.collect();
    for (number, blocks) in headers {
        if !random.once_in(6) {
            let facts = Facts::random(random, blocks);
            volume.edit_header(number, |header| header.facts = Some(facts));
        }
    }
    if !random.once_in(6) {
        let label = Label::random(random);
        volume.put_label(label);
    }
}

#[cfg(test)]
mod tests {
    use super::*;
    use crate::volume_v::volume_v;
    use model::{attributes, facts, FileNumber, Id};

    /// Facts whose every field differs.
    const FACTS: Facts = Facts {
        owner: 0x0102,
        protection: 0x0304,
        record_type: 5,
        record_attributes: 6,
        record_size: 0x0708,
        highest: 0x090a_0b0c,
        end: End {
            block: 2,
            first_free: 300,
            bytes: 812,
        },
        name: [1, 2, 3, 4, 5],
    };

    #[test]
    fn facts_of_file_6_read_back() {
        let mut volume = volume_v();
        volume.edit_header(6, |header| header.facts = Some(FACTS));
        let words = [
            3,
            812,
            0x0102,
            0x0304,
            0,
            0x0605,
            0x0708,
            0x090a_0b0c,
            2,
            300,
        ];
        let answer = attributes::attributes(&volume.image, Id::from_words([6, 9, 0]));
        assert_eq!(answer.words()[..2], [0, 0]);
        assert_eq!(answer.value, words);
        let header = facts::header(&volume.image, FileNumber(6));
        assert_eq!(header.value, [9, 0, 0, 0, 2, 1, 2, 3, 4, 5]);
    }

    #[test]
    fn a_label_reads_back() {
        let mut volume = volume_v();
        volume.put_label(Label {
            name: *b"ABCDEFGHIJKL",
            owner: 1,
            protection: 2,
            characteristics: 3,
            file_protection: 4,
        });
        let answer = facts::label(&volume.image);
        let name = [0x4241, 0x4443, 0x4645, 0x4847, 0x4a49, 0x4c4b];
        assert_eq!(answer.value[..6], name);
        assert_eq!(answer.value[6..], [1, 2, 3, 4]);
    }

    #[test]
    fn ends_of_every_kind() {
        let mut random = Random::new(8);
        for blocks in [0, 1, 3, 1_000] {
            let all = bytes_of(blocks);
            let ends: Vec<End> = (0..400).map(|_| End::random(&mut random, blocks)).collect();
            for end in &ends {
                let said = u64::from(end.block.saturating_sub(1)) * 512;
                let said = said + u64::from(end.first_free);
                let expected = if end.block == 0 { all } else { said.min(all) };
                assert_eq!(end.bytes, expected, "{end:?} of {blocks}");
            }
            let some = |test: &dyn Fn(&End) -> bool| ends.iter().any(test);
            assert!(some(&|end| end.block == 0 && end.first_free != 0));
            assert!(some(&|end| end.block == blocks + 1 && end.first_free == 0));
            assert!(some(&|end| end.block == blocks + 1 && end.first_free == 1));
            assert!(some(&|end| end.block > 65_535));
            assert!(blocks == 0 || some(&|end| end.bytes < all));
            assert!(blocks == 0 || some(&|end| *end == End::of_full(blocks)));
        }
    }
}
