//! Headers: what one says, and how it is put into its slot.

use crate::block::{put_word, put_words, seal_header};
use crate::facts::Facts;
use crate::random::Random;

/// Where things are in a header block.
pub mod at {
    pub const H_IDOF: usize = 0;
    pub const H_MPOF: usize = 1;
    pub const H_FNUM: usize = 2;
    pub const H_FSEQ: usize = 4;
    pub const H_FLEV: usize = 6;
    pub const H_FOWN: usize = 8;
    pub const H_FPRO: usize = 10;
    pub const USER_FLAGS: usize = 12;
    pub const SYSTEM_FLAGS: usize = 13;
    pub const ATTRIBUTES: usize = 14;
}

/// Where things are in a map area.
pub mod in_map {
    pub const SEGMENT: usize = 0;
    pub const M_ERVN: usize = 1;
    pub const M_EFNU: usize = 2;
    pub const M_EFSQ: usize = 4;
    pub const M_CTSZ: usize = 6;
    pub const M_LBSZ: usize = 7;
    pub const M_USE: usize = 8;
    pub const M_MAX: usize = 9;
    pub const POINTERS: usize = 10;
}

/// The user flag of a file that is contiguous.
pub const CONTIGUOUS: u8 = 128;

/// The user flag of a file that is deaccess-locked.
pub const DEACCESS_LOCKED: u8 = 64;

/// The system flag of a file that is marked for delete.
pub const MARKED_FOR_DELETE: u8 = 128;

/// The system flag of a directory.
pub const DIRECTORY: u8 = 32;

/// The pointers of the largest map area.
pub const MOST_POINTERS: usize = 113;

/// The blocks that a pointer covers at most.
pub const MOST_BLOCKS: u32 = 256;

/// A retrieval pointer: where it starts, and how many blocks it covers.
#[derive(Clone, Copy, Debug, PartialEq, Eq)]
pub struct Pointer {
    pub lbn: u32,
    pub blocks: u32,
}

impl Pointer {
    /// The four bytes of a pointer.
    pub fn bytes(self) -> [u8; 4] {
        let count = u8::try_from(self.blocks - 1).expect("1 to 256 blocks");
        let [low, high, top, none] = self.lbn.to_le_bytes();
        assert!(none == 0, "an LBN has three bytes");
        [top, count, low, high]
    }

    /// The blocks that it covers, in order.
    pub fn lbns(self) -> impl Iterator<Item = u32> {
        self.lbn..self.lbn + self.blocks
    }
}

/// The fewest pointers that cover blocks in the order given.
pub fn pointers_of(lbns: &[u32]) -> Vec<Pointer> {
    let mut pointers: Vec<Pointer> = Vec::new();
    for &lbn in lbns {
        match pointers.last_mut() {
            Some(last) if last.lbn + last.blocks == lbn && last.blocks < MOST_BLOCKS => {
                last.blocks += 1;
            }
            _ => pointers.push(Pointer { lbn, blocks: 1 }),
        }
    }
    pointers
}

/// Cuts pointers in two until there are `count`, or until each covers one block.
pub fn cut(random: &mut Random, pointers: &mut Vec<Pointer>, count: usize) {
    while pointers.len() < count {
        let whole: Vec<usize> = (0..pointers.len())
            .filter(|&place| pointers[place].blocks > 1)
            .collect();
        if whole.is_empty() {
            return;
        }
        let place = *random.pick(&whole);
        let Pointer { lbn, blocks } = pointers[place];
        let first = 1 + random.below(u64::from(blocks - 1)) as u32;
        pointers[place].blocks = first;
        let second = Pointer {
            lbn: lbn + first,
            blocks: blocks - first,
        };
        pointers.insert(place + 1, second);
    }
}

/// Where the areas of a header are: H.IDOF, H.MPOF and M.MAX.
#[derive(Clone, Copy, Debug, PartialEq, Eq)]
pub struct Areas {
    pub h_idof: u8,
    pub h_mpof: u8,
    pub m_max: u8,
}

impl Areas {
    /// As the stations write them: 102 pointers.
    pub const USUAL: Areas = Areas {
        h_idof: 23,
        h_mpof: 46,
        m_max: 204,
    };

    /// The largest map area: 113 pointers.
    pub const LARGEST: Areas = Areas {
        h_idof: 23,
        h_mpof: 23,
        m_max: 227,
    };

    /// Areas with room for so many pointers: the usual ones, the largest, the smallest that hold
    /// them, the last in the block, or any.
    pub fn random(random: &mut Random, pointers: usize) -> Areas {
        let needed = u8::try_from(2 * pointers).expect("at most 113 pointers");
        let last = 250 - needed;
        let areas = match random.below(6) {
            0 | 1 => Areas::USUAL,
            2 => Areas::LARGEST,
            3 => Areas {
                h_mpof: random.byte_between(23, last),
                m_max: needed,
                ..Areas::USUAL
            },
            4 => Areas {
                h_mpof: last,
                m_max: needed,
                h_idof: random.byte_between(23, last),
            },
            _ => {
                let h_mpof = random.byte_between(23, last);
                Areas {
                    h_idof: random.byte_between(23, h_mpof),
                    h_mpof,
                    m_max: random.byte_between(needed, 250 - h_mpof),
                }
            }
        };
        if areas.m_max >= needed {
            areas
        } else {
            Areas::LARGEST
        }
    }
}

/// What a header says.
#[derive(Clone, Debug)]
pub struct Header {
    pub number: u16,
    pub sequence: u16,
    pub segment: u8,
    /// M.EFNU and M.EFSQ.
    pub link: (u16, u16),
    pub user_flags: u8,
    pub system_flags: u8,
    pub areas: Areas,
    pub pointers: Vec<Pointer>,
    /// What it says of its file, if it says anything.
    pub facts: Option<Facts>,
}

impl Header {
    /// The only header of a file.
    pub fn new(number: u16, sequence: u16, pointers: Vec<Pointer>) -> Header {
        Header {
            number,
            sequence,
            segment: 0,
            link: (0, 0),
            user_flags: 0,
            system_flags: 0,
            areas: Areas::USUAL,
            pointers,
            facts: None,
        }
    }

    /// Whether the ident area's name has a place of its own, before the map area.
    pub fn has_name(&self) -> bool {
        self.areas.h_idof + 5 <= self.areas.h_mpof
    }

    /// Where the map area starts in the block.
    pub fn map_area(&self) -> usize {
        2 * usize::from(self.areas.h_mpof)
    }

    /// How many blocks its pointers cover.
    pub fn blocks(&self) -> u32 {
        self.pointers.iter().map(|pointer| pointer.blocks).sum()
    }

    /// Puts the header into a block, with its checksum. Bytes that it says nothing of stay.
    pub fn put(&self, block: &mut [u8]) {
        self.put_unsealed(block);
        seal_header(block);
    }

    /// Puts the header into a block, and leaves the checksum as it was.
    pub fn put_unsealed(&self, block: &mut [u8]) {
        block[at::H_IDOF] = self.areas.h_idof;
        block[at::H_MPOF] = self.areas.h_mpof;
        put_word(block, at::H_FNUM, self.number);
        put_word(block, at::H_FSEQ, self.sequence);
        put_word(block, at::H_FLEV, 257);
        block[at::USER_FLAGS] = self.user_flags;
        block[at::SYSTEM_FLAGS] = self.system_flags;
        if let Some(facts) = &self.facts {
            facts.put(block);
            if self.has_name() {
                put_words(block, 2 * usize::from(self.areas.h_idof), &facts.name);
            }
        }
        self.put_map(&mut block[self.map_area()..]);
    }

    /// Puts the map area.
    fn put_map(&self, map: &mut [u8]) {
        map[in_map::SEGMENT] = self.segment;
        map[in_map::M_ERVN] = 0;
        put_word(map, in_map::M_EFNU, self.link.0);
        put_word(map, in_map::M_EFSQ, self.link.1);
        map[in_map::M_CTSZ] = 1;
        map[in_map::M_LBSZ] = 3;
        let words = 2 * self.pointers.len();
        assert!(
            words <= usize::from(self.areas.m_max),
            "pointers in the map"
        );
        map[in_map::M_USE] = words as u8;
        map[in_map::M_MAX] = self.areas.m_max;
        let places = map[in_map::POINTERS..].chunks_exact_mut(4);
        for (place, pointer) in places.zip(&self.pointers) {
            place.copy_from_slice(&pointer.bytes());
        }
    }
}

#[cfg(test)]
mod tests {
    use super::*;

    #[test]
    fn the_bytes_of_a_pointer() {
        let pointer = Pointer {
            lbn: 0x0f_1234,
            blocks: 256,
        };
        assert_eq!(pointer.bytes(), [0x0f, 255, 0x34, 0x12]);
    }

    #[test]
    fn pointers_cover_their_blocks_in_order() {
        let lbns: Vec<u32> = [30, 31, 25].into_iter().chain(100..600).collect();
        let fewest = pointers_of(&lbns);
        assert_eq!(fewest.len(), 4);
        let mut random = Random::new(1);
        for count in [0, 4, 5, 60, 113, 503, 1000] {
            let mut pointers = fewest.clone();
            cut(&mut random, &mut pointers, count);
            assert_eq!(pointers.len(), count.clamp(4, 503));
            let covered: Vec<u32> = pointers.iter().flat_map(|it| it.lbns()).collect();
            assert_eq!(covered, lbns);
        }
    }

    #[test]
    fn areas_have_room() {
        let mut random = Random::new(2);
        for pointers in 0..=MOST_POINTERS {
            for _ in 0..100 {
                let areas = Areas::random(&mut random, pointers);
                assert!(areas.h_idof >= 23 && areas.h_mpof >= areas.h_idof);
                assert!(usize::from(areas.m_max) >= 2 * pointers);
                assert!(u16::from(areas.h_mpof) + 5 + u16::from(areas.m_max) <= 255);
            }
        }
    }
}
