//! What calls take and answer.

use std::fmt;
use std::str::FromStr;

/// The bytes of a block.
pub const BLOCK: usize = 512;

/// The most file numbers that a volume can have: H.FMAX is a word.
pub const MOST_NUMBERS: usize = 65_535;

/// A file ID: number, sequence, relative volume.
#[derive(Clone, Copy, Debug, PartialEq, Eq, Hash, PartialOrd, Ord)]
pub struct FileId {
    pub number: u16,
    pub sequence: u16,
    pub volume: u16,
}

impl FileId {
    /// The master file directory.
    pub const MASTER: FileId = FileId::of(4, 4, 0);

    /// The ID of three words.
    pub const fn of(number: u16, sequence: u16, volume: u16) -> FileId {
        FileId {
            number,
            sequence,
            volume,
        }
    }

    pub(crate) fn words(self) -> [u16; 3] {
        [self.number, self.sequence, self.volume]
    }
}

impl fmt::Display for FileId {
    fn fmt(&self, f: &mut fmt::Formatter<'_>) -> fmt::Result {
        write!(f, "{},{},{}", self.number, self.sequence, self.volume)
    }
}

/// A text that is not `number,sequence,volume`, three decimal numbers below 65,536.
#[derive(Clone, Copy, Debug, PartialEq, Eq)]
pub struct NotAnId;

impl FromStr for FileId {
    type Err = NotAnId;

    fn from_str(text: &str) -> Result<FileId, NotAnId> {
        let mut words = text.split(',').map(|part| {
            let digits = !part.is_empty() && part.bytes().all(|byte| byte.is_ascii_digit());
            digits.then(|| part.parse().ok()).flatten().ok_or(NotAnId)
        });
        let mut next = || words.next().unwrap_or(Err(NotAnId));
        let id = FileId::of(next()?, next()?, next()?);
        if words.next().is_some() {
            return Err(NotAnId);
        }
        Ok(id)
    }
}

/// A name as its five words: three of the name, one of the type, the version.
#[derive(Clone, Copy, Debug, PartialEq, Eq, Hash, PartialOrd, Ord)]
pub struct Name(pub [u16; 5]);

impl Name {
    /// The same name with another version.
    pub fn with_version(self, version: u16) -> Name {
        let [name1, name2, name3, typ, _] = self.0;
        Name([name1, name2, name3, typ, version])
    }

    /// The version.
    pub fn version(self) -> u16 {
        self.0[4]
    }

    /// Whether two names differ in nothing but the version.
    pub fn is_version_of(self, other: Name) -> bool {
        self.with_version(0) == other.with_version(0)
    }
}

/// A record of a directory.
#[derive(Clone, Copy, Debug, PartialEq, Eq, Hash)]
pub struct Record {
    pub id: FileId,
    pub name: Name,
}

/// The verdict's counts.
#[derive(Clone, Copy, Debug, PartialEq, Eq)]
pub struct Counts {
    pub blocks: u64,
    /// Covered blocks.
    pub claimed: u64,
    /// Free bits of the storage map.
    pub free: u64,
    /// File numbers in use.
    pub headers: u64,
}

/// Where the parts of a volume lie.
#[derive(Clone, Copy, Debug, PartialEq, Eq)]
pub struct Geometry {
    pub blocks: u32,
    /// The home's LBN.
    pub home: u32,
    /// H.IBSZ: how many blocks the index map has.
    pub ibsz: u32,
    /// H.IBLB: the index map's LBN.
    pub iblb: u32,
    /// H.FMAX: the highest file number.
    pub fmax: u32,
    /// How many file numbers have a slot.
    pub slots: u32,
    /// The LBN of the storage map's bits.
    pub map: u32,
    /// In how many blocks they lie.
    pub map_blocks: u32,
    /// H.VLEV.
    pub vlev: u16,
    /// How many headers the index file has.
    pub index_headers: u32,
}

/// A volume's label.
#[derive(Clone, Copy, Debug, PartialEq, Eq)]
pub struct Label {
    /// H.VNAM, padded with nulls.
    pub name: [u8; 12],
    pub owner: u16,
    pub protection: u16,
    pub characteristics: u16,
    pub default_protection: u16,
}

/// What a header says.
#[derive(Clone, Copy, Debug, PartialEq, Eq)]
pub struct Header {
    pub sequence: u16,
    pub segment: u8,
    /// The number of the next header of the chain, 0 where there is none.
    pub next: u16,
    pub next_sequence: u16,
    /// How many retrieval pointers are in use.
    pub pointers: u32,
    /// The name in the ident area.
    pub name: Name,
}

/// What an opened file says of itself.
#[derive(Clone, Copy, Debug, PartialEq, Eq)]
pub struct Attributes {
    pub blocks: u32,
    /// How many bytes lie before the end of file; all of them where the attributes give no end.
    pub end: u64,
    pub owner: u16,
    pub protection: u16,
    /// User flags, and 256 times the system flags.
    pub flags: u16,
    pub record_type: u8,
    pub record_attributes: u8,
    pub record_size: u16,
    /// F.HIBK.
    pub highest: u32,
    /// F.EFBK; 0 where the attributes give no end.
    pub end_block: u32,
    /// F.FFBY.
    pub first_free: u16,
}

/// Blocks in a row.
#[derive(Clone, Copy, Debug, PartialEq, Eq)]
pub struct Extent {
    pub lbn: u32,
    pub blocks: u32,
}

impl Extent {
    /// Its bytes in the image.
    ///
    /// # Panics
    ///
    /// If the image does not have the blocks; it has those of an extent that a call on it answered.
    pub fn bytes(self, image: &[u8]) -> &[u8] {
        let start = self.lbn as usize * BLOCK;
        &image[start..start + self.blocks as usize * BLOCK]
    }
}

/// The work areas of the verdict: a mark for each block, and one for each file number.
pub struct WorkAreas {
    pub blocks: Vec<u8>,
    pub headers: Vec<u8>,
}

impl WorkAreas {
    /// Areas that are long enough for every call on an image of this many bytes.
    pub fn for_length(image: usize) -> WorkAreas {
        WorkAreas {
            blocks: vec![0; image / BLOCK],
            headers: vec![0; MOST_NUMBERS],
        }
    }
}

#[cfg(test)]
mod tests {
    use super::*;

    #[test]
    fn an_id_is_read_as_it_is_written() {
        for id in [
            FileId::of(6, 9, 0),
            FileId::of(0, 65_535, 1),
            FileId::MASTER,
        ] {
            assert_eq!(id.to_string().parse(), Ok(id));
        }
        for text in [
            "",
            "6",
            "6,9",
            "6,9,0,0",
            "6,9,",
            ",9,0",
            "6,9,65536",
            "+6,9,0",
            " 6,9,0",
            "6;9;0",
        ] {
            assert_eq!(text.parse::<FileId>(), Err(NotAnId), "{text:?}");
        }
    }

    #[test]
    fn versions_of_one_name() {
        let name = Name([29001, 7160, 0, 6460, 1]);
        assert!(name.with_version(7).is_version_of(name));
        assert!(!Name([29001, 7160, 0, 6461, 1]).is_version_of(name));
    }
}
