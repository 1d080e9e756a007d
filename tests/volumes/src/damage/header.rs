//! Damages of a header, one or more for each of the twelve tests of "whole", in a header of each
//! kind.

use super::{one_index_header, Damage, Expected};
use crate::block::{add_to_word, put_word, CHECKSUM};
use crate::header::{at, in_map, Pointer};
use crate::volume::Volume;
use model::Number;

/// The header that a damage is aimed at.
#[derive(Clone, Copy, Debug, PartialEq, Eq)]
pub enum Target {
    /// Header 1.
    Index,
    /// The second header of an index file that has several.
    SecondIndex,
    /// The last header of an index file that has several.
    LastIndex,
    /// Header 2.
    Storage,
    /// Header 3.
    BadBlock,
    /// Header 4.
    Directory,
    /// The only header of the plain file.
    Plain,
    /// The first header of the chained file.
    First,
    /// The second header of the chained file.
    Second,
    /// The last header of the chained file.
    Last,
}

impl Target {
    /// The headers that opening a volume or a file reads.
    pub const OPENED: [Target; 6] = [
        Target::Index,
        Target::Storage,
        Target::Plain,
        Target::First,
        Target::Second,
        Target::Last,
    ];

    /// How a damage's name tells it.
    pub fn name(self) -> &'static str {
        match self {
            Target::Index => "header 1",
            Target::SecondIndex => "second index header",
            Target::LastIndex => "last index header",
            Target::Storage => "header 2",
            Target::BadBlock => "header 3",
            Target::Directory => "header 4",
            Target::Plain => "only header",
            Target::First => "first header",
            Target::Second => "second header",
            Target::Last => "last header",
        }
    }

    /// The header's file, by its number, and its place in the chain.
    fn place(self, volume: &Volume) -> (u16, usize) {
        let chained = volume.roles.chained;
        match self {
            Target::Index => (1, 0),
            Target::SecondIndex => (1, 1),
            Target::LastIndex => (1, volume.file(1).headers.len() - 1),
            Target::Storage => (2, 0),
            Target::BadBlock => (3, 0),
            Target::Directory => (4, 0),
            Target::Plain => (volume.roles.plain, 0),
            Target::First => (chained, 0),
            Target::Second => (chained, 1),
            Target::Last => (chained, volume.file(chained).headers.len() - 1),
        }
    }

    /// The header's number.
    pub fn number(self, volume: &Volume) -> u16 {
        let (file, place) = self.place(volume);
        volume.file(file).headers[place].number
    }

    /// The header's bytes and what is known of them.
    pub fn edit(self, volume: &mut Volume) -> HeaderEdit<'_> {
        let number = self.number(volume);
        let map = volume.header(number).map_area();
        let blocks = volume.plan.blocks;
        let lbn = volume.slot_of(number);
        HeaderEdit {
            block: volume.block_mut(lbn),
            map,
            blocks,
        }
    }

    /// What is answered where this header is not whole.
    pub fn not_whole(self, volume: &Volume) -> Expected {
        let (file, place) = self.place(volume);
        let id = volume.file(file).id();
        match (file, place) {
            (1, _) => Expected::Volume(Number::Index),
            (2, _) => Expected::Volume(Number::Storage),
            (_, 0) => Expected::File(id, Number::Header),
            _ => Expected::File(id, Number::Chain),
        }
    }

    /// What is answered where nothing is wrong with this header.
    pub fn done(self, volume: &Volume) -> Expected {
        let (file, _) = self.place(volume);
        match file {
            1 | 2 => Expected::Volume(Number::Done),
            _ => Expected::File(volume.file(file).id(), Number::Done),
        }
    }
}

/// A header's bytes, to be changed.
pub struct HeaderEdit<'v> {
    pub block: &'v mut [u8],
    /// Where its map area is.
    pub map: usize,
    /// N.
    pub blocks: u32,
}

impl HeaderEdit<'_> {
    /// The map area.
    pub fn map_mut(&mut self) -> &mut [u8] {
        &mut self.block[self.map..]
    }

    /// A byte of the map area.
    fn map_byte(&self, at: usize) -> u8 {
        self.block[self.map + at]
    }

    /// The most that M.MAX can be here.
    fn most_m_max(&self) -> u8 {
        (250 - self.map / 2) as u8
    }

    /// Adds a pointer after the last, with room for it. False if there is none.
    pub fn add_pointer(&mut self, pointer: Pointer) -> bool {
        let m_use = self.map_byte(in_map::M_USE);
        let most = self.most_m_max();
        if m_use.saturating_add(2) > most {
            return false;
        }
        let map = self.map_mut();
        map[in_map::M_USE] = m_use + 2;
        map[in_map::M_MAX] = most;
        let at = in_map::POINTERS + 2 * usize::from(m_use);
        map[at..at + 4].copy_from_slice(&pointer.bytes());
        true
    }

    /// Moves a pointer so that it ends at N. False if there is none at that place.
    fn move_pointer_to_n(&mut self, place: usize) -> bool {
        let pointers = usize::from(self.map_byte(in_map::M_USE)) / 2;
        let at = self.map + in_map::POINTERS + 4 * place;
        if place >= pointers || at + 4 > CHECKSUM {
            return false;
        }
        let count = u32::from(self.block[at + 1]);
        let Some(lbn) = self.blocks.checked_sub(count) else {
            return false;
        };
        let pointer = Pointer {
            lbn,
            blocks: count + 1,
        };
        self.block[at..at + 4].copy_from_slice(&pointer.bytes());
        true
    }
}

/// A change of a header.
#[derive(Clone, Copy)]
pub enum Change {
    /// It always applies.
    Put(fn(&mut HeaderEdit)),
    /// It applies to some headers, and answers whether it did.
    Try(fn(&mut HeaderEdit) -> bool),
}

use Change::{Put, Try};

impl Change {
    /// Changes a header, and answers whether it did.
    pub fn apply(self, edit: &mut HeaderEdit) -> bool {
        match self {
            Put(change) => {
                change(edit);
                true
            }
            Try(change) => change(edit),
        }
    }
}

/// Changes that leave the header not whole, by the test that they break.
pub const NOT_WHOLE: &[(&str, Change)] = &[
    ("2: H.FLEV 0", Put(|it| put_word(it.block, at::H_FLEV, 0))),
    (
        "2: H.FLEV 256",
        Put(|it| put_word(it.block, at::H_FLEV, 256)),
    ),
    (
        "2: H.FLEV 258",
        Put(|it| put_word(it.block, at::H_FLEV, 258)),
    ),
    ("2: H.FLEV 1", Put(|it| put_word(it.block, at::H_FLEV, 1))),
    (
        "3: H.FNUM one more",
        Put(|it| add_to_word(it.block, at::H_FNUM, 1)),
    ),
    (
        "3: H.FNUM one less",
        Put(|it| add_to_word(it.block, at::H_FNUM, 65_535)),
    ),
    (
        "3: H.FNUM 256 more",
        Put(|it| add_to_word(it.block, at::H_FNUM, 256)),
    ),
    ("4: H.IDOF 22", Put(|it| it.block[at::H_IDOF] = 22)),
    ("4: H.IDOF 0", Put(|it| it.block[at::H_IDOF] = 0)),
    (
        "5: H.IDOF one more than H.MPOF",
        Put(|it| it.block[at::H_IDOF] = it.block[at::H_MPOF].saturating_add(1)),
    ),
    ("5: H.IDOF 255", Put(|it| it.block[at::H_IDOF] = 255)),
    (
        "6: M.MAX one too large",
        Put(|it| put_m_max(it, it.most_m_max() + 1)),
    ),
    ("6: M.MAX 255", Put(|it| put_m_max(it, 255))),
    ("6: H.MPOF 251", Put(|it| it.block[at::H_MPOF] = 251)),
    ("6: H.MPOF 252", Put(|it| it.block[at::H_MPOF] = 252)),
    ("6: H.MPOF 255", Put(|it| it.block[at::H_MPOF] = 255)),
    (
        "7: M.USE odd",
        Try(|it| {
            let most = it.most_m_max();
            let m_use = it.map_byte(in_map::M_USE);
            if m_use >= most {
                return false;
            }
            put_m_max(it, most);
            it.map_mut()[in_map::M_USE] = m_use + 1;
            true
        }),
    ),
    (
        "7: M.USE one more than M.MAX",
        Try(|it| {
            let m_use = it.map_byte(in_map::M_USE);
            if m_use < 2 {
                return false;
            }
            put_m_max(it, m_use - 1);
            true
        }),
    ),
    (
        "7: M.USE two more than M.MAX",
        Try(|it| {
            let m_use = it.map_byte(in_map::M_USE);
            if m_use < 2 {
                return false;
            }
            put_m_max(it, m_use - 2);
            true
        }),
    ),
    ("7: M.USE 254", Put(|it| it.map_mut()[in_map::M_USE] = 254)),
    ("8: M.CTSZ 0", Put(|it| it.map_mut()[in_map::M_CTSZ] = 0)),
    ("8: M.CTSZ 2", Put(|it| it.map_mut()[in_map::M_CTSZ] = 2)),
    ("9: M.LBSZ 2", Put(|it| it.map_mut()[in_map::M_LBSZ] = 2)),
    ("9: M.LBSZ 4", Put(|it| it.map_mut()[in_map::M_LBSZ] = 4)),
    ("10: M.ERVN 1", Put(|it| it.map_mut()[in_map::M_ERVN] = 1)),
    (
        "10: M.ERVN 128",
        Put(|it| it.map_mut()[in_map::M_ERVN] = 128),
    ),
    (
        "11: M.EFSQ 1 without link",
        Put(|it| put_link(it.map_mut(), 0, 1)),
    ),
    (
        "11: M.EFSQ 256 without link",
        Put(|it| put_link(it.map_mut(), 0, 256)),
    ),
    (
        "12: a pointer more, at N",
        Try(|it| {
            it.add_pointer(Pointer {
                lbn: it.blocks,
                blocks: 1,
            })
        }),
    ),
    (
        "12: a pointer more, over N",
        Try(|it| {
            it.add_pointer(Pointer {
                lbn: it.blocks - 1,
                blocks: 2,
            })
        }),
    ),
    (
        "12: a pointer more, far beyond N",
        Try(|it| {
            it.add_pointer(Pointer {
                lbn: 0xff_ffff,
                blocks: 256,
            })
        }),
    ),
    (
        "12: first pointer ends at N",
        Try(|it| it.move_pointer_to_n(0)),
    ),
    (
        "12: second pointer ends at N",
        Try(|it| it.move_pointer_to_n(1)),
    ),
];

/// Changes that leave the header whole: the values next to those that do not.
pub const WHOLE: &[(&str, Change)] = &[
    ("H.IDOF 23", Put(|it| it.block[at::H_IDOF] = 23)),
    (
        "H.IDOF as H.MPOF",
        Put(|it| it.block[at::H_IDOF] = it.block[at::H_MPOF]),
    ),
    (
        "M.MAX as large as can be",
        Put(|it| put_m_max(it, it.most_m_max())),
    ),
    (
        "M.MAX as M.USE",
        Put(|it| put_m_max(it, it.map_byte(in_map::M_USE))),
    ),
    (
        "bytes 8 to 11 and 14 to 45",
        Try(|it| {
            it.block[8..12].fill(0xc3);
            it.block[14..46].fill(0xff);
            true
        }),
    ),
    (
        "words past M.USE",
        Try(|it| {
            let m_use = usize::from(it.map_byte(in_map::M_USE));
            let from = it.map + in_map::POINTERS + 2 * m_use;
            it.block[from.min(CHECKSUM)..CHECKSUM].fill(0xff);
            true
        }),
    ),
    (
        "user flags but 64",
        Put(|it| it.block[at::USER_FLAGS] = !64),
    ),
    (
        "system flags but 128",
        Put(|it| it.block[at::SYSTEM_FLAGS] = !128),
    ),
];

/// Changes that leave the header whole, and what its file opens as.
const POINTERS: &[(&str, Change)] = &[
    (
        "a pointer more, at N-1",
        Try(|it| {
            it.add_pointer(Pointer {
                lbn: it.blocks - 1,
                blocks: 1,
            })
        }),
    ),
    (
        "a pointer more, at LBN 0",
        Try(|it| it.add_pointer(Pointer { lbn: 0, blocks: 1 })),
    ),
    (
        "a pointer more, up to N-1",
        Try(|it| {
            let blocks = it.blocks.min(256);
            it.add_pointer(Pointer {
                lbn: it.blocks - blocks,
                blocks,
            })
        }),
    ),
];

/// Changes of the checksum.
pub const CHECKSUMS: &[(&str, Change)] = &[
    ("1: one more", Put(|it| add_to_word(it.block, CHECKSUM, 1))),
    (
        "1: one less",
        Put(|it| add_to_word(it.block, CHECKSUM, 65_535)),
    ),
    (
        "1: 256 more",
        Put(|it| add_to_word(it.block, CHECKSUM, 256)),
    ),
    ("1: a bit of word 254", Put(|it| it.block[508] ^= 1)),
    ("1: a bit of word 255", Put(|it| it.block[511] ^= 128)),
];

/// Puts M.MAX.
fn put_m_max(edit: &mut HeaderEdit, m_max: u8) {
    edit.map_mut()[in_map::M_MAX] = m_max;
}

/// Puts M.EFNU and M.EFSQ.
pub fn put_link(map: &mut [u8], number: u16, sequence: u16) {
    put_word(map, in_map::M_EFNU, number);
    put_word(map, in_map::M_EFSQ, sequence);
}

/// A damage of one target by one change.
fn of_target(
    target: Target,
    name: &str,
    change: Change,
    expected: fn(Target, &Volume) -> Expected,
) -> Damage {
    let name = format!("{}: {name}", target.name());
    Damage::new(name, move |volume| {
        let applies = change.apply(&mut target.edit(volume));
        applies.then(|| expected(target, volume))
    })
}

/// A damage of header 1 that moves what further headers of the index file map.
fn of_only_index_header(damage: Damage) -> Damage {
    Damage::new(damage.name, move |volume| {
        one_index_header(volume)?;
        (damage.edit)(volume)
    })
}

/// All damages of headers.
pub fn damages() -> Vec<Damage> {
    let mut all = Vec::new();
    for target in Target::OPENED {
        all.extend(of_one_header(target));
        all.extend(more_pointers(target));
    }
    all
}

/// All damages of a header but of what it maps.
pub fn of_one_header(target: Target) -> Vec<Damage> {
    let mut all = Vec::new();
    for (name, change) in NOT_WHOLE {
        all.push(of_target(target, name, *change, Target::not_whole));
    }
    for (name, change) in WHOLE {
        all.push(of_target(target, name, *change, Target::done));
    }
    for (name, change) in CHECKSUMS {
        let damage = of_target(target, name, *change, Target::not_whole);
        all.push(Damage {
            of_checksum: true,
            ..damage
        });
    }
    all
}

/// A pointer more in a header. What its file maps after it moves on, which matters to the index file
/// alone.
pub fn more_pointers(target: Target) -> Vec<Damage> {
    // Header 2 must map just the blocks that it maps.
    let expected = match target {
        Target::Storage => Target::not_whole,
        _ => Target::done,
    };
    let changes = POINTERS.iter();
    let damages = changes.map(|(name, change)| of_target(target, name, *change, expected));
    match target {
        Target::Index => damages.map(of_only_index_header).collect(),
        _ => damages.collect(),
    }
}
