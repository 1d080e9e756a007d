//! Sound volumes with many headers in use, for the verdict, for the calls that judge first and for free
//! runs.
//!
//! An index file of one header maps at most 113 pointers of 256 blocks, 28,928 blocks. Of these two
//! are the boot block and the home and 16 are the index map of H.FMAX 65,535, so that 28,910 numbers
//! have slots. The volumes here have such an index file; those of [`crate::hub`] have more headers in use.

use volumes::header::{pointers_of, Areas, Header, Pointer};
use volumes::shapes::{passed_over, MOST_BLOCKS, RL02_BLOCKS};
use volumes::volume::{File, Plan, Volume, FIRST_HEADERS, MAP_BITS};

/// What the files from number 6 on are to be.
#[derive(Clone, Copy)]
struct Files {
    /// The headers of each file.
    headers: u16,
    /// The pointers of each header, and the blocks of each pointer.
    pointers: u32,
    blocks: u32,
    /// The blocks that stay free after each pointer.
    gap: u32,
    /// The numbers that stay free after the last file.
    unused: u16,
}

/// Files of one header each, with a pointer of two blocks.
const SMALL_FILES: Files = Files {
    headers: 1,
    pointers: 1,
    blocks: 2,
    gap: 1,
    unused: 0,
};

/// A plan whose index file, from `start` on, has slots for the numbers up to `slots`; the storage
/// map file follows it.
fn plan(blocks: u32, home: u32, h_fmax: u16, start: u32, slots: u32) -> Plan {
    let m = u32::from(h_fmax).div_ceil(MAP_BITS);
    let end = start + m + slots;
    Plan {
        blocks,
        home,
        h_vlev: 257,
        h_fmax,
        h_iblb: start,
        more_slots: (start + m + FIRST_HEADERS..end).collect(),
        control: end,
        storage_map: end + 1,
    }
}

/// A volume with every number that has a slot in use, but for the last ones that are to stay free.
fn full_volume(plan: Plan, files: Files) -> Volume {
    let bad_blocks = pointers_of(&passed_over(plan.blocks, plan.home));
    let mut next = plan.storage_map + plan.storage_map_blocks();
    let image = vec![0; 512 * plan.blocks as usize];
    let mut volume = Volume::new(plan, image);
    volume.add_known(Areas::LARGEST, bad_blocks, vec![]);
    let last = volume.last_number() - files.unused;
    for first in (6..=last).step_by(files.headers.into()) {
        let numbers = first..=last.min(first + files.headers - 1);
        volume.add(File::chain(numbers.map(|number| {
            let pointers = (0..files.pointers).map(|_| {
                let lbn = next;
                next += files.blocks + files.gap;
                Pointer {
                    lbn,
                    blocks: files.blocks,
                }
            });
            Header::new(number, 7, pointers.collect())
        })));
    }
    assert!(next <= volume.plan.blocks, "the blocks are enough");
    volume.put_storage_map();
    volume
}

/// What the files of the RL02 disks have: two pointers of three blocks in each header.
const RL02_FILES: Files = Files {
    headers: 1,
    pointers: 2,
    blocks: 3,
    gap: 1,
    unused: 0,
};

/// An RL02 disk with 2,000 files of one header each.
pub fn rl02_of_files() -> Volume {
    full_volume(plan(RL02_BLOCKS, 1, 2_005, 2, 2_005), RL02_FILES)
}

/// An RL02 disk with 400 files of five headers each.
pub fn rl02_of_chains() -> Volume {
    let files = Files {
        headers: 5,
        ..RL02_FILES
    };
    full_volume(plan(RL02_BLOCKS, 1, 2_005, 2, 2_005), files)
}

/// An RL02 disk with 2,000 files, whose home is at position 512.
pub fn rl02_with_a_later_home() -> Volume {
    full_volume(plan(RL02_BLOCKS, 512, 2_005, 600, 2_005), RL02_FILES)
}

/// The largest volume, with as many headers as an index file of one header has slots for.
pub fn largest() -> Volume {
    full_volume(plan(MOST_BLOCKS, 1, 65_535, 2, 28_910), LARGEST_FILES)
}

/// What the files of the largest volume have: three pointers of ten blocks.
const LARGEST_FILES: Files = Files {
    headers: 1,
    pointers: 3,
    blocks: 10,
    gap: 1,
    unused: 0,
};

/// An RL02 disk with 2,000 files and 100 numbers more; its free blocks are in one piece.
pub fn rl02_with_room() -> Volume {
    let files = Files {
        gap: 0,
        unused: 100,
        ..RL02_FILES
    };
    full_volume(plan(RL02_BLOCKS, 1, 2_105, 2, 2_105), files)
}

/// An RL02 disk with 2,000 files and 100 numbers more; after each pointer a block is free.
pub fn rl02_with_broken_room() -> Volume {
    let files = Files {
        unused: 100,
        ..RL02_FILES
    };
    full_volume(plan(RL02_BLOCKS, 1, 2_105, 2, 2_105), files)
}

/// The largest volume, with 100 numbers less in use; after each pointer a block is free.
pub fn largest_with_room() -> Volume {
    let files = Files {
        unused: 100,
        ..LARGEST_FILES
    };
    full_volume(plan(MOST_BLOCKS, 1, 65_535, 2, 28_910), files)
}

/// The largest volume, with 500 files of 100 pointers of one block each; after each pointer a block
/// is free, and after the last all that are left.
pub fn largest_in_pieces() -> Volume {
    let files = Files {
        pointers: 100,
        blocks: 1,
        ..SMALL_FILES
    };
    full_volume(plan(MOST_BLOCKS, 1, 505, 2, 505), files)
}

/// A volume of N blocks with 4,096 headers.
pub fn of_blocks(blocks: u32) -> Volume {
    full_volume(plan(blocks, 1, 4_096, 2, 4_096), SMALL_FILES)
}

/// A volume of 262,144 blocks with so many headers, all that H.FMAX has.
pub fn of_h_fmax(h_fmax: u32) -> Volume {
    full_volume(plan(262_144, 1, h_fmax as u16, 2, h_fmax), SMALL_FILES)
}
