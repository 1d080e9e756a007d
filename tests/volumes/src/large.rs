//! Sound volumes of many blocks: maps of 126, 255 and 16 blocks, a home at the last position with
//! 4,079 passed over, and a bad block file of 37 headers.

use crate::facts::{End, Facts};
use crate::header::{pointers_of, Areas, Header, Pointer, MOST_POINTERS};
use crate::shapes::{bad_block_shares, MOST_BLOCKS};
use crate::station::LABEL;
use crate::volume::{File, Plan, Volume};

/// The 255 blocks after each of some home positions, which are `count` in a row from the `first`.
fn between_positions(first: u32, count: u32) -> Vec<u32> {
    let positions = (first..first + count).map(|number| 256 * number);
    positions.flat_map(|it| it + 1..it + 256).collect()
}

/// The largest volume: the home is at the last position, and the index file ends at N.
pub fn largest_plan() -> Plan {
    Plan {
        blocks: MOST_BLOCKS,
        home: 1_044_224,
        h_vlev: 258,
        h_fmax: 65_535,
        h_iblb: MOST_BLOCKS - 32,
        more_slots: between_positions(2_000, 78),
        control: 257_000,
        storage_map: 256_001,
    }
}

/// A volume of 254 map blocks and one bit: 4,095 bits of the last block are past N.
pub fn plan_of_one_bit_more() -> Plan {
    Plan {
        blocks: 254 * 4_096 + 1,
        home: 1,
        h_vlev: 257,
        h_fmax: 4_097,
        h_iblb: 65_530,
        more_slots: (400_000..404_081).collect(),
        control: 1_040_384,
        storage_map: 131_071,
    }
}

/// The volume whose storage map has 126 blocks, all of them full.
pub fn plan_of_516_096() -> Plan {
    Plan {
        blocks: 516_096,
        home: 512,
        h_vlev: 257,
        h_fmax: 8_193,
        h_iblb: 65_540,
        more_slots: (400_000..404_081).collect(),
        control: 131_070,
        storage_map: 131_071,
    }
}

/// The numbers of the file whose blocks are high, of two headers that nobody links, and the first of
/// those that file 3 goes on in.
pub const HIGH_FILE: u16 = 4_095;
pub const OTHERS: [u16; 2] = [4_096, 4_097];
const BAD_BLOCKS: u16 = 3_000;

/// What the file whose blocks are high says: it ends in its last block but one.
pub const HIGH_FACTS: Facts = Facts {
    owner: 0x0107,
    protection: 0xe000,
    record_type: 2,
    record_attributes: 8,
    record_size: 80,
    highest: 0x0102_639c,
    end: End {
        block: 25_499,
        first_free: 257,
        bytes: 25_498 * 512 + 257,
    },
    name: [1, 2, 3, 4, 5],
};

/// File 3 with the home positions passed over, in as many headers as they need.
fn bad_block_file(plan: &Plan) -> File {
    let names = (1..).map(|place| (BAD_BLOCKS + place, 9));
    let names = std::iter::once((3, 3)).chain(names);
    File::chain(
        names
            .zip(bad_block_shares(plan))
            .map(|(name, pointers)| Header {
                areas: Areas::LARGEST,
                ..Header::new(name.0, name.1, pointers)
            }),
    )
}

/// A sound volume of many blocks.
pub fn large_volume(plan: Plan) -> Volume {
    let index = pointers_of(&plan.index_lbns());
    let storage = pointers_of(&plan.storage_lbns());
    let bad_blocks = bad_block_file(&plan);
    let image = vec![0; 512 * plan.blocks as usize];
    let mut volume = Volume::new(plan, image);
    volume.add(bad_blocks);
    let high = |number: u32| Pointer {
        lbn: 256 * number + 1,
        blocks: 255,
    };
    let last = volume.last_number();
    volume.put_label(LABEL);
    for header in [
        Header {
            areas: Areas::LARGEST,
            ..Header::new(1, 1, index)
        },
        Header::new(2, 2, storage),
        Header::new(4, 4, vec![high(700)]),
        Header::new(5, 5, vec![]),
        Header {
            facts: Some(HIGH_FACTS),
            ..Header::new(HIGH_FILE, 65_535, (800..900).map(high).collect())
        },
        Header::new(OTHERS[0], 1, vec![]),
        Header::new(OTHERS[1].min(last), 0, vec![high(1_800)]),
    ] {
        volume.add(File::of(header));
    }
    volume.put_storage_map();
    volume
}

/// The first of the numbers of the files that fill a volume.
const FILLERS: u16 = 2_000;

/// Gives files with numbers from 2,000 on all free blocks but those from `first` to `last`.
pub fn fill_but(volume: &mut Volume, first: u32, last: u32) {
    let blocks = (0..).zip(volume.covered());
    let free = blocks.filter(|&(lbn, covered)| !covered && !(first..=last).contains(&lbn));
    let lbns: Vec<u32> = free.map(|(lbn, _)| lbn).collect();
    let pointers = pointers_of(&lbns);
    for (number, pointers) in (FILLERS..).zip(pointers.chunks(MOST_POINTERS)) {
        let header = Header {
            areas: Areas::LARGEST,
            ..Header::new(number, 1, pointers.to_vec())
        };
        volume.add(File::of(header));
    }
    volume.put_storage_map();
}
