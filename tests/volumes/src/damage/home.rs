//! Damages of the home block, and of what the geometry says.

use super::{Damage, Expected};
use crate::block::{add_to_word, put_long, put_word, seal_header, CHECKSUM, CHECKSUM_1};
use crate::shapes::home_positions;
use crate::volume::in_home::{H_FMAX, H_IBLB, H_IBSZ, H_INDF, H_SBCL, H_VLEV};
use crate::volume::{Plan, Volume, FIRST_HEADERS};
use model::Number;

/// A damage of the home block's bytes, and what opening then answers.
fn of_home(
    name: impl Into<String>,
    number: Number,
    edit: impl Fn(&mut [u8], &Plan) + 'static,
) -> Damage {
    Damage::new(name, move |volume| {
        let plan = volume.plan.clone();
        edit(volume.block_mut(plan.home), &plan);
        Some(Expected::Volume(number))
    })
}

/// A word of the home block that is not what it must be.
fn wrong_word(field: &'static str, at: usize, word: u16) -> Damage {
    let name = format!("home: {field} {word}");
    of_home(name, Number::Home, move |block, _| {
        put_word(block, at, word)
    })
}

/// All damages of home block and geometry.
pub fn damages() -> Vec<Damage> {
    let mut all = fields();
    all.extend(checksums());
    all.extend(positions());
    all.extend(geometry());
    all
}

/// Fields of the home block that make it none, and some that do not.
fn fields() -> Vec<Damage> {
    let mut all = vec![
        wrong_word("H.IBSZ", H_IBSZ, 0),
        wrong_word("H.FMAX", H_FMAX, 0),
        of_home("home: H.IBLB 0", Number::Home, |block, _| {
            put_long(block, H_IBLB, 0);
        }),
    ];
    for value in [0, 2, 256, 257, 65_535] {
        all.push(wrong_word("H.SBCL", H_SBCL, value));
    }
    for value in [0, 1, 256, 259, 513, 514, 65_535] {
        all.push(wrong_word("H.VLEV", H_VLEV, value));
    }
    for byte in 0..12 {
        let name = format!("home: H.INDF byte {byte}");
        all.push(of_home(name, Number::Home, move |block, _| {
            block[H_INDF + byte] ^= 0x20;
        }));
    }
    for value in [257, 258] {
        let name = format!("home: H.VLEV {value}, which is right");
        all.push(of_home(name, Number::Done, move |block, _| {
            put_word(block, H_VLEV, value);
        }));
    }
    all.push(of_home(
        "home: bytes that nothing is said of",
        Number::Done,
        |block, _| {
            block[10] ^= 0xff;
            block[14..58].fill(0x5a);
            block[60..496].fill(0xa5);
            block[508..510].fill(0xff);
        },
    ));
    all
}

/// Checksums of the home block: one of them right is not enough.
fn checksums() -> Vec<Damage> {
    let wrong = |name: &'static str, edit: fn(&mut [u8])| {
        Damage::of_checksum(name, move |volume| {
            let home = volume.plan.home;
            edit(volume.block_mut(home));
            Some(Expected::Volume(Number::Home))
        })
    };
    let second = wrong("home: second checksum one too large", |block| {
        add_to_word(block, CHECKSUM, 1);
    });
    let first = wrong("home: only the second checksum right", |block| {
        add_to_word(block, CHECKSUM_1, 1);
        seal_header(block);
    });
    let high = wrong("home: high byte of the second checksum", |block| {
        block[CHECKSUM + 1] ^= 0x80;
    });
    let high_first = wrong("home: high byte of the first checksum", |block| {
        block[CHECKSUM_1 + 1] ^= 0x80;
        seal_header(block);
    });
    vec![second, first, high, high_first]
}

/// Copies the home block to another place.
fn copy_home(volume: &mut Volume, to: u32) {
    let block = volume.block(volume.plan.home).to_vec();
    volume.block_mut(to).copy_from_slice(&block);
}

/// Whether a block may be overwritten without touching what opening reads.
fn is_spare(volume: &Volume, lbn: u32) -> bool {
    let storage = volume.plan.storage_lbns();
    lbn < volume.plan.blocks && !volume.index.contains(&lbn) && !storage.contains(&lbn)
}

/// A home block more, less, or elsewhere.
fn positions() -> Vec<Damage> {
    let mut all = vec![
        Damage::new("home: a home at the first position too", |volume| {
            // The first home counts, and VBN 2 of the index file is not that one.
            if volume.plan.home == 1 || !is_spare(volume, 1) {
                return None;
            }
            copy_home(volume, 1);
            Some(Expected::Volume(Number::Index))
        }),
        Damage::new("home: almost a home at the first position", |volume| {
            if volume.plan.home == 1 || !is_spare(volume, 1) {
                return None;
            }
            copy_home(volume, 1);
            volume.block_mut(1)[H_INDF] = b'd';
            seal_header(volume.block_mut(1));
            Some(Expected::Volume(Number::Done))
        }),
        Damage::new("home: a home at a later position too", |volume| {
            let home = volume.plan.home;
            let later = home_positions(volume.plan.blocks)
                .into_iter()
                .find(|&lbn| lbn > home && is_spare(volume, lbn))?;
            copy_home(volume, later);
            Some(Expected::Volume(Number::Done))
        }),
        Damage::new("home: only a later one, which VBN 2 is not", |volume| {
            let home = volume.plan.home;
            let later = home_positions(volume.plan.blocks)
                .into_iter()
                .find(|&lbn| lbn > home && is_spare(volume, lbn))?;
            copy_home(volume, later);
            volume.block_mut(home).fill(0);
            // A block of zeros has right checksums, and is no home.
            Some(Expected::Volume(Number::Index))
        }),
        Damage::new("home: none", |volume| {
            let home = volume.plan.home;
            volume.block_mut(home).fill(0);
            Some(Expected::Volume(Number::Home))
        }),
    ];
    for lbn in [0, 2, 3, 128, 255, 257, 511, 513] {
        let name = format!("home: only at LBN {lbn}, which is no position");
        all.push(Damage::new(name, move |volume| {
            if lbn != 0 && !is_spare(volume, lbn) {
                return None;
            }
            copy_home(volume, lbn);
            let home = volume.plan.home;
            volume.block_mut(home).fill(0);
            Some(Expected::Volume(Number::Home))
        }));
    }
    all
}

/// A value of H.IBLB, and what opening then answers.
fn h_iblb(name: &'static str, number: Number, value: fn(&Plan) -> Option<u32>) -> Damage {
    Damage::new(format!("geometry: H.IBLB {name}"), move |volume| {
        let plan = volume.plan.clone();
        let value = value(&plan).filter(|&value| value != plan.h_iblb)?;
        put_long(volume.block_mut(plan.home), H_IBLB, value);
        Some(Expected::Volume(number))
    })
}

/// What the index file needs after H.IBLB: m blocks of the map and 16 slots.
fn needed(plan: &Plan) -> u32 {
    plan.index_map_blocks() + FIRST_HEADERS
}

/// Values that are no geometry, and those next to them.
fn geometry() -> Vec<Damage> {
    let mut all = vec![
        of_home("geometry: H.FMAX 15", Number::Geometry, |block, _| {
            put_word(block, H_IBSZ, 1);
            put_word(block, H_FMAX, 15);
        }),
        of_home("geometry: H.FMAX 1", Number::Geometry, |block, _| {
            put_word(block, H_IBSZ, 1);
            put_word(block, H_FMAX, 1);
        }),
        of_home("geometry: H.IBSZ m+1", Number::Geometry, |block, plan| {
            put_word(block, H_IBSZ, plan.index_map_blocks() as u16 + 1);
        }),
        of_home("geometry: H.IBSZ m+256", Number::Geometry, |block, plan| {
            put_word(block, H_IBSZ, plan.index_map_blocks() as u16 + 256);
        }),
        Damage::new("geometry: H.IBSZ m-1", |volume| {
            let plan = volume.plan.clone();
            let less = plan.index_map_blocks() as u16 - 1;
            put_word(volume.block_mut(plan.home), H_IBSZ, less);
            let number = if less == 0 {
                Number::Home
            } else {
                Number::Geometry
            };
            Some(Expected::Volume(number))
        }),
        Damage::new(
            "geometry: H.FMAX one more than the map has bits",
            |volume| {
                let plan = volume.plan.clone();
                let more = u16::try_from(4_096 * plan.index_map_blocks() + 1).ok()?;
                put_word(volume.block_mut(plan.home), H_FMAX, more);
                Some(Expected::Volume(Number::Geometry))
            },
        ),
        Damage::new("geometry: H.FMAX as many as the map has bits", |volume| {
            let plan = volume.plan.clone();
            let most = u16::try_from(4_096 * plan.index_map_blocks()).ok()?;
            put_word(volume.block_mut(plan.home), H_FMAX, most);
            Some(Expected::Volume(Number::Done))
        }),
        Damage::new(
            "geometry: H.FMAX fewer than the map has blocks for",
            |volume| {
                let plan = volume.plan.clone();
                let fewer = 4_096 * (plan.index_map_blocks() as u16 - 1);
                put_word(volume.block_mut(plan.home), H_FMAX, fewer);
                let number = if fewer == 0 {
                    Number::Home
                } else {
                    Number::Geometry
                };
                Some(Expected::Volume(number))
            },
        ),
    ];
    all.extend([
        h_iblb("one too high", Number::Geometry, |plan| {
            Some(plan.blocks + 1 - needed(plan))
        }),
        h_iblb(
            "as high as can be, without a header",
            Number::Index,
            |plan| Some(plan.blocks - needed(plan)),
        ),
        h_iblb("one further", Number::Index, |plan| {
            Some(plan.h_iblb + 1).filter(|value| value + needed(plan) <= plan.blocks)
        }),
        h_iblb("N", Number::Geometry, |plan| Some(plan.blocks)),
        h_iblb("N-1", Number::Geometry, |plan| Some(plan.blocks - 1)),
        h_iblb("65,536 more", Number::Geometry, |plan| {
            Some(plan.h_iblb + 65_536).filter(|value| value + needed(plan) > plan.blocks)
        }),
        h_iblb("low word first", Number::Geometry, |plan| {
            Some(plan.h_iblb.rotate_left(16)).filter(|value| value + needed(plan) > plan.blocks)
        }),
        h_iblb("2^31", Number::Geometry, |_| Some(1 << 31)),
        h_iblb("2^32-1", Number::Geometry, |_| Some(u32::MAX)),
        h_iblb("2^32-16", Number::Geometry, |_| Some(u32::MAX - 15)),
        h_iblb("2^32-m-16", Number::Geometry, |plan| {
            Some(0u32.wrapping_sub(needed(plan)))
        }),
        h_iblb("2^32-m-16+its place", Number::Geometry, |plan| {
            Some(plan.h_iblb.wrapping_sub(needed(plan))).filter(|&value| value > plan.blocks)
        }),
        h_iblb("2^32-m", Number::Geometry, |plan| {
            Some(0u32.wrapping_sub(plan.index_map_blocks()))
        }),
    ]);
    all
}
