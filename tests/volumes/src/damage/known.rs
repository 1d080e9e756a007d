//! Damages of the index file and of the storage map file, beyond those of any header.

use super::{one_index_header, Damage, Expected};
use crate::block::put_word;
use crate::damage::header::{put_link, Target};
use crate::header::{at, in_map, pointers_of, Areas, Header, Pointer, MOST_POINTERS};
use crate::volume::{Volume, FIRST_HEADERS};
use model::Number;

/// All damages of files 1 and 2.
pub fn damages() -> Vec<Damage> {
    let mut all = Vec::new();
    for (target, own) in [(Target::Index, 1), (Target::Storage, 2)] {
        all.extend(of_known_header(target, own));
    }
    all.extend(of_index_file());
    all.extend(of_storage_file());
    all.extend(of_control_block());
    all
}

/// ID, segment and extension of header 1 or 2.
fn of_known_header(target: Target, own: u16) -> Vec<Damage> {
    let mut all = Vec::new();
    for sequence in [0, 3 - own, own + 256, 65_535] {
        let name = format!("{}: H.FSEQ {sequence}", target.name());
        all.push(Damage::new(name, move |volume| {
            put_word(target.edit(volume).block, at::H_FSEQ, sequence);
            Some(target.not_whole(volume))
        }));
    }
    for segment in [1, 128, 255] {
        let name = format!("{}: segment {segment}", target.name());
        all.push(Damage::new(name, move |volume| {
            target.edit(volume).map_mut()[in_map::SEGMENT] = segment;
            Some(target.not_whole(volume))
        }));
    }
    all.push(Damage::new(
        format!("{}: a good link", target.name()),
        move |volume| {
            let extension = volume.file(volume.roles.chained).headers[1].clone();
            let mut edit = target.edit(volume);
            put_link(edit.map_mut(), extension.number, extension.sequence);
            if target != Target::Index {
                return Some(target.not_whole(volume));
            }
            // Paper 02, 9/14: "no longer for an extension as such".
            one_index_header(volume)?;
            Some(target.done(volume))
        },
    ));
    all.push(Damage::new(
        format!("{}: a link with sequence 0", target.name()),
        move |volume| {
            // To a number that no header has.
            let number = 256;
            if volume.headers().any(|header| header.number == number) {
                return None;
            }
            put_link(target.edit(volume).map_mut(), number, 0);
            Some(target.not_whole(volume))
        },
    ));
    for (name, at, bit) in [
        ("deaccess-locked", at::USER_FLAGS, 64),
        ("marked for delete", at::SYSTEM_FLAGS, 128),
    ] {
        let name = format!("{}: {name}, which opening does not ask", target.name());
        all.push(Damage::new(name, move |volume| {
            target.edit(volume).block[at] |= bit;
            Some(target.done(volume))
        }));
    }
    all
}

/// Puts the header of a known file with other pointers, in the largest map area. None if they are
/// too many.
fn put_pointers(volume: &mut Volume, number: u16, pointers: Vec<Pointer>) -> Option<()> {
    if pointers.len() > MOST_POINTERS {
        return None;
    }
    let header = Header {
        areas: Areas::LARGEST,
        ..Header::new(number, number, pointers)
    };
    let lbn = volume.slot_of(number);
    header.put_unsealed(volume.block_mut(lbn));
    Some(())
}

/// Another list of blocks for the index file, and what opening then answers. The list is given with
/// m, and may answer none where the damage does not apply.
fn index_lbns(
    name: &'static str,
    number: Number,
    edit: impl Fn(&mut Vec<u32>, usize) -> Option<()> + 'static,
) -> Damage {
    Damage::new(format!("index file: {name}"), move |volume| {
        let mut lbns = volume.index.clone();
        let m = volume.plan.index_map_blocks() as usize;
        edit(&mut lbns, m)?;
        put_pointers(volume, 1, pointers_of(&lbns))?;
        Some(Expected::Volume(number))
    })
}

/// The VBNs that must map to known blocks, with their names.
fn fixed_vbn(name: &'static str, place: fn(usize) -> usize) -> Damage {
    index_lbns(name, Number::Index, move |lbns, m| {
        let place = place(m);
        lbns[place] ^= 1;
        Some(())
    })
}

/// What the index file maps.
fn of_index_file() -> Vec<Damage> {
    let first_blocks = |m: usize| 2 + m + FIRST_HEADERS as usize;
    vec![
        fixed_vbn("VBN 1 is not LBN 0", |_| 0),
        fixed_vbn("VBN 2 is not the home", |_| 1),
        fixed_vbn("VBN 3 is not H.IBLB", |_| 2),
        fixed_vbn("VBN m+2 is another", |m| m + 1),
        fixed_vbn("VBN m+3 is another", |m| m + 2),
        fixed_vbn("VBN m+17 is another", |m| m + 16),
        fixed_vbn("VBN m+18 is another", |m| m + 17),
        index_lbns(
            "VBN 1 and 2 the other way round",
            Number::Index,
            |lbns, _| {
                lbns.swap(0, 1);
                Some(())
            },
        ),
        index_lbns(
            "slots 15 and 16 the other way round",
            Number::Index,
            |lbns, m| {
                lbns.swap(m + 16, m + 17);
                Some(())
            },
        ),
        index_lbns(
            "a block between the home and the map",
            Number::Index,
            |lbns, _| {
                lbns.insert(2, 0);
                Some(())
            },
        ),
        index_lbns("no block", Number::Index, |lbns, _| {
            lbns.clear();
            Some(())
        }),
        index_lbns("m+17 blocks", Number::Index, move |lbns, m| {
            lbns.truncate(first_blocks(m) - 1);
            Some(())
        }),
        index_lbns(
            "m+18 blocks, which is enough",
            Number::Done,
            move |lbns, m| {
                lbns.truncate(first_blocks(m));
                Some(())
            },
        ),
        index_lbns("the home twice", Number::Done, |lbns, _| {
            lbns.push(lbns[1]);
            Some(())
        }),
        index_lbns("a slot in the index map", Number::Done, |lbns, _| {
            lbns.push(lbns[2]);
            Some(())
        }),
        Damage::new("index file: header 1 in the place of header 2", |volume| {
            let lbn = volume.slot_of(1);
            let block = volume.block(lbn).to_vec();
            volume.block_mut(lbn + 1).copy_from_slice(&block);
            volume.block_mut(lbn).fill(0);
            Some(Expected::Volume(Number::Index))
        }),
        Damage::new("index file: headers 1 and 2 not in use", |volume| {
            volume.put_in_use(1, false);
            volume.put_in_use(2, false);
            Some(Expected::Volume(Number::Done))
        }),
    ]
}

/// Other pointers for the storage map file, by their blocks, and what opening then answers. The
/// first starts at the control block, the second at the bits, the others at LBN 0.
fn storage_pointers(
    name: &'static str,
    number: Number,
    blocks: impl Fn(u32) -> Option<Vec<u32>> + 'static,
) -> Damage {
    Damage::new(format!("storage map file: {name}"), move |volume| {
        let q = volume.plan.storage_map_blocks();
        let starts = [volume.plan.control, volume.plan.storage_map, 0, 0];
        let pointers: Vec<Pointer> = starts
            .into_iter()
            .zip(blocks(q)?)
            .map(|(lbn, blocks)| Pointer { lbn, blocks })
            .collect();
        let fits = pointers.iter().all(|pointer| {
            (1..=256).contains(&pointer.blocks)
                && pointer.lbn + pointer.blocks <= volume.plan.blocks
        });
        if !fits {
            return None;
        }
        put_pointers(volume, 2, pointers)?;
        Some(Expected::Volume(number))
    })
}

/// What the storage map file maps.
fn of_storage_file() -> Vec<Damage> {
    let wrong = Number::Storage;
    let right = Number::Done;
    vec![
        storage_pointers("no pointer", wrong, |_| Some(vec![])),
        storage_pointers("one pointer of q blocks", wrong, |q| Some(vec![q])),
        storage_pointers("one pointer of q+1 blocks", right, |q| Some(vec![q + 1])),
        storage_pointers("one pointer of q+2 blocks", wrong, |q| Some(vec![q + 2])),
        storage_pointers("1 and q blocks", right, |q| Some(vec![1, q])),
        storage_pointers("1 and q+1 blocks", wrong, |q| Some(vec![1, q + 1])),
        storage_pointers("1 and q-1 blocks", wrong, |q| Some(vec![1, q - 1])),
        storage_pointers("q and 1 blocks", wrong, |q| {
            Some(vec![q, 1]).filter(|_| q > 1)
        }),
        storage_pointers("2 and q-1 blocks", wrong, |q| {
            Some(vec![2, q - 1]).filter(|_| q > 1)
        }),
        storage_pointers("2 and q blocks", wrong, |q| Some(vec![2, q])),
        storage_pointers("1, q-1 and 1 blocks", wrong, |q| {
            Some(vec![1, q - 1, 1]).filter(|_| q > 1)
        }),
        storage_pointers("1, q and 1 blocks", wrong, |q| Some(vec![1, q, 1])),
        storage_pointers("q pointers of one block and one", wrong, |q| {
            Some(vec![1; q as usize + 1]).filter(|_| q == 2 || q == 3)
        }),
        Damage::new(
            "storage map file: bits and control block are one",
            |volume| {
                let q = volume.plan.storage_map_blocks();
                let lbn = volume.plan.control;
                if lbn + q > volume.plan.blocks {
                    return None;
                }
                let pointers = vec![Pointer { lbn, blocks: 1 }, Pointer { lbn, blocks: q }];
                put_pointers(volume, 2, pointers)?;
                Some(Expected::Volume(Number::Done))
            },
        ),
        Damage::new("storage map file: every bit set, past N too", |volume| {
            let q = volume.plan.storage_map_blocks();
            for lbn in volume.plan.storage_map..volume.plan.storage_map + q {
                volume.block_mut(lbn).fill(0xff);
            }
            Some(Expected::Volume(Number::Done))
        }),
    ]
}

/// The first block of the storage map file.
fn of_control_block() -> Vec<Damage> {
    let byte = |name: &'static str, byte: fn(u8) -> u8| {
        Damage::new(format!("control block: byte 3 {name}"), move |volume| {
            let q = volume.plan.storage_map_blocks() as u8;
            let control = volume.plan.control;
            volume.block_mut(control)[3] = byte(q);
            Some(Expected::Volume(Number::Storage))
        })
    };
    vec![
        byte("q+1", |q| q + 1),
        byte("q-1", |q| q - 1),
        byte("q with its highest bit set", |q| q | 0x80),
        byte("0", |_| 0),
        byte("255", |_| 255),
        Damage::new("control block: q one byte early, and late", |volume| {
            let q = volume.plan.storage_map_blocks() as u8;
            let control = volume.plan.control;
            volume.block_mut(control)[2..5].copy_from_slice(&[q, 0, q]);
            Some(Expected::Volume(Number::Storage))
        }),
        Damage::new("control block: all bytes but byte 3", |volume| {
            let control = volume.plan.control;
            let block = volume.block_mut(control);
            for at in (0..512).filter(|&at| at != 3) {
                block[at] ^= 0xff;
            }
            Some(Expected::Volume(Number::Done))
        }),
    ]
}
