//! Flaws of MAP: "a map bit wrong, its bit number the place: below N set exactly if covered by none,
//! from N on clear".

use super::{add_header, add_pointer, free_lbns, free_run, still_sound, Flaw, Offenders};
use crate::block::{put_word, seal_home};
use crate::volume::{in_home, put_bit, Volume, MAP_BITS};
use model::Number;

/// A flaw of MAP.
fn flaw(
    name: impl Into<String>,
    edit: impl Fn(&mut Volume) -> Option<Offenders> + 'static,
) -> Flaw {
    Flaw::new(Number::Map, name, edit)
}

/// All flaws of MAP.
pub fn flaws() -> Vec<Flaw> {
    let mut all = bits();
    all.extend(many_bits());
    all.extend(covers());
    all
}

/// Turns a bit over, whatever it is.
fn turn(volume: &mut Volume, bit: u32) {
    volume.storage_map_mut()[(bit / 8) as usize] ^= 1 << (bit % 8);
}

/// A bit that is turned over.
type Bit = fn(&Volume) -> Option<u32>;

/// The last bit of the storage map, and one more.
fn end(volume: &Volume) -> u32 {
    MAP_BITS * volume.plan.storage_map_blocks()
}

/// Bits to turn over: of blocks that are covered, of those that are free, and from N on.
const BITS: &[(&str, Bit)] = &[
    ("of the boot block", |_| Some(0)),
    ("of block 1", |_| Some(1)),
    ("of the home", |volume| Some(volume.plan.home)),
    ("of slot 1", |volume| Some(volume.slot_of(1))),
    ("of the last slot", |volume| volume.index.last().copied()),
    ("of the control block", |volume| Some(volume.plan.control)),
    ("of the storage map", |volume| Some(volume.plan.storage_map)),
    ("of a file's first block", |volume| {
        volume.file(volume.roles.plain).lbns().first().copied()
    }),
    ("of a chain's last block", |volume| {
        volume.file(volume.roles.chained).lbns().last().copied()
    }),
    ("of the first free block", |volume| {
        free_lbns(volume).first().copied()
    }),
    ("of the last free block", |volume| {
        free_lbns(volume).last().copied()
    }),
    ("7", |_| Some(7)),
    ("8", |_| Some(8)),
    ("63", |_| Some(63)),
    ("64", |_| Some(64)),
    ("4,095", |_| Some(4_095)),
    ("4,096", |_| Some(4_096)),
    ("N-1", |volume| Some(volume.plan.blocks - 1)),
    ("N", |volume| Some(volume.plan.blocks)),
    ("N+1", |volume| Some(volume.plan.blocks + 1)),
    ("of the byte after N's", |volume| {
        Some((volume.plan.blocks / 8 + 1) * 8)
    }),
    ("of the last but one byte", |volume| Some(end(volume) - 9)),
    ("the last", |volume| Some(end(volume) - 1)),
];

/// One bit that is wrong.
fn bits() -> Vec<Flaw> {
    let mut all = Vec::new();
    for &(name, bit) in BITS {
        all.push(flaw(format!("bit {name}"), move |volume| {
            let bit = bit(volume).filter(|&bit| bit < end(volume))?;
            turn(volume, bit);
            Some(vec![bit])
        }));
    }
    all
}

/// Many bits that are wrong: the lowest is told.
fn many_bits() -> Vec<Flaw> {
    vec![
        flaw("two bits of free blocks", |volume| {
            let free = free_lbns(volume);
            let (first, last) = (*free.first()?, *free.last()?);
            turn(volume, first);
            turn(volume, last);
            Some(vec![last, first]).filter(|_| first != last)
        }),
        flaw("a free and a covered bit", |volume| {
            let free = *free_lbns(volume).last()?;
            let control = volume.plan.control;
            turn(volume, free);
            turn(volume, control);
            Some(vec![free, control])
        }),
        flaw("the last bit and that of a free block", |volume| {
            let free = *free_lbns(volume).last()?;
            let last = end(volume) - 1;
            turn(volume, free);
            turn(volume, last);
            Some(vec![free, last]).filter(|_| free != last)
        }),
        flaw("every bit from N on", |volume| {
            let from_n = volume.plan.blocks..end(volume);
            for bit in from_n.clone() {
                put_bit(volume.storage_map_mut(), bit, true);
            }
            Some(from_n.collect()).filter(|bits: &Vec<u32>| !bits.is_empty())
        }),
        flaw("every bit set", |volume| {
            volume.storage_map_mut().fill(0xff);
            Some(vec![0])
        }),
        flaw("every bit clear", |volume| {
            volume.storage_map_mut().fill(0);
            Some(free_lbns(volume)).filter(|free| !free.is_empty())
        }),
        flaw("every bit the other way round", |volume| {
            for byte in volume.storage_map_mut() {
                *byte = !*byte;
            }
            Some(vec![0])
        }),
        flaw("the first two blocks the other way round", |volume| {
            if volume.plan.storage_map_blocks() < 2 {
                return None;
            }
            let before = volume.storage_map_mut().to_vec();
            let (first, second) = volume.storage_map_mut()[..1_024].split_at_mut(512);
            first.swap_with_slice(second);
            let after = volume.storage_map_mut();
            let differs = |&bit: &u32| {
                let (byte, mask) = ((bit / 8) as usize, 1 << (bit % 8));
                (before[byte] ^ after[byte]) & mask != 0
            };
            let wrong: Vec<u32> = (0..2 * MAP_BITS).filter(differs).collect();
            Some(wrong).filter(|wrong| !wrong.is_empty())
        }),
    ]
}

/// Covers that change, and the map that does not.
fn covers() -> Vec<Flaw> {
    vec![
        flaw("a file is no more in use", |volume| {
            volume.put_in_use(volume.roles.plain, false);
            Some(volume.file(volume.roles.plain).lbns())
        }),
        flaw("a file is no more in use, and the map right", |volume| {
            let number = volume.roles.plain;
            volume.put_in_use(number, false);
            volume.files.retain(|file| file.number() != number);
            still_sound(volume)
        }),
        flaw("a chain is no more in use", |volume| {
            let file = volume.file(volume.roles.chained).clone();
            for header in &file.headers {
                volume.put_in_use(header.number, false);
            }
            Some(file.lbns())
        }),
        flaw("a file without blocks is no more in use", |volume| {
            volume.put_in_use(volume.roles.empty, false);
            Some(vec![])
        }),
        flaw("a pointer more", |volume| {
            let lbn = free_run(volume, 2)?;
            add_pointer(volume, volume.roles.plain, lbn, 2)?;
            Some(vec![lbn, lbn + 1])
        }),
        flaw("a pointer more in file 3", |volume| {
            let lbn = *free_lbns(volume).last()?;
            add_pointer(volume, 3, lbn, 1)?;
            Some(vec![lbn])
        }),
        flaw("a pointer less", |volume| {
            let number = volume.roles.plain;
            let last = *volume.header(number).pointers.last()?;
            volume.edit_header(number, |header| {
                header.pointers.pop();
            });
            Some(last.lbns().collect())
        }),
        flaw("a pointer one block shorter", |volume| {
            let number = volume.roles.plain;
            let header = volume.header(number);
            let place = header.pointers.iter().position(|it| it.blocks > 1)?;
            volume.edit_header(number, |header| header.pointers[place].blocks -= 1);
            let shorter = volume.header(number).pointers[place];
            Some(vec![shorter.lbn + shorter.blocks])
        }),
        flaw("a header more with a block", |volume| {
            let lbn = *free_lbns(volume).first()?;
            let number = add_header(volume, 1, 0)?;
            add_pointer(volume, number, lbn, 1)?;
            Some(vec![lbn])
        }),
        flaw("the last header is above H.FMAX", |volume| {
            let number = volume.headers().map(|header| header.number).max()?;
            let m = volume.plan.index_map_blocks();
            let h_fmax = number - 1;
            let file = volume.files.iter().find(|file| file.number() == number)?;
            let fits = h_fmax >= 16 && u32::from(h_fmax).div_ceil(MAP_BITS) == m;
            if file.headers.len() > 1 || !fits {
                return None;
            }
            let lbns = file.lbns();
            let home = volume.plan.home;
            put_word(volume.block_mut(home), in_home::H_FMAX, h_fmax);
            seal_home(volume.block_mut(home));
            Some(lbns)
        }),
        flaw("bytes of the control block", |volume| {
            let control = volume.plan.control;
            let block = volume.block_mut(control);
            for at in (0..512).filter(|&at| at != 3) {
                block[at] ^= 0xff;
            }
            Some(vec![])
        }),
        flaw("bytes of files and of free blocks", |volume| {
            let mut lbns = volume.file(volume.roles.chained).lbns();
            lbns.extend(volume.file(4).lbns());
            lbns.extend(free_lbns(volume));
            lbns.push(0);
            for lbn in lbns {
                volume.block_mut(lbn).fill(0x5a);
            }
            Some(vec![])
        }),
    ]
}
