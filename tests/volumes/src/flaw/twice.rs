//! Flaws of TWICE: "LBN covered by two places in pointers of headers in use".

use super::{
    add_header, add_pointer, free_lbns, free_run, last_index_header, still_sound, Flaw, Offenders,
    Which,
};
use crate::header::{Areas, Pointer, MOST_POINTERS};
use crate::volume::Volume;
use model::Number;

/// A flaw of TWICE.
fn flaw(
    name: impl Into<String>,
    edit: impl Fn(&mut Volume) -> Option<Offenders> + 'static,
) -> Flaw {
    Flaw::new(Number::Twice, name, edit)
}

/// All flaws of TWICE.
pub fn flaws() -> Vec<Flaw> {
    let mut all = over_others();
    all.extend(over_itself());
    all.extend(known_files());
    all.extend(several());
    all
}

/// A block that something has, to be covered again.
type Taken = fn(&Volume) -> Option<u32>;

/// The blocks of a volume that something has.
const TAKEN: &[(&str, Taken)] = &[
    ("the boot block", |_| Some(0)),
    ("the home", |volume| Some(volume.plan.home)),
    ("the index map", |volume| Some(volume.plan.h_iblb)),
    ("the index map's last block", |volume| {
        Some(volume.plan.h_iblb + volume.plan.index_map_blocks() - 1)
    }),
    ("slot 1", |volume| Some(volume.slot_of(1))),
    ("slot 16", |volume| Some(volume.slot_of(16))),
    ("an unused slot", |volume| {
        volume.unused_number().map(|number| volume.slot_of(number))
    }),
    ("the slot of a file", |volume| {
        Some(volume.slot_of(volume.roles.empty))
    }),
    ("the slot of an extension header", |volume| {
        let second = volume.file(volume.roles.chained).headers[1].number;
        Some(volume.slot_of(second))
    }),
    ("the last slot", |volume| volume.index.last().copied()),
    ("the control block", |volume| Some(volume.plan.control)),
    ("the storage map", |volume| Some(volume.plan.storage_map)),
    ("the storage map's last block", |volume| {
        Some(volume.plan.storage_map + volume.plan.storage_map_blocks() - 1)
    }),
    ("a bad block", |volume| {
        volume.file(3).lbns().first().copied()
    }),
    ("a directory block", |volume| {
        volume.file(4).lbns().first().copied()
    }),
    ("a block of the first header", |volume| {
        volume.file(volume.roles.chained).lbns().first().copied()
    }),
    ("a block of the last header", |volume| {
        volume.file(volume.roles.chained).lbns().last().copied()
    }),
    ("a block of the only header", |volume| {
        volume.file(volume.roles.plain).lbns().first().copied()
    }),
    ("the last block of the only header", |volume| {
        volume.file(volume.roles.plain).lbns().last().copied()
    }),
];

/// The headers that cover a block again, by their numbers.
const COVERING: &[(&str, Which)] = &[
    ("the only header", |volume| volume.roles.plain),
    ("the last header", |volume| {
        let chain = &volume.file(volume.roles.chained).headers;
        chain[chain.len() - 1].number
    }),
    ("file 3", |_| 3),
    ("file 5", |_| 5),
];

/// A block that something has, covered again by a file.
fn over_others() -> Vec<Flaw> {
    let mut all = Vec::new();
    for &(who, number) in COVERING {
        for &(what, taken) in TAKEN {
            all.push(flaw(format!("{who} covers {what}"), move |volume| {
                let lbn = taken(volume)?;
                add_pointer(volume, number(volume), lbn, 1)?;
                Some(vec![lbn])
            }));
        }
    }
    all
}

/// Covers of one header alone, and covers that lie side by side.
fn over_itself() -> Vec<Flaw> {
    vec![
        flaw("a pointer twice in one header", |volume| {
            let number = volume.roles.plain;
            let Pointer { lbn, blocks } = *volume.header(number).pointers.first()?;
            add_pointer(volume, number, lbn, blocks)?;
            Some((lbn..lbn + blocks).collect())
        }),
        flaw("a free block twice in one header", |volume| {
            let lbn = *free_lbns(volume).last()?;
            let number = volume.roles.empty;
            add_pointer(volume, number, lbn, 1)?;
            add_pointer(volume, number, lbn, 1)?;
            Some(vec![lbn])
        }),
        flaw("a free block three times", |volume| {
            let lbn = *free_lbns(volume).first()?;
            for number in [volume.roles.empty, volume.roles.plain, 5] {
                add_pointer(volume, number, lbn, 1)?;
            }
            Some(vec![lbn])
        }),
        flaw("a free block in every place of a header", |volume| {
            let lbn = *free_lbns(volume).first()?;
            for _ in 0..MOST_POINTERS {
                add_pointer(volume, volume.roles.empty, lbn, 1)?;
            }
            Some(vec![lbn])
        }),
        flaw("the last block of the volume twice", |volume| {
            let lbn = volume.plan.blocks - 1;
            if volume.covered()[lbn as usize] {
                return None;
            }
            add_pointer(volume, volume.roles.empty, lbn, 1)?;
            add_pointer(volume, volume.roles.plain, lbn, 1)?;
            Some(vec![lbn])
        }),
        flaw("two pointers overlap by a block", |volume| {
            let lbn = free_run(volume, 3)?;
            add_pointer(volume, volume.roles.empty, lbn, 2)?;
            add_pointer(volume, volume.roles.plain, lbn + 1, 2)?;
            Some(vec![lbn + 1])
        }),
        flaw("two pointers side by side", |volume| {
            let lbn = free_run(volume, 4)?;
            add_pointer(volume, volume.roles.empty, lbn, 2)?;
            add_pointer(volume, volume.roles.plain, lbn + 2, 2)?;
            still_sound(volume)
        }),
        flaw("a pointer more, of every free block in a row", |volume| {
            let free = free_lbns(volume);
            let lbn = *free.first()?;
            let row = free
                .iter()
                .zip(lbn..)
                .take_while(|(&free, lbn)| free == *lbn);
            let blocks = row.count().min(256) as u32;
            add_pointer(volume, volume.roles.plain, lbn, blocks)?;
            still_sound(volume)
        }),
        flaw("a header more, over the boot block", |volume| {
            let number = add_header(volume, 7, 0)?;
            add_pointer(volume, number, 0, 1)?;
            Some(vec![0])
        }),
        flaw("a header not in use, over the boot block", |volume| {
            let number = add_header(volume, 7, 0)?;
            add_pointer(volume, number, 0, 1)?;
            volume.put_in_use(number, false);
            volume.files.pop();
            still_sound(volume)
        }),
    ]
}

/// Files 1 and 2 over themselves, which opening lets pass.
fn known_files() -> Vec<Flaw> {
    vec![
        flaw("the index file has the home twice", |volume| {
            let home = volume.plan.home;
            add_pointer(volume, last_index_header(volume), home, 1)?;
            Some(vec![home])
        }),
        flaw("the index file has the index map as a slot", |volume| {
            let lbn = volume.plan.h_iblb;
            add_pointer(volume, last_index_header(volume), lbn, 1)?;
            Some(vec![lbn])
        }),
        flaw("the index file has a slot twice", |volume| {
            let lbn = volume.slot_of(16);
            add_pointer(volume, last_index_header(volume), lbn, 1)?;
            Some(vec![lbn])
        }),
        flaw("the index file has a block of a file", |volume| {
            let lbn = *volume.file(volume.roles.plain).lbns().first()?;
            add_pointer(volume, last_index_header(volume), lbn, 1)?;
            Some(vec![lbn])
        }),
        flaw("the index file has a free block more", |volume| {
            let lbn = *free_lbns(volume).first()?;
            add_pointer(volume, last_index_header(volume), lbn, 1)?;
            still_sound(volume)
        }),
        flaw("bits and control block are one", |volume| {
            let q = volume.plan.storage_map_blocks();
            let lbn = volume.plan.control;
            if lbn + q > volume.plan.blocks {
                return None;
            }
            volume.edit_header(2, |header| {
                header.pointers = vec![Pointer { lbn, blocks: 1 }, Pointer { lbn, blocks: q }];
                header.areas = Areas::LARGEST;
            });
            Some(vec![lbn])
        }),
    ]
}

/// Several offenders at once: the lowest is told.
fn several() -> Vec<Flaw> {
    vec![
        flaw("the home and the control block", |volume| {
            let lbns = [volume.plan.home, volume.plan.control];
            for lbn in lbns {
                add_pointer(volume, volume.roles.plain, lbn, 1)?;
            }
            Some(lbns.to_vec())
        }),
        flaw("the first and the last block that files have", |volume| {
            let lbns: Vec<u32> = volume.file(volume.roles.chained).lbns();
            let lbns = [*lbns.iter().min()?, *lbns.iter().max()?];
            add_pointer(volume, volume.roles.plain, lbns[1], 1)?;
            add_pointer(volume, volume.roles.empty, lbns[0], 1)?;
            Some(lbns.to_vec())
        }),
        flaw("a pointer over the first blocks", |volume| {
            let blocks = volume.plan.blocks.min(256);
            add_pointer(volume, volume.roles.plain, 0, blocks)?;
            Some(vec![0])
        }),
        flaw("a pointer over the blocks after the home", |volume| {
            let covered = volume.covered();
            let first = volume.plan.home + 1;
            let blocks = (volume.plan.blocks - first).min(256);
            let lbns = (first..first + blocks).filter(|&lbn| covered[lbn as usize]);
            let lbns: Vec<u32> = lbns.collect();
            add_pointer(volume, volume.roles.plain, first, blocks)?;
            Some(lbns).filter(|lbns| !lbns.is_empty())
        }),
        flaw("a pointer over the last blocks", |volume| {
            let covered = volume.covered();
            let blocks = volume.plan.blocks.min(256);
            let first = volume.plan.blocks - blocks;
            let lbns = (first..first + blocks).filter(|&lbn| covered[lbn as usize]);
            let lbns: Vec<u32> = lbns.collect();
            add_pointer(volume, volume.roles.plain, first, blocks)?;
            Some(lbns).filter(|lbns| !lbns.is_empty())
        }),
    ]
}
