//! Flaws of FILES: "number n, at most H.FMAX: n ≤ 5 not in use, or with sequence not n or segment
//! not 0; or n in use without slot or not whole".

use super::{add_header, break_header, still_sound, Flaw, Offenders};
use crate::block::seal_header;
use crate::damage::header::{Change, Target, CHECKSUMS, NOT_WHOLE, WHOLE};
use crate::header::{pointers_of, Areas, Header, Pointer};
use crate::volume::{put_bit, Volume, MAP_BITS};
use model::Number;

/// A flaw of FILES.
fn flaw(
    name: impl Into<String>,
    edit: impl Fn(&mut Volume) -> Option<Offenders> + 'static,
) -> Flaw {
    Flaw::new(Number::Files, name, edit)
}

/// All flaws of FILES.
pub fn flaws() -> Vec<Flaw> {
    let mut all = known();
    all.extend(whole());
    all.extend(unused());
    all.extend(slots());
    all.extend(several());
    all
}

/// The known files: in use, with their own numbers as sequence, and segment 0. Opening has seen to
/// the sequence and segment of headers 1 and 2.
fn known() -> Vec<Flaw> {
    let mut all = Vec::new();
    for n in 1..=5 {
        all.push(flaw(format!("{n} not in use"), move |volume| {
            volume.put_in_use(n, false);
            Some(vec![n.into()])
        }));
    }
    for n in 3..=5 {
        for sequence in [0, n - 1, n + 1, n + 256, 65_535] {
            let name = format!("{n} with sequence {sequence}");
            all.push(flaw(name, move |volume| {
                volume.edit_header(n, |header| header.sequence = sequence);
                Some(vec![n.into()])
            }));
        }
        for segment in [1, 2, 128, 255] {
            let name = format!("{n} with segment {segment}");
            all.push(flaw(name, move |volume| {
                volume.edit_header(n, |header| header.segment = segment);
                Some(vec![n.into()])
            }));
        }
    }
    all.push(flaw("any sequence above 5", |volume| {
        for number in [volume.roles.plain, volume.roles.chained] {
            volume.edit_header(number, |header| header.sequence ^= 0x8001);
        }
        still_sound(volume)
    }));
    all.push(flaw("flags are not asked", |volume| {
        let numbers: Vec<u16> = volume.headers().map(|header| header.number).collect();
        for number in numbers {
            volume.edit_header(number, |header| {
                header.user_flags = 0xff;
                header.system_flags = 0xff;
            });
        }
        still_sound(volume)
    }));
    all
}

/// A change of a header's bytes; the checksum is put right, or left.
fn of_header(target: Target, name: &str, change: Change, sealed: bool, offends: bool) -> Flaw {
    let name = format!("{}, {name}", target.name());
    flaw(name, move |volume| {
        let mut edit = target.edit(volume);
        if !change.apply(&mut edit) {
            return None;
        }
        if sealed {
            seal_header(edit.block);
        }
        let number = u32::from(target.number(volume));
        Some(vec![number].into_iter().filter(|_| offends).collect())
    })
}

/// Each of the twelve tests of "whole", in headers that opening the volume does not read; and
/// changes next to them in every header.
fn whole() -> Vec<Flaw> {
    let judged = [
        Target::BadBlock,
        Target::Directory,
        Target::Plain,
        Target::First,
        Target::Second,
        Target::Last,
    ];
    let mut all = Vec::new();
    for target in judged {
        for &(name, change) in NOT_WHOLE {
            all.push(of_header(target, name, change, true, true));
        }
        for &(name, change) in CHECKSUMS {
            all.push(of_header(target, name, change, false, true));
        }
    }
    for target in [Target::Index, Target::Storage].into_iter().chain(judged) {
        for &(name, change) in WHOLE {
            all.push(of_header(target, name, change, true, false));
        }
    }
    all
}

/// Numbers that are not in use, and bits that are none.
fn unused() -> Vec<Flaw> {
    vec![
        flaw("put in use, with a slot of zeros", |volume| {
            let number = volume.unused_number()?;
            let lbn = volume.slot_of(number);
            volume.block_mut(lbn).fill(0);
            volume.put_in_use(number, true);
            Some(vec![number.into()])
        }),
        flaw("put in use, with the header of another", |volume| {
            let number = volume.unused_number()?;
            let plain = volume.block(volume.slot_of(volume.roles.plain)).to_vec();
            let lbn = volume.slot_of(number);
            volume.block_mut(lbn).copy_from_slice(&plain);
            volume.put_in_use(number, true);
            Some(vec![number.into()])
        }),
        flaw("put in use, with a whole header", |volume| {
            add_header(volume, 7, 0)?;
            still_sound(volume)
        }),
        flaw("not in use, with a slot of ones", |volume| {
            let number = volume.unused_number()?;
            let lbn = volume.slot_of(number);
            volume.block_mut(lbn).fill(0xff);
            still_sound(volume)
        }),
        flaw("not in use, with a header over other files", |volume| {
            let number = volume.unused_number()?;
            let all = Pointer {
                lbn: 0,
                blocks: volume.plan.blocks.min(256),
            };
            let header = Header {
                segment: 3,
                link: (volume.roles.chained, 1),
                ..Header::new(number, 7, vec![all; 4])
            };
            volume.put_header(&header);
            still_sound(volume)
        }),
        flaw("bits of the index map from H.FMAX on", |volume| {
            let map = volume.plan.h_iblb as usize * 512;
            let bits = volume.plan.index_map_blocks() * MAP_BITS;
            for bit in u32::from(volume.plan.h_fmax)..bits {
                put_bit(&mut volume.image[map..], bit, true);
            }
            still_sound(volume)
        }),
        flaw("a header above H.FMAX, with slot and bit", |volume| {
            let number = volume.plan.h_fmax.checked_add(1)?;
            let lbn = volume.slot(number)?;
            volume.block_mut(lbn).fill(0xff);
            volume.put_in_use_if_mapped(number);
            still_sound(volume)
        }),
    ]
}

/// Puts an index file that ends with the slot of a number, 16 or higher: what is past it is taken out of
/// each header. None where a further header of the index file would have no slot.
fn end_slots_at(volume: &mut Volume, last: u32) -> Option<()> {
    assert!(last >= 16);
    let headers = volume.file(1).headers.clone();
    if headers.iter().any(|header| u32::from(header.number) > last) {
        return None;
    }
    let length = 2 + volume.plan.index_map_blocks() + last;
    let mut start = 0;
    for header in headers {
        let end = (start + header.blocks()).min(length.max(start));
        let pointers = pointers_of(&volume.index[start as usize..end as usize]);
        volume.edit_header(header.number, |header| {
            header.pointers = pointers;
            header.areas = Areas::LARGEST;
        });
        start = end;
    }
    Some(())
}

/// The numbers of headers above a number.
fn numbers_above(volume: &Volume, last: u32) -> Vec<u32> {
    let numbers = volume.headers().map(|header| u32::from(header.number));
    numbers.filter(|&number| number > last).collect()
}

/// Numbers in use without a slot, and slots that are only just there.
fn slots() -> Vec<Flaw> {
    let past = |volume: &Volume| volume.last_slot() + 1..=u32::from(volume.plan.h_fmax);
    vec![
        flaw("in use without slot, the first", move |volume| {
            let number = past(volume).next()?;
            volume.put_in_use(number as u16, true);
            Some(vec![number])
        }),
        flaw("in use without slot, H.FMAX", move |volume| {
            let number = past(volume).next_back()?;
            volume.put_in_use(number as u16, true);
            Some(vec![number])
        }),
        flaw("in use without slot, every one", move |volume| {
            let numbers: Vec<u32> = past(volume).collect();
            for &number in &numbers {
                volume.put_in_use(number as u16, true);
            }
            Some(numbers).filter(|numbers| !numbers.is_empty())
        }),
        flaw("the index file ends before the last header", |volume| {
            let last = volume.headers().map(|header| header.number).max()?;
            let last = u32::from(last - 1);
            if last < 16 {
                return None;
            }
            end_slots_at(volume, last)?;
            Some(numbers_above(volume, last))
        }),
        flaw("the index file ends with slot 16", |volume| {
            let numbers = numbers_above(volume, 16);
            end_slots_at(volume, 16)?;
            Some(numbers).filter(|numbers| !numbers.is_empty())
        }),
        flaw("the index file ends with the last header", |volume| {
            let last = volume.headers().map(|header| header.number).max()?;
            end_slots_at(volume, u32::from(last.max(16)))?;
            still_sound(volume)
        }),
    ]
}

/// Several offenders at once: the lowest is told.
fn several() -> Vec<Flaw> {
    vec![
        flaw("every known file not in use", |volume| {
            (1..=5).for_each(|n| volume.put_in_use(n, false));
            Some((1..=5).collect())
        }),
        flaw("4 not in use and 3 with segment 1", |volume| {
            volume.put_in_use(4, false);
            volume.edit_header(3, |header| header.segment = 1);
            Some(vec![3, 4])
        }),
        flaw("5 with sequence 6 and 4 not whole", |volume| {
            volume.edit_header(5, |header| header.sequence = 6);
            break_header(volume, 4);
            Some(vec![4, 5])
        }),
        flaw("every header of a chain not whole", |volume| {
            let file = volume.file(volume.roles.chained);
            let numbers: Vec<u16> = file.headers.iter().map(|it| it.number).collect();
            for &number in &numbers {
                break_header(volume, number);
            }
            Some(numbers.into_iter().map(u32::from).collect())
        }),
        flaw("two files not whole", |volume| {
            let numbers = [volume.roles.plain, volume.roles.empty];
            for number in numbers {
                break_header(volume, number);
            }
            Some(numbers.map(u32::from).to_vec())
        }),
        flaw("a file not whole, and one not whole put in use", |volume| {
            let number = volume.unused_number()?;
            let lbn = volume.slot_of(number);
            volume.block_mut(lbn).fill(0);
            volume.put_in_use(number, true);
            break_header(volume, volume.roles.plain);
            Some(vec![number.into(), volume.roles.plain.into()])
        }),
        flaw("in use without slot, and a file not whole", move |volume| {
            let number = volume.number_without_slot()?;
            volume.put_in_use(number, true);
            break_header(volume, volume.roles.plain);
            Some(vec![number.into(), volume.roles.plain.into()])
        }),
        flaw("every bit of the index map set", |volume| {
            volume.fill_index_map(0xff);
            // Unused slots are cleared, so that they are surely not whole.
            let last = volume.last_number();
            let used: Vec<u16> = volume.headers().map(|header| header.number).collect();
            let unused: Vec<u16> = (1..=last).filter(|it| !used.contains(it)).collect();
            for &number in &unused {
                let lbn = volume.slot_of(number);
                volume.block_mut(lbn).fill(0);
            }
            let past = volume.last_slot() + 1..=u32::from(volume.plan.h_fmax);
            let numbers: Vec<u32> = unused.into_iter().map(u32::from).chain(past).collect();
            Some(numbers).filter(|numbers| !numbers.is_empty())
        }),
    ]
}
