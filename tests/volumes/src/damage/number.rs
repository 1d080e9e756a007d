//! Damages of what opening a file asks before its links: the number, the sequence, the segment and
//! the flags.

use super::{one_index_header, Damage, Expected};
use crate::block::{add_to_word, put_word};
use crate::damage::header::Target;
use crate::header::{at, in_map, pointers_of, Areas, Header, MOST_POINTERS};
use crate::volume::{in_home, File, Volume};
use model::{Id, Number};

/// All damages of numbers, sequences, segments and flags.
pub fn damages() -> Vec<Damage> {
    let mut all = numbers();
    all.extend(slots());
    all.extend(sequences());
    all.extend(segments());
    all.extend(flags());
    all.extend(ids());
    all
}

/// The plain file of a volume.
fn plain(volume: &Volume) -> &File {
    volume.file(volume.roles.plain)
}

/// Opening the plain file answers this.
fn opens_as(volume: &Volume, number: Number) -> Option<Expected> {
    Some(Expected::File(plain(volume).id(), number))
}

/// Puts H.FMAX, if the geometry allows it.
pub fn put_h_fmax(volume: &mut Volume, h_fmax: u16) -> Option<()> {
    let m = volume.plan.index_map_blocks();
    if h_fmax < 16 || u32::from(h_fmax).div_ceil(4_096) != m {
        return None;
    }
    let home = volume.plan.home;
    put_word(volume.block_mut(home), in_home::H_FMAX, h_fmax);
    Some(())
}

/// Numbers in use and not, and H.FMAX.
fn numbers() -> Vec<Damage> {
    vec![
        Damage::new("number: not in use", |volume| {
            volume.put_in_use(volume.roles.plain, false);
            opens_as(volume, Number::Number)
        }),
        Damage::new("number: the bits of its neighbours", |volume| {
            one_index_header(volume)?;
            let number = volume.roles.plain;
            volume.put_in_use(number - 1, false);
            if number < volume.plan.h_fmax {
                volume.put_in_use(number + 1, true);
            }
            opens_as(volume, Number::Done)
        }),
        Damage::new("number: every bit of the index map set", |volume| {
            volume.fill_index_map(0xff);
            opens_as(volume, Number::Done)
        }),
        Damage::new("number: no bit of the index map set", |volume| {
            one_index_header(volume)?;
            volume.fill_index_map(0);
            opens_as(volume, Number::Number)
        }),
        Damage::new("number: H.FMAX one below it", |volume| {
            one_index_header(volume)?;
            put_h_fmax(volume, volume.roles.plain - 1)?;
            opens_as(volume, Number::Number)
        }),
        Damage::new("number: H.FMAX the number itself", |volume| {
            one_index_header(volume)?;
            put_h_fmax(volume, volume.roles.plain)?;
            opens_as(volume, Number::Done)
        }),
        Damage::new(
            "number: above H.FMAX, with bit, slot and header",
            |volume| {
                let number = volume.plan.h_fmax.checked_add(1)?;
                let header = Header::new(number, 7, Vec::new());
                let lbn = volume.slot(number)?;
                header.put(volume.block_mut(lbn));
                // The bit is past the map where H.FMAX has them all.
                volume.put_in_use_if_mapped(number);
                let id = Id::from_words([number, 7, 0]);
                Some(Expected::File(id, Number::Number))
            },
        ),
        Damage::new("number: not in use, with a whole header", |volume| {
            let number = volume.unused_number()?;
            volume.put_header(&Header::new(number, 7, Vec::new()));
            let id = Id::from_words([number, 7, 0]);
            Some(Expected::File(id, Number::Number))
        }),
        Damage::new("number: put in use, with a whole header", |volume| {
            let number = volume.unused_number()?;
            volume.put_header(&Header::new(number, 7, Vec::new()));
            volume.put_in_use(number, true);
            let id = Id::from_words([number, 7, 0]);
            Some(Expected::File(id, Number::Done))
        }),
        Damage::new("number: put in use, with a slot of zeros", |volume| {
            let number = volume.unused_number()?;
            let lbn = volume.slot_of(number);
            volume.block_mut(lbn).fill(0);
            volume.put_in_use(number, true);
            let id = Id::from_words([number, 0, 0]);
            Some(Expected::File(id, Number::Header))
        }),
    ]
}

/// Cuts the index file so that its last slot is that of a number, which is above 16.
fn cut_slots(volume: &mut Volume, last: u16) -> Option<()> {
    if last < 16 || u32::from(last) > volume.last_slot() {
        return None;
    }
    let length = 2 + volume.plan.index_map_blocks() as usize + usize::from(last);
    let pointers = pointers_of(&volume.index[..length]);
    if pointers.len() > MOST_POINTERS {
        return None;
    }
    let header = Header {
        areas: Areas::LARGEST,
        ..Header::new(1, 1, pointers)
    };
    let lbn = volume.slot_of(1);
    header.put_unsealed(volume.block_mut(lbn));
    Some(())
}

/// The file of one header that has the highest number, if that is above 16.
fn high_file(volume: &Volume) -> Option<Id> {
    let single = volume.files.iter().filter(|file| file.headers.len() == 1);
    let open = single.filter(|file| !file.is_locked());
    let highest = open.max_by_key(|file| file.number())?;
    Some(highest.id()).filter(|id| id.number > 16)
}

/// The number after the last slot in use: it has none.
pub fn use_past_last_slot(volume: &mut Volume) -> Option<Expected> {
    let number = volume.number_without_slot()?;
    volume.put_in_use(number, true);
    let id = Id::from_words([number, 0, 0]);
    Some(Expected::File(id, Number::Number))
}

/// Slots that the index file maps no more, and one that it never had.
fn slots() -> Vec<Damage> {
    vec![
        Damage::new("slot: the index file ends just before it", |volume| {
            let id = high_file(volume)?;
            cut_slots(volume, id.number - 1)?;
            Some(Expected::File(id, Number::Number))
        }),
        Damage::new("slot: it is the last of the index file", |volume| {
            let id = high_file(volume)?;
            cut_slots(volume, id.number)?;
            Some(Expected::File(id, Number::Done))
        }),
        Damage::new("slot: in use without one", use_past_last_slot),
        Damage::new("slot: H.FMAX in use without one", |volume| {
            let number = volume.plan.h_fmax;
            if u32::from(number) <= volume.last_slot() {
                return None;
            }
            volume.put_in_use(number, true);
            let id = Id::from_words([number, 1, 0]);
            Some(Expected::File(id, Number::Number))
        }),
    ]
}

/// Headers with another sequence than the ID. The ID stays the one that was right.
fn sequences() -> Vec<Damage> {
    let mut all = Vec::new();
    for target in [Target::Plain, Target::First] {
        for more in [1, 65_535, 256, 32_768] {
            let name = format!("{}: H.FSEQ {more} more", target.name());
            all.push(Damage::new(name, move |volume| {
                let Expected::File(id, _) = target.done(volume) else {
                    return None;
                };
                add_to_word(target.edit(volume).block, at::H_FSEQ, more);
                Some(Expected::File(id, Number::Sequence))
            }));
        }
    }
    all
}

/// First headers with a segment that is not 0.
fn segments() -> Vec<Damage> {
    let mut all = Vec::new();
    for target in [Target::Plain, Target::First] {
        for segment in [1, 2, 128, 255] {
            let name = format!("{}: segment {segment}", target.name());
            all.push(Damage::new(name, move |volume| {
                let Expected::File(id, _) = target.done(volume) else {
                    return None;
                };
                target.edit(volume).map_mut()[in_map::SEGMENT] = segment;
                Some(Expected::File(id, Number::Segment))
            }));
        }
    }
    all
}

/// Flags that refuse access, in a first header and in others.
fn flags() -> Vec<Damage> {
    let mut all = Vec::new();
    for target in [Target::Plain, Target::First, Target::Second, Target::Last] {
        for (name, user, system) in [
            ("deaccess-locked", 64, 0),
            ("marked for delete", 0, 128),
            ("locked and marked", 64, 128),
            ("all flags", 255, 255),
        ] {
            let name = format!("{}: {name}", target.name());
            all.push(Damage::new(name, move |volume| {
                let Expected::File(id, _) = target.done(volume) else {
                    return None;
                };
                let edit = target.edit(volume);
                edit.block[at::USER_FLAGS] |= user;
                edit.block[at::SYSTEM_FLAGS] |= system;
                let number = match target {
                    Target::Plain | Target::First => Number::Locked,
                    _ => Number::Done,
                };
                Some(Expected::File(id, number))
            }));
        }
    }
    all
}

/// IDs that a sound volume refuses: no byte is changed.
fn ids() -> Vec<Damage> {
    let id = |name: &'static str, number: Number, id: fn(&Volume) -> [u16; 3]| {
        Damage::new(format!("ID: {name}"), move |volume| {
            let id = Id::from_words(id(volume));
            Some(Expected::File(id, number))
        })
    };
    let own = |volume: &Volume| plain(volume).id().words();
    let mut all = vec![
        id("right", Number::Done, |volume| plain(volume).id().words()),
        id("number 0", Number::Number, |_| [0, 0, 0]),
        id("number 0, with a sequence", Number::Number, |_| [0, 1, 0]),
        id("number 0 and a third word", Number::Relvol, |_| [0, 0, 1]),
        id("extension header", Number::Segment, |volume| {
            let header = &volume.file(volume.roles.chained).headers[1];
            [header.number, header.sequence, 0]
        }),
        id(
            "extension header, wrong sequence",
            Number::Sequence,
            |volume| {
                let header = &volume.file(volume.roles.chained).headers[1];
                [header.number, header.sequence ^ 1, 0]
            },
        ),
        id("locked file", Number::Locked, |volume| {
            volume.file(volume.roles.locked).id().words()
        }),
        id("locked file, wrong sequence", Number::Sequence, |volume| {
            let [number, sequence, third] = volume.file(volume.roles.locked).id().words();
            [number, sequence ^ 1, third]
        }),
        id("marked file", Number::Locked, |volume| {
            volume.file(volume.roles.marked).id().words()
        }),
        id("empty file", Number::Done, |volume| {
            volume.file(volume.roles.empty).id().words()
        }),
    ];
    for third in [1, 256, 32_768, 65_535] {
        all.push(Damage::new(
            format!("ID: third word {third}"),
            move |volume| {
                let [number, sequence, _] = own(volume);
                let id = Id::from_words([number, sequence, third]);
                Some(Expected::File(id, Number::Relvol))
            },
        ));
    }
    for more in [1, 65_535, 256] {
        all.push(Damage::new(
            format!("ID: sequence {more} more"),
            move |volume| {
                let [number, sequence, third] = own(volume);
                let id = Id::from_words([number, sequence.wrapping_add(more), third]);
                Some(Expected::File(id, Number::Sequence))
            },
        ));
    }
    all
}
