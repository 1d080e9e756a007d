//! Damages of an index file that has several headers, and of what stands on it. Paper 02, 9/14: "The
//! header of each further segment must have its slot in the part that earlier segments map.", "The first
//! segment must still map VBN 1 to m+18.", and "INDEX also for a bad link or a slot not yet mapped; no
//! longer for an extension as such."

use super::{Damage, Expected};
use crate::damage::header::{more_pointers, of_one_header, Target};
use crate::damage::links::{
    add_header, go_on_from_255, link, link_above_h_fmax, link_past_slots, link_to, next_segment,
    other_headers, other_links, Change,
};
use crate::damage::number::{put_h_fmax, use_past_last_slot};
use crate::header::{at, pointers_of, Areas, Header, MOST_POINTERS};
use crate::long_index::last_slot_of;
use crate::volume::{File, Volume, FIRST_HEADERS};
use model::{Id, Number};

/// All damages of a long index. None applies to an index file of one header.
pub fn damages() -> Vec<Damage> {
    let all = of_several_headers().into_iter();
    all.map(|damage| Damage {
        name: damage.name,
        of_checksum: damage.of_checksum,
        edit: Box::new(move |volume| {
            if volume.file(1).headers.len() < 2 {
                return None;
            }
            (damage.edit)(volume)
        }),
    })
    .collect()
}

/// The same, of volumes whose index file has several headers.
fn of_several_headers() -> Vec<Damage> {
    let mut all = of_one_header(Target::SecondIndex);
    all.extend(of_one_header(Target::LastIndex));
    all.extend(more_pointers(Target::LastIndex));
    all.extend(numbers());
    all.extend(h_fmax());
    all.extend(sequences_and_segments());
    all.extend(loops());
    all.extend(ends());
    all.extend(files());
    all.extend(one_header_more());
    all.extend(after_segment_255());
    all.extend(slots());
    all.extend(shares());
    all.extend(other_files());
    all
}

/// A header of file 1, from 0; the last for a place past the end.
fn header(volume: &Volume, place: usize) -> Header {
    let headers = &volume.file(1).headers;
    headers[place.min(headers.len() - 1)].clone()
}

/// The last header of file 1.
fn last(volume: &Volume) -> Header {
    header(volume, usize::MAX)
}

/// A damage of the chain of file 1, and what opening the volume then answers.
fn of_index(
    name: impl Into<String>,
    number: Number,
    edit: impl Fn(&mut Volume) -> Option<()> + 'static,
) -> Damage {
    let name = name.into();
    Damage::new(format!("long index: {name}"), move |volume| {
        edit(volume)?;
        Some(Expected::Volume(number))
    })
}

/// Numbers in use and not.
fn numbers() -> Vec<Damage> {
    let mut all = Vec::new();
    for (name, place) in [("second", 1), ("last", usize::MAX)] {
        let name = format!("{name} header not in use");
        all.push(of_index(name, Number::Index, move |volume| {
            let number = header(volume, place).number;
            volume.put_in_use(number, false);
            Some(())
        }));
    }
    all.extend([
        of_index("header 1 not in use", Number::Done, |volume| {
            volume.put_in_use(1, false);
            Some(())
        }),
        of_index("every bit of the index map set", Number::Done, |volume| {
            volume.fill_index_map(0xff);
            Some(())
        }),
        of_index("no bit of the index map set", Number::Index, |volume| {
            volume.fill_index_map(0);
            Some(())
        }),
        of_index("only the further headers in use", Number::Done, |volume| {
            volume.fill_index_map(0);
            for header in &volume.file(1).headers.clone()[1..] {
                volume.put_in_use(header.number, true);
            }
            Some(())
        }),
        of_index("all but the last header in use", Number::Index, |volume| {
            volume.fill_index_map(0xff);
            volume.put_in_use(last(volume).number, false);
            Some(())
        }),
    ]);
    all
}

/// Numbers above H.FMAX, without slot, and H.FMAX near a further header's.
fn h_fmax() -> Vec<Damage> {
    let highest = |volume: &Volume| {
        let further = &volume.file(1).headers[1..];
        further.iter().map(|header| header.number).max()
    };
    vec![
        of_index("link above H.FMAX", Number::Index, |volume| {
            link_above_h_fmax(volume, Target::LastIndex)
        }),
        of_index("link to 65,535", Number::Index, |volume| {
            link(volume, Target::LastIndex, 65_535, 1);
            Some(())
        }),
        of_index("link of header 1 to 65,535", Number::Index, |volume| {
            link(volume, Target::Index, 65_535, 65_535);
            Some(())
        }),
        of_index(
            "link to a number in use without slot",
            Number::Index,
            |volume| link_past_slots(volume, Target::LastIndex),
        ),
        of_index(
            "H.FMAX one below a further header",
            Number::Index,
            move |volume| put_h_fmax(volume, highest(volume)? - 1),
        ),
        of_index(
            "H.FMAX a further header's number",
            Number::Done,
            move |volume| put_h_fmax(volume, highest(volume)?),
        ),
    ]
}

/// Links whose sequence or segment is not that of the header.
fn sequences_and_segments() -> Vec<Damage> {
    let damage = |(name, change): (String, Change)| of_index(name, Number::Index, change);
    let mut all: Vec<Damage> = other_links(Target::Index).map(damage).collect();
    all.push(of_index(
        "header 1: M.EFSQ 7 without link",
        Number::Index,
        |volume| {
            link(volume, Target::Index, 0, 7);
            Some(())
        },
    ));
    for target in [Target::SecondIndex, Target::LastIndex] {
        all.extend(other_headers(target).map(damage));
    }
    all
}

/// Headers that link to themselves or back.
fn loops() -> Vec<Damage> {
    let mut all = Vec::new();
    for (target, place) in [
        (Target::Index, 0),
        (Target::SecondIndex, 1),
        (Target::LastIndex, usize::MAX),
    ] {
        let name = format!("{} links to itself", target.name());
        all.push(of_index(name, Number::Index, move |volume| {
            let own = header(volume, place);
            link_to(volume, target, &own);
            Some(())
        }));
    }
    for (target, name, place) in [
        (Target::SecondIndex, "header 1", 0),
        (Target::LastIndex, "header 1", 0),
        (Target::LastIndex, "the second", 1),
    ] {
        let name = format!("{} links back to {name}", target.name());
        all.push(of_index(name, Number::Index, move |volume| {
            let back = header(volume, place);
            link_to(volume, target, &back);
            Some(())
        }));
    }
    all
}

/// Chains that end early, leave out a header, or go over to another file's.
fn ends() -> Vec<Damage> {
    vec![
        of_index("ends at header 1", Number::Done, |volume| {
            link(volume, Target::Index, 0, 0);
            Some(())
        }),
        of_index("ends at the second header", Number::Done, |volume| {
            link(volume, Target::SecondIndex, 0, 0);
            Some(())
        }),
        of_index("leaves out the second header", Number::Index, |volume| {
            let third = volume.file(1).headers.get(2)?.clone();
            link_to(volume, Target::Index, &third);
            Some(())
        }),
        of_index("goes on to the plain file", Number::Index, |volume| {
            let plain = volume.file(volume.roles.plain).headers[0].clone();
            link_to(volume, Target::LastIndex, &plain);
            Some(())
        }),
        of_index("goes on to header 2", Number::Index, |volume| {
            link(volume, Target::LastIndex, 2, 2);
            Some(())
        }),
        of_index("goes on with the chained file", Number::Done, |volume| {
            let segment = usize::from(next_segment(volume, Target::LastIndex)?);
            let chained = volume.file(volume.roles.chained);
            let next = chained.headers.get(segment)?.clone();
            link_to(volume, Target::LastIndex, &next);
            Some(())
        }),
        of_index("goes on a segment late", Number::Index, |volume| {
            let segment = usize::from(next_segment(volume, Target::LastIndex)?);
            let chained = volume.file(volume.roles.chained);
            let next = chained.headers.get(segment + 1)?.clone();
            link_to(volume, Target::LastIndex, &next);
            Some(())
        }),
    ]
}

/// The first file above 5 that opens and that passes a test. The test gets the numbers of its headers,
/// and whether header 1 maps the slot of each.
fn find_file(volume: &Volume, test: impl Fn(&[bool]) -> bool) -> Option<Id> {
    let last = last_slot_of(volume, 1);
    let is_near = |header: &Header| u32::from(header.number) <= last;
    let mut files = volume.files.iter().filter(|it| it.number() > 5);
    let found = files.find(|file| {
        let near: Vec<bool> = file.headers.iter().map(is_near).collect();
        !file.is_locked() && test(&near)
    });
    found.map(File::id)
}

/// What becomes of files where the index file ends at header 1, and of file 1 itself.
fn files() -> Vec<Damage> {
    let cut = |name: &str, number: Number, test: fn(&[bool]) -> bool| {
        let name = format!("long index: ends at header 1, and {name}");
        Damage::new(name, move |volume| {
            let id = find_file(volume, test)?;
            link(volume, Target::Index, 0, 0);
            Some(Expected::File(id, number))
        })
    };
    let index = Id::from_words([1, 1, 0]);
    vec![
        cut("a file past its part", Number::Number, |near| !near[0]),
        cut("a chain that goes past it", Number::Chain, |near| {
            near[0] && near.contains(&false)
        }),
        cut("a file within it", Number::Done, |near| {
            !near.contains(&false)
        }),
        Damage::new("long index: file 1 opens", move |_| {
            Some(Expected::File(index, Number::Done))
        }),
        Damage::new(
            "long index: header 1 not in use, and file 1",
            move |volume| {
                volume.put_in_use(1, false);
                Some(Expected::File(index, Number::Number))
            },
        ),
        Damage::new("long index: header 1 locked, and file 1", move |volume| {
            Target::Index.edit(volume).block[at::USER_FLAGS] |= 64;
            Some(Expected::File(index, Number::Locked))
        }),
        Damage::new(
            "long index: further headers locked, and file 1",
            move |volume| {
                for target in [Target::SecondIndex, Target::LastIndex] {
                    let edit = target.edit(volume);
                    edit.block[at::USER_FLAGS] |= 64;
                    edit.block[at::SYSTEM_FLAGS] |= 128;
                }
                Some(Expected::File(index, Number::Done))
            },
        ),
        Damage::new("long index: the ID of a further header", |volume| {
            let further = header(volume, 1);
            let id = Id::from_words([further.number, further.sequence, 0]);
            Some(Expected::File(id, Number::Segment))
        }),
        Damage::new("long index: a file past header 1's part", |volume| {
            let id = find_file(volume, |near| !near[0])?;
            Some(Expected::File(id, Number::Done))
        }),
        Damage::new(
            "long index: a chain that goes past header 1's part",
            |volume| {
                let id = find_file(volume, |near| near[0] && near.contains(&false))?;
                Some(Expected::File(id, Number::Done))
            },
        ),
        Damage::new(
            "long index: the last slot of all, and one past it",
            use_past_last_slot,
        ),
    ]
}

/// Chains that go on to a header that no file had.
fn one_header_more() -> Vec<Damage> {
    vec![
        of_index("a header more, without blocks", Number::Done, |volume| {
            add_header(volume, Target::LastIndex, 5, &[])?;
            Some(())
        }),
        of_index("a header more, with sequence 0", Number::Done, |volume| {
            add_header(volume, Target::LastIndex, 0, &[])?;
            Some(())
        }),
        of_index(
            "a header more, with blocks of others",
            Number::Done,
            |volume| {
                let lbns = [0, volume.plan.home, volume.plan.control];
                add_header(volume, Target::LastIndex, 65_535, &lbns)?;
                Some(())
            },
        ),
        of_index("a header more, locked and marked", Number::Done, |volume| {
            let added = add_header(volume, Target::LastIndex, 5, &[])?;
            volume.put_header(&Header {
                user_flags: 64,
                system_flags: 128,
                ..added
            });
            Some(())
        }),
        of_index("a header more, not in use", Number::Index, |volume| {
            let added = add_header(volume, Target::LastIndex, 5, &[])?;
            volume.put_in_use(added.number, false);
            Some(())
        }),
        of_index("a header more, of zeros", Number::Index, |volume| {
            let added = add_header(volume, Target::LastIndex, 0, &[])?;
            let lbn = volume.slot_of(added.number);
            volume.block_mut(lbn).fill(0);
            Some(())
        }),
        of_index("a header more, past N", Number::Index, |volume| {
            let past = volume.plan.blocks;
            add_header(volume, Target::LastIndex, 5, &[past])?;
            Some(())
        }),
        of_index(
            "a header more, of another number",
            Number::Index,
            |volume| {
                let added = add_header(volume, Target::LastIndex, 5, &[])?;
                let lbn = volume.slot_of(added.number);
                let other = Header {
                    number: added.number + 1,
                    ..added
                };
                other.put(volume.block_mut(lbn));
                Some(())
            },
        ),
        of_index("header 5 as one more", Number::Done, |volume| {
            let five = Header {
                segment: next_segment(volume, Target::LastIndex)?,
                ..volume.header(5).clone()
            };
            volume.put_header(&five);
            link_to(volume, Target::LastIndex, &five);
            Some(())
        }),
    ]
}

/// A header after the 256th: its segment number cannot be one higher.
fn after_segment_255() -> Vec<Damage> {
    [0, 1, 254, 255]
        .into_iter()
        .map(|segment| {
            let name = format!("segment 255 goes on to segment {segment}");
            of_index(name, Number::Index, move |volume| {
                go_on_from_255(volume, Target::LastIndex, segment)
            })
        })
        .collect()
}

/// A block that no file covers, and the number whose slot it is if the index file goes on with it.
fn next_slot(volume: &Volume) -> Option<(u32, u16)> {
    let number = volume.number_without_slot()?;
    let lbn = volume.covered().iter().position(|covered| !covered)?;
    Some((lbn as u32, number))
}

/// Puts a header into a block that is to be its slot, and its number in use.
fn put_at(volume: &mut Volume, lbn: u32, header: &Header) {
    header.put(volume.block_mut(lbn));
    volume.put_in_use(header.number, true);
}

/// Headers whose slot is mapped by themselves, by a later one, or by one before.
fn slots() -> Vec<Damage> {
    vec![
        of_index(
            "a header more, in its own first slot",
            Number::Index,
            |volume| {
                let (lbn, number) = next_slot(volume)?;
                let own = Header {
                    segment: next_segment(volume, Target::LastIndex)?,
                    ..Header::new(number, 5, pointers_of(&[lbn]))
                };
                put_at(volume, lbn, &own);
                link_to(volume, Target::LastIndex, &own);
                Some(())
            },
        ),
        of_index(
            "a header more, in a slot of one after it",
            Number::Index,
            |volume| {
                let (lbn, number) = next_slot(volume)?;
                let segment = next_segment(volume, Target::LastIndex)?;
                let after = Header {
                    segment: segment.checked_add(1)?,
                    ..Header::new(volume.unused_number()?, 6, pointers_of(&[lbn]))
                };
                let first = Header {
                    segment,
                    link: (after.number, after.sequence),
                    ..Header::new(number, 5, Vec::new())
                };
                put_at(volume, volume.slot_of(after.number), &after);
                put_at(volume, lbn, &first);
                link_to(volume, Target::LastIndex, &first);
                Some(())
            },
        ),
        of_index(
            "a header more, in a slot of one before it",
            Number::Done,
            |volume| {
                let (lbn, number) = next_slot(volume)?;
                let segment = next_segment(volume, Target::LastIndex)?;
                let second = Header {
                    segment: segment.checked_add(1)?,
                    ..Header::new(number, 5, Vec::new())
                };
                let first = Header {
                    segment,
                    link: (second.number, second.sequence),
                    ..Header::new(volume.unused_number()?, 6, pointers_of(&[lbn]))
                };
                put_at(volume, volume.slot_of(first.number), &first);
                put_at(volume, lbn, &second);
                link_to(volume, Target::LastIndex, &first);
                Some(())
            },
        ),
    ]
}

/// Shares the blocks of two headers of file 1 out again, so that those up to the first of the two map so
/// many blocks. None if there are not so many, or a header cannot hold its share.
fn share_again(volume: &mut Volume, first: usize, mapped: u32) -> Option<()> {
    let headers = volume.file(1).headers.clone();
    let blocks = |headers: &[Header]| headers.iter().map(Header::blocks).sum::<u32>();
    let (start, end) = (blocks(&headers[..first]), blocks(&headers[..first + 2]));
    if !(start..=end).contains(&mapped) {
        return None;
    }
    let lbns = &volume.index[start as usize..end as usize];
    let (own, next) = lbns.split_at((mapped - start) as usize);
    let shares = [own, next].map(pointers_of);
    if shares.iter().any(|it| it.len() > MOST_POINTERS) {
        return None;
    }
    for (header, pointers) in headers[first..].iter().zip(shares) {
        volume.edit_header(header.number, |header| {
            header.areas = Areas::LARGEST;
            header.pointers = pointers;
        });
    }
    Some(())
}

/// How many blocks the headers before a further one map at least, so that it has its slot there.
fn blocks_needed(volume: &Volume, place: usize) -> u32 {
    let m = volume.plan.index_map_blocks();
    2 + m + u32::from(header(volume, place).number)
}

/// How many blocks header 1 must map.
fn first_blocks(volume: &Volume) -> u32 {
    2 + volume.plan.index_map_blocks() + FIRST_HEADERS
}

/// Blocks that go over from one header of file 1 to the next, or back. The long map stays the same.
fn shares() -> Vec<Damage> {
    let mut all = Vec::new();
    for (name, is_last) in [("second", false), ("last", true)] {
        let place = move |volume: &Volume| match is_last {
            true => volume.file(1).headers.len() - 1,
            false => 1,
        };
        let just = format!("{name} header in the last slot before it");
        all.push(of_index(just, Number::Done, move |volume| {
            let place = place(volume);
            let mapped = blocks_needed(volume, place);
            if place == 1 && mapped < first_blocks(volume) {
                return None;
            }
            share_again(volume, place - 1, mapped)
        }));
        let own = format!("{name} header in the first slot of its own");
        all.push(of_index(own, Number::Index, move |volume| {
            let place = place(volume);
            let mapped = blocks_needed(volume, place) - 1;
            if place == 1 && mapped < first_blocks(volume) {
                return None;
            }
            share_again(volume, place - 1, mapped)
        }));
    }
    all.extend([
        of_index("header 1 maps m+18 blocks", Number::Done, |volume| {
            let least = first_blocks(volume);
            if blocks_needed(volume, 1) > least {
                return None;
            }
            share_again(volume, 0, least)
        }),
        of_index(
            "header 1 maps m+18 blocks, too few",
            Number::Index,
            |volume| {
                let least = first_blocks(volume);
                if blocks_needed(volume, 1) <= least {
                    return None;
                }
                share_again(volume, 0, least)
            },
        ),
        of_index("header 1 maps m+17 blocks", Number::Index, |volume| {
            share_again(volume, 0, first_blocks(volume) - 1)
        }),
        of_index("header 1 maps two blocks", Number::Index, |volume| {
            share_again(volume, 0, 2)
        }),
        of_index("header 1 maps no block", Number::Index, |volume| {
            share_again(volume, 0, 0)
        }),
    ]);
    all
}

/// Links of other files to headers of the index file, and extensions of header 2.
fn other_files() -> Vec<Damage> {
    vec![
        Damage::new("long index: header 2 goes on with it", |volume| {
            let second = header(volume, 1);
            link_to(volume, Target::Storage, &second);
            Some(Expected::Volume(Number::Storage))
        }),
        Damage::new("long index: header 2 with an empty extension", |volume| {
            let added = Header {
                segment: 1,
                ..Header::new(volume.unused_number()?, 5, Vec::new())
            };
            put_at(volume, volume.slot_of(added.number), &added);
            link_to(volume, Target::Storage, &added);
            Some(Expected::Volume(Number::Storage))
        }),
        Damage::new("long index: the plain file goes on with it", |volume| {
            let second = header(volume, 1);
            link_to(volume, Target::Plain, &second);
            let id = volume.file(volume.roles.plain).id();
            Some(Expected::File(id, Number::Done))
        }),
        Damage::new(
            "long index: the plain file goes on with header 1",
            |volume| {
                link(volume, Target::Plain, 1, 1);
                let id = volume.file(volume.roles.plain).id();
                Some(Expected::File(id, Number::Chain))
            },
        ),
    ]
}
