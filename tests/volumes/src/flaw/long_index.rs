//! Flaws of an index file that has several headers. The volume opens, which asks no more of a link than
//! that it is good.

use super::{break_header, free_lbns, still_sound, Flaw, Offenders};
use crate::block::seal_header;
use crate::header::{pointers_of, Header};
use crate::long_index::last_slot_of;
use crate::volume::{File, Volume};
use model::Number;

/// A flaw of a rule. The edit gets the headers of file 1, of which there are two or more.
fn flaw(
    rule: Number,
    name: &str,
    edit: impl Fn(&mut Volume, &[Header]) -> Option<Offenders> + 'static,
) -> Flaw {
    Flaw::new(rule, format!("long index: {name}"), move |volume| {
        let headers = volume.file(1).headers.clone();
        edit(volume, &headers)
    })
}

/// All flaws of a long index.
pub fn flaws() -> Vec<Flaw> {
    let mut all = files();
    all.extend(links());
    all.extend(twice_and_map());
    all.extend(sound());
    all
}

/// The last of some headers.
fn last(headers: &[Header]) -> &Header {
    &headers[headers.len() - 1]
}

/// Links a header to a header.
fn link_to(volume: &mut Volume, from: u16, to: &Header) {
    let link = (to.number, to.sequence);
    volume.edit_header(from, |header| header.link = link);
}

/// The header that the last of file 1 could go on with, if there is a number for it, which maps these
/// blocks.
fn one_more(volume: &Volume, headers: &[Header], lbns: &[u32]) -> Option<Header> {
    Some(Header {
        segment: last(headers).segment.checked_add(1)?,
        ..Header::new(volume.unused_number()?, 6, pointers_of(lbns))
    })
}

/// The numbers of headers above a number.
fn numbers_above(volume: &Volume, last: u32) -> Offenders {
    let numbers = volume.headers().map(|header| u32::from(header.number));
    numbers.filter(|&number| number > last).collect()
}

/// Ends the index file before its last header, and answers the last number that then has a slot.
fn end_early(volume: &mut Volume, headers: &[Header]) -> u32 {
    let before_last = &headers[headers.len() - 2];
    volume.edit_header(before_last.number, |header| header.link = (0, 0));
    last_slot_of(volume, headers.len() - 1)
}

/// Numbers in use without a slot or a whole header, past the part of header 1.
fn files() -> Vec<Flaw> {
    vec![
        flaw(Number::Files, "header 1 not in use", |volume, _| {
            volume.put_in_use(1, false);
            Some(vec![1])
        }),
        flaw(
            Number::Files,
            "it ends a header early",
            |volume, headers| {
                let last = end_early(volume, headers);
                Some(numbers_above(volume, last)).filter(|it| !it.is_empty())
            },
        ),
        flaw(
            Number::Files,
            "a header past header 1's part",
            |volume, headers| {
                let near = last_slot_of(volume, 1);
                let is_index =
                    |number: u32| headers.iter().any(|it| u32::from(it.number) == number);
                let mut far = numbers_above(volume, near);
                far.retain(|&number| !is_index(number));
                let number = far.into_iter().min()?;
                break_header(volume, number as u16);
                Some(vec![number])
            },
        ),
        flaw(
            Number::Files,
            "the first slot past header 1's part",
            |volume, _| {
                let number = last_slot_of(volume, 1) + 1;
                let is_free = volume.headers().all(|it| u32::from(it.number) != number);
                let lbn = volume.slot(number as u16).filter(|_| is_free)?;
                if number > u32::from(volume.plan.h_fmax) {
                    return None;
                }
                volume.block_mut(lbn).fill(0);
                seal_header(volume.block_mut(lbn));
                volume.put_in_use(number as u16, true);
                Some(vec![number])
            },
        ),
        flaw(Number::Files, "header 5 as one more", |volume, headers| {
            let segment = last(headers).segment.checked_add(1)?;
            volume.edit_header(5, |header| header.segment = segment);
            let five = volume.header(5).clone();
            link_to(volume, last(headers).number, &five);
            Some(vec![5])
        }),
    ]
}

/// Headers of the index file that others link, or that nobody does.
fn links() -> Vec<Flaw> {
    vec![
        flaw(
            Number::Links,
            "a file goes on with it",
            |volume, headers| {
                link_to(volume, volume.roles.plain, &headers[1]);
                Some(vec![headers[1].number.into()])
            },
        ),
        flaw(
            Number::Links,
            "a file goes on with header 1",
            |volume, headers| {
                let plain = volume.roles.plain;
                link_to(volume, plain, &headers[0]);
                Some(vec![1, plain.into()])
            },
        ),
        flaw(
            Number::Links,
            "it goes on with the chained file",
            |volume, headers| {
                let segment = usize::from(last(headers).segment) + 1;
                let chained = volume.file(volume.roles.chained);
                let next = chained.headers.get(segment)?.clone();
                link_to(volume, last(headers).number, &next);
                Some(vec![next.number.into()])
            },
        ),
        flaw(
            Number::Links,
            "it leaves a header out",
            |volume, headers| {
                let last_slot = end_early(volume, headers);
                if !numbers_above(volume, last_slot).is_empty() {
                    return None;
                }
                Some(vec![last(headers).number.into()])
            },
        ),
        flaw(
            Number::Links,
            "two headers of the last segment",
            |volume, headers| {
                let segment = last(headers).segment;
                let other = Header {
                    segment,
                    ..Header::new(volume.unused_number()?, 6, Vec::new())
                };
                let number = other.number;
                volume.add(File::of(other));
                Some(vec![number.into()])
            },
        ),
    ]
}

/// Blocks that the index file has beside another file, and bits of its blocks.
fn twice_and_map() -> Vec<Flaw> {
    vec![
        flaw(
            Number::Twice,
            "one more with a block of a file",
            |volume, headers| {
                let lbn = *volume.file(volume.roles.plain).lbns().first()?;
                let more = one_more(volume, headers, &[lbn])?;
                link_to(volume, last(headers).number, &more);
                volume.add(File::of(more));
                Some(vec![lbn])
            },
        ),
        flaw(
            Number::Twice,
            "one more with slots of its own",
            |volume, headers| {
                let lbns = [volume.slot_of(16), volume.slot_of(1)];
                let more = one_more(volume, headers, &lbns)?;
                link_to(volume, last(headers).number, &more);
                volume.add(File::of(more));
                Some(lbns.to_vec())
            },
        ),
        flaw(
            Number::Map,
            "one more with a free block",
            |volume, headers| {
                let lbn = *free_lbns(volume).first()?;
                let more = one_more(volume, headers, &[lbn])?;
                link_to(volume, last(headers).number, &more);
                volume.add(File::of(more));
                Some(vec![lbn])
            },
        ),
        flaw(
            Number::Map,
            "a slot past header 1's part is free",
            |volume, _| {
                let lbn = volume.slot(last_slot_of(volume, 1) as u16 + 1)?;
                volume.storage_map_mut()[(lbn / 8) as usize] |= 1 << (lbn % 8);
                Some(vec![lbn])
            },
        ),
    ]
}

/// Changes that leave the volume sound.
fn sound() -> Vec<Flaw> {
    vec![
        flaw(
            Number::Links,
            "one more, without blocks",
            |volume, headers| {
                let more = one_more(volume, headers, &[])?;
                link_to(volume, last(headers).number, &more);
                volume.add(File::of(more));
                still_sound(volume)
            },
        ),
        flaw(
            Number::Links,
            "one more, with free blocks",
            |volume, headers| {
                let free = free_lbns(volume);
                let more = one_more(volume, headers, &free[..free.len().min(3)])?;
                link_to(volume, last(headers).number, &more);
                volume.add(File::of(more));
                still_sound(volume)
            },
        ),
        flaw(
            Number::Links,
            "it leaves a header out, which goes",
            |volume, headers| {
                let last_slot = end_early(volume, headers);
                let number = last(headers).number;
                if !numbers_above(volume, last_slot).is_empty() {
                    return None;
                }
                volume.put_in_use(number, false);
                for file in &mut volume.files {
                    file.headers.retain(|header| header.number != number);
                }
                still_sound(volume)
            },
        ),
    ]
}
