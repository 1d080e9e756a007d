//! Damages of links between headers.

use super::{Damage, Expected};
use crate::block::word;
use crate::damage::header::Target;
use crate::damage::links::{
    add_header, go_on_from_255, link, link_above_h_fmax, link_past_slots, link_to, other_headers,
    other_links,
};
use crate::header::{at, Header};
use crate::volume::Volume;
use model::{Id, Number};

/// The ID of the chained file.
fn chained(volume: &Volume) -> Id {
    volume.file(volume.roles.chained).id()
}

/// A header of the chained file, from 0; the last for a place past the end.
fn header(volume: &Volume, place: usize) -> Header {
    let headers = &volume.file(volume.roles.chained).headers;
    headers[place.min(headers.len() - 1)].clone()
}

/// A damage of the chained file's links, and what opening it then answers.
fn of_chain(
    name: impl Into<String>,
    number: Number,
    edit: impl Fn(&mut Volume) -> Option<()> + 'static,
) -> Damage {
    let name = name.into();
    Damage::new(format!("chain: {name}"), move |volume| {
        edit(volume)?;
        Some(Expected::File(chained(volume), number))
    })
}

/// All damages of links.
pub fn damages() -> Vec<Damage> {
    let mut all = numbers();
    all.extend(sequences_and_segments());
    all.extend(ends());
    all.extend(loops());
    all
}

/// Links to numbers that are not in use, too high, or without a slot.
fn numbers() -> Vec<Damage> {
    let mut all = Vec::new();
    for (name, place) in [("second", 1), ("last", usize::MAX)] {
        let name = format!("{name} header not in use");
        all.push(of_chain(name, Number::Chain, move |volume| {
            let number = header(volume, place).number;
            volume.put_in_use(number, false);
            Some(())
        }));
    }
    all.extend([
        of_chain("link above H.FMAX", Number::Chain, |volume| {
            link_above_h_fmax(volume, Target::Last)
        }),
        of_chain("link to 65,535", Number::Chain, |volume| {
            link(volume, Target::Last, 65_535, 1);
            Some(())
        }),
        of_chain(
            "link to a number in use without slot",
            Number::Chain,
            |volume| link_past_slots(volume, Target::Last),
        ),
        of_chain(
            "link to a header that is not in use",
            Number::Chain,
            |volume| {
                let added = add_header(volume, Target::Last, 5, &[])?;
                volume.put_in_use(added.number, false);
                Some(())
            },
        ),
        of_chain("a good link more", Number::Done, |volume| {
            add_header(volume, Target::Last, 5, &[])?;
            Some(())
        }),
        of_chain(
            "a good link more, with sequence 0",
            Number::Done,
            |volume| {
                add_header(volume, Target::Last, 0, &[])?;
                Some(())
            },
        ),
        of_chain(
            "a good link more, to a locked header",
            Number::Done,
            |volume| {
                let added = add_header(volume, Target::Last, 5, &[])?;
                volume.put_header(&Header {
                    user_flags: 64,
                    system_flags: 128,
                    ..added
                });
                Some(())
            },
        ),
        of_chain("link to a slot of zeros", Number::Chain, |volume| {
            let number = volume.unused_number()?;
            let lbn = volume.slot_of(number);
            volume.block_mut(lbn).fill(0);
            volume.put_in_use(number, true);
            link(volume, Target::Last, number, 0);
            Some(())
        }),
    ]);
    all
}

/// Links whose sequence or segment is not that of the header.
fn sequences_and_segments() -> Vec<Damage> {
    let links = [Target::First, Target::Second].into_iter();
    let headers = [Target::Second, Target::Last].into_iter();
    let changes = links.flat_map(other_links);
    let changes = changes.chain(headers.flat_map(other_headers));
    changes
        .map(|(name, change)| of_chain(name, Number::Chain, change))
        .collect()
}

/// Chains that end early, go on, or go over to another file's.
fn ends() -> Vec<Damage> {
    vec![
        of_chain("ends at the first header", Number::Done, |volume| {
            link(volume, Target::First, 0, 0);
            Some(())
        }),
        of_chain("ends at the second header", Number::Done, |volume| {
            link(volume, Target::Second, 0, 0);
            Some(())
        }),
        of_chain("leaves out the second header", Number::Chain, |volume| {
            let third = header(volume, 2);
            link_to(volume, Target::First, &third);
            Some(())
        }),
        of_chain("goes on to the plain file", Number::Chain, |volume| {
            let plain = volume.file(volume.roles.plain).headers[0].clone();
            link_to(volume, Target::Last, &plain);
            Some(())
        }),
        of_chain("goes on to header 1", Number::Chain, |volume| {
            link(volume, Target::Last, 1, 1);
            Some(())
        }),
        Damage::new(
            "chain: the plain file shares the headers after it",
            |volume| {
                let second = header(volume, 1);
                link_to(volume, Target::Plain, &second);
                let id = volume.file(volume.roles.plain).id();
                Some(Expected::File(id, Number::Done))
            },
        ),
        Damage::new(
            "chain: the plain file links to the third header",
            |volume| {
                let third = header(volume, 2);
                link_to(volume, Target::Plain, &third);
                let id = volume.file(volume.roles.plain).id();
                Some(Expected::File(id, Number::Chain))
            },
        ),
        of_chain(
            "segment 255 goes on to segment 0",
            Number::Chain,
            |volume| go_on_from_255(volume, Target::Last, 0),
        ),
        of_chain(
            "segment 255 goes on to segment 255",
            Number::Chain,
            |volume| go_on_from_255(volume, Target::Last, 255),
        ),
    ]
}

/// Headers that link to themselves or back.
fn loops() -> Vec<Damage> {
    let mut all = Vec::new();
    for target in [Target::First, Target::Second, Target::Last] {
        let name = format!("{} links to itself", target.name());
        all.push(of_chain(name, Number::Chain, move |volume| {
            let edit = target.edit(volume);
            let number = word(edit.block, at::H_FNUM);
            let sequence = word(edit.block, at::H_FSEQ);
            link(volume, target, number, sequence);
            Some(())
        }));
    }
    for (name, place) in [("first", 0), ("second", 1)] {
        let name = format!("last header links to the {name}");
        all.push(of_chain(name, Number::Chain, move |volume| {
            let to = header(volume, place);
            link_to(volume, Target::Last, &to);
            Some(())
        }));
    }
    all.push(of_chain(
        "second header links to the first",
        Number::Chain,
        |volume| {
            let first = header(volume, 0);
            link_to(volume, Target::Second, &first);
            Some(())
        },
    ));
    all
}
