//! What the damages of a file's chain and of the index file's share: links, and headers that a chain goes
//! on to.

use crate::block::add_to_word;
use crate::damage::header::{put_link, Target};
use crate::header::{at, in_map, pointers_of, Header};
use crate::volume::Volume;

/// A change of a volume, which answers none where there is nothing that it could change.
pub type Change = Box<dyn Fn(&mut Volume) -> Option<()>>;

/// Links the header of a target to a number and sequence.
pub fn link(volume: &mut Volume, target: Target, number: u16, sequence: u16) {
    put_link(target.edit(volume).map_mut(), number, sequence);
}

/// Links the header of a target to a header.
pub fn link_to(volume: &mut Volume, target: Target, to: &Header) {
    link(volume, target, to.number, to.sequence);
}

/// The segment that the header after that of a target would have, if it can have one.
pub fn next_segment(volume: &Volume, target: Target) -> Option<u8> {
    let header = volume.header(target.number(volume));
    header.segment.checked_add(1)
}

/// Puts a header of the next segment after that of a target, and links to it.
pub fn add_header(
    volume: &mut Volume,
    target: Target,
    sequence: u16,
    lbns: &[u32],
) -> Option<Header> {
    let segment = next_segment(volume, target)?;
    add_segment(volume, target, segment, (sequence, lbns))
}

/// Puts a header of this segment into the slot of an unused number, and links that of a target to it.
fn add_segment(
    volume: &mut Volume,
    target: Target,
    segment: u8,
    (sequence, lbns): (u16, &[u32]),
) -> Option<Header> {
    let added = Header {
        segment,
        ..Header::new(volume.unused_number()?, sequence, pointers_of(lbns))
    };
    volume.put_header(&added);
    volume.put_in_use(added.number, true);
    link_to(volume, target, &added);
    Some(added)
}

/// After segment 255 a header of this segment, which cannot be one higher.
pub fn go_on_from_255(volume: &mut Volume, target: Target, segment: u8) -> Option<()> {
    if next_segment(volume, target).is_some() {
        return None;
    }
    add_segment(volume, target, segment, (5, &[]))?;
    Some(())
}

/// Links the header of a target to the number above H.FMAX. The header is there, if it can be, and the bit.
pub fn link_above_h_fmax(volume: &mut Volume, target: Target) -> Option<()> {
    let number = volume.plan.h_fmax.checked_add(1)?;
    let added = Header {
        segment: next_segment(volume, target)?,
        ..Header::new(number, 3, Vec::new())
    };
    if let Some(lbn) = volume.slot(number) {
        added.put(volume.block_mut(lbn));
    }
    volume.put_in_use_if_mapped(number);
    link_to(volume, target, &added);
    Some(())
}

/// Links the header of a target to a number in use that has no slot.
pub fn link_past_slots(volume: &mut Volume, target: Target) -> Option<()> {
    let number = volume.number_without_slot()?;
    volume.put_in_use(number, true);
    link(volume, target, number, 0);
    Some(())
}

/// Other sequences in the link of a target's header, each with a name.
pub fn other_links(target: Target) -> impl Iterator<Item = (String, Change)> {
    [1, 65_535, 256].into_iter().map(move |more| {
        let name = format!("{}: M.EFSQ {more} more", target.name());
        let change: Change = Box::new(move |volume| {
            add_to_word(target.edit(volume).map_mut(), in_map::M_EFSQ, more);
            Some(())
        });
        (name, change)
    })
}

/// Other sequences and segments of a target's header than the link to it is for, each with a name.
pub fn other_headers(target: Target) -> impl Iterator<Item = (String, Change)> {
    let sequences = [1, 65_535, 256].into_iter().map(move |more| {
        let name = format!("{}: H.FSEQ {more} more", target.name());
        let change: Change = Box::new(move |volume| {
            add_to_word(target.edit(volume).block, at::H_FSEQ, more);
            Some(())
        });
        (name, change)
    });
    let segments = [("more", 1), ("less", 255), ("half of all more", 128)];
    let segments = segments.into_iter().map(move |(name, more)| {
        let name = format!("{}: segment one {name}", target.name());
        let change: Change = Box::new(move |volume| {
            let mut edit = target.edit(volume);
            let segment = &mut edit.map_mut()[in_map::SEGMENT];
            *segment = segment.wrapping_add(more);
            Some(())
        });
        (name, change)
    });
    sequences.chain(segments)
}
