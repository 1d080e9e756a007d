//! Accidents of an index file that has several headers, mostly where opening looks.

use super::{field_of, pointer_of, random_change};
use crate::header::{pointers_of, Areas, Header, Pointer, MOST_POINTERS};
use crate::random::Random;
use crate::volume::Volume;

/// Makes one to three changes at random of an index file, and now and then one of anything, and answers
/// them in words. The headers of file 1 that are then known are those that were put, not a chain.
pub fn random_index_changes(random: &mut Random, volume: &mut Volume) -> String {
    let count = *random.pick(&[1, 1, 1, 2, 3]);
    let mut told: Vec<String> = (0..count).map(|_| index_change(random, volume)).collect();
    if random.once_in(5) {
        told.push(random_change(random, volume));
    }
    told.join("; ")
}

/// Makes one change at random of an index file.
fn index_change(random: &mut Random, volume: &mut Volume) -> String {
    match random.below(12) {
        0..=2 => link(random, volume),
        3 => sequence_or_segment(random, volume),
        4 => not_in_use(random, volume),
        5 | 6 => share(random, volume),
        7 => more_or_fewer_blocks(random, volume),
        8 => exchange(random, volume),
        9 => one_more(random, volume),
        10 => {
            let number = any_header(random, volume).number;
            field_of(random, volume, number)
        }
        _ => {
            let number = any_header(random, volume).number;
            pointer_of(random, volume, number)
        }
    }
}

/// A header of file 1: the first, the second or the last more often than by chance.
fn any_header(random: &mut Random, volume: &Volume) -> Header {
    let headers = &volume.file(1).headers;
    let last = headers.len() - 1;
    let place = match random.below(6) {
        0 => 0,
        1 => 1.min(last),
        2 => last,
        _ => random.between(0, last),
    };
    headers[place].clone()
}

/// Links a header to itself, to another of file 1 or of the chained file, to a number without header or
/// slot, to any number, or to none.
fn link(random: &mut Random, volume: &mut Volume) -> String {
    let own = any_header(random, volume);
    let other = any_header(random, volume);
    let after = volume.file(volume.roles.chained).headers.iter();
    let after = after.map(|it| (it.number, it.sequence, it.segment));
    let after = after.filter(|it| it.2 == own.segment.wrapping_add(1));
    let after = after.map(|it| (it.0, it.1)).next();
    let last_slot = volume.last_slot() as u16;
    let mut link = match random.below(8) {
        0 => (own.number, own.sequence),
        1 => after.unwrap_or((other.number, other.sequence)),
        2 => (volume.unused_number().unwrap_or(last_slot), 1),
        3 => (last_slot.wrapping_add(random.below(3) as u16), 1),
        4 => (volume.plan.h_fmax.wrapping_add(random.below(2) as u16), 1),
        5 => (0, 0),
        6 => (own.link.0, own.link.1 ^ 1),
        _ => (other.number, other.sequence),
    };
    if random.once_in(10) {
        link.1 = random.word();
    }
    volume.edit_header(own.number, |header| header.link = link);
    format!("index header {} links to {link:?}", own.number)
}

/// Changes the sequence or the segment of a header, by little.
fn sequence_or_segment(random: &mut Random, volume: &mut Volume) -> String {
    let number = any_header(random, volume).number;
    let more = *random.pick(&[1, 255, 254, 2, 128]);
    if random.once_in(2) {
        volume.edit_header(number, |header| {
            header.segment = header.segment.wrapping_add(more);
        });
        return format!("index header {number}: segment {more} more");
    }
    volume.edit_header(number, |header| {
        header.sequence = header.sequence.wrapping_add(more.into());
    });
    format!("index header {number}: sequence {more} more")
}

/// Takes a header out of use.
fn not_in_use(random: &mut Random, volume: &mut Volume) -> String {
    let number = any_header(random, volume).number;
    volume.put_in_use(number, false);
    format!("index header {number} not in use")
}

/// Puts other pointers into a header, if they are not too many.
fn put_lbns(volume: &mut Volume, number: u16, lbns: &[u32]) -> bool {
    let pointers = pointers_of(lbns);
    if pointers.len() > MOST_POINTERS {
        return false;
    }
    volume.edit_header(number, |header| {
        header.areas = Areas::LARGEST;
        header.pointers = pointers;
    });
    true
}

/// Shares the blocks of a header and of the one after it out again: most often so that the slot of the
/// second is the last of the first's, or one off.
fn share(random: &mut Random, volume: &mut Volume) -> String {
    let headers = volume.file(1).headers.clone();
    if headers.len() < 2 {
        return "one index header".to_string();
    }
    let place = random.between(0, headers.len() - 2);
    let lbns = |header: &Header| -> Vec<u32> {
        let pointers = header.pointers.iter().copied();
        pointers.flat_map(Pointer::lbns).collect()
    };
    let both = [&headers[place], &headers[place + 1]];
    let [mut all, next] = both.map(lbns);
    all.extend(next);
    let before: u32 = headers[..place].iter().map(Header::blocks).sum();
    let slot = 2 + volume.plan.index_map_blocks() + u32::from(both[1].number);
    let edge = u64::from(slot + 1).saturating_sub(u64::from(before) + random.below(3));
    let count = match random.below(4) {
        0 => random.between(0, all.len()),
        _ => (edge as usize).min(all.len()),
    };
    let (own, next) = all.split_at(count);
    let is_put = put_lbns(volume, both[0].number, own) && put_lbns(volume, both[1].number, next);
    let told = if is_put { "shared" } else { "not all shared" };
    format!("index headers {place} and after: {told} out again, {count} first")
}

/// Puts a pointer more into a header, at any place, or takes one out.
fn more_or_fewer_blocks(random: &mut Random, volume: &mut Volume) -> String {
    let header = any_header(random, volume);
    let number = header.number;
    let place = random.between(0, header.pointers.len());
    if random.once_in(2) && place < header.pointers.len() {
        volume.edit_header(number, |header| {
            header.pointers.remove(place);
        });
        return format!("index header {number}: pointer {place} less");
    }
    if header.pointers.len() == MOST_POINTERS {
        return format!("index header {number} is full");
    }
    let pointer = Pointer {
        lbn: random.below(u64::from(volume.plan.blocks)) as u32,
        blocks: 1,
    };
    volume.edit_header(number, |header| {
        header.areas = Areas::LARGEST;
        header.pointers.insert(place, pointer);
    });
    format!("index header {number}: {pointer:?} at {place} more")
}

/// Lets two headers change places, with all that they say but their numbers and sequences.
fn exchange(random: &mut Random, volume: &mut Volume) -> String {
    let (one, other) = (any_header(random, volume), any_header(random, volume));
    for (to, from) in [(&one, &other), (&other, &one)] {
        volume.edit_header(to.number, |header| {
            header.pointers.clone_from(&from.pointers);
            header.areas = Areas::LARGEST;
            header.link = from.link;
            header.segment = from.segment;
        });
    }
    format!(
        "index headers {} and {} exchanged",
        one.number, other.number
    )
}

/// Puts a header more after one of file 1, without blocks or with one: in a slot, or in the block that
/// it maps itself.
fn one_more(random: &mut Random, volume: &mut Volume) -> String {
    let before = any_header(random, volume);
    let lbn = random.below(u64::from(volume.plan.blocks)) as u32;
    let own_slot = random.once_in(3);
    let number = if own_slot {
        volume.last_slot() as u16 + 1
    } else {
        volume.unused_number().unwrap_or(before.number)
    };
    let in_map = u32::from(number) <= 4_096 * volume.plan.index_map_blocks();
    let blocks = random.between(0, 1);
    let added = Header {
        segment: before.segment.wrapping_add(1),
        link: before.link,
        ..Header::new(number, 7, pointers_of(&[lbn][..blocks]))
    };
    let slot = volume.slot(number).filter(|_| !own_slot).unwrap_or(lbn);
    added.put(volume.block_mut(slot));
    if in_map {
        volume.put_in_use(number, true);
    }
    volume.edit_header(before.number, |header| header.link = (number, 7));
    let place = format!("LBN {slot} with {blocks} blocks, own slot {own_slot}");
    format!(
        "index header {number} more, after {}, at {place}",
        before.number
    )
}

#[cfg(test)]
mod tests {
    use super::*;
    use crate::long_index::random_long_volume;
    use crate::shapes::Size;
    use model::volume::{bad_index, open_volume, BadIndex, BadLink};
    use model::Number;
    use std::collections::BTreeMap;

    #[test]
    fn random_changes_meet_every_refusal_of_a_link() {
        let mut met = BTreeMap::new();
        for seed in 0..3_000 {
            let mut random = Random::new(seed);
            let mut volume = random_long_volume(&mut random, Size::Small);
            random_index_changes(&mut random, &mut volume);
            let why = match bad_index(&volume.image) {
                Some(BadIndex::Link(BadLink::NotWhole(_))) => "not whole",
                Some(BadIndex::Link(BadLink::NotInUse)) => "not in use",
                Some(BadIndex::Link(BadLink::NoSlot)) => "no slot",
                Some(BadIndex::Link(BadLink::Sequence)) => "sequence",
                Some(BadIndex::Link(BadLink::Segment)) => "segment",
                Some(BadIndex::FirstBlocks) => "first blocks",
                Some(BadIndex::Header1) => "header 1",
                None if open_volume(&volume.image).number == Number::Done => "done",
                None => "other",
            };
            *met.entry(why).or_insert(0) += 1;
        }
        for (why, least) in [
            ("not whole", 50),
            ("not in use", 200),
            ("no slot", 100),
            ("sequence", 50),
            ("segment", 300),
            ("first blocks", 50),
            ("header 1", 50),
            ("done", 500),
        ] {
            let times = met.get(why).copied().unwrap_or(0);
            assert!(times >= least, "{why} {times} times: {met:?}");
        }
    }
}
