//! Sound volumes whose index file has several headers, of every shape, at random. Paper 02, 9/14: "The
//! header of each further segment must have its slot in the part that earlier segments map."

use crate::header::{pointers_of, Areas, Header, MOST_POINTERS};
use crate::random::Random;
use crate::shapes::{
    cut_some, plan_of_16_slots, random_blocks, random_home, random_sequence, volume_of, Size,
};
use crate::space::Space;
use crate::volume::{File, Plan, Volume, FIRST_HEADERS};
use crate::writable::make_writable;

/// The most headers of a file.
pub const MOST_HEADERS: usize = 256;

/// A random sound volume whose index file has two headers or more, with a file for each role. Most of
/// its numbers have their slots past the part of header 1, so that files and chains lie in any part.
pub fn random_long_volume(random: &mut Random, size: Size) -> Volume {
    let blocks = random_blocks(random, size);
    if random.once_in(6) {
        return fragmented_volume(random, blocks);
    }
    let most = (blocks / 4).min(2_000) as usize;
    let slots = match random.below(4) {
        0 => most,
        _ => random.between(1, most),
    };
    let headers = match random.below(8) {
        0 => 1 + slots,
        1 | 2 => 1 + random.between(1, slots),
        _ => 1 + random.between(1, slots.min(5)),
    };
    long_volume(random, blocks, (slots as u32, headers.min(MOST_HEADERS)))
}

/// A random sound volume of N blocks, whose index file has so many slots past the first 16, as far as
/// there is space, and so many headers: at most one more than those slots.
pub fn long_volume(random: &mut Random, blocks: u32, (slots, headers): (u32, usize)) -> Volume {
    assert!((2..=MOST_HEADERS.min(1 + slots as usize)).contains(&headers));
    let home = random_home(random, blocks);
    let h_fmax = random_h_fmax(random, slots, headers);
    let (mut plan, mut space) = plan_of_16_slots(random, (blocks, home), h_fmax);
    plan.more_slots = more_slots(random, &mut space, slots, headers);
    let parts = random_parts(random, &plan, headers);
    volume_of(random, plan, space, |random, plan| {
        index_file(random, plan, &parts)
    })
}

/// A random sound volume of N blocks, a quarter of which are slots in runs of one or two blocks, and
/// whose index file has headers that are as full as can be, or that have any number of pointers.
pub fn fragmented_volume(random: &mut Random, blocks: u32) -> Volume {
    let home = random_home(random, blocks);
    let slots = (blocks / 4).min(2_000);
    let more = *random.pick(&[0, 0, 1, 30]);
    let h_fmax = (FIRST_HEADERS + slots + more) as u16;
    let (mut plan, mut space) = plan_of_16_slots(random, (blocks, home), h_fmax);
    plan.more_slots = space.take_blocks(random, slots, 2);
    let parts = full_parts(random, &plan);
    volume_of(random, plan, space, |random, plan| {
        index_file(random, plan, &parts)
    })
}

/// A random sound volume with a long index, which may have little room of one kind or another.
pub fn random_long_volume_to_write(random: &mut Random, size: Size) -> Volume {
    let mut volume = random_long_volume(random, size);
    make_writable(random, &mut volume);
    volume
}

/// A random H.FMAX: the least that leaves eleven numbers to other files, all slots, one fewer or some
/// more, or at a bound of the index map.
fn random_h_fmax(random: &mut Random, slots: u32, headers: usize) -> u16 {
    let least = 15 + headers as u32;
    let all = FIRST_HEADERS + slots;
    let h_fmax = match random.below(8) {
        0 => least,
        1 => all - 1,
        2 => all + random.long_between(1, 40),
        3 => *random.pick(&[4_095, 4_096, 4_097, 8_192, 8_193, 65_535]),
        4 => random.long_between(least, all),
        _ => all,
    };
    h_fmax.max(least) as u16
}

/// The slots from 17 on. All runs together are as many as so many headers hold, however they share
/// them out.
fn more_slots(random: &mut Random, space: &mut Space, count: u32, headers: usize) -> Vec<u32> {
    let longest = *random.pick(&[1, 2, 5, 40, 300]);
    let longest = longest.max(8 * count / MOST_POINTERS as u32);
    let mut slots = space.take_blocks(random, count, longest);
    assert!(slots.len() >= headers - 1, "a slot for each further header");
    // Boot block, home block, index map and the first slots are at most three pointers.
    while pointers_of(&slots).len() + 3 > MOST_POINTERS && slots.len() >= headers {
        slots.pop();
    }
    slots
}

/// How many blocks of the index file each header maps, in order. The first maps VBN m+18, and those
/// before the header of each further segment have a slot for it, beside those of the known files and of
/// the headers before it; a header may map no block.
fn random_parts(random: &mut Random, plan: &Plan, headers: usize) -> Vec<u32> {
    let m = plan.index_map_blocks();
    let least = 2 + m + FIRST_HEADERS;
    let all = plan.index_lbns().len() as u32;
    let mut cuts: Vec<u32> = (1..headers)
        .map(|_| random.long_between(least, all))
        .collect();
    cuts.sort_unstable();
    if random.once_in(2) {
        cuts[0] = least;
    }
    if random.once_in(6) {
        // Nothing is left to the last header.
        *cuts.last_mut().expect("a further header") = all;
    }
    for place in 1..cuts.len() {
        if random.once_in(8) {
            // The header at this place maps nothing.
            cuts[place] = cuts[place - 1];
        }
    }
    let mut parts = Vec::new();
    let mut before = 0;
    for (further, cut) in (1..).zip(cuts) {
        // Beside the numbers 1 to 5, one for each further header so far.
        let cut = cut.max(2 + m + 5 + further).max(before);
        parts.push(cut - before);
        before = cut;
    }
    parts.push(all - before);
    parts
}

/// How many blocks of the index file each header maps, in order: those of 113 pointers, or of any
/// number, but of no more than half of all.
fn full_parts(random: &mut Random, plan: &Plan) -> Vec<u32> {
    let pointers = pointers_of(&plan.index_lbns());
    let most = MOST_POINTERS.min(pointers.len() / 2);
    let any = random.once_in(2);
    let mut parts = Vec::new();
    let mut left = &pointers[..];
    while !left.is_empty() {
        // Boot block, home block, index map and the first slots are at most three pointers.
        let count = if any { random.between(3, most) } else { most };
        let (part, rest) = left.split_at(count.min(left.len()));
        parts.push(part.iter().map(|pointer| pointer.blocks).sum());
        left = rest;
    }
    parts
}

/// File 1, with so many blocks of the index file to each header, in order. The number of each further
/// header is one that those before it have a slot for: often the last of all.
fn index_file(random: &mut Random, plan: &Plan, parts: &[u32]) -> File {
    let lbns = plan.index_lbns();
    let mut names = vec![(1, 1)];
    let mut shares = Vec::new();
    let mut mapped = 0;
    for &part in parts {
        let mut pointers = pointers_of(&lbns[mapped..mapped + part as usize]);
        cut_some(random, &mut pointers);
        shares.push(pointers);
        mapped += part as usize;
        if names.len() < parts.len() {
            let last_slot = mapped as u32 - 2 - plan.index_map_blocks();
            let last = last_slot.min(plan.h_fmax.into()) as u16;
            let number = further_number(random, &names, last);
            names.push((number, random_sequence(random)));
        }
    }
    let headers = names.into_iter().zip(shares);
    File::chain(headers.map(|(name, pointers)| Header {
        areas: Areas::random(random, pointers.len()),
        ..Header::new(name.0, name.1, pointers)
    }))
}

/// A number from 6 to the last that has a slot so far and that no header before has: that last one, the
/// lowest, or any.
fn further_number(random: &mut Random, names: &[(u16, u16)], last: u16) -> u16 {
    let is_taken = |number: u16| names.iter().any(|name| name.0 == number);
    let free: Vec<u16> = (6..=last).filter(|&number| !is_taken(number)).collect();
    match random.below(4) {
        0 => free[0],
        1 => *random.pick(&free),
        _ => free[free.len() - 1],
    }
}

/// The number of the last slot that the first so many headers of file 1 map, or 0.
pub fn last_slot_of(volume: &Volume, headers: usize) -> u32 {
    let headers = &volume.file(1).headers[..headers];
    let mapped: u32 = headers.iter().map(Header::blocks).sum();
    mapped.saturating_sub(2 + volume.plan.index_map_blocks())
}

#[cfg(test)]
mod tests {
    use super::*;
    use crate::shapes::tests::{expect_as_built, expect_some};

    /// Sees that a volume opens as it was built, and that each further header of file 1 has its slot in
    /// the part before.
    fn expect_long(volume: &Volume, headers: usize) {
        let index = volume.file(1);
        assert_eq!(index.headers.len(), headers);
        assert!(index.lbns() == volume.index);
        assert!(last_slot_of(volume, 1) >= 16);
        for (place, header) in index.headers.iter().enumerate().skip(1) {
            assert!(u32::from(header.number) <= last_slot_of(volume, place));
        }
        expect_as_built(volume);
    }

    #[test]
    fn long_volumes_open_as_built() {
        for seed in 0..500 {
            let volume = random_long_volume(&mut Random::new(seed), Size::Small);
            expect_long(&volume, volume.file(1).headers.len());
        }
        for seed in 0..30 {
            let volume = random_long_volume(&mut Random::new(seed), Size::Medium);
            expect_long(&volume, volume.file(1).headers.len());
        }
    }

    #[test]
    fn every_number_of_headers() {
        for headers in 2..=MOST_HEADERS {
            let mut random = Random::new(headers as u64);
            let volume = long_volume(&mut random, 1_300, (300, headers));
            expect_long(&volume, headers);
        }
    }

    #[test]
    fn every_shape_is_met() {
        let make = |seed| {
            let size = if seed % 8 == 0 {
                Size::Medium
            } else {
                Size::Small
            };
            random_long_volume(&mut Random::new(seed), size)
        };
        let volumes: Vec<Volume> = (0..500).map(make).collect();
        let headers = |it: &Volume| it.file(1).headers.len();
        for count in [2, 3, 4, 10, 50, 256] {
            expect_some(&volumes, "index headers", |it| headers(it) == count);
        }
        let further = |it: &Volume, test: &dyn Fn(usize, &Header) -> bool| {
            let headers = it.file(1).headers.iter().enumerate().skip(1);
            headers
                .into_iter()
                .any(|(place, header)| test(place, header))
        };
        expect_some(&volumes, "a header in the last slot before it", |it| {
            further(it, &|place, header| {
                u32::from(header.number) == last_slot_of(it, place)
            })
        });
        expect_some(&volumes, "a header in the part of a further one", |it| {
            further(it, &|_, header| {
                u32::from(header.number) > last_slot_of(it, 1)
            })
        });
        expect_some(&volumes, "an empty segment within", |it| {
            further(it, &|_, header| header.blocks() == 0 && header.link.0 != 0)
        });
        expect_some(&volumes, "an empty segment at the end", |it| {
            further(it, &|_, header| header.blocks() == 0 && header.link.0 == 0)
        });
        expect_some(&volumes, "a link with sequence 0", |it| {
            further(it, &|_, header| header.sequence == 0)
        });
        expect_some(&volumes, "numbers that fall", |it| {
            further(it, &|_, header| (1..header.number).contains(&header.link.0))
        });
        expect_some(&volumes, "a first part of m+18 blocks", |it| {
            last_slot_of(it, 1) == 16
        });
        expect_some(&volumes, "a first part of more", |it| {
            last_slot_of(it, 1) > 40
        });
        expect_some(&volumes, "a file past header 1's part", |it| {
            u32::from(it.roles.plain) > last_slot_of(it, 1)
        });
        expect_some(&volumes, "a chain over parts", |it| {
            let chain = &it.file(it.roles.chained).headers;
            let is_far = |header: &Header| u32::from(header.number) > last_slot_of(it, 1);
            chain.iter().any(is_far) && !chain.iter().all(is_far)
        });
        expect_some(&volumes, "a full map", |it| {
            further(it, &|_, header| header.pointers.len() == MOST_POINTERS)
        });
        let h_fmax = |it: &Volume| u32::from(it.plan.h_fmax);
        expect_some(&volumes, "few slots", |it| it.last_slot() < h_fmax(it));
        expect_some(&volumes, "all slots", |it| it.last_slot() == h_fmax(it));
        expect_some(&volumes, "more slots", |it| it.last_slot() > h_fmax(it));
        for m in [1, 2, 3, 16] {
            expect_some(&volumes, "m", |it| it.plan.index_map_blocks() == m);
        }
        for home in [1, 256, 512] {
            expect_some(&volumes, "home", |it| it.plan.home == home);
        }
    }
}
