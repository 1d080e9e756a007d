//! Sound volumes for the calls that change one: nearly full, with numbers used up, with map areas
//! that have no room, and with files that may not be touched.

use crate::block::put_word;
use crate::header::{
    at, pointers_of, Areas, Header, CONTIGUOUS, DEACCESS_LOCKED, MARKED_FOR_DELETE, MOST_POINTERS,
};
use crate::random::Random;
use crate::shapes::{random_volume, Size};
use crate::volume::{File, Volume};

/// A random sound volume, which may have little room of one kind or another.
pub fn random_volume_to_write(random: &mut Random, size: Size) -> Volume {
    let mut volume = random_volume(random, size);
    make_writable(random, &mut volume);
    volume
}

/// Leaves a sound volume little room of one kind or another, or as it is.
pub(crate) fn make_writable(random: &mut Random, volume: &mut Volume) {
    if random.once_in(3) {
        fill(random, volume);
    }
    if random.once_in(3) {
        use_up_numbers(random, volume);
    }
    for _ in 0..random.between(0, 3) {
        narrow(random, volume);
    }
    for _ in 0..random.between(0, 2) {
        flag(random, volume);
    }
}

/// The numbers from 6 on that have a slot and that no file has.
pub fn unused_numbers(volume: &Volume) -> Vec<u16> {
    volume.unused_numbers().collect()
}

/// The blocks that no file has.
pub fn free_blocks(volume: &Volume) -> Vec<u32> {
    let blocks = (0..).zip(volume.covered());
    let free = blocks.filter(|&(_, covered)| !covered);
    free.map(|(lbn, _)| lbn).collect()
}

/// Gives a file all free blocks but for some runs, most of them short.
fn fill(random: &mut Random, volume: &mut Volume) {
    let numbers = unused_numbers(volume);
    if numbers.is_empty() {
        return;
    }
    let number = *random.pick(&numbers);
    let mut lbns = free_blocks(volume);
    for _ in 0..random.between(0, 6) {
        let length = *random.pick(&[1, 1, 2, 3, 7, 16, 40, 260]);
        let start = random.between(0, lbns.len());
        let end = lbns.len().min(start + length);
        lbns.drain(start..end);
    }
    let mut pointers = pointers_of(&lbns);
    pointers.truncate(MOST_POINTERS);
    let header = Header {
        areas: Areas::random(random, pointers.len()),
        ..Header::new(number, random.word(), pointers)
    };
    volume.add(File::of(header));
    volume.put_storage_map();
}

/// Leaves the last sequence of all in the slots of numbers that are not in use, but for a few, of
/// which some have the one before it.
fn use_up_numbers(random: &mut Random, volume: &mut Volume) {
    let few = random.between(0, 3);
    let mut numbers = unused_numbers(volume);
    for _ in 0..few.min(numbers.len()) {
        let place = random.between(0, numbers.len() - 1);
        let number = numbers.swap_remove(place);
        if random.once_in(2) {
            put_sequence(volume, number, 65_534);
        }
    }
    for number in numbers {
        put_sequence(volume, number, 65_535);
    }
}

/// Puts the sequence word of a slot that is not in use.
pub fn put_sequence(volume: &mut Volume, number: u16, sequence: u16) {
    let lbn = volume.slot_of(number);
    put_word(volume.block_mut(lbn), at::H_FSEQ, sequence);
}

/// The number of a file, mostly one above 5. The directory of every volume is left as it is.
fn any_file(random: &mut Random, volume: &Volume) -> u16 {
    let numbers = volume.files.iter().map(File::number);
    let numbers: Vec<u16> = numbers
        .filter(|number| ![1, 2, 4].contains(number))
        .collect();
    *random.pick(&numbers)
}

/// Makes the map area of a file's last header narrow: no room for a pointer more, half of the room,
/// just the room, or half more.
fn narrow(random: &mut Random, volume: &mut Volume) {
    let number = any_file(random, volume);
    let last = volume.file(number).headers.last();
    let last = last.expect("a file has a header");
    let m_max = 2 * last.pointers.len() as u8 + random.byte_between(0, 3);
    if u16::from(last.areas.h_mpof) + 5 + u16::from(m_max) <= 255 {
        let number = last.number;
        volume.edit_header(number, |header| header.areas.m_max = m_max);
    }
}

/// Sets a flag of a file's first header: contiguous, or one that refuses access.
fn flag(random: &mut Random, volume: &mut Volume) {
    let number = any_file(random, volume);
    let which = random.below(4);
    volume.edit_header(number, |header| match which {
        0 => header.user_flags |= DEACCESS_LOCKED,
        1 => header.system_flags |= MARKED_FOR_DELETE,
        _ => header.user_flags |= CONTIGUOUS,
    });
}

#[cfg(test)]
mod tests {
    use super::*;
    use crate::block::word;
    use model::sound;

    /// Sees that among volumes some are so.
    fn expect_some(volumes: &[Volume], least: usize, kind: &str, test: impl Fn(&Volume) -> bool) {
        let met = volumes.iter().filter(|volume| test(volume)).count();
        assert!(met >= least, "{met} volumes with {kind}");
    }

    #[test]
    fn every_kind_is_sound_and_met() {
        let make = |seed| {
            let size = if seed % 8 == 0 {
                Size::Blocks(700)
            } else {
                Size::Small
            };
            random_volume_to_write(&mut Random::new(seed), size)
        };
        let volumes: Vec<Volume> = (0..600).map(make).collect();
        for volume in &volumes {
            assert!(sound::opens_and_is_sound(&volume.image));
        }
        let sequence = |it: &Volume, number| word(it.block(it.slot_of(number)), at::H_FSEQ);
        expect_some(&volumes, 10, "no block free", |it| {
            free_blocks(it).is_empty()
        });
        expect_some(&volumes, 15, "few blocks free", |it| {
            (1..12).contains(&free_blocks(it).len())
        });
        expect_some(&volumes, 30, "no number to create", |it| {
            let mut numbers = unused_numbers(it).into_iter();
            numbers.all(|number| sequence(it, number) == 65_535)
        });
        expect_some(&volumes, 30, "65,534", |it| {
            let mut numbers = unused_numbers(it).into_iter();
            numbers.any(|number| sequence(it, number) == 65_534)
        });
        let last = |it: &File| it.headers.last().expect("a header").clone();
        for more in 0..=3 {
            expect_some(&volumes, 30, "a narrow map area", |it| {
                let mut files = it.files.iter().filter(|file| file.number() > 5).map(last);
                files.any(|it| usize::from(it.areas.m_max) == 2 * it.pointers.len() + more)
            });
        }
        expect_some(&volumes, 100, "a contiguous file", |it| {
            let mut files = it.files.iter().filter(|file| file.number() > 5);
            files.any(|file| file.headers[0].user_flags & CONTIGUOUS != 0)
        });
        for home in [1, 256, 512] {
            expect_some(&volumes, 5, "home", |it| it.plan.home == home);
        }
        expect_some(&volumes, 30, "H.FMAX", |it| it.plan.h_fmax > 4_096);
        expect_some(&volumes, 100, "slots", |it| {
            it.last_slot() < u32::from(it.plan.h_fmax)
        });
    }
}
