//! What the verdict is to accept: an image that opens and is sound. It is said of the image alone,
//! and apart from the verdict: no marks, no places, no order of rules.

use crate::header::{Header, Pointer};
use crate::image::{bit, FileNumber, Lbn};
use crate::volume::{self, home_positions, Volume, MAP_BITS};
use std::collections::BTreeSet;

/// Whether an image is to be accepted. Paper 00, demand 3: "the verdict accepts an image exactly
/// when it opens and is sound". Paper 01, "Demand 3, its words and its list": "It opens where none
/// of 1 to 5 is given."
pub fn opens_and_is_sound(bytes: &[u8]) -> bool {
    let volume = volume::open(bytes);
    volume.is_ok_and(|volume| is_sound(&volume))
}

/// Paper 00, demand 3: "Sound means: its five known files are in use with their own numbers as
/// sequence and segment 0; every header in use has a slot and is whole; extension headers link in
/// single chains; no block is mapped twice; home positions passed over belong to the bad block file;
/// the storage map marks free exactly the unmapped blocks."
pub fn is_sound(volume: &Volume) -> bool {
    let numbers: Vec<FileNumber> = numbers_in_use(volume).collect();
    let slots: Option<Vec<Header>> = numbers.iter().map(|&n| volume.slot(n)).collect();
    let Some(headers) = slots else {
        return false;
    };
    known_files_are_right(volume)
        && every_header_is_whole(volume, &numbers, &headers)
        && chains_are_single(volume, &numbers, &headers)
        && no_block_is_mapped_twice(&headers)
        && passed_over_homes_are_bad_blocks(volume)
        && storage_map_is_right(volume, &mapped(&headers))
}

/// Paper 01, "Demand 3, its words and its list": "A header in use is that of a number in use."
fn numbers_in_use<'v>(volume: &'v Volume) -> impl Iterator<Item = FileNumber> + 'v {
    let numbers = (1..=volume.h_fmax()).map(FileNumber);
    numbers.filter(|&n| volume.in_use(n))
}

/// Paper 01, "Demand 3, its words and its list": "The known files are numbers 1 to 5." Paper 00,
/// demand 3: "in use with their own numbers as sequence and segment 0".
fn known_files_are_right(volume: &Volume) -> bool {
    let mut known = (1..=5).map(FileNumber);
    known.all(|n| {
        let header = volume.slot(n);
        let is_own = |header: Header| header.h_fseq() == n.0 && header.segment() == 0;
        volume.in_use(n) && header.is_some_and(is_own)
    })
}

/// Paper 00, demand 3: "every header in use has a slot and is whole".
fn every_header_is_whole(volume: &Volume, numbers: &[FileNumber], headers: &[Header]) -> bool {
    let blocks = volume.image().blocks();
    let mut all = numbers.iter().zip(headers);
    all.all(|(&n, header)| header.is_whole(n, blocks))
}

/// Paper 01, "Demand 3, its words and its list": "Chains are single where every header in use has a
/// good link, and the number of each is the M.EFNU of no header in use if its segment is 0, of
/// exactly one if it is higher." So the numbers that are linked to, of those in use, are just those
/// of the higher segments, each once.
fn chains_are_single(volume: &Volume, numbers: &[FileNumber], headers: &[Header]) -> bool {
    let links_are_good = headers.iter().all(|&it| volume.next_header(it).is_ok());
    let mut linked: Vec<FileNumber> = headers.iter().map(Header::m_efnu).collect();
    linked.retain(|&n| volume.in_use(n));
    linked.sort_unstable();
    let all = numbers.iter().zip(headers);
    let higher = all.filter(|(_, header)| header.segment() > 0);
    links_are_good && higher.map(|(&n, _)| n).eq(linked)
}

/// The LBNs of every pointer of the headers, one for each place in it. Paper 01, "The header":
/// "count c covers c+1 blocks".
fn places<'h>(headers: &'h [Header]) -> impl Iterator<Item = Lbn> + 'h {
    let pointers = headers.iter().flat_map(Header::pointers);
    pointers.flat_map(|pointer| pointer.lbns())
}

/// Paper 00, demand 3: "no block is mapped twice". No place has the LBN of one before it.
fn no_block_is_mapped_twice(headers: &[Header]) -> bool {
    let mut before = BTreeSet::new();
    places(headers).all(|lbn| before.insert(lbn))
}

/// Paper 01, "Demand 3, its words and its list": "A block is mapped where it is covered by a pointer
/// of a header in use."
fn mapped(headers: &[Header]) -> BTreeSet<Lbn> {
    places(headers).collect()
}

/// Paper 01, "Demand 3, its words and its list": "A home position passed over is one below the home;
/// it belongs to the bad block file where a header of file 3's chain covers it."
fn passed_over_homes_are_bad_blocks(volume: &Volume) -> bool {
    let first = volume.slot(FileNumber(3));
    let first = first.expect("the index file maps the first 16 slots");
    let Ok(chain) = volume.chain(first) else {
        return false;
    };
    let covers = |pointer: &Pointer, lbn: Lbn| pointer.lbn <= lbn && lbn <= pointer.last();
    let positions = home_positions(volume.image().blocks());
    let mut passed_over = positions.take_while(|&position| position < volume.home());
    passed_over.all(|position| {
        let mut headers = chain.iter();
        headers.any(|header| header.pointers().iter().any(|it| covers(it, position)))
    })
}

/// Paper 01, "Demand 3, its words and its list": "The storage map is right where its bits below N
/// are set exactly if not covered, and those from N on are clear."
fn storage_map_is_right(volume: &Volume, mapped: &BTreeSet<Lbn>) -> bool {
    let map = volume.storage_map();
    let mut bits = (0..).zip(map.into_iter().flat_map(|block| {
        let bits = 0..MAP_BITS;
        bits.map(move |j| bit(block, j))
    }));
    let blocks = volume.image().blocks();
    bits.all(|(j, is_set)| is_set == (j < blocks && !mapped.contains(&Lbn(j))))
}

#[cfg(test)]
mod tests {
    use super::*;
    use crate::sample::{changed, slot, CONTROL, HOME, INDEX_MAP, MAP, VOLUME_V};

    /// A change of Volume V: LBN, byte in the block, bytes.
    type Change = (usize, usize, &'static [u8]);

    /// Whether Volume V with bytes changed opens and is sound.
    fn sound(changes: &[Change]) -> bool {
        opens_and_is_sound(&changed(changes))
    }

    /// Whether one rule holds of Volume V with bytes changed.
    fn holds(rule: fn(&Volume, &[FileNumber], &[Header]) -> bool, changes: &[Change]) -> bool {
        let image = changed(changes);
        let volume = volume::open(&image).expect("it opens");
        let numbers: Vec<FileNumber> = numbers_in_use(&volume).collect();
        let slot = |&n| volume.slot(n).expect("it has a slot");
        let headers: Vec<Header> = numbers.iter().map(slot).collect();
        rule(&volume, &numbers, &headers)
    }

    #[test]
    fn volume_v_is_sound() {
        assert!(opens_and_is_sound(VOLUME_V));
        assert!(!opens_and_is_sound(&VOLUME_V[512..]));
        assert!(!opens_and_is_sound(&[]));
        assert!(sound(&[(21, 0, &[0xff; 512]), (slot(7), 0, &[0xff; 512])]));
        assert!(!sound(&[(HOME, 8, &[9])]));
    }

    #[test]
    fn known_files() {
        let rule = |volume: &Volume, _: &[FileNumber], _: &[Header]| known_files_are_right(volume);
        assert!(holds(rule, &[]));
        assert!(holds(rule, &[(INDEX_MAP, 0, &[0x1f])]));
        for byte in [&[0x3e], &[0x3d], &[0x3b], &[0x37], &[0x2f]] {
            assert!(!holds(rule, &[(INDEX_MAP, 0, byte)]));
            assert!(!sound(&[(INDEX_MAP, 0, byte)]));
        }
        for n in [3, 4, 5] {
            assert!(!holds(rule, &[(slot(n), 4, &[9])]));
            assert!(!holds(rule, &[(slot(n), MAP, &[1])]));
        }
        assert!(holds(rule, &[(slot(6), 4, &[8])]));
    }

    #[test]
    fn slots_and_whole_headers() {
        assert!(holds(every_header_is_whole, &[]));
        assert!(!holds(every_header_is_whole, &[(slot(6), 6, &[2])]));
        assert!(!holds(every_header_is_whole, &[(INDEX_MAP, 0, &[0x7f])]));
        assert!(sound(&[(HOME, 6, &[17])]));
        assert!(!sound(&[(HOME, 6, &[17]), (INDEX_MAP, 2, &[1])]));
    }

    #[test]
    fn chains() {
        let link = |n: usize, bytes: &'static [u8]| -> Change { (slot(n), MAP + 2, bytes) };
        let segment = |n: usize, byte: &'static [u8]| -> Change { (slot(n), MAP, byte) };
        // Header 5 as an extension of file 6: a single chain, though no known file.
        let chained = [link(6, &[5, 0, 5, 0]), segment(5, &[1])];
        assert!(holds(chains_are_single, &[]));
        assert!(holds(chains_are_single, &chained));
        assert!(!sound(&chained));
        assert!(!holds(chains_are_single, &chained[..1]));
        assert!(!holds(chains_are_single, &chained[1..]));
        let again = link(4, &[5, 0, 5, 0]);
        assert!(!holds(chains_are_single, &[chained[0], chained[1], again]));
        assert!(!holds(chains_are_single, &[link(6, &[6, 0, 9, 0])]));
        assert!(!holds(chains_are_single, &[link(6, &[7, 0, 0, 0])]));
        assert!(!holds(chains_are_single, &[link(6, &[17, 0, 0, 0])]));
        assert!(!holds(chains_are_single, &[segment(6, &[1])]));
    }

    #[test]
    fn blocks_mapped_twice() {
        for byte in [&[31], &[30], &[21], &[0], &[99]] {
            assert!(!sound(&[(slot(6), 108, byte)]));
        }
        // Block 26 instead of 25.
        let moved: [Change; 2] = [(slot(6), 108, &[26]), (CONTROL + 1, 3, &[0x3b])];
        assert!(sound(&moved));
        assert!(!sound(&moved[..1]));
    }

    #[test]
    fn bits_of_the_storage_map() {
        for (at, byte) in [
            (0, &[1]),
            (2, &[0x80]),
            (3, &[0x3f]),
            (12, &[0x03]),
            (12, &[0x0f]),
            (12, &[0x17]),
            (511, &[0x80]),
        ] {
            assert!(!sound(&[(CONTROL + 1, at, byte)]), "{at}");
        }
    }
}
