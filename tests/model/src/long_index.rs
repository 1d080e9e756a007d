//! Tests of index files with several headers: Volume V, with header 6 as the second of file 1. Paper
//! 02, 9/14: "Slots, verdict and all calls read the long map."

use crate::answer::{Answer, Number};
use crate::header::Header;
use crate::image::{FileNumber, Lbn, Vbn};
use crate::names::Name;
use crate::sample::{changed, id, seal, slot, CONTROL, FILE_6, HOME, INDEX_MAP, MAP};
use crate::volume::{bad_index, open, open_volume, BadIndex, BadLink};
use crate::{facts, file, sound, verdict, writing};

/// A change of Volume V: LBN, byte in the block, bytes.
type Change = (usize, usize, &'static [u8]);

/// Header 6 is segment 1 of file 1. Blocks 30, 31 and 25, which it maps, are the slots of 17 to 19.
const LONG: [Change; 3] = [
    (HOME, 6, &[24]),
    (3, MAP + 2, &[6, 0, 9, 0]),
    (8, MAP, &[1]),
];

/// The slot of 17, the first that header 6 maps.
const SLOT_17: usize = 30;

/// The slot of 17 has a header, number 17, sequence 3, segment 2, which maps block 40.
const THIRD: [Change; 5] = [
    (SLOT_17, 0, &[0; 512]),
    (SLOT_17, 0, &[23, 46, 17, 0, 3, 0, 1, 1]),
    (SLOT_17, MAP, &[2, 0, 0, 0, 0, 0, 1, 3, 2, 204, 0, 0, 40, 0]),
    (8, MAP + 2, &[17, 0, 3, 0]),
    (INDEX_MAP, 0, &[0x3f, 0, 1]),
];

/// Volume V with header 6 as the second of file 1, and bytes changed.
fn long(changes: &[Change]) -> Vec<u8> {
    let mut image = changed(&[&LONG[..], changes].concat());
    seal(&mut image, SLOT_17);
    image
}

/// The same with header 17 as the third.
fn longer(changes: &[Change]) -> Vec<u8> {
    long(&[&THIRD[..], changes].concat())
}

/// Sees that opening an image answers INDEX, and why.
fn expect_index(image: &[u8], why: BadIndex) {
    assert_eq!(open_volume(image), Answer::refused(Number::Index));
    assert_eq!(bad_index(image), Some(why));
}

/// Sees that opening an image answers INDEX for a link.
fn expect_bad_link(image: &[u8], why: BadLink) {
    expect_index(image, BadIndex::Link(why));
}

/// The LBNs of the slots of some numbers.
fn slots(image: &[u8], numbers: std::ops::RangeInclusive<u64>) -> Vec<Option<Lbn>> {
    let volume = open(image).expect("it opens");
    numbers.map(|n| volume.slot_lbn(FileNumber(n))).collect()
}

#[test]
fn slots_of_the_long_map() {
    let lbns = |lbns: [u64; 4]| lbns.map(|lbn| Some(Lbn(lbn)));
    let image = long(&[]);
    assert_eq!(slots(&image, 16..=19), lbns([18, 30, 31, 25]));
    assert_eq!(slots(&image, 20..=21), [None, None]);
    assert_eq!(facts::geometry(&image).value[5], 19);
    let image = longer(&[]);
    assert_eq!(slots(&image, 17..=20), lbns([30, 31, 25, 40]));
    assert_eq!(slots(&image, 21..=21), [None]);
    assert_eq!(facts::geometry(&image).value[5], 20);
    assert_eq!(file::open_file(&image, id(1, 1)), Answer::done(&[23]));
    let last = file::map(&image, id(1, 1), Vbn(23));
    assert_eq!(last, Answer::done(&[40]));
    let seventeen = facts::header(&image, FileNumber(17));
    assert_eq!(seventeen, Answer::done(&[3, 2, 0, 0, 1]));
    assert_eq!(file::open_file(&image, id(17, 3)).number, Number::Segment);
}

#[test]
fn a_segment_without_blocks() {
    let image = long(&[(8, 100, &[0])]);
    assert_eq!(slots(&image, 16..=17), [Some(Lbn(18)), None]);
    // Header 5 is the third, and maps block 40, which is the slot of 17.
    let image = long(&[
        (8, 100, &[0]),
        (8, MAP + 2, &[5, 0, 5, 0]),
        (7, MAP, &[2]),
        (7, 100, &[2, 204, 0, 0, 40, 0]),
    ]);
    assert_eq!(slots(&image, 17..=18), [Some(Lbn(40)), None]);
}

#[test]
fn bad_links() {
    let link = |bytes: &'static [u8]| long(&[(3, MAP + 2, bytes)]);
    expect_bad_link(&long(&[(INDEX_MAP, 0, &[0x1f])]), BadLink::NotInUse);
    expect_bad_link(&link(&[7, 0, 0, 0]), BadLink::NotInUse);
    // Above H.FMAX, whose bit is set.
    let above = long(&[(3, MAP + 2, &[25, 0, 0, 0]), (INDEX_MAP, 3, &[0xff])]);
    expect_bad_link(&above, BadLink::NotInUse);
    expect_bad_link(&link(&[6, 0, 8, 0]), BadLink::Sequence);
    expect_bad_link(&link(&[6, 0, 0, 0]), BadLink::Sequence);
    expect_bad_link(&long(&[(8, 4, &[10])]), BadLink::Sequence);
    expect_bad_link(&long(&[(8, MAP, &[0])]), BadLink::Segment);
    expect_bad_link(&long(&[(8, MAP, &[2])]), BadLink::Segment);
    expect_bad_link(&long(&[(8, 2, &[7])]), BadLink::NotWhole(3));
    expect_bad_link(&long(&[(8, MAP + 4, &[1])]), BadLink::NotWhole(11));
    expect_bad_link(&long(&[(8, 108, &[100])]), BadLink::NotWhole(12));
    let mut unsealed = long(&[]);
    unsealed[512 * 8 + 300] ^= 1;
    expect_bad_link(&unsealed, BadLink::NotWhole(1));
    expect_index(&long(&[(3, MAP + 2, &[0, 0, 9, 0])]), BadIndex::Header1);
}

#[test]
fn links_to_itself_and_back() {
    expect_bad_link(&long(&[(3, MAP + 2, &[1, 0, 1, 0])]), BadLink::Segment);
    expect_bad_link(&long(&[(8, MAP + 2, &[6, 0, 9, 0])]), BadLink::Segment);
    expect_bad_link(&long(&[(8, MAP + 2, &[1, 0, 1, 0])]), BadLink::Segment);
    for back in [&[1, 0, 1, 0], &[6, 0, 9, 0], &[17, 0, 3, 0]] {
        let image = longer(&[(SLOT_17, MAP + 2, back)]);
        expect_bad_link(&image, BadLink::Segment);
    }
}

#[test]
fn a_slot_not_yet_mapped() {
    // Past all slots.
    let past: [Change; 2] = [(8, MAP + 2, &[20, 0, 0, 0]), (INDEX_MAP, 2, &[8])];
    expect_bad_link(&long(&past), BadLink::NoSlot);
    // Header 17 would map its own slot, or one after it would.
    let own: [Change; 3] = [
        (3, MAP + 2, &[17, 0, 3, 0]),
        (SLOT_17, MAP, &[1]),
        (SLOT_17, 104, &[30]),
    ];
    expect_bad_link(&longer(&own), BadLink::NoSlot);
    let later: [Change; 4] = [
        (3, MAP + 2, &[17, 0, 3, 0]),
        (SLOT_17, MAP, &[1, 0, 6, 0, 9, 0]),
        (8, MAP, &[2, 0, 0, 0, 0, 0]),
        (SLOT_17, 100, &[0]),
    ];
    expect_bad_link(&longer(&later), BadLink::NoSlot);
    // Of 16 the slot is the last of the first part, and it is enough.
    let last: [Change; 5] = [
        (3, MAP + 2, &[16, 0, 3, 0]),
        (18, 0, &[23, 46, 16, 0, 3, 0, 1, 1]),
        (18, MAP, &[1, 0, 6, 0, 9, 0, 1, 3, 0, 204]),
        (8, MAP, &[2]),
        (INDEX_MAP, 1, &[0x80]),
    ];
    let mut image = long(&last);
    seal(&mut image, 18);
    assert_eq!(slots(&image, 17..=17), [Some(Lbn(30))]);
}

#[test]
fn the_first_segment_alone_maps_what_it_must() {
    // Blocks 0 to 17, and 18 is the first that header 6 maps.
    let short = long(&[(3, 103, &[17]), (8, 104, &[18]), (8, 103, &[0])]);
    expect_index(&short, BadIndex::FirstBlocks);
    let other = long(&[(3, 100, &[4, 204, 0, 17, 0, 0, 0, 0, 40, 0])]);
    expect_index(&other, BadIndex::FirstBlocks);
}

#[test]
fn bits_of_headers_1_and_2_and_flags_are_not_asked() {
    assert_eq!(
        open_volume(&long(&[(INDEX_MAP, 0, &[0x20])])).number,
        Number::Done
    );
    let flags = long(&[(3, 12, &[0xff, 0xff]), (8, 12, &[0xff, 0xff])]);
    assert_eq!(open_volume(&flags).number, Number::Done);
    // An extension of header 2 is refused as before, be it a good link.
    let storage: [Change; 2] = [(4, MAP + 2, &[5, 0, 5, 0]), (7, MAP, &[1])];
    assert_eq!(open_volume(&long(&storage)).number, Number::Storage);
    let control = long(&[(CONTROL, 3, &[7])]);
    assert_eq!(open_volume(&control).number, Number::Storage);
}

#[test]
fn the_verdict_of_a_long_index() {
    let judged = |image: &[u8]| verdict::judge(image, &mut [7; 100], &mut [7; 24]);
    let image = long(&[]);
    assert_eq!(judged(&image), Answer::done(&[100, 26, 74, 6]));
    assert!(sound::opens_and_is_sound(&image));
    // Block 40 is covered, but the storage map has it free.
    let image = longer(&[]);
    assert_eq!(judged(&image), Answer::refused_at(Number::Map, 40));
    let image = longer(&[(CONTROL + 1, 5, &[0xfe])]);
    assert_eq!(judged(&image), Answer::done(&[100, 27, 73, 7]));
    assert!(sound::opens_and_is_sound(&image));
    let mut headers = [7; 25];
    verdict::judge(&image, &mut [7; 100], &mut headers);
    let linked: Vec<usize> = (0..25).filter(|&at| headers[at] == 1).collect();
    assert_eq!(linked, [5, 16]);
    assert_eq!(headers[24], 7);
    // 18 and 21 in use: one has a slot that is not whole, the other none.
    let in_use = |byte: &'static [u8]| judged(&long(&[(INDEX_MAP, 2, byte)]));
    assert_eq!(in_use(&[2]), Answer::refused_at(Number::Files, 18));
    assert_eq!(in_use(&[16]), Answer::refused_at(Number::Files, 21));
}

#[test]
fn changes_past_header_1() {
    let mut image = longer(&[(CONTROL + 1, 5, &[0xfe])]);
    for n in 7..=16 {
        let word = 512 * slot(n) + 4;
        image[word..word + 2].copy_from_slice(&[0xff, 0xff]);
    }
    // The word in the slot of 18 is that of block 31 of Volume V.
    let reads = Name::from_words([29_001, 7_160, 0, 6_460, 1]);
    let (mut blocks, mut headers) = ([7; 100], [7; 24]);
    let created = writing::create(&mut image, &reads, (1, 2), &mut blocks, &mut headers);
    assert_eq!(created, Answer::done(&[18, 0x1f20, 0]));
    let header = Header::of(&image[512 * 31..512 * 32]);
    assert!(header.is_whole(FileNumber(18), 100));
    let new = id(18, 0x1f20);
    let extended = writing::extend(&mut image, new, 2, &mut blocks, &mut headers);
    assert_eq!(extended, Answer::done(&[22]));
    assert!(sound::opens_and_is_sound(&image));
    assert_eq!(file::map(&image, new, Vbn(2)), Answer::done(&[23]));
    let deleted = writing::delete(&mut image, new, &mut blocks, &mut headers);
    assert_eq!(deleted, Answer::done(&[0]));
    assert!(sound::opens_and_is_sound(&image));
    // The index file itself cannot be touched.
    let extended = writing::extend(&mut image, id(1, 1), 1, &mut blocks, &mut headers);
    assert_eq!(extended.number, Number::Known);
    let deleted = writing::delete(&mut image, FILE_6, &mut blocks, &mut headers);
    assert_eq!(deleted.number, Number::Segment);
}
