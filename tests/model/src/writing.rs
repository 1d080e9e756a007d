//! The calls that change an image: create, extend and delete.
//!
//! Each judges the volume first. Then it is said what is put where and what is answered, or the
//! refusal; only after that something is put, so that a refused call changes no byte of the image.

use crate::answer::{Answer, Number};
use crate::file::{self, Id};
use crate::header::{Header, Pointer};
use crate::image::{put_bit, put_word, sum_of_words, FileNumber, Lbn, BLOCK_BYTES};
use crate::names::{is_proper, Name};
use crate::verdict;
use crate::volume::{self, Volume, MAP_BITS};

/// The known files. Paper 01, "Demand 3, its words and its list": "The known files are numbers 1 to
/// 5."
const KNOWN: std::ops::RangeInclusive<u64> = 1..=5;

/// Something that a call puts into an image.
enum Put {
    /// All bytes of a block.
    Block(Lbn, Vec<u8>),
    /// A bit of a block. Paper 01, "The volume": "Bit j is bit j mod 8 of byte j/8."
    Bit(Lbn, u64, bool),
}

impl Put {
    /// Puts it. Paper 01, "The work and its edge": "a lent image of 512·N bytes".
    fn into(self, image: &mut [u8]) {
        let (Put::Block(lbn, _) | Put::Bit(lbn, ..)) = self;
        let start = BLOCK_BYTES * lbn.0 as usize;
        let block = &mut image[start..start + BLOCK_BYTES];
        match self {
            Put::Block(_, bytes) => block.copy_from_slice(&bytes),
            Put::Bit(_, j, set) => put_bit(block, j, set),
        }
    }
}

/// What a call answers and puts, or its refusal. Paper 00, demand 1: "A refused call changes no byte
/// of the image".
type Change = Result<(Vec<u64>, Vec<Put>), Number>;

/// Judges the volume, and then makes a change if it is not refused. Paper 01, "The verdict":
/// "Create, extend and delete first judge the volume, with the verdict's refusals and marks." Paper
/// 01, "Answer numbers": "Order: 1 to 5; 16; 17 to 21 where judged; 6 to 12; then by number."
fn judged(
    image: &mut [u8],
    blocks: &mut [u8],
    headers: &mut [u8],
    change: impl FnOnce(&Volume) -> Change,
) -> Answer {
    let verdict = verdict::verdict(image, blocks, headers);
    if verdict.is_err() {
        return verdict::answer(&verdict);
    }
    let volume = volume::open(image).expect("it was judged");
    match change(&volume) {
        Err(number) => Answer::refused(number),
        Ok((value, puts)) => {
            puts.into_iter().for_each(|put| put.into(image));
            Answer::done(&value)
        }
    }
}

/// Puts the checksum of a header. Paper 01, "The volume": "The sum of the first 255 words, kept to
/// 16 bits, equals word 255 (headers, home block)."
fn seal(block: &mut [u8]) {
    let sum = sum_of_words(block, 255);
    put_word(block, 2 * 255, sum);
}

/// A number's bit of the index map. Paper 01, "The volume": "Number n .. is in use when index map
/// bit n−1 is set."
fn put_in_use(volume: &Volume, n: FileNumber, in_use: bool) -> Put {
    let (lbn, j) = volume.index_map_bit(n);
    Put::Bit(lbn, j, in_use)
}

/// A block's bit of the storage map. Paper 01, "The volume": "Then q blocks of bits: set means
/// free".
fn put_free(volume: &Volume, lbn: Lbn, free: bool) -> Put {
    let map = volume.storage_map_lbns();
    Put::Bit(map[(lbn.0 / MAP_BITS) as usize], lbn.0 % MAP_BITS, free)
}

/// The word in a slot that create counts on from. Paper 01, "The verdict": "word at byte 4 of the
/// slot".
fn slot_word(volume: &Volume, n: FileNumber) -> Option<u64> {
    volume.slot(n).map(|slot| slot.h_fseq())
}

/// The number that create takes, if there is one. Paper 01, "The verdict": "the lowest n from 6 to
/// H.FMAX with bit clear, a slot, and word at byte 4 of the slot below 65,535."
fn number_to_create(volume: &Volume) -> Option<FileNumber> {
    let mut numbers = (6..=volume.h_fmax()).map(FileNumber);
    numbers.find(|&n| {
        let word = slot_word(volume, n);
        !volume.in_use(n) && word.is_some_and(|word| word < 65_535)
    })
}

/// The header of a new file. Paper 01, "The verdict": "Header: H.IDOF 23, H.MPOF 46, H.FNUM n,
/// H.FSEQ the sequence, H.FLEV 257, the given owner and protection words at H.FOWN and H.FPRO, name
/// at byte 46, type 52, version 54, M.CTSZ 1, M.LBSZ 3, M.MAX 204, checksum; other bytes 0." Paper
/// 01, "The header": "Map area at byte 2·H.MPOF: .. M.CTSZ 6, M.LBSZ 7, .. M.MAX 9".
fn new_header(
    n: FileNumber,
    sequence: u64,
    name: &Name,
    (owner, protection): (u16, u16),
) -> Vec<u8> {
    let mut block = vec![0; BLOCK_BYTES];
    block[0] = 23;
    block[1] = 46;
    put_word(&mut block, 2, n.0);
    put_word(&mut block, 4, sequence);
    put_word(&mut block, 6, 257);
    put_word(&mut block, 8, owner.into());
    put_word(&mut block, 10, protection.into());
    for (place, word) in name.name.into_iter().enumerate() {
        put_word(&mut block, 46 + 2 * place, word.into());
    }
    put_word(&mut block, 52, name.typ.into());
    put_word(&mut block, 54, name.version.into());
    let map_area = 2 * 46;
    block[map_area + 6] = 1;
    block[map_area + 7] = 3;
    block[map_area + 9] = 204;
    seal(&mut block);
    block
}

/// Paper 01, "The verdict": "Create (name, owner, protection): .. The sequence is that word plus 1.
/// .. The index bit is set. Answer: the ID." Paper 01, "Answer numbers": "14 NAME", "27 NONUMBER |
/// create finds no n", "then by number".
fn creation(volume: &Volume, name: &Name, owner: u16, protection: u16) -> Change {
    if !is_proper(name) {
        return Err(Number::Name);
    }
    let n = number_to_create(volume).ok_or(Number::Nonumber)?;
    let sequence = slot_word(volume, n).expect("it has a slot") + 1;
    let lbn = volume.slot_lbn(n).expect("it has a slot");
    let header = new_header(n, sequence, name, (owner, protection));
    let puts = vec![Put::Block(lbn, header), put_in_use(volume, n, true)];
    Ok((vec![n.0, sequence, 0], puts))
}

/// The headers of a file that may be changed. Paper 01, "Answer numbers": "6 to 12; then by number",
/// "22 KNOWN | extend or delete of 1 to 5".
fn headers_to_change<'a>(volume: &Volume<'a>, id: Id) -> Result<Vec<Header<'a>>, Number> {
    let headers = file::headers(volume, id)?;
    if KNOWN.contains(&u64::from(id.number)) {
        return Err(Number::Known);
    }
    Ok(headers)
}

/// Paper 01, "The verdict": "the lowest start of c free blocks in a row".
fn lowest_start(free: &[bool], count: u64) -> Option<Lbn> {
    let mut runs = free.windows(count as usize);
    let start = runs.position(|run| run.iter().all(|&is_free| is_free));
    start.map(|start| Lbn(start as u64))
}

/// A header with a pointer more. Paper 01, "The verdict": "One pointer goes after the last of the
/// last segment, never merged; M.USE, checksum .. follow. The attribute area is never touched."
/// Paper 01, "The header": "M.USE 8, .. pointers from 10".
fn with_pointer(header: Header, pointer: Pointer) -> Vec<u8> {
    let mut block = header.block().to_vec();
    let map_area = header.map_area_at();
    let place = map_area + 10 + 2 * header.m_use() as usize;
    block[place..place + 4].copy_from_slice(&pointer.bytes());
    block[map_area + 8] = (header.m_use() + 2) as u8;
    seal(&mut block);
    block
}

/// Paper 01, "The verdict": "Extend by c, 1 to 256: the lowest start of c free blocks in a row. One
/// pointer goes after the last of the last segment, never merged; M.USE, checksum and map bits
/// follow." Paper 01, "Answer numbers": "23 FIXED | extend with user flag 128 (contiguous)", "24
/// COUNT | c not 1 to 256", "25 FULL | M.USE+2 above M.MAX", "26 RUN | no c free blocks in a row";
/// "first new LBN (extend)".
fn extension(volume: &Volume, id: Id, count: u64) -> Change {
    let headers = headers_to_change(volume, id)?;
    let (first, last) = (headers[0], headers[headers.len() - 1]);
    if first.user_flags() & 128 != 0 {
        return Err(Number::Fixed);
    }
    if !(1..=256).contains(&count) {
        return Err(Number::Count);
    }
    if last.m_use() + 2 > last.m_max() {
        return Err(Number::Full);
    }
    let start = lowest_start(&volume.free_blocks(), count).ok_or(Number::Run)?;
    let pointer = Pointer {
        lbn: start,
        blocks: count,
    };
    let slot = volume.slot_lbn(last.h_fnum()).expect("FILES passed");
    let mut puts = vec![Put::Block(slot, with_pointer(last, pointer))];
    puts.extend(pointer.lbns().map(|lbn| put_free(volume, lbn, false)));
    Ok((vec![start.0], puts))
}

/// What is left in a slot. Paper 01, "The verdict": "its slots 0 but for the sequence word."
fn removed_header(header: Header) -> Vec<u8> {
    let mut block = vec![0; BLOCK_BYTES];
    put_word(&mut block, 4, header.h_fseq());
    block
}

/// Paper 01, "The verdict": "Delete: index bits of the whole chain clear, its blocks free, its slots
/// 0 but for the sequence word." Paper 01, "Answer numbers": "and 0 for delete".
fn deletion(volume: &Volume, id: Id) -> Change {
    let mut puts = Vec::new();
    for header in headers_to_change(volume, id)? {
        let n = header.h_fnum();
        let slot = volume.slot_lbn(n).expect("FILES passed");
        puts.push(put_in_use(volume, n, false));
        puts.push(Put::Block(slot, removed_header(header)));
        let pointers = header.pointers();
        let lbns = pointers.iter().flat_map(Pointer::lbns);
        puts.extend(lbns.map(|lbn| put_free(volume, lbn, true)));
    }
    Ok((vec![0], puts))
}

/// The call. Paper 01, "The verdict": "Create (name, owner, protection): .." and "Answer numbers":
/// "ID (look-up, create)".
pub fn create(
    image: &mut [u8],
    name: &Name,
    (owner, protection): (u16, u16),
    blocks: &mut [u8],
    headers: &mut [u8],
) -> Answer {
    judged(image, blocks, headers, |volume| {
        creation(volume, name, owner, protection)
    })
}

/// The call. Paper 01, "The verdict": "Extend by c, 1 to 256: .." and "Answer numbers": "first new
/// LBN (extend)".
pub fn extend(
    image: &mut [u8],
    id: Id,
    count: u64,
    blocks: &mut [u8],
    headers: &mut [u8],
) -> Answer {
    judged(image, blocks, headers, |volume| {
        extension(volume, id, count)
    })
}

/// The call. Paper 01, "The verdict": "Delete: .." and "Answer numbers": "and 0 for delete".
pub fn delete(image: &mut [u8], id: Id, blocks: &mut [u8], headers: &mut [u8]) -> Answer {
    judged(image, blocks, headers, |volume| deletion(volume, id))
}

#[cfg(test)]
mod tests {
    use super::*;
    use crate::directory::look_up;
    use crate::sample::{changed, id, slot, CONTROL, FILE_6, HOME, INDEX_MAP, MAP, VOLUME_V};
    use crate::{kept, sound};

    /// Bytes at a place: LBN, byte in the block, bytes.
    type Bytes<'a> = (usize, usize, &'a [u8]);

    /// The block of bits of Volume V's storage map.
    const BITS: usize = CONTROL + 1;

    /// READS.DAT;1. Paper 01, "Volume V": "READS is 29001, 7160, 0 (P), DAT 6460 (P)".
    const READS: Name = Name {
        name: [29_001, 7_160, 0],
        typ: 6_460,
        version: 1,
    };

    /// A call on an image, with work areas of 100 and 17 bytes.
    fn with_areas(call: impl FnOnce(&mut [u8], &mut [u8]) -> Answer) -> Answer {
        call(&mut [0xee; 100], &mut [0xee; 17])
    }

    fn created(image: &mut [u8], name: &Name) -> Answer {
        with_areas(|blocks, headers| create(image, name, (0, 0), blocks, headers))
    }

    fn extended(image: &mut [u8], id: Id, count: u64) -> Answer {
        with_areas(|blocks, headers| extend(image, id, count, blocks, headers))
    }

    fn deleted(image: &mut [u8], id: Id) -> Answer {
        with_areas(|blocks, headers| delete(image, id, blocks, headers))
    }

    /// Sees that just these bytes were put into an image, and that it is accepted.
    fn expect_put(before: &[u8], after: &[u8], bytes: &[Bytes]) {
        let mut expected = before.to_vec();
        for &(lbn, at, bytes) in bytes {
            let start = BLOCK_BYTES * lbn + at;
            expected[start..start + bytes.len()].copy_from_slice(bytes);
        }
        let place = (0..after.len()).find(|&place| after[place] != expected[place]);
        let told = place.map(|place| (place / 512, place % 512, after[place], expected[place]));
        assert_eq!(told, None, "LBN, byte, is, was expected");
        assert!(sound::opens_and_is_sound(after));
    }

    /// Sees that a call on Volume V with bytes changed is refused, and puts nothing.
    fn expect_refused(changes: &[Bytes], number: Number, call: impl FnOnce(&mut [u8]) -> Answer) {
        let before = changed(changes);
        let mut after = before.clone();
        let answer = call(&mut after);
        assert_eq!(answer, Answer::refused(number), "{changes:?}");
        assert!(before == after, "{changes:?}");
    }

    #[test]
    fn extend_by_4_takes_26() {
        // Paper 01, "Volume V": "Extend by 4 takes 26 (P), by 67 takes 32, by 68 is RUN (P)."
        let mut image = VOLUME_V.to_vec();
        assert_eq!(extended(&mut image, FILE_6, 4), Answer::done(&[26]));
        let header: [Bytes; 3] = [
            (8, 100, &[6]),
            (8, 110, &[0, 3, 26, 0]),
            (8, 510, &639_u16.to_le_bytes()),
        ];
        expect_put(
            VOLUME_V,
            &image,
            &[&header[..], &[(BITS, 3, &[0x01])]].concat(),
        );
        let lbns: Vec<u64> = (1..=8)
            .map(|vbn| file::map(&image, FILE_6, crate::Vbn(vbn)).value[0])
            .collect();
        assert_eq!(lbns, [30, 31, 25, 26, 27, 28, 29, 0]);
    }

    #[test]
    fn extend_by_67_takes_32_and_by_68_is_run() {
        let mut image = VOLUME_V.to_vec();
        assert_eq!(extended(&mut image, FILE_6, 67), Answer::done(&[32]));
        let put: [Bytes; 4] = [
            (8, 100, &[6]),
            (8, 110, &[0, 66, 32, 0]),
            (8, 510, &16_773_u16.to_le_bytes()),
            (BITS, 4, &[0; 9]),
        ];
        expect_put(VOLUME_V, &image, &put);
        expect_refused(&[], Number::Run, |image| extended(image, FILE_6, 68));
        expect_refused(&[], Number::Run, |image| extended(image, FILE_6, 256));
    }

    #[test]
    fn extend_is_never_merged_and_takes_the_lowest() {
        // One block: 22, then 23, 24 and 26 and so on, each with a pointer of its own.
        let mut image = VOLUME_V.to_vec();
        for (place, lbn) in [22, 23, 24, 26, 27, 28, 29, 32, 33].into_iter().enumerate() {
            assert_eq!(extended(&mut image, FILE_6, 1), Answer::done(&[lbn]));
            let pointer = &image[8 * 512 + 110 + 4 * place..][..4];
            assert_eq!(pointer, [0, 0, lbn as u8, 0]);
            assert_eq!(image[8 * 512 + 100], 6 + 2 * place as u8);
            assert!(sound::opens_and_is_sound(&image));
        }
    }

    #[test]
    fn create_gives_7_1_0() {
        // Paper 01, "Volume V": "Create gives 7,1,0."
        let mut image = VOLUME_V.to_vec();
        assert_eq!(created(&mut image, &READS), Answer::done(&[7, 1, 0]));
        let put: [Bytes; 6] = [
            (INDEX_MAP, 0, &[0x7f]),
            (9, 0, &[23, 46, 7, 0, 1, 0, 1, 1]),
            (9, 46, &[0x49, 0x71, 0xf8, 0x1b, 0, 0, 0x3c, 0x19, 1, 0]),
            (9, 98, &[1, 3]),
            (9, 101, &[204]),
            (9, 510, &42_143_u16.to_le_bytes()),
        ];
        expect_put(VOLUME_V, &image, &put);
        let mut given = VOLUME_V.to_vec();
        let call = |blocks: &mut [u8], headers: &mut [u8]| {
            create(&mut given, &READS, (0x1234, 0xfedc), blocks, headers)
        };
        assert_eq!(with_areas(call), Answer::done(&[7, 1, 0]));
        let sum = (42_143 + 0x1234 + 0xfedc) as u16;
        let words: [Bytes; 2] = [
            (9, 8, &[0x34, 0x12, 0xdc, 0xfe]),
            (9, 510, &sum.to_le_bytes()),
        ];
        expect_put(&image, &given, &words);
        assert_eq!(created(&mut image, &READS), Answer::done(&[8, 1, 0]));
    }

    #[test]
    fn delete_and_create_again() {
        // Paper 01, "Volume V": "Delete 6,9, create: 6,10,0; look-up still gives 6,9,0; opening it
        // is SEQUENCE."
        let mut image = VOLUME_V.to_vec();
        assert_eq!(deleted(&mut image, FILE_6), Answer::done(&[0]));
        let mut slot_6 = [0; 512];
        slot_6[4] = 9;
        let put: [Bytes; 3] = [
            (INDEX_MAP, 0, &[0x1f]),
            (8, 0, &slot_6),
            (BITS, 2, &[0xc0, 0xff]),
        ];
        expect_put(VOLUME_V, &image, &put);
        let opened = |image: &[u8], id| file::open_file(image, id).number;
        assert_eq!(opened(&image, FILE_6), Number::Number);
        assert_eq!(deleted(&mut image, FILE_6).number, Number::Number);
        assert_eq!(created(&mut image, &READS), Answer::done(&[6, 10, 0]));
        assert_eq!(opened(&image, FILE_6), Number::Sequence);
        assert_eq!(opened(&image, id(6, 10)), Number::Done);
        let entry = look_up(&image, id(4, 4), &READS);
        assert_eq!(entry, Answer::done(&[6, 9, 0]));
        assert_eq!(extended(&mut image, FILE_6, 1).number, Number::Sequence);
        assert_eq!(deleted(&mut image, FILE_6).number, Number::Sequence);
        assert_eq!(extended(&mut image, id(6, 10), 8), Answer::done(&[22]));
        assert!(sound::opens_and_is_sound(&image));
    }

    #[test]
    fn names_before_numbers() {
        let bad = Name {
            version: 0,
            ..READS
        };
        expect_refused(&[], Number::Name, |image| created(image, &bad));
        // Numbers 7 to 16 have sequence 65,535, but one has 65,534.
        let slots: Vec<Bytes> = (7..=16).map(|n| (slot(n), 4, &[255, 255][..])).collect();
        expect_refused(&slots, Number::Nonumber, |image| created(image, &READS));
        expect_refused(&slots, Number::Name, |image| created(image, &bad));
        let mut one = slots;
        one.push((slot(12), 4, &[254, 255]));
        let mut image = changed(&one);
        assert_eq!(created(&mut image, &READS), Answer::done(&[12, 65_535, 0]));
        assert_eq!(created(&mut image, &READS).number, Number::Nonumber);
        assert_eq!(deleted(&mut image, id(12, 65_535)), Answer::done(&[0]));
        assert_eq!(created(&mut image, &READS).number, Number::Nonumber);
    }

    #[test]
    fn numbers_without_slot_are_not_created() {
        // H.FMAX 17, and no slot for 17.
        let mut changes: Vec<Bytes> = (7..=16).map(|n| (slot(n), 4, &[255, 255][..])).collect();
        changes.push((HOME, 6, &[17]));
        expect_refused(&changes, Number::Nonumber, |image| created(image, &READS));
    }

    #[test]
    fn refusals_of_extend_in_their_order() {
        let refused = |changes: &[Bytes], id: [u16; 3], count: u64, number: Number| {
            expect_refused(changes, number, |image| {
                extended(image, Id::from_words(id), count)
            });
        };
        let full: Bytes = (slot(6), MAP + 9, &[4]);
        let fixed: Bytes = (slot(6), 12, &[128]);
        let locked: Bytes = (slot(6), 12, &[128 + 64]);
        refused(&[full], [6, 9, 0], 68, Number::Full);
        refused(&[(slot(6), MAP + 9, &[5])], [6, 9, 0], 1, Number::Full);
        refused(&[full], [6, 9, 0], 0, Number::Count);
        refused(&[full], [6, 9, 0], 257, Number::Count);
        refused(&[full, fixed], [6, 9, 0], 257, Number::Fixed);
        refused(&[full, locked], [6, 9, 0], 257, Number::Locked);
        refused(&[full, locked], [6, 8, 0], 257, Number::Sequence);
        refused(&[full, locked], [7, 8, 0], 257, Number::Number);
        refused(&[full, locked], [7, 8, 1], 257, Number::Relvol);
        refused(&[], [5, 5, 0], 0, Number::Known);
        refused(&[(slot(5), 12, &[128])], [5, 5, 0], 0, Number::Known);
        refused(&[(slot(5), 12, &[64])], [5, 5, 0], 0, Number::Locked);
        refused(&[], [1, 7, 0], 1, Number::Sequence);
        refused(&[], [6, 9, 0], 1 << 32, Number::Count);
        refused(&[], [6, 9, 0], 256, Number::Run);
        // A map area with room for just one pointer more.
        let mut image = changed(&[(slot(6), MAP + 9, &[6])]);
        assert_eq!(extended(&mut image, FILE_6, 67), Answer::done(&[32]));
        assert_eq!(extended(&mut image, FILE_6, 1).number, Number::Full);
    }

    #[test]
    fn refusals_of_delete_in_their_order() {
        let refused = |changes: &[Bytes], id: [u16; 3], number: Number| {
            expect_refused(changes, number, |image| deleted(image, Id::from_words(id)));
        };
        for n in 1..=5 {
            refused(&[], [n, n, 0], Number::Known);
            refused(&[], [n, n + 1, 0], Number::Sequence);
        }
        refused(&[(slot(6), 13, &[128])], [6, 9, 0], Number::Locked);
        refused(&[(slot(6), 13, &[128])], [6, 10, 0], Number::Sequence);
        refused(&[], [16, 0, 0], Number::Number);
        refused(&[], [17, 0, 0], Number::Number);
        refused(&[], [0, 0, 0], Number::Number);
        refused(&[], [6, 9, 256], Number::Relvol);
        // A contiguous file can be deleted.
        let mut image = changed(&[(slot(6), 12, &[128])]);
        assert_eq!(deleted(&mut image, FILE_6), Answer::done(&[0]));
    }

    #[test]
    fn the_verdict_comes_first() {
        let call = |image: &mut [u8], areas: (usize, usize)| {
            let (mut blocks, mut headers) = (vec![7; areas.0], vec![7; areas.1]);
            let bad = Id::from_words([6, 8, 1]);
            let answer = extend(image, bad, 0, &mut blocks, &mut headers);
            (answer, blocks, headers)
        };
        for areas in [(99, 16), (100, 15), (0, 0)] {
            let mut image = VOLUME_V.to_vec();
            let (answer, blocks, headers) = call(&mut image, areas);
            assert_eq!(answer, Answer::refused(Number::Work));
            assert!(blocks.iter().chain(&headers).all(|&mark| mark == 7));
            assert!(image == VOLUME_V);
        }
        let mut image = changed(&[(BITS, 2, &[0])]);
        let (answer, blocks, headers) = call(&mut image, (101, 17));
        assert_eq!(answer, Answer::refused_at(Number::Map, 22));
        assert_eq!(blocks[20..26], [1, 1, 0, 0, 0, 1]);
        assert_eq!((blocks[100], headers[15], headers[16]), (7, 0, 7));
        let mut image = changed(&[(slot(6), 6, &[2])]);
        let (answer, ..) = call(&mut image, (101, 17));
        assert_eq!(answer, Answer::refused_at(Number::Files, 6));
        let mut image = VOLUME_V[..51_199].to_vec();
        let answer = created(&mut image, &READS);
        assert_eq!(answer, Answer::refused(Number::Size));
    }

    #[test]
    fn the_marks_are_those_of_the_image_before() {
        let mut image = VOLUME_V.to_vec();
        let (mut blocks, mut headers) = ([7; 100], [7; 16]);
        let answer = extend(&mut image, FILE_6, 4, &mut blocks, &mut headers);
        assert_eq!(answer, Answer::done(&[26]));
        assert_eq!(blocks[25..31], [1, 0, 0, 0, 0, 1]);
        let answer = delete(&mut image, FILE_6, &mut blocks, &mut headers);
        assert_eq!(answer, Answer::done(&[0]));
        assert_eq!(blocks[25..31], [1; 6]);
        assert_eq!(headers, [0; 16]);
    }

    /// File 6 goes on in header 7, of segment 1 and sequence 3, which maps 40 and 41.
    fn chained() -> Vec<u8> {
        const SEVEN: [u8; 8] = [23, 46, 7, 0, 3, 0, 1, 1];
        let mut image = changed(&[
            (INDEX_MAP, 0, &[0x7f]),
            (slot(6), MAP + 2, &[7, 0, 3, 0]),
            (slot(7), 0, &SEVEN),
            (slot(7), MAP, &[1]),
            (slot(7), MAP + 6, &[1, 3, 2, 204, 0, 1, 40, 0]),
            (BITS, 5, &[0xfc]),
        ]);
        seal(&mut image[512 * slot(7)..][..512]);
        assert!(sound::opens_and_is_sound(&image));
        image
    }

    #[test]
    fn a_chain_grows_in_its_last_header_and_goes_as_a_whole() {
        let before = chained();
        let mut image = before.clone();
        assert_eq!(extended(&mut image, id(7, 3), 1).number, Number::Segment);
        assert_eq!(deleted(&mut image, id(7, 3)).number, Number::Segment);
        assert_eq!(extended(&mut image, FILE_6, 57), Answer::done(&[42]));
        assert_eq!(
            image[512 * slot(6)..][..512],
            before[512 * slot(6)..][..512]
        );
        let header = &image[512 * slot(7)..][..512];
        assert_eq!(header[100..110], [4, 204, 0, 1, 40, 0, 0, 56, 42, 0]);
        assert_eq!(deleted(&mut image, FILE_6), Answer::done(&[0]));
        let (mut six, mut seven) = ([0; 512], [0; 512]);
        six[4] = 9;
        seven[4] = 3;
        let put: [Bytes; 4] = [
            (INDEX_MAP, 0, &[0x1f]),
            (slot(6), 0, &six),
            (slot(7), 0, &seven),
            (BITS, 2, &[0xc0, 0xff, 0xff, 0xff]),
        ];
        expect_put(&before, &image, &put);
        assert_eq!(created(&mut image, &READS), Answer::done(&[6, 10, 0]));
        assert_eq!(created(&mut image, &READS), Answer::done(&[7, 4, 0]));
    }

    #[test]
    fn files_that_are_kept() {
        let before = chained();
        let six = kept::File {
            number: FileNumber(6),
            sequence: 9,
        };
        assert_eq!(kept::files(&before), [six]);
        assert!(six.is_named_by(Id::from_words([6, 9, 5])));
        assert!(!six.is_named_by(id(6, 8)) && !six.is_named_by(id(9, 6)));
        let volume = volume::open(&before).expect("it opens");
        let lbns: Vec<u64> = kept::blocks(&volume, six)
            .expect("it is in use")
            .iter()
            .map(|(lbn, _)| lbn.0)
            .collect();
        assert_eq!(lbns, [30, 31, 25, 40, 41]);
        let mut after = before.clone();
        created(&mut after, &READS);
        assert!(kept::is_kept(&before, &after, six));
        assert_eq!(kept::files(&after).len(), 2);
        let mut other = after.clone();
        other[512 * 41 + 5] ^= 1;
        assert!(!kept::is_kept(&before, &other, six));
        let mut longer = before.clone();
        extended(&mut longer, FILE_6, 1);
        assert!(!kept::is_kept(&before, &longer, six));
        let mut gone = before.clone();
        deleted(&mut gone, FILE_6);
        assert!(!kept::is_kept(&before, &gone, six));
        created(&mut gone, &READS);
        assert!(!kept::is_kept(&before, &gone, six));
        let words = kept::slot_words(&gone);
        assert_eq!(words[..8], [1, 2, 3, 4, 5, 10, 3, 0]);
        assert_eq!(words.len(), 16);
    }
}
