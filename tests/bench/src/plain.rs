//! The calls in plain Rust: the same work as the exported calls do, on slices, without allocation
//! and without proofs. Each call opens the volume anew, as theirs do; those that change an image,
//! which are in [`writing`], judge it first. Opening fills an array that its caller lends with the
//! places of the index file's headers, and the open volume refers to it.

pub mod facts;
pub mod writing;

use std::ops::Range;

/// An answer as the exported calls write it: number, place, ten value words.
pub type Answer = [u64; 12];

/// The bytes of a block.
const BLOCK: usize = 512;

/// A refusal's number.
type Refusal = u64;

const SIZE: Refusal = 1;
const HOME: Refusal = 2;
const GEOMETRY: Refusal = 3;
const INDEX: Refusal = 4;
const STORAGE: Refusal = 5;
const RELVOL: Refusal = 6;
const NUMBER: Refusal = 7;
const HEADER: Refusal = 8;
const SEQUENCE: Refusal = 9;
const SEGMENT: Refusal = 10;
const LOCKED: Refusal = 11;
const CHAIN: Refusal = 12;
const VBN: Refusal = 13;
const NAME: Refusal = 14;
const ABSENT: Refusal = 15;
const WORK: Refusal = 16;
const FILES: Refusal = 17;
const LINKS: Refusal = 18;
const TWICE: Refusal = 19;
const BADHOME: Refusal = 20;
const MAP: Refusal = 21;

/// A word, low byte first.
fn word(bytes: &[u8], at: usize) -> u16 {
    u16::from_le_bytes([bytes[at], bytes[at + 1]])
}

/// A block of an image.
fn block(image: &[u8], lbn: u32) -> &[u8; BLOCK] {
    let start = lbn as usize * BLOCK;
    let bytes = &image[start..start + BLOCK];
    bytes.try_into().expect("a block")
}

/// The sum of words, kept to 16 bits.
fn sum(words: &[u8]) -> u16 {
    let words = words.chunks_exact(2);
    words.fold(0, |sum: u16, two| sum.wrapping_add(word(two, 0)))
}

/// Retrieval pointers, four bytes each.
#[derive(Clone, Copy)]
struct Pointers<'a>(&'a [u8]);

impl<'a> Pointers<'a> {
    /// Each pointer's LBN and block count, in order.
    fn iter(self) -> impl ExactSizeIterator<Item = (u32, u32)> + 'a {
        self.0.chunks_exact(4).map(|bytes| {
            let lbn = u32::from_le_bytes([bytes[2], bytes[3], bytes[0], 0]);
            (lbn, u32::from(bytes[1]) + 1)
        })
    }

    /// The LBN of a block, counted from 0, or how many blocks it is past the last.
    fn lbn(self, mut ahead: u32) -> Result<u32, u32> {
        for (lbn, blocks) in self.iter() {
            if ahead < blocks {
                return Ok(lbn + ahead);
            }
            ahead -= blocks;
        }
        Err(ahead)
    }

    /// The LBNs of the first, and the others, if there is one.
    fn split_first(self) -> Option<(Range<u32>, Pointers<'a>)> {
        let (lbn, blocks) = self.iter().next()?;
        Some((lbn..lbn + blocks, Pointers(&self.0[4..])))
    }

    /// How many blocks they cover.
    fn blocks(self) -> u32 {
        self.iter().map(|(_, blocks)| blocks).sum()
    }
}

/// A header that is whole.
#[derive(Clone, Copy)]
struct Header<'a> {
    block: &'a [u8; BLOCK],
    map: &'a [u8],
}

impl<'a> Header<'a> {
    /// The header of a number, if it is whole.
    fn whole(block: &'a [u8; BLOCK], number: u16, blocks: u32) -> Option<Header<'a>> {
        let (h_idof, h_mpof) = (block[0], block[1]);
        if sum(&block[..510]) != word(block, 510)
            || word(block, 6) != 257
            || word(block, 2) != number
            || h_idof < 23
            || h_mpof < h_idof
            || h_mpof > 250
        {
            return None;
        }
        let map = &block[2 * usize::from(h_mpof)..];
        let (m_use, m_max) = (map[8], map[9]);
        let header = Header { block, map };
        let fits = m_max <= 250 - h_mpof
            && m_use % 2 == 0
            && m_use <= m_max
            && map[6] == 1
            && map[7] == 3
            && map[1] == 0
            && (word(map, 2) != 0 || word(map, 4) == 0);
        let below = |(lbn, count): (u32, u32)| lbn + count <= blocks;
        (fits && header.pointers().iter().all(below)).then_some(header)
    }

    /// The header in a block that is known to be whole.
    fn known(block: &'a [u8; BLOCK]) -> Header<'a> {
        let map = &block[2 * usize::from(block[1])..];
        Header { block, map }
    }

    fn pointers(&self) -> Pointers<'a> {
        Pointers(&self.map[10..10 + 2 * usize::from(self.map[8])])
    }

    fn sequence(&self) -> u16 {
        word(self.block, 4)
    }

    fn segment(&self) -> u8 {
        self.map[0]
    }

    /// M.EFNU and M.EFSQ.
    fn link(&self) -> (u16, u16) {
        (word(self.map, 2), word(self.map, 4))
    }

    /// Whether it can be the first header of file 1 or 2.
    fn is_known(&self, number: u16) -> bool {
        self.sequence() == number && self.segment() == 0
    }
}

/// The most headers of a chain.
const MOST_HEADERS: usize = 256;

/// Room for the LBNs of the index file's headers.
type Places = [u32; MOST_HEADERS];

/// Room that nothing was put into yet.
const NO_PLACES: Places = [0; MOST_HEADERS];

/// The index file.
#[derive(Clone, Copy)]
struct Index<'a> {
    image: &'a [u8],
    /// The LBNs of its headers, in the order of its chain; all are whole.
    places: &'a [u32],
}

impl<'a> Index<'a> {
    /// The pointers of each header, in order.
    fn pointers(self) -> impl Iterator<Item = Pointers<'a>> {
        let blocks = self.places.iter().map(move |&lbn| block(self.image, lbn));
        blocks.map(|block| Header::known(block).pointers())
    }

    /// The LBN of a block, counted from 0, if the file has so many.
    fn lbn(self, mut ahead: u32) -> Option<u32> {
        for pointers in self.pointers() {
            match pointers.lbn(ahead) {
                Ok(lbn) => return Some(lbn),
                Err(past) => ahead = past,
            }
        }
        None
    }

    /// How many blocks it has.
    fn blocks(self) -> u32 {
        self.pointers().map(Pointers::blocks).sum()
    }

    /// The LBNs of its blocks, in order.
    fn lbns(self) -> Lbns<'a> {
        Lbns {
            ahead: self,
            pointers: Pointers(&[]),
            run: 0..0,
        }
    }
}

/// A walk over the blocks of the index file, which keeps the header and the pointer that it stands in.
struct Lbns<'a> {
    /// The headers that it did not come to yet.
    ahead: Index<'a>,
    /// The header's pointers that it did not come to yet.
    pointers: Pointers<'a>,
    /// The pointer's blocks that it did not come to yet.
    run: Range<u32>,
}

impl Iterator for Lbns<'_> {
    type Item = u32;

    fn next(&mut self) -> Option<u32> {
        loop {
            if let Some(lbn) = self.run.next() {
                return Some(lbn);
            }
            if let Some((pointer, others)) = self.pointers.split_first() {
                self.run = pointer;
                self.pointers = others;
            } else {
                let (&lbn, others) = self.ahead.places.split_first()?;
                self.ahead.places = others;
                self.pointers = Header::known(block(self.ahead.image, lbn)).pointers();
            }
        }
    }
}

/// A volume that is open.
struct Volume<'a> {
    image: &'a [u8],
    blocks: u32,
    home: u32,
    h_fmax: u16,
    h_iblb: u32,
    /// m, the blocks of the index map.
    m: u32,
    index: Index<'a>,
    /// The LBN of the first block of bits of the storage map.
    bits: u32,
}

/// Whether a block is a home block.
fn is_home(block: &[u8; BLOCK]) -> bool {
    &block[496..508] == b"DECFILE11A  "
        && word(block, 0) != 0
        && (word(block, 2) != 0 || word(block, 4) != 0)
        && word(block, 6) != 0
        && word(block, 8) == 1
        && matches!(word(block, 12), 257 | 258)
        && sum(&block[..58]) == word(block, 58)
        && sum(&block[..510]) == word(block, 510)
}

impl<'a> Volume<'a> {
    fn open(image: &'a [u8], places: &'a mut Places) -> Result<Volume<'a>, Refusal> {
        let blocks = image.len() / BLOCK;
        if image.len() % BLOCK != 0 || !(100..=1_044_480).contains(&blocks) {
            return Err(SIZE);
        }
        let blocks = blocks as u32;
        let mut positions = std::iter::once(1).chain((256..blocks).step_by(256));
        let home = positions.find(|&lbn| is_home(block(image, lbn)));
        let home = home.ok_or(HOME)?;
        let bytes = block(image, home);
        let h_fmax = word(bytes, 6);
        let h_iblb = u32::from(word(bytes, 2)) << 16 | u32::from(word(bytes, 4));
        let m = u32::from(h_fmax).div_ceil(4_096);
        let end = u64::from(h_iblb) + u64::from(m) + 16;
        if h_fmax < 16 || u32::from(word(bytes, 0)) != m || end > u64::from(blocks) {
            return Err(GEOMETRY);
        }
        let mut volume = Volume {
            image,
            blocks,
            home,
            h_fmax,
            h_iblb,
            m,
            index: Index { image, places: &[] },
            bits: 0,
        };
        let headers = volume.find_index(places).ok_or(INDEX)?;
        volume.index.places = &places[..headers];
        volume.bits = volume.storage_bits().ok_or(STORAGE)?;
        Ok(volume)
    }

    /// Puts the LBNs of the index file's headers, and answers how many there are, if the file is
    /// right. The slot of each further header is one that those before it map.
    fn find_index(&self, places: &mut Places) -> Option<usize> {
        let first = self.h_iblb + self.m;
        let header = Header::whole(block(self.image, first), 1, self.blocks);
        let mut header = header.filter(|it| it.is_known(1))?;
        if !self.index_starts_right(header.pointers()) {
            return None;
        }
        places[0] = first;
        let mut headers = 1;
        while header.link().0 != 0 {
            let index = Index {
                image: self.image,
                places: &places[..headers],
            };
            let lbn = self.slot_lbn_in(index, header.link().0)?;
            header = self.linked(header, block(self.image, lbn))?;
            places[headers] = lbn;
            headers += 1;
        }
        Some(headers)
    }

    /// Whether the first header of the index file maps the blocks that it must.
    fn index_starts_right(&self, pointers: Pointers) -> bool {
        let pointers = pointers.iter();
        let mut mapped = pointers.flat_map(|(lbn, blocks)| lbn..lbn + blocks);
        let known = self.h_iblb..self.h_iblb + self.m + 16;
        let mut expected = [0, self.home].into_iter().chain(known);
        expected.all(|lbn| mapped.next() == Some(lbn))
    }

    /// Where the bits of the storage map start, if its file is right.
    fn storage_bits(&self) -> Option<u32> {
        let q = self.blocks.div_ceil(4_096);
        let header = Header::whole(block(self.image, self.h_iblb + self.m + 1), 2, self.blocks);
        let header = header.filter(|it| it.is_known(2) && it.link().0 == 0)?;
        let pointers = header.pointers();
        let mut pointers = pointers.iter();
        let (control, bits) = match (pointers.next(), pointers.next(), pointers.next()) {
            (Some((lbn, blocks)), None, None) if blocks == 1 + q => (lbn, lbn + 1),
            (Some((lbn, 1)), Some((bits, blocks)), None) if blocks == q => (lbn, bits),
            _ => return None,
        };
        (u32::from(block(self.image, control)[3]) == q).then_some(bits)
    }

    /// The bytes of the index map.
    fn index_map(&self) -> &'a [u8] {
        let start = self.h_iblb as usize * BLOCK;
        &self.image[start..start + self.m as usize * BLOCK]
    }

    /// Whether a number from 1 to H.FMAX is in use.
    fn in_use(&self, number: u32) -> bool {
        let bit = number as usize - 1;
        self.index_map()[bit / 8] >> (bit % 8) & 1 == 1
    }

    /// The LBN of a number's slot, if it is in use and has one in the index file as far as it is
    /// known.
    fn slot_lbn_in(&self, index: Index, number: u16) -> Option<u32> {
        if number == 0 || number > self.h_fmax || !self.in_use(number.into()) {
            return None;
        }
        index.lbn(1 + self.m + u32::from(number))
    }

    /// The LBN of a number's slot, if it is in use and has one.
    fn slot_lbn(&self, number: u16) -> Option<u32> {
        self.slot_lbn_in(self.index, number)
    }

    /// The block of a number's slot, if it is in use and has one.
    fn slot(&self, number: u16) -> Option<&'a [u8; BLOCK]> {
        let lbn = self.slot_lbn(number)?;
        Some(block(self.image, lbn))
    }

    /// The header in the slot of the number that a header links to, if the link is good.
    fn linked(&self, header: Header, slot: &'a [u8; BLOCK]) -> Option<Header<'a>> {
        let (number, sequence) = header.link();
        let next = Header::whole(slot, number, self.blocks)?;
        let segment = u16::from(header.segment()) + 1;
        let good = next.sequence() == sequence && u16::from(next.segment()) == segment;
        good.then_some(next)
    }

    /// Opens a file, and hands each of its headers over in order.
    fn each_header(&self, id: [u16; 3], mut each: impl FnMut(Header<'a>)) -> Result<(), Refusal> {
        let [number, sequence, third] = id;
        if third != 0 {
            return Err(RELVOL);
        }
        let slot = self.slot(number).ok_or(NUMBER)?;
        let mut header = Header::whole(slot, number, self.blocks).ok_or(HEADER)?;
        if header.sequence() != sequence {
            return Err(SEQUENCE);
        }
        if header.segment() != 0 {
            return Err(SEGMENT);
        }
        if header.block[12] & 64 != 0 || header.block[13] & 128 != 0 {
            return Err(LOCKED);
        }
        loop {
            each(header);
            if header.link().0 == 0 {
                return Ok(());
            }
            let slot = self.slot(header.link().0).ok_or(CHAIN)?;
            header = self.linked(header, slot).ok_or(CHAIN)?;
        }
    }
}

/// Writes an answer.
fn put(answer: &mut Answer, result: Result<&[u64], Refusal>) {
    *answer = [0; 12];
    match result {
        Ok(value) => answer[2..2 + value.len()].copy_from_slice(value),
        Err(number) => answer[0] = number,
    }
}

/// As `ods1_open_volume`.
#[inline(never)]
pub fn open_volume(image: &[u8], answer: &mut Answer) {
    let mut places = NO_PLACES;
    match Volume::open(image, &mut places) {
        Ok(volume) => put(answer, Ok(&[volume.home.into()])),
        Err(number) => put(answer, Err(number)),
    }
}

/// As `ods1_open_file`.
#[inline(never)]
pub fn open_file(image: &[u8], id: [u16; 3], answer: &mut Answer) {
    match count_blocks(image, id) {
        Ok(blocks) => put(answer, Ok(&[blocks.into()])),
        Err(number) => put(answer, Err(number)),
    }
}

fn count_blocks(image: &[u8], id: [u16; 3]) -> Result<u32, Refusal> {
    let mut places = NO_PLACES;
    let volume = Volume::open(image, &mut places)?;
    let mut blocks = 0;
    volume.each_header(id, |header| blocks += header.pointers().blocks())?;
    Ok(blocks)
}

/// As `ods1_map`.
#[inline(never)]
pub fn map(image: &[u8], id: [u16; 3], vbn: u32, answer: &mut Answer) {
    match lbn_of(image, id, vbn) {
        Ok(lbn) => put(answer, Ok(&[lbn.into()])),
        Err(number) => put(answer, Err(number)),
    }
}

fn lbn_of(image: &[u8], id: [u16; 3], vbn: u32) -> Result<u32, Refusal> {
    let mut places = NO_PLACES;
    let volume = Volume::open(image, &mut places)?;
    let mut found = None;
    // VBN 0 becomes the last number of all, which is past every file.
    let mut ahead = vbn.wrapping_sub(1);
    volume.each_header(id, |header| {
        if found.is_none() {
            match header.pointers().lbn(ahead) {
                Ok(lbn) => found = Some(lbn),
                Err(past) => ahead = past,
            }
        }
    })?;
    found.ok_or(VBN)
}

/// As `ods1_look_up`.
#[inline(never)]
pub fn look_up(image: &[u8], id: [u16; 3], name: [u16; 5], answer: &mut Answer) {
    match find_name(image, id, name) {
        Ok(words) => put(answer, Ok(&words.map(u64::from))),
        Err(number) => put(answer, Err(number)),
    }
}

/// The 32 records of each block of some pointers.
fn records<'a>(image: &'a [u8], pointers: Pointers<'a>) -> impl Iterator<Item = &'a [u8]> {
    (0..pointers.0.len() / 4).flat_map(move |number| {
        let pointer = Pointers(&pointers.0[4 * number..4 * number + 4]);
        let (lbn, blocks) = pointer.iter().next().expect("one pointer");
        let start = lbn as usize * BLOCK;
        image[start..start + blocks as usize * BLOCK].chunks_exact(16)
    })
}

fn find_name(image: &[u8], id: [u16; 3], name: [u16; 5]) -> Result<[u16; 3], Refusal> {
    let mut places = NO_PLACES;
    let volume = Volume::open(image, &mut places)?;
    let mut bytes = [0; 10];
    for (two, word) in bytes.chunks_exact_mut(2).zip(name) {
        two.copy_from_slice(&word.to_le_bytes());
    }
    let mut found = None;
    volume.each_header(id, |header| {
        if found.is_none() {
            let equal = |record: &&[u8]| record[6..] == bytes && word(record, 0) != 0;
            found = records(image, header.pointers()).find(equal);
        }
    })?;
    if !is_proper(name) {
        return Err(NAME);
    }
    let record = found.ok_or(ABSENT)?;
    Ok([word(record, 0), word(record, 2), word(record, 4)])
}

/// Whether five words are a proper name.
fn is_proper(name: [u16; 5]) -> bool {
    let [first, second, third, typ, version] = name;
    let length = part_length(&[first, second, third]);
    let type_length = part_length(&[typ]);
    length.is_some_and(|length| length > 0)
        && type_length.is_some()
        && (1..=32_767).contains(&version)
}

/// How many capitals or digits words have before nothing but blanks.
fn part_length(words: &[u16]) -> Option<usize> {
    let codes = words
        .iter()
        .flat_map(|word| [word / 1_600, word / 40 % 40, word % 40]);
    let mut length = 0;
    let mut ended = false;
    for code in codes {
        match code {
            0 => ended = true,
            1..=26 | 30..=39 if !ended => length += 1,
            _ => return None,
        }
    }
    Some(length)
}

/// As `ods1_next_record`.
#[inline(never)]
pub fn next_record(image: &[u8], id: [u16; 3], place: u32, answer: &mut Answer) {
    match find_record(image, id, place) {
        None => put(answer, Err(ABSENT)),
        Some((record, found)) => {
            let mut value = [0; 9];
            for (value, two) in value.iter_mut().zip(record.chunks_exact(2)) {
                *value = word(two, 0).into();
            }
            value[8] = u64::from(found) + 1;
            put(answer, Ok(&value));
        }
    }
}

fn find_record(image: &[u8], id: [u16; 3], place: u32) -> Option<(&[u8], u32)> {
    let mut places = NO_PLACES;
    let volume = Volume::open(image, &mut places).ok()?;
    let mut found = None;
    // The place of the first record of the next pointer.
    let mut start = 0;
    let each = |header: Header| {
        for (lbn, blocks) in header.pointers().iter() {
            let end = start + 32 * blocks;
            if found.is_none() && place < end {
                let first = place.max(start);
                let bytes = &image[lbn as usize * BLOCK..(lbn + blocks) as usize * BLOCK];
                let mut records = bytes[16 * (first - start) as usize..].chunks_exact(16);
                let next = records.position(|record| word(record, 0) != 0);
                found = next.map(|next| {
                    let at = first + next as u32;
                    let from = 16 * (at - start) as usize;
                    (&bytes[from..from + 16], at)
                });
            }
            start = end;
        }
    };
    volume.each_header(id, each).ok()?;
    found
}

/// As `ods1_judge`.
#[inline(never)]
pub fn judge(image: &[u8], blocks: &mut [u8], headers: &mut [u8], answer: &mut Answer) {
    *answer = [0; 12];
    match verdict(image, blocks, headers) {
        Ok(counts) => answer[2..6].copy_from_slice(&counts),
        Err((number, place)) => answer[..2].copy_from_slice(&[number, place.into()]),
    }
}

/// A refusal, and its place.
type Placed = (Refusal, u32);

fn verdict(image: &[u8], blocks: &mut [u8], headers: &mut [u8]) -> Result<[u64; 4], Placed> {
    let mut places = NO_PLACES;
    let volume = judged(image, &mut places, blocks, headers)?;
    let blocks = &blocks[..volume.blocks as usize];
    let claimed = blocks.iter().filter(|&&mark| mark > 0).count();
    let free = volume.storage_map().iter();
    let free: u64 = free.map(|byte| u64::from(byte.count_ones())).sum();
    let in_use = (1..=u32::from(volume.h_fmax)).filter(|&number| volume.in_use(number));
    let headers = in_use.count() as u64;
    Ok([volume.blocks.into(), claimed as u64, free, headers])
}

/// The volume that an image holds, if the verdict accepts it; the marks are left.
fn judged<'a>(
    image: &'a [u8],
    places: &'a mut Places,
    blocks: &mut [u8],
    headers: &mut [u8],
) -> Result<Volume<'a>, Placed> {
    let volume = Volume::open(image, places).map_err(|number| (number, 0))?;
    if blocks.len() < volume.blocks as usize || headers.len() < usize::from(volume.h_fmax) {
        return Err((WORK, 0));
    }
    let blocks = &mut blocks[..volume.blocks as usize];
    let headers = &mut headers[..usize::from(volume.h_fmax)];
    if volume.judge_files()? {
        // No header is linked, and none has a segment number: LINKS is passed.
        headers.fill(0);
    } else {
        volume.mark_links(headers);
        volume.judge_links(headers)?;
    }
    volume.mark_blocks(blocks);
    // That there is none is seen many marks at a time.
    if blocks.iter().copied().max() > Some(1) {
        let lbn = blocks.iter().position(|&mark| mark > 1);
        return Err((TWICE, lbn.expect("the highest is there") as u32));
    }
    volume.judge_badhome(blocks)?;
    volume.judge_map(blocks)?;
    Ok(volume)
}

/// A mark one higher, but not above 2.
fn raised(mark: u8) -> u8 {
    (mark + 1).min(2)
}

impl<'a> Volume<'a> {
    /// The bytes of the storage map's bits.
    fn storage_map(&self) -> &'a [u8] {
        let start = self.bits as usize * BLOCK;
        let length = self.blocks.div_ceil(4_096) as usize * BLOCK;
        &self.image[start..start + length]
    }

    /// The LBN of each slot of a number up to H.FMAX, header by header and run by run.
    fn slot_lbns(&self) -> impl Iterator<Item = u32> + 'a {
        let lbns = self.index.lbns();
        lbns.skip(2 + self.m as usize).take(self.h_fmax.into())
    }

    /// The block of each slot of a number up to H.FMAX, run by run.
    fn slots(&self) -> impl Iterator<Item = &'a [u8; BLOCK]> + '_ {
        self.slot_lbns().map(|lbn| block(self.image, lbn))
    }

    /// The number and header of each number in use: all have a slot and are whole.
    fn headers_in_use(&self) -> impl Iterator<Item = (u32, Header<'a>)> + '_ {
        let slots = (1..).zip(self.slots());
        let in_use = slots.filter(|&(number, _)| self.in_use(number));
        in_use.map(|(number, slot)| (number, Header::known(slot)))
    }

    /// Answers whether each header in use is the only one of its file.
    fn judge_files(&self) -> Result<bool, Placed> {
        let mut single = true;
        let mut last = 0;
        for (number, slot) in (1..).zip(self.slots()) {
            last = number;
            if self.in_use(number) {
                let header = Header::whole(slot, number as u16, self.blocks);
                let header = header.ok_or((FILES, number))?;
                let own = u32::from(header.sequence()) == number && header.segment() == 0;
                if number <= 5 && !own {
                    return Err((FILES, number));
                }
                single &= header.link().0 == 0 && header.segment() == 0;
            } else if number <= 5 {
                return Err((FILES, number));
            }
        }
        let mut without = last + 1..=u32::from(self.h_fmax);
        match without.find(|&number| self.in_use(number)) {
            Some(number) => Err((FILES, number)),
            None => Ok(single),
        }
    }

    /// Marks how many headers link to each number.
    fn mark_links(&self, marks: &mut [u8]) {
        marks.fill(0);
        for (_, header) in self.headers_in_use() {
            let (number, _) = header.link();
            // Number 0 becomes the last of all, which is past the marks.
            if let Some(mark) = marks.get_mut(usize::from(number).wrapping_sub(1)) {
                *mark = raised(*mark);
            }
        }
    }

    fn judge_links(&self, marks: &[u8]) -> Result<(), Placed> {
        for (number, header) in self.headers_in_use() {
            let linked = marks[number as usize - 1];
            let expected = u8::from(header.segment() > 0);
            if linked != expected || !self.link_is_good(header) {
                return Err((LINKS, number));
            }
        }
        Ok(())
    }

    /// Whether the link of a header is good. A header in use is whole.
    fn link_is_good(&self, header: Header) -> bool {
        let (number, sequence) = header.link();
        if number == 0 {
            return true;
        }
        let next = self.slot(number).map(Header::known);
        next.is_some_and(|next| {
            let segment = u16::from(header.segment()) + 1;
            next.sequence() == sequence && u16::from(next.segment()) == segment
        })
    }

    /// Marks how often each block is covered.
    fn mark_blocks(&self, marks: &mut [u8]) {
        marks.fill(0);
        for (_, header) in self.headers_in_use() {
            for (lbn, blocks) in header.pointers().iter() {
                let run = lbn as usize..(lbn + blocks) as usize;
                marks[run].iter_mut().for_each(|mark| *mark = raised(*mark));
            }
        }
    }

    /// Marks the blocks of file 3 with 2 for a while.
    fn judge_badhome(&self, marks: &mut [u8]) -> Result<(), Placed> {
        if self.home == 1 {
            return Ok(());
        }
        let mut number = 3;
        while number != 0 {
            let header = Header::known(self.slot(number).expect("LINKS passed"));
            for (lbn, blocks) in header.pointers().iter() {
                marks[lbn as usize..(lbn + blocks) as usize].fill(2);
            }
            number = header.link().0;
        }
        let mut positions = std::iter::once(1).chain((256..self.home).step_by(256));
        let missing = positions.find(|&lbn| marks[lbn as usize] != 2);
        marks.iter_mut().for_each(|mark| *mark = (*mark).min(1));
        match missing {
            Some(position) => Err((BADHOME, position)),
            None => Ok(()),
        }
    }

    fn judge_map(&self, marks: &[u8]) -> Result<(), Placed> {
        let map = self.storage_map();
        for (place, (&byte, marks)) in map.iter().zip(marks.chunks(8)).enumerate() {
            // A byte that is as its eight marks want it is passed at once.
            let weigh = |(bit, &mark): (usize, &u8)| u8::from(mark == 0) << bit;
            if marks.len() == 8 && byte == marks.iter().enumerate().map(weigh).sum() {
                continue;
            }
            for (bit, &mark) in marks.iter().enumerate() {
                if byte >> bit & 1 == mark.min(1) {
                    return Err((MAP, (8 * place + bit) as u32));
                }
            }
        }
        for bit in marks.len()..8 * map.len() {
            if map[bit / 8] >> (bit % 8) & 1 == 1 {
                return Err((MAP, bit as u32));
            }
        }
        Ok(())
    }
}

#[cfg(test)]
mod tests {
    use super::*;
    use model::{directory, file, verdict, volume, Id, Name, Number, Vbn};
    use volumes::accident::{random_changes, random_flaws, random_index_changes};
    use volumes::damage::{damages, long_index_damages, Checksums};
    use volumes::damage::{long_volumes_to_damage, volumes_to_damage};
    use volumes::directory::name_words;
    use volumes::flaw::{each_flawed, each_flawed_by, long_index_flaws};
    use volumes::flaw::{long_volumes_to_judge, volumes_to_judge, Flawed};
    use volumes::long_index::random_long_volume;
    use volumes::shapes::{random_volume, Size};
    use volumes::{Random, Volume};

    /// How often each number was answered.
    pub(super) type Met = [u64; 29];

    pub(super) fn answer_of(met: &mut Met, call: impl FnOnce(&mut Answer)) -> Answer {
        let mut answer = [u64::MAX; 12];
        call(&mut answer);
        met[answer[0] as usize] += 1;
        answer
    }

    /// Sees that the calls on one file answer as the model does.
    fn expect_file(met: &mut Met, image: &[u8], id: Id) {
        let opened = file::open(image, id);
        let words = id.words();
        let answer = answer_of(met, |answer| open_file(image, words, answer));
        assert_eq!(answer, file::answer_open(&opened).words());
        let blocks = opened.as_ref().map_or(0, |file| file.blocks()) as u32;
        for vbn in [0, 1, 2, blocks / 2, blocks, blocks + 1, u32::MAX] {
            let answer = answer_of(met, |answer| map(image, words, vbn, answer));
            assert_eq!(answer, file::answer_map(&opened, Vbn(vbn.into())).words());
        }
        for place in [0, 7, 31, 32, 33, 32 * blocks, u32::MAX] {
            let answer = answer_of(met, |answer| next_record(image, words, place, answer));
            let expected = directory::answer_next_record(&opened, place.into());
            assert_eq!(answer, expected.words());
        }
        for name in [
            name_words("READS.DAT;1"),
            name_words("A.;1"),
            name_words("ABSENT.;1"),
            [0; 5],
            [1_600, 0, 1_600, 0, 1],
            [1_600, 0, 0, 64_000, 1],
            [1_600, 0, 0, 0, 32_768],
        ] {
            let answer = answer_of(met, |answer| look_up(image, words, name, answer));
            let expected = directory::answer_look_up(&opened, &Name::from_words(name));
            assert_eq!(answer, expected.words());
        }
    }

    /// Sees that all calls answer as the model does.
    fn expect_image(met: &mut Met, sound: &Volume, image: &[u8]) {
        let answer = answer_of(met, |answer| open_volume(image, answer));
        assert_eq!(answer, volume::open_volume(image).words());
        let roles = sound.roles;
        for number in [1, roles.plain, roles.chained, roles.directory, roles.locked] {
            let [number, sequence, _] = sound.file(number).id().words();
            expect_file(met, image, Id::from_words([number, sequence, 0]));
            for words in [[number, sequence ^ 1, 0], [number, sequence, 1]] {
                let id = Id::from_words(words);
                let answer = answer_of(met, |answer| open_file(image, words, answer));
                assert_eq!(answer, file::open_file(image, id).words());
            }
        }
    }

    /// Sees that the verdict and its marks are as the model's.
    fn expect_verdict(met: &mut Met, image: &[u8], areas: (usize, usize)) {
        let (mut blocks, mut headers) = (vec![0xa5; areas.0], vec![0x5a; areas.1]);
        let (mut expected_blocks, mut expected_headers) = (blocks.clone(), headers.clone());
        let answer = answer_of(met, |answer| {
            judge(image, &mut blocks, &mut headers, answer);
        });
        let expected = verdict::judge(image, &mut expected_blocks, &mut expected_headers);
        assert_eq!(answer, expected.words());
        assert_eq!(blocks, expected_blocks);
        assert_eq!(headers, expected_headers);
    }

    /// Sees that every answer of some calls was met.
    pub(super) fn expect_met(met: &Met, numbers: std::ops::RangeInclusive<u64>) {
        for number in Number::all().filter(|number| numbers.contains(&number.number())) {
            let times = met[number.number() as usize];
            assert!(times > 20, "{} {times} times", number.name());
        }
    }

    #[test]
    fn damaged_volumes_are_answered_as_by_the_model() {
        let mut met = [0; 29];
        let volumes = volumes_to_damage(11, 2);
        for damage in damages() {
            for sound in &volumes[..2] {
                let mut damaged = sound.clone();
                if damage.apply(&mut damaged, Checksums::PutRight).is_some() {
                    expect_image(&mut met, sound, &damaged.image);
                }
            }
        }
        for seed in 0..500 {
            let mut random = Random::new(seed);
            let sound = random_volume(&mut random, Size::Small);
            let mut damaged = sound.clone();
            random_changes(&mut random, &mut damaged);
            expect_image(&mut met, &sound, &damaged.image);
            expect_image(&mut met, &sound, &damaged.image[1..]);
        }
        expect_met(&met, 0..=15);
    }

    #[test]
    fn damaged_index_files_are_answered_as_by_the_model() {
        let mut met = [0; 29];
        let volumes = long_volumes_to_damage(11, 4);
        for damage in long_index_damages() {
            for sound in &volumes {
                let mut damaged = sound.clone();
                if damage.apply(&mut damaged, Checksums::PutRight).is_some() {
                    expect_image(&mut met, sound, &damaged.image);
                }
            }
        }
        for seed in 0..500 {
            let mut random = Random::new(seed);
            let sound = random_long_volume(&mut random, Size::Small);
            expect_image(&mut met, &sound, &sound.image);
            let mut damaged = sound.clone();
            random_index_changes(&mut random, &mut damaged);
            expect_image(&mut met, &sound, &damaged.image);
        }
        expect_met(&met, 0..=0);
        expect_met(&met, 4..=4);
    }

    /// Sees that a flaw is judged as by the model, with areas longer than they must be.
    fn expect_flaw(met: &mut Met, flawed: &Flawed) {
        let plan = &flawed.sound.plan;
        let areas = (plan.blocks as usize + 1, usize::from(plan.h_fmax) + 1);
        expect_verdict(met, &flawed.changed.image, areas);
    }

    #[test]
    fn flaws_are_judged_as_by_the_model() {
        let mut met = [0; 29];
        let volumes = volumes_to_judge(12, 6);
        each_flawed(&volumes[..9], |flawed| expect_flaw(&mut met, &flawed));
        let volumes = long_volumes_to_judge(12, 6);
        each_flawed_by(&long_index_flaws(), &volumes, |flawed| {
            expect_flaw(&mut met, &flawed);
        });
        for seed in 0..1_000 {
            let mut random = Random::new(seed);
            let mut changed = if random.once_in(2) {
                random_volume(&mut random, Size::Small)
            } else {
                random_long_volume(&mut random, Size::Small)
            };
            random_flaws(&mut random, &mut changed);
            let (blocks, h_fmax) = (changed.plan.blocks as usize, changed.plan.h_fmax.into());
            expect_verdict(&mut met, &changed.image, (blocks, h_fmax));
            expect_verdict(&mut met, &changed.image, (blocks - 1, h_fmax));
            expect_verdict(&mut met, &changed.image, (blocks, h_fmax - 1));
        }
        expect_met(&met, 16..=21);
    }
}
