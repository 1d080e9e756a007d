//! Create, extend and delete in plain Rust. The volume is judged first, without the four counts of
//! the verdict, which these calls do not answer.

use super::{block, is_proper, judged, sum, word, Answer, Header, Index, Placed, Volume, BLOCK};
use super::{LOCKED, NAME, NO_PLACES, NUMBER, RELVOL, SEGMENT, SEQUENCE};

const KNOWN: u64 = 22;
const FIXED: u64 = 23;
const COUNT: u64 = 24;
const FULL: u64 = 25;
const RUN: u64 = 26;
const NONUMBER: u64 = 27;

/// The two work areas.
type Areas<'a> = (&'a mut [u8], &'a mut [u8]);

/// Writes an answer.
fn put(answer: &mut Answer, result: Result<[u32; 3], Placed>) {
    *answer = [0; 12];
    match result {
        Ok(value) => answer[2..5].copy_from_slice(&value.map(u64::from)),
        Err((number, place)) => answer[..2].copy_from_slice(&[number, place.into()]),
    }
}

/// A block of an image, to change.
fn block_mut(image: &mut [u8], lbn: u32) -> &mut [u8; BLOCK] {
    let start = lbn as usize * BLOCK;
    let bytes = &mut image[start..start + BLOCK];
    bytes.try_into().expect("a block")
}

/// Puts a word, low byte first.
fn put_word(bytes: &mut [u8], at: usize, word: u16) {
    bytes[at..at + 2].copy_from_slice(&word.to_le_bytes());
}

/// Puts the checksum of a header.
fn seal(header: &mut [u8; BLOCK]) {
    let sum = sum(&header[..510]);
    put_word(header, 510, sum);
}

/// Where a map is in an image: its first block.
#[derive(Clone, Copy)]
struct Map(u32);

impl Map {
    /// Puts a bit.
    fn put(self, image: &mut [u8], bit: u32, set: bool) {
        let byte = &mut image[self.0 as usize * BLOCK + bit as usize / 8];
        if set {
            *byte |= 1 << (bit % 8);
        } else {
            *byte &= !(1 << (bit % 8));
        }
    }

    /// Puts the bits of a run of blocks.
    fn put_run(self, image: &mut [u8], (lbn, blocks): (u32, u32), set: bool) {
        for bit in lbn..lbn + blocks {
            self.put(image, bit, set);
        }
    }
}

/// As `ods1_create`.
#[inline(never)]
pub fn create(
    image: &mut [u8],
    name: [u16; 5],
    words: (u16, u16),
    blocks: &mut [u8],
    headers: &mut [u8],
    answer: &mut Answer,
) {
    put(answer, try_create(image, name, words, (blocks, headers)));
}

fn try_create(
    image: &mut [u8],
    name: [u16; 5],
    (owner, protection): (u16, u16),
    areas: Areas,
) -> Result<[u32; 3], Placed> {
    let mut places = NO_PLACES;
    let volume = judged(image, &mut places, areas.0, areas.1)?;
    if !is_proper(name) {
        return Err((NAME, 0));
    }
    let (number, lbn) = volume.number_to_create().ok_or((NONUMBER, 0))?;
    let index_map = Map(volume.h_iblb);
    let header = block_mut(image, lbn);
    let sequence = word(header, 4) + 1;
    header.fill(0);
    header[..2].copy_from_slice(&[23, 46]);
    let words = [number as u16, sequence, 257, owner, protection];
    for (place, word) in words.into_iter().enumerate() {
        put_word(header, 2 + 2 * place, word);
    }
    for (place, word) in name.into_iter().enumerate() {
        put_word(header, 46 + 2 * place, word);
    }
    header[98..102].copy_from_slice(&[1, 3, 0, 204]);
    seal(header);
    index_map.put(image, number - 1, true);
    Ok([number, sequence.into(), 0])
}

impl Volume<'_> {
    /// The lowest number that create may take, and the LBN of its slot.
    fn number_to_create(&self) -> Option<(u32, u32)> {
        let mut slots = (1..).zip(self.slot_lbns()).skip(5);
        slots
            .find(|&(number, lbn)| !self.in_use(number) && word(block(self.image, lbn), 4) < 65_535)
    }

    /// The LBN of the first header of a file that may be changed.
    fn slot_to_change(&self, [number, sequence, third]: [u16; 3]) -> Result<u32, Placed> {
        if third != 0 {
            return Err((RELVOL, 0));
        }
        let lbn = self.slot_lbn(number).ok_or((NUMBER, 0))?;
        let header = Header::known(block(self.image, lbn));
        if header.sequence() != sequence {
            return Err((SEQUENCE, 0));
        }
        if header.segment() != 0 {
            return Err((SEGMENT, 0));
        }
        if header.block[12] & 64 != 0 || header.block[13] & 128 != 0 {
            return Err((LOCKED, 0));
        }
        if number <= 5 {
            return Err((KNOWN, 0));
        }
        Ok(lbn)
    }

    /// The LBN of the header after one, if there is another: LINKS passed.
    fn next_slot(&self, lbn: u32) -> Option<u32> {
        let (number, _) = Header::known(block(self.image, lbn)).link();
        self.slot_lbn(number)
    }

    /// The lowest start of so many free blocks in a row. Past a block that is not free no start
    /// before it is tried again.
    fn lowest_start(&self, count: u32) -> Option<u32> {
        let map = self.storage_map();
        let mut start = 0;
        'starts: while start + count <= self.blocks {
            for bit in start..start + count {
                if map[bit as usize / 8] >> (bit % 8) & 1 == 0 {
                    start = bit + 1;
                    continue 'starts;
                }
            }
            return Some(start);
        }
        None
    }
}

/// As `ods1_extend`.
#[inline(never)]
pub fn extend(
    image: &mut [u8],
    id: [u16; 3],
    count: u32,
    blocks: &mut [u8],
    headers: &mut [u8],
    answer: &mut Answer,
) {
    put(answer, try_extend(image, id, count, (blocks, headers)));
}

fn try_extend(
    image: &mut [u8],
    id: [u16; 3],
    count: u32,
    areas: Areas,
) -> Result<[u32; 3], Placed> {
    let mut places = NO_PLACES;
    let volume = judged(image, &mut places, areas.0, areas.1)?;
    let mut lbn = volume.slot_to_change(id)?;
    if block(image, lbn)[12] & 128 != 0 {
        return Err((FIXED, 0));
    }
    if !(1..=256).contains(&count) {
        return Err((COUNT, 0));
    }
    while let Some(next) = volume.next_slot(lbn) {
        lbn = next;
    }
    let header = Header::known(block(image, lbn));
    let (m_use, m_max) = (header.map[8], header.map[9]);
    if u16::from(m_use) + 2 > u16::from(m_max) {
        return Err((FULL, 0));
    }
    let start = volume.lowest_start(count).ok_or((RUN, 0))?;
    let storage_map = Map(volume.bits);
    let header = block_mut(image, lbn);
    let map_area = 2 * usize::from(header[1]);
    let map = &mut header[map_area..];
    map[8] = m_use + 2;
    let [low, high, top, _] = start.to_le_bytes();
    let pointer = [top, (count - 1) as u8, low, high];
    map[10 + 2 * usize::from(m_use)..][..4].copy_from_slice(&pointer);
    seal(header);
    storage_map.put_run(image, (start, count), false);
    Ok([start, 0, 0])
}

/// As `ods1_delete`.
#[inline(never)]
pub fn delete(
    image: &mut [u8],
    id: [u16; 3],
    blocks: &mut [u8],
    headers: &mut [u8],
    answer: &mut Answer,
) {
    put(answer, try_delete(image, id, (blocks, headers)));
}

fn try_delete(image: &mut [u8], id: [u16; 3], areas: Areas) -> Result<[u32; 3], Placed> {
    let mut places = NO_PLACES;
    let volume = judged(image, &mut places, areas.0, areas.1)?;
    let mut slot = volume.slot_to_change(id)?;
    let maps = (Map(volume.h_iblb), Map(volume.bits));
    let (m, headers) = (volume.m, volume.index.places.len());
    loop {
        let next = remove(image, slot, maps);
        if next == 0 {
            return Ok([0; 3]);
        }
        // The index file keeps its headers, so that slots are found after some are cleared.
        let index = Index {
            image,
            places: &places[..headers],
        };
        let lbn = index.lbn(1 + m + u32::from(next));
        slot = lbn.expect("FILES passed");
    }
}

/// Clears a slot and its number's bit, frees its blocks, and answers the number it linked to.
fn remove(image: &mut [u8], slot: u32, (index_map, storage_map): (Map, Map)) -> u16 {
    let bytes = *block(image, slot);
    let header = Header::known(&bytes);
    for run in header.pointers().iter() {
        storage_map.put_run(image, run, true);
    }
    index_map.put(image, u32::from(word(&bytes, 2)) - 1, false);
    let left = block_mut(image, slot);
    left.fill(0);
    put_word(left, 4, header.sequence());
    header.link().0
}

#[cfg(test)]
mod tests {
    use super::*;
    use model::{writing, Id, Name};
    use volumes::directory::name_words;
    use volumes::long_index::random_long_volume_to_write;
    use volumes::shapes::Size;
    use volumes::writable::random_volume_to_write;
    use volumes::Random;

    /// How often each number was answered.
    type Met = [u64; 29];

    /// An image and the work areas.
    type Desk = (Vec<u8>, Vec<u8>, Vec<u8>);

    /// A random call by plain Rust and by the model, on two of the same; the answers are the same.
    /// Answers the ID that calls go on with.
    fn call(random: &mut Random, ids: &[[u16; 3]], plain: &mut Desk, model: &mut Desk) -> Answer {
        let mut id = *random.pick(ids);
        match random.below(12) {
            0 => id[1] = id[1].wrapping_add(1),
            1 => id[2] = 1,
            2 => id[0] = random.word(),
            _ => (),
        }
        let mut name = name_words("READS.DAT;1");
        name[4] = *random.pick(&[0, 1, 7, 32_767, 32_768]);
        let words = (random.word(), random.word());
        let count = match random.below(8) {
            0 => *random.pick(&[0, 256, 257, u32::MAX]),
            1 => random.long_between(1, 256),
            _ => random.long_between(1, 5),
        };
        let which = random.below(3);
        let mut answer = [u64::MAX; 12];
        let (image, blocks, headers) = (&mut plain.0[..], &mut plain.1[..], &mut plain.2[..]);
        match which {
            0 => create(image, name, words, blocks, headers, &mut answer),
            1 => extend(image, id, count, blocks, headers, &mut answer),
            _ => delete(image, id, blocks, headers, &mut answer),
        }
        let (image, blocks, headers) = (&mut model.0[..], &mut model.1[..], &mut model.2[..]);
        let (id, name) = (Id::from_words(id), Name::from_words(name));
        let expected = match which {
            0 => writing::create(image, &name, words, blocks, headers),
            1 => writing::extend(image, id, count.into(), blocks, headers),
            _ => writing::delete(image, id, blocks, headers),
        };
        assert_eq!(answer, expected.words(), "{which} {id:?} {count}");
        answer
    }

    #[test]
    fn lists_leave_what_the_model_leaves() {
        let mut met: Met = [0; 29];
        for seed in 0..400 {
            let mut random = Random::new(seed);
            let volume = if random.once_in(2) {
                random_volume_to_write(&mut random, Size::Small)
            } else {
                random_long_volume_to_write(&mut random, Size::Small)
            };
            let headers = volume.headers();
            let mut ids: Vec<[u16; 3]> = headers.map(|it| [it.number, it.sequence, 0]).collect();
            let mut image = volume.image.clone();
            if random.once_in(8) {
                let place = random.between(0, image.len() - 1);
                image[place] ^= 0xff;
            }
            let short = usize::from(random.once_in(8));
            let blocks = vec![7; volume.plan.blocks as usize - short];
            let headers = vec![7; usize::from(volume.plan.h_fmax) + 1];
            let mut plain = (image, blocks, headers);
            let mut model = plain.clone();
            for _ in 0..20 {
                let answer = call(&mut random, &ids, &mut plain, &mut model);
                met[answer[0] as usize] += 1;
                assert!(plain == model, "seed {seed}: image or marks differ");
                if answer[0] == 0 && answer[3] != 0 {
                    ids.push([answer[2], answer[3], answer[4]].map(|word| word as u16));
                }
            }
        }
        for number in [0, 6, 7, 9, 10, 11, 14, 16, 22, 23, 24, 25, 26, 27] {
            assert!(met[number] > 20, "{number}: {} times", met[number]);
        }
    }
}
