//! What a volume, a header and a file say of themselves, and blocks in a row, in plain Rust.

use super::{block, put, word, Answer, Header, Places, Pointers, Refusal, Volume};
use super::{ABSENT, BLOCK, HEADER, NO_PLACES, NUMBER, VBN};

/// Writes an answer of two values, or a refusal.
fn put_two(answer: &mut Answer, result: Result<(u32, u32), Refusal>) {
    match result {
        Ok((first, second)) => put(answer, Ok(&[first.into(), second.into()])),
        Err(number) => put(answer, Err(number)),
    }
}

/// Two words as one number, the high word first.
fn long(bytes: &[u8], at: usize) -> u32 {
    u32::from(word(bytes, at)) << 16 | u32::from(word(bytes, at + 2))
}

/// As `ods1_geometry`.
#[inline(never)]
pub fn geometry(image: &[u8], answer: &mut Answer) {
    let mut places = NO_PLACES;
    match Volume::open(image, &mut places) {
        Ok(volume) => put(answer, Ok(&volume.geometry())),
        Err(number) => put(answer, Err(number)),
    }
}

/// As `ods1_label`.
#[inline(never)]
pub fn label(image: &[u8], answer: &mut Answer) {
    let mut places = NO_PLACES;
    match Volume::open(image, &mut places) {
        Ok(volume) => put(answer, Ok(&volume.label())),
        Err(number) => put(answer, Err(number)),
    }
}

/// As `ods1_header`.
#[inline(never)]
pub fn header(image: &[u8], number: u16, answer: &mut Answer) {
    let mut places = NO_PLACES;
    match seek(image, &mut places, number) {
        Ok(header) => put(answer, Ok(&header.facts())),
        Err(number) => put(answer, Err(number)),
    }
}

/// As `ods1_pointer`.
#[inline(never)]
pub fn pointer(image: &[u8], number: u16, place: u32, answer: &mut Answer) {
    put_two(answer, pointer_of(image, number, place));
}

fn pointer_of(image: &[u8], number: u16, place: u32) -> Result<(u32, u32), Refusal> {
    let mut places = NO_PLACES;
    let header = seek(image, &mut places, number)?;
    let from = header.pointers().0.get(4 * place as usize..);
    let pointer = Pointers(from.ok_or(ABSENT)?).iter().next();
    pointer.ok_or(ABSENT)
}

/// The header of a number in use, whoever may open its file.
fn seek<'a>(image: &'a [u8], places: &'a mut Places, number: u16) -> Result<Header<'a>, Refusal> {
    let volume = Volume::open(image, places)?;
    let slot = volume.slot(number).ok_or(NUMBER)?;
    Header::whole(slot, number, volume.blocks).ok_or(HEADER)
}

impl Volume<'_> {
    /// Where its parts lie.
    fn geometry(&self) -> [u64; 10] {
        let slots = self.index.blocks() - (2 + self.m);
        [
            self.blocks.into(),
            self.home.into(),
            self.m.into(),
            self.h_iblb.into(),
            self.h_fmax.into(),
            slots.into(),
            self.bits.into(),
            self.blocks.div_ceil(4_096).into(),
            word(block(self.image, self.home), 12).into(),
            self.index.places.len() as u64,
        ]
    }

    /// The label in its home block.
    fn label(&self) -> [u64; 10] {
        let home = block(self.image, self.home);
        let places = [14, 16, 18, 20, 22, 24, 30, 32, 34, 36];
        places.map(|at| word(home, at).into())
    }

    /// The first place from a place on, below N, at which the storage map has a bit like this.
    fn next_bit(&self, bit: u8, from: u32) -> Option<u32> {
        let map = self.storage_map();
        let is_like = |&place: &u32| map[place as usize / 8] >> (place % 8) & 1 == bit;
        (from..self.blocks).find(is_like)
    }
}

impl Header<'_> {
    /// What it says.
    fn facts(&self) -> [u64; 10] {
        let (next, next_sequence) = self.link();
        let ident = 2 * usize::from(self.block[0]);
        let name = |place: usize| word(self.block, ident + 2 * place).into();
        [
            self.sequence().into(),
            self.segment().into(),
            next.into(),
            next_sequence.into(),
            self.pointers().iter().len() as u64,
            name(0),
            name(1),
            name(2),
            name(3),
            name(4),
        ]
    }

    /// What it says of a file of so many blocks, of which it is the first header.
    fn attributes(&self, blocks: u32) -> [u64; 10] {
        let block = self.block;
        let all = BLOCK as u64 * u64::from(blocks);
        let (f_efbk, f_ffby) = (long(block, 22), word(block, 26));
        let end = match f_efbk {
            0 => all,
            _ => all.min(BLOCK as u64 * u64::from(f_efbk - 1) + u64::from(f_ffby)),
        };
        [
            blocks.into(),
            end,
            word(block, 8).into(),
            word(block, 10).into(),
            word(block, 12).into(),
            word(block, 14).into(),
            word(block, 16).into(),
            long(block, 18).into(),
            f_efbk.into(),
            f_ffby.into(),
        ]
    }
}

/// As `ods1_attributes`.
#[inline(never)]
pub fn attributes(image: &[u8], id: [u16; 3], answer: &mut Answer) {
    match describe(image, id) {
        Ok(value) => put(answer, Ok(&value)),
        Err(number) => put(answer, Err(number)),
    }
}

fn describe(image: &[u8], id: [u16; 3]) -> Result<[u64; 10], Refusal> {
    let mut places = NO_PLACES;
    let volume = Volume::open(image, &mut places)?;
    let mut first = None;
    let mut blocks = 0;
    volume.each_header(id, |header| {
        first.get_or_insert(header);
        blocks += header.pointers().blocks();
    })?;
    Ok(first.expect("a file has a header").attributes(blocks))
}

/// What the pointers so far tell of the row of blocks from a place on.
#[derive(Clone, Copy)]
enum Row {
    /// The place is so many blocks past them.
    Ahead(u32),
    /// Its first LBN, and its blocks up to the last of them.
    Open(u32, u32),
    /// Its first LBN, and all its blocks.
    Ended(u32, u32),
}

impl Row {
    /// The row with one pointer more.
    fn carried_on(self, from: u32, count: u32) -> Row {
        match self {
            Row::Ahead(ahead) if ahead < count => Row::Open(from + ahead, count - ahead),
            Row::Ahead(ahead) => Row::Ahead(ahead - count),
            Row::Open(lbn, blocks) if lbn + blocks == from => Row::Open(lbn, blocks + count),
            Row::Open(lbn, blocks) | Row::Ended(lbn, blocks) => Row::Ended(lbn, blocks),
        }
    }
}

/// As `ods1_extent`.
#[inline(never)]
pub fn extent(image: &[u8], id: [u16; 3], vbn: u32, answer: &mut Answer) {
    put_two(answer, extent_from(image, id, vbn));
}

fn extent_from(image: &[u8], id: [u16; 3], vbn: u32) -> Result<(u32, u32), Refusal> {
    let mut places = NO_PLACES;
    let volume = Volume::open(image, &mut places)?;
    // VBN 0 becomes the last number of all, which is past every file.
    let mut row = Row::Ahead(vbn.wrapping_sub(1));
    volume.each_header(id, |header| {
        for (lbn, blocks) in header.pointers().iter() {
            row = row.carried_on(lbn, blocks);
        }
    })?;
    match row {
        Row::Ahead(_) => Err(VBN),
        Row::Open(lbn, blocks) | Row::Ended(lbn, blocks) => Ok((lbn, blocks)),
    }
}

/// As `ods1_free_run`.
#[inline(never)]
pub fn free_run(image: &[u8], from: u32, answer: &mut Answer) {
    put_two(answer, free_from(image, from));
}

fn free_from(image: &[u8], from: u32) -> Result<(u32, u32), Refusal> {
    let mut places = NO_PLACES;
    let volume = Volume::open(image, &mut places)?;
    let start = volume.next_bit(1, from).ok_or(ABSENT)?;
    let end = volume.next_bit(0, start).unwrap_or(volume.blocks);
    Ok((start, end - start))
}

#[cfg(test)]
mod tests {
    use super::super::tests::{answer_of, expect_met, Met};
    use super::*;
    use model::{self, FileNumber, Id, Lbn, Vbn};
    use volumes::accident::random_changes;
    use volumes::damage::{damages, volumes_to_damage, Checksums};
    use volumes::long_index::random_long_volume;
    use volumes::shapes::{random_volume, Size};
    use volumes::Random;

    /// Sees that the calls on a header answer as the model does.
    fn expect_header(met: &mut Met, image: &[u8], number: u16) {
        let n = FileNumber(number.into());
        let answer = answer_of(met, |answer| header(image, number, answer));
        assert_eq!(answer, model::facts::header(image, n).words());
        let pointers = answer[6] as u32;
        for place in [0, pointers.saturating_sub(1), pointers, u32::MAX] {
            let answer = answer_of(met, |answer| pointer(image, number, place, answer));
            let expected = model::facts::pointer(image, n, place.into());
            assert_eq!(answer, expected.words(), "{number} {place}");
        }
    }

    /// Sees that the calls on a file answer as the model does: extents from VBN 0, near the bounds,
    /// and from where each begins.
    fn expect_file(met: &mut Met, image: &[u8], words: [u16; 3]) {
        let id = Id::from_words(words);
        let answer = answer_of(met, |answer| attributes(image, words, answer));
        assert_eq!(answer, model::attributes::attributes(image, id).words());
        let file = model::file::open(image, id);
        let starts = file.as_ref().map_or(vec![], model::runs::row_starts);
        let starts = starts.iter().map(|vbn| vbn.0 as u32);
        let blocks = answer[2] as u32;
        for vbn in starts.chain([0, 1, 2, blocks, blocks + 1, u32::MAX]) {
            let answer = answer_of(met, |answer| extent(image, words, vbn, answer));
            let expected = model::runs::answer_extent(&file, Vbn(vbn.into()));
            assert_eq!(answer, expected.words(), "{words:?} {vbn}");
        }
    }

    /// Sees that all calls answer as the model does.
    fn expect_image(met: &mut Met, volume: &volumes::Volume, image: &[u8]) {
        let answer = answer_of(met, |answer| geometry(image, answer));
        assert_eq!(answer, model::facts::geometry(image).words());
        let answer = answer_of(met, |answer| label(image, answer));
        assert_eq!(answer, model::facts::label(image).words());
        for number in [0, volume.plan.h_fmax, u16::MAX] {
            expect_header(met, image, number);
        }
        for header in volume.headers() {
            let (number, sequence) = (header.number, header.sequence);
            expect_header(met, image, number);
            expect_file(met, image, [number, sequence, 0]);
        }
        let (number, blocks) = (volume.roles.plain, volume.plan.blocks);
        let sequence = volume.header(number).sequence;
        expect_file(met, image, [number, sequence ^ 1, 0]);
        expect_file(met, image, [number, sequence, 1]);
        for from in (0..blocks).step_by(9).chain([blocks, u32::MAX]) {
            let answer = answer_of(met, |answer| free_run(image, from, answer));
            let expected = model::runs::free_run(image, Lbn(from.into()));
            assert_eq!(answer, expected.words(), "{from}");
        }
    }

    #[test]
    fn damaged_volumes_say_what_they_say_to_the_model() {
        let mut met = [0; 29];
        let volumes = volumes_to_damage(13, 2);
        for damage in damages() {
            for sound in &volumes[..2] {
                let mut damaged = sound.clone();
                if damage.apply(&mut damaged, Checksums::PutRight).is_some() {
                    expect_image(&mut met, sound, &damaged.image);
                }
            }
        }
        for seed in 0..200 {
            let mut random = Random::new(seed);
            let sound = if random.once_in(2) {
                random_volume(&mut random, Size::Small)
            } else {
                random_long_volume(&mut random, Size::Small)
            };
            expect_image(&mut met, &sound, &sound.image);
            let mut damaged = sound.clone();
            random_changes(&mut random, &mut damaged);
            expect_image(&mut met, &sound, &damaged.image);
            expect_image(&mut met, &sound, &damaged.image[1..]);
        }
        expect_met(&met, 0..=13);
        expect_met(&met, 15..=15);
    }
}
