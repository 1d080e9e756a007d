//! Files: opening one by its ID, and mapping its VBNs.

use crate::answer::{Answer, Number};
use crate::header::{blocks_of, lbn_of, Header, Pointer};
use crate::image::{offset, FileNumber, Image, Lbn, Vbn, BLOCK_BYTES};
use crate::volume::{self, BadLink, Volume};

/// A file ID. Paper 01, "Names and directories": "ID (3 words)", and "Answer numbers": "RELVOL |
/// third ID word not 0", "SEQUENCE | H.FSEQ differs".
#[derive(Clone, Copy, Debug, PartialEq, Eq)]
pub struct Id {
    pub number: u16,
    pub sequence: u16,
    /// The third word.
    pub volume: u16,
}

impl Id {
    /// The ID of three words. Paper 01, "Names and directories": "ID (3 words)".
    pub fn from_words(words: [u16; 3]) -> Id {
        let [number, sequence, volume] = words;
        Id {
            number,
            sequence,
            volume,
        }
    }

    /// The three words. Paper 01, "Names and directories": "ID (3 words)".
    pub fn words(&self) -> [u16; 3] {
        [self.number, self.sequence, self.volume]
    }
}

/// A file that is open: none of the refusals 1 to 12 is given.
#[derive(Clone, Debug)]
pub struct File<'a> {
    image: Image<'a>,
    /// The pointers of the whole chain. Paper 01, "The header": "VBNs run through its pointers in
    /// order."
    pointers: Vec<Pointer>,
}

/// A file, or the refusal of opening it.
pub type Opened<'a> = Result<File<'a>, Number>;

impl<'a> File<'a> {
    /// Paper 01, "Answer numbers": "block count (open file)". Paper 01, "The header": "count c
    /// covers c+1 blocks".
    pub fn blocks(&self) -> u64 {
        blocks_of(&self.pointers)
    }

    /// The LBN of a VBN. Paper 01, "The header": "VBNs run through its pointers in order."
    pub fn lbn(&self, vbn: Vbn) -> Option<Lbn> {
        lbn_of(&self.pointers, vbn)
    }

    /// The LBNs of the file in VBN order. Paper 01, "The header": "VBNs run through its pointers in
    /// order."
    pub fn lbns_in_order(&self) -> impl Iterator<Item = Lbn> + '_ {
        self.pointers.iter().flat_map(Pointer::lbns)
    }

    /// The blocks of the file in VBN order. Paper 01, "The header": "VBNs run through its pointers
    /// in order."
    pub fn blocks_in_order(&self) -> impl Iterator<Item = &'a [u8]> + '_ {
        self.lbns_in_order().map(|lbn| self.image.block(lbn))
    }
}

/// The header of a number in use, where it is whole. Paper 01, "Answer numbers": "7 NUMBER | 0, above
/// H.FMAX, no slot, not in use", "8 HEADER | not whole".
pub fn whole_header<'a>(volume: &Volume<'a>, n: FileNumber) -> Result<Header<'a>, Number> {
    if n.0 == 0 || n.0 > volume.h_fmax() || !volume.in_use(n) {
        return Err(Number::Number);
    }
    let header = volume.slot(n).ok_or(Number::Number)?;
    if !header.is_whole(n, volume.image().blocks()) {
        return Err(Number::Header);
    }
    Ok(header)
}

/// The first header of a file, where 6 to 11 are not given. Paper 01, "Answer numbers": "6 RELVOL |
/// third ID word not 0", then 7 and 8, "9 SEQUENCE | H.FSEQ differs", "10 SEGMENT | segment not 0",
/// "11 LOCKED | either flag", and "Order: 1 to 5; .. 6 to 12".
fn first_header<'a>(volume: &Volume<'a>, id: Id) -> Result<Header<'a>, Number> {
    if id.volume != 0 {
        return Err(Number::Relvol);
    }
    let header = whole_header(volume, FileNumber(u64::from(id.number)))?;
    if header.h_fseq() != u64::from(id.sequence) {
        return Err(Number::Sequence);
    }
    if header.segment() != 0 {
        return Err(Number::Segment);
    }
    if header.refuses_access() {
        return Err(Number::Locked);
    }
    Ok(header)
}

/// The headers of a file, in the order of its chain, where 6 to 12 are not given. Paper 01, "Answer
/// numbers": "Order: .. 6 to 12", "12 CHAIN | a bad link".
pub fn headers<'a>(volume: &Volume<'a>, id: Id) -> Result<Vec<Header<'a>>, Number> {
    let first = first_header(volume, id)?;
    volume.chain(first).map_err(|_| Number::Chain)
}

/// Opens a file. Paper 01, "The work and its edge": "Every call on a volume opens it first", and
/// "Answer numbers": "Order: 1 to 5; .. 6 to 12".
pub fn open(bytes: &[u8], id: Id) -> Opened<'_> {
    open_in(&volume::open(bytes), id)
}

/// Opens a file of a volume that is opened, or refused. Paper 01, "Answer numbers": "Order: 1 to 5; ..
/// 6 to 12".
pub fn open_in<'a>(volume: &volume::Opened<'a>, id: Id) -> Opened<'a> {
    let volume = volume.as_ref().map_err(|number| *number)?;
    let chain = headers(volume, id)?;
    let pointers = chain.iter().flat_map(Header::pointers).collect();
    Ok(File {
        image: volume.image(),
        pointers,
    })
}

/// What opening a file meets where it answers HEADER: the first of the twelve tests that is not
/// met. Paper 01, "The header": "*Whole* for n: ..".
pub fn unmet_test(bytes: &[u8], id: Id) -> Option<usize> {
    let volume = volume::open(bytes).ok()?;
    if first_header(&volume, id).err()? != Number::Header {
        return None;
    }
    let n = FileNumber(u64::from(id.number));
    volume.slot(n)?.first_unmet(n, volume.image().blocks())
}

/// What opening a file meets where it answers CHAIN. Paper 01, "The header": "*Good link* from a
/// header: ..".
pub fn bad_link(bytes: &[u8], id: Id) -> Option<BadLink> {
    let volume = volume::open(bytes).ok()?;
    let first = first_header(&volume, id).ok()?;
    volume.chain(first).err()
}

/// The answer of open file. Paper 01, "Answer numbers": "block count (open file)".
pub fn answer_open(file: &Opened) -> Answer {
    match file {
        Err(number) => Answer::refused(*number),
        Ok(file) => Answer::done(&[file.blocks()]),
    }
}

/// The LBN of a VBN, or the refusal. Paper 01, "Answer numbers": "13 VBN | 0 or beyond the last",
/// after "6 to 12; then by number".
fn lbn_or_refusal(file: &Opened, vbn: Vbn) -> Result<Lbn, Number> {
    match file {
        Err(number) => Err(*number),
        Ok(file) => file.lbn(vbn).ok_or(Number::Vbn),
    }
}

/// The answer of map. Paper 01, "Answer numbers": "LBN (map)".
pub fn answer_map(file: &Opened, vbn: Vbn) -> Answer {
    match lbn_or_refusal(file, vbn) {
        Err(number) => Answer::refused(number),
        Ok(lbn) => Answer::done(&[lbn.0]),
    }
}

/// The answer of block. Paper 01, "Names and directories": "A block is answered as the image's own
/// 512 bytes, not a copy.", here as the place of those bytes in the image and their number.
pub fn answer_block(file: &Opened, vbn: Vbn) -> Answer {
    match lbn_or_refusal(file, vbn) {
        Err(number) => Answer::refused(number),
        Ok(lbn) => Answer::done(&[offset(lbn), BLOCK_BYTES as u64]),
    }
}

/// The call. Paper 01, "Answer numbers": "block count (open file)".
pub fn open_file(bytes: &[u8], id: Id) -> Answer {
    answer_open(&open(bytes, id))
}

/// The call. Paper 01, "Answer numbers": "LBN (map)".
pub fn map(bytes: &[u8], id: Id, vbn: Vbn) -> Answer {
    answer_map(&open(bytes, id), vbn)
}

/// The call. Paper 01, "Names and directories": "A block is answered as the image's own 512 bytes,
/// not a copy."
pub fn block(bytes: &[u8], id: Id, vbn: Vbn) -> Answer {
    answer_block(&open(bytes, id), vbn)
}

#[cfg(test)]
mod tests {
    use super::*;
    use crate::sample::{changed, id, slot, CONTROL, FILE_6, INDEX_MAP, MAP, VOLUME_V};

    /// What opening 6,9,0 of Volume V answers with bytes changed.
    fn opened(changes: &[(usize, usize, &[u8])]) -> Number {
        open_file(&changed(changes), FILE_6).number
    }

    #[test]
    fn files_of_volume_v() {
        for (file, blocks) in [
            (id(1, 1), 19),
            (id(2, 2), 2),
            (id(3, 3), 1),
            (id(4, 4), 1),
            (id(5, 5), 0),
            (FILE_6, 3),
        ] {
            assert_eq!(open_file(VOLUME_V, file), Answer::done(&[blocks]));
        }
    }

    #[test]
    fn map_and_block_of_volume_v() {
        let mapped = |vbn| map(VOLUME_V, FILE_6, Vbn(vbn));
        assert_eq!(mapped(1), Answer::done(&[30]));
        assert_eq!(mapped(2), Answer::done(&[31]));
        assert_eq!(mapped(3), Answer::done(&[25]));
        for none in [0, 4, u64::from(u32::MAX)] {
            assert_eq!(mapped(none), Answer::refused(Number::Vbn));
        }
        let first = map(VOLUME_V, id(1, 1), Vbn(1));
        assert_eq!(first, Answer::done(&[0]));
        let third = block(VOLUME_V, FILE_6, Vbn(3));
        assert_eq!(third, Answer::done(&[25 * 512, 512]));
        assert_eq!(VOLUME_V[25 * 512], 0x19);
        let none = block(VOLUME_V, FILE_6, Vbn(4));
        assert_eq!(none, Answer::refused(Number::Vbn));
        assert_eq!(
            map(VOLUME_V, id(5, 5), Vbn(1)),
            Answer::refused(Number::Vbn)
        );
    }

    #[test]
    fn refusals_of_an_id() {
        let refused = |words| open_file(VOLUME_V, Id::from_words(words)).number;
        assert_eq!(refused([6, 9, 1]), Number::Relvol);
        assert_eq!(refused([0, 0, 256]), Number::Relvol);
        assert_eq!(refused([0, 9, 0]), Number::Number);
        assert_eq!(refused([7, 0, 0]), Number::Number);
        assert_eq!(refused([17, 0, 0]), Number::Number);
        assert_eq!(refused([65_535, 9, 0]), Number::Number);
        assert_eq!(refused([6, 8, 0]), Number::Sequence);
        assert_eq!(refused([6, 10, 0]), Number::Sequence);
        assert_eq!(refused([6, 9 + 256, 0]), Number::Sequence);
    }

    #[test]
    fn refusals_in_their_order() {
        let six = slot(6);
        let chain: (usize, usize, &[u8]) = (six, MAP + 2, &[7, 0]);
        let locked: (usize, usize, &[u8]) = (six, 12, &[64]);
        let segment: (usize, usize, &[u8]) = (six, MAP, &[1]);
        let sequence: (usize, usize, &[u8]) = (six, 4, &[10]);
        let header: (usize, usize, &[u8]) = (six, 6, &[2]);
        let number: (usize, usize, &[u8]) = (INDEX_MAP, 0, &[0x1f]);
        let storage: (usize, usize, &[u8]) = (CONTROL, 3, &[7]);
        let mut all = vec![chain];
        assert_eq!(opened(&all), Number::Chain);
        for (more, expected) in [
            (locked, Number::Locked),
            (segment, Number::Segment),
            (sequence, Number::Sequence),
            (header, Number::Header),
            (number, Number::Number),
        ] {
            all.push(more);
            assert_eq!(opened(&all), expected);
        }
        let third = Id {
            volume: 1,
            ..FILE_6
        };
        assert_eq!(open_file(&changed(&all), third).number, Number::Relvol);
        all.push(storage);
        assert_eq!(open_file(&changed(&all), third).number, Number::Storage);
        let image = changed(&[chain]);
        assert_eq!(map(&image, FILE_6, Vbn(0)).number, Number::Chain);
        assert_eq!(bad_link(&image, FILE_6), Some(BadLink::NotInUse));
        let image = changed(&[header]);
        assert_eq!(unmet_test(&image, FILE_6), Some(2));
    }

    /// File 6 goes on in header 5, of segment 1, which maps 40 and 41.
    fn chained() -> Vec<(usize, usize, &'static [u8])> {
        vec![
            (slot(6), MAP + 2, &[5, 0, 5, 0]),
            (slot(5), MAP, &[1]),
            (slot(5), 100, &[2, 204, 0, 1, 40, 0]),
        ]
    }

    #[test]
    fn a_chain() {
        let image = changed(&chained());
        assert_eq!(open_file(&image, FILE_6), Answer::done(&[5]));
        let lbns: Vec<u64> = (1..=5)
            .map(|vbn| map(&image, FILE_6, Vbn(vbn)).value[0])
            .collect();
        assert_eq!(lbns, [30, 31, 25, 40, 41]);
        assert_eq!(open_file(&image, id(5, 5)).number, Number::Segment);
        assert_eq!(open_file(&image, id(5, 6)).number, Number::Sequence);
    }

    #[test]
    fn bad_links() {
        let link = |change: (usize, usize, &'static [u8])| {
            let image = changed(&[&chained()[..], &[change]].concat());
            bad_link(&image, FILE_6)
        };
        assert_eq!(link((slot(6), 300, &[1])), None);
        assert_eq!(link((INDEX_MAP, 0, &[0x2f])), Some(BadLink::NotInUse));
        assert_eq!(link((slot(6), MAP + 2, &[17])), Some(BadLink::NotInUse));
        assert_eq!(link((slot(6), MAP + 4, &[6])), Some(BadLink::Sequence));
        assert_eq!(link((slot(5), 4, &[4])), Some(BadLink::Sequence));
        assert_eq!(link((slot(5), MAP, &[0])), Some(BadLink::Segment));
        assert_eq!(link((slot(5), MAP, &[2])), Some(BadLink::Segment));
        assert_eq!(link((slot(5), 2, &[4])), Some(BadLink::NotWhole(3)));
        // To itself, and back.
        assert_eq!(
            link((slot(6), MAP + 2, &[6, 0, 9, 0])),
            Some(BadLink::Segment)
        );
        assert_eq!(
            link((slot(5), MAP + 2, &[6, 0, 9, 0])),
            Some(BadLink::Segment)
        );
        // H.FMAX 17 has no slot for 17.
        let mut changes = chained();
        changes.push((1, 6, &[17]));
        changes.push((INDEX_MAP, 2, &[1]));
        changes.push((slot(6), MAP + 2, &[17]));
        assert_eq!(bad_link(&changed(&changes), FILE_6), Some(BadLink::NoSlot));
        let seventeen = open_file(&changed(&changes), id(17, 0));
        assert_eq!(seventeen.number, Number::Number);
    }

    #[test]
    fn flags_of_the_first_header_only() {
        for (at, bit) in [(12, 64), (13, 128)] {
            let first: (usize, usize, &[u8]) = (slot(6), at, &[bit]);
            assert_eq!(opened(&[first]), Number::Locked);
            let other: [u8; 1] = [!bit];
            assert_eq!(opened(&[(slot(6), at, &other)]), Number::Done);
            let mut changes = chained();
            changes.push((slot(5), 12, &[255, 255]));
            assert_eq!(opened(&changes), Number::Done);
        }
    }
}
