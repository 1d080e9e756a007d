//! A volume: its home block and geometry, its index file and its storage map file.

use crate::answer::{Answer, Number};
use crate::header::{blocks_of, lbn_of, Header, Pointer};
use crate::image::{
    bit, checksum_is_right, sum_of_words, two_words_high_first, word, FileNumber, Image, Lbn, Vbn,
};

/// The bits of a block of a map. Paper 01, "The volume": "m = H.IBSZ = H.FMAX/4096 rounded up" and
/// "q = N/4096 rounded up".
pub const MAP_BITS: u64 = 4096;

/// The headers that follow the index map. Paper 01, "The volume": "H.IBLB + m + 16 ≤ N".
const FIRST_HEADERS: u64 = 16;

/// A volume that is open: none of the refusals 1 to 5 is given.
#[derive(Clone, Debug)]
pub struct Volume<'a> {
    image: Image<'a>,
    home: Home,
    /// The pointers of all headers in the chain of file 1, in order.
    index: Vec<Pointer>,
    /// How many headers that chain has.
    index_headers: u64,
}

/// The home block: where it is, and its fields that later rules use.
#[derive(Clone, Copy, Debug)]
struct Home {
    lbn: Lbn,
    h_ibsz: u64,
    h_iblb: u64,
    h_fmax: u64,
}

/// Paper 01, "The volume": "Positions 1, 256, 512, 768 and so on, below N".
pub fn home_positions(blocks: u64) -> impl Iterator<Item = Lbn> {
    let after = (1..).map(|number| 256 * number);
    let all = std::iter::once(1).chain(after);
    all.take_while(move |&position| position < blocks).map(Lbn)
}

/// Paper 01, "The volume": "both checksums right, H.IBSZ, H.IBLB, H.FMAX not 0, H.SBCL 1, H.VLEV
/// 257 or 258, H.INDF `DECFILE11A` and two spaces", and "H.CHK1, byte 58, is the same sum over
/// words 0 to 28".
fn is_home(block: &[u8]) -> bool {
    let both_checksums = checksum_is_right(block) && sum_of_words(block, 29) == word(block, 58);
    let h_ibsz = word(block, 0);
    let h_iblb = two_words_high_first(block, 2);
    let h_fmax = word(block, 6);
    let h_sbcl = word(block, 8);
    let h_vlev = word(block, 12);
    let h_indf = &block[496..508];
    both_checksums
        && h_ibsz != 0
        && h_iblb != 0
        && h_fmax != 0
        && h_sbcl == 1
        && (h_vlev == 257 || h_vlev == 258)
        && h_indf == b"DECFILE11A  "
}

/// Paper 01, "The volume": "the home is the first that has ..".
fn find_home(image: Image) -> Option<Home> {
    let mut positions = home_positions(image.blocks());
    let lbn = positions.find(|&position| is_home(image.block(position)))?;
    let block = image.block(lbn);
    Some(Home {
        lbn,
        h_ibsz: word(block, 0),
        h_iblb: two_words_high_first(block, 2),
        h_fmax: word(block, 6),
    })
}

/// Paper 01, "The volume": "Geometry. H.FMAX at least 16; m = H.IBSZ = H.FMAX/4096 rounded up;
/// H.IBLB + m + 16 ≤ N."
fn geometry_is_right(image: Image, home: Home) -> bool {
    let m = home.h_fmax.div_ceil(MAP_BITS);
    home.h_fmax >= 16 && home.h_ibsz == m && home.h_iblb + m + FIRST_HEADERS <= image.blocks()
}

/// What headers 1 and 2 have in common. Paper 01, "The volume": "It must be whole, ID 1,1, segment
/// 0" and "Header 2, whole, ID 2,2, segment 0".
fn is_known_header(image: Image, header: Header, n: u64) -> bool {
    header.is_whole(FileNumber(n), image.blocks()) && header.h_fseq() == n && header.segment() == 0
}

/// Whether header 1 alone maps what it must. Paper 01, "The volume": "Its VBN 1 maps to LBN 0, VBN 2
/// to the home, VBN 3 to m+18 to H.IBLB onward." Paper 02, 9/14: "The first segment must still map
/// VBN 1 to m+18."
fn maps_first_blocks(pointers: &[Pointer], home: Home) -> bool {
    let m = home.h_ibsz;
    let from_h_iblb = (3..=m + 18).map(|vbn| (vbn, home.h_iblb + (vbn - 3)));
    let mut expected = [(1, 0), (2, home.lbn.0)].into_iter().chain(from_h_iblb);
    expected.all(|(vbn, lbn)| lbn_of(pointers, Vbn(vbn)) == Some(Lbn(lbn)))
}

/// What is wrong with an index file. No answer tells it; the tests count what they meet.
#[derive(Clone, Copy, Debug, PartialEq, Eq)]
pub enum BadIndex {
    /// "It must be whole, ID 1,1, segment 0".
    Header1,
    /// "The first segment must still map VBN 1 to m+18."
    FirstBlocks,
    /// "a bad link or a slot not yet mapped".
    Link(BadLink),
}

/// A volume with its index file, if that is right. Paper 01, "The volume": "Index file. Header 1 lies
/// at LBN H.IBLB + m. It must be whole, ID 1,1, segment 0". Paper 02, 9/14: "The header of each further
/// segment must have its slot in the part that earlier segments map.", and "INDEX also for a bad link or
/// a slot not yet mapped; no longer for an extension as such." So each link is asked of a volume whose
/// index file is the part that the segments before it map.
fn with_index(image: Image, home: Home) -> Result<Volume, BadIndex> {
    let header_1 = Header::of(image.block(Lbn(home.h_iblb + home.h_ibsz)));
    if !is_known_header(image, header_1, 1) {
        return Err(BadIndex::Header1);
    }
    if !maps_first_blocks(&header_1.pointers(), home) {
        return Err(BadIndex::FirstBlocks);
    }
    let mut part = Volume {
        image,
        home,
        index: header_1.pointers(),
        index_headers: 1,
    };
    let mut last = header_1;
    while let Some(next) = part.next_header(last).map_err(BadIndex::Link)? {
        part.index.extend(next.pointers());
        part.index_headers += 1;
        last = next;
    }
    Ok(part)
}

/// Paper 01, "The volume": "maps exactly 1+q blocks, q = N/4096 rounded up, by one pointer, or by
/// two of which the first maps one block".
fn maps_storage(pointers: &[Pointer], q: u64) -> bool {
    let by_one_or_two = match pointers {
        [_] => true,
        [first, _] => first.blocks == 1,
        _ => false,
    };
    by_one_or_two && blocks_of(pointers) == 1 + q
}

/// Paper 01, "The volume": "Storage map file. Header 2, whole, ID 2,2, segment 0, no extension,
/// maps exactly 1+q blocks, .. Byte 3 of its first block is q; the other bytes there are not read."
fn storage_is_right(volume: &Volume) -> bool {
    let q = volume.image.blocks().div_ceil(MAP_BITS);
    let header = volume.slot(FileNumber(2));
    let header = header.expect("the index file maps the first 16 slots");
    if !is_known_header(volume.image, header, 2) || !header.ends_chain() {
        return false;
    }
    let pointers = header.pointers();
    if !maps_storage(&pointers, q) {
        return false;
    }
    let first_block = volume.image.block(pointers[0].lbn);
    u64::from(first_block[3]) == q
}

/// A volume, or the refusal of opening it.
pub type Opened<'a> = Result<Volume<'a>, Number>;

/// Opens a volume. Paper 01, "Answer numbers": "1 SIZE, 2 HOME, 3 GEOMETRY, 4 INDEX, 5 STORAGE |
/// opening, in this order".
pub fn open(bytes: &[u8]) -> Opened<'_> {
    let image = Image::of(bytes).ok_or(Number::Size)?;
    let home = find_home(image).ok_or(Number::Home)?;
    if !geometry_is_right(image, home) {
        return Err(Number::Geometry);
    }
    let volume = with_index(image, home).map_err(|_| Number::Index)?;
    if !storage_is_right(&volume) {
        return Err(Number::Storage);
    }
    Ok(volume)
}

/// What opening meets where it answers INDEX. Paper 01, "Answer numbers": "4 INDEX .. opening, in this
/// order".
pub fn bad_index(bytes: &[u8]) -> Option<BadIndex> {
    let image = Image::of(bytes)?;
    let home = find_home(image)?;
    if !geometry_is_right(image, home) {
        return None;
    }
    with_index(image, home).err()
}

/// The answer of open volume. Paper 01, "Answer numbers": "DONE has place 0 and as value the home LBN
/// (open volume)".
pub fn answer_open(volume: &Opened) -> Answer {
    match volume {
        Err(number) => Answer::refused(*number),
        Ok(volume) => Answer::done(&[volume.home.lbn.0]),
    }
}

/// The call. Paper 01, "Answer numbers": "DONE has place 0 and as value the home LBN (open
/// volume)".
pub fn open_volume(bytes: &[u8]) -> Answer {
    answer_open(&open(bytes))
}

/// What is wrong with a link. Paper 01, "The header": "names a number in use with a slot, whole,
/// with H.FSEQ = M.EFSQ and a segment number one higher".
#[derive(Clone, Copy, Debug, PartialEq, Eq)]
pub enum BadLink {
    NotInUse,
    NoSlot,
    /// The first of the twelve tests that is not met.
    NotWhole(usize),
    Sequence,
    Segment,
}

impl<'a> Volume<'a> {
    /// Paper 01, "The work and its edge": "The library works over a lent image of 512·N bytes".
    pub fn image(&self) -> Image<'a> {
        self.image
    }

    /// The home's LBN. Paper 01, "The volume": "the home is the first that has ..".
    pub fn home(&self) -> Lbn {
        self.home.lbn
    }

    /// The bytes of the home block. Paper 01, "The volume": "Home block, bytes: H.IBSZ 0; ..".
    pub fn home_block(&self) -> &'a [u8] {
        self.image.block(self.home.lbn)
    }

    /// Paper 01, "The volume": "H.IBSZ 0".
    pub fn h_ibsz(&self) -> u64 {
        self.home.h_ibsz
    }

    /// Paper 01, "The volume": "H.IBLB 2 (high word first)".
    pub fn h_iblb(&self) -> u64 {
        self.home.h_iblb
    }

    /// Paper 01, "The volume": "H.FMAX 6".
    pub fn h_fmax(&self) -> u64 {
        self.home.h_fmax
    }

    /// How many numbers have a slot. Paper 01, "The volume": "The slot of file n is VBN 2+m+n; past
    /// the mapped blocks n has no slot." Paper 02, 9/14: "Slots .. read the long map."
    pub fn slots(&self) -> u64 {
        let m = self.home.h_ibsz;
        blocks_of(&self.index) - (2 + m)
    }

    /// How many headers the index file has. Paper 02, 9/14: "all headers in the chain of file 1".
    pub fn index_headers(&self) -> u64 {
        self.index_headers
    }

    /// The LBNs of the blocks of bits of the storage map file. Paper 01, "The volume": "Byte 3 of its
    /// first block is q; .. Then q blocks of bits".
    pub fn storage_map_lbns(&self) -> Vec<Lbn> {
        let header = self.slot(FileNumber(2));
        let header = header.expect("the index file maps the first 16 slots");
        let pointers = header.pointers();
        pointers.iter().flat_map(Pointer::lbns).skip(1).collect()
    }

    /// The blocks of bits of the storage map file. Paper 01, "The volume": "Byte 3 of its first
    /// block is q; .. Then q blocks of bits".
    pub fn storage_map(&self) -> Vec<&'a [u8]> {
        let lbns = self.storage_map_lbns().into_iter();
        lbns.map(|lbn| self.image.block(lbn)).collect()
    }

    /// Whether each block below N is free. Paper 01, "The volume": "q blocks of bits: set means free;
    /// bits from N on must be clear, which MAP tests and opening does not."
    pub fn free_blocks(&self) -> Vec<bool> {
        let map = self.storage_map();
        let is_free = |j: u64| bit(map[(j / MAP_BITS) as usize], j % MAP_BITS);
        (0..self.image.blocks()).map(is_free).collect()
    }

    /// The LBN of a number's slot, if it has one. Paper 01, "The volume": "The slot of file n is VBN
    /// 2+m+n; past the mapped blocks n has no slot." Paper 02, 9/14: "Slots .. read the long map."
    pub fn slot_lbn(&self, n: FileNumber) -> Option<Lbn> {
        let m = self.home.h_ibsz;
        lbn_of(&self.index, Vbn(2 + m + n.0))
    }

    /// The header in a number's slot, if it has one. Paper 01, "The volume": "The slot of file n is
    /// VBN 2+m+n; past the mapped blocks n has no slot."
    pub fn slot(&self, n: FileNumber) -> Option<Header<'a>> {
        let lbn = self.slot_lbn(n)?;
        Some(Header::of(self.image.block(lbn)))
    }

    /// Where the bit of a number from 1 to H.FMAX is: a block of the index map, and the bit in it.
    /// Paper 01, "The volume": "index map bit n−1". The index map is at H.IBLB: "VBN 3 to m+18 to
    /// H.IBLB onward".
    pub fn index_map_bit(&self, n: FileNumber) -> (Lbn, u64) {
        let j = n.0 - 1;
        (Lbn(self.home.h_iblb + j / MAP_BITS), j % MAP_BITS)
    }

    /// Paper 01, "The volume": "Number n, from 1 to H.FMAX only, is in use when index map bit n−1
    /// is set. Bit j is bit j mod 8 of byte j/8."
    pub fn in_use(&self, n: FileNumber) -> bool {
        if !(1..=self.home.h_fmax).contains(&n.0) {
            return false;
        }
        let (lbn, j) = self.index_map_bit(n);
        bit(self.image.block(lbn), j)
    }

    /// Why a number is not that of a whole header in use, or that header. Paper 01, "The header":
    /// "names a number in use with a slot, whole".
    fn linked(&self, n: FileNumber) -> Result<Header<'a>, BadLink> {
        if !self.in_use(n) {
            return Err(BadLink::NotInUse);
        }
        let header = self.slot(n).ok_or(BadLink::NoSlot)?;
        match header.first_unmet(n, self.image.blocks()) {
            Some(test) => Err(BadLink::NotWhole(test)),
            None => Ok(header),
        }
    }

    /// The header that a whole header links to, or none where the chain ends. Paper 01, "The
    /// header": "*Good link* from a header: M.EFNU is 0, or names a number in use with a slot,
    /// whole, with H.FSEQ = M.EFSQ and a segment number one higher."
    pub fn next_header(&self, header: Header) -> Result<Option<Header<'a>>, BadLink> {
        if header.ends_chain() {
            return Ok(None);
        }
        let next = self.linked(header.m_efnu())?;
        if next.h_fseq() != header.m_efsq() {
            Err(BadLink::Sequence)
        } else if next.segment() != header.segment() + 1 {
            Err(BadLink::Segment)
        } else {
            Ok(Some(next))
        }
    }

    /// The headers of a chain, the first one included, if every link is good. Paper 01, "The
    /// header": "A chain thus ends within 256 headers."
    pub fn chain(&self, first: Header<'a>) -> Result<Vec<Header<'a>>, BadLink> {
        let mut headers = vec![first];
        let mut last = first;
        while let Some(next) = self.next_header(last)? {
            headers.push(next);
            last = next;
            assert!(headers.len() <= 256, "a chain ends within 256 headers");
        }
        Ok(headers)
    }
}

#[cfg(test)]
mod tests {
    use super::*;
    use crate::sample::{changed, slot, CONTROL, HOME, INDEX_MAP, MAP, VOLUME_V};

    /// What opening Volume V answers with bytes changed.
    fn opened(changes: &[(usize, usize, &[u8])]) -> Number {
        open_volume(&changed(changes)).number
    }

    #[test]
    fn volume_v_opens() {
        assert_eq!(changed(&[]), VOLUME_V);
        assert_eq!(open_volume(VOLUME_V), Answer::done(&[1]));
    }

    #[test]
    fn positions_of_the_home() {
        let positions = |blocks| -> Vec<u64> { home_positions(blocks).map(|it| it.0).collect() };
        assert_eq!(positions(100), [1]);
        assert_eq!(positions(256), [1]);
        assert_eq!(positions(257), [1, 256]);
        assert_eq!(positions(769), [1, 256, 512, 768]);
        assert_eq!(positions(1_044_480).len(), 4_080);
    }

    #[test]
    fn sizes() {
        assert_eq!(open_volume(&[]).number, Number::Size);
        assert_eq!(open_volume(&VOLUME_V[1..]).number, Number::Size);
        assert_eq!(open_volume(&VOLUME_V[512..]).number, Number::Size);
    }

    #[test]
    fn fields_of_the_home() {
        for (at, bytes) in [
            (0, &[0][..]),
            (4, &[0]),
            (6, &[0]),
            (8, &[0]),
            (8, &[2]),
            (9, &[1]),
            (12, &[0]),
            (12, &[3]),
            (13, &[2]),
            (496, b"d"),
            (505, b"B"),
            (506, b"\0"),
            (507, b"\0"),
        ] {
            assert_eq!(opened(&[(HOME, at, bytes)]), Number::Home, "{at} {bytes:?}");
        }
        assert_eq!(opened(&[(HOME, 12, &[2])]), Number::Done);
        assert_eq!(
            opened(&[(HOME, 495, &[1]), (HOME, 508, &[1])]),
            Number::Done
        );
        for at in [58, 59, 60, 510, 511] {
            let mut image = VOLUME_V.to_vec();
            image[512 * HOME + at] ^= 1;
            assert_eq!(open_volume(&image).number, Number::Home, "{at}");
        }
    }

    #[test]
    fn only_one_checksum_right() {
        let mut image = VOLUME_V.to_vec();
        // The second checksum is over the first, so that one more in both is right again.
        image[512 * HOME + 58] += 1;
        image[512 * HOME + 510] += 1;
        assert!(checksum_is_right(&image[512..1024]));
        assert_eq!(open_volume(&image).number, Number::Home);
    }

    #[test]
    fn geometry() {
        assert_eq!(opened(&[(HOME, 6, &[15])]), Number::Geometry);
        assert_eq!(opened(&[(HOME, 6, &[17])]), Number::Done);
        // Paper 01, "Volume V": "H.FMAX 4096 gives m 1, 4097 gives 2 (P)".
        assert_eq!(opened(&[(HOME, 6, &[0, 16])]), Number::Done);
        assert_eq!(opened(&[(HOME, 6, &[1, 16])]), Number::Geometry);
        assert_eq!(
            opened(&[(HOME, 6, &[1, 16]), (HOME, 0, &[2])]),
            Number::Index
        );
        assert_eq!(opened(&[(HOME, 0, &[2])]), Number::Geometry);
        // H.IBLB + 17 is at most 100.
        assert_eq!(opened(&[(HOME, 4, &[83])]), Number::Index);
        assert_eq!(opened(&[(HOME, 4, &[84])]), Number::Geometry);
        assert_eq!(opened(&[(HOME, 2, &[2, 0, 0, 0])]), Number::Geometry);
        for low in [0x00, 0xef, 0xf0, 0xff] {
            let near = [0xff, 0xff, low, 0xff];
            assert_eq!(opened(&[(HOME, 2, &near)]), Number::Geometry);
        }
    }

    #[test]
    fn index_file() {
        let header = slot(1);
        assert_eq!(opened(&[(header, 2, &[2])]), Number::Index);
        assert_eq!(opened(&[(header, 4, &[2])]), Number::Index);
        assert_eq!(opened(&[(header, MAP, &[1])]), Number::Index);
        assert_eq!(opened(&[(header, MAP + 2, &[6, 0, 9, 0])]), Number::Index);
        // Blocks 0 to 18 are just enough.
        assert_eq!(opened(&[(header, 103, &[17])]), Number::Index);
        assert_eq!(opened(&[(header, 103, &[19])]), Number::Done);
        assert_eq!(opened(&[(header, 104, &[1])]), Number::Index);
        let cut = [4, 204, 0, 16, 0, 0, 0, 1];
        let right = [&cut[..], &[17, 0]].concat();
        assert_eq!(opened(&[(header, 100, &right)]), Number::Done);
        let wrong = [&cut[..], &[18, 0]].concat();
        assert_eq!(opened(&[(header, 100, &wrong)]), Number::Index);
        // Numbers 1 and 2 need not be in use, and flags are not asked.
        assert_eq!(opened(&[(INDEX_MAP, 0, &[0])]), Number::Done);
        assert_eq!(opened(&[(header, 12, &[0xff, 0xff])]), Number::Done);
    }

    #[test]
    fn storage_map_file() {
        let header = slot(2);
        assert_eq!(opened(&[(header, 4, &[1])]), Number::Storage);
        assert_eq!(opened(&[(header, MAP, &[1])]), Number::Storage);
        assert_eq!(opened(&[(header, MAP + 2, &[6, 0, 9, 0])]), Number::Storage);
        for (pointers, expected) in [
            (&[2, 204, 0, 0, 19, 0][..], Number::Storage),
            (&[2, 204, 0, 2, 19, 0], Number::Storage),
            (&[0, 204], Number::Storage),
            (&[4, 204, 0, 0, 19, 0, 0, 0, 50, 0], Number::Done),
            (&[4, 204, 0, 0, 19, 0, 0, 0, 19, 0], Number::Done),
            (&[4, 204, 0, 0, 20, 0, 0, 0, 19, 0], Number::Storage),
            (&[4, 204, 0, 1, 19, 0, 0, 0, 50, 0], Number::Storage),
            (
                &[6, 204, 0, 0, 19, 0, 0, 0, 20, 0, 0, 0, 21, 0],
                Number::Storage,
            ),
        ] {
            assert_eq!(opened(&[(header, 100, pointers)]), expected, "{pointers:?}");
        }
        for byte in [0, 2, 255] {
            assert_eq!(opened(&[(CONTROL, 3, &[byte])]), Number::Storage);
        }
        assert_eq!(opened(&[(CONTROL, 0, &[9, 9, 9, 1, 9])]), Number::Done);
    }

    #[test]
    fn two_pointers_of_which_the_first_maps_one_block() {
        let pointer = |blocks| Pointer {
            lbn: Lbn(0),
            blocks,
        };
        assert!(maps_storage(&[pointer(3)], 2));
        assert!(maps_storage(&[pointer(1), pointer(2)], 2));
        assert!(!maps_storage(&[pointer(2), pointer(1)], 2));
        assert!(!maps_storage(&[pointer(1), pointer(1), pointer(1)], 2));
        assert!(!maps_storage(&[pointer(2)], 2));
        assert!(maps_storage(&[pointer(256)], 255));
        assert!(maps_storage(&[pointer(1), pointer(255)], 255));
    }

    #[test]
    fn the_first_refusal_is_given() {
        let no_storage = (CONTROL, 3, &[0][..]);
        let no_index = (slot(1), 4, &[9][..]);
        let no_geometry = (HOME, 6, &[1][..]);
        let no_home = (HOME, 8, &[9][..]);
        assert_eq!(opened(&[no_storage, no_index]), Number::Index);
        assert_eq!(
            opened(&[no_storage, no_index, no_geometry]),
            Number::Geometry
        );
        let all = changed(&[no_storage, no_index, no_geometry, no_home]);
        assert_eq!(open_volume(&all).number, Number::Home);
        assert_eq!(open_volume(&all[..51_199]).number, Number::Size);
    }

    #[test]
    fn blocks_of_bits_of_the_storage_map() {
        let volume = open(VOLUME_V).expect("Volume V opens");
        assert_eq!(volume.home(), Lbn(1));
        assert_eq!(volume.storage_map(), [&VOLUME_V[20 * 512..21 * 512]]);
    }

    #[test]
    fn slots_and_numbers_in_use() {
        let volume = open(VOLUME_V).expect("Volume V opens");
        for n in 1..=16 {
            assert!(volume.slot(FileNumber(n)).is_some());
            assert_eq!(volume.in_use(FileNumber(n)), n <= 6);
        }
        assert!(volume.slot(FileNumber(17)).is_none());
        // Bits past H.FMAX are nothing.
        let image = changed(&[(INDEX_MAP, 0, &[0xff; 512])]);
        let volume = open(&image).expect("Volume V opens");
        for n in [0, 17, 4_096, 4_097, 65_535] {
            assert!(!volume.in_use(FileNumber(n)));
        }
        assert!(volume.in_use(FileNumber(16)));
    }
}
