//! The verdict: the lowest offender of the first rule that is broken, or four counts; and the marks
//! that it leaves in the work areas.

use crate::answer::{Answer, Number};
use crate::header::{Header, Pointer};
use crate::image::{bit, FileNumber, Lbn};
use crate::volume::{self, home_positions, BadLink, Volume, MAP_BITS};

/// The highest of the known files. Paper 01, "The verdict": "n ≤ 5 not in use, or with sequence not
/// n or segment not 0".
const LAST_KNOWN: u64 = 5;

/// What is wrong with an offender. No answer tells it; the tests count what they meet.
#[derive(Clone, Copy, Debug, PartialEq, Eq)]
pub enum Offence {
    /// FILES: "n ≤ 5 not in use".
    KnownNotInUse,
    /// FILES: "n ≤ 5 .. with sequence not n".
    KnownSequence,
    /// FILES: "n ≤ 5 .. or segment not 0".
    KnownSegment,
    /// FILES: "n in use without slot".
    NoSlot,
    /// FILES: "n in use .. not whole", with the first of the twelve tests that is not met.
    NotWhole(usize),
    /// LINKS: "n in use with a bad link".
    BadLink(BadLink),
    /// LINKS: "a number of times that is not 0 (segment 0)".
    FirstIsLinked,
    /// LINKS: "a number of times that is not .. 1 (above 0)", none at all.
    LinkedByNone,
    /// LINKS: "a number of times that is not .. 1 (above 0)", twice or more.
    LinkedTwice,
    /// TWICE: "LBN covered by two places".
    Twice,
    /// BADHOME: "not covered by a header of file 3".
    BadHome,
    /// MAP: "below N set exactly if covered by none", set and covered.
    SetAndCovered,
    /// MAP: "below N set exactly if covered by none", clear and covered by none.
    ClearAndCoveredByNone,
    /// MAP: "from N on clear", set.
    SetFromN,
}

/// Why a volume is refused.
#[derive(Clone, Copy, Debug, PartialEq, Eq)]
pub enum Refusal {
    /// Opening refuses it, or a work area is too short.
    BeforeJudging(Number),
    /// One of FILES to MAP: the lowest offender.
    Offender {
        number: Number,
        place: u64,
        offence: Offence,
    },
}

/// Paper 01, "Answer numbers": "the verdict's four counts", and "Volume V": "counts of blocks,
/// covered blocks, free bits and index bits in use".
#[derive(Clone, Copy, Debug, PartialEq, Eq)]
pub struct Counts {
    pub blocks: u64,
    pub claimed: u64,
    pub free: u64,
    pub headers: u64,
}

/// What the verdict says.
pub type Verdict = Result<Counts, Refusal>;

/// An offender of a rule, and what is wrong with it.
type Offender = Option<(u64, Offence)>;

/// The refusal of a rule, if it has an offender.
fn refuse(number: Number, offender: Offender) -> Result<(), Refusal> {
    match offender {
        None => Ok(()),
        Some((place, offence)) => Err(Refusal::Offender {
            number,
            place,
            offence,
        }),
    }
}

/// The lowest of some places that offends. Paper 01, "The verdict": "the place is the lowest
/// offender."
fn lowest(places: impl Iterator<Item = u64>, offence: impl Fn(u64) -> Option<Offence>) -> Offender {
    let mut places = places;
    places.find_map(|place| offence(place).map(|it| (place, it)))
}

/// A mark. Paper 01, "The verdict": "capped at 2".
fn mark(times: u64) -> u8 {
    times.min(2) as u8
}

/// The numbers in use, in order. Paper 01, "The volume": "Number n, from 1 to H.FMAX only, is in use
/// when index map bit n−1 is set."
fn numbers_in_use(volume: &Volume) -> Vec<FileNumber> {
    let numbers = (1..=volume.h_fmax()).map(FileNumber);
    numbers.filter(|&n| volume.in_use(n)).collect()
}

/// Why n offends FILES, if it does. Paper 01, "The verdict": "FILES: number n, at most H.FMAX: n ≤ 5
/// not in use, or with sequence not n or segment not 0; or n in use without slot or not whole."
fn files_offence(volume: &Volume, n: FileNumber) -> Option<Offence> {
    let in_use = volume.in_use(n);
    if n.0 <= LAST_KNOWN {
        let header = volume.slot(n);
        let header = header.expect("the index file maps the first 16 slots");
        if !in_use {
            return Some(Offence::KnownNotInUse);
        }
        if header.h_fseq() != n.0 {
            return Some(Offence::KnownSequence);
        }
        if header.segment() != 0 {
            return Some(Offence::KnownSegment);
        }
    }
    if !in_use {
        return None;
    }
    let Some(header) = volume.slot(n) else {
        return Some(Offence::NoSlot);
    };
    let unmet = header.first_unmet(n, volume.image().blocks());
    unmet.map(Offence::NotWhole)
}

/// Headers in use with their numbers: every one has a slot, since FILES passed. Paper 01, "Demand 3,
/// its words and its list": "A header in use is that of a number in use."
type Headers<'a> = Vec<(FileNumber, Header<'a>)>;

/// The headers in use, in order, where FILES has no offender. Paper 01, "The verdict": "FILES: ..".
fn judge_files<'a>(volume: &Volume<'a>) -> Result<Headers<'a>, Refusal> {
    let offender = lowest(1..=volume.h_fmax(), |n| {
        files_offence(volume, FileNumber(n))
    });
    refuse(Number::Files, offender)?;
    let numbers = numbers_in_use(volume).into_iter();
    let headers = numbers.map(|n| (n, volume.slot(n).expect("FILES passed")));
    Ok(headers.collect())
}

/// How many headers in use link to each number, 1 first. Paper 01, "The verdict": "header mark n−1
/// is the number of headers in use whose M.EFNU is n". A link to 0 or above H.FMAX is to none of
/// them.
fn times_linked(volume: &Volume, headers: &Headers) -> Vec<u64> {
    let mut times = vec![0; volume.h_fmax() as usize];
    for (_, header) in headers {
        let n = header.m_efnu().0;
        if (1..=volume.h_fmax()).contains(&n) {
            times[n as usize - 1] += 1;
        }
    }
    times
}

/// Why a header in use offends LINKS, if it does. Paper 01, "The verdict": "LINKS: n in use with a
/// bad link, or linked by others a number of times that is not 0 (segment 0) or 1 (above 0)."
fn links_offence(volume: &Volume, header: Header, by_others: u64) -> Option<Offence> {
    if let Err(bad) = volume.next_header(header) {
        return Some(Offence::BadLink(bad));
    }
    match (header.segment(), by_others) {
        (0, 0) => None,
        (0, _) => Some(Offence::FirstIsLinked),
        (_, 0) => Some(Offence::LinkedByNone),
        (_, 1) => None,
        _ => Some(Offence::LinkedTwice),
    }
}

/// Paper 01, "The verdict": "LINKS: ..", over the headers in use, in order.
fn judge_links(volume: &Volume, headers: &Headers, times: &[u64]) -> Result<(), Refusal> {
    let offender = headers.iter().find_map(|&(n, header)| {
        let by_itself = u64::from(header.m_efnu() == n);
        let by_others = times[n.0 as usize - 1] - by_itself;
        let offence = links_offence(volume, header, by_others)?;
        Some((n.0, offence))
    });
    refuse(Number::Links, offender)
}

/// How often each LBN is covered. Paper 01, "The verdict": "block mark j is the times j is covered",
/// by "places in pointers of headers in use".
fn times_covered(volume: &Volume, headers: &Headers) -> Vec<u64> {
    let mut times = vec![0; volume.image().blocks() as usize];
    for (_, header) in headers {
        for lbn in header.pointers().iter().flat_map(Pointer::lbns) {
            times[lbn.0 as usize] += 1;
        }
    }
    times
}

/// Paper 01, "The verdict": "TWICE: LBN covered by two places in pointers of headers in use."
fn judge_twice(times: &[u64]) -> Result<(), Refusal> {
    let offender = lowest(0..times.len() as u64, |lbn| {
        (times[lbn as usize] > 1).then_some(Offence::Twice)
    });
    refuse(Number::Twice, offender)
}

/// Paper 01, "The verdict": "BADHOME: a home position below the home, not covered by a header of
/// file 3." Paper 01, "Demand 3, its words and its list": "it belongs to the bad block file where a
/// header of file 3's chain covers it."
fn judge_badhome(volume: &Volume) -> Result<(), Refusal> {
    let first = volume.slot(FileNumber(3)).expect("FILES passed");
    let chain = volume.chain(first).expect("LINKS passed");
    let pointers: Vec<Pointer> = chain.iter().flat_map(Header::pointers).collect();
    let positions = home_positions(volume.image().blocks());
    let below = positions.filter(|&position| position < volume.home());
    let offender = lowest(below.map(|position| position.0), |position| {
        let mut lbns = pointers.iter().flat_map(Pointer::lbns);
        let is_covered = lbns.any(|lbn| lbn == Lbn(position));
        (!is_covered).then_some(Offence::BadHome)
    });
    refuse(Number::Badhome, offender)
}

/// Paper 01, "The verdict": "MAP: a map bit wrong, its bit number the place: below N set exactly if
/// covered by none, from N on clear." Paper 01, "The volume": "q blocks of bits: set means free".
fn judge_map(volume: &Volume, times: &[u64]) -> Result<(), Refusal> {
    let blocks = volume.image().blocks();
    let map = volume.storage_map();
    let bits = MAP_BITS * map.len() as u64;
    let offender = lowest(0..bits, |j| {
        let is_set = bit(map[(j / MAP_BITS) as usize], j % MAP_BITS);
        if j >= blocks {
            return is_set.then_some(Offence::SetFromN);
        }
        match (is_set, times[j as usize] > 0) {
            (true, true) => Some(Offence::SetAndCovered),
            (false, false) => Some(Offence::ClearAndCoveredByNone),
            _ => None,
        }
    });
    refuse(Number::Map, offender)
}

/// The counts of a volume that nothing is wrong with. Paper 01, "What would not satisfy us":
/// "claimed counts the covered LBNs, free the set bits", and "Volume V": "counts of blocks, covered
/// blocks, free bits and index bits in use".
fn counts(volume: &Volume, headers: &Headers, times: &[u64]) -> Counts {
    let map = volume.storage_map();
    let bits = map.iter().flat_map(|&block| {
        let is_set = move |&j: &u64| bit(block, j);
        (0..MAP_BITS).filter(is_set)
    });
    Counts {
        blocks: volume.image().blocks(),
        claimed: times.iter().filter(|&&times| times > 0).count() as u64,
        free: bits.count() as u64,
        headers: headers.len() as u64,
    }
}

/// Judges a volume, and leaves marks. Paper 01, "The verdict": "Two lent work areas, N and H.FMAX
/// bytes or more. After FILES passes, header mark n−1 is the number of headers in use whose M.EFNU
/// is n, capped at 2; after LINKS passes, block mark j is the times j is covered, capped at 2. Marks
/// not reached, and bytes beyond, are unchanged." Paper 01, "Answer numbers": "Order: 1 to 5; 16; 17
/// to 21 where judged".
pub fn verdict(bytes: &[u8], blocks: &mut [u8], headers: &mut [u8]) -> Verdict {
    let volume = volume::open(bytes).map_err(Refusal::BeforeJudging)?;
    let (n, h_fmax) = (volume.image().blocks(), volume.h_fmax());
    if (blocks.len() as u64) < n || (headers.len() as u64) < h_fmax {
        return Err(Refusal::BeforeJudging(Number::Work));
    }
    let in_use = judge_files(&volume)?;
    let linked = times_linked(&volume, &in_use);
    for (place, &times) in headers.iter_mut().zip(&linked) {
        *place = mark(times);
    }
    judge_links(&volume, &in_use, &linked)?;
    let covered = times_covered(&volume, &in_use);
    for (place, &times) in blocks.iter_mut().zip(&covered) {
        *place = mark(times);
    }
    judge_twice(&covered)?;
    judge_badhome(&volume)?;
    judge_map(&volume, &covered)?;
    Ok(counts(&volume, &in_use, &covered))
}

/// The answer of the verdict. Paper 01, "Answer numbers": "Except 17 to 21 a refusal has place 0",
/// and "the verdict's four counts".
pub fn answer(verdict: &Verdict) -> Answer {
    match *verdict {
        Err(Refusal::BeforeJudging(number)) => Answer::refused(number),
        Err(Refusal::Offender { number, place, .. }) => Answer::refused_at(number, place),
        Ok(Counts {
            blocks,
            claimed,
            free,
            headers,
        }) => Answer::done(&[blocks, claimed, free, headers]),
    }
}

/// The call. Paper 01, "Answer numbers": "the verdict's four counts".
pub fn judge(bytes: &[u8], blocks: &mut [u8], headers: &mut [u8]) -> Answer {
    answer(&verdict(bytes, blocks, headers))
}

#[cfg(test)]
mod tests {
    use super::*;
    use crate::sample::{changed, slot, CONTROL, HOME, INDEX_MAP, MAP, VOLUME_V};

    /// A change of Volume V: LBN, byte in the block, bytes.
    type Change = (usize, usize, &'static [u8]);

    /// The block of bits of Volume V's storage map.
    const BITS: usize = CONTROL + 1;

    /// What stands in the work areas before the call.
    const OLD: u8 = 0xee;

    /// Judges an image with work areas of 100 and 16 bytes and two more.
    fn judged(image: &[u8]) -> (Verdict, Vec<u8>, Vec<u8>) {
        let (mut blocks, mut headers) = (vec![OLD; 102], vec![OLD; 18]);
        let verdict = verdict(image, &mut blocks, &mut headers);
        (verdict, blocks, headers)
    }

    /// Sees what Volume V with bytes changed is refused for.
    fn expect_refused(changes: &[Change], number: Number, place: u64, offence: Offence) {
        let refusal = Refusal::Offender {
            number,
            place,
            offence,
        };
        let (verdict, ..) = judged(&changed(changes));
        assert_eq!(verdict, Err(refusal), "{changes:?}");
    }

    /// Sees that Volume V with bytes changed is accepted.
    fn expect_done(changes: &[Change]) {
        let (verdict, ..) = judged(&changed(changes));
        assert!(verdict.is_ok(), "{changes:?}: {verdict:?}");
    }

    /// The marks of Volume V: 1 on each covered block.
    fn marks_of_v() -> Vec<u8> {
        let mut marks = vec![0; 100];
        marks[..22].fill(1);
        for lbn in [25, 30, 31, 99] {
            marks[lbn] = 1;
        }
        marks.extend([OLD; 2]);
        marks
    }

    /// The header marks of Volume V, each put so many times.
    fn header_marks(linked: &[(usize, u8)]) -> Vec<u8> {
        let mut marks = vec![0; 16];
        for &(n, times) in linked {
            marks[n - 1] = times;
        }
        marks.extend([OLD; 2]);
        marks
    }

    #[test]
    fn the_counts_of_volume_v() {
        // Paper 01, "Volume V": "blocks 100, claimed 26, free 74, headers 6".
        let (verdict, blocks, headers) = judged(VOLUME_V);
        assert_eq!(answer(&verdict), Answer::done(&[100, 26, 74, 6]));
        assert_eq!(blocks, marks_of_v());
        assert_eq!(headers, header_marks(&[]));
    }

    #[test]
    fn work_areas() {
        let work = Err(Refusal::BeforeJudging(Number::Work));
        for (blocks, headers) in [(99, 16), (100, 15), (0, 16), (100, 0), (0, 0), (16, 100)] {
            let (mut blocks, mut headers) = (vec![OLD; blocks], vec![OLD; headers]);
            let verdict = verdict(VOLUME_V, &mut blocks, &mut headers);
            assert_eq!(verdict, work);
            assert!(blocks.iter().chain(&headers).all(|&byte| byte == OLD));
        }
        // Opening comes first, and judging after.
        let home = &changed(&[(HOME, 8, &[9])]);
        assert_eq!(judge(home, &mut [], &mut []).number, Number::Home);
        assert_eq!(judge(&[], &mut [], &mut []).number, Number::Size);
        let files = &changed(&[(INDEX_MAP, 0, &[0])]);
        assert_eq!(judge(files, &mut [], &mut []).number, Number::Work);
    }

    #[test]
    fn files() {
        use Offence::*;
        let not_in_use = |byte: &'static [u8]| (INDEX_MAP, 0, byte);
        for (n, byte) in (1..).zip([&[0x3e], &[0x3d], &[0x3b], &[0x37], &[0x2f]]) {
            expect_refused(&[not_in_use(byte)], Number::Files, n, KnownNotInUse);
        }
        expect_refused(&[(slot(3), 4, &[4])], Number::Files, 3, KnownSequence);
        expect_refused(&[(slot(5), 5, &[1])], Number::Files, 5, KnownSequence);
        expect_refused(&[(slot(4), MAP, &[1])], Number::Files, 4, KnownSegment);
        // The segment of a header whose map area is no more in the block.
        expect_refused(&[(slot(4), 1, &[255])], Number::Files, 4, KnownSegment);
        expect_refused(&[(slot(6), 6, &[2])], Number::Files, 6, NotWhole(2));
        expect_refused(&[(slot(6), 1, &[255])], Number::Files, 6, NotWhole(6));
        // The lowest offender, and a number that is not in use.
        let both = [(slot(6), 6, &[2][..]), (slot(5), 6, &[2])];
        expect_refused(&both, Number::Files, 5, NotWhole(2));
        expect_done(&[(slot(7), 6, &[2])]);
        let seven: [Change; 1] = [(INDEX_MAP, 0, &[0x7f])];
        expect_refused(&seven, Number::Files, 7, NotWhole(2));
        // Without slot: H.FMAX 18, and no slot above 16.
        let slots: [Change; 2] = [(HOME, 6, &[18]), (INDEX_MAP, 2, &[2])];
        let (verdict, blocks, headers) = judged(&changed(&slots));
        assert_eq!(answer(&verdict).words()[..2], [17, 18]);
        assert!(blocks.iter().chain(&headers).all(|&byte| byte == OLD));
        expect_done(&[(HOME, 6, &[17]), (INDEX_MAP, 2, &[2])]);
    }

    /// File 6 goes on in header 7, of segment 1 and sequence 3, without blocks.
    fn chained() -> Vec<Change> {
        const SEVEN: [u8; 8] = [23, 46, 7, 0, 3, 0, 1, 1];
        // The checksum of header 7, which `changed` does not put right.
        const SUM: u16 = (23 + 46 * 256) + 7 + 3 + 257 + 1 + (1 + 3 * 256) + 204 * 256;
        const BYTES: [u8; 2] = SUM.to_le_bytes();
        vec![
            (INDEX_MAP, 0, &[0x7f]),
            (slot(6), MAP + 2, &[7, 0, 3, 0]),
            (slot(7), 0, &SEVEN),
            (slot(7), MAP, &[1]),
            (slot(7), MAP + 6, &[1, 3, 0, 204]),
            (slot(7), 510, &BYTES),
        ]
    }

    /// Sees what Volume V with header 7 and more changes is refused for.
    fn expect_chain_refused(more: &[Change], place: u64, offence: Offence) {
        let changes = [&chained()[..], more].concat();
        expect_refused(&changes, Number::Links, place, offence);
    }

    #[test]
    fn links() {
        use Offence::{LinkedByNone, LinkedTwice};
        let (verdict, blocks, headers) = judged(&changed(&chained()));
        assert_eq!(answer(&verdict), Answer::done(&[100, 26, 74, 7]));
        assert_eq!(blocks, marks_of_v());
        assert_eq!(headers, header_marks(&[(7, 1)]));
        let bad = Offence::BadLink;
        let sequence: Change = (slot(6), MAP + 4, &[2]);
        expect_chain_refused(&[sequence], 6, bad(BadLink::Sequence));
        let none: Change = (slot(6), MAP + 2, &[0, 0, 0, 0]);
        expect_chain_refused(&[none], 7, LinkedByNone);
        let five: Change = (slot(5), MAP + 2, &[7, 0, 3, 0]);
        expect_chain_refused(&[five], 7, LinkedTwice);
        // A known file may have extension headers.
        expect_done(&[&chained()[..], &[none, five]].concat());
    }

    #[test]
    fn links_to_unused_numbers_and_to_itself() {
        use Offence::FirstIsLinked;
        let bad = Offence::BadLink;
        let six = |bytes: &'static [u8]| -> Change { (slot(6), MAP + 2, bytes) };
        let unused = six(&[9, 0, 1, 0]);
        expect_refused(&[unused], Number::Links, 6, bad(BadLink::NotInUse));
        let (_, blocks, headers) = judged(&changed(&[unused]));
        assert_eq!(blocks, [OLD; 102]);
        assert_eq!(headers, header_marks(&[(9, 1)]));
        let above = six(&[17, 0, 1, 0]);
        expect_refused(&[above], Number::Links, 6, bad(BadLink::NotInUse));
        assert_eq!(judged(&changed(&[above])).2, header_marks(&[]));
        let itself = six(&[6, 0, 9, 0]);
        expect_refused(&[itself], Number::Links, 6, bad(BadLink::Segment));
        assert_eq!(judged(&changed(&[itself])).2, header_marks(&[(6, 1)]));
        // The number that is linked is lower than the one that links badly.
        let to_five = six(&[5, 0, 5, 0]);
        expect_refused(&[to_five], Number::Links, 5, FirstIsLinked);
        // Three links to one number make a mark of 2.
        let three = [3, 4, 6].map(|n| -> Change { (slot(n), MAP + 2, &[5, 0, 5, 0]) });
        expect_refused(&three, Number::Links, 3, bad(BadLink::Segment));
        assert_eq!(judged(&changed(&three)).2, header_marks(&[(5, 2)]));
    }

    #[test]
    fn twice() {
        use Offence::Twice;
        // The second pointer of file 6 is at byte 106: its LBN is at 108.
        for (lbn, byte) in [(31, &[31]), (21, &[21]), (0, &[0]), (8, &[8]), (20, &[20])] {
            let change: Change = (slot(6), 108, byte);
            expect_refused(&[change], Number::Twice, lbn, Twice);
            let (_, blocks, headers) = judged(&changed(&[change]));
            let mut marks = marks_of_v();
            marks[25] = 0;
            marks[lbn as usize] = 2;
            assert_eq!(blocks, marks);
            assert_eq!(headers, header_marks(&[]));
        }
        // Three covers are a mark of 2, and the lowest counts.
        let third: Change = (slot(6), 100, &[8, 204, 0, 0, 31, 0, 0, 2, 30, 0]);
        let more: Change = (slot(6), 110, &[0, 0, 30, 0, 0, 1, 30, 0]);
        expect_refused(&[third, more], Number::Twice, 30, Twice);
        let (_, blocks, _) = judged(&changed(&[third, more]));
        assert_eq!(blocks[30..33], [2, 2, 1]);
    }

    #[test]
    fn map() {
        use Offence::{ClearAndCoveredByNone, SetAndCovered, SetFromN};
        for (place, at, byte, offence) in [
            (0, 0, &[1], SetAndCovered),
            (22, 2, &[0x80], ClearAndCoveredByNone),
            (25, 3, &[0x3f], SetAndCovered),
            (98, 12, &[0x03], ClearAndCoveredByNone),
            (99, 12, &[0x0f], SetAndCovered),
            (100, 12, &[0x17], SetFromN),
            (4_095, 511, &[0x80], SetFromN),
        ] {
            let change: Change = (BITS, at, byte);
            expect_refused(&[change], Number::Map, place, offence);
            let (_, blocks, headers) = judged(&changed(&[change]));
            assert_eq!(blocks, marks_of_v());
            assert_eq!(headers, header_marks(&[]));
        }
        let all: [Change; 2] = [(BITS, 511, &[0x80]), (BITS, 2, &[0])];
        expect_refused(&all, Number::Map, 22, ClearAndCoveredByNone);
    }

    #[test]
    fn the_first_rule_that_is_broken_is_told() {
        let map: Change = (BITS, 0, &[1]);
        let twice: Change = (slot(6), 108, &[31]);
        let links: Change = (slot(6), MAP + 2, &[9]);
        let files: Change = (slot(6), 6, &[2]);
        let numbers: Vec<Number> = [
            vec![map],
            vec![map, twice],
            vec![map, twice, links],
            vec![map, twice, links, files],
        ]
        .into_iter()
        .map(|changes| answer(&judged(&changed(&changes)).0).number)
        .collect();
        use Number::{Files, Links, Map, Twice};
        assert_eq!(numbers, [Map, Twice, Links, Files]);
    }
}
