//! Directories: the records of a file, looked up by name or walked one by one.

use crate::answer::{Answer, Number};
use crate::file::{self, File, Id, Opened};
use crate::image::word;
use crate::names::{is_proper, Name};

/// Paper 01, "Names and directories": "A directory record has 16 bytes".
pub const RECORD_BYTES: usize = 16;

/// Paper 01, "Names and directories": "Every mapped block holds 32 records."
pub const BLOCK_RECORDS: u64 = 32;

/// Paper 01, "Names and directories": "A directory record has 16 bytes: ID (3 words), name (3),
/// type, version."
#[derive(Clone, Copy, Debug, PartialEq, Eq)]
pub struct Record {
    pub id: Id,
    pub name: Name,
}

impl Record {
    /// The record of 16 bytes. Paper 01, "Names and directories": "A directory record has 16 bytes:
    /// ID (3 words), name (3), type, version."
    fn of(bytes: &[u8]) -> Record {
        let at = |number: usize| word(bytes, 2 * number) as u16;
        Record {
            id: Id::from_words([at(0), at(1), at(2)]),
            name: Name::from_words([at(3), at(4), at(5), at(6), at(7)]),
        }
    }

    /// Paper 01, "Names and directories": "Number 0 means empty."
    pub fn is_empty(&self) -> bool {
        self.id.number == 0
    }

    /// The eight words. Paper 01, "Names and directories": "ID (3 words), name (3), type, version".
    fn words(&self) -> Vec<u16> {
        [&self.id.words()[..], &self.name.words()[..]].concat()
    }
}

/// The records of a file from some place on, with their places, in VBN order. Paper 01, "Names and
/// directories": "Every mapped block holds 32 records."
fn records_from<'f>(file: &'f File, first: u64) -> impl Iterator<Item = (u64, Record)> + 'f {
    let blocks_before = first / BLOCK_RECORDS;
    let blocks = file.blocks_in_order().skip(blocks_before as usize);
    let records = blocks.flat_map(|block| block.chunks_exact(RECORD_BYTES).map(Record::of));
    let places = blocks_before * BLOCK_RECORDS..;
    let all = places.zip(records);
    all.skip_while(move |&(place, _)| place < first)
}

/// The first record not empty that passes a test, from some place on, with its place. Paper 01,
/// "Names and directories": "the first equal record not empty, in VBN order", "the next record that
/// is not empty".
fn first_record(file: &File, first: u64, test: impl Fn(&Record) -> bool) -> Option<(u64, Record)> {
    let mut records = records_from(file, first);
    records.find(|(_, record)| !record.is_empty() && test(record))
}

/// The answer of look-up. Paper 01, "Names and directories": "Look-up gives the ID of the first
/// equal record not empty, in VBN order, as stored, opened or not.", and "Answer numbers": "Look-up
/// tests 14 after 12.", "14 NAME | not proper, text or words", "15 ABSENT | no equal record".
pub fn answer_look_up(file: &Opened, name: &Name) -> Answer {
    let file = match file {
        Err(number) => return Answer::refused(*number),
        Ok(file) => file,
    };
    if !is_proper(name) {
        return Answer::refused(Number::Name);
    }
    match first_record(file, 0, |record| record.name == *name) {
        None => Answer::refused(Number::Absent),
        Some((_, record)) => Answer::done(&record.id.words().map(u64::from)),
    }
}

/// The answer of a walker's step from a place: the record, then the place to go on from. Paper 01,
/// "Names and directories": "Each step answers the next record that is not empty; after the last it
/// answers ABSENT and stays there; opening one answers as opening its file does, and if refused it
/// is there at once." So a step on a file that does not open is past the last record.
pub fn answer_next_record(file: &Opened, place: u64) -> Answer {
    let file = match file {
        Err(_) => return Answer::refused(Number::Absent),
        Ok(file) => file,
    };
    match first_record(file, place, |_| true) {
        None => Answer::refused(Number::Absent),
        Some((found, record)) => {
            let mut words: Vec<u64> = record.words().into_iter().map(u64::from).collect();
            words.push(found + 1);
            Answer::done(&words)
        }
    }
}

/// The call. Paper 01, "Names and directories": "Look-up gives the ID of the first equal record not
/// empty, in VBN order, as stored, opened or not."
pub fn look_up(bytes: &[u8], id: Id, name: &Name) -> Answer {
    answer_look_up(&file::open(bytes, id), name)
}

/// The call. Paper 01, "Names and directories": "Each step answers the next record that is not
/// empty".
pub fn next_record(bytes: &[u8], id: Id, place: u64) -> Answer {
    answer_next_record(&file::open(bytes, id), place)
}

#[cfg(test)]
mod tests {
    use super::*;
    use crate::names::name_of;
    use crate::sample::{changed, DIRECTORY, VOLUME_V};

    const DIRECTORY_4: Id = Id {
        number: 4,
        sequence: 4,
        volume: 0,
    };

    const READS: [u8; 10] = [0x49, 0x71, 0xf8, 0x1b, 0, 0, 0x3c, 0x19, 1, 0];

    fn name(text: &str) -> Name {
        name_of(text.as_bytes()).expect("a proper name")
    }

    /// A record of READS.DAT;1.
    fn record(id: [u8; 6]) -> Vec<u8> {
        [&id[..], &READS].concat()
    }

    /// Volume V with records put into block 21 at these places.
    fn with_records(records: &[(usize, Vec<u8>)]) -> Vec<u8> {
        let changes: Vec<(usize, usize, &[u8])> = records
            .iter()
            .map(|(place, bytes)| (DIRECTORY, 16 * place, &bytes[..]))
            .collect();
        changed(&changes)
    }

    #[test]
    fn look_up_in_volume_v() {
        let reads = look_up(VOLUME_V, DIRECTORY_4, &name("READS.DAT;1"));
        assert_eq!(reads, Answer::done(&[6, 9, 0]));
        for absent in ["READS.DAT;2", "READS.DA;1", "READ.DAT;1", "A.;1"] {
            let answer = look_up(VOLUME_V, DIRECTORY_4, &name(absent));
            assert_eq!(answer, Answer::refused(Number::Absent), "{absent}");
        }
    }

    #[test]
    fn name_is_tested_after_chain() {
        let improper = Name::from_words([0; 5]);
        let refused = |words| look_up(VOLUME_V, Id::from_words(words), &improper).number;
        assert_eq!(refused([4, 4, 0]), Number::Name);
        assert_eq!(refused([4, 5, 0]), Number::Sequence);
        assert_eq!(refused([4, 4, 1]), Number::Relvol);
        // An empty file has no record, and still the name is tested.
        assert_eq!(refused([5, 5, 0]), Number::Name);
        let absent = look_up(VOLUME_V, Id::from_words([5, 5, 0]), &name("A.;1"));
        assert_eq!(absent.number, Number::Absent);
    }

    #[test]
    fn an_old_entry_is_answered_and_opens_nothing() {
        // The header has sequence 10, and the entry 9.
        let image = changed(&[(8, 4, &[10])]);
        let old = look_up(&image, DIRECTORY_4, &name("READS.DAT;1"));
        assert_eq!(old, Answer::done(&[6, 9, 0]));
        let opened = file::open_file(&image, Id::from_words([6, 9, 0]));
        assert_eq!(opened, Answer::refused(Number::Sequence));
    }

    #[test]
    fn the_first_equal_record_not_empty() {
        let image = with_records(&[
            (0, vec![0; 16]),
            (3, record([0, 0, 1, 0, 0, 0])),
            (5, record([9, 1, 2, 0, 3, 4])),
            (31, record([7, 0, 1, 0, 0, 0])),
        ]);
        let answer = look_up(&image, DIRECTORY_4, &name("READS.DAT;1"));
        assert_eq!(answer, Answer::done(&[9 + 256, 2, 3 + 4 * 256]));
    }

    #[test]
    fn steps_of_a_walker() {
        let image = with_records(&[
            (2, record([1, 0, 0, 0, 0, 0])),
            (4, record([0, 0, 5, 0, 0, 0])),
            (31, vec![255; 16]),
        ]);
        let step = |place| next_record(&image, DIRECTORY_4, place);
        let reads = [29_001, 7_160, 0, 6_460, 1];
        let found =
            |id: [u64; 3], place: u64| Answer::done(&[&id[..], &reads[..], &[place]].concat());
        assert_eq!(step(0), found([6, 9, 0], 1));
        assert_eq!(step(1), found([1, 0, 0], 3));
        assert_eq!(step(2), found([1, 0, 0], 3));
        let last = Answer::done(&[[65_535; 8].as_slice(), &[32]].concat());
        for place in 3..=31 {
            assert_eq!(step(place), last);
        }
        for place in [32, 33, 63, 64, u64::from(u32::MAX)] {
            assert_eq!(step(place), Answer::refused(Number::Absent));
        }
    }

    #[test]
    fn a_file_that_does_not_open_has_no_record() {
        for words in [[4, 5, 0], [4, 4, 1], [0, 0, 0], [5, 5, 0], [7, 0, 0]] {
            let answer = next_record(VOLUME_V, Id::from_words(words), 0);
            assert_eq!(answer, Answer::refused(Number::Absent));
        }
        let answer = next_record(&VOLUME_V[1..], DIRECTORY_4, 0);
        assert_eq!(answer, Answer::refused(Number::Absent));
    }

    #[test]
    fn records_run_through_blocks_in_vbn_order() {
        // Directory 4 maps 50, then 21: the record of block 21 is at place 32.
        let image = changed(&[(6, 100, &[4, 204, 0, 0, 50, 0, 0, 0, 21, 0])]);
        let answer = next_record(&image, DIRECTORY_4, 0);
        assert_eq!(answer.value[..3], [6, 9, 0]);
        assert_eq!(answer.value[8], 33);
        let answer = next_record(&image, DIRECTORY_4, 33);
        assert_eq!(answer, Answer::refused(Number::Absent));
    }
}
