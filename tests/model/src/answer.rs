//! The form of every answer: a number, a place and a value.

/// The answer numbers, in the order of the table of paper 01, "Answer numbers".
#[derive(Clone, Copy, Debug, PartialEq, Eq)]
pub enum Number {
    /// "not refused"
    Done,
    /// "opening, in this order"
    Size,
    /// "opening, in this order"
    Home,
    /// "opening, in this order"
    Geometry,
    /// "opening, in this order"
    Index,
    /// "opening, in this order"
    Storage,
    /// "third ID word not 0"
    Relvol,
    /// "0, above H.FMAX, no slot, not in use"
    Number,
    /// "not whole"
    Header,
    /// "H.FSEQ differs"
    Sequence,
    /// "segment not 0"
    Segment,
    /// "either flag"
    Locked,
    /// "a bad link"
    Chain,
    /// "0 or beyond the last"
    Vbn,
    /// "not proper, text or words"
    Name,
    /// "no equal record; walker past the last"
    Absent,
    /// "a work area too short"
    Work,
    /// "the verdict"
    Files,
    /// "the verdict"
    Links,
    /// "the verdict"
    Twice,
    /// "the verdict"
    Badhome,
    /// "the verdict"
    Map,
    /// "extend or delete of 1 to 5"
    Known,
    /// "extend with user flag 128 (contiguous)"
    Fixed,
    /// "c not 1 to 256"
    Count,
    /// "M.USE+2 above M.MAX"
    Full,
    /// "no c free blocks in a row"
    Run,
    /// "create finds no n"
    Nonumber,
    /// "text buffer under 19 bytes"
    Room,
}

/// Paper 01, "Answer numbers": each number of the table with its name.
const TABLE: [(Number, u64, &str); 29] = [
    (Number::Done, 0, "DONE"),
    (Number::Size, 1, "SIZE"),
    (Number::Home, 2, "HOME"),
    (Number::Geometry, 3, "GEOMETRY"),
    (Number::Index, 4, "INDEX"),
    (Number::Storage, 5, "STORAGE"),
    (Number::Relvol, 6, "RELVOL"),
    (Number::Number, 7, "NUMBER"),
    (Number::Header, 8, "HEADER"),
    (Number::Sequence, 9, "SEQUENCE"),
    (Number::Segment, 10, "SEGMENT"),
    (Number::Locked, 11, "LOCKED"),
    (Number::Chain, 12, "CHAIN"),
    (Number::Vbn, 13, "VBN"),
    (Number::Name, 14, "NAME"),
    (Number::Absent, 15, "ABSENT"),
    (Number::Work, 16, "WORK"),
    (Number::Files, 17, "FILES"),
    (Number::Links, 18, "LINKS"),
    (Number::Twice, 19, "TWICE"),
    (Number::Badhome, 20, "BADHOME"),
    (Number::Map, 21, "MAP"),
    (Number::Known, 22, "KNOWN"),
    (Number::Fixed, 23, "FIXED"),
    (Number::Count, 24, "COUNT"),
    (Number::Full, 25, "FULL"),
    (Number::Run, 26, "RUN"),
    (Number::Nonumber, 27, "NONUMBER"),
    (Number::Room, 28, "ROOM"),
];

impl Number {
    /// Every number, DONE first. Paper 01, "Answer numbers": the rows of the table.
    pub fn all() -> impl Iterator<Item = Number> {
        TABLE.iter().map(|row| row.0)
    }

    /// The number itself. Paper 01, "Answer numbers": the column "No.".
    pub fn number(self) -> u64 {
        self.row().1
    }

    /// The name. Paper 01, "Answer numbers": the word beside each number, as in "1 SIZE, 2 HOME".
    pub fn name(self) -> &'static str {
        self.row().2
    }

    /// The row of a number, if the table has it. Paper 01, "Answer numbers": 0 to 28, no other.
    pub fn from_number(number: u64) -> Option<Number> {
        Number::all().find(|candidate| candidate.number() == number)
    }

    /// Whether the refusal may have a place. Paper 01, "Answer numbers": "Except 17 to 21 a
    /// refusal has place 0".
    pub fn may_have_place(self) -> bool {
        (17..=21).contains(&self.number())
    }

    /// The row of this number. Paper 01, "Answer numbers": the table.
    fn row(self) -> &'static (Number, u64, &'static str) {
        TABLE
            .iter()
            .find(|row| row.0 == self)
            .expect("every number has a row")
    }
}

/// How many words hold a value. None has more: a volume's label, a header and a file's attributes
/// take all ten.
pub const VALUE_WORDS: usize = 10;

/// How many words hold an answer: number, place, value.
pub const ANSWER_WORDS: usize = 2 + VALUE_WORDS;

/// Paper 01, "Answer numbers": "An answer is a number, a place and a value."
#[derive(Clone, Copy, Debug, PartialEq, Eq)]
pub struct Answer {
    pub number: Number,
    pub place: u64,
    /// The value's words, then 0.
    pub value: [u64; VALUE_WORDS],
}

impl Answer {
    /// Paper 01, "Answer numbers": "DONE has place 0 and as value the home LBN (open volume), ..",
    /// here given word by word.
    pub fn done(words: &[u64]) -> Answer {
        let mut value = [0; VALUE_WORDS];
        value[..words.len()].copy_from_slice(words);
        Answer {
            number: Number::Done,
            place: 0,
            value,
        }
    }

    /// The answer of a call on something that is opened, or refused: that refusal, or what is then
    /// answered, the value words or a refusal. Paper 01, "The work and its edge": "Every call on a
    /// volume opens it first".
    pub fn on<Thing>(
        opened: &Result<Thing, Number>,
        words: impl FnOnce(&Thing) -> Result<Vec<u64>, Number>,
    ) -> Answer {
        match opened.as_ref().map_err(|number| *number).and_then(words) {
            Err(number) => Answer::refused(number),
            Ok(words) => Answer::done(&words),
        }
    }

    /// Paper 01, "Answer numbers": "Except 17 to 21 a refusal has place 0; every refusal has value
    /// 0 or an empty part."
    pub fn refused(number: Number) -> Answer {
        assert!(number != Number::Done && !number.may_have_place());
        Answer {
            number,
            place: 0,
            value: [0; VALUE_WORDS],
        }
    }

    /// Paper 01, "The verdict": "Judged in this order; the place is the lowest offender." and
    /// "Answer numbers": "every refusal has value 0 or an empty part."
    pub fn refused_at(number: Number, place: u64) -> Answer {
        assert!(number.may_have_place());
        Answer {
            number,
            place,
            value: [0; VALUE_WORDS],
        }
    }

    /// The answer as the twelve words that the library writes: number, place, then ten value words,
    /// 0 where unused. Paper 01, "Answer numbers": "An answer is a number, a place and a value."
    pub fn words(&self) -> [u64; ANSWER_WORDS] {
        let mut words = [0; ANSWER_WORDS];
        words[0] = self.number.number();
        words[1] = self.place;
        words[2..].copy_from_slice(&self.value);
        words
    }
}

#[cfg(test)]
mod tests {
    use super::*;

    #[test]
    fn the_table_has_every_number_from_0_to_28_once() {
        let numbers: Vec<u64> = Number::all().map(Number::number).collect();
        let expected: Vec<u64> = (0..=28).collect();
        assert_eq!(numbers, expected);
    }

    #[test]
    fn numbers_and_names_of_the_table() {
        // Paper 01, "Answer numbers", in the paper's own spelling.
        let names = "DONE SIZE HOME GEOMETRY INDEX STORAGE RELVOL NUMBER HEADER SEQUENCE SEGMENT \
                     LOCKED CHAIN VBN NAME ABSENT WORK FILES LINKS TWICE BADHOME MAP KNOWN FIXED \
                     COUNT FULL RUN NONUMBER ROOM";
        for (number, name) in names.split_whitespace().enumerate() {
            let row = Number::from_number(number as u64).expect("in the table");
            assert_eq!(row.name(), name);
        }
        assert_eq!(Number::from_number(29), None);
        assert_eq!(Number::from_number(u64::MAX), None);
    }

    #[test]
    fn only_the_verdict_has_a_place() {
        let with_place: Vec<&str> = Number::all()
            .filter(|number| number.may_have_place())
            .map(Number::name)
            .collect();
        assert_eq!(with_place, ["FILES", "LINKS", "TWICE", "BADHOME", "MAP"]);
    }

    #[test]
    fn words_of_answers() {
        let done = Answer::done(&[6, 9, 0]);
        assert_eq!(done.words(), [0, 0, 6, 9, 0, 0, 0, 0, 0, 0, 0, 0]);
        let refused = Answer::refused(Number::Name);
        assert_eq!(refused.words(), [14, 0, 0, 0, 0, 0, 0, 0, 0, 0, 0, 0]);
        let judged = Answer::refused_at(Number::Map, 77);
        assert_eq!(judged.words(), [21, 77, 0, 0, 0, 0, 0, 0, 0, 0, 0, 0]);
    }
}
