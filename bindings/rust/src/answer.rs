//! Refusals: why a call was refused, and where.

use std::error::Error;
use std::fmt;

use crate::words::Words;

/// Declares the refusals, each with its number and name.
macro_rules! refusals {
    ($($variant:ident = $number:literal $name:literal,)*) => {
        /// Why a call is refused: the refusals of the rules' table of answer numbers.
        #[derive(Clone, Copy, Debug, PartialEq, Eq, Hash)]
        pub enum Refusal {
            $(#[doc = concat!($number, " ", $name)] $variant = $number,)*
        }

        impl Refusal {
            /// Every refusal, by its number.
            pub const ALL: &'static [Refusal] = &[$(Refusal::$variant,)*];

            /// Its name in the table.
            pub fn name(self) -> &'static str {
                match self {
                    $(Refusal::$variant => $name,)*
                }
            }
        }
    };
}

refusals! {
    Size = 1 "SIZE",
    Home = 2 "HOME",
    Geometry = 3 "GEOMETRY",
    Index = 4 "INDEX",
    Storage = 5 "STORAGE",
    Relvol = 6 "RELVOL",
    Number = 7 "NUMBER",
    Header = 8 "HEADER",
    Sequence = 9 "SEQUENCE",
    Segment = 10 "SEGMENT",
    Locked = 11 "LOCKED",
    Chain = 12 "CHAIN",
    Vbn = 13 "VBN",
    Name = 14 "NAME",
    Absent = 15 "ABSENT",
    Work = 16 "WORK",
    Files = 17 "FILES",
    Links = 18 "LINKS",
    Twice = 19 "TWICE",
    Badhome = 20 "BADHOME",
    Map = 21 "MAP",
    Known = 22 "KNOWN",
    Fixed = 23 "FIXED",
    Count = 24 "COUNT",
    Full = 25 "FULL",
    Run = 26 "RUN",
    Nonumber = 27 "NONUMBER",
    Room = 28 "ROOM",
}

impl Refusal {
    /// Its number in the table.
    pub fn number(self) -> u64 {
        self as u64
    }

    /// The refusal of a number; none for 0, which is DONE, and for a number that the table has not.
    pub fn of_number(number: u64) -> Option<Refusal> {
        let place = usize::try_from(number.checked_sub(1)?).ok()?;
        Refusal::ALL.get(place).copied()
    }
}

/// A refused call: why, and the place of the answer, which is 0 but for the verdict's refusals.
#[derive(Clone, Copy, Debug, PartialEq, Eq, Hash)]
pub struct Refused {
    pub refusal: Refusal,
    pub place: u64,
}

impl fmt::Display for Refused {
    fn fmt(&self, f: &mut fmt::Formatter<'_>) -> fmt::Result {
        let (number, name) = (self.refusal.number(), self.refusal.name());
        write!(f, "answer {number} {name} place {}", self.place)
    }
}

impl Error for Refused {}

/// What a call comes to.
pub type Answer<Value> = Result<Value, Refused>;

/// The ten value words of an answer that is DONE, or the refusal.
///
/// # Panics
///
/// If the answer's number is neither 0 nor a refusal's, which no call of the library answers.
pub(crate) fn values(words: Words) -> Answer<[u64; 10]> {
    let [number, place, values @ ..] = words;
    if number == 0 {
        return Ok(values);
    }
    let refusal = Refusal::of_number(number).expect("the table of answer numbers has the number");
    Err(Refused { refusal, place })
}

#[cfg(test)]
mod tests {
    use super::*;

    #[test]
    fn a_refusal_stands_in_the_table_at_its_number() {
        for (place, &refusal) in Refusal::ALL.iter().enumerate() {
            assert_eq!(refusal.number(), place as u64 + 1);
            assert_eq!(Refusal::of_number(refusal.number()), Some(refusal));
        }
        assert_eq!(Refusal::of_number(0), None);
        assert_eq!(Refusal::of_number(29), None);
        assert_eq!(Refusal::of_number(u64::MAX), None);
    }

    #[test]
    fn a_refusal_is_written_as_the_judging_program_writes_it() {
        let refused = Refused {
            refusal: Refusal::Twice,
            place: 30,
        };
        assert_eq!(refused.to_string(), "answer 19 TWICE place 30");
    }
}
