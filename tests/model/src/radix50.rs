//! Radix-50: three characters in a word.

/// How many codes there are. Paper 01, "Names and directories": "code 0 is blank, .. 30 to 39 are
/// 0 to 9".
pub const CODES: u16 = 40;

/// The first value that no word of Radix-50 has. Paper 01, "Names and directories": "a word is
/// (a·40+b)·40+c, below 64,000".
pub const WORDS: u16 = 64_000;

/// The character of a code. Paper 01, "Names and directories": "Radix-50: code 0 is blank, codes 1
/// to 26 are A to Z, 27 `$`, 28 `.`, 29 nothing, 30 to 39 are 0 to 9".
pub fn character(code: u16) -> Option<char> {
    let code = u8::try_from(code).ok()?;
    match code {
        0 => Some(' '),
        1..=26 => Some(char::from(b'A' + (code - 1))),
        27 => Some('$'),
        28 => Some('.'),
        29 => None,
        30..=39 => Some(char::from(b'0' + (code - 30))),
        _ => None,
    }
}

/// The code of a character: the one whose character it is. Paper 01, "Names and directories":
/// "Radix-50: code 0 is blank, codes 1 to 26 are A to Z, 27 `$`, 28 `.`, 29 nothing, 30 to 39 are
/// 0 to 9".
pub fn code(wanted: char) -> Option<u16> {
    (0..CODES).find(|&code| character(code) == Some(wanted))
}

/// The three codes of a word, if it is one. Paper 01, "Names and directories": "a word is
/// (a·40+b)·40+c, below 64,000".
pub fn codes(word: u16) -> Option<[u16; 3]> {
    if word >= WORDS {
        return None;
    }
    let c = word % CODES;
    let b = word / CODES % CODES;
    let a = word / CODES / CODES;
    Some([a, b, c])
}

/// The word of three codes, if they are codes. Paper 01, "Names and directories": "a word is
/// (a·40+b)·40+c, below 64,000".
pub fn word(codes: [u16; 3]) -> Option<u16> {
    if codes.iter().any(|&code| code >= CODES) {
        return None;
    }
    let [a, b, c] = codes;
    Some((a * CODES + b) * CODES + c)
}

/// The three characters of a word, if each of its codes has one. Paper 01, "Names and directories":
/// "29 nothing", and "Volume V": "63,999 is `999` (P), 64,000 refused (P)".
pub fn characters(word: u16) -> Option<[char; 3]> {
    let [a, b, c] = codes(word)?;
    Some([character(a)?, character(b)?, character(c)?])
}

/// The word of three characters, if each has a code. Paper 01, "Volume V": "READS is 29001, 7160,
/// 0 (P), DAT 6460 (P)".
pub fn word_of_characters(characters: [char; 3]) -> Option<u16> {
    let [a, b, c] = characters;
    word([code(a)?, code(b)?, code(c)?])
}

#[cfg(test)]
mod tests {
    use super::*;

    /// Source document 003, figure 1-8, "RT-11 Directory Segment": every word of a file name or
    /// type there, in octal, with the characters that the figure gives for it. The blanks are those
    /// that three characters need; `EM` of the entry "EMPTY.FIL" has its blank in front, since the
    /// word is below 1,600.
    const FIGURE_1_8: [(u16, &str); 33] = [
        (0o75131, "SWA"),
        (0o62000, "P  "),
        (0o75273, "SYS"),
        (0o71677, "RT1"),
        (0o142615, "1XM"),
        (0o75273, "SYS"),
        (0o71677, "RT1"),
        (0o141262, "1FB"),
        (0o75273, "SYS"),
        (0o16140, "DUX"),
        (0, "   "),
        (0o75273, "SYS"),
        (0o62570, "PIP"),
        (0, "   "),
        (0o73376, "SAV"),
        (0o16130, "DUP"),
        (0, "   "),
        (0o73376, "SAV"),
        (0o15172, "DIR"),
        (0, "   "),
        (0o73376, "SAV"),
        (0o42614, "KED"),
        (0, "   "),
        (0o73376, "SAV"),
        (0o50553, "MAC"),
        (0o71330, "RO "),
        (0o73376, "SAV"),
        (0o46166, "LIN"),
        (0o42300, "K  "),
        (0o73376, "SAV"),
        (0o12625, "CRE"),
        (0o22600, "F  "),
        (0o73376, "SAV"),
    ];

    /// The last entry of the same figure: "EM", "PTY" and "FIL", stored at initialization.
    const FIGURE_1_8_EMPTY: [(u16, &str); 3] = [(0o325, " EM"), (0o63471, "PTY"), (0o23364, "FIL")];

    fn three(text: &str) -> [char; 3] {
        let characters: Vec<char> = text.chars().collect();
        characters.try_into().expect("three characters")
    }

    #[test]
    fn every_code_by_name() {
        let table = " ABCDEFGHIJKLMNOPQRSTUVWXYZ$.?0123456789";
        assert_eq!(table.len(), usize::from(CODES));
        for (number, expected) in table.chars().enumerate() {
            let number = number as u16;
            if number == 29 {
                assert_eq!(character(number), None);
            } else {
                assert_eq!(character(number), Some(expected));
                assert_eq!(code(expected), Some(number));
            }
        }
        for number in CODES..=u16::MAX {
            assert_eq!(character(number), None);
        }
    }

    #[test]
    fn only_39_characters_have_a_code() {
        let with_code = (0..=255u8).filter(|&byte| code(char::from(byte)).is_some());
        assert_eq!(with_code.count(), 39);
        for none in ['a', 'z', '-', '_', ';', '?', '\0', '\n', '\u{e9}', '/', '@'] {
            assert_eq!(code(none), None);
        }
    }

    #[test]
    fn words_of_volume_v() {
        assert_eq!(word_of_characters(three("REA")), Some(29001));
        assert_eq!(word_of_characters(three("DS ")), Some(7160));
        assert_eq!(word_of_characters(three("   ")), Some(0));
        assert_eq!(word_of_characters(three("DAT")), Some(6460));
    }

    #[test]
    fn the_last_word_and_the_first_that_is_none() {
        assert_eq!(characters(63_999), Some(['9', '9', '9']));
        assert_eq!(word_of_characters(['9', '9', '9']), Some(63_999));
        for none in WORDS..=u16::MAX {
            assert_eq!(codes(none), None);
            assert_eq!(characters(none), None);
        }
    }

    #[test]
    fn words_of_the_rt_11_directory() {
        for (number, text) in FIGURE_1_8.iter().chain(&FIGURE_1_8_EMPTY) {
            assert_eq!(characters(*number), Some(three(text)), "{text}");
            assert_eq!(word_of_characters(three(text)), Some(*number), "{text}");
        }
    }

    #[test]
    fn every_word_is_the_word_of_its_codes() {
        for number in 0..WORDS {
            let [a, b, c] = codes(number).expect("below 64,000");
            assert!(a < CODES && b < CODES && c < CODES);
            assert_eq!(word([a, b, c]), Some(number));
        }
        assert_eq!(word([39, 39, 40]), None);
        assert_eq!(word([40, 0, 0]), None);
        assert_eq!(word([0, u16::MAX, 0]), None);
    }

    #[test]
    fn a_word_has_characters_unless_one_of_its_codes_is_29() {
        let mut without = 0;
        for number in 0..WORDS {
            let has_29 = codes(number).expect("a word").contains(&29);
            assert_eq!(characters(number).is_none(), has_29);
            without += u32::from(has_29);
        }
        assert_eq!(without, 40 * 40 * 40 - 39 * 39 * 39);
    }
}
