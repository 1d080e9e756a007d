//! The comparisons of the calls on names, and the names and texts that they use.

use crate::run::{first_difference, show_answer, show_hex, show_text, Run};
use model::names::{self, Name};
use model::radix50;
use volumes::Random;

/// The bytes that stand before and after each buffer and text that is lent to the library.
const BESIDE: usize = 32;

/// The byte at a place of a buffer before a call: another pattern for each `fill`, without two equal
/// neighbours.
fn pattern(fill: u8, place: usize) -> u8 {
    fill.wrapping_add((place % 251) as u8).wrapping_mul(37)
}

/// Compares `name_to_text` of library and model on a buffer of `length` bytes that holds a pattern:
/// all words of the answer, the whole buffer, and the bytes beside it.
pub fn compare_words(run: &mut Run, words: [u16; 5], length: usize, fill: u8) {
    if !run.next_case() {
        return;
    }
    let before: Vec<u8> = (0..BESIDE + length + BESIDE)
        .map(|place| pattern(fill, place))
        .collect();
    let lent = BESIDE..BESIDE + length;

    let mut by_library = before.clone();
    let answer = library::name_to_text(words, &mut by_library[lent.clone()]);
    let mut by_model = before.clone();
    let expected = names::name_to_text(&Name::from_words(words), &mut by_model[lent.clone()]);
    let expected = expected.words();
    if answer == expected && by_library == by_model {
        return;
    }
    let beside =
        by_library[..BESIDE] != before[..BESIDE] || by_library[lent.end..] != before[lent.end..];
    run.fail(
        "name_to_text: the library differs from the model",
        &[
            ("words", show_words(words)),
            ("characters", show_characters(words)),
            ("buffer before", show_hex(&before[lent.clone()])),
            ("differs first", first_difference(&answer, &expected)),
            ("library", show_answer(&answer)),
            ("model", show_answer(&expected)),
            ("library buffer", show_hex(&by_library[lent.clone()])),
            ("  as text", show_text(&by_library[lent.clone()])),
            ("model buffer", show_hex(&by_model[lent.clone()])),
            ("  as text", show_text(&by_model[lent])),
            ("bytes beside", show_beside(beside)),
        ],
    );
}

/// Compares `text_to_name` of library and model: all words of the answer. The text stands between
/// bytes that would change its meaning if they were read.
pub fn compare_text(run: &mut Run, text: &[u8]) {
    if !run.next_case() {
        return;
    }
    let mut around = vec![b'A'; BESIDE];
    around.extend_from_slice(text);
    around.extend_from_slice(&[b'7'; BESIDE]);

    let answer = library::text_to_name(&around[BESIDE..BESIDE + text.len()]);
    let expected = names::text_to_name(text).words();
    if answer == expected {
        return;
    }
    run.fail(
        "text_to_name: the library differs from the model",
        &[
            ("text", show_text(text)),
            ("in hexadecimal", show_hex(text)),
            ("differs first", first_difference(&answer, &expected)),
            ("library", show_answer(&answer)),
            ("model", show_answer(&expected)),
        ],
    );
}

/// Five words in decimal and hexadecimal.
pub fn show_words(words: [u16; 5]) -> String {
    let [name1, name2, name3, typ, version] = words;
    format!(
        "name {name1} {name2} {name3} type {typ} version {version} \
         (hex {name1:04x} {name2:04x} {name3:04x} {typ:04x} {version:04x})"
    )
}

/// The characters of the name's words and of the type word.
fn show_characters(words: [u16; 5]) -> String {
    let [name1, name2, name3, typ, version] = words;
    let name = [name1, name2, name3].map(show_three).concat();
    format!("\"{name}\" type \"{}\" version {version}", show_three(typ))
}

/// The characters of a word: `?` for a code without one, `#` for a word that is none.
fn show_three(word: u16) -> String {
    match radix50::codes(word) {
        None => "###".to_string(),
        Some(codes) => codes
            .iter()
            .map(|&code| radix50::character(code).unwrap_or('?'))
            .collect(),
    }
}

/// What a report says of the bytes beside a buffer.
fn show_beside(written: bool) -> String {
    if written {
        "WRITTEN by the library".to_string()
    } else {
        "unchanged".to_string()
    }
}

/// The word of three characters of Radix-50.
pub fn word(three: &str) -> u16 {
    let characters: Vec<char> = three.chars().collect();
    let characters = characters.try_into().expect("three characters");
    radix50::word_of_characters(characters).expect("characters of Radix-50")
}

/// The five words of a proper name.
pub fn words(text: &str) -> [u16; 5] {
    let name = names::name_of(text.as_bytes());
    name.expect("a proper name").words()
}

/// Proper names of every shape: one word, two and three, full and not, with and without a type.
pub fn proper_words() -> Vec<[u16; 5]> {
    [
        "READS.DAT;1",
        "A.;32767",
        "ABCDEFGHI.XYZ;10000",
        "A1B.Z;99",
        "Z9AAAA.A0;100",
        "0.9;9",
        "999999999.999;32767",
        "AAAAAAA.AA;4096",
    ]
    .map(words)
    .to_vec()
}

/// All 65,536 values of each of the five words, among the other words of proper names.
pub fn every_value_of_each_word() -> impl Iterator<Item = [u16; 5]> {
    proper_words().into_iter().flat_map(|proper| {
        (0..5).flat_map(move |place| {
            (0..=u16::MAX).map(move |value| {
                let mut words = proper;
                words[place] = value;
                words
            })
        })
    })
}

/// Words where a rule of Radix-50 or of proper names begins or ends.
pub fn edge_words() -> Vec<u16> {
    let mut edges = vec![
        // Numbers beside the bounds of a code, of two codes and of three.
        0,
        1,
        2,
        26,
        27,
        28,
        29,
        30,
        39,
        40,
        41,
        79,
        80,
        1599,
        1600,
        1601,
        1639,
        1640,
        1641,
        3199,
        3200,
        32_766,
        32_767,
        32_768,
        62_399,
        62_400,
        63_959,
        63_960,
        63_998,
        63_999,
        64_000,
        64_001,
        65_534,
        65_535,
        // Code 29 in each place, alone and among letters.
        29 * 1600,
        29 * 40,
        29 * 1640 + 29,
        1600 + 29 * 40 + 1,
        1640 + 29,
        // Versions with one digit more than the last.
        9,
        10,
        99,
        100,
        999,
        1000,
        9999,
        10_000,
    ];
    let three = [
        "A  ", "AB ", "ABC", " A ", "  A", "A B", " AB", "Z  ", "ZZZ", "9  ", "99 ", "999", "0  ",
        "000", " 0 ", "$  ", "A$ ", "AB$", ".  ", "A. ", "AB.", "...", "$$$", "REA", "DS ", "DAT",
    ];
    edges.extend(three.map(word));
    edges.sort_unstable();
    edges.dedup();
    edges
}

/// The characters of proper names.
const NAME_BYTES: &[u8] = b"ABCDEFGHIJKLMNOPQRSTUVWXYZ0123456789";

/// Some capitals and digits.
fn push_name_bytes(random: &mut Random, count: usize, text: &mut Vec<u8>) {
    for _ in 0..count {
        text.push(*random.pick(NAME_BYTES));
    }
}

/// A random version from 1 to 32,767: as often short as long, and often at a bound.
pub fn random_version(random: &mut Random) -> u16 {
    let bounds = [1, 9, 10, 99, 100, 999, 1000, 9999, 10_000, 32_766, 32_767];
    match random.below(3) {
        0 => *random.pick(&bounds),
        1 => 1 + random.below(32_767) as u16,
        _ => 1 + (random.below(32_767) >> random.below(15)) as u16,
    }
}

/// The text of a random proper name.
pub fn random_proper_text(random: &mut Random) -> Vec<u8> {
    let mut text = Vec::new();
    let length = random.between(1, 9);
    push_name_bytes(random, length, &mut text);
    text.push(b'.');
    let length = random.between(0, 3);
    push_name_bytes(random, length, &mut text);
    text.push(b';');
    text.extend_from_slice(random_version(random).to_string().as_bytes());
    text
}

/// The five words of a random proper name.
pub fn random_proper_words(random: &mut Random) -> [u16; 5] {
    let text = random_proper_text(random);
    let name = names::name_of(&text);
    name.expect("a proper name").words()
}

/// A random word: any, at an edge, or of three random characters.
pub fn random_word(random: &mut Random, edges: &[u16]) -> u16 {
    match random.below(4) {
        0 => random.word(),
        1 => *random.pick(edges),
        2 => random.below(64_000) as u16,
        _ => {
            let mut codes = [0; 3];
            for code in &mut codes {
                *code = *random.pick(&[0, 1, 2, 26, 27, 28, 29, 30, 39]);
            }
            radix50::word(codes).expect("three codes")
        }
    }
}

/// Bytes that a rule of texts speaks of, and their neighbours.
pub const TEXT_BYTES: &[u8] = b"ABZ0129az.;:,$ -+_*/@[\0\t\n\x7f\x80\xb1\xff";

/// Version parts of which most are wrong: zeros, bounds, and numbers that a narrow type would wrap.
pub const VERSION_PARTS: &[&str] = &[
    "",
    "0",
    "00",
    "01",
    "007",
    "1",
    "9",
    "10",
    "32766",
    "32767",
    "32768",
    "32769",
    "032767",
    "65535",
    "65536",
    "65537",
    "98304",
    "99999",
    "100000",
    "100001",
    "131073",
    "327670",
    "327680",
    "2147483649",
    "4294967295",
    "4294967296",
    "4294967297",
    "4295000063",
    "9223372036854775809",
    "18446744073709551615",
    "18446744073709551616",
    "18446744073709551617",
    "18446744073709584383",
    "340282366920938463463374607431768211457",
    "-1",
    "+1",
    " 1",
    "1 ",
    "1.",
    "1;",
    "1;1",
    "0x1",
    "1A",
    "A1",
    "1\0",
    "\0",
];

/// A text with one random change.
pub fn mutate(random: &mut Random, text: &mut Vec<u8>) {
    let end = text.len();
    let place = random.between(0, end);
    match random.below(16) {
        0 | 1 => text.insert(place, *random.pick(TEXT_BYTES)),
        2 if place < end => drop(text.remove(place)),
        3 | 4 if place < end => text[place] = *random.pick(TEXT_BYTES),
        5 if place + 1 < end => text.swap(place, place + 1),
        6 if end > 0 => text.swap(place % end, random.between(0, end - 1)),
        7 => text.truncate(place),
        8 => text.push(*random.pick(TEXT_BYTES)),
        9 if place < end => text[place] = text[place].to_ascii_lowercase(),
        10 => text.make_ascii_lowercase(),
        11 => replace_version(random, text),
        12 => lengthen_version(random, text),
        13 => lengthen_name(random, text),
        14 if place < end => text[place] ^= 1 << random.below(8),
        _ => text.insert(place, random.byte()),
    }
}

/// Puts another version part after the last `;`.
fn replace_version(random: &mut Random, text: &mut Vec<u8>) {
    cut_version(text);
    text.extend_from_slice(random.pick(VERSION_PARTS).as_bytes());
}

/// Puts a long run of digits after the last `;`, with leading zeros or without.
fn lengthen_version(random: &mut Random, text: &mut Vec<u8>) {
    cut_version(text);
    let zeros = random.between(0, 3);
    text.resize(text.len() + zeros, b'0');
    for _ in 0..random.between(1, 30) {
        text.push(*random.pick(b"0123456789"));
    }
}

/// Takes away what follows the last `;`.
fn cut_version(text: &mut Vec<u8>) {
    if let Some(place) = text.iter().rposition(|&byte| byte == b';') {
        text.truncate(place + 1);
    }
}

/// Puts capitals and digits in front of the first `.`, or in front of the first `;`.
fn lengthen_name(random: &mut Random, text: &mut Vec<u8>) {
    let end = *random.pick(b".;");
    let place = text.iter().position(|&byte| byte == end).unwrap_or(0);
    let mut more = Vec::new();
    let length = random.between(1, 12);
    push_name_bytes(random, length, &mut more);
    text.splice(place..place, more);
}

/// Calls `each` on every text of `length` bytes of an alphabet.
pub fn each_text(alphabet: &[u8], length: usize, each: &mut impl FnMut(&[u8])) {
    let mut places = vec![0; length];
    loop {
        let text: Vec<u8> = places.iter().map(|&place| alphabet[place]).collect();
        each(&text);
        // Counts on, as the digits of a number do.
        let Some(place) = places.iter().rposition(|&p| p + 1 < alphabet.len()) else {
            return;
        };
        places[place] += 1;
        places[place + 1..].fill(0);
    }
}

#[cfg(test)]
mod tests {
    use super::*;

    #[test]
    fn random_proper_texts_are_proper() {
        let mut random = Random::new(1);
        for _ in 0..10_000 {
            let text = random_proper_text(&mut random);
            assert!(names::name_of(&text).is_some(), "{}", show_text(&text));
        }
    }

    #[test]
    fn mutated_texts_are_mostly_wrong_and_sometimes_right() {
        let mut random = Random::new(2);
        let mut right = 0;
        for _ in 0..10_000 {
            let mut text = random_proper_text(&mut random);
            mutate(&mut random, &mut text);
            right += u32::from(names::name_of(&text).is_some());
        }
        assert!((500..5_000).contains(&right), "{right} of 10,000");
    }

    #[test]
    fn every_text_once() {
        let mut texts = Vec::new();
        for length in 0..3 {
            each_text(b"AB", length, &mut |text| texts.push(text.to_vec()));
        }
        let expected: [&[u8]; 7] = [b"", b"A", b"B", b"AA", b"AB", b"BA", b"BB"];
        assert_eq!(texts, expected);
    }

    #[test]
    fn patterns_differ_from_byte_to_byte_and_from_fill_to_fill() {
        for place in 0..100 {
            assert_ne!(pattern(3, place), pattern(3, place + 1));
            assert_ne!(pattern(3, place), pattern(4, place));
        }
    }
}
