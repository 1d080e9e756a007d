//! `text_to_name`: text to words, the library against the model.

use differential::names::{
    compare_text, each_text, mutate, random_proper_text, TEXT_BYTES, VERSION_PARTS,
};
use differential::Run;

/// All texts of up to three bytes over the bytes that a rule speaks of.
#[test]
fn all_texts_up_to_three_bytes() {
    let test = "all_texts_up_to_three_bytes";
    Run::of(module_path!(), test, 25_260, |run| {
        for length in 0..=3 {
            each_text(TEXT_BYTES, length, &mut |text| compare_text(run, text));
        }
    });
}

/// All texts of four to eight bytes over fewer and fewer bytes.
#[test]
fn all_texts_of_four_to_eight_bytes() {
    let test = "all_texts_of_four_to_eight_bytes";
    Run::of(module_path!(), test, 318_878, |run| {
        let alphabets: [(usize, &[u8]); 5] = [
            (4, b"AZ019a.;$ -\0\xff"),
            (5, b"A019a.;$ \xff"),
            (6, b"A09.;\0"),
            (7, b"A09.;"),
            (8, b"A1.;"),
        ];
        for (length, alphabet) in alphabets {
            each_text(alphabet, length, &mut |text| compare_text(run, text));
        }
    });
}

/// All texts that go on after a valid beginning, over the bytes of names.
#[test]
fn all_endings_of_up_to_six_bytes() {
    let test = "all_endings_of_up_to_six_bytes";
    Run::of(module_path!(), test, 78_124, |run| {
        for start in ["A", "READS", "ABCDEFGHI", "ABCDEFGHIJ"] {
            for length in 0..=6 {
                each_text(b"A01.;", length, &mut |end| {
                    compare_text(run, &[start.as_bytes(), end].concat());
                });
            }
        }
    });
}

/// Every byte in every place of valid texts, in the place of a byte and between two.
#[test]
fn every_byte_in_every_place() {
    Run::of(module_path!(), "every_byte_in_every_place", 35_328, |run| {
        for text in [
            "READS.DAT;1",
            "A.;1",
            "ABCDEFGHI.JKL;32767",
            "0.0;3276",
            "Z9.Z9;10",
            "ABCDEFGH.XY;9999",
        ] {
            for place in 0..=text.len() {
                let (before, after) = text.as_bytes().split_at(place);
                for byte in 0..=u8::MAX {
                    compare_text(run, &[before, &[byte], after].concat());
                    if !after.is_empty() {
                        compare_text(run, &[before, &[byte], &after[1..]].concat());
                    }
                }
            }
        }
    });
}

/// Every version from 0 to 120,000, as it is and with a leading zero.
#[test]
fn every_version() {
    Run::of(module_path!(), "every_version", 240_002, |run| {
        for version in 0..=120_000 {
            compare_text(run, format!("READS.DAT;{version}").as_bytes());
            compare_text(run, format!("A.;0{version}").as_bytes());
        }
    });
}

/// Versions that a type of 16, 32 or 64 bits would wrap to a valid one, signs, zeros and the like.
#[test]
fn versions_out_of_range() {
    Run::of(module_path!(), "versions_out_of_range", 23_572, |run| {
        for part in VERSION_PARTS {
            for start in [
                "A.;",
                "READS.DAT;",
                "ABCDEFGHI.JKL;",
                "",
                "A",
                ".;",
                "A.ABCD;",
            ] {
                compare_text(run, format!("{start}{part}").as_bytes());
            }
        }
        for bits in [16, 31, 32, 33, 48, 63, 64, 65, 96] {
            for version in 0..=1024 {
                let version = (1u128 << bits) + version;
                compare_text(run, format!("A.;{version}").as_bytes());
                compare_text(run, format!("READS.DAT;{}", 3 * version).as_bytes());
            }
        }
        for digits in 1..=400 {
            for digit in '0'..='9' {
                let run_of_one = digit.to_string().repeat(digits);
                compare_text(run, format!("READS.DAT;{run_of_one}").as_bytes());
            }
            let zeros = "0".repeat(digits);
            compare_text(run, format!("READS.DAT;{zeros}1").as_bytes());
            compare_text(run, format!("READS.DAT;1{zeros}").as_bytes());
        }
    });
}

/// Names of 0 to 30 characters with types of 0 to 10, and versions of 0 to 7 digits.
#[test]
fn every_length_of_each_part() {
    Run::of(module_path!(), "every_length_of_each_part", 8_184, |run| {
        for name in 0..=30 {
            for typ in 0..=10 {
                for digits in 0..=7 {
                    for (letter, digit) in [("A", "1"), ("9", "2"), ("Z", "4")] {
                        let name = letter.repeat(name);
                        let typ = letter.repeat(typ);
                        let version = digit.repeat(digits);
                        compare_text(run, format!("{name}.{typ};{version}").as_bytes());
                    }
                }
            }
        }
    });
}

/// Valid texts with one to three random changes.
#[test]
fn mutated_texts() {
    Run::of(module_path!(), "mutated_texts", 400_000, |run| {
        for _ in 0..run.cases(400_000) {
            let mut random = run.random();
            let mut text = random_proper_text(&mut random);
            for _ in 0..random.between(0, 3) {
                mutate(&mut random, &mut text);
            }
            compare_text(run, &text);
        }
    });
}

/// Random bytes: of all kinds, or of those that a rule speaks of, or of names alone.
#[test]
fn random_texts() {
    Run::of(module_path!(), "random_texts", 200_000, |run| {
        for _ in 0..run.cases(200_000) {
            let mut random = run.random();
            let kind = random.below(3);
            let text: Vec<u8> = (0..random.between(0, 40))
                .map(|_| match kind {
                    0 => random.byte(),
                    1 => *random.pick(TEXT_BYTES),
                    _ => *random.pick(b"ABCXYZ0123456789..;;"),
                })
                .collect();
            compare_text(run, &text);
        }
    });
}

/// Texts of 64 KiB: a valid text with more of the same, or nothing but one byte.
#[test]
fn very_long_texts() {
    Run::of(module_path!(), "very_long_texts", 1_304, |run| {
        const LONG: usize = 65_536;
        for byte in 0..=u8::MAX {
            for start in ["", "A", "A.", "A.;", "READS.DAT;1"] {
                let mut text = start.as_bytes().to_vec();
                text.resize(LONG, byte);
                compare_text(run, &text);
            }
        }
        for byte in *b"A0.; \0" {
            for end in [".;1", "A.;1", ";1", "1"] {
                let mut text = vec![byte; LONG];
                text.extend_from_slice(end.as_bytes());
                compare_text(run, &text);
            }
        }
    });
}
