//! `name_to_text`: words to text, the library against the model.

use differential::names::{
    self, compare_words, edge_words, proper_words, random_proper_words, random_word,
};
use differential::Run;

/// A buffer with room for every text.
const ENOUGH: usize = 24;

/// All 65,536 values of each of the five words, among the other words of proper names.
#[test]
fn every_value_of_each_word() {
    let test = "every_value_of_each_word";
    Run::of(module_path!(), test, 8 * 5 * 65_536, |run| {
        for words in names::every_value_of_each_word() {
            compare_words(run, words, ENOUGH, 0x11);
        }
    });
}

/// All pairs of edge values in every pair of places, among the other words of proper names.
#[test]
fn edge_values_in_pairs() {
    Run::of(module_path!(), "edge_values_in_pairs", 359_120, |run| {
        let edges = edge_words();
        for proper in proper_words() {
            for (first, second) in pairs_of_places() {
                for &one in &edges {
                    for &other in &edges {
                        let mut words = proper;
                        words[first] = one;
                        words[second] = other;
                        compare_words(run, words, ENOUGH, 0x22);
                    }
                }
            }
        }
    });
}

/// Two of the five places, the first before the second.
fn pairs_of_places() -> Vec<(usize, usize)> {
    let mut pairs = Vec::new();
    for first in 0..5 {
        for second in first + 1..5 {
            pairs.push((first, second));
        }
    }
    pairs
}

/// Blanks, letters, wrong characters and words that are none, in all three words of the name and
/// in the type at once.
#[test]
fn edge_values_in_all_words() {
    let test = "edge_values_in_all_words";
    Run::of(module_path!(), test, 12 * 12 * 12 * 12 * 4, |run| {
        // Blank, `  A`, ` A `, `A  `, `A A`, `AA `, `AAA`, `  $`, code 29, `999`, and two that are
        // no words.
        let values = [
            0, 1, 40, 1600, 1601, 1640, 1641, 27, 29, 63_999, 64_000, 65_535,
        ];
        for name1 in values {
            for name2 in values {
                for name3 in values {
                    for typ in values {
                        for version in [0, 1, 32_767, 32_768] {
                            let words = [name1, name2, name3, typ, version];
                            compare_words(run, words, ENOUGH, 0x33);
                        }
                    }
                }
            }
        }
    });
}

/// Random proper names.
#[test]
fn random_proper_names() {
    Run::of(module_path!(), "random_proper_names", 200_000, |run| {
        for _ in 0..run.cases(200_000) {
            let mut random = run.random();
            let words = random_proper_words(&mut random);
            let length = random.between(19, 40);
            compare_words(run, words, length, random.byte());
        }
    });
}

/// Random words, of which some are proper, with buffers long and short.
#[test]
fn random_words() {
    Run::of(module_path!(), "random_words", 300_000, |run| {
        let edges = edge_words();
        for _ in 0..run.cases(300_000) {
            let mut random = run.random();
            let mut words = random_proper_words(&mut random);
            for _ in 0..random.between(0, 5) {
                words[random.between(0, 4)] = random_word(&mut random, &edges);
            }
            let length = random.between(0, 40);
            compare_words(run, words, length, random.byte());
        }
    });
}

/// Buffers of every length from 0 to 40, and some that are long, with proper names and others.
#[test]
fn every_buffer_length() {
    Run::of(module_path!(), "every_buffer_length", 30_080, |run| {
        let lengths: Vec<usize> = (0..=40).chain([64, 255, 256, 257, 4096, 65_536]).collect();
        for proper in proper_words() {
            for &length in &lengths {
                for fill in 0..8 {
                    compare_words(run, proper, length, fill * 31);
                    for place in 0..5 {
                        let mut words = proper;
                        words[place] = [64_000, 29, 27, 65_535, 0][place];
                        compare_words(run, words, length, fill * 31 + 1);
                    }
                    compare_words(run, [0; 5], length, fill * 31 + 2);
                    compare_words(run, [u16::MAX; 5], length, fill * 31 + 3);
                    compare_words(run, [1, 1, 1, 1, 32_768], length, fill * 31 + 4);
                    compare_words(run, [1600, 0, 0, 0, 1], length, fill * 31 + 5);
                }
            }
        }
    });
}
