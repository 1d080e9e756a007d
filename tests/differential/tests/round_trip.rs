//! Texts and words there and back, through the library alone.

use differential::names::{
    edge_words, every_value_of_each_word, random_proper_text, random_proper_words, random_word,
    show_words,
};
use differential::run::{show_answer, show_text};
use differential::Run;

/// The number of an answer that is not refused.
const DONE: u64 = 0;

/// The five words of an answer's value, if each is one.
fn five_words(answer: &[u64; 12]) -> Option<[u16; 5]> {
    let mut words = [0; 5];
    for (word, &value) in words.iter_mut().zip(&answer[2..]) {
        *word = u16::try_from(value).ok()?;
    }
    Some(words)
}

/// A text to words and back: it is taken, and the same text comes back.
fn text_and_back(run: &mut Run, text: &[u8]) {
    if !run.next_case() {
        return;
    }
    let there = library::text_to_name(text);
    let Some(words) = five_words(&there).filter(|_| there[0] == DONE) else {
        let lines = [
            ("text", show_text(text)),
            ("text_to_name", show_answer(&there)),
        ];
        run.fail("the text of a proper name was not taken", &lines);
    };
    let mut buffer = [0xff; 19];
    let back = library::name_to_text(words, &mut buffer);
    if back[0] != DONE || back[2] != text.len() as u64 || !buffer.starts_with(text) {
        let lines = [
            ("text", show_text(text)),
            ("text_to_name", show_answer(&there)),
            ("name_to_text", show_answer(&back)),
            ("buffer", show_text(&buffer)),
        ];
        run.fail("the text that came back is another one", &lines);
    }
}

/// Words to text and back: if they are taken, the same words come back.
fn words_and_back(run: &mut Run, words: [u16; 5]) {
    if !run.next_case() {
        return;
    }
    let mut buffer = [0xff; 19];
    let there = library::name_to_text(words, &mut buffer);
    if there[0] != DONE {
        return;
    }
    let length = usize::try_from(there[2]).unwrap_or(usize::MAX);
    let text = buffer.get(..length).unwrap_or(&[]);
    let back = library::text_to_name(text);
    if text.is_empty() || back[0] != DONE || five_words(&back) != Some(words) {
        let lines = [
            ("words", show_words(words)),
            ("name_to_text", show_answer(&there)),
            ("buffer", show_text(&buffer)),
            ("text_to_name", show_answer(&back)),
        ];
        run.fail("the words that came back are others", &lines);
    }
}

/// Random proper texts, to words and back.
#[test]
fn texts_and_back() {
    Run::of(module_path!(), "texts_and_back", 200_000, |run| {
        for _ in 0..run.cases(200_000) {
            let mut random = run.random();
            text_and_back(run, &random_proper_text(&mut random));
        }
    });
}

/// All versions, to words and back.
#[test]
fn versions_and_back() {
    Run::of(module_path!(), "versions_and_back", 32_767, |run| {
        for version in 1..=32_767 {
            text_and_back(run, format!("READS.DAT;{version}").as_bytes());
        }
    });
}

/// All values of each word among proper others, to text and back where they are taken.
#[test]
fn every_value_and_back() {
    let test = "every_value_and_back";
    Run::of(module_path!(), test, 8 * 5 * 65_536, |run| {
        for words in every_value_of_each_word() {
            words_and_back(run, words);
        }
    });
}

/// Random words, to text and back where they are taken.
#[test]
fn words_and_back_at_random() {
    let test = "words_and_back_at_random";
    Run::of(module_path!(), test, 200_000, |run| {
        let edges = edge_words();
        for _ in 0..run.cases(200_000) {
            let mut random = run.random();
            let mut words = random_proper_words(&mut random);
            if random.once_in(2) {
                words[random.between(0, 4)] = random_word(&mut random, &edges);
            }
            words_and_back(run, words);
        }
    });
}
