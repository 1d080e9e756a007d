//! The run of one test: it numbers and counts the cases, and reports a case that differs.

use model::Number;
use std::collections::BTreeMap;
use std::env;
use std::io::{self, Write};
use std::thread;
use volumes::Random;

/// The seed of the random cases where the environment gives none.
const SEED: u64 = 0x0d51_1986;

/// What the environment asks of a run.
struct Settings {
    seed: u64,
    /// How many cases each random test makes.
    cases: Option<u64>,
    /// The one case to run.
    only: Option<u64>,
    /// Whether each case is told before it is run.
    tell: bool,
}

impl Settings {
    fn from_environment() -> Settings {
        Settings {
            seed: from_environment("ODS1_SEED").unwrap_or(SEED),
            cases: from_environment("ODS1_CASES"),
            only: from_environment("ODS1_CASE"),
            tell: from_environment("ODS1_TELL").is_some(),
        }
    }
}

/// The number that a variable of the environment holds, if it is set.
fn from_environment(variable: &str) -> Option<u64> {
    let text = env::var(variable).ok()?;
    let number = parse_number(&text);
    assert!(number.is_some(), "{variable}={text} is not a number");
    number
}

/// A decimal number, or a hexadecimal one after `0x`.
fn parse_number(text: &str) -> Option<u64> {
    match text.strip_prefix("0x") {
        Some(digits) => u64::from_str_radix(digits, 16).ok(),
        None => text.parse().ok(),
    }
}

/// The run of one test.
pub struct Run {
    target: &'static str,
    test: &'static str,
    settings: Settings,
    /// The number of the next case, from 0.
    next: u64,
    /// The case under way, if there is one.
    under_way: Option<u64>,
    /// How many cases were compared.
    compared: u64,
    /// How often something was met: its kind, its number, and how often.
    met: BTreeMap<(&'static str, u64), u64>,
}

/// A line of a report: what it tells, and what it says.
pub type Line = (&'static str, String);

impl Run {
    /// Runs the cases of the test `test` of the file `target`, and fails if fewer than `minimum`
    /// were compared: a test that compares nothing does not pass.
    pub fn of(
        target: &'static str,
        test: &'static str,
        minimum: u64,
        cases: impl FnOnce(&mut Run),
    ) {
        let mut run = Run {
            target,
            test,
            settings: Settings::from_environment(),
            next: 0,
            under_way: None,
            compared: 0,
            met: BTreeMap::new(),
        };
        cases(&mut run);
        run.under_way = None;
        run.expect_enough(minimum);
        run.tell();
    }

    /// How many cases a random test makes: as many as the environment says, or else `usual`.
    pub fn cases(&self, usual: u64) -> u64 {
        self.settings.cases.unwrap_or(usual)
    }

    /// The generator of the next case.
    pub fn random(&self) -> Random {
        Random::of_case(self.settings.seed, self.test, self.next)
    }

    /// Numbers the next case, and answers whether it is to be run; if so, it counts.
    pub fn next_case(&mut self) -> bool {
        let case = self.next;
        self.next += 1;
        if self.settings.only.is_some_and(|only| only != case) {
            return false;
        }
        self.under_way = Some(case);
        self.compared += 1;
        if self.settings.tell {
            tell(&self.show_case(case));
        }
        true
    }

    /// Runs random cases, each with its generator: as many as the environment says, or else
    /// `usual`.
    pub fn random_cases(&mut self, usual: u64, mut case: impl FnMut(&mut Run, &mut Random)) {
        for _ in 0..self.cases(usual) {
            let mut random = self.random();
            if self.next_case() {
                case(self, &mut random);
            }
        }
    }

    /// The seed of the run, for what all cases share.
    pub fn seed(&self) -> u64 {
        self.settings.seed
    }

    /// Counts that something was met: a call that answers a number, or any other kind of thing.
    pub fn meet(&mut self, kind: &'static str, number: u64) {
        *self.met.entry((kind, number)).or_insert(0) += 1;
    }

    /// Sees that each of these numbers of a kind was met often enough: a test that never meets a
    /// refusal says nothing of it.
    pub fn expect_met(
        &mut self,
        kind: &'static str,
        numbers: impl IntoIterator<Item = u64>,
        least: u64,
    ) {
        self.under_way = None;
        if self.settings.only.is_some() {
            return;
        }
        for number in numbers {
            let met = self.met.get(&(kind, number)).copied().unwrap_or(0);
            assert!(
                met >= least,
                "{} {} met {kind} {number} {met} times, and at least {least} are asked for",
                self.target,
                self.test
            );
        }
    }

    /// Fails the test with a report of the case under way.
    pub fn fail(&self, what: &str, lines: &[Line]) -> ! {
        panic!("{what}\n{}", show_lines(lines));
    }

    /// What a report says of a case, whatever it was that failed.
    fn show_case(&self, case: u64) -> String {
        show_lines(&[
            ("test", format!("{} {}", self.target, self.test)),
            ("seed", format!("{:#x}", self.settings.seed)),
            ("case", case.to_string()),
            ("rerun in tests/", self.command(case)),
        ])
    }

    /// The command that runs just one case.
    fn command(&self, case: u64) -> String {
        let cases = match self.settings.cases {
            Some(cases) => format!("ODS1_CASES={cases} "),
            None => String::new(),
        };
        format!(
            "ODS1_SEED={:#x} {cases}ODS1_CASE={case} cargo test --release --offline --locked \
             -p differential --test {} -- --exact {}",
            self.settings.seed, self.target, self.test
        )
    }

    /// Sees that enough cases were compared: `minimum`, or the one that was asked for.
    fn expect_enough(&self, minimum: u64) {
        let least = match self.settings.only {
            Some(_) => 1,
            None => minimum,
        };
        assert!(
            self.compared >= least,
            "{} {} compared {} cases, and at least {least} are asked for",
            self.target,
            self.test,
            self.compared
        );
    }

    /// Tells how many cases were compared, and how often each answer was met.
    fn tell(&self) {
        tell(&format!(
            "{} {}: {} cases compared{}\n",
            self.target,
            self.test,
            self.compared,
            self.show_answers()
        ));
    }

    /// How often each number was answered, by whatever call.
    fn show_answers(&self) -> String {
        let mut text = String::new();
        for number in Number::all() {
            let of_number = self.met.iter().filter(|(kind, _)| {
                let (call, answered) = **kind;
                is_call(call) && answered == number.number()
            });
            let times: u64 = of_number.map(|(_, times)| times).sum();
            if times > 0 {
                text += &format!(", {} {times}", number.name());
            }
        }
        text
    }
}

/// The calls that tell what a volume and its files say.
pub const FACTS: [&str; 7] = [
    "geometry",
    "label",
    "header",
    "pointer",
    "attributes",
    "extent",
    "free_run",
];

/// The other calls on images.
const OTHERS: [&str; 10] = [
    "open_volume",
    "open_file",
    "map",
    "block",
    "look_up",
    "next_record",
    "judge",
    "create",
    "extend",
    "delete",
];

/// Whether a kind of things met is a call, and its numbers answers.
fn is_call(kind: &str) -> bool {
    FACTS.contains(&kind) || OTHERS.contains(&kind)
}

/// Tells something past the test harness, which keeps back what a passing test prints.
fn tell(text: &str) {
    let told = io::stderr().write_all(text.as_bytes());
    told.expect("standard error takes a line");
}

/// A test that fails in a case, by a report or by any other panic, tells how to run the case again.
impl Drop for Run {
    fn drop(&mut self) {
        if let Some(case) = self.under_way.filter(|_| thread::panicking()) {
            println!("{}", self.show_case(case));
        }
    }
}

/// The lines of a report.
fn show_lines(lines: &[Line]) -> String {
    let lines = lines.iter();
    lines
        .map(|(label, text)| format!("  {label:<15} {text}\n"))
        .collect()
}

/// An answer in readable form.
pub fn show_answer(words: &[u64; 12]) -> String {
    let name = Number::from_number(words[0]).map_or("(no such number)", Number::name);
    let value: Vec<String> = words[2..].iter().map(|&word| show_word(word)).collect();
    format!(
        "{} {name} place {} value {}",
        show_word(words[0]),
        show_word(words[1]),
        value.join(" ")
    )
}

/// A word of an answer, or that it was not written.
fn show_word(word: u64) -> String {
    if word == library::UNWRITTEN {
        "(unwritten)".to_string()
    } else {
        word.to_string()
    }
}

/// The first word in which two answers differ, by its name.
pub fn first_difference(left: &[u64; 12], right: &[u64; 12]) -> String {
    match (0..left.len()).find(|&place| left[place] != right[place]) {
        None => "none: the answers are equal".to_string(),
        Some(0) => "the number".to_string(),
        Some(1) => "the place".to_string(),
        Some(place) => format!("value word {}", place - 1),
    }
}

/// How many bytes a report shows of a long run of them.
const SHOWN: usize = 160;

/// Bytes in readable form.
pub fn show_text(bytes: &[u8]) -> String {
    let shown = &bytes[..bytes.len().min(SHOWN)];
    format!("\"{}\"{}", shown.escape_ascii(), show_rest(bytes.len()))
}

/// Bytes in hexadecimal.
pub fn show_hex(bytes: &[u8]) -> String {
    let shown = &bytes[..bytes.len().min(SHOWN)];
    let hex: Vec<String> = shown.iter().map(|byte| format!("{byte:02x}")).collect();
    format!("{}{}", hex.join(" "), show_rest(bytes.len()))
}

/// What a report says of the bytes that it does not show.
fn show_rest(length: usize) -> String {
    if length > SHOWN {
        format!(" .. ({length} bytes, the first {SHOWN} shown)")
    } else {
        format!(" ({length} bytes)")
    }
}

#[cfg(test)]
mod tests {
    use super::*;

    fn run(only: Option<u64>) -> Run {
        Run {
            target: "target",
            test: "test",
            settings: Settings {
                seed: 5,
                cases: None,
                only,
                tell: false,
            },
            next: 0,
            under_way: None,
            compared: 0,
            met: BTreeMap::new(),
        }
    }

    #[test]
    fn numbers_of_the_environment() {
        assert_eq!(parse_number("12"), Some(12));
        assert_eq!(parse_number("0x1f"), Some(31));
        assert_eq!(parse_number(""), None);
        assert_eq!(parse_number("1f"), None);
    }

    #[test]
    fn every_case_is_counted() {
        let mut all = run(None);
        assert!((0..3).all(|_| all.next_case()));
        assert_eq!(all.under_way, Some(2));
        all.expect_enough(3);
    }

    #[test]
    #[should_panic(expected = "compared 1 cases, and at least 2 are asked for")]
    fn too_few_cases_fail() {
        let mut all = run(None);
        all.next_case();
        all.expect_enough(2);
    }

    #[test]
    fn one_case_alone() {
        let mut one = run(Some(1));
        let run: Vec<bool> = (0..3).map(|_| one.next_case()).collect();
        assert_eq!(run, [false, true, false]);
        assert_eq!(one.under_way, Some(1));
        one.expect_enough(1000);
    }

    #[test]
    #[should_panic(expected = "compared 0 cases, and at least 1 are asked for")]
    fn one_case_that_is_not_there_fails() {
        let mut one = run(Some(9));
        one.next_case();
        one.expect_enough(1000);
    }

    #[test]
    fn what_is_met_is_counted() {
        let mut all = run(None);
        all.meet("map", 13);
        all.meet("map", 0);
        all.meet("block", 13);
        all.meet("bad link", 13);
        all.expect_met("map", [0, 13], 1);
        assert_eq!(all.show_answers(), ", DONE 1, VBN 2");
    }

    #[test]
    #[should_panic(expected = "met map 13 1 times, and at least 2 are asked for")]
    fn what_is_met_too_rarely_fails() {
        let mut all = run(None);
        all.meet("map", 13);
        all.meet("block", 13);
        all.expect_met("map", [13], 2);
    }

    #[test]
    fn one_case_alone_need_meet_nothing() {
        run(Some(1)).expect_met("map", [13], 2);
    }

    #[test]
    fn a_report_has_the_command_to_run_the_case_again() {
        let report = run(None).show_case(7);
        let command = "ODS1_SEED=0x5 ODS1_CASE=7 cargo test --release --offline --locked \
                       -p differential --test target -- --exact test\n";
        assert!(report.ends_with(command), "{report}");
        let mut long = run(None);
        long.settings.cases = Some(99);
        assert!(long
            .command(7)
            .starts_with("ODS1_SEED=0x5 ODS1_CASES=99 ODS1_CASE=7 cargo "));
    }

    #[test]
    #[should_panic(expected = "differs\n  input           none\n")]
    fn a_report_has_its_lines() {
        run(None).fail("differs", &[("input", "none".to_string())]);
    }

    #[test]
    fn answers_in_readable_form() {
        let mut words = [0; 12];
        words[0] = 14;
        assert_eq!(
            show_answer(&words),
            "14 NAME place 0 value 0 0 0 0 0 0 0 0 0 0"
        );
        words[0] = 99;
        words[1] = library::UNWRITTEN;
        assert_eq!(
            show_answer(&words),
            "99 (no such number) place (unwritten) value 0 0 0 0 0 0 0 0 0 0"
        );
        let mut other = words;
        other[4] = 1;
        assert_eq!(first_difference(&words, &other), "value word 3");
    }
}
