//! The lines of a run: which of them are wanted, which sides they have, and how they are printed.

use crate::calls::{answer_of, Calls};
use crate::plain::Answer;
use crate::turns::{measure, Ratio, Role, Side, Times, Turn, Worker, BUDGET, ROUND};
use std::hint::black_box;
use std::time::Instant;

/// The answer of opening a volume whose index file is not right.
const INDEX: u64 = 4;

/// A run: its sides, and the word that the name of a line must have.
pub struct Run {
    sides: Vec<Side>,
    word: String,
}

impl Run {
    /// A run of some sides, with the lines whose name has a word; every name has the empty one.
    pub fn new(sides: Vec<Side>, word: &str) -> Run {
        Run {
            sides,
            word: word.to_owned(),
        }
    }

    /// Whether an old library is measured too.
    pub fn is_against_old(&self) -> bool {
        self.sides.iter().any(|side| side.role() == Role::Old)
    }

    /// Whether a line is wanted.
    pub fn wants(&self, name: &str) -> bool {
        name.contains(&self.word)
    }

    /// Measures a line, if it is wanted.
    pub fn line(&self, name: &str, measure: impl FnOnce(Line)) {
        if self.wants(name) {
            measure(Line { run: self, name });
        }
    }

    /// The sides that open a volume. Where two libraries are measured, one that does not know the index
    /// file of the volume is left out.
    pub fn sides_of(&self, image: &[u8]) -> Vec<&Side> {
        let opens = |side: &&Side| {
            let number = answer_of(|answer| side.any().open_volume(image, answer))[0];
            let may_refuse = self.is_against_old() && side.role() != Role::Plain;
            let is_left_out = may_refuse && number == INDEX;
            assert!(is_left_out || number == 0, "{:?}: {number}", side.role());
            !is_left_out
        };
        self.sides.iter().filter(opens).collect()
    }

    /// Prints what stands above the lines.
    pub fn print_head(&self) {
        if self.is_against_old() {
            println!(
                "{:<52} {:>8} {:>6} {:>12} {:>12} {:>12} {:>8} {:>17} {:>9}",
                "",
                "calls",
                "rounds",
                "old ns",
                "new ns",
                "Rust ns",
                "new/old",
                "its bounds",
                "new/Rust"
            );
        } else {
            println!(
                "{:<52} {:>8} {:>6} {:>12} {:>12} {:>8} {:>12} {:>8}",
                "", "calls", "rounds", "library ns", "Rust ns", "ratio", "reading ns", "ratio"
            );
        }
    }

    /// Prints a line.
    pub fn print(&self, name: &str, calls: usize, times: &Times) {
        let rounds = times.rounds();
        let time = |role| text(times.median(role), 1);
        let ratio =
            |role, other, digits| text(times.ratio(role, other).map(|it| it.median), digits);
        if self.is_against_old() {
            let bounds = match times.ratio(Role::Library, Role::Old) {
                Some(Ratio { bounds, .. }) => format!("({:.3} to {:.3})", bounds.0, bounds.1),
                None => String::new(),
            };
            println!(
                "{name:<52} {calls:>8} {rounds:>6} {:>12} {:>12} {:>12} {:>8} {bounds:>17} {:>9}",
                time(Role::Old),
                time(Role::Library),
                time(Role::Plain),
                ratio(Role::Library, Role::Old, 3),
                ratio(Role::Library, Role::Plain, 2),
            );
        } else {
            println!(
                "{name:<52} {calls:>8} {rounds:>6} {:>12} {:>12} {:>8} {:>12} {:>8}",
                time(Role::Library),
                time(Role::Plain),
                ratio(Role::Library, Role::Plain, 2),
                time(Role::Reading),
                ratio(Role::Library, Role::Reading, 2),
            );
        }
    }
}

/// A number with some digits after its point, or nothing.
fn text(number: Option<f64>, digits: usize) -> String {
    number.map_or(String::new(), |number| format!("{number:.digits$}"))
}

/// A line that is wanted.
pub struct Line<'a> {
    pub run: &'a Run,
    pub name: &'a str,
}

impl Line<'_> {
    /// Measures a call with each of some arguments. The answers of all sides are compared first, word by
    /// word; where the old library has 0, a word may have been given a meaning since. A round has every
    /// so-manyth argument, and the next round those beside them.
    pub fn read<Argument: Copy>(
        &self,
        image: &[u8],
        arguments: &[Argument],
        call: impl Fn(&dyn Calls, &[u8], Argument, &mut Answer),
    ) {
        let sides = self.run.sides_of(image);
        let answer_by = |calls: &dyn Calls, argument| {
            answer_of(|answer| call(calls, black_box(image), argument, answer))
        };
        let started = Instant::now();
        for &argument in arguments {
            let answers = sides.iter().map(|side| answer_by(side.any(), argument));
            let answers: Vec<Answer> = answers.collect();
            let last = answers.last().expect("there is a side");
            let equal = sides.iter().zip(&answers).all(|(side, answer)| {
                let mut words = answer.iter().zip(last);
                words.all(|(&word, &wanted)| word == wanted || side.is_old() && word == 0)
            });
            assert!(equal, "{}: the answers differ: {answers:?}", self.name);
        }
        let taken = started.elapsed() / sides.len() as u32;
        let parts = (taken.as_nanos() / ROUND.as_nanos()) as usize;
        let parts = parts.clamp(1, arguments.len());
        let make_calls = |calls: &dyn Calls, turn: Turn| {
            let mut made = 0;
            let first = turn.number % parts;
            for &argument in arguments[first..].iter().step_by(parts) {
                black_box(answer_by(calls, argument));
                made += 1;
            }
            made
        };
        let workers = sides.into_iter().map(|side| Worker {
            role: side.role(),
            work: Box::new(move |turn| make_calls(side.calls(turn), turn)),
        });
        let times = measure(workers.collect(), 1, BUDGET);
        self.run.print(self.name, arguments.len(), &times);
    }
}
