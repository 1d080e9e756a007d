//! Sides that take turns, and what their times say.
//!
//! A round is short where the work can be cut: all sides do the same work in it, one after the other, in
//! an order by chance. The machine's speed changes between rounds, and hardly within one. So a ratio of two
//! sides is the median of the ratios that the rounds have; a time is the median of the rounds' times. What
//! a side writes to is given to another side the next time, by chance too.
//!
//! A time is what the system gave this thread of a processor: what the thread waited for one is not in it.
//!
//! Where a library's functions lie in memory changes the time of its shortest calls by a tenth or two. So a
//! library that is loaded is loaded several times, each time at other places, and the copies take turns too.

use crate::calls::Calls;
use std::time::{Duration, Instant};
use volumes::Random;

/// How long a side works in a round, where its work can be cut so short.
pub const ROUND: Duration = Duration::from_micros(300);

/// How long the sides of a line are measured, all together, if a few rounds do not take longer.
pub const BUDGET: Duration = Duration::from_secs(3);

/// The fewest and the most rounds of a line.
const LEAST_ROUNDS: usize = 101;
const MOST_ROUNDS: usize = 2_001;

/// The rounds that warm up, and tell how long a round takes.
const FIRST_ROUNDS: usize = 3;

/// Who a side is.
#[derive(Clone, Copy, Debug, PartialEq, Eq)]
pub enum Role {
    /// The library that another is held against.
    Old,
    /// The library that is measured.
    Library,
    /// Plain Rust.
    Plain,
    /// The bare reading of what the calls must read.
    Reading,
}

/// A side, and who makes its calls: a few copies of the same, or one.
pub struct Side {
    role: Role,
    copies: Vec<Box<dyn Calls>>,
}

/// How many turns one copy makes before the next.
const TURNS_OF_A_COPY: usize = 8;

impl Side {
    pub fn new(role: Role, copies: Vec<Box<dyn Calls>>) -> Side {
        assert!(!copies.is_empty(), "somebody makes the calls");
        Side { role, copies }
    }

    /// Who it is.
    pub fn role(&self) -> Role {
        self.role
    }

    /// Who makes the calls of a turn. Each copy is met by each of another side.
    pub fn calls(&self, turn: Turn) -> &dyn Calls {
        let many = self.copies.len();
        let time = turn.number / TURNS_OF_A_COPY;
        let place = match self.role {
            Role::Old => time,
            _ => time + time / many,
        };
        &*self.copies[place % many]
    }

    pub fn is_old(&self) -> bool {
        self.role == Role::Old
    }

    /// Who makes a call that is not measured.
    pub fn any(&self) -> &dyn Calls {
        &*self.copies[0]
    }
}

/// A turn of a side.
#[derive(Clone, Copy)]
pub struct Turn {
    /// How many turns were before it.
    pub number: usize,
    /// Which desk the side works at, of as many as there are sides. No other side has it in this turn.
    pub desk: usize,
}

/// A side at work.
pub struct Worker<'a> {
    pub role: Role,
    /// Makes the calls of a turn, and answers how many they are.
    pub work: Box<dyn FnMut(Turn) -> usize + 'a>,
}

/// The nanoseconds of a call in each round, side by side.
pub struct Times {
    roles: Vec<Role>,
    rounds: Vec<Vec<f64>>,
}

/// A ratio of two sides.
pub struct Ratio {
    /// The median of the rounds.
    pub median: f64,
    /// What the median of so many rounds lies between, nineteen times of twenty, if nothing but chance
    /// is in them.
    pub bounds: (f64, f64),
}

impl Times {
    /// How many rounds there are.
    pub fn rounds(&self) -> usize {
        self.rounds.len()
    }

    /// A number of each round, in rising order.
    fn sorted(&self, number: impl Fn(&[f64]) -> f64) -> Vec<f64> {
        let mut numbers: Vec<f64> = self.rounds.iter().map(|round| number(round)).collect();
        numbers.sort_unstable_by(f64::total_cmp);
        numbers
    }

    fn place(&self, role: Role) -> Option<usize> {
        self.roles.iter().position(|&it| it == role)
    }

    /// The median time of a side, if it was measured.
    pub fn median(&self, role: Role) -> Option<f64> {
        let side = self.place(role)?;
        let times = self.sorted(|round| round[side]);
        Some(times[times.len() / 2])
    }

    /// How many times the other a side takes, if both were measured.
    pub fn ratio(&self, role: Role, other: Role) -> Option<Ratio> {
        let (side, other) = (self.place(role)?, self.place(other)?);
        let ratios = self.sorted(|round| round[side] / round[other]);
        let (last, middle) = (ratios.len() - 1, ratios.len() / 2);
        let away = (0.98 * (ratios.len() as f64).sqrt()).ceil() as usize;
        Some(Ratio {
            median: ratios[middle],
            bounds: (
                ratios[middle.saturating_sub(away)],
                ratios[(middle + away).min(last)],
            ),
        })
    }
}

/// The numbers below `count` in any order.
fn shuffled(random: &mut Random, count: usize) -> Vec<usize> {
    let mut numbers: Vec<usize> = (0..count).collect();
    for last in (1..count).rev() {
        numbers.swap(last, random.between(0, last));
    }
    numbers
}

/// Measures sides for about so long. A round has some turns, and in each turn all sides work.
pub fn measure(workers: Vec<Worker>, turns: usize, budget: Duration) -> Times {
    let roles = workers.iter().map(|worker| worker.role).collect();
    let mut sides = Turns {
        workers,
        random: Random::new(1),
        turn: 0,
    };
    let started = Instant::now();
    for _ in 0..FIRST_ROUNDS {
        sides.round(turns);
    }
    let taken = started.elapsed() / FIRST_ROUNDS as u32;
    let rounds = budget.as_nanos() / taken.as_nanos().max(1);
    // An odd number, so that there is a median.
    let rounds = (rounds as usize).clamp(LEAST_ROUNDS, MOST_ROUNDS) | 1;
    let rounds = (0..rounds).map(|_| sides.round(turns)).collect();
    Times { roles, rounds }
}

/// Sides at work, and how many turns there were.
struct Turns<'a> {
    workers: Vec<Worker<'a>>,
    random: Random,
    turn: usize,
}

impl Turns<'_> {
    /// The nanoseconds of a call of each side in a round of some turns.
    fn round(&mut self, turns: usize) -> Vec<f64> {
        let sides = self.workers.len();
        let mut spent = vec![(Duration::ZERO, 0); sides];
        for _ in 0..turns {
            let desks = shuffled(&mut self.random, sides);
            for side in shuffled(&mut self.random, sides) {
                let turn = Turn {
                    number: self.turn,
                    desk: desks[side],
                };
                let started = clock();
                let calls = (self.workers[side].work)(turn);
                let (time, all) = &mut spent[side];
                *time += clock() - started;
                *all += calls;
            }
            self.turn += 1;
        }
        let each = |(time, calls): (Duration, usize)| time.as_nanos() as f64 / calls as f64;
        spent.into_iter().map(each).collect()
    }
}

/// A time of the system.
#[repr(C)]
struct Timespec {
    seconds: i64,
    nanoseconds: i64,
}

/// The clock of what this thread had of the processors, on Linux.
const THREAD_CPU: i32 = 3;

#[allow(unsafe_code)]
extern "C" {
    fn clock_gettime(clock: i32, time: *mut Timespec) -> i32;
}

/// What this thread had of the processors so far.
#[allow(unsafe_code)]
fn clock() -> Duration {
    let mut time = Timespec {
        seconds: 0,
        nanoseconds: 0,
    };
    // SAFETY: the time is there to be written.
    let refused = unsafe { clock_gettime(THREAD_CPU, &mut time) };
    assert!(refused == 0, "the clock can be read");
    Duration::new(time.seconds as u64, time.nanoseconds as u32)
}

#[cfg(test)]
mod tests {
    use super::*;
    use std::collections::HashMap;

    #[test]
    fn every_order_comes_as_often() {
        let mut random = Random::new(1);
        let mut times = HashMap::new();
        for _ in 0..6_000 {
            *times.entry(shuffled(&mut random, 3)).or_insert(0) += 1;
        }
        assert_eq!(times.len(), 6);
        assert!(times.values().all(|times| (900..1_100).contains(times)));
    }

    #[test]
    fn medians_are_of_the_rounds() {
        let times = Times {
            roles: vec![Role::Old, Role::Library],
            // The machine slows down by half, and once one side alone does.
            rounds: vec![
                vec![100.0, 110.0],
                vec![150.0, 165.0],
                vec![150.0, 165.0],
                vec![100.0, 900.0],
                vec![100.0, 110.0],
            ],
        };
        assert_eq!(times.median(Role::Old), Some(100.0));
        assert_eq!(times.median(Role::Library), Some(165.0));
        assert_eq!(times.median(Role::Plain), None);
        let ratio = times
            .ratio(Role::Library, Role::Old)
            .expect("both are there");
        assert_eq!(ratio.median, 1.1);
        assert!(times.ratio(Role::Library, Role::Plain).is_none());
    }
}
