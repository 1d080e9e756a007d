//! The verdict. It is also held against reading the headers in use and both maps once and nothing more,
//! eight bytes at a time.

use crate::calls::{answer_of, Calls, Plain};
use crate::table::{Line, Run};
use crate::turns::{measure, Role, Side, Times, Turn, Worker, BUDGET, ROUND};
use crate::volumes_to_judge;
use std::cell::RefCell;
use std::hint::black_box;
use std::time::{Duration, Instant};
use volumes::Volume;

/// The sum of bytes, eight at a time.
fn sum_of(bytes: &[u8]) -> u64 {
    let words = bytes.chunks_exact(8);
    words.fold(0, |sum: u64, eight| {
        let word = u64::from_le_bytes(eight.try_into().expect("eight bytes"));
        sum.wrapping_add(word)
    })
}

/// What the bare reading reads: the slots of headers in use, as they lie, and the blocks of both maps.
struct Reading {
    slots: Vec<u32>,
    maps: [(u32, u32); 2],
}

impl Reading {
    fn of(volume: &Volume) -> Reading {
        let plan = &volume.plan;
        let slots = volume.headers().map(|it| volume.slot_of(it.number));
        let mut slots: Vec<u32> = slots.collect();
        slots.sort_unstable();
        Reading {
            slots,
            maps: [
                (plan.h_iblb, plan.index_map_blocks()),
                (plan.storage_map, plan.storage_map_blocks()),
            ],
        }
    }

    /// Reads it, and answers a number that depends on all of it.
    fn sum(&self, image: &[u8]) -> u64 {
        let slots = self.slots.iter().map(|&lbn| (lbn, 1));
        let parts = slots.chain(self.maps);
        parts.fold(0, |sum: u64, (lbn, blocks)| {
            let part = &image[512 * lbn as usize..512 * (lbn + blocks) as usize];
            sum.wrapping_add(sum_of(part))
        })
    }
}

/// The two work areas of a verdict.
type Areas = (Vec<u8>, Vec<u8>);

/// Work areas for a volume.
fn areas(volume: &Volume) -> Areas {
    let plan = &volume.plan;
    (vec![0; plan.blocks as usize], vec![0; plan.h_fmax.into()])
}

/// How many verdicts make a round, after this one.
fn calls_of_a_round(mut judge: impl FnMut()) -> usize {
    let started = Instant::now();
    judge();
    let taken = started.elapsed();
    (ROUND.as_nanos() / taken.as_nanos().max(1)).max(1) as usize
}

/// Measures the verdict on a volume that is accepted. The answers and the marks of all sides are
/// compared first.
fn times(run: &Run, volume: &Volume, budget: Duration) -> Times {
    let image = &volume.image[..];
    let sides = run.sides_of(image);
    // The bare reading has a desk as well, and leaves it as it is.
    let desks: Vec<RefCell<Areas>> = (0..=sides.len())
        .map(|_| RefCell::new(areas(volume)))
        .collect();
    let judge_at = |calls: &dyn Calls, desk: usize| {
        let (blocks, headers) = &mut *desks[desk].borrow_mut();
        answer_of(|answer| calls.judge(black_box(image), blocks, headers, answer))
    };
    let headers = volume.headers().count() as u64;
    for (desk, side) in sides.iter().enumerate() {
        let answer = judge_at(side.any(), desk);
        assert_eq!((answer[0], answer[5]), (0, headers));
        assert_eq!(answer, judge_at(&Plain, sides.len()));
        assert!(desks[desk] == desks[sides.len()], "the marks differ");
    }
    let many = calls_of_a_round(|| {
        judge_at(sides[0].any(), 0);
    });
    let make_calls = |side: &Side, turn: Turn| {
        for _ in 0..many {
            black_box(judge_at(side.calls(turn), turn.desk));
        }
        many
    };
    let make_calls = &make_calls;
    let reading = Reading::of(volume);
    let workers = sides.iter().map(|side| Worker {
        role: side.role(),
        work: Box::new(move |turn| make_calls(side, turn)),
    });
    let mut workers: Vec<Worker> = workers.collect();
    if !run.is_against_old() {
        workers.push(Worker {
            role: Role::Reading,
            work: Box::new(|_| {
                for _ in 0..many {
                    black_box(reading.sum(black_box(image)));
                }
                many
            }),
        });
    }
    let times = measure(workers, 1, budget);
    assert!(
        desks.iter().all(|desk| desk == &desks[0]),
        "the marks differ"
    );
    times
}

impl Line<'_> {
    /// The verdict on a volume that is accepted, with so many headers in use.
    pub fn judge(&self, volume: &Volume, headers: usize) {
        assert_eq!(volume.headers().count(), headers, "{}", self.name);
        self.run
            .print(self.name, 1, &times(self.run, volume, BUDGET));
    }
}

/// A budget for each size of a table that shows how the cost grows.
const SHORT: Duration = Duration::from_millis(1_200);

/// How the cost of the verdict grows: for each size, the time of a call, and what each block or
/// number more has cost since the size before.
fn judge_sizes(run: &Run, title: &str, sizes: &[u32], volume: impl Fn(u32) -> Volume) {
    if !run.wants(title) {
        return;
    }
    if run.is_against_old() {
        for &size in sizes {
            run.print(
                &format!("{title}: {size}"),
                1,
                &times(run, &volume(size), BUDGET),
            );
        }
        return;
    }
    println!(
        "\n{title:<40} {:>12} {:>12} {:>8} {:>16} {:>16}",
        "library ns", "Rust ns", "ratio", "library ns more", "Rust ns more"
    );
    let mut before: Option<(u32, [f64; 2])> = None;
    for &size in sizes {
        let times = times(run, &volume(size), SHORT);
        let sides = [Role::Library, Role::Plain];
        let now = sides.map(|role| times.median(role).expect("the side is measured"));
        let more = before.map_or(String::new(), |(last, then)| {
            let each = |side: usize| (now[side] - then[side]) / f64::from(size - last);
            format!(" {:>16.3} {:>16.3}", each(0), each(1))
        });
        let ratio = times.ratio(Role::Library, Role::Plain);
        println!(
            "{size:<40} {:>12.0} {:>12.0} {:>8.2}{more}",
            now[0],
            now[1],
            ratio.expect("both are measured").median
        );
        before = Some((size, now));
    }
}

/// Measures the verdict on volumes of several sizes.
pub fn measure_sizes(run: &Run) {
    judge_sizes(
        run,
        "verdict by N, 4,096 headers",
        &[65_280, 130_560, 261_120, 522_240, 1_044_480],
        volumes_to_judge::of_blocks,
    );
    judge_sizes(
        run,
        "verdict by H.FMAX, all in use, N 262,144",
        &[1_800, 3_600, 7_200, 14_400, 28_800],
        volumes_to_judge::of_h_fmax,
    );
}
