//! The verdict on the largest volumes: maps of 126, 255 and 16 blocks, a home at the last position
//! with 4,079 passed over, a bad block file of 37 headers, and offenders with high places.

use differential::facts::{expect_each_met, Depth};
use differential::images::{digest, Subject};
use differential::judging::{needed, Areas, Desk};
use differential::{Random, Run};
use model::Number;
use volumes::flaw::Judged;
use volumes::header::{Header, Pointer};
use volumes::large::{
    large_volume, largest_plan, plan_of_516_096, plan_of_one_bit_more, HIGH_FILE, OTHERS,
};
use volumes::shapes::MOST_BLOCKS;
use volumes::volume::{put_bit, Plan, Volume};

/// The run of one volume: it is changed again and again, and judged each time.
struct Judging<'r> {
    run: &'r mut Run,
    desk: Desk,
    random: Random,
    volume: Volume,
}

impl Judging<'_> {
    /// Judges the volume as it is now. It is too large to be lent by copy, so that it is lent as it
    /// is.
    fn expect(&mut self, told: &str, expected: Judged) {
        if !self.run.next_case() {
            return;
        }
        let story = [
            ("volume", self.volume.describe()),
            ("changed", told.to_string()),
        ];
        let subject = Subject {
            image: &self.volume.image,
            story: &story,
        };
        subject.expect_judged(self.run, &mut self.random, &mut self.desk, expected);
        subject.compare_verdict(self.run, &mut self.random, &mut self.desk);
    }

    /// A change, and the place where the verdict then refuses.
    fn refused(&mut self, rule: Number, place: u32, change: impl FnOnce(&mut Volume)) {
        change(&mut self.volume);
        let told = format!("{} at {place}", rule.name());
        self.expect(&told, Judged::Refused(rule, u64::from(place)));
    }

    /// The volume is sound yet: it has the counts of its builder, and is not written to.
    fn expect_sound(&mut self) {
        let before = digest(&self.volume.image);
        self.expect("nothing", Judged::Accepted);
        let blocks = u64::from(self.volume.plan.blocks);
        let claimed = self
            .volume
            .files
            .iter()
            .map(|file| u64::from(file.blocks()));
        let claimed: u64 = claimed.sum();
        let headers = self.volume.headers().count() as u64;
        let subject = Subject {
            image: &self.volume.image,
            story: &[],
        };
        let (n, h_fmax) = needed(subject.image);
        let areas = Areas::random(&mut self.random, n, h_fmax);
        let counts = [blocks, claimed, blocks - claimed, headers];
        subject.expect_counts(self.run, &mut self.desk, &areas, counts);
        subject.compare_facts(self.run, &mut self.random, &self.volume, Depth::LARGE);
        assert_eq!(digest(&self.volume.image), before, "it was written to");
    }
}

/// Judges volumes of a plan: sound, and then with changes.
fn judge_large(run: &mut Run, plan: Plan, changes: impl FnOnce(&mut Judging)) {
    let random = Random::new(run.seed());
    let mut judging = Judging {
        run,
        desk: Desk::default(),
        random,
        volume: large_volume(plan),
    };
    judging.expect_sound();
    changes(&mut judging);
}

/// Turns a bit of the storage map over.
fn turn(volume: &mut Volume, bit: u32) {
    volume.storage_map_mut()[(bit / 8) as usize] ^= 1 << (bit % 8);
}

/// Takes a block out of file 3.
fn leave_out(volume: &mut Volume, lbn: u32) {
    let headers = &volume.file(3).headers;
    let covers = |header: &&Header| header.pointers.iter().any(|it| it.lbn == lbn);
    let header = headers.iter().find(covers).expect("file 3 has it");
    let number = header.number;
    volume.edit_header(number, |header| {
        header.pointers.retain(|pointer| pointer.lbn != lbn);
    });
}

/// Puts a pointer of one block into a file.
fn cover(volume: &mut Volume, number: u16, lbn: u32) {
    volume.edit_header(number, |header| {
        header.pointers.push(Pointer { lbn, blocks: 1 });
    });
}

/// The largest volume: each change is told before those that came first, by its rule or its place.
#[test]
fn the_largest_volume() {
    Run::of(module_path!(), "the_largest_volume", 12, |run| {
        judge_large(run, largest_plan(), |judging| {
            let last = judging.volume.last_slot();
            assert_eq!(judging.volume.file(3).headers.len(), 37);
            judging.refused(Number::Map, MOST_BLOCKS - 1, |volume| {
                turn(volume, MOST_BLOCKS - 1);
            });
            judging.refused(Number::Map, 1_000_000, |volume| turn(volume, 1_000_000));
            judging.refused(Number::Badhome, 1_043_968, |volume| {
                leave_out(volume, 1_043_968);
            });
            judging.refused(Number::Badhome, 131_072, |volume| {
                leave_out(volume, 131_072)
            });
            judging.refused(Number::Twice, MOST_BLOCKS - 1, |volume| {
                cover(volume, 5, MOST_BLOCKS - 1);
            });
            judging.refused(Number::Twice, 65_536, |volume| cover(volume, 4, 65_536));
            judging.refused(Number::Links, 4_096, |volume| {
                volume.edit_header(OTHERS[0], |header| header.link = (65_535, 1));
            });
            judging.refused(Number::Links, 3_036, |volume| {
                volume.edit_header(3_036, |header| header.segment = 255);
                volume.edit_header(3_035, |header| header.link = (0, 0));
            });
            judging.refused(Number::Files, 65_535, |volume| {
                volume.put_in_use(65_535, true);
            });
            judging.refused(Number::Files, last + 1, |volume| {
                volume.put_in_use(last as u16 + 1, true);
            });
            judging.refused(Number::Files, 4_095, |volume| {
                volume.edit_header(HIGH_FILE, |header| header.areas.h_idof = 22);
            });
        });
        run.expect_met("judge", [0], 1);
        run.expect_met("judge", [17, 18, 19, 20, 21], 2);
        expect_each_met(run, &[0], 1);
    });
}

/// Bits past N in the last of 255 map blocks, and none past it in 126.
#[test]
fn bits_past_the_last_block() {
    Run::of(module_path!(), "bits_past_the_last_block", 7, |run| {
        judge_large(run, plan_of_one_bit_more(), |judging| {
            let blocks = judging.volume.plan.blocks;
            judging.refused(Number::Map, 255 * 4_096 - 1, |volume| {
                put_bit(volume.storage_map_mut(), 255 * 4_096 - 1, true);
            });
            judging.refused(Number::Map, blocks, |volume| turn(volume, blocks));
            judging.refused(Number::Map, blocks - 1, |volume| turn(volume, blocks - 1));
        });
        judge_large(run, plan_of_516_096(), |judging| {
            judging.refused(Number::Map, 516_095, |volume| turn(volume, 516_095));
            judging.refused(Number::Badhome, 256, |volume| leave_out(volume, 256));
        });
        run.expect_met("judge", [0], 2);
        expect_each_met(run, &[0], 2);
    });
}
