//! The blocks of a volume that is being built: which are taken, and which are free.

use crate::random::Random;

/// The blocks that are not taken yet.
pub struct Space {
    taken: Vec<bool>,
}

impl Space {
    /// The space of N blocks, all of it free.
    pub fn new(blocks: u32) -> Space {
        Space {
            taken: vec![false; blocks as usize],
        }
    }

    /// Takes one block, which is free.
    pub fn take(&mut self, lbn: u32) {
        assert!(!self.taken[lbn as usize], "block {lbn} is taken twice");
        self.taken[lbn as usize] = true;
    }

    /// How many blocks are free.
    pub fn free(&self) -> u32 {
        self.taken.iter().filter(|&&taken| !taken).count() as u32
    }

    /// The first start from `start` on of `count` free blocks in a row.
    fn find_from(&self, start: u32, count: u32) -> Option<u32> {
        let mut length = 0;
        for lbn in start..self.taken.len() as u32 {
            length = if self.taken[lbn as usize] {
                0
            } else {
                length + 1
            };
            if length == count {
                return Some(lbn + 1 - count);
            }
        }
        None
    }

    /// Takes `count` blocks in a row at a start, which are free.
    pub fn take_run_from(&mut self, start: u32, count: u32) -> u32 {
        for lbn in start..start + count {
            self.take(lbn);
        }
        start
    }

    /// Takes `count` blocks in a row somewhere, if there are any.
    pub fn take_run(&mut self, random: &mut Random, count: u32) -> Option<u32> {
        let from = random.below(self.taken.len() as u64) as u32;
        let start = self.find_from(from, count);
        let start = start.or_else(|| self.find_from(0, count))?;
        Some(self.take_run_from(start, count))
    }

    /// Takes `count` blocks in runs of at most `longest`, or as many as there are.
    pub fn take_blocks(&mut self, random: &mut Random, count: u32, longest: u32) -> Vec<u32> {
        let mut lbns = Vec::new();
        while (lbns.len() as u32) < count {
            let wanted = random.long_between(1, longest.min(count - lbns.len() as u32));
            let Some((start, length)) = self.take_run_or_less(random, wanted) else {
                break;
            };
            lbns.extend(start..start + length);
        }
        lbns
    }

    /// Takes `count` blocks in a row, or else one block, if there is any.
    fn take_run_or_less(&mut self, random: &mut Random, count: u32) -> Option<(u32, u32)> {
        let start = self.take_run(random, count).map(|start| (start, count));
        start.or_else(|| self.take_run(random, 1).map(|start| (start, 1)))
    }
}

#[cfg(test)]
mod tests {
    use super::*;

    #[test]
    fn blocks_are_taken_once_and_to_the_last() {
        let mut random = Random::new(3);
        let mut space = Space::new(50);
        space.take(7);
        assert_eq!(space.take_run_from(10, 5), 10);
        assert_eq!(space.free(), 44);
        let mut lbns = space.take_blocks(&mut random, 100, 9);
        assert_eq!(space.free(), 0);
        assert_eq!(space.take_run(&mut random, 1), None);
        lbns.extend([7, 10, 11, 12, 13, 14]);
        lbns.sort_unstable();
        assert!(lbns.into_iter().eq(0..50));
    }

    #[test]
    fn a_run_is_in_a_row() {
        let mut random = Random::new(4);
        for seed in 0..100 {
            let mut space = Space::new(40);
            space.take(20);
            assert_eq!(space.take_run(&mut random, 21), None, "{seed}");
            let start = space.take_run(&mut random, 20).expect("20 in a row");
            assert_eq!(start, 0);
            assert_eq!(space.free(), 19);
        }
    }
}
