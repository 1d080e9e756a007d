//! A deterministic generator of pseudo-random numbers: SplitMix64.

/// The generator's state.
#[derive(Clone, Debug)]
pub struct Random {
    state: u64,
}

impl Random {
    /// The generator that starts at a seed.
    pub fn new(seed: u64) -> Random {
        Random { state: seed }
    }

    /// The generator of one case of a test: another one for each seed, test and case, so that a
    /// case can be made again without those before it.
    pub fn of_case(seed: u64, test: &str, case: u64) -> Random {
        let mut random = Random::new(seed);
        for byte in test.bytes() {
            random.state ^= u64::from(byte);
            random.state = random.number();
        }
        random.state ^= case;
        random.state = random.number();
        random
    }

    /// The next number of 64 bits.
    pub fn number(&mut self) -> u64 {
        self.state = self.state.wrapping_add(0x9e37_79b9_7f4a_7c15);
        let mut mixed = self.state;
        mixed = (mixed ^ (mixed >> 30)).wrapping_mul(0xbf58_476d_1ce4_e5b9);
        mixed = (mixed ^ (mixed >> 27)).wrapping_mul(0x94d0_49bb_1331_11eb);
        mixed ^ (mixed >> 31)
    }

    /// A number below `end`, which is not 0. The remainder favours small numbers by less than one
    /// part in 2^32 for every `end` that the tests use.
    pub fn below(&mut self, end: u64) -> u64 {
        self.number() % end
    }

    /// A number from `first` to `last`, both included.
    pub fn between(&mut self, first: usize, last: usize) -> usize {
        first + self.below((last - first + 1) as u64) as usize
    }

    /// A byte from `first` to `last`, both included.
    pub fn byte_between(&mut self, first: u8, last: u8) -> u8 {
        self.between(usize::from(first), usize::from(last)) as u8
    }

    /// A number of 32 bits from `first` to `last`, both included.
    pub fn long_between(&mut self, first: u32, last: u32) -> u32 {
        self.between(first as usize, last as usize) as u32
    }

    /// True once in `times`.
    pub fn once_in(&mut self, times: u64) -> bool {
        self.below(times) == 0
    }

    /// Any byte.
    pub fn byte(&mut self) -> u8 {
        self.number().to_le_bytes()[0]
    }

    /// Any word of 16 bits.
    pub fn word(&mut self) -> u16 {
        let bytes = self.number().to_le_bytes();
        u16::from_le_bytes([bytes[0], bytes[1]])
    }

    /// Fills bytes with any.
    pub fn fill(&mut self, bytes: &mut [u8]) {
        for eight in bytes.chunks_mut(8) {
            let number = self.number().to_le_bytes();
            eight.copy_from_slice(&number[..eight.len()]);
        }
    }

    /// One of the items, of which there is at least one.
    pub fn pick<'a, Item>(&mut self, items: &'a [Item]) -> &'a Item {
        &items[self.between(0, items.len() - 1)]
    }
}

#[cfg(test)]
mod tests {
    use super::*;

    #[test]
    fn the_published_numbers_of_seed_1234567() {
        let mut random = Random::new(1_234_567);
        let expected = [
            6_457_827_717_110_365_317,
            3_203_168_211_198_807_973,
            9_817_491_932_198_370_423,
            4_593_380_528_125_082_431,
            16_408_922_859_458_223_821,
        ];
        for number in expected {
            assert_eq!(random.number(), number);
        }
    }

    #[test]
    fn seed_test_and_case_each_change_the_numbers() {
        let first = Random::of_case(1, "one", 1).number();
        assert_eq!(Random::of_case(1, "one", 1).number(), first);
        assert_ne!(Random::of_case(2, "one", 1).number(), first);
        assert_ne!(Random::of_case(1, "two", 1).number(), first);
        assert_ne!(Random::of_case(1, "one", 2).number(), first);
    }

    #[test]
    fn numbers_stay_in_their_range() {
        let mut random = Random::new(7);
        let mut seen = [false; 5];
        for _ in 0..1000 {
            seen[random.between(3, 7) - 3] = true;
            assert!(random.below(10) < 10);
        }
        assert_eq!(seen, [true; 5]);
    }
}
