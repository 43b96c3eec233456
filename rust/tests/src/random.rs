//! Seeded numbers, runs of cases, and a count of the answers seen.

/// SplitMix64: small, and good enough to choose test inputs.
pub struct Random(u64);

impl Random {
    pub fn new(seed: u64) -> Random {
        Random(seed)
    }

    pub fn bits(&mut self) -> u64 {
        self.0 = self.0.wrapping_add(0x9e37_79b9_7f4a_7c15);
        let mut bits = self.0;
        bits = (bits ^ (bits >> 30)).wrapping_mul(0xbf58_476d_1ce4_e5b9);
        bits = (bits ^ (bits >> 27)).wrapping_mul(0x94d0_49bb_1331_11eb);
        bits ^ (bits >> 31)
    }

    /// From 0 to one below the limit.
    pub fn below(&mut self, limit: usize) -> usize {
        (self.bits() % limit as u64) as usize
    }

    /// Both ends included.
    pub fn between(&mut self, least: usize, greatest: usize) -> usize {
        least + self.below(greatest - least + 1)
    }

    /// True once in so many times.
    pub fn once_in(&mut self, times: usize) -> bool {
        self.below(times) == 0
    }

    pub fn pick<'a, T>(&mut self, from: &'a [T]) -> &'a T {
        &from[self.below(from.len())]
    }

    pub fn shuffle<T>(&mut self, items: &mut [T]) {
        for last in (1..items.len()).rev() {
            items.swap(last, self.below(last + 1));
        }
    }
}

/// Runs a case for each seed from `first`; a failing one says its seed.
pub fn cases(first: u64, count: u64, mut case: impl FnMut(&mut Random)) {
    for seed in first..first + count {
        let shown = SeedShown(seed);
        case(&mut Random::new(seed));
        drop(shown);
    }
}

struct SeedShown(u64);

impl Drop for SeedShown {
    fn drop(&mut self) {
        if std::thread::panicking() {
            eprintln!("This failed with seed {}.", self.0);
        }
    }
}

/// How often each refusal number was answered, so that a test can show it met them all.
#[derive(Default)]
pub struct Tally([usize; 23]);

impl Tally {
    pub fn note(&mut self, number: u64) {
        self.0[number as usize] += 1;
    }

    /// Fails unless exactly these numbers were answered.
    pub fn expect(&self, numbers: &[usize]) {
        for (number, &count) in self.0.iter().enumerate() {
            let expected = numbers.contains(&number);
            assert_eq!(
                count > 0,
                expected,
                "answers by number were {:?}, expected {numbers:?}",
                self.0
            );
        }
    }
}
