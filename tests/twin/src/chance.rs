//! Numbers by chance, the same for the same seed on every machine (splitmix64).

pub struct Chance {
    state: u64,
}

impl Chance {
    /// Each case has its own beginning, so that a case doesn't depend on those before it.
    pub fn new(seed: u64, case: u64) -> Chance {
        let mut chance = Chance { state: seed };
        chance.state = chance.number() ^ case.wrapping_mul(0xd605_bbb5_8c8a_bc67);
        chance
    }

    pub fn number(&mut self) -> u64 {
        self.state = self.state.wrapping_add(0x9e37_79b9_7f4a_7c15);
        let mut mixed = self.state;
        mixed = (mixed ^ (mixed >> 30)).wrapping_mul(0xbf58_476d_1ce4_e5b9);
        mixed = (mixed ^ (mixed >> 27)).wrapping_mul(0x94d0_49bb_1331_11eb);
        mixed ^ (mixed >> 31)
    }

    /// A number under `limit`, which isn't 0.
    pub fn below(&mut self, limit: usize) -> usize {
        (self.number() % limit as u64) as usize
    }

    pub fn from_to(&mut self, least: usize, most: usize) -> usize {
        least + self.below(most - least + 1)
    }

    pub fn one_in(&mut self, times: usize) -> bool {
        self.below(times) == 0
    }

    pub fn pick<T: Copy>(&mut self, choices: &[T]) -> T {
        choices[self.below(choices.len())]
    }

    /// A count up to `most`: often few, often exactly the most.
    pub fn count(&mut self, least: usize, most: usize) -> usize {
        match self.below(8) {
            0 => most,
            1 => least,
            2 => self.from_to(least, most),
            _ => self.from_to(least, most.min(least + 4)),
        }
    }
}
