//! Random numbers from a fixed seed, so that every run measures the same jobs.

pub struct Random(u64);

impl Random {
    pub fn new(seed: u64) -> Random {
        // The multiplication spreads small seeds; xorshift must not start at 0.
        let mut random = Random(seed.wrapping_mul(0x9e37_79b9_7f4a_7c15) | 1);
        for _ in 0..8 {
            random.next();
        }
        random
    }

    fn next(&mut self) -> u64 {
        self.0 ^= self.0 << 13;
        self.0 ^= self.0 >> 7;
        self.0 ^= self.0 << 17;
        self.0
    }

    /// A number below the bound.
    pub fn below(&mut self, bound: usize) -> usize {
        ((self.next() >> 16) % bound as u64) as usize
    }

    /// A number from the least to the most, both included.
    pub fn between(&mut self, least: usize, most: usize) -> usize {
        least + self.below(most - least + 1)
    }

    /// So many different columns of the first n, in the order in which they are drawn.
    pub fn columns(&mut self, n: usize, count: usize) -> Vec<usize> {
        let mut drawn: Vec<usize> = (0..n).collect();
        for place in 0..count {
            let other = self.between(place, n - 1);
            drawn.swap(place, other);
        }
        drawn.truncate(count);
        drawn
    }
}
