//! Random numbers that a seed repeats: xorshift64*.

pub struct Random(u64);

impl Random {
    /// The state is never 0: its last bit is 1.
    pub fn new(seed: u64) -> Self {
        Random((seed << 1) ^ 0x9E37_79B9_7F4A_7C15)
    }

    pub fn next(&mut self) -> u64 {
        self.0 ^= self.0 >> 12;
        self.0 ^= self.0 << 25;
        self.0 ^= self.0 >> 27;
        self.0.wrapping_mul(0x2545_F491_4F6C_DD1D)
    }

    /// A number below `n`, which is not 0.
    pub fn below(&mut self, n: usize) -> usize {
        (self.next() % n as u64) as usize
    }

    pub fn fill(&mut self, bytes: &mut [u8]) {
        for b in bytes {
            *b = (self.next() >> 32) as u8;
        }
    }

    /// A place in the list of weights, which are parts of a hundred, or none where they add up to less.
    pub fn weighted(&mut self, weights: &[usize]) -> Option<usize> {
        let mut left = self.below(100);
        weights.iter().position(|&weight| {
            let here = left < weight;
            left = left.saturating_sub(weight);
            here
        })
    }
}
