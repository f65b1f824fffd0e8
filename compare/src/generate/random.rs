//! A small random number generator (xorshift64*), the same on every machine.

pub struct Random(u64);

impl Random {
    pub fn new(seed: u64) -> Self {
        // Odd, so never the state 0; a few steps part neighbouring seeds.
        let mut random = Self(seed.wrapping_mul(2) + 1);
        for _ in 0..16 {
            random.next();
        }
        random
    }

    pub fn next(&mut self) -> u64 {
        self.0 ^= self.0 >> 12;
        self.0 ^= self.0 << 25;
        self.0 ^= self.0 >> 27;
        self.0.wrapping_mul(0x2545_f491_4f6c_dd1d)
    }

    pub fn below(&mut self, n: u64) -> u64 {
        (self.next() >> 8) % n
    }

    /// From `low` to `high`, both included.
    pub fn between(&mut self, low: i64, high: i64) -> i64 {
        low + self.below((high - low + 1) as u64) as i64
    }

    pub fn one_in(&mut self, n: u64) -> bool {
        self.below(n) == 0
    }

    pub fn pick<T: Copy>(&mut self, choices: &[T]) -> T {
        choices[self.below(choices.len() as u64) as usize]
    }

    pub fn bits(&mut self, n: usize) -> Vec<u8> {
        (0..n).map(|_| self.below(2) as u8).collect()
    }

    /// From -1 to below 1.
    pub fn unit(&mut self) -> f32 {
        self.between(-(1 << 23), (1 << 23) - 1) as f32 / (1 << 23) as f32
    }

    /// x with either sign.
    pub fn signed(&mut self, x: f32) -> f32 {
        if self.one_in(2) {
            x
        } else {
            -x
        }
    }
}
