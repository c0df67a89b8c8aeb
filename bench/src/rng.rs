//! Numbers drawn from a fixed seed, so that every run has the same inputs.

use oracle::splitmix::Splitmix;

pub struct Rng(Splitmix);

impl Rng {
    pub fn new(seed: u64) -> Self {
        Self(Splitmix(seed))
    }

    pub fn next(&mut self) -> u64 {
        self.0.word()
    }

    pub fn below(&mut self, n: usize) -> usize {
        (self.next() % n as u64) as usize
    }

    /// Two different numbers below n.
    pub fn two(&mut self, n: usize) -> (usize, usize) {
        let a = self.below(n);
        (a, (a + 1 + self.below(n - 1)) % n)
    }

    /// One label of each kind for each qubit, or all 0.
    pub fn labels(&mut self, n: usize, zero: bool) -> Vec<(u128, u128)> {
        let mut one = || if zero { 0 } else { u128::from(self.next()) << 64 | u128::from(self.next()) };
        (0..n).map(|_| (one(), one())).collect()
    }
}
