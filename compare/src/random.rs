//! Draws from splitmix64, so that a seed and a number give the same job everywhere.

use oracle::splitmix::Splitmix;

#[derive(Clone)]
pub struct Random(Splitmix);

impl Random {
    /// The source of one job: two seeds that differ in one bit share nothing.
    pub fn of(seed: u64, index: u64) -> Self {
        let mut first = Random(Splitmix(seed ^ 0x7469_6c6c_626f_6e6e));
        let a = first.word();
        let mut second = Random(Splitmix(a ^ index.wrapping_mul(0xd134_2543_de82_ef95)));
        second.word();
        second
    }

    pub fn word(&mut self) -> u64 {
        self.0.word()
    }

    /// Below `end`, which is not 0.
    pub fn below(&mut self, end: u64) -> u64 {
        ((self.word() as u128 * end as u128) >> 64) as u64
    }

    /// From `low` to `high`, both counted.
    pub fn from(&mut self, low: u64, high: u64) -> u64 {
        low + self.below(high - low + 1)
    }

    pub fn index(&mut self, len: usize) -> usize {
        self.below(len as u64) as usize
    }

    pub fn pick<T: Copy>(&mut self, of: &[T]) -> T {
        of[self.index(of.len())]
    }

    /// True in `part` of `whole` draws.
    pub fn chance(&mut self, part: u64, whole: u64) -> bool {
        self.below(whole) < part
    }

    /// An index, each as often as its weight says.
    pub fn weighted(&mut self, weights: &[u32]) -> usize {
        let all: u64 = weights.iter().map(|&w| w as u64).sum();
        let mut at = self.below(all);
        for (i, &w) in weights.iter().enumerate() {
            if at < w as u64 {
                return i;
            }
            at -= w as u64;
        }
        unreachable!("the weights add up to {all}")
    }
}
