//! Splitmix64, the one random source of the test jobs, the comparison and the benchmark: the same numbers on every machine.

#[derive(Clone)]
pub struct Splitmix(pub u64);

impl Splitmix {
    pub fn word(&mut self) -> u64 {
        self.0 = self.0.wrapping_add(0x9e37_79b9_7f4a_7c15);
        let mut z = self.0;
        z = (z ^ (z >> 30)).wrapping_mul(0xbf58_476d_1ce4_e5b9);
        z = (z ^ (z >> 27)).wrapping_mul(0x94d0_49bb_1331_11eb);
        z ^ (z >> 31)
    }
}
