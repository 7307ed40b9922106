//! Random numbers for the comparisons, the benchmarks and `damage`.

/// SplitMix64: the same numbers from the same seed.
pub struct Random(u64);

impl Random {
    pub fn new(seed: u64) -> Self {
        Random(seed)
    }

    /// 64 random bits.
    pub fn bits(&mut self) -> u64 {
        self.0 = self.0.wrapping_add(0x9e37_79b9_7f4a_7c15);
        let mut z = self.0;
        z = (z ^ (z >> 30)).wrapping_mul(0xbf58_476d_1ce4_e5b9);
        z = (z ^ (z >> 27)).wrapping_mul(0x94d0_49bb_1331_11eb);
        z ^ (z >> 31)
    }

    /// A number below `n`.
    pub fn below(&mut self, n: u64) -> u64 {
        ((u128::from(self.bits()) * u128::from(n)) >> 64) as u64
    }

    /// A number of at most `width` binary digits, from 1 to 64, short ones as often as long ones.
    pub fn up_to(&mut self, width: u32) -> u64 {
        let length = 1 + self.below(u64::from(width)) as u32;
        self.bits() >> (64 - length)
    }

    /// A number of exactly `width` binary digits, from 1 to 64.
    pub fn of_width(&mut self, width: u32) -> u64 {
        (self.bits() | 1 << 63) >> (64 - width)
    }
}
