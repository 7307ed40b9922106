//! Numbers to ask about: a generator, and values where floats have their edges.

use oxictl::core::scalar::ControlScalar;

/// The Rust's threshold for divisors.
pub const EPS: f64 = <f64 as ControlScalar>::EPSILON;
/// Its square root, 2^-26.
pub const ROOT_EPS: f64 = 1.0 / 67_108_864.0;

const SMALLEST_SUBNORMAL: u64 = 1;
const LARGEST_SUBNORMAL: u64 = (1 << 52) - 1;

/// 2^exponent, for the exponents of normal numbers.
pub fn power_of_two(exponent: i32) -> f64 {
    f64::from_bits(((exponent + 1023) as u64) << 52)
}

/// A positive number between the next below it and the next above it.
pub fn with_neighbours(value: f64) -> [f64; 3] {
    let bits = value.to_bits();
    [bits - 1, bits, bits + 1].map(f64::from_bits)
}

/// The next number below one that is not a NaN or -infinity.
pub fn next_below(value: f64) -> f64 {
    if value > 0.0 {
        f64::from_bits(value.to_bits() - 1)
    } else {
        -f64::from_bits(value.abs().to_bits() + 1)
    }
}

/// The next number above one that is not a NaN or infinity.
pub fn next_above(value: f64) -> f64 {
    -next_below(-value)
}

/// The imaginary part beside `re` for which the squared magnitude is `square`, but for rounding.
pub fn beside(re: f64, square: f64) -> f64 {
    (square - re * re).sqrt()
}

/// NaNs of both signs, quiet and signalling.
pub fn nans() -> [f64; 7] {
    [
        0x7FF8_0000_0000_0000,
        0xFFF8_0000_0000_0000,
        0x7FF0_0000_0000_0001,
        0xFFF0_0000_0000_0001,
        0x7FF4_0000_DEAD_BEEF,
        0x7FFF_FFFF_FFFF_FFFF,
        0xFFFF_FFFF_FFFF_FFFF,
    ]
    .map(f64::from_bits)
}

/// One or two values of every class; some have a square that overflows, underflows or is `EPS`.
pub fn specials() -> [f64; 16] {
    [
        0.0,
        -0.0,
        1.0,
        -1.5,
        EPS,
        ROOT_EPS,
        -ROOT_EPS,
        f64::from_bits(SMALLEST_SUBNORMAL),
        -f64::from_bits(LARGEST_SUBNORMAL),
        f64::MIN_POSITIVE,
        power_of_two(512),
        -f64::MAX,
        f64::INFINITY,
        f64::NEG_INFINITY,
        nans()[0],
        nans()[3],
    ]
}

/// splitmix64.
pub struct Random(u64);

impl Random {
    pub fn new(seed: u64) -> Self {
        Self(seed)
    }

    pub fn bits(&mut self) -> u64 {
        self.0 = self.0.wrapping_add(0x9E37_79B9_7F4A_7C15);
        let mut z = self.0;
        z = (z ^ (z >> 30)).wrapping_mul(0xBF58_476D_1CE4_E5B9);
        z = (z ^ (z >> 27)).wrapping_mul(0x94D0_49BB_1331_11EB);
        z ^ (z >> 31)
    }

    /// A whole number from 0 to `limit` - 1.
    pub fn below(&mut self, limit: u64) -> u64 {
        self.bits() % limit
    }

    pub fn pick<T: Copy>(&mut self, list: &[T]) -> T {
        list[self.below(list.len() as u64) as usize]
    }

    /// Any 64 bits as a float.
    pub fn uniform_bits(&mut self) -> f64 {
        f64::from_bits(self.bits())
    }

    pub fn between(&mut self, low: f64, high: f64) -> f64 {
        let unit = (self.bits() >> 11) as f64 * power_of_two(-53);
        low + (high - low) * unit
    }

    /// A normal number with random sign and significand and a binary exponent from `low` to `high`.
    pub fn with_exponent(&mut self, low: i32, high: i32) -> f64 {
        let exponent = low + self.below((high - low + 1) as u64) as i32;
        let bits = self.bits();
        let sign = bits & (1 << 63);
        let significand = bits & LARGEST_SUBNORMAL;
        f64::from_bits(sign | power_of_two(exponent).to_bits() | significand)
    }

    pub fn subnormal(&mut self) -> f64 {
        let sign = self.bits() & (1 << 63);
        f64::from_bits(sign | (self.below(LARGEST_SUBNORMAL) + 1))
    }

    pub fn nan(&mut self) -> f64 {
        self.pick(&nans())
    }

    /// One of the special values, with any pattern where it is a NaN.
    pub fn special(&mut self) -> f64 {
        let value = self.pick(&specials());
        if value.is_nan() {
            self.nan()
        } else {
            value
        }
    }

    /// Something for a place that must not be read: often a NaN.
    pub fn junk(&mut self) -> f64 {
        match self.below(3) {
            0 => self.nan(),
            1 => self.special(),
            _ => self.uniform_bits(),
        }
    }
}
