//! `abs` and `sqrt`, which the Rust has from `Float`.

use crate::exported;

/// The square root of `x`, rounded to the nearest value, as IEEE 754 has it. It is worked out from
/// bits and whole numbers, without the processor's instruction.
///
/// ```
/// use bazintroa::sqrt;
///
/// assert_eq!(sqrt(2.25), 1.5);
/// assert_eq!(sqrt(f64::INFINITY), f64::INFINITY);
/// assert_eq!(sqrt(-0.0).to_bits(), (-0.0_f64).to_bits());
/// assert!(sqrt(-1.0).is_nan());
/// assert!(sqrt(f64::NAN).is_nan());
/// ```
#[inline]
pub fn sqrt(x: f64) -> f64 {
    exported::sqrt(x)
}

/// `x` with its sign cleared. A NaN stays a NaN, of either sign.
///
/// ```
/// use bazintroa::abs;
///
/// assert_eq!(abs(-1.5), 1.5);
/// assert_eq!(abs(f64::NEG_INFINITY), f64::INFINITY);
/// assert_eq!(abs(-0.0).to_bits(), 0.0_f64.to_bits());
/// assert!(abs(f64::NAN).is_nan());
/// ```
#[inline]
pub fn abs(x: f64) -> f64 {
    exported::abs(x)
}
