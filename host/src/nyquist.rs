//! The distance to the critical point and a summary of it; the grid of frequencies.

use crate::exported::{self, CurvePlain};
use crate::refusal::value;
use crate::Refusal;

/// The least distance of the points (`re[i]`, `im[i]`) from the critical point (-1, 0). A point
/// whose distance is a NaN, or whose square overflows, does not count; where none counts it is 0.
///
/// Refused with [`Refusal::LengthsDiffer`], then [`Refusal::TooMany`] above 4,096 points.
///
/// ```
/// use bazintroa::{distance_to_critical, Refusal};
///
/// assert_eq!(distance_to_critical(&[0.0, -1.0], &[0.0, 0.5]), Ok(0.5));
/// assert_eq!(distance_to_critical(&[], &[]), Ok(0.0));
/// assert_eq!(distance_to_critical(&[1.0], &[]), Err(Refusal::LengthsDiffer));
/// ```
#[inline]
pub fn distance_to_critical(re: &[f64], im: &[f64]) -> Result<f64, Refusal> {
    let mut place = 0.0;
    let number = exported::distance_to_critical(re, im, &mut place);
    value(number, place)
}

/// Writes `n` frequencies, evenly spaced from 0 to `omega_max`, into the first `n` places of
/// `list`. The other places keep their contents. It divides before it multiplies, unlike
/// [`fill_gain_grid`](crate::fill_gain_grid), so the bits may differ.
///
/// Refused as [`fill_gain_grid`](crate::fill_gain_grid), with [`Refusal::InvalidFrequencyRange`] if `omega_max` is at or
/// below 0.
///
/// ```
/// use bazintroa::{fill_frequency_grid, Refusal};
///
/// let mut list = [9.0; 4];
/// assert_eq!(fill_frequency_grid(3.0, 3, &mut list), Ok(()));
/// assert_eq!(list, [0.0, 1.5, 3.0, 9.0]);
/// assert_eq!(fill_frequency_grid(-0.0, 3, &mut list), Err(Refusal::InvalidFrequencyRange));
/// ```
#[inline]
pub fn fill_frequency_grid(omega_max: f64, n: usize, list: &mut [f64]) -> Result<(), Refusal> {
    value(exported::fill_frequency_grid(omega_max, n, list), ())
}

/// A summary of a curve, of any length: it is fed in parts, or joined of summaries of parts, and
/// answers what [`distance_to_critical`] would answer of the whole curve.
///
/// ```
/// use bazintroa::{CurveSummary, Refusal};
///
/// let [mut first, mut second] = [CurveSummary::new(); 2];
/// assert_eq!(first.closest_approach(), 0.0);
/// first.feed(&[0.0], &[0.0])?;
/// second.feed(&[-1.0], &[0.5])?;
/// first.join(&second);
/// assert_eq!(first.closest_approach(), 0.5);
/// assert_eq!(first.feed(&[-1.0], &[]), Err(Refusal::LengthsDiffer));
/// assert_eq!(first.closest_approach(), 0.5);
/// # Ok::<(), Refusal>(())
/// ```
#[derive(Clone, Copy, Debug)]
pub struct CurveSummary(CurvePlain);

impl CurveSummary {
    /// A summary of no points.
    #[inline]
    pub fn new() -> Self {
        Self(exported::curve_empty())
    }

    /// Puts the points behind those that it has. A refused part leaves it as it was.
    ///
    /// Refused with [`Refusal::LengthsDiffer`], then [`Refusal::TooMany`] above 4,096 points.
    #[inline]
    pub fn feed(&mut self, re: &[f64], im: &[f64]) -> Result<(), Refusal> {
        let fed = exported::curve_feed(self.0, re, im);
        self.0 = fed.summary;
        value(fed.number, ())
    }

    /// Puts the points of `other` behind those that it has.
    #[inline]
    pub fn join(&mut self, other: &Self) {
        self.0 = exported::curve_join(self.0, other.0);
    }

    /// The least distance from (-1, 0); 0 where no point counts.
    #[inline]
    pub fn closest_approach(&self) -> f64 {
        exported::curve_closest_approach(self.0)
    }
}

impl Default for CurveSummary {
    fn default() -> Self {
        Self::new()
    }
}
