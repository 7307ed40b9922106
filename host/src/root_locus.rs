//! The points of the root locus, the test of stability, the grid of gains.

use crate::exported::{self, Poles};
use crate::refusal::value;
use crate::{Complex, Refusal, TransferFn};
use std::mem::MaybeUninit;
use std::{array, fmt};

/// How the search for the poles of a point ended. Broken comes first: where a part of a pole is NaN
/// nothing else is said.
///
/// **Settled does not mean right.** Two poles that meet have denominators too small to divide by, so
/// both are skipped from then on and add no change, wherever they are. The search settles around
/// them, and its ending cannot tell. The Rust has the same poles:
///
/// ```
/// use bazintroa::{locus_point, Complex, Ending, Refusal, TransferFn};
///
/// // 1, -2, 4, 2, 3: of the four poles two lie at (-1, 0), where the polynomial is 8.
/// let mut tf = TransferFn { b: [0.0; 8], a: [0.0; 8], order: 4 };
/// tf.a[..4].copy_from_slice(&[-2.0, 4.0, 2.0, 3.0]);
/// let point = locus_point(&tf, 1.0, 2, 0)?;
/// assert_eq!(point.ending, Ending::Settled(31));
/// let there = |pole: &&Complex| (pole.re + 1.0).abs() < 1e-15 && pole.im.abs() < 1e-15;
/// assert_eq!(point.poles[..4].iter().filter(there).count(), 2);
/// # Ok::<(), Refusal>(())
/// ```
///
/// Multiplied out, as (z - p1)(z - p2).., right poles give the polynomial back, and these do not.
///
/// ```
/// use bazintroa::Ending;
///
/// assert_eq!(Ending::Settled(0).to_string(), "no search was needed");
/// assert_eq!(Ending::Settled(31).to_string(), "settled in round 31");
/// assert_eq!(
///     Ending::Spent(0.056845).to_string(),
///     "spent: the last of 200 rounds still moved a pole by 0.0568"
/// );
/// assert_eq!(Ending::Broken.to_string(), "broken: a part of a pole is NaN");
/// ```
#[derive(Clone, Copy, Debug, PartialEq)]
pub enum Ending {
    /// The round, 1 to 200, in which no pole moved by 1e-12 or more, and with which the search ended.
    /// 0 where nothing was searched: there are no poles, or one or two, which come from formulas.
    Settled(usize),
    /// All 200 rounds ran, and the last one still moved a pole by 1e-12 or more: the largest of its
    /// moves. Where that is large the poles may lie anywhere.
    Spent(f64),
    /// A part of a pole is NaN, be it of a search or of a formula. An infinite one is not.
    Broken,
}

impl Ending {
    /// The ending that a call left in its two places. No kind but 0, 1 and 2 comes from it.
    #[inline]
    fn of_places(kind: u32, value: f64) -> Self {
        match kind {
            // 200 at most, and u32 has the shorter conversion
            0 => Ending::Settled(value as u32 as usize),
            1 => Ending::Spent(value),
            _ => Ending::Broken,
        }
    }
}

impl fmt::Display for Ending {
    fn fmt(&self, f: &mut fmt::Formatter<'_>) -> fmt::Result {
        match self {
            Ending::Settled(0) => f.write_str("no search was needed"),
            Ending::Settled(round) => write!(f, "settled in round {round}"),
            Ending::Spent(change) => {
                let digits = format!("{change:.2e}");
                let rounded: f64 = digits.parse().expect("a number is read as it was written");
                write!(
                    f,
                    "spent: the last of 200 rounds still moved a pole by {rounded:?}"
                )
            }
            Ending::Broken => f.write_str("broken: a part of a pole is NaN"),
        }
    }
}

/// A point of the root locus.
#[derive(Clone, Copy, Debug, PartialEq)]
pub struct LocusPoint {
    pub gain: f64,
    /// The poles of the closed loop; the places past the count are (0, 0).
    pub poles: [Complex; 8],
    pub count: usize,
    /// How the search for the poles ended: look at it before the poles.
    pub ending: Ending,
}

/// Point `i` of the `n` points of the root locus, at the gain (`k_max`·i)/(n - 1), with the poles of
/// the loop closed by that gain. The polynomial of order N has the coefficients 1 + k·b\[0\], then
/// a\[i-1\] + k·b\[i\] for i from 1 to N - 1, then a\[N-1\]; leading ones with an absolute value below
/// 2^-52 are dropped. One pole or two come from formulas, four to eight from a search of up to 200
/// rounds; [`Ending`] says how that ended, and what settled poles are not.
///
/// Refused with [`Refusal::InsufficientPoints`] if `n` is below 2, then
/// [`Refusal::InvalidParameter`] if `k_max` is at or below 0 or the order is above 8,
/// [`Refusal::WrongOrder`] if the order is 0, [`Refusal::TooMany`] if `n` is above 4,096,
/// [`Refusal::WrongIndex`] if `i` is not below `n`, [`Refusal::CubicLeftOut`] if the degree that is
/// left is 3.
///
/// ```
/// use bazintroa::{locus_point, stability_region, Complex, Ending, Refusal, TransferFn};
///
/// let mut tf = TransferFn { b: [0.0; 8], a: [0.0; 8], order: 2 };
/// tf.b[1] = 1.0;
/// (tf.a[0], tf.a[1]) = (-1.0, 0.25);
/// let point = locus_point(&tf, 0.5, 2, 0)?;
/// assert_eq!((point.gain, point.count), (0.0, 2));
/// assert_eq!(point.poles[..3], [0.5, 0.5, 0.0].map(Complex::from_real));
/// assert_eq!(point.ending, Ending::Settled(0));
/// assert!(stability_region(&point.poles, point.count));
///
/// // A search that settles, one that is spent, and one that breaks.
/// let of_order_4 = |a: &[f64; 4]| {
///     let mut tf = TransferFn { b: [0.0; 8], a: [0.0; 8], order: 4 };
///     tf.a[..4].copy_from_slice(a);
///     locus_point(&tf, 1.0, 2, 0)
/// };
/// assert_eq!(of_order_4(&[0.0, 0.0, 0.0, 0.25])?.ending, Ending::Settled(8));
/// let spent = of_order_4(&[5.0, -1.0, 2.0, 1.0])?.ending;
/// assert!(matches!(spent, Ending::Spent(change) if change > 0.05 && change < 0.06));
/// let broken = of_order_4(&[0.0, 0.0, 0.0, 1.7e308])?;
/// assert_eq!(broken.ending, Ending::Broken);
/// // NaN poles count as inside: this verdict says nothing.
/// assert!(stability_region(&broken.poles, broken.count));
///
/// assert_eq!(locus_point(&tf, 0.5, 2, 2), Err(Refusal::WrongIndex));
/// tf.order = 3;
/// tf.a[2] = 0.125;
/// assert_eq!(locus_point(&tf, 0.5, 2, 0), Err(Refusal::CubicLeftOut));
/// # Ok::<(), Refusal>(())
/// ```
#[inline]
pub fn locus_point(
    open_loop_tf: &TransferFn,
    k_max: f64,
    n: usize,
    i: usize,
) -> Result<LocusPoint, Refusal> {
    let TransferFn { b, a, order } = open_loop_tf;
    let (mut gain, mut poles, mut count) = (0.0, MaybeUninit::uninit(), 0);
    let (mut kind, mut of_kind) = (0, 0.0);
    let number = exported::locus_point(
        b,
        a,
        *order,
        k_max,
        n,
        i,
        &mut gain,
        Poles::from(&mut poles),
        &mut count,
        &mut kind,
        &mut of_kind,
    );
    value(number, ())?;
    Ok(LocusPoint {
        gain,
        // SAFETY: a point was found, and then each part of the eight poles is written. That is proved:
        // `PointAnswers` in crates/c_api/specs/Points.antt.
        poles: unsafe { poles.assume_init() },
        count,
        ending: Ending::of_places(kind, of_kind),
    })
}

/// Whether no counted pole lies on the unit circle or outside: false exactly if one has a squared
/// magnitude of 1 or more. A NaN pole counts as inside, as in the Rust, so look at the
/// [`Ending`] of a point first: of broken poles nothing is known, spent ones were still moving, and
/// settled ones need not be right. A count above 8 is read as 8.
///
/// ```
/// use bazintroa::{stability_region, Complex};
///
/// let mut poles = [Complex::new(0.5, 0.5); 8];
/// assert!(stability_region(&poles, 8));
/// poles[7] = Complex::from_real(1.0);
/// assert!(!stability_region(&poles, 8));
/// assert!(stability_region(&poles, 7));
/// assert!(stability_region(&[Complex::from_real(f64::NAN); 8], 8));
/// ```
#[inline]
pub fn stability_region(poles: &[Complex; 8], count: usize) -> bool {
    let parts = array::from_fn(|k| poles[k / 2].parts()[k % 2]);
    exported::stability_region(&parts, count)
}

/// Writes `n` gains, evenly spaced from 0 to `k_max`, into the first `n` places of `list`. The
/// other places keep their contents.
///
/// Refused with [`Refusal::InsufficientPoints`] if `n` is below 2, then
/// [`Refusal::InvalidParameter`] if `k_max` is at or below 0, [`Refusal::TooMany`] if `n` is above
/// 4,096, [`Refusal::NoRoom`] if the list is shorter than `n`.
///
/// ```
/// use bazintroa::{fill_gain_grid, Refusal};
///
/// let mut list = [9.0; 6];
/// assert_eq!(fill_gain_grid(8.0, 5, &mut list), Ok(()));
/// assert_eq!(list, [0.0, 2.0, 4.0, 6.0, 8.0, 9.0]);
/// assert_eq!(fill_gain_grid(8.0, 1, &mut list), Err(Refusal::InsufficientPoints));
/// assert_eq!(fill_gain_grid(0.0, 5, &mut list), Err(Refusal::InvalidParameter));
/// assert_eq!(fill_gain_grid(8.0, 4097, &mut list), Err(Refusal::TooMany));
/// assert_eq!(fill_gain_grid(8.0, 7, &mut list), Err(Refusal::NoRoom));
/// ```
#[inline]
pub fn fill_gain_grid(k_max: f64, n: usize, list: &mut [f64]) -> Result<(), Refusal> {
    value(exported::fill_gain_grid(k_max, n, list), ())
}
