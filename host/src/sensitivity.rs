//! The four responses of a loop; the crossover of S and T, bandwidth, and a summary of both.

use crate::exported::{self, SensitivityPlain};
use crate::refusal::{answer, value};
use crate::{Complex, Refusal, TransferFn};

/// A loop of a plant P and a controller C with unity feedback.
///
/// Each response is taken at the frequency whose cosines and sines are in the lists, as by
/// [`TransferFn::eval`], and refused as that is, with the larger order of the two. Where 1 + L has a
/// squared magnitude below 2^-52, S, T and Q are (0, 0).
///
/// ```
/// use bazintroa::{pairs, Complex, LoopShaping, Refusal, TransferFn};
///
/// let mut plant = TransferFn { b: [0.0; 8], a: [0.0; 8], order: 1 };
/// let mut controller = plant;
/// (plant.b[0], plant.a[0]) = (1.0, -0.5);
/// controller.b[0] = 0.5;
/// let shaping = LoopShaping { plant, controller };
///
/// let [mut cosines, mut sines] = [[0.0; 2]; 2];
/// pairs(0.0, &mut cosines, &mut sines);
/// let real = |re| Ok(Complex::new(re, 0.0));
/// assert_eq!(shaping.loop_gain_at(&cosines, &sines), real(1.0));
/// assert_eq!(shaping.sensitivity_at(&cosines, &sines), real(0.5));
/// assert_eq!(shaping.comp_sensitivity_at(&cosines, &sines), real(0.5));
/// assert_eq!(shaping.control_sensitivity_at(&cosines, &sines), real(0.25));
/// assert_eq!(shaping.loop_gain_at(&[1.0], &[0.0]), Err(Refusal::TooFewPairs));
/// ```
#[derive(Clone, Copy, Debug, PartialEq)]
pub struct LoopShaping {
    pub plant: TransferFn,
    pub controller: TransferFn,
}

macro_rules! responses {
    ($($(#[$says:meta])* $name:ident;)*) => {
        impl LoopShaping {$(
            $(#[$says])*
            #[inline]
            pub fn $name(&self, cosines: &[f64], sines: &[f64]) -> Result<Complex, Refusal> {
                let LoopShaping { plant, controller } = self;
                let mut place = [0.0; 2];
                let number = exported::$name(
                    &plant.b,
                    &plant.a,
                    plant.order,
                    &controller.b,
                    &controller.a,
                    controller.order,
                    cosines,
                    sines,
                    &mut place,
                );
                value(number, Complex::of_parts(place))
            }
        )*}
    };
}

responses! {
    /// The loop gain L = P·C.
    loop_gain_at;
    /// The sensitivity S = 1/(1 + L): how much of a disturbance is left.
    sensitivity_at;
    /// The complementary sensitivity T = L/(1 + L): how a reference is tracked.
    comp_sensitivity_at;
    /// The control sensitivity Q = C/(1 + L): what the controller spends.
    control_sensitivity_at;
}

/// The frequency where S and T, in dB, are first equal, on the straight lines between the two
/// readings about it. A reading is a frequency, S and T.
///
/// Refused with [`Refusal::LengthsDiffer`], then [`Refusal::TooMany`] above 4,096 readings.
///
/// ```
/// use bazintroa::sensitivity_crossover;
///
/// let omega = [1.0, 2.0, 4.0];
/// let s = [-20.0, -3.0, 5.0];
/// let t = [0.0, -1.0, -1.0];
/// assert_eq!(sensitivity_crossover(&omega, &s, &t), Ok(Some(2.5)));
/// ```
#[inline]
pub fn sensitivity_crossover(omega: &[f64], s: &[f64], t: &[f64]) -> Result<Option<f64>, Refusal> {
    answer(|out| exported::sensitivity_crossover(omega, s, t, out))
}

/// The frequency where T, in dB, first drops 3 dB below its first value. Readings and refusals are
/// those of [`sensitivity_crossover`].
///
/// ```
/// use bazintroa::bandwidth;
///
/// let omega = [1.0, 2.0, 4.0];
/// let s = [-20.0, -10.0, 5.0];
/// let t = [0.0, -1.0, -5.0];
/// assert_eq!(bandwidth(&omega, &s, &t), Ok(Some(3.0)));
/// assert_eq!(bandwidth(&[1.0], &[-20.0], &[0.0]), Ok(None));
/// ```
#[inline]
pub fn bandwidth(omega: &[f64], s: &[f64], t: &[f64]) -> Result<Option<f64>, Refusal> {
    answer(|out| exported::bandwidth(omega, s, t, out))
}

/// What a summary says of the bandwidth.
#[derive(Clone, Copy, Debug, PartialEq)]
pub enum Bandwidth {
    /// The frequency at which T first drops 3 dB below its first value.
    Found(f64),
    /// T does not drop so far.
    Absent,
    /// The summary was joined, and a join does not keep it.
    NotKept,
}

/// A summary of a sweep of S and T, of any length: it is fed in parts, or joined of summaries of
/// parts, and answers what [`sensitivity_crossover`] and [`bandwidth`] would answer of the whole
/// sweep. Once it was joined the bandwidth is not kept.
///
/// ```
/// use bazintroa::{Bandwidth, Refusal, SensitivitySummary};
///
/// let omega = [1.0, 2.0, 4.0];
/// let s = [-20.0, -10.0, 5.0];
/// let t = [0.0, -1.0, -5.0];
/// let mut whole = SensitivitySummary::new();
/// whole.feed(&omega[..2], &s[..2], &t[..2])?;
/// whole.feed(&omega[2..], &s[2..], &t[2..])?;
/// assert_eq!(whole.bandwidth(), Bandwidth::Found(3.0));
///
/// let [mut first, mut second] = [SensitivitySummary::new(); 2];
/// first.feed(&omega[..2], &s[..2], &t[..2])?;
/// second.feed(&omega[2..], &s[2..], &t[2..])?;
/// first.join(&second);
/// assert_eq!(first.crossover(), whole.crossover());
/// assert_eq!(first.bandwidth(), Bandwidth::NotKept);
/// # Ok::<(), Refusal>(())
/// ```
#[derive(Clone, Copy, Debug)]
pub struct SensitivitySummary(SensitivityPlain);

impl SensitivitySummary {
    /// A summary of no readings.
    #[inline]
    pub fn new() -> Self {
        Self(exported::sensitivity_empty())
    }

    /// Puts the readings behind those that it has. A refused part leaves it as it was.
    ///
    /// Refused with [`Refusal::LengthsDiffer`], then [`Refusal::TooMany`] above 4,096 readings.
    #[inline]
    pub fn feed(&mut self, omega: &[f64], s: &[f64], t: &[f64]) -> Result<(), Refusal> {
        let fed = exported::sensitivity_feed(self.0, omega, s, t);
        self.0 = fed.summary;
        value(fed.number, ())
    }

    /// Puts the readings of `other` behind those that it has.
    #[inline]
    pub fn join(&mut self, other: &Self) {
        self.0 = exported::sensitivity_join(self.0, other.0);
    }

    /// The frequency where S and T are first equal.
    #[inline]
    pub fn crossover(&self) -> Option<f64> {
        let mut place = 0.0;
        let number = exported::sensitivity_summary_crossover(self.0, &mut place);
        (number == 0).then_some(place)
    }

    /// The bandwidth, where it is kept.
    #[inline]
    pub fn bandwidth(&self) -> Bandwidth {
        let mut place = 0.0;
        match exported::sensitivity_summary_bandwidth(self.0, &mut place) {
            0 => Bandwidth::Found(place),
            100 => Bandwidth::Absent,
            _ => Bandwidth::NotKept,
        }
    }
}

impl Default for SensitivitySummary {
    fn default() -> Self {
        Self::new()
    }
}
