//! Crossovers and margins, and a summary of the crossovers.

use crate::exported::{self, BodePlain};
use crate::refusal::{answer, value};
use crate::Refusal;

/// The frequency where the magnitude first crosses 0 dB, on the straight line between the two
/// readings about it. A reading is a frequency, a magnitude in dB and a phase in degrees; the
/// frequencies may stand in any order.
///
/// Refused with [`Refusal::LengthsDiffer`], then [`Refusal::TooMany`] above 4,096 readings.
///
/// ```
/// use bazintroa::{gain_crossover_frequency, Refusal};
///
/// let omega = [1.0, 2.0, 4.0, 8.0];
/// let db = [6.0, 2.0, -2.0, -10.0];
/// let phase = [-90.0, -120.0, -160.0, -200.0];
/// assert_eq!(gain_crossover_frequency(&omega, &db, &phase), Ok(Some(3.0)));
///
/// // One reading crosses nothing.
/// assert_eq!(gain_crossover_frequency(&[1.0], &[0.0], &[-90.0]), Ok(None));
/// assert_eq!(
///     gain_crossover_frequency(&omega, &db, &phase[..3]),
///     Err(Refusal::LengthsDiffer)
/// );
/// let long = [1.0; 4097];
/// assert_eq!(gain_crossover_frequency(&long, &long, &long), Err(Refusal::TooMany));
/// ```
#[inline]
pub fn gain_crossover_frequency(
    omega: &[f64],
    db: &[f64],
    phase: &[f64],
) -> Result<Option<f64>, Refusal> {
    answer(|out| exported::gain_crossover_frequency(omega, db, phase, out))
}

/// The frequency where the phase first crosses -180 degrees. Readings and refusals are those of
/// [`gain_crossover_frequency`].
///
/// ```
/// use bazintroa::phase_crossover_frequency;
///
/// let omega = [1.0, 2.0, 4.0, 8.0];
/// let db = [6.0, 2.0, -2.0, -10.0];
/// let phase = [-90.0, -120.0, -160.0, -200.0];
/// assert_eq!(phase_crossover_frequency(&omega, &db, &phase), Ok(Some(6.0)));
///
/// // Exactly -180 is not above it.
/// assert_eq!(phase_crossover_frequency(&omega, &db, &[-180.0; 4]), Ok(None));
/// ```
#[inline]
pub fn phase_crossover_frequency(
    omega: &[f64],
    db: &[f64],
    phase: &[f64],
) -> Result<Option<f64>, Refusal> {
    answer(|out| exported::phase_crossover_frequency(omega, db, phase, out))
}

/// The gain margin in dB: the negated magnitude at the phase crossover, in the first two neighbours
/// whose frequencies enclose it. There is none without such neighbours. Readings and refusals are
/// those of [`gain_crossover_frequency`].
///
/// ```
/// use bazintroa::gain_margin;
///
/// let omega = [1.0, 2.0, 4.0, 8.0];
/// let db = [6.0, 2.0, -2.0, -10.0];
/// let phase = [-90.0, -120.0, -160.0, -200.0];
/// assert_eq!(gain_margin(&omega, &db, &phase), Ok(Some(6.0)));
/// ```
#[inline]
pub fn gain_margin(omega: &[f64], db: &[f64], phase: &[f64]) -> Result<Option<f64>, Refusal> {
    answer(|out| exported::gain_margin(omega, db, phase, out))
}

/// The phase margin in degrees: 180 plus the phase at the gain crossover, in the first two
/// neighbours whose frequencies enclose it. There is none without such neighbours. Readings and
/// refusals are those of [`gain_crossover_frequency`].
///
/// ```
/// use bazintroa::phase_margin;
///
/// let omega = [1.0, 2.0, 4.0, 8.0];
/// let db = [6.0, 2.0, -2.0, -10.0];
/// let phase = [-90.0, -120.0, -160.0, -200.0];
/// assert_eq!(phase_margin(&omega, &db, &phase), Ok(Some(40.0)));
///
/// // The crossover is 2.5, which the first two readings enclose.
/// let omega = [1.0, 4.0, 2.0, 3.0];
/// let db = [5.0, 5.0, 1.0, -1.0];
/// let phase = [-100.0, -140.0, -150.0, -170.0];
/// assert_eq!(phase_margin(&omega, &db, &phase), Ok(Some(60.0)));
///
/// // The crossover is rounded to a frequency past both readings.
/// let omega = [1.5, 4503599627370499.0];
/// assert_eq!(phase_margin(&omega, &[1.0, 0.0], &[-100.0, -120.0]), Ok(None));
/// ```
#[inline]
pub fn phase_margin(omega: &[f64], db: &[f64], phase: &[f64]) -> Result<Option<f64>, Refusal> {
    answer(|out| exported::phase_margin(omega, db, phase, out))
}

/// A reading of a Bode sweep: a frequency, the magnitude in dB, the phase in degrees.
#[repr(C)]
#[derive(Clone, Copy, Debug, PartialEq)]
pub struct Reading {
    pub omega: f64,
    pub db: f64,
    pub phase: f64,
}

/// What [`gain_crossover_frequency`] answers, of a list of readings.
///
/// Refused with [`Refusal::TooMany`] above 4,096 readings.
///
/// ```
/// use bazintroa::{gain_crossover_readings, Reading, Refusal};
///
/// let readings = [
///     Reading { omega: 2.0, db: 2.0, phase: -120.0 },
///     Reading { omega: 4.0, db: -2.0, phase: -160.0 },
/// ];
/// assert_eq!(gain_crossover_readings(&readings), Ok(Some(3.0)));
/// assert_eq!(gain_crossover_readings(&[readings[0]; 4097]), Err(Refusal::TooMany));
/// ```
#[inline]
pub fn gain_crossover_readings(readings: &[Reading]) -> Result<Option<f64>, Refusal> {
    answer(|out| exported::gain_crossover_readings(readings, out))
}

/// A summary of a Bode sweep, of any length: it is fed in parts, or joined of summaries of parts, and
/// answers what [`gain_crossover_frequency`] and [`phase_crossover_frequency`] would answer of the
/// whole sweep. Margins need the whole sweep at once.
///
/// ```
/// use bazintroa::{BodeSummary, Refusal};
///
/// let omega = [1.0, 2.0, 4.0, 8.0];
/// let db = [6.0, 2.0, -2.0, -10.0];
/// let phase = [-90.0, -120.0, -160.0, -200.0];
/// let [mut first, mut second] = [BodeSummary::new(); 2];
/// first.feed(&omega[..2], &db[..2], &phase[..2])?;
/// second.feed(&omega[2..], &db[2..], &phase[2..])?;
///
/// // The magnitude crosses 0 dB between the parts.
/// assert_eq!(first.gain_crossover(), None);
/// assert_eq!(second.gain_crossover(), None);
/// first.join(&second);
/// assert_eq!(first.gain_crossover(), Some(3.0));
/// assert_eq!(first.phase_crossover(), Some(6.0));
///
/// // A part that is refused leaves the summary as it was.
/// assert_eq!(first.feed(&omega, &db, &phase[..3]), Err(Refusal::LengthsDiffer));
/// assert_eq!(first.gain_crossover(), Some(3.0));
/// # Ok::<(), Refusal>(())
/// ```
#[derive(Clone, Copy, Debug)]
pub struct BodeSummary(BodePlain);

impl BodeSummary {
    /// A summary of no readings.
    #[inline]
    pub fn new() -> Self {
        Self(exported::bode_empty())
    }

    /// Puts the readings behind those that it has. A refused part leaves it as it was.
    ///
    /// Refused with [`Refusal::LengthsDiffer`], then [`Refusal::TooMany`] above 4,096 readings.
    #[inline]
    pub fn feed(&mut self, omega: &[f64], db: &[f64], phase: &[f64]) -> Result<(), Refusal> {
        let fed = exported::bode_feed(self.0, omega, db, phase);
        self.0 = fed.summary;
        value(fed.number, ())
    }

    /// Puts the readings of `other` behind those that it has.
    #[inline]
    pub fn join(&mut self, other: &Self) {
        self.0 = exported::bode_join(self.0, other.0);
    }

    /// The frequency where the magnitude first crosses 0 dB.
    #[inline]
    pub fn gain_crossover(&self) -> Option<f64> {
        let mut place = 0.0;
        let number = exported::bode_gain_crossover(self.0, &mut place);
        (number == 0).then_some(place)
    }

    /// The frequency where the phase first crosses -180 degrees.
    #[inline]
    pub fn phase_crossover(&self) -> Option<f64> {
        let mut place = 0.0;
        let number = exported::bode_phase_crossover(self.0, &mut place);
        (number == 0).then_some(place)
    }
}

impl Default for BodeSummary {
    fn default() -> Self {
        Self::new()
    }
}
