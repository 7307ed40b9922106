//! The entries of the regulator's set-up panel. A sweep is bytes, 24 a reading: the frequency, the
//! magnitude in dB and the phase in degrees, each an f64 in little-endian order.
//!
//! Each entry returns 0 if it finds a crossover, and then writes its frequency to the first 8 bytes of
//! the answer, in little-endian order, a NaN as hexadecimal 7FF8000000000000. It returns 100 if
//! there is none; 19 if the number of bytes is no multiple of 24; 15 if there are more than 4,096
//! readings; 14 if the answer has less than 8 bytes. All other bytes of the answer stay, and on
//! anything but 0 all.

use crate::exported;

/// The frequency where the magnitude first crosses 0 dB, as by
/// [`gain_crossover_frequency`](crate::gain_crossover_frequency).
///
/// ```
/// use bazintroa::panel;
///
/// let readings = [2.0_f64, 2.0, -120.0, 4.0, -2.0, -160.0];
/// let bytes: Vec<u8> = readings.iter().flat_map(|x| x.to_le_bytes()).collect();
/// let mut answer = [9; 9];
/// assert_eq!(panel::gain_crossover(&bytes, &mut answer), 0);
/// assert_eq!(answer[..8], 3.0_f64.to_le_bytes());
/// assert_eq!(answer[8], 9);
///
/// // What is refused, or finds nothing, leaves the answer.
/// let mut answer = [9; 8];
/// assert_eq!(panel::gain_crossover(&bytes[1..], &mut answer), 19);
/// assert_eq!(panel::gain_crossover(&[0; 24 * 4097], &mut answer), 15);
/// assert_eq!(panel::gain_crossover(&bytes, &mut answer[..7]), 14);
/// assert_eq!(panel::gain_crossover(&bytes[24..], &mut answer), 100);
/// assert_eq!(answer, [9; 8]);
/// ```
#[inline]
pub fn gain_crossover(readings: &[u8], answer: &mut [u8]) -> u32 {
    exported::panel_gain_crossover(readings, answer)
}

/// The frequency where the phase first crosses -180 degrees, as by
/// [`phase_crossover_frequency`](crate::phase_crossover_frequency).
///
/// ```
/// use bazintroa::panel;
///
/// let readings = [4.0_f64, -2.0, -160.0, 8.0, -10.0, -200.0];
/// let bytes: Vec<u8> = readings.iter().flat_map(|x| x.to_le_bytes()).collect();
/// let mut answer = [0; 8];
/// assert_eq!(panel::phase_crossover(&bytes, &mut answer), 0);
/// assert_eq!(f64::from_le_bytes(answer), 6.0);
/// ```
#[inline]
pub fn phase_crossover(readings: &[u8], answer: &mut [u8]) -> u32 {
    exported::panel_phase_crossover(readings, answer)
}
