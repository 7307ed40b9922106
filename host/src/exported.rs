//! The functions of `crates/c_api`, `c_summaries` and `panel` as the thin crates `c_api_c`,
//! `c_summaries_c` and `panel_c` export them. A `u32` that is returned is document 01's number: 0 for
//! a result, 100 for none, 101 for what is not kept, or the refusal. A place that is lent for the
//! result is written only on 0.

use std::marker::PhantomData;
use std::mem::MaybeUninit;
use std::ptr;

use crate::bode::Reading;
use crate::Complex;

/// A reading of S and T.
#[repr(C)]
#[derive(Clone, Copy, Debug)]
pub struct SensitivityReading {
    pub omega: f64,
    pub s: f64,
    pub t: f64,
}

/// A summary of a Bode sweep. A mark is 0 where there is nothing.
#[repr(C)]
#[derive(Clone, Copy, Debug)]
pub struct BodePlain {
    pub read: u32,
    pub gain_found: u32,
    pub phase_found: u32,
    pub reserved: u32,
    pub first: Reading,
    pub last: Reading,
    pub gain: f64,
    pub phase: f64,
}

/// The number of a feed, and the summary after it.
#[repr(C)]
#[derive(Clone, Copy, Debug)]
pub struct BodePlainFed {
    pub number: u32,
    pub reserved: u32,
    pub summary: BodePlain,
}

/// A summary of a sweep of S and T. `bandwidth_state` is 0 for none, 1 for one that was found, and
/// anything else for one that is not kept.
#[repr(C)]
#[derive(Clone, Copy, Debug)]
pub struct SensitivityPlain {
    pub read: u32,
    pub crossover_found: u32,
    pub bandwidth_state: u32,
    pub reserved: u32,
    pub first: SensitivityReading,
    pub last: SensitivityReading,
    pub crossover: f64,
    pub bandwidth: f64,
}

/// The number of a feed, and the summary after it.
#[repr(C)]
#[derive(Clone, Copy, Debug)]
pub struct SensitivityPlainFed {
    pub number: u32,
    pub reserved: u32,
    pub summary: SensitivityPlain,
}

/// A summary of a curve: its point closest to (-1, 0).
#[repr(C)]
#[derive(Clone, Copy, Debug)]
pub struct CurvePlain {
    pub found: u32,
    pub reserved: u32,
    pub re: f64,
    pub im: f64,
}

/// The number of a feed, and the summary after it.
#[repr(C)]
#[derive(Clone, Copy, Debug)]
pub struct CurvePlainFed {
    pub number: u32,
    pub reserved: u32,
    pub summary: CurvePlain,
}

/// A place for the parts of eight poles, which need not hold anything yet. Nothing is read through it.
#[repr(transparent)]
pub struct Poles<'a>(*mut [f64; 16], PhantomData<&'a mut [f64; 16]>);

impl<'a> From<&'a mut [f64; 16]> for Poles<'a> {
    #[inline]
    fn from(place: &'a mut [f64; 16]) -> Self {
        Poles(place, PhantomData)
    }
}

impl<'a> From<&'a mut MaybeUninit<[Complex; 8]>> for Poles<'a> {
    #[inline]
    fn from(place: &'a mut MaybeUninit<[Complex; 8]>) -> Self {
        Poles(ptr::from_mut(place).cast(), PhantomData)
    }
}

/// Declares each function and wraps it. The arguments are those before the lists, the lists to read,
/// the list to write, and those behind them; a list crosses as a pointer and a length.
macro_rules! exported {
    ($(
        $name:ident($($first:ident: $first_type:ty),*)
            $([$($list:ident: $element:ty),+])?
            $({$written:ident: $place:ty})?
            $(($($last:ident: $last_type:ty),+))?
            $(-> $answer:ty)?;
    )*) => {
        /// Nothing checks these declarations against the crates.
        mod c_api {
            use super::*;

            extern "C" {$(
                #[link_name = concat!("bazintroa_", stringify!($name))]
                pub fn $name(
                    $($first: $first_type,)*
                    $($($list: *const $element, _: usize,)+)?
                    $($written: *mut $place, _: usize,)?
                    $($($last: $last_type,)+)?
                ) $(-> $answer)?;
            )*}
        }

        $(
            #[inline]
            #[allow(clippy::too_many_arguments)]
            pub fn $name(
                $($first: $first_type,)*
                $($($list: &[$element],)+)?
                $($written: &mut [$place],)?
                $($($last: $last_type,)+)?
            ) $(-> $answer)? {
                // SAFETY: pointers and lengths are those of slices, and places are ours to write.
                // The function reads no more than what it is lent, writes no more than the places,
                // and asks nothing of the numbers.
                unsafe {
                    c_api::$name(
                        $($first,)*
                        $($($list.as_ptr(), $list.len(),)+)?
                        $($written.as_mut_ptr(), $written.len(),)?
                        $($($last,)+)?
                    )
                }
            }
        )*
    };
}

exported! {
    sqrt(x: f64) -> f64;
    abs(x: f64) -> f64;

    complex_multiply(z: &[f64; 2], w: &[f64; 2], out: &mut [f64; 2]);
    complex_add(z: &[f64; 2], w: &[f64; 2], out: &mut [f64; 2]);
    complex_sub(z: &[f64; 2], w: &[f64; 2], out: &mut [f64; 2]);
    complex_magnitude(z: &[f64; 2]) -> f64;
    complex_magnitude_sq(z: &[f64; 2]) -> f64;
    complex_reciprocal(z: &[f64; 2], out: &mut [f64; 2]) -> u32;
    complex_divide(z: &[f64; 2], w: &[f64; 2], out: &mut [f64; 2]) -> u32;
    complex_divide_or_zero(z: &[f64; 2], w: &[f64; 2], out: &mut [f64; 2]);

    eval_tf_complex(b: &[f64; 8], a: &[f64; 8], order: usize)
        [cosines: f64, sines: f64] (out: &mut [f64; 2]) -> u32;
    loop_gain_at(
        plant_b: &[f64; 8], plant_a: &[f64; 8], plant_order: usize,
        controller_b: &[f64; 8], controller_a: &[f64; 8], controller_order: usize
    ) [cosines: f64, sines: f64] (out: &mut [f64; 2]) -> u32;
    sensitivity_at(
        plant_b: &[f64; 8], plant_a: &[f64; 8], plant_order: usize,
        controller_b: &[f64; 8], controller_a: &[f64; 8], controller_order: usize
    ) [cosines: f64, sines: f64] (out: &mut [f64; 2]) -> u32;
    comp_sensitivity_at(
        plant_b: &[f64; 8], plant_a: &[f64; 8], plant_order: usize,
        controller_b: &[f64; 8], controller_a: &[f64; 8], controller_order: usize
    ) [cosines: f64, sines: f64] (out: &mut [f64; 2]) -> u32;
    control_sensitivity_at(
        plant_b: &[f64; 8], plant_a: &[f64; 8], plant_order: usize,
        controller_b: &[f64; 8], controller_a: &[f64; 8], controller_order: usize
    ) [cosines: f64, sines: f64] (out: &mut [f64; 2]) -> u32;

    locus_point(
        b: &[f64; 8], a: &[f64; 8], order: usize, k_max: f64, n: usize, i: usize,
        gain: &mut f64, poles: Poles<'_>, count: &mut usize,
        ending: &mut u32, ending_value: &mut f64
    ) -> u32;
    stability_region(poles: &[f64; 16], count: usize) -> bool;

    gain_crossover_frequency() [omega: f64, db: f64, phase: f64] (out: &mut f64) -> u32;
    phase_crossover_frequency() [omega: f64, db: f64, phase: f64] (out: &mut f64) -> u32;
    gain_margin() [omega: f64, db: f64, phase: f64] (out: &mut f64) -> u32;
    phase_margin() [omega: f64, db: f64, phase: f64] (out: &mut f64) -> u32;
    gain_crossover_readings() [readings: Reading] (out: &mut f64) -> u32;
    sensitivity_crossover() [omega: f64, s: f64, t: f64] (out: &mut f64) -> u32;
    bandwidth() [omega: f64, s: f64, t: f64] (out: &mut f64) -> u32;
    distance_to_critical() [re: f64, im: f64] (out: &mut f64) -> u32;

    fill_gain_grid(k_max: f64, n: usize) {list: f64} -> u32;
    fill_frequency_grid(omega_max: f64, n: usize) {list: f64} -> u32;

    bode_empty() -> BodePlain;
    bode_feed(summary: BodePlain) [omega: f64, db: f64, phase: f64] -> BodePlainFed;
    bode_join(summary: BodePlain, other: BodePlain) -> BodePlain;
    bode_gain_crossover(summary: BodePlain, out: &mut f64) -> u32;
    bode_phase_crossover(summary: BodePlain, out: &mut f64) -> u32;

    sensitivity_empty() -> SensitivityPlain;
    sensitivity_feed(summary: SensitivityPlain)
        [omega: f64, s: f64, t: f64] -> SensitivityPlainFed;
    sensitivity_join(summary: SensitivityPlain, other: SensitivityPlain) -> SensitivityPlain;
    sensitivity_summary_crossover(summary: SensitivityPlain, out: &mut f64) -> u32;
    sensitivity_summary_bandwidth(summary: SensitivityPlain, out: &mut f64) -> u32;

    curve_empty() -> CurvePlain;
    curve_feed(summary: CurvePlain) [re: f64, im: f64] -> CurvePlainFed;
    curve_join(summary: CurvePlain, other: CurvePlain) -> CurvePlain;
    curve_closest_approach(summary: CurvePlain) -> f64;

    panel_gain_crossover() [readings: u8] {answer: u8} -> u32;
    panel_phase_crossover() [readings: u8] {answer: u8} -> u32;
}

#[cfg(test)]
mod tests {
    use super::*;

    /// Stands in a place before a call that must not write it.
    const MARK: f64 = 12345.678;
    static LONG: [f64; 4097] = [1.0; 4097];

    #[test]
    fn scans_write_only_what_they_find() {
        let scans = [
            gain_crossover_frequency,
            phase_crossover_frequency,
            gain_margin,
            phase_margin,
            sensitivity_crossover,
            bandwidth,
        ];
        let mut place = MARK;
        for scan in scans {
            assert_eq!(scan(&[1.0], &[1.0], &[], &mut place), 11);
            assert_eq!(scan(&LONG, &LONG, &LONG, &mut place), 15);
            assert_eq!(scan(&[1.0], &[1.0], &[1.0], &mut place), 100);
        }
        let reading = Reading {
            omega: 1.0,
            db: 1.0,
            phase: 1.0,
        };
        assert_eq!(gain_crossover_readings(&[reading; 4097], &mut place), 15);
        assert_eq!(gain_crossover_readings(&[reading], &mut place), 100);
        assert_eq!(distance_to_critical(&[1.0], &[], &mut place), 11);
        assert_eq!(distance_to_critical(&LONG, &LONG, &mut place), 15);
        assert_eq!(place, MARK);
    }

    #[test]
    fn a_refused_grid_writes_nothing() {
        let mut list = [MARK; 3];
        for (fill, range) in [
            (fill_gain_grid as fn(f64, usize, &mut [f64]) -> u32, 3),
            (fill_frequency_grid, 2),
        ] {
            assert_eq!(fill(1.0, 1, &mut list), 1);
            assert_eq!(fill(-0.0, 2, &mut list), range);
            assert_eq!(fill(1.0, 4097, &mut list), 15);
            assert_eq!(fill(1.0, 4, &mut list), 14);
        }
        assert_eq!(list, [MARK; 3]);
    }

    #[test]
    fn what_is_not_there_is_not_written() {
        let mut place = [MARK; 2];
        assert_eq!(complex_reciprocal(&[0.0; 2], &mut place), 100);
        assert_eq!(complex_divide(&[1.0; 2], &[0.0; 2], &mut place), 100);
        let one = [1.0; 8];
        assert_eq!(eval_tf_complex(&one, &one, 9, &[], &[], &mut place), 16);
        for response in [
            loop_gain_at,
            sensitivity_at,
            comp_sensitivity_at,
            control_sensitivity_at,
        ] {
            let mut ask = |order, cosines: &[f64], sines: &[f64]| {
                response(&one, &one, 1, &one, &one, order, cosines, sines, &mut place)
            };
            assert_eq!(ask(9, &[], &[]), 16);
            assert_eq!(ask(1, &[1.0], &[]), 11);
            assert_eq!(ask(1, &[1.0], &[1.0]), 13);
        }
        assert_eq!(place, [MARK; 2]);
    }

    #[test]
    fn a_refused_point_writes_nothing() {
        let one = [1.0; 8];
        let (mut gain, mut poles, mut count) = (MARK, [MARK; 16], 99);
        let (mut ending, mut ending_value) = (99, MARK);
        let mut ask = |order, k_max, n, i| {
            locus_point(
                &one,
                &one,
                order,
                k_max,
                n,
                i,
                &mut gain,
                Poles::from(&mut poles),
                &mut count,
                &mut ending,
                &mut ending_value,
            )
        };
        assert_eq!(ask(1, 1.0, 1, 0), 1);
        assert_eq!(ask(1, 0.0, 2, 0), 3);
        assert_eq!(ask(9, 1.0, 2, 0), 3);
        assert_eq!(ask(0, 1.0, 2, 0), 16);
        assert_eq!(ask(1, 1.0, 4097, 0), 15);
        assert_eq!(ask(1, 1.0, 2, 2), 17);
        assert_eq!(ask(3, 1.0, 2, 0), 12);
        assert_eq!((gain, poles, count), (MARK, [MARK; 16], 99));
        assert_eq!((ending, ending_value), (99, MARK));
    }

    /// The number and the five places of point 0 of 2, which hold marks before it is asked for.
    fn asked(a: &[f64]) -> (u32, f64, [f64; 16], usize, u32, f64) {
        let mut of_eight = [0.0; 8];
        of_eight[..a.len()].copy_from_slice(a);
        let (mut gain, mut poles, mut count) = (MARK, [MARK; 16], 99);
        let (mut ending, mut ending_value) = (99, MARK);
        let number = locus_point(
            &[0.0; 8],
            &of_eight,
            a.len(),
            1.0,
            2,
            0,
            &mut gain,
            Poles::from(&mut poles),
            &mut count,
            &mut ending,
            &mut ending_value,
        );
        (number, gain, poles, count, ending, ending_value)
    }

    #[test]
    fn a_point_writes_its_five_places() {
        // By a formula, and by a search that settles.
        let (number, gain, poles, count, ending, ending_value) = asked(&[-0.5]);
        assert_eq!((number, gain, poles[0], count), (0, 0.0, 0.5, 1));
        assert_eq!(poles[1..], [0.0; 15]);
        assert_eq!((ending, ending_value.to_bits()), (0, 0));
        let (number, .., count, ending, ending_value) = asked(&[-2.0, 4.0, 2.0, 3.0]);
        assert_eq!((number, count, ending, ending_value), (0, 4, 0, 31.0));
        // The last of 200 rounds still moves a pole, by as much as in a copy of the Rust's loop in Python.
        let (number, .., count, ending, ending_value) = asked(&[5.0, -1.0, 2.0, 1.0]);
        assert_eq!((number, count, ending), (0, 4, 1));
        assert_eq!(ending_value, 0.05684576108915305);
        // A NaN among the poles, by a formula and by a search.
        for a in [&[f64::NAN][..], &[0.0, 0.0, 0.0, 1.7e308]] {
            let (number, _, poles, count, ending, ending_value) = asked(a);
            assert_eq!((number, count, ending), (0, a.len(), 2));
            assert_eq!(ending_value.to_bits(), 0);
            assert!(poles[..2 * count].iter().any(|part| part.is_nan()));
        }
    }

    #[test]
    fn a_refused_part_leaves_the_summary() {
        let mut place = MARK;
        let bode = bode_feed(bode_empty(), &[1.0], &[1.0], &[1.0]).summary;
        let same = |number: u32, other: BodePlainFed| {
            assert_eq!(other.number, number);
            assert_eq!(format!("{:?}", other.summary), format!("{bode:?}"));
        };
        same(11, bode_feed(bode, &[1.0], &[1.0], &[]));
        same(15, bode_feed(bode, &LONG, &LONG, &LONG));
        assert_eq!(bode_gain_crossover(bode, &mut place), 100);
        assert_eq!(bode_phase_crossover(bode, &mut place), 100);

        let sensitivity = sensitivity_feed(sensitivity_empty(), &[1.0], &[1.0], &[0.0]).summary;
        let same = |number: u32, other: SensitivityPlainFed| {
            assert_eq!(other.number, number);
            assert_eq!(format!("{:?}", other.summary), format!("{sensitivity:?}"));
        };
        same(11, sensitivity_feed(sensitivity, &[1.0], &[1.0], &[]));
        same(15, sensitivity_feed(sensitivity, &LONG, &LONG, &LONG));
        assert_eq!(sensitivity_summary_crossover(sensitivity, &mut place), 100);
        assert_eq!(sensitivity_summary_bandwidth(sensitivity, &mut place), 100);
        let joined = sensitivity_join(sensitivity, sensitivity_empty());
        assert_eq!(sensitivity_summary_bandwidth(joined, &mut place), 101);

        let curve = curve_feed(curve_empty(), &[1.0], &[1.0]).summary;
        let same = |number: u32, other: CurvePlainFed| {
            assert_eq!(other.number, number);
            assert_eq!(format!("{:?}", other.summary), format!("{curve:?}"));
        };
        same(11, curve_feed(curve, &[1.0], &[]));
        same(15, curve_feed(curve, &LONG, &LONG));
        assert_eq!(place, MARK);
    }
}
