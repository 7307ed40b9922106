//! Scans, grids, evaluation and the points of the locus.

use crate::draw::{check, length, lists, number, place, stayed, MARK};
use bazintroa::exported::{self, Poles};
use bazintroa::random::Random;
use bazintroa::{locus_point, Reading, TransferFn};

pub fn scan(random: &mut Random) {
    let mut out = place();
    let number = match random.below(8) {
        0 => {
            let [re, im] = lists(random);
            exported::distance_to_critical(&re, &im, &mut out)
        }
        1 => {
            let readings: Box<[Reading]> = (0..length(random))
                .map(|_| Reading {
                    omega: number(random),
                    db: number(random),
                    phase: number(random),
                })
                .collect();
            exported::gain_crossover_readings(&readings, &mut out)
        }
        i => {
            let scans = [
                exported::gain_crossover_frequency,
                exported::phase_crossover_frequency,
                exported::gain_margin,
                exported::phase_margin,
                exported::sensitivity_crossover,
                exported::bandwidth,
            ];
            let [omega, db, phase] = lists(random);
            scans[i as usize - 2](&omega, &db, &phase, &mut out)
        }
    };
    check(number, &[*out]);
}

/// Whole numbers about what is allowed, and any.
fn whole(random: &mut Random) -> usize {
    match random.below(8) {
        0 => random.bits() as usize,
        1 => 4094 + random.below(5) as usize,
        _ => random.below(10) as usize,
    }
}

pub fn grid(random: &mut Random) {
    let room = length(random);
    let mut list = vec![f64::from_bits(MARK); room].into_boxed_slice();
    let (top, n) = (number(random), whole(random));
    let number = match random.below(2) {
        0 => exported::fill_gain_grid(top, n, &mut list),
        _ => exported::fill_frequency_grid(top, n, &mut list),
    };
    let written = if number == 0 { n } else { 0 };
    assert!(
        stayed(&list[written..]),
        "{number} was answered, and a list is written past {written}"
    );
}

/// Eight coefficients.
fn coefficients(random: &mut Random) -> Box<[f64; 8]> {
    Box::new([(); 8].map(|_| number(random)))
}

pub fn response(random: &mut Random) {
    let [b, a, c_b, c_a] = [(); 4].map(|_| coefficients(random));
    let [order, c_order] = [(); 2].map(|_| whole(random));
    let [cosines, sines] = lists(random);
    let mut out = Box::new([f64::from_bits(MARK); 2]);
    let number = match random.below(6) {
        0 => exported::eval_tf_complex(&b, &a, order, &cosines, &sines, &mut out),
        1 => {
            point(random, &b, &a, order);
            return;
        }
        i => {
            let responses = [
                exported::loop_gain_at,
                exported::sensitivity_at,
                exported::comp_sensitivity_at,
                exported::control_sensitivity_at,
            ];
            responses[i as usize - 2](
                &b, &a, order, &c_b, &c_a, c_order, &cosines, &sines, &mut out,
            )
        }
    };
    check(number, &*out);
}

fn point(random: &mut Random, b: &[f64; 8], a: &[f64; 8], order: usize) {
    let (k_max, n, i) = (number(random), whole(random), whole(random));
    let (mut gain, mut poles) = (place(), Box::new([f64::from_bits(MARK); 16]));
    let mut count = Box::new(MARK as usize);
    let (mut ending, mut ending_value) = (Box::new(MARK as u32), place());
    let answered = exported::locus_point(
        b,
        a,
        order,
        k_max,
        n,
        i,
        &mut gain,
        Poles::from(&mut *poles),
        &mut count,
        &mut ending,
        &mut ending_value,
    );
    check(answered, &[*gain]);
    check(answered, &*poles);
    check(answered, &[*ending_value]);
    let counted = match answered {
        0 => *count <= 8,
        _ => *count == MARK as usize,
    };
    assert!(counted, "{answered} was answered, and the count is {count}");
    let ended = match answered {
        0 => ended(*ending, *ending_value, &poles[..2 * *count]),
        _ => *ending == MARK as u32,
    };
    assert!(
        ended,
        "{answered} was answered, and the ending is {ending} with {ending_value}"
    );
    // The same where the poles get a place that holds nothing. Each part is looked at, so that valgrind
    // sees one that was not written.
    let (b, a) = (*b, *a);
    let safe = locus_point(&TransferFn { b, a, order }, k_max, n, i);
    assert_eq!(safe.is_ok(), answered == 0, "{answered} was answered");
    if let Ok(point) = safe {
        let parts = point.poles.iter().flat_map(|pole| [pole.re, pole.im]);
        let same = |(part, other): (f64, &f64)| {
            part.to_bits() == other.to_bits() || part.is_nan() && other.is_nan()
        };
        assert!(parts.zip(poles.iter()).all(same), "the poles differ");
    }
    exported::stability_region(&poles, whole(random));
}

/// Whether an ending is one that poles of these parts can have.
fn ended(ending: u32, value: f64, parts: &[f64]) -> bool {
    let broken = parts.iter().any(|part| part.is_nan());
    match ending {
        0 => !broken && value.fract() == 0.0 && (0.0..=200.0).contains(&value),
        1 => !broken && value >= 1e-12,
        2 => broken && value == 0.0,
        _ => false,
    }
}
