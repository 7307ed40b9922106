//! Evaluation and the four responses of a loop.

use crate::tally::{bits, same_numbers, Comparison, Place};
use bazintroa::{exported, pairs, Complex, LoopShaping, Refusal, TransferFn};
use std::f64::consts::{FRAC_PI_2, PI};
use vectors::coefficients::{mixed, moderate, special, stable, uniform_bits, Coefficients, Kind};
use vectors::numbers::{MAX_ORDER, VALUE};
use vectors::random::{beside, with_neighbours, Random, EPS, ROOT_EPS};
use vectors::sensitivity::{self, needed, Answer, Case, MAX_PAIRS};

/// An exported response: plant, controller, cosines, sines, place.
type Exported = fn(&TransferFn, &TransferFn, &[f64], &[f64], &mut [f64; 2]) -> u32;
/// The safe one over it.
type Safe = fn(&LoopShaping, &[f64], &[f64]) -> Result<Complex, Refusal>;

macro_rules! response {
    ($name:ident) => {
        (
            stringify!($name),
            |p, c, cosines, sines, out| {
                exported::$name(
                    &p.b, &p.a, p.order, &c.b, &c.a, c.order, cosines, sines, out,
                )
            },
            LoopShaping::$name,
        )
    };
}

/// In the order in which the Rust is asked.
const RESPONSES: [(&str, Exported, Safe); 5] = [
    (
        "eval_tf_complex",
        |p, _, cosines, sines, out| {
            exported::eval_tf_complex(&p.b, &p.a, p.order, cosines, sines, out)
        },
        |shaping, cosines, sines| shaping.plant.eval(cosines, sines),
    ),
    response!(loop_gain_at),
    response!(sensitivity_at),
    response!(comp_sensitivity_at),
    response!(control_sensitivity_at),
];

pub fn compare(comparison: &mut Comparison, random: &mut Random) {
    let case = draw(random);
    let [plant, controller] = [&case.plant, &case.controller].map(|function| TransferFn {
        b: function.b,
        a: function.a,
        order: function.order as usize,
    });
    let shaping = LoopShaping { plant, controller };
    let [cosines, sines] = sensitivity::pairs(random, &case);
    // The same pairs, but for what is not read, by the host's own function.
    let [mut own_cosines, mut own_sines] = case.lengths.map(|length| vec![0.0; length]);
    pairs(case.omega, &mut own_cosines, &mut own_sines);

    let answers = sensitivity::answers(&case);
    for ((name, port, safe), expected) in RESPONSES.into_iter().zip(answers) {
        let mut place = Place::new();
        let number = port(&plant, &controller, &cosines, &sines, &mut place.lent);
        let number = u64::from(number);
        let safe = safe(&shaping, &own_cosines, &own_sines)
            .map(|value| [value.re, value.im])
            .map_err(|refusal| u64::from(refusal.number()));
        let same = number == expected.err().unwrap_or(VALUE)
            && place.holds(expected.ok())
            && same_answer(safe, expected);
        comparison.note(name, number, same, || {
            format!(
                "{}\n{}\n  frequency:{}\n  cosines:{}\n  sines:{}\n  exported: {number}, place:{}\n  safe: {}\n  expected: {}",
                described("plant", &plant),
                described("controller", &controller),
                bits(&[case.omega]),
                bits(&cosines),
                bits(&sines),
                place.bits(),
                shown(safe),
                shown(expected),
            )
        });
    }
}

fn same_answer(a: Answer, b: Answer) -> bool {
    match (a, b) {
        (Ok(a), Ok(b)) => same_numbers(&a, &b),
        (a, b) => a.err() == b.err(),
    }
}

fn shown(answer: Answer) -> String {
    match answer {
        Ok(value) => format!("{VALUE},{}", bits(&value)),
        Err(number) => number.to_string(),
    }
}

pub fn described(name: &str, function: &TransferFn) -> String {
    let TransferFn { b, a, order } = function;
    format!("  {name} of order {order}, b:{}, a:{}", bits(b), bits(a))
}

/// Orders up to 8, now and then above.
fn order(random: &mut Random) -> u64 {
    match random.below(64) {
        0 => random.pick(&[9, 10, 255, 256, 1 << 32, (1 << 32) + 1, 1 << 63, u64::MAX]),
        _ => random.below(MAX_ORDER + 1),
    }
}

fn coefficients(random: &mut Random) -> Coefficients {
    const KINDS: [Kind; 6] = [stable, stable, moderate, mixed, special, uniform_bits];
    let order = order(random);
    let kind = random.pick(&KINDS);
    Coefficients::random(random, order, kind)
}

/// From 0 to π, past it, and of every class.
fn frequency(random: &mut Random) -> f64 {
    match random.below(10) {
        0 => random.special(),
        1 => random.uniform_bits(),
        2 => random.with_exponent(-60, 60),
        3 => random.pick(&[0.0, -0.0, FRAC_PI_2, PI, 2.0 * PI, -1.0, 1e22, f64::MAX]),
        _ => random.between(0.0, PI),
    }
}

fn draw(random: &mut Random) -> Case {
    let (plant, controller, omega) = match random.below(6) {
        0 => small_divisors(random),
        _ => (
            coefficients(random),
            coefficients(random),
            frequency(random),
        ),
    };
    let needed = needed(&plant, &controller);
    let length = needed + random.below((MAX_PAIRS - needed + 1) as u64) as usize;
    let any = [(); 2].map(|_| random.below(MAX_PAIRS as u64 + 1) as usize);
    let lengths = match random.below(24) {
        0 => any,
        1 => [needed.saturating_sub(1); 2],
        2 => [length.saturating_sub(1), length],
        3 => [any[0]; 2],
        _ => [length; 2],
    };
    Case {
        plant,
        controller,
        omega,
        lengths,
    }
}

/// A denominator, or 1 + L, whose squared magnitude is about eps, with the frequency where it is.
fn small_divisors(random: &mut Random) -> (Coefficients, Coefficients, f64) {
    let square = random.pick(&with_neighbours(EPS)) * random.pick(&[1.0, 1.0, 0.5, 2.0]);
    let re = random.between(-ROOT_EPS, ROOT_EPS);
    let im = beside(re, square);
    let gain = random.between(-2.0, 2.0);
    // At so low a frequency the cosine is 1: the denominator of the first is (re, im). At a quarter
    // turn b[1] is the imaginary part: 1 + L is (re, im).
    let (first, second, omega): (&[[f64; 2]], &[[f64; 2]], f64) = match random.below(2) {
        0 => (&[[gain, re - 1.0]], &[[0.5, 0.0]], im / (1.0 - re)),
        _ => (&[[1.0, 0.0]], &[[re - 1.0, 0.0], [-im, 0.0]], FRAC_PI_2),
    };
    let first = Coefficients::new(random, first);
    let second = Coefficients::new(random, second);
    match random.below(2) {
        0 => (first, second, omega),
        _ => (second, first, omega),
    }
}
