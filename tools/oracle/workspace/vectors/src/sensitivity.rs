//! Vectors for the evaluation of a transfer function and the four loop responses.

use crate::coefficients::{mixed, moderate, special, stable, uniform_bits, Coefficients, Kind};
use crate::constant::at_constant;
use crate::numbers::{LENGTHS_DIFFER, MAX_ORDER, ORDER, TOO_FEW_PAIRS, VALUE};
use crate::random::{beside, power_of_two, with_neighbours, Random, EPS, ROOT_EPS};
use crate::rows::{list, record, Rows};
use crate::words::{expected_bits, Words};
use num_traits::Float;
use oxictl::core::frequency_domain::LoopShaping;
use oxictl_inner::core::frequency_domain::{bode, nyquist, sensitivity};
use std::f64::consts::{FRAC_PI_2, PI};

/// No case has longer lists than this.
pub const MAX_PAIRS: usize = 12;

/// A value, or the number of a refusal.
pub type Answer = Result<[f64; 2], u64>;

/// What is asked; `lengths` are those of the lists of cosines and sines.
pub struct Case {
    pub plant: Coefficients,
    pub controller: Coefficients,
    pub omega: f64,
    pub lengths: [usize; 2],
}

pub fn vectors() -> Words {
    let random = &mut Random::new(2);
    let mut cases = orders(random);
    cases.extend(frequencies(random));
    cases.extend(edges(random));
    cases.extend(refusals(random));

    let mut words = Words::default();
    for case in &cases {
        write(&mut words, random, case);
    }
    for case in &zeros(random) {
        write(&mut words, random, case);
    }
    words.wrong_on_purpose(|_| ());
    words
}

/// Rows for the prover.
pub fn rows(rows: &mut Rows, random: &mut Random) {
    let mut cases = Vec::new();
    for [plant, controller] in [[1, 1], [3, 2], [0, 4], [8, 5]] {
        let plant = Coefficients::random(random, plant, stable);
        let controller = Coefficients::random(random, controller, stable);
        let omega = random.between(0.0, PI);
        cases.push(ample(random, plant, controller, omega));
    }
    let below_eps = ROOT_EPS * 0.75;
    for (plant, controller) in [
        ([1.0, 0.0], [-1.0, 0.0]),
        ([1.0, 0.0], [below_eps - 1.0, 0.0]),
        ([1.0, ROOT_EPS - 1.0], [-0.5, 0.0]),
        ([1.0, below_eps - 1.0], [-0.5, 0.0]),
        ([f64::INFINITY, 0.0], [0.5, 0.0]),
    ] {
        let [plant, controller] =
            [plant, controller].map(|pair| Coefficients::new(random, &[pair]));
        cases.push(ample(random, plant, controller, 0.0));
    }
    for (order, lengths) in [(9, [3, 4]), (2, [3, 4]), (2, [2, 2])] {
        let plant = Coefficients::random(random, 1, stable);
        let controller = Coefficients::random(random, order, stable);
        let omega = random.between(0.0, PI);
        cases.push(Case {
            plant,
            controller,
            omega,
            lengths,
        });
    }
    rows.table(
        "responses",
        "evaluation and responses of several orders; 1 + L and denominators that are 0, below eps in square, eps; an infinite gain; refusals",
    );
    for case in &cases {
        let [plant, controller] = [&case.plant, &case.controller].map(Coefficients::text);
        let shaping = record(&[("plant", plant), ("controller", controller)]);
        let shaping = rows.name("loop", "LoopShaping", &shaping);
        let [cosines, sines] = pairs(random, case).map(|values| format!(" {}", list(&values)));
        let cosines = rows.name("cosines", "List Float", &cosines);
        let sines = rows.name("sines", "List Float", &sines);
        let questions = [
            format!("eval_tf_complex {shaping}.plant"),
            format!("loop_gain_at {shaping}"),
            format!("sensitivity_at {shaping}"),
            format!("comp_sensitivity_at {shaping}"),
            format!("control_sensitivity_at {shaping}"),
        ];
        for (question, answer) in questions.iter().zip(answers(case)) {
            let values = answer.as_ref().map_or(&[][..], |values| &values[..]);
            rows.row(
                &format!("{question} {cosines} {sines}"),
                number(answer),
                values,
            );
        }
    }
}

fn write(words: &mut Words, random: &mut Random, case: &Case) {
    let [cosines, sines] = pairs(random, case);
    words.word(cosines.len() as u64);
    words.word(sines.len() as u64);
    words.word(case.plant.order);
    words.word(case.controller.order);
    for function in [&case.plant, &case.controller] {
        words.arguments(&function.b);
        words.arguments(&function.a);
    }
    words.arguments(&cosines);
    words.arguments(&sines);
    let answers = answers(case);
    for answer in answers {
        words.answer(number(answer), &answer.unwrap_or([0.0; 2]));
    }
    let [evaluation, response] = [answers[0], answers[1]].map(number);
    words.count(format!("evaluation {evaluation}, responses {response}"));
}

fn number(answer: Answer) -> u64 {
    answer.err().unwrap_or(VALUE)
}

/// The lists of cosines and sines as the Rust has them, often with junk past those it reads.
/// The pattern of a computed NaN depends on the compiler, so one is drawn instead.
pub fn pairs(random: &mut Random, case: &Case) -> [Vec<f64>; 2] {
    let read = needed(&case.plant, &case.controller);
    let junk_past_read = random.below(3) > 0;
    let mut lists = [Vec::new(), Vec::new()];
    for k in 0..MAX_PAIRS {
        let (sine, cosine) = if k >= read && junk_past_read {
            (random.junk(), random.junk())
        } else {
            Float::sin_cos(-(case.omega * k as f64))
        };
        for (list, value) in lists.iter_mut().zip([cosine, sine]) {
            list.push(if value.is_nan() { random.nan() } else { value });
        }
    }
    for (list, length) in lists.iter_mut().zip(case.lengths) {
        list.truncate(length);
    }
    lists
}

/// How many pairs the evaluations that are not refused for their order read.
pub fn needed(plant: &Coefficients, controller: &Coefficients) -> usize {
    let orders = [plant.order, controller.order];
    let largest = orders.into_iter().filter(|&order| order <= MAX_ORDER).max();
    largest.map_or(0, |order| order as usize + 1)
}

/// Document 01's conditions, in its order.
fn refusal(largest_order: u64, [cosines, sines]: [usize; 2]) -> Option<u64> {
    if largest_order > MAX_ORDER {
        Some(ORDER)
    } else if cosines != sines {
        Some(LENGTHS_DIFFER)
    } else if (cosines as u64) < largest_order + 1 {
        Some(TOO_FEW_PAIRS)
    } else {
        None
    }
}

/// Gives `$answer` for the order at hand, which it sees as the constant `$n`.
macro_rules! at_order {
    ($order:expr, $n:ident => $answer:expr) => {
        at_constant!($order, $n in 0 1 2 3 4 5 6 7 8 => $answer, else unreachable!("refused"))
    };
}

/// Of the plant's `eval_tf_complex`, and of the four responses in the order of the Rust's methods.
pub fn answers(case: &Case) -> [Answer; 5] {
    let (plant, controller) = (&case.plant, &case.controller);
    let evaluation = match refusal(plant.order, case.lengths) {
        Some(number) => Err(number),
        None => Ok(at_order!(plant.order, N => evaluate::<N>(plant, case.omega))),
    };
    let [l, s, t, q] = match refusal(plant.order.max(controller.order), case.lengths) {
        Some(number) => [Err(number); 4],
        None => at_order!(plant.order, NP => at_order!(controller.order, NC => {
            respond::<NP, NC>(plant, controller, case.omega)
        }))
        .map(Ok),
    };
    [evaluation, l, s, t, q]
}

/// What `eval_tf_complex` answers, and the two functions that repeat it.
fn evaluate<const N: usize>(function: &Coefficients, omega: f64) -> [f64; 2] {
    let tf = function.transfer_fn::<N>();
    let value = sensitivity::call_eval_tf_complex(&tf, omega);
    for (re, im) in [
        bode::call_eval_tf_at_freq(&tf, omega),
        nyquist::call_eval_tf_at_freq(&tf, omega),
    ] {
        assert_eq!(expected_bits(re), expected_bits(value.re));
        assert_eq!(expected_bits(im), expected_bits(value.im));
    }
    [value.re, value.im]
}

/// What the four methods of `LoopShaping` answer.
fn respond<const NP: usize, const NC: usize>(
    plant: &Coefficients,
    controller: &Coefficients,
    omega: f64,
) -> [[f64; 2]; 4] {
    let shaping = LoopShaping::new(plant.transfer_fn::<NP>(), controller.transfer_fn::<NC>());
    [
        shaping.loop_gain_at(omega),
        shaping.sensitivity_at(omega),
        shaping.comp_sensitivity_at(omega),
        shaping.control_sensitivity_at(omega),
    ]
    .map(|value| [value.re, value.im])
}

/// A case with as many pairs as it needs, or more.
fn ample(random: &mut Random, plant: Coefficients, controller: Coefficients, omega: f64) -> Case {
    let needed = needed(&plant, &controller);
    let spare = random.below((MAX_PAIRS - needed + 1) as u64) as usize;
    Case {
        plant,
        controller,
        omega,
        lengths: [needed + spare; 2],
    }
}

/// Every pair of orders with every kind of coefficients.
fn orders(random: &mut Random) -> Vec<Case> {
    const KINDS: [Kind; 6] = [stable, stable, moderate, mixed, special, uniform_bits];
    let mut cases = Vec::new();
    for plant in 0..=MAX_ORDER {
        for controller in 0..=MAX_ORDER {
            for kind in KINDS {
                let plant = Coefficients::random(random, plant, kind);
                let controller = Coefficients::random(random, controller, kind);
                let omega = random.between(0.0, PI);
                cases.push(ample(random, plant, controller, omega));
            }
        }
    }
    cases
}

/// Frequencies at the ends of their range and past them.
fn frequencies(random: &mut Random) -> Vec<Case> {
    let list = [
        0.0,
        FRAC_PI_2,
        PI,
        2.0 * PI,
        1.0,
        f64::from_bits(1),
        1e-300,
        power_of_two(-27),
        1e22,
        1e300,
        f64::MAX,
        f64::INFINITY,
        random.nan(),
    ];
    let mut cases = Vec::new();
    for omega in list.into_iter().flat_map(|omega| [omega, -omega]) {
        for orders in [[1, 1], [2, 0], [3, 5], [8, 8]] {
            let [plant, controller] =
                orders.map(|order| Coefficients::random(random, order, stable));
            cases.push(ample(random, plant, controller, omega));
        }
    }
    cases
}

/// Divisors that are 0, or whose squared magnitude is `EPS` or next to it; infinite gains.
fn edges(random: &mut Random) -> Vec<Case> {
    let mut cases = Vec::new();
    let mut add = |plant: &[[f64; 2]], controller: &[[f64; 2]], omega: f64| {
        let plant = Coefficients::new(random, plant);
        let controller = Coefficients::new(random, controller);
        cases.push(ample(random, plant, controller, omega));
    };

    // Document 01's worked case.
    add(&[[1.0, -0.5]], &[[0.5, 0.0]], 0.0);
    // First order at frequency 0: the denominator is 1 + a, and where a is 0 the value is b.
    for distance in [0.0, ROOT_EPS, 2.0 * ROOT_EPS, 1.0, 2.0] {
        for step in [-EPS, -EPS / 2.0, 0.0, EPS / 2.0, EPS] {
            for edge in [-1.0 + (distance + step), -1.0 - (distance + step)] {
                add(&[[1.0, 0.0]], &[[edge, 0.0]], 0.0);
                add(&[[1.0, edge]], &[[1.0, 0.0]], 0.0);
                add(&[[1.0, 0.0]], &[[1.0, edge]], -0.0);
            }
        }
    }
    add(&[[1.0, -1.0]], &[[1.0, -1.0]], 0.0);
    for square in with_neighbours(EPS) {
        for k in 1..=4 {
            let re = ROOT_EPS - f64::from(k) * power_of_two(-40);
            let im = beside(re, square);
            // At so low a frequency the cosine is 1: the denominator is (re, im).
            let omega = im / (1.0 - re);
            add(&[[1.0, re - 1.0]], &[[0.5, 0.0]], omega);
            add(&[[0.5, 0.0]], &[[1.0, re - 1.0]], omega);
            // At a quarter turn b[1] is the imaginary part: 1 + L is (re, im).
            add(&[[1.0, 0.0]], &[[re - 1.0, 0.0], [-im, 0.0]], FRAC_PI_2);
            add(&[[re - 1.0, 0.0], [-im, 0.0]], &[[1.0, 0.0]], FRAC_PI_2);
        }
    }
    for gain in [
        -1.0,
        1.0,
        f64::MAX,
        f64::INFINITY,
        f64::NEG_INFINITY,
        f64::NAN,
    ] {
        add(&[], &[[gain, 0.0]], 0.0);
        add(&[[gain, 0.0]], &[], 0.0);
        add(&[[gain, 0.0]], &[[gain, 0.5]], 1.0);
    }
    cases
}

/// Zeros of either sign. Found by a search of our own: where one of the zeros that the sums, 1 + L,
/// S and a missing quotient are made of has the other sign, an answer to each of the five questions
/// that can show it does.
fn zeros(random: &mut Random) -> Vec<Case> {
    // b[0] and a[0] of plant and controller; none is order 0.
    #[rustfmt::skip]
    let list: [(&[[f64; 2]], &[[f64; 2]], f64); 19] = [
        (&[[-0.0, 0.5]], &[[-0.0, 0.5]], 1.0),
        (&[[-0.0, 0.5]], &[[1.0, 0.0]], FRAC_PI_2),
        (&[[-0.0, -2.0]], &[[0.0, -2.0]], -0.0),
        (&[[-0.0, -2.0]], &[[-0.0, -2.0]], -1.0),
        (&[[-0.0, -0.5]], &[[-0.0, -2.0]], -1.0),
        (&[[1.0, -1.0]], &[[1.0, -2.0]], -0.0),
        (&[[1.0, 0.0]], &[[1.0, -2.0]], 0.0),
        (&[[-1.0, 0.0]], &[[1.0, -1.0]], 0.0),
        (&[[1.0, 0.5]], &[[1.0, -2.0]], 0.0),
        (&[[1.0, -0.5]], &[[1.0, -2.0]], 0.0),
        (&[[1.0, 0.0]], &[[-1.0, -0.5]], 0.0),
        (&[[0.0, -2.0]], &[[1.0, -1.0]], -0.0),
        (&[[1.0, 0.5]], &[[1.0, -2.0]], -0.0),
        (&[[1.0, -0.5]], &[[1.0, -2.0]], -0.0),
        (&[[-1.0, 0.0]], &[[0.0, -2.0]], -0.0),
        (&[[1.0, 0.0]], &[[-1.0, 0.0]], 0.0),
        (&[], &[[0.0, -2.0]], -1.0),
        (&[], &[[-1.0, 0.5]], 1.0),
        (&[], &[[1.0, -1.0]], 0.0),
    ];
    let mut cases = Vec::new();
    for (first, second, omega) in list {
        for (plant, controller) in [(first, second), (second, first)] {
            let plant = Coefficients::new(random, plant);
            let controller = Coefficients::new(random, controller);
            cases.push(ample(random, plant, controller, omega));
        }
    }
    cases
}

/// Every refusal at its limit and one past it, alone and with the others.
fn refusals(random: &mut Random) -> Vec<Case> {
    let mut cases = Vec::new();
    let mut add = |plant: u64, controller: u64, lengths: [usize; 2]| {
        cases.push(Case {
            plant: Coefficients::random(random, plant, stable),
            controller: Coefficients::random(random, controller, stable),
            omega: random.between(0.0, PI),
            lengths,
        })
    };

    // One pair too few; the plant alone may have enough.
    for plant in 0..=MAX_ORDER {
        for controller in 0..=MAX_ORDER {
            add(plant, controller, [plant.max(controller) as usize; 2]);
        }
    }
    // The powers of two have low bits of 0, and the last order has no successor.
    const ORDERS: [u64; 7] = [0, 1, 8, 9, 1 << 8, 1 << 32, u64::MAX];
    for plant in ORDERS {
        for controller in ORDERS {
            let largest = plant.max(controller).min(MAX_ORDER) as usize;
            for length in [0, largest, largest + 1, MAX_PAIRS - 1] {
                add(plant, controller, [length, length]);
                add(plant, controller, [length, length + 1]);
                add(plant, controller, [length + 1, length]);
            }
        }
    }
    cases
}
