//! Evaluation and the four responses of a loop.

use crate::timing::{folded, Row, Table};
use bazintroa::{pairs, Complex, LoopShaping, Refusal, TransferFn};
use oxictl::core::frequency_domain as rust;
use oxictl_inner::core::frequency_domain::sensitivity::call_eval_tf_complex;
use std::f64::consts::PI;
use std::hint::black_box;
use vectors::coefficients::{stable, Coefficients};
use vectors::random::Random;

const FREQUENCIES: usize = 64;
/// The largest ratio that is aimed at.
const TARGET: f64 = 1.1;

/// The cosines and sines of a frequency.
type Pairs = [[f64; 9]; 2];

fn fill([cosines, sines]: &mut Pairs, omega: f64, length: usize) {
    pairs(omega, &mut cosines[..length], &mut sines[..length]);
}

pub fn tables() -> [Table<'static>; 2] {
    let mut given = Vec::new();
    let mut whole = Vec::new();
    rows::<2>(&mut given, &mut whole);
    rows::<8>(&mut given, &mut whole);
    [
        Table {
            title: "Evaluation and responses, cosines and sines given to both",
            of: "a call",
            other: Some(("the Rust's expressions", TARGET)),
            rows: given,
        },
        Table {
            title: "Evaluation and responses, cosines and sines filled by the host",
            of: "a call",
            other: Some(("Rust", TARGET)),
            rows: whole,
        },
    ]
}

/// A response of the port.
type Port = fn(&LoopShaping, &[f64], &[f64]) -> Result<Complex, Refusal>;

/// A response by its name, with the port's method, the Rust's over given pairs, and the Rust's own.
struct Response<const N: usize> {
    name: &'static str,
    port: Port,
    given: fn(&Loop<N>, &Pairs) -> rust::Complex<f64>,
    rust: fn(&Loop<N>, f64) -> rust::Complex<f64>,
}

/// A loop as the Rust holds it.
struct Loop<const N: usize> {
    plant: oxictl::core::transfer_fn::TransferFn<f64, N>,
    controller: oxictl::core::transfer_fn::TransferFn<f64, N>,
    shaping: rust::LoopShaping<f64, N, N>,
}

impl<const N: usize> Loop<N> {
    fn one_plus(&self, pairs: &Pairs) -> rust::Complex<f64> {
        let l = self.loop_gain(pairs);
        rust::Complex::new(1.0 + l.re, l.im)
    }

    fn loop_gain(&self, pairs: &Pairs) -> rust::Complex<f64> {
        evaluated(&self.plant, pairs).multiply(&evaluated(&self.controller, pairs))
    }
}

/// The sums of `eval_tf_complex` over given pairs.
fn evaluated<const N: usize>(
    tf: &oxictl::core::transfer_fn::TransferFn<f64, N>,
    [cosines, sines]: &Pairs,
) -> rust::Complex<f64> {
    let [mut num, mut den] = [rust::Complex::from_real(0.0), rust::Complex::from_real(1.0)];
    for (k, &b_k) in tf.b().iter().enumerate() {
        num.re += b_k * cosines[k];
        num.im += b_k * sines[k];
    }
    for (k, &a_k) in tf.a().iter().enumerate() {
        den.re += a_k * cosines[k + 1];
        den.im += a_k * sines[k + 1];
    }
    quotient(num, den)
}

fn quotient(num: rust::Complex<f64>, den: rust::Complex<f64>) -> rust::Complex<f64> {
    num.divide(&den).unwrap_or(rust::Complex::from_real(0.0))
}

fn responses<const N: usize>() -> [Response<N>; 5] {
    [
        Response {
            name: "eval_tf_complex",
            port: |shaping, cosines, sines| shaping.plant.eval(cosines, sines),
            given: |rust, pairs| evaluated(&rust.plant, pairs),
            rust: |rust, omega| {
                let value = call_eval_tf_complex(&rust.plant, omega);
                rust::Complex::new(value.re, value.im)
            },
        },
        Response {
            name: "loop_gain_at",
            port: LoopShaping::loop_gain_at,
            given: Loop::loop_gain,
            rust: |rust, omega| rust.shaping.loop_gain_at(omega),
        },
        Response {
            name: "sensitivity_at",
            port: LoopShaping::sensitivity_at,
            given: |rust, pairs| quotient(rust::Complex::from_real(1.0), rust.one_plus(pairs)),
            rust: |rust, omega| rust.shaping.sensitivity_at(omega),
        },
        Response {
            name: "comp_sensitivity_at",
            port: LoopShaping::comp_sensitivity_at,
            given: |rust, pairs| quotient(rust.loop_gain(pairs), rust.one_plus(pairs)),
            rust: |rust, omega| rust.shaping.comp_sensitivity_at(omega),
        },
        Response {
            name: "control_sensitivity_at",
            port: LoopShaping::control_sensitivity_at,
            given: |rust, pairs| quotient(evaluated(&rust.controller, pairs), rust.one_plus(pairs)),
            rust: |rust, omega| rust.shaping.control_sensitivity_at(omega),
        },
    ]
}

fn rows<const N: usize>(given: &mut Vec<Row>, whole: &mut Vec<Row>) {
    let random = &mut Random::new(N as u64);
    let functions = [(); 2].map(|_| Coefficients::random(random, N as u64, stable));
    let [plant, controller] = [0, 1].map(|i| TransferFn {
        b: functions[i].b,
        a: functions[i].a,
        order: N,
    });
    let shaping: &LoopShaping = Box::leak(Box::new(LoopShaping { plant, controller }));
    let [plant, controller] = [0, 1].map(|i| functions[i].transfer_fn::<N>());
    let rust: &Loop<N> = Box::leak(Box::new(Loop {
        shaping: rust::LoopShaping::new(plant, controller),
        plant,
        controller,
    }));
    let omegas: Vec<f64> = (0..FREQUENCIES).map(|_| random.between(0.0, PI)).collect();
    let omegas: &[f64] = omegas.leak();
    let mut lists = vec![[[0.0; 9]; 2]; FREQUENCIES];
    for (pairs, &omega) in lists.iter_mut().zip(omegas) {
        fill(pairs, omega, N + 1);
    }
    let lists: &[Pairs] = lists.leak();

    for response in responses::<N>() {
        let ask = move |[cosines, sines]: &Pairs| {
            let value = (response.port)(black_box(shaping), &cosines[..=N], &sines[..=N]);
            let value = value.expect("it is not refused");
            [value.re, value.im]
        };
        let case = if response.name == "eval_tf_complex" {
            format!("order {N}")
        } else {
            format!("orders {N} and {N}")
        };
        given.push(Row::new(
            response.name,
            case.clone(),
            FREQUENCIES,
            move || folded(lists.iter().flat_map(ask)),
            move || {
                let given = |pairs| {
                    let value = (response.given)(black_box(rust), pairs);
                    [value.re, value.im]
                };
                folded(lists.iter().flat_map(given))
            },
        ));
        whole.push(Row::new(
            response.name,
            case,
            FREQUENCIES,
            move || {
                let mut pairs = [[0.0; 9]; 2];
                let asked = |&omega: &f64| {
                    fill(&mut pairs, omega, N + 1);
                    ask(&pairs)
                };
                folded(omegas.iter().flat_map(asked))
            },
            move || {
                let asked = |&omega: &f64| {
                    let value = (response.rust)(black_box(rust), omega);
                    [value.re, value.im]
                };
                folded(omegas.iter().flat_map(asked))
            },
        ));
    }
}
