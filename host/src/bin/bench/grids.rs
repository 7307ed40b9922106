//! The two fillers. The Rust has no function that only fills a grid: the other side is its expression,
//! in a loop of ours.

use crate::timing::{folded, Row, Table, TARGET};
use bazintroa::Refusal;
use oxictl::core::scalar::ControlScalar;
use std::f64::consts::PI;
use std::hint::black_box;

pub fn table() -> Table<'static> {
    let mut rows = Vec::new();
    for n in [4096, 8] {
        rows.push(row(
            "fill_gain_grid",
            8.0,
            n,
            bazintroa::fill_gain_grid,
            gain_grid,
        ));
        rows.push(row(
            "fill_frequency_grid",
            PI,
            n,
            bazintroa::fill_frequency_grid,
            frequency_grid,
        ));
    }
    Table {
        title: "Grids",
        of: "a point",
        other: Some(("the Rust's expression", TARGET)),
        rows,
    }
}

fn row(
    function: &'static str,
    top: f64,
    n: usize,
    port: fn(f64, usize, &mut [f64]) -> Result<(), Refusal>,
    rust: fn(f64, usize, &mut [f64]),
) -> Row<'static> {
    let [mut port_list, mut rust_list] = [vec![0.0; n], vec![0.0; n]];
    let some = move |list: &[f64]| folded([list[1], list[n - 2], list[n - 1]]);
    Row::new(
        function,
        format!("{n} points"),
        n,
        move || {
            port(black_box(top), black_box(n), &mut port_list).expect("there is room");
            some(black_box(&port_list))
        },
        move || {
            rust(black_box(top), black_box(n), &mut rust_list);
            some(black_box(&rust_list))
        },
    )
}

/// The gains of `compute_root_locus`.
fn gain_grid<S: ControlScalar>(k_max: S, n: usize, list: &mut [S]) {
    let n_minus_one = S::from_f64((n - 1) as f64);
    for (i, place) in list[..n].iter_mut().enumerate() {
        *place = k_max * S::from_f64(i as f64) / n_minus_one;
    }
}

/// The frequencies of `compute_nyquist`.
fn frequency_grid<S: ControlScalar>(omega_max: S, n: usize, list: &mut [S]) {
    let n_minus_one = S::from_f64((n - 1) as f64);
    for (i, place) in list[..n].iter_mut().enumerate() {
        let t = S::from_f64(i as f64) / n_minus_one;
        *place = t * omega_max;
    }
}
