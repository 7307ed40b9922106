//! The starting points of the root search, by the expressions of `companion_matrix_roots`.

use crate::numbers::VALUE;
use crate::rows::Rows;
use num_traits::Float;
use oxictl::core::scalar::ControlScalar;

/// The cosine and sine at which root i of a degree starts.
fn point(degree: usize, i: usize) -> [f64; 2] {
    let angle =
        <f64 as ControlScalar>::from_f64(2.0 * core::f64::consts::PI * i as f64 / degree as f64);
    [Float::cos(angle), Float::sin(angle)]
}

/// A line for each starting point of the degrees 4 to 8: the bits of its cosine and of its sine.
pub fn lines() -> String {
    let mut lines = String::new();
    for degree in 4..=8 {
        for i in 0..degree {
            let [cos, sin] = point(degree, i).map(f64::to_bits);
            lines += &format!("{cos:016x} {sin:016x}\n");
        }
    }
    lines
}

/// A row for each of them.
pub fn rows(rows: &mut Rows) {
    rows.table(
        "starts",
        "the starting points of the root search, all of them",
    );
    for degree in 4..=8 {
        for i in 0..degree {
            rows.row(&format!("start_at {degree} {i}"), VALUE, &point(degree, i));
        }
    }
}
