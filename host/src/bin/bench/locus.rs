//! Loci of each degree, and the test of stability.

use crate::timing::{fold, Row, Table, TARGET};
use bazintroa::{locus_point, stability_region, Complex, TransferFn};
use oxictl::core::frequency_domain as rust;
use std::hint::black_box;
use vectors::coefficients::Coefficients;
use vectors::random::Random;

const K_MAX: f64 = 4.0;
const FUNCTIONS: usize = 4;

pub fn table() -> Table<'static> {
    Table {
        title: "Root loci, gains up to 4, coefficients between -1 and 1",
        of: "a point",
        other: Some(("Rust", TARGET)),
        rows: vec![
            locus::<1, 64>(FUNCTIONS),
            locus::<2, 64>(FUNCTIONS),
            locus::<4, 16>(FUNCTIONS),
            locus::<5, 16>(FUNCTIONS),
            locus::<6, 16>(FUNCTIONS),
            locus::<7, 16>(FUNCTIONS),
            locus::<8, 16>(FUNCTIONS),
            locus::<8, 4096>(1),
        ],
    }
}

/// Loci of a degree, of so many functions. Gain, count and poles of both sides are compared to the bit.
fn locus<const DEGREE: usize, const N: usize>(count: usize) -> Row<'static> {
    let random = &mut Random::new(DEGREE as u64);
    let functions: Vec<_> = (0..count)
        .map(|_| {
            Coefficients::random(random, DEGREE as u64, |random| {
                [(); 2].map(|_| random.between(-1.0, 1.0))
            })
        })
        .collect();
    let ours: Vec<_> = functions
        .iter()
        .map(|function| TransferFn {
            b: function.b,
            a: function.a,
            order: DEGREE,
        })
        .collect();
    let theirs: Vec<_> = functions
        .iter()
        .map(Coefficients::transfer_fn::<DEGREE>)
        .collect();
    Row::new(
        "locus_point",
        match count {
            1 => format!("degree {DEGREE}, a locus of {N} points"),
            _ => format!("degree {DEGREE}, {count} loci of {N} points"),
        },
        count * N,
        move || {
            let mut all = 0;
            for tf in &ours {
                for i in 0..N {
                    let point = locus_point(black_box(tf), K_MAX, N, i);
                    let point = point.expect("it is not refused");
                    all = fold(fold(all, point.gain), point.count as f64);
                    for pole in &point.poles[..point.count] {
                        all = fold(fold(all, pole.re), pole.im);
                    }
                }
            }
            all
        },
        move || {
            let mut all = 0;
            for tf in &theirs {
                let locus = rust::compute_root_locus::<f64, DEGREE, N>(black_box(tf), K_MAX);
                for point in locus.expect("it is not refused").points.iter() {
                    all = fold(fold(all, point.gain), point.poles.len() as f64);
                    for pole in point.poles.iter() {
                        all = fold(fold(all, pole.re), pole.im);
                    }
                }
            }
            all
        },
    )
}

/// Eight poles inside the circle.
pub fn stability() -> Table<'static> {
    let tf = Coefficients {
        order: 8,
        b: [0.0; 8],
        a: [0.0, 0.0, 0.0, 0.0, 0.0, 0.0, 0.0, 0.5],
    };
    let locus = rust::compute_root_locus::<f64, 8, 2>(&tf.transfer_fn(), 1.0);
    let theirs = locus.expect("it is not refused").points[0].poles.clone();
    let mut ours = [Complex::new(0.0, 0.0); 8];
    for (place, pole) in ours.iter_mut().zip(theirs.iter()) {
        *place = Complex::new(pole.re, pole.im);
    }
    let count = theirs.len();
    Table {
        title: "The test of stability",
        of: "a call",
        other: Some(("Rust", TARGET)),
        rows: vec![Row::new(
            "stability_region",
            "8 poles inside the circle",
            1,
            move || u64::from(stability_region(black_box(&ours), black_box(count))),
            move || u64::from(rust::stability_region(black_box(&theirs))),
        )],
    }
}
