//! Scans, with what is looked for at the end of the list or nowhere, so that all of it is read.

use crate::timing::{Row, Table, TARGET};
use bazintroa::{Reading, Refusal};
use oxictl::core::frequency_domain as rust;
use std::hint::black_box;
use vectors::scans::{bode_data, nyquist_data, sensitivity_data};

/// A list of `N` numbers, by how far its place is on the way from 0 to 1; but for the last two.
fn list<const N: usize>(number: impl Fn(f64) -> f64, last: [f64; 2]) -> &'static [f64] {
    let mut list: Vec<f64> = (0..N).map(|i| number(i as f64 / N as f64)).collect();
    list[N - 2..].copy_from_slice(&last);
    list.leak()
}

/// Lists to be scanned.
pub struct Sweeps {
    pub omega: &'static [f64],
    pub zero: &'static [f64],
    nan: &'static [f64],
    /// Levels above 0 and below it, that cross it at the end or do not.
    sinking: &'static [f64],
    rising: &'static [f64],
    pub above: &'static [f64],
    below: &'static [f64],
    /// T that stays within 3 dB, or drops at the end.
    dropping: &'static [f64],
    pub level: &'static [f64],
    /// A circle, and a line towards (-1, 0).
    pub circle: [&'static [f64]; 2],
    line: &'static [f64],
}

impl Sweeps {
    pub fn new<const N: usize>() -> Self {
        Self {
            omega: list::<N>(|x| 0.001 + 3.0 * x, [3.05, 3.1]),
            zero: list::<N>(|_| 0.0, [0.0; 2]),
            nan: list::<N>(|_| f64::NAN, [f64::NAN; 2]),
            sinking: list::<N>(|x| 60.0 - 59.0 * x, [0.9, -0.8]),
            rising: list::<N>(|x| -60.0 + 59.0 * x, [-0.9, 0.8]),
            above: list::<N>(|x| 60.0 - 59.0 * x, [0.9, 0.8]),
            below: list::<N>(|x| -60.0 + 59.0 * x, [-0.9, -0.8]),
            dropping: list::<N>(|x| -2.0 * x, [-2.0, -4.0]),
            level: list::<N>(|x| -2.0 * x, [-2.0; 2]),
            circle: [
                list::<N>(|x| 2.0 * (6.0 * x).cos(), [-1.1, -0.9]),
                list::<N>(|x| 2.0 * (6.0 * x).sin(), [0.1, 0.1]),
            ],
            line: list::<N>(|x| 1.0 - 1.9 * x, [-0.95, -0.99]),
        }
    }

    /// Sweeps of gain and phase, each by its name; the phase does about -180 what the gain does
    /// about 0.
    pub fn bode(&self) -> [(&'static str, [&'static [f64]; 3]); 5] {
        let sweep = |name, db: &'static [f64]| {
            let phase: Vec<f64> = db.iter().map(|level| level - 180.0).collect();
            (name, [self.omega, db, &*phase.leak()])
        };
        [
            sweep("from above, at the end", self.sinking),
            sweep("from below, at the end", self.rising),
            sweep("none, above", self.above),
            sweep("none, below", self.below),
            sweep("none, NaN", self.nan),
        ]
    }
}

/// The answer of a scan that is not refused, as bits.
pub fn bits(answer: Result<Option<f64>, Refusal>) -> u64 {
    of_option(answer.expect("it is not refused"))
}

pub fn of_option(answer: Option<f64>) -> u64 {
    answer.map_or(1, f64::to_bits)
}

/// The rows of a function of three lists, for each of the cases.
macro_rules! of_three {
    ($rows:ident, $function:ident, $data:ident, $cases:expr) => {
        for (case, lists) in $cases {
            let data = $data::<N>(lists);
            $rows.push(Row::new(
                stringify!($function),
                case,
                parts::<N>(),
                move || {
                    let [a, b, c] = *black_box(&lists);
                    bits(bazintroa::$function(a, b, c))
                },
                move || of_option(rust::$function(black_box(&data))),
            ));
        }
    };
}

/// The times of long lists are those of a reading.
fn parts<const N: usize>() -> usize {
    match N {
        8 => 1,
        _ => N,
    }
}

pub fn tables() -> [Table<'static>; 2] {
    [
        Table {
            title: "Scans of 4,096 readings, the Rust's in its own layout",
            of: "a reading",
            other: Some(("Rust", TARGET)),
            rows: rows::<4096>(),
        },
        Table {
            title: "Scans of 8 readings",
            of: "a call",
            other: Some(("Rust", TARGET)),
            rows: rows::<8>(),
        },
    ]
}

fn rows<const N: usize>() -> Vec<Row<'static>> {
    let sweeps = Sweeps::new::<N>();
    let bode = sweeps.bode();
    let equal = bode.map(|(name, [omega, db, _])| (name, [omega, db, sweeps.zero]));
    let drop = [
        (
            "at the end",
            [sweeps.omega, sweeps.sinking, sweeps.dropping],
        ),
        ("none", [sweeps.omega, sweeps.sinking, sweeps.level]),
    ];
    let curves = [
        ("a circle, closest at the end", sweeps.circle),
        ("each closer than the last", [sweeps.line, sweeps.zero]),
    ];

    let mut rows = Vec::new();
    of_three!(rows, gain_crossover_frequency, bode_data, bode);
    of_three!(rows, phase_crossover_frequency, bode_data, bode);
    of_three!(rows, gain_margin, bode_data, bode);
    of_three!(rows, phase_margin, bode_data, bode);
    for (case, lists) in bode {
        let [omega, db, phase] = lists;
        let readings: Vec<Reading> = (0..N)
            .map(|i| Reading {
                omega: omega[i],
                db: db[i],
                phase: phase[i],
            })
            .collect();
        let data = bode_data::<N>(lists);
        rows.push(Row::new(
            "gain_crossover_readings",
            case,
            parts::<N>(),
            move || bits(bazintroa::gain_crossover_readings(black_box(&readings))),
            move || of_option(rust::gain_crossover_frequency(black_box(&data))),
        ));
    }
    of_three!(rows, sensitivity_crossover, sensitivity_data, equal);
    of_three!(rows, bandwidth, sensitivity_data, drop);
    for (case, lists) in curves {
        let data = nyquist_data::<N>(lists);
        rows.push(Row::new(
            "distance_to_critical",
            case,
            parts::<N>(),
            move || {
                let [re, im] = *black_box(&lists);
                bits(bazintroa::distance_to_critical(re, im).map(Some))
            },
            move || rust::distance_to_critical(black_box(&data)).to_bits(),
        ));
    }
    rows
}
