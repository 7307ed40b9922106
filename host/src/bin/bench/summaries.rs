//! Feeds against the scans that their answers need, and joins.

use crate::scans::{bits, of_option, Sweeps};
use crate::timing::{Row, Table};
use bazintroa::{
    bandwidth, distance_to_critical, gain_crossover_frequency, phase_crossover_frequency,
    sensitivity_crossover, Bandwidth, BodeSummary, CurveSummary, SensitivitySummary,
};
use std::hint::black_box;

const N: usize = 4096;
/// The largest ratio that is aimed at.
const TARGET: f64 = 1.2;

fn bandwidth_of(summary: &SensitivitySummary) -> Option<f64> {
    match summary.bandwidth() {
        Bandwidth::Found(value) => Some(value),
        Bandwidth::Absent | Bandwidth::NotKept => None,
    }
}

pub fn feeds() -> Table<'static> {
    let sweeps = Sweeps::new::<N>();
    let mut rows = Vec::new();
    for (case, lists) in sweeps.bode() {
        rows.push(Row::new(
            "bode_feed",
            case,
            N,
            move || {
                let [omega, db, phase] = *black_box(&lists);
                let mut summary = BodeSummary::new();
                summary.feed(omega, db, phase).expect("it is not refused");
                of_option(summary.gain_crossover()) ^ of_option(summary.phase_crossover()) << 1
            },
            move || {
                let [omega, db, phase] = *black_box(&lists);
                let gain = gain_crossover_frequency(omega, db, phase);
                bits(gain) ^ bits(phase_crossover_frequency(omega, db, phase)) << 1
            },
        ));
    }
    let lists = [sweeps.omega, sweeps.above, sweeps.level];
    rows.push(Row::new(
        "sensitivity_feed",
        "none",
        N,
        move || {
            let [omega, s, t] = *black_box(&lists);
            let mut summary = SensitivitySummary::new();
            summary.feed(omega, s, t).expect("it is not refused");
            of_option(summary.crossover()) ^ of_option(bandwidth_of(&summary)) << 1
        },
        move || {
            let [omega, s, t] = *black_box(&lists);
            bits(sensitivity_crossover(omega, s, t)) ^ bits(bandwidth(omega, s, t)) << 1
        },
    ));
    rows.push(Row::new(
        "curve_feed",
        "a circle, closest at the end",
        N,
        move || {
            let [re, im] = *black_box(&sweeps.circle);
            let mut summary = CurveSummary::new();
            summary.feed(re, im).expect("it is not refused");
            summary.closest_approach().to_bits()
        },
        move || {
            let [re, im] = *black_box(&sweeps.circle);
            bits(distance_to_critical(re, im).map(Some))
        },
    ));
    Table {
        title:
            "Feeding 4,096 readings and asking, against the port's own scans for the same answers",
        of: "a reading",
        other: Some(("scans", TARGET)),
        rows,
    }
}

pub fn joins() -> Table<'static> {
    let [mut bode, mut other_bode] = [BodeSummary::new(); 2];
    let [mut sensitivity, mut other_sensitivity] = [SensitivitySummary::new(); 2];
    let [mut curve, mut other_curve] = [CurveSummary::new(); 2];
    let fed = "it is not refused";
    // The crossings lie between the two.
    bode.feed(&[1.0], &[1.0], &[-170.0]).expect(fed);
    other_bode.feed(&[2.0], &[-1.0], &[-190.0]).expect(fed);
    sensitivity.feed(&[1.0], &[1.0], &[2.0]).expect(fed);
    other_sensitivity.feed(&[2.0], &[2.0], &[1.0]).expect(fed);
    curve.feed(&[1.0], &[1.0]).expect(fed);
    other_curve.feed(&[-1.0], &[1.0]).expect(fed);
    Table {
        title: "Joins",
        of: "a call",
        other: None,
        rows: vec![
            Row::alone("bode_join", "two that cross between them", 1, move || {
                let mut joined = black_box(bode);
                joined.join(black_box(&other_bode));
                black_box(joined);
                0
            }),
            Row::alone(
                "sensitivity_join",
                "two that cross between them",
                1,
                move || {
                    let mut joined = black_box(sensitivity);
                    joined.join(black_box(&other_sensitivity));
                    black_box(joined);
                    0
                },
            ),
            Row::alone("curve_join", "the second is closer", 1, move || {
                let mut joined = black_box(curve);
                joined.join(black_box(&other_curve));
                black_box(joined);
                0
            }),
        ],
    }
}
