//! Summaries of random bits, and of what was fed.

use crate::draw::{check, lists, number, place};
use bazintroa::exported::{
    bode_empty, bode_feed, bode_gain_crossover, bode_join, bode_phase_crossover,
    curve_closest_approach, curve_empty, curve_feed, curve_join, sensitivity_empty,
    sensitivity_feed, sensitivity_join, sensitivity_summary_bandwidth,
    sensitivity_summary_crossover, BodePlain, CurvePlain, SensitivityPlain, SensitivityReading,
};
use bazintroa::random::Random;
use bazintroa::Reading;
use std::hint::black_box;

/// Often 0 or 1, else any.
fn mark(random: &mut Random) -> u32 {
    match random.below(8) {
        0..=2 => 0,
        3..=5 => 1,
        _ => random.bits() as u32,
    }
}

fn reading(random: &mut Random) -> Reading {
    Reading {
        omega: number(random),
        db: number(random),
        phase: number(random),
    }
}

fn sensitivity_reading(random: &mut Random) -> SensitivityReading {
    let Reading { omega, db, phase } = reading(random);
    SensitivityReading {
        omega,
        s: db,
        t: phase,
    }
}

fn any_bode(random: &mut Random) -> BodePlain {
    BodePlain {
        read: mark(random),
        gain_found: mark(random),
        phase_found: mark(random),
        reserved: mark(random),
        first: reading(random),
        last: reading(random),
        gain: number(random),
        phase: number(random),
    }
}

pub fn bode(random: &mut Random) {
    let [omega, db, phase] = lists(random);
    let start = match random.below(4) {
        0 => bode_empty(),
        _ => any_bode(random),
    };
    let fed = bode_feed(start, &omega, &db, &phase).summary;
    let joined = bode_join(fed, any_bode(random));
    let mut out = place();
    check(bode_gain_crossover(joined, &mut out), &[*out]);
    let mut out = place();
    check(bode_phase_crossover(joined, &mut out), &[*out]);
}

fn any_sensitivity(random: &mut Random) -> SensitivityPlain {
    SensitivityPlain {
        read: mark(random),
        crossover_found: mark(random),
        bandwidth_state: mark(random),
        reserved: mark(random),
        first: sensitivity_reading(random),
        last: sensitivity_reading(random),
        crossover: number(random),
        bandwidth: number(random),
    }
}

pub fn sensitivity(random: &mut Random) {
    let [omega, s, t] = lists(random);
    let start = match random.below(4) {
        0 => sensitivity_empty(),
        _ => any_sensitivity(random),
    };
    let fed = sensitivity_feed(start, &omega, &s, &t).summary;
    let joined = sensitivity_join(fed, any_sensitivity(random));
    let mut out = place();
    check(sensitivity_summary_crossover(joined, &mut out), &[*out]);
    let mut out = place();
    check(sensitivity_summary_bandwidth(fed, &mut out), &[*out]);
}

fn any_curve(random: &mut Random) -> CurvePlain {
    CurvePlain {
        found: mark(random),
        reserved: mark(random),
        re: number(random),
        im: number(random),
    }
}

pub fn curve(random: &mut Random) {
    let [re, im] = lists(random);
    let start = match random.below(4) {
        0 => curve_empty(),
        _ => any_curve(random),
    };
    let fed = curve_feed(start, &re, &im).summary;
    let joined = curve_join(fed, any_curve(random));
    black_box(curve_closest_approach(joined));
}
