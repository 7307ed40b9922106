//! Crossovers, margins, bandwidth and distance.

use crate::tally::{bits, same_number, Comparison, Place};
use bazintroa::{exported, Reading, Refusal};
use std::fmt::Write;
use vectors::numbers::VALUE;
use vectors::random::Random;
use vectors::scans::{
    number, refusal, scan, Answer, Kind, Style, FREQUENCIES, HALF_TURN, LEVELS, PARTS, ROOM, SHORT,
};

/// As many lists as the kind of a scan has.
type Lists = Vec<Vec<f64>>;

/// A scan of the port.
struct Scan {
    name: &'static str,
    exported: fn(&Lists, &mut f64) -> u32,
    safe: fn(&Lists) -> Result<Option<f64>, Refusal>,
}

macro_rules! scan_of_three {
    ($name:ident) => {
        Scan {
            name: stringify!($name),
            exported: |lists, out| exported::$name(&lists[0], &lists[1], &lists[2], out),
            safe: |lists| bazintroa::$name(&lists[0], &lists[1], &lists[2]),
        }
    };
}

/// In the order in which the Rust is asked.
const BODE: [Scan; 5] = [
    scan_of_three!(gain_crossover_frequency),
    scan_of_three!(phase_crossover_frequency),
    scan_of_three!(gain_margin),
    scan_of_three!(phase_margin),
    Scan {
        name: "gain_crossover_readings",
        exported: |lists, out| exported::gain_crossover_readings(&readings(lists), out),
        safe: |lists| bazintroa::gain_crossover_readings(&readings(lists)),
    },
];

/// In the order in which the Rust is asked.
const SENSITIVITY: [Scan; 2] = [
    scan_of_three!(sensitivity_crossover),
    scan_of_three!(bandwidth),
];

const CURVE: [Scan; 1] = [Scan {
    name: "distance_to_critical",
    exported: |lists, out| exported::distance_to_critical(&lists[0], &lists[1], out),
    safe: |lists| bazintroa::distance_to_critical(&lists[0], &lists[1]).map(Some),
}];

fn readings(lists: &Lists) -> Vec<Reading> {
    let reading = |i: usize| Reading {
        omega: lists[0][i],
        db: lists[1][i],
        phase: lists[2][i],
    };
    (0..lists[0].len()).map(reading).collect()
}

pub fn compare(comparison: &mut Comparison, random: &mut Random) {
    match random.below(6) {
        0..=2 => {
            let lists = bode(random);
            let of_one_length = lists.iter().all(|list| list.len() == lists[0].len());
            // Lists of different lengths are no list of readings.
            let scans = if of_one_length { &BODE[..] } else { &BODE[..4] };
            check(comparison, scans, Kind::Bode, &lists);
        }
        3 | 4 => {
            let lists = sensitivity(random);
            check(comparison, &SENSITIVITY, Kind::Sensitivity, &lists);
        }
        _ => {
            let lists = curve(random);
            check(comparison, &CURVE, Kind::Curve, &lists);
        }
    }
}

fn check(comparison: &mut Comparison, scans: &[Scan], kind: Kind, lists: &Lists) {
    let expected: Vec<Answer> = match refusal(lists) {
        Some(number) => vec![Err(number); scans.len()],
        None => scan(kind, lists).into_iter().map(Ok).collect(),
    };
    for (scan, expected) in scans.iter().zip(expected) {
        let mut place = Place::new();
        let said = u64::from((scan.exported)(lists, &mut place.lent[0]));
        let safe = (scan.safe)(lists).map_err(|refusal| u64::from(refusal.number()));
        let same = said == number(expected)
            && place.holds(expected.ok().flatten().map(|value| [value]))
            && same_answer(safe, expected);
        comparison.note(scan.name, said, same, || {
            format!(
                "{}  exported: {said}, place:{}\n  safe: {}\n  expected: {}",
                described(lists),
                place.bits(),
                shown(safe),
                shown(expected)
            )
        });
    }
}

/// The lists of a call, a line for each.
pub fn described(lists: &[Vec<f64>]) -> String {
    let mut text = String::new();
    for (i, list) in lists.iter().enumerate() {
        let _ = writeln!(text, "  list {i}, {} numbers:{}", list.len(), bits(list));
    }
    text
}

pub fn same_answer(a: Answer, b: Answer) -> bool {
    match (a, b) {
        (Ok(Some(a)), Ok(Some(b))) => same_number(a, b),
        (a, b) => a == b,
    }
}

pub fn shown(answer: Answer) -> String {
    match answer {
        Ok(Some(value)) => format!("{VALUE},{}", bits(&[value])),
        _ => number(answer).to_string(),
    }
}

/// Mostly up to `SHORT`, now and then up to what is allowed and past it.
fn length(random: &mut Random) -> usize {
    match random.below(1000) {
        0 => ROOM,
        1 => ROOM - 1,
        2 => ROOM + 1,
        3 => ROOM + 2 + random.below(1000) as usize,
        4..=7 => random.below(ROOM as u64 + 1) as usize,
        _ => random.below(SHORT as u64 + 1) as usize,
    }
}

/// Of one length, but for some that differ.
fn lengths(random: &mut Random) -> [usize; 3] {
    let n = length(random);
    let mut lengths = [n; 3];
    if random.below(24) == 0 {
        let other = length(random);
        let others = [0, n.saturating_sub(1), n + 1, other];
        lengths[random.below(3) as usize] = random.pick(&others);
    }
    lengths
}

/// Evenly spaced, rising or falling.
fn evenly(random: &mut Random, length: usize, _: f64) -> Vec<f64> {
    let start = random.between(-1.0, 3.0);
    let step = random.with_exponent(-12, 2);
    (0..length).map(|i| start + step * i as f64).collect()
}

/// A curve that sinks or rises, and swings a little.
fn smooth(random: &mut Random, length: usize, centre: f64) -> Vec<f64> {
    let readings = length as f64;
    let start = random.between(-40.0, 40.0);
    let slope = -start * random.between(-0.5, 2.0) / readings;
    let swing = random.between(0.0, 6.0);
    let pace = random.between(0.0, 20.0) / readings;
    (0..length as u64)
        .map(|i| i as f64)
        .map(|i| centre + start + slope * i + swing * (pace * i).sin())
        .collect()
}

/// On any side of the centre in every reading, often at it.
fn signs(random: &mut Random, length: usize, centre: f64) -> Vec<f64> {
    let values = [centre, -0.0, centre - 0.5, centre + 0.5, centre - 4.0];
    (0..length).map(|_| random.pick(&values)).collect()
}

fn frequencies(random: &mut Random, length: usize) -> Vec<f64> {
    let style: Style = match random.below(3) {
        0 => evenly,
        _ => random.pick(&FREQUENCIES),
    };
    style(random, length, 5.0)
}

fn levels(random: &mut Random, length: usize, centre: f64) -> Vec<f64> {
    let style: Style = match random.below(8) {
        0 | 1 => smooth,
        2 => signs,
        3 => random.pick(&PARTS),
        _ => random.pick(&LEVELS),
    };
    style(random, length, centre)
}

pub fn bode(random: &mut Random) -> Lists {
    let [a, b, c] = lengths(random);
    vec![
        frequencies(random, a),
        levels(random, b, 0.0),
        levels(random, c, HALF_TURN),
    ]
}

fn sensitivity(random: &mut Random) -> Lists {
    let [a, b, c] = lengths(random);
    let omega = frequencies(random, a);
    let mut s = levels(random, b, 0.0);
    let t = levels(random, c, 0.0);
    if random.below(3) == 0 {
        // Then S - T is what was drawn, but for rounding.
        s.iter_mut().zip(&t).for_each(|(s, t)| *s += t);
    }
    vec![omega, s, t]
}

fn curve(random: &mut Random) -> Lists {
    let [a, b, _] = lengths(random);
    vec![levels(random, a, -1.0), levels(random, b, 0.0)]
}
