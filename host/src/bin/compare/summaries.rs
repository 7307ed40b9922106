//! Summaries of the three kinds of sweep, by lists of feeds and joins. What is expected of a summary is
//! what the Rust's scan answers of the list that its calls alone say it has.

use crate::scans::{described, same_answer, shown};
use crate::tally::{Comparison, Place};
use bazintroa::exported::{self, BodePlain, CurvePlain, SensitivityPlain, SensitivityReading};
use bazintroa::{Bandwidth, BodeSummary, CurveSummary, Reading, Refusal, SensitivitySummary};
use std::array;
use std::fmt::Write;
use vectors::numbers::{NOT_KEPT, VALUE};
use vectors::random::Random;
use vectors::scans::{number, refusal, Answer, Kind};
use vectors::summaries::{
    answers, bracketed, doubled, fed, long, met, mixed, single_readings, Book, Books, Call, Case,
    Lists, KINDS, REGISTERS,
};

/// A longer list is asked about only after all calls.
const OFTEN: usize = 200;

/// A summary of a kind, by the exported functions and by the safe ones.
trait Summary: Copy + 'static {
    const FEED: &'static str;
    const JOIN: &'static str;
    const ANSWERS: &'static [Question<Self>];

    fn empty() -> Self;
    /// Feeds both, and gives the number of each.
    fn feed(&mut self, lists: &Lists) -> [u64; 2];
    fn join(&mut self, other: &Self);
    /// What the exported one holds, as bits.
    fn held(&self) -> Vec<u64>;
}

/// The name of an answer, and what both sides say.
struct Question<S> {
    name: &'static str,
    exported: fn(&S, &mut f64) -> u32,
    safe: fn(&S) -> Answer,
}

/// The number of a feed.
fn number_of(fed: Result<(), Refusal>) -> u64 {
    fed.map_or_else(|refusal| u64::from(refusal.number()), |()| VALUE)
}

#[derive(Clone, Copy)]
struct Bode(BodePlain, BodeSummary);

impl Summary for Bode {
    const FEED: &'static str = "bode_feed";
    const JOIN: &'static str = "bode_join";
    const ANSWERS: &'static [Question<Self>] = &[
        Question {
            name: "bode_gain_crossover",
            exported: |both, out| exported::bode_gain_crossover(both.0, out),
            safe: |both| Ok(both.1.gain_crossover()),
        },
        Question {
            name: "bode_phase_crossover",
            exported: |both, out| exported::bode_phase_crossover(both.0, out),
            safe: |both| Ok(both.1.phase_crossover()),
        },
    ];

    fn empty() -> Self {
        Self(exported::bode_empty(), BodeSummary::new())
    }

    fn feed(&mut self, lists: &Lists) -> [u64; 2] {
        let [omega, db, phase] = array::from_fn(|i| &lists[i][..]);
        let fed = exported::bode_feed(self.0, omega, db, phase);
        self.0 = fed.summary;
        [
            u64::from(fed.number),
            number_of(self.1.feed(omega, db, phase)),
        ]
    }

    fn join(&mut self, other: &Self) {
        self.0 = exported::bode_join(self.0, other.0);
        self.1.join(&other.1);
    }

    fn held(&self) -> Vec<u64> {
        let BodePlain {
            read,
            gain_found,
            phase_found,
            reserved,
            first,
            last,
            gain,
            phase,
        } = self.0;
        let numbers = |reading: Reading| [reading.omega, reading.db, reading.phase];
        let marks = [read, gain_found, phase_found, reserved];
        held(marks, [numbers(first), numbers(last)], [gain, phase])
    }
}

#[derive(Clone, Copy)]
struct Sensitivity(SensitivityPlain, SensitivitySummary);

impl Summary for Sensitivity {
    const FEED: &'static str = "sensitivity_feed";
    const JOIN: &'static str = "sensitivity_join";
    const ANSWERS: &'static [Question<Self>] = &[
        Question {
            name: "sensitivity_summary_crossover",
            exported: |both, out| exported::sensitivity_summary_crossover(both.0, out),
            safe: |both| Ok(both.1.crossover()),
        },
        Question {
            name: "sensitivity_summary_bandwidth",
            exported: |both, out| exported::sensitivity_summary_bandwidth(both.0, out),
            safe: |both| match both.1.bandwidth() {
                Bandwidth::Found(value) => Ok(Some(value)),
                Bandwidth::Absent => Ok(None),
                Bandwidth::NotKept => Err(NOT_KEPT),
            },
        },
    ];

    fn empty() -> Self {
        Self(exported::sensitivity_empty(), SensitivitySummary::new())
    }

    fn feed(&mut self, lists: &Lists) -> [u64; 2] {
        let [omega, s, t] = array::from_fn(|i| &lists[i][..]);
        let fed = exported::sensitivity_feed(self.0, omega, s, t);
        self.0 = fed.summary;
        [u64::from(fed.number), number_of(self.1.feed(omega, s, t))]
    }

    fn join(&mut self, other: &Self) {
        self.0 = exported::sensitivity_join(self.0, other.0);
        self.1.join(&other.1);
    }

    fn held(&self) -> Vec<u64> {
        let SensitivityPlain {
            read,
            crossover_found,
            bandwidth_state,
            reserved,
            first,
            last,
            crossover,
            bandwidth,
        } = self.0;
        let numbers = |reading: SensitivityReading| [reading.omega, reading.s, reading.t];
        let marks = [read, crossover_found, bandwidth_state, reserved];
        held(
            marks,
            [numbers(first), numbers(last)],
            [crossover, bandwidth],
        )
    }
}

#[derive(Clone, Copy)]
struct Curve(CurvePlain, CurveSummary);

impl Summary for Curve {
    const FEED: &'static str = "curve_feed";
    const JOIN: &'static str = "curve_join";
    const ANSWERS: &'static [Question<Self>] = &[Question {
        name: "curve_closest_approach",
        exported: |both, out| {
            *out = exported::curve_closest_approach(both.0);
            0
        },
        safe: |both| Ok(Some(both.1.closest_approach())),
    }];

    fn empty() -> Self {
        Self(exported::curve_empty(), CurveSummary::new())
    }

    fn feed(&mut self, lists: &Lists) -> [u64; 2] {
        let [re, im] = array::from_fn(|i| &lists[i][..]);
        let fed = exported::curve_feed(self.0, re, im);
        self.0 = fed.summary;
        [u64::from(fed.number), number_of(self.1.feed(re, im))]
    }

    fn join(&mut self, other: &Self) {
        self.0 = exported::curve_join(self.0, other.0);
        self.1.join(&other.1);
    }

    fn held(&self) -> Vec<u64> {
        let CurvePlain {
            found,
            reserved,
            re,
            im,
        } = self.0;
        let marks = [found, reserved].map(u64::from);
        marks
            .into_iter()
            .chain([re, im].map(f64::to_bits))
            .collect()
    }
}

fn held(marks: [u32; 4], readings: [[f64; 3]; 2], answers: [f64; 2]) -> Vec<u64> {
    let numbers = readings.into_iter().flatten().chain(answers);
    let marks = marks.into_iter().map(u64::from);
    marks.chain(numbers.map(f64::to_bits)).collect()
}

pub fn compare(comparison: &mut Comparison, random: &mut Random) {
    let kind = random.pick(&KINDS);
    let cases = match random.below(400) {
        0 => {
            let turn = random.below(12);
            vec![long(kind, random, turn)]
        }
        1..=3 => single_readings(kind, random),
        4..=20 => met(kind, random),
        21..=99 => {
            let turn = random.below(6);
            vec![doubled(kind, random, turn)]
        }
        100..=199 => vec![mixed(kind, random)],
        200..=299 => vec![bracketed(kind, random)],
        _ => vec![fed(kind, random)],
    };
    for case in cases {
        match kind {
            Kind::Bode => check::<Bode>(comparison, &case),
            Kind::Sensitivity => check::<Sensitivity>(comparison, &case),
            Kind::Curve => check::<Curve>(comparison, &case),
        }
    }
}

/// Makes the calls, and asks for the answers of each register that a call altered, of all in the end.
fn check<S: Summary>(comparison: &mut Comparison, case: &Case) {
    let mut registers = [S::empty(); REGISTERS];
    let mut books = Books::new(case.kind);
    for (i, call) in case.calls.iter().enumerate() {
        let calls = &case.calls[..=i];
        books.enter(case.kind, call);
        let at = match call {
            Call::Empty(at) => {
                registers[*at] = S::empty();
                *at
            }
            Call::Feed(at, part) => {
                let lists = part.whole_lists();
                let before = registers[*at].held();
                let numbers = registers[*at].feed(&lists);
                let expected = refusal(&lists);
                let after = registers[*at].held();
                let same = numbers == [expected.unwrap_or(VALUE); 2]
                    && (expected.is_none() || before == after);
                comparison.note(S::FEED, numbers[0], same, || {
                    format!(
                        "{}  the last call's numbers, exported and safe: {numbers:?}\n  expected: {expected:?}\n  the exported summary before:{}\n  after:{}",
                        calls_described(calls),
                        words(&before),
                        words(&after)
                    )
                });
                *at
            }
            Call::Join(at, other) => {
                let other = registers[*other];
                registers[*at].join(&other);
                // What it joined is asked for below.
                comparison.note(S::JOIN, VALUE, true, String::new);
                *at
            }
        };
        let asked = if i + 1 == case.calls.len() {
            0..REGISTERS
        } else if books.0[at].len() <= OFTEN {
            at..at + 1
        } else {
            continue;
        };
        for (register, book) in registers[asked.clone()].iter().zip(&books.0[asked]) {
            ask(comparison, case.kind, calls, register, book);
        }
    }
}

fn ask<S: Summary>(
    comparison: &mut Comparison,
    kind: Kind,
    calls: &[Call],
    register: &S,
    book: &Book,
) {
    for (question, expected) in S::ANSWERS.iter().zip(answers(kind, book)) {
        let mut place = Place::new();
        let said = u64::from((question.exported)(register, &mut place.lent[0]));
        let safe = (question.safe)(register);
        let same = said == number(expected)
            && place.holds(expected.ok().flatten().map(|value| [value]))
            && same_answer(safe, expected);
        comparison.note(question.name, said, same, || {
            format!(
                "{}  of a register with {} readings\n  exported: {said}, place:{}\n  safe: {}\n  expected: {}",
                calls_described(calls),
                book.len(),
                place.bits(),
                shown(safe),
                shown(expected)
            )
        });
    }
}

fn words(words: &[u64]) -> String {
    words.iter().map(|word| format!(" {word:016x}")).collect()
}

fn calls_described(calls: &[Call]) -> String {
    let mut text = String::new();
    for call in calls {
        let _ = match call {
            Call::Empty(at) => writeln!(text, "  register {at} made empty"),
            Call::Feed(at, part) => {
                let lists = part.whole_lists();
                write!(text, "  register {at} fed\n{}", described(&lists))
            }
            Call::Join(at, other) => writeln!(text, "  register {at} joined with {other}"),
        };
    }
    text
}
