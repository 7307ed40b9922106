//! Vectors for the two fillers of a grid.

use crate::constant::at_constant;
use crate::numbers::{
    assert_refused_alike, own_refusal, INSUFFICIENT_POINTS, INVALID_FREQUENCY_RANGE,
    INVALID_PARAMETER, MAX_POINTS, NO_ROOM, TOO_MANY, VALUE,
};
use crate::random::Random;
use crate::rows::{expected, float, list, Rows};
use crate::words::Words;
use oxictl::core::frequency_domain::{compute_nyquist, compute_root_locus};
use oxictl::core::transfer_fn::TransferFn;
use std::collections::BTreeSet;
use std::f64::consts::PI;
use Question::*;

/// The longest list lent.
pub const MAX_ROOM: u64 = 4200;

/// What each place of the lent list holds before the call.
const MARK: f64 = -7.25;

/// The grid, or the number of a refusal.
pub type Answer = Result<Vec<f64>, u64>;

#[derive(Clone, Copy, Debug)]
pub enum Question {
    Gains = 1,
    Frequencies,
}

impl Question {
    /// The grid of `N` points as it lies in the points of the Rust.
    fn grid<const N: usize>(self, top: f64) -> Answer {
        let function = TransferFn::new([1.0], [0.5]);
        match self {
            Gains => compute_root_locus::<_, 1, N>(&function, top)
                .map(|locus| locus.points.iter().map(|point| point.gain).collect()),
            Frequencies => compute_nyquist::<_, 1, N>(&function, top)
                .map(|curve| curve.points.iter().map(|point| point.omega).collect()),
        }
        .map_err(own_refusal)
    }
}

/// What is asked: `n` points up to `top`, into a list of `room` places.
#[derive(Clone, Copy, Debug)]
pub struct Case {
    pub question: Question,
    pub top: f64,
    pub n: u64,
    pub room: u64,
}

impl Case {
    /// What the Rust answers, for the numbers of points with which it is built.
    fn asked(&self) -> Option<Answer> {
        at_constant!(self.n, N in 0 1
            2 3 4 5 6 7 8 9 10 11 12 13 14 15 16 17 18 19 20 21
            22 23 24 25 26 27 28 29 30 31 32 33 34 35 36 37 38 39 40
            64 100 255 256 1000 4095 4096
            => Some(self.question.grid::<N>(self.top)), else None)
    }

    /// Document 01's conditions, in its order.
    pub fn refusal(&self) -> Option<u64> {
        if self.n < 2 {
            Some(INSUFFICIENT_POINTS)
        } else if self.top <= 0.0 {
            Some(match self.question {
                Gains => INVALID_PARAMETER,
                Frequencies => INVALID_FREQUENCY_RANGE,
            })
        } else if self.n > MAX_POINTS {
            Some(TOO_MANY)
        } else if self.room < self.n {
            Some(NO_ROOM)
        } else {
            None
        }
    }

    /// The grid by the Rust, or the refusal by document 01. If it is not refused, the Rust must be
    /// built with this number of points.
    pub fn answer(&self) -> Answer {
        let refusal = self.refusal();
        let asked = self.asked();
        if let Some(answer) = &asked {
            assert_refused_alike(answer, refusal);
        }
        match refusal {
            Some(number) => Err(number),
            None => asked.expect("the Rust is built with this number of points"),
        }
    }
}

pub fn vectors() -> Words {
    let random = &mut Random::new(4);
    let mut words = Words::default();
    for question in [Gains, Frequencies] {
        for case in short(random, question) {
            write(&mut words, &case);
        }
        for case in long(random, question) {
            write(&mut words, &case);
        }
        for case in refused(random, question) {
            write(&mut words, &case);
        }
    }

    let small = |question: Question, n: u64, room: u64| Case {
        question,
        top: 8.0,
        n,
        room,
    };
    words.wrong_on_purpose(|words| {
        for question in [Gains, Frequencies] {
            // Every place is given, those behind the grid among them.
            for case in [small(question, 5, 8), small(question, 5, 3)] {
                write_given(words, question as u64, &case, case.room);
                words.count(format!("{question:?} {}", case.room));
            }
        }
    });
    for question in [Gains, Frequencies] {
        // Of the grid a place too few is given, so that the mark is expected there; or none is.
        for room in [5, 6, 8] {
            for given in [4, 0] {
                write_given(
                    &mut words,
                    question as u64,
                    &small(question, 5, room),
                    given,
                );
                words.wrong_as_it_stands();
            }
        }
    }
    for no_question in [0, 3] {
        write_given(&mut words, no_question, &small(Frequencies, 5, 5), 5);
        words.wrong_as_it_stands();
    }
    words
}

fn write(words: &mut Words, case: &Case) {
    let answer = case.answer();
    let given = answer.as_ref().map_or(0, |grid| grid.len() as u64);
    write_given(words, case.question as u64, case, given);
    let number = answer.err().unwrap_or(VALUE);
    words.count(format!("{:?} {number}", case.question));
}

/// The case under this question, with what the first places hold after it; as many are given.
fn write_given(words: &mut Words, question: u64, case: &Case, given: u64) {
    words.word(question);
    words.arguments(&[case.top]);
    words.word(case.n);
    words.word(case.room);
    words.word(given);
    let answer = case.answer();
    let number = *answer.as_ref().err().unwrap_or(&VALUE);
    let mut list = answer.unwrap_or_default();
    list.resize(list.len().max(given as usize), MARK);
    words.answer(number, &list[..given as usize]);
}

/// Rows for the prover. A place that the grid does not take must stay.
pub fn rows(rows: &mut Rows, random: &mut Random) {
    rows.table(
        "grids",
        "grids shorter than the list; a product that overflows; subnormals; refusals",
    );
    for question in [Gains, Frequencies] {
        for (top, n, room) in [
            (random.between(0.0, 10.0), 7, 9),
            (f64::MAX, 4, 4),
            (random.subnormal().abs(), 4, 5),
            (-1.0, 1, 0),
            (-0.0, 4097, 2),
            (1.0, 4097, 2),
            (1.0, 3, 2),
        ] {
            let lent: Vec<_> = (0..room).map(|_| random.between(-1.0, 1.0)).collect();
            let case = Case {
                question,
                top,
                n,
                room,
            };
            let answer = case.answer();
            let number = *answer.as_ref().err().unwrap_or(&VALUE);
            let mut left = answer.unwrap_or_default();
            left.extend(&lent[left.len()..]);
            let name = match question {
                Gains => "gain_grid",
                Frequencies => "frequency_grid",
            };
            rows.row_that(
                &format!("{name} {} {n} ({})", float(top), list(&lent)),
                &format!("leaves {number} {}", expected(&left)),
            );
        }
    }
}

/// A case with as much room as it needs, or more.
fn ample(random: &mut Random, question: Question, top: f64, n: u64) -> Case {
    let room = match random.below(4) {
        0 => n,
        1 => n + 1,
        2 => n + random.below(20),
        _ => n + random.below(MAX_ROOM - n + 1),
    };
    Case {
        question,
        top,
        n,
        room,
    }
}

/// Tops of every class that passes.
pub fn tops(random: &mut Random) -> Vec<f64> {
    vec![
        f64::from_bits(1),
        random.subnormal().abs(),
        f64::MIN_POSITIVE,
        random.with_exponent(-1022, -900).abs(),
        1.0,
        8.0,
        PI,
        0.1,
        random.between(0.0, 10.0),
        random.between(0.0, 10.0),
        random.between(0.0, 1000.0),
        random.with_exponent(-300, 300).abs(),
        random.with_exponent(-10, 10).abs(),
        random.with_exponent(990, 1017).abs(),
        // From here on the product with the number of a point may overflow.
        random.with_exponent(1018, 1023).abs(),
        random.with_exponent(1020, 1023).abs(),
        f64::MAX / 2.0,
        f64::MAX,
        f64::INFINITY,
        random.nan(),
        random.nan(),
    ]
}

/// Grids of few points.
fn short(random: &mut Random, question: Question) -> Vec<Case> {
    let mut cases = Vec::new();
    for n in 2..=40 {
        for top in tops(random) {
            cases.push(ample(random, question, top, n));
        }
        for _ in 0..7 {
            let top = f64::from_bits(random.below(f64::INFINITY.to_bits()) + 1);
            cases.push(ample(random, question, top, n));
        }
    }
    cases
}

/// Grids of many points, as many as there may be.
fn long(random: &mut Random, question: Question) -> Vec<Case> {
    let mut cases = Vec::new();
    for (n, count) in [(64, 4), (100, 4), (255, 2), (256, 2), (1000, 2)] {
        for _ in 0..count {
            let top = random.with_exponent(-20, 20).abs();
            cases.push(ample(random, question, top, n));
        }
        cases.push(ample(random, question, f64::MAX, n));
    }
    for top in [PI, f64::MAX] {
        cases.push(ample(random, question, top, MAX_POINTS - 1));
        cases.push(ample(random, question, top, MAX_POINTS));
    }
    let top = random.subnormal().abs();
    cases.push(Case {
        question,
        top,
        n: MAX_POINTS,
        room: MAX_POINTS,
    });
    cases
}

/// Every refusal at its limit and past it, alone and with the others.
fn refused(random: &mut Random, question: Question) -> Vec<Case> {
    let tops = [
        0.0,
        -0.0,
        -f64::from_bits(1),
        -1.0,
        f64::NEG_INFINITY,
        f64::from_bits(1),
        1.0,
        f64::INFINITY,
        random.nan(),
        random.nan(),
    ];
    let mut cases = Vec::new();
    for n in [
        0,
        1,
        2,
        3,
        40,
        41,
        MAX_POINTS - 1,
        MAX_POINTS,
        MAX_POINTS + 1,
        1 << 32,
        (1 << 32) + 2,
        1 << 63,
        u64::MAX,
    ] {
        let rooms = [0, 1, n.saturating_sub(1), n, MAX_ROOM];
        let rooms = BTreeSet::from(rooms.map(|room| room.min(MAX_ROOM)));
        for top in tops {
            for &room in &rooms {
                let case = Case {
                    question,
                    top,
                    n,
                    room,
                };
                if case.refusal().is_some() {
                    cases.push(case);
                }
            }
        }
    }
    cases
}
