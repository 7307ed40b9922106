//! The two fillers of a grid.

use crate::tally::{bits, is_mark, same_numbers, Comparison, MARK};
use bazintroa::Refusal;
use vectors::grids::{tops, Case, Question, MAX_ROOM};
use vectors::numbers::VALUE;
use vectors::random::Random;

/// What writes a grid of so many points up to a top into a list.
type Filler = fn(f64, usize, &mut [f64]) -> Result<(), Refusal>;

pub fn compare(comparison: &mut Comparison, random: &mut Random) {
    let case = draw(random);
    let (name, fill): (_, Filler) = match case.question {
        Question::Gains => ("fill_gain_grid", bazintroa::fill_gain_grid),
        Question::Frequencies => ("fill_frequency_grid", bazintroa::fill_frequency_grid),
    };
    let expected = case.answer();
    let room = case.room as usize;
    // One place more than is lent at either end.
    let mut list = vec![MARK; room + 2];
    let number = match fill(case.top, case.n as usize, &mut list[1..=room]) {
        Ok(()) => VALUE,
        Err(refusal) => u64::from(refusal.number()),
    };
    let (expected_number, grid) = match &expected {
        Ok(grid) => (VALUE, &grid[..]),
        Err(number) => (*number, &[][..]),
    };
    let (filled, rest) = list[1..].split_at(grid.len());
    let same = number == expected_number
        && same_numbers(filled, grid)
        && is_mark(list[0])
        && rest.iter().all(|&place| is_mark(place));
    comparison.note(name, number, same, || {
        format!(
            "  top{}, n {}, room {room}\n  port: {number}, list with a place before and behind it:{}\n  expected: {expected_number}, grid:{}",
            bits(&[case.top]),
            case.n,
            bits(&list),
            bits(grid)
        )
    });
}

/// Grids of those numbers of points with which the Rust is built, and refused ones.
fn draw(random: &mut Random) -> Case {
    let short = 2 + random.below(39);
    let n = match random.below(1000) {
        0 => random.pick(&[4095, 4096]),
        1..=8 => random.pick(&[64, 100, 255, 256, 1000]),
        9..=49 => random.pick(&[0, 1, 4097, 4098, 1 << 32, (1 << 32) + 2, 1 << 63, u64::MAX]),
        _ => short,
    };
    let top = match random.below(10) {
        0 => random.pick(&[0.0, -0.0, -f64::from_bits(1), -1.0, f64::NEG_INFINITY]),
        1 | 2 => random.uniform_bits(),
        3 => random.special(),
        _ => {
            let tops = tops(random);
            random.pick(&tops)
        }
    };
    let more = n.saturating_add(random.below(20));
    let room = match random.below(16) {
        0 => 0,
        1 => n.saturating_sub(1),
        2 => n / 2,
        3..=8 => n,
        9 => n.saturating_add(1),
        _ => more,
    };
    Case {
        question: random.pick(&[Question::Gains, Question::Frequencies]),
        top,
        n,
        room: room.min(MAX_ROOM),
    }
}
