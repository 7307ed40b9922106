//! The panel's two entries on bytes.

use crate::scans::{bode, described, shown};
use crate::tally::Comparison;
use bazintroa::panel;
use std::fmt::Write;
use vectors::panel::{answers, decoded, ANSWER, READING};
use vectors::random::Random;
use vectors::scans::number;
use vectors::words::expected_bits;

/// Stands in every byte of an answer before a call.
const MARK: u8 = 0xA5;

type Entry = fn(&[u8], &mut [u8]) -> u32;

/// In the order in which the Rust is asked.
const ENTRIES: [(&str, Entry); 2] = [
    ("panel_gain_crossover", panel::gain_crossover),
    ("panel_phase_crossover", panel::phase_crossover),
];

pub fn compare(comparison: &mut Comparison, random: &mut Random) {
    let bytes = draw(random);
    let room = match random.below(8) {
        0 => random.below(ANSWER as u64) as usize,
        1 => ANSWER + random.below(20) as usize,
        _ => ANSWER,
    };
    let lists = decoded(&bytes);
    for ((name, entry), expected) in ENTRIES.into_iter().zip(answers(&bytes, room)) {
        // One byte more than is lent at either end.
        let mut answer = vec![MARK; room + 2];
        let said = u64::from(entry(&bytes, &mut answer[1..=room]));
        let mut expected_answer = vec![MARK; room + 2];
        if let Ok(Some(value)) = expected {
            expected_answer[1..=ANSWER].copy_from_slice(&expected_bits(value).to_le_bytes());
        }
        let same = said == number(expected) && answer == expected_answer;
        comparison.note(name, said, same, || {
            format!(
                "  {} bytes:{}\n  which are\n{}  room {room}\n  said: {said}, answer with a byte before and behind it:{}\n  expected: {}, answer:{}",
                bytes.len(),
                hexadecimal(&bytes),
                described(&lists),
                hexadecimal(&answer),
                shown(expected),
                hexadecimal(&expected_answer)
            )
        });
    }
}

/// Sweeps as bytes, some of them damaged.
fn draw(random: &mut Random) -> Vec<u8> {
    let lists = bode(random);
    let readings = lists.iter().map(Vec::len).min().expect("three lists");
    let mut bytes = Vec::new();
    for i in 0..readings {
        for list in &lists {
            bytes.extend(list[i].to_le_bytes());
        }
    }
    match random.below(16) {
        0 => {
            let less = random.below(READING as u64 + 1) as usize;
            bytes.truncate(bytes.len().saturating_sub(less));
        }
        1 => {
            let more = random.below(READING as u64 + 1);
            bytes.extend((0..more).map(|_| random.bits() as u8));
        }
        2 if !bytes.is_empty() => {
            for _ in 0..=random.below(8) {
                let at = random.below(bytes.len() as u64) as usize;
                bytes[at] = random.bits() as u8;
            }
        }
        3 => bytes
            .iter_mut()
            .for_each(|byte| *byte = random.bits() as u8),
        _ => {}
    }
    bytes
}

fn hexadecimal(bytes: &[u8]) -> String {
    let mut text = String::from(" ");
    for byte in bytes {
        let _ = write!(text, "{byte:02x}");
    }
    text
}
