//! The panel's entries on bytes.

use crate::draw::{length, number};
use bazintroa::panel;
use bazintroa::random::Random;

/// Stands in every byte of an answer before a call.
const MARK: u8 = 0xA5;

pub fn entry(random: &mut Random) {
    let readings = bytes(random);
    let room = random.below(10) as usize;
    let mut answer = vec![MARK; room].into_boxed_slice();
    let entry = match random.below(2) {
        0 => panel::gain_crossover,
        _ => panel::phase_crossover,
    };
    let written = match entry(&readings, &mut answer) {
        0 => 8,
        14 | 15 | 19 | 100 => 0,
        number => panic!("{number} is no answer of the panel"),
    };
    let stayed = answer[written..].iter().all(|&byte| byte == MARK);
    assert!(
        stayed,
        "an answer of {room} bytes is written past {written}"
    );
}

/// Readings with some bytes more or less, or any bytes.
fn bytes(random: &mut Random) -> Box<[u8]> {
    let length = length(random);
    let mut bytes: Vec<u8> = (0..3 * length)
        .flat_map(|_| number(random).to_le_bytes())
        .collect();
    match random.below(4) {
        0 => bytes.truncate(bytes.len().saturating_sub(random.below(25) as usize)),
        1 => bytes.extend((0..random.below(25)).map(|_| random.bits() as u8)),
        2 => bytes
            .iter_mut()
            .for_each(|byte| *byte = random.bits() as u8),
        _ => {}
    }
    bytes.into_boxed_slice()
}
