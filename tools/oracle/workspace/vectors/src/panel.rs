//! Vectors for the panel's two entries, on readings in bytes.

use crate::numbers::{LENGTH_OF_BYTES, MAX_POINTS, NO_ROOM, TOO_MANY};
use crate::random::{nans, Random};
use crate::scans::{
    bode_edges, length, number, scan, worked_lists, Answer, Kind, FREQUENCIES, HALF_TURN, LEVELS,
};
use crate::words::{expected_bits, Words};
use std::iter::repeat_n;

/// The bytes of a reading, and those that an answer needs.
pub const READING: usize = 24;
pub const ANSWER: usize = 8;

/// Stands in every byte of an answer before a call.
const MARK: u8 = 0xEE;
/// As many bytes are compared after it, also those that are not lent.
const COMPARED: usize = 32;
/// No answer has more.
const MAX_ROOM: usize = 27;

/// What is asked. Before the bytes stand `pad` more copies of their first reading. Of all these the
/// first `length` are handed over, and `room` bytes are lent for the answer.
struct Case {
    pad: usize,
    bytes: Vec<u8>,
    length: usize,
    room: usize,
}

impl Case {
    /// All bytes of a sweep, with so many copies of its first reading before it.
    fn padded(pad: usize, lists: &[Vec<f64>], room: usize) -> Self {
        let bytes = encoded(lists);
        let length = pad * READING + bytes.len();
        Self {
            pad,
            bytes,
            length,
            room,
        }
    }

    fn whole_bytes(&self) -> Vec<u8> {
        let first = &self.bytes[..READING.min(self.bytes.len())];
        let mut bytes: Vec<_> = repeat_n(first, self.pad).flatten().copied().collect();
        bytes.extend(&self.bytes);
        bytes.truncate(self.length);
        bytes
    }
}

/// Document 01's conditions, in its order.
fn refusal(length: usize, room: usize) -> Option<u64> {
    let (readings, rest) = (length / READING, length % READING);
    if rest != 0 {
        Some(LENGTH_OF_BYTES)
    } else if readings > MAX_POINTS as usize {
        Some(TOO_MANY)
    } else if room < ANSWER {
        Some(NO_ROOM)
    } else {
        None
    }
}

/// ω, dB and phase of the readings.
pub fn decoded(bytes: &[u8]) -> Vec<Vec<f64>> {
    let number = |bytes: &[u8]| f64::from_le_bytes(bytes.try_into().expect("eight bytes"));
    (0..3)
        .map(|field| {
            let readings = bytes.chunks_exact(READING);
            readings
                .map(|reading| number(&reading[8 * field..][..8]))
                .collect()
        })
        .collect()
}

fn encoded(lists: &[Vec<f64>]) -> Vec<u8> {
    let reading = |i: usize| lists.iter().flat_map(move |list| list[i].to_le_bytes());
    (0..lists[0].len()).flat_map(reading).collect()
}

/// What the gain entry answers, and the phase entry.
pub fn answers(bytes: &[u8], room: usize) -> [Answer; 2] {
    match refusal(bytes.len(), room) {
        Some(number) => [Err(number); 2],
        None => {
            let values = scan(Kind::Bode, &decoded(bytes));
            [Ok(values[0]), Ok(values[1])]
        }
    }
}

pub fn vectors() -> Words {
    let random = &mut Random::new(7);
    let mut cases = worked();
    cases.extend(limits());
    cases.extend(edges(random));
    cases.extend(not_numbers(random));
    cases.extend(sweeps(random));
    cases.extend(long(random));

    let mut words = Words::default();
    for case in &cases {
        write(&mut words, case);
    }

    words.wrong_on_purpose(|_| ());
    // Every byte of an answer: found, none, and refused for its room.
    for (lists, room) in [
        (&crossed(), MAX_ROOM),
        (&quiet(), MAX_ROOM),
        (&crossed(), 7),
    ] {
        let case = Case::padded(0, lists, room);
        for byte in 0..COMPARED {
            write_with(&mut words, &case, |answer| answer[byte] ^= 1);
            words.wrong_as_it_stands();
        }
    }
    // More bytes than any case has.
    for word in [ANSWER as u64, 0, 0, 100_001] {
        words.word(word);
    }
    words.wrong_as_it_stands();
    words
}

/// Writes a case as it is.
fn write(words: &mut Words, case: &Case) {
    write_with(words, case, |_| ());
    let [gain, phase] = answers(&case.whole_bytes(), case.room).map(number);
    words.count(format!("gain {gain}, phase {phase}"));
}

/// Writes a case; `change` is applied to the bytes of each answer.
fn write_with(words: &mut Words, case: &Case, change: impl Fn(&mut [u8; COMPARED])) {
    words.word(case.room as u64);
    words.word(case.pad as u64);
    words.word(case.bytes.len().div_ceil(8) as u64);
    words.word(case.length as u64);
    for eight in case.bytes.chunks(8) {
        let mut word = [0; 8];
        word[..eight.len()].copy_from_slice(eight);
        words.word(u64::from_le_bytes(word));
    }
    for answer in answers(&case.whole_bytes(), case.room) {
        let mut bytes = [MARK; COMPARED];
        if let Ok(Some(value)) = answer {
            bytes[..ANSWER].copy_from_slice(&expected_bits(value).to_le_bytes());
        }
        change(&mut bytes);
        let eights = bytes
            .chunks(8)
            .map(|eight| eight.try_into().expect("eight"));
        let mut expected = vec![number(answer)];
        expected.extend(eights.map(u64::from_le_bytes));
        words.expected(true, expected);
    }
}

/// A sweep that crosses 0 dB at 3 and -180 degrees at 6.
fn crossed() -> Vec<Vec<f64>> {
    worked_lists(Kind::Bode).swap_remove(0)
}

/// One that crosses neither.
fn quiet() -> Vec<Vec<f64>> {
    vec![vec![1.0, 2.0], vec![5.0, 4.0], vec![-100.0, -110.0]]
}

/// Document 01's worked sweeps, and the smallest ones that show a rule, as in the scans, with answers
/// of every length.
fn worked() -> Vec<Case> {
    let mut cases = Vec::new();
    for lists in worked_lists(Kind::Bode) {
        cases.push(Case::padded(0, &lists, ANSWER));
    }
    for room in 0..=MAX_ROOM {
        for lists in [crossed(), quiet()] {
            cases.push(Case::padded(0, &lists, room));
        }
    }
    // What is in one field stands in another: each order of the three has answers of its own.
    let [omega, db, phase] = [
        vec![-179.0, -181.0, 3.0, -2.0],
        vec![6.0, 2.0, -2.0, -200.0],
        vec![-90.0, -120.0, 160.0, -200.0],
    ];
    for [a, b, c] in [
        [&omega, &db, &phase],
        [&omega, &phase, &db],
        [&db, &omega, &phase],
        [&db, &phase, &omega],
        [&phase, &omega, &db],
        [&phase, &db, &omega],
    ] {
        let lists = [a.clone(), b.clone(), c.clone()];
        cases.push(Case::padded(0, &lists, ANSWER));
    }
    cases
}

/// Every length of the first readings and of those about the most, beside answers with room and
/// without: every refusal at its limit and past it, alone and with the others. The last reading that
/// is whole crosses with the one before it, if there are two.
fn limits() -> Vec<Case> {
    let most = MAX_POINTS as usize * READING;
    let mut cases = Vec::new();
    for length in (0..=3 * READING).chain(most - 25..=most + 2 * READING) {
        for room in [0, 7, 8, MAX_ROOM] {
            let readings = length.div_ceil(READING);
            // Three readings, or four where the last is not whole.
            let given = readings.min(3 + usize::from(length % READING != 0));
            let lists = [
                vec![1.0, 2.0, 4.0, 0.5],
                vec![6.0, 2.0, -2.0, 0.25],
                vec![-90.0, -170.0, -200.0, 0.125],
            ];
            let lists = lists.map(|list| list[..given].to_vec());
            cases.push(Case {
                length,
                ..Case::padded(readings - given, &lists, room)
            });
        }
    }
    cases
}

/// Two readings with the edges of the scans.
fn edges(random: &mut Random) -> Vec<Case> {
    let lists = bode_edges(random);
    lists
        .iter()
        .map(|lists| Case::padded(0, lists, ANSWER))
        .collect()
}

/// A NaN of every pattern in every place of three readings, the last two of which cross.
fn not_numbers(random: &mut Random) -> Vec<Case> {
    let mut cases = Vec::new();
    for nan in nans() {
        for field in 0..3 {
            for at in 0..3 {
                let mut lists = vec![
                    vec![1.0, 2.0, 4.0],
                    vec![6.0, 2.0, -2.0],
                    vec![-90.0, -170.0, -200.0],
                ];
                lists[field][at] = nan;
                let room = ANSWER + random.below(20) as usize;
                cases.push(Case::padded(0, &lists, room));
            }
        }
    }
    cases
}

/// Readings in the styles of the scans.
fn sweeps(random: &mut Random) -> Vec<Case> {
    let mut cases = Vec::new();
    for frequencies in FREQUENCIES {
        for levels in LEVELS {
            for _ in 0..2 {
                let n = length(random);
                let others = random.pick(&LEVELS);
                let lists = [
                    frequencies(random, n, 5.0),
                    levels(random, n, 0.0),
                    others(random, n, HALF_TURN),
                ];
                let room = ANSWER + random.below(20) as usize;
                cases.push(Case::padded(0, &lists, room));
            }
        }
    }
    cases
}

/// As many readings as there may be, one fewer and one more: what counts is at the end, just past
/// the pad, in the pad or nowhere; for gain and for phase in different places.
fn long(random: &mut Random) -> Vec<Case> {
    let most = MAX_POINTS as usize;
    let omega = vec![1.0, 2.0, 3.0, 4.5];
    let db = [
        vec![5.0, 4.0, 1.0, -1.0],
        vec![5.0, -1.0, 2.0, -2.0],
        vec![0.0, -1.0, 2.0, -2.0],
        vec![-5.0, -4.0, -3.0, 0.0],
        vec![5.0, 4.0, 3.0, 2.0],
        vec![f64::NAN, 4.0, f64::NAN, -2.0],
    ];
    let phase = [
        vec![-100.0, -120.0, -170.0, -190.0],
        vec![-100.0, -190.0, -120.0, -190.0],
        vec![-180.0, -170.0, -190.0, -170.0],
        vec![-200.0, -190.0, -180.0, -179.0],
        vec![-100.0, -110.0, -120.0, -130.0],
        vec![f64::NAN, f64::NAN, -190.0, -170.0],
    ];
    let mut cases = Vec::new();
    for total in [most - 1, most, most + 1] {
        for db in &db {
            for phase in &phase {
                let lists = [omega.clone(), db.clone(), phase.clone()];
                let room = ANSWER + random.below(20) as usize;
                cases.push(Case::padded(total - 4, &lists, room));
            }
        }
    }
    cases
}
