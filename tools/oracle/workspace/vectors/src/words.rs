//! A vector file: 64-bit words, little-endian.

use std::collections::BTreeSet;

/// Every NaN that is expected is written as this one.
const NAN: u64 = 0x7FF8_0000_0000_0000;

/// The first word of a case is this much more where its answers are wrong on purpose.
const WRONG: u64 = 128;

/// What is changed in a number that is to be wrong: 0 and 100 become each other, and 11 and 15.
const OTHER_NUMBERS: [u64; 5] = [1, 4, 100, 1 << 32, 1 << 63];
/// And in any other word: its last bit, and its first, which is the sign of a value.
const OTHER_WORDS: [u64; 2] = [1, 1 << 63];

/// An answer that is expected: its place among the words of its case, and whether it begins with a
/// number.
struct Answer {
    start: usize,
    len: usize,
    numbered: bool,
    /// More ways to make it wrong: the place of a word in it, and what is changed.
    others: Vec<(usize, u64)>,
}

impl Answer {
    /// Every way to make it wrong: the place of a word, and what is changed in it.
    fn changes(&self) -> Vec<(usize, u64)> {
        let change = |place: usize| {
            let masks = match place {
                0 if self.numbered => &OTHER_NUMBERS[..],
                _ => &OTHER_WORDS,
            };
            masks.iter().map(move |&mask| (self.start + place, mask))
        };
        let mut changes: Vec<_> = (0..self.len).flat_map(change).collect();
        for &(place, mask) in &self.others {
            let other = (self.start + place, mask);
            if !changes.contains(&other) {
                changes.push(other);
            }
        }
        changes
    }
}

/// A case: its words, and where its answers lie.
#[derive(Default)]
struct Case {
    words: Vec<u64>,
    answers: Vec<Answer>,
}

impl Case {
    /// The case again and again, with all its answers wrong: each in one word, until every answer
    /// has been wrong in each of its words in every way.
    fn wrong(&self) -> Vec<Vec<u64>> {
        let changes: Vec<_> = self.answers.iter().map(Answer::changes).collect();
        let most = changes.iter().map(Vec::len).max().unwrap_or(0);
        let wrong = |turn: usize| {
            let mut words = self.words.clone();
            words[0] += WRONG;
            for changes in &changes {
                let (place, mask) = changes[turn % changes.len()];
                // One NaN is as good as another.
                words[place] = match words[place] {
                    NAN => mask,
                    word => word ^ mask,
                };
            }
            words
        };
        (0..most).map(wrong).collect()
    }

    /// Whether 0 or -0 is the first value of one of its answers, and whether it is the last.
    fn zeros(&self) -> [bool; 2] {
        let mut zeros = [false; 2];
        for answer in &self.answers {
            let words = &self.words[answer.start..][..answer.len];
            let values = match words {
                [0, values @ ..] if answer.numbered => values,
                _ if answer.numbered => &[],
                _ => words,
            };
            for (zero, value) in zeros.iter_mut().zip([values.first(), values.last()]) {
                *zero |= value.is_some_and(|word| word << 1 == 0);
            }
        }
        zeros
    }
}

/// The words of a file, and how many cases of each kind they hold.
#[derive(Default)]
pub struct Words {
    words: Vec<u64>,
    counts: Vec<(String, usize)>,
    /// The case that is being written.
    case: Case,
    /// The first case of each kind, and the first with each choice of values that are zeros.
    firsts: Vec<Case>,
    kinds: BTreeSet<(String, [bool; 2])>,
}

impl Words {
    pub fn word(&mut self, word: u64) {
        self.case.words.push(word);
    }

    /// Arguments, with their bits as they are, also a NaN's.
    pub fn arguments(&mut self, values: &[f64]) {
        for value in values {
            self.word(value.to_bits());
        }
    }

    /// An answer's number and its values.
    pub fn answer(&mut self, number: u64, values: &[f64]) {
        let values = values.iter().map(|&value| expected_bits(value));
        self.expected(true, [number].into_iter().chain(values).collect());
    }

    /// The values of an answer without a number.
    pub fn values(&mut self, values: &[f64]) {
        let values = values.iter().map(|&value| expected_bits(value));
        self.expected(false, values.collect());
    }

    /// The words of an answer.
    pub fn expected(&mut self, numbered: bool, words: Vec<u64>) {
        self.case.answers.push(Answer {
            start: self.case.words.len(),
            len: words.len(),
            numbered,
            others: Vec::new(),
        });
        self.case.words.extend(words);
    }

    /// Words that would be wrong in the last answer, beside those that always are, with the places
    /// in it where they would be.
    pub fn or_wrong(&mut self, others: impl Iterator<Item = (usize, u64)>) {
        let Case { words, answers } = &mut self.case;
        let answer = answers.last_mut().expect("there is an answer");
        let masks = others.map(|(place, other)| (place, words[answer.start + place] ^ other));
        answer.others.extend(masks);
    }

    /// Ends a case, which is one more of `kind`.
    pub fn count(&mut self, kind: String) {
        let case = std::mem::take(&mut self.case);
        self.words.extend(&case.words);
        if self.kinds.insert((kind.clone(), case.zeros())) {
            self.firsts.push(case);
        }
        self.note(kind, 1);
    }

    /// Notes more cases of `kind`.
    fn note(&mut self, kind: String, more: usize) {
        match self.counts.iter_mut().find(|(known, _)| *known == kind) {
            Some((_, count)) => *count += more,
            None => self.counts.push((kind, more)),
        }
    }

    /// The first case of each kind, with and without zeros, again and wrong on purpose. Then those
    /// that `more` writes.
    pub fn wrong_on_purpose(&mut self, more: impl FnOnce(&mut Words)) {
        let mut others = Words::default();
        more(&mut others);
        for case in self.firsts.split_off(0).iter().chain(&others.firsts) {
            for words in case.wrong() {
                self.words.extend(words);
                self.note(String::from("wrong on purpose"), 1);
            }
        }
    }

    /// A case that is wrong as it stands: the question is none, or too few places are given.
    pub fn wrong_as_it_stands(&mut self) {
        let mut case = std::mem::take(&mut self.case);
        case.words[0] += WRONG;
        self.words.extend(case.words);
        self.note(String::from("wrong on purpose"), 1);
    }

    pub fn bytes(&self) -> Vec<u8> {
        self.words
            .iter()
            .flat_map(|word| word.to_le_bytes())
            .collect()
    }

    /// The kinds in the order of their first case.
    pub fn counts(&self) -> &[(String, usize)] {
        &self.counts
    }
}

/// The bits by which an expected value is written.
pub fn expected_bits(value: f64) -> u64 {
    if value.is_nan() {
        NAN
    } else {
        value.to_bits()
    }
}
