//! What was called, what it answered, and the first difference.

use std::collections::BTreeMap;

/// Stands in every place before a call. It is no NaN, which would equal any other.
pub const MARK: f64 = f64::from_bits(0x41D5_EED5_EED5_EED5);

/// How often a function was called, by the number of its answer, and how often it differed.
#[derive(Default)]
struct Tally {
    numbers: BTreeMap<u64, u64>,
    differ: u64,
}

#[derive(Default)]
pub struct Comparison {
    tallies: BTreeMap<&'static str, Tally>,
    first: Option<String>,
}

impl Comparison {
    /// Notes a call with the number of its answer, 0 where it has none, and whether it is as
    /// expected; `describe` is asked about the first that is not.
    pub fn note(
        &mut self,
        name: &'static str,
        number: u64,
        same: bool,
        describe: impl FnOnce() -> String,
    ) {
        let tally = self.tallies.entry(name).or_default();
        *tally.numbers.entry(number).or_default() += 1;
        if !same {
            tally.differ += 1;
            self.first
                .get_or_insert_with(|| format!("{name}\n{}", describe()));
        }
    }

    /// The first difference in full.
    pub fn first(&self) -> Option<&str> {
        self.first.as_deref()
    }

    pub fn print(&self) {
        println!(
            "{:30} {:>12} {:>8}  calls by the number answered",
            "function", "calls", "differ"
        );
        let mut all = 0;
        for (name, Tally { numbers, differ }) in &self.tallies {
            let calls: u64 = numbers.values().sum();
            let numbers: Vec<_> = numbers
                .iter()
                .map(|(number, calls)| format!("{number}: {calls}"))
                .collect();
            println!("{name:30} {calls:12} {differ:8}  {}", numbers.join(", "));
            all += calls;
        }
        println!("{:30} {all:12}", "all");
    }
}

/// A place of so many numbers, between two that are not lent.
#[repr(C)]
pub struct Place<const K: usize> {
    before: f64,
    pub lent: [f64; K],
    after: f64,
}

impl<const K: usize> Place<K> {
    pub fn new() -> Self {
        Self {
            before: MARK,
            lent: [MARK; K],
            after: MARK,
        }
    }

    /// Whether the call wrote these values, or nothing if there are none, and no more.
    pub fn holds(&self, values: Option<[f64; K]>) -> bool {
        is_mark(self.before)
            && is_mark(self.after)
            && match values {
                Some(values) => same_numbers(&self.lent, &values),
                None => self.lent.iter().all(|&place| is_mark(place)),
            }
    }

    /// The bits of the place, with the one before it and the one after it.
    pub fn bits(&self) -> String {
        let Self {
            before,
            lent,
            after,
        } = self;
        format!("{} |{} |{}", bits(&[*before]), bits(lent), bits(&[*after]))
    }
}

pub fn is_mark(place: f64) -> bool {
    place.to_bits() == MARK.to_bits()
}

/// The same bits, where a NaN equals any NaN.
pub fn same_number(a: f64, b: f64) -> bool {
    a.to_bits() == b.to_bits() || (a.is_nan() && b.is_nan())
}

pub fn same_numbers(a: &[f64], b: &[f64]) -> bool {
    a.len() == b.len() && a.iter().zip(b).all(|(&a, &b)| same_number(a, b))
}

pub fn bits(list: &[f64]) -> String {
    list.iter()
        .map(|value| format!(" {:016x}", value.to_bits()))
        .collect()
}
