//! How the root search ended, by document 02's words (W1).

use oxictl_inner::core::frequency_domain::root_locus_told::Rounds;

/// As many rounds the search has.
pub const MAX_ROUNDS: usize = 200;
/// A round whose largest change is below this settles the search.
pub const SETTLED_BELOW: f64 = 1e-12;

/// The ending's kind, as a number.
pub const SETTLED: u64 = 0;
pub const SPENT: u64 = 1;
pub const BROKEN: u64 = 2;

#[derive(Clone, Copy, Debug, PartialEq)]
pub enum Ending {
    /// With the rounds used, 0 where there was no search.
    Settled(usize),
    /// With the largest change of the last round.
    Spent(f64),
    /// Some part of a pole is a NaN.
    Broken,
}

impl Ending {
    /// From all poles there are, and from the rounds of the search for them. There is one for more
    /// than two.
    pub fn new(poles: &[[f64; 2]], rounds: Option<Rounds>) -> Self {
        assert_eq!(rounds.is_some(), poles.len() > 2);
        if let Some(Rounds { ran, last_change }) = rounds {
            assert!((1..=MAX_ROUNDS).contains(&ran));
            assert!(ran == MAX_ROUNDS || last_change < SETTLED_BELOW);
            assert!(!last_change.is_nan());
        }
        if poles.iter().flatten().any(|part| part.is_nan()) {
            return Self::Broken;
        }
        match rounds {
            None => Self::Settled(0),
            Some(Rounds { ran, last_change }) if last_change < SETTLED_BELOW => Self::Settled(ran),
            Some(Rounds { last_change, .. }) => Self::Spent(last_change),
        }
    }

    pub fn kind(self) -> u64 {
        match self {
            Self::Settled(_) => SETTLED,
            Self::Spent(_) => SPENT,
            Self::Broken => BROKEN,
        }
    }

    /// The rounds, the last change, or 0 where it is broken.
    pub fn value(self) -> f64 {
        match self {
            Self::Settled(rounds) => rounds as f64,
            Self::Spent(last_change) => last_change,
            Self::Broken => 0.0,
        }
    }

    /// The kinds that it is not.
    pub fn other_kinds(self) -> impl Iterator<Item = u64> {
        let kinds = [SETTLED, SPENT, BROKEN].into_iter();
        kinds.filter(move |&kind| kind != self.kind())
    }

    /// Values that are wrong: a round more or less.
    pub fn other_values(self) -> impl Iterator<Item = f64> {
        let steps = match self {
            Self::Settled(0) => &[1.0][..],
            Self::Settled(_) => &[1.0, -1.0],
            Self::Spent(_) | Self::Broken => &[],
        };
        steps.iter().map(move |step| self.value() + step)
    }

    pub fn name(self) -> &'static str {
        match self {
            Self::Settled(0) => "settled at once",
            Self::Settled(_) => "settled",
            Self::Spent(_) => "spent",
            Self::Broken => "broken",
        }
    }
}
