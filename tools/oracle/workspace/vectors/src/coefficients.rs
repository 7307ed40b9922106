//! Transfer functions to ask about.

use crate::numbers::MAX_ORDER;
use crate::random::Random;
use crate::rows::list;
use oxictl::core::transfer_fn::TransferFn;
use std::array;

/// How to make the two coefficients b[k] and a[k].
pub type Kind = fn(&mut Random) -> [f64; 2];

/// A transfer function as the port takes it, its order being any number.
#[derive(Clone)]
pub struct Coefficients {
    pub order: u64,
    pub b: [f64; 8],
    pub a: [f64; 8],
}

impl Coefficients {
    /// From pairs of b[k] and a[k], with junk past them.
    pub fn new(random: &mut Random, pairs: &[[f64; 2]]) -> Self {
        let mut b = [(); 8].map(|_| random.junk());
        let mut a = [(); 8].map(|_| random.junk());
        for (k, &[b_k, a_k]) in pairs.iter().enumerate() {
            b[k] = b_k;
            a[k] = a_k;
        }
        let order = pairs.len() as u64;
        Self { order, b, a }
    }

    pub fn random(random: &mut Random, order: u64, kind: Kind) -> Self {
        let pairs: Vec<_> = (0..order.min(MAX_ORDER)).map(|_| kind(random)).collect();
        Self {
            order,
            ..Self::new(random, &pairs)
        }
    }

    /// In the words of the definitions.
    pub fn text(&self) -> String {
        let [b, a] = [&self.b, &self.a].map(|values| list(values));
        format!("record {{ b = {b}; a = {a}; order = {} }}", self.order)
    }

    /// As the Rust takes it. It also takes orders above 8; the coefficients past the eighth are 0.
    pub fn transfer_fn<const N: usize>(&self) -> TransferFn<f64, N> {
        let [b, a] = [self.b, self.a].map(|list| array::from_fn(|k| *list.get(k).unwrap_or(&0.0)));
        TransferFn::new(b, a)
    }
}

/// Coefficients of a stable function: the absolute values of all a[k] sum to at most 1.
pub fn stable(random: &mut Random) -> [f64; 2] {
    [random.between(-2.0, 2.0), random.between(-0.125, 0.125)]
}

pub fn moderate(random: &mut Random) -> [f64; 2] {
    [(); 2].map(|_| random.between(-2.0, 2.0))
}

/// Mostly moderate, now and then special.
pub fn mixed(random: &mut Random) -> [f64; 2] {
    [(); 2].map(|_| match random.below(8) {
        0 => random.special(),
        _ => random.between(-2.0, 2.0),
    })
}

pub fn special(random: &mut Random) -> [f64; 2] {
    [(); 2].map(|_| random.special())
}

pub fn uniform_bits(random: &mut Random) -> [f64; 2] {
    [(); 2].map(|_| random.uniform_bits())
}
