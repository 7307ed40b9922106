//! Safe functions over the proved archives of `crates/c_api`, `c_summaries` and `panel`, which the thin crates
//! `c_api_c`, `c_summaries_c` and `panel_c` export.
//!
//! What is taken from the Rust that was ported, `core::frequency_domain` of oxictl, has its meaning
//! and its name, but for these: [`Refusal`] is `FreqError` there, which has four cases; [`Reading`] is
//! `BodePoint`; [`LocusPoint`] is `RootLocusPoint`, and [`locus_point`] gives one of those that
//! `compute_root_locus` gives; [`TransferFn::eval`] is `eval_tf_complex`. Summaries, the filling of
//! grids, [`Ending`], [`gain_crossover_readings`], [`Complex::divide_or_zero`], [`pairs`] and [`panel`]
//! are not in the Rust.
//!
//! See the repository's README for what is proved. A call is answered or turned away with a
//! [`Refusal`], whatever its arguments are.
//!
//! ```
//! use bazintroa::{gain_margin, phase_margin};
//!
//! let omega = [1.0, 2.0, 4.0, 8.0];
//! let db = [6.0, 2.0, -2.0, -10.0];
//! let phase = [-90.0, -120.0, -160.0, -200.0];
//! assert_eq!(gain_margin(&omega, &db, &phase), Ok(Some(6.0)));
//! assert_eq!(phase_margin(&omega, &db, &phase), Ok(Some(40.0)));
//! ```
//!
//! # The programs beside it
//!
//! `bazintroa` is the one that people use: margins of a sweep, responses and root locus of a loop.
//! `compare_sqrt` holds the square root against the processor's. `compare` and `bench` hold everything
//! against the Rust; they have the feature `oracle` and are built and run by `tools/oracle/run`, which
//! has the Rust. `damage` calls with damaged and random arguments, to be watched by valgrind, which
//! must report nothing:
//!
//! ```text
//! cargo build --release --bin damage
//! valgrind --error-exitcode=1 target/release/damage 10000000
//! ```

mod bode;
mod complex;
#[doc(hidden)]
pub mod exported;
mod nyquist;
pub mod panel;
#[doc(hidden)]
pub mod random;
mod refusal;
mod root_locus;
mod scalar;
mod sensitivity;
mod transfer_fn;

pub use bode::{
    gain_crossover_frequency, gain_crossover_readings, gain_margin, phase_crossover_frequency,
    phase_margin, BodeSummary, Reading,
};
pub use complex::Complex;
pub use nyquist::{distance_to_critical, fill_frequency_grid, CurveSummary};
pub use refusal::Refusal;
pub use root_locus::{fill_gain_grid, locus_point, stability_region, Ending, LocusPoint};
pub use scalar::{abs, sqrt};
pub use sensitivity::{
    bandwidth, sensitivity_crossover, Bandwidth, LoopShaping, SensitivitySummary,
};
pub use transfer_fn::{pairs, TransferFn};

/// The Rust of the README is a test.
#[cfg(doctest)]
#[doc = include_str!("../../README.md")]
struct Readme;
