//! What the Rust is asked, what it answers, and the test vectors made of both.

pub mod coefficients;
pub mod complex;
pub mod constant;
pub mod ending;
pub mod grids;
pub mod locus;
pub mod numbers;
pub mod panel;
pub mod random;
pub mod rows;
pub mod scans;
pub mod searches;
pub mod sensitivity;
pub mod start_table;
pub mod summaries;
pub mod words;
