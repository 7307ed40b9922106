//! The given files, which `run` puts beside core/mod.rs. Only this file and that one are ours.

pub mod core;
