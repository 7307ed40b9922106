pub mod frequency_domain;
pub mod scalar;
pub mod transfer_fn;
