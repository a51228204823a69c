//! The unchanged Rust's answers, by its public functions.

pub mod flattening;
pub mod index;
pub mod number;
