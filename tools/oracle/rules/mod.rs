//! What docs/RULES.md says, once more in plain whole numbers. Nothing here asks the Rust.

pub mod explaining;
pub mod flattening;
pub mod font;
pub mod index;
pub mod marking;
pub mod number;
