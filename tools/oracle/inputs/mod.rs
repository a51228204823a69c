//! The inputs, made: numbers, INDEXes and charstrings.

pub mod case;
mod damaged;
mod edges;
pub mod explaining;
pub mod flattening;
pub mod font;
pub mod glyphs;
pub mod index;
mod loose;
pub mod marking;
pub mod number;
mod structured;
mod widths;

pub use damaged::damaged;
pub use loose::loose;
pub use structured::{structured, structured_font};
