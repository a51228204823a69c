//! The proved library held against the unchanged Rust and the rules of docs/RULES.md, operation by operation.

pub mod compare;
mod end_faults;
mod explain_faults;
pub mod faults;
pub mod fixed;
mod font_faults;
pub mod fonts;
pub mod fuzzed;
pub mod inputs;
mod kept;
pub mod lend;
pub mod library;
pub mod list;
mod mark_faults;
mod mask_faults;
pub mod operation;
pub mod operations;
pub mod random;
pub mod record;
pub mod rules;
pub mod sections;
pub mod shrink;
pub mod source;
pub mod tally;
pub mod threads;
mod width_faults;
