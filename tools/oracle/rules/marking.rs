//! The rules for rows that tell which entries a run entered (docs/RULES.md). Nothing here asks the Rust.

use std::collections::BTreeSet;

/// The numbers of the entries that a run entered, whether it is accepted or not: the globals' and the locals'.
pub type Entered = [BTreeSet<u32>; 2];

/// How many bytes the row of so many entries has.
pub fn row_size(count: u32) -> usize {
    count.div_ceil(8) as usize
}

/// A row as an accepted run leaves it: entry i is bit i mod 8, from the low end, of byte i / 8, the other bits of these bytes are
/// clear, and what is lent past them stays.
pub fn row(count: u32, entered: &BTreeSet<u32>, lent: &[u8]) -> Vec<u8> {
    let size = row_size(count);
    let bit = |entry: usize| u8::from(entered.contains(&(entry as u32)));
    let byte = |at: usize| (0..8).map(|i| bit(8 * at + i) << i).sum();
    (0..size).map(byte).chain(lent[size..].iter().copied()).collect()
}
