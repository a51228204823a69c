//! The rules for the calls that are open where a run is refused, and for the words that tell them (docs/RULES.md). Nothing here
//! asks the Rust.

/// A call that was entered: of which list, the number of the entry, and where its operator stands in the string that calls.
#[derive(Clone, Copy, Debug, PartialEq, Eq)]
pub struct Entering {
    pub global: bool,
    pub entry: u32,
    pub at: usize,
}

/// What became of a call.
#[derive(Clone, Copy, PartialEq)]
pub enum Fate {
    /// The run was refused in its entry, or below.
    Open,
    /// Its entry came to its end.
    Back,
    /// Everything ended in its entry, or below.
    Ended,
    /// It entered nothing, though the entry is there.
    Refused,
}

/// Of the calls, the outermost first, as many as so many words hold: three for each, 0 for local or 1 for global, the entry's
/// number, and the operator's place.
pub fn words(calls: &[Entering], lent: usize) -> Vec<u64> {
    let three = |call: &Entering| [call.global.into(), call.entry.into(), call.at as u64];
    calls.iter().take(lent / 3).flat_map(three).collect()
}
