//! A smaller input on which the sides still differ, and its description.

use crate::compare::{Comparison, Difference};
use crate::inputs::case::list;
use crate::operation::{Argument, Call};
use crate::rules::index::entries;
use std::borrow::Cow;

/// How many smaller inputs are tried, one with so many numbers more counting as one more; and the budget beyond which no run of
/// theirs is followed.
const TRIES: u32 = 20_000;
const NUMBERS: usize = 100;
const MOST_BUDGET: u32 = 1_100_000;

struct Shrinking<'a> {
    comparison: &'a mut Comparison,
    tries: u32,
    smallest: Difference,
}

/// The description of a difference, on the smallest input that was found.
pub fn described(comparison: &mut Comparison, found: Difference) -> String {
    let lengths = |call: &Call| -> Vec<usize> {
        let size = |argument: &Argument| match argument {
            Argument::Numbers => Some(size_of_val(&call.numbers[..])),
            _ => call.bytes(*argument).map(|bytes| bytes.len()),
        };
        call.operation.arguments.iter().filter_map(size).collect()
    };
    let before = lengths(&found.call);
    let mut shrinking = Shrinking { comparison, tries: TRIES, smallest: found };
    let budget = shrinking.smallest.call.budget.min(MOST_BUDGET);
    let bounded = Call { budget, ..shrinking.smallest.call.clone() };
    if shrinking.differs(bounded) {
        while shrinking.pass() {}
    }
    let Difference { call, why } = shrinking.smallest;
    let after = lengths(&call);
    format!(
        "{}{why}  found with slices, numbers and rows of {before:?} bytes, and cut to {after:?}\n",
        call.described()
    )
}

impl Shrinking<'_> {
    /// Takes the input if the sides differ on it too.
    fn differs(&mut self, call: Call<'static>) -> bool {
        if self.tries == 0 {
            return false;
        }
        let cost = 1 + call.numbers.len() / NUMBERS;
        self.tries = self.tries.saturating_sub(cost as u32);
        match self.comparison.one(&call) {
            Ok(_) => false,
            Err(smaller) => {
                self.smallest = smaller;
                true
            }
        }
    }

    fn bytes(&self, argument: Argument) -> Vec<u8> {
        self.smallest.call.bytes(argument).map_or(Vec::new(), |bytes| bytes.to_vec())
    }

    fn with(&mut self, argument: Argument, bytes: Vec<u8>) -> bool {
        self.differs(self.smallest.call.clone().with_bytes(argument, bytes))
    }

    /// Whether anything could be left out.
    fn pass(&mut self) -> bool {
        let mut smaller = false;
        for &argument in self.smallest.call.operation.arguments {
            smaller |= match argument {
                Argument::Bytes(_) | Argument::Row(_) => self.drop_bytes(argument),
                Argument::Numbers => self.drop_numbers(),
                Argument::List(_) => match entries(&self.bytes(argument)) {
                    Ok(entries) => {
                        let entries = entries.into_iter().map(<[u8]>::to_vec).collect();
                        self.drop_from_entries(argument, entries)
                    }
                    Err(_) => self.drop_bytes(argument),
                },
                Argument::Words => self.lend_fewer_words(),
                _ => false,
            };
        }
        smaller
    }

    fn lend_fewer_words(&mut self) -> bool {
        let words = self.smallest.call.words;
        let mut fewer = [0, words / 2, words.saturating_sub(1)].into_iter().filter(|&n| n < words);
        fewer.any(|words| self.differs(Call { words, ..self.smallest.call.clone() }))
    }

    fn drop_bytes(&mut self, argument: Argument) -> bool {
        self.drop_runs(self.bytes(argument), |own, fewer| own.with(argument, fewer))
    }

    fn drop_numbers(&mut self) -> bool {
        self.drop_runs(self.smallest.call.numbers.to_vec(), |own, fewer| {
            own.differs(Call { numbers: Cow::Owned(fewer), ..own.smallest.call.clone() })
        })
    }

    /// Leaves out runs of bytes or numbers, long ones first, where the sides differ with the others too.
    fn drop_runs<T: Clone>(
        &mut self,
        mut all: Vec<T>,
        mut differs: impl FnMut(&mut Self, Vec<T>) -> bool,
    ) -> bool {
        let mut smaller = false;
        let mut width = all.len();
        while width > 0 {
            let mut at = 0;
            while at + width <= all.len() && self.tries > 0 {
                let mut fewer = all.clone();
                fewer.drain(at..at + width);
                if differs(self, fewer.clone()) {
                    all = fewer;
                    smaller = true;
                } else {
                    at += 1;
                }
            }
            width /= 2;
        }
        smaller
    }

    /// Leaves out runs of entries at either end, long ones first, and bytes of those that are left.
    fn drop_from_entries(&mut self, argument: Argument, mut entries: Vec<Vec<u8>>) -> bool {
        let mut smaller = false;
        let mut width = entries.len();
        while width > 0 {
            while let Some(fewer) = entries.len().checked_sub(width) {
                if self.with(argument, list(&entries[..fewer])) {
                    entries.truncate(fewer);
                } else if self.with(argument, list(&entries[width..])) {
                    entries.drain(..width);
                } else {
                    break;
                }
                smaller = true;
            }
            width /= 2;
        }
        for i in 0..entries.len() {
            let mut at = 0;
            while at < entries[i].len() {
                let mut other = entries.clone();
                other[i].remove(at);
                if self.with(argument, list(&other)) {
                    entries = other;
                    smaller = true;
                } else {
                    at += 1;
                }
            }
        }
        smaller
    }
}
