//! Flattenings: those of the list, and those too big or too many to store.

use super::case::{list, Case, Given, FIRST, GLOBAL, L, LOCAL, NONE, PLAIN, SECOND, STRICT};
use super::index::rows as strings;
use super::{edges, widths};
use std::collections::HashSet;
use std::hash::Hash;

/// Those of the list, each once.
pub fn listed() -> Vec<Given> {
    let mut asked: Vec<Given> = rows().iter().chain(&readings()).flat_map(Case::around).collect();
    asked.extend(edges::all());
    asked.extend(widths::all());
    each_once(asked)
}

pub(super) fn each_once<T: Clone + Eq + Hash>(mut asked: Vec<T>) -> Vec<T> {
    let mut seen = HashSet::new();
    asked.retain(|given| seen.insert(given.clone()));
    asked
}

/// A profile and a room out of range.
pub fn beyond(most: usize) -> Vec<Given> {
    let case = Case::new(&[0x0E], NONE, NONE);
    vec![case.ample(2), case.asked(PLAIN, 1, most + 1)]
}

/// Too big to store: 65,535 hints written out, and a million tokens. Too many: every string of one to five of these bytes, over
/// lists of two entries.
pub fn more() -> Vec<Given> {
    const ALPHABET: [u8; 8] = [FIRST, SECOND, 0x01, LOCAL, 0x0B, 0x0E, 0x13, GLOBAL];
    const TOKENS: u32 = 1_048_550;
    let mut asked = edges::plain_hints(1 << 20);
    let case = Case::new(&vec![0x15; TOKENS as usize], NONE, NONE);
    asked.push(case.asked(PLAIN, u32::MAX, 1 << 20));
    asked.push(case.asked(PLAIN, TOKENS, TOKENS as usize - 1));
    asked.push(case.asked(STRICT, TOKENS - 1, TOKENS as usize));
    let two = list(&[&[0x8C, 0x8D, 0x0B], &[0x13, FIRST, LOCAL]]);
    for string in (1..=5).flat_map(|length| strings(&ALPHABET, length)) {
        asked.push(Case::new(&string, &two, &two).asked(PLAIN, 200, 64));
    }
    asked
}

/// The rows of docs/RULES.md.
pub(super) fn rows() -> Vec<Case> {
    let local = |charstring: &[u8], locals: &[u8]| Case::new(charstring, NONE, locals);
    vec![
        local(&[], NONE),
        local(&[0x20, 0x0A, 0x0E], L),
        local(&[0xFF, 0xFF, 0x95, 0x00, 0x00, 0x0A, 0x0E], L),
        local(&[0x1C, 0x00, 0x05, 0x0E], NONE),
        local(&[0x0B, 0x00], NONE),
        local(&[0x21, 0x20, 0x0A, 0x0E], &[0x00, 0x02, 0x01, 0x01, 0x02, 0x04, 0x0A, 0x8C, 0x16]),
        local(&[0x20, 0x0A, 0x00], &[0x00, 0x01, 0x01, 0x01, 0x02, 0x0E]),
        local(&[0x8B, 0x8C, 0x01, 0x8B, 0x8C, 0x13, 0x80, 0x0E], NONE),
        local(&[0x13, 0x0E], NONE),
        local(&[0x8B, 0x8B, 0x8B, 0x8B, 0x0E], NONE),
        local(&[0x8B, 0x8B, 0x8B, 0x0E], NONE),
        local(&[0x8B, 0x8C, 0x01, 0x13, 0x80, 0x20, 0x13, 0x80, 0x0A], L),
        local(&[0x20, 0x0A], &[0x00, 0x01, 0x01, 0x01, 0x03, 0x20, 0x0A]),
        local(&[0x00], NONE),
    ]
}

/// Where the rules leave room to be read otherwise: lists that are emptied or begin late, strings without an end, a `return` at
/// depth 1, indexes of many forms, masks before and after stems, no list at all.
fn readings() -> Vec<Case> {
    let local = |charstring: &[u8], locals: &[u8]| Case::new(charstring, NONE, locals);
    let call = &[FIRST, LOCAL];
    vec![
        local(&[], &[0x00, 0x02, 0x01, 0x01, 0x01, 0x00]),
        local(&[FIRST, LOCAL, 0x0E], &[0x00, 0x01, 0x01, 0x02, 0x03, 0x8C, 0x0B]),
        local(&[FIRST, LOCAL, 0x0E], &[0x00, 0x01, 0x01, 0x03, 0x03, 0xAA, 0xBB]),
        local(call, L),
        local(call, &[0x00, 0x01, 0x01, 0x01, 0x04, 0x8C, 0x8D, 0x15]),
        local(&[0x0B], NONE),
        local(&[0xFF, 0x7F, 0xFF, 0xFF, 0xFF, 0x0A], L),
        local(&[0x8B, 0x8C, 0x01, 0x13, 0x80, 0xFF, 0x00, 0x00, 0x80, 0x00, 0x13, 0x80, 0x0A], L),
        local(&[0x8B, 0x8C, 0x01, 0x13, 0x80, 0x8B, 0x13, 0x80, 0x0A], L),
        local(&[0x13, 0x8B, 0x8C, 0x13, 0x80, 0x0E], NONE),
        local(&[0x8B, 0x8C, 0x13, 0x80, 0x8B, 0x8C, 0x01, 0x13, 0x80, 0x0E], NONE),
        local(&[0x0E], &[]),
        Case::new(&[0x0E], &[], NONE),
    ]
}
