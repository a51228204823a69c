//! Faults about the calls that are open where a run is refused.

use crate::faults::{ruled, tell, tell_ruled};
use crate::lend::UNSET;
use crate::operation::{library, Call, Fault, Lent, Side};
use crate::operations::explain::CALLS_PLACE;
use crate::operations::flatten::{accepts, after, judged, refuses_list, set, stops, tells_tokens};
use crate::rules::explaining::{words, Entering, Fate};
use crate::rules::flattening::{Rules, RULES};
use crate::rules::index::formed;
use crate::rules::number::{bias, written, Operand, Place};
use std::slice;

/// The three words of a call.
type Told = [u64; 3];

pub static FAULTS: [Fault; 32] = [
    // which calls
    Fault {
        name: "the innermost call comes first",
        plant: |call, lent| all(call, lent, |told| told.reverse()),
    },
    Fault {
        name: "the call that is refused is told",
        plant: |call, lent| by(call, lent, |fate| matches!(fate, Fate::Open | Fate::Refused)),
    },
    Fault { name: "a call that came back is told", plant: came_back },
    Fault {
        name: "the calls are told where an entry has the endchar",
        plant: |call, lent| by(call, lent, |fate| matches!(fate, Fate::Open | Fate::Ended)),
    },
    Fault { name: "no call is told at 3", plant: |call, lent| none_at(call, lent, 3) },
    Fault { name: "no call is told at 10", plant: |call, lent| none_at(call, lent, 10) },
    Fault { name: "no call is told at 15", plant: |call, lent| none_at(call, lent, 15) },
    Fault {
        name: "the innermost call is left out",
        plant: |call, lent| others(call, lent, |open| open.truncate(open.len().saturating_sub(1))),
    },
    Fault {
        name: "the outermost call is left out",
        plant: |call, lent| others(call, lent, |open| drop(open.drain(..open.len().min(1)))),
    },
    Fault {
        name: "the 11th call and those within it are left out",
        plant: |call, lent| others(call, lent, |open| open.truncate(10)),
    },
    Fault {
        name: "the 63rd call is left out",
        plant: |call, lent| others(call, lent, |open| open.truncate(62)),
    },
    // what is told of each
    Fault {
        name: "local and global are exchanged",
        plant: |call, lent| each(call, lent, |_, told| told[0] ^= 1),
    },
    Fault {
        name: "every call has the list of the outermost",
        plant: |call, lent| all(call, lent, one_list),
    },
    Fault {
        name: "the number has the bias in it",
        plant: |call, lent| each(call, lent, |call, told| told[1] = index(call, told) as u64),
    },
    Fault {
        name: "the number is told modulo 256",
        plant: |call, lent| each(call, lent, |_, told| told[1] %= 256),
    },
    Fault {
        name: "the place is that of the index",
        plant: |call, lent| each(call, lent, at_index),
    },
    Fault {
        name: "the place is that behind the operator",
        plant: |call, lent| each(call, lent, |_, told| told[2] += 1),
    },
    Fault {
        name: "the place is told modulo 256",
        plant: |call, lent| each(call, lent, |_, told| told[2] %= 256),
    },
    Fault {
        name: "the place is counted from that of the call before",
        plant: |call, lent| all(call, lent, counted_on),
    },
    // how many
    Fault {
        name: "as many calls are counted as have room",
        plant: |call, lent| count(call, lent, |open, fit| open.min(fit)),
    },
    Fault {
        name: "a call too few is counted",
        plant: |call, lent| count(call, lent, |open, _| open.saturating_sub(1)),
    },
    Fault {
        name: "the words are counted",
        plant: |call, lent| count(call, lent, |open, _| 3 * open),
    },
    Fault {
        name: "the count stays as it was where the charstring is accepted",
        plant: |call, lent| after(call, lent, accepts, |lent| set(lent, CALLS_PLACE, UNSET)),
    },
    Fault {
        name: "16 tells a call",
        plant: |call, lent| {
            after(call, lent, |answer| answer == 16, |lent| set(lent, CALLS_PLACE, 1usize))
        },
    },
    Fault {
        name: "1 and 2 tell a call",
        plant: |call, lent| after(call, lent, refuses_list, |lent| set(lent, CALLS_PLACE, 1usize)),
    },
    // the words
    Fault { name: "a call is told in part", plant: in_part },
    Fault {
        name: "where words lack, the innermost calls are told",
        plant: |call, lent| short(call, lent, |open, fit| open[open.len() - fit..].to_vec()),
    },
    Fault {
        name: "where words lack, the innermost call is told last",
        plant: |call, lent| short(call, lent, with_innermost),
    },
    Fault {
        name: "the words behind the calls are cleared",
        plant: |call, lent| after(call, lent, stops, |lent| behind(lent).fill(0)),
    },
    Fault {
        name: "a word is written where the charstring is accepted",
        plant: |call, lent| after(call, lent, accepts, |lent| clear(behind(lent).first_mut())),
    },
    Fault { name: "the word behind those lent is changed", plant: word_behind },
    // the verdict
    Fault { name: "13 where the flat string has over 2048 bytes", plant: no_room },
];

/// The words of the calls that are told, and those behind them.
fn split(lent: &Lent) -> (&mut [Told], &mut [u64]) {
    let (at, length) = lent.words;
    let told = lent.size(CALLS_PLACE).min(length / 3);
    // SAFETY: the words stand in a block of their own.
    unsafe {
        let behind = slice::from_raw_parts_mut(at.add(3 * told), length - 3 * told);
        (slice::from_raw_parts_mut(at.cast(), told), behind)
    }
}

fn behind(lent: &Lent) -> &mut [u64] {
    split(lent).1
}

fn clear(word: Option<&mut u64>) {
    word.into_iter().for_each(|word| *word = 0);
}

/// The library's answer; and something done to the calls that it tells.
fn all(call: &Call, lent: &Lent, harm: impl Fn(&mut [Told])) -> u32 {
    let answer = library(call, lent);
    harm(split(lent).0);
    answer
}

fn each(call: &Call, lent: &Lent, harm: fn(&Call, &mut Told)) -> u32 {
    all(call, lent, |told| told.iter_mut().for_each(|one| harm(call, one)))
}

/// Tells what must come where calls are open by this rule.
fn by(call: &Call, lent: &Lent, open: fn(Fate) -> bool) -> u32 {
    tell_ruled(call, lent, Rules { open, ..RULES })
}

/// A refused run tells these too.
fn came_back(call: &Call, lent: &Lent) -> u32 {
    match tells_tokens(ruled(call, RULES).answer) {
        true => by(call, lent, |fate| matches!(fate, Fate::Open | Fate::Back)),
        false => library(call, lent),
    }
}

/// Tells what must come, with the words of other calls, and so many of them.
fn others(call: &Call, lent: &Lent, other: impl Fn(&mut Vec<Entering>)) -> u32 {
    let Ok((_, mut judged)) = judged(call, RULES) else { return library(call, lent) };
    other(&mut judged.open);
    let mut outcome = ruled(call, RULES);
    outcome.values[CALLS_PLACE] = Some(judged.open.len() as i64);
    outcome.words = words(&judged.open, call.words);
    tell(call, lent, &outcome)
}

fn none_at(call: &Call, lent: &Lent, refusal: u32) -> u32 {
    match ruled(call, RULES).answer == refusal {
        true => others(call, lent, Vec::clear),
        false => library(call, lent),
    }
}

/// The library's answer; and another count, by how many calls are open and how many have room.
fn count(call: &Call, lent: &Lent, other: fn(usize, usize) -> usize) -> u32 {
    let answer = library(call, lent);
    set(lent, CALLS_PLACE, other(lent.size(CALLS_PLACE), lent.words.1 / 3));
    answer
}

/// The library's answer; and other calls where not all have room, by these and how many do.
fn short(call: &Call, lent: &Lent, other: fn(&[Entering], usize) -> Vec<Entering>) -> u32 {
    let answer = library(call, lent);
    if let Some((open, fit)) = lacking(call) {
        let other = words(&other(&open, fit), call.words);
        split(lent).0.as_flattened_mut().copy_from_slice(&other);
    }
    answer
}

/// The calls that are open, where not all have room, and how many do.
fn lacking(call: &Call) -> Option<(Vec<Entering>, usize)> {
    let (_, judged) = judged(call, RULES).ok()?;
    let fit = call.words / 3;
    (fit < judged.open.len()).then_some((judged.open, fit))
}

fn in_part(call: &Call, lent: &Lent) -> u32 {
    let answer = library(call, lent);
    if let Some((open, fit)) = lacking(call) {
        let next = words(&open[fit..], 3);
        behind(lent).iter_mut().zip(next).for_each(|(word, part)| *word = part);
    }
    answer
}

fn with_innermost(open: &[Entering], fit: usize) -> Vec<Entering> {
    open.iter()
        .take(fit.saturating_sub(1))
        .chain(open.last().filter(|_| fit > 0))
        .copied()
        .collect()
}

fn one_list(told: &mut [Told]) {
    if let Some((first, rest)) = told.split_first_mut() {
        rest.iter_mut().for_each(|one| one[0] = first[0]);
    }
}

fn counted_on(told: &mut [Told]) {
    let mut sum = 0;
    for one in told {
        sum += one[2];
        one[2] = sum;
    }
}

/// The index by which a call is made.
fn index(call: &Call, told: &Told) -> i64 {
    let list = if told[0] == 1 { &call.slices[1] } else { &call.slices[2] };
    told[1] as i64 - formed(list).map_or(0, bias)
}

/// As if the index were in its shortest form, right before the operator.
fn at_index(call: &Call, told: &mut Told) {
    let index = written(Place::Charstring, Operand::Integer(index(call, told) as i32));
    told[2] = told[2].saturating_sub(index.map_or(0, |bytes| bytes.len() as u64));
}

fn word_behind(call: &Call, lent: &Lent) -> u32 {
    if lent.side == Side::Low {
        let (at, length) = lent.words;
        // SAFETY: the words have a guard there.
        unsafe { *at.add(length) = 0 };
    }
    library(call, lent)
}

fn no_room(call: &Call, lent: &Lent) -> u32 {
    match library(call, lent) {
        0 if lent.size(0) > 2048 => 13,
        answer => answer,
    }
}
