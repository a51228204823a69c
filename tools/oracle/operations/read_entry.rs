//! Reading an entry of an INDEX: 6.

use super::read_index;
use crate::inputs::index::{any_bytes, any_number, listed, more, Read};
use crate::library::ighzamrel_read_entry;
use crate::operation::{
    library, Argument, Call, Fault, Found, Lent, Must, Next, Operation, Outcome, Owed, Place, BARE,
};
use crate::random::Random;
use crate::rules::index as rules;
use crate::source::index as source;
use std::borrow::Cow;

pub static OPERATION: Operation = Operation {
    number: 6,
    name: "read_entry",
    invoke,
    next,
    faults: &[
        Fault { name: "by offsets of one byte an entry starts late", plant: late::<1> },
        Fault { name: "by offsets of two bytes an entry starts late", plant: late::<2> },
        Fault { name: "by offsets of three bytes an entry starts late", plant: late::<3> },
        Fault { name: "by offsets of four bytes an entry starts late", plant: late::<4> },
        Fault {
            name: "41 and 42 are exchanged in their order",
            plant: |call, lent| exchanged(call, library(call, lent), call.number, [41, 42]),
        },
        Fault {
            name: "40 and 41 are exchanged in their order",
            plant: |call, lent| exchanged(call, library(call, lent), call.number, [40, 41]),
        },
        Fault {
            name: "the number is looked at before a last offset of 0",
            plant: |call, lent| exchanged(call, library(call, lent), call.number, [40, 25]),
        },
    ],
    ..ENTRY
};

/// What both ways to an entry have in common.
pub const ENTRY: Operation = Operation {
    arguments: &[Argument::Number, Argument::List(0)],
    places: &[Place::Size, Place::Size],
    answers: &[(0, 0b11), (20, 0), (21, 0), (25, 0), (40, 0), (41, 0), (42, 0)],
    found: Found::InSlice,
    owed,
    listed: |operation| all(operation, listed()),
    more: |operation| all(operation, more()),
    random: any,
    ..BARE
};

pub fn invoke(call: &Call, lent: &Lent) -> u32 {
    let (bytes, size) = lent.slices[0];
    unsafe { ighzamrel_read_entry(bytes, size, call.number, lent.place(0), lent.place(1)) }
}

/// Each entry that is asked for.
fn all(operation: &'static Operation, reads: Vec<Read>) -> Vec<Call<'static>> {
    let each = |read: Read| {
        let bytes = read.bytes;
        read.numbers.into_iter().map(move |number| entry(operation, number, bytes.clone()))
    };
    reads.into_iter().flat_map(each).collect()
}

fn any(operation: &'static Operation, random: &mut Random) -> Call<'static> {
    let bytes = any_bytes(random);
    entry(operation, any_number(&bytes, random), bytes)
}

fn entry(operation: &'static Operation, number: u32, bytes: Vec<u8>) -> Call<'static> {
    let mut call = Call { number, ..Call::of(operation) };
    call.slices[0] = Cow::Owned(bytes);
    call
}

pub fn owed(call: &Call) -> Result<Owed, String> {
    let bytes = &call.slices[0];
    let rule = rules::entry(bytes, call.number);
    let part = rule.map(|entry| &bytes[entry.place..entry.place + entry.length]);
    let outcome = match (rule, part) {
        (Ok(entry), Ok(part)) => {
            Outcome::told(0, [entry.place as i64, entry.length as i64], part.to_vec())
        }
        (Err(refusal), _) | (_, Err(refusal)) => Outcome::refused(refusal),
    };
    let source = (source::entry(bytes, call.number), source::part(bytes, call.number));
    Owed::by_both(outcome, (rule.ok(), part.ok()), source)
}

/// An entry is refused as its INDEX is; and an INDEX that has it, or has it not, is read.
fn next<'a>(call: &'a Call<'a>, outcome: &Outcome) -> Vec<Next<'a>> {
    let whole = Call { operation: &read_index::OPERATION, ..call.again() };
    let must = match outcome.answer {
        0 | 25 | 40..=42 => Must::Tell(Vec::new()),
        refusal => Must::Refuse(refusal),
    };
    vec![Next { call: whole, must, law: "an entry is not refused as its INDEX is" }]
}

fn late<const SIZE: u8>(call: &Call, lent: &Lent) -> u32 {
    let answer = library(call, lent);
    if answer == 0 && call.slices[0][2] == SIZE {
        unsafe { *lent.place::<usize>(0) += 1 };
    }
    answer
}

/// The answer about an entry, were the second of these tested before the first.
pub fn exchanged(call: &Call, answer: u32, entry: u32, [first, second]: [u32; 2]) -> u32 {
    if answer == first && rules::reasons(&call.slices[0], entry).contains(&second) {
        return second;
    }
    answer
}
