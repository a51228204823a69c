//! Whether a list is well formed, and else what is wrong with it: 11.

use super::read_entry::{self, exchanged};
use super::read_index::LIST;
use crate::library::ighzamrel_check_list;
use crate::operation::{library, Call, Fault, Lent, Must, Next, Operation, Outcome, Owed, Place};
use crate::rules::index::{self as rules, Flaw};
use crate::source::index as source;
use std::borrow::Cow;

const COUNT: u8 = 0b01;
const ENTRY: u8 = 0b10;

pub static OPERATION: Operation = Operation {
    number: 11,
    name: "check_list",
    places: &[Place::U32, Place::U32],
    answers: &[(0, COUNT), (20, 0), (21, 0), (40, ENTRY), (41, ENTRY), (42, ENTRY)],
    owed,
    invoke,
    next,
    faults: &[
        Fault { name: "the second entry that is absent is told", plant: second },
        Fault {
            name: "41 and 42 are exchanged in their order",
            plant: |call, lent| {
                let answer = library(call, lent);
                exchanged(call, answer, unsafe { *lent.place(1) }, [41, 42])
            },
        },
        Fault { name: "a list that is emptied is taken for an empty one", plant: emptied },
    ],
    ..LIST
};

fn invoke(_: &Call, lent: &Lent) -> u32 {
    let (bytes, size) = lent.slices[0];
    unsafe { ighzamrel_check_list(bytes, size, lent.place(0), lent.place(1)) }
}

pub fn check(list: &[u8]) -> Call<'_> {
    let mut call = Call::of(&OPERATION);
    call.slices[0] = Cow::Borrowed(list);
    call
}

fn owed(call: &Call) -> Result<Owed, String> {
    let rule = rules::formed(&call.slices[0]);
    let outcome = match rule {
        Ok(count) => Outcome::told(0, [count.into()], Vec::new()),
        Err(flaw) => told(flaw),
    };
    Owed::by_both(outcome, rule.ok(), source::formed(&call.slices[0]))
}

/// The answer about a list with this first flaw.
fn told(flaw: Flaw) -> Outcome {
    let mut told = Outcome::refused(flaw.reason());
    told.values[1] = flaw.entry().map(i64::from);
    told
}

/// The entry that is told as absent is refused for the same reason; the last entry of a well-formed list is there.
fn next<'a>(call: &'a Call<'a>, outcome: &Outcome) -> Vec<Next<'a>> {
    let read = |number: i64, must: Must<'a>| {
        let call =
            Call { operation: &read_entry::OPERATION, number: number as u32, ..call.again() };
        vec![Next { call, must, law: "an entry is not read as the list's answer says" }]
    };
    match outcome.values {
        [Some(count @ 1..), ..] => read(count - 1, Must::Tell(Vec::new())),
        [_, Some(entry), ..] => read(entry, Must::Refuse(outcome.answer)),
        _ => Vec::new(),
    }
}

fn second(call: &Call, lent: &Lent) -> u32 {
    let answer = library(call, lent);
    match rules::flaws(&call.slices[0]).nth(1) {
        Some(Flaw::Entry(entry, reason)) => {
            unsafe { *lent.place(1) = entry };
            reason
        }
        _ => answer,
    }
}

fn emptied(call: &Call, lent: &Lent) -> u32 {
    if rules::read(&call.slices[0]).is_ok_and(|extent| extent.entries == 0) {
        unsafe { *lent.place(0) = 0u32 };
        return 0;
    }
    library(call, lent)
}
