//! Reading an INDEX: 5.

use super::read_charstring_number::{just_taken, of_bytes};
use crate::inputs::index::{any_bytes, listed, more, Read};
use crate::library::ighzamrel_read_index;
use crate::operation::{Argument, Call, Lent, Operation, Outcome, Owed, Place, BARE};
use crate::rules::index as rules;
use crate::source::index as source;

pub static OPERATION: Operation = Operation {
    number: 5,
    name: "read_index",
    places: &[Place::U32, Place::Size],
    answers: &[(0, 0b11), (20, 0), (21, 0)],
    owed,
    invoke,
    next: |call, outcome| just_taken(call, outcome, outcome.values[1], 20),
    ..LIST
};

/// What all that take a list alone have in common.
pub const LIST: Operation = Operation {
    arguments: &[Argument::List(0)],
    listed: |operation| each(operation, listed()),
    more: |operation| each(operation, more()),
    random: |operation, random| of_bytes(operation, any_bytes(random)),
    ..BARE
};

fn each(operation: &'static Operation, reads: Vec<Read>) -> Vec<Call<'static>> {
    reads.into_iter().map(|read| of_bytes(operation, read.bytes)).collect()
}

fn invoke(_: &Call, lent: &Lent) -> u32 {
    let (bytes, size) = lent.slices[0];
    unsafe { ighzamrel_read_index(bytes, size, lent.place(0), lent.place(1)) }
}

fn owed(call: &Call) -> Result<Owed, String> {
    let rule = rules::read(&call.slices[0]);
    let outcome = match rule {
        Ok(extent) => Outcome::told(0, [extent.entries.into(), extent.taken as i64], Vec::new()),
        Err(refusal) => Outcome::refused(refusal),
    };
    Owed::by_both(outcome, rule.ok(), source::read(&call.slices[0]))
}
