//! Reading a DICT integer: 2.

use super::read_charstring_number::{just_taken, owed, NUMBER};
use crate::library::ighzamrel_read_dict_integer;
use crate::operation::{Call, Lent, Operation, Place};
use crate::rules::number::Place as Where;

pub static OPERATION: Operation = Operation {
    number: 2,
    name: "read_dict_integer",
    places: &[Place::I32, Place::Size],
    answers: &[(0, 0b11), (4, 0), (6, 0)],
    owed: |call| owed(call, Where::Dict),
    invoke,
    next: |call, outcome| just_taken(call, outcome, outcome.values[1], 4),
    ..NUMBER
};

fn invoke(_: &Call, lent: &Lent) -> u32 {
    let (bytes, size) = lent.slices[0];
    unsafe { ighzamrel_read_dict_integer(bytes, size, lent.place(0), lent.place(1)) }
}
