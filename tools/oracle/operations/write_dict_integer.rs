//! Writing a DICT integer: 4.

use super::write_charstring_number::{dict_back, owed, rooms};
use crate::inputs::number::{any_integer, any_room, INTEGERS, WRITTEN};
use crate::library::ighzamrel_write_dict_integer;
use crate::operation::{Argument, Call, Found, Lent, Operation, Place, BARE};
use crate::record::MOST;
use crate::rules::number::Place as Where;

pub static OPERATION: Operation = Operation {
    number: 4,
    name: "write_dict_integer",
    arguments: &[Argument::Value, Argument::Room],
    places: &[Place::Size],
    answers: &[(0, 1), (13, 1)],
    found: Found::Written,
    owed: |call| owed(call, Where::Dict),
    invoke,
    next: |call, outcome| rooms(call, outcome).into_iter().chain(dict_back(call, outcome)).collect(),
    listed: |_| listed(),
    sample: 2000,
    beyond: || vec![write(0, MOST + 1)],
    random: |_, random| write(any_integer(random), any_room(random)),
    ..BARE
};

fn invoke(call: &Call, lent: &Lent) -> u32 {
    unsafe { ighzamrel_write_dict_integer(call.value, lent.out, lent.room, lent.place(0)) }
}

fn write(value: i32, room: usize) -> Call<'static> {
    Call { value, room, ..Call::of(&OPERATION) }
}

fn listed() -> Vec<Call<'static>> {
    let mut calls: Vec<_> = WRITTEN.iter().map(|(value, bytes)| write(*value, bytes.len())).collect();
    calls.extend((0..=6).flat_map(|room| INTEGERS.map(|value| write(value, room))));
    calls.push(write(-1, MOST));
    calls
}
