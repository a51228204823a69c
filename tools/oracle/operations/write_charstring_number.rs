//! Writing a charstring number: 3.

use super::{read_charstring_number, read_dict_integer};
use crate::inputs::number::{any_operand, any_room, FIXEDS, FIXED_EXAMPLES, INTEGERS, WRITTEN};
use crate::lend::MOST_ROOM;
use crate::library::ighzamrel_write_charstring_number;
use crate::operation::{Argument, Call, Found, Lent, Must, Next, Operation, Outcome, Owed, Place, BARE};
use crate::record::MOST;
use crate::rules::number::{self as rules, Operand, Place as Where};
use crate::source::number as source;
use std::borrow::Cow;

pub static OPERATION: Operation = Operation {
    number: 3,
    name: "write_charstring_number",
    arguments: &[Argument::Kind, Argument::Value, Argument::Room],
    places: &[Place::Size],
    answers: &[(0, 1), (13, 1), (17, 0)],
    found: Found::Written,
    owed: |call| owed(call, Where::Charstring),
    invoke,
    next,
    listed: |_| listed(),
    sample: 2000,
    beyond: || vec![write(2, 0, 5), write(0, 0, MOST + 1)],
    random: |_, random| {
        let (kind, value) = any_operand(random);
        write(kind, value, any_room(random))
    },
    ..BARE
};

fn invoke(call: &Call, lent: &Lent) -> u32 {
    let Call { kind, value, .. } = *call;
    unsafe { ighzamrel_write_charstring_number(kind, value, lent.out, lent.room, lent.place(0)) }
}

fn write(kind: u32, value: i32, room: usize) -> Call<'static> {
    Call { kind, value, room, ..Call::of(&OPERATION) }
}

/// The examples, and each boundary of each written form at each room from 0 to 6, and at the most.
fn listed() -> Vec<Call<'static>> {
    let mut calls: Vec<_> =
        WRITTEN.iter().map(|(value, bytes)| write(0, *value, bytes.len())).collect();
    calls.extend(FIXED_EXAMPLES.map(|value| write(1, value, 5)));
    for room in 0..=6 {
        calls.extend(INTEGERS.map(|value| write(0, value, room)));
        calls.extend(FIXEDS.map(|value| write(1, value, room)));
    }
    calls.push(write(1, -1, MOST));
    calls
}

pub fn operand(call: &Call) -> Operand {
    if call.fixed() {
        Operand::Fixed(call.value)
    } else {
        Operand::Integer(call.value)
    }
}

pub fn owed(call: &Call, place: Where) -> Result<Owed, String> {
    let operand = operand(call);
    match rules::written(place, operand) {
        Ok(rule) => {
            Owed::by_both(into_room(call, rule.clone()), rule, source::written(operand))
        }
        Err(refusal) => Ok(Owed::by_rule(Outcome::refused(refusal))),
    }
}

/// What writing these bytes gives: they fit, or 13 with their length.
pub fn into_room(call: &Call, bytes: Vec<u8>) -> Outcome {
    let length = bytes.len() as i64;
    if bytes.len() > call.room {
        Outcome::told(13, [length], Vec::new())
    } else {
        Outcome::told(0, [length], bytes)
    }
}

fn next<'a>(call: &'a Call<'a>, outcome: &'a Outcome) -> Vec<Next<'a>> {
    let mut next = rooms(call, outcome);
    let length = outcome.bytes.len() as i64;
    let tell = vec![i64::from(call.fixed()), call.value.into(), length];
    next.extend(read_back(&read_charstring_number::OPERATION, outcome, tell));
    next
}

/// What was written reads back by this operation.
pub fn read_back<'a>(
    operation: &'static Operation,
    outcome: &'a Outcome,
    values: Vec<i64>,
) -> Option<Next<'a>> {
    let mut call = Call::of(operation);
    call.slices[0] = Cow::Borrowed(&outcome.bytes);
    let law = "what was written does not read back";
    (outcome.answer == 0).then_some(Next { call, must: Must::Tell(values), law })
}

/// 13 exactly where the room is too short, and else the same bytes.
pub fn rooms<'a>(call: &'a Call<'a>, outcome: &'a Outcome) -> Vec<Next<'a>> {
    let (0 | 13, Some(length)) = (outcome.answer, outcome.values[0]) else { return Vec::new() };
    let length = length as usize;
    let into = |room: usize| Call { room, ..call.again() };
    if length >= MOST_ROOM {
        let law = "the most room is enough for more";
        return vec![Next { call: into(MOST_ROOM), must: Must::GiveTheSame, law }];
    }
    let enough = |room: usize| Next {
        call: into(room),
        must: match outcome.answer {
            0 => Must::GiveTheSame,
            _ => Must::Tell(vec![length as i64]),
        },
        law: "room for it is not enough, or gives other bytes",
    };
    let mut next = vec![enough(length), enough(length + 1)];
    if let Some(short) = length.checked_sub(1) {
        let law = "a room one too short is not refused";
        next.push(Next { call: into(short), must: Must::Refuse(13), law });
    }
    next
}

/// For DICT integers.
pub fn dict_back<'a>(call: &Call, outcome: &'a Outcome) -> Option<Next<'a>> {
    let values = vec![call.value.into(), outcome.bytes.len() as i64];
    read_back(&read_dict_integer::OPERATION, outcome, values)
}
