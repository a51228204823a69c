//! Reading a charstring number: 1.

use crate::inputs::number::{any_bytes, listed_bytes};
use crate::library::ighzamrel_read_charstring_number;
use crate::operation::{Argument, Call, Lent, Must, Next, Operation, Outcome, Owed, Place, BARE};
use crate::rules::number::{self as rules, Operand, Place as Where};
use crate::source::number as source;
use std::borrow::Cow;

pub static OPERATION: Operation = Operation {
    number: 1,
    name: "read_charstring_number",
    places: &[Place::U32, Place::I32, Place::Size],
    answers: &[(0, 0b111), (4, 0), (6, 0)],
    owed: |call| owed(call, Where::Charstring),
    invoke,
    next: |call, outcome| just_taken(call, outcome, outcome.values[2], 4),
    more: |operation| vec![of_bytes(operation, vec![0x1C; 1 << 20])],
    ..NUMBER
};

/// What both readers of numbers have in common.
pub const NUMBER: Operation = Operation {
    arguments: &[Argument::Bytes(0)],
    listed: |operation| {
        listed_bytes().into_iter().map(|bytes| of_bytes(operation, bytes)).collect()
    },
    sample: 2000,
    random: |operation, random| of_bytes(operation, any_bytes(random)),
    ..BARE
};

fn invoke(_: &Call, lent: &Lent) -> u32 {
    let (bytes, size) = lent.slices[0];
    // SAFETY: what is lent is as the header wants it; so too in the other operations.
    unsafe {
        ighzamrel_read_charstring_number(bytes, size, lent.place(0), lent.place(1), lent.place(2))
    }
}

pub fn of_bytes(operation: &'static Operation, bytes: Vec<u8>) -> Call<'static> {
    let mut call = Call::of(operation);
    call.slices[0] = Cow::Owned(bytes);
    call
}

pub fn owed(call: &Call, place: Where) -> Result<Owed, String> {
    let bytes = &call.slices[0];
    let rule = rules::read(place, bytes);
    let outcome = match (rule, place) {
        (Ok((operand, width)), Where::Charstring) => {
            let (kind, value) = match operand {
                Operand::Integer(value) => (0, value),
                Operand::Fixed(value) => (1, value),
            };
            Outcome::told(0, [kind, value.into(), width as i64], Vec::new())
        }
        (Ok((Operand::Integer(value) | Operand::Fixed(value), width)), Where::Dict) => {
            Outcome::told(0, [value.into(), width as i64], Vec::new())
        }
        (Err(refusal), _) => Outcome::refused(refusal),
    };
    if !source::in_domain(place, bytes.first()) {
        return Ok(Owed::by_rule(outcome));
    }
    Owed::by_both(outcome, rule.ok(), source::read(place, bytes))
}

/// The bytes that are taken read the same by themselves, and not without the last of them.
pub fn just_taken<'a>(
    call: &'a Call<'a>,
    outcome: &Outcome,
    taken: Option<i64>,
    lacking: u32,
) -> Vec<Next<'a>> {
    let (0, Some(taken)) = (outcome.answer, taken) else { return Vec::new() };
    let first = |size: i64| call.with(0, call.slices[0].get(..size as usize).unwrap_or_default());
    vec![
        Next {
            call: first(taken),
            must: Must::GiveTheSame,
            law: "the bytes that are taken do not read the same by themselves",
        },
        Next {
            call: first(taken - 1),
            must: Must::Refuse(lacking),
            law: "it is read without its last byte",
        },
    ]
}
