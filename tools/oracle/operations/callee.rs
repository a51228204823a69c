//! The entry that a call enters: 10. It is no C function of the library; `tools/tried` exports it.

use super::call_index::told;
use super::write_charstring_number::operand;
use crate::inputs::number::{any_operand, COUNTS, FIXED_EXAMPLES};
use crate::library::tried_callee;
use crate::operation::{Argument, Call, Lent, Operation, Owed, Place, BARE};
use crate::random::Random;
use crate::rules::number::{self as rules, bias};
use crate::source::number as source;

pub static OPERATION: Operation = Operation {
    number: 10,
    name: "callee",
    arguments: &[Argument::Kind, Argument::Value, Argument::Profile, Argument::Number],
    places: &[Place::U32],
    answers: &[(0, 1), (7, 0), (9, 0)],
    owed,
    invoke,
    listed: |_| listed(),
    sample: 2000,
    beyond: || vec![callee(2, 0, 0, 1), callee(1, 0, 2, 1)],
    random: |_, random| any(random),
    ..BARE
};

fn invoke(call: &Call, lent: &Lent) -> u32 {
    unsafe { tried_callee(call.kind, call.value, call.profile, call.number, lent.place(0)) }
}

fn callee(kind: u32, value: i32, profile: u32, number: u32) -> Call<'static> {
    Call { kind, value, profile, number, ..Call::of(&OPERATION) }
}

/// The examples; around the first and the last entry of each count, by its own bias and by the two others, as an
/// integer and as a Fixed; and indexes at the ends of 32 bits.
fn listed() -> Vec<Call<'static>> {
    let mut calls = Vec::new();
    for (value, profile) in FIXED_EXAMPLES.into_iter().flat_map(|value| [(value, 0), (value, 1)]) {
        let counts = COUNTS.into_iter().chain([407, 408, 1431, 1432]);
        calls.extend(counts.map(|count| callee(1, value, profile, count)));
    }
    for count in COUNTS {
        let last = i64::from(count);
        let entries = [-1, 0, 1, last - 1, last, last + 1];
        let indexes = [107, 1131, 32768].iter().flat_map(|by| entries.map(|entry| entry - by));
        for (index, profile) in indexes.flat_map(|index| [(index, 0), (index, 1)]) {
            let integer = i32::try_from(index).ok();
            calls.extend(integer.map(|value| callee(0, value, profile, count)));
            let fixed = [-1, 0, 1].map(|off| i32::try_from(index * 65536 + off).ok());
            calls.extend(fixed.into_iter().flatten().map(|n| callee(1, n, profile, count)));
        }
        for value in [i32::MIN, i32::MAX - 32768, i32::MAX - 32767, i32::MAX] {
            calls.extend([callee(0, value, 0, count), callee(1, value, 0, count)]);
        }
    }
    calls
}

/// A call that mostly falls near an end of the list, or inside it.
fn any(random: &mut Random) -> Call<'static> {
    let count = match random.within(0, 3) {
        0 => random.one_of(&COUNTS),
        1 => random.within(0, 2500) as u32,
        2 => random.within(0, 65536) as u32,
        _ => random.one_of(&COUNTS).saturating_add_signed(random.within(-3, 3) as i32),
    };
    let last = i64::from(count);
    let entry = match random.within(0, 2) {
        0 => random.within(-2, 2),
        1 => last + random.within(-2, 2),
        _ => random.within(0, last),
    };
    let index = entry - bias(count);
    let (kind, value) = if random.once_in(2) {
        (0, index)
    } else {
        let off = if random.once_in(2) { 0 } else { random.within(-70, 70) };
        (1, index.saturating_mul(65536) + off)
    };
    let (kind, value) = match i32::try_from(value) {
        Ok(value) if !random.once_in(8) => (kind, value),
        _ => any_operand(random),
    };
    callee(kind, value, random.within(0, 1) as u32, count)
}

fn owed(call: &Call) -> Result<Owed, String> {
    let rule = rules::callee(operand(call), call.strict(), call.number);
    let outcome = told(rule.map(i64::from));
    if call.strict() || call.number > source::MOST_ENTRIES {
        return Ok(Owed::by_rule(outcome));
    }
    Owed::by_both(outcome, rule.ok(), source::callee(operand(call), call.number))
}
