//! A call's index: 9.

use super::write_charstring_number::operand;
use crate::inputs::number::{any_operand, edges, FIXED_EXAMPLES, INTEGERS};
use crate::library::ighzamrel_call_index;
use crate::operation::{library, Argument, Call, Fault, Lent, Operation, Outcome, Owed, Place, BARE};
use crate::rules::number as rules;
use crate::source::number as source;

pub static OPERATION: Operation = Operation {
    number: 9,
    name: "call_index",
    arguments: &[Argument::Kind, Argument::Value, Argument::Profile],
    places: &[Place::I32],
    answers: &[(0, 1), (7, 0)],
    owed,
    invoke,
    listed: |_| listed(),
    sample: 2000,
    beyond: || vec![index(2, 0, 0), index(1, 0, 2)],
    random: |_, random| {
        let (kind, value) = any_operand(random);
        index(kind, value, random.within(0, 1) as u32)
    },
    faults: &[Fault { name: "a Fixed that is not whole is a call's index", plant: not_whole }],
    ..BARE
};

fn invoke(call: &Call, lent: &Lent) -> u32 {
    unsafe { ighzamrel_call_index(call.kind, call.value, call.profile, lent.place(0)) }
}

fn index(kind: u32, value: i32, profile: u32) -> Call<'static> {
    Call { kind, value, profile, ..Call::of(&OPERATION) }
}

/// Integers as they are; the examples; Fixed values around each power of two, and at the edge of what f32 rounds
/// to the first and the last multiple of 65536 of each bit length.
fn listed() -> Vec<Call<'static>> {
    let mut values: Vec<i64> = FIXED_EXAMPLES.map(i64::from).to_vec();
    for k in 0..=31u32 {
        values.extend((-2..=2).map(|d| (1i64 << k) + d));
        let first = (1i64 << k).max(65536);
        let last = (1i64 << (k + 1)) - 65536;
        for multiple in [first, last].into_iter().filter(|&m| m >= 65536) {
            for distance in edges(multiple) {
                values.extend([multiple - distance, multiple + distance]);
            }
        }
    }
    let fixed: Vec<i32> =
        values.iter().flat_map(|&v| [v, -v]).filter_map(|v| i32::try_from(v).ok()).collect();
    [0, 1]
        .into_iter()
        .flat_map(|profile| {
            let integers = INTEGERS.map(|value| index(0, value, profile));
            integers.into_iter().chain(fixed.iter().map(move |&value| index(1, value, profile)))
        })
        .collect()
}

fn owed(call: &Call) -> Result<Owed, String> {
    let rule = rules::call_index(operand(call), call.strict());
    let outcome = told(rule.map(i64::from));
    if call.strict() {
        return Ok(Owed::by_rule(outcome));
    }
    Owed::by_both(outcome, rule.ok(), source::call_index(operand(call)))
}

/// One value, or a refusal.
pub fn told(answer: Result<i64, u32>) -> Outcome {
    match answer {
        Ok(value) => Outcome::told(0, [value], Vec::new()),
        Err(refusal) => Outcome::refused(refusal),
    }
}

fn not_whole(call: &Call, lent: &Lent) -> u32 {
    let answer = library(call, lent);
    if answer == 7 && !call.strict() {
        unsafe { *lent.place(0) = 0i32 };
        return 0;
    }
    answer
}
