//! Faults about operands that wait at a mask, for each operation that runs a charstring. All but the last tell what the rules give with
//! the fault in them.

use crate::faults::{tell_ruled, tell_tokens};
use crate::operation::{Call, Fault, Lent, Operation};
use crate::rules::flattening::{at_mask, AtMask, Operands, Rules, RULES};

/// Those of an operation: all where it has 15, else none.
pub fn of(operation: &Operation) -> &'static [Fault] {
    match operation.has(15) {
        true => &FAULTS,
        false => &[],
    }
}

static FAULTS: [Fault; 7] = [
    Fault {
        name: "15 is told after 4",
        plant: |call, lent| {
            by(call, lent, |at| at_mask(AtMask { waiting: at.waiting && !at.lacking, ..at }))
        },
    },
    Fault {
        name: "15 is told in plain too",
        plant: |call, lent| by(call, lent, |at| at_mask(AtMask { strict: true, ..at })),
    },
    Fault {
        name: "15 is told at the first mask too",
        plant: |call, lent| by(call, lent, |at| refused_if(at.strict && at.waiting, at)),
    },
    Fault {
        name: "15 is told behind a mask without bytes",
        plant: |call, lent| {
            by(call, lent, |at| refused_if(at.strict && at.waiting && at.later, at))
        },
    },
    Fault {
        name: "15 is forgotten at 20",
        plant: |call, lent| {
            by(call, lent, |at| at_mask(AtMask { strict: at.strict && at.operator != 20, ..at }))
        },
    },
    Fault {
        name: "operands at a fixed mask are cleared",
        plant: |call, lent| by(call, lent, cleared),
    },
    Fault { name: "15 tells tokens", plant: |call, lent| tell_tokens(call, lent, 15) },
];

fn refused_if(such: bool, at: AtMask) -> Operands {
    if such {
        return Operands::Refused;
    }
    at_mask(at)
}

fn cleared(at: AtMask) -> Operands {
    match at_mask(at) {
        Operands::Refused => Operands::Cleared,
        other => other,
    }
}

/// Tells what must come where operands at a mask go by this rule.
fn by(call: &Call, lent: &Lent, at_mask: fn(AtMask) -> Operands) -> u32 {
    tell_ruled(call, lent, Rules { at_mask, ..RULES })
}
