//! Faults about the width that a charstring says. Most tell what the rules give with the fault in them.

use crate::faults::{ruled, tell_ruled};
use crate::operation::{library, Call, Fault, Lent, Operation, NO_WIDTH};
use crate::operations::flatten::{after, set, stops, KIND_PLACE, WIDTH_PLACE};
use crate::rules::flattening::{at_operator, width_at, AtOperator, Rules, Width, RULES};
use crate::rules::number::Operand;

/// Those of an operation: where it tells a width all, but the first where it has no 13; else none.
pub fn of(operation: &Operation) -> &'static [Fault] {
    match (operation.width, operation.has(13)) {
        (Some(_), true) => &FAULTS,
        (Some(_), false) => &FAULTS[1..],
        (None, _) => &[],
    }
}

static FAULTS: [Fault; 25] = [
    Fault { name: "the width is told with 13", plant: told_without_room },
    // which operand
    Fault {
        name: "the top operand is the width",
        plant: |call, lent| {
            by(call, lent, |at| other(at, |width, at| width.and(at.waiting.last().map(operand))))
        },
    },
    Fault {
        name: "the second operand is the width",
        plant: |call, lent| {
            by(call, lent, |at| other(at, |width, at| width.and(at.waiting.get(1).map(operand))))
        },
    },
    // its kind and value
    Fault {
        name: "a Fixed width is told as its integer part",
        plant: |call, lent| by(call, lent, |at| other(at, |width, _| width.map(integer_part))),
    },
    Fault {
        name: "a Fixed width is told as an integer",
        plant: |call, lent| by(call, lent, |at| other(at, |width, _| width.map(bits))),
    },
    Fault {
        name: "no width is told as 0",
        plant: |call, lent| by(call, lent, |at| other(at, |width, _| width.or(Some(ZERO)))),
    },
    // how many operands
    Fault {
        name: "rmoveto has a width from two operands on",
        plant: |call, lent| by(call, lent, |at| has(at, &[21], |waiting| waiting > 1)),
    },
    Fault {
        name: "hmoveto has a width from one operand on",
        plant: |call, lent| by(call, lent, |at| has(at, &[22], |waiting| waiting > 0)),
    },
    Fault {
        name: "vmoveto has a width from three operands on",
        plant: |call, lent| by(call, lent, |at| has(at, &[4], |waiting| waiting > 2)),
    },
    Fault {
        name: "rmoveto has a width at three operands only",
        plant: |call, lent| by(call, lent, |at| has(at, &[21], |waiting| waiting == 3)),
    },
    Fault {
        name: "a stem has a width at an even count",
        plant: |call, lent| {
            by(call, lent, |at| has(at, &STEMS, |waiting| waiting > 0 && waiting % 2 == 0))
        },
    },
    Fault {
        name: "a stem has a width from one operand on",
        plant: |call, lent| by(call, lent, |at| has(at, &STEMS, |waiting| waiting > 0)),
    },
    Fault {
        name: "a stem has no width at 47 operands",
        plant: |call, lent| {
            by(call, lent, |at| has(at, &STEMS, |waiting| waiting % 2 == 1 && waiting != 47))
        },
    },
    Fault {
        name: "a mask has no width",
        plant: |call, lent| by(call, lent, |at| has(at, &MASKS, |_| false)),
    },
    Fault {
        name: "endchar has no width",
        plant: |call, lent| by(call, lent, |at| has(at, &[14], |_| false)),
    },
    Fault {
        name: "rlineto has a width at an odd count",
        plant: |call, lent| by(call, lent, |at| has(at, &[5], |waiting| waiting % 2 == 1)),
    },
    // which operator
    Fault {
        name: "a later operator settles it again",
        plant: |call, lent| by(call, lent, |at| at_operator(AtOperator { settled: None, ..at })),
    },
    Fault {
        name: "a later operator settles it where the first had none",
        plant: |call, lent| {
            by(call, lent, |at| {
                at_operator(AtOperator { settled: at.settled.filter(Option::is_some), ..at })
            })
        },
    },
    Fault {
        name: "a later mask with an odd count settles it",
        plant: |call, lent| by(call, lent, at_later_mask),
    },
    Fault {
        name: "a mask without bytes settles nothing",
        plant: |call, lent| {
            by(call, lent, |at| {
                nothing_if(MASKS.contains(&at.operator) && !at.fixed && at.waiting.len() < 2, at)
            })
        },
    },
    Fault {
        name: "a call settles it",
        plant: |call, lent| by(call, lent, |at| none_at(at, &[10, 29])),
    },
    Fault {
        name: "a return settles it",
        plant: |call, lent| by(call, lent, |at| none_at(at, &[11])),
    },
    Fault {
        name: "an operator of a subroutine settles nothing",
        plant: |call, lent| by(call, lent, |at| nothing_if(at.depth > 1, at)),
    },
    // which places
    Fault { name: "a width is set where there is none", plant: set_where_none },
    Fault {
        name: "a refusal of the run sets the kind of the width",
        plant: |call, lent| after(call, lent, stops, |lent| set(lent, KIND_PLACE, NO_WIDTH as u32)),
    },
];

const STEMS: [u8; 4] = [1, 3, 18, 23];
const MASKS: [u8; 2] = [19, 20];
const ZERO: Operand = Operand::Integer(0);

fn operand((operand, _): &(Operand, u32)) -> Operand {
    *operand
}

fn integer_part(operand: Operand) -> Operand {
    match operand {
        Operand::Fixed(value) => Operand::Integer(value >> 16),
        integer => integer,
    }
}

fn bits(operand: Operand) -> Operand {
    match operand {
        Operand::Fixed(value) => Operand::Integer(value),
        integer => integer,
    }
}

/// Where an operator settles it, another width.
fn other(at: AtOperator, another: fn(Width, AtOperator) -> Width) -> Option<Width> {
    at_operator(at).map(|width| another(width, at))
}

/// Of these operators one has a width with other counts of operands.
fn has(at: AtOperator, operators: &[u8], counts: fn(usize) -> bool) -> Option<Width> {
    match operators.contains(&at.operator) && at.settled.is_none() {
        true => Some(at.waiting.first().map(operand).filter(|_| counts(at.waiting.len()))),
        false => at_operator(at),
    }
}

fn at_later_mask(at: AtOperator) -> Option<Width> {
    let later = at.fixed && MASKS.contains(&at.operator);
    match width_at(at.operator, at.waiting).filter(|_| later) {
        Some(width) => Some(Some(width)),
        None => at_operator(at),
    }
}

fn nothing_if(such: bool, at: AtOperator) -> Option<Width> {
    at_operator(at).filter(|_| !such)
}

/// Of these operators, that settle nothing, one settles that there is none.
fn none_at(at: AtOperator, operators: &[u8]) -> Option<Width> {
    match operators.contains(&at.operator) && at.settled.is_none() {
        true => Some(None),
        false => at_operator(at),
    }
}

/// Tells what must come where an operator settles the width by this rule.
fn by(call: &Call, lent: &Lent, at_operator: fn(AtOperator) -> Option<Width>) -> u32 {
    tell_ruled(call, lent, Rules { at_operator, ..RULES })
}

fn told_without_room(call: &Call, lent: &Lent) -> u32 {
    let answer = library(call, lent);
    if answer == 13 {
        let told = ruled(&Call { room: usize::MAX, ..call.again() }, RULES);
        for place in [KIND_PLACE, WIDTH_PLACE] {
            told.values[place].iter().for_each(|value| set(lent, place, *value as u32));
        }
    }
    answer
}

fn set_where_none(call: &Call, lent: &Lent) -> u32 {
    let answer = library(call, lent);
    if answer == 0 && i64::from(lent.word(KIND_PLACE)) == NO_WIDTH {
        set(lent, WIDTH_PLACE, 0u32);
    }
    answer
}
