//! Faults about how a charstring comes to its end, for each operation that runs one. Most tell what the rules give with the fault
//! in them.

use crate::faults::{ruled, tell, tell_ruled, tell_tokens, tokens_place};
use crate::operation::{library, Call, Fault, Lent, Operation};
use crate::rules::flattening::{at_end, AtEnd, By, Ending, Rules, RULES};

/// Those of an operation: where it has 16 all, but the first where it has no 13; else none.
pub fn of(operation: &Operation) -> &'static [Fault] {
    match [16, 13].map(|answer| operation.has(answer)) {
        [true, true] => &FAULTS,
        [true, false] => &FAULTS[1..],
        _ => &[],
    }
}

/// No end is refused.
pub const ANY_END: Rules = Rules { at_end: let_through, ..RULES };

static FAULTS: [Fault; 10] = [
    Fault { name: "16 is told after 13", plant: room_first },
    Fault {
        name: "16 is told in plain too",
        plant: |call, lent| by(call, lent, |at| at_end(AtEnd { strict: true, ..at })),
    },
    Fault { name: "16 is told before 12", plant: composite_last },
    Fault {
        name: "16 is told at a return at depth 2",
        plant: |call, lent| {
            by(call, lent, |at| refused_if(at.by == By::Return && at.depth == 2, at))
        },
    },
    Fault {
        name: "16 is told where an entry runs out",
        plant: |call, lent| {
            by(call, lent, |at| refused_if(at.by == By::RunningOut && at.depth == 2, at))
        },
    },
    Fault {
        name: "16 is told at the endchar of an entry",
        plant: |call, lent| {
            by(call, lent, |at| refused_if(at.by == By::Endchar && at.depth > 1, at))
        },
    },
    Fault {
        name: "the empty charstring is let through",
        plant: |call, lent| by(call, lent, |at| let_through_if(at.empty, at)),
    },
    Fault {
        name: "a charstring that runs out is let through",
        plant: |call, lent| {
            by(call, lent, |at| let_through_if(at.by == By::RunningOut && !at.empty, at))
        },
    },
    Fault {
        name: "a return at depth 1 is let through",
        plant: |call, lent| by(call, lent, |at| let_through_if(at.by == By::Return, at)),
    },
    Fault { name: "16 tells tokens", plant: |call, lent| tell_tokens(call, lent, 16) },
];

fn let_through(at: AtEnd) -> Ending {
    at_end(AtEnd { strict: false, ..at })
}

fn let_through_if(such: bool, at: AtEnd) -> Ending {
    if such {
        return let_through(at);
    }
    at_end(at)
}

fn refused_if(such: bool, at: AtEnd) -> Ending {
    if at.strict && such {
        return Ending::Refused;
    }
    at_end(at)
}

/// Tells what must come where strings end by this rule.
fn by(call: &Call, lent: &Lent, at_end: fn(AtEnd) -> Ending) -> u32 {
    tell_ruled(call, lent, Rules { at_end, ..RULES })
}

fn room_first(call: &Call, lent: &Lent) -> u32 {
    let outcome = ruled(call, ANY_END);
    match outcome.answer {
        13 => tell(call, lent, &outcome),
        _ => library(call, lent),
    }
}

fn composite_last(call: &Call, lent: &Lent) -> u32 {
    let mut outcome = ruled(call, RULES);
    if outcome.answer == 12 && call.strict() {
        outcome.answer = 16;
        outcome.values[tokens_place(call)] = None;
    }
    tell(call, lent, &outcome)
}
