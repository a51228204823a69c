//! Faults in a thin layer before the library. A comparison and a fuzz target that do not catch each are worth little.

use crate::lend::PLANTED;
use crate::operation::{library, Call, Fault, Found, Lent, Operation, Outcome, Place, Side};
use crate::operations::flatten::set;
use crate::operations::{flatten, flatten_font, OPERATIONS};
use crate::rules::flattening::Rules;
use crate::{end_faults, font_faults, mask_faults, width_faults};

const MOST: usize = usize::MAX;

/// Those that any operation can have.
static EVERYWHERE: [Fault; 9] = [
    Fault { name: "the byte behind what is reported is changed", plant: byte_behind },
    Fault { name: "the byte before the room is changed", plant: byte_before },
    Fault { name: "a refusal changes the first lent byte", plant: byte_on_refusal },
    Fault { name: "over 8 bytes written have another last one", plant: other_last_byte::<9, MOST> },
    Fault {
        name: "over 200 bytes written have another last one",
        plant: other_last_byte::<201, MOST>,
    },
    Fault { name: "just 77 bytes written have another last one", plant: other_last_byte::<77, 77> },
    Fault { name: "a refusal sets a place that it does not give", plant: place_on_refusal },
    Fault { name: "a byte of an input is changed", plant: input_changed },
    Fault { name: "the byte behind an input is read", plant: read_behind },
];

/// All of them, those that any operation can have first.
fn all() -> Vec<(&'static Fault, Option<&'static Operation>)> {
    let own = |&operation: &&'static Operation| {
        let strict = mask_faults::of(operation).iter().chain(end_faults::of(operation));
        let own = operation.faults.iter().chain(font_faults::of(operation)).chain(strict);
        let own = own.chain(width_faults::of(operation));
        own.map(move |fault| (fault, Some(operation)))
    };
    let everywhere = EVERYWHERE.iter().map(|fault| (fault, None));
    everywhere.chain(OPERATIONS.iter().flat_map(own)).collect()
}

/// Plants a fault for the rest of the process, and tells its name; none where there are not so many.
pub fn plant(number: usize) -> Option<String> {
    let &(fault, only) = all().get(number)?;
    PLANTED.set((fault, only)).ok()?;
    Some(format!("{}: {}", only.map_or("everywhere", |operation| operation.name), fault.name))
}

/// What must come of a flattening by these rules.
pub(crate) fn ruled(call: &Call, rules: Rules) -> Outcome {
    if call.operation.takes_font() {
        return flatten_font::ruled(call, rules);
    }
    flatten::ruled(call, rules)
}

pub(crate) fn tell_ruled(call: &Call, lent: &Lent, rules: Rules) -> u32 {
    tell(call, lent, &ruled(call, rules))
}

pub(crate) fn tell(call: &Call, lent: &Lent, outcome: &Outcome) -> u32 {
    for (which, place) in call.operation.places.iter().enumerate() {
        match (place, outcome.values[which]) {
            (Place::Size, Some(value)) => set(lent, which, value as usize),
            (_, Some(value)) => set(lent, which, value as u32),
            (_, None) => {}
        }
    }
    // SAFETY: what is told to be written fits the room.
    unsafe { lent.out.copy_from(outcome.bytes.as_ptr(), outcome.bytes.len()) };
    tell_rows(lent, &outcome.rows);
    // SAFETY: so are the words that are told.
    unsafe { lent.words.0.copy_from(outcome.words.as_ptr(), outcome.words.len()) };
    outcome.answer
}

/// Leaves rows that are as long as those lent.
pub(crate) fn tell_rows(lent: &Lent, rows: &[Vec<u8>; 2]) {
    for ((at, _), row) in lent.rows.iter().zip(rows) {
        // SAFETY: each row stands in a block of its own.
        unsafe { at.copy_from(row.as_ptr(), row.len()) };
    }
}

pub(crate) fn tokens_place(call: &Call) -> usize {
    if call.operation.takes_font() {
        2
    } else {
        1
    }
}

/// The library's answer; with this refusal it tells tokens.
pub(crate) fn tell_tokens(call: &Call, lent: &Lent, refusal: u32) -> u32 {
    let answer = library(call, lent);
    if answer == refusal {
        set(lent, tokens_place(call), 0u32);
    }
    answer
}

fn writes(call: &Call) -> bool {
    call.operation.found == Found::Written
}

fn byte_behind(call: &Call, lent: &Lent) -> u32 {
    let answer = library(call, lent);
    if writes(call) && answer == 0 && lent.size(0) < lent.room {
        unsafe { *lent.out.add(lent.size(0)) ^= 0x10 };
    }
    answer
}

fn byte_before(call: &Call, lent: &Lent) -> u32 {
    if lent.side == Side::High {
        unsafe { *lent.out.sub(1) = 0 };
    }
    library(call, lent)
}

fn byte_on_refusal(call: &Call, lent: &Lent) -> u32 {
    let answer = library(call, lent);
    if answer == 13 && lent.room > 0 {
        unsafe { *lent.out = 14 };
    }
    answer
}

fn other_last_byte<const LEAST: usize, const MOST: usize>(call: &Call, lent: &Lent) -> u32 {
    let answer = library(call, lent);
    if writes(call) && answer == 0 && (LEAST..=MOST).contains(&lent.size(0)) {
        unsafe { *lent.out.add(lent.size(0) - 1) ^= 1 };
    }
    answer
}

fn place_on_refusal(call: &Call, lent: &Lent) -> u32 {
    let answer = library(call, lent);
    if !call.operation.places.is_empty() && call.operation.given(answer, 0) == Some(0) {
        unsafe { *lent.place(0) = 0u32 };
    }
    answer
}

fn input_changed(call: &Call, lent: &Lent) -> u32 {
    let answer = library(call, lent);
    let (bytes, size) = lent.slices[0];
    if answer == 0 && size > 4 {
        unsafe { *bytes.add(4) ^= 1 };
    }
    answer
}

fn read_behind(call: &Call, lent: &Lent) -> u32 {
    let (bytes, size) = lent.slices[0];
    if size > 0 {
        unsafe { bytes.add(size).read_volatile() };
    }
    library(call, lent)
}
