//! Flattening that tells which entries it entered: 32. Answers, places and bytes are those of 8, by its rule and its word of the
//! Rust; 43 and the rows are the rule's alone.

use super::flatten::{
    self, any, asked, judged, owed, ENTRY, FLAT, KIND_PLACE, LENGTH, REASON, TOKENS, WIDTH,
    WIDTH_PLACE,
};
use crate::inputs::case::list;
use crate::inputs::marking::{self, Marking};
use crate::kept::Kept;
use crate::library::ighzamrel_flatten_marked;
use crate::mark_faults;
use crate::operation::{Argument, Call, Found, Lent, Must, Next, Operation, Outcome, Place, BARE};
use crate::random::Random;
use crate::record::{MOST, MOST_ROW};
use crate::rules::flattening::RULES;
use crate::rules::index::entries;
use crate::rules::marking::{row, row_size};
use std::borrow::Cow;

/// The lists, and the row of each.
const LISTS: [Argument; 2] = [Argument::List(1), Argument::List(2)];
const ROWS: [Argument; 2] = [Argument::Row(0), Argument::Row(1)];

pub static OPERATION: Operation = Operation {
    number: 32,
    name: "flatten_marked",
    arguments: &[
        Argument::Profile,
        Argument::Budget,
        Argument::Room,
        Argument::Bytes(0),
        LISTS[0],
        LISTS[1],
        ROWS[0],
        ROWS[1],
    ],
    places: &[Place::Size, Place::U32, Place::U32, Place::U32, Place::U32, Place::I32],
    answers: &[
        (0, FLAT),
        (0, FLAT | WIDTH),
        (1, REASON),
        (1, ENTRY | REASON),
        (2, REASON),
        (2, ENTRY | REASON),
        (43, 0),
        (3, TOKENS),
        (4, TOKENS),
        (5, TOKENS),
        (6, TOKENS),
        (7, TOKENS),
        (8, TOKENS),
        (9, TOKENS),
        (10, TOKENS),
        (11, TOKENS),
        (12, TOKENS),
        (13, LENGTH | TOKENS),
        (15, 0),
        (16, 0),
    ],
    reasons: Some((3, &[20, 21, 40, 41, 42])),
    width: Some((KIND_PLACE, WIDTH_PLACE)),
    found: Found::Written,
    owed,
    invoke,
    next,
    listed: |operation| of(operation, marking::listed()),
    sample: 150,
    beyond: || of(&OPERATION, marking::beyond(MOST, MOST_ROW)),
    more: |operation| of(operation, marking::more()),
    random,
    faults: &mark_faults::FAULTS,
    ..BARE
};

fn invoke(call: &Call, lent: &Lent) -> u32 {
    let [(cs, cs_len), (globals, globals_len), (locals, locals_len)] = lent.slices;
    let Call { profile, budget, .. } = *call;
    let (out, room, length, tokens) = (lent.out, lent.room, lent.place(0), lent.place(1));
    let [(globals_row, globals_row_len), (locals_row, locals_row_len)] = lent.rows;
    let (entry, reason) = (lent.place(2), lent.place(3));
    let (width_kind, width) = (lent.place(KIND_PLACE), lent.place(WIDTH_PLACE));
    unsafe {
        ighzamrel_flatten_marked(
            cs, cs_len, globals, globals_len, locals, locals_len, profile, budget, out, room,
            globals_row, globals_row_len, locals_row, locals_row_len, length, tokens, entry, reason,
            width_kind, width,
        )
    }
}

fn of(operation: &'static Operation, given: Vec<Marking>) -> Vec<Call<'static>> {
    let call =
        |Marking { given, rows }| Call { rows: rows.map(Cow::Owned), ..asked(operation, given) };
    given.into_iter().map(call).collect()
}

/// A flattening with rows of just as many bytes as its lists need.
pub fn with_exact_rows(call: Call) -> Call {
    let counts = counts(&call).unwrap_or_default();
    let rows = counts.map(|count| Cow::Owned(vec![0xFF; row_size(count)]));
    Call { operation: &OPERATION, rows, ..call }
}

/// As flattening without rows, and now and then a long one.
fn random(operation: &'static Operation, random: &mut Random) -> Call<'static> {
    let mut call = any(operation, random);
    if random.once_in(20) {
        let given = marking::any_long(random).asked(call.profile, call.budget, 4096);
        call = asked(operation, given);
    }
    let rows = marking::any_rows([&call.slices[1], &call.slices[2]], random);
    Call { rows: rows.map(Cow::Owned), ..call }
}

fn next<'a>(call: &'a Call<'a>, outcome: &'a Outcome) -> Vec<Next<'a>> {
    let mut next = flatten::next(call, outcome);
    if outcome.answer != 43 {
        let rows = Call::of(call.operation).rows;
        next.push(Next {
            call: Call { operation: &flatten::OPERATION, rows, ..call.again() },
            must: Must::Give(Outcome { rows: Default::default(), ..outcome.clone() }),
            law: "without rows it is not the same",
        });
    }
    match counts(call).map(|counts| counts.map(row_size)) {
        Some(sizes) => {
            next.extend(short_rows(call, sizes));
            next.extend([0, 3].map(|more| other_rows(call, outcome, sizes, more)));
            next.extend(entered(call, outcome).and_then(|marked| others_changed(call, marked)));
        }
        None => next.push(Next {
            call: Call { rows: Call::of(call.operation).rows, ..call.again() },
            must: Must::GiveTheSame,
            law: "a list is not refused as before where the rows are empty",
        }),
    }
    next
}

/// How many entries each list has, where both are well formed.
pub fn counts(call: &Call) -> Option<[u32; 2]> {
    match Kept::with([&call.slices[1], &call.slices[2]], |kept| kept.formed) {
        [Ok(globals), Ok(locals)] => Some([globals, locals]),
        _ => None,
    }
}

/// Each row a byte too short is 43, whatever else there is.
fn short_rows<'a>(call: &'a Call<'a>, sizes: [usize; 2]) -> Vec<Next<'a>> {
    let short = |i: usize| {
        let row = vec![0xFF; sizes[i].checked_sub(1)?];
        let call = call.again().with_bytes(ROWS[i], row);
        Some(Next { call, must: Must::Refuse(43), law: "a row that is too short is not refused" })
    };
    (0..2).filter_map(short).collect()
}

/// Rows of just as many bytes as are needed, or of some more, that hold other bits: the same, and what is lent past them stays.
fn other_rows<'a>(
    call: &'a Call<'a>,
    outcome: &'a Outcome,
    sizes: [usize; 2],
    more: usize,
) -> Next<'a> {
    let lent = [0, 1].map(|i| {
        let held = call.rows[i].iter().copied().chain(std::iter::repeat(0));
        held.take(sizes[i] + more).map(|byte| !byte).collect::<Vec<u8>>()
    });
    let must = match outcome.answer {
        43 => Must::Any,
        0 => {
            let left = |i: usize| [&outcome.rows[i][..sizes[i]], &lent[i][sizes[i]..]].concat();
            Must::Give(Outcome { rows: [0, 1].map(left), ..outcome.clone() })
        }
        _ => Must::GiveTheSame,
    };
    let call = Call { rows: lent.map(Cow::Owned), ..call.again() };
    Next { call, must, law: "rows that hold other bits, or are longer, give something else" }
}

/// What the run entered, by the rows where it is accepted.
fn entered(call: &Call, outcome: &Outcome) -> Option<[Vec<u8>; 2]> {
    match outcome.answer {
        43 => None,
        0 => Some(outcome.rows.clone()),
        _ => marks(call),
    }
}

/// Where all entries that the run did not enter are others, nothing changes.
pub fn others_changed<'a>(call: &'a Call<'a>, marked: [Vec<u8>; 2]) -> Option<Next<'a>> {
    let mut other = call.again();
    for (list, row) in LISTS.into_iter().zip(marked) {
        other = other.with_bytes(list, without_others(call.bytes(list)?, &row)?);
    }
    let law = "it is not the same where an entry that is not marked is another";
    Some(Next { call: other, must: Must::GiveTheSame, law })
}

/// A list with a byte that starts no number in the place of each entry that is not marked.
fn without_others(bytes: &[u8], row: &[u8]) -> Option<Vec<u8>> {
    let entries = entries(bytes).ok()?.into_iter().enumerate();
    let kept = |(i, entry)| if row[i / 8] >> (i % 8) & 1 == 1 { entry } else { &[0x00][..] };
    Some(list(&entries.map(kept).collect::<Vec<&[u8]>>()))
}

/// What the run entered, accepted or not, as rows without a tail.
pub fn marks(call: &Call) -> Option<[Vec<u8>; 2]> {
    let (lists, judged) = judged(call, RULES).ok()?;
    let counts = lists.counts();
    Some([0, 1].map(|i| row(counts[i], &judged.entered[i], &vec![0; row_size(counts[i])])))
}
