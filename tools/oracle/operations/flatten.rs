//! Flattening: 8. The Rust has a word in the plain profile, where both lists are well formed and the answer is not 3, 8 or 11:
//! the bytes of an accepted one, `CFFError` for 4, 5, 6, 7, 9 and 10, and `Unimplemented` for 12. It is asked once the rule's
//! run has ended, so that it ends too. Tokens, the width, room, and what is wrong with a list are the rule's alone. What must come
//! where rows are lent, in 32, and where open calls are told, in 64, stands here too.

use super::check_list::check;
use super::write_charstring_number::rooms;
use crate::end_faults::ANY_END;
use crate::faults::tell_ruled;
use crate::inputs::case::{Case, Given, NONE};
use crate::inputs::{damaged, flattening, loose, structured};
use crate::library::ighzamrel_flatten;
use crate::operation::{library, Argument, Call, Fault, Found, Lent, Must, Next, Operation};
use crate::operation::{Outcome, Owed, Place, BARE, NO_WIDTH};
use crate::random::Random;
use crate::record::MOST;
use crate::rules::explaining::{words, Entering};
use crate::rules::flattening::{Judged, Lists, Rules, Verdict, Width, RULES};
use crate::rules::index::{formed, Flaw};
use crate::rules::marking::{row, row_size, Entered};
use crate::rules::number::Operand;
use crate::kept::Kept;
use std::borrow::Cow;
use subsetter::Error;

/// A budget beyond which no random run is followed.
const AMPLE: u32 = 20_000;

pub const LENGTH: u8 = 0b1;
pub const TOKENS: u8 = 0b10;
pub const ENTRY: u8 = 0b100;
pub const REASON: u8 = 0b1000;
const WIDTH_KIND: u8 = 1 << KIND_PLACE;
pub const WIDTH: u8 = 1 << WIDTH_PLACE;
/// What a charstring gives that says no width.
pub const FLAT: u8 = LENGTH | TOKENS | WIDTH_KIND;

pub const KIND_PLACE: usize = 4;
pub const WIDTH_PLACE: usize = 5;

pub static OPERATION: Operation = Operation {
    number: 8,
    name: "flatten",
    arguments: &[
        Argument::Profile,
        Argument::Budget,
        Argument::Room,
        Argument::Bytes(0),
        Argument::List(1),
        Argument::List(2),
    ],
    places: &[Place::Size, Place::U32, Place::U32, Place::U32, Place::U32, Place::I32],
    answers: &[
        (0, FLAT),
        (0, FLAT | WIDTH),
        (1, REASON),
        (1, ENTRY | REASON),
        (2, REASON),
        (2, ENTRY | REASON),
        (3, TOKENS),
        (4, TOKENS),
        (5, TOKENS),
        (6, TOKENS),
        (7, TOKENS),
        (8, TOKENS),
        (9, TOKENS),
        (10, TOKENS),
        (11, TOKENS),
        (12, TOKENS),
        (13, LENGTH | TOKENS),
        (15, 0),
        (16, 0),
    ],
    reasons: Some((3, &[20, 21, 40, 41, 42])),
    width: Some((KIND_PLACE, WIDTH_PLACE)),
    found: Found::Written,
    owed,
    invoke,
    next,
    listed: |operation| of(operation, flattening::listed()),
    beyond: || of(&OPERATION, flattening::beyond(MOST)),
    more: |operation| of(operation, flattening::more()),
    random: any,
    faults: &[
        Fault {
            name: "one token too many is told",
            plant: |call, lent| after(call, lent, accepts, |lent| add_token(lent, 0)),
        },
        Fault {
            name: "one token too many is told of more than 20",
            plant: |call, lent| after(call, lent, accepts, |lent| add_token(lent, 20)),
        },
        Fault {
            name: "a refusal of the run sets the length",
            plant: |call, lent| after(call, lent, stops, |lent| set(lent, 0, 0usize)),
        },
        Fault {
            name: "refusal 2 sets the tokens",
            plant: |call, lent| after(call, lent, |answer| answer == 2, |lent| set(lent, 1, 0u32)),
        },
        Fault {
            name: "9 is told as 10",
            plant: |call, lent| match library(call, lent) {
                9 => 10,
                answer => answer,
            },
        },
        Fault {
            name: "12 is told as 6",
            plant: |call, lent| match library(call, lent) {
                12 => 6,
                answer => answer,
            },
        },
        Fault {
            name: "13 where the room is just enough",
            plant: |call, lent| flatten_by(lent, call.profile, call.budget, lent.room.saturating_sub(1)),
        },
        Fault {
            name: "3 where the budget is just enough",
            plant: |call, lent| flatten_by(lent, call.profile, call.budget.saturating_sub(1), lent.room),
        },
        Fault {
            name: "strict is taken for plain",
            plant: |call, lent| flatten_by(lent, 0, call.budget, lent.room),
        },
        Fault {
            name: "a reason is told where the charstring is accepted",
            plant: |call, lent| after(call, lent, accepts, |lent| set(lent, 3, 0u32)),
        },
        Fault {
            name: "an entry is told where the INDEX is refused",
            plant: |call, lent| after(call, lent, refuses_list, tell_entry),
        },
        Fault {
            name: "the entry and the reason are exchanged",
            plant: |call, lent| after(call, lent, refuses_list, exchange),
        },
        Fault { name: "1 tells what is wrong with the local list", plant: by_locals },
        Fault { name: "a last byte like endchar's is taken for one", plant: by_last_byte },
    ],
    ..BARE
};

fn invoke(call: &Call, lent: &Lent) -> u32 {
    flatten_by(lent, call.profile, call.budget, lent.room)
}

fn flatten_by(lent: &Lent, profile: u32, budget: u32, room: usize) -> u32 {
    let [(cs, cs_len), (globals, globals_len), (locals, locals_len)] = lent.slices;
    let (out, length, tokens) = (lent.out, lent.place(0), lent.place(1));
    let (entry, reason) = (lent.place(2), lent.place(3));
    let (width_kind, width) = (lent.place(KIND_PLACE), lent.place(WIDTH_PLACE));
    unsafe {
        ighzamrel_flatten(
            cs, cs_len, globals, globals_len, locals, locals_len, profile, budget, out, room, length,
            tokens, entry, reason, width_kind, width,
        )
    }
}

/// Each asked of an operation.
pub fn of(operation: &'static Operation, given: Vec<Given>) -> Vec<Call<'static>> {
    given.into_iter().map(|given| asked(operation, given)).collect()
}

pub fn asked(operation: &'static Operation, given: Given) -> Call<'static> {
    let Given { case: Case { charstring, globals, locals }, profile, budget, room } = given;
    let slices = [charstring, globals, locals].map(Cow::Owned);
    Call { profile, budget, room, slices, ..Call::of(operation) }
}

/// A charstring that mostly runs to its end, a looser one, or one of either with bytes hurt.
pub fn any(operation: &'static Operation, random: &mut Random) -> Call<'static> {
    let mut case = if random.once_in(8) { loose(random) } else { structured(random) };
    if random.once_in(5) {
        case = damaged(case, random);
    }
    let budget = if random.once_in(4) { random.within(0, 300) as u32 } else { AMPLE };
    let room = if random.once_in(4) { random.within(0, 40) } else { 1500 };
    asked(operation, case.asked(random.within(0, 1) as u32, budget, room as usize))
}

pub fn owed(call: &Call) -> Result<Owed, String> {
    let [charstring, globals, locals] = call.slices.each_ref().map(|slice| &slice[..]);
    Kept::with([globals, locals], |kept| {
        let lists = match Lists::known(globals, locals, kept.formed) {
            Ok(lists) => lists,
            Err(bad) => return Ok(Owed::by_rule(bad_list(call.operation, bad))),
        };
        if lacks_row(call, lists) {
            return Ok(Owed::by_rule(Outcome::refused(43)));
        }
        let judged = lists.flattened(charstring, call.strict(), call.budget);
        let outcome = outcome(call, lists, &judged);
        let owed = match by_rust(&judged.verdict).filter(|_| !call.strict()) {
            Some(rule) => Owed::by_both(outcome, rule, kept.source().flattened(charstring)),
            None => Ok(Owed::by_rule(outcome)),
        };
        owed.map(|owed| Owed { met: Some(judged.met), ..owed })
    })
}

/// What must come of a run.
fn outcome(call: &Call, lists: Lists, judged: &Judged) -> Outcome {
    let told = with_rows(told(call, &judged.verdict), call, lists, &judged.entered);
    with_calls(told, call, &judged.open)
}

fn told(call: &Call, verdict: &Verdict) -> Outcome {
    match verdict {
        Verdict::Flat(flat, tokens, width) => {
            let values = [flat.len() as i64, (*tokens).into()];
            match shown(call, flat) {
                Some(bytes) => with_width(Outcome::told(0, values, bytes), *width),
                None => Outcome::told(13, values, Vec::new()),
            }
        }
        Verdict::BadList(refusal, flaw) => bad_list(call.operation, (*refusal, *flaw)),
        Verdict::Stopped(refusal, tokens) => stopped(*refusal, *tokens),
    }
}

/// A flat string as it is written: none where it is longer than the room, and no bytes where no room is lent.
fn shown(call: &Call, flat: &[u8]) -> Option<Vec<u8>> {
    match call.operation.shows() {
        true => (flat.len() <= call.room).then(|| flat.to_vec()),
        false => Some(Vec::new()),
    }
}

fn with_width(mut told: Outcome, width: Width) -> Outcome {
    let (kind, value) = match width {
        Some(Operand::Integer(value)) => (0, Some(value)),
        Some(Operand::Fixed(value)) => (1, Some(value)),
        None => (NO_WIDTH, None),
    };
    told.values[KIND_PLACE] = Some(kind);
    told.values[WIDTH_PLACE] = value.map(i64::from);
    told
}

/// Whether a row that is lent is too short for its list.
fn lacks_row(call: &Call, lists: Lists) -> bool {
    let short = |(row, count): (&Cow<[u8]>, u32)| row.len() < row_size(count);
    call.operation.takes_rows() && call.rows.iter().zip(lists.counts()).any(short)
}

/// With the rows that are left, where some are lent and the call is accepted.
fn with_rows(told: Outcome, call: &Call, lists: Lists, entered: &Entered) -> Outcome {
    if told.answer != 0 || !call.operation.takes_rows() {
        return told;
    }
    let counts = lists.counts();
    let rows = [0, 1].map(|i| row(counts[i], &entered[i], &call.rows[i]));
    Outcome { rows, ..told }
}

/// With the calls that are open, where they are told.
fn with_calls(mut told: Outcome, call: &Call, open: &[Entering]) -> Outcome {
    if let Some(place) = call.operation.calls {
        told.values[place] = Some(open.len() as i64);
        told.words = words(open, call.words);
    }
    told
}

/// The refusal of a run, with its tokens where it tells them.
fn stopped(refusal: u32, tokens: u32) -> Outcome {
    let mut told = Outcome::refused(refusal);
    told.values[1] = tells_tokens(refusal).then_some(tokens.into());
    told
}

/// What must come by these rules.
pub fn ruled(call: &Call, rules: Rules) -> Outcome {
    match judged(call, rules) {
        Ok((lists, _)) if lacks_row(call, lists) => Outcome::refused(43),
        Ok((lists, judged)) => outcome(call, lists, &judged),
        Err(bad) => bad_list(call.operation, bad),
    }
}

/// The lists and the verdict on the run, where both lists are well formed.
pub fn judged<'a>(call: &'a Call, rules: Rules) -> Result<(Lists<'a>, Judged), (u32, Flaw)> {
    let [charstring, globals, locals] = call.slices.each_ref().map(|slice| &slice[..]);
    let lists = Lists::known(globals, locals, [globals, locals].map(formed))?.by(rules);
    Ok((lists, lists.flattened(charstring, call.strict(), call.budget)))
}

/// The refusal of a list: why, at the place for reasons, and the entry at the place before it. No call is open.
pub fn bad_list(operation: &Operation, (refusal, flaw): (u32, Flaw)) -> Outcome {
    let mut told = Outcome::refused(refusal);
    if let Some((place, _)) = operation.reasons {
        told.values[place - 1] = flaw.entry().map(i64::from);
        told.values[place] = Some(flaw.reason().into());
    }
    if let Some(place) = operation.calls {
        told.values[place] = Some(0);
    }
    told
}

/// What the Rust owes for a verdict, or `None` where it has no word.
fn by_rust(verdict: &Verdict) -> Option<Result<Vec<u8>, Error>> {
    match verdict {
        Verdict::Flat(bytes, ..) => Some(Ok(bytes.clone())),
        Verdict::BadList(..) => None,
        Verdict::Stopped(refusal, _) => error(*refusal).map(Err),
    }
}

/// The Rust's error for the refusal of a run, or `None` where it has no word.
pub fn error(refusal: u32) -> Option<Error> {
    match refusal {
        3 | 8 | 11 | 15 | 16 => None,
        12 => Some(Error::Unimplemented),
        _ => Some(Error::CFFError),
    }
}

pub fn next<'a>(call: &'a Call<'a>, outcome: &'a Outcome) -> Vec<Next<'a>> {
    let mut next = rooms(call, outcome);
    next.extend(no_room(call, outcome));
    next.extend(budgets(call, outcome, |_| Must::Refuse(3)));
    next.extend(lists(call, outcome, &[(1, 1), (2, 2)]));
    if outcome.answer == 0 {
        let slices = [&outcome.bytes[..], NONE, NONE].map(Cow::Borrowed);
        let budget = outcome.values[1].unwrap_or(0) as u32;
        next.push(Next {
            call: Call { budget, room: outcome.bytes.len(), slices, ..call.again() },
            must: Must::GiveTheSameAt(LENGTH | WIDTH_KIND | WIDTH),
            law: "the flat string does not flatten to itself in as many tokens, or says another width",
        });
    }
    next.push(other_profile(call, outcome));
    next
}

/// What refuses a run is told whatever the room.
pub fn no_room<'a>(call: &'a Call<'a>, outcome: &Outcome) -> Option<Next<'a>> {
    stops(outcome.answer).then(|| Next {
        call: Call { room: 0, ..call.again() },
        must: Must::GiveTheSame,
        law: "without room the run is not refused as with it",
    })
}

pub fn other_profile<'a>(call: &'a Call<'a>, outcome: &Outcome) -> Next<'a> {
    let accepted = outcome.answer == 0 && call.strict();
    Next {
        call: Call { profile: u32::from(!call.strict()), ..call.again() },
        must: if accepted { Must::GiveTheSame } else { Must::Any },
        law: "plain does not give what strict accepts",
    }
}

/// A budget of just the tokens and any larger one give the same; one less gives 3, as `less` says of it.
pub fn budgets<'a>(
    call: &'a Call<'a>,
    outcome: &Outcome,
    less: impl FnOnce(u32) -> Must<'a>,
) -> Vec<Next<'a>> {
    let Some(tokens) = tokens(call, outcome) else { return Vec::new() };
    let with = |budget: u32, must: Must<'a>, law: &'static str| Next {
        call: Call { budget, ..call.again() },
        must,
        law,
    };
    let same = "a budget of just the tokens, or a larger one, gives another answer";
    let mut next = vec![
        with(tokens, Must::GiveTheSame, same),
        with(u32::MAX, Must::GiveTheSame, same),
    ];
    if let Some(budget) = tokens.checked_sub(1) {
        next.push(with(budget, less(budget), "a budget one too small is not told by 3"));
    }
    next
}

/// The tokens of a run that ended before the budget did; 15 and 16 do not tell them, and the rule does.
fn tokens(call: &Call, outcome: &Outcome) -> Option<u32> {
    match outcome.answer {
        3 => None,
        15 | 16 => judged(call, RULES).ok().map(|(_, judged)| judged.verdict.tokens()),
        _ => outcome.values[1].map(|tokens| tokens as u32),
    }
}

/// The refusal of a list tells what the check of that one tells, and those that are looked at before it are well formed. The
/// refusals come in their order, each with the slice that its list is.
pub fn lists<'a>(
    call: &'a Call<'a>,
    outcome: &Outcome,
    order: &[(u32, usize)],
) -> Vec<Next<'a>> {
    let list = |which: usize, must: Must<'a>| {
        let law = "a list is not refused as the check of it says";
        Next { call: check(&call.slices[which]), must, law }
    };
    let Some(at) = order.iter().position(|(refusal, _)| *refusal == outcome.answer) else {
        return Vec::new();
    };
    let Some((place, _)) = call.operation.reasons else { return Vec::new() };
    let mut told = Outcome::refused(outcome.values[place].unwrap_or(0) as u32);
    told.values[1] = outcome.values[place - 1];
    let mut next = vec![list(order[at].1, Must::Give(told))];
    next.extend(order[..at].iter().map(|(_, before)| list(*before, Must::Tell(Vec::new()))));
    next
}

/// The library's answer; and then something is done where it is such a one.
pub fn after(call: &Call, lent: &Lent, such: fn(u32) -> bool, harm: fn(&Lent)) -> u32 {
    let answer = library(call, lent);
    if such(answer) {
        harm(lent);
    }
    answer
}

pub fn accepts(answer: u32) -> bool {
    answer == 0
}

/// Whether a run was refused.
pub fn stops(answer: u32) -> bool {
    tells_tokens(answer) || [15, 16].contains(&answer)
}

/// Whether a run was refused with its tokens.
pub fn tells_tokens(answer: u32) -> bool {
    (3..=12).contains(&answer)
}

pub fn set<T>(lent: &Lent, which: usize, value: T) {
    unsafe { *lent.place(which) = value };
}

fn add_token(lent: &Lent, above: u32) {
    let tokens: u32 = unsafe { *lent.place(1) };
    set(lent, 1, tokens + u32::from(tokens > above));
}

pub fn refuses_list(answer: u32) -> bool {
    answer == 1 || answer == 2
}

fn tell_entry(lent: &Lent) {
    let reason: u32 = unsafe { *lent.place(3) };
    if reason < 25 {
        set(lent, 2, 0u32);
    }
}

fn exchange(lent: &Lent) {
    let [entry, reason]: [u32; 2] = unsafe { [*lent.place(2), *lent.place(3)] };
    if reason > 25 {
        set(lent, 2, reason);
        set(lent, 3, entry);
    }
}

fn by_last_byte(call: &Call, lent: &Lent) -> u32 {
    match judged(call, ANY_END).map(|(_, judged)| judged.verdict) {
        Ok(Verdict::Flat(flat, ..)) if flat.last() == Some(&14) => tell_ruled(call, lent, ANY_END),
        _ => library(call, lent),
    }
}

fn by_locals(call: &Call, lent: &Lent) -> u32 {
    let answer = library(call, lent);
    if let (1, Err(Flaw::Entry(entry, reason))) = (answer, formed(&call.slices[2])) {
        set(lent, 2, entry);
        set(lent, 3, reason);
    }
    answer
}
