//! Why a charstring is refused: 64. Answers and places are those of 8 with enough room, by its rule and its word of the Rust; the
//! open calls are the rule's alone.

use super::flatten::{
    self, any, asked, budgets, lists, other_profile, owed, stops, ENTRY, FLAT, KIND_PLACE, REASON,
    TOKENS, WIDTH, WIDTH_PLACE,
};
use super::flatten_marked::{marks, others_changed};
use crate::explain_faults;
use crate::inputs::explaining::{self, Explaining};
use crate::inputs::marking::any_long;
use crate::lend::MOST_ROOM;
use crate::library::ighzamrel_explain;
use crate::operation::{Argument, Call, Lent, Must, Next, Operation, Outcome, Place, BARE};
use crate::random::Random;
use crate::record::MOST_WORDS;
use crate::rules::flattening::RULES;

pub const CALLS_PLACE: usize = 6;
const CALLS: u8 = 1 << CALLS_PLACE;

pub static OPERATION: Operation = Operation {
    number: 64,
    name: "explain",
    arguments: &[
        Argument::Profile,
        Argument::Budget,
        Argument::Words,
        Argument::Bytes(0),
        Argument::List(1),
        Argument::List(2),
    ],
    places: &[Place::Size, Place::U32, Place::U32, Place::U32, Place::U32, Place::I32, Place::Size],
    answers: &[
        (0, FLAT | CALLS),
        (0, FLAT | WIDTH | CALLS),
        (1, REASON | CALLS),
        (1, ENTRY | REASON | CALLS),
        (2, REASON | CALLS),
        (2, ENTRY | REASON | CALLS),
        (3, TOKENS | CALLS),
        (4, TOKENS | CALLS),
        (5, TOKENS | CALLS),
        (6, TOKENS | CALLS),
        (7, TOKENS | CALLS),
        (8, TOKENS | CALLS),
        (9, TOKENS | CALLS),
        (10, TOKENS | CALLS),
        (11, TOKENS | CALLS),
        (12, TOKENS | CALLS),
        (15, CALLS),
        (16, CALLS),
    ],
    reasons: Some((3, &[20, 21, 40, 41, 42])),
    width: Some((KIND_PLACE, WIDTH_PLACE)),
    calls: Some(CALLS_PLACE),
    owed,
    invoke,
    next,
    listed: |operation| of(operation, explaining::listed()),
    sample: 300,
    beyond: || of(&OPERATION, explaining::beyond(MOST_WORDS)),
    more: |operation| of(operation, explaining::more()),
    random,
    faults: &explain_faults::FAULTS,
    ..BARE
};

fn invoke(call: &Call, lent: &Lent) -> u32 {
    let [(cs, cs_len), (globals, globals_len), (locals, locals_len)] = lent.slices;
    let Call { profile, budget, .. } = *call;
    let ((words, words_len), length, tokens) = (lent.words, lent.place(0), lent.place(1));
    let (entry, reason) = (lent.place(2), lent.place(3));
    let (width_kind, width) = (lent.place(KIND_PLACE), lent.place(WIDTH_PLACE));
    let calls = lent.place(CALLS_PLACE);
    unsafe {
        ighzamrel_explain(
            cs, cs_len, globals, globals_len, locals, locals_len, profile, budget, words,
            words_len, length, tokens, entry, reason, width_kind, width, calls,
        )
    }
}

fn of(operation: &'static Operation, given: Vec<Explaining>) -> Vec<Call<'static>> {
    let call = |Explaining { given, words }| Call { words, ..asked(operation, given) };
    given.into_iter().map(call).collect()
}

/// A flattening, explained in so many words.
pub fn explained(call: Call, words: usize) -> Call {
    Call { operation: &OPERATION, room: 0, words, ..call }
}

/// As flattening, now and then a long one, a deep one or none; every other time with a budget that ends somewhere in the run.
fn random(operation: &'static Operation, random: &mut Random) -> Call<'static> {
    let mut call = Call { room: 0, ..any(operation, random) };
    let Call { profile, budget, .. } = call;
    match random.within(0, 19) {
        0 => call = asked(operation, any_long(random).asked(profile, budget, 0)),
        1..=5 => {
            let case = explaining::any_deep(profile, random);
            call = asked(operation, case.asked(profile, budget, 0));
        }
        6 => call.slices[0].to_mut().clear(),
        _ => {}
    }
    let judged = |call: &Call| flatten::judged(call, RULES).ok().map(|(_, judged)| judged);
    if random.once_in(2) {
        let tokens = judged(&call).map_or(0, |judged| judged.verdict.tokens());
        call.budget = random.within(0, tokens.into()) as u32;
    }
    let open = judged(&call).map_or(0, |judged| judged.open.len());
    call.words = explaining::any_words(open, random);
    call
}

fn next<'a>(call: &'a Call<'a>, outcome: &'a Outcome) -> Vec<Next<'a>> {
    let mut next = vec![other_profile(call, outcome)];
    next.extend(flattened(call, outcome));
    next.extend(other_words(call, outcome));
    next.extend(budgets(call, outcome, |tokens| spent(outcome, tokens)));
    next.extend(cut(call, outcome));
    next.extend(marks(call).and_then(|marked| others_changed(call, marked)));
    next.extend(lists(call, outcome, &[(1, 1), (2, 2)]));
    next
}

/// How many calls are open.
fn open(outcome: &Outcome) -> usize {
    outcome.values[CALLS_PLACE].unwrap_or(0) as usize
}

/// Flattening into just the room that is told answers the same.
fn flattened<'a>(call: &'a Call<'a>, outcome: &Outcome) -> Option<Next<'a>> {
    let room = outcome.values[0].unwrap_or(0) as usize;
    (room <= MOST_ROOM).then(|| Next {
        call: Call { operation: &flatten::OPERATION, room, words: 0, ..call.again() },
        must: Must::AgreeAt(!CALLS),
        law: "flattening with enough room answers something else",
    })
}

/// No words, fewer, one less than the calls take, just these, and more: the same calls, as far as they have room.
fn other_words<'a>(call: &'a Call<'a>, outcome: &Outcome) -> Vec<Next<'a>> {
    let all = 3 * open(outcome);
    let with = |words: usize| {
        let told = all.min(words / 3 * 3);
        let must = match outcome.words.get(..told) {
            Some(words) => Must::Give(Outcome { words: words.to_vec(), ..outcome.clone() }),
            None => Must::GoOn,
        };
        let law = "with fewer words, or with more, it does not tell the same calls";
        Next { call: Call { words, ..call.again() }, must, law }
    };
    let mut sizes = vec![0, call.words / 2, all.saturating_sub(1), all, all + 4];
    sizes.dedup();
    sizes.into_iter().map(with).collect()
}

/// 3 with one token less, which comes before the very token that was refused: so the same calls are open.
fn spent<'a>(outcome: &Outcome, tokens: u32) -> Must<'a> {
    if !stops(outcome.answer) || outcome.answer == 16 {
        return Must::Refuse(3);
    }
    let mut spent = Outcome { words: outcome.words.clone(), ..Outcome::refused(3) };
    spent.values[1] = Some(tokens.into());
    spent.values[CALLS_PLACE] = outcome.values[CALLS_PLACE];
    Must::Give(spent)
}

/// Nothing behind the operator of the outermost open call matters, for that call did not come back. Without the operator the
/// charstring comes to its end there, with nothing refused but such an end.
fn cut<'a>(call: &'a Call<'a>, outcome: &Outcome) -> Vec<Next<'a>> {
    let Some(at) = outcome.words.get(2).map(|at| *at as usize) else { return Vec::new() };
    let charstring = &call.slices[0];
    let end = if call.strict() { 16 } else { 0 };
    vec![
        Next {
            call: call.with(0, &charstring[..at + 1]),
            must: Must::GiveTheSame,
            law: "what stands behind the outermost open call makes a difference",
        },
        Next {
            call: call.with(0, &charstring[..at]),
            must: Must::Refuse(end),
            law: "the charstring is refused before the outermost open call",
        },
    ]
}
