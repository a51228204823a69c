//! A whole font in one call: 33. The Rust has a word in the plain profile, where all three lists are well formed and no glyph
//! decides by 3, 8 or 11: it reads the lists once, flattens glyph by glyph up to the first error, and writes the INDEX. The
//! numbers of glyphs and tokens, room, 22, 23, 25, and what is wrong with a list are the rule's alone. What must come where some
//! glyphs are asked for, in 34, stands here too.

use super::flatten::{asked, bad_list, error, lists, no_room, of, other_profile, tells_tokens};
use super::{flatten, flatten_glyphs, write_charstring_number::rooms};
use crate::inputs::case::NONE;
use crate::inputs::font;
use crate::kept::Kept;
use crate::library::ighzamrel_flatten_font;
use crate::operation::{Argument, Call, Found, Lent, Must, Next, Operation};
use crate::operation::{Outcome, Owed, Place, BARE, NO_NUMBERS};
use crate::record::MOST;
use crate::rules::flattening::{Lists, Rules, RULES};
use crate::rules::font::{self as rules, placed, Flats, Glyphs};
use crate::rules::index::{entries, formed, Flaw, Refusal};
use std::borrow::Cow;
use subsetter::Error;

/// The most bytes of flat strings that the Rust is asked for.
const HELD: u64 = 1 << 25;

const LENGTH: u8 = 0b1;
const GLYPH: u8 = 0b10;
const STOPPED: u8 = 0b110;
const ENTRY: u8 = 0b1000;
const REASON: u8 = 0b1_0000;

pub static OPERATION: Operation = Operation {
    number: 33,
    name: "flatten_font",
    answers: GLYPHS.answers.split_at(GLYPHS.answers.len() - OF_NUMBERS).0,
    arguments: &[
        Argument::Profile,
        Argument::Budget,
        Argument::Room,
        Argument::List(0),
        Argument::List(1),
        Argument::List(2),
    ],
    invoke,
    listed: |operation| of(operation, font::listed()),
    beyond: || of(&OPERATION, font::beyond(MOST)),
    more: |operation| of(operation, font::more()),
    random: |operation, random| asked(operation, font::any(random)),
    ..GLYPHS
};

/// How many answers, the last ones, come of numbers alone.
const OF_NUMBERS: usize = 2;

/// What a whole font and some of its glyphs share.
pub const GLYPHS: Operation = Operation {
    places: &[Place::Size, Place::U32, Place::U32, Place::U32, Place::U32],
    answers: &[
        (0, LENGTH),
        (1, REASON),
        (1, ENTRY | REASON),
        (2, REASON),
        (2, ENTRY | REASON),
        (26, REASON),
        (26, ENTRY | REASON),
        (3, STOPPED),
        (4, STOPPED),
        (5, STOPPED),
        (6, STOPPED),
        (7, STOPPED),
        (8, STOPPED),
        (9, STOPPED),
        (10, STOPPED),
        (11, STOPPED),
        (12, STOPPED),
        (15, GLYPH),
        (16, GLYPH),
        (23, 0),
        (13, LENGTH),
        (22, 0),
        (25, GLYPH),
    ],
    reasons: Some((4, &[20, 21, 40, 41, 42])),
    found: Found::Written,
    owed,
    next,
    sample: 150,
    ..BARE
};

fn invoke(call: &Call, lent: &Lent) -> u32 {
    let [(charstrings, size), (globals, globals_len), (locals, locals_len)] = lent.slices;
    let Call { profile, budget, .. } = *call;
    let (out, room, length) = (lent.out, lent.room, lent.place(0));
    let [glyph, tokens, entry, reason] = [1, 2, 3, 4].map(|which| lent.place(which));
    unsafe {
        ighzamrel_flatten_font(
            charstrings, size, globals, globals_len, locals, locals_len, profile, budget, out,
            room, length, glyph, tokens, entry, reason,
        )
    }
}

fn owed(call: &Call) -> Result<Owed, String> {
    let [charstrings, globals, locals] = call.slices.each_ref().map(|slice| &slice[..]);
    Kept::with([globals, locals], |kept| {
        let flats = match flats(call, kept.formed, RULES) {
            Ok(flats) => flats,
            Err(bad) => return Ok(Owed::by_rule(bad_list(call.operation, bad))),
        };
        let outcome = told(&flats, call.room);
        match by_rust(&flats).filter(|_| !call.strict()) {
            Some(rule) => {
                let source = match glyphs(call).numbers {
                    Some(numbers) => kept.source().glyphs(charstrings, numbers.iter().copied()),
                    None => kept.source().font(charstrings),
                };
                Owed::by_both(outcome, rule, source)
            }
            None => Ok(Owed::by_rule(outcome)),
        }
    })
}

/// What a call asks for: all glyphs in order, or those that it numbers.
pub fn glyphs<'a>(call: &'a Call) -> Glyphs<'a> {
    let numbers = call.operation.takes_numbers().then_some(&call.numbers[..]);
    Glyphs { charstrings: &call.slices[0], numbers }
}

/// What must come by these rules.
pub fn ruled(call: &Call, rules: Rules) -> Outcome {
    let formed = [1, 2].map(|list| formed(&call.slices[list]));
    match flats(call, formed, rules) {
        Ok(flats) => told(&flats, call.room),
        Err(bad) => bad_list(call.operation, bad),
    }
}

fn flats<'a>(
    call: &'a Call,
    formed: [Result<u32, Flaw>; 2],
    by: Rules,
) -> Result<Flats<'a>, (Refusal, Flaw)> {
    let lists = Lists::known(&call.slices[1], &call.slices[2], formed)?.by(by);
    rules::flattened(lists, glyphs(call), call.strict(), call.budget)
}

fn told(flats: &Flats, room: usize) -> Outcome {
    if let Some((refusal, tokens)) = flats.stopped {
        let mut told = Outcome::refused(refusal);
        told.values[1] = (refusal != 22).then_some(flats.strings.len() as i64);
        told.values[2] = tells_tokens(refusal).then_some(tokens.into());
        return told;
    }
    match flats.needed() {
        Err(refusal) => Outcome::refused(refusal),
        Ok(length) if length > room as u64 => Outcome::told(13, [length as i64], Vec::new()),
        Ok(length) => Outcome::told(0, [length as i64], flats.written()),
    }
}

/// What the Rust owes, or `None` where it has no word or would have to hold too much.
fn by_rust(flats: &Flats) -> Option<Result<Vec<u8>, Error>> {
    match flats.stopped {
        _ if flats.sum() > HELD => None,
        Some((22 | 25, _)) => None,
        Some((refusal, _)) => error(refusal).map(Err),
        None => Some(Ok(flats.written())),
    }
}

pub fn next<'a>(call: &'a Call<'a>, outcome: &'a Outcome) -> Vec<Next<'a>> {
    let mut next = rooms(call, outcome);
    next.extend(no_room(call, outcome));
    next.extend(lists(call, outcome, &[(1, 1), (2, 2), (26, 0)]));
    next.extend(glyph_by_glyph(call, outcome));
    next.extend(again(call, outcome));
    next.extend(other_way(call));
    next.push(other_profile(call, outcome));
    next
}

/// The first, a middle and the last entry of what is written are the flat strings of the glyphs at these places; and a glyph that
/// refuses does so by itself.
fn glyph_by_glyph<'a>(call: &'a Call<'a>, outcome: &'a Outcome) -> Vec<Next<'a>> {
    let placed = placed(glyphs(call)).unwrap_or_default();
    let alone = |place: usize, room: usize, must: Must<'a>| {
        let glyph = call.with(0, placed[place]?);
        let call = Call { operation: &flatten::OPERATION, room, numbers: NO_NUMBERS, ..glyph };
        Some(Next { call, must, law: "a glyph by itself gives something else" })
    };
    if let [_, Some(place), tokens, ..] = outcome.values {
        let mut told = Outcome::refused(outcome.answer);
        told.values[1] = tokens;
        return Vec::from_iter(alone(place as usize, 0, Must::Give(told)));
    }
    let written = entries(&outcome.bytes).unwrap_or_default();
    let mut some = match written.len() {
        0 => Vec::new(),
        count => vec![0, count / 2, count - 1],
    };
    some.dedup();
    some.into_iter()
        .filter_map(|place| alone(place, written[place].len(), Must::Write(written[place])))
        .collect()
}

/// What is accepted comes back as a whole font from empty lists; and where the runs end, a larger budget changes nothing.
fn again<'a>(call: &'a Call<'a>, outcome: &'a Outcome) -> Vec<Next<'a>> {
    let mut next = Vec::new();
    if outcome.answer == 0 {
        let slices = [&outcome.bytes[..], NONE, NONE].map(Cow::Borrowed);
        let room = outcome.bytes.len();
        next.push(Next {
            call: Call { room, slices, ..whole(call) },
            must: Must::Write(&outcome.bytes),
            law: "the flat font does not flatten to itself",
        });
    }
    if outcome.answer != 3 {
        next.push(Next {
            call: Call { budget: u32::MAX, ..call.again() },
            must: Must::GiveTheSame,
            law: "a larger budget gives another answer",
        });
    }
    next
}

/// The same font as a whole.
fn whole<'a>(call: &'a Call<'a>) -> Call<'a> {
    Call { operation: &OPERATION, numbers: NO_NUMBERS, ..call.again() }
}

/// A whole font is all its glyphs by their numbers in order, and the other way round.
fn other_way<'a>(call: &'a Call<'a>) -> Option<Next<'a>> {
    let all: Vec<u32> = (0..formed(&call.slices[0]).unwrap_or(0)).collect();
    let other = match glyphs(call).numbers {
        Some(numbers) if numbers != all => return None,
        Some(_) => whole(call),
        None => flatten_glyphs::numbered(call.again(), all),
    };
    let law = "all glyphs by their numbers are not the whole font";
    Some(Next { call: other, must: Must::GiveTheSame, law })
}
