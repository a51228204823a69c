//! Glyphs of a font by their numbers: 34. Answers and places are those of 33, whose rule and whose word of the Rust go over the
//! glyphs that are asked for; and 22 and 25, which are the rule's alone.

use super::flatten::{after, asked, set, stops};
use super::flatten_font::{self, glyphs, GLYPHS};
use crate::font_faults::{runs, tell_place};
use crate::inputs::glyphs::{self as inputs, Numbered};
use crate::library::ighzamrel_flatten_glyphs;
use crate::operation::{library, Argument, Call, Fault, Lent, Must, Next, Operation, Outcome};
use crate::record::MOST;
use crate::rules::font::{placed, MOST_GLYPHS};
use crate::rules::index::{entries, formed, written};
use std::borrow::Cow;
use std::collections::HashSet;

pub static OPERATION: Operation = Operation {
    number: 34,
    name: "flatten_glyphs",
    arguments: &[
        Argument::Profile,
        Argument::Budget,
        Argument::Room,
        Argument::Numbers,
        Argument::List(0),
        Argument::List(1),
        Argument::List(2),
    ],
    invoke,
    next,
    listed: |_| of(inputs::listed()),
    beyond: || of(inputs::beyond(MOST)),
    more: |_| of(inputs::more()),
    random: |_, random| one(inputs::any(random)),
    sample: 15,
    faults: &[
        // which glyphs
        Fault {
            name: "the numbers are sorted",
            plant: |call, lent| with(call, lent, |numbers, _| numbers.sort_unstable()),
        },
        Fault {
            name: "the numbers are taken in the other order",
            plant: |call, lent| with(call, lent, |numbers, _| numbers.reverse()),
        },
        Fault {
            name: "a repeat is left out",
            plant: |call, lent| with(call, lent, |numbers, _| keep_firsts(numbers)),
        },
        Fault {
            name: "a repeat of the number before it is left out",
            plant: |call, lent| with(call, lent, |numbers, _| numbers.dedup()),
        },
        Fault {
            name: "one past the last glyph is the last",
            plant: |call, lent| {
                with(call, lent, |numbers, count| each(numbers, |n| n - u32::from(n == count)))
            },
        },
        Fault {
            name: "a number's high half is not looked at",
            plant: |call, lent| with(call, lent, |numbers, _| each(numbers, |n| n & 0xFFFF)),
        },
        Fault { name: "a glyph that is not asked for is refused", plant: others_run },
        // which refusal
        Fault { name: "25 is told after a later glyph's own", plant: absent_last },
        Fault { name: "25 is told before an earlier glyph's own", plant: absent_first },
        Fault { name: "22 is told after 25", plant: too_many_last },
        Fault { name: "22 is told before 1, 2 and 26", plant: too_many_first },
        Fault { name: "65535 numbers are too many", plant: full_refused },
        // what comes with it
        Fault { name: "a glyph's number is told as its place", plant: number_told },
        Fault {
            name: "25 tells tokens",
            plant: |call, lent| after(call, lent, |n| n == 25, |lent| set(lent, 2, 0u32)),
        },
        Fault {
            name: "22 tells a place",
            plant: |call, lent| after(call, lent, |n| n == 22, |lent| set(lent, 1, 65_535u32)),
        },
        // what is lent
        Fault { name: "a number is changed", plant: number_changed },
        Fault { name: "the number behind the last is read", plant: number_behind },
    ],
    ..GLYPHS
};

fn invoke(call: &Call, lent: &Lent) -> u32 {
    let [(charstrings, size), (globals, globals_len), (locals, locals_len)] = lent.slices;
    let (numbers, count) = lent.numbers;
    let Call { profile, budget, .. } = *call;
    let (out, room, length) = (lent.out, lent.room, lent.place(0));
    let [glyph, tokens, entry, reason] = [1, 2, 3, 4].map(|which| lent.place(which));
    unsafe {
        ighzamrel_flatten_glyphs(
            charstrings, size, numbers, count, globals, globals_len, locals, locals_len, profile,
            budget, out, room, length, glyph, tokens, entry, reason,
        )
    }
}

fn of(asked: Vec<Numbered>) -> Vec<Call<'static>> {
    asked.into_iter().map(one).collect()
}

fn one(Numbered { given, numbers }: Numbered) -> Call<'static> {
    numbered(asked(&OPERATION, given), numbers)
}

/// A font, of which glyphs are asked for.
pub fn numbered(font: Call, numbers: Vec<u32>) -> Call {
    Call { operation: &OPERATION, numbers: Cow::Owned(numbers), ..font }
}

fn next<'a>(call: &'a Call<'a>, outcome: &'a Outcome) -> Vec<Next<'a>> {
    let mut next = flatten_font::next(call, outcome);
    next.extend(cut(call, outcome));
    next.extend(one_more(call, outcome));
    next.extend(reversed(call, outcome));
    next
}

/// Nothing behind the place that is refused matters.
fn cut<'a>(call: &'a Call<'a>, outcome: &Outcome) -> Option<Next<'a>> {
    let place = outcome.values[1]? as usize;
    let numbers = Cow::Borrowed(&call.numbers[..=place]);
    Some(Next {
        call: Call { numbers, ..call.again() },
        must: Must::GiveTheSame,
        law: "what stands behind the refused place makes a difference",
    })
}

/// Where no place is refused, one past the last glyph is, behind the others; or it is one number too many.
fn one_more<'a>(call: &'a Call<'a>, outcome: &Outcome) -> Option<Next<'a>> {
    let (0 | 13 | 23, Ok(count)) = (outcome.answer, formed(&call.slices[0])) else { return None };
    let mut told = Outcome::refused(22);
    if call.numbers.len() < MOST_GLYPHS {
        told.answer = 25;
        told.values[1] = Some(call.numbers.len() as i64);
    }
    let numbers = [&call.numbers[..], &[count]].concat();
    let law = "one past the last glyph, behind the others, is not refused as such";
    Some(Next { call: numbered(call.again(), numbers), must: Must::Give(told), law })
}

/// The numbers in the other order give the same strings in the other order.
fn reversed<'a>(call: &'a Call<'a>, outcome: &Outcome) -> Option<Next<'a>> {
    let mut strings = entries(&outcome.bytes).ok()?;
    strings.reverse();
    let lengths: Vec<u32> = strings.iter().map(|string| string.len() as u32).collect();
    let bytes = written(&lengths, &strings.concat()).ok()?;
    let numbers = call.numbers.iter().rev().copied().collect();
    Some(Next {
        call: numbered(call.again(), numbers),
        must: Must::Give(Outcome { bytes, ..outcome.clone() }),
        law: "the numbers in the other order do not give the strings in the other order",
    })
}

/// The library's answer where other numbers are lent. The change is told the count of the font's glyphs.
fn with(call: &Call, lent: &Lent, change: fn(&mut Vec<u32>, u32)) -> u32 {
    let mut numbers = call.numbers.to_vec();
    change(&mut numbers, formed(&call.slices[0]).unwrap_or(0));
    library(call, &Lent { numbers: (numbers.as_mut_ptr(), numbers.len()), ..*lent })
}

fn each(numbers: &mut [u32], other: impl Fn(u32) -> u32) {
    numbers.iter_mut().for_each(|number| *number = other(*number));
}

fn keep_firsts(numbers: &mut Vec<u32>) {
    let mut seen = HashSet::new();
    numbers.retain(|number| seen.insert(*number));
}

/// Each place that is refused by itself, with its refusal and its tokens.
fn refused(call: &Call) -> Vec<(usize, u32, u32)> {
    let places = runs(call).into_iter().enumerate();
    places.filter_map(|(place, (flat, tokens))| Some((place, flat.err()?, tokens))).collect()
}

/// Tells the first of the places that is such a one; where there is none, the library's answer.
fn first_of(call: &Call, lent: &Lent, such: fn(u32) -> bool) -> u32 {
    match refused(call).into_iter().find(|(_, refusal, _)| such(*refusal)) {
        Some((place, refusal, tokens)) => tell_place(lent, place, tokens, refusal),
        None => library(call, lent),
    }
}

fn absent_last(call: &Call, lent: &Lent) -> u32 {
    first_of(call, lent, |refusal| refusal != 25)
}

fn absent_first(call: &Call, lent: &Lent) -> u32 {
    first_of(call, lent, |refusal| refusal == 25)
}

fn others_run(call: &Call, lent: &Lent) -> u32 {
    let all = (0..formed(&call.slices[0]).unwrap_or(0)).collect();
    match refused(&numbered(call.again(), all)).first() {
        Some(&(glyph, refusal, tokens)) if !call.numbers.contains(&(glyph as u32)) => {
            tell_place(lent, glyph, tokens, refusal)
        }
        _ => library(call, lent),
    }
}

fn too_many_last(call: &Call, lent: &Lent) -> u32 {
    let placed = placed(glyphs(call)).unwrap_or_default();
    let answer = library(call, lent);
    match placed.iter().position(Option::is_none) {
        Some(place) if answer == 22 => tell_place(lent, place, 0, 25),
        _ => answer,
    }
}

fn too_many_first(call: &Call, lent: &Lent) -> u32 {
    if call.numbers.len() > MOST_GLYPHS {
        return 22;
    }
    library(call, lent)
}

fn full_refused(call: &Call, lent: &Lent) -> u32 {
    let well_formed = call.slices.iter().all(|list| formed(list).is_ok());
    if call.numbers.len() == MOST_GLYPHS && well_formed {
        return 22;
    }
    library(call, lent)
}

fn number_told(call: &Call, lent: &Lent) -> u32 {
    let answer = library(call, lent);
    if stops(answer) || answer == 25 {
        set(lent, 1, call.numbers[lent.word(1) as usize]);
    }
    answer
}

fn number_changed(call: &Call, lent: &Lent) -> u32 {
    let answer = library(call, lent);
    if let (numbers, 1..) = lent.numbers {
        unsafe { *numbers ^= 1 };
    }
    answer
}

fn number_behind(call: &Call, lent: &Lent) -> u32 {
    let (numbers, count) = lent.numbers;
    if count > 0 {
        unsafe { numbers.add(count).read_volatile() };
    }
    library(call, lent)
}
