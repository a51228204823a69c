//! A whole font: the rows of one charstring as its glyphs.

use crate::flattening::{Bytes, ACCEPTED, AMPLE, AT_MASK, L, REFUSED, UNFINISHED};
use crate::{alone, index, lent, refuses, short, writes, BAD_LISTS, BLANK};
use ighzamrel::Profile::{Plain, Strict};
use ighzamrel::*;

const ROOM: usize = 1000;

/// Three glyphs that L serves, their flat strings, and the most tokens that one of them takes.
const GLYPHS: [Bytes; 3] = [&[0x20, 0x0A, 0x0E], &[], &[0x1C, 0x00, 0x05, 0x0E]];
const FLAT: [Bytes; 3] = [&[0x8C, 0x8D, 0x15, 0x0E], &[], &[0x90, 0x0E]];
const MOST: u32 = 7;

/// A glyph's refusal.
fn at(glyph: u32, refusal: Refusal, tokens: u32) -> Refused {
    Refused {
        glyph: Some(glyph),
        tokens: Some(tokens),
        ..alone(refusal)
    }
}

/// Both functions refuse so, and no lent byte changes.
fn both_refuse(glyphs: &[u8], [globals, locals]: [&[u8]; 2], budget: u32, refused: Refused) {
    refuses(refused, |out| {
        flatten_font(glyphs, globals, locals, Plain, budget, out)
    });
    let answer = flatten_font_to_vec(glyphs, globals, locals, Plain, budget, ROOM);
    assert_eq!(answer, Err(refused));
}

#[test]
fn the_index_of_the_flat_strings_is_written() {
    // strict takes no glyph without bytes
    let finished = |all: [Bytes; 3]| index(&[all[0], all[2]]);
    for (profile, glyphs, flat) in [
        (Plain, index(&GLYPHS), index(&FLAT)),
        (Strict, finished(GLYPHS), finished(FLAT)),
    ] {
        writes(&flat, |out| {
            flatten_font(&glyphs, EMPTY_INDEX, L, profile, MOST, out)
        });
        let vec = |room| flatten_font_to_vec(&glyphs, EMPTY_INDEX, L, profile, MOST, room);
        assert_eq!(vec(flat.len()).as_ref(), Ok(&flat));
        assert_eq!(vec(ROOM).as_ref(), Ok(&flat));
        (0..flat.len()).for_each(|room| assert_eq!(vec(room), Err(short(flat.len()))));
    }
}

#[test]
fn a_font_without_glyphs_is_the_empty_index() {
    writes(EMPTY_INDEX, |out| {
        flatten_font(EMPTY_INDEX, EMPTY_INDEX, EMPTY_INDEX, Plain, 0, out)
    });
    let answer = flatten_font_to_vec(EMPTY_INDEX, EMPTY_INDEX, EMPTY_INDEX, Plain, 0, 2);
    assert_eq!(answer, Ok(EMPTY_INDEX.to_vec()));
}

#[test]
fn each_glyph_is_as_by_itself() {
    for (charstring, locals, flat, tokens, _) in ACCEPTED {
        let glyphs = index(&[&[0x0E], charstring, charstring]);
        let answer = flatten_font_to_vec(&glyphs, EMPTY_INDEX, locals, Plain, tokens.max(1), ROOM);
        assert_eq!(
            answer,
            Ok(index(&[&[0x0E], flat, flat])),
            "{charstring:02X?}"
        );
    }
}

#[test]
fn the_first_refused_glyph_decides() {
    for (charstring, locals, refusal, tokens) in REFUSED {
        let glyphs = index(&[&[0x0E], &[], charstring, &[0x00]]);
        let refused = at(2, refusal, tokens);
        both_refuse(&glyphs, [EMPTY_INDEX, locals], AMPLE, refused);
        // it goes before the want of room
        let answer = lent(1, |out| {
            flatten_font(&glyphs, EMPTY_INDEX, locals, Plain, AMPLE, out)
        });
        assert_eq!(answer, (Err(refused), vec![BLANK]));
    }
}

#[test]
fn what_strict_alone_refuses_is_told_with_the_glyph_alone() {
    let at_mask = AT_MASK.map(|row| (row, Refusal::OperandsAtMask));
    let unfinished = UNFINISHED.map(|row| (row, Refusal::NoEndchar));
    for ((charstring, locals), refusal) in at_mask.into_iter().chain(unfinished) {
        let glyphs = index(&[&[0x0E], charstring, &[0x00]]);
        let refused = Refused {
            glyph: Some(1),
            ..alone(refusal)
        };
        refuses(refused, |out| {
            flatten_font(&glyphs, EMPTY_INDEX, locals, Strict, AMPLE, out)
        });
        let vec = |profile| flatten_font_to_vec(&glyphs, EMPTY_INDEX, locals, profile, AMPLE, ROOM);
        assert_eq!(vec(Strict), Err(refused), "{charstring:02X?}");
        assert_eq!(vec(Plain), Err(at(2, Refusal::Unknown, 1)));
    }
}

#[test]
fn each_glyph_has_the_whole_budget() {
    let glyphs = index(&[GLYPHS[0]; 3]);
    let vec = |budget| flatten_font_to_vec(&glyphs, EMPTY_INDEX, L, Plain, budget, ROOM);
    assert_eq!(vec(MOST), Ok(index(&[FLAT[0]; 3])));
    assert_eq!(vec(MOST - 1), Err(at(0, Refusal::BudgetSpent, MOST - 1)));
}

#[test]
fn a_damaged_list_is_refused_before_any_glyph() {
    let refused_glyph = index(&[&[0x00]]);
    for (list, reason, entry) in BAD_LISTS {
        let refused = |refusal| Refused {
            entry,
            reason: Some(reason),
            ..alone(refusal)
        };
        both_refuse(list, [list, list], 0, refused(Refusal::BadGlobals));
        both_refuse(list, [L, list], 0, refused(Refusal::BadLocals));
        both_refuse(&refused_glyph, [L, list], 0, refused(Refusal::BadLocals));
        both_refuse(list, [L, L], 0, refused(Refusal::BadCharstrings));
    }
}

#[test]
fn global_and_local_lists_are_not_swapped() {
    let called = |call: u8, lists: [&[u8]; 2]| {
        flatten_font_to_vec(
            &index(&[&[0x20, call]]),
            lists[0],
            lists[1],
            Plain,
            AMPLE,
            ROOM,
        )
    };
    each_has_its_list(called, at(0, Refusal::NoEntry, 2));
}

/// A font of one glyph, a call by this operator of entry 0, is flattened with L for the list that it goes by, and refused so
/// with L for the other.
pub fn each_has_its_list(
    called: impl Fn(u8, [&[u8]; 2]) -> Result<Vec<u8>, Refused>,
    missing: Refused,
) {
    let flat = index(&[&[0x8C, 0x8D, 0x15]]);
    assert_eq!(called(0x1D, [L, EMPTY_INDEX]).as_ref(), Ok(&flat));
    assert_eq!(called(0x0A, [EMPTY_INDEX, L]).as_ref(), Ok(&flat));
    assert_eq!(called(0x0A, [L, EMPTY_INDEX]).as_ref(), Err(&missing));
    assert_eq!(called(0x1D, [EMPTY_INDEX, L]).as_ref(), Err(&missing));
}

/// A flat string of many times the bytes that lead to it: the first room lacks.
#[test]
fn a_vec_grows_to_what_is_needed() {
    let (call, row) = ([0x20, 0x0A].repeat(60), [0x8C, 0x8D, 0x15].repeat(60));
    let (glyphs, locals) = (index(&[&call]), index(&[&row]));
    let flat = row.repeat(60);
    let vec = |room| flatten_font_to_vec(&glyphs, EMPTY_INDEX, &locals, Plain, 100_000, room);
    let whole = vec(1 << 20).unwrap();
    assert_eq!(whole[read_entry(&whole, 0).unwrap()], flat);
    assert_eq!(vec(whole.len()), Ok(whole.clone()));
    assert_eq!(vec(whole.len() - 1), Err(short(whole.len())));
}
