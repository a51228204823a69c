//! Glyphs of a font that are asked for by their numbers: in any order, repeated, past the count, refused and left out.

use crate::flattening::{Bytes, ACCEPTED, AMPLE, AT_MASK, L, REFUSED, UNFINISHED};
use crate::whole::each_has_its_list;
use crate::{alone, ffi, held, index, lent, refuses, short, writes, BAD_LISTS, BLANK};
use ighzamrel::Profile::{Plain, Strict};
use ighzamrel::*;

const ROOM: usize = 1 << 20;

/// Six glyphs that L serves, of which 3 and 4 are refused; and the flat strings of the others.
const GLYPHS: [Bytes; 6] = [
    &[0x0E],
    &[0x20, 0x0A, 0x0E],
    &[0x1C, 0x00, 0x05, 0x0E],
    &[0x00],
    &[0x21, 0x0A],
    &[0x8D, 0x16, 0x0E],
];
const FLAT: [Bytes; 6] = [
    &[0x0E],
    &[0x8C, 0x8D, 0x15, 0x0E],
    &[0x90, 0x0E],
    &[],
    &[],
    &[0x8D, 0x16, 0x0E],
];
/// The most tokens that one of these takes, and the first number that the font has not.
const MOST: u32 = 7;
const PAST: u32 = 6;

/// The INDEX of the flat strings at these numbers.
fn flat(numbers: &[u32]) -> Vec<u8> {
    let strings = numbers.iter().map(|&number| FLAT[number as usize]);
    index(&strings.collect::<Vec<_>>())
}

/// A refusal at this place, with the tokens that come with it.
fn at(place: u32, refusal: Refusal, tokens: Option<u32>) -> Refused {
    Refused {
        glyph: Some(place),
        by_place: true,
        tokens,
        ..alone(refusal)
    }
}

fn vec(numbers: &[u32]) -> Result<Vec<u8>, Refused> {
    let glyphs = index(&GLYPHS);
    flatten_glyphs_to_vec(&glyphs, numbers, EMPTY_INDEX, L, Plain, MOST, ROOM)
}

/// Both functions refuse these numbers so, with room and without, and no lent byte changes.
fn both_refuse(
    glyphs: &[u8],
    numbers: &[u32],
    [globals, locals]: [&[u8]; 2],
    profile: Profile,
    refused: Refused,
) {
    let run =
        |out: &mut [u8]| flatten_glyphs(glyphs, numbers, globals, locals, profile, AMPLE, out);
    refuses(refused, run);
    assert_eq!(lent(1, run), (Err(refused), vec![BLANK]));
    for room in [0, ROOM] {
        let answer = flatten_glyphs_to_vec(glyphs, numbers, globals, locals, profile, AMPLE, room);
        assert_eq!(answer, Err(refused));
    }
}

/// These numbers are refused so.
fn is_refused(numbers: &[u32], refused: Refused) {
    both_refuse(&index(&GLYPHS), numbers, [EMPTY_INDEX, L], Plain, refused);
}

#[test]
fn the_strings_stand_in_the_order_of_the_numbers() {
    let glyphs = index(&GLYPHS);
    let all: [&[u32]; 8] = [
        &[],
        &[0],
        &[1],
        // the last glyph
        &[5],
        &[0, 1, 2, 5],
        &[5, 2, 1, 0],
        &[1, 1, 1],
        &[2, 0, 5, 2, 0],
    ];
    for numbers in all {
        let flat = flat(numbers);
        writes(&flat, |out| {
            flatten_glyphs(&glyphs, numbers, EMPTY_INDEX, L, Plain, MOST, out)
        });
        let vec = |profile, room| {
            flatten_glyphs_to_vec(&glyphs, numbers, EMPTY_INDEX, L, profile, MOST, room)
        };
        for profile in [Plain, Strict] {
            assert_eq!(vec(profile, flat.len()).as_ref(), Ok(&flat));
            assert_eq!(vec(profile, ROOM).as_ref(), Ok(&flat));
        }
        (0..flat.len()).for_each(|room| assert_eq!(vec(Plain, room), Err(short(flat.len()))));
    }
}

#[test]
fn no_numbers_are_the_empty_index() {
    for glyphs in [index(&GLYPHS), EMPTY_INDEX.to_vec()] {
        let answer = flatten_glyphs_to_vec(&glyphs, &[], EMPTY_INDEX, EMPTY_INDEX, Plain, 0, 2);
        assert_eq!(answer, Ok(EMPTY_INDEX.to_vec()));
    }
}

#[test]
fn all_numbers_in_order_are_the_whole_font() {
    for (charstring, locals, _, tokens, _) in ACCEPTED {
        let glyphs = index(&[&[0x0E], charstring, charstring]);
        let budget = tokens.max(1);
        let whole = flatten_font_to_vec(&glyphs, EMPTY_INDEX, locals, Plain, budget, ROOM);
        let chosen = flatten_glyphs_to_vec(
            &glyphs,
            &[0, 1, 2],
            EMPTY_INDEX,
            locals,
            Plain,
            budget,
            ROOM,
        );
        assert!(whole.is_ok());
        assert_eq!(chosen, whole, "{charstring:02X?}");
    }
}

#[test]
fn a_number_that_the_font_has_not_is_refused_with_its_place() {
    is_refused(&[PAST], at(0, Refusal::PastCount, None));
    is_refused(&[0, 5, PAST], at(2, Refusal::PastCount, None));
    is_refused(&[5, u32::MAX, 0], at(1, Refusal::PastCount, None));
    let empty = [EMPTY_INDEX, EMPTY_INDEX];
    let refused = at(0, Refusal::PastCount, None);
    both_refuse(EMPTY_INDEX, &[0], empty, Plain, refused);
}

#[test]
fn a_refused_glyph_is_told_by_its_place_and_not_by_its_number() {
    is_refused(&[3], at(0, Refusal::Unknown, Some(1)));
    is_refused(&[0, 5, 4], at(2, Refusal::NoEntry, Some(2)));
    for (charstring, locals, refusal, tokens) in REFUSED {
        let glyphs = index(&[charstring, &[0x0E], &[0x00]]);
        let refused = at(2, refusal, Some(tokens));
        both_refuse(
            &glyphs,
            &[1, 1, 0, 2],
            [EMPTY_INDEX, locals],
            Plain,
            refused,
        );
    }
}

#[test]
fn a_refused_glyph_that_is_not_asked_for_refuses_nothing() {
    let glyphs = index(&GLYPHS);
    let whole = flatten_font_to_vec(&glyphs, EMPTY_INDEX, L, Plain, MOST, ROOM);
    assert_eq!(whole.unwrap_err().glyph, Some(3));
    assert_eq!(vec(&[0, 1, 2, 5]), Ok(flat(&[0, 1, 2, 5])));
}

#[test]
fn the_first_place_that_is_refused_decides() {
    is_refused(&[0, 4, 3], at(1, Refusal::NoEntry, Some(2)));
    is_refused(&[0, 3, 4], at(1, Refusal::Unknown, Some(1)));
    is_refused(&[3, 3], at(0, Refusal::Unknown, Some(1)));
    // one that is not there, before a refused glyph and behind it
    is_refused(&[0, PAST, 3], at(1, Refusal::PastCount, None));
    is_refused(&[0, 3, PAST], at(1, Refusal::Unknown, Some(1)));
    is_refused(&[PAST, PAST + 1], at(0, Refusal::PastCount, None));
}

#[test]
fn what_strict_alone_refuses_is_told_with_the_place_alone() {
    let at_mask = AT_MASK.map(|row| (row, Refusal::OperandsAtMask));
    let unfinished = UNFINISHED.map(|row| (row, Refusal::NoEndchar));
    for ((charstring, locals), refusal) in at_mask.into_iter().chain(unfinished) {
        let glyphs = index(&[charstring, &[0x0E]]);
        let refused = at(1, refusal, None);
        both_refuse(&glyphs, &[1, 0], [EMPTY_INDEX, locals], Strict, refused);
    }
}

#[test]
fn each_place_has_the_whole_budget() {
    let glyphs = index(&GLYPHS);
    let vec =
        |budget| flatten_glyphs_to_vec(&glyphs, &[0, 1, 1], EMPTY_INDEX, L, Plain, budget, ROOM);
    assert_eq!(vec(MOST), Ok(flat(&[0, 1, 1])));
    let spent = at(1, Refusal::BudgetSpent, Some(MOST - 1));
    assert_eq!(vec(MOST - 1), Err(spent));
}

#[test]
fn as_many_numbers_as_an_index_counts() {
    let (most, over) = (vec![0; 65_535], vec![PAST; 65_536]);
    assert_eq!(vec(&most), Ok(flat(&most)));
    // before a number that the font has not, and alone
    is_refused(&over, alone(Refusal::TooManyElements));
    is_refused(&over[1..], at(0, Refusal::PastCount, None));
}

/// The answer, then length, glyph, tokens, entry and reason, whose places held 77. Behind the six glyphs stands one that strict
/// refuses for what waits at its second mask.
fn places(numbers: &[u32], [profile, budget]: [u32; 2], room: usize) -> (u32, [usize; 5]) {
    let mut places = held();
    let glyphs = index(&[&GLYPHS[..], &[AT_MASK[0].0]].concat());
    let lent = [&glyphs[..], EMPTY_INDEX, L];
    let out = &mut vec![0; room];
    let answer = ffi::flatten_glyphs_to(lent, numbers, profile, budget, out, &mut places);
    let others = [places.glyph, places.tokens, places.entry, places.reason];
    let [glyph, tokens, entry, reason] = others.map(|value| value as usize);
    (answer, [places.length, glyph, tokens, entry, reason])
}

#[test]
fn a_place_that_is_not_given_is_left() {
    let by = |numbers: &[u32], room| places(numbers, [0, AMPLE], room);
    assert_eq!(by(&[1], 64), (0, [9, 77, 77, 77, 77]));
    assert_eq!(by(&[1], 8), (13, [9, 77, 77, 77, 77]));
    assert_eq!(by(&[0, 4], 64), (9, [77, 1, 2, 77, 77]));
    assert_eq!(by(&[0, PAST + 1], 64), (25, [77, 1, 77, 77, 77]));
    assert_eq!(by(&vec![0; 65_536], 64), (22, [77; 5]));
    let strict = places(&[0, 0, PAST], [1, AMPLE], 64);
    assert_eq!(strict, (15, [77, 2, 77, 77, 77]));
}

#[test]
fn a_damaged_list_is_refused_before_any_number_is_looked_at() {
    let over = vec![PAST; 65_536];
    for (list, reason, entry) in BAD_LISTS {
        let refused = |refusal| Refused {
            entry,
            reason: Some(reason),
            ..alone(refusal)
        };
        for numbers in [&[][..], &[PAST], &over] {
            let refuses = |lists: [&[u8]; 3], refusal| {
                both_refuse(
                    lists[0],
                    numbers,
                    [lists[1], lists[2]],
                    Plain,
                    refused(refusal),
                );
            };
            refuses([list, list, list], Refusal::BadGlobals);
            refuses([list, L, list], Refusal::BadLocals);
            refuses([list, L, L], Refusal::BadCharstrings);
        }
    }
}

#[test]
fn global_and_local_lists_are_not_swapped() {
    let called = |call: u8, [globals, locals]: [&[u8]; 2]| {
        let glyphs = index(&[&[0x20, call]]);
        flatten_glyphs_to_vec(&glyphs, &[0], globals, locals, Plain, AMPLE, ROOM)
    };
    each_has_its_list(called, at(0, Refusal::NoEntry, Some(2)));
}

/// A flat string of many times the bytes that lead to it: the first room lacks.
#[test]
fn a_vec_grows_to_what_is_needed() {
    let (call, row) = ([0x20, 0x0A].repeat(60), [0x8C, 0x8D, 0x15].repeat(60));
    let (glyphs, locals) = (index(&[&call]), index(&[&row]));
    let flat = row.repeat(60);
    let vec =
        |room| flatten_glyphs_to_vec(&glyphs, &[0, 0], EMPTY_INDEX, &locals, Plain, 100_000, room);
    let whole = vec(ROOM).unwrap();
    assert_eq!(whole, index(&[&flat, &flat]));
    assert_eq!(vec(whole.len()), Ok(whole.clone()));
    assert_eq!(vec(whole.len() - 1), Err(short(whole.len())));
}

#[test]
fn a_place_is_told_as_one() {
    let said = |numbers: &[u32]| vec(numbers).unwrap_err().to_string();
    assert_eq!(
        said(&[0, 4]),
        "refusal 9: place 1: a call names a subroutine that is not there, at token 2"
    );
    assert_eq!(
        said(&[0, 1, 2, PAST]),
        "refusal 25: place 3: the INDEX has no entry of that number"
    );
    let over = vec![0; 65_536];
    assert_eq!(
        said(&over),
        "refusal 22: an INDEX to be written has over 65535 elements"
    );
}
