//! Why a charstring is refused: the verdict, which is flattening's, and the calls that were open.

use crate::flattening::{Bytes, ACCEPTED, AMPLE, AT_MASK, L, REFUSED, UNFINISHED};
use crate::{alone, ffi, held, index, BAD_LISTS};
use ighzamrel::List::{Global, Local};
use ighzamrel::Profile::{Plain, Strict};
use ighzamrel::*;

/// A local list whose one entry is a byte that starts no token.
const UNKNOWN_ENTRY: &[u8] = &[0x00, 0x01, 0x01, 0x01, 0x02, 0x00];

fn call(list: List, entry: u32, offset: usize) -> Call {
    Call {
        list,
        entry,
        offset,
    }
}

/// The calls that are told of a charstring; the verdict must be flattening's.
fn calls(charstring: &[u8], [globals, locals]: [&[u8]; 2], profile: Profile) -> Vec<Call> {
    under(charstring, [globals, locals], profile, AMPLE)
}

fn under(charstring: &[u8], lists: [&[u8]; 2], profile: Profile, budget: u32) -> Vec<Call> {
    let [globals, locals] = lists;
    let why = explain(charstring, globals, locals, profile, budget);
    let mut room = vec![0; 1 << 12];
    let flat = flatten(charstring, globals, locals, profile, budget, &mut room);
    assert_eq!(why.verdict, flat, "{charstring:02X?}");
    why.calls
}

#[test]
fn what_is_accepted_has_no_calls() {
    for (charstring, locals, ..) in ACCEPTED {
        assert_eq!(calls(charstring, [EMPTY_INDEX, locals], Plain), []);
    }
    let end = index(&[&[0x0E]]);
    assert_eq!(calls(&[0x20, 0x0A], [EMPTY_INDEX, &end], Strict), []);
}

#[test]
fn what_is_no_tokens_refusal_has_no_calls() {
    for (charstring, locals) in UNFINISHED {
        assert_eq!(calls(charstring, [EMPTY_INDEX, locals], Strict), []);
    }
    for (list, ..) in BAD_LISTS {
        assert_eq!(calls(&[0x20, 0x1D], [list, UNKNOWN_ENTRY], Plain), []);
        assert_eq!(calls(&[0x20, 0x1D], [UNKNOWN_ENTRY, list], Plain), []);
    }
}

#[test]
fn the_charstrings_own_refusals_have_no_calls() {
    for (charstring, locals, refusal, _) in REFUSED {
        let told = calls(charstring, [EMPTY_INDEX, locals], Plain);
        let open = if refusal == Refusal::TooDeep { 63 } else { 0 };
        assert_eq!(told, vec![call(Local, 0, 1); open], "{refusal}");
    }
}

/// The charstring is global 1, and is called behind a call that came back.
#[test]
fn a_refusal_within_a_call_tells_it() {
    let before = [0x20, 0x1D, 0x21, 0x1D];
    let owed = [call(Global, 1, 3)];
    for (charstring, locals, refusal, _) in REFUSED {
        let globals = index(&[&[0x0B], charstring]);
        let lists = [&globals, locals];
        let told = calls(&before, lists, Plain);
        let deeper = if refusal == Refusal::TooDeep { 62 } else { 0 };
        assert_eq!(told[..1], owed, "{refusal}");
        assert_eq!(told[1..], vec![call(Local, 0, 1); deeper], "{refusal}");
        // the budget ends before the call, and behind it
        let spent = |budget| under(&before, lists, Plain, budget);
        assert_eq!(spent(4), []);
        assert_eq!(spent(5), owed);
    }
    for (charstring, locals) in AT_MASK {
        let globals = index(&[&[0x0B], charstring]);
        let told = calls(&before, [&globals, locals], Strict);
        assert_eq!(told[..1], owed);
    }
}

#[test]
fn a_call_that_came_back_or_is_refused_is_not_told() {
    let bodies: [Bytes; 4] = [&[0x0B], &[], &[0x00], &[0x21, 0x0A, 0x22, 0x0A]];
    let locals = index(&bodies);
    let told = |charstring: &[u8]| calls(charstring, [EMPTY_INDEX, &locals], Plain);
    assert_eq!(told(&[0x20, 0x0A, 0x21, 0x0A, 0x00]), []);
    assert_eq!(told(&[0x20, 0x0A, 0x22, 0x0A]), [call(Local, 2, 3)]);
    let nested = [call(Local, 3, 3), call(Local, 2, 3)];
    assert_eq!(told(&[0x20, 0x0A, 0x23, 0x0A]), nested);
    assert_eq!(told(&[0x24, 0x0A]), []);
    assert_eq!(told(&[0x0A]), []);
}

/// A number in each of its forms before the call of local 0, which a call of global 0 leads to.
#[test]
fn the_offset_is_the_operators() {
    let moves = [0x8C, 0x16].repeat(35_000);
    let rows: [(&[u8], usize); 4] = [
        (&[0x20, 0x0A], 1),
        (&[0x1C, 0xFF, 0x95, 0x0A], 3),
        (&[0xFF, 0xFF, 0x95, 0x00, 0x00, 0x0A], 5),
        (&[&moves[..], &[0x20, 0x0A]].concat(), 70_001),
    ];
    for (caller, offset) in rows {
        let globals = index(&[caller]);
        let told = |charstring: &[u8]| {
            let lists = [&globals[..], UNKNOWN_ENTRY];
            explain(charstring, lists[0], lists[1], Plain, 1_000_000).calls
        };
        assert_eq!(told(caller), [call(Local, 0, offset)]);
        let nested = [call(Global, 0, 1), call(Local, 0, offset)];
        assert_eq!(told(&[0x20, 0x1D]), nested);
    }
}

#[test]
fn the_number_has_its_bias() {
    // the last of 216 entries by 108, the first of 1240 by -1131
    let rows: [(u32, u32, Bytes); 2] = [(216, 215, &[0xF7, 0x00]), (1240, 0, &[0xFE, 0xFF])];
    for (count, entry, number) in rows {
        let mut bodies = vec![&[][..]; count as usize];
        bodies[entry as usize] = &[0x00];
        let list = index(&bodies);
        let by = |operator, lists| calls(&[number, &[operator]].concat(), lists, Plain);
        let local = by(0x0A, [EMPTY_INDEX, &list]);
        assert_eq!(local, [call(Local, entry, 2)]);
        let global = by(0x1D, [&list, EMPTY_INDEX]);
        assert_eq!(global, [call(Global, entry, 2)]);
    }
}

/// A call of this entry behind so many moves, and where its operator stands.
fn caller(moves: usize, list: List, entry: u32) -> (Vec<u8>, usize) {
    let operator = if list == Local { 0x0A } else { 0x1D };
    let before = [0x8B, 0x16].repeat(moves);
    let number = [0x20 + entry as u8, operator];
    ([&before[..], &number].concat(), 2 * moves + 1)
}

/// Strings of which each calls the next, local and global by turns, to one that has a byte that starts no token.
fn chain(strings: usize) -> (Vec<u8>, [Vec<u8>; 2], Vec<Call>) {
    let mut bodies = vec![vec![0x00]];
    let mut told = Vec::new();
    for level in (0..strings - 1).rev() {
        let list = if level % 2 == 0 { Local } else { Global };
        // the entries of a list stand in their order
        let entry = level as u32 / 2;
        let (body, offset) = caller(level % 5, list, entry);
        bodies.insert(0, body);
        told.insert(0, call(list, entry, offset));
    }
    let charstring = bodies.remove(0);
    let of = |turn| {
        let taken = bodies.iter().skip(turn).step_by(2);
        index(&taken.map(Vec::as_slice).collect::<Vec<_>>())
    };
    (charstring, [of(1), of(0)], told)
}

#[test]
fn every_open_call_is_told_from_the_outermost_on() {
    for (profile, deepest) in [(Plain, 64), (Strict, 11)] {
        for strings in 1..=deepest {
            let (charstring, [globals, locals], told) = chain(strings);
            assert_eq!(told.len(), strings - 1);
            assert_eq!(calls(&charstring, [&globals, &locals], profile), told);
        }
        // one string more: the last call is refused, and so is not told
        let (charstring, [globals, locals], mut told) = chain(deepest + 1);
        told.pop();
        let why = explain(&charstring, &globals, &locals, profile, AMPLE);
        assert_eq!(why.verdict.unwrap_err().refusal, Refusal::TooDeep);
        assert_eq!(why.calls, told);
    }
}

/// What the C function sets of places that held 77, and leaves of so many words that held 77.
fn lent(
    [charstring, globals, locals]: [&[u8]; 3],
    [profile, budget]: [u32; 2],
    count: usize,
) -> (u32, ffi::Places, Vec<u64>) {
    let mut places = held();
    let mut words = vec![77; count];
    let lists = [charstring, globals, locals];
    let answer = ffi::explain_to(lists, profile, budget, &mut words, &mut places);
    (answer, places, words)
}

#[test]
fn as_many_calls_as_fit_are_told_whole() {
    let (charstring, [globals, locals], told) = chain(4);
    let told: Vec<u64> = told
        .iter()
        .flat_map(|call| {
            let list = u64::from(call.list == Global);
            [list, call.entry.into(), call.offset as u64]
        })
        .collect();
    for count in 0..12 {
        let (answer, places, words) = lent([&charstring, &globals, &locals], [0, AMPLE], count);
        assert_eq!((answer, places.calls), (6, 3));
        let fit = told.len().min(count / 3 * 3);
        assert_eq!(words[..fit], told[..fit]);
        assert_eq!(words[fit..], vec![77; count - fit]);
    }
}

#[test]
fn a_place_that_is_not_given_is_left() {
    let of = |lists, limits| {
        let (answer, p, words) = lent(lists, limits, 9);
        let told = words.iter().filter(|&&word| word != 77).count();
        assert_eq!(p.glyph, 77);
        let run = (p.length, p.tokens, p.width_kind, p.width);
        (answer, run, (p.entry, p.reason), (p.calls, told))
    };
    let none = EMPTY_INDEX;
    let untold = (77, 77, 77, 77);
    let wide = of([&[0x90, 0x0E], none, none], [0, 2]);
    assert_eq!(wide, (0, (2, 2, 0, 5), (77, 77), (0, 0)));
    let narrow = of([&[0x0E], none, none], [0, 1]);
    assert_eq!(narrow, (0, (1, 1, 2, 77), (77, 77), (0, 0)));
    let call = [&[0x20, 0x0A], none, UNKNOWN_ENTRY];
    assert_eq!(of(call, [0, 3]), (6, (77, 3, 77, 77), (77, 77), (1, 3)));
    assert_eq!(of(call, [0, 2]), (3, (77, 2, 77, 77), (77, 77), (1, 3)));
    assert_eq!(of(call, [0, 1]), (3, (77, 1, 77, 77), (77, 77), (0, 0)));
    let (charstring, locals) = AT_MASK[3];
    let at_mask = of([charstring, none, locals], [1, AMPLE]);
    assert_eq!(at_mask, (15, untold, (77, 77), (1, 3)));
    let unfinished = of([&[0x20, 0x0A], none, L], [1, AMPLE]);
    assert_eq!(unfinished, (16, untold, (77, 77), (0, 0)));
    for (list, reason, entry) in BAD_LISTS {
        let owed = (entry.unwrap_or(77), reason.number());
        assert_eq!(of([&[0x0E], list, none], [0, 1]), (1, untold, owed, (0, 0)));
        assert_eq!(of([&[0x0E], none, list], [0, 1]), (2, untold, owed, (0, 0)));
    }
}

/// What is said of a refusal that comes within these calls.
fn said(refused: Refused, calls: &[Call]) -> String {
    let why = Explanation {
        verdict: Err(refused),
        calls: calls.to_vec(),
    };
    let said = why.to_string();
    let more = said.strip_prefix(&refused.to_string());
    more.unwrap().to_string()
}

#[test]
fn texts_tell_where_the_token_stands() {
    let within = [call(Global, 4, 3), call(Local, 0, 1)];
    let place = "local subroutine 0, called at byte 1 of global subroutine 4, called at byte 3 of the charstring";
    for number in 4..=15 {
        let Ok(refusal) = Refusal::try_from(number) else {
            continue;
        };
        // 13 is no refusal of a run
        let owed = |place: &str| match refusal {
            Refusal::Short => String::new(),
            _ => format!("; it stands in {place}"),
        };
        assert_eq!(said(alone(refusal), &within), owed(place));
        assert_eq!(said(alone(refusal), &[]), owed("the charstring itself"));
    }
    let spent = alone(Refusal::BudgetSpent);
    let owed = format!("; the next token stands in {place}");
    assert_eq!(said(spent, &within), owed);
    for refusal in [Refusal::BadGlobals, Refusal::BadLocals, Refusal::NoEndchar] {
        assert_eq!(said(alone(refusal), &[]), "");
    }
}

#[test]
fn texts_tell_what_is_accepted() {
    let text = |charstring: &[u8]| explain(charstring, EMPTY_INDEX, L, Plain, AMPLE).to_string();
    assert_eq!(text(&[0x20, 0x0A, 0x0E]), "accepted: 4 bytes, 7 tokens");
    assert_eq!(text(&[0x0E]), "accepted: 1 byte, 1 token");
    assert_eq!(text(&[]), "accepted: 0 bytes, 0 tokens");
    assert_eq!(
        call(Global, 4, 3).to_string(),
        "global subroutine 4, called at byte 3"
    );
    assert_eq!(
        [Local, Global].map(|list| list.to_string()),
        ["local", "global"]
    );
}
