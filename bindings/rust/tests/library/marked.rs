//! Flattening with rows: which entries of its lists a run entered, and what is left of rows that are lent.

use crate::flattening::{AMPLE, L};
use crate::{alone, ffi, held, index, BAD_LISTS, BLANK};
use ighzamrel::Profile::{Plain, Strict};
use ighzamrel::*;

const ROOM: usize = 16;
const CALL: u8 = 0x0A;
const CALL_GLOBAL: u8 = 0x1D;
const RETURN: &[u8] = &[0x0B];
const END: &[u8] = &[0x0E];

type Lists = [Vec<u8>; 2];

/// A list of so many entries: these, and return for all others.
fn list(count: u32, entries: &[(u32, &[u8])]) -> Vec<u8> {
    let mut bodies = vec![RETURN; count as usize];
    for &(number, body) in entries {
        bodies[number as usize] = body;
    }
    index(&bodies)
}

/// A call of this entry of a list of so many.
fn call(entry: u32, count: u32, operator: u8) -> Vec<u8> {
    let bias = if count < 1240 { 107 } else { 1131 };
    let mut number = [0; 5];
    let operand = Operand::Integer(entry as i32 - bias);
    let length = write_charstring_number(operand, &mut number).unwrap();
    [&number[..length], &[operator]].concat()
}

/// The row of so many entries with these marked.
fn row(count: u32, marked: &[u32]) -> Vec<u8> {
    let bit = |entry: u32| u8::from(marked.contains(&entry)) << (entry % 8);
    let byte = |first| (first..first + 8).map(bit).sum();
    (0..count).step_by(8).map(byte).collect()
}

/// What is lent besides the lists.
#[derive(Clone, Copy)]
struct Lent {
    profile: Profile,
    budget: u32,
    room: usize,
    rows: [usize; 2],
}

/// The answer, and what it leaves of the room and of both rows, which were blank.
fn marked(charstring: &[u8], lists: &Lists, lent: Lent) -> (Result<Flat, Refused>, [Vec<u8>; 3]) {
    let [mut out, mut first, mut second] =
        [lent.room, lent.rows[0], lent.rows[1]].map(|length| vec![BLANK; length]);
    let [globals, locals] = lists;
    let (profile, budget) = (lent.profile, lent.budget);
    let answer = flatten_marked(
        charstring,
        globals,
        locals,
        profile,
        budget,
        &mut out,
        &mut first,
        &mut second,
    );
    (answer, [out, first, second])
}

fn blank(lent: Lent) -> [Vec<u8>; 3] {
    [lent.room, lent.rows[0], lent.rows[1]].map(|length| vec![BLANK; length])
}

/// Accepted as without rows; these entries are marked, in rows that are just long enough or longer, and no other byte
/// changes; a row that is a byte too short is refused before anything runs.
fn marks(charstring: &[u8], lists: &Lists, entered: [&[u32]; 2]) {
    let counts = [0, 1].map(|i| check_list(&lists[i]).unwrap());
    let rows = [0, 1].map(|i| row(counts[i], entered[i]));
    let [globals, locals] = lists;
    let vec = flatten_to_vec(charstring, globals, locals, Plain, AMPLE, ROOM).unwrap();
    for more in [[0, 0], [1, 2]] {
        let lent = Lent {
            profile: Plain,
            budget: AMPLE,
            room: ROOM,
            rows: [0, 1].map(|i| row_size(counts[i]) + more[i]),
        };
        let (answer, left) = marked(charstring, lists, lent);
        let mut owed = blank(lent);
        let written = [&vec.bytes, &rows[0], &rows[1]];
        (0..3).for_each(|i| owed[i][..written[i].len()].copy_from_slice(written[i]));
        assert_eq!(answer.map(|flat| flat.tokens), Ok(vec.tokens));
        assert_eq!(left, owed, "{charstring:02X?}");
    }
    too_short(charstring, lists, counts);
    let owned = flatten_marked_to_vec(charstring, globals, locals, Plain, AMPLE, ROOM).unwrap();
    assert!(owned.globals().iter().eq(entered[0].iter().copied()));
    assert!(owned.locals().iter().eq(entered[1].iter().copied()));
    let [globals_row, locals_row] = rows;
    let owed = MarkedVec {
        flat: vec,
        globals_row,
        locals_row,
    };
    assert_eq!(owned, owed);
}

/// Either row is a byte too short, whatever the budget and the room.
fn too_short(charstring: &[u8], lists: &Lists, counts: [u32; 2]) {
    for i in (0..2).filter(|&i| counts[i] > 0) {
        for (budget, room) in [(AMPLE, ROOM), (0, ROOM), (AMPLE, 0)] {
            let mut rows = counts.map(row_size);
            rows[i] -= 1;
            let lent = Lent {
                profile: Plain,
                budget,
                room,
                rows,
            };
            let refused = (Err(alone(Refusal::RowTooShort)), blank(lent));
            assert_eq!(marked(charstring, lists, lent), refused);
        }
    }
}

const COUNTS: [u32; 9] = [1, 7, 8, 9, 16, 17, 1239, 1240, 1241];

#[test]
fn an_entry_is_marked_by_its_number() {
    for count in COUNTS {
        for entry in [0, 1, 6, 7, 8, count / 2, count - 1] {
            if entry >= count {
                continue;
            }
            let global = [&call(entry, count, CALL_GLOBAL), END].concat();
            marks(&global, &[list(count, &[]), list(3, &[])], [&[entry], &[]]);
            let local = [&call(entry, count, CALL), END].concat();
            marks(&local, &[list(9, &[]), list(count, &[])], [&[], &[entry]]);
        }
    }
}

#[test]
fn a_glyph_without_calls_marks_nothing() {
    for count in [0].into_iter().chain(COUNTS) {
        for lists in [
            [list(0, &[]), list(count, &[])],
            [list(count, &[]), list(0, &[])],
        ] {
            marks(END, &lists, [&[], &[]]);
            marks(&[], &lists, [&[], &[]]);
        }
    }
}

#[test]
fn every_entry_is_marked_where_all_are_called() {
    for count in [1, 7, 8, 9, 24] {
        let all: Vec<u32> = (0..count).collect();
        let calls = |operator| -> Vec<u8> {
            let calls = all.iter().map(|&entry| call(entry, count, operator));
            calls.collect::<Vec<_>>().concat()
        };
        let charstring = [&calls(CALL), &calls(CALL_GLOBAL), END].concat();
        marks(
            &charstring,
            &[list(count, &[]), list(count, &[])],
            [&all, &all],
        );
    }
}

#[test]
fn calls_of_entries_are_marked_too() {
    // local 8 calls global 7, which calls local 1, which calls global 0; that one ends the glyph
    let lists = [
        list(9, &[(0, END), (7, &call(1, 10, CALL))]),
        list(
            10,
            &[(8, &call(7, 9, CALL_GLOBAL)), (1, &call(0, 9, CALL_GLOBAL))],
        ),
    ];
    marks(&call(8, 10, CALL), &lists, [&[0, 7], &[1, 8]]);
    // what stands behind the end is not run
    let behind = [call(8, 10, CALL), call(9, 10, CALL)].concat();
    marks(&behind, &lists, [&[0, 7], &[1, 8]]);
}

#[test]
fn an_entry_that_is_entered_twice_has_one_mark() {
    // by the glyph itself, and by the glyph and by entry 0
    let lists = [list(0, &[]), list(3, &[(0, &call(2, 3, CALL))])];
    let twice = [call(2, 3, CALL), call(2, 3, CALL), END.to_vec()].concat();
    marks(&twice, &lists, [&[], &[2]]);
    let both = [call(2, 3, CALL), call(0, 3, CALL), END.to_vec()].concat();
    marks(&both, &lists, [&[], &[0, 2]]);
}

#[test]
fn an_entry_without_bytes_is_entered() {
    let lists = [list(1, &[(0, &[])]), list(2, &[(1, &[])])];
    let charstring = [call(0, 1, CALL_GLOBAL), call(1, 2, CALL)].concat();
    marks(&charstring, &lists, [&[0], &[1]]);
}

#[test]
fn a_longer_row_keeps_its_tail() {
    let charstring = [&call(0, 1, CALL), END].concat();
    let (mut out, mut row) = ([0; 4], [0xFF, 0xFF]);
    let locals = list(1, &[]);
    flatten_marked(
        &charstring,
        EMPTY_INDEX,
        &locals,
        Plain,
        AMPLE,
        &mut out,
        &mut [],
        &mut row,
    )
    .unwrap();
    assert_eq!(row, [0x01, 0xFF]);
}

/// A glyph that is refused behind a call: what it calls, what follows, the profile, budget and room, and the refusal.
#[test]
fn a_refused_run_leaves_both_rows() {
    let itself = call(1, 3, CALL);
    let lists = [list(1, &[]), list(3, &[(1, &itself), (2, &[0x00])])];
    let rows: [(&[u8], Profile, u32, usize, Refusal); 8] = [
        (&[0x00], Plain, AMPLE, ROOM, Refusal::Unknown),
        (&[0x8C, 0x0E], Plain, 4, ROOM, Refusal::BudgetSpent),
        (&[0x8C, 0x0E], Plain, AMPLE, 1, Refusal::Short),
        (&[0x1C], Plain, AMPLE, ROOM, Refusal::BytesLacking),
        (&call(3, 3, CALL), Plain, AMPLE, ROOM, Refusal::NoEntry),
        (&itself, Plain, AMPLE, ROOM, Refusal::TooDeep),
        (&call(2, 3, CALL), Plain, AMPLE, ROOM, Refusal::Unknown),
        (&[], Strict, AMPLE, ROOM, Refusal::NoEndchar),
    ];
    for (behind, profile, budget, room, refusal) in rows {
        let charstring = [&call(0, 1, CALL_GLOBAL), behind].concat();
        let lent = Lent {
            profile,
            budget,
            room,
            rows: [1, 2],
        };
        let (answer, left) = marked(&charstring, &lists, lent);
        assert_eq!(answer.map_err(|refused| refused.refusal), Err(refusal));
        assert_eq!(left, blank(lent), "{charstring:02X?}");
        let mut out = vec![0; room];
        let [globals, locals] = &lists;
        let plain = flatten(&charstring, globals, locals, profile, budget, &mut out);
        assert_eq!(answer, plain);
        let vec = flatten_marked_to_vec(&charstring, globals, locals, profile, budget, room);
        assert_eq!(
            vec.map(|marked| marked.flat.tokens),
            plain.map(|flat| flat.tokens)
        );
    }
}

#[test]
fn a_damaged_list_comes_before_a_short_row() {
    for (bad, reason, entry) in BAD_LISTS {
        for rows in [[0, 0], [1, 1]] {
            let lent = Lent {
                profile: Plain,
                budget: 0,
                room: ROOM,
                rows,
            };
            let refused = |refusal| Refused {
                entry,
                reason: Some(reason),
                ..alone(refusal)
            };
            for (lists, refusal) in [
                ([bad.to_vec(), L.to_vec()], Refusal::BadGlobals),
                ([bad.to_vec(), bad.to_vec()], Refusal::BadGlobals),
                ([L.to_vec(), bad.to_vec()], Refusal::BadLocals),
            ] {
                let owed = (Err(refused(refusal)), blank(lent));
                assert_eq!(marked(END, &lists, lent), owed);
                let [globals, locals] = &lists;
                let vec = flatten_marked_to_vec(END, globals, locals, Plain, 0, ROOM);
                assert_eq!(vec, Err(refused(refusal)));
            }
        }
    }
}

#[test]
fn a_short_row_gives_no_place() {
    let lists = [L, L];
    for lengths in [[0, 1], [1, 0], [0, 0]] {
        let mut places = held();
        let [mut first, mut second] = lengths.map(|length| vec![BLANK; length]);
        let lent = [&[0x20, 0x0A, 0x0E], lists[0], lists[1]];
        let rows = [&mut first[..], &mut second[..]];
        let answer = ffi::flatten_marked_to(lent, 0, AMPLE, &mut [0; 8], rows, &mut places);
        assert_eq!(answer, Refusal::RowTooShort.number());
        assert_eq!((places.length, places.tokens, places.entry), (77, 77, 77));
        assert_eq!((places.reason, places.width_kind), (77, 77));
        assert_eq!((places.width, places.glyph, places.calls), (77, 77, 77));
    }
}

/// Of a list of 20, in which entry 3 calls 17: all others may be anything, also a call of 3, and without bytes.
#[test]
fn what_is_not_entered_may_change() {
    let (path, inner): (&[u8], _) = (&[0x8C, 0x16, 0x0B], call(17, 20, CALL));
    let by = |others: &[u8]| {
        let mut bodies = vec![others; 20];
        (bodies[3], bodies[17]) = (&inner, path);
        let charstring = [&call(3, 20, CALL), END].concat();
        let globals = index(&[others; 9]);
        flatten_marked_to_vec(&charstring, &globals, &index(&bodies), Plain, AMPLE, ROOM).unwrap()
    };
    let owed = by(RETURN);
    assert_eq!(owed.flat.bytes, [0x8C, 0x16, 0x0E]);
    assert_eq!(owed.globals_row, [0, 0]);
    assert_eq!(owed.locals_row, row(20, &[3, 17]));
    for others in [&[0x00][..], &[], END, &call(3, 20, CALL), &[0x8B; 60]] {
        assert_eq!(by(others), owed, "{others:02X?}");
    }
}

#[test]
fn a_row_is_read() {
    let bytes = [0x81, 0x00, 0x02];
    let row = Row::new(&bytes);
    assert_eq!(row.iter().collect::<Vec<_>>(), [0, 7, 17]);
    assert!((0..100).all(|entry| row.contains(entry) == [0, 7, 17].contains(&entry)));
    assert!(!row.contains(u32::MAX));
    assert_eq!(Row::new(&[]).iter().next(), None);
    assert!(Row::new(&[0xFF; 2]).iter().eq(0..16));
    let sizes = [0, 1, 7, 8, 9, 1240, 65_535].map(row_size);
    assert_eq!(sizes, [0, 1, 1, 1, 2, 155, 8192]);
    assert_eq!(row_size(u32::MAX), 1 << 29);
}
