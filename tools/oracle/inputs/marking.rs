//! Flattenings with rows: those of the list, those too big or too many to store, and random rows.

use super::case::{
    list, Case, Given, AMPLE, FIRST, GLOBAL, L, LOCAL, NONE, PLAIN, SECOND, STRICT, THIRD,
};
use super::edges::{chain, ends, triggers, Ladder, BAD};
use super::flattening::{each_once, rows as charstrings};
use super::index::rows as strings;
use crate::random::Random;
use crate::rules::index::formed;
use crate::rules::marking::row_size;
use crate::rules::number::{bias, written, Operand, Place};

/// A flattening, and the globals' row and the locals' as lent.
#[derive(Clone, PartialEq, Eq, Hash)]
pub struct Marking {
    pub given: Given,
    pub rows: [Vec<u8>; 2],
}

/// How many entries the globals and the locals have: rows of no, one and two bytes, full, one entry short of it and one over, and
/// around the first bound of the bias.
const COUNTS: [[usize; 2]; 12] = [
    [0, 0],
    [0, 1],
    [1, 0],
    [1, 1],
    [7, 8],
    [8, 7],
    [8, 9],
    [9, 8],
    [1, 9],
    [1239, 9],
    [9, 1239],
    [1240, 1240],
];

/// Bytes over, or under, what a row needs.
const OVER: [i64; 5] = [-2, -1, 0, 1, 3];

/// Those of the list, each once.
pub fn listed() -> Vec<Marking> {
    let mut asked: Vec<Marking> = COUNTS.into_iter().flat_map(entered).collect();
    asked.extend(through());
    asked.extend(refused());
    asked.extend(of_each_size());
    asked.extend(bad_lists());
    asked.extend(charstrings().iter().chain(&ends()).flat_map(Case::both).map(exact));
    asked.extend(widths().iter().map(|case| exact(case.ample(PLAIN))));
    asked.extend(depths());
    asked.extend(long());
    each_once(asked)
}

/// A profile, a room and rows out of range; and the longest row that there may be.
pub fn beyond(most: usize, most_row: usize) -> Vec<Marking> {
    let case = Case::new(&[FIRST, LOCAL, 0x0E], NONE, L);
    let mut asked = vec![exact(case.ample(2)), exact(case.asked(PLAIN, 1, most + 1))];
    for lengths in [[most_row, 1], [most_row + 1, 1], [0, most_row + 1]] {
        let rows = lengths.map(|length| vec![0xFF; length]);
        asked.push(Marking { given: case.ample(PLAIN), rows });
    }
    asked
}

/// Too big to store: counts around the second bound of the bias, and the most, with every entry entered. Too many: every string of
/// one to four of these bytes, over lists that call each other.
pub fn more() -> Vec<Marking> {
    const ALPHABET: [u8; 8] = [FIRST, SECOND, THIRD, LOCAL, GLOBAL, 0x0B, 0x0E, 0x16];
    let mut asked: Vec<Marking> = [33_899, 33_900, 65_535]
        .into_iter()
        .flat_map(|count| [[count, 9], [9, count], [count, count]])
        .flat_map(entered)
        .collect();
    let lists = [GLOBAL, LOCAL]
        .map(|call| list(&[&[FIRST, call ^ GLOBAL ^ LOCAL][..], &[SECOND, call], &[0x0B]]));
    for string in (1..=4).flat_map(|length| strings(&ALPHABET, length)) {
        asked.push(exact(Case::new(&string, &lists[0], &lists[1]).asked(PLAIN, 200, 64)));
    }
    asked
}

impl Marking {
    /// Rows of so many bytes more than the lists need, full of a byte each.
    fn over(given: Given, more: [i64; 2], full: [u8; 2]) -> Self {
        let needed = needed(&given.case);
        let rows = [0, 1].map(|i| vec![full[i]; (needed[i] + more[i]).max(0) as usize]);
        Marking { given, rows }
    }
}

/// Rows of just as many bytes as the lists need, with every bit set.
fn exact(given: Given) -> Marking {
    Marking::over(given, [0, 0], [0xFF, 0xFF])
}

/// How many bytes the row of each list needs, of one that is not well formed none.
fn needed(case: &Case) -> [i64; 2] {
    [&case.globals, &case.locals].map(|list| formed(list).map_or(0, row_size) as i64)
}

/// A call of an entry, of so many.
fn call_of(entry: usize, count: usize, operator: u8) -> Vec<u8> {
    let index = entry as i64 - bias(count as u32);
    let index = written(Place::Charstring, Operand::Integer(index as i32));
    [index.expect("an index has 16 bits"), vec![operator]].concat()
}

/// Over lists of so many entries: none called, the first and the last of each list, these two in either order, one twice, and all.
fn entered(counts: [usize; 2]) -> Vec<Marking> {
    let lists = counts.map(|count| list(&vec![[0x0B]; count]));
    let calls = |which: usize, entries: &[usize]| -> Vec<u8> {
        let call = |&entry: &usize| call_of(entry, counts[which], [GLOBAL, LOCAL][which]);
        entries.iter().filter(|&&entry| entry < counts[which]).flat_map(call).collect()
    };
    let last = counts.map(|count| count.saturating_sub(1));
    let all = counts.map(|count| (0..count).collect::<Vec<usize>>());
    let strings = [
        Vec::new(),
        calls(0, &[0]),
        calls(1, &[0]),
        [calls(0, &[last[0]]), calls(1, &[last[1], last[1]])].concat(),
        [calls(1, &[last[1], 0]), calls(0, &[0, last[0]])].concat(),
        [calls(0, &all[0]), calls(1, &all[1])].concat(),
    ];
    let mut asked = Vec::new();
    for (i, string) in strings.iter().enumerate() {
        let case = Case::new(&[string, &[0x0E][..]].concat(), &lists[0], &lists[1]);
        asked.push(exact(case.asked(i as u32 % 2, AMPLE, 4)));
        if counts[0] + counts[1] < 100 {
            asked.push(Marking::over(case.asked(PLAIN, AMPLE, 1), [1, 2], [0x5A, 0x00]));
        }
    }
    asked
}

/// Over lists as `through` has them.
const THROUGH: [&[u8]; 22] = [
    // an entry of the same list, one of the other, and one of the same by one of the other
    &[SECOND, LOCAL, 0x0E],
    &[SECOND, GLOBAL, 0x0E],
    &[THIRD, LOCAL, 0x0E],
    &[THIRD, GLOBAL, 0x0E],
    &[THIRD + 1, LOCAL, 0x0E],
    &[THIRD + 1, GLOBAL, 0x0E],
    // the same entry by several ways
    &[SECOND, LOCAL, FIRST, LOCAL, SECOND, LOCAL, 0x0E],
    &[THIRD, LOCAL, FIRST, GLOBAL, THIRD + 1, GLOBAL, 0x0E],
    &[THIRD + 1, GLOBAL, THIRD + 1, LOCAL, 0x0E],
    // what comes behind an end is not entered: endchar, also an entry's, and a return
    &[THIRD + 7, LOCAL, FIRST, LOCAL],
    &[FIRST, GLOBAL, THIRD + 7, GLOBAL, FIRST, LOCAL],
    &[FIRST, LOCAL, 0x0E, SECOND, LOCAL],
    &[FIRST, LOCAL, 0x0B, SECOND, GLOBAL, 0x0E],
    &[THIRD + 6, LOCAL, 0x0E],
    &[THIRD + 6, GLOBAL, THIRD + 5, LOCAL, 0x0E],
    // an index that an entry leaves, and one that waits while another is called
    &[THIRD + 4, LOCAL, LOCAL, 0x0E],
    &[THIRD + 4, GLOBAL, LOCAL, 0x0E],
    &[SECOND, THIRD + 3, LOCAL, LOCAL, 0x0E],
    // entries without bytes, and indexes that are Fixed
    &[THIRD + 3, LOCAL, THIRD + 3, GLOBAL, 0x0E],
    &[0xFF, 0xFF, 0x95, 0x00, 0x00, LOCAL, 0xFF, 0xFF, 0x9E, 0x00, 0x00, GLOBAL],
    // no entry
    &[FIRST, SECOND, 0x15, 0x0E],
    &[0x0E],
];

/// Entries that are reached through others. Each list has a move; calls of its own first entry, of the other list's first and of
/// that one's third; two entries without bytes; the index of the second; a move and a return; a call behind a return; and endchar.
fn through() -> Vec<Marking> {
    let entries = |own: u8, other: u8| {
        list(&[
            &[0x8C, 0x16][..],
            &[FIRST, own, 0x0B],
            &[FIRST, other],
            &[THIRD, other, 0x0B],
            &[],
            &[],
            &[SECOND, 0x0B],
            &[0x8C, 0x16, 0x0B],
            &[0x0B, FIRST, own],
            &[0x0E],
        ])
    };
    let (globals, locals) = (entries(GLOBAL, LOCAL), entries(LOCAL, GLOBAL));
    let cases = THROUGH.iter().map(|string| Case::new(string, &globals, &locals));
    cases.flat_map(|case| case.both()).map(exact).collect()
}

/// What each refusal comes from, behind marks, before them, and in an entry; refused calls among them.
fn refused() -> Vec<Marking> {
    let marks = [FIRST, LOCAL, FIRST, GLOBAL];
    let mut asked = Vec::new();
    for trigger in triggers() {
        let entries =
            |call: u8| list(&[vec![0x8C, 0x16, 0x0B], trigger.clone(), vec![THIRD, call]]);
        let (globals, locals) = (entries(GLOBAL), entries(LOCAL));
        let case = |string: &[&[u8]]| Case::new(&string.concat(), &globals, &locals);
        asked.extend(case(&[&marks, &trigger]).both().map(exact));
        asked.push(exact(case(&[&trigger, &marks, &[0x0E]]).ample(PLAIN)));
        asked.push(exact(case(&[&marks, &[SECOND, LOCAL, 0x0E]]).ample(STRICT)));
        let given = case(&[&[SECOND, GLOBAL][..], &[0x0E]]).ample(PLAIN);
        asked.push(Marking::over(given, [2, 1], [0x00, 0x5A]));
    }
    asked
}

/// Rows one and two bytes short, exact and longer: where the run is accepted, refused, and without room or budget.
fn of_each_size() -> Vec<Marking> {
    let lists = [9, 17].map(|count| list(&vec![[0x8C, 0x16]; count]));
    let case = |string: &[u8]| Case::new(string, &lists[0], &lists[1]);
    let accepted = case(&[FIRST + 8, GLOBAL, FIRST + 16, LOCAL, 0x0E]);
    let refused = case(&[FIRST, GLOBAL, 0x00]);
    let mut asked = Vec::new();
    for more in OVER.into_iter().flat_map(|first| OVER.map(|second| [first, second])) {
        asked.push(Marking::over(accepted.ample(PLAIN), more, [0xFF, 0xFF]));
        asked.push(Marking::over(refused.ample(PLAIN), more, [0x00, 0xA5]));
    }
    for more in [[-1, 0], [0, -1], [-1, -1], [0, 0], [1, 1]] {
        for given in [accepted.asked(PLAIN, AMPLE, 4), accepted.asked(STRICT, 6, 9)] {
            asked.push(Marking::over(given, more, [0xFF, 0x00]));
        }
        asked.push(Marking::over(accepted.asked(STRICT, 0, 0), more, [0xFF, 0x00]));
    }
    // the row of a reading: `FF FF` becomes `01 FF`
    let rows = [vec![], vec![0xFF, 0xFF]];
    let given = Case::new(&[FIRST, LOCAL, 0x0E], NONE, L).ample(STRICT);
    asked.push(Marking { given, rows });
    asked
}

/// 1 and 2 before 43: each list bad, with the row of the other one short and not, and both.
fn bad_lists() -> Vec<Marking> {
    let mut asked = Vec::new();
    for bad in BAD {
        for more in [-1, 0, 1] {
            for case in [Case::new(&[0x00], bad, L), Case::new(&[0x0E], L, bad)] {
                asked.push(Marking::over(case.ample(PLAIN), [more, more], [0xFF, 0xFF]));
            }
        }
        asked.push(exact(Case::new(&[], bad, bad).ample(STRICT)));
    }
    asked
}

/// A width or none, by some operators and counts, beside an entry that is entered.
pub(super) fn widths() -> Vec<Case> {
    let operators = [1, 3, 18, 23, 19, 20, 21, 22, 4, 5, 14];
    let mut cases = Vec::new();
    for (operator, count) in operators.into_iter().flat_map(|one| [1, 2, 3, 47].map(|n| (one, n))) {
        let mask = if [19, 20].contains(&operator) { count / 16 + 1 } else { 0 };
        let operands: Vec<u8> = (0..count).map(|i| 0xA0 + i as u8).collect();
        let behind = [&vec![0x80; mask][..], &[FIRST, LOCAL, 0x0E]].concat();
        cases.push(Case::new(&[&operands[..], &[operator], &behind].concat(), NONE, L));
    }
    cases
}

/// The deepest call that there is, and one more.
fn depths() -> Vec<Marking> {
    let mut asked = Vec::new();
    for entries in [10, 11, 63, 64] {
        let (locals, globals) = (chain(entries, LOCAL), chain(entries, GLOBAL));
        asked.extend(Case::new(&[FIRST, LOCAL, 0x0E], NONE, &locals).both().map(exact));
        asked.extend(Case::new(&[FIRST, GLOBAL, 0x0E], &globals, NONE).both().map(exact));
    }
    asked
}

/// As many bytes as a call keeps, so that it runs a charstring just once, and one more; with an entry that is entered last.
fn long() -> Vec<Marking> {
    let moves = Ladder { first: 0, rungs: 4 };
    let locals = list(&moves.entries(&[0x15]));
    let globals = list(&[&[0x0B][..], &[0x0E]]);
    let mut asked = Vec::new();
    for count in [2047, 2048] {
        let string = [&moves.times(count)[..], &[SECOND, GLOBAL]].concat();
        let case = Case::new(&string, &globals, &locals);
        asked.extend([0, 2048, 4096].map(|room| exact(case.asked(STRICT, AMPLE, room))));
    }
    asked
}

/// A charstring whose flat string has about as many bytes as a call keeps, by entries of both lists; at times one is not there.
pub fn any_long(random: &mut Random) -> Case {
    let moves = Ladder { first: 0, rungs: 4 };
    let globals = list(&vec![[0x15]; random.within(1, 12) as usize]);
    let mut string = moves.times(random.within(2040, 2056) as u64);
    string.extend([FIRST + random.within(0, 12) as u8, GLOBAL, 0x0E]);
    Case::new(&string, &globals, &list(&moves.entries(&[0x15])))
}

/// Rows for these lists, mostly of just the bytes that they need or of some more, at times short.
pub fn any_rows(lists: [&[u8]; 2], random: &mut Random) -> [Vec<u8>; 2] {
    lists.map(|list| {
        let needed = formed(list).map_or(0, row_size) as i64;
        let size = match random.within(0, 15) {
            0 => random.within(0, needed),
            1 => needed - 1,
            2..=8 => needed,
            _ => needed + random.within(1, 5),
        };
        (0..size).map(|_| random.next() as u8).collect()
    })
}
