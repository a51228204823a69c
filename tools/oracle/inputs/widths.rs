//! Charstrings that say a width, and such as look as if they did.

use super::case::{list, Case, Given, FIRST, GLOBAL, LOCAL, NONE, PLAIN, SECOND, THIRD};
use super::edges::triggers;
use crate::rules::number::{written, Operand, Place};

/// 5, and 1.5 as a Fixed.
const WIDTHS: [&[u8]; 2] = [&[0x90], &[0xFF, 0x00, 0x01, 0x80, 0x00]];

/// All of them.
pub(super) fn all() -> Vec<Given> {
    let mut asked: Vec<Given> = each_count().iter().flat_map(Case::both).collect();
    asked.extend(each_value().iter().map(|case| case.ample(PLAIN)));
    asked.extend(refused().iter().flat_map(Case::both));
    asked.extend(cases().iter().flat_map(Case::around));
    asked
}

/// Before every operator but calls and returns none to five operands and about as many as there may be, the bottom one of each
/// kind; and behind it an endchar that would have a width.
fn each_count() -> Vec<Case> {
    let one = [1, 3, 4, 5, 6, 7, 8, 14, 18, 19, 20, 21, 22, 23, 24, 25, 26, 27, 30, 31];
    let two = [34, 35, 36, 37].map(|operator| vec![12, operator]);
    let mut cases = Vec::new();
    for operator in one.map(|operator| vec![operator]).into_iter().chain(two) {
        for count in [0usize, 1, 2, 3, 4, 5, 46, 47, 48] {
            let mask = if [19, 20].contains(&operator[0]) { (count / 2).div_ceil(8) } else { 0 };
            let behind = [&vec![0x80; mask][..], &[0x8D, 0x0E]].concat();
            for bottom in WIDTHS {
                let waiting = if count == 0 { vec![] } else { over(bottom, count - 1) };
                let string = [&waiting[..], &operator, &behind].concat();
                cases.push(Case::new(&string, NONE, NONE));
            }
        }
    }
    cases
}

/// So many operands over the bottom one, no two the same.
fn over(bottom: &[u8], count: usize) -> Vec<u8> {
    [bottom, &(0..count).map(|i| 0xA0 + i as u8).collect::<Vec<u8>>()].concat()
}

/// Widths at each bound of a form, the integers also in three bytes; and Fixed ones whose parts are small and large.
fn each_value() -> Vec<Case> {
    let integers = [-32768, -1132, -1131, -108, -107, -1, 0, 1, 107, 108, 1131, 1132, 32767];
    let fixed = [0, 1, -1, 65535, 65536, -65536, -65537, i32::MAX, i32::MIN, 0xC33C_3CC3u32 as i32];
    let three = integers.map(|n: i32| [&[28], &(n as i16).to_be_bytes()[..]].concat());
    let shortest = (integers.map(Operand::Integer).into_iter())
        .chain(fixed.map(Operand::Fixed))
        .map(|width| written(Place::Charstring, width).expect("it has a form"));
    let mut cases = Vec::new();
    for width in shortest.chain(three) {
        for rest in [&[0x0E][..], &[0x8C, 0x16, 0x0E], &[0x8C, 0x8D, 0x01, 0x0E]] {
            cases.push(Case::new(&[&width, rest].concat(), NONE, NONE));
        }
    }
    cases
}

/// What each refusal comes from, behind an operator that has settled a width.
fn refused() -> Vec<Case> {
    let lists = [GLOBAL, LOCAL].map(|call| list(&[&[][..], &[], &[THIRD, call]]));
    let wide = |trigger: Vec<u8>| [&[0x90, 0x8C, 0x8D, 0x15], &trigger[..]].concat();
    let strings = triggers().into_iter().map(wide);
    strings.map(|string| Case::new(&string, &lists[0], &lists[1])).collect()
}

/// Over lists as `cases` has them.
const CASES: [&[u8]; 39] = [
    // where the sentence may be read otherwise
    &[0x13, 0x8C, 0x0E],
    &[0x8B, 0x05, 0x8C, 0x0E],
    &[0x8C, FIRST, LOCAL, 0x0E],
    &[0x8C, 0x8D, 0x8E, 0x8F, 0x15],
    &[0x8C],
    // an operand too many behind the first operator: at a move, a stem, a mask and endchar
    &[0x8C, 0x8D, 0x15, 0x90, 0x91, 0x92, 0x15, 0x0E],
    &[0x90, 0x8C, 0x8D, 0x15, 0x91, 0x92, 0x93, 0x15, 0x0E],
    &[0x90, 0x8C, 0x16, 0x91, 0x92, 0x04, 0x93, 0x0E],
    &[0x8C, 0x16, 0x90, 0x0E],
    &[0x8C, 0x8D, 0x01, 0x90, 0x91, 0x92, 0x03, 0x0E],
    &[0x90, 0x8C, 0x8D, 0x01, 0x91, 0x92, 0x93, 0x13, 0x80, 0x0E],
    &[0x90, 0x8C, 0x8D, 0x12, 0x91, 0x92, 0x17, 0x14, 0x80, 0x0E],
    &[0x8C, 0x8D, 0x12, 0x90, 0x8C, 0x8D, 0x14, 0x80, 0x0E],
    // masks: without bytes, with, and behind one, where an operand may wait in plain
    &[0x90, 0x13, 0x91, 0x14, 0x0E],
    &[0x13, 0x90, 0x8C, 0x8D, 0x14, 0x80, 0x0E],
    &[0x90, 0x8C, 0x8D, 0x14, 0x80, 0x91, 0x14, 0x80, 0x0E],
    &[0x8C, 0x8D, 0x14, 0x80, 0x91, 0x14, 0x80, 0x0E],
    &[0x8C, 0x8D, 0x13, 0x80, 0x91, 0x13, 0x80, 0x92, 0x13, 0x80, 0x0E],
    // composites are refused, and without their four operands they have a width
    &[0x90, 0x8B, 0x8B, 0x0E],
    &[0x90, 0x8B, 0x8B, 0x8B, 0x0E],
    &[0x90, 0x8B, 0x8B, 0x8B, 0x8B, 0x0E],
    // no end, and no operator
    &[0x90, 0x0B, 0x0E],
    &[0x90, THIRD + 3, LOCAL],
    // the operand by itself and the operator an entry's, the other way round, both an entry's, and each one's own
    &[0x90, FIRST, GLOBAL, 0x0E],
    &[0x90, FIRST, LOCAL, 0x91, 0x0E],
    &[SECOND, LOCAL, 0x8C, 0x8D, 0x15, 0x0E],
    &[SECOND, GLOBAL, 0x0E],
    &[THIRD, LOCAL, 0x0E],
    &[SECOND, LOCAL, FIRST, GLOBAL, 0x0E],
    &[THIRD + 1, LOCAL, 0x91, 0x0E],
    &[THIRD + 2, GLOBAL],
    &[0x90, THIRD + 2, LOCAL],
    &[0x90, THIRD + 3, GLOBAL, 0x91, THIRD + 3, LOCAL, 0x16, 0x0E],
    &[0x90, THIRD + 4, LOCAL, 0x0E],
    &[THIRD + 5, LOCAL, 0x8C, 0x8D, 0x01, 0x0E],
    // an entry that has no width at its first operator, and then one at its second
    &[THIRD + 6, GLOBAL, 0x0E],
    // an index waits below another one, over a width and not; and one that no call takes is the width
    &[FIRST, THIRD + 3, LOCAL, LOCAL, 0x0E],
    &[0x90, FIRST, THIRD + 3, GLOBAL, LOCAL, 0x0E],
    &[SECOND, FIRST, LOCAL, 0x0E],
];

/// Widths through calls, and operators that come too late for one. The entries of both lists are 1 2 rmoveto return; -5 return;
/// 3 1 hmoveto; calls of the second and the first; endchar; nothing; 1 2 hstem; 1.5; and 1 rlineto, 2 3 hmoveto.
fn cases() -> Vec<Case> {
    let entries = |call: u8| {
        list(&[
            &[0x8C, 0x8D, 0x15, 0x0B][..],
            &[0x86, 0x0B],
            &[0x8E, 0x8C, 0x16],
            &[SECOND, call, FIRST, call, 0x0B],
            &[0x0E],
            &[],
            &[0x8C, 0x8D, 0x01, 0x0B],
            &[0xFF, 0x00, 0x01, 0x80, 0x00, 0x0B],
            &[0x8C, 0x05, 0x8D, 0x8E, 0x16, 0x0B],
        ])
    };
    let (globals, locals) = (entries(GLOBAL), entries(LOCAL));
    CASES.iter().map(|string| Case::new(string, &globals, &locals)).collect()
}
