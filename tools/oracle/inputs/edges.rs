//! Flattenings at each edge of flattening: every refusal, every operator and number, and both sides of every limit.

use super::case::{
    list, Case, Given, AMPLE, FIRST, GLOBAL, L, LOCAL, NONE, PLAIN, SECOND, STRICT, THIRD,
};
use super::index::flawed;
use super::loose::FULL_STEM;
use crate::rules::flattening::Verdict;

/// Entries of a local list, from the `first` on: a string, and then such as run the one before eight times.
pub(super) struct Ladder {
    pub first: u8,
    pub rungs: u8,
}

/// How many full stems there may be in plain: fifteen hints are left.
pub(super) const MOST_STEMS: u64 = 2730;

impl Ladder {
    pub fn entries(&self, string: &[u8]) -> Vec<Vec<u8>> {
        let rung = |i: u8| [FIRST + self.first + i - 1, LOCAL].repeat(8);
        std::iter::once(string.to_vec()).chain((1..self.rungs).map(rung)).collect()
    }

    /// Calls that run the string so many times.
    pub fn times(&self, mut n: u64) -> Vec<u8> {
        let mut calls = Vec::new();
        for i in (0..self.rungs).rev() {
            let held = 8u64.pow(i.into());
            calls.extend([FIRST + self.first + i, LOCAL].repeat((n / held) as usize));
            n %= held;
        }
        calls
    }
}

/// All of them; the flat strings with most hints into no room.
pub(super) fn all() -> Vec<Given> {
    [
        refused(),
        bad_lists(),
        first_bytes(),
        numbers(),
        depths(),
        operands(),
        strict_hints(),
        plain_hints(0),
        waiting(),
        masks().iter().chain(&ends()).flat_map(Case::around).collect(),
        long_ends(),
        [1239, 1240, 33899, 33900].into_iter().flat_map(counts).collect(),
        forty(),
    ]
    .concat()
}

/// A list that is bad in each way: 20 at each of three places, 21, emptied, an entry whose offsets descend, and one past the data.
pub(super) const BAD: [&[u8]; 7] = [
    &[],
    &[0x00],
    &[0x00, 0x01],
    &[0x00, 0x01, 0x05, 0x01, 0x01],
    &[0x00, 0x02, 0x01, 0x01, 0x01, 0x00],
    &[0x00, 0x02, 0x01, 0x02, 0x01, 0x02, 0x0B],
    &[0x00, 0x02, 0x01, 0x01, 0x03, 0x02, 0x0B],
];

/// What each refusal of a run comes from, on lists whose third entries call themselves.
pub(super) fn triggers() -> Vec<Vec<u8>> {
    let mut triggers: Vec<Vec<u8>> = vec![
        vec![0x1C, 0x00],
        vec![0xF7],
        vec![0xFF, 0x00, 0x00, 0x00],
        vec![0x0C],
        vec![0x8B, 0x8C, 0x01, 0x13],
        vec![0x8B; 49],
        vec![0x00],
        vec![0x0C, 0x00],
        vec![LOCAL],
        vec![GLOBAL],
        vec![0xFF, 0x00, 0x00, 0x80, 0x00, LOCAL],
        vec![0x8B, 0x8C, 0x01, 0x13, 0x80, FIRST, 0x13, 0x80, LOCAL],
        vec![0x8B, 0x8C, 0x01, 0x14, 0x80, FIRST, 0x14, 0x80, GLOBAL],
        vec![0x8B, 0x8C, 0x01, 0x13, 0x80, 0x8B, 0x14, 0x80],
        vec![0x8B, 0x8C, 0x14, 0x80, 0x8B, 0x8C, 0x13],
        vec![0x1F, LOCAL],
        vec![0xFF, 0xFF, 0x94, 0x00, 0x00, LOCAL],
        vec![0x8B, GLOBAL],
        vec![THIRD + 1, LOCAL],
        vec![THIRD, LOCAL],
        vec![THIRD, GLOBAL],
        vec![0x8B; 4],
    ];
    triggers.last_mut().expect("there are some").push(0x0E);
    triggers.push([&FULL_STEM.repeat(4)[..], &[0x8B, 0x8B, 0x01]].concat());
    triggers.push([&FULL_STEM.repeat(4)[..], &[0x8B, 0x8B, 0x13]].concat());
    triggers.extend([vec![], vec![0x8C, 0x16], vec![0x0B]]);
    triggers
}

/// Each trigger at the start, after other tokens, before others, and as an entry of each list.
fn refused() -> Vec<Given> {
    let path = [0x8C, 0x8D, 0x15];
    let mut asked = Vec::new();
    for trigger in triggers() {
        let entries =
            |call: u8| list(&[vec![0x8C, 0x8D, 0x15, 0x0B], trigger.clone(), vec![THIRD, call]]);
        let (globals, locals) = (entries(GLOBAL), entries(LOCAL));
        let strings = [
            trigger.clone(),
            [&path[..], &trigger].concat(),
            [&trigger[..], &[0x0E, 0x0E]].concat(),
            [&path[..], &[SECOND, LOCAL]].concat(),
            [&path[..], &[SECOND, GLOBAL, 0x0E]].concat(),
        ];
        for string in strings {
            let case = Case::new(&string, &globals, &locals);
            asked.extend(case.both());
            if let Verdict::Stopped(_, tokens) = case.verdict(PLAIN) {
                asked.push(case.asked(PLAIN, tokens, 0));
                asked.push(case.asked(PLAIN, tokens - 1, 0));
            }
        }
    }
    asked
}

/// 1 and 2, before everything else that is wrong; where both lists are bad, by flaws of their own.
fn bad_lists() -> Vec<Given> {
    let mut asked = Vec::new();
    for list in BAD {
        for case in
            [Case::new(&[0x00], list, L), Case::new(&[0x00], L, list), Case::new(&[], list, list)]
        {
            asked.extend(case.both());
            asked.push(case.asked(PLAIN, 0, 0));
        }
    }
    let flawed = flawed();
    for (list, other) in flawed.iter().zip(flawed.iter().cycle().skip(1)) {
        asked.push(Case::new(&[0x0E], list, L).ample(PLAIN));
        asked.push(Case::new(&[0x0E], L, list).ample(STRICT));
        asked.push(Case::new(&[0x0E], list, other).asked(PLAIN, 0, 0));
    }
    asked
}

/// Every operator and escaped operator with no, one and two operands before it.
fn first_bytes() -> Vec<Given> {
    let list = list(&[[0x8C], [0x8D]]);
    let mut asked = Vec::new();
    for before in [&[][..], &[FIRST], &[FIRST, SECOND]] {
        for b in 0..=31 {
            let string = [before, &[b, 0x22, 0x80, 0x0E]].concat();
            asked.extend(Case::new(&string, &list, &list).both());
        }
    }
    asked.extend((0..=255).map(|b| Case::new(&[0x8B, 0x0C, b, 0x0E], NONE, NONE).ample(PLAIN)));
    asked
}

/// Integers in longer forms than the shortest, at each bound of a form, and a Fixed.
fn numbers() -> Vec<Given> {
    let values: [i16; 14] =
        [-32768, -1132, -1131, -108, -107, -1, 0, 1, 107, 108, 1131, 1132, 5000, 32767];
    let mut strings: Vec<Vec<u8>> =
        values.iter().map(|v| [&[0x1C][..], &v.to_be_bytes(), &[0x16]].concat()).collect();
    for b in [247u8, 250, 251, 254] {
        strings.extend([0, 255].map(|after| vec![b, after, 0x16]));
    }
    strings.push(vec![0xFF, 0x00, 0x05, 0x00, 0x00, 0x16]);
    strings.iter().map(|string| Case::new(string, NONE, NONE).ample(PLAIN)).collect()
}

/// A list of so many entries, each calling the next, the last with a path of its own.
pub(super) fn chain(entries: u8, call: u8) -> Vec<u8> {
    let mut chain: Vec<Vec<u8>> = (1..entries).map(|i| vec![FIRST + i, call, 0x0B]).collect();
    chain.push(vec![0x8C, 0x8D, 0x15, 0x0B]);
    list(&chain)
}

/// The deepest call that there is, one less and one more.
fn depths() -> Vec<Given> {
    let mut asked = Vec::new();
    for entries in [9, 10, 11, 62, 63, 64] {
        let call = [FIRST, LOCAL, 0x0E];
        asked.extend(Case::new(&call, NONE, &chain(entries, LOCAL)).both());
        let call = [FIRST, GLOBAL, 0x0E];
        asked.extend(Case::new(&call, &chain(entries, GLOBAL), NONE).both());
    }
    asked
}

/// 48 operands and 49, a call's index among them, before each kind of token.
fn operands() -> Vec<Given> {
    let mut asked = Vec::new();
    for count in [47, 48] {
        let numbers = [&[0x15, 0x0E][..], &[0x8B, 0x15, 0x0E], &[FIRST, 0x15, 0x0E], &[0x1C, 0x00]];
        for after in numbers.into_iter().chain([&[FIRST, LOCAL, 0x0E][..], &[LOCAL]]) {
            let string = [&vec![0x8B; count][..], after].concat();
            asked.extend(Case::new(&string, NONE, L).both());
        }
    }
    asked
}

/// 96 hints and 97, at a stem and at a mask.
fn strict_hints() -> Vec<Given> {
    let stems = [&[0x8B; 48][..], &[0x12]].concat().repeat(3);
    let mut asked = Vec::new();
    for last in [46, 47, 48] {
        for after in [&[0x17][..], &[0x8B, 0x8B, 0x17], &[0x13], &[0x01, 0x8B, 0x8B, 0x13]] {
            for mask in [0, 11, 12, 13] {
                let operands = vec![0x8B; last];
                // a path, so that no operand waits at endchar; a mask that is to lack a byte would take it
                let end = if mask == 11 { &[][..] } else { &[0x15, 0x0E] };
                let string = [&stems, &operands, after, &vec![0x80; mask], end].concat();
                asked.extend(Case::new(&string, NONE, NONE).both());
            }
        }
    }
    asked
}

/// 65535 hints and 65536, at a stem and at a mask.
pub(super) fn plain_hints(room: usize) -> Vec<Given> {
    let stems = Ladder { first: 0, rungs: 4 };
    let (locals, whole) = (list(&stems.entries(&FULL_STEM)), stems.times(MOST_STEMS));
    let mut asked = Vec::new();
    for operands in [30, 31, 32] {
        for operator in [0x01, 0x13] {
            let head = [&whole[..], &vec![0x8B; operands], &[operator]].concat();
            let masks = if operator == 0x13 && operands < 32 { vec![8191, 8192] } else { vec![0] };
            for mask in masks {
                let string = [&head[..], &vec![0x80; mask]].concat();
                asked.push(Case::new(&string, NONE, &locals).asked(PLAIN, AMPLE, room));
            }
        }
    }
    asked
}

/// A hint, and the mask that fixes its length, one byte.
const FIXED: [u8; 5] = [0x8B, 0x8C, 0x01, 0x13, 0x80];

/// As many operands as there may be, and none, before a second mask of each operator.
fn waiting() -> Vec<Given> {
    let mut asked = Vec::new();
    for (count, operator) in (0..=48).flat_map(|count| [(count, 0x13), (count, 0x14)]) {
        let string = [&FIXED[..], &vec![0x8B; count], &[operator, 0x80, 0x15, 0x0E]].concat();
        asked.extend(Case::new(&string, NONE, NONE).both());
    }
    asked
}

/// Behind that mask, over lists as `masks` has them.
const BEHIND: [&[u8]; 18] = [
    // operands that are cleared in between
    &[0x8B, 0x16, 0x13, 0x80, 0x0E],
    &[0x8B, 0x0C, 0x22, 0x14, 0x80, 0x0E],
    &[0x8B, 0x8C, 0x03, 0x14, 0x80, 0x0E],
    // what else is refused, behind the mask and at it
    &[0x8B, 0x8B, 0x8B, 0x8B, 0x13, 0x80, 0x0E],
    &[0x8B, 0x13, 0x80, 0x00],
    &[0x13],
    &[0x8B, 0x13],
    &[0x8B, 0x14],
    // the operand, the mask, both, and the mask without its byte, by a call
    &[FIRST, LOCAL, 0x13, 0x80, 0x0E],
    &[FIRST, GLOBAL, 0x14, 0x80, 0x0E],
    &[0x8B, SECOND, LOCAL, 0x0E],
    &[0x8B, SECOND, GLOBAL, 0x0E],
    &[SECOND, LOCAL, 0x0E],
    &[THIRD, LOCAL, 0x0E],
    &[0x8B, THIRD + 1, GLOBAL],
    // an index that waits, of an entry that is there and of one that is not
    &[FIRST, 0x13, 0x80, LOCAL],
    &[FIRST, 0x14, 0x80, GLOBAL, 0x0E],
    &[0x8B, 0x14, 0x80, LOCAL],
];

/// First masks with operands, and what comes behind these.
const FIRST_MASKS: [&[u8]; 8] = [
    &[0x8B, 0x8C, 0x14, 0x80, 0x0E],
    &[0x8B, 0x8B, 0x8C, 0x13, 0x80, 0x14, 0x80, 0x0E],
    &[0x8B, 0x8C, 0x14, 0x80, 0x8B, 0x14, 0x80, 0x0E],
    // masks without bytes fix nothing
    &[0x8B, 0x13, 0x8B, 0x14, 0x0E],
    &[0x13, 0x14, 0x8B, 0x8C, 0x14, 0x80, 0x0E],
    &[0x13, 0x8B, 0x8C, 0x14, 0x80, 0x8B, 0x13, 0x80, 0x0E],
    // the first mask is an entry's
    &[0x8B, 0x8C, SECOND, LOCAL, 0x0E],
    &[0x8B, 0x8C, SECOND, LOCAL, 0x8B, SECOND, GLOBAL, 0x0E],
];

/// Masks with operands before them: stems, such that stay in plain, and such that strict refuses. The entries of both lists leave
/// an operand, have a mask, have both, and have a mask that lacks its byte.
pub(super) fn masks() -> Vec<Case> {
    let lists = list(&[&[0x8C, 0x0B][..], &[0x13, 0x80], &[0x8B, 0x14, 0x80, 0x0B], &[0x14]]);
    // nine hints have masks of two bytes, of which one lacks
    let two_bytes = [&[0x8B; 18][..], &[0x13, 0x80, 0x80, 0x8B, 0x14, 0x80]].concat();
    let behind = BEHIND.map(|rest| [&FIXED, rest].concat()).into_iter();
    let strings = behind.chain(FIRST_MASKS.map(<[u8]>::to_vec)).chain([two_bytes]);
    strings.map(|string| Case::new(&string, &lists, &lists)).collect()
}

/// Over lists as `ends` has them.
const ENDS: [&[u8]; 33] = [
    // no end of its own, and a return, behind which an endchar is not looked at
    &[],
    &[0x8B],
    &[0x8C, 0x16],
    &[0x0B],
    &[0x0B, 0x0E],
    &[0x8C, 0x16, 0x0B, 0x0E],
    // endchar, and what is not looked at behind it
    &[0x0E],
    &[0x8C, 0x0E, 0x0B],
    &[0x8C, 0x16, 0x0E, 0x00],
    // last bytes that look like endchar: of a number, a Fixed and a mask
    &[0x1C, 0x00, 0x0E],
    &[0xFF, 0x00, 0x00, 0x00, 0x0E],
    &[0x8B, 0x8C, 0x13, 0x0E],
    // an entry that returns, that runs out, that has no bytes, and that calls the first two
    &[FIRST, LOCAL],
    &[FIRST, GLOBAL, 0x0B],
    &[FIRST, LOCAL, 0x0E],
    &[SECOND, GLOBAL],
    &[SECOND, LOCAL, 0x0B, 0x0E],
    &[SECOND, GLOBAL, 0x0E],
    &[THIRD, LOCAL],
    &[THIRD, GLOBAL, 0x0E],
    &[THIRD + 1, LOCAL],
    &[THIRD + 1, GLOBAL, 0x0E],
    // endchar in an entry, and in one that this calls
    &[THIRD + 2, LOCAL],
    &[THIRD + 2, GLOBAL, 0x0B],
    &[THIRD + 2, LOCAL, 0x00],
    &[THIRD + 3, GLOBAL],
    &[THIRD + 3, LOCAL, 0x0B],
    &[FIRST, LOCAL, SECOND, GLOBAL, THIRD + 3, LOCAL, 0x00],
    // what else is refused
    &[0x8C, 0x00],
    &[0x8C, 0x1C, 0x00],
    &[FIRST, LOCAL, LOCAL],
    &[0x8B, 0x8B, 0x8B, 0x8B, 0x0E],
    &[0x8B, 0x8B, 0x8B, THIRD + 4, LOCAL],
];

/// Ends of each kind, at each of three depths. The entries of both lists return, run out, have no bytes, call the first two, have an
/// endchar, call that one, and have an operand and endchar.
pub(super) fn ends() -> Vec<Case> {
    let entries = |call: u8| {
        list(&[
            &[0x8C, 0x16, 0x0B][..],
            &[0x8C, 0x16],
            &[],
            &[FIRST, call, SECOND, call, 0x0B],
            &[0x8C, 0x0E, 0x0B],
            &[THIRD + 2, call, 0x0B],
            &[0x8B, 0x0E],
        ])
    };
    let (globals, locals) = (entries(GLOBAL), entries(LOCAL));
    ENDS.iter().map(|string| Case::new(string, &globals, &locals)).collect()
}

/// In strict, as many bytes as a call keeps, so that it runs a charstring just once, and one more: with endchar and without.
fn long_ends() -> Vec<Given> {
    let moves = Ladder { first: 0, rungs: 4 };
    let locals = list(&moves.entries(&[0x15]));
    let mut asked = Vec::new();
    for (count, end) in [(2047, &[0x0E][..]), (2048, &[0x0E]), (2048, &[]), (2049, &[])] {
        let case = Case::new(&[&moves.times(count), end].concat(), NONE, &locals);
        asked.extend([0, 4096].map(|room| case.asked(STRICT, AMPLE, room)));
    }
    asked
}

/// A list of so many entries, of which the first and the last are not empty, called by each bias.
fn counts(entries: usize) -> Vec<Given> {
    let mut members: Vec<&[u8]> = vec![&[]; entries];
    members[0] = &[0x8C];
    members[entries - 1] = &[0x8D];
    let long = list(&members);
    let mut string = Vec::new();
    let mut asked = Vec::new();
    for first in [-107i32, -1131, -32768] {
        let last = first + entries as i32 - 1;
        string.clear();
        for index in [first, last] {
            let index = i16::try_from(index).unwrap_or(i16::MAX);
            string.extend([&[0x1C][..], &index.to_be_bytes(), &[LOCAL]].concat());
        }
        string.push(0x0E);
        asked.push(Case::new(&string, NONE, &long).ample(PLAIN));
        if entries < 2000 {
            let global: Vec<u8> =
                string.iter().map(|&b| if b == LOCAL { GLOBAL } else { b }).collect();
            asked.push(Case::new(&global, &long, NONE).ample(STRICT));
        }
    }
    asked
}

/// The forty subroutines, each calling the next twice.
pub(super) fn forty() -> Vec<Given> {
    let mut entries: Vec<Vec<u8>> = (1..40).map(|i| [FIRST + i, LOCAL].repeat(2)).collect();
    entries.push(vec![0x8C, 0x16]);
    let case = Case::new(&[FIRST, LOCAL, 0x0E], NONE, &list(&entries));
    let budgets = [0, 1, 2, 40, 1000, 1_000_000];
    budgets
        .into_iter()
        .flat_map(|budget| [PLAIN, STRICT].map(|profile| case.asked(profile, budget, 64)))
        .collect()
}
