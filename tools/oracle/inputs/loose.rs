//! Random small charstrings over small random lists.

use super::case::{list, Case, FIRST, GLOBAL, LOCAL};
use crate::random::Random;

/// Operators that take what there is and go on.
pub const PATHS: [u8; 13] = [4, 5, 6, 7, 8, 21, 22, 24, 25, 26, 27, 30, 31];
pub const STEMS: [u8; 4] = [1, 3, 18, 23];

/// 48 operands and a stem: 24 hints.
pub const FULL_STEM: [u8; 49] = {
    let mut bytes = [0x8B; 49];
    bytes[48] = 1;
    bytes
};

/// A charstring with its lists; at times it starts near the strict limit of hints, and mostly it has an endchar at its end.
pub fn loose(random: &mut Random) -> Case {
    let stems = if random.once_in(20) { random.within(3, 4) } else { 0 };
    let end: &[u8] = random.one_of(&[&[][..], &[14], &[21, 14], &[21, 14]]);
    let charstring = [&FULL_STEM.repeat(stems as usize)[..], &any_string(random, 12), end].concat();
    Case { charstring, globals: any_list(random), locals: any_list(random) }
}

/// A list of mostly three to five entries, sometimes cut off or with another byte in it.
fn any_list(random: &mut Random) -> Vec<u8> {
    let count = if random.once_in(8) { random.within(0, 2) } else { random.within(3, 5) };
    let entries: Vec<Vec<u8>> = (0..count).map(|_| any_string(random, 8)).collect();
    let mut bytes = list(&entries);
    let at = random.within(0, bytes.len() as i64 - 1) as usize;
    match random.within(0, 60) {
        0 => bytes.truncate(at),
        1 => bytes[at] = random.next() as u8,
        2 => bytes.push(random.next() as u8),
        _ => {}
    }
    bytes
}

fn any_string(random: &mut Random, most: i64) -> Vec<u8> {
    let mut string = Vec::new();
    for _ in 0..random.within(0, most) {
        add_token(&mut string, random);
    }
    if random.once_in(30) {
        string.pop();
    }
    string
}

/// Adds a token, or a few that belong together.
fn add_token(string: &mut Vec<u8>, random: &mut Random) {
    match random.within(0, 39) {
        0..=9 => add_number(string, random),
        10..=20 => add_call(string, random),
        21..=25 => add_stem(string, random),
        26..=29 => string.extend([random.one_of(&[19, 20]), random.next() as u8]),
        30..=34 => string.push(random.one_of(&PATHS)),
        35 | 36 => string.extend([12, random.within(34, 37) as u8]),
        37 | 38 => string.push(random.one_of(&[11, 11, 14])),
        _ => add_any(string, random),
    }
}

pub fn add_number(string: &mut Vec<u8>, random: &mut Random) {
    match random.within(0, 4) {
        0 | 1 => string.push(random.within(32, 246) as u8),
        2 => string.extend([random.within(247, 254) as u8, random.next() as u8]),
        3 => {
            string.push(28);
            string.extend((random.within(-1200, 1200) as i16).to_be_bytes());
        }
        _ => {
            string.push(255);
            string.extend((random.next() as i32).to_be_bytes());
        }
    }
}

/// A call of one of the first entries, the index in any of its forms; at times the operator alone.
fn add_call(string: &mut Vec<u8>, random: &mut Random) {
    let entry = if random.once_in(20) { random.within(-1, 5) } else { random.within(0, 2) };
    let index = (entry - 107) as i16;
    match random.within(0, 40) {
        0..=4 => string.extend([&[28], &index.to_be_bytes()[..]].concat()),
        5..=9 => string.extend([&[255], &index.to_be_bytes()[..], &[0, 0]].concat()),
        10 => string.extend([&[255], &index.to_be_bytes()[..], &[0, 1]].concat()),
        11 => {}
        _ => string.push((i64::from(FIRST) + entry) as u8),
    }
    if random.once_in(12) {
        string.extend([19, 0x80]);
    }
    string.push(random.one_of(&[LOCAL, GLOBAL]));
}

/// Some operands, at times as many as there may be, and a stem.
fn add_stem(string: &mut Vec<u8>, random: &mut Random) {
    let operands = if random.once_in(8) { random.within(40, 49) } else { random.within(0, 6) };
    string.resize(string.len() + operands as usize, 0x8B);
    string.push(random.one_of(&STEMS));
}

/// Up to three bytes that can be anything.
fn add_any(string: &mut Vec<u8>, random: &mut Random) {
    for _ in 0..random.within(1, 3) {
        string.push(random.next() as u8);
    }
}
