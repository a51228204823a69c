//! Charstrings and lists with a few bytes changed, cut off, put in or left out, and other lists in the place of theirs.

use super::case::Case;
use super::index::any_bytes;
use crate::random::Random;

/// The same with one to four hurts, mostly of the charstring.
pub fn damaged(mut case: Case, random: &mut Random) -> Case {
    for _ in 0..random.within(1, 4) {
        match random.within(0, 5) {
            0 => hurt_list(&mut case.globals, random),
            1 | 2 => hurt_list(&mut case.locals, random),
            _ => hurt(&mut case.charstring, random),
        }
    }
    case
}

/// Bytes of a list hurt; at times any INDEX in its place, of which many have an entry that is absent.
fn hurt_list(list: &mut Vec<u8>, random: &mut Random) {
    if random.once_in(4) {
        *list = any_bytes(random);
    } else {
        hurt(list, random);
    }
}

pub fn hurt(string: &mut Vec<u8>, random: &mut Random) {
    let any = random.next() as u8;
    if string.is_empty() {
        return string.push(any);
    }
    let at = random.within(0, string.len() as i64 - 1) as usize;
    match random.within(0, 9) {
        0..=2 => string[at] ^= 1 << (any & 7),
        3 | 4 => string[at] = any,
        5 | 6 => string.insert(at, any),
        7 | 8 => drop(string.remove(at)),
        _ => string.truncate(at),
    }
}
