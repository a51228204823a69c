//! The part of an entry by a view of the INDEX: 12. It is no C function of the library; `tools/tried` exports it.

use super::read_entry::{self, ENTRY};
use crate::library::{tried_view_byte, tried_view_length};
use crate::operation::{Call, Lent, Operation};

pub static OPERATION: Operation = Operation {
    number: 12,
    name: "entry_by_view",
    invoke,
    ..ENTRY
};

/// A part tells neither its place nor why it is empty: those are the plain reader's, whose entry it must be.
fn invoke(call: &Call, lent: &Lent) -> u32 {
    const ANOTHER_PART: u32 = u32::MAX;
    let answer = read_entry::invoke(call, lent);
    let (bytes, size) = lent.slices[0];
    let part = if answer == 0 { (lent.size(0), lent.size(1)) } else { (0, 0) };
    let seen = |i: usize| unsafe { tried_view_byte(bytes, size, call.number, i) };
    let same = |i: usize| seen(i) == unsafe { *bytes.add(part.0 + i) };
    if unsafe { tried_view_length(bytes, size, call.number) } != part.1 || !(0..part.1).all(same) {
        return ANOTHER_PART;
    }
    answer
}
