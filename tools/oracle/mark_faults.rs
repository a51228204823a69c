//! Faults about the rows that tell which entries a run entered.

use crate::faults::{ruled, tell, tell_rows, tell_ruled};
use crate::operation::{library, Call, Fault, Lent, Side};
use crate::operations::flatten::{self, after, set, stops, tells_tokens};
use crate::operations::flatten_marked::{counts, marks};
use crate::rules::flattening::{AtEntry, Rules, RULES};
use crate::rules::index::formed;
use crate::rules::marking::row_size;

pub static FAULTS: [Fault; 26] = [
    // which bit
    Fault {
        name: "bits are counted from the high end",
        plant: |call, lent| each_row(call, lent, |left| left.change(|new, _| new.reverse_bits())),
    },
    Fault { name: "the rows are exchanged", plant: exchanged },
    Fault {
        name: "the last entry is not marked",
        plant: |call, lent| each_row(call, lent, |left| left.put(left.count.saturating_sub(1), 0)),
    },
    Fault {
        name: "the first entry is not marked",
        plant: |call, lent| by(call, lent, |at| at.number != 0),
    },
    Fault {
        name: "entries from 8 on are not marked",
        plant: |call, lent| by(call, lent, |at| at.number < 8),
    },
    Fault {
        name: "a bit behind the count is set",
        plant: |call, lent| each_row(call, lent, |left| left.put(left.count, 1)),
    },
    // which entries
    Fault {
        name: "only what the charstring calls itself is marked",
        plant: |call, lent| by(call, lent, |at| at.depth == 2),
    },
    Fault {
        name: "what an entry of the other list calls is not marked",
        plant: |call, lent| by(call, lent, |at| at.depth == 2 || at.global == at.by_global),
    },
    Fault {
        name: "only the first entry that is entered is marked",
        plant: |call, lent| by(call, lent, |at| at.before == 0),
    },
    Fault {
        name: "what is entered after eight calls is not marked",
        plant: |call, lent| by(call, lent, |at| at.before < 8),
    },
    Fault {
        name: "of a row's marks only the last stays",
        plant: |call, lent| each_row(call, lent, |left| left.keep_last()),
    },
    Fault { name: "over 2048 flat bytes lose their marks", plant: long_loses },
    // what the row held
    Fault {
        name: "the row is not cleared first",
        plant: |call, lent| each_row(call, lent, |left| left.change(|new, old| new | old)),
    },
    Fault {
        name: "the row is left as lent where nothing is entered",
        plant: |call, lent| each_row(call, lent, |left| left.restore_where_clear()),
    },
    Fault {
        name: "what is lent behind the row is cleared",
        plant: |call, lent| each_row(call, lent, |left| left.row[left.size..].fill(0)),
    },
    Fault { name: "the byte behind a row is changed", plant: byte_behind },
    // what a refusal leaves
    Fault {
        name: "a refused run leaves its marks",
        plant: |call, lent| leave_marks(call, lent, tells_tokens),
    },
    Fault {
        name: "13 leaves its marks",
        plant: |call, lent| leave_marks(call, lent, |answer| answer == 13),
    },
    Fault {
        name: "15 and 16 leave their marks",
        plant: |call, lent| leave_marks(call, lent, |answer| [15, 16].contains(&answer)),
    },
    Fault {
        name: "43 clears a row",
        plant: |call, lent| after(call, lent, |answer| answer == 43, clear_last_bytes),
    },
    // 43
    Fault { name: "43 is told before 1 and 2", plant: rows_first },
    Fault { name: "43 is told after what refuses the run", plant: rows_last },
    Fault { name: "43 is not told of the locals' row", plant: locals_let_through },
    Fault {
        name: "43 where a row is just enough",
        plant: |call, lent| short_if(call, lent, |row, size| row == size && size > 0),
    },
    Fault {
        name: "43 where a row is longer",
        plant: |call, lent| short_if(call, lent, |row, size| row > size),
    },
    Fault {
        name: "43 tells tokens",
        plant: |call, lent| after(call, lent, |answer| answer == 43, |lent| set(lent, 1, 0u32)),
    },
];

/// A row that an accepted call left, how many entries its list has, how many bytes these need, and the row as lent.
struct Left<'a> {
    row: &'a mut [u8],
    count: usize,
    size: usize,
    lent: &'a [u8],
}

impl Left<'_> {
    /// Makes each byte that is needed another, by it and what was lent.
    fn change(&mut self, other: fn(u8, u8) -> u8) {
        let both = self.row[..self.size].iter_mut().zip(self.lent);
        both.for_each(|(new, old)| *new = other(*new, *old));
    }

    /// Puts the bit of an entry, where there is one.
    fn put(&mut self, entry: usize, bit: u8) {
        if let Some(byte) = self.row[..self.size].get_mut(entry / 8) {
            *byte = *byte & !(1 << (entry % 8)) | bit << (entry % 8);
        }
    }

    fn keep_last(&mut self) {
        let row = &self.row;
        let marked = |entry: &usize| row[entry / 8] >> (entry % 8) & 1 == 1;
        let marked: Vec<usize> = (0..self.count).filter(marked).collect();
        marked.iter().rev().skip(1).for_each(|&entry| self.put(entry, 0));
    }

    fn restore_where_clear(&mut self) {
        if self.row[..self.size].iter().all(|&byte| byte == 0) {
            self.change(|_, old| old);
        }
    }
}

/// Does something to each row, where both lists are well formed.
fn change_rows(call: &Call, lent: &Lent, harm: fn(&mut Left)) {
    for (i, count) in counts(call).into_iter().flatten().enumerate() {
        let (at, length) = lent.rows[i];
        // SAFETY: the row stands in a block of its own.
        let row = unsafe { std::slice::from_raw_parts_mut(at, length) };
        let (count, size) = (count as usize, row_size(count));
        harm(&mut Left { row, count, size, lent: &call.rows[i] });
    }
}

/// The library's answer; and something done to each row of an accepted call.
fn each_row(call: &Call, lent: &Lent, harm: fn(&mut Left)) -> u32 {
    let answer = library(call, lent);
    if answer == 0 {
        change_rows(call, lent, harm);
    }
    answer
}

/// Tells what must come where entries are marked by this rule.
fn by(call: &Call, lent: &Lent, at_entry: fn(AtEntry) -> bool) -> u32 {
    tell_ruled(call, lent, Rules { at_entry, ..RULES })
}

fn exchanged(call: &Call, lent: &Lent) -> u32 {
    let answer = library(call, lent);
    if let (0, Some([globals, locals])) = (answer, marks(call)) {
        let resized = |row: &[u8], size: usize| {
            row.iter().copied().chain(std::iter::repeat(0)).take(size).collect::<Vec<u8>>()
        };
        tell_rows(lent, &[resized(&locals, globals.len()), resized(&globals, locals.len())]);
    }
    answer
}

fn long_loses(call: &Call, lent: &Lent) -> u32 {
    let answer = library(call, lent);
    if answer == 0 && lent.size(0) > 2048 {
        change_rows(call, lent, |left| left.change(|_, _| 0));
    }
    answer
}

fn byte_behind(call: &Call, lent: &Lent) -> u32 {
    if lent.side == Side::Low {
        let (at, length) = lent.rows[1];
        // SAFETY: the row has a guard there.
        unsafe { *at.add(length) = 0 };
    }
    library(call, lent)
}

/// With such an answer the rows have what the run entered.
fn leave_marks(call: &Call, lent: &Lent, such: fn(u32) -> bool) -> u32 {
    let answer = library(call, lent);
    if such(answer) {
        tell_rows(lent, &marks(call).unwrap_or_default());
    }
    answer
}

fn clear_last_bytes(lent: &Lent) {
    for (at, length) in lent.rows.into_iter().filter(|(_, length)| *length > 0) {
        // SAFETY: the row has that byte.
        unsafe { *at.add(length - 1) = 0 };
    }
}

fn rows_first(call: &Call, lent: &Lent) -> u32 {
    let short = |i: usize| {
        formed(&call.slices[i + 1]).is_ok_and(|count| call.rows[i].len() < row_size(count))
    };
    match short(0) || short(1) {
        true => 43,
        false => library(call, lent),
    }
}

/// Tells what must come without rows, where it is such an answer and 43 is due.
fn let_through(call: &Call, lent: &Lent, such: fn(u32) -> bool) -> u32 {
    let outcome = ruled(&Call { operation: &flatten::OPERATION, ..call.again() }, RULES);
    match library(call, lent) {
        43 if such(outcome.answer) => tell(call, lent, &outcome),
        answer => answer,
    }
}

fn rows_last(call: &Call, lent: &Lent) -> u32 {
    let_through(call, lent, |answer| stops(answer) || answer == 13)
}

fn locals_let_through(call: &Call, lent: &Lent) -> u32 {
    match counts(call) {
        Some([globals, _]) if row_size(globals) <= call.rows[0].len() => {
            let_through(call, lent, |_| true)
        }
        _ => library(call, lent),
    }
}

/// 43 where a row is such, by its length and how many bytes it needs.
fn short_if(call: &Call, lent: &Lent, such: fn(usize, usize) -> bool) -> u32 {
    let counts = counts(call).into_iter().flatten();
    match counts.zip(&call.rows).any(|(count, row)| such(row.len(), row_size(count))) {
        true => 43,
        false => library(call, lent),
    }
}
