//! What is lent to a C function: each slice, the numbers, the room, the rows and the words stand flush against a page that nothing
//! may touch, so that code without instrumentation faults at the first byte that it reads or writes too far. The room, the words,
//! the bytes on the other side of them and of the rows, and each place hold a pattern. After every call all of it is looked at.

use crate::operation::{
    library, Call, Fault, Found, Lent, Operation, Outcome, Place, Side, NO_WIDTH, PLACES,
};
use std::borrow::Cow;
use std::ffi::c_void;
use std::ptr;
use std::slice;
use std::sync::OnceLock;

/// The most bytes of a slice, the numbers, a room, a row or the words.
const ARENA: usize = 1 << 25;
const PAGE: usize = 1 << 16;

/// The bytes of a word, and of a number.
const WORD: usize = size_of::<u64>();
const NUMBER: usize = size_of::<u32>();

/// How many bytes on the side where there is no page are looked at.
const GUARD: usize = 64;

/// The most room that can be lent.
pub const MOST_ROOM: usize = ARENA - GUARD;

/// What a place holds before a call.
pub const UNSET: u64 = 0xA55A_5AA5_C33C_3CC3;

/// The pattern starts at another of so many bytes at each call. No byte of it is 0.
const STARTS: usize = 256;

extern "C" {
    fn mmap(at: *mut c_void, size: usize, may: i32, how: i32, file: i32, from: i64) -> *mut c_void;
    fn mprotect(at: *mut c_void, size: usize, may: i32) -> i32;
}

/// Memory between two pages that nothing may touch.
struct Arena(*mut u8);

// SAFETY: the memory is the arena's own.
unsafe impl Send for Arena {}

impl Arena {
    fn new() -> Self {
        const PRIVATE_AND_NO_FILE: i32 = 0x22;
        const READ_AND_WRITE: i32 = 3;
        // SAFETY: the memory is new, and what is made usable lies within it.
        unsafe {
            let all = mmap(ptr::null_mut(), ARENA + 2 * PAGE, 0, PRIVATE_AND_NO_FILE, -1, 0);
            let first = all.wrapping_byte_add(PAGE);
            assert!(all as isize != -1 && mprotect(first, ARENA, READ_AND_WRITE) == 0, "no memory");
            Arena(first.cast())
        }
    }

    /// The block stands until the next one of the same arena.
    fn block(&self, size: usize, side: Side) -> *mut u8 {
        assert!(size <= ARENA, "too long to be lent");
        self.0.wrapping_add(if side == Side::Low { 0 } else { ARENA - size })
    }

    /// A block with a guard on its other side, both full of the pattern.
    fn guarded(&self, size: usize, side: Side, pattern: &[u8]) -> *mut u8 {
        // SAFETY: the block and its guard lie in the arena, and nothing else refers to them.
        unsafe { self.block(size + GUARD, side).copy_from(pattern.as_ptr(), size + GUARD) };
        self.block(size, side)
    }

    /// Whether the guard of such a block, and all of it behind the first so many bytes, still hold the pattern.
    fn keeps(&self, size: usize, side: Side, pattern: &[u8], first: usize) -> bool {
        // SAFETY: the block and its guard lie in the arena, and the call is over.
        let all = unsafe { slice::from_raw_parts(self.block(size + GUARD, side), size + GUARD) };
        let before = if side == Side::Low { 0 } else { GUARD };
        let behind = before + first;
        all[..before] == pattern[..before] && all[behind..] == pattern[behind..all.len()]
    }
}

/// A fault to call in the library's stead, in one operation or in all.
pub static PLANTED: OnceLock<(&Fault, Option<&Operation>)> = OnceLock::new();

fn planted(call: &Call) -> fn(&Call, &Lent) -> u32 {
    match PLANTED.get() {
        Some((fault, only)) if only.is_none_or(|own| own.number == call.operation.number) => {
            fault.plant
        }
        _ => library,
    }
}

pub struct Lender {
    arenas: [Arena; 3],
    numbers: Arena,
    out: Arena,
    rows: [Arena; 2],
    words: Arena,
    pattern: Vec<u8>,
    start: usize,
}

impl Lender {
    pub fn new() -> Self {
        let pattern = (0..ARENA + STARTS)
            .map(|i| (i as u8).wrapping_mul(37).wrapping_add((i >> 8) as u8) | 1)
            .collect();
        let arenas = [Arena::new(), Arena::new(), Arena::new()];
        let rows = [Arena::new(), Arena::new()];
        let [numbers, out, words] = [Arena::new(), Arena::new(), Arena::new()];
        Lender { arenas, numbers, out, rows, words, pattern, start: 0 }
    }

    /// Makes a call, and looks at all that was lent.
    pub fn perform(&mut self, call: &Call, side: Side) -> Result<Outcome, String> {
        self.start = (self.start + 29) % STARTS;
        let mut places = [UNSET; PLACES];
        let lent = self.lent(call, &mut places, side);
        let answer = planted(call)(call, &lent);
        // SAFETY: each block lies in its arena, and the call is over.
        let left = |(at, size): (*mut u8, usize)| unsafe { slice::from_raw_parts(at, size) };
        // SAFETY: so do the numbers, whose arena starts and ends at one.
        let numbers = unsafe { slice::from_raw_parts(lent.numbers.0, lent.numbers.1) };
        let same = |(left, handed): (&[u8], &Cow<[u8]>)| left[..] == handed[..];
        let all_same = lent.slices.map(left).into_iter().zip(&call.slices).all(same);
        if !all_same || numbers[..] != call.numbers[..] {
            return Err("  a byte of an input was changed\n".into());
        }
        let mut outcome = outcome(call, answer, &places, left((lent.out, lent.room)))?;
        outcome.rows = rows(call, answer, lent.rows.map(left))?;
        // SAFETY: the words lie in their arena, which starts and ends at one, and the call is over.
        outcome.words = told_words(call, &outcome, unsafe {
            slice::from_raw_parts(lent.words.0, lent.words.1)
        });
        if !self.keeps_others(call, side, &outcome) {
            return Err("  a byte was changed outside of what is reported\n".into());
        }
        Ok(outcome)
    }

    /// Whether nothing changed beside the room, the rows and the words, nor in the room and the words behind what is reported.
    fn keeps_others(&self, call: &Call, side: Side, reported: &Outcome) -> bool {
        let pattern = &self.pattern[self.start..];
        let row =
            |(arena, row): (&Arena, &Cow<[u8]>)| arena.keeps(row.len(), side, pattern, row.len());
        let written = if call.operation.found == Found::Written { reported.bytes.len() } else { 0 };
        self.out.keeps(call.room, side, pattern, written)
            && self.rows.iter().zip(&call.rows).all(row)
            && self.words.keeps(WORD * call.words, side, pattern, WORD * reported.words.len())
    }

    /// Lays all out.
    fn lent(&self, call: &Call, places: &mut [u64; PLACES], side: Side) -> Lent {
        let pattern = &self.pattern[self.start..];
        let block = |i: usize| {
            let size = call.slices[i].len();
            (self.arenas[i].block(size, side), size)
        };
        let mut slices = [0, 1, 2].map(block);
        let row = |i: usize| {
            let size = call.rows[i].len();
            (self.rows[i].guarded(size, side, pattern), size)
        };
        let (out, rows) = (self.out.guarded(call.room, side, pattern), [0, 1].map(row));
        let bytes = call.slices.iter().chain(&call.rows);
        for ((block, size), bytes) in slices.iter().chain(&rows).zip(bytes) {
            // SAFETY: each block lies in its arena, and nothing else refers to it.
            unsafe { ptr::copy_nonoverlapping(bytes.as_ptr(), *block, *size) };
        }
        if call.slices[1] == call.slices[2] && self.start % 2 == 1 {
            // two lists may be the very same bytes
            slices[2] = slices[1];
        }
        let words = (self.words.guarded(WORD * call.words, side, pattern).cast(), call.words);
        let numbers = self.numbers_lent(&call.numbers, side);
        let (room, places) = (call.room, places.as_mut_ptr());
        Lent { slices, numbers, out, room, rows, words, places, side }
    }

    fn numbers_lent(&self, numbers: &[u32], side: Side) -> (*mut u32, usize) {
        let (size, count) = (NUMBER * numbers.len(), numbers.len());
        let block = self.numbers.block(size, side).cast();
        // SAFETY: the block lies in its arena, which starts and ends at a number, and nothing else refers to it.
        unsafe { ptr::copy_nonoverlapping(numbers.as_ptr(), block, count) };
        (block, count)
    }
}

/// The places that were set; a width is one where its kind says that there is one, for it may be just what the place held.
fn changed(operation: &Operation, places: &[u64; PLACES]) -> u8 {
    let changed = (0..PLACES).filter(|&i| places[i] != UNSET).map(|i| 1 << i).sum();
    match operation.width {
        Some((kind, width)) if (places[kind] as u32) < NO_WIDTH as u32 => changed | 1 << width,
        _ => changed,
    }
}

/// The values and the bytes that the answer gives; no other place may have changed, and no bit that a type does not reach.
fn outcome(
    call: &Call,
    answer: u32,
    places: &[u64; PLACES],
    room: &[u8],
) -> Result<Outcome, String> {
    let operation = call.operation;
    if operation.given(answer, 0).is_none() {
        return Err(format!("  {answer} is none of the operation's answers\n"));
    }
    let given = operation.given(answer, changed(operation, places)).unwrap_or(0);
    let mut outcome = Outcome::refused(answer);
    for (i, &came) in places.iter().enumerate() {
        let place = operation.places.get(i).filter(|_| given >> i & 1 == 1);
        let reached =
            place.map_or(0, |place| if *place == Place::Size { u64::MAX } else { u32::MAX.into() });
        if (came ^ UNSET) & !reached != 0 {
            return Err(format!("  answer {answer} set a place that it does not give\n"));
        }
        outcome.values[i] = place.map(|place| match place {
            Place::U32 => i64::from(came as u32),
            Place::I32 => i64::from(came as u32 as i32),
            Place::Size => came as i64,
        });
    }
    if answer == 0 {
        let part = match operation.found {
            Found::Nothing => Some(&[][..]),
            Found::Written => room.get(..places[0] as usize),
            Found::InSlice => call.slices[0]
                .get(places[0] as usize..)
                .and_then(|from| from.get(..places[1] as usize)),
        };
        outcome.bytes = part.ok_or("  more bytes are reported than there are\n")?.to_vec();
    }
    Ok(outcome)
}

/// The rows as an accepted call left them; a refused one must have left them as lent.
fn rows(call: &Call, answer: u32, left: [&[u8]; 2]) -> Result<[Vec<u8>; 2], String> {
    if answer == 0 {
        return Ok(left.map(<[u8]>::to_vec));
    }
    if left.iter().zip(&call.rows).any(|(left, lent)| left[..] != lent[..]) {
        return Err(format!("  answer {answer} changed a row\n"));
    }
    Ok(Default::default())
}

/// The words of as many calls as are said to be open and have room; none where calls are not told.
fn told_words(call: &Call, outcome: &Outcome, left: &[u64]) -> Vec<u64> {
    let open = call.operation.calls.and_then(|place| outcome.values[place]).unwrap_or(0);
    left[..3 * (open as usize).min(left.len() / 3)].to_vec()
}
