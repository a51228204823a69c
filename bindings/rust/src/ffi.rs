//! The fourteen C functions, each behind a safe function that lends it slices and places of its own.
//!
//! What include/ighzamrel.h asks of pointers holds of what is lent here: a slice's pointer is valid for its length,
//! aligned and never null, also where it is empty; `out` is borrowed alone, and so are the rows, the words and the places.
//! A value whose place the answer leaves as it was is 0; the caller knows by the answer which those are.
#![allow(unsafe_code)]

pub mod c {
    extern "C" {
        pub fn ighzamrel_read_charstring_number(
            bytes: *const u8,
            bytes_len: usize,
            kind: *mut u32,
            value: *mut i32,
            width: *mut usize,
        ) -> u32;

        pub fn ighzamrel_read_dict_integer(
            bytes: *const u8,
            bytes_len: usize,
            value: *mut i32,
            width: *mut usize,
        ) -> u32;

        pub fn ighzamrel_write_charstring_number(
            kind: u32,
            value: i32,
            out: *mut u8,
            out_len: usize,
            length: *mut usize,
        ) -> u32;

        pub fn ighzamrel_write_dict_integer(
            value: i32,
            out: *mut u8,
            out_len: usize,
            length: *mut usize,
        ) -> u32;

        pub fn ighzamrel_call_index(kind: u32, value: i32, profile: u32, index: *mut i32) -> u32;

        pub fn ighzamrel_read_index(
            bytes: *const u8,
            bytes_len: usize,
            count: *mut u32,
            taken: *mut usize,
        ) -> u32;

        pub fn ighzamrel_read_entry(
            bytes: *const u8,
            bytes_len: usize,
            number: u32,
            place: *mut usize,
            length: *mut usize,
        ) -> u32;

        pub fn ighzamrel_check_list(
            bytes: *const u8,
            bytes_len: usize,
            count: *mut u32,
            entry: *mut u32,
        ) -> u32;

        pub fn ighzamrel_write_index(
            lengths: *const u32,
            lengths_len: usize,
            data: *const u8,
            data_len: usize,
            out: *mut u8,
            out_len: usize,
            length: *mut usize,
        ) -> u32;

        pub fn ighzamrel_flatten(
            charstring: *const u8,
            charstring_len: usize,
            globals: *const u8,
            globals_len: usize,
            locals: *const u8,
            locals_len: usize,
            profile: u32,
            budget: u32,
            out: *mut u8,
            out_len: usize,
            length: *mut usize,
            tokens: *mut u32,
            entry: *mut u32,
            reason: *mut u32,
            width_kind: *mut u32,
            width: *mut i32,
        ) -> u32;

        pub fn ighzamrel_flatten_marked(
            charstring: *const u8,
            charstring_len: usize,
            globals: *const u8,
            globals_len: usize,
            locals: *const u8,
            locals_len: usize,
            profile: u32,
            budget: u32,
            out: *mut u8,
            out_len: usize,
            globals_row: *mut u8,
            globals_row_len: usize,
            locals_row: *mut u8,
            locals_row_len: usize,
            length: *mut usize,
            tokens: *mut u32,
            entry: *mut u32,
            reason: *mut u32,
            width_kind: *mut u32,
            width: *mut i32,
        ) -> u32;

        pub fn ighzamrel_flatten_font(
            charstrings: *const u8,
            charstrings_len: usize,
            globals: *const u8,
            globals_len: usize,
            locals: *const u8,
            locals_len: usize,
            profile: u32,
            budget: u32,
            out: *mut u8,
            out_len: usize,
            length: *mut usize,
            glyph: *mut u32,
            tokens: *mut u32,
            entry: *mut u32,
            reason: *mut u32,
        ) -> u32;

        pub fn ighzamrel_flatten_glyphs(
            charstrings: *const u8,
            charstrings_len: usize,
            numbers: *const u32,
            numbers_len: usize,
            globals: *const u8,
            globals_len: usize,
            locals: *const u8,
            locals_len: usize,
            profile: u32,
            budget: u32,
            out: *mut u8,
            out_len: usize,
            length: *mut usize,
            glyph: *mut u32,
            tokens: *mut u32,
            entry: *mut u32,
            reason: *mut u32,
        ) -> u32;

        pub fn ighzamrel_explain(
            charstring: *const u8,
            charstring_len: usize,
            globals: *const u8,
            globals_len: usize,
            locals: *const u8,
            locals_len: usize,
            profile: u32,
            budget: u32,
            words: *mut u64,
            words_len: usize,
            length: *mut usize,
            tokens: *mut u32,
            entry: *mut u32,
            reason: *mut u32,
            width_kind: *mut u32,
            width: *mut i32,
            calls: *mut usize,
        ) -> u32;
    }
}

/// The answer, then kind, value and width.
pub fn read_charstring_number(bytes: &[u8]) -> (u32, u32, i32, usize) {
    let (mut kind, mut value, mut width) = (0, 0, 0);
    let answer = unsafe {
        c::ighzamrel_read_charstring_number(
            bytes.as_ptr(),
            bytes.len(),
            &mut kind,
            &mut value,
            &mut width,
        )
    };
    (answer, kind, value, width)
}

/// The answer, then value and width.
pub fn read_dict_integer(bytes: &[u8]) -> (u32, i32, usize) {
    let (mut value, mut width) = (0, 0);
    let answer = unsafe {
        c::ighzamrel_read_dict_integer(bytes.as_ptr(), bytes.len(), &mut value, &mut width)
    };
    (answer, value, width)
}

/// The answer, then the length.
pub fn write_charstring_number(kind: u32, value: i32, out: &mut [u8]) -> (u32, usize) {
    let mut length = 0;
    let answer = unsafe {
        c::ighzamrel_write_charstring_number(kind, value, out.as_mut_ptr(), out.len(), &mut length)
    };
    (answer, length)
}

/// The answer, then the length.
pub fn write_dict_integer(value: i32, out: &mut [u8]) -> (u32, usize) {
    let mut length = 0;
    let answer =
        unsafe { c::ighzamrel_write_dict_integer(value, out.as_mut_ptr(), out.len(), &mut length) };
    (answer, length)
}

/// The answer, then the index.
pub fn call_index(kind: u32, value: i32, profile: u32) -> (u32, i32) {
    let mut index = 0;
    let answer = unsafe { c::ighzamrel_call_index(kind, value, profile, &mut index) };
    (answer, index)
}

/// The answer, then count and bytes taken.
pub fn read_index(bytes: &[u8]) -> (u32, u32, usize) {
    let (mut count, mut taken) = (0, 0);
    let answer =
        unsafe { c::ighzamrel_read_index(bytes.as_ptr(), bytes.len(), &mut count, &mut taken) };
    (answer, count, taken)
}

/// The answer, then place and length.
pub fn read_entry(bytes: &[u8], number: u32) -> (u32, usize, usize) {
    let (mut place, mut length) = (0, 0);
    let answer = unsafe {
        c::ighzamrel_read_entry(bytes.as_ptr(), bytes.len(), number, &mut place, &mut length)
    };
    (answer, place, length)
}

/// The answer, then count and entry.
pub fn check_list(bytes: &[u8]) -> (u32, u32, u32) {
    let (mut count, mut entry) = (0, 0);
    let answer =
        unsafe { c::ighzamrel_check_list(bytes.as_ptr(), bytes.len(), &mut count, &mut entry) };
    (answer, count, entry)
}

/// The answer, then the length.
pub fn write_index(lengths: &[u32], data: &[u8], out: &mut [u8]) -> (u32, usize) {
    let mut length = 0;
    let answer = unsafe {
        c::ighzamrel_write_index(
            lengths.as_ptr(),
            lengths.len(),
            data.as_ptr(),
            data.len(),
            out.as_mut_ptr(),
            out.len(),
            &mut length,
        )
    };
    (answer, length)
}

/// The places of a flattening; `glyph` is one of a whole font's and of chosen glyphs' alone, the width one of a charstring's,
/// and `calls` one of an explanation's.
#[derive(Default)]
pub struct Places {
    pub length: usize,
    pub glyph: u32,
    pub tokens: u32,
    pub entry: u32,
    pub reason: u32,
    pub width_kind: u32,
    pub width: i32,
    pub calls: usize,
}

/// The `width_kind` of a charstring that says no width.
pub const NO_WIDTH: u32 = 2;

/// How many calls can be open at once, and how many words tell one.
pub const MOST_CALLS: usize = 63;
pub const CALL_WORDS: usize = 3;

/// The answer; a place that it does not give is left as it was.
pub fn flatten_to(
    [charstring, globals, locals]: [&[u8]; 3],
    profile: u32,
    budget: u32,
    out: &mut [u8],
    places: &mut Places,
) -> u32 {
    unsafe {
        c::ighzamrel_flatten(
            charstring.as_ptr(),
            charstring.len(),
            globals.as_ptr(),
            globals.len(),
            locals.as_ptr(),
            locals.len(),
            profile,
            budget,
            out.as_mut_ptr(),
            out.len(),
            &mut places.length,
            &mut places.tokens,
            &mut places.entry,
            &mut places.reason,
            &mut places.width_kind,
            &mut places.width,
        )
    }
}

/// The answer; a place that it does not give is left as it was. The rows are the globals' and the locals'.
pub fn flatten_marked_to(
    [charstring, globals, locals]: [&[u8]; 3],
    profile: u32,
    budget: u32,
    out: &mut [u8],
    [globals_row, locals_row]: [&mut [u8]; 2],
    places: &mut Places,
) -> u32 {
    unsafe {
        c::ighzamrel_flatten_marked(
            charstring.as_ptr(),
            charstring.len(),
            globals.as_ptr(),
            globals.len(),
            locals.as_ptr(),
            locals.len(),
            profile,
            budget,
            out.as_mut_ptr(),
            out.len(),
            globals_row.as_mut_ptr(),
            globals_row.len(),
            locals_row.as_mut_ptr(),
            locals_row.len(),
            &mut places.length,
            &mut places.tokens,
            &mut places.entry,
            &mut places.reason,
            &mut places.width_kind,
            &mut places.width,
        )
    }
}

/// The answer; a place that it does not give is left as it was.
pub fn flatten_font_to(
    [charstrings, globals, locals]: [&[u8]; 3],
    profile: u32,
    budget: u32,
    out: &mut [u8],
    places: &mut Places,
) -> u32 {
    unsafe {
        c::ighzamrel_flatten_font(
            charstrings.as_ptr(),
            charstrings.len(),
            globals.as_ptr(),
            globals.len(),
            locals.as_ptr(),
            locals.len(),
            profile,
            budget,
            out.as_mut_ptr(),
            out.len(),
            &mut places.length,
            &mut places.glyph,
            &mut places.tokens,
            &mut places.entry,
            &mut places.reason,
        )
    }
}

/// The answer; a place that it does not give is left as it was.
pub fn flatten_glyphs_to(
    [charstrings, globals, locals]: [&[u8]; 3],
    numbers: &[u32],
    profile: u32,
    budget: u32,
    out: &mut [u8],
    places: &mut Places,
) -> u32 {
    unsafe {
        c::ighzamrel_flatten_glyphs(
            charstrings.as_ptr(),
            charstrings.len(),
            numbers.as_ptr(),
            numbers.len(),
            globals.as_ptr(),
            globals.len(),
            locals.as_ptr(),
            locals.len(),
            profile,
            budget,
            out.as_mut_ptr(),
            out.len(),
            &mut places.length,
            &mut places.glyph,
            &mut places.tokens,
            &mut places.entry,
            &mut places.reason,
        )
    }
}

/// The answer; a place that it does not give is left as it was. The first words tell the calls that were open.
pub fn explain_to(
    [charstring, globals, locals]: [&[u8]; 3],
    profile: u32,
    budget: u32,
    words: &mut [u64],
    places: &mut Places,
) -> u32 {
    unsafe {
        c::ighzamrel_explain(
            charstring.as_ptr(),
            charstring.len(),
            globals.as_ptr(),
            globals.len(),
            locals.as_ptr(),
            locals.len(),
            profile,
            budget,
            words.as_mut_ptr(),
            words.len(),
            &mut places.length,
            &mut places.tokens,
            &mut places.entry,
            &mut places.reason,
            &mut places.width_kind,
            &mut places.width,
            &mut places.calls,
        )
    }
}
