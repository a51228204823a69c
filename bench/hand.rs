//! The runner's loop by hand (by_hand.c): what a token may cost on this machine at least.

use crate::ours::ours;
use crate::AMPLE;
use oracle::fonts::Glyph;

unsafe extern "C" {
    fn by_hand(
        charstring: *const u8,
        size: usize,
        globals: *const u8,
        locals: *const u8,
        budget: u32,
        out: *mut u8,
        room: usize,
    ) -> usize;
}

/// The flat string's length, for lists that are well formed.
pub fn flatten(glyph: &Glyph, budget: u32, out: &mut [u8]) -> usize {
    let Glyph { charstring, globals, locals } = *glyph;
    unsafe {
        by_hand(
            charstring.as_ptr(),
            charstring.len(),
            globals.as_ptr(),
            locals.as_ptr(),
            budget,
            out.as_mut_ptr(),
            out.len(),
        )
    }
}

/// Whether it gives ours of each glyph.
pub fn agrees(glyphs: &[(Glyph, usize)], out: &mut [u8]) -> Result<(), String> {
    let mut room = vec![0; out.len()];
    for (at, (glyph, _)) in glyphs.iter().enumerate() {
        let length = ours(glyph, AMPLE, out).length;
        if flatten(glyph, AMPLE, &mut room) != length || room[..length] != out[..length] {
            return Err(format!("timed glyph {at} differs by hand"));
        }
    }
    Ok(())
}
