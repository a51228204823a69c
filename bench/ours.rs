//! Flattening by ours.

// each program calls some of these
#![allow(dead_code)]

use oracle::fonts::Glyph;
use oracle::inputs::case::PLAIN;
use oracle::library::{flatten_font_to, flatten_glyphs_to, flatten_marked_to, flatten_to, Places};

/// What ours answers: the number, the length and the tokens.
#[derive(Clone, Copy)]
pub struct Answer {
    pub number: u32,
    pub length: usize,
    pub tokens: u32,
}

pub fn ours(glyph: &Glyph, budget: u32, out: &mut [u8]) -> Answer {
    let Glyph { charstring, globals, locals } = *glyph;
    let mut places = Places::default();
    let number = flatten_to([charstring, globals, locals], PLAIN, budget, out, &mut places);
    Answer { number, length: places.length, tokens: places.tokens }
}

/// The same with rows, the globals' and the locals'.
pub fn ours_with_rows(
    glyph: &Glyph,
    budget: u32,
    out: &mut [u8],
    rows: &mut [Vec<u8>; 2],
) -> Answer {
    let Glyph { charstring, globals, locals } = *glyph;
    let mut places = Places::default();
    let rows = rows.each_mut().map(|row| &mut row[..]);
    let slices = [charstring, globals, locals];
    let number = flatten_marked_to(slices, PLAIN, budget, out, rows, &mut places);
    Answer { number, length: places.length, tokens: places.tokens }
}

/// A whole font, its CharStrings INDEX in the place of a glyph's charstring; the tokens are the refused glyph's.
pub fn ours_of_font(font: &Glyph, budget: u32, out: &mut [u8]) -> Answer {
    let Glyph { charstring: charstrings, globals, locals } = *font;
    let mut places = Places::default();
    let number = flatten_font_to([charstrings, globals, locals], PLAIN, budget, out, &mut places);
    Answer { number, length: places.length, tokens: places.tokens }
}

/// The glyphs with these numbers, as a whole font's.
pub fn ours_of_glyphs(font: &Glyph, numbers: &[u32], budget: u32, out: &mut [u8]) -> Answer {
    let Glyph { charstring: charstrings, globals, locals } = *font;
    let mut places = Places::default();
    let slices = [charstrings, globals, locals];
    let number = flatten_glyphs_to(slices, numbers, PLAIN, budget, out, &mut places);
    Answer { number, length: places.length, tokens: places.tokens }
}
