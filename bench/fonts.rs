//! Whole fonts: one call of ours for all glyphs and their INDEX, the unchanged Rust, and a call of ours for each glyph,
//! in one process, in turns, the best of several passes.

mod folders;
// the Rust's side is compiled here, where it may be inlined
#[path = "../tools/oracle/source/flattening.rs"]
mod lists;
mod ours;
mod timing;
mod whole;

use folders::report;
use lists::Lists;
use oracle::fonts::Font;
use ours::ours_of_font;
use std::process::ExitCode;
use whole::{Sides, Whole, BUDGET};

/// What ours has room for by itself. Where all flat strings fit, each glyph is run once, else twice.
const OWN_BYTES: usize = 49_152;
const OWN_GLYPHS: usize = 4_096;

const INTRODUCTION: &str = "\
Best of 6 passes, two at a time, the sides in turns. Each side is given the bytes of a font's three INDEXes and has to make the INDEX of all flat strings;
all three make the same bytes. Ours is lent one buffer of that length; the Rust allocates its own. Glyph by glyph: ighzamrel_flatten for each glyph, which
checks both lists each time, and then ighzamrel_write_index. A font whose glyphs go by several local lists counts as a font for each of these.
";

/// Each list is parsed once, as by the Rust's own subsetting.
const ALL: Sides = Sides {
    apart: true,
    numbers: |glyphs| (0..glyphs).collect(),
    ours: |whole, out| ours_of_font(&whole.parts(), BUDGET, out),
    rust: |whole| Lists::read(whole.globals, whole.locals).font(&whole.charstrings),
    passes: 2,
};

fn main() -> ExitCode {
    report(INTRODUCTION, |found| of_fonts(&found))
}

fn of_fonts(found: &[Font]) -> Result<(), String> {
    let (wholes, refused) = whole::timed(found, &ALL)?;
    whole::head();
    let (once, twice): (Vec<&Whole>, Vec<&Whole>) = wholes.iter().partition(|whole| fits(whole));
    whole::row("all", &[&once[..], &twice[..]].concat());
    whole::row("whose glyphs are run once", &once);
    whole::row("whose glyphs are run twice", &twice);
    println!();
    if let Some(most) = wholes.iter().max_by_key(|whole| whole.tokens) {
        println!("The most tokens of a glyph: {} ({}).", most.tokens, most.name);
    }
    println!("CFF tables: {}; fonts that both sides refuse: {refused}", found.len());
    Ok(())
}

fn fits(whole: &Whole) -> bool {
    whole.flat <= OWN_BYTES && whole.numbers.len() <= OWN_GLYPHS
}
