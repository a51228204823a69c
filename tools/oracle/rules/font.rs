//! The rules for glyphs of a font (docs/RULES.md), all in order or those that are asked for: the glyphs by the rules for flattening,
//! each with the whole budget, and the INDEX of their flat strings by those for writing. Nothing here asks the Rust.

use super::flattening::{Flat, Lists};
use super::index::{self as indexes, Flaw, Refusal};

/// The most glyphs that an INDEX is written of.
pub const MOST_GLYPHS: usize = 65_535;

/// The flat strings at the places before the first that is refused, and its refusal with the tokens begun. So the place is how
/// many flat strings there are. 22 is of no place, and 25 has no tokens.
pub struct Flats<'a> {
    pub strings: Vec<Flat<'a>>,
    pub stopped: Option<(Refusal, u32)>,
}

/// What is asked for: a font's charstrings, and the numbers of some of them, or all in order.
#[derive(Clone, Copy)]
pub struct Glyphs<'a> {
    pub charstrings: &'a [u8],
    pub numbers: Option<&'a [u32]>,
}

/// The glyph at each place, where there is one; or what is wrong with the charstrings.
pub fn placed(glyphs: Glyphs<'_>) -> Result<Vec<Option<&[u8]>>, Flaw> {
    let entries = indexes::entries(glyphs.charstrings)?;
    Ok(match glyphs.numbers {
        Some(numbers) => numbers.iter().map(|&i| entries.get(i as usize).copied()).collect(),
        None => entries.into_iter().map(Some).collect(),
    })
}

/// 26, 22, then the places up to the first that is refused: by 25, or by its glyph.
pub fn flattened<'a>(
    lists: Lists<'a>,
    glyphs: Glyphs<'a>,
    strict: bool,
    budget: u32,
) -> Result<Flats<'a>, (Refusal, Flaw)> {
    let placed = placed(glyphs).map_err(|flaw| (26, flaw))?;
    let mut flats = Flats { strings: Vec::new(), stopped: None };
    if placed.len() > MOST_GLYPHS {
        flats.stopped = Some((22, 0));
        return Ok(flats);
    }
    for glyph in placed {
        match at(lists, glyph, strict, budget) {
            (Ok(flat), _) => flats.strings.push(flat),
            (Err(refusal), tokens) => {
                flats.stopped = Some((refusal, tokens));
                break;
            }
        }
    }
    Ok(flats)
}

/// What a place gives by itself, and its tokens.
pub fn at<'a>(
    lists: Lists<'a>,
    glyph: Option<&'a [u8]>,
    strict: bool,
    budget: u32,
) -> (Result<Flat<'a>, Refusal>, u32) {
    let Some(glyph) = glyph else { return (Err(25), 0) };
    let ran = lists.run(glyph, strict, budget);
    (ran.flat, ran.tokens)
}

impl Flats<'_> {
    /// How many bytes the flat strings have together.
    pub fn sum(&self) -> u64 {
        self.strings.iter().map(Flat::length).sum()
    }

    /// How many bytes their INDEX has: 23.
    pub fn needed(&self) -> Result<u64, Refusal> {
        indexes::needed(self.strings.len(), self.sum())
    }

    /// Their INDEX, which there has to be.
    pub fn written(&self) -> Vec<u8> {
        let strings: Vec<Vec<u8>> = self.strings.iter().map(Flat::joined).collect();
        let lengths: Vec<u32> = strings.iter().map(|string| string.len() as u32).collect();
        indexes::written(&lengths, &strings.concat()).expect("an INDEX holds them")
    }
}
