//! Glyphs of a font in one call: ours, the unchanged Rust, and a call of ours for each glyph, held against each other and timed.

use crate::ours::{ours, Answer};
use crate::timing::best_of;
use oracle::fonts::{Font, Glyph};
use oracle::inputs::case::list;
use oracle::library::{ighzamrel_read_entry, ighzamrel_write_index};
use std::borrow::Cow;
use std::hint::black_box;
use subsetter::Error;

/// All fonts are gone through so often, with some passes each time: a machine may be slow for seconds.
pub const ROUNDS: u32 = 3;

/// More than a glyph of a font needs.
pub const BUDGET: u32 = 1_000_000;

/// What is timed: which glyphs of so many, by ours and by the Rust in one call, and how many passes at a time.
pub struct Sides {
    /// Where a font has several local lists, the glyphs of each are a font of their own; else glyphs are chosen from the font as
    /// it stands, and each list that they go by takes a call.
    pub apart: bool,
    pub numbers: fn(u32) -> Vec<u32>,
    pub ours: fn(&Whole, &mut [u8]) -> Answer,
    pub rust: fn(&Whole) -> Result<Vec<u8>, Error>,
    pub passes: u32,
}

/// The glyphs of a font that go by one local list.
pub struct Whole<'a> {
    pub name: String,
    pub charstrings: Cow<'a, [u8]>,
    pub globals: &'a [u8],
    pub locals: &'a [u8],
    /// The glyphs that are flattened.
    pub numbers: Vec<u32>,
    /// The INDEX of their flat strings, and how many bytes these have.
    pub index: Vec<u8>,
    pub flat: usize,
    /// The most tokens that one of them runs.
    pub tokens: u32,
    pub times: [f64; 3],
}

impl<'a> Whole<'a> {
    /// `glyphs` has each with its number in the font.
    fn new(name: String, font: &'a Font, glyphs: &[(u32, Glyph<'a>)], sides: &Sides) -> Self {
        let (_, Glyph { globals, locals, .. }) = glyphs[0];
        let (charstrings, numbers) = if sides.apart {
            let apart: Vec<&[u8]> = glyphs.iter().map(|(_, glyph)| glyph.charstring).collect();
            (Cow::Owned(list(&apart)), (sides.numbers)(glyphs.len() as u32))
        } else {
            let theirs =
                |number: &u32| glyphs.binary_search_by_key(number, |glyph| glyph.0).is_ok();
            let chosen = (sides.numbers)(font.glyphs().count() as u32).into_iter();
            (Cow::Borrowed(font.charstrings()), chosen.filter(theirs).collect())
        };
        let (index, flat, tokens, times) = (Vec::new(), 0, 0, [f64::MAX; 3]);
        Whole { name, charstrings, globals, locals, numbers, index, flat, tokens, times }
    }

    pub fn parts(&self) -> Glyph<'_> {
        Glyph { charstring: &self.charstrings, globals: self.globals, locals: self.locals }
    }

    fn ratio(&self) -> f64 {
        self.times[1] / self.times[0]
    }
}

/// Each font with its times. All sides have to make the same INDEX; what all refuse is not timed, and counted.
pub fn timed<'a>(found: &'a [Font], sides: &Sides) -> Result<(Vec<Whole<'a>>, usize), String> {
    let mut wholes: Vec<Whole> = found.iter().flat_map(|font| wholes_of(font, sides)).collect();
    wholes.retain(|whole| !whole.numbers.is_empty());
    let all = wholes.len();
    for whole in &mut wholes {
        compare(whole, sides)?;
    }
    wholes.retain(|whole| !whole.index.is_empty());
    for _ in 0..ROUNDS {
        wholes.iter_mut().for_each(|whole| measure(whole, sides));
    }
    let refused = all - wholes.len();
    Ok((wholes, refused))
}

fn wholes_of<'a>(font: &'a Font, sides: &Sides) -> Vec<Whole<'a>> {
    let mut groups: Vec<Vec<(u32, Glyph)>> = Vec::new();
    for (number, glyph) in (0..).zip(font.glyphs()) {
        let whose = glyph.locals.as_ptr();
        match groups.iter_mut().find(|group| group[0].1.locals.as_ptr() == whose) {
            Some(group) => group.push((number, glyph)),
            None => groups.push(vec![(number, glyph)]),
        }
    }
    let several = groups.len() > 1;
    let name = |i| if several { format!("{} list {i}", font.name) } else { font.name.clone() };
    groups.iter().enumerate().map(|(i, group)| Whole::new(name(i), font, group, sides)).collect()
}

/// That all sides make the same INDEX, which is kept; none where all refuse.
fn compare(whole: &mut Whole, sides: &Sides) -> Result<(), String> {
    let differs = |what: &str| Err(format!("{}: {what}", whole.name));
    let rust = (sides.rust)(whole);
    let needed = (sides.ours)(whole, &mut []);
    let Ok(rust) = rust else {
        return if needed.number == 13 { differs("the Rust alone refuses it") } else { Ok(()) };
    };
    let mut out = vec![0; rust.len()];
    if needed.number != 13 || (sides.ours)(whole, &mut out).number != 0 {
        return differs("ours alone refuses it");
    }
    if needed.length != rust.len() || out != rust {
        return differs("the two sides differ");
    }
    out.fill(0);
    let (flat, tokens) = by_glyph(whole, &mut vec![0; rust.len()], &mut out);
    if out != rust {
        return differs("glyph by glyph it differs");
    }
    (whole.flat, whole.tokens, whole.index) = (flat, tokens, rust);
    Ok(())
}

fn measure(whole: &mut Whole, sides: &Sides) {
    let [mut out, mut data] = [vec![0; whole.index.len()], vec![0; whole.index.len()]];
    let mut other = out.clone();
    let times = best_of(
        sides.passes,
        [
            &mut || {
                black_box((sides.ours)(black_box(whole), &mut out));
            },
            &mut || drop(black_box((sides.rust)(black_box(whole)))),
            &mut || {
                black_box(by_glyph(black_box(whole), &mut data, &mut other));
            },
        ],
    );
    for (best, time) in whole.times.iter_mut().zip(times) {
        *best = best.min(time);
    }
}

/// By a call for each glyph. How many bytes the flat strings have, and the most tokens of one.
fn by_glyph(whole: &Whole, data: &mut [u8], out: &mut [u8]) -> (usize, u32) {
    let mut lengths = Vec::with_capacity(whole.numbers.len());
    let (mut at, mut most) = (0, 0);
    for &number in &whole.numbers {
        let charstring = entry(&whole.charstrings, number);
        let answer = ours(&Glyph { charstring, ..whole.parts() }, BUDGET, &mut data[at..]);
        lengths.push(answer.length as u32);
        at += answer.length;
        most = most.max(answer.tokens);
    }
    let mut length = 0;
    // SAFETY: the pointers and lengths are slices', `out` is borrowed alone, and the place outlives the call.
    unsafe {
        ighzamrel_write_index(
            lengths.as_ptr(),
            lengths.len(),
            data.as_ptr(),
            at,
            out.as_mut_ptr(),
            out.len(),
            &mut length,
        )
    };
    (at, most)
}

fn entry(bytes: &[u8], number: u32) -> &[u8] {
    let (mut place, mut length) = (0, 0);
    // SAFETY: as above.
    unsafe { ighzamrel_read_entry(bytes.as_ptr(), bytes.len(), number, &mut place, &mut length) };
    &bytes[place..place + length]
}

/// The head of the rows.
pub fn head() {
    println!("| fonts | how many | glyphs | flat bytes | ours, milliseconds | the Rust | the Rust / ours | lowest | highest | ours, nanoseconds a glyph | the Rust | glyph by glyph | glyph by glyph / ours |");
    println!("|---|---|---|---|---|---|---|---|---|---|---|---|---|");
}

pub fn row(what: &str, wholes: &[&Whole]) {
    let by_ratio = |a: &&&Whole, b: &&&Whole| a.ratio().total_cmp(&b.ratio());
    let (Some(lowest), Some(highest)) =
        (wholes.iter().min_by(by_ratio), wholes.iter().max_by(by_ratio))
    else {
        return;
    };
    let glyphs: usize = wholes.iter().map(|whole| whole.numbers.len()).sum();
    let flat: usize = wholes.iter().map(|whole| whole.flat).sum();
    let [ours, rust, single] =
        [0, 1, 2].map(|side| wholes.iter().map(|whole| whole.times[side]).sum::<f64>());
    let each = |time: f64| time / glyphs as f64;
    println!(
        "| {what} | {} | {glyphs} | {flat} | {:.1} | {:.1} | {:.2} | {:.2} ({}) | {:.2} ({}) | {:.0} | {:.0} | {:.0} | {:.2} |",
        wholes.len(),
        ours / 1e6,
        rust / 1e6,
        rust / ours,
        lowest.ratio(),
        lowest.name,
        highest.ratio(),
        highest.name,
        each(ours),
        each(rust),
        each(single),
        single / ours,
    );
}
