//! Strings and fonts that are made to cost. Their time must follow the tokens, the room and the lists, and nothing else.

use crate::ours::{ours, ours_of_font};
use crate::timing::best_of;
use oracle::fonts::Glyph;
use oracle::inputs::case::{list, FIRST, GLOBAL, LOCAL, NONE as NO_LIST};
use oracle::random::Random;
use oracle::rules::number::{bias, written, Operand, Place};
use std::hint::black_box;
use std::ops::Range;

const PASSES: u32 = 5;
const FONT_PASSES: u32 = 2;
const AMPLE: u32 = u32::MAX;

const RETURN: u8 = 0x0B;
const HSTEM: u8 = 0x01;
const HINTMASK: u8 = 0x13;
const RLINETO: u8 = 0x05;
const ZERO: u8 = 0x8B;
const FIXED_ZERO: [u8; 5] = [0xFF, 0, 0, 0, 0];

pub fn print() {
    print_strings();
    println!();
    print_fonts();
}

fn print_strings() {
    println!("| what | budget | room | answer | tokens | milliseconds | nanoseconds a token |");
    println!("|---|---|---|---|---|---|---|");
    let forty = forty_subroutines();
    let glyph = Glyph { charstring: &[FIRST, LOCAL], globals: NO_LIST, locals: &forty };
    for budget in [1_000, 10_000, 100_000, 1_000_000, 10_000_000] {
        row("forty subroutines, each calling the next one twice", &glyph, budget, 0);
    }
    let (charstring, globals) = wide_masks(14);
    let glyph = Glyph { charstring: &charstring, globals: &globals, locals: NO_LIST };
    row("1,048,576 masks of 8,192 bytes", &glyph, 1_000_000, 0);
    row("1,048,576 masks of 8,192 bytes", &glyph, 1_000_000, 1 << 24);
    let (charstring, globals) = wide_masks(4);
    let glyph = Glyph { charstring: &charstring, globals: &globals, locals: NO_LIST };
    row("1,024 masks of 8,192 bytes", &glyph, AMPLE, 0);
    row("1,024 masks of 8,192 bytes", &glyph, AMPLE, 1 << 24);
}

fn row(what: &str, glyph: &Glyph, budget: u32, room: usize) {
    let mut out = vec![0; room];
    let answer = ours(glyph, budget, &mut out);
    let [best] = best_of(
        PASSES,
        [&mut || {
            black_box(ours(black_box(glyph), budget, &mut out));
        }],
    );
    println!(
        "| {what} | {budget} | {room} | {} | {} | {:.3} | {:.2} |",
        answer.number,
        answer.tokens,
        best / 1e6,
        best / f64::from(answer.tokens)
    );
}

/// Forty entries; each calls the next one twice, and the last one only returns.
fn forty_subroutines() -> Vec<u8> {
    let entry = |i: u8| match i {
        39 => vec![RETURN],
        _ => vec![FIRST + i + 1, LOCAL, FIRST + i + 1, LOCAL, RETURN],
    };
    list(&(0..40).map(entry).collect::<Vec<_>>())
}

/// 65,535 hints, and then a call of an entry that runs 64 masks of 8,192 bytes 2^doublings times.
fn wide_masks(doublings: u8) -> (Vec<u8>, Vec<u8>) {
    let mut charstring = Vec::new();
    let mut hints = 65_535;
    while hints > 0 {
        let now = hints.min(24);
        charstring.extend(vec![ZERO; 2 * now]);
        charstring.push(HSTEM);
        hints -= now;
    }
    charstring.extend([FIRST + doublings, GLOBAL]);
    let mask = [&[HINTMASK][..], &[0; 8192]].concat();
    let mut entries = vec![mask.repeat(64)];
    entries.extend((0..doublings).map(|i| vec![FIRST + i, GLOBAL, FIRST + i, GLOBAL]));
    (charstring, list(&entries))
}

const FONTS: &str = "\
Fonts of 65,535 glyphs that each run nearly the budget and are accepted: each glyph is run twice, to be measured and to be written. Best of two
passes; where all glyphs would take over a minute fewer are run, and the seconds are what 65,535 such glyphs take. A token is told with both of its runs.
";

/// As many glyphs as a font can have, and room for all of theirs.
const MOST_GLYPHS: u32 = 65_535;
const AMPLE_ROOM: usize = 1 << 27;

fn print_fonts() {
    println!("{FONTS}");
    println!("| what | budget | glyphs run | answer | tokens a glyph | seconds, 65,535 glyphs | nanoseconds a token |");
    println!("|---|---|---|---|---|---|---|");
    for (budget, glyphs) in [(10_000, MOST_GLYPHS), (100_000, 655), (1_000_000, 65)] {
        font_row("entries that each call the next one twice", &doubling(), budget, glyphs);
    }
    for (budget, glyphs) in [(10_000, 6_553), (100_000, 655), (1_000_000, 65)] {
        font_row("calls scattered over a list of 8 MB", &scattered(), budget, glyphs);
    }
}

fn font_row(what: &str, costly: &Costly, budget: u32, glyphs: u32) {
    let strings: Vec<_> = (0..glyphs as usize).map(|i| costly.charstring(i, budget)).collect();
    let (charstrings, locals) = (list(&strings), list(&costly.entries));
    let glyph = Glyph { charstring: &strings[0], globals: NO_LIST, locals: &locals };
    let font = Glyph { charstring: &charstrings, ..glyph };
    let mut out = vec![0; AMPLE_ROOM];
    let tokens = ours(&glyph, budget, &mut out).tokens;
    let mut answer = AMPLE;
    let [time] = best_of(
        FONT_PASSES,
        [&mut || {
            answer = black_box(ours_of_font(black_box(&font), budget, &mut out)).number;
        }],
    );
    let each = time / f64::from(glyphs);
    println!(
        "| {what} | {budget} | {glyphs} | {answer} | {tokens} | {:.1} | {:.2} |",
        each * f64::from(MOST_GLYPHS) / 1e9,
        each / f64::from(tokens)
    );
}

/// A local list whose calls run many tokens for few flat bytes. Entry 0 is what is written.
struct Costly {
    entries: Vec<Vec<u8>>,
    /// Entries that take equally many tokens, the call's two among them; from the dearest on.
    kinds: Vec<(Range<usize>, u32)>,
}

/// Entry 0, in so many tokens: enough bytes that 65 glyphs are more than ours keeps by itself.
const WRITTEN_TOKENS: u32 = 4 * 49;

fn written_entry() -> Vec<u8> {
    [FIXED_ZERO.repeat(48), vec![RLINETO]].concat().repeat(4)
}

impl Costly {
    /// Calls that run the budget but for a token or two, glyph by glyph of other entries.
    fn charstring(&self, glyph: usize, budget: u32) -> Vec<u8> {
        let count = self.entries.len();
        let mut string = call(0, count);
        let mut left = budget - 2 - WRITTEN_TOKENS;
        let mut next = 101 * glyph;
        for (entries, tokens) in &self.kinds {
            while left >= *tokens {
                string.extend(call(entries.start + next % entries.len(), count));
                left -= tokens;
                next += 1;
            }
        }
        string
    }
}

fn call(entry: usize, count: usize) -> Vec<u8> {
    let index = Operand::Integer((entry as i64 - bias(count as u32)) as i32);
    let mut call = written(Place::Charstring, index).expect("an entry's index has 16 bits");
    call.push(LOCAL);
    call
}

/// Entry 1 is empty, and each one after it calls the one before twice.
fn doubling() -> Costly {
    const COUNT: usize = 20;
    let mut entries = vec![written_entry(), Vec::new()];
    let mut kinds = vec![(1..2, 2)];
    for i in 2..COUNT {
        entries.push(call(i - 1, COUNT).repeat(2));
        kinds.push((i..i + 1, 2 + 2 * kinds[i - 2].1));
    }
    kinds.reverse();
    Costly { entries, kinds }
}

/// 30,000 entries that return at once, each 256 bytes behind the other, and 640 that call a hundred of them here and there.
fn scattered() -> Costly {
    const LEAVES: usize = 30_000;
    const CALLERS: usize = 640;
    let mut random = Random::new(1);
    let mut leaf = vec![ZERO; 256];
    leaf[0] = RETURN;
    let mut entries = vec![leaf; LEAVES];
    entries[0] = written_entry();
    for _ in 0..CALLERS {
        let any = |_| call(random.within(1, LEAVES as i64 - 1) as usize, LEAVES + CALLERS);
        entries.push((0..100).flat_map(any).collect());
    }
    Costly { entries, kinds: vec![(LEAVES..LEAVES + CALLERS, 302), (1..LEAVES, 3)] }
}
