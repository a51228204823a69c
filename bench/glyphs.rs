//! Sixty glyphs of each font, as a document needs them: one call of ours for them and their INDEX, the unchanged Rust, and a
//! call of ours for each, in one process, in turns, the best of many passes; and how much of ours is the look at the lists.

mod folders;
// the Rust's side is compiled here, where it may be inlined
#[allow(dead_code)]
#[path = "../tools/oracle/source/flattening.rs"]
mod lists;
mod ours;
mod timing;
mod whole;

use folders::report;
use lists::Lists;
use oracle::fonts::Font;
use oracle::library::ighzamrel_check_list;
use ours::ours_of_glyphs;
use std::hint::black_box;
use std::process::ExitCode;
use timing::best_of;
use whole::{Sides, Whole, BUDGET, ROUNDS};

/// How many glyphs of a font are flattened, spread evenly; all, where it has fewer.
const GLYPHS: u32 = 60;
const PASSES: u32 = 10;

const INTRODUCTION: &str = "\
Sixty glyphs of each font, spread evenly, or all where it has fewer. Best of 30 passes, ten at a time, the sides in turns. Each side is given the bytes of
a font's three INDEXes as they stand, and has to make the INDEX of these glyphs' flat strings; all three make the same bytes. Ours, ighzamrel_flatten_glyphs,
looks at every offset of the three and is lent one buffer of the result's length; the Rust parses both lists and allocates its own. Glyph by glyph:
ighzamrel_flatten for each, which looks at both lists each time, and then ighzamrel_write_index. Where the sixty go by several local lists, each of these takes
a call, of either side, and their times are added up.
";

/// Each list is parsed once, as by the Rust's own subsetting.
const SIXTY: Sides = Sides {
    apart: false,
    numbers: spread,
    ours: |whole, out| ours_of_glyphs(&whole.parts(), &whole.numbers, BUDGET, out),
    rust: |whole| {
        let numbers = whole.numbers.iter().copied();
        Lists::read(whole.globals, whole.locals).glyphs(&whole.charstrings, numbers)
    },
    passes: PASSES,
};

fn main() -> ExitCode {
    report(INTRODUCTION, |found| of_fonts(&found))
}

fn of_fonts(found: &[Font]) -> Result<(), String> {
    let (wholes, refused) = whole::timed(found, &SIXTY)?;
    looks(&wholes.iter().collect::<Vec<_>>());
    let fonts = by_font(wholes);
    whole::head();
    whole::row("all", &fonts.iter().collect::<Vec<_>>());
    println!("CFF tables: {}; calls that both sides refuse: {refused}", found.len());
    Ok(())
}

/// The calls of each font as one: what they make and take together. They are lent the same global list.
fn by_font(wholes: Vec<Whole<'_>>) -> Vec<Whole<'_>> {
    let mut fonts: Vec<Whole> = Vec::new();
    for mut whole in wholes {
        match fonts.last_mut().filter(|font| std::ptr::eq(font.globals, whole.globals)) {
            Some(font) => add(font, whole),
            None => {
                whole.name = whole.name.split(" list ").next().unwrap_or_default().to_owned();
                fonts.push(whole);
            }
        }
    }
    fonts
}

fn add(font: &mut Whole, whole: Whole) {
    font.numbers.extend(whole.numbers);
    font.flat += whole.flat;
    for (time, more) in font.times.iter_mut().zip(whole.times) {
        *time += more;
    }
}

fn spread(glyphs: u32) -> Vec<u32> {
    let chosen = GLYPHS.min(glyphs);
    let number = |k| u64::from(k) * u64::from(glyphs) / u64::from(chosen);
    (0..chosen).map(|k| number(k) as u32).collect()
}

/// How much of ours is the look at the three INDEXes, over all calls and in the one where it is most.
fn looks(wholes: &[&Whole]) {
    let looks: Vec<(f64, u32, &Whole)> = wholes.iter().map(|whole| look(whole)).collect();
    let part = |(time, _, whole): &(f64, u32, &Whole)| time / whole.times[0];
    let Some(most) = looks.iter().max_by(|a, b| part(a).total_cmp(&part(b))) else { return };
    let time: f64 = looks.iter().map(|look| look.0).sum();
    let entries: u64 = looks.iter().map(|look| u64::from(look.1)).sum();
    let ours: f64 = wholes.iter().map(|whole| whole.times[0]).sum();
    println!("| the look at the lists | entries | milliseconds | nanoseconds an entry | of ours |");
    println!("|---|---|---|---|---|");
    println!(
        "| all | {entries} | {:.2} | {:.2} | {:.2} |",
        time / 1e6,
        time / entries as f64,
        time / ours
    );
    println!(
        "| most: {} | {} | {:.3} | {:.2} | {:.2} |",
        most.2.name,
        most.1,
        most.0 / 1e6,
        most.0 / f64::from(most.1),
        part(most)
    );
    println!();
}

/// The time of looking at its three INDEXes, and how many entries these have.
fn look<'a>(whole: &'a Whole<'a>) -> (f64, u32, &'a Whole<'a>) {
    let lists = [whole.globals, whole.locals, &whole.charstrings];
    let all = || lists.iter().map(|list| entries(black_box(list))).sum::<u32>();
    let [time] = best_of(
        ROUNDS * PASSES,
        [&mut || {
            black_box(all());
        }],
    );
    (time, all(), whole)
}

/// How many entries a well-formed list has.
fn entries(list: &[u8]) -> u32 {
    let (mut count, mut entry) = (0, 0);
    // SAFETY: the pointer and the length are a slice's, and both places outlive the call.
    unsafe { ighzamrel_check_list(list.as_ptr(), list.len(), &mut count, &mut entry) };
    count
}
