//! Flattening the glyphs of real fonts, and strings and fonts that are made to cost: ours and the unchanged Rust in one
//! process, in turns, the best of many passes.

mod folders;
mod hand;
mod hostile;
// the Rust's side is compiled here, where it may be inlined
#[allow(dead_code)]
#[path = "../tools/oracle/source/flattening.rs"]
mod lists;
mod ours;
mod timing;

use folders::report;
use lists::Lists;
use oracle::fonts::{Font, Glyph};
use ours::{ours, ours_with_rows};
use std::hint::black_box;
use std::process::ExitCode;
use timing::best_of;

/// All fonts are gone through so often, with so many passes each time: a machine may be slow for seconds.
const ROUNDS: u32 = 5;
const PASSES: u32 = 5;

/// Of a font at most so many glyphs are timed, spread evenly.
const MOST_GLYPHS: usize = 2000;

/// More than any glyph of a font needs.
const AMPLE: u32 = 10_000_000;
const ROOM: usize = 1 << 20;

/// What the row of 65,535 entries takes.
const LONGEST_ROW: usize = 8192;

const INTRODUCTION: &str = "\
Best of 25 passes, five at a time, the two sides in turns; nanoseconds. The room that is lent to ours is one buffer, cleared once; the Rust allocates its own.
The Rust's lists are parsed once a font and not timed. Ours looks at the lists' bytes at each call: that check is the flattening of an empty
charstring with the same lists, and is told apart. By hand: the same loop in C without a proof, lists known to be well formed (bench/by_hand.c).
";

fn main() -> ExitCode {
    report(INTRODUCTION, |found| {
        of_fonts(found)?;
        println!();
        hostile::print();
        Ok(())
    })
}

/// Nanoseconds for all timed glyphs.
#[derive(Default)]
struct Times {
    glyphs: usize,
    tokens: u64,
    whole: f64,
    check: f64,
    rust: f64,
    hand: f64,
    marked: f64,
}

impl Times {
    /// The better of two times, for each side.
    fn least(self, other: Times) -> Times {
        Times {
            whole: self.whole.min(other.whole),
            check: self.check.min(other.check),
            rust: self.rust.min(other.rust),
            hand: self.hand.min(other.hand),
            marked: self.marked.min(other.marked),
            ..other
        }
    }

    fn add(&mut self, other: &Times) {
        self.glyphs += other.glyphs;
        self.tokens += other.tokens;
        self.whole += other.whole;
        self.check += other.check;
        self.rust += other.rust;
        self.hand += other.hand;
        self.marked += other.marked;
    }

    fn row(&self, name: &str) {
        let each = |time: f64| time / self.glyphs as f64;
        let ours = self.whole - self.check;
        println!(
            "| {name} | {} | {} | {:.0} | {:.0} | {:.2} | {:.2} | {:.2} | {:.0} | {:.0} | {:.2} | {:.0} |",
            self.glyphs,
            self.tokens,
            each(ours),
            each(self.rust),
            self.rust / ours,
            ours / self.tokens as f64,
            self.hand / self.tokens as f64,
            each(self.check),
            each(self.whole),
            self.rust / self.whole,
            each(self.marked),
        );
    }
}

fn of_fonts(fonts: Vec<Font>) -> Result<(), String> {
    println!("| font | glyphs | tokens | ours, a glyph | the Rust | the Rust / ours | ours, a token | by hand, a token | the check | ours with the check | the Rust / ours with the check | ours with the check and rows |");
    println!("|---|---|---|---|---|---|---|---|---|---|---|---|");
    let mut found: Vec<(Font, Option<Times>)> =
        fonts.into_iter().map(|font| (font, None)).collect();
    for _ in 0..ROUNDS {
        for (font, best) in &mut found {
            let times = of_font(font)?;
            *best = Some(match best.take() {
                Some(before) => before.least(times),
                None => times,
            });
        }
    }
    let mut all = Times::default();
    for (font, best) in &found {
        let Some(times) = best else { continue };
        times.row(&font.name);
        all.add(times);
    }
    all.row("all");
    Ok(())
}

fn of_font(font: &Font) -> Result<Times, String> {
    let mut lists: Vec<(&[u8], Lists)> = Vec::new();
    let mut timed: Vec<(Glyph, usize)> = Vec::new();
    let mut out = vec![0; ROOM];
    let mut tokens = 0;
    let step = font.glyphs().count().div_ceil(MOST_GLYPHS).max(1);
    for glyph in font.glyphs().step_by(step) {
        let known = lists.iter().position(|(locals, _)| locals.as_ptr() == glyph.locals.as_ptr());
        let which = known.unwrap_or_else(|| {
            lists.push((glyph.locals, Lists::read(glyph.globals, glyph.locals)));
            lists.len() - 1
        });
        let answer = ours(&glyph, AMPLE, &mut out);
        let flat = lists[which].1.flattened(glyph.charstring);
        match flat {
            Ok(flat) if answer.number == 0 && flat[..] == out[..answer.length] => {
                tokens += u64::from(answer.tokens);
                timed.push((glyph, which));
            }
            // what both refuse is not timed
            Err(_) if answer.number != 0 => {}
            _ => return Err(format!("{}: the two sides differ", font.name)),
        }
    }
    hand::agrees(&timed, &mut out).map_err(|e| format!("{}: {e}", font.name))?;
    let [whole, check, rust, hand, marked] = best_of_each(&timed, &lists, &mut out);
    Ok(Times { glyphs: timed.len(), tokens, whole, check, rust, hand, marked })
}

/// Ours, the check of the lists by itself, the Rust, the loop by hand, and ours with rows.
fn best_of_each(timed: &[(Glyph, usize)], lists: &[(&[u8], Lists)], out: &mut [u8]) -> [f64; 5] {
    let [mut spare, mut room, mut marked] = [(); 3].map(|_| vec![0; ROOM]);
    let mut rows = [(); 2].map(|_| vec![0; LONGEST_ROW]);
    best_of(
        PASSES,
        [
            &mut || {
                for (glyph, _) in timed {
                    black_box(ours(black_box(glyph), AMPLE, out));
                }
            },
            &mut || {
                for (glyph, _) in timed {
                    let nothing = Glyph { charstring: &[], ..*glyph };
                    black_box(ours(black_box(&nothing), AMPLE, &mut spare));
                }
            },
            &mut || {
                for (glyph, which) in timed {
                    let _ = black_box(lists[*which].1.flattened(black_box(glyph.charstring)));
                }
            },
            &mut || {
                for (glyph, _) in timed {
                    black_box(hand::flatten(black_box(glyph), AMPLE, &mut room));
                }
            },
            &mut || {
                for (glyph, _) in timed {
                    black_box(ours_with_rows(black_box(glyph), AMPLE, &mut marked, &mut rows));
                }
            },
        ],
    )
}
