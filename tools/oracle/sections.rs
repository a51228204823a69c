//! The inputs of a run, section by section: those of the list and more, fonts, all short strings, and random ones.

use crate::compare::Comparison;
use crate::fonts::{self, Font};
use crate::inputs::case::{L, NONE, STRICT};
use crate::inputs::{damaged, structured};
use crate::lend::MOST_ROOM;
use crate::operation::{Call, Outcome};
use crate::operations::explain::explained;
use crate::operations::flatten_marked::with_exact_rows;
use crate::operations::{flatten, flatten_font, flatten_glyphs, OPERATIONS};
use crate::random::Random;
use crate::rules::index::formed;
use crate::shrink::described;
use crate::tally::Tally;
use crate::threads::{Done, Work};
use std::borrow::Cow;
use std::path::PathBuf;
use std::time::{Duration, Instant};

/// Budgets beyond which no run is followed: for strings that were made, and for those of fonts.
const AMPLE: u32 = 20_000;
const LONG: u32 = 1_100_000;

/// How much longer than eight times its charstring a flat string may be that goes into the first room: one that was made, and a
/// font's, of which few are longer.
const SHORT_ROOM: usize = 64;
const LONG_ROOM: usize = 1024;

/// Of a font so many glyphs, spread evenly, are run with rows too, and so many explained: each of these has lists made anew.
const WITH_ROWS: usize = 500;
const EXPLAINED: usize = 150;

/// So many glyphs, spread evenly, are asked for by their numbers.
const NUMBERED: usize = 60;

/// Words for as many calls as can be open.
const WORDS: usize = 189;

/// What the random ones of a sample have at least, however long the sections before them took.
const LEAST_TIME: Duration = Duration::from_secs(5);

/// Random inputs in a part: charstrings, damaged ones beside them, and of each operation.
const STRUCTURED: u64 = 4_000;
const DAMAGED: u64 = 1_000;
const OF_EACH: u64 = 100;

/// What every section goes by.
#[derive(Clone, Copy)]
pub struct Run {
    pub seed: u64,
    /// When the random ones end; without it, all of everything is compared.
    pub until: Option<Instant>,
}

/// What a thread keeps from part to part.
#[derive(Default)]
struct Thread {
    comparison: Comparison,
    tally: Tally,
    fonts: usize,
}

/// A part of a section, which one thread compares. The seed and the part's number give its inputs again.
struct Part<'a> {
    name: String,
    thread: &'a mut Thread,
    random: Random,
    /// How many inputs it had so far.
    count: u64,
    done: &'a Done,
}

impl Part<'_> {
    fn look(&mut self, call: &Call, every: usize) -> Result<(), String> {
        self.outcome(call, every).map(drop)
    }

    fn outcome(&mut self, call: &Call, every: usize) -> Result<Outcome, String> {
        self.done.add(1);
        self.count += 1;
        let Thread { comparison, tally, .. } = &mut *self.thread;
        comparison.look(call, every, tally).map_err(|difference| {
            let described = described(comparison, difference);
            format!("difference in {}, input {}:\n{described}", self.name, self.count)
        })
    }

    /// Into room that mostly is enough; where it is not, a call with just enough follows from 13.
    fn flatten(&mut self, slices: [&[u8]; 3]) -> Result<(), String> {
        self.look(&flattening(slices, AMPLE, SHORT_ROOM), 1)
    }
}

fn flattening<'a>(slices: [&'a [u8]; 3], budget: u32, more: usize) -> Call<'a> {
    let room = 8 * slices[0].len() + more;
    let slices = slices.map(Cow::Borrowed);
    Call { budget, room, slices, ..Call::of(&flatten::OPERATION) }
}

impl Run {
    fn part<'a>(
        &self,
        name: &str,
        number: u64,
        thread: &'a mut Thread,
        done: &'a Done,
    ) -> Part<'a> {
        let mixed = Random::new(self.seed.wrapping_add(number)).next();
        Part {
            name: format!("{name}, seed {}, part {number}", self.seed),
            thread,
            random: Random::new(mixed),
            count: 0,
            done,
        }
    }

    /// Of each operation, the inputs of the stored list, and those too big or too many to store.
    pub fn listed(&self) -> Result<Tally, String> {
        let calls: Vec<Call> = OPERATIONS
            .iter()
            .flat_map(|operation| {
                [(operation.listed)(operation), (operation.more)(operation)].concat()
            })
            .collect();
        let parts: Vec<&[Call]> = calls.chunks(5_000).collect();
        let work = Work { name: "listed", parts: parts.len() as u64, until: None };
        let threads = work.run(|number, thread, done| {
            let mut part = self.part(work.name, number, thread, done);
            parts[number as usize].iter().try_for_each(|call| part.look(call, 1))
        })?;
        Ok(sum(&threads))
    }

    /// All strings of up to three bytes, with empty lists and with one that has an entry; of a sample, up to two.
    pub fn strings(&self) -> Result<Tally, String> {
        let firsts = if self.until.is_none() { 256 } else { 0 };
        let work = Work { name: "strings", parts: 2 * (firsts + 1), until: None };
        let threads = work.run(|number, thread, done| {
            let mut part = self.part(work.name, number, thread, done);
            let locals = if number % 2 == 0 { NONE } else { L };
            let first = (number / 2).checked_sub(1).map(|first| first as u8);
            strings(first, |string| part.flatten([string, NONE, locals]))
        })?;
        Ok(sum(&threads))
    }

    /// Random charstrings, damaged ones beside them, and random inputs of every operation: so many of the first, or as many as
    /// there is time for.
    pub fn random(&self, cases: u64) -> Result<Tally, String> {
        let parts = if self.until.is_some() { u64::MAX } else { cases.div_ceil(STRUCTURED) };
        let until = self.until.map(|until| until.max(Instant::now() + LEAST_TIME));
        let work = Work { name: "random", parts, until };
        let threads = work.run(|number, thread, done| {
            let mut part = self.part(work.name, number, thread, done);
            for i in 0..STRUCTURED + DAMAGED {
                let mut case = structured(&mut part.random);
                if i >= STRUCTURED {
                    case = damaged(case, &mut part.random);
                }
                part.flatten([&case.charstring, &case.globals, &case.locals])?;
            }
            for operation in OPERATIONS {
                for _ in 0..OF_EACH {
                    let call = (operation.random)(operation, &mut part.random);
                    part.look(&call, 1)?;
                }
            }
            Ok(())
        })?;
        Ok(sum(&threads))
    }

    /// The glyphs of the fonts in these folders, at most so many of a font, one by one and together, and how many fonts there were.
    pub fn fonts(&self, folders: &[PathBuf], most: usize) -> Result<(Tally, usize), String> {
        let files = fonts::files(folders);
        let work = Work { name: "fonts", parts: files.len() as u64, until: None };
        let threads = work.run(|number, thread: &mut Thread, done| {
            let path = &files[number as usize];
            let found = fonts::read(path).map_err(|why| format!("{}: {why}", path.display()))?;
            thread.fonts += found.len();
            found.iter().try_for_each(|font| {
                let name = format!("the font {}", font.name);
                of_font(&mut self.part(&name, number, thread, done), font, most)
            })
        })?;
        let count = threads.iter().map(|thread| thread.fonts).sum();
        Ok((sum(&threads), count))
    }
}

/// Glyph by glyph, at times with rows too or explained; and in one call for each local list in both profiles, and some of its
/// glyphs, the last first.
fn of_font(part: &mut Part, font: &Font, most: usize) -> Result<(), String> {
    let glyphs = font.glyphs().count();
    let step = glyphs.div_ceil(most).max(1);
    let [with_rows, explaining] =
        [WITH_ROWS, EXPLAINED].map(|most| glyphs.div_ceil(step).div_ceil(most).max(1));
    for (i, glyph) in font.glyphs().step_by(step).enumerate() {
        // a font's lists are long, and are lent anew at each call: so of what follows, a third or less
        let slices = [glyph.charstring, glyph.globals, glyph.locals];
        let call = flattening(slices, LONG, LONG_ROOM);
        let tokens = part.outcome(&call, 3)?.values[1].unwrap_or(0) as u32;
        if i % with_rows == 0 {
            part.look(&with_exact_rows(call.again()), 9)?;
        }
        if i % explaining == 0 {
            // with half the tokens 3 comes, at times within calls
            part.look(&explained(call.again(), WORDS), 9)?;
            part.look(&explained(Call { budget: tokens / 2, ..call }, WORDS), 9)?;
        }
    }
    for slices in font.whole(step) {
        let room = (4 * slices[0].len() + 64).min(MOST_ROOM);
        let call = Call { budget: LONG, room, slices, ..Call::of(&flatten_font::OPERATION) };
        part.look(&Call { profile: STRICT, ..call.again() }, 3)?;
        let count = formed(&call.slices[0]).unwrap_or(0) as usize;
        let spread = (0..count).rev().step_by(count.div_ceil(NUMBERED).max(1));
        let numbers = spread.map(|number| number as u32).collect();
        part.look(&flatten_glyphs::numbered(call.again(), numbers), 3)?;
        part.look(&call, 3)?;
    }
    Ok(())
}

/// All strings of a first byte and two more, or of up to two bytes where there is none.
fn strings(
    first: Option<u8>,
    mut each: impl FnMut(&[u8]) -> Result<(), String>,
) -> Result<(), String> {
    if first.is_none() {
        each(&[])?;
        (0..=255).try_for_each(|a| each(&[a]))?;
    }
    let start: Vec<u8> = first.into_iter().collect();
    for a in 0..=255 {
        for b in 0..=255 {
            each(&[&start[..], &[a, b]].concat())?;
        }
    }
    Ok(())
}

fn sum(threads: &[Thread]) -> Tally {
    let mut all = Tally::default();
    threads.iter().for_each(|thread| all.add(&thread.tally));
    all
}
