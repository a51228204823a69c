//! Says why glyphs of an OpenType font with CFF outlines are refused, and where: in which subroutine the refused token stands,
//! and through which calls the run came there.
//!
//!     cargo run --release --example why -- FILE [font NUMBER] [strict] [--budget N]
//!
//! Glyphs that follow each other and are refused in the same words have one line. `font NUMBER` takes a font of a collection,
//! `strict` the strict profile; N is how many tokens a glyph may take, else 1,000,000.

use std::{env, fmt, fs, process};

use ighzamrel::{explain, read_entry, Profile};

#[allow(dead_code)]
#[path = "font/tables.rs"]
mod tables;

pub use tables::Font;

/// What one glyph may take of time, in tokens, where nothing else is asked for.
const BUDGET: u32 = 1_000_000;

const USAGE: &str = "usage: why FILE [font NUMBER] [strict] [--budget N]";

fn main() {
    let words: Vec<String> = env::args().skip(1).collect();
    let Some(asked) = Asked::read(&words) else {
        fail(USAGE, 2)
    };
    let path = asked.path;
    let file =
        fs::read(path).unwrap_or_else(|why| fail(&format!("{path} cannot be read: {why}"), 1));
    let read = Font::read(&file, asked.font);
    match read.and_then(|font| Report::of(&font, asked.profile, asked.budget)) {
        Ok(report) => print!("{report}"),
        Err(why) => fail(&format!("{path}: {why}"), 1),
    }
}

fn fail(why: &str, status: i32) -> ! {
    eprintln!("{why}");
    process::exit(status)
}

/// What the program is asked for.
#[derive(Debug, PartialEq)]
pub struct Asked<'a> {
    pub path: &'a str,
    pub font: usize,
    pub profile: Profile,
    pub budget: u32,
}

impl<'a> Asked<'a> {
    pub fn read(words: &'a [String]) -> Option<Self> {
        let mut words = words.iter();
        let mut asked = Asked {
            path: words.next()?,
            font: 0,
            profile: Profile::Plain,
            budget: BUDGET,
        };
        while let Some(word) = words.next() {
            match word.as_str() {
                "font" => asked.font = words.next()?.parse().ok()?,
                "strict" => asked.profile = Profile::Strict,
                "--budget" => asked.budget = words.next()?.parse().ok()?,
                _ => return None,
            }
        }
        Some(asked)
    }
}

/// The glyphs of a font that are refused.
#[derive(Debug, PartialEq)]
pub struct Report {
    /// How many glyphs the font has.
    pub glyphs: u32,
    pub refused: Vec<Refused>,
}

/// Glyphs that follow each other and are refused alike.
#[derive(Debug, PartialEq)]
pub struct Refused {
    pub first: u32,
    pub last: u32,
    /// The Font DICT whose local list they have, where the glyphs of the font choose one.
    pub dict: Option<usize>,
    /// Why they are refused, and where.
    pub why: String,
}

impl Report {
    pub fn of(font: &Font, profile: Profile, budget: u32) -> Result<Self, String> {
        let glyphs = font.charstrings.count;
        let mut refused: Vec<Refused> = Vec::new();
        for glyph in 0..glyphs {
            let Some(why) = why(font, glyph, profile, budget)? else {
                continue;
            };
            let dict = font.dict_of(glyph);
            match refused.last_mut() {
                Some(run) if run.last + 1 == glyph && run.dict == dict && run.why == why => {
                    run.last = glyph;
                }
                _ => refused.push(Refused {
                    first: glyph,
                    last: glyph,
                    dict,
                    why,
                }),
            }
        }
        Ok(Report { glyphs, refused })
    }
}

/// Why a glyph is refused, in words; None where it is accepted.
fn why(font: &Font, glyph: u32, profile: Profile, budget: u32) -> Result<Option<String>, String> {
    let locals = font.private_of(glyph)?.locals;
    let charstring = match read_entry(font.charstrings.bytes, glyph) {
        Ok(place) => &font.charstrings.bytes[place],
        Err(refusal) => return Ok(Some(refusal.to_string())),
    };
    let why = explain(charstring, font.globals, locals, profile, budget);
    Ok(why.verdict.is_err().then(|| why.to_string()))
}

impl fmt::Display for Report {
    fn fmt(&self, f: &mut fmt::Formatter<'_>) -> fmt::Result {
        self.refused
            .iter()
            .try_for_each(|refused| writeln!(f, "{refused}"))?;
        let alike = self.refused.iter();
        let refused: u32 = alike.map(|run| run.last - run.first + 1).sum();
        writeln!(f, "{refused} of {} glyphs are refused", self.glyphs)
    }
}

impl fmt::Display for Refused {
    fn fmt(&self, f: &mut fmt::Formatter<'_>) -> fmt::Result {
        match (self.first, self.last) {
            (first, last) if first == last => write!(f, "glyph {first}")?,
            (first, last) => write!(f, "glyphs {first} to {last}")?,
        }
        if let Some(dict) = self.dict {
            write!(f, ", by Font DICT {dict}")?;
        }
        write!(f, ": {}", self.why)
    }
}
