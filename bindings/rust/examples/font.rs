//! Flattens an OpenType font with CFF outlines in one go, and then glyph by glyph, to hold the widths that these say against
//! the advance widths of its hmtx table; and says what came of it.
//!
//!     cargo run --release --example font -- FILE [strict] [NUMBER] [--text TEXT]
//!
//! A font whose glyphs have several local lists goes glyph by glyph alone. NUMBER is that of a font in a collection, else 0.
//! With a text it flattens just the glyphs that this needs, a call for each local list, and says what would be embedded.

use std::collections::BTreeMap;
use std::time::{Duration, Instant};
use std::{env, fmt, fs, process};

use ighzamrel::{flatten_font_to_vec, flatten_to_vec, read_entry, Operand, Profile, Refused};

#[path = "font/cmap.rs"]
pub mod cmap;
#[path = "font/tables.rs"]
mod tables;
#[path = "font/text.rs"]
pub mod text;

use tables::{Font, Private};
use text::Embedding;

/// What one glyph may take of time, in tokens, and of memory, in bytes; and the INDEX of a whole font, of memory.
const BUDGET: u32 = 1_000_000;
const ROOM: usize = 1 << 20;
const FONT_ROOM: usize = 1 << 28;

const USAGE: &str = "usage: font FILE [strict] [NUMBER] [--text TEXT]";

fn main() {
    let words: Vec<String> = env::args().skip(1).collect();
    let Some(asked) = Asked::read(&words) else {
        fail(USAGE, 2)
    };
    let path = asked.path;
    let file =
        fs::read(path).unwrap_or_else(|why| fail(&format!("{path} cannot be read: {why}"), 1));
    match asked.answer(&file) {
        Ok(report) => print!("{path}: {report}"),
        Err(why) => fail(&format!("{path}: {why}"), 1),
    }
}

fn fail(why: &str, status: i32) -> ! {
    eprintln!("{why}");
    process::exit(status)
}

/// What the program is asked for.
#[derive(Debug, PartialEq)]
pub struct Asked<'a> {
    pub path: &'a str,
    /// Of a font in a collection.
    pub number: usize,
    pub profile: Profile,
    pub text: Option<&'a str>,
}

impl<'a> Asked<'a> {
    pub fn read(words: &'a [String]) -> Option<Self> {
        let mut words = words.iter();
        let mut asked = Asked {
            path: words.next()?,
            number: 0,
            profile: Profile::Plain,
            text: None,
        };
        while let Some(word) = words.next() {
            match word.as_str() {
                "strict" => asked.profile = Profile::Strict,
                "--text" => asked.text = Some(words.next()?),
                number => asked.number = number.parse().ok()?,
            }
        }
        Some(asked)
    }

    /// What is said of the font in these bytes.
    pub fn answer(&self, file: &[u8]) -> Result<String, String> {
        let (number, profile) = (self.number, self.profile);
        match self.text {
            Some(text) => Embedding::of(file, number, profile, text).map(|all| all.to_string()),
            None => flatten(file, number, profile).map(|report| report.to_string()),
        }
    }
}

/// What came of a font.
#[derive(Debug)]
pub struct Report {
    pub glyphs: u32,
    /// Of the font in one go, where all its glyphs have the same local list.
    pub whole: Option<Result<Whole, Refused>>,
    /// Of its glyphs one by one, where its lists are well formed.
    pub counts: Option<Counts>,
    /// How long these took one by one.
    pub time: Duration,
}

/// A font that was flattened in one go.
#[derive(Debug)]
pub struct Whole {
    /// The bytes of its CharStrings INDEX.
    pub before: usize,
    /// The INDEX of its flat strings.
    pub flat: Vec<u8>,
    pub time: Duration,
}

/// What came of a font's glyphs.
#[derive(Debug, Default, PartialEq)]
pub struct Counts {
    pub flattened: u32,
    /// Of all glyphs, the refused ones too where their refusal tells them.
    pub tokens: u64,
    /// The bytes of the accepted charstrings.
    pub before: usize,
    /// The bytes of their flat strings.
    pub after: usize,
    /// What each refusal says, without the tokens, and of how many glyphs.
    pub refused: BTreeMap<Refused, u32>,
    pub widths: Widths,
}

/// What the flattened glyphs say of their advance widths, and what hmtx has of these.
#[derive(Debug, Default, PartialEq)]
pub struct Widths {
    /// How many say a width of their own.
    pub said: u32,
    /// Of how many the advance width is that of hmtx, of how many once it is rounded to a whole number, and of how many another.
    pub agree: u32,
    pub rounded: u32,
    pub differ: u32,
    pub first_other: Option<Advance>,
}

/// The advance width of a glyph, by hmtx and by its charstring with its Private DICT.
#[derive(Debug, PartialEq)]
pub struct Advance {
    pub glyph: u32,
    pub by_hmtx: usize,
    pub width: Option<Operand>,
    pub by_charstring: f64,
}

impl fmt::Display for Report {
    fn fmt(&self, f: &mut fmt::Formatter<'_>) -> fmt::Result {
        writeln!(f, "{} glyphs", self.glyphs)?;
        match &self.whole {
            Some(Ok(whole)) => writeln!(f, "  in one go: {whole}")?,
            Some(Err(refused)) => writeln!(f, "  in one go: {refused}")?,
            None => writeln!(f, "  they have several local lists")?,
        }
        match &self.counts {
            Some(counts) => write!(f, "  one by one, in {:.1?}: {counts}", self.time),
            None => Ok(()),
        }
    }
}

impl fmt::Display for Whole {
    fn fmt(&self, f: &mut fmt::Formatter<'_>) -> fmt::Result {
        let (before, after, time) = (self.before, self.flat.len(), self.time);
        write!(f, "{before} bytes before, {after} after, in {time:.1?}")
    }
}

impl fmt::Display for Counts {
    fn fmt(&self, f: &mut fmt::Formatter<'_>) -> fmt::Result {
        writeln!(
            f,
            "{} flattened, {} bytes before, {} after, in {} tokens",
            self.flattened, self.before, self.after, self.tokens
        )?;
        self.refused
            .iter()
            .try_for_each(|(refused, times)| writeln!(f, "  {times} with {refused}"))?;
        write!(f, "{}", self.widths)
    }
}

impl fmt::Display for Widths {
    fn fmt(&self, f: &mut fmt::Formatter<'_>) -> fmt::Result {
        let (said, agree, rounded, differ) = (self.said, self.agree, self.rounded, self.differ);
        write!(f, "  widths: {said} say one of their own; ")?;
        if agree + rounded + differ == 0 {
            return writeln!(f, "hmtx has none");
        }
        writeln!(
            f,
            "{agree} are as in hmtx, {rounded} so once rounded, {differ} are not"
        )?;
        self.first_other
            .iter()
            .try_for_each(|advance| writeln!(f, "  the first that is not: {advance}"))
    }
}

impl fmt::Display for Advance {
    fn fmt(&self, f: &mut fmt::Formatter<'_>) -> fmt::Result {
        let (glyph, by_hmtx, by_charstring) = (self.glyph, self.by_hmtx, self.by_charstring);
        write!(f, "glyph {glyph}, {by_hmtx} in hmtx, {by_charstring} by ")?;
        match self.width {
            Some(width) => write!(f, "nominalWidthX and {}", value(width)),
            None => write!(f, "defaultWidthX"),
        }
    }
}

fn value(operand: Operand) -> f64 {
    match operand {
        Operand::Integer(n) => n.into(),
        Operand::Fixed(n) => f64::from(n) / 65536.0,
    }
}

/// Flattens the font of this number in these bytes.
pub fn flatten(file: &[u8], number: usize, profile: Profile) -> Result<Report, String> {
    let font = Font::read(file, number)?;
    let whole = font
        .only_private()
        .map(|private| in_one_go(&font, private.locals, profile));
    let one_by_one = match &whole {
        Some(Err(refused)) => refused.glyph.is_some(),
        _ => true,
    };
    let start = Instant::now();
    let counts = one_by_one.then(|| Counts::of(&font, profile)).transpose()?;
    Ok(Report {
        glyphs: font.charstrings.count,
        whole,
        counts,
        time: start.elapsed(),
    })
}

fn in_one_go(font: &Font, locals: &[u8], profile: Profile) -> Result<Whole, Refused> {
    let charstrings = font.charstrings.bytes;
    let start = Instant::now();
    let flat = flatten_font_to_vec(
        charstrings,
        font.globals,
        locals,
        profile,
        BUDGET,
        FONT_ROOM,
    )?;
    Ok(Whole {
        before: charstrings.len(),
        flat,
        time: start.elapsed(),
    })
}

impl Counts {
    fn of(font: &Font, profile: Profile) -> Result<Counts, String> {
        let mut counts = Counts::default();
        for glyph in 0..font.charstrings.count {
            let private = font.private_of(glyph)?;
            if let Err(refused) = counts.flatten(font, glyph, private, profile) {
                *counts.refused.entry(refused).or_default() += 1;
            }
        }
        Ok(counts)
    }

    fn flatten(
        &mut self,
        font: &Font,
        glyph: u32,
        private: Private,
        profile: Profile,
    ) -> Result<(), Refused> {
        let charstring = &font.charstrings.bytes[read_entry(font.charstrings.bytes, glyph)?];
        let (globals, locals) = (font.globals, private.locals);
        match flatten_to_vec(charstring, globals, locals, profile, BUDGET, ROOM) {
            Ok(flat) => {
                self.flattened += 1;
                self.tokens += u64::from(flat.tokens);
                self.before += charstring.len();
                self.after += flat.bytes.len();
                self.widths.count(font, glyph, private, flat.width);
                Ok(())
            }
            Err(refused) => {
                self.tokens += u64::from(refused.tokens.unwrap_or(0));
                Err(Refused {
                    needed: None,
                    tokens: None,
                    ..refused
                })
            }
        }
    }
}

impl Widths {
    fn count(&mut self, font: &Font, glyph: u32, private: Private, width: Option<Operand>) {
        self.said += u32::from(width.is_some());
        let advances = font.advances.as_ref();
        let Some(by_hmtx) = advances.and_then(|advances| advances.of(glyph)) else {
            return;
        };
        let by_charstring = match width {
            Some(width) => private.nominal_width + value(width),
            None => private.default_width,
        };
        match (by_charstring - by_hmtx as f64).abs() {
            0.0 => self.agree += 1,
            off if off <= 0.5 => self.rounded += 1,
            _ => {
                self.differ += 1;
                self.first_other.get_or_insert(Advance {
                    glyph,
                    by_hmtx,
                    width,
                    by_charstring,
                });
            }
        }
    }
}
