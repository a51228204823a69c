//! Lists the glyphs of an OpenType font with CFF outlines that are to be flattened again once a subroutine has changed: those
//! whose run enters it.
//!
//!     cargo run --release --example rerun -- FILE local NUMBER
//!     cargo run --release --example rerun -- FILE global NUMBER --check
//!     cargo run --release --example rerun -- FILE --check
//!
//! A refused glyph tells no rows, so it is listed too, apart. Where the glyphs have several local lists, `local NUMBER of DICT`
//! names one, by its Font DICT, else it is that of Font DICT 0. `strict` takes the strict profile, `font NUMBER` a font of a
//! collection.
//!
//! With `--check` the subroutine is changed, and all glyphs that its list serves are flattened by the old list and by the new:
//! each that is not listed must give the same answer, bytes and rows, or the program says which does not, and fails. Where no
//! subroutine is named, twenty are taken, spread over all lists.

use std::time::Instant;
use std::{env, fmt, fs, process, ptr};

use ighzamrel::{
    check_list, flatten_marked, read_entry, read_index, row_size, write_index, Flat, Profile,
    Refusal, Refused, Row,
};

#[allow(dead_code)]
#[path = "font/tables.rs"]
mod tables;

pub use tables::Font;

/// What one glyph may take of time, in tokens, and of memory, in bytes.
const BUDGET: u32 = 1_000_000;
const ROOM: usize = 1 << 20;

/// How many subroutines are checked where none is named.
const SPREAD: usize = 20;

const USAGE: &str =
    "usage: rerun FILE [font NUMBER] [strict] [global NUMBER | local NUMBER [of DICT]] [--check]";

fn main() {
    let words: Vec<String> = env::args().skip(1).collect();
    let Some(asked) = Asked::read(&words) else {
        fail(USAGE, 2)
    };
    let path = asked.path;
    let file =
        fs::read(path).unwrap_or_else(|why| fail(&format!("{path} cannot be read: {why}"), 1));
    let told = Font::read(&file, asked.font).and_then(|font| tell(&font, &asked));
    told.unwrap_or_else(|why| fail(&format!("{path}: {why}"), 1));
}

fn fail(why: &str, status: i32) -> ! {
    eprintln!("{why}");
    process::exit(status)
}

/// What the program is asked for.
struct Asked<'a> {
    path: &'a str,
    font: usize,
    profile: Profile,
    subroutine: Option<Subroutine>,
    check: bool,
}

impl<'a> Asked<'a> {
    fn read(words: &'a [String]) -> Option<Self> {
        let mut words = words.iter().map(String::as_str).peekable();
        let mut asked = Asked {
            path: words.next()?,
            font: 0,
            profile: Profile::Plain,
            subroutine: None,
            check: false,
        };
        while let Some(word) = words.next() {
            match word {
                "--check" => asked.check = true,
                "strict" => asked.profile = Profile::Strict,
                "font" => asked.font = words.next()?.parse().ok()?,
                "global" | "local" => {
                    let number = words.next()?.parse().ok()?;
                    let list = match words.next_if(|&next| word == "local" && next == "of") {
                        Some(_) => List::Local(words.next()?.parse().ok()?),
                        None if word == "local" => List::Local(0),
                        None => List::Global,
                    };
                    asked.subroutine = Some(Subroutine { list, number });
                }
                _ => return None,
            }
        }
        (asked.check || asked.subroutine.is_some()).then_some(asked)
    }
}

/// A subroutine, by its number in its list.
#[derive(Clone, Copy, Debug, PartialEq)]
pub struct Subroutine {
    pub list: List,
    pub number: u32,
}

/// The global list, or the local one of a Font DICT; of a font without these, 0.
#[derive(Clone, Copy, Debug, PartialEq)]
pub enum List {
    Global,
    Local(usize),
}

impl fmt::Display for Subroutine {
    fn fmt(&self, f: &mut fmt::Formatter<'_>) -> fmt::Result {
        match self.list {
            List::Global => write!(f, "global {}", self.number),
            List::Local(0) => write!(f, "local {}", self.number),
            List::Local(dict) => write!(f, "local {} of {dict}", self.number),
        }
    }
}

impl List {
    /// Its bytes, where it is well formed, and how many entries it has.
    fn of<'a>(self, font: &Font<'a>) -> Result<(&'a [u8], u32), String> {
        let bytes = match self {
            List::Global => font.globals,
            List::Local(dict) => {
                let private = font.privates.get(dict);
                private.ok_or(format!("it has no Font DICT {dict}"))?.locals
            }
        };
        let count = check_list(bytes);
        Ok((
            bytes,
            count.map_err(|refused| format!("its list of subroutines: {refused}"))?,
        ))
    }
}

/// Says which glyphs use the subroutine, or of some subroutines how many do; and checks that where it is asked for.
fn tell(font: &Font, asked: &Asked) -> Result<(), String> {
    let start = Instant::now();
    let subroutines = match asked.subroutine {
        Some(subroutine) => vec![subroutine],
        None => spread(font)?,
    };
    for &subroutine in &subroutines {
        let start = Instant::now();
        let listed = Listed::of(font, subroutine, asked.profile)?;
        println!("{subroutine}: {listed}, found in {:.1?}", start.elapsed());
        if asked.subroutine.is_some() {
            tell_glyphs("run again", &listed.users);
            tell_glyphs("refused, so run again too", &listed.refused);
        }
        for by in Change::ALL.into_iter().filter(|_| asked.check) {
            println!("  {}", listed.check(font, by, asked.profile)?);
        }
    }
    if asked.check {
        let (number, time) = (subroutines.len(), start.elapsed());
        println!("subroutines checked: {number}, in {time:.1?}");
    }
    Ok(())
}

fn tell_glyphs(what: &str, glyphs: &[u32]) {
    if !glyphs.is_empty() {
        let numbers: Vec<String> = glyphs.iter().map(u32::to_string).collect();
        println!("  {what}: {}", numbers.join(" "));
    }
}

/// Some of all subroutines of a font, evenly spread from the first to the last. A list that several Font DICTs have counts once.
pub fn spread(font: &Font) -> Result<Vec<Subroutine>, String> {
    let mut all = Vec::new();
    let mut seen: Vec<&[u8]> = Vec::new();
    let locals = (0..font.privates.len()).map(List::Local);
    for list in [List::Global].into_iter().chain(locals) {
        let (bytes, count) = list.of(font)?;
        if !seen.iter().any(|one| ptr::eq(*one, bytes)) {
            seen.push(bytes);
            all.extend((0..count).map(|number| Subroutine { list, number }));
        }
    }
    let taken = SPREAD.min(all.len());
    let at = |i| i * (all.len() - 1) / (taken - 1).max(1);
    Ok((0..taken).map(|i| all[at(i)]).collect())
}

/// The glyphs that are to be flattened again once a subroutine has changed.
#[derive(Debug, PartialEq)]
pub struct Listed {
    pub subroutine: Subroutine,
    /// How many glyphs the font has.
    pub glyphs: u32,
    /// Those whose run enters the subroutine, in their order.
    pub users: Vec<u32>,
    /// Those that are refused, and may have entered it before; of those alone that its list serves.
    pub refused: Vec<u32>,
}

impl fmt::Display for Listed {
    fn fmt(&self, f: &mut fmt::Formatter<'_>) -> fmt::Result {
        write!(f, "{} of {} glyphs use it", self.users.len(), self.glyphs)?;
        match self.refused.len() {
            0 => Ok(()),
            refused => write!(f, ", {refused} are refused"),
        }
    }
}

/// What a subroutine is changed to.
#[derive(Clone, Copy, Debug, PartialEq)]
pub enum Change {
    Return,
    /// An operator that is none: a run that enters it is refused.
    Impassable,
    /// The same with its first byte changed.
    OtherByte,
}

impl Change {
    const ALL: [Change; 3] = [Change::Return, Change::Impassable, Change::OtherByte];

    fn of(self, old: &[u8]) -> Vec<u8> {
        let mut other = old.to_vec();
        other.iter_mut().take(1).for_each(|byte| *byte ^= 1);
        match self {
            Change::Return => vec![0x0B],
            Change::Impassable => vec![0x00],
            Change::OtherByte => other,
        }
    }
}

impl fmt::Display for Change {
    fn fmt(&self, f: &mut fmt::Formatter<'_>) -> fmt::Result {
        f.write_str(match self {
            Change::Return => "as a return",
            Change::Impassable => "as an operator that is none",
            Change::OtherByte => "with its first byte changed",
        })
    }
}

impl Listed {
    pub fn of(font: &Font, subroutine: Subroutine, profile: Profile) -> Result<Self, String> {
        let Subroutine { list, number } = subroutine;
        let (bytes, count) = list.of(font)?;
        if number >= count {
            return Err(format!("there is no {subroutine}; its list has {count}"));
        }
        let (mut users, mut refused) = (Vec::new(), Vec::new());
        let mut run = Run::new();
        for served in list.serves(font, bytes) {
            let (glyph, charstring, lists) = served?;
            run.flatten(charstring, lists, profile);
            match run.answer {
                Ok(_) if run.entered(subroutine) => users.push(glyph),
                Ok(_) => {}
                Err(_) => refused.push(glyph),
            }
        }
        Ok(Listed {
            subroutine,
            glyphs: font.charstrings.count,
            users,
            refused,
        })
    }

    /// Changes the subroutine, and flattens each glyph that its list serves by the old list and by the new. One that does not
    /// use it must give the same; and one that does, once no run passes it, must not.
    pub fn check(&self, font: &Font, by: Change, profile: Profile) -> Result<Checked, String> {
        let Subroutine { list, number } = self.subroutine;
        let (bytes, _) = list.of(font)?;
        let new_bytes = with_body(bytes, number, &by.of(entry(bytes, number)?))?;
        let (mut old, mut new) = (Run::new(), Run::new());
        let (mut same, mut changed) = (0, 0);
        for served in list.serves(font, bytes) {
            let (glyph, charstring, lists) = served?;
            old.flatten(charstring, lists, profile);
            if old.answer.is_err() {
                continue;
            }
            new.flatten(charstring, list.put(&new_bytes, lists), profile);
            let used = self.users.binary_search(&glyph).is_ok();
            match (used, new == old) {
                (false, true) => same += 1,
                (false, false) => return Err(self.wrong(by, glyph, "is not listed and changes")),
                (true, true) if by == Change::Impassable => {
                    return Err(self.wrong(by, glyph, "is listed and does not use it"));
                }
                (true, equal) => changed += u32::from(!equal),
            }
        }
        Ok(Checked { by, same, changed })
    }

    fn wrong(&self, by: Change, glyph: u32, what: &str) -> String {
        format!("{} {by}: glyph {glyph} {what}", self.subroutine)
    }
}

/// What came of a change.
#[derive(Debug, PartialEq)]
pub struct Checked {
    pub by: Change,
    /// How many glyphs do not use it, and give the same.
    pub same: u32,
    /// How many use it, and give something else.
    pub changed: u32,
}

impl fmt::Display for Checked {
    fn fmt(&self, f: &mut fmt::Formatter<'_>) -> fmt::Result {
        let Checked { by, same, changed } = self;
        write!(f, "{by}: {changed} of these change, {same} others do not")
    }
}

/// A glyph that a list serves: its number, its charstring, and its global and local list.
type Served<'a> = (u32, &'a [u8], [&'a [u8]; 2]);

impl List {
    /// The glyphs whose run can enter this list: all, or those of a local list, by whichever Font DICT.
    fn serves<'f, 'a>(
        self,
        font: &'f Font<'a>,
        bytes: &'f [u8],
    ) -> impl Iterator<Item = Result<Served<'a>, String>> + 'f {
        let glyphs = (0..font.charstrings.count).map(move |glyph| {
            let locals = font.private_of(glyph)?.locals;
            let charstring = entry(font.charstrings.bytes, glyph)?;
            Ok((glyph, charstring, [font.globals, locals]))
        });
        glyphs.filter(move |served| match (self, served) {
            (List::Local(_), Ok((_, _, [_, locals]))) => ptr::eq(*locals, bytes),
            _ => true,
        })
    }

    /// Both lists, with this one in the place of its own.
    fn put<'a>(self, list: &'a [u8], [globals, locals]: [&'a [u8]; 2]) -> [&'a [u8]; 2] {
        match self {
            List::Global => [list, locals],
            List::Local(_) => [globals, list],
        }
    }
}

fn entry(list: &[u8], number: u32) -> Result<&[u8], String> {
    let place = read_entry(list, number);
    let place = place.map_err(|refusal| format!("entry {number}: {refusal}"))?;
    Ok(&list[place])
}

/// The list with another body in this entry's place.
fn with_body(list: &[u8], number: u32, body: &[u8]) -> Result<Vec<u8>, String> {
    let count = check_list(list).map_err(|refused| refused.to_string())?;
    let bodies = (0..count).map(|i| match i == number {
        true => Ok(body),
        false => entry(list, i),
    });
    let bodies: Vec<&[u8]> = bodies.collect::<Result<_, _>>()?;
    let lengths: Vec<u32> = bodies.iter().map(|body| body.len() as u32).collect();
    let mut out = vec![0; 7 + 4 * bodies.len() + lengths.iter().sum::<u32>() as usize];
    let length = write_index(&lengths, &bodies.concat(), &mut out);
    out.truncate(length.map_err(|refused| refused.to_string())?);
    Ok(out)
}

/// The run of a glyph, and the bytes that are lent to it: the room, and the rows of the global and of the local list.
struct Run {
    answer: Result<Flat, Refused>,
    out: Vec<u8>,
    rows: [Vec<u8>; 2],
}

impl Run {
    fn new() -> Self {
        Run {
            // no rows are lent yet
            answer: Err(Refusal::RowTooShort.into()),
            out: vec![0; ROOM],
            rows: Default::default(),
        }
    }

    fn flatten(&mut self, charstring: &[u8], lists: [&[u8]; 2], profile: Profile) {
        for (row, list) in self.rows.iter_mut().zip(lists) {
            let count = read_index(list).map_or(0, |index| index.count);
            row.clear();
            row.resize(row_size(count), 0);
        }
        let ([globals, locals], [globals_row, locals_row]) = (lists, &mut self.rows);
        self.answer = flatten_marked(
            charstring,
            globals,
            locals,
            profile,
            BUDGET,
            &mut self.out,
            globals_row,
            locals_row,
        );
    }

    fn entered(&self, subroutine: Subroutine) -> bool {
        let row = match subroutine.list {
            List::Global => &self.rows[0],
            List::Local(_) => &self.rows[1],
        };
        Row::new(row).contains(subroutine.number)
    }

    fn flat(&self) -> &[u8] {
        &self.out[..self.answer.map_or(0, |flat| flat.length)]
    }
}

impl PartialEq for Run {
    fn eq(&self, other: &Self) -> bool {
        (self.answer, self.flat(), &self.rows) == (other.answer, other.flat(), &other.rows)
    }
}
