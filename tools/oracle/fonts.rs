//! The charstrings and subroutine lists of OpenType fonts: the sfnt directory and the CFF table, read just enough, INDEXes and
//! numbers by the rules.

use crate::inputs::case::list;
use crate::rules::index as indexes;
use crate::rules::number::{self as numbers, Operand, Place};
use std::borrow::Cow;
use std::ops::Range;
use std::path::{Path, PathBuf};
use std::{fs, io};

/// Where Debian's packages put OpenType fonts.
const FOLDERS: [&str; 2] = ["/usr/share/fonts", "/usr/share/texmf/fonts/opentype"];

/// What to install where no font was found.
pub const PACKAGES: &str =
    "fonts-lmodern fonts-texgyre fonts-cantarell fonts-stix fonts-linuxlibertine fonts-noto-cjk";

/// A list without entries, for a font without local subroutines.
const NO_LIST: &[u8] = &[0, 0];

/// One CFF table, and where its parts stand in it.
pub struct Font {
    pub name: String,
    table: Vec<u8>,
    globals: Range<usize>,
    charstrings: Range<usize>,
    /// The local list of each Private DICT, where it has one.
    locals: Vec<Option<Range<usize>>>,
    /// Each charstring, and whose local list it goes by.
    glyphs: Vec<(Range<usize>, usize)>,
}

/// A charstring with its lists.
#[derive(Clone, Copy)]
pub struct Glyph<'a> {
    pub charstring: &'a [u8],
    pub globals: &'a [u8],
    pub locals: &'a [u8],
}

impl Font {
    pub fn glyphs(&self) -> impl Iterator<Item = Glyph<'_>> {
        self.glyphs.iter().map(|(charstring, whose)| Glyph {
            charstring: &self.table[charstring.clone()],
            globals: &self.table[self.globals.clone()],
            locals: self.local_list(*whose),
        })
    }

    /// The CharStrings INDEX.
    pub fn charstrings(&self) -> &[u8] {
        &self.table[self.charstrings.clone()]
    }

    /// The INDEX of one glyph in so many, and their lists; one for each local list, where glyphs go by several. All glyphs of one
    /// list stand as the font has them.
    pub fn whole(&self, step: usize) -> Vec<[Cow<'_, [u8]>; 3]> {
        let globals = &self.table[self.globals.clone()];
        let of = |whose: usize| {
            let theirs = |glyph: &&(Range<usize>, usize)| glyph.1 == whose;
            let some = self.glyphs.iter().step_by(step).filter(theirs);
            let some: Vec<&[u8]> = some.map(|glyph| &self.table[glyph.0.clone()]).collect();
            match some.len() {
                all if all == self.glyphs.len() => {
                    Cow::Borrowed(self.charstrings())
                }
                _ => Cow::Owned(list(&some)),
            }
        };
        let lists =
            |whose| [of(whose), Cow::Borrowed(globals), Cow::Borrowed(self.local_list(whose))];
        (0..self.locals.len()).map(lists).collect()
    }

    fn local_list(&self, whose: usize) -> &[u8] {
        self.locals[whose].clone().map_or(NO_LIST, |list| &self.table[list])
    }
}

/// The font files in these folders and below them, in order; in Debian's folders where none is given.
pub fn files(folders: &[PathBuf]) -> Vec<PathBuf> {
    let mut found = Vec::new();
    if folders.is_empty() {
        FOLDERS.iter().for_each(|folder| gather(Path::new(folder), &mut found));
    }
    folders.iter().for_each(|folder| gather(folder, &mut found));
    found.sort();
    found.dedup();
    found
}

fn gather(folder: &Path, found: &mut Vec<PathBuf>) {
    let Ok(entries) = fs::read_dir(folder) else { return };
    for path in entries.flatten().map(|entry| entry.path()) {
        if path.is_dir() {
            gather(&path, found);
        } else if path.extension().is_some_and(|e| ["otf", "otc", "ttc"].iter().any(|k| e == *k)) {
            found.push(path);
        }
    }
}

/// Each CFF table of a file once; none where its glyphs are of another kind.
pub fn read(path: &Path) -> io::Result<Vec<Font>> {
    let bytes = fs::read(path)?;
    let stem = path.file_stem().map_or(String::new(), |stem| stem.to_string_lossy().into_owned());
    let mut tables: Vec<Range<usize>> =
        faces(&bytes).iter().filter_map(|&at| cff_table(&bytes, at)).collect();
    tables.sort_by_key(|table| table.start);
    tables.dedup();
    let several = tables.len() > 1;
    Ok(tables
        .into_iter()
        .enumerate()
        .filter_map(|(i, table)| {
            let name = if several { format!("{stem} {i}") } else { stem.clone() };
            font(name, bytes.get(table)?.to_vec())
        })
        .collect())
}

/// Where each face of a file starts.
fn faces(bytes: &[u8]) -> Vec<usize> {
    if bytes.get(..4) != Some(b"ttcf") {
        return vec![0];
    }
    let count = number(bytes, 8, 4).unwrap_or(0);
    (0..count).map_while(|i| number(bytes, 12 + 4 * i, 4)).collect()
}

fn cff_table(bytes: &[u8], face: usize) -> Option<Range<usize>> {
    let count = number(bytes, face + 4, 2)?;
    let record = (0..count)
        .map(|i| face + 12 + 16 * i)
        .find(|&at| bytes.get(at..at + 4) == Some(b"CFF "))?;
    let start = number(bytes, record + 8, 4)?;
    Some(start..start + number(bytes, record + 12, 4)?)
}

fn font(name: String, table: Vec<u8>) -> Option<Font> {
    let names = Index::at(&table, usize::from(*table.get(2)?))?;
    let tops = Index::at(&table, names.end)?;
    let strings = Index::at(&table, tops.end)?;
    let globals = Index::at(&table, strings.end)?;
    let top = &table[tops.entry(0)?];

    let charstrings = Index::at(&table, operand(top, 17, 0)?)?;
    let privates: Vec<Range<usize>> = match operand(top, ESCAPED | 36, 0) {
        Some(at) => {
            let dicts = Index::at(&table, at)?;
            (0..dicts.count)
                .map(|i| Some(private(&table[dicts.entry(i)?])))
                .collect::<Option<_>>()?
        }
        None => vec![private(top)],
    };
    let selected = operand(top, ESCAPED | 37, 0);
    let glyphs = (0..charstrings.count)
        .map(|i| {
            let whose = match selected {
                Some(at) => select(&table, at, i)?,
                None => 0,
            };
            (whose < privates.len()).then_some((charstrings.entry(i)?, whose))
        })
        .collect::<Option<_>>()?;
    let locals = privates.iter().map(|private| local_list(&table, private)).collect();
    let [globals, charstrings] = [globals, charstrings].map(|index| index.start..index.end);
    Some(Font { name, globals, charstrings, locals, glyphs, table })
}

/// Where a DICT says that its Private DICT is.
fn private(dict: &[u8]) -> Range<usize> {
    match (operand(dict, 18, 0), operand(dict, 18, 1)) {
        (Some(size), Some(start)) => start..start + size,
        _ => 0..0,
    }
}

fn local_list(table: &[u8], private: &Range<usize>) -> Option<Range<usize>> {
    let at = private.start + operand(table.get(private.clone())?, 19, 0)?;
    let list = Index::at(table, at)?;
    Some(list.start..list.end)
}

/// The Font DICT of a glyph, by an FDSelect of format 0 or 3.
fn select(table: &[u8], at: usize, glyph: usize) -> Option<usize> {
    if *table.get(at)? == 0 {
        return number(table, at + 1 + glyph, 1);
    }
    let ranges = number(table, at + 1, 2)?;
    let range = (0..ranges)
        .rev()
        .find(|&i| number(table, at + 3 + 3 * i, 2).is_some_and(|first| first <= glyph))?;
    number(table, at + 3 + 3 * range + 2, 1)
}

/// An operator of two bytes, as `operand` takes it.
const ESCAPED: u16 = 0x0C00;

/// Operand `which` of an operator in a DICT, where it is a whole number that is not negative.
fn operand(dict: &[u8], operator: u16, which: usize) -> Option<usize> {
    let mut operands = Vec::new();
    let mut i = 0;
    while let Some(&b) = dict.get(i) {
        if b > 21 {
            let (number, width) = dict_number(&dict[i..])?;
            operands.push(number);
            i += width;
            continue;
        }
        let found = if b == 12 { ESCAPED | u16::from(*dict.get(i + 1)?) } else { u16::from(b) };
        if found == operator {
            return usize::try_from(*operands.get(which)?).ok();
        }
        operands.clear();
        i += if b == 12 { 2 } else { 1 };
    }
    None
}

/// The number at the start of these bytes, and its width. A real, which no operator that is asked for takes, is -1.
fn dict_number(bytes: &[u8]) -> Option<(i32, usize)> {
    if bytes.first() == Some(&30) {
        return Some((-1, 2 + bytes[1..].iter().position(|b| b & 0x0F == 0x0F)?));
    }
    let (Operand::Integer(n) | Operand::Fixed(n), width) =
        numbers::read(Place::Dict, bytes).ok()?;
    Some((n, width))
}

/// An INDEX of a table.
struct Index<'a> {
    bytes: &'a [u8],
    start: usize,
    count: usize,
    end: usize,
}

impl<'a> Index<'a> {
    fn at(table: &'a [u8], start: usize) -> Option<Self> {
        let bytes = table.get(start..)?;
        let extent = indexes::read(bytes).ok()?;
        Some(Index { bytes, start, count: extent.entries as usize, end: start + extent.taken })
    }

    fn entry(&self, i: usize) -> Option<Range<usize>> {
        let entry = indexes::entry(self.bytes, i as u32).ok()?;
        let from = self.start + entry.place;
        Some(from..from + entry.length)
    }
}

/// A big-endian number.
fn number(bytes: &[u8], at: usize, size: usize) -> Option<usize> {
    let bytes = bytes.get(at..at.checked_add(size)?)?;
    Some(bytes.iter().fold(0, |n, &b| n << 8 | usize::from(b)))
}
