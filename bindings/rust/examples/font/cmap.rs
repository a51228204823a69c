//! Which glyph a font has for a character, by a subtable of its cmap table that goes by Unicode: one of format 12, else one of
//! format 4.

use super::tables::{number, part, table_of};

/// Such a subtable, and what is behind it.
pub enum Cmap<'a> {
    /// Format 4: characters of 16 bits, in segments.
    Segments(&'a [u8]),
    /// Format 12: any characters, in groups.
    Groups(&'a [u8]),
}

const CUT: &str = "its table `cmap` is cut off";

impl<'a> Cmap<'a> {
    /// Of the font of this number in a file.
    pub fn read(file: &'a [u8], number: usize) -> Result<Self, String> {
        let table = table_of(file, number, b"cmap")?;
        Cmap::of(table.ok_or("it has no table `cmap`")?)
    }

    pub fn of(table: &'a [u8]) -> Result<Self, String> {
        let mut segments = None;
        for i in 0..number(table, 2, 2).ok_or(CUT)? {
            let record = part(table, 4 + 8 * i, 8).ok_or(CUT)?;
            if !by_unicode(record) {
                continue;
            }
            let at = number(record, 4, 4).ok_or(CUT)?;
            let subtable = table.get(at..).ok_or(CUT)?;
            match number(subtable, 0, 2).ok_or(CUT)? {
                12 => return Ok(Cmap::Groups(subtable)),
                4 => segments = Some(subtable),
                _ => {}
            }
        }
        let none = "its table `cmap` has no characters of Unicode in format 4 or 12";
        segments.map(Cmap::Segments).ok_or(none.into())
    }

    /// The glyph of a character; None where the font has none, for which it shows glyph 0.
    pub fn glyph(&self, character: char) -> Result<Option<u32>, String> {
        let code = u32::from(character) as usize;
        let glyph = match self {
            Cmap::Segments(subtable) => in_segments(subtable, code),
            Cmap::Groups(subtable) => in_groups(subtable, code),
        };
        // one that is no number of 32 bits is past every font
        let glyph = u32::try_from(glyph.ok_or(CUT)?).unwrap_or(u32::MAX);
        Ok(Some(glyph).filter(|&glyph| glyph > 0))
    }
}

/// Whether a record of the table is one of characters of Unicode: by its platform, 0 or Windows's 3, and its encoding.
fn by_unicode(record: &[u8]) -> bool {
    match record[..4] {
        // encoding 5 has variations of characters
        [0, 0, 0, encoding] => encoding != 5,
        [0, 3, 0, encoding] => encoding == 1 || encoding == 10,
        _ => false,
    }
}

/// The glyph by a subtable of format 4, 0 for none; None where that is cut off. Its rows have the end, the start, the delta and
/// the offset of each segment, and a row takes `size` bytes; behind the first row there are two bytes of padding.
fn in_segments(subtable: &[u8], code: usize) -> Option<usize> {
    let size = number(subtable, 6, 2)?;
    for at in (0..size).step_by(2) {
        if number(subtable, 14 + at, 2)? >= code {
            return in_segment(subtable, size, at, code);
        }
    }
    Some(0)
}

/// The same by the segment `at` these bytes of each row.
fn in_segment(subtable: &[u8], size: usize, at: usize, code: usize) -> Option<usize> {
    let start = number(subtable, 16 + size + at, 2)?;
    let delta = number(subtable, 16 + 2 * size + at, 2)?;
    let place = 16 + 3 * size + at;
    let offset = number(subtable, place, 2)?;
    if code < start {
        return Some(0);
    }
    let glyph = match offset {
        0 => code,
        // counted from the place of the offset itself
        _ => number(subtable, place + offset + 2 * (code - start), 2)?,
    };
    match (offset, glyph) {
        (1.., 0) => Some(0),
        _ => Some((glyph + delta) % 65_536),
    }
}

/// The glyph by a subtable of format 12, 0 for none; None where that is cut off. A group has its first and its last character,
/// and the glyph of the first.
fn in_groups(subtable: &[u8], code: usize) -> Option<usize> {
    for i in 0..number(subtable, 12, 4)? {
        let group = part(subtable, 16 + 12 * i, 12)?;
        let (first, last) = (number(group, 0, 4)?, number(group, 4, 4)?);
        if (first..=last).contains(&code) {
            return Some(number(group, 8, 4)?.saturating_add(code - first));
        }
    }
    Some(0)
}
