//! What flattening and widths need of a font file: its CFF table with the glyphs, the lists and the Private DICTs, and the
//! advance widths of its hmtx table. The directory and the tables are read just enough for that.

use ighzamrel::{read_dict_integer, read_entry, read_index, EMPTY_INDEX};

/// What flattening needs of a CFF table, and the advance widths by the other tables, where there are any.
pub struct Font<'a> {
    pub charstrings: List<'a>,
    pub globals: &'a [u8],
    pub advances: Option<Advances<'a>>,
    /// One, or one for each Font DICT.
    pub privates: Vec<Private<'a>>,
    /// The FDSelect of a font with several Private DICTs, and what is behind it.
    select: Option<&'a [u8]>,
}

/// What a Private DICT has for its glyphs.
#[derive(Clone, Copy)]
pub struct Private<'a> {
    pub locals: &'a [u8],
    /// The advance width of a glyph that says none.
    pub default_width: f64,
    /// What a glyph's own width is added to.
    pub nominal_width: f64,
}

impl<'a> Font<'a> {
    /// The font of this number in a file; only a collection has more than the one of number 0.
    pub fn read(file: &'a [u8], number: usize) -> Result<Self, String> {
        let face = face(file, number)?;
        let Some(table) = table(file, face, b"CFF ")? else {
            return Err("it has no table `CFF `; its outlines are of another kind".into());
        };
        let advances = Advances::read(file, face)?;
        Font::of(table, advances)
    }

    fn of(table: &'a [u8], advances: Option<Advances<'a>>) -> Result<Self, String> {
        let header = number(table, 2, 1).ok_or("its CFF header is cut off")?;
        let names = List::at(table, header, "Name INDEX")?;
        let tops = List::at(table, names.end, "Top DICT INDEX")?;
        let strings = List::at(table, tops.end, "String INDEX")?;
        let globals = List::at(table, strings.end, "Global Subr INDEX")?;
        let top = tops.entry(0, "Top DICT")?;

        let place = |operator: &[u8]| whole(operands(top, operator)?.first());
        let charstrings = place(&[17]).ok_or("its Top DICT has no CharStrings")?;
        let dicts = match place(&[12, 36]) {
            Some(at) => List::at(table, at, "FDArray")?.entries("Font DICT")?,
            None => vec![top],
        };
        let privates = dicts.into_iter().map(|dict| Private::of(table, dict));
        let select = place(&[12, 37]).map(|at| table.get(at..).ok_or("its FDSelect is not there"));
        Ok(Font {
            charstrings: List::at(table, charstrings, "CharStrings INDEX")?,
            globals: globals.bytes,
            advances,
            privates: privates.collect::<Result<_, _>>()?,
            select: select.transpose()?,
        })
    }

    /// The Private DICT of all glyphs, where they do not choose one.
    pub fn only_private(&self) -> Option<Private<'a>> {
        match self.select {
            Some(_) => None,
            None => self.privates.first().copied(),
        }
    }

    /// The number of a glyph's Font DICT, where the glyphs choose one.
    pub fn dict_of(&self, glyph: u32) -> Option<usize> {
        selected(self.select?, glyph as usize)
    }

    pub fn private_of(&self, glyph: u32) -> Result<Private<'a>, String> {
        let dict = match self.select {
            Some(_) => self.dict_of(glyph),
            None => Some(0),
        };
        let private = dict.and_then(|dict| self.privates.get(dict));
        private
            .copied()
            .ok_or(format!("glyph {glyph} has no Font DICT"))
    }
}

impl<'a> Private<'a> {
    /// The Private DICT that a DICT leads to.
    fn of(table: &'a [u8], dict: &[u8]) -> Result<Self, String> {
        let place = operands(dict, &[18]).unwrap_or_default();
        let (private, at) = match whole(place.first()).zip(whole(place.get(1))) {
            Some((size, at)) => (part(table, at, size), at),
            None => (Some(&[][..]), 0),
        };
        let private = private.ok_or("its Private DICT is cut off")?;
        let value = |operator: u8| operands(private, &[operator])?.first().copied();
        let locals = match whole(value(19).as_ref()) {
            Some(subrs) => List::at(table, at + subrs, "Local Subr INDEX")?.bytes,
            None => EMPTY_INDEX,
        };
        Ok(Private {
            locals,
            default_width: value(20).unwrap_or(0.0),
            nominal_width: value(21).unwrap_or(0.0),
        })
    }
}

/// The Font DICT of a glyph, by an FDSelect of format 0 or 3.
fn selected(select: &[u8], glyph: usize) -> Option<usize> {
    match number(select, 0, 1)? {
        0 => number(select, 1 + glyph, 1),
        3 => {
            let starts =
                |i: &usize| number(select, 3 + 3 * i, 2).is_some_and(|first| first <= glyph);
            let range = (0..number(select, 1, 2)?).rev().find(starts)?;
            number(select, 3 + 3 * range + 2, 1)
        }
        _ => None,
    }
}

/// The operands of an operator in a DICT.
fn operands(dict: &[u8], operator: &[u8]) -> Option<Vec<f64>> {
    let mut operands = Vec::new();
    let mut rest = dict;
    while let Some(&first) = rest.first() {
        let width = match first {
            0..=21 if rest.starts_with(operator) => return Some(operands),
            0..=21 => {
                operands.clear();
                1 + usize::from(first == 12)
            }
            30 => {
                let width = 2 + rest[1..].iter().position(|pair| pair & 0x0F == 0x0F)?;
                operands.push(real(&rest[1..width]));
                width
            }
            _ => {
                let read = read_dict_integer(rest).ok()?;
                operands.push(read.number.into());
                read.width
            }
        };
        rest = rest.get(width..)?;
    }
    None
}

/// The real in these half-bytes; one that is none is no number, which equals nothing.
fn real(pairs: &[u8]) -> f64 {
    let half_bytes = pairs.iter().flat_map(|pair| [pair >> 4, pair & 0x0F]);
    let signs = half_bytes.map_while(|half| match half {
        0..=9 => Some(["0", "1", "2", "3", "4", "5", "6", "7", "8", "9"][usize::from(half)]),
        10 => Some("."),
        11 => Some("E"),
        12 => Some("E-"),
        14 => Some("-"),
        _ => None,
    });
    signs.collect::<String>().parse().unwrap_or(f64::NAN)
}

/// An operand that is a place or a length.
fn whole(operand: Option<&f64>) -> Option<usize> {
    let operand = *operand?;
    let fits = (0.0..=f64::from(i32::MAX)).contains(&operand) && operand.fract() == 0.0;
    fits.then_some(operand as usize)
}

/// The advance widths of a font's hmtx table, as many as its hhea table says; the last one is that of all glyphs behind it too.
pub struct Advances<'a> {
    hmtx: &'a [u8],
    count: usize,
}

impl<'a> Advances<'a> {
    fn read(file: &'a [u8], face: usize) -> Result<Option<Self>, String> {
        let (hhea, hmtx) = (table(file, face, b"hhea")?, table(file, face, b"hmtx")?);
        let Some((hhea, hmtx)) = hhea.zip(hmtx) else {
            return Ok(None);
        };
        let count = number(hhea, 34, 2).ok_or("its table `hhea` is cut off")?;
        Ok(Some(Advances { hmtx, count }))
    }

    pub fn of(&self, glyph: u32) -> Option<usize> {
        let last = self.count.checked_sub(1)?;
        number(self.hmtx, 4 * last.min(glyph as usize), 2)
    }
}

const CUT: &str = "its table directory is cut off";

/// Where a font of a file starts.
fn face(file: &[u8], which: usize) -> Result<usize, String> {
    let face = match file.get(..4) {
        Some(b"ttcf") if which >= number(file, 8, 4).ok_or(CUT)? => {
            return Err(format!("it has no font {which}"));
        }
        Some(b"ttcf") => number(file, 12 + 4 * which, 4).ok_or(CUT)?,
        _ if which > 0 => return Err("it is no collection".into()),
        _ => 0,
    };
    match part(file, face, 4) {
        Some(b"OTTO" | b"true" | [0, 1, 0, 0]) => Ok(face),
        _ => Err("it does not start as an OpenType file does".into()),
    }
}

/// A table of the font of this number in a file, if it has one of that name.
pub fn table_of<'a>(
    file: &'a [u8],
    number: usize,
    tag: &[u8; 4],
) -> Result<Option<&'a [u8]>, String> {
    table(file, face(file, number)?, tag)
}

/// A table of the font that starts there, if it has one of that name.
fn table<'a>(file: &'a [u8], face: usize, tag: &[u8; 4]) -> Result<Option<&'a [u8]>, String> {
    for i in 0..number(file, face + 4, 2).ok_or(CUT)? {
        let record = part(file, face + 12 + 16 * i, 16).ok_or(CUT)?;
        if record.starts_with(tag) {
            let place = number(record, 8, 4).zip(number(record, 12, 4));
            let table = place.and_then(|(at, length)| part(file, at, length));
            let name = String::from_utf8_lossy(tag);
            return match table {
                Some(table) => Ok(Some(table)),
                None => Err(format!("its table `{name}` is cut off")),
            };
        }
    }
    Ok(None)
}

/// An INDEX of a table.
#[derive(Clone, Copy)]
pub struct List<'a> {
    pub bytes: &'a [u8],
    pub count: u32,
    /// Where in the table it ends.
    end: usize,
}

impl<'a> List<'a> {
    fn at(table: &'a [u8], at: usize, name: &str) -> Result<Self, String> {
        let bytes = table.get(at..).ok_or(format!("its {name} is not there"))?;
        let index = read_index(bytes).map_err(|refusal| format!("its {name}: {refusal}"))?;
        let (bytes, end) = (&bytes[..index.taken], at + index.taken);
        Ok(List {
            bytes,
            count: index.count,
            end,
        })
    }

    fn entry(&self, number: u32, name: &str) -> Result<&'a [u8], String> {
        let entry = read_entry(self.bytes, number);
        entry
            .map(|place| &self.bytes[place])
            .map_err(|refusal| format!("its {name}: {refusal}"))
    }

    fn entries(&self, name: &str) -> Result<Vec<&'a [u8]>, String> {
        (0..self.count)
            .map(|number| self.entry(number, name))
            .collect()
    }
}

pub fn part(bytes: &[u8], at: usize, length: usize) -> Option<&[u8]> {
    bytes.get(at..at.checked_add(length)?)
}

/// A big-endian number.
pub fn number(bytes: &[u8], at: usize, width: usize) -> Option<usize> {
    let bytes = part(bytes, at, width)?;
    Some(bytes.iter().fold(0, |n, &b| n << 8 | usize::from(b)))
}
