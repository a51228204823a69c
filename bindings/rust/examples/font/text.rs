//! What a document embeds of a font for a text: the glyphs of its characters, flattened.

use std::collections::BTreeSet;
use std::fmt;
use std::time::{Duration, Instant};

use ighzamrel::{flatten_glyphs_to_vec, Profile, Refused};

use super::cmap::Cmap;
use super::tables::Font;
use super::{BUDGET, FONT_ROOM};

/// What is embedded.
#[derive(Debug)]
pub struct Embedding {
    /// How many characters the text has.
    pub characters: usize,
    /// The glyphs, by their local lists.
    pub parts: Vec<Part>,
    /// The characters that the font has not, each once.
    pub missing: Vec<char>,
}

/// The glyphs that one local list serves.
#[derive(Debug)]
pub struct Part {
    /// The Font DICT that has the list, where the glyphs of the font choose one.
    pub dict: Option<usize>,
    pub glyphs: Vec<Glyph>,
    /// The INDEX of their flat strings.
    pub flat: Result<Vec<u8>, Refused>,
    pub time: Duration,
}

/// A glyph, and the first character that it is for; glyph 0 is there for none.
#[derive(Clone, Copy, Debug, PartialEq)]
pub struct Glyph {
    pub number: u32,
    pub character: Option<char>,
}

impl Embedding {
    /// Of the font of this number in these bytes.
    pub fn of(file: &[u8], number: usize, profile: Profile, text: &str) -> Result<Self, String> {
        let font = Font::read(file, number)?;
        let (glyphs, missing) = glyphs_of(&Cmap::read(file, number)?, text)?;
        let parts = by_list(&font, &glyphs).into_iter();
        let parts = parts.map(|(dict, glyphs)| Part::of(&font, dict, glyphs, profile));
        Ok(Embedding {
            characters: text.chars().count(),
            parts: parts.collect::<Result<_, _>>()?,
            missing,
        })
    }
}

/// The glyphs of a text, each once and in its order, and the characters that the font has not. Glyph 0, .notdef, is the first
/// of them, for every font must have it.
fn glyphs_of(cmap: &Cmap, text: &str) -> Result<(Vec<Glyph>, Vec<char>), String> {
    let notdef = Glyph {
        number: 0,
        character: None,
    };
    let (mut glyphs, mut missing) = (vec![notdef], Vec::new());
    let (mut seen, mut taken) = (BTreeSet::new(), BTreeSet::from([0]));
    for character in text.chars().filter(|&character| seen.insert(character)) {
        match cmap.glyph(character)? {
            Some(number) if taken.insert(number) => glyphs.push(Glyph {
                number,
                character: Some(character),
            }),
            Some(_) => {}
            None => missing.push(character),
        }
    }
    Ok((glyphs, missing))
}

/// The glyphs of each Font DICT, in their order; all of them, where they do not choose one.
fn by_list(font: &Font, glyphs: &[Glyph]) -> Vec<(Option<usize>, Vec<Glyph>)> {
    let mut parts: Vec<(Option<usize>, Vec<Glyph>)> = Vec::new();
    for &glyph in glyphs {
        let dict = font.dict_of(glyph.number);
        match parts.iter_mut().find(|part| part.0 == dict) {
            Some((_, others)) => others.push(glyph),
            None => parts.push((dict, vec![glyph])),
        }
    }
    parts
}

impl Part {
    fn of(
        font: &Font,
        dict: Option<usize>,
        glyphs: Vec<Glyph>,
        profile: Profile,
    ) -> Result<Self, String> {
        let locals = font.private_of(glyphs[0].number)?.locals;
        let numbers: Vec<u32> = glyphs.iter().map(|glyph| glyph.number).collect();
        let (charstrings, globals) = (font.charstrings.bytes, font.globals);
        let start = Instant::now();
        let flat = flatten_glyphs_to_vec(
            charstrings,
            &numbers,
            globals,
            locals,
            profile,
            BUDGET,
            FONT_ROOM,
        );
        Ok(Part {
            dict,
            glyphs,
            flat,
            time: start.elapsed(),
        })
    }
}

impl fmt::Display for Embedding {
    fn fmt(&self, f: &mut fmt::Formatter<'_>) -> fmt::Result {
        let glyphs: usize = self.parts.iter().map(|part| part.glyphs.len()).sum();
        let characters = self.characters;
        writeln!(
            f,
            "{glyphs} glyphs, .notdef first, for a text of {characters} characters"
        )?;
        self.parts.iter().try_for_each(|part| write!(f, "{part}"))?;
        let mut missing = self.missing.iter();
        missing.try_for_each(|character| writeln!(f, "  the font has not {}", Said(*character)))
    }
}

impl fmt::Display for Part {
    fn fmt(&self, f: &mut fmt::Formatter<'_>) -> fmt::Result {
        write!(f, "  ")?;
        if let Some(dict) = self.dict {
            write!(f, "by Font DICT {dict}: ")?;
        }
        write!(f, "{} to embed: ", self.glyphs.len())?;
        match &self.flat {
            Ok(flat) => writeln!(f, "{} bytes, in {:.1?}", flat.len(), self.time),
            Err(refused) => {
                write!(f, "{refused}")?;
                let place = refused.glyph.map(|place| place as usize);
                match place.and_then(|place| self.glyphs.get(place)) {
                    Some(glyph) => writeln!(f, "; {glyph} is there"),
                    None => writeln!(f),
                }
            }
        }
    }
}

impl fmt::Display for Glyph {
    fn fmt(&self, f: &mut fmt::Formatter<'_>) -> fmt::Result {
        match self.character {
            Some(character) => write!(f, "glyph {}, for {},", self.number, Said(character)),
            None => write!(f, "glyph {}", self.number),
        }
    }
}

/// A character as it is told: `U+0041 A`, and one that is not seen by its number alone.
struct Said(char);

impl fmt::Display for Said {
    fn fmt(&self, f: &mut fmt::Formatter<'_>) -> fmt::Result {
        write!(f, "U+{:04X}", u32::from(self.0))?;
        match self.0 {
            unseen if unseen.is_control() || unseen.is_whitespace() => Ok(()),
            seen => write!(f, " {seen}"),
        }
    }
}
