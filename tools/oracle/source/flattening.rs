//! Both subroutine lists as the Rust keeps them, and its flattening by them.

use subsetter::cff::charstring::{CharString, Decompiler};
use subsetter::cff::index::{create_index, parse_index, Index};
use subsetter::cff::subroutines::SubroutineHandler;
use subsetter::read::Reader;
use subsetter::Error;

pub struct Lists<'a> {
    pub globals: Vec<CharString<'a>>,
    pub locals: Vec<CharString<'a>>,
}

impl<'a> Lists<'a> {
    /// The lists have to be well formed.
    pub fn read(globals: &'a [u8], locals: &'a [u8]) -> Self {
        Lists { globals: entries(globals), locals: entries(locals) }
    }

    /// The flat string. The run has to end.
    pub fn flattened(&self, charstring: &[u8]) -> Result<Vec<u8>, Error> {
        let handlers =
            (SubroutineHandler::new(&self.globals), SubroutineHandler::new(&self.locals));
        let program = Decompiler::new(handlers.0, handlers.1).decompile(charstring)?;
        Ok(program.compile())
    }

    /// The INDEX of the flat strings of all glyphs in order, as `glyphs` has it.
    pub fn font(&self, charstrings: &[u8]) -> Result<Vec<u8>, Error> {
        self.glyphs(charstrings, 0..index(charstrings).len())
    }

    /// The INDEX of the flat strings of the glyphs with these numbers; the first error decides. The glyphs have to be a well-formed
    /// list that has the numbers up to that error, and the runs up to it have to end.
    pub fn glyphs(
        &self,
        charstrings: &[u8],
        numbers: impl Iterator<Item = u32>,
    ) -> Result<Vec<u8>, Error> {
        let index = index(charstrings);
        let flat = numbers.map(|number| self.flattened(entry(&index, number)));
        Ok(create_index(flat.collect::<Result<_, _>>()?)?.data)
    }
}

fn index(bytes: &[u8]) -> Index<'_> {
    parse_index::<u16>(&mut Reader::new(bytes)).expect("the list is well formed")
}

fn entry<'a>(index: &Index<'a>, number: u32) -> CharString<'a> {
    index.get(number).expect("the list is well formed, and has that entry")
}

fn entries(bytes: &[u8]) -> Vec<CharString<'_>> {
    let index = index(bytes);
    (0..index.len()).map(|number| entry(&index, number)).collect()
}
