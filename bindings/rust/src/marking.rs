//! Flattening that tells which entries of its two lists it entered.

use crate::ffi;
use crate::flattening::{at_hand, flat, Flat, FlatVec};
use crate::index::read_index;
use crate::refusal::Refused;
use crate::Profile;

/// How many bytes the row of a list with so many entries needs: a bit for each.
///
/// ```
/// use ighzamrel::row_size;
/// assert_eq!([0, 1, 8, 9, 65_535].map(row_size), [0, 1, 1, 2, 8_192]);
/// ```
pub const fn row_size(count: u32) -> usize {
    (count as usize).div_ceil(8)
}

/// A row that [`flatten_marked`] has written, to be read: the set of a list's entries that are marked in it.
///
/// Entry i is at bit i mod 8, from the low end, of byte i / 8.
#[derive(Clone, Copy, Debug, PartialEq, Eq)]
pub struct Row<'a>(&'a [u8]);

impl<'a> Row<'a> {
    /// The row in these bytes. Of a longer row that was lent, they are the first [`row_size`] ones; what is behind them
    /// is no part of the answer.
    ///
    /// ```
    /// use ighzamrel::{row_size, Row};
    /// let lent = [0x01, 0xFF];
    /// assert!(Row::new(&lent[..row_size(1)]).iter().eq([0]));
    /// ```
    pub const fn new(bytes: &'a [u8]) -> Self {
        Row(bytes)
    }

    /// Whether the entry of this number is marked; one that the row has no bit for is not.
    ///
    /// ```
    /// use ighzamrel::Row;
    /// let row = Row::new(&[0x01, 0x02]);
    /// assert_eq!([0, 1, 8, 9, 16].map(|entry| row.contains(entry)), [true, false, false, true, false]);
    /// ```
    pub fn contains(&self, entry: u32) -> bool {
        let byte = self.0.get(entry as usize / 8);
        byte.is_some_and(|byte| byte >> (entry % 8) & 1 == 1)
    }

    /// The numbers of the marked entries, from the lowest.
    ///
    /// ```
    /// use ighzamrel::Row;
    /// assert!(Row::new(&[0x81, 0x00, 0x02]).iter().eq([0, 7, 17]));
    /// ```
    pub fn iter(&self) -> impl Iterator<Item = u32> + 'a {
        let bytes = (0..).step_by(8).zip(self.0);
        bytes.flat_map(|(first, byte)| {
            (0..8)
                .filter(move |bit| byte >> bit & 1 == 1)
                .map(move |bit| first + bit)
        })
    }
}

/// An accepted charstring with its flat string and the entries that its run entered.
#[derive(Clone, Debug, PartialEq, Eq)]
pub struct MarkedVec {
    /// What [`flatten_to_vec`](crate::flatten_to_vec) gives.
    pub flat: FlatVec,
    /// The row of the global list, just as long as its entries need.
    pub globals_row: Vec<u8>,
    /// The row of the local list, just as long as its entries need.
    pub locals_row: Vec<u8>,
}

impl MarkedVec {
    /// The global subroutines that the charstring uses.
    ///
    /// ```
    /// use ighzamrel::{flatten_marked_to_vec, Profile, EMPTY_INDEX};
    /// // -107 callgsubr endchar: a call of entry 0 of the global list, which is return
    /// let (charstring, globals) = ([0x20, 0x1D, 0x0E], [0x00, 0x01, 0x01, 0x01, 0x02, 0x0B]);
    /// let marked = flatten_marked_to_vec(&charstring, &globals, EMPTY_INDEX, Profile::Plain, 100, 64)?;
    /// assert!(marked.globals().contains(0));
    /// # Ok::<(), ighzamrel::Refused>(())
    /// ```
    pub fn globals(&self) -> Row<'_> {
        Row::new(&self.globals_row)
    }

    /// The local subroutines that the charstring uses.
    ///
    /// ```
    /// use ighzamrel::{flatten_marked_to_vec, Profile, EMPTY_INDEX};
    /// // -107 callsubr endchar: a call of entry 0 of the local list, which is return, as is entry 1
    /// let (charstring, locals) = ([0x20, 0x0A, 0x0E], [0x00, 0x02, 0x01, 0x01, 0x02, 0x03, 0x0B, 0x0B]);
    /// let marked = flatten_marked_to_vec(&charstring, EMPTY_INDEX, &locals, Profile::Plain, 100, 64)?;
    /// assert!(marked.locals().iter().eq([0]));
    /// # Ok::<(), ighzamrel::Refused>(())
    /// ```
    pub fn locals(&self) -> Row<'_> {
        Row::new(&self.locals_row)
    }
}

/// Flattens as [`flatten`](crate::flatten) does, and marks each entry of the two lists that the run entered, through every
/// call, in the row of that list; [`Row`] reads it.
///
/// The row of a list needs [`row_size`] bytes for its entries. Acceptance writes all of these, each bit, so a row need not
/// be cleared before; bytes behind them stay. A refusal leaves both rows as they were, whatever was entered before it came.
///
/// Refused as [`flatten`](crate::flatten) is; and, once both lists are well formed, with
/// [`Refusal::RowTooShort`](crate::Refusal::RowTooShort) where a row is shorter than its list needs.
///
/// Where the lists are changed, but stay well formed with the same counts, and no marked entry has changed, the same call
/// gives the same answer, bytes and rows. So a change of one subroutine asks again for the glyphs that have it marked, and
/// for those that were refused, of which no row is told; and for no other:
///
/// ```
/// use ighzamrel::{flatten_marked, row_size, Profile, Row, EMPTY_INDEX};
/// // -106 callsubr endchar: a call of entry 1 of the local list, whose three entries are 1 hmoveto, 2 hmoveto, 3 hmoveto
/// let charstring = [0x21, 0x0A, 0x0E];
/// let mut locals = [0x00, 0x03, 0x01, 0x01, 0x03, 0x05, 0x07, 0x8C, 0x16, 0x8D, 0x16, 0x8E, 0x16];
/// let flatten = |locals: &[u8]| {
///     let (mut out, mut row) = ([0; 8], [0; row_size(3)]);
///     let flat = flatten_marked(&charstring, EMPTY_INDEX, locals, Profile::Plain, 100, &mut out, &mut [], &mut row)?;
///     Ok::<_, ighzamrel::Refused>((out[..flat.length].to_vec(), row))
/// };
///
/// let (flat, row) = flatten(&locals)?;
/// assert_eq!(flat, [0x8D, 0x16, 0x0E]);
/// assert!(Row::new(&row).iter().eq([1]));
///
/// // entry 2 is changed, to 4 hmoveto: it is not marked
/// locals[11] = 0x8F;
/// assert_eq!(flatten(&locals)?, (flat, row));
/// # Ok::<(), ighzamrel::Refused>(())
/// ```
// the parameters are the C function's, in its order
#[allow(clippy::too_many_arguments)]
pub fn flatten_marked(
    charstring: &[u8],
    globals: &[u8],
    locals: &[u8],
    profile: Profile,
    budget: u32,
    out: &mut [u8],
    globals_row: &mut [u8],
    locals_row: &mut [u8],
) -> Result<Flat, Refused> {
    let mut places = ffi::Places::default();
    let lent = [charstring, globals, locals];
    let rows = [globals_row, locals_row];
    let answer = ffi::flatten_marked_to(lent, profile.number(), budget, out, rows, &mut places);
    flat(answer, &places)
}

/// The flat string of a charstring, in bytes of its own, where it has at most `room`, and both rows.
///
/// It answers what [`flatten_marked`] answers with so much room and with rows that are long enough, so
/// [`Refusal::RowTooShort`](crate::Refusal::RowTooShort) never comes. The charstring is run once or twice, as by
/// [`flatten_to_vec`](crate::flatten_to_vec).
///
/// ```
/// use ighzamrel::{flatten_marked_to_vec, Profile, EMPTY_INDEX};
/// // -107 callsubr endchar: a call of entry 0 of the local list, which is 1 2 rmoveto return
/// let charstring = [0x20, 0x0A, 0x0E];
/// let locals = [0x00, 0x01, 0x01, 0x01, 0x05, 0x8C, 0x8D, 0x15, 0x0B];
/// let marked = flatten_marked_to_vec(&charstring, EMPTY_INDEX, &locals, Profile::Plain, 100_000, 65_536)?;
/// assert_eq!(marked.flat.bytes, [0x8C, 0x8D, 0x15, 0x0E]);
/// assert_eq!((marked.globals_row, marked.locals_row), (vec![], vec![0x01]));
/// # Ok::<(), ighzamrel::Refused>(())
/// ```
pub fn flatten_marked_to_vec(
    charstring: &[u8],
    globals: &[u8],
    locals: &[u8],
    profile: Profile,
    budget: u32,
    room: usize,
) -> Result<MarkedVec, Refused> {
    let (mut globals_row, mut locals_row) = (cleared_row(globals), cleared_row(locals));
    let run = |out: &mut [u8]| {
        let flat = flatten_marked(
            charstring,
            globals,
            locals,
            profile,
            budget,
            out,
            &mut globals_row,
            &mut locals_row,
        )?;
        Ok((flat.length, (flat.tokens, flat.width)))
    };
    let (bytes, (tokens, width)) = at_hand(room, run)?;
    let flat = FlatVec {
        bytes,
        tokens,
        width,
    };
    Ok(MarkedVec {
        flat,
        globals_row,
        locals_row,
    })
}

/// A row for a list. One that cannot be read has no entries, and is refused before any row is looked at.
fn cleared_row(list: &[u8]) -> Vec<u8> {
    let count = read_index(list).map_or(0, |index| index.count);
    vec![0; row_size(count)]
}
