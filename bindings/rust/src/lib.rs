//! Type 2 charstrings of a CFF font made flat: one string without calls for each glyph, by itself, with all others of its
//! font ([`flatten_font`]) or with those that a text needs ([`flatten_glyphs`]), and the numbers and INDEXes that
//! charstrings stand in.
//!
//! This is a thin safe layer over the fourteen functions of Ighzamrel's static library. Each takes any bytes, ends, and
//! either accepts or gives one numbered [`Refusal`]; what each answers is proved, and this layer is tested. They keep no
//! state, and but for those that give a `Vec` allocate nothing; any threads may call at once.
//!
//! ```
//! use ighzamrel::{flatten_to_vec, Profile, Refusal, EMPTY_INDEX};
//!
//! // -107 callsubr endchar: a call of entry 0 of the local list, which is 1 2 rmoveto return
//! let charstring = [0x20, 0x0A, 0x0E];
//! let locals = [0x00, 0x01, 0x01, 0x01, 0x05, 0x8C, 0x8D, 0x15, 0x0B];
//! let (budget, room) = (100_000, 65_536);
//!
//! let flat = flatten_to_vec(&charstring, EMPTY_INDEX, &locals, Profile::Plain, budget, room)?;
//! assert_eq!(flat.bytes, [0x8C, 0x8D, 0x15, 0x0E]);
//! assert_eq!(flat.tokens, 7);
//! assert_eq!(flat.width, None);
//!
//! let refused = flatten_to_vec(&charstring, EMPTY_INDEX, EMPTY_INDEX, Profile::Plain, budget, room).unwrap_err();
//! assert_eq!(refused.refusal, Refusal::NoEntry);
//! assert_eq!(refused.to_string(), "refusal 9: a call names a subroutine that is not there, at token 2");
//! # Ok::<(), ighzamrel::Refused>(())
//! ```
//!
//! [`flatten_marked`] also tells which subroutines a glyph uses, so that only those glyphs are flattened again whose
//! subroutines have changed. [`explain`] tells where a refused glyph is refused: in which subroutine, and through which
//! calls.
//!
//! # Panics
//!
//! No function panics with the archive of its own version. With another one, a refusal that this crate does not know
//! does, and says so; [`flatten_to_vec`], [`flatten_marked_to_vec`], [`flatten_font_to_vec`] and
//! [`flatten_glyphs_to_vec`] abort as any `Vec` does where memory lacks for the bytes that `room` lets them have.
#![deny(missing_docs)]
#![deny(unsafe_code)]

mod explaining;
mod ffi;
mod flattening;
mod font;
mod index;
mod marking;
mod number;
mod refusal;

pub use explaining::{explain, Call, Explanation, List};
pub use flattening::{flatten, flatten_to_vec, Flat, FlatVec};
pub use font::{flatten_font, flatten_font_to_vec, flatten_glyphs, flatten_glyphs_to_vec};
pub use index::{check_list, read_entry, read_index, write_index, IndexRead, EMPTY_INDEX};
pub use marking::{flatten_marked, flatten_marked_to_vec, row_size, MarkedVec, Row};
pub use number::{
    call_index, read_charstring_number, read_dict_integer, write_charstring_number,
    write_dict_integer, NumberRead, Operand,
};
pub use refusal::{NoRefusal, Refusal, Refused};

/// The rules to run by.
///
/// Where strict accepts, plain gives the same:
///
/// ```
/// use ighzamrel::{flatten, Profile, Refusal, EMPTY_INDEX};
/// let by = |profile, charstring: &[u8]| {
///     flatten(charstring, EMPTY_INDEX, EMPTY_INDEX, profile, 100, &mut [0; 16])
/// };
/// // 0 1 hstem, hintmask with one byte, and then a 0 that waits at the next hintmask
/// let masks = [0x8B, 0x8C, 0x01, 0x13, 0x80, 0x8B, 0x13, 0x80, 0x0E];
/// assert_eq!(by(Profile::Plain, &masks)?.length, masks.len());
/// let refused = by(Profile::Strict, &masks).unwrap_err();
/// assert_eq!((refused.refusal, refused.tokens), (Refusal::OperandsAtMask, None));
/// assert_eq!(
///     refused.to_string(),
///     "refusal 15: operands wait at a mask whose length is fixed, in strict"
/// );
///
/// // 1 2 rmoveto, and no endchar
/// let unfinished = [0x8C, 0x8D, 0x15];
/// assert_eq!(by(Profile::Plain, &unfinished)?.length, unfinished.len());
/// let refused = by(Profile::Strict, &unfinished).unwrap_err();
/// assert_eq!((refused.refusal, refused.tokens), (Refusal::NoEndchar, None));
/// # Ok::<(), ighzamrel::Refused>(())
/// ```
#[derive(Clone, Copy, Debug, Default, PartialEq, Eq, Hash)]
pub enum Profile {
    /// What the Rust crate subsetter does: calls 64 strings deep, 65,535 hints, an index by 32-bit floats.
    #[default]
    Plain,
    /// Adobe's Technical Note 5177: calls 11 strings deep, 96 hints, an index that is exactly whole, no operands at a mask
    /// once an earlier one has fixed its length, and an end by `endchar`, its own or a subroutine's.
    Strict,
}

impl Profile {
    /// The profile as the library takes it.
    fn number(self) -> u32 {
        match self {
            Profile::Plain => 0,
            Profile::Strict => 1,
        }
    }
}
