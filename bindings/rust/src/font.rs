//! Flattening glyphs of a font, all of them or those that are asked for: the INDEX of their flat strings.

use crate::ffi;
use crate::flattening::{in_vec, offered, AT_HAND};
use crate::index::{read_entry, read_index};
use crate::refusal::{told_with, Offered, Refused};
use crate::Profile;

/// Writes the INDEX of the flat strings of a font's glyphs, in their order, to the start of `out`, and answers how many
/// bytes it is.
///
/// `charstrings` is the font's CharStrings INDEX; each glyph of it is flattened as [`flatten`](crate::flatten) does it,
/// under the whole `budget`, so its answer does not depend on its neighbours. `globals` and `locals` are looked over once.
/// A refusal changes no byte of `out`, and acceptance only the first that it reports.
///
/// Refused, in this order, with [`Refusal::BadGlobals`](crate::Refusal::BadGlobals),
/// [`Refusal::BadLocals`](crate::Refusal::BadLocals) or [`Refusal::BadCharstrings`](crate::Refusal::BadCharstrings); as
/// the first glyph that is refused, with its number and its tokens, of which
/// [`Refusal::OperandsAtMask`](crate::Refusal::OperandsAtMask) and [`Refusal::NoEndchar`](crate::Refusal::NoEndchar) have
/// none; with [`Refusal::TooLong`](crate::Refusal::TooLong), where the last offset would pass 4294967295; or with
/// [`Refusal::Short`](crate::Refusal::Short):
///
/// ```
/// use ighzamrel::{flatten_font, Profile, Refusal, EMPTY_INDEX};
/// // two glyphs: endchar, and a call of entry 0 of a local list
/// let charstrings = [0x00, 0x02, 0x01, 0x01, 0x02, 0x05, 0x0E, 0x20, 0x0A, 0x0E];
/// let locals = [0x00, 0x01, 0x01, 0x01, 0x05, 0x8C, 0x8D, 0x15, 0x0B];
/// let mut out = [0; 64];
///
/// let length = flatten_font(&charstrings, EMPTY_INDEX, &locals, Profile::Plain, 100, &mut out)?;
/// assert_eq!(out[..length], [0x00, 0x02, 0x01, 0x01, 0x02, 0x06, 0x0E, 0x8C, 0x8D, 0x15, 0x0E]);
///
/// let refused = flatten_font(&charstrings, EMPTY_INDEX, EMPTY_INDEX, Profile::Plain, 100, &mut out).unwrap_err();
/// assert_eq!((refused.refusal, refused.glyph, refused.tokens), (Refusal::NoEntry, Some(1), Some(2)));
/// assert_eq!(
///     refused.to_string(),
///     "refusal 9: glyph 1: a call names a subroutine that is not there, at token 2"
/// );
/// # Ok::<(), ighzamrel::Refused>(())
/// ```
pub fn flatten_font(
    charstrings: &[u8],
    globals: &[u8],
    locals: &[u8],
    profile: Profile,
    budget: u32,
    out: &mut [u8],
) -> Result<usize, Refused> {
    let mut places = ffi::Places::default();
    let lent = [charstrings, globals, locals];
    let answer = ffi::flatten_font_to(lent, profile.number(), budget, out, &mut places);
    index_told(answer, &places, false)
}

/// What a flattening of several glyphs tells in its places: of all, or of those at places among numbers.
fn index_told(answer: u32, places: &ffi::Places, by_place: bool) -> Result<usize, Refused> {
    let offered = Offered {
        glyph: Some(places.glyph),
        by_place,
        ..offered(places)
    };
    told_with(answer, places.length, offered)
}

/// The INDEX of the flat strings of a font's glyphs, in bytes of its own, where it has at most `room`.
///
/// It answers what [`flatten_font`] answers with so much room. It tries with three times the bytes of the three INDEXes,
/// which is enough for most fonts, and where that lacks once more with just what is needed. `room` is what bounds the
/// memory that a hostile font can take.
///
/// ```
/// use ighzamrel::{flatten_font_to_vec, read_entry, Profile, EMPTY_INDEX};
/// let charstrings = [0x00, 0x02, 0x01, 0x01, 0x05, 0x06, 0x1C, 0x00, 0x05, 0x0E, 0x0E];
/// let flat = flatten_font_to_vec(&charstrings, EMPTY_INDEX, EMPTY_INDEX, Profile::Plain, 100, 1 << 24)?;
/// assert_eq!(flat[read_entry(&flat, 0)?], [0x90, 0x0E]);
/// assert_eq!(flat[read_entry(&flat, 1)?], [0x0E]);
/// # Ok::<(), ighzamrel::Refused>(())
/// ```
pub fn flatten_font_to_vec(
    charstrings: &[u8],
    globals: &[u8],
    locals: &[u8],
    profile: Profile,
    budget: u32,
    room: usize,
) -> Result<Vec<u8>, Refused> {
    let run = |out: &mut [u8]| {
        let length = flatten_font(charstrings, globals, locals, profile, budget, out)?;
        Ok((length, ()))
    };
    let taken = |list| read_index(list).map_or(0, |index| index.taken);
    let lists = [charstrings, globals, locals].map(taken);
    let first = lists.into_iter().fold(0, usize::saturating_add);
    let (bytes, ()) = in_vec(first.saturating_mul(3), room, run)?;
    Ok(bytes)
}

/// Writes the INDEX of the flat strings of those glyphs of a font that `numbers` has, in its order and as often as it has
/// them, to the start of `out`, and answers how many bytes it is.
///
/// It is [`flatten_font`] of those glyphs alone: the three INDEXes are looked over once, and each glyph has the whole
/// `budget`; a glyph that is not asked for is not run, so it refuses nothing. Without numbers the INDEX is
/// [`EMPTY_INDEX`](crate::EMPTY_INDEX). A refusal changes no byte of `out`, and acceptance only the first that it reports.
///
/// Refused, in this order, with [`Refusal::BadGlobals`](crate::Refusal::BadGlobals),
/// [`Refusal::BadLocals`](crate::Refusal::BadLocals) or [`Refusal::BadCharstrings`](crate::Refusal::BadCharstrings); with
/// [`Refusal::TooManyElements`](crate::Refusal::TooManyElements), where there are over 65535 numbers; as the first place in
/// `numbers` that is refused, with [`Refusal::PastCount`](crate::Refusal::PastCount) where the font has no glyph of that
/// number, else as its glyph is; and then as [`flatten_font`] is. [`Refused::glyph`] is that place, not the glyph's number:
///
/// ```
/// use ighzamrel::{flatten_glyphs, Profile, Refusal, EMPTY_INDEX};
/// // three glyphs: endchar, a call of entry 0 of a local list, and a byte that starts no token
/// let charstrings = [0x00, 0x03, 0x01, 0x01, 0x02, 0x05, 0x06, 0x0E, 0x20, 0x0A, 0x0E, 0x00];
/// let locals = [0x00, 0x01, 0x01, 0x01, 0x05, 0x8C, 0x8D, 0x15, 0x0B];
/// let mut out = [0; 64];
/// let mut flatten = |numbers: &[u32]| {
///     let length = flatten_glyphs(&charstrings, numbers, EMPTY_INDEX, &locals, Profile::Plain, 100, &mut out)?;
///     Ok::<_, ighzamrel::Refused>(out[..length].to_vec())
/// };
///
/// assert_eq!(flatten(&[1, 0])?, [0x00, 0x02, 0x01, 0x01, 0x05, 0x06, 0x8C, 0x8D, 0x15, 0x0E, 0x0E]);
/// assert_eq!(flatten(&[])?, EMPTY_INDEX);
///
/// let refused = flatten(&[0, 1, 2]).unwrap_err();
/// assert_eq!((refused.refusal, refused.glyph, refused.tokens), (Refusal::Unknown, Some(2), Some(1)));
/// let refused = flatten(&[0, 3, 2]).unwrap_err();
/// assert_eq!((refused.refusal, refused.glyph), (Refusal::PastCount, Some(1)));
/// assert_eq!(refused.to_string(), "refusal 25: place 1: the INDEX has no entry of that number");
/// # Ok::<(), ighzamrel::Refused>(())
/// ```
pub fn flatten_glyphs(
    charstrings: &[u8],
    numbers: &[u32],
    globals: &[u8],
    locals: &[u8],
    profile: Profile,
    budget: u32,
    out: &mut [u8],
) -> Result<usize, Refused> {
    let mut places = ffi::Places::default();
    let lent = [charstrings, globals, locals];
    let profile = profile.number();
    let answer = ffi::flatten_glyphs_to(lent, numbers, profile, budget, out, &mut places);
    index_told(answer, &places, true)
}

/// The INDEX of the flat strings of those glyphs that `numbers` has, in bytes of its own, where it has at most `room`.
///
/// It answers what [`flatten_glyphs`] answers with so much room. It tries with some kilobytes and four times the bytes of the
/// charstrings that are asked for, which is enough for most, and where that lacks once more with just what is needed.
/// `room` is what bounds the memory that a hostile font can take.
///
/// ```
/// use ighzamrel::{flatten_glyphs_to_vec, read_entry, Profile, EMPTY_INDEX};
/// let charstrings = [0x00, 0x02, 0x01, 0x01, 0x05, 0x06, 0x1C, 0x00, 0x05, 0x0E, 0x0E];
/// let numbers = [1, 0, 1];
/// let flat = flatten_glyphs_to_vec(&charstrings, &numbers, EMPTY_INDEX, EMPTY_INDEX, Profile::Plain, 100, 1 << 24)?;
/// assert_eq!(flat[read_entry(&flat, 0)?], [0x0E]);
/// assert_eq!(flat[read_entry(&flat, 1)?], [0x90, 0x0E]);
/// assert_eq!(flat[read_entry(&flat, 2)?], [0x0E]);
/// # Ok::<(), ighzamrel::Refused>(())
/// ```
pub fn flatten_glyphs_to_vec(
    charstrings: &[u8],
    numbers: &[u32],
    globals: &[u8],
    locals: &[u8],
    profile: Profile,
    budget: u32,
    room: usize,
) -> Result<Vec<u8>, Refused> {
    let run = |out: &mut [u8]| {
        let length = flatten_glyphs(charstrings, numbers, globals, locals, profile, budget, out)?;
        Ok((length, ()))
    };
    // with a byte more for each number the offsets have room too
    let bytes = |&number: &u32| read_entry(charstrings, number).map_or(0, |entry| entry.len() + 1);
    let asked = numbers.iter().map(bytes).fold(0, usize::saturating_add);
    let first = asked.saturating_mul(4).saturating_add(AT_HAND);
    let (bytes, ()) = in_vec(first, room, run)?;
    Ok(bytes)
}
