//! Flattening: a charstring and its subroutines as one string without calls.

use crate::ffi;
use crate::refusal::{told_with, Offered, Refused};
use crate::{Operand, Profile};

/// An accepted charstring. Its flat string was written to lent bytes, but by [`explain`](crate::explain), which writes none.
#[derive(Clone, Copy, Debug, PartialEq, Eq)]
pub struct Flat {
    /// How many bytes the flat string has; it stands at the start of the lent ones.
    pub length: usize,
    /// How many tokens were run, through every call.
    pub tokens: u32,
    /// The width that the charstring says, if any, as [`flatten`] tells.
    pub width: Option<Operand>,
}

/// An accepted charstring with its flat string.
#[derive(Clone, Debug, PartialEq, Eq)]
pub struct FlatVec {
    /// The flat string.
    pub bytes: Vec<u8>,
    /// How many tokens were run, through every call.
    pub tokens: u32,
    /// The width that the charstring says, if any, as [`flatten`] tells.
    pub width: Option<Operand>,
}

/// Writes the flat string of a charstring to the start of `out`.
///
/// `globals` and `locals` are the two subroutine INDEXes, [`EMPTY_INDEX`](crate::EMPTY_INDEX) where a font has none;
/// `budget` is how many tokens may be run, through every call, and so bounds the time.
/// A refusal changes no byte of `out`, and acceptance only the first `length`.
///
/// The width is the bottom operand at the first operator that is no call and no return: of an odd count at a stem or a
/// mask, of more than two at `rmoveto`, of more than one at `hmoveto` or `vmoveto`, and of any at `endchar`; else there
/// is none. Added to nominalWidthX of the glyph's Private DICT it is the advance width, which is defaultWidthX where
/// there is none:
///
/// ```
/// use ighzamrel::{flatten, Operand, Profile, EMPTY_INDEX};
/// let width = |charstring: &[u8]| {
///     let flat = flatten(charstring, EMPTY_INDEX, EMPTY_INDEX, Profile::Plain, 100, &mut [0; 8]);
///     flat.map(|flat| flat.width)
/// };
/// // 100 1 2 rmoveto endchar, 1 2 rmoveto endchar, and 1.5 endchar
/// assert_eq!(width(&[0xEF, 0x8C, 0x8D, 0x15, 0x0E])?, Some(Operand::Integer(100)));
/// assert_eq!(width(&[0x8C, 0x8D, 0x15, 0x0E])?, None);
/// assert_eq!(width(&[0xFF, 0x00, 0x01, 0x80, 0x00, 0x0E])?, Some(Operand::Fixed(98_304)));
/// # Ok::<(), ighzamrel::Refused>(())
/// ```
///
/// Refused with one of [`Refusal::BadGlobals`](crate::Refusal::BadGlobals) to
/// [`Refusal::Short`](crate::Refusal::Short), or in strict with
/// [`Refusal::OperandsAtMask`](crate::Refusal::OperandsAtMask) or [`Refusal::NoEndchar`](crate::Refusal::NoEndchar). A
/// list that is not well formed comes with what [`check_list`](crate::check_list) says of it:
///
/// ```
/// use ighzamrel::{flatten, Profile, Refusal, EMPTY_INDEX};
/// // three entries by the offsets 1, 2, 1 and 2: entry 1 would end before it starts
/// let locals = [0x00, 0x03, 0x01, 0x01, 0x02, 0x01, 0x02, 0x0B];
/// let refused = flatten(&[0x0E], EMPTY_INDEX, &locals, Profile::Plain, 100, &mut [0; 8]).unwrap_err();
/// assert_eq!(refused.refusal, Refusal::BadLocals);
/// assert_eq!((refused.entry, refused.reason), (Some(1), Some(Refusal::Descending)));
/// assert_eq!(
///     refused.to_string(),
///     "refusal 2: the local list's entry 1: its offsets descend"
/// );
/// ```
pub fn flatten(
    charstring: &[u8],
    globals: &[u8],
    locals: &[u8],
    profile: Profile,
    budget: u32,
    out: &mut [u8],
) -> Result<Flat, Refused> {
    let mut places = ffi::Places::default();
    let lent = [charstring, globals, locals];
    let answer = ffi::flatten_to(lent, profile.number(), budget, out, &mut places);
    flat(answer, &places)
}

/// What a flattening of one charstring tells in its places.
pub(crate) fn flat(answer: u32, places: &ffi::Places) -> Result<Flat, Refused> {
    let flat = Flat {
        length: places.length,
        tokens: places.tokens,
        width: width(places),
    };
    told_with(answer, flat, offered(places))
}

/// The width that an accepted charstring says.
fn width(places: &ffi::Places) -> Option<Operand> {
    match places.width_kind {
        ffi::NO_WIDTH => None,
        kind => Some(Operand::of(kind, places.width)),
    }
}

/// What a flattening has in its places for a refusal, but the glyph.
pub(crate) fn offered(places: &ffi::Places) -> Offered {
    Offered {
        length: Some(places.length),
        tokens: Some(places.tokens),
        entry: Some(places.entry),
        reason: Some(places.reason),
        ..Offered::default()
    }
}

/// The flat string of a charstring, in bytes of its own, where it has at most `room`.
///
/// It answers what [`flatten`] answers with so much room. The charstring is run once where its flat string has at most
/// 4096 bytes, as nearly every glyph's has, and else once for the length and once for the bytes; just those are
/// allocated. A hostile charstring's flat string can have thousands of bytes for each token of the budget; `room` is what
/// bounds the memory.
pub fn flatten_to_vec(
    charstring: &[u8],
    globals: &[u8],
    locals: &[u8],
    profile: Profile,
    budget: u32,
    room: usize,
) -> Result<FlatVec, Refused> {
    let run = |out: &mut [u8]| {
        let flat = flatten(charstring, globals, locals, profile, budget, out)?;
        Ok((flat.length, (flat.tokens, flat.width)))
    };
    let (bytes, (tokens, width)) = at_hand(room, run)?;
    Ok(FlatVec {
        bytes,
        tokens,
        width,
    })
}

/// The bytes of stack that a glyph is tried with: of the 732,480 glyphs of 252 font files 95 have a longer flat string.
pub(crate) const AT_HAND: usize = 4096;

/// What `run` writes, in a `Vec` of just that length, and what it tells besides. It is run with the bytes at hand, and where
/// these lack with what it needs, up to `most`.
pub(crate) fn at_hand<T>(
    most: usize,
    mut run: impl FnMut(&mut [u8]) -> Result<(usize, T), Refused>,
) -> Result<(Vec<u8>, T), Refused> {
    let mut bytes = [0; AT_HAND];
    match run(&mut bytes[..AT_HAND.min(most)]) {
        Err(Refused {
            needed: Some(needed),
            ..
        }) if needed <= most => in_vec(needed, most, run),
        answer => answer.map(|(length, told)| (bytes[..length].to_vec(), told)),
    }
}

/// What `run` writes to bytes of its own, and what it tells besides their length. It is run with the `first` room, and
/// where that lacks with what it needs, up to `most`.
pub(crate) fn in_vec<T>(
    first: usize,
    most: usize,
    mut run: impl FnMut(&mut [u8]) -> Result<(usize, T), Refused>,
) -> Result<(Vec<u8>, T), Refused> {
    let mut bytes = vec![0; first.min(most)];
    let (length, told) = match run(&mut bytes) {
        Err(Refused {
            needed: Some(needed),
            ..
        }) if needed <= most => {
            bytes = vec![0; needed];
            run(&mut bytes)?
        }
        answer => answer?,
    };
    bytes.truncate(length);
    bytes.shrink_to_fit();
    Ok((bytes, told))
}
