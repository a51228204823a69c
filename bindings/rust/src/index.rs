//! CFF INDEX: read, an entry of it, checked, written.

use std::ops::Range;

use crate::ffi;
use crate::refusal::{told, told_with, written, Offered, Refusal, Refused};

/// An INDEX without entries: a font's list where it has no subroutines.
pub const EMPTY_INDEX: &[u8] = &[0, 0];

/// What stands at the start of some bytes as an INDEX.
#[derive(Clone, Copy, Debug, PartialEq, Eq)]
pub struct IndexRead {
    /// How many entries it has.
    pub count: u32,
    /// How many bytes it takes.
    pub taken: usize,
}

/// The INDEX at the start of the bytes. Bytes after it are not looked at.
///
/// Refused with [`Refusal::IndexLacking`] or [`Refusal::OffsetSize`].
pub fn read_index(bytes: &[u8]) -> Result<IndexRead, Refusal> {
    let (answer, count, taken) = ffi::read_index(bytes);
    told(answer, IndexRead { count, taken })
}

/// Where entry `number`, counted from 0, of the INDEX at the start of the bytes stands in them.
///
/// Refused as [`read_index`] is, and with [`Refusal::PastCount`], [`Refusal::ZeroOffset`], [`Refusal::Descending`] or
/// [`Refusal::PastData`].
///
/// ```
/// use ighzamrel::{read_entry, Refusal};
/// let bytes = [0x00, 0x01, 0x01, 0x01, 0x03, 0x8C, 0x0B];
/// let entry = read_entry(&bytes, 0)?;
/// assert_eq!(bytes[entry], [0x8C, 0x0B]);
/// assert_eq!(read_entry(&bytes, 1), Err(Refusal::PastCount));
/// # Ok::<(), Refusal>(())
/// ```
pub fn read_entry(bytes: &[u8], number: u32) -> Result<Range<usize>, Refusal> {
    let (answer, place, length) = ffi::read_entry(bytes, number);
    told(answer, place..place + length)
}

/// How many entries the INDEX at the start of the bytes has, where it is well formed: it can be read, and it has every
/// entry that it counts.
///
/// Refused as [`read_index`] is; and with [`Refusal::ZeroOffset`], [`Refusal::Descending`] or [`Refusal::PastData`] and
/// the number of the first entry that it has not, which is 0 where the last offset of the INDEX is 0.
///
/// ```
/// use ighzamrel::{check_list, Refusal, EMPTY_INDEX};
/// assert_eq!(check_list(EMPTY_INDEX), Ok(0));
/// // three entries by the offsets 1, 2, 1 and 2: entry 1 would end before it starts
/// let refused = check_list(&[0x00, 0x03, 0x01, 0x01, 0x02, 0x01, 0x02, 0x0B]).unwrap_err();
/// assert_eq!((refused.refusal, refused.entry), (Refusal::Descending, Some(1)));
/// assert_eq!(refused.to_string(), "refusal 41: the offsets of the entry descend (entry 1)");
/// ```
pub fn check_list(bytes: &[u8]) -> Result<u32, Refused> {
    let (answer, count, entry) = ffi::check_list(bytes);
    let offered = Offered {
        entry: Some(entry),
        ..Offered::default()
    };
    told_with(answer, count, offered)
}

/// Writes the INDEX of elements of these lengths, joined in `data`, to the start of `out`, and answers how many bytes
/// it is.
///
/// Refused with [`Refusal::TooManyElements`], [`Refusal::TooLong`], [`Refusal::LengthsMismatch`] or [`Refusal::Short`].
pub fn write_index(lengths: &[u32], data: &[u8], out: &mut [u8]) -> Result<usize, Refused> {
    let (answer, length) = ffi::write_index(lengths, data, out);
    written(answer, length)
}
