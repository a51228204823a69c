//! Numbers of charstrings and DICTs, and an operand as a call's index.

use crate::ffi;
use crate::refusal::{told, written, Refusal, Refused};
use crate::Profile;

/// An operand of a charstring: its kind with its value. A Fixed never equals an integer.
#[derive(Clone, Copy, Debug, PartialEq, Eq, Hash)]
pub enum Operand {
    /// An integer.
    Integer(i32),
    /// A Fixed, which counts 65536ths: `Fixed(65536)` is 1.
    Fixed(i32),
}

impl Operand {
    /// By kind and value, as the library gives them.
    pub(crate) fn of(kind: u32, value: i32) -> Operand {
        match kind {
            0 => Operand::Integer(value),
            _ => Operand::Fixed(value),
        }
    }

    /// Kind and value, as the library takes them.
    fn parts(self) -> (u32, i32) {
        match self {
            Operand::Integer(value) => (0, value),
            Operand::Fixed(value) => (1, value),
        }
    }
}

/// A number that was read, and how many bytes it is.
#[derive(Clone, Copy, Debug, PartialEq, Eq)]
pub struct NumberRead<T> {
    /// The number.
    pub number: T,
    /// How many bytes it is.
    pub width: usize,
}

/// The number at the start of a part of a charstring.
///
/// Refused with [`Refusal::BytesLacking`] or [`Refusal::Unknown`].
///
/// ```
/// use ighzamrel::{read_charstring_number, Operand, NumberRead};
/// let read = read_charstring_number(&[0xFA, 0xFF, 0x0E]);
/// assert_eq!(read, Ok(NumberRead { number: Operand::Integer(1131), width: 2 }));
/// ```
pub fn read_charstring_number(bytes: &[u8]) -> Result<NumberRead<Operand>, Refusal> {
    let (answer, kind, value, width) = ffi::read_charstring_number(bytes);
    let number = Operand::of(kind, value);
    told(answer, NumberRead { number, width })
}

/// The integer at the start of a part of a DICT.
///
/// Refused with [`Refusal::BytesLacking`] or [`Refusal::Unknown`].
pub fn read_dict_integer(bytes: &[u8]) -> Result<NumberRead<i32>, Refusal> {
    let (answer, number, width) = ffi::read_dict_integer(bytes);
    told(answer, NumberRead { number, width })
}

/// Writes a charstring number to the start of `out`, an integer in its shortest form, and answers how many bytes it is.
///
/// Refused with [`Refusal::Outside16Bits`] or [`Refusal::Short`]; five bytes are always enough.
pub fn write_charstring_number(operand: Operand, out: &mut [u8]) -> Result<usize, Refused> {
    let (kind, value) = operand.parts();
    let (answer, length) = ffi::write_charstring_number(kind, value, out);
    written(answer, length)
}

/// Writes a DICT integer to the start of `out`, in its shortest form, and answers how many bytes it is.
///
/// Refused with [`Refusal::Short`]; five bytes are always enough.
pub fn write_dict_integer(value: i32, out: &mut [u8]) -> Result<usize, Refused> {
    let (answer, length) = ffi::write_dict_integer(value, out);
    written(answer, length)
}

/// The index that an operand is at a call, before the bias is added.
///
/// Refused with [`Refusal::NoIndex`] where it is not whole. In plain that goes by the rounding of 32-bit floats.
///
/// ```
/// use ighzamrel::{call_index, Operand, Profile, Refusal};
/// let operand = Operand::Fixed(300 * 65536 + 1);
/// assert_eq!(call_index(operand, Profile::Plain), Ok(300));
/// assert_eq!(call_index(operand, Profile::Strict), Err(Refusal::NoIndex));
/// ```
pub fn call_index(operand: Operand, profile: Profile) -> Result<i32, Refusal> {
    let (kind, value) = operand.parts();
    let (answer, index) = ffi::call_index(kind, value, profile.number());
    told(answer, index)
}
