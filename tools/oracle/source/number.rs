//! The unchanged Rust's answers about numbers, by its public functions.

use crate::rules::number::{Operand, Place};
use std::sync::OnceLock;
use subsetter::cff::charstring::CharString;
use subsetter::cff::number::Number;
use subsetter::cff::subroutines::SubroutineHandler;
use subsetter::read::Reader;
use subsetter::write::Writer;

/// The number at the start of `bytes` and how far the reader went. Not for the first bytes outside
/// the domain of equality.
pub fn read(place: Place, bytes: &[u8]) -> Option<(Operand, usize)> {
    let mut r = Reader::new(bytes);
    let number = match place {
        Place::Charstring => Number::parse_char_string_number(&mut r),
        Place::Dict => Number::parse_cff_number(&mut r),
    }?;
    Some((operand_of(number), r.offset()))
}

/// Whether the Rust's reader and ours are held equal on a first byte.
pub fn in_domain(place: Place, first: Option<&u8>) -> bool {
    !matches!((place, first), (_, Some(30)) | (Place::Charstring, Some(29)))
}

pub fn written(operand: Operand) -> Vec<u8> {
    bytes_of(number_of(operand))
}

/// The index that the Rust's call takes an operand for.
pub fn call_index(operand: Operand) -> Option<i32> {
    number_of(operand).as_i32()
}

/// The most entries that a list is tried with: one more than an INDEX can have.
pub const MOST_ENTRIES: u32 = 65536;

/// The number of the entry that the Rust's call enters, of at most `MOST_ENTRIES`.
pub fn callee(operand: Operand, count: u32) -> Option<u32> {
    let handler = SubroutineHandler::new(&entries()[..count as usize]);
    let entry = handler.get_with_biased(call_index(operand)?)?;
    Some(u32::from_be_bytes(entry.try_into().expect("an entry is four bytes")))
}

/// Entries whose bytes are their own number.
fn entries() -> &'static [CharString<'static>] {
    static ENTRIES: OnceLock<Vec<CharString<'static>>> = OnceLock::new();
    ENTRIES.get_or_init(|| {
        let bytes: Vec<u8> = (0..MOST_ENTRIES).flat_map(u32::to_be_bytes).collect();
        bytes.leak().chunks(4).collect()
    })
}

/// A Fixed's field is private to the Rust, so a Fixed is had by reading its five bytes.
fn number_of(operand: Operand) -> Number {
    match operand {
        Operand::Integer(n) => Number::from_i32(n),
        Operand::Fixed(n) => {
            let [a, b, c, d] = n.to_be_bytes();
            let bytes = [255, a, b, c, d];
            let mut r = Reader::new(&bytes);
            Number::parse_char_string_number(&mut r).expect("five bytes are a Fixed")
        }
    }
}

/// A Fixed's value is had by writing it, for the same reason.
fn operand_of(number: Number) -> Operand {
    match number {
        Number::Integer(n) => Operand::Integer(n.0),
        Number::Fixed(_) => match bytes_of(number)[..] {
            [255, a, b, c, d] => Operand::Fixed(i32::from_be_bytes([a, b, c, d])),
            ref other => panic!("a Fixed was written as {other:?}"),
        },
        Number::Real(_) => panic!("a real is outside the domain"),
    }
}

fn bytes_of(number: Number) -> Vec<u8> {
    let mut w = Writer::new();
    w.write(number);
    w.finish()
}
