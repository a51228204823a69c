//! The unchanged Rust's answers about INDEXes, by its public functions.

use crate::rules::index::{Entry, Extent};
use subsetter::cff::index::{create_index, parse_index, Index};
use subsetter::read::Reader;

/// How many entries the Rust sees, and how far its reader went.
pub fn read(bytes: &[u8]) -> Option<Extent> {
    let mut r = Reader::new(bytes);
    let index = parse_index::<u16>(&mut r)?;
    Some(Extent { entries: index.len(), taken: r.offset() })
}

/// An entry where it stands in `bytes`: the Rust lends it from there, so that its address tells.
pub fn entry(bytes: &[u8], i: u32) -> Option<Entry> {
    let part = index(bytes)?.get(i)?;
    let place = part.as_ptr() as usize - bytes.as_ptr() as usize;
    Some(Entry { place, length: part.len() })
}

/// The bytes of an entry as the Rust lends them.
pub fn part(bytes: &[u8], i: u32) -> Option<&[u8]> {
    index(bytes)?.get(i)
}

/// The count, if the Rust reads as many entries as the count says and hands out each one.
pub fn formed(bytes: &[u8]) -> Option<u32> {
    let index = index(bytes)?;
    let count = u32::from(Reader::new(bytes).read::<u16>()?);
    let whole = index.len() == count && (0..count).all(|i| index.get(i).is_some());
    whole.then_some(count)
}

/// An INDEX of these elements; `None` is the Rust's OverflowError, the one error that it has here.
pub fn written(elements: Vec<Vec<u8>>) -> Option<Vec<u8>> {
    match create_index(elements) {
        Ok(index) => Some(index.data),
        Err(subsetter::Error::OverflowError) => None,
        Err(other) => panic!("create_index answered {other:?}"),
    }
}

fn index(bytes: &[u8]) -> Option<Index<'_>> {
    parse_index::<u16>(&mut Reader::new(bytes))
}
