//! The crate on the examples of docs/RULES.md, its refusals and its lent bytes, and held against the C header.

mod chosen;
mod explained;
mod flattening;
mod font;
mod header;
mod indexes;
mod marked;
mod numbers;
mod rerun;
mod text;
mod whole;
mod why;
mod width;

use ighzamrel::{write_index, Refusal, Refused};

/// The C functions as this crate calls them, whose places the crate does not show where they are left as they were.
#[allow(dead_code)]
#[path = "../../src/ffi.rs"]
mod ffi;

/// What lent bytes hold before a call.
const BLANK: u8 = 0xA5;

/// Places that hold 77 each, so that one which a call sets shows.
fn held() -> ffi::Places {
    ffi::Places {
        length: 77,
        glyph: 77,
        tokens: 77,
        entry: 77,
        reason: 77,
        width_kind: 77,
        width: 77,
        calls: 77,
    }
}

/// A refusal that gives no value.
fn alone(refusal: Refusal) -> Refused {
    Refused {
        refusal,
        needed: None,
        glyph: None,
        by_place: false,
        tokens: None,
        entry: None,
        reason: None,
    }
}

/// A refusal of a writer for want of room.
fn short(needed: usize) -> Refused {
    Refused {
        needed: Some(needed),
        ..alone(Refusal::Short)
    }
}

/// Lists that are not well formed: why, and the first entry that is not there.
const BAD_LISTS: [(&[u8], Refusal, Option<u32>); 8] = [
    (&[], Refusal::IndexLacking, None),
    (&[0, 1, 1, 1, 5, 0x8C, 0x8D], Refusal::IndexLacking, None),
    (&[0, 1, 5], Refusal::OffsetSize, None),
    // a last offset of 0, a first one, and one between
    (&[0, 2, 1, 1, 1, 0], Refusal::ZeroOffset, Some(0)),
    (&[0, 2, 1, 0, 1, 1], Refusal::ZeroOffset, Some(0)),
    (&[0, 3, 1, 1, 1, 0, 1], Refusal::ZeroOffset, Some(1)),
    (&[0, 3, 1, 1, 2, 1, 2, 0x0E], Refusal::Descending, Some(1)),
    (&[0, 3, 1, 1, 1, 3, 2, 0x0E], Refusal::PastData, Some(1)),
];

/// The INDEX of these elements.
fn index(elements: &[&[u8]]) -> Vec<u8> {
    let lengths = elements.iter().map(|element| element.len() as u32);
    let lengths: Vec<u32> = lengths.collect();
    let data = elements.concat();
    let mut out = vec![0; 7 + 4 * lengths.len() + data.len()];
    let length = write_index(&lengths, &data, &mut out).unwrap();
    out.truncate(length);
    out
}

/// What `write` leaves in so many blank bytes, and what it answers.
fn lent<T>(room: usize, write: impl FnOnce(&mut [u8]) -> T) -> (T, Vec<u8>) {
    let mut out = vec![BLANK; room];
    let answer = write(&mut out);
    (answer, out)
}

/// `write` must write `bytes` and change no byte behind them; with a byte less of room it must change none.
fn writes(bytes: &[u8], write: impl Fn(&mut [u8]) -> Result<usize, Refused>) {
    let (answer, out) = lent(bytes.len() + 3, &write);
    assert_eq!(answer, Ok(bytes.len()));
    assert_eq!(out, [bytes, &[BLANK; 3]].concat());
    assert_eq!(lent(bytes.len(), &write), (Ok(bytes.len()), bytes.to_vec()));
    let room = bytes.len() - 1;
    assert_eq!(
        lent(room, &write),
        (Err(short(bytes.len())), vec![BLANK; room])
    );
}

/// `write` must refuse so, and change no byte.
fn refuses(refused: Refused, write: impl FnOnce(&mut [u8]) -> Result<usize, Refused>) {
    assert_eq!(lent(64, write), (Err(refused), vec![BLANK; 64]));
}
