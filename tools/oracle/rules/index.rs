//! The rules for INDEXes (docs/RULES.md), in plain whole-number arithmetic. Nothing here asks the Rust.

/// A refusal's number.
pub type Refusal = u32;

/// How many entries an INDEX has, and how many bytes it takes.
#[derive(Clone, Copy, Debug, PartialEq, Eq)]
pub struct Extent {
    pub entries: u32,
    pub taken: usize,
}

/// An entry: where it starts, counted from the INDEX's first byte, and how long it is.
#[derive(Clone, Copy, Debug, PartialEq, Eq)]
pub struct Entry {
    pub place: usize,
    pub length: usize,
}

/// What is wrong with a list: the refusal of its INDEX, or an entry that is absent and the first reason why.
#[derive(Clone, Copy, Debug, PartialEq, Eq)]
pub enum Flaw {
    Unread(Refusal),
    Entry(u32, Refusal),
}

impl Flaw {
    pub fn reason(self) -> Refusal {
        match self {
            Flaw::Unread(refusal) | Flaw::Entry(_, refusal) => refusal,
        }
    }

    pub fn entry(self) -> Option<u32> {
        match self {
            Flaw::Unread(_) => None,
            Flaw::Entry(entry, _) => Some(entry),
        }
    }
}

/// The INDEX at the start of `bytes`: 20 for the count, 20 for the size byte, 21, 20.
pub fn read(bytes: &[u8]) -> Result<Extent, Refusal> {
    let count = count(bytes)?;
    if count == 0 {
        return Ok(Extent { entries: 0, taken: 2 });
    }
    let size = usize::from(*bytes.get(2).ok_or(20u32)?);
    if !(1..=4).contains(&size) {
        return Err(21);
    }
    let last = number(bytes, 3 + count * size, size).ok_or(20u32)?;
    let start = data_start(count, size);
    if last == 0 {
        return Ok(Extent { entries: 0, taken: start });
    }
    let taken = start + last - 1;
    if bytes.len() < taken {
        return Err(20);
    }
    Ok(Extent { entries: count as u32, taken })
}

/// Entry `i`: the refusals of reading, then the first reason why it is absent.
pub fn entry(bytes: &[u8], i: u32) -> Result<Entry, Refusal> {
    read(bytes)?;
    if let Some(&reason) = reasons(bytes, i).first() {
        return Err(reason);
    }
    let (from, to) = (offset(bytes, i as usize), offset(bytes, i as usize + 1));
    let start = data_start(count(bytes)?, usize::from(bytes[2]));
    Ok(Entry { place: start + from - 1, length: to - from })
}

/// All reasons why entry `i` of an INDEX that is read is absent, in the order in which they are tested: 40 for a last offset
/// of 0, 25, 40, 41, 42.
pub fn reasons(bytes: &[u8], i: u32) -> Vec<Refusal> {
    let (count, i) = (count(bytes).unwrap_or(0), i as usize);
    let emptied = count > 0 && offset(bytes, count) == 0;
    if emptied || i >= count {
        return held([(emptied, 40), (i >= count, 25)]);
    }
    let (from, to, last) = (offset(bytes, i), offset(bytes, i + 1), offset(bytes, count));
    held([(from == 0 || to == 0, 40), (to < from, 41), (to > last, 42)])
}

/// The refusals whose condition holds.
fn held<const N: usize>(tests: [(bool, Refusal); N]) -> Vec<Refusal> {
    tests.into_iter().filter(|(holds, _)| *holds).map(|(_, refusal)| refusal).collect()
}

/// The count of a well-formed list: the read is accepted, and every entry is present.
pub fn formed(bytes: &[u8]) -> Result<u32, Flaw> {
    match flaws(bytes).next() {
        Some(flaw) => Err(flaw),
        None => Ok(count(bytes).unwrap_or(0) as u32),
    }
}

/// The entries of a well-formed list, or what is wrong with it.
pub fn entries(bytes: &[u8]) -> Result<Vec<&[u8]>, Flaw> {
    let part = |i| {
        let entry = entry(bytes, i).expect("the list is well formed");
        &bytes[entry.place..entry.place + entry.length]
    };
    Ok((0..formed(bytes)?).map(part).collect())
}

/// All that is wrong with a list, in the order of its entries.
pub fn flaws(bytes: &[u8]) -> impl Iterator<Item = Flaw> + '_ {
    let unread = read(bytes).err();
    let entries = if unread.is_some() { 0 } else { count(bytes).unwrap_or(0) as u32 };
    let absent = move |i| Some(Flaw::Entry(i, *reasons(bytes, i).first()?));
    unread.map(Flaw::Unread).into_iter().chain((0..entries).filter_map(absent))
}

/// The INDEX of elements with these lengths and these joined data: 22, 23, 24.
pub fn written(lengths: &[u32], data: &[u8]) -> Result<Vec<u8>, Refusal> {
    if lengths.len() > 65535 {
        return Err(22);
    }
    let sum: u64 = lengths.iter().map(|&length| u64::from(length)).sum();
    needed(lengths.len(), sum)?;
    if sum != data.len() as u64 {
        return Err(24);
    }
    let mut bytes = low_bytes(lengths.len() as u64, 2);
    if lengths.is_empty() {
        return Ok(bytes);
    }
    let size = offset_size(sum + 1);
    bytes.push(size as u8);
    let mut offset = 1;
    bytes.extend(low_bytes(offset, size));
    for &length in lengths {
        offset += u64::from(length);
        bytes.extend(low_bytes(offset, size));
    }
    bytes.extend(data);
    Ok(bytes)
}

/// How many bytes an INDEX of so many elements has, with so many bytes in all: 23.
pub fn needed(count: usize, sum: u64) -> Result<u64, Refusal> {
    if sum + 1 > 4_294_967_295 {
        return Err(23);
    }
    match count {
        0 => Ok(2),
        _ => Ok(data_start(count, offset_size(sum + 1) as usize) as u64 + sum),
    }
}

/// The size of the offsets of which this is the last.
fn offset_size(last: u64) -> u32 {
    match last {
        0..=255 => 1,
        256..=65535 => 2,
        65536..=16_777_215 => 3,
        _ => 4,
    }
}

fn count(bytes: &[u8]) -> Result<usize, Refusal> {
    number(bytes, 0, 2).ok_or(20)
}

/// Offset `i` of an INDEX that is read.
fn offset(bytes: &[u8], i: usize) -> usize {
    let size = usize::from(bytes[2]);
    number(bytes, 3 + i * size, size).expect("the INDEX has its offsets")
}

fn data_start(count: usize, size: usize) -> usize {
    3 + (count + 1) * size
}

/// The big-endian number of `size` bytes at a place, or `None` where there are not so many.
fn number(bytes: &[u8], at: usize, size: usize) -> Option<usize> {
    let these = bytes.get(at..at + size)?;
    Some(these.iter().fold(0, |v, &next| v * 256 + usize::from(next)))
}

/// The `size` low bytes of `v`, the highest first.
fn low_bytes(v: u64, size: u32) -> Vec<u8> {
    (0..size).rev().map(|i| (v >> (8 * i)) as u8).collect()
}
