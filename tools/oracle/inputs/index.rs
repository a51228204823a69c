//! INDEXes to read: examples, cut off, damaged, with entries that are absent, every small one, long ones, and random and damaged ones.

use crate::random::Random;

/// Bytes to read, and the numbers of the entries to ask for.
pub struct Read {
    pub bytes: Vec<u8>,
    pub numbers: Vec<u32>,
}

/// An INDEX that is still to be laid out: any offsets of any size before any data.
#[derive(Clone)]
struct Parts {
    size: u8,
    offsets: Vec<u32>,
    data: Vec<u8>,
}

/// The INDEXes of docs/RULES.md; then an emptied one, entries whose data begin late, and no bytes.
pub const EXAMPLES: [&[u8]; 10] = [
    &[0x00, 0x00],
    &[0x00, 0x01, 0x01, 0x01, 0x05, 0x8C, 0x8D, 0x15, 0x0B],
    &[0x00, 0x02, 0x01, 0x01, 0x02, 0x04, 0x0A, 0x8C, 0x16],
    &[0x00, 0x01, 0x01, 0x01, 0x02, 0x0E],
    &[0x00, 0x01, 0x01, 0x01, 0x03, 0x20, 0x0A],
    &[0x00, 0x02, 0x01, 0x01, 0x02, 0x02, 0x0E],
    EMPTIED,
    &[0x00, 0x01, 0x01, 0x02, 0x03, 0x8C, 0x0B],
    &[0x00, 0x01, 0x01, 0x03, 0x03, 0xAA, 0xBB],
    &[],
];

/// A last offset of 0, before which no entry's number counts.
const EMPTIED: &[u8] = &[0x00, 0x02, 0x01, 0x01, 0x01, 0x00];

const SIZES: [u8; 4] = [1, 2, 3, 4];

/// The elements of the INDEX that is cut off: one byte, none, and two.
const ELEMENTS: [u32; 3] = [1, 0, 2];

/// What the bytes of the small ones are.
const ALPHABET: [u8; 7] = [0, 1, 2, 3, 4, 5, 255];

/// Those of the list.
pub fn listed() -> Vec<Read> {
    let mut reads: Vec<Read> = EXAMPLES.iter().map(|bytes| first_entries(bytes, 3)).collect();
    reads.push(Read { bytes: EMPTIED.to_vec(), numbers: vec![7] });
    reads.extend(cut_off());
    reads.extend(damaged());
    reads.extend(absent());
    for size in [2, 3, 4] {
        // entries on both sides of 256 bytes of data
        let bytes = Parts::of(&[255, 1, 2, 256, 1], size).laid();
        reads.push(Read { bytes, numbers: vec![1, 2, 4, 5] });
    }
    reads
}

/// Too big to store: 65,535 entries at each size, whole and cut off, and an entry of a megabyte. Too many: every string of up
/// to five bytes of `ALPHABET`; every INDEX of up to three entries, at each offset size, with each offset from 0 to 4 or with
/// its top byte set, before up to three bytes of data.
pub fn more() -> Vec<Read> {
    let mut reads = Vec::new();
    for size in SIZES {
        let whole = full(size);
        reads.push(Read { bytes: whole[..whole.len() - 1].to_vec(), numbers: Vec::new() });
        reads.push(Read { bytes: whole, numbers: vec![0, 1, 32767, 65533, 65534, 65535] });
    }
    let long = Parts::of(&[1_048_556], 3).laid();
    reads.push(Read { bytes: long, numbers: vec![0, 1] });
    for length in 0..=5 {
        reads.extend(rows(&ALPHABET, length).iter().map(|bytes| first_entries(bytes, 3)));
    }
    for size in SIZES {
        let top = if size == 1 { 255 } else { 1 << (8 * (size - 1)) };
        for count in 1..=3 {
            for offsets in rows(&[0, 1, 2, 3, 4, top], count + 1) {
                reads.extend((0..=3).map(|length| {
                    let parts = Parts { size, offsets: offsets.clone(), data: data(length) };
                    first_entries(&parts.laid(), 4)
                }));
            }
        }
    }
    reads
}

impl Parts {
    /// Of elements with these lengths.
    fn of(lengths: &[u32], size: u8) -> Self {
        let mut offsets = vec![1];
        offsets.extend(lengths.iter().scan(1, |offset, length| {
            *offset += length;
            Some(*offset)
        }));
        let length = offsets[lengths.len()] as usize - 1;
        Parts { size, offsets, data: data(length) }
    }

    /// Offsets by which an entry is absent: an offset of 0; that, and descending, and past the data; descending; past the data; both.
    fn absences(&self, entry: usize) -> [[u32; 2]; 7] {
        let (from, to) = (self.offsets[entry], self.offsets[entry + 1]);
        let after = |offset: u32| offset.wrapping_add(1);
        let past = after(self.offsets[self.offsets.len() - 1]);
        [[0, to], [0, 0], [from, 0], [0, past], [after(to), to], [from, past], [after(past), past]]
    }

    /// The bytes; a size that is none is said, and the offsets have four bytes.
    fn laid(&self) -> Vec<u8> {
        let count = self.offsets.len() as u16 - 1;
        let left_out = 4 - if SIZES.contains(&self.size) { usize::from(self.size) } else { 4 };
        let mut bytes = count.to_be_bytes().to_vec();
        bytes.push(self.size);
        for offset in &self.offsets {
            bytes.extend(&offset.to_be_bytes()[left_out..]);
        }
        bytes.extend(&self.data);
        bytes
    }
}

/// An INDEX of these entries with offsets of a size, and so many bytes of data before the first entry.
pub fn laid(entries: &[&[u8]], size: u8, before: usize) -> Vec<u8> {
    let lengths: Vec<u32> = entries.iter().map(|entry| entry.len() as u32).collect();
    let mut parts = Parts::of(&lengths, size);
    parts.offsets.iter_mut().for_each(|offset| *offset += before as u32);
    parts.data = [data(before), entries.concat()].concat();
    parts.laid()
}

/// Bytes that differ from their neighbours.
pub fn data(length: usize) -> Vec<u8> {
    (0..length).map(|i| (0x11 + 7 * i) as u8).collect()
}

/// All rows of so many of these.
pub fn rows<T: Copy>(these: &[T], length: usize) -> Vec<Vec<T>> {
    let mut rows = vec![vec![]];
    for _ in 0..length {
        rows = rows
            .iter()
            .flat_map(|row| these.iter().map(move |&one| [&row[..], &[one]].concat()))
            .collect();
    }
    rows
}

fn first_entries(bytes: &[u8], entries: u32) -> Read {
    Read { bytes: bytes.to_vec(), numbers: (0..entries).collect() }
}

/// An INDEX at each size, from no bytes up to the whole and one more; and at each size that is none.
fn cut_off() -> Vec<Read> {
    let mut reads = Vec::new();
    for size in SIZES {
        let bytes = [Parts::of(&ELEMENTS, size).laid(), vec![0xFF]].concat();
        reads.extend((0..=bytes.len()).map(|length| first_entries(&bytes[..length], 4)));
        reads.push(Read { bytes, numbers: vec![u32::MAX] });
    }
    for size in [0, 5, 6, 128, 254, 255] {
        let bytes = Parts::of(&ELEMENTS, size).laid();
        reads.extend([3, 4, bytes.len()].map(|length| first_entries(&bytes[..length], 1)));
    }
    reads
}

/// An INDEX at each size with each of its offsets 0, below the one before, above the one behind,
/// past the data, and the most that the size holds.
fn damaged() -> Vec<Read> {
    let mut reads = Vec::new();
    for size in SIZES {
        let sound = Parts::of(&[1, 2, 0, 2], size);
        let last = sound.data.len() as u32 + 1;
        let most = u32::MAX >> (32 - 8 * u32::from(size));
        for at in 0..sound.offsets.len() {
            let before = if at == 0 { 1 } else { sound.offsets[at - 1] };
            let here = sound.offsets[at];
            for offset in [0, before - 1, here + 1, last, last + 1, most] {
                let mut parts = sound.clone();
                parts.offsets[at] = offset;
                reads.push(first_entries(&parts.laid(), 5));
            }
        }
    }
    reads
}

/// An INDEX at each size, with bytes behind its data: its first, a middle and its last entry absent for each reason and for each
/// two at once; two entries absent for different reasons; and a last offset of 0.
fn absent() -> Vec<Read> {
    let mut reads = Vec::new();
    for size in SIZES {
        let sound = Parts { data: data(10), ..Parts::of(&[1, 2, 0, 2, 1, 1], size) };
        let last = sound.offsets.len() - 2;
        for entry in [0, 1, last] {
            for offsets in sound.absences(entry) {
                let mut parts = sound.clone();
                parts.offsets[entry..][..2].copy_from_slice(&offsets);
                reads.push(Read { bytes: parts.laid(), numbers: vec![entry as u32] });
            }
        }
        let ends = |entry: usize| [0, sound.offsets[entry] - 1, sound.offsets[last + 1] + 1];
        for (first, second) in [(0, 1), (0, 2), (1, 0), (1, 2), (2, 0), (2, 1)] {
            let mut parts = sound.clone();
            parts.offsets[2] = ends(1)[first];
            parts.offsets[5] = ends(4)[second];
            reads.push(Read { bytes: parts.laid(), numbers: vec![1, 4] });
        }
        let mut emptied = sound.clone();
        emptied.offsets[last + 1] = 0;
        reads.push(Read { bytes: emptied.laid(), numbers: vec![0, last as u32 + 1, u32::MAX] });
    }
    reads
}

/// Lists of which entries are absent.
pub fn flawed() -> Vec<Vec<u8>> {
    absent().into_iter().map(|read| read.bytes).collect()
}

/// 65,535 entries at an offset size: as many as there can be, a byte in as many as the size allows.
fn full(size: u8) -> Vec<u8> {
    let held = if size == 1 { 254 } else { 65534 };
    let every = 65535 / held;
    let lengths: Vec<u32> =
        (0..65535).map(|i| u32::from(i % every == 0 && i / every < held)).collect();
    Parts::of(&lengths, size).laid()
}

pub fn any_bytes(random: &mut Random) -> Vec<u8> {
    if random.once_in(16) {
        return (0..random.within(0, 9)).map(|_| random.one_of(&ALPHABET)).collect();
    }
    let mut parts = any_parts(random);
    if random.once_in(2) {
        (0..random.one_of(&[1, 1, 2, 3])).for_each(|_| damage(&mut parts, random));
    }
    let mut bytes = parts.laid();
    match random.within(0, 11) {
        0 | 1 => bytes.truncate(random.within(0, bytes.len() as i64) as usize),
        2 => bytes.extend((0..random.within(1, 5)).map(|_| random.next() as u8)),
        3 => {
            let at = random.within(0, bytes.len() as i64 - 1) as usize;
            bytes[at] = random.next() as u8;
        }
        _ => {}
    }
    bytes
}

/// A sound INDEX, of which the first offset now and then is not 1.
fn any_parts(random: &mut Random) -> Parts {
    let count = match random.within(0, 40) {
        0 => random.within(0, 700),
        1..=4 => random.within(0, 40),
        _ => random.within(0, 6),
    };
    let most = random.one_of(&[0, 1, 3, 3, 3, 12, 120]);
    let mut lengths: Vec<u32> = (0..count).map(|_| random.within(0, most) as u32).collect();
    if random.once_in(8) {
        lengths.insert(0, random.within(0, 300) as u32);
    }
    let last = lengths.iter().sum::<u32>() + 1;
    let least = [255, 65535].iter().filter(|&&bound| last > bound).count() as i64 + 1;
    let mut parts = Parts::of(&lengths, random.within(least, 4) as u8);
    if random.once_in(8) {
        let second = parts.offsets.get(1).copied().unwrap_or(1);
        parts.offsets[0] = random.within(1, i64::from(second)) as u32;
    }
    parts
}

/// Another offset in the place of one, an entry that is absent, or another size.
fn damage(parts: &mut Parts, random: &mut Random) {
    let last = parts.offsets.len() - 1;
    if random.once_in(12) {
        parts.size = random.next() as u8;
        return;
    }
    if last > 0 && random.once_in(4) {
        let entry = random.within(0, last as i64 - 1) as usize;
        let offsets = random.one_of(&parts.absences(entry));
        parts.offsets[entry..][..2].copy_from_slice(&offsets);
        return;
    }
    let at = if random.once_in(4) { last } else { random.within(0, last as i64) as usize };
    let here = parts.offsets[at];
    let end = parts.data.len() as u32 + 1;
    parts.offsets[at] = match random.within(0, 6) {
        0 => 0,
        1 => here.saturating_sub(random.within(1, 3) as u32),
        2 => here.wrapping_add(random.within(1, 3) as u32),
        3 => end + random.within(0, 2) as u32,
        4 => here ^ (1 << random.within(0, 31)),
        5 => random.within(0, i64::from(end)) as u32,
        _ => random.next() as u32,
    };
}

/// The number of an entry, mostly one that there is or nearly is.
pub fn any_number(bytes: &[u8], random: &mut Random) -> u32 {
    let count = match bytes {
        [high, low, ..] => i64::from(*high) * 256 + i64::from(*low),
        _ => 0,
    };
    match random.within(0, 19) {
        0 => random.next() as u32,
        1 => u32::MAX,
        2..=4 => (count + random.within(-1, 1)).max(0) as u32,
        _ => random.within(0, count) as u32,
    }
}
