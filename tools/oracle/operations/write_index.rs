//! Writing an INDEX: 7.

use super::write_charstring_number::{into_room, read_back, rooms};
use super::{read_entry, read_index};
use crate::inputs::index::{data, rows};
use crate::library::ighzamrel_write_index;
use crate::operation::{Argument, Call, Found, Lent, Must, Next, Operation, Outcome, Owed, Place, BARE};
use crate::record::MOST;
use crate::random::Random;
use crate::rules::index as rules;
use crate::source::index as source;
use std::borrow::Cow;

pub static OPERATION: Operation = Operation {
    number: 7,
    name: "write_index",
    arguments: &[Argument::Numbers, Argument::Bytes(0), Argument::Room],
    places: &[Place::Size],
    answers: &[(0, 1), (13, 1), (22, 0), (23, 0), (24, 0)],
    found: Found::Written,
    owed,
    invoke,
    next,
    listed: |_| listed(),
    beyond: || vec![write(&[], &[], MOST + 1)],
    more: |_| more(),
    random: |_, random| any(random),
    ..BARE
};

fn invoke(_: &Call, lent: &Lent) -> u32 {
    let ((lengths, count), (data, size)) = (lent.numbers, lent.slices[0]);
    unsafe { ighzamrel_write_index(lengths, count, data, size, lent.out, lent.room, lent.place(0)) }
}

fn write(lengths: &[u32], joined: &[u8], room: usize) -> Call<'static> {
    let mut call = Call { room, ..Call::of(&OPERATION) };
    call.numbers = Cow::Owned(lengths.to_vec());
    call.slices[0] = Cow::Owned(joined.to_vec());
    call
}

/// The examples, each refusal and around it, and the last offset at a bound of its size.
fn listed() -> Vec<Call<'static>> {
    let half = 1 << 31;
    let refused: [&[u32]; 9] = [
        &[u32::MAX],
        &[u32::MAX - 1, 1],
        &[half, half],
        &[half - 1, half],
        &[u32::MAX, 1],
        &[u32::MAX, u32::MAX, 3],
        &[u32::MAX - 1],
        &[half - 1, half - 1],
        &[half, half - 2],
    ];
    let mut calls = [into_rooms(&[1, 0], 1), into_rooms(&[], 0)].concat();
    calls.extend([1, 2, 3].map(|length| write(&[], &data(length), 16)));
    calls.extend([0, 2, 3].map(|length| write(&[0, 1], &data(length), 16)));
    for lengths in refused {
        calls.extend([write(lengths, &[], 16), write(lengths, &[0x0E], 0)]);
    }
    calls.extend(into_rooms(&[1, 0, 2], 3));
    calls.extend([254, 255].into_iter().flat_map(among_empty_ones));
    calls.extend([65534, 65535].map(|length| whole(&[length, 0], 0)));
    calls.push(too_many());
    calls
}

/// Too big to store: as many elements as there can be, and one more; the last offset at each bound of its size, one of them
/// longer than a record. Too many: every writing of up to four elements of up to three bytes, with as much data, one byte
/// more and one less.
fn more() -> Vec<Call<'static>> {
    let mut calls = vec![write(&[0; 65536], &[], MOST)];
    calls.extend(into_rooms(&[0; 65535], 0));
    calls.extend(into_rooms(&[1; 65535], 65535));
    for last in [65535, 65536] {
        calls.extend(into_rooms(&[last - 1], last as usize - 1));
        calls.extend(into_rooms(&[0, 1, last - 2, 0], last as usize - 1));
    }
    for bound in [255, 65_535, 16_777_215] {
        calls.extend([bound - 1, bound].map(|length| whole(&[length], 1)));
    }
    for lengths in (0..=4).flat_map(|count| rows(&[0, 1, 2, 3], count)) {
        let sum = lengths.iter().sum::<u32>() as usize;
        calls.extend((sum.saturating_sub(1)..=sum + 1).flat_map(|n| into_rooms(&lengths, n)));
    }
    calls
}

/// 65,536 lengths, with all else wrong as well.
fn too_many() -> Call<'static> {
    let mut lengths = vec![0; 65536];
    lengths[0] = u32::MAX;
    lengths[65535] = u32::MAX;
    write(&lengths, &[0x0E], 0)
}

/// An element before, between and behind empty ones, into enough room, and into too little by one.
fn among_empty_ones(length: u32) -> Vec<Call<'static>> {
    [(0, 0), (2, 0), (0, 2), (1, 1)]
        .into_iter()
        .flat_map(|(before, behind)| {
            let list = [&vec![0; before][..], &[length], &vec![0; behind]].concat();
            [whole(&list, 0), write(&list, &data(length as usize), needed(&list) - 1)]
        })
        .collect()
}

/// Into just the room that it needs and so much more.
fn whole(lengths: &[u32], more: usize) -> Call<'static> {
    write(lengths, &data(lengths.iter().sum::<u32>() as usize), needed(lengths) + more)
}

/// Into no room, too little by one, just enough, one more, and much more.
fn into_rooms(lengths: &[u32], data_length: usize) -> Vec<Call<'static>> {
    let needed = needed(lengths);
    [0, needed - 1, needed, needed + 1, needed + 30]
        .map(|room| write(lengths, &data(data_length), room.min(MOST)))
        .to_vec()
}

/// How many bytes these take, if they can be written: only to know which rooms are near.
fn needed(lengths: &[u32]) -> usize {
    let sum = lengths.iter().fold(0u32, |sum, &length| sum.saturating_add(length));
    let size = 4 - (sum.saturating_add(1).leading_zeros() / 8);
    match lengths.len() as u32 {
        0 => 2,
        count => (3 + (count + 1) * size).saturating_add(sum) as usize,
    }
}

/// A writing that mostly is accepted, into room that mostly is just enough.
fn any(random: &mut Random) -> Call<'static> {
    if random.once_in(5000) {
        return write(&vec![0; random.within(65534, 65538) as usize], &[], MOST);
    }
    let mut lengths = any_lengths(random);
    let needed = needed(&lengths) as i64;
    let room = match random.within(0, 5) {
        0 => random.within(0, needed),
        1 => needed - 1,
        2 => needed + random.within(1, 40),
        _ => needed,
    };
    let sum = lengths.iter().sum::<u32>() as usize;
    let length = match random.within(0, 15) {
        0 => sum + random.within(1, 3) as usize,
        1 => sum.saturating_sub(random.within(1, 3) as usize),
        _ => sum,
    };
    if random.once_in(12) {
        for _ in 0..random.within(1, 3) {
            let at = random.within(0, lengths.len() as i64) as usize;
            let near = random.within(-2, 2) as u32;
            let long = random.one_of(&[u32::MAX, 1 << 31, 0, u32::MAX / 3]);
            lengths.insert(at, long.wrapping_add(near));
        }
    }
    write(&lengths, &data(length), room as usize)
}

/// Lengths of elements, now and then with a sum around a bound of the offset size.
fn any_lengths(random: &mut Random) -> Vec<u32> {
    let count = if random.once_in(30) { random.within(0, 600) } else { random.within(0, 7) };
    let most = random.one_of(&[0, 1, 4, 4, 4, 60]);
    let mut lengths: Vec<u32> = (0..count).map(|_| random.within(0, most) as u32).collect();
    if random.once_in(10) {
        let bound = if random.once_in(200) { 65535 } else { 255 };
        let sum = lengths.iter().map(|&length| i64::from(length)).sum::<i64>();
        lengths.push((bound + random.within(-3, 3) - sum).max(0) as u32);
    }
    lengths
}

fn owed(call: &Call) -> Result<Owed, String> {
    let (lengths, data) = (&call.numbers[..], &call.slices[0]);
    match rules::written(lengths, data) {
        Ok(rule) => {
            let source = source::written(elements(lengths, data));
            Owed::by_both(into_room(call, rule.clone()), Some(rule), source)
        }
        Err(22) => {
            let source = source::written(elements(lengths, data));
            Owed::by_both(Outcome::refused(22), None, source)
        }
        Err(refusal) => Ok(Owed::by_rule(Outcome::refused(refusal))),
    }
}

/// The elements, cut from their joined data. Where there are too many the data need not be theirs,
/// and an element that has none is empty: 22 is about how many there are.
fn elements(lengths: &[u32], data: &[u8]) -> Vec<Vec<u8>> {
    let mut left = data;
    let mut next = |&length: &u32| {
        let (element, after) = left.split_at_checked(length as usize).unwrap_or_default();
        left = after;
        element.to_vec()
    };
    lengths.iter().map(&mut next).collect()
}

/// What was written reads back as an INDEX of these elements; the first and the last ones are looked at.
fn next<'a>(call: &'a Call<'a>, outcome: &'a Outcome) -> Vec<Next<'a>> {
    let mut next = rooms(call, outcome);
    if outcome.answer != 0 {
        return next;
    }
    let lengths = &call.numbers;
    let size = outcome.bytes.len();
    let whole = vec![lengths.len() as i64, size as i64];
    next.extend(read_back(&read_index::OPERATION, outcome, whole));
    let entry = |number: usize, values| {
        let mut next = read_back(&read_entry::OPERATION, outcome, values)?;
        next.call.number = number as u32;
        Some(next)
    };
    let mut place = size - call.slices[0].len();
    for (i, &length) in lengths.iter().enumerate() {
        if i < 7 || i + 1 == lengths.len() {
            next.extend(entry(i, vec![place as i64, length.into()]));
        }
        place += length as usize;
    }
    let behind = entry(lengths.len(), Vec::new());
    next.extend(behind.map(|next| Next { must: Must::Refuse(25), ..next }));
    next
}
