//! A fuzzer's bytes as a call, and a call as such bytes, which are the seeds. HEAD bytes come first:
//!
//!     0       which operation, by its place among them
//!     1       flags, as below
//!     2       a number that is added to the others' sum; see `may_be_long`
//!     3, 4    the budget, modulo 5000; where it may be long, as it is, and from FFF0 on 150000; of a font, a tenth of that, and where
//!             there are very many numbers, a thousandth of the tenth
//!     5, 6    the room, modulo 600; from FFF0 on, 40000
//!     7..10   a value; where there are rows, 7 and 8 are how many bytes more than one too few each has, modulo 6; where there are
//!             words, 7 is how many; where there are numbers, 7 and 8 are how many bytes behind those of 15..18 say them
//!     11..14  a number; where there are rows, what they hold, over and over
//!     15..18  how many bytes behind the head are the last slice, and the one before it; the first slice is all that is left

use crate::inputs::case::NONE;
use crate::operation::{Argument, Call, Operation};
use crate::operations::OPERATIONS;
use crate::rules::index::{entries, formed};
use crate::rules::marking::row_size;
use std::borrow::Cow;
use std::path::Path;

const HEAD: usize = 19;

const STRICT: u8 = 1;
const FIXED: u8 = 2;
/// A list is an INDEX built from its bytes, cut into entries; else its bytes as they are.
const BUILT: u8 = 4;
/// All lists of subroutines are the very bytes of the first.
const SHARED: u8 = 8;
/// Strict, and a Fixed, by numbers other than 1.
const ODD: u8 = 16;
/// Where it may be long, there are 65,534 numbers or some more.
const MANY: u8 = 32;
/// Numbers are of two bytes, and the data of an INDEX that is written are cut or lengthened to what they say.
const FITTED: u8 = 64;

const AMPLE: u32 = 150_000;
const WIDE: usize = 40_000;
const MOST_SUM: u64 = 1 << 16;

fn word(bytes: &[u8]) -> u32 {
    bytes.iter().fold(0, |n, &b| n << 8 | u32::from(b))
}

/// The first bytes of those that are left.
fn cut<'a>(left: &mut &'a [u8], size: usize) -> &'a [u8] {
    let (first, rest) = left.split_at(size.min(left.len()));
    *left = rest;
    first
}

/// Lists of 33,900 entries, INDEXes of 65,535 elements and runs of many tokens take long. What the bytes add up to says
/// whether they may come up, so that they stay as rare as this, however much the fuzzer likes them.
fn may_be_long(bytes: &[u8]) -> bool {
    bytes.iter().map(|&b| u32::from(b)).sum::<u32>() % 64 == 0
}

pub fn call(bytes: &[u8]) -> Call<'static> {
    let long = may_be_long(bytes);
    let mut left = bytes;
    let mut head = [0; HEAD];
    let given = cut(&mut left, HEAD);
    head[..given.len()].copy_from_slice(given);
    let flags = if long { head[1] } else { head[1] & !MANY };
    let operation = OPERATIONS[usize::from(head[0]) % OPERATIONS.len()];
    let mut call = Call::of(operation);
    let odd = |flag: u8, odd: u32| match flags & (flag | ODD) {
        both if both == flag | ODD => odd,
        one => u32::from(one & flag != 0),
    };
    if operation.arguments.contains(&Argument::Kind) {
        call.kind = odd(FIXED, 0x0101_0100);
    }
    call.profile = odd(STRICT, 0x8000_0000);
    call.budget = budget(operation, word(&head[3..5]), long, flags);
    call.room = match word(&head[5..7]) as usize {
        room if room < 0xFFF0 => room % 600,
        _ => WIDE,
    };
    call.value = word(&head[7..11]) as i32;
    call.number = word(&head[11..15]);
    let last = cut(&mut left, word(&head[15..17]) as usize);
    let middle = cut(&mut left, word(&head[17..19]) as usize);
    if operation.takes_numbers() {
        let from = cut(&mut left, word(&head[7..9]) as usize);
        call.numbers = Cow::Owned(numbers(from, flags));
    }
    fill(&mut call, [left, middle, last], flags, long);
    if operation.takes_rows() {
        call.rows = rows(&call, &head).map(Cow::Owned);
    }
    if operation.takes_words() {
        call.words = head[7].into();
    }
    call
}

/// The rows of the second list and of the third.
fn rows(call: &Call, head: &[u8; HEAD]) -> [Vec<u8>; 2] {
    [0, 1].map(|i| {
        let size = needed(call, i) + usize::from(head[7 + i] % 6);
        head[11..15].iter().copied().cycle().take(size.saturating_sub(1)).collect()
    })
}

/// How many bytes a row needs.
fn needed(call: &Call, row: usize) -> usize {
    formed(&call.slices[row + 1]).map_or(0, row_size)
}

fn budget(operation: &Operation, said: u32, long: bool, flags: u8) -> u32 {
    let budget = match said {
        _ if !long => said % 5000,
        0..0xFFF0 => said,
        _ => AMPLE,
    };
    budget / glyphs(operation, flags)
}

/// Among how many glyphs the budget is shared out.
fn glyphs(operation: &Operation, flags: u8) -> u32 {
    match (operation.takes_font(), operation.takes_numbers() && flags & MANY != 0) {
        (true, true) => 10_000,
        (true, false) => 10,
        (false, _) => 1,
    }
}

fn fill(call: &mut Call, slices: [&[u8]; 3], flags: u8, long: bool) {
    let mut first_list: Option<usize> = None;
    for argument in call.operation.arguments {
        match *argument {
            Argument::Bytes(i) if call.operation.takes_numbers() => {
                let sum = call.numbers.iter().map(|&length| u64::from(length)).sum();
                call.slices[i] = Cow::Owned(fitted(slices[i], flags, sum));
            }
            Argument::Bytes(i) => call.slices[i] = Cow::Owned(slices[i].to_vec()),
            Argument::List(i) => {
                let charstrings = i == 0 && call.operation.takes_font();
                let shared = first_list.filter(|_| flags & SHARED != 0);
                call.slices[i] = match shared {
                    Some(first) => call.slices[first].clone(),
                    None if flags & BUILT != 0 => Cow::Owned(built(slices[i], charstrings, long)),
                    None => Cow::Owned(slices[i].to_vec()),
                };
                first_list = first_list.or(Some(i)).filter(|_| !charstrings);
            }
            _ => {}
        }
    }
}

/// How many entries a list has at least: around each count at which the bias changes. Charstrings are that many only where it may
/// be long: around 4,096, and around as many as there can be.
fn least(shape: u8, charstrings: bool, long: bool) -> usize {
    let near = usize::from(shape & 15);
    match (shape, charstrings, long) {
        (0..0xD0, ..) | (_, true, false) => 0,
        (_, false, false) => 1_233 + near,
        (_, false, true) => 33_892 + near,
        (0xD0..0xF0, true, true) => 4_089 + near,
        (_, true, true) => 65_520 + near,
    }
}

/// A well-formed INDEX. The first byte says its least offset size, how many bytes of data stand before the first entry, and how
/// many entries there are at least. A byte says the length of each entry that is given; empty ones follow.
fn built(from: &[u8], charstrings: bool, long: bool) -> Vec<u8> {
    let mut left = from;
    let shape = cut(&mut left, 1).first().copied().unwrap_or(0);
    let mut entries: Vec<&[u8]> = Vec::new();
    while let [length, ..] = *left {
        left = &left[1..];
        entries.push(cut(&mut left, usize::from(length)));
    }
    entries.resize(entries.len().max(least(shape, charstrings, long)), &[]);
    let before = usize::from(shape >> 2 & 3);
    let last = 1 + before + entries.iter().map(|entry| entry.len()).sum::<usize>();
    let size = (usize::from(shape & 3) + 1).max(last.ilog2() as usize / 8 + 1);
    if entries.is_empty() {
        return NONE.to_vec();
    }
    let mut index = [&(entries.len() as u16).to_be_bytes()[..], &[size as u8]].concat();
    let mut offset = before as u32 + 1;
    index.extend(&offset.to_be_bytes()[4 - size..]);
    for entry in &entries {
        offset += entry.len() as u32;
        index.extend(&offset.to_be_bytes()[4 - size..]);
    }
    [&index[..], &[0x0E; 3][..before], &entries.concat()].concat()
}

/// Lengths that an INDEX is written from, or numbers of glyphs.
fn numbers(from: &[u8], flags: u8) -> Vec<u32> {
    let width = if flags & FITTED != 0 { 2 } else { 4 };
    let mut numbers: Vec<u32> = from.chunks_exact(width).map(word).collect();
    if flags & MANY != 0 {
        numbers.resize(65_534 + (numbers.len() & 3), 0);
    }
    numbers
}

/// The data, as they are or, where they can be, as many as the lengths say.
fn fitted(from: &[u8], flags: u8, sum: u64) -> Vec<u8> {
    let mut data = from.to_vec();
    if flags & FITTED != 0 && sum <= MOST_SUM {
        data.resize(sum as usize, 0);
    }
    data
}

/// A call as the fuzzer's bytes, where it is one that these can say.
fn seed(call: &Call) -> Option<Vec<u8>> {
    let place =
        OPERATIONS.iter().position(|operation| operation.number == call.operation.number)?;
    let [first, middle, last] = call.slices.each_ref().map(|slice| &slice[..]);
    let numbers: Vec<u8> = call.numbers.iter().flat_map(|number| number.to_be_bytes()).collect();
    let flags = if call.strict() { STRICT } else { 0 } | if call.fixed() { FIXED } else { 0 };
    let mut seed = vec![place as u8, flags, 0];
    let budget = call.budget.saturating_mul(glyphs(call.operation, flags));
    seed.extend((budget.min(4999) as u16).to_be_bytes());
    seed.extend((call.room.min(599) as u16).to_be_bytes());
    seed.extend(match call.operation {
        operation if operation.takes_rows() => said_rows(call),
        operation if operation.takes_words() => [call.words.min(255) as u8, 0, 0, 0, 0, 0, 0, 0],
        operation if operation.takes_numbers() => {
            let [high, low] = u16::try_from(numbers.len()).ok()?.to_be_bytes();
            [high, low, 0, 0, 0, 0, 0, 0]
        }
        _ => said_numbers(call),
    });
    seed.extend(u16::try_from(last.len()).ok()?.to_be_bytes());
    seed.extend(u16::try_from(middle.len()).ok()?.to_be_bytes());
    Some([&seed[..], last, middle, &numbers, first].concat())
}

fn said_numbers(call: &Call) -> [u8; 8] {
    (u64::from(call.value as u32) << 32 | u64::from(call.number)).to_be_bytes()
}

/// The lengths of the rows, and the first byte of each.
fn said_rows(call: &Call) -> [u8; 8] {
    let [first, second] = [0, 1].map(|i| {
        let more = (call.rows[i].len() + 1).saturating_sub(needed(call, i)).min(5);
        (more as u8, call.rows[i].first().copied().unwrap_or(0))
    });
    [first.0, second.0, 0, 0, first.1, second.1, first.1, second.1]
}

/// The same with lists that are built, where they are well formed and their entries short.
fn built_seed(call: &Call) -> Option<Vec<u8>> {
    let mut other = call.owned();
    for list in &mut other.slices {
        let mut from = vec![0];
        for entry in entries(list).ok()? {
            from.push(u8::try_from(entry.len()).ok()?);
            from.extend(entry);
        }
        *list = Cow::Owned(from);
    }
    let mut seed = seed(&other)?;
    seed[1] |= BUILT;
    Some(seed)
}

/// Writes inputs to start from: some of each operation's listed calls that are short, fonts also built, and the long ones, whose
/// bytes add up as `may_be_long` asks by the third of the head.
pub fn write_seeds(folder: &str) -> Result<(), String> {
    const MOST: usize = 300;
    const OF_EACH: usize = 250;
    let mut seeds: Vec<Vec<u8>> = Vec::new();
    for operation in OPERATIONS {
        let listed = (operation.listed)(operation);
        let mut extend = |made: fn(&Call) -> Option<Vec<u8>>| {
            let short = listed.iter().filter_map(made).filter(|seed| seed.len() < MOST);
            let short: Vec<_> = short.collect();
            seeds.extend(short.iter().step_by(short.len().div_ceil(OF_EACH).max(1)).cloned());
        };
        extend(seed);
        if operation.takes_font() {
            extend(built_seed);
        }
    }
    seeds.extend(long_seeds());
    let folder = Path::new(folder);
    std::fs::create_dir_all(folder).map_err(|why| format!("{}: {why}", folder.display()))?;
    for (i, seed) in seeds.iter().enumerate() {
        std::fs::write(folder.join(i.to_string()), seed).map_err(|why| why.to_string())?;
    }
    println!("{} seeds", seeds.len());
    Ok(())
}

/// Those that may be long.
fn long_seeds() -> Vec<Vec<u8>> {
    let mut seeds = [over_lists(), fonts(), explained(), numbered()].concat();
    seeds.push(long_head(7, MANY, 0));
    for seed in &mut seeds {
        let sum = seed.iter().map(|&b| u32::from(b)).sum::<u32>() % 64;
        seed[2] = ((64 - sum) % 64) as u8;
    }
    seeds
}

/// The head of an operation by its number, with all the budget, room and words, and rows of just their length; the slice before
/// the last has so many bytes.
fn long_head(number: u8, flags: u8, middle: usize) -> Vec<u8> {
    let place = OPERATIONS.iter().position(|operation| operation.number == number).unwrap_or(0);
    let mut head = vec![place as u8, flags, 0, 0xFF, 0xFF, 0xFF, 0xFF];
    head.resize(HEAD, 0);
    head[7..9].fill(if OPERATIONS[place].takes_words() { 0xFF } else { 1 });
    head[17..19].copy_from_slice(&(middle as u16).to_be_bytes());
    head
}

/// An operation over one list of subroutines, which is built.
fn over_list(number: u8, flags: u8, list: &[u8], first: &[u8]) -> Vec<u8> {
    [&long_head(number, flags | BUILT | SHARED, list.len())[..], list, first].concat()
}

/// An entry of a list that is built.
fn entry(bytes: &[u8]) -> Vec<u8> {
    [&[bytes.len() as u8], bytes].concat()
}

/// Charstrings over lists with another bias, over 65,535 hints, and with rows or explained over as many flat bytes as a call keeps.
fn over_lists() -> Vec<Vec<u8>> {
    let twice = |i: u8| entry(&[33 + i, 0x0A, 33 + i, 0x0A]);
    let stems = entry(&[&[0x8B; 48][..], &[1]].concat());
    let doubled = [vec![0], (0..12).flat_map(twice).collect(), stems].concat();
    let mut seeds = Vec::new();
    for flags in [0, STRICT] {
        for shape in [0xD6, 0xD7, 0xD8, 0xF7] {
            let calls =
                [0xFE, 0xFF, 0x0A, 0xFE, 0xFE, 0x1D, 0x20, 0x0A, 0x1C, 0x80, 0x00, 0x0A, 0x0E];
            seeds.extend([8, 32, 64].map(|number| over_list(number, flags, &two(shape), &calls)));
        }
        seeds.extend([32, 64].map(|n| over_list(n, flags, &moves(), &[0x22, 0x0A, 0x0E])));
        seeds.push(over_list(8, flags, &doubled, &[0x20, 0x0A, 0x8B, 0x8B, 0x0E]));
    }
    seeds
}

/// Fonts of 4,096 glyphs and one more, and of as many as there can be; and of 16 KiB and 56 KiB of flat strings.
fn fonts() -> Vec<Vec<u8>> {
    let many = |shape: u8| [&[shape][..], &entry(&[0x20, 0x0A, 0x0E])].concat();
    let mut seeds: Vec<_> =
        [0xD7, 0xD8, 0xFE, 0xFF].map(|shape| over_list(33, 0, &two(0), &many(shape))).to_vec();
    for glyphs in [2, 7] {
        let glyphs = entry(&[0x22, 0x0A, 0x22, 0x0A, 0x0E]).repeat(glyphs);
        seeds.push(over_list(33, STRICT, &moves(), &[&[0][..], &glyphs].concat()));
    }
    seeds
}

/// Two glyphs by 65,534 numbers, by one more and by two, also with one that is past the last; and by two more over bad lists.
fn numbered() -> Vec<Vec<u8>> {
    let glyphs = [&[0][..], &entry(&[0x0E]).repeat(2)].concat();
    let seed = |flags: u8, number: u8, count: usize| {
        let numbers = [0, 0, 0, number].repeat(count);
        let mut head = long_head(34, flags | MANY, 0);
        head[7..9].copy_from_slice(&(numbers.len() as u16).to_be_bytes());
        [head, numbers, glyphs.clone()].concat()
    };
    let built = [1, 9].into_iter().flat_map(|number| [0, 1, 2].map(|n| seed(BUILT, number, n)));
    built.chain([seed(0, 1, 2)]).collect()
}

/// Charstrings that are refused in entry 256, also by a call behind 256 bytes.
fn explained() -> Vec<Vec<u8>> {
    let far = [vec![0; 1 + 256], entry(&[0x00])].concat();
    let call = [0xF7, 0x29, 0x0A];
    [0, 256]
        .map(|before| over_list(64, 0, &far, &[&vec![0x15; before], &call[..]].concat()))
        .to_vec()
}

/// Entries of 64, 512 and 4,096 moves.
fn moves() -> Vec<u8> {
    let eight = |called: u8| entry(&[called, 0x0A].repeat(8));
    [vec![0], entry(&[0x15; 64]), eight(0x20), eight(0x21)].concat()
}

/// Two entries, or more by the shape.
fn two(shape: u8) -> Vec<u8> {
    [vec![shape], entry(&[0x8C, 0x0B]), entry(&[0x8D])].concat()
}
