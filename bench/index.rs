//! Reading an INDEX of 30,000 entries, its entries, and whether it is well formed: ours and the
//! unchanged Rust in one process, in turns, the best of many passes.

mod timing;

use oracle::library::{ighzamrel_check_list, ighzamrel_read_entry, ighzamrel_read_index};
use std::hint::black_box;
use std::process::ExitCode;
use subsetter::cff::index::{parse_index, Index};
use subsetter::read::Reader;

const ENTRIES: u32 = 30_000;
const PASSES: u32 = 200;

/// How often a pass reads the whole INDEX, which takes a few nanoseconds.
const READS: u32 = 10_000;

/// What each list is: its offset size, and how many bytes all its entries have.
const LISTS: [(u8, u32); 4] = [(1, 254), (2, 60_000), (3, 600_000), (4, 18_000_000)];

fn main() -> ExitCode {
    println!("{ENTRIES} entries; best of {PASSES} passes, the two sides in turns; nanoseconds");
    println!("Neither side writes to a buffer, so that none is cleared. The Rust may be inlined here, ours is called.");
    println!();
    println!("| offset size | what | ours | Rust | Rust / ours |");
    println!("|---|---|---|---|---|");
    for (size, data) in LISTS {
        let bytes = list(size, data);
        if let Err(difference) = compare(&bytes) {
            eprintln!("offset size {size}: {difference}");
            return ExitCode::FAILURE;
        }
        measure(size, &bytes);
    }
    ExitCode::SUCCESS
}

/// A list whose entries have `data` bytes together, spread evenly.
fn list(size: u8, data: u32) -> Vec<u8> {
    let mut bytes = (ENTRIES as u16).to_be_bytes().to_vec();
    bytes.push(size);
    for i in 0..=u64::from(ENTRIES) {
        let offset = 1 + (i * u64::from(data) / u64::from(ENTRIES)) as u32;
        bytes.extend(&offset.to_be_bytes()[4 - usize::from(size)..]);
    }
    bytes.extend((0..data).map(|i| i as u8));
    bytes
}

/// That both sides answer the same on this list, entry by entry.
fn compare(bytes: &[u8]) -> Result<(), String> {
    let mut r = Reader::new(bytes);
    let index = parse_index::<u16>(&mut r).ok_or("the Rust does not read it")?;
    if read(bytes) != (index.len(), r.offset()) || index.len() != ENTRIES {
        return Err("the two sides read it differently".into());
    }
    for number in 0..ENTRIES {
        let part = index
            .get(number)
            .map(|part| (part.as_ptr() as usize - bytes.as_ptr() as usize, part.len()));
        if part != Some(entry(bytes, number)) {
            return Err(format!("entry {number} differs"));
        }
    }
    if formed(bytes) != ENTRIES || !formed_by_the_rust(bytes) {
        return Err("it is not well formed".into());
    }
    Ok(())
}

fn measure(size: u8, bytes: &[u8]) {
    row(
        size,
        "read, a call",
        READS,
        || {
            for _ in 0..READS {
                black_box(read(black_box(bytes)));
            }
        },
        || {
            for _ in 0..READS {
                black_box(read_by_the_rust(black_box(bytes)));
            }
        },
    );
    measure_entries(size, bytes);
    row(
        size,
        "well formed, an entry",
        ENTRIES,
        || {
            black_box(formed(black_box(bytes)));
        },
        || {
            black_box(formed_by_the_rust(black_box(bytes)));
        },
    );
}

/// An entry from the bytes, and where the Rust has read the INDEX before.
fn measure_entries(size: u8, bytes: &[u8]) {
    let numbers = shuffled();
    let index = parsed(bytes);
    let each_entry = || {
        for &i in &numbers {
            black_box(entry(black_box(bytes), i));
        }
    };
    row(size, "an entry, from the bytes", ENTRIES, each_entry, || {
        for &i in &numbers {
            black_box(parsed(black_box(bytes)).get(i));
        }
    });
    row(size, "an entry, where the Rust has read the INDEX before", ENTRIES, each_entry, || {
        for &i in &numbers {
            black_box(black_box(&index).get(i));
        }
    });
}

fn row(size: u8, what: &str, things: u32, ours: impl Fn(), rust: impl Fn()) {
    let [ours, rust] = timing::best_of(PASSES, [&mut || ours(), &mut || rust()]);
    let each = |nanoseconds: f64| nanoseconds / f64::from(things);
    println!("| {size} | {what} | {:.2} | {:.2} | {:.2} |", each(ours), each(rust), rust / ours);
}

/// Every entry's number once, in an order that no prefetcher follows.
fn shuffled() -> Vec<u32> {
    (0..ENTRIES).map(|i| (u64::from(i) * 7919 % u64::from(ENTRIES)) as u32).collect()
}

fn read(bytes: &[u8]) -> (u32, usize) {
    let (mut count, mut taken) = (0, 0);
    // SAFETY: the pointer and the length are a slice's, and both places outlive the call.
    unsafe { ighzamrel_read_index(bytes.as_ptr(), bytes.len(), &mut count, &mut taken) };
    (count, taken)
}

fn entry(bytes: &[u8], number: u32) -> (usize, usize) {
    let (mut place, mut length) = (0, 0);
    // SAFETY: as above.
    unsafe { ighzamrel_read_entry(bytes.as_ptr(), bytes.len(), number, &mut place, &mut length) };
    (place, length)
}

/// The count of a well-formed list.
fn formed(bytes: &[u8]) -> u32 {
    let (mut count, mut entry) = (0, 0);
    // SAFETY: as above.
    unsafe { ighzamrel_check_list(bytes.as_ptr(), bytes.len(), &mut count, &mut entry) };
    count
}

fn read_by_the_rust(bytes: &[u8]) -> (u32, usize) {
    let mut r = Reader::new(bytes);
    let index = parse_index::<u16>(&mut r).expect("it was read before");
    (index.len(), r.offset())
}

fn parsed(bytes: &[u8]) -> Index<'_> {
    parse_index::<u16>(&mut Reader::new(bytes)).expect("it was read before")
}

/// The Rust has no such function: an INDEX that is read, and hands out each entry.
fn formed_by_the_rust(bytes: &[u8]) -> bool {
    let index = parsed(bytes);
    (0..index.len()).all(|i| index.get(i).is_some())
}
