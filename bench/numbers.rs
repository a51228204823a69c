//! Reading and writing the numbers of a charstring: ours and the unchanged Rust in one process, in turns, the best
//! of many passes.

mod timing;

use oracle::library::{ighzamrel_read_charstring_number, ighzamrel_write_charstring_number};
use oracle::random::Random;
use std::hint::black_box;
use std::process::ExitCode;
use subsetter::cff::number::Number;
use subsetter::read::Reader;
use subsetter::write::Writer;

const NUMBERS: usize = 10_000;
const PASSES: u32 = 200;
const SEED: u64 = 5177;

/// A kind of number, by its form.
#[derive(Clone, Copy)]
enum Form {
    One,
    Two,
    Three,
    Fixed,
    /// Six of one byte to three of two and one of three.
    Mixed,
}

const FORMS: [(&str, Form); 5] = [
    ("one byte", Form::One),
    ("two bytes", Form::Two),
    ("three bytes", Form::Three),
    ("a Fixed", Form::Fixed),
    ("mixed, 6 : 3 : 1 of one to three bytes", Form::Mixed),
];

fn main() -> ExitCode {
    println!("{NUMBERS} numbers, best of {PASSES} passes, the two sides in turns; nanoseconds a number. Ours is called through C, the Rust may be inlined.");
    println!("Writing goes to one buffer of ours, not cleared between passes, and to one Vec of the Rust's, new at each pass.");
    println!();
    println!("| what | numbers | ours | the Rust | the Rust / ours |");
    println!("|---|---|---|---|---|");
    for (name, form) in FORMS {
        if let Err(difference) = measure(name, &numbers(form)) {
            eprintln!("{name}: {difference}");
            return ExitCode::FAILURE;
        }
    }
    ExitCode::SUCCESS
}

/// Both rows of a form, once both sides answer the same.
fn measure(name: &str, bytes: &[u8]) -> Result<(), &'static str> {
    let (ours, rust) = (read_all(bytes), parsed(bytes));
    let mut room = vec![0; bytes.len()];
    let length = write_all(&ours, &mut room);
    if (ours.len(), rust.len()) != (NUMBERS, NUMBERS)
        || room[..length] != write_by_the_rust(&rust)[..]
    {
        return Err("the two sides differ");
    }
    let read = timing::best_of(
        PASSES,
        [&mut || drop(black_box(read_all(black_box(bytes)))), &mut || {
            drop(black_box(parsed(black_box(bytes))))
        }],
    );
    row("read", name, read);
    let written = timing::best_of(
        PASSES,
        [
            &mut || {
                black_box(write_all(black_box(&ours), &mut room));
            },
            &mut || drop(black_box(write_by_the_rust(black_box(&rust)))),
        ],
    );
    row("written", name, written);
    Ok(())
}

fn row(what: &str, name: &str, [ours, rust]: [f64; 2]) {
    let each = |time: f64| time / NUMBERS as f64;
    println!("| {what} | {name} | {:.2} | {:.2} | {:.2} |", each(ours), each(rust), rust / ours);
}

/// The bytes of so many numbers of a form.
fn numbers(form: Form) -> Vec<u8> {
    let mut random = Random::new(SEED);
    let mut bytes = Vec::new();
    for i in 0..NUMBERS {
        match (form, i % 10) {
            (Form::One, _) | (Form::Mixed, 0..=5) => bytes.push(random.within(32, 246) as u8),
            (Form::Two, _) | (Form::Mixed, 6..=8) => {
                bytes.extend([random.within(247, 254) as u8, random.next() as u8])
            }
            (Form::Three, _) | (Form::Mixed, _) => {
                bytes.extend([28, random.within(16, 127) as u8, random.next() as u8])
            }
            (Form::Fixed, _) => {
                bytes.extend([&[255][..], &(random.next() as u32).to_be_bytes()].concat())
            }
        }
    }
    bytes
}

/// Each number's kind and value.
fn read_all(bytes: &[u8]) -> Vec<(u32, i32)> {
    let mut all = Vec::with_capacity(NUMBERS);
    let mut at = 0;
    while at < bytes.len() {
        let (mut kind, mut value, mut width) = (0, 0, 0);
        let rest = &bytes[at..];
        // SAFETY: the pointer and the length are a slice's, and the places outlive the call.
        let answer = unsafe {
            ighzamrel_read_charstring_number(
                rest.as_ptr(),
                rest.len(),
                &mut kind,
                &mut value,
                &mut width,
            )
        };
        if answer != 0 {
            break;
        }
        all.push((kind, value));
        at += width;
    }
    all
}

fn parsed(bytes: &[u8]) -> Vec<Number> {
    let mut r = Reader::new(bytes);
    let mut all = Vec::with_capacity(NUMBERS);
    while !r.at_end() {
        let Some(number) = Number::parse_char_string_number(&mut r) else { break };
        all.push(number);
    }
    all
}

/// How many bytes were written.
fn write_all(numbers: &[(u32, i32)], out: &mut [u8]) -> usize {
    let mut at = 0;
    for &(kind, value) in numbers {
        let mut length = 0;
        let rest = &mut out[at..];
        // SAFETY: as above.
        unsafe {
            ighzamrel_write_charstring_number(
                kind,
                value,
                rest.as_mut_ptr(),
                rest.len(),
                &mut length,
            )
        };
        at += length;
    }
    at
}

fn write_by_the_rust(numbers: &[Number]) -> Vec<u8> {
    let mut w = Writer::new();
    numbers.iter().for_each(|&number| w.write(number));
    w.finish()
}
