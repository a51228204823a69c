//! The stored list of the program `cases`: its standard input, and the output it owes.

use crate::operation::Call;
use crate::operations::OPERATIONS;
use crate::random::Random;
use crate::record::UNREADABLE;
use std::fs;
use std::path::Path;

const SEED: u64 = 2;

/// The most bytes that a record of the random sample has, so that the list stays small.
const STORED: usize = 500;

/// A length of 9, and then only three bytes.
const CUT_OFF: [u8; 7] = [0, 0, 0, 9, 1, 0, 0];

/// Records that are none. No operation is ever to have the numbers 0, 31 and 255; the last two's numbers are more than a record
/// holds.
const NO_RECORDS: [&[u8]; 6] = [
    &[],
    &[0],
    &[31],
    &[255, 0, 0, 0, 0],
    &[7, 0x40, 0, 0, 0, 0, 0, 0, 0, 0, 0, 0, 0],
    &[34, 0, 0, 0, 0, 0, 0, 0, 0, 0, 0x40, 0, 0, 0, 0, 0, 0, 0, 0, 0, 0, 0, 0, 0, 0, 0],
];

pub fn write(folder: &str) -> Result<(), String> {
    let mut stdin = Vec::new();
    let mut stdout = String::new();
    let mut put = |record: &[u8], line: &str| {
        stdin.extend((record.len() as u32).to_be_bytes());
        stdin.extend(record);
        stdout += line;
        stdout += "\n";
    };
    let mut records = 0;
    for call in sound() {
        put(&call.record(), &call.line().map_err(|why| call.described() + &why)?);
        records += 1;
    }
    for record in NO_RECORDS {
        put(record, UNREADABLE);
        records += 1;
    }
    // a byte too few, all but one too few and one too many; the sound one between them must still be read
    for operation in OPERATIONS {
        let call = (operation.listed)(operation).swap_remove(0);
        let record = call.record();
        put(&record[..record.len() - 1], UNREADABLE);
        put(&record[..1], UNREADABLE);
        put(&[&record[..], &[0]].concat(), UNREADABLE);
        put(&record, &call.line()?);
        records += 4;
    }
    stdin.extend(CUT_OFF);
    stdout += UNREADABLE;
    stdout += "\n";

    let folder = Path::new(folder);
    let failed = |why: std::io::Error| format!("{}: {why}", folder.display());
    fs::create_dir_all(folder).map_err(failed)?;
    fs::write(folder.join("stdin"), stdin).map_err(failed)?;
    fs::write(folder.join("stdout"), stdout).map_err(failed)?;
    println!("{records} records, and one cut off");
    Ok(())
}

/// Of each operation the inputs of the list, a random sample, and those that make no record.
fn sound() -> Vec<Call<'static>> {
    let mut random = Random::new(SEED);
    let mut calls = Vec::new();
    for operation in OPERATIONS {
        calls.extend((operation.listed)(operation));
        let any = std::iter::repeat_with(|| (operation.random)(operation, &mut random));
        calls.extend(any.filter(|call| call.record().len() <= STORED).take(operation.sample));
        calls.extend((operation.beyond)());
    }
    calls
}
