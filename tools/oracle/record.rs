//! A call as the program `cases` has it: a record, and the line that is owed for it.

use crate::operation::{Argument, Call, Operation, Outcome, PLACES};

/// The most bytes that a record may have, and the most room that it may ask for.
pub const MOST: usize = 1_048_576;

/// The most bytes that a row may have.
pub const MOST_ROW: usize = 16_384;

/// The most words that may be asked for.
pub const MOST_WORDS: usize = 192;

/// The line for a record that is none.
pub const UNREADABLE: &str = "?";

impl Call<'_> {
    /// Each argument in a record's order: one byte, a word, or a length and its bytes or words.
    pub fn record(&self) -> Vec<u8> {
        let mut record = vec![self.operation.number];
        for argument in self.operation.arguments {
            match *argument {
                Argument::Kind => record.push(self.kind as u8),
                Argument::Profile => record.push(self.profile as u8),
                Argument::Value => record.extend(self.value.to_be_bytes()),
                Argument::Number => record.extend(self.number.to_be_bytes()),
                Argument::Budget => record.extend(self.budget.to_be_bytes()),
                Argument::Room => record.extend((self.room as u32).to_be_bytes()),
                Argument::Words => record.extend((self.words as u32).to_be_bytes()),
                Argument::Numbers => {
                    record.extend((self.numbers.len() as u32).to_be_bytes());
                    record.extend(self.numbers.iter().flat_map(|number| number.to_be_bytes()));
                }
                Argument::Bytes(_) | Argument::List(_) | Argument::Row(_) => {
                    let bytes = self.bytes(*argument).map_or(&[][..], |bytes| &bytes[..]);
                    record.extend((bytes.len() as u32).to_be_bytes());
                    record.extend(bytes);
                }
            }
        }
        record
    }

    /// The line that is owed for the call's record; a kind, a profile, a room, a row, a length or a number of words out of range
    /// makes it no record.
    pub fn line(&self) -> Result<String, String> {
        let long_row = self.rows.iter().any(|row| row.len() > MOST_ROW);
        let long_lent = self.room > MOST || self.words > MOST_WORDS || long_row;
        let long = self.record().len() > MOST || long_lent;
        if self.kind > 1 || self.profile > 1 || long {
            return Ok(UNREADABLE.into());
        }
        Ok((self.operation.owed)(self)?.outcome.line(self.operation))
    }

    /// For people: what is handed over, what is long cut short.
    pub fn described(&self) -> String {
        let mut text = format!("  ighzamrel_{}", self.operation.name);
        for argument in self.operation.arguments {
            text += &match *argument {
                Argument::Kind => format!(", kind {}", self.kind),
                Argument::Profile => format!(", profile {}", self.profile),
                Argument::Value => format!(", value {}", self.value),
                Argument::Number => format!(", number {}", self.number),
                Argument::Budget => format!(", budget {}", self.budget),
                Argument::Room => format!(", room {}", self.room),
                Argument::Words => format!(", words {}", self.words),
                _ => continue,
            };
        }
        for argument in self.operation.arguments {
            if let Some(bytes) = self.bytes(*argument) {
                text += &format!("\n  {} {}", argument.word(), shown(bytes));
            }
            if *argument == Argument::Numbers {
                text += &format!("\n  numbers {}", counted(&self.numbers));
            }
        }
        text + "\n"
    }
}

impl Outcome {
    /// What `cases` prints: the answer, the values that it gives, of an accepted call the bytes and the rows, where it has some, and
    /// the open calls that the words tell.
    pub fn line(&self, operation: &Operation) -> String {
        let mut line = self.answer.to_string();
        let (kind, width) = operation.width.unwrap_or((PLACES, PLACES));
        for (place, value) in self.values.iter().enumerate() {
            line += &match value {
                Some(value) if place == kind => format!(" {}", said(*value, self.values[width])),
                Some(value) if place != width => format!(" {value}"),
                _ => continue,
            };
        }
        if self.answer == 0 && operation.shows() {
            line += &format!(" {}", hex(&self.bytes));
        }
        if self.answer == 0 && operation.takes_rows() {
            self.rows.iter().for_each(|row| line += &format!(" {}", hex(row)));
        }
        for call in self.words.chunks_exact(3) {
            let list = ["L", "G"].get(call[0] as usize).unwrap_or(&UNREADABLE);
            line += &format!(" {list} {} {}", call[1], call[2]);
        }
        line
    }
}

/// A width, by its kind and its value.
fn said(kind: i64, value: Option<i64>) -> String {
    match (kind, value) {
        (0, Some(value)) => value.to_string(),
        (1, Some(value)) => format!("{value}/65536"),
        _ => "-".into(),
    }
}

/// A list of thousands of empty entries is not read by anyone.
const SHOWN: usize = 2000;

/// How many numbers, and these.
fn counted(numbers: &[u32]) -> String {
    let rest = if numbers.len() > SHOWN { ".." } else { "" };
    format!("{}: {:?}{rest}", numbers.len(), &numbers[..numbers.len().min(SHOWN)])
}

fn shown(bytes: &[u8]) -> String {
    let rest = if bytes.len() > SHOWN { ".." } else { "" };
    format!("{}{rest}", hex(&bytes[..bytes.len().min(SHOWN)]))
}

/// Lower-case, `-` for no bytes.
pub fn hex(bytes: &[u8]) -> String {
    if bytes.is_empty() {
        return "-".into();
    }
    bytes.iter().map(|b| format!("{b:02x}")).collect()
}
