//! What one description of an operation holds. The list maker, the comparison, the fuzz target and the planted faults
//! know nothing else of it. A new operation is a file in `operations/`, and its name in the list there.

use crate::random::Random;
use crate::rules::flattening::Met;
use std::borrow::Cow;
use std::collections::BTreeSet;

/// The most places that a C function has.
pub const PLACES: usize = 7;

pub struct Operation {
    /// Its number in the program `cases`.
    pub number: u8,
    /// The C function's, without the library's prefix. `tools/tried` exports those that are no C functions.
    pub name: &'static str,
    pub arguments: &'static [Argument],
    pub places: &'static [Place],
    /// All answers, and for each the places that it gives, as bits. One that gives now some places and now others stands once
    /// for each set of them, a smaller one first.
    pub answers: &'static [(u32, u8)],
    /// The place that tells why an answer came, and all that it may tell. Answers that give it are counted by it.
    pub reasons: Option<(usize, &'static [u32])>,
    /// The place for the kind of a width, and the one for the width, which comes where the kind is 0 or 1.
    pub width: Option<(usize, usize)>,
    /// The place for how many calls are open. Each that the words have room for is told by three of them, the outermost first.
    pub calls: Option<usize>,
    /// Where the bytes come from that an accepted call shows.
    pub found: Found,
    /// What must come: the rule's word, with which the Rust must agree where it has one.
    pub owed: fn(&Call) -> Result<Owed, String>,
    /// Calls the C function.
    pub invoke: fn(&Call, &Lent) -> u32,
    /// Calls that the outcome of this one says something about.
    pub next: for<'a> fn(&'a Call<'a>, &'a Outcome) -> Vec<Next<'a>>,
    /// Inputs for the stored list, and how many random ones it has besides.
    pub listed: fn(&'static Operation) -> Vec<Call<'static>>,
    pub sample: usize,
    /// Inputs that make no record: a kind, a profile or a room out of range.
    pub beyond: fn() -> Vec<Call<'static>>,
    /// Inputs that are too big or too many to store.
    pub more: fn(&'static Operation) -> Vec<Call<'static>>,
    pub random: fn(&'static Operation, &mut Random) -> Call<'static>,
    /// Faults that only this operation can have.
    pub faults: &'static [Fault],
}

/// What a call hands over. An operation takes some of these; its `arguments` say which.
#[derive(Clone)]
pub struct Call<'a> {
    pub operation: &'static Operation,
    pub kind: u32,
    pub value: i32,
    pub number: u32,
    pub profile: u32,
    pub budget: u32,
    pub room: usize,
    pub slices: [Cow<'a, [u8]>; 3],
    /// Lengths, or numbers of glyphs.
    pub numbers: Cow<'a, [u32]>,
    /// The rows as lent.
    pub rows: [Cow<'a, [u8]>; 2],
    /// How many words are lent.
    pub words: usize,
}

/// What a call gives: the answer, the values at the places that it gives, the bytes written or found, the whole rows as an
/// accepted call leaves them, and the words that it tells. A refused one leaves the rows as lent, and gives none.
#[derive(Clone, Debug, PartialEq, Eq)]
pub struct Outcome {
    pub answer: u32,
    pub values: [Option<i64>; PLACES],
    pub bytes: Vec<u8>,
    pub rows: [Vec<u8>; 2],
    pub words: Vec<u64>,
}

/// Which page a block stands against: the one before it, or the one behind it.
#[derive(Clone, Copy, PartialEq)]
pub enum Side {
    Low,
    High,
}

/// What a C function is handed; a fault may touch all of it.
#[derive(Clone, Copy)]
pub struct Lent {
    pub slices: [(*mut u8, usize); 3],
    pub numbers: (*mut u32, usize),
    pub out: *mut u8,
    pub room: usize,
    pub rows: [(*mut u8, usize); 2],
    pub words: (*mut u64, usize),
    pub places: *mut u64,
    /// Whether bytes before the room may be touched, or behind it.
    pub side: Side,
}

/// A fault in a thin layer before the library, by what it does.
pub struct Fault {
    pub name: &'static str,
    pub plant: fn(&Call, &Lent) -> u32,
}

/// What a call has that is lent no numbers.
pub const NO_NUMBERS: Cow<[u32]> = Cow::Borrowed(&[]);

/// A description to complete: nothing is given, found or known to follow.
pub const BARE: Operation = Operation {
    number: 0,
    name: "",
    arguments: &[],
    places: &[],
    answers: &[],
    reasons: None,
    width: None,
    calls: None,
    found: Found::Nothing,
    owed: |_| Err("no rule is given".into()),
    invoke: |_, _| u32::MAX,
    next: |_, _| Vec::new(),
    listed: |_| Vec::new(),
    sample: 500,
    beyond: Vec::new,
    more: |_| Vec::new(),
    random: |operation, _| Call::of(operation),
    faults: &[],
};

/// An argument, in a record's order; the slices and the rows by their place among them.
#[derive(Clone, Copy, PartialEq)]
pub enum Argument {
    Kind,
    Value,
    Number,
    Profile,
    Budget,
    Room,
    Bytes(usize),
    /// Bytes that are to be an INDEX.
    List(usize),
    /// How many whole numbers, and these.
    Numbers,
    /// Bytes that an accepted call changes.
    Row(usize),
    /// How many words are lent.
    Words,
}

/// The type of a place.
#[derive(Clone, Copy, PartialEq)]
pub enum Place {
    U32,
    I32,
    Size,
}

#[derive(Clone, Copy, PartialEq)]
pub enum Found {
    Nothing,
    /// The room; the first place is the length.
    Written,
    /// The first slice; the first place is where, and the second the length.
    InSlice,
}

/// The kind of a width that there is not.
pub const NO_WIDTH: i64 = 2;

/// An answer, and the reason that it tells, if any.
pub type Kind = (u32, Option<i64>);

pub struct Owed {
    pub outcome: Outcome,
    /// Whether the Rust had a word too.
    pub rust: bool,
    pub met: Option<Met>,
}

/// A call whose outcome another one fixes.
pub struct Next<'a> {
    pub call: Call<'a>,
    pub must: Must<'a>,
    pub law: &'static str,
}

pub enum Must<'a> {
    /// What is owed for it, and no more.
    Any,
    GiveTheSame,
    /// The same answer and bytes, and the same at these places.
    GiveTheSameAt(u8),
    /// The same answer, and the same at these places.
    AgreeAt(u8),
    /// The same, and further words behind the same ones.
    GoOn,
    Refuse(u32),
    /// An answer 0 with these bytes.
    Write(&'a [u8]),
    /// An answer 0 with these first values.
    Tell(Vec<i64>),
    /// Just this.
    Give(Outcome),
}

impl<'a> Call<'a> {
    pub fn of(operation: &'static Operation) -> Self {
        let (kind, value, number, profile, budget, room) = (0, 0, 0, 0, 0, 0);
        let none = || Cow::Borrowed(&[][..]);
        let (slices, rows, words) = ([none(), none(), none()], [none(), none()], 0);
        let numbers = NO_NUMBERS;
        Call { operation, kind, value, number, profile, budget, room, slices, numbers, rows, words }
    }

    pub fn fixed(&self) -> bool {
        self.kind != 0
    }

    pub fn strict(&self) -> bool {
        self.profile != 0
    }

    /// The bytes that an argument has, if any.
    pub fn bytes(&self, argument: Argument) -> Option<&Cow<'a, [u8]>> {
        match argument {
            Argument::Row(i) => Some(&self.rows[i]),
            _ => argument.slice().map(|i| &self.slices[i]),
        }
    }

    /// The same call with other bytes for an argument that has some.
    pub fn with_bytes(mut self, argument: Argument, bytes: Vec<u8>) -> Self {
        match (argument, argument.slice()) {
            (Argument::Row(i), _) => self.rows[i] = Cow::Owned(bytes),
            (_, Some(i)) => self.slices[i] = Cow::Owned(bytes),
            _ => {}
        }
        self
    }

    /// The same call, whose slices, numbers and rows stand where this one's do.
    pub fn again(&self) -> Call<'_> {
        let slices = self.slices.each_ref().map(|slice| Cow::Borrowed(&slice[..]));
        let rows = self.rows.each_ref().map(|row| Cow::Borrowed(&row[..]));
        Call { slices, numbers: Cow::Borrowed(&self.numbers), rows, ..*self }
    }

    /// The same call with a slice in the place of another.
    pub fn with<'b>(&'b self, which: usize, slice: &'b [u8]) -> Call<'b> {
        let mut other = self.again();
        other.slices[which] = Cow::Borrowed(slice);
        other
    }

    /// The same call, of its own bytes and numbers.
    pub fn owned(&self) -> Call<'static> {
        let slices = self.slices.each_ref().map(|slice| Cow::Owned(slice.to_vec()));
        let rows = self.rows.each_ref().map(|row| Cow::Owned(row.to_vec()));
        Call { slices, numbers: Cow::Owned(self.numbers.to_vec()), rows, ..*self }
    }
}

impl Outcome {
    pub fn refused(answer: u32) -> Self {
        let (values, bytes, rows) = ([None; PLACES], Vec::new(), Default::default());
        Outcome { answer, values, bytes, rows, words: Vec::new() }
    }

    /// An answer with its first values.
    pub fn told<const N: usize>(answer: u32, values: [i64; N], bytes: Vec<u8>) -> Self {
        let mut told = Outcome { bytes, ..Outcome::refused(answer) };
        told.values.iter_mut().zip(values).for_each(|(place, value)| *place = Some(value));
        told
    }

    /// Whether another has the same answer, and the same at these places.
    fn agrees(&self, other: &Outcome, places: u8) -> bool {
        let at = |i: usize| places >> i & 1 == 0 || self.values[i] == other.values[i];
        self.answer == other.answer && (0..PLACES).all(at)
    }
}

impl Lent {
    pub fn place<T>(&self, which: usize) -> *mut T {
        self.places.wrapping_add(which).cast()
    }

    pub fn word(&self, which: usize) -> u32 {
        // SAFETY: as below.
        unsafe { *self.place(which) }
    }

    pub fn size(&self, which: usize) -> usize {
        // SAFETY: each place is a word of its own.
        unsafe { *self.place(which) }
    }
}

/// The library's answer.
pub fn library(call: &Call, lent: &Lent) -> u32 {
    (call.operation.invoke)(call, lent)
}

impl Operation {
    pub fn shows(&self) -> bool {
        self.found != Found::Nothing
    }

    /// Whether its first list is a font's charstrings, and the others are its subroutines.
    pub fn takes_font(&self) -> bool {
        (0..3).all(|i| self.arguments.contains(&Argument::List(i)))
    }

    /// Whether numbers are lent to it.
    pub fn takes_numbers(&self) -> bool {
        self.arguments.contains(&Argument::Numbers)
    }

    /// Whether rows are lent to it.
    pub fn takes_rows(&self) -> bool {
        self.arguments.contains(&Argument::Row(0))
    }

    /// Whether words are lent to it.
    pub fn takes_words(&self) -> bool {
        self.arguments.contains(&Argument::Words)
    }

    /// Whether it has an answer.
    pub fn has(&self, answer: u32) -> bool {
        self.answers.iter().any(|(own, _)| *own == answer)
    }

    /// The places that an answer gives: of its sets, the first with all places that changed; `None` where there is none.
    pub fn given(&self, answer: u32, changed: u8) -> Option<u8> {
        let fits = |&&(own, places): &&(u32, u8)| own == answer && changed & !places == 0;
        self.answers.iter().find(fits).map(|(_, places)| *places)
    }

    /// What an outcome is counted as.
    pub fn kind(&self, outcome: &Outcome) -> Kind {
        (outcome.answer, self.reasons.and_then(|(place, _)| outcome.values[place]))
    }

    /// All kinds that there are.
    pub fn kinds(&self) -> BTreeSet<Kind> {
        let with_reasons = |&(answer, places): &(u32, u8)| match self.reasons {
            Some((place, reasons)) if places >> place & 1 == 1 => {
                reasons.iter().map(|&reason| (answer, Some(reason.into()))).collect()
            }
            _ => vec![(answer, None)],
        };
        self.answers.iter().flat_map(with_reasons).collect()
    }
}

impl Argument {
    pub fn slice(self) -> Option<usize> {
        match self {
            Argument::Bytes(i) | Argument::List(i) => Some(i),
            _ => None,
        }
    }

    pub fn word(self) -> &'static str {
        match self {
            Argument::List(_) => "list   ",
            Argument::Row(_) => "row    ",
            _ => "bytes  ",
        }
    }
}

impl Owed {
    /// The rule's word alone.
    pub fn by_rule(outcome: Outcome) -> Self {
        Owed { outcome, rust: false, met: None }
    }

    /// The rule's word, which the Rust's has to equal.
    pub fn by_both<T: PartialEq + std::fmt::Debug>(
        outcome: Outcome,
        rule: T,
        source: T,
    ) -> Result<Self, String> {
        if rule != source {
            return Err(format!("  the rule  {rule:?}\n  the Rust  {source:?}\n"));
        }
        Ok(Owed { outcome, rust: true, met: None })
    }
}

impl Must<'_> {
    pub fn holds(&self, first: &Outcome, second: &Outcome) -> bool {
        match self {
            Must::Any => true,
            Must::GiveTheSame => first == second,
            Must::GiveTheSameAt(places) => {
                first.agrees(second, *places) && first.bytes == second.bytes
            }
            Must::AgreeAt(places) => first.agrees(second, *places),
            Must::GoOn => first.agrees(second, u8::MAX) && second.words.starts_with(&first.words),
            Must::Refuse(answer) => second.answer == *answer,
            Must::Write(bytes) => second.answer == 0 && second.bytes == *bytes,
            Must::Tell(values) => {
                second.answer == 0
                    && values.iter().zip(second.values).all(|(own, came)| came == Some(*own))
            }
            Must::Give(outcome) => second == outcome,
        }
    }
}
