//! The rules for flattening (docs/RULES.md), as a reader that follows calls, keeps what it read as a row
//! of items, and joins them at the end. Nothing here asks the Rust.

use super::explaining::{Entering, Fate};
use super::index::{self as indexes, Flaw};
use super::marking::Entered;
use super::number::{self as numbers, Operand, Place};

/// A refusal's number.
pub type Refusal = u32;

/// The width that a charstring says, if any.
pub type Width = Option<Operand>;

/// What is to be flattened, and by which rules.
pub struct Asked<'a> {
    pub strict: bool,
    pub budget: u32,
    pub charstring: &'a [u8],
    pub globals: &'a [u8],
    pub locals: &'a [u8],
}

/// The verdict, whatever the room.
#[derive(Clone, Debug, PartialEq, Eq)]
pub enum Verdict {
    /// The flat string, the tokens, and the width.
    Flat(Vec<u8>, u32, Width),
    /// A list is not well formed: which, and what is wrong with it.
    BadList(Refusal, Flaw),
    /// The refusal of the run, and the tokens begun.
    Stopped(Refusal, u32),
}

impl Verdict {
    /// The tokens that a run takes, and so the least budget with this verdict.
    pub fn tokens(&self) -> u32 {
        match self {
            Verdict::Flat(_, tokens, _) | Verdict::Stopped(_, tokens) => *tokens,
            Verdict::BadList(..) => 0,
        }
    }

    /// The least room with this verdict.
    pub fn length(&self) -> usize {
        match self {
            Verdict::Flat(flat, ..) => flat.len(),
            _ => 0,
        }
    }
}

const MOST_OPERANDS: usize = 48;

/// An item of the flat string, and the token that it came from. A mask stays where it stands, behind its operator.
struct Item<'a> {
    token: u32,
    bytes: Vec<u8>,
    mask: &'a [u8],
}

/// A flat string that is not joined, so that one of any length can be told.
pub struct Flat<'a>(Vec<Item<'a>>);

/// The run's first refusal or the flat string, the tokens begun, the width so far, what the run met, the entries that it marks, and
/// the calls that are open where it was refused, the outermost first.
pub struct Ran<'a> {
    pub flat: Result<Flat<'a>, Refusal>,
    pub tokens: u32,
    pub width: Width,
    pub met: Met,
    pub entered: Entered,
    pub open: Vec<Entering>,
}

/// The verdict on a run, what it met, the entries that it marks, and the calls that are open.
pub struct Judged {
    pub verdict: Verdict,
    pub met: Met,
    pub entered: Entered,
    pub open: Vec<Entering>,
}

/// What decides about the operands that wait where a run comes to a mask.
#[derive(Clone, Copy)]
pub struct AtMask {
    pub strict: bool,
    pub operator: u8,
    pub waiting: bool,
    /// Whether a mask came before.
    pub later: bool,
    /// Whether the length is fixed: it is not 0.
    pub fixed: bool,
    /// Whether bytes of that length lack.
    pub lacking: bool,
}

/// What becomes of them.
#[derive(Clone, Copy)]
pub enum Operands {
    /// They declare hints.
    Declare,
    Stay,
    /// 15.
    Refused,
    /// By no rule, but by a planted fault.
    Cleared,
}

/// How a string came to its end.
#[derive(Clone, Copy, PartialEq)]
pub enum By {
    RunningOut,
    Return,
    Endchar,
}

/// What decides about what follows where a string of a run comes to its end.
#[derive(Clone, Copy)]
pub struct AtEnd {
    pub strict: bool,
    /// 1 for the charstring itself.
    pub depth: u32,
    pub by: By,
    /// Whether the string has no bytes.
    pub empty: bool,
}

/// What follows.
#[derive(Clone, Copy, PartialEq)]
pub enum Ending {
    /// Back to the caller, behind the call; where there is none, everything ends.
    Back,
    Everything,
    /// 16.
    Refused,
}

/// What decides about the width where a run comes to an operator.
#[derive(Clone, Copy)]
pub struct AtOperator<'s> {
    /// Its byte, of an escaped one the first.
    pub operator: u8,
    /// The operands that wait, the bottom one first, each with the token that it came from.
    pub waiting: &'s [(Operand, u32)],
    /// What an operator before has settled.
    pub settled: Option<Width>,
    /// Whether masks have bytes by now.
    pub fixed: bool,
    /// 1 in the charstring itself.
    pub depth: u32,
}

/// What decides about a mark where a run enters an entry.
#[derive(Clone, Copy)]
pub struct AtEntry {
    pub global: bool,
    pub number: u32,
    /// Of the entry, so 2 where the charstring itself calls it.
    pub depth: u32,
    /// Whether a global calls it.
    pub by_global: bool,
    /// How many calls were entered before.
    pub before: u64,
}

/// The rules that planted faults have others for.
#[derive(Clone, Copy)]
pub struct Rules {
    pub at_mask: fn(AtMask) -> Operands,
    pub at_end: fn(AtEnd) -> Ending,
    /// The width that an operator settles; `None` where it settles nothing.
    pub at_operator: fn(AtOperator) -> Option<Width>,
    /// Whether an entry is marked.
    pub at_entry: fn(AtEntry) -> bool,
    /// Whether a call is open in the end.
    pub open: fn(Fate) -> bool,
}

pub const RULES: Rules =
    Rules { at_mask, at_end, at_operator, at_entry: |_| true, open: |fate| fate == Fate::Open };

/// The operators that may have a width below their operands, and of how many operands one is that.
const WITH_WIDTH: [(&[u8], fn(usize) -> bool); 4] = [
    (&[1, 3, 18, 23, 19, 20], |waiting| waiting % 2 == 1),
    (&[21], |waiting| waiting > 2),
    (&[4, 22], |waiting| waiting > 1),
    (&[14], |waiting| waiting > 0),
];

/// The first operator settles it, but a call or a return.
pub fn at_operator(at: AtOperator) -> Option<Width> {
    if at.settled.is_some() || [10, 29, 11].contains(&at.operator) {
        return None;
    }
    Some(width_at(at.operator, at.waiting))
}

/// The width that these operands have at an operator.
pub fn width_at(operator: u8, waiting: &[(Operand, u32)]) -> Width {
    let row = WITH_WIDTH.iter().find(|(operators, _)| operators.contains(&operator));
    row.filter(|(_, has)| has(waiting.len())).map(|_| waiting[0].0)
}

pub fn at_end(at: AtEnd) -> Ending {
    match at {
        AtEnd { by: By::Endchar, .. } => Ending::Everything,
        AtEnd { strict: true, depth: 1, .. } => Ending::Refused,
        _ => Ending::Back,
    }
}

pub fn at_mask(at: AtMask) -> Operands {
    match at {
        AtMask { fixed: false, .. } => Operands::Declare,
        AtMask { strict: true, waiting: true, .. } => Operands::Refused,
        _ => Operands::Stay,
    }
}

/// A subroutine list and how many entries it has.
#[derive(Clone, Copy)]
struct List<'a> {
    bytes: &'a [u8],
    count: u32,
}

/// Both lists, well formed, and the rules to run by.
#[derive(Clone, Copy)]
pub struct Lists<'a> {
    globals: List<'a>,
    locals: List<'a>,
    rules: Rules,
}

/// What a run met: calls that it entered, those of globals, those by a Fixed, and of these the nearly whole; masks; the depth; whether
/// an operator of an entry settled the width.
#[derive(Clone, Copy, Debug, Default)]
pub struct Met {
    pub calls: u64,
    pub globals: u64,
    pub fixed: u64,
    pub nearly: u64,
    pub masks: u64,
    pub deepest: u32,
    pub inner_width: bool,
}

struct Run<'a> {
    strict: bool,
    budget: u32,
    lists: Lists<'a>,
    tokens: u32,
    /// The operands, each with the token that it came from.
    stack: Vec<(Operand, u32)>,
    flat: Vec<Item<'a>>,
    hints: usize,
    mask_length: usize,
    /// The width, once an operator has settled it.
    width: Option<Width>,
    met: Met,
    entered: Entered,
    /// Whether the string that is run is a global's.
    in_global: bool,
    /// The calls that lead to it, the outermost first.
    open: Vec<Entering>,
}

/// 1, 2, then the run's first refusal; 16 is that of its end.
pub fn flattened(asked: &Asked) -> Verdict {
    let formed = [asked.globals, asked.locals].map(indexes::formed);
    match Lists::known(asked.globals, asked.locals, formed) {
        Ok(lists) => lists.flattened(asked.charstring, asked.strict, asked.budget).verdict,
        Err((refusal, flaw)) => Verdict::BadList(refusal, flaw),
    }
}

impl Flat<'_> {
    pub fn length(&self) -> u64 {
        self.0.iter().map(|item| (item.bytes.len() + item.mask.len()) as u64).sum()
    }

    pub fn joined(&self) -> Vec<u8> {
        self.0.iter().flat_map(|item| [&item.bytes[..], item.mask]).collect::<Vec<_>>().concat()
    }
}

impl<'a> Lists<'a> {
    /// 1, then 2, by the count of each list or what is wrong with it.
    pub fn known(
        globals: &'a [u8],
        locals: &'a [u8],
        formed: [Result<u32, Flaw>; 2],
    ) -> Result<Self, (Refusal, Flaw)> {
        let [global, local] = formed;
        let bad = |refusal| move |flaw| (refusal, flaw);
        Ok(Lists {
            globals: List { bytes: globals, count: global.map_err(bad(1))? },
            locals: List { bytes: locals, count: local.map_err(bad(2))? },
            rules: RULES,
        })
    }

    /// The same, by other rules.
    pub fn by(self, rules: Rules) -> Self {
        Lists { rules, ..self }
    }

    /// How many entries each has.
    pub fn counts(self) -> [u32; 2] {
        [self.globals.count, self.locals.count]
    }

    pub fn flattened(self, charstring: &'a [u8], strict: bool, budget: u32) -> Judged {
        let ran = self.run(charstring, strict, budget);
        let verdict = match ran.flat {
            Ok(flat) => Verdict::Flat(flat.joined(), ran.tokens, ran.width),
            Err(refusal) => Verdict::Stopped(refusal, ran.tokens),
        };
        Judged { verdict, met: ran.met, entered: ran.entered, open: ran.open }
    }

    pub fn run(self, charstring: &'a [u8], strict: bool, budget: u32) -> Ran<'a> {
        let mut run = Run {
            strict,
            budget,
            lists: self,
            tokens: 0,
            stack: Vec::new(),
            flat: Vec::new(),
            hints: 0,
            mask_length: 0,
            width: None,
            met: Met::default(),
            entered: Entered::default(),
            in_global: false,
            open: Vec::new(),
        };
        let flat = run.string(charstring, 1).map(|_| Flat(run.flat));
        let Run { tokens, width, met, entered, open, .. } = run;
        Ran { flat, tokens, width: width.flatten(), met, entered, open }
    }
}

impl Met {
    fn call(&mut self, global: bool, operand: Operand, depth: u32) {
        self.calls += 1;
        self.globals += u64::from(global);
        self.deepest = self.deepest.max(depth);
        if let Operand::Fixed(n) = operand {
            self.fixed += 1;
            self.nearly += u64::from(n % 65536 != 0);
        }
    }
}

impl<'a> Run<'a> {
    /// Runs a string at a depth, and tells what follows; 16 where it may not end so.
    fn string(&mut self, bytes: &'a [u8], depth: u32) -> Result<Ending, Refusal> {
        let Some(by) = self.to_end(bytes, depth)? else { return Ok(Ending::Everything) };
        let at = AtEnd { strict: self.strict, depth, by, empty: bytes.is_empty() };
        match (self.lists.rules.at_end)(at) {
            Ending::Refused => Err(16),
            ending => Ok(ending),
        }
    }

    /// Runs its tokens, and tells how it came to its end; `None` where an entry that it called ended everything.
    fn to_end(&mut self, bytes: &'a [u8], depth: u32) -> Result<Option<By>, Refusal> {
        let mut left = bytes;
        while let Some(&first) = left.first() {
            if self.tokens == self.budget {
                return Err(3);
            }
            self.tokens += 1;
            if !matches!(first, 28 | 32..=255) {
                self.settle(first, depth);
            }
            match first {
                28 | 32..=255 => left = self.number(left)?,
                12 => left = self.escaped(&left[1..])?,
                19 | 20 => left = self.mask(first, &left[1..])?,
                10 | 29 => {
                    let at = bytes.len() - left.len();
                    left = &left[1..];
                    if self.call(first == 29, at, depth)? == Ending::Everything {
                        return Ok(None);
                    }
                }
                11 => return Ok(Some(By::Return)),
                14 => {
                    self.end_char()?;
                    return Ok(Some(By::Endchar));
                }
                _ => {
                    left = &left[1..];
                    self.operator(first)?;
                }
            }
        }
        Ok(Some(By::RunningOut))
    }

    fn settle(&mut self, operator: u8, depth: u32) {
        let (settled, fixed) = (self.width, self.mask_length > 0);
        let at = AtOperator { operator, waiting: &self.stack, settled, fixed, depth };
        if let Some(width) = (self.lists.rules.at_operator)(at) {
            self.width = Some(width);
            self.met.inner_width = width.is_some() && depth > 1;
        }
    }

    fn keep(&mut self, bytes: Vec<u8>) {
        self.keep_with(bytes, &[]);
    }

    fn keep_with(&mut self, bytes: Vec<u8>, mask: &'a [u8]) {
        self.flat.push(Item { token: self.tokens, bytes, mask });
    }

    /// 4, then 5. What follows the number comes back, here and below.
    fn number(&mut self, from: &'a [u8]) -> Result<&'a [u8], Refusal> {
        let (operand, width) = numbers::read(Place::Charstring, from)?;
        if self.stack.len() == MOST_OPERANDS {
            return Err(5);
        }
        self.stack.push((operand, self.tokens));
        self.keep(numbers::written(Place::Charstring, operand)?);
        Ok(&from[width..])
    }

    /// The operators of one byte that neither call, end nor have a mask.
    fn operator(&mut self, b: u8) -> Result<(), Refusal> {
        match b {
            1 | 3 | 18 | 23 => self.count_hints()?,
            4..=8 | 21 | 22 | 24..=27 | 30 | 31 => self.stack.clear(),
            _ => return Err(6),
        }
        self.keep(vec![b]);
        Ok(())
    }

    fn escaped(&mut self, from: &'a [u8]) -> Result<&'a [u8], Refusal> {
        let (&b, after) = from.split_first().ok_or(4u32)?;
        if !(34..=37).contains(&b) {
            return Err(6);
        }
        self.stack.clear();
        self.keep(vec![12, b]);
        Ok(after)
    }

    fn count_hints(&mut self) -> Result<(), Refusal> {
        let most = if self.strict { 96 } else { 65535 };
        self.hints += self.stack.len() / 2;
        if self.hints > most {
            return Err(11);
        }
        self.stack.clear();
        Ok(())
    }

    /// 15, 11, then 4.
    fn mask(&mut self, b: u8, from: &'a [u8]) -> Result<&'a [u8], Refusal> {
        let at = AtMask {
            strict: self.strict,
            operator: b,
            waiting: !self.stack.is_empty(),
            later: self.met.masks > 0,
            fixed: self.mask_length > 0,
            lacking: from.len() < self.mask_length,
        };
        match (self.lists.rules.at_mask)(at) {
            Operands::Declare => {
                self.count_hints()?;
                self.mask_length = self.hints.div_ceil(8);
            }
            Operands::Stay => {}
            Operands::Refused => return Err(15),
            Operands::Cleared => self.stack.clear(),
        }
        let (mask, after) = from.split_at_checked(self.mask_length).ok_or(4u32)?;
        self.keep_with(vec![b], mask);
        self.met.masks += 1;
        Ok(after)
    }

    /// 7, 9, 10, 8, and then what the entry gives. The operator stands at a place of its string.
    fn call(&mut self, global: bool, at: usize, depth: u32) -> Result<Ending, Refusal> {
        let list = if global { self.lists.globals } else { self.lists.locals };
        let deepest = if self.strict { 11 } else { 64 };
        let (operand, token) = self.stack.pop().ok_or(7u32)?;
        let callee = numbers::callee(operand, self.strict, list.count)?;
        let outer = self.open.len();
        self.open.push(Entering { global, entry: callee, at });
        if depth == deepest {
            return self.leave(outer, Fate::Refused, Err(10));
        }
        if self.flat.pop().is_none_or(|last| last.token != token) {
            return self.leave(outer, Fate::Refused, Err(8));
        }
        self.enter(global, callee, depth + 1);
        self.met.call(global, operand, depth + 1);
        let entry = indexes::entry(list.bytes, callee).expect("the list is well formed");
        let caller = std::mem::replace(&mut self.in_global, global);
        let ending = self.string(&list.bytes[entry.place..entry.place + entry.length], depth + 1);
        self.in_global = caller;
        let fate = match ending {
            Err(_) => Fate::Open,
            Ok(Ending::Everything) => Fate::Ended,
            Ok(_) => Fate::Back,
        };
        self.leave(outer, fate, ending)
    }

    /// What comes of a call, which `outer` others lead to.
    fn leave(
        &mut self,
        outer: usize,
        fate: Fate,
        ending: Result<Ending, Refusal>,
    ) -> Result<Ending, Refusal> {
        if !(self.lists.rules.open)(fate) {
            self.open.remove(outer);
        }
        ending
    }

    /// Marks an entry that is entered.
    fn enter(&mut self, global: bool, number: u32, depth: u32) {
        let (by_global, before) = (self.in_global, self.met.calls);
        if (self.lists.rules.at_entry)(AtEntry { global, number, depth, by_global, before }) {
            self.entered[usize::from(!global)].insert(number);
        }
    }

    fn end_char(&mut self) -> Result<(), Refusal> {
        if self.stack.len() >= 4 {
            return Err(12);
        }
        self.keep(vec![14]);
        Ok(())
    }
}
