//! Random charstrings that mostly run to their endchar: a width every other time, stems, masks of their length, paths, and calls of
//! subroutines that call others, over lists on both sides of each bias. About a third have one thing wrong in them, and a tenth
//! no endchar.

use super::case::{list, Case, GLOBAL, LOCAL};
use super::font::Font;
use super::loose::{add_number, PATHS, STEMS};
use crate::random::Random;
use crate::rules::number::{bias, written, Operand, Place};

/// A string calls no more once it and its callees have about so many tokens.
const MOST_TOKENS: usize = 400;

/// Bytes that are no operators.
const NO_OPERATORS: [u8; 7] = [0, 2, 9, 13, 15, 16, 17];

/// The operators that move, and how many operands each takes.
const MOVES: [(u8, usize); 3] = [(21, 2), (22, 1), (4, 1)];

/// What a subroutine leaves behind, called with an empty stack.
#[derive(Clone, Copy, PartialEq)]
enum Leaves {
    Nothing,
    Width,
    /// Nothing too.
    Move,
    Operands,
    Hints(usize),
    End,
}

#[derive(Clone, Copy)]
struct Subroutine {
    global: bool,
    at: usize,
    leaves: Leaves,
    /// About as many tokens as a call of it runs.
    tokens: usize,
}

/// A charstring being made, and what there is for it to call.
struct Making<'r> {
    random: &'r mut Random,
    mask_length: usize,
    locals: Vec<Vec<u8>>,
    globals: Vec<Vec<u8>>,
    made: Vec<Subroutine>,
    /// How many strings are made before the one with something wrong, and how many charstrings before the one without endchar.
    until_wrong: i64,
    until_unended: i64,
}

/// A charstring with its lists.
pub fn structured(random: &mut Random) -> Case {
    let Font { mut glyphs, globals, locals } = structured_font(1, random);
    Case { charstring: glyphs.pop().unwrap_or_default(), globals, locals }
}

/// So many charstrings that share their lists, and have masks of one width.
pub fn structured_font(count: usize, random: &mut Random) -> Font {
    let deep = random.once_in(12);
    let locals = vec![Vec::new(); any_count(deep, random)];
    let globals = vec![Vec::new(); any_count(deep, random)];
    let hints = any_hints(random);
    let until_wrong = if random.once_in(3) { random.within(0, 2 + count as i64) } else { -1 };
    let until_unended = if random.once_in(5) { random.within(0, count as i64) } else { -1 };
    let (mask_length, made) = (hints.div_ceil(8), Vec::new());
    let mut making =
        Making { random, mask_length, locals, globals, made, until_wrong, until_unended };
    if deep {
        making.chain();
    }
    for _ in 0..making.random.within(0, 6) {
        making.subroutine();
    }
    let glyphs = (0..count).map(|_| making.charstring(hints, deep)).collect();
    Font { glyphs, globals: list(&making.globals), locals: list(&making.locals) }
}

/// Mostly a few entries; at times as many as a nearly whole Fixed can call, or around a bound of the bias.
fn any_count(deep: bool, random: &mut Random) -> usize {
    let count = match random.within(0, 1999) {
        _ if deep => random.within(36, 80),
        0 => random.within(33_898, 33_901),
        1..=20 => random.within(1238, 1241),
        21..=40 => random.within(300, 500),
        41..=200 => 0,
        _ => random.within(1, 12),
    };
    count as usize
}

fn any_hints(random: &mut Random) -> usize {
    let hints = match random.within(0, 9) {
        0 | 1 => 0,
        2..=5 => random.within(1, 9),
        6..=8 => random.within(10, 40),
        _ => random.within(80, 110),
    };
    hints as usize
}

impl Making<'_> {
    fn charstring(&mut self, hints: usize, deep: bool) -> Vec<u8> {
        let mut string = Vec::new();
        let mut tokens = 0;
        let wide = self.random.once_in(2);
        if wide {
            self.add_width(&mut string);
        }
        if hints > 0 {
            self.add_hints(&mut string, hints, wide);
        } else if self.random.once_in(8) {
            // a glyph without a path
            self.add_end(&mut string, &mut tokens);
            return string;
        } else if !self.random.once_in(4) {
            self.add_move(&mut string);
        }
        if let (true, Some(&outermost)) = (deep, self.made.iter().rfind(|made| made.tokens == 0)) {
            self.add_call(&mut string, outermost);
        }
        self.add_pieces(&mut string, &mut tokens);
        self.add_end(&mut string, &mut tokens);
        string
    }

    /// An endchar, its own or a subroutine's, or a token that lacks bytes; where it is to have none, nothing or a return.
    fn add_end(&mut self, string: &mut Vec<u8>, tokens: &mut usize) {
        let unended = self.until_unended == 0;
        self.until_unended -= 1;
        if unended {
            return string.extend(self.random.one_of(&[&[][..], &[11], &[11, 14]]));
        }
        let ends = |leaves| leaves == Leaves::End;
        match self.random.within(0, 15) {
            0 => add_unfinished(string, self.random),
            1..=3 if self.call_one(string, tokens, ends).is_some() => {}
            _ => string.push(14),
        }
    }

    /// The operand that is to be the width, as often a Fixed as an integer, at times a subroutine's.
    fn add_width(&mut self, string: &mut Vec<u8>) {
        let called = self.random.once_in(4)
            && self.call_one(string, &mut 0, |leaves| leaves == Leaves::Width).is_some();
        match self.random.once_in(2) {
            _ if called => {}
            true => {
                string.extend([&[255], &(self.random.next() as i32).to_be_bytes()[..]].concat())
            }
            false => {
                string.extend([&[28], &(self.random.next() as i16).to_be_bytes()[..]].concat())
            }
        }
    }

    /// A move with its operands, at times a subroutine's.
    fn add_move(&mut self, string: &mut Vec<u8>) {
        let called = self.random.once_in(3)
            && self.call_one(string, &mut 0, |leaves| leaves == Leaves::Move).is_some();
        if called {
            return;
        }
        let (operator, takes) = self.random.one_of(&MOVES);
        self.add_operands(string, takes);
        string.push(operator);
    }

    /// So many hints: by stems, by subroutines of stems, and at times by operands before a first mask. Below the first operands a
    /// width may wait.
    fn add_hints(&mut self, string: &mut Vec<u8>, hints: usize, wide: bool) {
        let mut left = hints;
        while left > 0 {
            let waiting = usize::from(wide && left == hints);
            let fits = |leaves| matches!(leaves, Leaves::Hints(n) if n <= left);
            if self.random.once_in(2) {
                if let Some(Leaves::Hints(n)) = self.call_one(string, &mut 0, fits) {
                    left -= n;
                    continue;
                }
            }
            let n = self.random.within(1, left.min(24 - waiting) as i64) as usize;
            let implied = n == left && self.random.once_in(3);
            left -= n;
            self.add_pairs(string, n, waiting);
            if implied {
                self.add_mask(string);
            } else {
                string.push(self.random.one_of(&STEMS));
            }
        }
    }

    /// The operands of so many hints; at times one more, where there may be, which is the width where no other is.
    fn add_pairs(&mut self, string: &mut Vec<u8>, hints: usize, waiting: usize) {
        let more = usize::from(2 * hints + waiting < 48 && self.random.once_in(6));
        self.add_operands(string, 2 * hints + more);
    }

    fn add_operands(&mut self, string: &mut Vec<u8>, count: usize) {
        (0..count).for_each(|_| add_number(string, self.random));
    }

    fn add_mask(&mut self, string: &mut Vec<u8>) {
        string.push(self.random.one_of(&[19, 20]));
        (0..self.mask_length).for_each(|_| string.push(self.random.next() as u8));
    }

    /// Pieces that each leave an empty stack; in the string whose turn it is, one thing that is wrong.
    fn add_pieces(&mut self, string: &mut Vec<u8>, tokens: &mut usize) {
        let count = self.random.within(1, 6);
        let wrong = if self.until_wrong == 0 { self.random.within(0, count - 1) } else { -1 };
        self.until_wrong -= 1;
        for i in 0..count {
            if i == wrong {
                add_wrong(self, string);
            }
            self.add_piece(string, tokens);
        }
    }

    fn add_piece(&mut self, string: &mut Vec<u8>, tokens: &mut usize) {
        *tokens += 4;
        match self.random.within(0, 9) {
            0..=2 => {
                let operands = self.random.within(0, 6) as usize;
                self.add_operands(string, operands);
                self.add_path(string);
            }
            3 | 4 => self.add_mask(string),
            5 => {
                self.call_one(string, tokens, |leaves| leaves == Leaves::Operands);
                self.add_path(string);
            }
            _ => drop(self.call_one(string, tokens, |leaves| leaves == Leaves::Nothing)),
        }
    }

    fn add_path(&mut self, string: &mut Vec<u8>) {
        if self.random.once_in(8) {
            string.extend([12, self.random.within(34, 37) as u8]);
        } else {
            string.push(self.random.one_of(&PATHS));
        }
    }

    /// Calls any subroutine that fits, where there is one, and tells what it leaves.
    fn call_one(
        &mut self,
        string: &mut Vec<u8>,
        tokens: &mut usize,
        fits: impl Fn(Leaves) -> bool,
    ) -> Option<Leaves> {
        let left = MOST_TOKENS.saturating_sub(*tokens);
        let start = self.random.next() as usize % self.made.len().max(1);
        let (before, after) = self.made.split_at(start);
        let mut fitting = after.iter().chain(before);
        let called = *fitting.find(|made| fits(made.leaves) && made.tokens < left)?;
        self.add_call(string, called);
        *tokens += called.tokens + 2;
        Some(called.leaves)
    }

    fn add_call(&mut self, string: &mut Vec<u8>, called: Subroutine) {
        self.add_call_of(string, called.global, called.at as i64);
    }

    /// A call of an entry, which need not be there.
    fn add_call_of(&mut self, string: &mut Vec<u8>, global: bool, entry: i64) {
        let index = entry - bias(self.count(global) as u32);
        add_index(string, index.clamp(-32768, 32767) as i32, self.random);
        string.push(if global { GLOBAL } else { LOCAL });
    }

    fn count(&self, global: bool) -> usize {
        if global { &self.globals } else { &self.locals }.len()
    }

    /// A new subroutine at the start, the end or elsewhere in a list, if that place is free.
    fn subroutine(&mut self) {
        let global = self.random.once_in(2);
        let Some(last) = self.count(global).checked_sub(1) else { return };
        let elsewhere = self.random.within(0, last as i64) as usize;
        let at = self.random.one_of(&[0, last, elsewhere, elsewhere]);
        if self.made.iter().any(|made| (made.global, made.at) == (global, at)) {
            return;
        }
        let leaves = match self.random.within(0, 11) {
            10 => Leaves::Width,
            11 => Leaves::Move,
            0 | 1 => Leaves::Operands,
            2 | 3 => Leaves::Hints(self.random.within(1, 6) as usize),
            4 => Leaves::End,
            _ => Leaves::Nothing,
        };
        let mut string = Vec::new();
        let tokens = self.add_body(&mut string, leaves);
        match (leaves, self.random.within(0, 49)) {
            (_, 0) => add_unfinished(&mut string, self.random),
            (Leaves::End, _) => string.push(14),
            (_, 1..=30) => string.push(11),
            _ => {}
        }
        self.keep(Subroutine { global, at, leaves, tokens }, string);
    }

    /// What a subroutine is made of, and about how many tokens it runs.
    fn add_body(&mut self, string: &mut Vec<u8>, leaves: Leaves) -> usize {
        let mut tokens = 2;
        match leaves {
            Leaves::Operands => {
                let operands = self.random.within(1, 3) as usize;
                self.add_operands(string, operands);
            }
            Leaves::Width => self.add_width(string),
            Leaves::Move => self.add_move(string),
            Leaves::Hints(hints) => {
                self.add_pairs(string, hints, 0);
                string.push(self.random.one_of(&STEMS));
            }
            Leaves::Nothing | Leaves::End => self.add_pieces(string, &mut tokens),
        }
        tokens
    }

    fn keep(&mut self, subroutine: Subroutine, string: Vec<u8>) {
        let list = if subroutine.global { &mut self.globals } else { &mut self.locals };
        list[subroutine.at] = string;
        self.made.push(subroutine);
    }

    /// Subroutines that each call the one made before, about as many as a limit of the depth; they count for no tokens.
    fn chain(&mut self) {
        let links = match self.random.within(0, 4) {
            0 | 1 => self.random.within(9, 12),
            2 | 3 => self.random.within(61, 66),
            _ => self.random.within(1, 70),
        };
        for i in 0..links as usize {
            let mut string = Vec::new();
            if let Some(&inner) = self.made.last() {
                self.add_call(&mut string, inner);
            }
            if self.random.once_in(4) {
                self.add_path(&mut string);
            }
            let global = i % 2 == 1;
            let link = Subroutine { global, at: i / 2, leaves: Leaves::Nothing, tokens: 0 };
            self.keep(link, string);
        }
    }
}

/// A number in a form that reads as it, or as nearly whole.
fn add_index(string: &mut Vec<u8>, index: i32, random: &mut Random) {
    match random.within(0, 9) {
        0 => string.extend([&[28], &(index as i16).to_be_bytes()[..]].concat()),
        1 | 2 => {
            let n = i64::from(index) * 65536;
            let bits = 64 - n.abs().leading_zeros();
            let most = if bits > 24 { 1 << (bits - 25) } else { 0 };
            let off = if random.once_in(2) { random.within(-most, most) } else { 0 };
            let n = (n + off).clamp(i64::from(i32::MIN), i64::from(i32::MAX)) as i32;
            string.extend([&[255], &n.to_be_bytes()[..]].concat());
        }
        _ => string.extend(
            written(Place::Charstring, Operand::Integer(index)).expect("an index has 16 bits"),
        ),
    }
}

/// One thing that is wrong, or nearly.
fn add_wrong(making: &mut Making, string: &mut Vec<u8>) {
    let call = making.random.one_of(&[LOCAL, GLOBAL]);
    match making.random.within(0, 9) {
        0 => {
            let operands = making.random.within(46, 50) as usize;
            making.add_operands(string, operands);
            making.add_path(string);
        }
        1 => string.push(making.random.one_of(&NO_OPERATORS)),
        2 => string.extend([12, making.random.next() as u8]),
        3 => string.push(call),
        4 => {
            string.push(255);
            string.extend((making.random.next() as i32).to_be_bytes());
            string.push(call);
        }
        5 => add_buried_index(making, string),
        6 => add_far_call(making, string),
        7 => {
            let operands = making.random.within(3, 6) as usize;
            making.add_operands(string, operands);
            string.push(14);
        }
        8 => add_waiting(making, string),
        _ => add_many_hints(making, string),
    }
}

/// A call whose index is not the last item: a mask stands behind it.
fn add_buried_index(making: &mut Making, string: &mut Vec<u8>) {
    making.add_mask(string);
    making.add_call_of(string, false, 0);
    let call = string.pop();
    making.add_mask(string);
    string.extend(call);
}

/// A mask at which operands wait: a few, up to as many as there may be, or what a subroutine leaves. Mostly it is not the first.
fn add_waiting(making: &mut Making, string: &mut Vec<u8>) {
    if !making.random.once_in(4) {
        making.add_mask(string);
    }
    let called = making.random.once_in(3)
        && making.call_one(string, &mut 0, |leaves| leaves == Leaves::Operands).is_some();
    if !called {
        let most = making.random.one_of(&[1, 3, 48]);
        let operands = making.random.within(1, most) as usize;
        making.add_operands(string, operands);
    }
    making.add_mask(string);
    if !making.random.once_in(8) {
        making.add_path(string);
    }
}

/// A call of an entry before the first, after the last, or of any, which may be a caller of this one.
fn add_far_call(making: &mut Making, string: &mut Vec<u8>) {
    let global = making.random.once_in(2);
    let count = making.count(global) as i64;
    let entry = match making.random.within(0, 2) {
        0 => making.random.within(-3, -1),
        1 => count + making.random.within(0, 3),
        _ => making.random.within(0, count),
    };
    making.add_call_of(string, global, entry);
}

/// Stems after which there are more hints than the strict profile takes; the mask's length stays if it is there.
fn add_many_hints(making: &mut Making, string: &mut Vec<u8>) {
    for _ in 0..making.random.within(3, 5) {
        string.resize(string.len() + 48, 0x8B);
        string.push(1);
    }
}

/// A token that lacks bytes.
fn add_unfinished(string: &mut Vec<u8>, random: &mut Random) {
    let unfinished: &[u8] = random.one_of(&[
        &[28][..],
        &[28, 1],
        &[247],
        &[254],
        &[255],
        &[255, 0, 1, 0],
        &[12],
        &[0x8B, 0x8B, 19],
        &[0x8B, 0x8B, 1, 20],
    ]);
    string.extend(unfinished);
}
