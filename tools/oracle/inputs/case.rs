//! A charstring with its lists, and how it is asked.

use crate::rules::flattening::{flattened, Asked, Verdict};
use crate::rules::index::written;

/// A budget that no case of the list uses up.
pub const AMPLE: u32 = 1_000_000;

pub const PLAIN: u32 = 0;
pub const STRICT: u32 = 1;

/// The operators that call, and the numbers that call entries 0, 1 and 2 of a short list.
pub const LOCAL: u8 = 0x0A;
pub const GLOBAL: u8 = 0x1D;
pub const FIRST: u8 = 0x20;
pub const SECOND: u8 = 0x21;
pub const THIRD: u8 = 0x22;

/// The list without entries, and the local list of docs/RULES.md.
pub const NONE: &[u8] = &[0x00, 0x00];
pub const L: &[u8] = &[0x00, 0x01, 0x01, 0x01, 0x05, 0x8C, 0x8D, 0x15, 0x0B];

/// A charstring and its lists.
#[derive(Clone, PartialEq, Eq, Hash)]
pub struct Case {
    pub charstring: Vec<u8>,
    pub globals: Vec<u8>,
    pub locals: Vec<u8>,
}

/// A flattening.
#[derive(Clone, PartialEq, Eq, Hash)]
pub struct Given {
    pub case: Case,
    pub profile: u32,
    pub budget: u32,
    pub room: usize,
}

impl Case {
    pub fn new(charstring: &[u8], globals: &[u8], locals: &[u8]) -> Self {
        let [charstring, globals, locals] = [charstring, globals, locals].map(<[u8]>::to_vec);
        Case { charstring, globals, locals }
    }

    pub fn asked(&self, profile: u32, budget: u32, room: usize) -> Given {
        Given { case: self.clone(), profile, budget, room }
    }

    /// With all the budget and room that it needs.
    pub fn ample(&self, profile: u32) -> Given {
        self.asked(profile, AMPLE, 4096)
    }

    pub fn both(&self) -> [Given; 2] {
        [self.ample(PLAIN), self.ample(STRICT)]
    }

    pub fn verdict(&self, profile: u32) -> Verdict {
        let Case { charstring, globals, locals } = self;
        flattened(&Asked { strict: profile == STRICT, budget: AMPLE, charstring, globals, locals })
    }

    /// In both profiles, with the budget and the room ample, just enough, one short, and none.
    pub fn around(&self) -> Vec<Given> {
        let mut asked = Vec::new();
        for profile in [PLAIN, STRICT] {
            let verdict = self.verdict(profile);
            let (length, tokens) = (verdict.length(), verdict.tokens());
            asked.push(self.ample(profile));
            for budget in [0, tokens.saturating_sub(1), tokens] {
                asked.push(self.asked(profile, budget, length));
            }
            for room in [0, length.saturating_sub(1), length, length + 1] {
                asked.push(self.asked(profile, tokens, room));
            }
        }
        asked
    }
}

/// An INDEX of these entries.
pub fn list<T: AsRef<[u8]>>(entries: &[T]) -> Vec<u8> {
    let lengths: Vec<u32> = entries.iter().map(|entry| entry.as_ref().len() as u32).collect();
    let data: Vec<u8> = entries.iter().flat_map(|entry| entry.as_ref().to_vec()).collect();
    written(&lengths, &data).expect("the lengths are those of the data")
}
