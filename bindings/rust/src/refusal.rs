//! What the library answers where it does not accept.

use std::error::Error;
use std::fmt;

/// What may come with a refusal.
#[derive(Clone, Copy, PartialEq, Eq)]
enum Value {
    Length,
    Glyph,
    Tokens,
    Entry,
    Reason,
}

/// The enum of refusals: number, name, what comes with it, its text, its words before the tokens, and those where a list is
/// refused for a reason.
macro_rules! refusals {
    ($($number:literal $name:ident [$($value:ident)*] $text:literal $(($at:literal))? $({$clause:literal})?)*) => {
        /// Why an input was refused. The names and numbers are those of `include/ighzamrel.h`.
        ///
        /// Its text, by `Display`, is its number and a sentence for a person, as the crate's first example shows.
        #[derive(Clone, Copy, Debug, PartialEq, Eq, Hash, PartialOrd, Ord)]
        #[non_exhaustive]
        #[repr(u32)]
        pub enum Refusal {
            $(
                #[doc = concat!($number, ": ", $text, ".")]
                $name = $number,
            )*
        }

        impl Refusal {
            /// Every refusal, by its number.
            pub const ALL: [Refusal; [$($number),*].len()] = [$(Refusal::$name),*];

            const fn text(self) -> &'static str {
                match self {
                    $(Refusal::$name => $text,)*
                }
            }

            const fn at(self) -> &'static str {
                match self {
                    $(Refusal::$name => concat!($($at)?),)*
                }
            }

            const fn clause(self) -> &'static str {
                match self {
                    $(Refusal::$name => concat!($($clause)?),)*
                }
            }

            const fn values(self) -> &'static [Value] {
                match self {
                    $(Refusal::$name => &[$(Value::$value),*],)*
                }
            }
        }
    };
}

// The list is made from refusals.txt, by `tools/refusals --write`.
refusals! {
    1 BadGlobals [Entry Reason] "the list of global subroutines is not well formed" {"the global list's "}
    2 BadLocals [Entry Reason] "the list of local subroutines is not well formed" {"the local list's "}
    3 BudgetSpent [Glyph Tokens] "the budget is spent" (" after token ")
    4 BytesLacking [Glyph Tokens] "a number, an operator or a mask lacks bytes" (", at token ")
    5 TooManyOperands [Glyph Tokens] "more than 48 operands wait" (", at token ")
    6 Unknown [Glyph Tokens] "a byte starts no number, or an operator is not supported" (", at token ")
    7 NoIndex [Glyph Tokens] "a call has no index, or one that is not whole" (", at token ")
    8 IndexNotLast [Glyph Tokens] "a call's index does not stand last in the flat string" (", at token ")
    9 NoEntry [Glyph Tokens] "a call names a subroutine that is not there" (", at token ")
    10 TooDeep [Glyph Tokens] "calls nest over 64 strings deep in plain, over 11 in strict" (", at token ")
    11 TooManyHints [Glyph Tokens] "there are over 65535 hints in plain, over 96 in strict" (", at token ")
    12 Composite [Glyph Tokens] "endchar has four operands or more, for a glyph made of two others" (", at token ")
    13 Short [Length Tokens] "the result is longer than the room for it"
    15 OperandsAtMask [Glyph] "operands wait at a mask whose length is fixed, in strict"
    16 NoEndchar [Glyph] "the charstring comes to its end without endchar, in strict"
    17 Outside16Bits [] "an integer to be written into a charstring is outside 16 bits"
    20 IndexLacking [] "an INDEX lacks bytes" {"bytes end too soon"}
    21 OffsetSize [] "the offset size of an INDEX is not 1 to 4" {"offset size is not 1 to 4"}
    22 TooManyElements [] "an INDEX to be written has over 65535 elements"
    23 TooLong [] "an INDEX to be written has a last offset over 4294967295"
    24 LengthsMismatch [] "the lengths of an INDEX to be written do not add up to its data"
    25 PastCount [Glyph] "the INDEX has no entry of that number"
    26 BadCharstrings [Entry Reason] "the CharStrings INDEX is not well formed" {"the CharStrings INDEX's "}
    40 ZeroOffset [Entry] "an offset of the entry, or the INDEX's last, is 0" {"an offset, or the list's last, is 0"}
    41 Descending [Entry] "the offsets of the entry descend" {"its offsets descend"}
    42 PastData [Entry] "the offsets of the entry pass the data" {"its offsets pass the data"}
    43 RowTooShort [] "a row is too short for its list's entries"
}

impl Refusal {
    /// The number of the refusal.
    pub const fn number(self) -> u32 {
        self as u32
    }

    /// The refusal that the library answered with.
    pub(crate) fn told(answer: u32) -> Refusal {
        Refusal::try_from(answer).unwrap_or_else(|unknown| {
            panic!("libighzamrel.a is of another version than this crate: {unknown}")
        })
    }

    fn has(self, value: Value) -> bool {
        self.values().contains(&value)
    }

    /// The refusal, with those of the values that come with it; with a reason comes what comes with that, and tokens of
    /// several glyphs only with the one that they are of.
    pub(crate) fn with(self, offered: Offered) -> Refused {
        let reason = offered.reason.filter(|_| self.has(Value::Reason));
        let reason = reason.map(Refusal::told);
        let glyph = offered.glyph.filter(|_| self.has(Value::Glyph));
        let run = glyph.is_some() == offered.glyph.is_some();
        Refused {
            refusal: self,
            needed: offered.length.filter(|_| self.has(Value::Length)),
            glyph,
            by_place: offered.by_place && glyph.is_some(),
            tokens: offered.tokens.filter(|_| run && self.has(Value::Tokens)),
            entry: offered
                .entry
                .filter(|_| reason.unwrap_or(self).has(Value::Entry)),
            reason,
        }
    }
}

/// What a function has in its places; None where it has no such place.
#[derive(Default)]
pub(crate) struct Offered {
    pub length: Option<usize>,
    pub glyph: Option<u32>,
    /// Whether that is a place among numbers of glyphs.
    pub by_place: bool,
    pub tokens: Option<u32>,
    pub entry: Option<u32>,
    pub reason: Option<u32>,
}

impl fmt::Display for Refusal {
    fn fmt(&self, f: &mut fmt::Formatter<'_>) -> fmt::Result {
        Refused::from(*self).fmt(f)
    }
}

impl Error for Refusal {}

impl TryFrom<u32> for Refusal {
    type Error = NoRefusal;

    fn try_from(number: u32) -> Result<Refusal, NoRefusal> {
        let found = Refusal::ALL
            .into_iter()
            .find(|refusal| refusal.number() == number);
        found.ok_or(NoRefusal(number))
    }
}

impl From<Refusal> for u32 {
    fn from(refusal: Refusal) -> u32 {
        refusal.number()
    }
}

/// A number that no refusal has; 0, which is accepted, among them.
#[derive(Clone, Copy, Debug, PartialEq, Eq)]
pub struct NoRefusal(
    /// The number.
    pub u32,
);

impl fmt::Display for NoRefusal {
    fn fmt(&self, f: &mut fmt::Formatter<'_>) -> fmt::Result {
        write!(f, "no refusal has the number {}", self.0)
    }
}

impl Error for NoRefusal {}

/// A refusal with the values that the answer gives.
#[derive(Clone, Copy, Debug, PartialEq, Eq, Hash, PartialOrd, Ord)]
pub struct Refused {
    /// Which refusal it is.
    pub refusal: Refusal,
    /// With [`Refusal::Short`], how many bytes the result needs.
    pub needed: Option<usize>,
    /// The first glyph that is refused. Where a whole font is flattened it is the glyph's number, counted from 0; where
    /// glyphs are asked for by their numbers ([`flatten_glyphs`](crate::flatten_glyphs)), the place of its number among
    /// these, counted from 0.
    pub glyph: Option<u32>,
    /// Whether `glyph` is such a place. The text then says `place 3: `, and else `glyph 3: `.
    pub by_place: bool,
    /// In flattening, how many tokens were run, the refused one among them but at [`Refusal::BudgetSpent`]; of several
    /// glyphs, those of the refused one. None where a list is not well formed, a row too short, or a glyph not there, for
    /// then nothing was run, and with [`Refusal::OperandsAtMask`] and [`Refusal::NoEndchar`], which come without them.
    pub tokens: Option<u32>,
    /// Where a list is not well formed for want of an entry, the number of the first that it has not.
    pub entry: Option<u32>,
    /// With [`Refusal::BadGlobals`], [`Refusal::BadLocals`] and [`Refusal::BadCharstrings`], what is wrong with the
    /// list: [`Refusal::IndexLacking`] or [`Refusal::OffsetSize`]; or, with the entry, [`Refusal::ZeroOffset`],
    /// [`Refusal::Descending`] or [`Refusal::PastData`].
    pub reason: Option<Refusal>,
}

impl From<Refusal> for Refused {
    /// The refusal alone.
    fn from(refusal: Refusal) -> Refused {
        refusal.with(Offered::default())
    }
}

impl Refused {
    /// Whose list it is, its entry, and what is wrong with it.
    fn say_reason(&self, reason: Refusal, f: &mut fmt::Formatter<'_>) -> fmt::Result {
        write!(f, "{}", self.refusal.clause())?;
        if let Some(entry) = self.entry {
            write!(f, "entry {entry}: ")?;
        }
        write!(f, "{}", reason.clause())
    }

    fn say_tokens(&self, tokens: u32, f: &mut fmt::Formatter<'_>) -> fmt::Result {
        match (self.refusal.at(), tokens) {
            ("", 1) => write!(f, " (after 1 token)"),
            ("", _) => write!(f, " (after {tokens} tokens)"),
            (at, _) => write!(f, "{at}{tokens}"),
        }
    }
}

impl fmt::Display for Refused {
    fn fmt(&self, f: &mut fmt::Formatter<'_>) -> fmt::Result {
        write!(f, "refusal {}: ", self.refusal.number())?;
        if let Some(reason) = self.reason {
            return self.say_reason(reason, f);
        }
        if let Some(glyph) = self.glyph {
            let what = if self.by_place { "place" } else { "glyph" };
            write!(f, "{what} {glyph}: ")?;
        }
        write!(f, "{}", self.refusal.text())?;
        if let Some(needed) = self.needed {
            write!(f, ", which must be {needed} bytes")?;
        }
        if let Some(entry) = self.entry {
            write!(f, " (entry {entry})")?;
        }
        match self.tokens {
            Some(tokens) => self.say_tokens(tokens, f),
            None => Ok(()),
        }
    }
}

impl Error for Refused {
    fn source(&self) -> Option<&(dyn Error + 'static)> {
        Some(&self.refusal)
    }
}

/// The values where the answer is 0, else the refusal alone.
pub(crate) fn told<T>(answer: u32, values: T) -> Result<T, Refusal> {
    match answer {
        0 => Ok(values),
        _ => Err(Refusal::told(answer)),
    }
}

/// The values where the answer is 0, else the refusal with those offered that come with it.
pub(crate) fn told_with<T>(answer: u32, values: T, offered: Offered) -> Result<T, Refused> {
    told(answer, values).map_err(|refusal| refusal.with(offered))
}

/// The length that was written, or the refusal with the length that 13 gives.
pub(crate) fn written(answer: u32, length: usize) -> Result<usize, Refused> {
    let offered = Offered {
        length: Some(length),
        ..Offered::default()
    };
    told_with(answer, length, offered)
}
