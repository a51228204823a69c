//! Why a charstring is refused: the refusal, and the calls that were open where it came.

use std::fmt;

use crate::ffi;
use crate::flattening::{flat, Flat};
use crate::refusal::{Refusal, Refused};
use crate::Profile;

/// One of the two lists of subroutines.
#[derive(Clone, Copy, Debug, PartialEq, Eq, Hash)]
pub enum List {
    /// The list that a glyph's Private DICT leads to; callsubr calls its entries.
    Local,
    /// The list of the whole font; callgsubr calls its entries.
    Global,
}

impl List {
    /// By the word that the library has for it.
    fn of(word: u64) -> List {
        match word {
            0 => List::Local,
            _ => List::Global,
        }
    }
}

impl fmt::Display for List {
    fn fmt(&self, f: &mut fmt::Formatter<'_>) -> fmt::Result {
        f.write_str(match self {
            List::Local => "local",
            List::Global => "global",
        })
    }
}

/// A call that was open where a charstring was refused.
///
/// Its text, by `Display`, is `local subroutine 0, called at byte 1`.
#[derive(Clone, Copy, Debug, PartialEq, Eq, Hash)]
pub struct Call {
    /// The list of the subroutine that it entered.
    pub list: List,
    /// The number of that subroutine, counted from 0, with the bias added.
    pub entry: u32,
    /// Where its operator stands in the caller, in bytes.
    pub offset: usize,
}

impl Call {
    fn of(words: &[u64]) -> Call {
        Call {
            list: List::of(words[0]),
            entry: words[1] as u32,
            offset: words[2] as usize,
        }
    }
}

impl fmt::Display for Call {
    fn fmt(&self, f: &mut fmt::Formatter<'_>) -> fmt::Result {
        let Call {
            list,
            entry,
            offset,
        } = self;
        write!(f, "{list} subroutine {entry}, called at byte {offset}")
    }
}

/// What is answered of a charstring, and where it is refused.
///
/// Its text, by `Display`, is that of the [`Refused`] and then where the refused token stands, as [`explain`] shows.
#[derive(Clone, Debug, PartialEq, Eq)]
pub struct Explanation {
    /// What [`flatten`](crate::flatten) answers with enough room; no flat string is written, and
    /// [`Refusal::Short`] never comes.
    pub verdict: Result<Flat, Refused>,
    /// The calls that were open at the refused token, with [`Refusal::BudgetSpent`] before the next one; the outermost
    /// first. The caller of the first is the charstring, and that of each other the subroutine that the one before it
    /// entered; the token stands in the subroutine of the last. A call that came back, or is itself refused, is none of
    /// them. Empty where the charstring is accepted, where a list is not well formed, and with [`Refusal::NoEndchar`].
    pub calls: Vec<Call>,
}

impl Explanation {
    /// The words for what stands where the calls lead to; none where it is no token that is refused.
    fn refused_token(refusal: Refusal) -> Option<&'static str> {
        match refusal {
            Refusal::BudgetSpent => Some("the next token"),
            Refusal::BytesLacking
            | Refusal::TooManyOperands
            | Refusal::Unknown
            | Refusal::NoIndex
            | Refusal::IndexNotLast
            | Refusal::NoEntry
            | Refusal::TooDeep
            | Refusal::TooManyHints
            | Refusal::Composite
            | Refusal::OperandsAtMask => Some("it"),
            _ => None,
        }
    }

    /// The string that the last call entered, and where it and each caller of it is called.
    fn say_place(&self, f: &mut fmt::Formatter<'_>) -> fmt::Result {
        if self.calls.is_empty() {
            return write!(f, "the charstring itself");
        }
        let mut innermost_first = self.calls.iter().rev();
        innermost_first.try_for_each(|call| write!(f, "{call} of "))?;
        write!(f, "the charstring")
    }
}

impl fmt::Display for Explanation {
    fn fmt(&self, f: &mut fmt::Formatter<'_>) -> fmt::Result {
        let refused = match &self.verdict {
            Ok(flat) => {
                let bytes = counted(flat.length as u64, "byte");
                let tokens = counted(flat.tokens.into(), "token");
                return write!(f, "accepted: {bytes}, {tokens}");
            }
            Err(refused) => refused,
        };
        write!(f, "{refused}")?;
        match Explanation::refused_token(refused.refusal) {
            Some(token) => {
                write!(f, "; {token} stands in ")?;
                self.say_place(f)
            }
            None => Ok(()),
        }
    }
}

/// `1 byte`, `2 bytes`.
fn counted(count: u64, what: &str) -> String {
    match count {
        1 => format!("1 {what}"),
        _ => format!("{count} {what}s"),
    }
}

/// Why a charstring is refused, and through which calls the run came to the token that is.
///
/// It answers what [`flatten`](crate::flatten) answers with enough room, and takes as long, but writes no flat string.
/// `globals`, `locals` and `budget` are as there.
///
/// ```
/// use ighzamrel::{explain, Call, List, Profile, Refusal, EMPTY_INDEX};
/// // -107 callsubr: a call of entry 0 of the local list, which is a byte that starts no token
/// let (charstring, locals) = ([0x20, 0x0A], [0x00, 0x01, 0x01, 0x01, 0x02, 0x00]);
/// let why = explain(&charstring, EMPTY_INDEX, &locals, Profile::Plain, 1_000_000);
/// let refused = why.verdict.unwrap_err();
/// assert_eq!((refused.refusal, refused.tokens), (Refusal::Unknown, Some(3)));
/// assert_eq!(why.calls, [Call { list: List::Local, entry: 0, offset: 1 }]);
/// assert_eq!(
///     why.to_string(),
///     "refusal 6: a byte starts no number, or an operator is not supported, at token 3; \
///      it stands in local subroutine 0, called at byte 1 of the charstring"
/// );
/// ```
///
/// Calls within calls are told from the innermost on, and a token that no call leads to is the charstring's own:
///
/// ```
/// use ighzamrel::{explain, Profile, EMPTY_INDEX};
/// // 1 hmoveto, and a call of entry 4 of the global list, which calls entry 0 of the local list, which calls one that is not there
/// let charstring = [0x8C, 0x16, 0x24, 0x1D];
/// let globals = [0x00, 0x05, 0x01, 0x01, 0x01, 0x01, 0x01, 0x01, 0x03, 0x20, 0x0A];
/// let locals = [0x00, 0x01, 0x01, 0x01, 0x03, 0x21, 0x0A];
/// let why = |globals, budget| explain(&charstring, globals, &locals, Profile::Plain, budget).to_string();
/// assert_eq!(
///     why(&globals, 100),
///     "refusal 9: a call names a subroutine that is not there, at token 8; it stands in local subroutine 0, \
///      called at byte 1 of global subroutine 4, called at byte 3 of the charstring"
/// );
/// assert_eq!(
///     why(&globals, 5),
///     "refusal 3: the budget is spent after token 5; the next token stands in global subroutine 4, \
///      called at byte 3 of the charstring"
/// );
/// assert_eq!(
///     why(EMPTY_INDEX, 100),
///     "refusal 9: a call names a subroutine that is not there, at token 4; it stands in the charstring itself"
/// );
/// ```
pub fn explain(
    charstring: &[u8],
    globals: &[u8],
    locals: &[u8],
    profile: Profile,
    budget: u32,
) -> Explanation {
    let mut places = ffi::Places::default();
    let mut words = [0; ffi::CALL_WORDS * ffi::MOST_CALLS];
    let lent = [charstring, globals, locals];
    let answer = ffi::explain_to(lent, profile.number(), budget, &mut words, &mut places);
    let calls = words.chunks_exact(ffi::CALL_WORDS).take(places.calls);
    Explanation {
        verdict: flat(answer, &places),
        calls: calls.map(Call::of).collect(),
    }
}
