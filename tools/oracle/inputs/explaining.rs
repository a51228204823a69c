//! Charstrings to be explained: those of the list, those too big or too many to store, and random ones.

use super::case::{list, Case, Given, FIRST, GLOBAL, L, LOCAL, NONE, PLAIN, SECOND, STRICT, THIRD};
use super::edges::{ends, forty, triggers, Ladder, BAD, MOST_STEMS};
use super::flattening::{each_once, rows as charstrings};
use super::index::rows as strings;
use super::loose::FULL_STEM;
use super::marking::widths;
use crate::random::Random;
use crate::rules::number::{bias, written, Operand, Place};

/// A charstring to be explained, and how many words are lent.
#[derive(Clone, PartialEq, Eq, Hash)]
pub struct Explaining {
    pub given: Given,
    pub words: usize,
}

/// The most calls that can be open, in plain and in strict.
const DEEPEST: [usize; 2] = [63, 10];

/// As many words as are ever told.
const ENOUGH: usize = 3 * DEEPEST[0];

/// The lists, by their places, and the operator that calls each.
const GLOBALS: usize = 0;
const LOCALS: usize = 1;
const OPERATORS: [u8; 2] = [GLOBAL, LOCAL];

/// A token that is refused with 6.
const UNKNOWN: &[u8] = &[0x00];

/// Those of the list, each once.
pub fn listed() -> Vec<Explaining> {
    let mut asked = example();
    asked.extend(refused());
    asked.extend(most_hints());
    asked.extend(behind_others());
    asked.extend(at_each_token());
    asked.extend(in_turn());
    asked.extend(of_each_size());
    asked.extend(indexes());
    asked.extend(places());
    asked.extend([1239, 1240].into_iter().flat_map(counts));
    asked.extend(bad_lists());
    asked.extend(ended());
    asked.extend(charstrings().iter().chain(&ends()).flat_map(Case::both).map(enough));
    asked.extend(widths().iter().map(|case| enough(case.ample(PLAIN))));
    asked.extend(forty().into_iter().map(enough));
    each_once(asked)
}

/// A profile and a number of words out of range; and the most words that there may be.
pub fn beyond(most: usize) -> Vec<Explaining> {
    let case = Case::new(&[FIRST, LOCAL, 0x00], NONE, L);
    let words = [most, most + 1].map(|words| Explaining { given: case.ample(PLAIN), words });
    [vec![enough(case.ample(2))], words.to_vec()].concat()
}

/// Too big to store: counts around the second bound of the bias, and the most; and calls that stand past 65,535 bytes, in the
/// charstring and in an entry. Too many: every string of one to four of these bytes, over lists that call each other.
pub fn more() -> Vec<Explaining> {
    const ALPHABET: [u8; 8] = [FIRST, SECOND, THIRD, LOCAL, GLOBAL, 0x0B, 0x0E, 0x13];
    let mut asked: Vec<Explaining> =
        [33_899, 33_900, 65_535].into_iter().flat_map(counts).collect();
    for before in [65_534, 65_535, 70_000] {
        let far = [&vec![0x15; before][..], &[FIRST, LOCAL]].concat();
        let case = Case::new(&far, NONE, &list(&[UNKNOWN]));
        asked.push(enough(case.ample(PLAIN)));
        let case = Case::new(&[FIRST, GLOBAL], &list(&[far]), &list(&[UNKNOWN]));
        asked.push(enough(case.ample(PLAIN)));
    }
    let lists = OPERATORS
        .map(|call| list(&[&[FIRST, call ^ GLOBAL ^ LOCAL][..], &[SECOND, call], &[0x0B]]));
    for string in (1..=4).flat_map(|length| strings(&ALPHABET, length)) {
        let given = Case::new(&string, &lists[0], &lists[1]).asked(PLAIN, 200, 0);
        asked.push(Explaining { given, words: 3 * string.len() });
    }
    asked
}

fn enough(given: Given) -> Explaining {
    Explaining { given, words: ENOUGH }
}

/// In so many words each.
fn in_words(given: &Given, words: impl IntoIterator<Item = usize>) -> Vec<Explaining> {
    words.into_iter().map(|words| Explaining { given: given.clone(), words }).collect()
}

/// The entries of both lists, to which a way through further ones is added.
struct Lists([Vec<Vec<u8>>; 2]);

impl Lists {
    /// A move and a return; no bytes; and one that calls itself.
    fn new() -> Self {
        Lists(OPERATORS.map(|call| vec![vec![0x8C, 0x16, 0x0B], vec![], vec![THIRD, call]]))
    }

    /// A charstring that leads to a string by calls of these lists, each from another place, behind some bytes of its own.
    fn to(mut self, before: &[u8], calls: &[usize], string: &[u8]) -> Case {
        let mut inner = string.to_vec();
        for (i, &which) in calls.iter().enumerate().rev() {
            let entry = self.0[which].len() as u8;
            self.0[which].push(inner);
            inner = [&[0x8C, 0x16].repeat(i % 3)[..], &[FIRST + entry, OPERATORS[which], 0x0E]]
                .concat();
        }
        let [globals, locals] = self.0.map(|entries| list(&entries));
        Case::new(&[before, &inner].concat(), &globals, &locals)
    }
}

/// A string so many calls deep, the lists in turn.
fn within(calls: usize, string: &[u8]) -> Case {
    Lists::new().to(&[], &turns(calls), string)
}

/// A local, a global, and so on.
fn turns(calls: usize) -> Vec<usize> {
    (0..calls).map(|i| if i % 2 == 0 { LOCALS } else { GLOBALS }).collect()
}

/// The example of document 02, which RULES has too; and with two bytes before the entry, which are none of its.
fn example() -> Vec<Explaining> {
    let case = |locals: &[u8]| Case::new(&[FIRST, LOCAL], NONE, locals);
    let given = case(&list(&[UNKNOWN])).both();
    let later = case(&[0x00, 0x01, 0x01, 0x03, 0x04, 0x0E, 0x0B, 0x00]);
    let mut asked: Vec<_> =
        given.iter().flat_map(|given| in_words(given, (0..=7).chain([ENOUGH, 192]))).collect();
    asked.extend(later.both().map(enough));
    asked
}

/// What each refusal comes from, calls that are refused among them, and 3 before it: in the charstring, in an entry, and as deep as
/// may be.
fn refused() -> Vec<Explaining> {
    let mut asked = Vec::new();
    for trigger in triggers() {
        for profile in [PLAIN, STRICT] {
            for calls in [0, 1, DEEPEST[profile as usize]] {
                let case = within(calls, &trigger);
                let before = case.verdict(profile).tokens().saturating_sub(1);
                asked.push(enough(case.ample(profile)));
                if trigger == UNKNOWN {
                    asked.push(enough(case.asked(profile, before, 0)));
                }
            }
        }
    }
    // one call too many
    asked.push(enough(within(DEEPEST[0] + 1, UNKNOWN).ample(PLAIN)));
    asked.push(enough(within(DEEPEST[1] + 1, UNKNOWN).ample(STRICT)));
    asked
}

/// 65,535 hints in plain, and then a stem and a mask too many, at each of these depths.
fn most_hints() -> Vec<Explaining> {
    let stems = Ladder { first: 3, rungs: 4 };
    let before = [&stems.times(MOST_STEMS)[..], &[0x8B; 30], &[0x01]].concat();
    let mut asked = Vec::new();
    for (calls, operator) in [(0, 0x01), (1, 0x13), (DEEPEST[0], 0x01)] {
        let mut lists = Lists::new();
        lists.0[LOCALS].extend(stems.entries(&FULL_STEM));
        let case = lists.to(&before, &turns(calls), &[0x8B, 0x8B, operator]);
        asked.push(enough(case.ample(PLAIN)));
    }
    asked
}

/// What each refusal comes from, behind calls of both lists that came back.
fn behind_others() -> Vec<Explaining> {
    let others = [FIRST, LOCAL, FIRST, GLOBAL, SECOND, LOCAL];
    let mut asked = Vec::new();
    for trigger in triggers() {
        for calls in [0, 1, 2] {
            let case = within(calls, &[&others[..], &trigger].concat());
            asked.push(enough(case.ample(calls as u32 % 2)));
        }
    }
    asked
}

/// 3 before each token of a run that calls entries of both lists, which call others and come back; and the run with its last token.
fn at_each_token() -> Vec<Explaining> {
    let globals = list(&[&[0x8C, 0x16][..], &[FIRST, GLOBAL, SECOND, LOCAL, 0x8C, 0x16, 0x0B]]);
    let locals = list(&[&[0x8C, 0x16, 0x0B][..], &[FIRST, LOCAL, 0x8C, 0x16, FIRST, GLOBAL]]);
    let calls = [SECOND, LOCAL, 0x8C, 0x16, SECOND, GLOBAL, FIRST, LOCAL, 0x0E];
    let case = Case::new(&calls, &globals, &locals);
    let tokens = case.verdict(STRICT).tokens();
    (0..=tokens).map(|budget| enough(case.asked(budget % 2, budget, 0))).collect()
}

/// Calls of one list only, of the other, of both in turn from either, and two and two.
fn in_turn() -> Vec<Explaining> {
    let ways: [fn(usize) -> usize; 5] =
        [|_| GLOBALS, |_| LOCALS, |i| i % 2, |i| (i + 1) % 2, |i| i / 2 % 2];
    let mut asked = Vec::new();
    for (way, calls) in ways.into_iter().flat_map(|way| [2, 5, 10].map(|calls| (way, calls))) {
        let calls: Vec<usize> = (0..calls).map(way).collect();
        asked.extend(Lists::new().to(&[], &calls, UNKNOWN).both().map(enough));
    }
    asked
}

/// Words for no call to those for three, for all calls, one and two less and some more: where calls are open, and where none is.
fn of_each_size() -> Vec<Explaining> {
    let mut asked = Vec::new();
    for calls in [0, 1, 2, 3, 10, DEEPEST[0]] {
        let all = 3 * calls;
        let around = [all.saturating_sub(2), all.saturating_sub(1), all, all + 1, all + 2, 192];
        asked.extend(in_words(&within(calls, UNKNOWN).ample(PLAIN), (0..=9).chain(around)));
    }
    // accepted, an endchar in an entry, 16, a list that is bad
    for case in [within(0, &[0x0E]), within(2, &[0x0E]), within(0, &[0x8B]), Case::new(&[], &[], L)]
    {
        let [plain, strict] = case.both();
        asked.extend([in_words(&plain, [0, 1, 2, 3, 7]), in_words(&strict, [0, 3, 192])].concat());
    }
    asked
}

/// An index of each form, one that another entry leaves, and one that waits for the operator of an entry, which is its first byte.
fn indexes() -> Vec<Explaining> {
    let mut many = vec![UNKNOWN; 300];
    many[0] = &[LOCAL];
    many[1] = &[FIRST + 3, 0x0B];
    many[2] = &[0x8C, 0x16, GLOBAL];
    let many = list(&many);
    let calls: [&[u8]; 12] = [
        &[FIRST + 3, LOCAL],
        &[0xF6, GLOBAL],
        &[0xF7, 0x00, LOCAL],
        &[0xF7, 0x54, GLOBAL],
        &[0x1C, 0xFF, 0x98, LOCAL],
        &[0x1C, 0x00, 0xC0, GLOBAL],
        &[0xFF, 0xFF, 0x98, 0x00, 0x00, LOCAL],
        &[0xFF, 0x00, 0xC0, 0x00, 0x00, GLOBAL],
        &[SECOND, LOCAL, LOCAL],
        &[SECOND, GLOBAL, LOCAL],
        &[FIRST + 3, FIRST, LOCAL],
        &[FIRST + 4, FIRST, FIRST, LOCAL],
    ];
    let case = |call: &[u8]| Case::new(&[&[0x8C, 0x16], call].concat(), &many, &many);
    calls.into_iter().flat_map(|call| case(call).both().map(enough)).collect()
}

/// Calls behind numbers of each form, escaped operators and masks, whose bytes may look like calls, and on both sides of 256 bytes;
/// in the charstring, and in an entry.
fn places() -> Vec<Explaining> {
    let mut before: Vec<Vec<u8>> = vec![
        vec![0x8B, 0xF7, 0x0A, 0x1C, 0x0A, 0x1D, 0xFF, 0x20, 0x0A, 0x20, 0x0A, 0x15],
        vec![0x8B, 0x0C, 0x22, 0x0C, 0x25],
        vec![0x8B, 0x8C, 0x13, 0x0A, 0x14, 0x1D],
        [&[0x8B; 34][..], &[0x17, 0x13, 0x20, 0x0A, 0x1D]].concat(),
    ];
    before.extend([127, 128, 300].map(|moves| [0x8C, 0x16].repeat(moves)));
    let mut asked = Vec::new();
    for before in before {
        let far = Lists::new().to(&before, &[LOCALS, GLOBALS], UNKNOWN);
        asked.extend(far.both().map(enough));
        let string = [&before[..], &[THIRD, LOCAL]].concat();
        asked.extend(within(1, &string).both().map(enough));
    }
    asked
}

/// A list of so many entries, as either: a refusal in the first and in the last, and a call from the last to the first of the other.
fn counts(entries: usize) -> Vec<Explaining> {
    let index = |entry: usize| {
        let index = Operand::Integer((entry as i64 - bias(entries as u32)) as i32);
        written(Place::Charstring, index).expect("an index has 16 bits")
    };
    let (first, last) = (index(0), index(entries - 1));
    let mut asked = Vec::new();
    for [own, other] in [[LOCAL, GLOBAL], [GLOBAL, LOCAL]] {
        for end in [UNKNOWN, &[FIRST, other]] {
            let mut members: Vec<&[u8]> = vec![&[]; entries];
            members[0] = UNKNOWN;
            members[entries - 1] = end;
            let (long, one) = (list(&members), list(&[UNKNOWN]));
            let [globals, locals] = if own == GLOBAL { [&long, &one] } else { [&one, &long] };
            let call = |index: &[u8]| Case::new(&[index, &[own]].concat(), globals, locals);
            asked.push(enough(call(&last).ample(PLAIN)));
            if end == UNKNOWN {
                asked.push(enough(call(&first).ample(STRICT)));
            }
        }
    }
    asked
}

/// 1 and 2, before what else would be refused: each list bad, and both.
fn bad_lists() -> Vec<Explaining> {
    let mut asked = Vec::new();
    for bad in BAD {
        for case in [Case::new(&[FIRST, LOCAL, 0x00], bad, L), Case::new(&[0x00], L, bad)] {
            asked.extend(in_words(&case.ample(PLAIN), [0, 3, ENOUGH]));
        }
        asked.push(enough(Case::new(&[], bad, bad).asked(STRICT, 0, 0)));
    }
    asked
}

/// Charstrings that come to an end, at each of these depths: by endchar there, and by coming back; with a width and without.
fn ended() -> Vec<Explaining> {
    let mut asked = Vec::new();
    for calls in [0, 1, 2, DEEPEST[1], DEEPEST[0]] {
        for string in [&[0x0E][..], &[0x8C, 0x0E], &[0x8C, 0x16, 0x0B], &[0x8C]] {
            asked.extend(within(calls, string).both().map(enough));
        }
    }
    let wide = [&[0xFF, 0x00, 0x05, 0x80, 0x00, 0x0E][..], &[0x1C, 0x80, 0x00, 0x8B, 0x16, 0x0E]];
    asked.extend(wide.into_iter().flat_map(|string| Case::new(string, NONE, L).both()).map(enough));
    asked
}

/// What a refusal comes from, some calls deep or about as deep as may be; at times behind calls that came back.
pub fn any_deep(profile: u32, random: &mut Random) -> Case {
    let deepest = DEEPEST[profile as usize] as i64;
    let calls = match random.within(0, 3) {
        0 => random.within(deepest - 2, deepest + 1),
        1 => random.within(1, deepest),
        _ => random.within(1, 6),
    };
    let calls: Vec<usize> = (0..calls).map(|_| random.within(0, 1) as usize).collect();
    let triggers = triggers();
    let trigger = &triggers[random.within(0, triggers.len() as i64 - 1) as usize];
    let before: &[u8] = random.one_of(&[&[][..], &[FIRST, LOCAL], &[FIRST, GLOBAL, 0x8C, 0x16]]);
    Lists::new().to(before, &calls, &[before, trigger].concat())
}

/// Words for so many calls, mostly for all or for some of them, and at times a word or two more.
pub fn any_words(calls: usize, random: &mut Random) -> usize {
    let all = 3 * calls as i64;
    let words = match random.within(0, 9) {
        0 => 0,
        1..=3 => random.within(0, all + 3),
        4 => all - 1,
        5 | 6 => all,
        7 => all + random.within(1, 5),
        _ => ENOUGH as i64,
    };
    words.max(0) as usize
}
