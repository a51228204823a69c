//! Faults about glyphs of a font, for each operation that flattens some.

use crate::inputs::case::list;
use crate::operation::{library, Call, Fault, Lent, Operation};
use crate::operations::flatten::{accepts, after, set, stops, tells_tokens};
use crate::operations::flatten_font::glyphs;
use crate::rules::flattening::Lists;
use crate::rules::font::{at, placed, MOST_GLYPHS};
use crate::rules::index::{entries, formed, needed, Flaw};

/// Those of an operation: all where it takes a font, else none.
pub fn of(operation: &Operation) -> &'static [Fault] {
    match operation.takes_font() {
        true => &FAULTS,
        false => &[],
    }
}

static FAULTS: [Fault; 14] = [
    Fault { name: "the glyphs share the budget", plant: shared_budget },
    Fault { name: "the last glyph that refuses decides", plant: last_decides },
    Fault { name: "13 or 23 is told before a glyph's own refusal", plant: length_first },
    Fault { name: "26 is told before 2", plant: charstrings_first },
    Fault { name: "a glyph is left out", plant: last_left_out },
    Fault { name: "offsets count from 0", plant: offsets_from_0 },
    Fault { name: "a glyph's tokens are told as the sum", plant: tokens_summed },
    Fault {
        name: "glyphs are counted from 1",
        plant: |call, lent| after(call, lent, stops, |lent| set(lent, 1, lent.word(1) + 1)),
    },
    Fault {
        name: "16 is told of the next glyph",
        plant: |call, lent| {
            after(call, lent, |answer| answer == 16, |lent| set(lent, 1, lent.word(1) + 1))
        },
    },
    Fault {
        name: "a byte is written before a glyph's refusal",
        plant: |call, lent| after(call, lent, stops, write_count),
    },
    Fault {
        name: "a glyph's refusal sets the length",
        plant: |call, lent| after(call, lent, stops, |lent| set(lent, 0, 0usize)),
    },
    Fault {
        name: "a glyph is told where the font is accepted",
        plant: |call, lent| after(call, lent, accepts, |lent| set(lent, 1, 0u32)),
    },
    Fault { name: "over 48 KiB of flat strings have another last byte", plant: past_bytes },
    Fault { name: "of over 4096 glyphs the length is told short by one", plant: past_glyphs },
];

/// What the rule says of each place by itself, where all lists are well formed and the places are not too many: its refusal or the
/// length of its flat string, and its tokens.
pub fn runs(call: &Call) -> Vec<(Result<u64, u32>, u32)> {
    let [_, globals, locals] = call.slices.each_ref().map(|slice| &slice[..]);
    let lists = Lists::known(globals, locals, [globals, locals].map(formed));
    let placed = placed(glyphs(call)).ok().filter(|placed| placed.len() <= MOST_GLYPHS);
    let (Ok(lists), Some(placed)) = (lists, placed) else { return Vec::new() };
    let run = |glyph| {
        let (flat, tokens) = at(lists, glyph, call.strict(), call.budget);
        (flat.map(|flat| flat.length()), tokens)
    };
    placed.into_iter().map(run).collect()
}

/// Tells that a place is refused.
pub fn tell_place(lent: &Lent, place: usize, tokens: u32, refusal: u32) -> u32 {
    set(lent, 1, place as u32);
    if tells_tokens(refusal) {
        set(lent, 2, tokens);
    }
    refusal
}

fn shared_budget(call: &Call, lent: &Lent) -> u32 {
    let mut left = call.budget;
    for (glyph, (flat, tokens)) in runs(call).into_iter().enumerate() {
        if tokens > left {
            return tell_place(lent, glyph, left, 3);
        }
        if flat.is_err() {
            break;
        }
        left -= tokens;
    }
    library(call, lent)
}

fn last_decides(call: &Call, lent: &Lent) -> u32 {
    let runs = runs(call);
    match runs.iter().enumerate().rfind(|(_, (flat, _))| flat.is_err()) {
        Some((glyph, (Err(refusal), tokens))) => tell_place(lent, glyph, *tokens, *refusal),
        _ => library(call, lent),
    }
}

/// By the flat strings of the glyphs that do not refuse.
fn length_first(call: &Call, lent: &Lent) -> u32 {
    let runs = runs(call);
    let sum = runs.iter().filter_map(|(flat, _)| flat.ok()).sum();
    match needed(runs.len(), sum) {
        Err(refusal) => refusal,
        Ok(length) if length > lent.room as u64 && !runs.is_empty() => {
            set(lent, 0, length as usize);
            13
        }
        Ok(_) => library(call, lent),
    }
}

fn charstrings_first(call: &Call, lent: &Lent) -> u32 {
    match (formed(&call.slices[1]), formed(&call.slices[0])) {
        (Ok(_), Err(flaw)) => {
            if let Flaw::Entry(entry, _) = flaw {
                set(lent, 3, entry);
            }
            set(lent, 4, flaw.reason());
            26
        }
        _ => library(call, lent),
    }
}

/// The last number, or of a whole font the last glyph.
fn last_left_out(call: &Call, lent: &Lent) -> u32 {
    let (numbers, count) = lent.numbers;
    let mut fewer = Lent { numbers: (numbers, count.saturating_sub(1)), ..*lent };
    let glyphs = entries(&call.slices[0]).unwrap_or_default();
    let mut others = list(&glyphs[..glyphs.len().saturating_sub(1)]);
    if !call.operation.takes_numbers() && !glyphs.is_empty() {
        fewer.slices[0] = (others.as_mut_ptr(), others.len());
    }
    library(call, &fewer)
}

fn offsets_from_0(call: &Call, lent: &Lent) -> u32 {
    let answer = library(call, lent);
    let count = many(call);
    if answer == 0 && count > 0 {
        // SAFETY: an INDEX with entries was written.
        let written = unsafe { std::slice::from_raw_parts_mut(lent.out, lent.size(0)) };
        let size = usize::from(written[2]);
        written[3..][..(count + 1) * size].chunks_mut(size).for_each(less_by_one);
    }
    answer
}

/// How many glyphs are asked for, where the charstrings are well formed.
fn many(call: &Call) -> usize {
    placed(glyphs(call)).map_or(0, |placed| placed.len())
}

fn less_by_one(offset: &mut [u8]) {
    for byte in offset.iter_mut().rev() {
        *byte = byte.wrapping_sub(1);
        if *byte != 255 {
            break;
        }
    }
}

fn tokens_summed(call: &Call, lent: &Lent) -> u32 {
    let answer = library(call, lent);
    if tells_tokens(answer) {
        let glyph = lent.word(1) as usize;
        set(lent, 2, runs(call)[..=glyph].iter().map(|(_, tokens)| tokens).sum::<u32>());
    }
    answer
}

fn write_count(lent: &Lent) {
    if lent.room > 0 {
        unsafe { *lent.out = 0 };
    }
}

fn past_bytes(call: &Call, lent: &Lent) -> u32 {
    let answer = library(call, lent);
    if answer == 0 && runs(call).iter().filter_map(|(flat, _)| flat.ok()).sum::<u64>() > 49_152 {
        unsafe { *lent.out.add(lent.size(0) - 1) ^= 1 };
    }
    answer
}

fn past_glyphs(call: &Call, lent: &Lent) -> u32 {
    let answer = library(call, lent);
    if answer == 0 && many(call) > 4096 {
        set(lent, 0, lent.size(0) - 1);
    }
    answer
}
