//! Whole fonts: those of the list, those too big or too many to store, and random ones.

use super::case::{
    list, Case, Given, AMPLE, FIRST, GLOBAL, L, LOCAL, NONE, PLAIN, SECOND, STRICT, THIRD,
};
use super::damaged::hurt;
use super::edges::{ends, masks, plain_hints, triggers, Ladder, BAD, MOST_STEMS};
use super::flattening::{each_once, rows as charstrings};
use super::index::{any_bytes, flawed, laid, rows};
use super::loose::FULL_STEM;
use super::{loose, structured_font};
use crate::random::Random;
use crate::rules::flattening::{flattened, Asked, Verdict};
use crate::rules::index::needed;

/// Charstrings that share two lists.
pub struct Font {
    pub glyphs: Vec<Vec<u8>>,
    pub globals: Vec<u8>,
    pub locals: Vec<u8>,
}

/// How many bytes of flat strings, and how many lengths, a call keeps, so that it runs each glyph just once.
pub(super) const KEPT_BYTES: u64 = 49_152;
pub(super) const KEPT_GLYPHS: usize = 4096;

/// The largest last offset of each size.
pub(super) const BOUNDS: [u64; 4] = [255, 65_535, 16_777_215, 4_294_967_295];

/// Those of the list, each once.
pub fn listed() -> Vec<Given> {
    let mut asked: Vec<Given> = small().iter().chain(&between()).flat_map(Font::around).collect();
    asked.extend(refused());
    asked.extend(bad_lists());
    asked.extend(laid_out());
    asked.extend(at_bounds());
    each_once(asked)
}

/// A profile and a room out of range.
pub fn beyond(most: usize) -> Vec<Given> {
    let case = Font::of(&[&[0x0E]], NONE).case();
    vec![case.ample(2), case.asked(PLAIN, 1, most + 1)]
}

/// Too big to store: 65,535 glyphs, and as many bytes and glyphs as a call keeps, written out. Too many: every font of up to four
/// of these glyphs.
pub fn more() -> Vec<Given> {
    let glyphs: [&[u8]; 8] = [
        &[],
        &[0x0E],
        &[0x8C, 0x8D, 0x15],
        &[FIRST, LOCAL, 0x0E],
        &[SECOND, GLOBAL],
        &[0x8B, 0x8C, 0x01, 0x13, 0x80, FIRST, 0x13, 0x80, LOCAL],
        &[LOCAL],
        &[0x00],
    ];
    let two = list(&[&[0x8C, 0x8D, 0x0B], &[0x13, FIRST, LOCAL]]);
    let mut asked = Vec::new();
    for font in (0..=4).flat_map(|count| rows(&glyphs, count)) {
        let font = Font { globals: two.clone(), ..Font::of(&font, &two) };
        asked.extend([2, 200].map(|budget| font.case().asked(PLAIN, budget, 24)));
    }
    for (glyph, length) in [(&[][..], 0), (&[0x15], 1), (&[FIRST, LOCAL, 0x0E], 4)] {
        asked.push(Font::of(&vec![glyph; 65_535], L).whole(65_535 * length));
    }
    for sum in [2048, KEPT_BYTES].into_iter().flat_map(|sum| [sum, sum + 1]) {
        asked.extend([1, 7].map(|count| long(count, sum).whole(sum)));
    }
    asked.extend(many());
    asked
}

impl Font {
    pub(super) fn of(glyphs: &[&[u8]], locals: &[u8]) -> Self {
        let glyphs = glyphs.iter().map(|glyph| glyph.to_vec()).collect();
        Font { glyphs, globals: NONE.to_vec(), locals: locals.to_vec() }
    }

    pub(super) fn case(&self) -> Case {
        Case::new(&list(&self.glyphs), &self.globals, &self.locals)
    }

    /// What each glyph gives by itself.
    pub(super) fn verdicts(&self, profile: u32) -> Vec<Verdict> {
        let Font { glyphs, globals, locals } = self;
        let strict = profile == STRICT;
        let verdict = |charstring: &Vec<u8>| {
            flattened(&Asked { strict, budget: AMPLE, charstring, globals, locals })
        };
        glyphs.iter().map(verdict).collect()
    }

    /// In both profiles, with the budget ample, just enough for each glyph, one short and none, and the room so too.
    fn around(&self) -> Vec<Given> {
        let case = self.case();
        let mut asked = Vec::new();
        for profile in [PLAIN, STRICT] {
            let verdicts = self.verdicts(profile);
            let tokens = verdicts.iter().map(Verdict::tokens).max().unwrap_or(0);
            let room = self.whole(verdicts.iter().map(|one| one.length() as u64).sum()).room;
            asked.push(case.ample(profile));
            asked.extend([0, tokens.saturating_sub(1)].map(|n| case.asked(profile, n, room)));
            asked.extend([0, room - 1, room, room + 1].map(|n| case.asked(profile, tokens, n)));
        }
        asked
    }

    /// Into just the room for flat strings of so many bytes together.
    fn whole(&self, sum: u64) -> Given {
        let room = needed(self.glyphs.len(), sum).expect("an INDEX holds them") as usize;
        self.case().asked(PLAIN, u32::MAX, room)
    }
}

/// No glyphs, one, several; the charstrings of docs/RULES.md, one by one and together.
fn small() -> Vec<Font> {
    let mut fonts: Vec<Font> = charstrings()
        .into_iter()
        .map(|Case { charstring, globals, locals }| Font {
            glyphs: vec![charstring],
            globals,
            locals,
        })
        .collect();
    fonts.push(Font::of(&[], NONE));
    fonts.push(Font::of(&[&[], &[], &[]], NONE));
    let sound: [&[u8]; 5] = [
        &[],
        &[FIRST, LOCAL, 0x0E],
        &[0x1C, 0x00, 0x05, 0x0E],
        &[0x0B, 0x00],
        &[0x8B, 0x8C, 0x13, 0x80, 0x0E],
    ];
    fonts.push(Font::of(&sound, L));
    // these strict accepts too
    fonts.push(Font::of(&[&[0x0E], sound[1], sound[2], sound[4]], L));
    fonts.push(Font::of(&[sound[1], sound[1]], L));
    fonts
}

/// Each charstring about operands at a mask, or about an end, as the second glyph, between two that are accepted.
fn between() -> Vec<Font> {
    let font = |Case { charstring, globals, locals }| Font {
        glyphs: vec![vec![0x0E], charstring, vec![0x8C, 0x16, 0x0E]],
        globals,
        locals,
    };
    masks().into_iter().chain(ends()).map(font).collect()
}

/// The first, a middle and the last glyph refused, and two of them: for each refusal, also where there is no room; and by the
/// budget.
fn refused() -> Vec<Given> {
    let path: &[u8] = &[0x8C, 0x8D, 0x15, 0x0B];
    let lists = [GLOBAL, LOCAL].map(|call| list(&[path, &[], &[THIRD, call]]));
    let sound: [&[u8]; 3] = [&[0x8C, 0x16, 0x0E], &[FIRST, LOCAL, 0x0E], &[FIRST, GLOBAL, 0x0E]];
    let font = |glyphs: &[&[u8]]| Font { globals: lists[0].clone(), ..Font::of(glyphs, &lists[1]) };
    let triggers = triggers();
    let mut asked = Vec::new();
    for (trigger, other) in triggers.iter().zip(triggers.iter().cycle().skip(2)) {
        for at in 0..3 {
            let mut glyphs = sound;
            glyphs[at] = trigger;
            asked.extend(font(&glyphs).case().both());
            asked.push(font(&glyphs).case().asked(PLAIN, AMPLE, at));
        }
        for pair in [[trigger, other], [other, trigger]] {
            let glyphs = [sound[1], pair[0], sound[2], pair[1]];
            asked.extend(font(&glyphs).case().both());
        }
    }
    for glyphs in [[1, 0, 0], [0, 1, 0], [0, 0, 1], [1, 2, 1]] {
        let case = font(&glyphs.map(|i| sound[i])).case();
        for budget in 0..=7 {
            asked.extend([PLAIN, STRICT].map(|profile| case.asked(profile, budget, 4096)));
        }
        asked.push(case.asked(PLAIN, 3, 0));
    }
    asked.extend(plain_hints(0).iter().flat_map(most_hints));
    asked
}

/// A charstring of about as many hints as there may be in plain as the first, a middle and the last glyph, where it has no mask.
fn most_hints(given: &Given) -> Vec<Given> {
    let Case { charstring, locals, .. } = &given.case;
    let fonts = (0..3).filter(|_| charstring.len() < 1000).map(|at| {
        let mut glyphs: [&[u8]; 3] = [&[0x0E]; 3];
        glyphs[at] = charstring;
        Font::of(&glyphs, locals).case().asked(PLAIN, AMPLE, 0)
    });
    fonts.collect()
}

/// 1, 2 and 26: each list bad in each way, and each two and all three of them, by flaws of their own.
fn bad_lists() -> Vec<Given> {
    let sound: [&[u8]; 3] = [&[0x00, 0x01, 0x01, 0x01, 0x02, 0x00], L, L];
    let mut asked = Vec::new();
    for (i, which) in (0..BAD.len()).flat_map(|i| (1..8).map(move |which| (i, which))) {
        let lists: Vec<&[u8]> = (0..3)
            .map(|at| if which >> at & 1 == 1 { BAD[(i + 2 * at) % BAD.len()] } else { sound[at] })
            .collect();
        let case = Case::new(lists[0], lists[1], lists[2]);
        asked.push(case.ample(i as u32 % 2));
        asked.push(case.asked(PLAIN, 0, 0));
    }
    asked.extend(flawed().iter().map(|flawed| Case::new(flawed, L, NONE).ample(PLAIN)));
    asked
}

/// Charstrings by offsets of each size, with data before the first, and bytes behind each list.
fn laid_out() -> Vec<Given> {
    let glyphs: [&[u8]; 3] = [&[FIRST, LOCAL, 0x0E], &[], &[0x8C, FIRST, GLOBAL]];
    let ended: [&[u8]; 3] = [glyphs[0], &[0x0E], &[0x8C, FIRST, GLOBAL, 0x0E]];
    let mut asked = Vec::new();
    for (size, before) in (1..=4).flat_map(|size| [0, 1, 3].map(|before| (size, before))) {
        let charstrings = laid(&glyphs, size, before);
        asked.push(Case::new(&charstrings, L, L).ample(PLAIN));
        asked.push(Case::new(&laid(&ended, size, before), L, L).ample(STRICT));
        let behind = |list: &[u8]| [list, &[0x0E; 3][..before]].concat();
        asked.push(Case::new(&behind(&charstrings), &behind(L), &behind(L)).ample(PLAIN));
    }
    asked
}

/// A last offset on both sides of each bound, into no room, so that the list stays small: just the room follows from 13. As many
/// bytes and glyphs as a call keeps, and one more.
fn at_bounds() -> Vec<Given> {
    let mut asked = Vec::new();
    for sum in BOUNDS.into_iter().flat_map(|bound| [bound - 1, bound]) {
        let counts = if sum < 1 << 16 { vec![1, 3] } else { vec![2] };
        for font in counts.into_iter().map(|count| long(count, sum)) {
            asked.push(font.case().asked(PLAIN, u32::MAX, if sum < 256 { 4096 } else { 0 }));
        }
    }
    let kept = long(3, KEPT_BYTES).whole(KEPT_BYTES);
    asked.push(Given { room: kept.room - 1, ..kept });
    let more = long(3, KEPT_BYTES + 1);
    asked.push(Given { profile: STRICT, ..more.whole(KEPT_BYTES + 1) });
    // a glyph without endchar, before as many bytes as a call keeps, and behind them
    for at in [1, 3] {
        let mut glyphs = more.glyphs.clone();
        glyphs.insert(at, vec![0x8C, 0x16]);
        let unended = Font { glyphs, globals: more.globals.clone(), locals: more.locals.clone() };
        asked.push(unended.case().asked(STRICT, AMPLE, 1 << 16));
    }
    for count in [KEPT_GLYPHS, KEPT_GLYPHS + 1] {
        asked.push(Font::of(&vec![&[][..]; count], NONE).whole(0));
    }
    // too much for an INDEX, where a glyph is refused; and one glyph alone that has as much
    for at in [1, 2] {
        let mut font = long(2, BOUNDS[3]);
        font.glyphs.insert(at, vec![0x8C, 0x00]);
        asked.push(font.case().asked(PLAIN, u32::MAX, 16));
    }
    asked.push(long(1, 1 << 32).case().asked(PLAIN, u32::MAX, 0));
    asked
}

/// As many glyphs as a call keeps, and one more, with flat strings on both sides of as many bytes as it keeps; and with the last one
/// refused.
fn many() -> Vec<Given> {
    let mut asked = Vec::new();
    for count in [KEPT_GLYPHS, KEPT_GLYPHS + 1] {
        for sum in [KEPT_BYTES - 1, KEPT_BYTES, KEPT_BYTES + 1] {
            let mut font = long(count, sum);
            asked.push(font.whole(sum));
            font.glyphs[count - 1] = vec![0x8C, 0x00];
            asked.push(font.case().asked(STRICT, AMPLE, 1 << 16));
        }
    }
    asked
}

/// So many glyphs whose flat strings have just so many bytes together, each an endchar at its end where it has any. Beyond a
/// megabyte these are masks of 8,192 bytes, behind 65,535 hints, which only plain takes.
pub(super) fn long(count: usize, sum: u64) -> Font {
    const MASK: u64 = 8192;
    const FEWEST: u64 = 1 << 20;
    let moves = Ladder { first: 0, rungs: 6 };
    let masks = Ladder { first: 6, rungs: 7 };
    let stems = Ladder { first: 13, rungs: 4 };
    let mut entries = moves.entries(&[0x15]);
    let hints = [stems.times(MOST_STEMS), vec![0x8B; 30], vec![0x01]].concat();
    let hinted = FULL_STEM.len() as u64 * MOST_STEMS + 31;
    if sum > FEWEST {
        entries.extend(masks.entries(&[&[0x13][..], &[0x80; MASK as usize]].concat()));
        entries.extend(stems.entries(&FULL_STEM));
    }
    let glyph = |i: u64| {
        let Some(length) = ((sum + i) / count as u64).checked_sub(1) else { return Vec::new() };
        let mut glyph = match length.checked_sub(hinted).filter(|_| sum > FEWEST) {
            None => moves.times(length),
            Some(left) => {
                [&hints[..], &masks.times(left / (MASK + 1)), &moves.times(left % (MASK + 1))]
                    .concat()
            }
        };
        glyph.push(0x0E);
        glyph
    };
    let glyphs = (0..count as u64).map(glyph).collect();
    Font { glyphs, globals: NONE.to_vec(), locals: list(&entries) }
}

/// A short font, and now and then a long one.
pub fn any(random: &mut Random) -> Given {
    let profile = random.within(0, 1) as u32;
    if random.once_in(40) {
        return any_long(random).case().asked(profile, u32::MAX, random.within(0, 40) as usize);
    }
    any_short(profile, random)
}

/// A font that mostly is accepted: a few charstrings, at times some tens, that share their lists, some of them loose or hurt;
/// now and then a list in the place of one of the three, of which many are bad.
pub(super) fn any_short(profile: u32, random: &mut Random) -> Given {
    let count = if random.once_in(10) { random.within(0, 40) } else { random.within(0, 5) };
    let mut font = structured_font(count as usize, random);
    for glyph in &mut font.glyphs {
        match random.within(0, 49) {
            0 => hurt(glyph, random),
            1 => *glyph = loose(random).charstring,
            _ => {}
        }
    }
    let mut case = font.case();
    if random.once_in(3) {
        let lists = [&mut case.charstring, &mut case.globals, &mut case.locals];
        lists.into_iter().for_each(|list| change(list, random));
    }
    let budget = if random.once_in(4) { random.within(0, 300) as u32 } else { 20_000 };
    let room = if random.once_in(4) { random.within(0, 200) } else { 6000 };
    case.asked(profile, budget, room as usize)
}

/// Another list in its place, or it with bytes hurt, or as it is.
fn change(list: &mut Vec<u8>, random: &mut Random) {
    match random.within(0, 7) {
        0 => *list = any_bytes(random),
        1 => *list = random.one_of(&BAD).to_vec(),
        2 => hurt(list, random),
        _ => {}
    }
}

/// Around a bound of the offsets or of what is kept; now and then too much for an INDEX; at times with a glyph that mostly is refused.
pub(super) fn any_long(random: &mut Random) -> Font {
    let near = random.within(0, 2) as u64;
    let mut font = match random.within(0, 9) {
        0 => long(2, BOUNDS[3] - 1 + near),
        1 | 2 => {
            let glyph: &[u8] = random.one_of(&[&[][..], &[0x0E]]);
            Font::of(&vec![glyph; KEPT_GLYPHS + near as usize], NONE)
        }
        3..=5 => long(random.within(1, 9) as usize, 65_533 + near),
        _ => long(random.within(1, 9) as usize, KEPT_BYTES - 1 + near),
    };
    if random.once_in(4) {
        let at = random.within(0, font.glyphs.len() as i64) as usize;
        font.glyphs.insert(at, vec![0x8C, random.one_of(&[0x00, 0x0A, 0x0C, 0x0E])]);
    }
    font
}
