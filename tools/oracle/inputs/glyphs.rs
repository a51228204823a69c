//! Glyphs of a font by their numbers: those of the list, those too big or too many to store, and random ones.

use super::case::{list, Case, Given, AMPLE, FIRST, GLOBAL, L, LOCAL, NONE, PLAIN, STRICT, THIRD};
use super::edges::{triggers, BAD};
use super::flattening::each_once;
use super::font::{any_long, any_short, long, Font, BOUNDS, KEPT_BYTES, KEPT_GLYPHS};
use super::index::rows;
use crate::random::Random;
use crate::rules::flattening::Verdict;
use crate::rules::font::MOST_GLYPHS as MOST;
use crate::rules::index::{formed, needed};

/// Glyphs that are asked for.
#[derive(Clone, PartialEq, Eq, Hash)]
pub struct Numbered {
    pub given: Given,
    pub numbers: Vec<u32>,
}

/// Glyphs that both profiles accept.
const SOUND: [&[u8]; 4] =
    [&[0x0E], &[FIRST, LOCAL, 0x0E], &[0x1C, 0x00, 0x05, 0x0E], &[0x8C, 0x16, 0x0E]];

/// Those of the list, each once.
pub fn listed() -> Vec<Numbered> {
    let mut asked = chosen();
    asked.extend(refused());
    asked.extend(bad_lists());
    asked.extend(at_bounds());
    // 22 comes before 25
    let font = Font::of(&SOUND, L);
    asked.push(of(font.case().asked(PLAIN, AMPLE, 16), past_at(vec![0; MOST + 1], 0)));
    each_once(asked)
}

/// A profile and a room out of range.
pub fn beyond(most: usize) -> Vec<Numbered> {
    let case = Font::of(&SOUND, L).case();
    [case.ample(2), case.asked(PLAIN, 1, most + 1)].map(|given| of(given, vec![0])).to_vec()
}

/// Too big to store: as many numbers as are taken, and more; as many as a call keeps the lengths of, and one more. Too many: up to
/// four of these numbers, of a font whose second glyph is refused and that has no fourth.
pub fn more() -> Vec<Numbered> {
    let mut asked = [full(), too_many(), kept()].concat();
    // 25 comes before 23
    asked.push(Numbered { numbers: past_at(vec![0; 3], 2), ..much() });
    let font = Font::of(&[SOUND[1], &[0x8C, 0x00], SOUND[2]], L);
    for numbers in (0..=4).flat_map(|count| rows(&[0, 1, 2, 3], count)) {
        let given = [(PLAIN, AMPLE), (STRICT, 3)]
            .map(|(profile, budget)| font.case().asked(profile, budget, 20));
        asked.extend(given.map(|given| of(given, numbers.clone())));
    }
    asked
}

fn of(given: Given, numbers: Vec<u32>) -> Numbered {
    Numbered { given, numbers }
}

/// The same numbers but one that no font has.
fn past_at(mut numbers: Vec<u32>, at: usize) -> Vec<u32> {
    numbers[at] = u32::MAX;
    numbers
}

impl Font {
    /// In both profiles, with the budget ample, just enough for each of these glyphs, one short and none, and the room so too.
    fn chosen(&self, numbers: &[u32]) -> Vec<Numbered> {
        let case = self.case();
        let mut asked = Vec::new();
        for profile in [PLAIN, STRICT] {
            let verdicts = self.verdicts(profile);
            let asked_for: Vec<&Verdict> =
                numbers.iter().filter_map(|&i| verdicts.get(i as usize)).collect();
            let tokens = asked_for.iter().map(|one| one.tokens()).max().unwrap_or(0);
            let sum = asked_for.iter().map(|one| one.length() as u64).sum();
            let room = needed(numbers.len(), sum).expect("an INDEX holds them") as usize;
            asked.push(case.ample(profile));
            asked.extend([0, tokens.saturating_sub(1)].map(|n| case.asked(profile, n, room)));
            asked.extend([0, room - 1, room, room + 1].map(|n| case.asked(profile, tokens, n)));
        }
        asked.into_iter().map(|given| of(given, numbers.to_vec())).collect()
    }
}

/// No numbers, one, all in order, descending, repeats, the last glyph, one past it, and far past it; and of a font without glyphs.
fn chosen() -> Vec<Numbered> {
    let lists: [&[u32]; 14] = [
        &[],
        &[0],
        &[1],
        &[3],
        &[0, 1, 2, 3],
        &[3, 2, 1, 0],
        &[2, 2, 2],
        &[1, 3, 1, 0, 3],
        &[4],
        &[0, 4],
        &[4, 0],
        &[3, 5, 4],
        &[1, u32::MAX],
        &[65_536],
    ];
    let font = Font::of(&SOUND, L);
    let mut asked: Vec<Numbered> = lists.iter().flat_map(|numbers| font.chosen(numbers)).collect();
    let none: [&[u32]; 3] = [&[], &[0], &[1, 0]];
    asked.extend(none.iter().flat_map(|numbers| Font::of(&[], L).chosen(numbers)));
    asked
}

/// For each refusal a glyph that is not asked for, then asked for last, and before and behind one that another refusal has and a
/// number that is past the last; also where there is no room, and no budget.
fn refused() -> Vec<Numbered> {
    let lists =
        [GLOBAL, LOCAL].map(|call| list(&[&[0x8C, 0x8D, 0x15, 0x0B][..], &[], &[THIRD, call]]));
    let triggers = triggers();
    let mut asked = Vec::new();
    for (trigger, other) in triggers.iter().zip(triggers.iter().cycle().skip(2)) {
        let font = Font::of(&[SOUND[1], trigger, SOUND[3], other], &lists[1]);
        let case = Font { globals: lists[0].clone(), ..font }.case();
        let numbers: [&[u32]; 6] = [&[2, 0], &[2, 0, 1], &[0, 3, 1], &[1, 3], &[2, 4, 1], &[1, 4]];
        for (i, numbers) in numbers.iter().enumerate() {
            asked.push(of(case.ample(i as u32 % 2), numbers.to_vec()));
        }
        asked.push(of(case.asked(PLAIN, AMPLE, 0), vec![2, 1]));
        asked.push(of(case.asked(STRICT, 1, 4096), vec![2, 1]));
    }
    asked
}

/// 1, 2 and 26 come before 25: each list bad in each way, and all three, with no numbers and with one that no font has.
fn bad_lists() -> Vec<Numbered> {
    let sound = [list(&SOUND), L.to_vec(), L.to_vec()];
    let mut asked = Vec::new();
    for (i, which) in (0..BAD.len()).flat_map(|i| [1, 2, 4, 7].map(|which| (i, which))) {
        let list = |at: usize| {
            if which >> at & 1 == 1 {
                BAD[(i + 2 * at) % BAD.len()]
            } else {
                &sound[at]
            }
        };
        let case = Case::new(list(0), list(1), list(2));
        asked.push(of(case.ample(i as u32 % 2), past_at(vec![0], 0)));
        asked.push(of(case.asked(PLAIN, 0, 0), Vec::new()));
    }
    asked
}

/// By repeats, a last offset on both sides of a bound, as many bytes as a call keeps, and some more; and more than an INDEX holds.
fn at_bounds() -> Vec<Numbered> {
    let kept = [repeated(3, KEPT_BYTES / 3), repeated(7, KEPT_BYTES / 7 + 1)];
    [repeated(2, 127), repeated(5, 51)].into_iter().chain(kept).chain([much()]).collect()
}

/// One glyph twice, which is more than an INDEX holds.
fn much() -> Numbered {
    repeated(2, (BOUNDS[3] + 1) / 2)
}

/// A glyph of so many flat bytes over and over, into no room.
fn repeated(count: usize, length: u64) -> Numbered {
    of(long(1, length).case().asked(PLAIN, u32::MAX, 0), vec![0; count])
}

/// 65,535 numbers: of one glyph over and over, of as many glyphs downwards, and with the last one refused or past the last glyph.
fn full() -> Vec<Numbered> {
    let mut asked = Vec::new();
    for (glyph, length) in [(&[][..], 0), (&[0x15], 1), (SOUND[1], 4)] {
        let room = needed(MOST, MOST as u64 * length).expect("an INDEX holds them") as usize;
        let given = Font::of(&[SOUND[0], glyph, &[0x00]], L).case().asked(PLAIN, AMPLE, room);
        asked
            .extend([1, 2].map(|last| of(given.clone(), [vec![1; MOST - 1], vec![last]].concat())));
        asked.push(of(given.clone(), past_at(vec![1; MOST], MOST - 1)));
        asked.push(of(Given { room: room - 1, ..given }, vec![1; MOST]));
    }
    let all = Font::of(&vec![SOUND[0]; MOST], NONE).case().asked(STRICT, AMPLE, 1 << 19);
    asked.push(of(all, (0..MOST as u32).rev().collect()));
    asked
}

/// More numbers, all in place, or one past the last glyph or refused; and where a list is bad, which comes before 22.
fn too_many() -> Vec<Numbered> {
    let mut asked = Vec::new();
    let sound = [list(&[SOUND[0], &[0x00]]), L.to_vec(), L.to_vec()];
    for count in [MOST + 1, MOST + 2, 2 * (MOST + 1), 1 << 20] {
        let given = Case::new(&sound[0], &sound[1], &sound[2]).ample(PLAIN);
        asked.extend([0, 1].map(|number| of(given.clone(), vec![number; count])));
        asked.push(of(given, past_at(vec![0; count], count - 1)));
    }
    for (i, at) in (0..BAD.len()).flat_map(|i| [0, 1, 2].map(|at| (i, at))) {
        let mut lists = sound.clone();
        lists[at] = BAD[i].to_vec();
        asked.push(of(Case::new(&lists[0], &lists[1], &lists[2]).ample(PLAIN), vec![0; MOST + 1]));
    }
    asked
}

/// As many numbers as a call keeps the lengths of, and one more, with flat strings on both sides of as many bytes as it keeps; and
/// with the last one refused, or past the last glyph.
fn kept() -> Vec<Numbered> {
    let mut asked = Vec::new();
    for count in [KEPT_GLYPHS, KEPT_GLYPHS + 1] {
        for sum in [KEPT_BYTES - 1, KEPT_BYTES, KEPT_BYTES + 1] {
            let mut font = long(count, sum);
            font.glyphs.push(vec![0x8C, 0x00]);
            let room = needed(count, sum).expect("an INDEX holds them") as usize;
            let given = font.case().asked(STRICT, AMPLE, room);
            let down: Vec<u32> = (0..count as u32).rev().collect();
            let ends = [count as u32, u32::MAX].map(|last| [&down[1..], &[last]].concat());
            asked.extend(ends.map(|numbers| of(given.clone(), numbers)));
            asked.push(of(Given { room: room - 1, ..given.clone() }, down.clone()));
            asked.push(of(given, down));
        }
    }
    asked
}

/// Glyphs of a font as 33 has them, now and then of a long one, and of very many numbers.
pub fn any(random: &mut Random) -> Numbered {
    let profile = random.within(0, 1) as u32;
    match random.within(0, 79) {
        0 => any_many(profile, random),
        1 => {
            let case = any_long(random).case();
            let given = case.asked(profile, u32::MAX, random.within(0, 40) as usize);
            let count = formed(&given.case.charstring).unwrap_or(1);
            let numbers = if random.once_in(2) {
                (0..count).rev().collect()
            } else {
                any_of(count, 2, random)
            };
            of(given, numbers)
        }
        _ => {
            let given = any_short(profile, random);
            let numbers = any_numbers(formed(&given.case.charstring).unwrap_or(3), random);
            of(given, numbers)
        }
    }
}

/// None, all in order or downwards, one over and over, or any; at times with one that is past the last.
fn any_numbers(count: u32, random: &mut Random) -> Vec<u32> {
    let mut numbers = match random.within(0, 11) {
        0 => Vec::new(),
        1 | 2 => (0..count).collect(),
        3 | 4 => (0..count).rev().collect(),
        5 => any_of(count, 1, random).repeat(random.within(2, 9) as usize),
        6 => any_of(count, 70, random),
        _ => any_of(count, 7, random),
    };
    if random.once_in(4) {
        let at = random.within(0, numbers.len() as i64) as usize;
        numbers.insert(at, any_past(count, random));
    }
    numbers
}

/// From one up to so many numbers of a font's glyphs, where it has some.
fn any_of(count: u32, most: i64, random: &mut Random) -> Vec<u32> {
    let many = if count == 0 { 0 } else { random.within(1, most) };
    (0..many).map(|_| random.within(0, i64::from(count) - 1) as u32).collect()
}

/// A number that is past the last glyph, at times by its high half alone.
fn any_past(count: u32, random: &mut Random) -> u32 {
    let low = random.within(0, 3) as u32;
    random.one_of(&[count, count, count + low, u32::MAX - low, (1 << 16) + low, (1 << 31) + low])
}

/// Around as many numbers as are taken, or as a call keeps the lengths of, of a few short glyphs, at times with one that is past the
/// last, and at times over a bad list.
fn any_many(profile: u32, random: &mut Random) -> Numbered {
    let glyphs: [&[u8]; 4] = [&[0x0E], &[FIRST, LOCAL, 0x0E], &[], &[0x00]];
    let kinds = random.one_of(&[1, 2, 2, 3, 4]);
    let mut case = Font::of(&glyphs[..kinds], L).case();
    let bad = random.one_of(&BAD).to_vec();
    match random.within(0, 11) {
        0 => case.charstring = bad,
        1 => case.globals = bad,
        2 => case.locals = bad,
        _ => {}
    }
    // those that are not too many take long
    let count = random.one_of(&[MOST, MOST + 1, MOST + 1, MOST + 2, KEPT_GLYPHS, KEPT_GLYPHS + 1]);
    let numbers: Vec<u32> = (0..count).map(|_| random.within(0, kinds as i64 - 1) as u32).collect();
    let room = random.one_of(&[0, 1 << 20]);
    let at = random.within(0, count as i64 - 1) as usize;
    of(
        case.asked(profile, AMPLE, room),
        if random.once_in(2) { past_at(numbers, at) } else { numbers },
    )
}
