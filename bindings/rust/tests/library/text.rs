//! The example `font` with a text, on fonts and cmap tables that are made here, whole and damaged.

use crate::flattening::{Bytes, L};
use crate::font::example::cmap::Cmap;
use crate::font::example::text::{Embedding, Glyph, Part};
use crate::font::example::Asked;
use crate::font::{cid_table, file, private, table_with};
use crate::index;
use ighzamrel::{Profile, Refusal, EMPTY_INDEX};
use std::time::Duration;

/// Numbers of two and of four bytes.
fn shorts(numbers: &[u16]) -> Vec<u8> {
    numbers.iter().flat_map(|n| n.to_be_bytes()).collect()
}

fn longs(numbers: &[u32]) -> Vec<u8> {
    numbers.iter().flat_map(|n| n.to_be_bytes()).collect()
}

/// A cmap table with these subtables, each with its platform and encoding.
fn cmap(subtables: &[([u16; 2], &[u8])]) -> Vec<u8> {
    let count = subtables.len();
    let mut head = shorts(&[0, count as u16]);
    let mut at = 4 + 8 * count;
    for (record, subtable) in subtables {
        head.extend([shorts(record), longs(&[at as u32])].concat());
        at += subtable.len();
    }
    let all: Vec<&[u8]> = subtables.iter().map(|(_, subtable)| *subtable).collect();
    [head, all.concat()].concat()
}

/// A subtable of format 4 with these segments, each by its start, end, delta and offset, and then these glyphs.
fn segments(all: &[[u16; 4]], glyphs: &[u16]) -> Vec<u8> {
    let row = |which: usize| all.iter().map(|segment| segment[which]).collect::<Vec<_>>();
    let head = [4, 0, 0, 2 * all.len() as u16, 0, 0, 0];
    let rows = [&head, &row(1)[..], &[0], &row(0), &row(2), &row(3), glyphs];
    shorts(&rows.concat())
}

/// A to C are glyphs 1 to 3 by a delta; a and d are 2 and 3 by glyphs behind the rows, to which 1 is added, and b and c none: b
/// has 0 there, and for c the sum is 0 in 16 bits.
fn some_segments() -> Vec<u8> {
    let delta = 0u16.wrapping_sub(64);
    // the offset is counted from its own place, behind which there is one more of the row
    let all = [[65, 67, delta, 0], [97, 100, 1, 4], [0xFFFF, 0xFFFF, 1, 0]];
    segments(&all, &[1, 0, 0xFFFF, 2])
}

/// A subtable of format 12 with these groups.
fn groups(all: &[[u32; 3]]) -> Vec<u8> {
    let groups = longs(&all.concat());
    let head = longs(&[0, 0, all.len() as u32]);
    [&shorts(&[12, 0])[..], &head, &groups].concat()
}

/// The glyphs that a table has for the characters of a text, 0 for none.
fn glyphs(table: &[u8], text: &str) -> Result<Vec<u32>, String> {
    let cmap = Cmap::of(table)?;
    let glyph = |character| Ok(cmap.glyph(character)?.unwrap_or(0));
    text.chars().map(glyph).collect()
}

const WINDOWS: [u16; 2] = [3, 1];
const WINDOWS_ALL: [u16; 2] = [3, 10];
const CUT: &str = "its table `cmap` is cut off";

#[test]
fn segments_lead_to_glyphs() {
    let table = cmap(&[(WINDOWS, &some_segments())]);
    let found = glyphs(&table, "@ABCD`abcde\u{FFFF}\u{10041}");
    assert_eq!(found, Ok(vec![0, 1, 2, 3, 0, 0, 2, 0, 0, 3, 0, 0, 0]));
}

#[test]
fn groups_lead_to_glyphs() {
    let all = groups(&[
        [65, 67, 1],
        [0x1F600, 0x1F601, 7],
        [0x2F800, 0x2F801, u32::MAX],
    ]);
    let table = cmap(&[(WINDOWS_ALL, &all)]);
    let found = glyphs(&table, "@ABCD\u{1F5FF}\u{1F600}\u{1F601}\u{1F602}");
    assert_eq!(found, Ok(vec![0, 1, 2, 3, 0, 0, 7, 8, 0]));
    // a number that passes 32 bits is past every font
    let past = glyphs(&table, "\u{2F800}\u{2F801}");
    assert_eq!(past, Ok(vec![u32::MAX, u32::MAX]));
}

#[test]
fn a_subtable_of_unicode_is_taken() {
    let (four, twelve) = (segments(&[[65, 65, 1, 0]], &[]), groups(&[[65, 65, 5]]));
    let other = segments(&[[65, 65, 9, 0]], &[]);
    let found = |all: &[([u16; 2], &[u8])]| glyphs(&cmap(all), "A");
    assert_eq!(found(&[([0, 3], &four)]), Ok(vec![66]));
    assert_eq!(found(&[([1, 0], &other), (WINDOWS, &four)]), Ok(vec![66]));
    // all characters go before those of 16 bits, wherever they stand
    let both = found(&[([0, 4], &twelve), (WINDOWS, &four)]);
    assert_eq!(both, Ok(vec![5]));
    let both = found(&[(WINDOWS, &four), (WINDOWS_ALL, &twelve)]);
    assert_eq!(both, Ok(vec![5]));
    let none = "its table `cmap` has no characters of Unicode in format 4 or 12";
    let symbols: [([u16; 2], &[u8]); 3] = [([3, 0], &four), ([1, 0], &four), ([0, 5], &four)];
    for all in [&[][..], &symbols, &[(WINDOWS, &shorts(&[6, 0]))]] {
        assert_eq!(found(all), Err(none.into()));
    }
}

#[test]
fn a_table_that_is_cut_off_is_told() {
    let text = "Aad\u{FFFF}\u{10041}";
    for subtable in [some_segments(), groups(&[[65, 67, 1], [97, 97, 2]])] {
        let table = cmap(&[(WINDOWS, &subtable)]);
        assert!(glyphs(&table, text).is_ok());
        for length in 0..table.len() {
            assert_eq!(glyphs(&table[..length], text), Err(CUT.into()), "{length}");
        }
    }
}

/// endchar; a call of local 0; 1 hmoveto endchar; and a byte that starts no token.
const GLYPHS: [Bytes; 4] = [&[0x0E], &[0x20, 0x0A, 0x0E], &[0x8C, 0x16, 0x0E], &[0x00]];

/// A font with these glyphs and L, and this cmap table.
fn font(cmap: &[u8]) -> Vec<u8> {
    let cff = table_with(&index(&GLYPHS), EMPTY_INDEX, private(&[], L));
    file(&[(b"CFF ", &cff), (b"cmap", cmap)])
}

/// A, B and C are glyphs 1 to 3, a is glyph 1 too, and z is one that the font has not.
fn some_groups() -> Vec<u8> {
    cmap(&[(
        WINDOWS_ALL,
        &groups(&[[65, 67, 1], [97, 97, 1], [122, 122, 4]]),
    )])
}

fn embedded(file: &[u8], text: &str) -> Result<Embedding, String> {
    Embedding::of(file, 0, Profile::Plain, text)
}

/// The lines of what is embedded, as if that had taken no time.
fn lines(embedding: &mut Embedding) -> Vec<String> {
    let parts = embedding.parts.iter_mut();
    parts.for_each(|part| part.time = Duration::ZERO);
    let text = embedding.to_string();
    text.lines().map(|line| line.trim().into()).collect()
}

fn numbers(part: &Part) -> Vec<u32> {
    part.glyphs.iter().map(|glyph| glyph.number).collect()
}

#[test]
fn the_glyphs_of_a_text_are_embedded_once_and_in_its_order() {
    let mut all = embedded(&font(&some_groups()), "BABaX BX\n").unwrap();
    let said = lines(&mut all);
    let [part] = &all.parts[..] else { panic!() };
    assert_eq!(numbers(part), [0, 2, 1]);
    assert_eq!(part.glyphs[0].character, None);
    let a = Glyph {
        number: 1,
        character: Some('A'),
    };
    assert_eq!(part.glyphs[2], a);
    let flat = index(&[&[0x0E], &[0x8C, 0x16, 0x0E], &[0x8C, 0x8D, 0x15, 0x0E]]);
    assert_eq!(part.flat.as_ref(), Ok(&flat));
    assert_eq!(all.missing, ['X', ' ', '\n']);
    let owed = [
        "3 glyphs, .notdef first, for a text of 9 characters",
        "3 to embed: 15 bytes, in 0.0ns",
        "the font has not U+0058 X",
        "the font has not U+0020",
        "the font has not U+000A",
    ];
    assert_eq!(said, owed);
}

#[test]
fn no_text_embeds_glyph_0() {
    let all = embedded(&font(&some_groups()), "").unwrap();
    assert_eq!((all.characters, numbers(&all.parts[0])), (0, vec![0]));
}

#[test]
fn a_refused_glyph_is_told_with_its_character() {
    let said = |text| lines(&mut embedded(&font(&some_groups()), text).unwrap())[1].clone();
    assert_eq!(
        said("BAC"),
        "4 to embed: refusal 6: place 3: a byte starts no number, or an operator is not supported, at token 1; \
         glyph 3, for U+0043 C, is there"
    );
    assert_eq!(
        said("zA"),
        "3 to embed: refusal 25: place 1: the INDEX has no entry of that number; glyph 4, for U+007A z, is there"
    );
    let unfinished = table_with(&index(&[&[]]), EMPTY_INDEX, private(&[], L));
    let cmap = some_groups();
    let unfinished = file(&[(b"CFF ", &unfinished), (b"cmap", &cmap)]);
    let mut strict = Embedding::of(&unfinished, 0, Profile::Strict, "").unwrap();
    assert_eq!(
        lines(&mut strict)[1],
        "1 to embed: refusal 16: place 0: the charstring comes to its end without endchar, in strict; glyph 0 is there"
    );
}

#[test]
fn a_damaged_list_is_told_without_a_place() {
    let list = [0, 3, 1, 1, 2, 1, 2, 0x0B];
    let cff = table_with(&index(&GLYPHS), EMPTY_INDEX, private(&[], &list));
    let cmap = some_groups();
    let mut all = embedded(&file(&[(b"CFF ", &cff), (b"cmap", &cmap)]), "A").unwrap();
    assert_eq!(
        lines(&mut all)[1],
        "2 to embed: refusal 2: the local list's entry 1: its offsets descend"
    );
}

/// Glyph 0 goes by Font DICT 1, whose local 0 is 1 hmoveto, and glyph 1, endchar, by Font DICT 0, as does glyph 2, which is refused.
#[test]
fn each_local_list_has_a_call_of_its_own() {
    let (cff, cmap) = (cid_table(&[0, 1, 0, 0]), some_groups());
    let font = file(&[(b"CFF ", &cff), (b"cmap", &cmap)]);
    let mut all = embedded(&font, "A").unwrap();
    let owed = [
        "2 glyphs, .notdef first, for a text of 1 characters",
        "by Font DICT 1: 1 to embed: 8 bytes, in 0.0ns",
        "by Font DICT 0: 1 to embed: 6 bytes, in 0.0ns",
    ];
    assert_eq!(lines(&mut all), owed);
    let flat = |part: usize| all.parts[part].flat.as_ref().unwrap();
    assert_eq!(flat(0), &index(&[&[0x8C, 0x16, 0x0E]]));
    assert_eq!(flat(1), &index(&[&[0x0E]]));
    let all = embedded(&font, "BA").unwrap();
    let refused = all.parts[1].flat.as_ref().unwrap_err();
    assert_eq!(refused.refusal, Refusal::Unknown);
    assert_eq!((refused.glyph, refused.by_place), (Some(0), true));
    let absent = file(&[(b"CFF ", &cid_table(&[0, 2, 0, 0])), (b"cmap", &cmap)]);
    assert_eq!(
        embedded(&absent, "A").unwrap_err(),
        "glyph 0 has no Font DICT"
    );
}

#[test]
fn a_font_without_characters_is_told() {
    let cff = table_with(&index(&GLYPHS), EMPTY_INDEX, private(&[], L));
    let why = |file: &[u8]| embedded(file, "A").unwrap_err();
    let without = file(&[(b"CFF ", &cff)]);
    assert_eq!(why(&without), "it has no table `cmap`");
    let cmap = some_groups();
    let without = file(&[(b"cmap", &cmap)]);
    assert_eq!(
        why(&without),
        "it has no table `CFF `; its outlines are of another kind"
    );
    let words = ["A.otf", "--text", "A"].map(String::from);
    let answer = Asked::read(&words).unwrap().answer(&font(&cmap));
    assert!(answer.unwrap().starts_with("2 glyphs, .notdef first"));
}

#[test]
fn damaged_fonts_are_told_or_embedded() {
    let cid = file(&[
        (b"CFF ", &cid_table(&[0, 1, 0, 0])),
        (b"cmap", &some_groups()),
    ]);
    let segments = cmap(&[(WINDOWS, &some_segments())]);
    for font in [font(&some_groups()), font(&segments), cid] {
        assert!(embedded(&font, "Aad").is_ok());
        (0..font.len()).for_each(|length| assert!(embedded(&font[..length], "Aad").is_err()));
        for (at, value) in (0..font.len()).flat_map(|at| [0, 1, 4, 127, 255].map(|v| (at, v))) {
            let mut damaged = font.clone();
            damaged[at] = value;
            match embedded(&damaged, "Aad\u{10041}") {
                Ok(all) => assert!(!all.to_string().is_empty()),
                Err(why) => assert!(!why.is_empty()),
            }
        }
    }
}
