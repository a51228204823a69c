//! The example `why` on fonts that are made here.

#[allow(dead_code)]
#[path = "../../examples/why.rs"]
mod example;

use crate::font::{cid_font, font_with_lists};
use crate::index;
use example::{Asked, Font, Report};
use ighzamrel::Profile;
use ighzamrel::Profile::{Plain, Strict};

const AMPLE: u32 = 1000;

/// The lines of a font's report.
fn said(file: &[u8], profile: Profile, budget: u32) -> Vec<String> {
    let font = Font::read(file, 0).unwrap();
    let report = Report::of(&font, profile, budget).unwrap().to_string();
    report.lines().map(String::from).collect()
}

/// Local 0 is a byte that starts no token, and local 1 a return; global 1 is a call of local 0, and global 0 a return.
fn font() -> Vec<u8> {
    let glyphs: [&[u8]; 5] = [
        &[0x0E],
        &[0x21, 0x0A, 0x20, 0x0A],
        &[0x8C, 0x16, 0x21, 0x1D],
        &[0x21, 0x0A, 0x0E],
        &[0x21, 0x0A, 0x22, 0x0A],
    ];
    let globals = index(&[&[0x0B], &[0x20, 0x0A]]);
    font_with_lists(&index(&glyphs), &globals, &index(&[&[0x00], &[0x0B]]))
}

const UNKNOWN: &str = "refusal 6: a byte starts no number, or an operator is not supported";
const ABSENT: &str = "refusal 9: a call names a subroutine that is not there";

#[test]
fn each_refused_glyph_is_told_with_its_calls() {
    let owed = [
        format!("glyph 1: {UNKNOWN}, at token 6; it stands in local subroutine 0, called at byte 3 of the charstring"),
        format!(
            "glyph 2: {UNKNOWN}, at token 7; it stands in local subroutine 0, called at byte 1 of global subroutine 1, \
             called at byte 3 of the charstring"
        ),
        format!("glyph 4: {ABSENT}, at token 5; it stands in the charstring itself"),
        "3 of 5 glyphs are refused".into(),
    ];
    assert_eq!(said(&font(), Plain, AMPLE), owed);
}

#[test]
fn the_budget_is_what_is_asked_for() {
    let spent = "refusal 3: the budget is spent after token 2; the next token stands in";
    let owed = [
        format!("glyph 1: {spent} local subroutine 1, called at byte 1 of the charstring"),
        format!("glyph 2: {spent} the charstring itself"),
        // two glyphs in the same words
        format!("glyphs 3 to 4: {spent} local subroutine 1, called at byte 1 of the charstring"),
        "4 of 5 glyphs are refused".into(),
    ];
    assert_eq!(said(&font(), Plain, 2), owed);
}

#[test]
fn a_font_without_refusals_has_one_line() {
    let file = font_with_lists(&index(&[&[0x0E], &[]]), &index(&[]), &index(&[]));
    assert_eq!(said(&file, Plain, AMPLE), ["0 of 2 glyphs are refused"]);
    let owed = [
        "glyph 1: refusal 16: the charstring comes to its end without endchar, in strict",
        "1 of 2 glyphs are refused",
    ];
    assert_eq!(said(&file, Strict, AMPLE), owed);
}

#[test]
fn a_damaged_list_is_told_once() {
    let descending = [0, 3, 1, 1, 2, 1, 2, 0x0E];
    let file = font_with_lists(&index(&[&[0x0E][..]; 300]), &index(&[]), &descending);
    let owed = [
        "glyphs 0 to 299: refusal 2: the local list's entry 1: its offsets descend",
        "300 of 300 glyphs are refused",
    ];
    assert_eq!(said(&file, Plain, AMPLE), owed);
    // glyph 0 is endchar, glyph 1 would end before it starts, and glyph 2 is endchar
    let file = font_with_lists(&[0, 3, 1, 1, 3, 2, 3, 0x0E, 0x0E], &index(&[]), &index(&[]));
    let owed = [
        "glyph 1: refusal 41: the offsets of the entry descend",
        "1 of 3 glyphs are refused",
    ];
    assert_eq!(said(&file, Plain, AMPLE), owed);
}

#[test]
fn a_glyph_is_told_with_the_font_dict_of_its_local_list() {
    // glyph 2 is an operator that is none, and glyph 0 goes by Font DICT 1
    let owed = [
        format!(
            "glyph 2, by Font DICT 0: {UNKNOWN}, at token 1; it stands in the charstring itself"
        ),
        "1 of 3 glyphs are refused".into(),
    ];
    assert_eq!(said(&cid_font(&[0, 1, 0, 0]), Plain, AMPLE), owed);
    let spent = "refusal 3: the budget is spent after token 2; the next token stands in";
    let owed = [
        format!("glyph 0, by Font DICT 1: {spent} local subroutine 0, called at byte 1 of the charstring"),
        format!("glyph 2, by Font DICT 0: {UNKNOWN}, at token 1; it stands in the charstring itself"),
        "2 of 3 glyphs are refused".into(),
    ];
    assert_eq!(said(&cid_font(&[0, 1, 0, 0]), Plain, 2), owed);
}

#[test]
fn what_is_asked_for_is_read() {
    let read = |words: &str| {
        let words: Vec<String> = words.split_whitespace().map(String::from).collect();
        let asked = Asked::read(&words)?;
        Some((
            asked.path.to_string(),
            asked.font,
            asked.profile,
            asked.budget,
        ))
    };
    let path = || "A.otf".to_string();
    assert_eq!(read("A.otf"), Some((path(), 0, Plain, 1_000_000)));
    let all = read("A.otf font 2 strict --budget 7");
    assert_eq!(all, Some((path(), 2, Strict, 7)));
    for wrong in [
        "",
        "A.otf --budget",
        "A.otf --budget x",
        "A.otf font",
        "A.otf B.otf",
    ] {
        assert_eq!(read(wrong), None, "{wrong}");
    }
}
