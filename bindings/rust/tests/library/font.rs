//! The example `font` on fonts that are made here, whole and damaged.

#[allow(dead_code)]
#[path = "../../examples/font.rs"]
pub mod example;

use crate::{alone, index};
use example::{flatten, Advance, Asked, Counts, Report, Widths};
use ighzamrel::{Operand, Profile, Refusal, Refused, EMPTY_INDEX};
use std::collections::BTreeMap;
use std::time::Duration;

/// An operator of a DICT with its operands, each in five bytes, so that its length does not depend on them.
fn entry(operands: &[usize], operator: &[u8]) -> Vec<u8> {
    let mut bytes = Vec::new();
    for &operand in operands {
        bytes.push(29);
        bytes.extend((operand as u32).to_be_bytes());
    }
    [&bytes, operator].concat()
}

/// An OpenType file with these tables.
pub fn file(tables: &[(&[u8; 4], &[u8])]) -> Vec<u8> {
    let count = tables.len();
    let mut head = [b"OTTO", &[0, count as u8, 0, 0, 0, 0, 0, 0][..]].concat();
    let mut at = 12 + 16 * count;
    for (tag, table) in tables {
        let place = [at, table.len()].map(|number| (number as u32).to_be_bytes());
        head.extend([&tag[..], &[0; 4], &place.concat()].concat());
        at += table.len();
    }
    let tables: Vec<&[u8]> = tables.iter().map(|(_, table)| *table).collect();
    [head, tables.concat()].concat()
}

const REAL: [u8; 6] = [30, 0x0A, 0x00, 0x1F, 12, 7];

/// 0 1 hstem, hintmask, and a 0 that waits at the next hintmask.
const AT_MASK: &[u8] = &[0x8B, 0x8C, 0x01, 0x13, 0x80, 0x8B, 0x13, 0x80, 0x0E];

/// -107 callsubr endchar, endchar, and an operator that is none.
const GLYPHS: [&[u8]; 3] = [&[0x20, 0x0A, 0x0E], &[0x0E], &[0x00]];

/// A Private DICT with this in it too, and behind it its local list; and the DICT's size.
pub fn private(more: &[u8], list: &[u8]) -> (Vec<u8>, usize) {
    let size = 6 + more.len();
    ([&entry(&[size], &[19])[..], more, list].concat(), size)
}

/// A CFF table up to this Global Subr INDEX.
fn head(top: &[u8], globals: &[u8]) -> Vec<u8> {
    [
        &[1, 0, 4, 1][..],
        &index(&[b"A"]),
        &index(&[top]),
        &index(&[]),
        globals,
    ]
    .concat()
}

fn plain_font() -> Vec<u8> {
    font_with(&index(&GLYPHS), &index(&[&[0x8C, 0x8D, 0x15, 0x0B]]))
}

/// A font with these glyphs and this local list.
fn font_with(glyphs: &[u8], locals: &[u8]) -> Vec<u8> {
    font_with_lists(glyphs, EMPTY_INDEX, locals)
}

pub fn font_with_lists(glyphs: &[u8], globals: &[u8], locals: &[u8]) -> Vec<u8> {
    let table = table_with(glyphs, globals, private(&[], locals));
    file(&[(b"CFF ", &table)])
}

pub fn table_with(glyphs: &[u8], globals: &[u8], (private, size): (Vec<u8>, usize)) -> Vec<u8> {
    let top = |glyphs, private| {
        [
            &REAL[..],
            &entry(&[glyphs], &[17]),
            &entry(&[size, private], &[18]),
        ]
        .concat()
    };
    let start = head(&top(0, 0), globals).len();
    let head = head(&top(start, start + glyphs.len()), globals);
    [&head, glyphs, &private].concat()
}

/// A font with these glyphs, this in its Private DICT, and these advance widths, all of them in hmtx with a side bearing.
fn font_by_widths(glyphs: &[&[u8]], more: &[u8], advances: &[u16]) -> Vec<u8> {
    let (hhea, hmtx) = metrics(advances);
    let cff = table_with(&index(glyphs), EMPTY_INDEX, private(more, &index(&[])));
    file(&[(b"CFF ", &cff), (b"hhea", &hhea), (b"hmtx", &hmtx)])
}

fn metrics(advances: &[u16]) -> (Vec<u8>, Vec<u8>) {
    let bearing = |advance: &u16| [advance.to_be_bytes(), [0, 7]].concat();
    let hhea = [&[0; 34][..], &(advances.len() as u16).to_be_bytes()].concat();
    (hhea, advances.iter().flat_map(bearing).collect())
}

/// A font with two Font DICTs: the first glyph goes by the second.
pub fn cid_font(select: &[u8]) -> Vec<u8> {
    file(&[(b"CFF ", &cid_table(select))])
}

/// In the Private DICTs nominalWidthX is 100 and 200, and defaultWidthX 10 and 20.
pub fn cid_table(select: &[u8]) -> Vec<u8> {
    let top = |glyphs, dicts, select| {
        let dicts = entry(&[dicts], &[12, 36]);
        [entry(&[glyphs], &[17]), dicts, entry(&[select], &[12, 37])].concat()
    };
    let glyphs = index(&GLYPHS);
    let widths = |nominal, default| [entry(&[nominal], &[21]), entry(&[default], &[20])].concat();
    let (first, size) = private(&widths(100, 10), &index(&[&[0x0E]]));
    let (second, _) = private(&widths(200, 20), &index(&[&[0x8C, 0x16, 0x0B]]));
    let dicts = |at: usize| {
        let place = |at| entry(&[size, at], &[18]);
        index(&[&place(at), &place(at + first.len())])
    };
    let at_glyphs = head(&top(0, 0, 0), EMPTY_INDEX).len();
    let at_dicts = at_glyphs + glyphs.len();
    let at_select = at_dicts + dicts(0).len();
    let head = head(&top(at_glyphs, at_dicts, at_select), EMPTY_INDEX);
    let dicts = dicts(at_select + select.len());
    [&head, &glyphs, &dicts, select, &first, &second].concat()
}

fn plain(font: &[u8]) -> Report {
    flatten(font, 0, Profile::Plain).unwrap()
}

/// The lines of a report, as if its glyphs had taken no time one by one.
fn lines(report: &mut Report) -> Vec<String> {
    report.time = Duration::ZERO;
    let text = report.to_string();
    text.lines().map(|line| line.trim().into()).collect()
}

fn counts(tokens: u64, before: usize, after: usize) -> Option<Counts> {
    let refused = BTreeMap::from([(Refusal::Unknown.into(), 1)]);
    Some(Counts {
        flattened: 2,
        tokens,
        before,
        after,
        refused,
        widths: Widths::default(),
    })
}

#[test]
fn a_font_is_flattened_in_one_go() {
    let glyphs = index(&GLYPHS[..2]);
    let font = font_with(&glyphs, &index(&[&[0x8C, 0x8D, 0x15, 0x0B]]));
    let mut report = plain(&font);
    let lines = lines(&mut report);
    let whole = report.whole.unwrap().unwrap();
    assert_eq!(whole.flat, index(&[&[0x8C, 0x8D, 0x15, 0x0E], &[0x0E]]));
    assert_eq!((report.glyphs, whole.before), (2, glyphs.len()));
    assert_eq!(lines[0], "2 glyphs");
    assert!(lines[1].starts_with("in one go: 10 bytes before, 11 after, in "));
    let one_by_one = "one by one, in 0.0ns: 2 flattened, 4 bytes before, 5 after, in 8 tokens";
    let widths = "widths: 0 say one of their own; hmtx has none";
    assert_eq!(lines[2..], [one_by_one, widths]);
}

#[test]
fn refused_glyphs_are_counted() {
    assert_eq!(plain(&plain_font()).counts, counts(9, 4, 5));
    refused_in_strict(GLYPHS[2], Refusal::Unknown, Some(1), 9);
    refused_in_strict(AT_MASK, Refusal::OperandsAtMask, None, 8);
    refused_in_strict(&[0x8C, 0x16], Refusal::NoEndchar, None, 8);
}

/// Two glyphs are flattened, and this third one is refused so; `all` are the tokens that are counted.
fn refused_in_strict(glyph: &[u8], refusal: Refusal, tokens: Option<u32>, all: u32) {
    let glyphs = index(&[GLYPHS[0], GLYPHS[1], glyph]);
    let font = font_with(&glyphs, &index(&[&[0x8C, 0x8D, 0x15, 0x0B]]));
    let mut report = flatten(&font, 0, Profile::Strict).unwrap();
    let lines = lines(&mut report);
    let first = report.whole.unwrap().unwrap_err();
    assert_eq!((first.glyph, first.tokens), (Some(2), tokens));
    assert_eq!(
        lines,
        [
            "3 glyphs",
            &format!("in one go: {first}"),
            &format!("one by one, in 0.0ns: 2 flattened, 4 bytes before, 5 after, in {all} tokens"),
            &format!("1 with {refusal}"),
            "widths: 0 say one of their own; hmtx has none"
        ]
    );
}

#[test]
fn a_damaged_list_is_told_with_its_entry() {
    let list = [0, 3, 1, 1, 2, 1, 2, 0x0B];
    let why = |refusal| Refused {
        entry: Some(1),
        reason: Some(Refusal::Descending),
        ..alone(refusal)
    };
    for (font, refusal) in [
        (font_with(&index(&GLYPHS), &list), Refusal::BadLocals),
        (font_with(&list, &index(&[])), Refusal::BadCharstrings),
    ] {
        let (report, why) = (plain(&font), why(refusal));
        let text = report.to_string();
        assert_eq!(text, format!("3 glyphs\n  in one go: {why}\n"));
        assert_eq!(report.whole.unwrap().unwrap_err(), why);
    }
}

#[test]
fn a_glyph_goes_by_its_own_local_list() {
    let (each, ranges) = ([0, 1, 0, 0], [3, 0, 2, 0, 0, 1, 0, 1, 0, 0, 3]);
    for select in [&each[..], &ranges] {
        let report = plain(&cid_font(select));
        assert!(report
            .to_string()
            .starts_with("3 glyphs\n  they have several local lists\n"));
        assert_eq!(report.counts, counts(8, 4, 4));
        assert!(report.whole.is_none());
    }
    let why = flatten(&cid_font(&[0, 2, 0, 0]), 0, Profile::Plain).unwrap_err();
    assert_eq!(why, "glyph 0 has no Font DICT");
}

#[test]
fn a_file_that_is_no_such_font_is_told() {
    let why = |file: &[u8]| flatten(file, 0, Profile::Plain).unwrap_err();
    assert_eq!(why(b"GIF89a"), "it does not start as an OpenType file does");
    assert_eq!(why(b"OTTO"), "its table directory is cut off");
    assert_eq!(
        why(&file(&[(b"glyf", &[])])),
        "it has no table `CFF `; its outlines are of another kind"
    );
    let cff = |table| why(&file(&[(b"CFF ", table)]));
    assert_eq!(cff(&[1, 0]), "its CFF header is cut off");
    assert_eq!(
        cff(&[1, 0, 4, 1]),
        format!("its Name INDEX: {}", Refusal::IndexLacking)
    );
    let wide = font_by_widths(&GLYPHS[..2], &[], &[0, 0]);
    for font in [plain_font(), cid_font(&[0, 1, 0, 0]), wide] {
        (0..font.len()).for_each(|length| assert!(!why(&font[..length]).is_empty()));
    }
}

#[test]
fn damaged_fonts_are_told_or_counted() {
    for font in [
        plain_font(),
        cid_font(&[0, 1, 0, 0]),
        cid_font(&[3, 0, 1, 0, 0, 1, 0, 3]),
        font_by_widths(&GLYPHS[..2], &WIDTHS, &[0, 0]),
    ] {
        for (at, value) in
            (0..font.len()).flat_map(|at| [0, 1, 4, 127, 255].map(|value| (at, value)))
        {
            let mut damaged = font.clone();
            damaged[at] = value;
            match flatten(&damaged, 0, Profile::Plain) {
                Ok(report) => assert!(report.whole.is_some() || report.counts.is_some()),
                Err(why) => assert!(!why.is_empty()),
            }
        }
    }
}

/// defaultWidthX 250 and nominalWidthX 499.5, a real.
const WIDTHS: [u8; 8] = [0xF7, 0x8E, 20, 30, 0x49, 0x9A, 0x5F, 21];

/// -0.5 1 2 rmoveto endchar, and endchar.
const WIDE: [&[u8]; 2] = [
    &[0xFF, 0xFF, 0xFF, 0x80, 0x00, 0x8C, 0x8D, 0x15, 0x0E],
    &[0x0E],
];

fn widths(font: &[u8]) -> Widths {
    plain(font).counts.unwrap().widths
}

#[test]
fn widths_are_held_against_hmtx() {
    let by = |advances: &[u16]| widths(&font_by_widths(&WIDE, &WIDTHS, advances));
    let all = |agree, rounded, differ, first_other| Widths {
        said: 1,
        agree,
        rounded,
        differ,
        first_other,
    };
    let other = |glyph, by_hmtx, width, by_charstring| {
        Some(Advance {
            glyph,
            by_hmtx,
            width,
            by_charstring,
        })
    };
    let half = Some(Operand::Fixed(-32_768));
    assert_eq!(by(&[499, 250]), all(2, 0, 0, None));
    assert_eq!(by(&[500, 250]), all(1, 0, 1, other(0, 500, half, 499.0)));
    assert_eq!(by(&[499, 251]), all(1, 0, 1, other(1, 251, None, 250.0)));
    assert_eq!(by(&[0, 0]), all(0, 0, 2, other(0, 0, half, 499.0)));
    // the last advance width is that of all glyphs behind it
    assert_eq!(by(&[499]), all(1, 0, 1, other(1, 499, None, 250.0)));
    assert_eq!(by(&[]), all(0, 0, 0, None));
}

#[test]
fn a_width_that_is_not_whole_is_rounded_in_hmtx() {
    let glyph: &[u8] = &[0xFF, 0x00, 0x64, 0x80, 0x00, 0x0E];
    let by = |more: &[u8], advance| {
        let Widths {
            agree,
            rounded,
            differ,
            ..
        } = widths(&font_by_widths(&[glyph], more, &[advance]));
        [agree, rounded, differ]
    };
    // 100.5 by itself; more than -5E-1, .25E1 and 25E-1; and more than a real that is none
    assert_eq!(by(&[], 99), [0, 0, 1]);
    assert_eq!(by(&[], 100), [0, 1, 0]);
    assert_eq!(by(&[], 101), [0, 1, 0]);
    assert_eq!(by(&[30, 0xE5, 0xC1, 0xFF, 21], 100), [1, 0, 0]);
    assert_eq!(by(&[30, 0xA2, 0x5B, 0x1F, 21], 103), [1, 0, 0]);
    assert_eq!(by(&[30, 0x25, 0xC1, 0xFF, 21], 103), [1, 0, 0]);
    assert_eq!(by(&[30, 0x1A, 0x2A, 0x3F, 21], 101), [0, 0, 1]);
}

#[test]
fn a_glyph_goes_by_its_own_widths() {
    let (hhea, hmtx) = metrics(&[20, 10, 10]);
    let by = |select: &[u8]| {
        let tables: [(&[u8; 4], &[u8]); 3] = [
            (b"CFF ", &cid_table(select)),
            (b"hhea", &hhea),
            (b"hmtx", &hmtx),
        ];
        let widths = widths(&file(&tables));
        [widths.said, widths.agree, widths.differ]
    };
    assert_eq!(by(&[0, 1, 0, 0]), [0, 2, 0]);
    assert_eq!(by(&[0, 0, 0, 0]), [0, 1, 1]);
}

#[test]
fn widths_are_told() {
    let text = |advances| plain(&font_by_widths(&WIDE, &WIDTHS, advances)).to_string();
    let ends = |advances, lines| assert!(text(advances).ends_with(lines), "{}", text(advances));
    let agree =
        "  widths: 1 say one of their own; 2 are as in hmtx, 0 so once rounded, 0 are not\n";
    ends(&[499, 250], agree);
    let other = "\n  the first that is not: glyph 0, 7 in hmtx, 499 by nominalWidthX and -0.5\n";
    ends(&[7, 250], other);
    let other = "\n  the first that is not: glyph 1, 7 in hmtx, 250 by defaultWidthX\n";
    ends(&[499, 7], other);
}

#[test]
fn a_collection_has_several_fonts() {
    // its fonts are the same, at place 20
    let font = font_with(&index(&GLYPHS[..2]), &index(&[]));
    let collection = |font: &[u8]| {
        let mut font = font.to_vec();
        font[20..24].copy_from_slice(&48u32.to_be_bytes());
        [
            &b"ttcf"[..],
            &[0, 1, 0, 0],
            &[0, 0, 0, 2],
            &[0, 0, 0, 20, 0, 0, 0, 20],
            &font,
        ]
        .concat()
    };
    let file = collection(&font);
    let glyphs = |number| flatten(&file, number, Profile::Plain).map(|report| report.glyphs);
    assert_eq!((glyphs(0), glyphs(1)), (Ok(2), Ok(2)));
    assert_eq!(glyphs(2).unwrap_err(), "it has no font 2");
    let why = flatten(&font, 1, Profile::Plain).unwrap_err();
    assert_eq!(why, "it is no collection");
}

#[test]
fn what_is_asked_for_is_read() {
    let read = |words: &str| {
        let words: Vec<String> = words.split_whitespace().map(String::from).collect();
        let asked = Asked::read(&words)?;
        let text = asked.text.map(String::from);
        Some((asked.path.to_string(), asked.number, asked.profile, text))
    };
    let path = || "A.otf".to_string();
    assert_eq!(read("A.otf"), Some((path(), 0, Profile::Plain, None)));
    let all = read("A.otf strict 2 --text 2026");
    assert_eq!(all, Some((path(), 2, Profile::Strict, Some("2026".into()))));
    for wrong in ["", "A.otf --text", "A.otf x", "A.otf -1"] {
        assert_eq!(read(wrong), None, "{wrong}");
    }
}
