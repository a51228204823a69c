//! The example `rerun` on fonts that are made here.

#[allow(dead_code)]
#[path = "../../examples/rerun.rs"]
mod example;

use crate::font::{cid_font, font_with_lists};
use crate::index;
use example::{spread, Change, Checked, Font, List, Listed, Subroutine};
use ighzamrel::Profile;
use ighzamrel::Profile::{Plain, Strict};

const RETURN: &[u8] = &[0x0B];

/// Local 0 and 1 are 1 hmoveto and a call of global 1; globals 0 and 1 are returns.
fn font() -> Vec<u8> {
    let glyphs: [&[u8]; 5] = [
        &[0x0E],
        &[0x20, 0x0A, 0x0E],
        // local 1, and with it global 1
        &[0x21, 0x0A, 0x0E],
        // refused behind local 0
        &[0x20, 0x0A, 0x00],
        // global 1, and no endchar
        &[0x21, 0x1D],
    ];
    let locals: [&[u8]; 3] = [&[0x8C, 0x16, 0x0B], &[0x21, 0x1D, 0x0B], RETURN];
    font_with_lists(&index(&glyphs), &index(&[RETURN; 2]), &index(&locals))
}

fn listed(file: &[u8], list: List, number: u32, profile: Profile) -> Result<Listed, String> {
    let font = Font::read(file, 0).unwrap();
    Listed::of(&font, Subroutine { list, number }, profile)
}

#[test]
fn the_glyphs_that_use_a_subroutine_are_listed() {
    let by = |list, number, profile| {
        let listed = listed(&font(), list, number, profile).unwrap();
        assert_eq!(listed.glyphs, 5);
        (listed.users, listed.refused)
    };
    assert_eq!(by(List::Local(0), 0, Plain), (vec![1], vec![3]));
    assert_eq!(by(List::Local(0), 1, Plain), (vec![2], vec![3]));
    assert_eq!(by(List::Local(0), 2, Plain), (vec![], vec![3]));
    assert_eq!(by(List::Global, 0, Plain), (vec![], vec![3]));
    assert_eq!(by(List::Global, 1, Plain), (vec![2, 4], vec![3]));
    assert_eq!(by(List::Global, 1, Strict), (vec![2], vec![3, 4]));
}

#[test]
fn a_change_is_seen_by_the_listed_glyphs_alone() {
    let file = font();
    let font = Font::read(&file, 0).unwrap();
    let by = |list, number, by| {
        let listed = Listed::of(&font, Subroutine { list, number }, Plain).unwrap();
        let Checked { same, changed, .. } = listed.check(&font, by, Plain).unwrap();
        [same, changed]
    };
    // 1 hmoveto goes, or is 0 hmoveto; a return stays one
    assert_eq!(by(List::Local(0), 0, Change::Return), [3, 1]);
    assert_eq!(by(List::Local(0), 0, Change::OtherByte), [3, 1]);
    assert_eq!(by(List::Global, 1, Change::Return), [2, 0]);
    assert_eq!(by(List::Global, 1, Change::Impassable), [2, 2]);
    assert_eq!(by(List::Local(0), 2, Change::Impassable), [4, 0]);
}

#[test]
fn a_wrong_list_is_told_with_its_glyph() {
    let file = font();
    let font = Font::read(&file, 0).unwrap();
    let wrong = |users: &[u32]| {
        let listed = listed(&file, List::Local(0), 0, Plain).unwrap();
        let listed = Listed {
            users: users.to_vec(),
            ..listed
        };
        listed.check(&font, Change::Impassable, Plain).unwrap_err()
    };
    let change = "local 0 as an operator that is none";
    assert_eq!(
        wrong(&[]),
        format!("{change}: glyph 1 is not listed and changes")
    );
    assert_eq!(
        wrong(&[1, 2]),
        format!("{change}: glyph 2 is listed and does not use it")
    );
}

#[test]
fn a_local_list_serves_the_glyphs_of_its_font_dict() {
    // glyph 0 calls its local 0, glyph 2 is refused; glyph 0 goes by Font DICT 1
    let file = cid_font(&[0, 1, 0, 0]);
    let by = |dict| listed(&file, List::Local(dict), 0, Plain).unwrap();
    assert_eq!((by(0).users, by(0).refused), (vec![], vec![2]));
    assert_eq!((by(1).users, by(1).refused), (vec![0], vec![]));
    let font = Font::read(&file, 0).unwrap();
    let checked = by(1).check(&font, Change::Impassable, Plain).unwrap();
    assert_eq!((checked.same, checked.changed), (0, 1));
    let why = listed(&file, List::Local(2), 0, Plain).unwrap_err();
    assert_eq!(why, "it has no Font DICT 2");
}

#[test]
fn some_of_all_subroutines_are_taken() {
    let of = |globals: usize, locals: usize| {
        let (globals, locals) = (vec![RETURN; globals], vec![RETURN; locals]);
        let file = font_with_lists(&index(&[RETURN]), &index(&globals), &index(&locals));
        spread(&Font::read(&file, 0).unwrap()).unwrap()
    };
    let numbers = |taken: &[Subroutine]| taken.iter().map(ToString::to_string).collect::<Vec<_>>();
    assert_eq!(numbers(&of(0, 0)), [""; 0]);
    assert_eq!(numbers(&of(0, 1)), ["local 0"]);
    assert_eq!(numbers(&of(2, 1)), ["global 0", "global 1", "local 0"]);
    let many = of(100, 100);
    let ends = [many[0], many[19]].map(|taken| taken.to_string());
    assert_eq!(
        (many.len(), ends),
        (20, ["global 0".into(), "local 99".into()])
    );
}

#[test]
fn what_is_listed_is_told() {
    let listed = |list, number| listed(&font(), list, number, Plain);
    let text = listed(List::Global, 1).unwrap().to_string();
    assert_eq!(text, "2 of 5 glyphs use it, 1 are refused");
    let why = listed(List::Local(0), 3).unwrap_err();
    assert_eq!(why, "there is no local 3; its list has 3");
    let checked = Checked {
        by: Change::Return,
        same: 3,
        changed: 2,
    };
    assert_eq!(
        checked.to_string(),
        "as a return: 2 of these change, 3 others do not"
    );
}
