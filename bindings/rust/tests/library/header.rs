//! Refusals by number and in words; and the declarations, which are those of the C header.

use crate::alone;
use ighzamrel::{NoRefusal, Refusal, Refused};

const HEADER: &str = include_str!("../../../../include/ighzamrel.h");
const DECLARATIONS: &str = include_str!("../../src/ffi.rs");

#[test]
fn numbers_go_both_ways() {
    for number in 0..100 {
        match Refusal::try_from(number) {
            Ok(refusal) => assert_eq!(u32::from(refusal), number),
            Err(none) => {
                assert_eq!(none, NoRefusal(number));
                assert!(Refusal::ALL
                    .iter()
                    .all(|refusal| refusal.number() != number));
            }
        }
    }
}

#[test]
fn texts_are_for_a_person() {
    let run = |refusal, needed, tokens| Refused {
        needed,
        tokens: Some(tokens),
        ..alone(refusal)
    };
    says(
        run(Refusal::Short, Some(4), 7),
        ", which must be 4 bytes (after 7 tokens)",
    );
    says(run(Refusal::Short, None, 1), " (after 1 token)");
    says(run(Refusal::Composite, None, 1), ", at token 1");
    says(run(Refusal::BudgetSpent, None, 6), " after token 6");
    says(Refusal::BadLocals.into(), "");
}

#[test]
fn texts_tell_the_glyph_of_a_font() {
    let refused = Refused {
        glyph: Some(12),
        tokens: Some(3),
        ..alone(Refusal::NoEntry)
    };
    assert_eq!(
        refused.to_string(),
        "refusal 9: glyph 12: a call names a subroutine that is not there, at token 3"
    );
    let without_tokens = |refusal| Refused {
        glyph: Some(12),
        ..alone(refusal)
    };
    assert_eq!(
        without_tokens(Refusal::OperandsAtMask).to_string(),
        "refusal 15: glyph 12: operands wait at a mask whose length is fixed, in strict"
    );
    assert_eq!(
        without_tokens(Refusal::NoEndchar).to_string(),
        "refusal 16: glyph 12: the charstring comes to its end without endchar, in strict"
    );
}

/// It says what its refusal says, and then this.
fn says(refused: Refused, more: &str) {
    assert_eq!(refused.to_string(), format!("{}{more}", refused.refusal));
}

#[test]
fn texts_tell_what_is_wrong_with_a_list() {
    let list = |refusal, entry, reason| Refused {
        entry,
        reason,
        ..alone(refusal)
    };
    let absent = [
        (Refusal::ZeroOffset, "an offset, or the list's last, is 0"),
        (Refusal::Descending, "its offsets descend"),
        (Refusal::PastData, "its offsets pass the data"),
    ];
    for (reason, clause) in absent {
        let refused = list(Refusal::BadLocals, Some(812), Some(reason));
        let said = format!("refusal 2: the local list's entry 812: {clause}");
        assert_eq!(refused.to_string(), said);
    }
    let glyphs = list(
        Refusal::BadCharstrings,
        Some(812),
        Some(Refusal::Descending),
    );
    assert_eq!(
        glyphs.to_string(),
        "refusal 26: the CharStrings INDEX's entry 812: its offsets descend"
    );
    let unread = |reason| list(Refusal::BadGlobals, None, Some(reason)).to_string();
    let said = "refusal 1: the global list's bytes end too soon";
    assert_eq!(unread(Refusal::IndexLacking), said);
    let said = "refusal 1: the global list's offset size is not 1 to 4";
    assert_eq!(unread(Refusal::OffsetSize), said);
    says(list(Refusal::PastData, Some(812), None), " (entry 812)");
}

/// A parameter of the header as Rust declares it.
fn parameter(text: &str) -> String {
    let (kind, name) = text.trim().rsplit_once([' ', '*']).unwrap();
    let pointer = match (text.contains('*'), kind.starts_with("const")) {
        (true, true) => "*const ",
        (true, false) => "*mut ",
        _ => "",
    };
    let kind = kind.trim_start_matches("const ").trim_end();
    let kind = match kind {
        "uint8_t" => "u8",
        "uint32_t" => "u32",
        "uint64_t" => "u64",
        "int32_t" => "i32",
        "size_t" => "usize",
        other => panic!("{other} is not known"),
    };
    format!("{name}: {pointer}{kind}")
}

#[test]
fn declarations_are_the_headers() {
    let ours = DECLARATIONS
        .split_whitespace()
        .collect::<Vec<_>>()
        .join(" ");
    let ours = ours.replace("( ", "(").replace(", )", ")");
    let mut functions = 0;
    for prototype in HEADER.split("\nuint32_t ").skip(1) {
        let (name, rest) = prototype.split_once('(').unwrap();
        let parameters: Vec<String> = rest
            .split(')')
            .next()
            .unwrap()
            .split(',')
            .map(parameter)
            .collect();
        let declaration = format!("pub fn {name}({}) -> u32;", parameters.join(", "));
        assert!(
            ours.contains(&declaration),
            "src/ffi.rs lacks `{declaration}`"
        );
        functions += 1;
    }
    assert_eq!(functions, DECLARATIONS.matches("pub fn ighzamrel_").count());
}

/// A constant of ours has the number of the header's.
fn is_the_headers(ours: &str, kind: &str) {
    let (_, rest) = HEADER.split_once(&format!("IGHZAMREL_{ours} = ")).unwrap();
    let number: String = rest.chars().take_while(char::is_ascii_digit).collect();
    let ours = format!("pub const {ours}: {kind} = {number};");
    assert!(DECLARATIONS.contains(&ours), "src/ffi.rs lacks `{ours}`");
}

#[test]
fn the_kind_of_no_width_is_the_headers() {
    is_the_headers("NO_WIDTH", "u32");
}

#[test]
fn the_most_calls_are_the_headers() {
    is_the_headers("MOST_CALLS", "usize");
    let words = format!("{} * IGHZAMREL_MOST_CALLS words", crate::ffi::CALL_WORDS);
    assert!(HEADER.contains(&words), "the header lacks `{words}`");
}
