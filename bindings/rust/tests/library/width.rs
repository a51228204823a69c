//! The width that a charstring says.

use crate::flattening::{Bytes, AMPLE, AT_MASK, L, REFUSED, UNFINISHED};
use crate::{ffi, index, BAD_LISTS};
use ighzamrel::Operand::{Fixed, Integer};
use ighzamrel::Profile::{Plain, Strict};
use ighzamrel::*;

const ROOM: usize = 64;

/// The width that both functions tell, of the flat string too; and strict where it accepts.
fn width(charstring: &[u8], locals: &[u8]) -> Option<Operand> {
    let by = |profile, charstring: &[u8], locals| {
        let vec = flatten_to_vec(charstring, EMPTY_INDEX, locals, profile, AMPLE, ROOM)?;
        let lent = flatten(
            charstring,
            EMPTY_INDEX,
            locals,
            profile,
            AMPLE,
            &mut [0; ROOM],
        )?;
        assert_eq!(lent.width, vec.width, "{charstring:02X?}");
        Ok::<FlatVec, Refused>(vec)
    };
    let plain = by(Plain, charstring, locals).unwrap();
    let again = by(Plain, &plain.bytes, EMPTY_INDEX).unwrap();
    assert_eq!(again.width, plain.width, "{charstring:02X?}");
    if let Ok(strict) = by(Strict, charstring, locals) {
        assert_eq!(strict.width, plain.width, "{charstring:02X?}");
    }
    plain.width
}

/// 1 2 3.., so many.
fn operands(count: u8) -> Vec<u8> {
    (0x8C..0x8C + count).collect()
}

/// Each operator that may have a width, with what must stand behind it; how many operands say none, and how many say one.
const OPERATORS: [(Bytes, Bytes, Bytes); 12] = [
    (&[1], &[0, 2, 4, 48], &[1, 3, 47]),
    (&[3], &[0, 2, 4, 48], &[1, 3, 47]),
    (&[18], &[0, 2, 4, 48], &[1, 3, 47]),
    (&[23], &[0, 2, 4, 48], &[1, 3, 47]),
    // a mask of no bytes, and one of a byte, which has up to eight hints
    (&[19], &[0], &[1]),
    (&[20], &[0], &[1]),
    (&[19, 0x80], &[2, 4, 16], &[3, 17]),
    (&[20, 0x80], &[2, 4, 16], &[3, 17]),
    (&[21], &[0, 1, 2], &[3, 4, 48]),
    (&[22], &[0, 1], &[2, 3, 48]),
    (&[4], &[0, 1], &[2, 3, 48]),
    (&[14], &[0], &[1, 2, 3]),
];

#[test]
fn an_operand_too_many_is_the_width() {
    for (operator, none, one) in OPERATORS {
        let with = |count: u8| width(&[&operands(count), operator].concat(), EMPTY_INDEX);
        for &count in none {
            assert_eq!(with(count), None, "{operator:02X?} with {count}");
        }
        for &count in one {
            assert_eq!(
                with(count),
                Some(Integer(1)),
                "{operator:02X?} with {count}"
            );
        }
    }
}

#[test]
fn another_operator_has_none() {
    let short = [5, 6, 7, 8, 24, 25, 26, 27, 30, 31].map(|operator| vec![operator]);
    let escaped = [34, 35, 36, 37].map(|operator| vec![12, operator]);
    for operator in short.into_iter().chain(escaped) {
        for count in [0, 1, 2, 3, 4, 5, 47, 48] {
            let behind: [Bytes; 4] = [&[], &[0x8C, 0x0E], &[0x8C, 0x8D, 0x16], &[0x8C, 0x01]];
            for rest in behind {
                let charstring = [&operands(count)[..], &operator, rest].concat();
                assert_eq!(width(&charstring, EMPTY_INDEX), None, "{charstring:02X?}");
            }
        }
    }
}

#[test]
fn it_is_settled_once() {
    let rows: [(Bytes, Option<Operand>); 8] = [
        // a moveto behind a moveto
        (&[0x8C, 0x8D, 0x15, 0x8D, 0x8E, 0x8F, 0x15, 0x0E], None),
        (&[0x8C, 0x8D, 0x16, 0x8F, 0x90, 0x16], Some(Integer(1))),
        // an endchar behind each
        (&[0x8C, 0x16, 0x8D, 0x0E], None),
        (&[0x8C, 0x8D, 0x16, 0x8F, 0x0E], Some(Integer(1))),
        (&[0x8C, 0x8D, 0x01, 0x8F, 0x0E], None),
        // masks behind a stem and behind a mask, and one before any operand
        (
            &[0x8C, 0x8D, 0x8E, 0x01, 0x8F, 0x13, 0x80],
            Some(Integer(1)),
        ),
        (&[0x8C, 0x8D, 0x13, 0x80, 0x8F, 0x14, 0x80, 0x0E], None),
        (&[0x13, 0x8C, 0x8D, 0x8E, 0x13, 0x80, 0x0E], None),
    ];
    for (charstring, says) in rows {
        assert_eq!(width(charstring, EMPTY_INDEX), says, "{charstring:02X?}");
    }
}

#[test]
fn it_is_the_bottom_operand_by_value() {
    let rows: [(Bytes, Operand); 8] = [
        (&[0x1C, 0x00, 0x05, 0x0E], Integer(5)),
        (&[0x90, 0x0E], Integer(5)),
        (&[0xFA, 0xFF, 0x8C, 0x8D, 0x15], Integer(1131)),
        (&[0x1C, 0x80, 0x00, 0x8C, 0x16], Integer(-32768)),
        (&[0xFF, 0x00, 0x05, 0x00, 0x00, 0x0E], Fixed(327_680)),
        (&[0xFF, 0xFF, 0xFE, 0x80, 0x01, 0x8C, 0x04], Fixed(-98_303)),
        (&[0xFF, 0x80, 0x00, 0x00, 0x00, 0x01], Fixed(i32::MIN)),
        (&[0xFF, 0x00, 0x00, 0x00, 0x00, 0x13], Fixed(0)),
    ];
    for (charstring, says) in rows {
        assert_eq!(
            width(charstring, EMPTY_INDEX),
            Some(says),
            "{charstring:02X?}"
        );
    }
    // a Fixed above it is no part of it
    let above = [0x8C, 0xFF, 0x00, 0x05, 0x00, 0x00, 0x16];
    assert_eq!(width(&above, EMPTY_INDEX), Some(Integer(1)));
}

/// Each charstring over entries that are 1 2 rmoveto; -5; 3 1 hmoveto; a Fixed, 1.5; endchar; a call of the second and the
/// first; and nothing.
#[test]
fn calls_and_returns_settle_nothing() {
    let locals = index(&[
        &[0x8C, 0x8D, 0x15, 0x0B],
        &[0x86, 0x0B],
        &[0x8E, 0x8C, 0x16],
        &[0xFF, 0x00, 0x01, 0x80, 0x00],
        &[0x0E],
        &[0x21, 0x0A, 0x20, 0x0A, 0x0B],
        &[],
    ]);
    let rows: [(Bytes, Option<Operand>); 10] = [
        (&[0x8D, 0x20, 0x0A, 0x0E], Some(Integer(2))),
        (&[0x20, 0x0A, 0x8C, 0x0E], None),
        (&[0x21, 0x0A, 0x8C, 0x16], Some(Integer(-5))),
        (&[0x21, 0x0A, 0x0E], Some(Integer(-5))),
        (&[0x22, 0x0A, 0x0E], Some(Integer(3))),
        (&[0x23, 0x0A, 0x20, 0x0A], Some(Fixed(98_304))),
        (&[0x8F, 0x24, 0x0A], Some(Integer(4))),
        (&[0x24, 0x0A], None),
        (&[0x25, 0x0A, 0x8C, 0x0E], Some(Integer(-5))),
        (&[0x26, 0x0A, 0x8F, 0x26, 0x0A, 0x0E], Some(Integer(4))),
    ];
    for (charstring, says) in rows {
        assert_eq!(width(charstring, &locals), says, "{charstring:02X?}");
    }
}

/// Where the sentence may be read otherwise.
#[test]
fn readings_hold() {
    let rows: [(Bytes, Option<Operand>); 5] = [
        (&[0x13, 0x8C, 0x0E], None),
        (&[0x8B, 0x05, 0x8C, 0x0E], None),
        (&[0x8C, 0x20, 0x0A, 0x0E], Some(Integer(1))),
        (&[0x8C, 0x8D, 0x8E, 0x8F, 0x15], Some(Integer(1))),
        (&[0x8C], None),
    ];
    for (charstring, says) in rows {
        assert_eq!(width(charstring, L), says, "{charstring:02X?}");
    }
}

/// The answer, and the width's places, which held 77.
fn places(
    charstring: &[u8],
    locals: &[u8],
    [profile, budget]: [u32; 2],
    room: usize,
) -> (u32, u32, i32) {
    let mut places = ffi::Places {
        width_kind: 77,
        width: 77,
        ..Default::default()
    };
    let lent = [charstring, EMPTY_INDEX, locals];
    let answer = ffi::flatten_to(lent, profile, budget, &mut vec![0; room], &mut places);
    (answer, places.width_kind, places.width)
}

#[test]
fn a_place_that_is_not_given_is_left() {
    let by = |charstring, [budget, room]: [u32; 2]| {
        places(charstring, EMPTY_INDEX, [0, budget], room as usize)
    };
    let wide = [0x90, 0x0E];
    assert_eq!(by(&wide, [2, 2]), (0, 0, 5));
    assert_eq!(by(&[0xFF, 0, 5, 0, 0, 0x0E], [2, 6]), (0, 1, 327_680));
    assert_eq!(by(&[0x0E], [1, 1]), (0, 2, 77));
    // 13, and 3 behind an operator that has settled it
    assert_eq!(by(&wide, [2, 1]), (13, 77, 77));
    assert_eq!(by(&[0x8C, 0x8D, 0x16, 0x0E], [3, ROOM as u32]), (3, 77, 77));
}

#[test]
fn a_refusal_says_no_width() {
    let refused = |charstring: &[u8], locals: &[u8], profile, number| {
        // by itself, and behind an operator that has settled a width
        let wide = [&[0x8C, 0x8D, 0x16], charstring].concat();
        for charstring in [charstring, &wide] {
            let told = places(charstring, locals, [profile, AMPLE], ROOM);
            assert_eq!(told, (number, 77, 77), "{charstring:02X?}");
        }
    };
    for (charstring, locals, refusal, _) in REFUSED {
        refused(charstring, locals, 0, refusal.number());
    }
    for (charstring, locals) in AT_MASK {
        refused(charstring, locals, 1, Refusal::OperandsAtMask.number());
    }
    for (charstring, locals) in UNFINISHED {
        refused(charstring, locals, 1, Refusal::NoEndchar.number());
    }
    for (list, ..) in BAD_LISTS {
        refused(&[0x0E], list, 0, Refusal::BadLocals.number());
    }
}
