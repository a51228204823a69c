use crate::{alone, lent, BAD_LISTS, BLANK};
use ighzamrel::Profile::{Plain, Strict};
use ighzamrel::*;

/// The local list L of docs/RULES.md.
pub const L: &[u8] = &[0x00, 0x01, 0x01, 0x01, 0x05, 0x8C, 0x8D, 0x15, 0x0B];
pub const AMPLE: u32 = 1000;
const ROOM: usize = 64;

/// A refusal of a run.
fn run(refusal: Refusal, tokens: u32) -> Refused {
    Refused {
        tokens: Some(tokens),
        ..alone(refusal)
    }
}

/// What a charstring gives that says no width.
fn without_width(flat: &[u8], tokens: u32) -> FlatVec {
    FlatVec {
        bytes: flat.to_vec(),
        tokens,
        width: None,
    }
}

pub type Bytes = &'static [u8];

/// Each charstring with its local list, the flat string, the tokens and the width.
pub const ACCEPTED: [(Bytes, Bytes, Bytes, u32, Option<Operand>); 11] = [
    (&[], EMPTY_INDEX, &[], 0, None),
    (&[0x20, 0x0A, 0x0E], L, &[0x8C, 0x8D, 0x15, 0x0E], 7, None),
    (
        &[0xFF, 0xFF, 0x95, 0x00, 0x00, 0x0A, 0x0E],
        L,
        &[0x8C, 0x8D, 0x15, 0x0E],
        7,
        None,
    ),
    (
        &[0x1C, 0x00, 0x05, 0x0E],
        EMPTY_INDEX,
        &[0x90, 0x0E],
        2,
        Some(Operand::Integer(5)),
    ),
    (&[0x0B, 0x00], EMPTY_INDEX, &[], 1, None),
    (
        &[0x21, 0x20, 0x0A, 0x0E],
        &[0x00, 0x02, 0x01, 0x01, 0x02, 0x04, 0x0A, 0x8C, 0x16],
        &[0x8C, 0x16, 0x0E],
        7,
        None,
    ),
    (
        &[0x20, 0x0A, 0x00],
        &[0x00, 0x01, 0x01, 0x01, 0x02, 0x0E],
        &[0x0E],
        3,
        None,
    ),
    (
        &[0x8B, 0x8C, 0x01, 0x8B, 0x8C, 0x13, 0x80, 0x0E],
        EMPTY_INDEX,
        &[0x8B, 0x8C, 0x01, 0x8B, 0x8C, 0x13, 0x80, 0x0E],
        7,
        None,
    ),
    (&[0x13, 0x0E], EMPTY_INDEX, &[0x13, 0x0E], 2, None),
    (
        &[0x8B, 0x8B, 0x8B, 0x0E],
        EMPTY_INDEX,
        &[0x8B, 0x8B, 0x8B, 0x0E],
        4,
        Some(Operand::Integer(0)),
    ),
    (&[0x20, 0x0A], L, &[0x8C, 0x8D, 0x15], 6, None),
];

/// Each charstring with its local list, the refusal and the tokens.
pub const REFUSED: [(Bytes, Bytes, Refusal, u32); 8] = [
    (
        &[0x8B, 0x8B, 0x8B, 0x8B, 0x0E],
        EMPTY_INDEX,
        Refusal::Composite,
        5,
    ),
    (
        &[0x8B, 0x8C, 0x01, 0x13, 0x80, 0x20, 0x13, 0x80, 0x0A],
        L,
        Refusal::IndexNotLast,
        7,
    ),
    (
        &[0x20, 0x0A],
        &[0x00, 0x01, 0x01, 0x01, 0x03, 0x20, 0x0A],
        Refusal::TooDeep,
        128,
    ),
    (&[0x00], EMPTY_INDEX, Refusal::Unknown, 1),
    (&[0x20, 0x0A, 0x0E], EMPTY_INDEX, Refusal::NoEntry, 2),
    (&[0x8B, 0x1C, 0x00], EMPTY_INDEX, Refusal::BytesLacking, 2),
    (&[0x8B; 49], EMPTY_INDEX, Refusal::TooManyOperands, 49),
    (&[0x0A], L, Refusal::NoIndex, 1),
];

#[test]
fn accepted_rows_change_only_their_bytes() {
    for (charstring, locals, flat, tokens, width) in ACCEPTED {
        let length = flat.len();
        let told = Flat {
            length,
            tokens,
            width,
        };
        for room in [ROOM, length] {
            let answer = lent(room, |out| {
                flatten(charstring, EMPTY_INDEX, locals, Plain, AMPLE, out)
            });
            let mut bytes = vec![BLANK; room];
            bytes[..length].copy_from_slice(flat);
            assert_eq!(answer, (Ok(told), bytes), "{charstring:02X?}");
        }
        let answer = flatten_to_vec(charstring, EMPTY_INDEX, locals, Plain, tokens, length);
        let told = FlatVec {
            width,
            ..without_width(flat, tokens)
        };
        assert_eq!(answer, Ok(told), "{charstring:02X?}");
    }
}

#[test]
fn accepted_rows_without_room_give_their_length_and_tokens() {
    for (charstring, locals, flat, tokens, _) in ACCEPTED {
        let refused = Refused {
            needed: Some(flat.len()),
            ..run(Refusal::Short, tokens)
        };
        for room in 0..flat.len() {
            both_refuse(charstring, locals, Plain, room, refused);
        }
    }
}

/// Flat strings of about as many bytes as are at hand, and of more: in just their room, in ample room and in a byte less.
#[test]
fn a_long_flat_string_is_as_a_short_one() {
    for length in [4095, 4096, 4097, 10_000] {
        let charstring = vec![0x05; length];
        let tokens = length as u32;
        let vec = |room| flatten_to_vec(&charstring, EMPTY_INDEX, EMPTY_INDEX, Plain, tokens, room);
        let told = without_width(&charstring, tokens);
        for room in [length, 1 << 20] {
            let flat = vec(room).unwrap();
            assert_eq!(flat.bytes.capacity(), length);
            assert_eq!(flat, told);
        }
        let refused = Refused {
            needed: Some(length),
            ..run(Refusal::Short, tokens)
        };
        assert_eq!(vec(length - 1), Err(refused));
        let marked = |room| {
            flatten_marked_to_vec(&charstring, EMPTY_INDEX, EMPTY_INDEX, Plain, tokens, room)
        };
        assert_eq!(marked(length).map(|marked| marked.flat), Ok(told));
        assert_eq!(marked(length - 1), Err(refused));
    }
}

/// Both functions refuse so, and no lent byte changes.
fn both_refuse(charstring: &[u8], locals: &[u8], profile: Profile, room: usize, refused: Refused) {
    let answer = lent(room, |out| {
        flatten(charstring, EMPTY_INDEX, locals, profile, AMPLE, out)
    });
    assert_eq!(
        answer,
        (Err(refused), vec![BLANK; room]),
        "{charstring:02X?}"
    );
    let answer = flatten_to_vec(charstring, EMPTY_INDEX, locals, profile, AMPLE, room);
    assert_eq!(answer, Err(refused), "{charstring:02X?}");
}

#[test]
fn rows_without_budget_are_refused_with_it() {
    let accepted = ACCEPTED.map(|(charstring, locals, _, tokens, _)| (charstring, locals, tokens));
    let refused = REFUSED.map(|(charstring, locals, _, tokens)| (charstring, locals, tokens));
    for (charstring, locals, tokens) in accepted.into_iter().chain(refused) {
        for budget in 0..tokens {
            let answer = flatten_to_vec(charstring, EMPTY_INDEX, locals, Plain, budget, ROOM);
            assert_eq!(
                answer,
                Err(run(Refusal::BudgetSpent, budget)),
                "{charstring:02X?}"
            );
        }
    }
}

#[test]
fn refused_rows_change_no_byte() {
    for (charstring, locals, refusal, tokens) in REFUSED {
        both_refuse(charstring, locals, Plain, ROOM, run(refusal, tokens));
    }
}

#[test]
fn a_damaged_list_is_refused_before_anything_runs() {
    let flat = |globals, locals| flatten_to_vec(&[0x0E], globals, locals, Plain, 0, ROOM);
    for (list, reason, entry) in BAD_LISTS {
        let refused = |refusal| Refused {
            entry,
            reason: Some(reason),
            ..alone(refusal)
        };
        assert_eq!(flat(list, &[]), Err(refused(Refusal::BadGlobals)));
        assert_eq!(flat(L, list), Err(refused(Refusal::BadLocals)));
    }
}

#[test]
fn global_and_local_lists_are_not_swapped() {
    let called = |call| flatten_to_vec(&[0x20, call], L, EMPTY_INDEX, Plain, AMPLE, ROOM);
    assert_eq!(called(0x1D), Ok(without_width(&[0x8C, 0x8D, 0x15], 6)));
    assert_eq!(called(0x0A), Err(run(Refusal::NoEntry, 2)));
}

#[test]
fn strict_has_limits_of_its_own() {
    let strict =
        |charstring, locals| flatten_to_vec(charstring, EMPTY_INDEX, locals, Strict, AMPLE, ROOM);
    let (deep, itself) = (&[0x20, 0x0A], &[0x00, 0x01, 0x01, 0x01, 0x03, 0x20, 0x0A]);
    assert_eq!(strict(deep, itself), Err(run(Refusal::TooDeep, 22)));

    let stems = [&[0x8B; 48][..], &[0x01]].concat().repeat(4);
    let mask = [&stems[..], &[0x8B, 0x8B, 0x13]].concat();
    assert_eq!(
        strict(&mask, EMPTY_INDEX),
        Err(run(Refusal::TooManyHints, 199))
    );
}

/// Each charstring with its local list, which plain accepts, and strict refuses for what waits at its second mask.
pub const AT_MASK: [(Bytes, Bytes); 4] = [
    (
        &[0x8B, 0x8C, 0x01, 0x13, 0x80, 0x8B, 0x13, 0x80, 0x0E],
        EMPTY_INDEX,
    ),
    // the first mask has its stems from operands, and the second is the other operator
    (
        &[0x8B, 0x8C, 0x13, 0x80, 0x8B, 0x8B, 0x14, 0x80, 0x0E],
        EMPTY_INDEX,
    ),
    // a subroutine leaves the operand
    (
        &[0x8B, 0x8C, 0x01, 0x13, 0x80, 0x20, 0x0A, 0x13, 0x80, 0x0E],
        &[0x00, 0x01, 0x01, 0x01, 0x03, 0x8C, 0x0B],
    ),
    // a subroutine has the mask
    (
        &[0x8B, 0x8C, 0x01, 0x13, 0x80, 0x8B, 0x20, 0x0A, 0x0E],
        &[0x00, 0x01, 0x01, 0x01, 0x03, 0x14, 0x80],
    ),
];

#[test]
fn operands_at_a_fixed_mask_are_refused_in_strict() {
    for (charstring, locals) in AT_MASK {
        let refused = alone(Refusal::OperandsAtMask);
        both_refuse(charstring, locals, Strict, ROOM, refused);
        both_refuse(charstring, locals, Strict, 0, refused);
        let plain = flatten_to_vec(charstring, EMPTY_INDEX, locals, Plain, AMPLE, ROOM).unwrap();
        assert_eq!(plain.bytes.last(), Some(&0x0E), "{charstring:02X?}");
    }
}

#[test]
fn operands_at_a_mask_come_after_the_budget_and_before_its_bytes() {
    let (whole, _) = AT_MASK[0];
    let cut = &whole[..7];
    let vec =
        |profile, budget| flatten_to_vec(cut, EMPTY_INDEX, EMPTY_INDEX, profile, budget, ROOM);
    assert_eq!(vec(Strict, 5), Err(run(Refusal::BudgetSpent, 5)));
    assert_eq!(vec(Strict, 6), Err(alone(Refusal::OperandsAtMask)));
    assert_eq!(vec(Plain, 6), Err(run(Refusal::BytesLacking, 6)));
}

#[test]
fn operands_at_a_mask_that_fixes_the_length_are_stems() {
    let rows: [Bytes; 2] = [
        &[0x8B, 0x8C, 0x13, 0x80, 0x14, 0x80, 0x0E],
        // the first mask has no bytes, and so fixes nothing
        &[0x13, 0x8B, 0x8C, 0x13, 0x80, 0x0E],
    ];
    for charstring in rows {
        let answer = flatten_to_vec(charstring, EMPTY_INDEX, EMPTY_INDEX, Strict, AMPLE, ROOM);
        assert_eq!(
            answer,
            Ok(without_width(charstring, 5)),
            "{charstring:02X?}"
        );
    }
}

/// Each charstring with its local list, which plain accepts, and strict refuses for want of endchar.
pub const UNFINISHED: [(Bytes, Bytes); 8] = [
    (&[], EMPTY_INDEX),
    (&[0x8B], EMPTY_INDEX),
    (&[0x8C, 0x8D, 0x15], EMPTY_INDEX),
    // a return of the charstring itself, before an endchar
    (&[0x0B], EMPTY_INDEX),
    (&[0x8C, 0x8D, 0x15, 0x0B, 0x0E], EMPTY_INDEX),
    // a mask's byte that looks like endchar
    (&[0x8B, 0x8C, 0x13, 0x0E], EMPTY_INDEX),
    // a subroutine that returns, and one that runs out
    (&[0x20, 0x0A], L),
    (
        &[0x20, 0x0A, 0x0B],
        &[0x00, 0x01, 0x01, 0x01, 0x03, 0x8C, 0x16],
    ),
];

#[test]
fn an_end_without_endchar_is_refused_in_strict() {
    for (charstring, locals) in UNFINISHED {
        let refused = alone(Refusal::NoEndchar);
        both_refuse(charstring, locals, Strict, ROOM, refused);
        // before the want of room, and after the budget
        both_refuse(charstring, locals, Strict, 0, refused);
        let vec = |profile, budget| {
            flatten_to_vec(charstring, EMPTY_INDEX, locals, profile, budget, ROOM)
        };
        let tokens = vec(Plain, AMPLE).unwrap().tokens;
        assert_eq!(vec(Strict, tokens), Err(refused), "{charstring:02X?}");
        for budget in 0..tokens {
            assert_eq!(vec(Strict, budget), Err(run(Refusal::BudgetSpent, budget)));
        }
    }
}

#[test]
fn what_a_run_is_refused_for_comes_before_its_end() {
    for (charstring, refusal, tokens) in [
        (&[0x8C, 0x00][..], Refusal::Unknown, 2),
        (&[0x8C, 0x1C], Refusal::BytesLacking, 2),
        (&[0x8B, 0x8B, 0x8B, 0x8B, 0x0E], Refusal::Composite, 5),
    ] {
        both_refuse(charstring, EMPTY_INDEX, Strict, 0, run(refusal, tokens));
    }
    let (waiting, _) = AT_MASK[0];
    let refused = alone(Refusal::OperandsAtMask);
    both_refuse(&waiting[..8], EMPTY_INDEX, Strict, 0, refused);
}

/// Each charstring, its flat string and the tokens. The entries are endchar, a call of that one, and 1 hmoveto.
#[test]
fn any_endchar_is_an_end() {
    let locals = [
        0x00, 0x03, 0x01, 0x01, 0x02, 0x04, 0x06, 0x0E, 0x20, 0x0A, 0x8C, 0x16,
    ];
    let rows: [(Bytes, Bytes, u32); 5] = [
        (&[0x0E, 0x00], &[0x0E], 1),
        (&[0x20, 0x0A], &[0x0E], 3),
        (&[0x20, 0x0A, 0x0B], &[0x0E], 3),
        (&[0x21, 0x0A, 0x00], &[0x0E], 5),
        (&[0x22, 0x0A, 0x0E], &[0x8C, 0x16, 0x0E], 5),
    ];
    for (charstring, flat, tokens) in rows {
        let answer = flatten_to_vec(charstring, EMPTY_INDEX, &locals, Strict, tokens, ROOM);
        assert_eq!(answer, Ok(without_width(flat, tokens)), "{charstring:02X?}");
    }
}

/// Forty subroutines of which each calls the next twice: the last would run 549,755,813,888 times.
#[test]
fn the_budget_ends_what_would_not_end() {
    let bodies = (0..40u8).map(|i| match i {
        39 => vec![0x0B],
        _ => [0x21 + i, 0x0A, 0x21 + i, 0x0A, 0x0B].to_vec(),
    });
    let bodies: Vec<Vec<u8>> = bodies.collect();
    let lengths: Vec<u32> = bodies.iter().map(|body| body.len() as u32).collect();
    let mut locals = vec![0; 1024];
    let length = write_index(&lengths, &bodies.concat(), &mut locals).unwrap();
    let answer = flatten_to_vec(
        &[0x20, 0x0A],
        EMPTY_INDEX,
        &locals[..length],
        Plain,
        100_000,
        ROOM,
    );
    assert_eq!(answer, Err(run(Refusal::BudgetSpent, 100_000)));
}
