use crate::{alone, refuses, writes, BAD_LISTS};
use ighzamrel::*;

/// The local list L of docs/RULES.md.
const L: [u8; 9] = [0x00, 0x01, 0x01, 0x01, 0x05, 0x8C, 0x8D, 0x15, 0x0B];

#[test]
fn an_index_is_read_and_taken_apart() {
    assert_eq!(read_index(&L), Ok(IndexRead { count: 1, taken: 9 }));
    assert_eq!(
        read_index(EMPTY_INDEX),
        Ok(IndexRead { count: 0, taken: 2 })
    );
    assert_eq!(read_entry(&L, 0), Ok(5..9));
    assert_eq!(
        read_entry(&[0x00, 0x01, 0x01, 0x02, 0x03, 0x8C, 0x0B], 0),
        Ok(6..7)
    );
    let ends_last = [0x00, 0x01, 0x01, 0x03, 0x03, 0xAA, 0xBB];
    assert_eq!(read_entry(&ends_last, 0), Ok(7..7));
    let last_is_0 = [0x00, 0x02, 0x01, 0x01, 0x01, 0x00];
    assert_eq!(read_index(&last_is_0), Ok(IndexRead { count: 0, taken: 6 }));
    // a last offset of 0 is looked at before the number
    for number in [0, 2, 7] {
        assert_eq!(read_entry(&last_is_0, number), Err(Refusal::ZeroOffset));
    }
}

#[test]
fn a_list_is_checked() {
    assert_eq!(check_list(&L), Ok(1));
    assert_eq!(check_list(EMPTY_INDEX), Ok(0));
    for (list, refusal, entry) in BAD_LISTS {
        let refused = Refused {
            entry,
            ..alone(refusal)
        };
        assert_eq!(check_list(list), Err(refused));
        assert_eq!(read_entry(list, entry.unwrap_or(0)), Err(refusal));
    }
}

#[test]
fn an_index_is_refused() {
    for length in [0, 1, 2, 4, 8] {
        assert_eq!(read_index(&L[..length]), Err(Refusal::IndexLacking));
        assert_eq!(read_entry(&L[..length], 0), Err(Refusal::IndexLacking));
    }
    for size in [0, 5, 255] {
        assert_eq!(read_index(&[0, 1, size]), Err(Refusal::OffsetSize));
        assert_eq!(read_entry(&[0, 1, size], 0), Err(Refusal::OffsetSize));
    }
    assert_eq!(read_entry(&L, 1), Err(Refusal::PastCount));
    assert_eq!(read_entry(EMPTY_INDEX, 0), Err(Refusal::PastCount));
}

#[test]
fn a_written_index_is_that_of_the_rules_and_reads_back() {
    let whole = [0x00, 0x02, 0x01, 0x01, 0x02, 0x02, 0x0E];
    writes(&whole, |out| write_index(&[1, 0], &[0x0E], out));
    assert_eq!(read_entry(&whole, 0), Ok(6..7));
    assert_eq!(read_entry(&whole, 1), Ok(7..7));
    writes(EMPTY_INDEX, |out| write_index(&[], &[], out));
    writes(&L, |out| write_index(&[4], &L[5..], out));
}

#[test]
fn a_written_index_is_refused() {
    let many = vec![0; 65_536];
    refuses(alone(Refusal::TooManyElements), |out| {
        write_index(&many, &[], out)
    });
    refuses(alone(Refusal::TooLong), |out| {
        write_index(&[u32::MAX], &[], out)
    });
    refuses(alone(Refusal::LengthsMismatch), |out| {
        write_index(&[u32::MAX - 1], &[], out)
    });
    refuses(alone(Refusal::LengthsMismatch), |out| {
        write_index(&[], &[0], out)
    });
}
