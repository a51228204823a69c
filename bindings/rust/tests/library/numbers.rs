use crate::{alone, refuses, writes};
use ighzamrel::Operand::{Fixed, Integer};
use ighzamrel::Profile::{Plain, Strict};
use ighzamrel::*;

#[test]
fn written_numbers_are_of_their_form_and_read_back() {
    // one of each form; the library's own tests have every bound
    let rows: [(i32, &[u8]); 4] = [
        (-107, &[0x20]),
        (1131, &[0xFA, 0xFF]),
        (-1131, &[0xFE, 0xFF]),
        (-1132, &[0x1C, 0xFB, 0x94]),
    ];
    for (value, bytes) in rows {
        let width = bytes.len();
        writes(bytes, |out| write_charstring_number(Integer(value), out));
        writes(bytes, |out| write_dict_integer(value, out));
        let number = Integer(value);
        assert_eq!(
            read_charstring_number(bytes),
            Ok(NumberRead { number, width })
        );
        let number = value;
        assert_eq!(read_dict_integer(bytes), Ok(NumberRead { number, width }));
    }
}

#[test]
fn five_bytes_are_a_fixed_in_a_charstring_and_an_integer_in_a_dict() {
    let fixed = [0xFF, 0xFF, 0x95, 0x00, 0x00];
    let number = Fixed(-107 * 65536);
    writes(&fixed, |out| write_charstring_number(number, out));
    assert_eq!(
        read_charstring_number(&fixed),
        Ok(NumberRead { number, width: 5 })
    );
    assert_eq!(read_dict_integer(&fixed), Err(Refusal::Unknown));

    let integer = [0x1D, 0x00, 0x00, 0x80, 0x00];
    let number = 32768;
    writes(&integer, |out| write_dict_integer(number, out));
    assert_eq!(
        read_dict_integer(&integer),
        Ok(NumberRead { number, width: 5 })
    );
    assert_eq!(read_charstring_number(&integer), Err(Refusal::Unknown));
}

#[test]
fn numbers_are_refused() {
    assert_eq!(read_charstring_number(&[]), Err(Refusal::BytesLacking));
    assert_eq!(
        read_charstring_number(&[0xFF, 0]),
        Err(Refusal::BytesLacking)
    );
    assert_eq!(read_dict_integer(&[0x1D, 0]), Err(Refusal::BytesLacking));
    assert_eq!(read_dict_integer(&[30]), Err(Refusal::Unknown));
    for value in [32768, -32769, i32::MAX, i32::MIN] {
        let refused = alone(Refusal::Outside16Bits);
        refuses(refused, |out| write_charstring_number(Integer(value), out));
    }
}

#[test]
fn call_indexes_are_those_of_the_rules() {
    let rows = [
        (Integer(-107), Ok(-107), Ok(-107)),
        (Fixed(-107 * 65536), Ok(-107), Ok(-107)),
        (Fixed(0x012C_0001), Ok(300), Err(Refusal::NoIndex)),
        (
            Fixed(0x00FF_0001),
            Err(Refusal::NoIndex),
            Err(Refusal::NoIndex),
        ),
        (Fixed(0x7FFF_FFFF), Ok(32768), Err(Refusal::NoIndex)),
    ];
    for (operand, plain, strict) in rows {
        assert_eq!(call_index(operand, Plain), plain, "{operand:?}");
        assert_eq!(call_index(operand, Strict), strict, "{operand:?}");
    }
}
