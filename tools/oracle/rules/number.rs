//! The rules for numbers (docs/RULES.md), in plain whole-number arithmetic. Nothing here asks the Rust.

/// Where a number stands.
#[derive(Clone, Copy, Debug, PartialEq, Eq)]
pub enum Place {
    Charstring,
    Dict,
}

/// An integer, or a Fixed, whose value counts 65536ths.
#[derive(Clone, Copy, Debug, PartialEq, Eq)]
pub enum Operand {
    Integer(i32),
    Fixed(i32),
}

/// A refusal's number.
pub type Refusal = u32;

/// The number at the start of `bytes`, and its width: 4 for no bytes, 6 for a byte that starts no
/// number, then 4.
pub fn read(place: Place, bytes: &[u8]) -> Result<(Operand, usize), Refusal> {
    let &b = bytes.first().ok_or(4u32)?;
    let width = match (place, b) {
        (_, 28) => 3,
        (_, 32..=246) => 1,
        (_, 247..=254) => 2,
        (Place::Dict, 29) | (Place::Charstring, 255) => 5,
        _ => return Err(6),
    };
    let after = bytes.get(1..width).ok_or(4u32)?;
    let v = after.iter().fold(0, |v, &next| v * 256 + i64::from(next));
    let n = i64::from(b);
    let value = match b {
        28 => signed(v, 16),
        29 | 255 => signed(v, 32),
        32..=246 => n - 139,
        247..=250 => (n - 247) * 256 + v + 108,
        _ => -(n - 251) * 256 - v - 108,
    } as i32;
    let operand = if b == 255 { Operand::Fixed(value) } else { Operand::Integer(value) };
    Ok((operand, width))
}

/// The number that `bits` bits are as a signed one.
fn signed(v: i64, bits: u32) -> i64 {
    if v < 1 << (bits - 1) {
        v
    } else {
        v - (1 << bits)
    }
}

/// The bytes that an operand is written as: an integer in its shortest form, a Fixed in five bytes;
/// 17 for a charstring integer outside 16 bits. In a DICT only integers are asked for.
pub fn written(place: Place, operand: Operand) -> Result<Vec<u8>, Refusal> {
    let n = match operand {
        Operand::Fixed(n) => return Ok(form(255, i64::from(n), 4)),
        Operand::Integer(n) => i64::from(n),
    };
    match (n, place) {
        (-107..=107, _) => Ok(form(n + 139, 0, 0)),
        (108..=1131, _) => Ok(form(247 + (n - 108) / 256, (n - 108) % 256, 1)),
        (-1131..=-108, _) => Ok(form(251 + (-n - 108) / 256, (-n - 108) % 256, 1)),
        (-32768..=32767, _) => Ok(form(28, n, 2)),
        (_, Place::Dict) => Ok(form(29, n, 4)),
        (_, Place::Charstring) => Err(17),
    }
}

/// A first byte, and the `after` low bytes of `v`.
fn form(first: i64, v: i64, after: u32) -> Vec<u8> {
    let rest = (0..after).rev().map(|i| (v >> (8 * i)) as u8);
    std::iter::once(first as u8).chain(rest).collect()
}

/// The index that a call's operand is, or 7.
pub fn call_index(operand: Operand, strict: bool) -> Result<i32, Refusal> {
    let n = match operand {
        Operand::Integer(n) => return Ok(n),
        Operand::Fixed(n) => i64::from(n),
    };
    let magnitude = n.abs();
    let k = 64 - magnitude.leading_zeros();
    let nearest = (magnitude + 32768) / 65536;
    let distance = (magnitude - nearest * 65536).abs();
    let whole = if strict || k <= 24 { distance == 0 } else { 2 * distance <= 1 << (k - 24) };
    if whole {
        Ok((nearest * n.signum()) as i32)
    } else {
        Err(7)
    }
}

/// The bias that a list of so many entries has.
pub fn bias(count: u32) -> i64 {
    match count {
        0..=1239 => 107,
        1240..=33899 => 1131,
        _ => 32768,
    }
}

/// The entry that a call enters in a list of `count` entries: 7, then 9.
pub fn callee(operand: Operand, strict: bool, count: u32) -> Result<u32, Refusal> {
    let biased = i64::from(call_index(operand, strict)?) + bias(count);
    if (0..i64::from(count)).contains(&biased) {
        Ok(biased as u32)
    } else {
        Err(9)
    }
}
