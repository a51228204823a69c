//! Numbers at each boundary, and random ones around them.

use crate::random::Random;

/// The numbers that docs/RULES.md has written; the last one is written in a DICT only.
pub const WRITTEN: [(i32, &[u8]); 10] = [
    (-107, &[0x20]),
    (107, &[0xF6]),
    (108, &[0xF7, 0x00]),
    (1131, &[0xFA, 0xFF]),
    (-108, &[0xFB, 0x00]),
    (-1131, &[0xFE, 0xFF]),
    (1132, &[0x1C, 0x04, 0x6C]),
    (-1132, &[0x1C, 0xFB, 0x94]),
    (32767, &[0x1C, 0x7F, 0xFF]),
    (32768, &[0x1D, 0x00, 0x00, 0x80, 0x00]),
];

/// Its Fixed examples: 300, not whole, and 32768.
pub const FIXED_EXAMPLES: [i32; 3] = [0x012C_0001, 0x00FF_0001, 0x7FFF_FFFF];

/// The first and last integer of each written form and of each first byte of two, with neighbours.
pub const INTEGERS: [i32; 34] = [
    -2147483648, -2147483647, -65537, -65536, -32769, -32768, -32767, -1132, -1131, -876, -875,
    -620, -619, -364, -363, -108, -107, -1, 0, 1, 107, 108, 363, 364, 619, 620, 875, 876, 1131,
    1132, 32767, 32768, 2147483646, 2147483647,
];

pub const FIXEDS: [i32; 12] = [
    -2147483648, -2147483647, -65537, -65536, -1132, -1, 0, 107, 65536, 0x012C_0001, 0x00FF_0001,
    2147483647,
];

/// The counts at which the bias changes or a list ends, with neighbours.
pub const COUNTS: [u32; 13] =
    [0, 1, 2, 107, 1239, 1240, 1241, 33899, 33900, 33901, 65535, 65536, u32::MAX];

/// The first bytes at which a form begins or ends.
const FIRST_BYTES: [u8; 14] = [0, 12, 27, 28, 29, 30, 31, 32, 246, 247, 250, 251, 254, 255];

const FILLINGS: [u8; 4] = [0x00, 0x7F, 0x80, 0xFF];

/// The examples; no bytes at all; and every first byte, followed by up to five bytes that are all alike.
pub fn listed_bytes() -> Vec<Vec<u8>> {
    let mut all: Vec<Vec<u8>> = WRITTEN.iter().map(|(_, bytes)| bytes.to_vec()).collect();
    all.extend(FIXED_EXAMPLES.map(|value| [&[255], &value.to_be_bytes()[..]].concat()));
    all.push(Vec::new());
    for first in 0..=255 {
        all.push(vec![first]);
        for after in 1..=5 {
            for filling in FILLINGS {
                let mut bytes = vec![first];
                bytes.resize(1 + after, filling);
                all.push(bytes);
            }
        }
    }
    all
}

pub fn any_bytes(random: &mut Random) -> Vec<u8> {
    let length = random.within(0, 8);
    let alike = random.once_in(4);
    let mut bytes: Vec<u8> = (0..length)
        .map(|_| if alike { random.one_of(&FILLINGS) } else { random.next() as u8 })
        .collect();
    if let Some(first) = bytes.first_mut() {
        *first = if random.once_in(2) { random.one_of(&FIRST_BYTES) } else { random.next() as u8 };
    }
    bytes
}

pub fn any_room(random: &mut Random) -> usize {
    let most = if random.once_in(50) { 5000 } else { 7 };
    random.within(0, most) as usize
}

/// A kind and a value.
pub fn any_operand(random: &mut Random) -> (u32, i32) {
    if random.once_in(2) {
        (0, any_integer(random))
    } else {
        (1, any_fixed(random))
    }
}

pub fn any_integer(random: &mut Random) -> i32 {
    match random.within(0, 3) {
        0 => random.next() as i32,
        1 => random.within(-40_000, 40_000) as i32,
        2 => random.within(-1300, 1300) as i32,
        _ => random.one_of(&INTEGERS).saturating_add(random.within(-3, 3) as i32),
    }
}

/// A Fixed: any, near a multiple of 65536, near a power of two, or at f32's edge at a multiple.
fn any_fixed(random: &mut Random) -> i32 {
    let sign = random.one_of(&[-1, 1]);
    let near = random.within(-140, 140);
    let most = 1 << random.within(1, 15);
    let multiple = random.within(1, most) * 65536;
    let value = match random.within(0, 4) {
        0 => i64::from(random.next() as i32),
        1 => multiple,
        2 => multiple + near,
        3 => (1 << random.within(0, 31)) + near,
        _ => multiple + random.one_of(&[-1, 1]) * random.one_of(&edges(multiple)),
    };
    (sign * value).clamp(i64::from(i32::MIN), i64::from(i32::MAX)) as i32
}

/// The distances from a multiple of 65536 around half of f32's unit there, and below it.
pub fn edges(multiple: i64) -> Vec<i64> {
    let half = (1i64 << (64 - multiple.leading_zeros())) >> 25;
    (-1..=1).flat_map(|d| [half / 2 + d, half + d]).filter(|&d| d >= 0).collect()
}
