//! UTF-8 by the grammar of RFC 3629, section 4.

/// The code points of well-formed UTF-8, or none.
pub fn read(bytes: &[u8]) -> Option<Vec<u32>> {
    let mut points = Vec::new();
    let mut rest = bytes;
    while !rest.is_empty() {
        let (point, length) = read_one(rest)?;
        points.push(point);
        rest = &rest[length..];
    }
    Some(points)
}

/// The first code point and how many bytes it takes.
fn read_one(bytes: &[u8]) -> Option<(u32, usize)> {
    let first = bytes[0];
    let (length, second) = match first {
        0x00..=0x7F => return Some((u32::from(first), 1)),
        0xC2..=0xDF => (2, 0x80..=0xBF),
        0xE0 => (3, 0xA0..=0xBF),
        0xE1..=0xEC | 0xEE..=0xEF => (3, 0x80..=0xBF),
        0xED => (3, 0x80..=0x9F),
        0xF0 => (4, 0x90..=0xBF),
        0xF1..=0xF3 => (4, 0x80..=0xBF),
        0xF4 => (4, 0x80..=0x8F),
        _ => return None,
    };
    let tails = bytes.get(1..length)?;
    if !second.contains(&tails[0]) || tails.iter().any(|tail| tail >> 6 != 0b10) {
        return None;
    }
    let lead = u32::from(first) & (0x7F >> length);
    let point = tails.iter().fold(lead, |point, tail| point << 6 | u32::from(tail & 0x3F));
    Some((point, length))
}
