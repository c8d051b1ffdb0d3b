//! Windows-1252, from document 02, C-15: "the Unicode Consortium's published
//! CP1252 table: its 32 entries from 80 to 9F, five of them without a character,
//! and ISO/IEC 8859-1 elsewhere". The original writes ISO/IEC 8859-1.

use std::ops::RangeInclusive;

// The characters of the bytes 80 to 9F, eight a row; a blank where there is none.
const ROWS: [&str; 4] = ["€ ‚ƒ„…†‡", "ˆ‰Š‹Œ Ž ", " ‘’“”•–—", "˜™š›œ žŸ"];

/// The code points that have lost their byte of ISO/IEC 8859-1.
pub const LOST: RangeInclusive<u32> = 0x80..=0x9f;

fn entries() -> impl Iterator<Item = u32> + Clone {
    ROWS.iter().flat_map(|row| row.chars()).map(u32::from)
}

/// The code points that have gained a byte.
pub fn gained() -> impl Iterator<Item = u32> + Clone {
    entries().filter(|&entry| entry != u32::from(' '))
}

pub fn byte_of(code_point: u32) -> Option<u8> {
    match code_point {
        0..=0x7f | 0xa0..=0xff => Some(code_point as u8),
        _ => entries()
            .position(|entry| entry == code_point)
            .map(|place| 0x80 + place as u8),
    }
}

/// What the original is asked with in the place of these code points, so that
/// it writes the same bytes: each byte's number. One that has lost its byte is
/// one that the original refuses, and any other stays.
pub fn for_the_original(code_points: &[u32]) -> Vec<u32> {
    let asked = |&code_point: &u32| match byte_of(code_point) {
        Some(byte) => byte.into(),
        None if LOST.contains(&code_point) => 0x100,
        None => code_point,
    };
    code_points.iter().map(asked).collect()
}
