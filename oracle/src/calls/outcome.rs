// The outcome of a call that may be refused, by the number a list gives it.

use crate::error;
use crate::numbers::Unreadable;

pub const DONE: u64 = 0;
pub const NOT_WHOLE_NODES: u64 = 1;
pub const DOES_NOT_FIT: u64 = 6;
pub const ARC_PAST_END: u64 = 8;
pub const NO_END: u64 = 9;
pub const LOOP: u64 = 12;
pub const TOO_MANY: u64 = 13;
// Of a writer: the labels are none or too many; a name, a title or a date is
// too long; a title or a date has a code point without a byte in Windows-1252; a
// label is not one code point, or for LXD has no byte.
pub const LABEL_COUNT: u64 = 18;
pub const TOO_LONG: u64 = 19;
pub const NOT_WINDOWS_1252: u64 = 20;
pub const NOT_ONE_CODE_POINT: u64 = 23;
// Of a page: a tile has no label; a title or a label is not printable.
pub const NO_LABEL: u64 = 21;
pub const NOT_PRINTABLE: u64 = 26;
// Of a text that is read: a word has no room; a line of the label file is bad; no
// label matches.
pub const NO_ROOM: u64 = 16;
pub const BAD_LABEL_LINE: u64 = 27;
pub const UNREADABLE: u64 = 28;
// Of a word that comes into play or leaves it: the record has too few bits (as a work
// list has too few numbers, or a node list too few nodes); a start, a node or a count
// is not lent; a difference is below 0 or a sum too great; there is
// no such word; it is in play already; it is not in play.
pub const TOO_SHORT: u64 = 11;
pub const NOT_LENT: u64 = 14;
pub const OUT_OF_RANGE: u64 = 15;
pub const NO_WORD: u64 = 29;
pub const ALREADY_IN_PLAY: u64 = 30;
pub const NOT_IN_PLAY: u64 = 31;
// Of a word list: a word has a bad length or a bad tile, or is cut; a word is not above
// the one before it.
pub const BAD_WORD: u64 = 32;
pub const NOT_ABOVE: u64 = 33;

// Of a lookup: whether there is such a word or node; where there is not, the
// whole answer.
pub const FOUND: u64 = 1;
pub const ABSENT: [u64; 3] = [DONE, 0, 0];

// Whether the Rust refused a number because there are fewer words.
pub fn fewer_words(refusal: &error::BoxAnyError) -> bool {
    refusal.to_string() == "the word graph has fewer words than the index"
}

// A written file: its length, and its bytes.
pub fn file(bytes: &[u8]) -> Vec<u64> {
    let mut answer = vec![DONE, 0, bytes.len() as u64];
    answer.extend(bytes.iter().map(|&byte| u64::from(byte)));
    answer
}

// No file, and the refusal carries no arc.
pub fn no_file(refusal: u64) -> Vec<u64> {
    vec![refusal, 0, 0]
}

// The numbers of a refusal are read out of the Rust's message, the only place
// that names them.
pub fn tile_and_arc(message: &str) -> Option<(u64, u64)> {
    let named = named_in(message, "a node of tile ", " does not fit the new layout")?;
    let (tile, arc) = named.split_once(" and arc ")?;
    Some((tile.parse().ok()?, arc.parse().ok()?))
}

// What stands between the two texts that a message starts and ends with.
pub fn named_in<'a>(message: &'a str, start: &str, end: &str) -> Option<&'a str> {
    message.strip_prefix(start)?.strip_suffix(end)
}

pub fn unknown(refusal: &error::BoxAnyError) -> Unreadable {
    format!("an unknown refusal: {refusal}")
}
