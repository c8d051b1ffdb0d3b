//! Request C-11, a page of words: "A page is 24 rows of 40 bytes, blanks filled in. Row 0 is a title of at most 40 bytes. Each row below has
//! a word number right-aligned in 10 columns, a blank, the word's labels in 28 columns, and a last column that is `+` where the word has
//! more tiles and blank otherwise; the walk stops at the first tile that doesn't fit."

use super::walks::{Step, word_by_index};
use crate::answer::Answer;
use crate::engine::PageOf;

const ROWS: usize = 24;
const ROW: usize = 40;
const DIGITS: usize = 10;
const TILES: usize = 28;
const BLANK: u8 = 0x20;

/// A row's word: the tiles that are shown, and whether it has more.
struct Shown {
    number: u32,
    tiles: Vec<u8>,
    more: bool,
}

/// What the call answers, and the page, or no byte of it: "nothing is written on any".
pub fn write_page(nodes: &[u32], asked: &PageOf, page_len: usize) -> (Answer, Vec<u8>) {
    match page(nodes, asked, page_len) {
        Ok(bytes) => (Answer::default(), bytes),
        Err(refusal) => (Answer::refused(refusal), Vec::new()),
    }
}

/// "Checks: 19 for a long title, 11 for a page under 960 bytes, 14 and 15 of word numbers, 21 for a shown tile without a label, then 26
/// where a title byte or a shown label is outside 20 to 7E hexadecimal".
fn page(nodes: &[u32], asked: &PageOf, page_len: usize) -> Step<Vec<u8>> {
    if asked.title.len() > ROW {
        return Err(19);
    }
    if page_len < ROWS * ROW {
        return Err(11);
    }
    let shown = shown(nodes, asked)?;
    let label = |&tile: &u8| asked.labels.get(usize::from(tile)).copied().ok_or(21);
    let mut labels = Vec::new();
    for word in &shown {
        labels.push(word.tiles.iter().map(label).collect::<Step<Vec<u32>>>()?);
    }
    let title = bytes(asked.title.iter().map(|&byte| byte.into()))?;
    let mut rows = vec![left(&title, ROW)];
    for (word, labels) in shown.iter().zip(labels) {
        let labels = left(&bytes(labels.into_iter())?, TILES);
        let more = if word.more { b'+' } else { BLANK };
        rows.push([&digits(word.number), &[BLANK][..], &labels, &[more]].concat());
    }
    rows.resize(ROWS, left(&[], ROW));
    Ok(rows.concat())
}

/// "from the first number that names no word, or is too wide, rows are blank". Word numbers are 32 bits wide; a greater one names no word.
fn shown(nodes: &[u32], asked: &PageOf) -> Step<Vec<Shown>> {
    let mut shown = Vec::new();
    for row in 1..ROWS as u64 {
        let Ok(number) = u32::try_from(u64::from(asked.first) + row - 1) else {
            break;
        };
        let (tiles, end) = word_by_index(nodes, asked.counts, asked.start, number, TILES);
        let more = match end {
            Ok(true) => false,
            Ok(false) => break,
            Err(16) => true,
            Err(refusal) => return Err(refusal),
        };
        shown.push(Shown {
            number,
            tiles,
            more,
        });
    }
    Ok(shown)
}

fn bytes(characters: impl Iterator<Item = u32>) -> Step<Vec<u8>> {
    let byte = |character| match character {
        0x20..=0x7e => Ok(character as u8),
        _ => Err(26),
    };
    characters.map(byte).collect()
}

/// The text from the first of so many columns on, blanks after it.
fn left(text: &[u8], columns: usize) -> Vec<u8> {
    let column = |at: usize| text.get(at).copied().unwrap_or(BLANK);
    (0..columns).map(column).collect()
}

/// A number's digits up to the last of ten columns, blanks before them.
fn digits(number: u32) -> Vec<u8> {
    let column = |at: usize| {
        let ones = 10u64.pow((DIGITS - 1 - at) as u32);
        match u64::from(number) / ones {
            0 if ones > 1 => BLANK,
            tens => b'0' + (tens % 10) as u8,
        }
    };
    (0..DIGITS).map(column).collect()
}
