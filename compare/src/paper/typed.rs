//! Request C-13, words as viewers type them: "A call reads the next line that isn't empty from a byte place and answers the line, its tiles
//! and the place after its ending, or, where none is left or the place is past the text, the end; after 28 or 16 the tiles already put stay."

use crate::answer::Answer;
use crate::engine::TextOf;
use std::cmp::Reverse;

const MOST_LINES: u64 = 256;
const LAST_TILE: u8 = 63;
const LONGEST_LABEL: usize = 15;
const TAB: u8 = 0x09;
const BLANK: u8 = 0x20;

/// "A label file gives one record a line: tile 1 to 63 (decimal, no leading zero), tab, label of 1 to 15 bytes".
#[derive(Clone, Debug, PartialEq, Eq)]
pub struct Record {
    pub tile: u8,
    pub label: Vec<u8>,
}

/// Where a line starts and ends, and the place after its ending.
struct Line {
    start: usize,
    end: usize,
    after: usize,
}

/// "Lines end as in `text::lines`": at 0A, 0D 0A or a lone 0D, the last with or without an ending.
fn line_at(text: &[u8], start: usize) -> Line {
    let ends = |&place: &usize| matches!(text[place], 0x0a | 0x0d);
    let end = (start..text.len()).find(ends).unwrap_or(text.len());
    let after = match text[end..] {
        [0x0d, 0x0a, ..] => end + 2,
        [_, ..] => end + 1,
        [] => end,
    };
    Line { start, end, after }
}

/// "an empty line is no word".
fn next_line(text: &[u8], at: usize) -> Option<Line> {
    let mut at = at;
    while at < text.len() {
        let line = line_at(text, at);
        if line.start < line.end {
            return Some(line);
        }
        at = line.after;
    }
    None
}

/// The records, or the number of the first bad line: "27 for the first bad line of the label file with its line number from 1, a 257th line
/// included".
pub fn records(file: &[u8]) -> Result<Vec<Record>, u64> {
    let mut records = Vec::new();
    let (mut at, mut number) = (0, 0);
    while at < file.len() {
        let line = line_at(file, at);
        number += 1;
        match record(&file[line.start..line.end]) {
            Some(record) if number <= MOST_LINES => records.push(record),
            _ => return Err(number),
        }
        at = line.after;
    }
    Ok(records)
}

fn record(line: &[u8]) -> Option<Record> {
    let tab = line.iter().position(|&byte| byte == TAB)?;
    let tile = match line[..tab] {
        [ones @ b'1'..=b'9'] => ones - b'0',
        [tens @ b'1'..=b'9', ones @ b'0'..=b'9'] => 10 * (tens - b'0') + (ones - b'0'),
        _ => return None,
    };
    let label = line[tab + 1..].to_vec();
    let good = tile <= LAST_TILE && !label.is_empty() && label.len() <= LONGEST_LABEL;
    good.then_some(Record { tile, label })
}

/// "The longest label that matches at a place is taken, then the lower tile".
fn taken<'a>(records: &'a [Record], rest: &[u8]) -> Option<&'a Record> {
    records
        .iter()
        .filter(|record| rest.starts_with(&record.label))
        .max_by_key(|record| (record.label.len(), Reverse(record.tile)))
}

/// What the call answers, and the tiles that it puts. "Checks: 27 .., checked before any word".
pub fn next_word(asked: &TextOf, room: usize) -> (Answer, Vec<u8>) {
    match records(asked.labels) {
        Ok(records) => word_from(&records, asked.text, asked.at, room),
        Err(number) => (bad(27, number), Vec::new()),
    }
}

fn bad(refusal: u32, bad: u64) -> Answer {
    Answer {
        bad,
        ..Answer::refused(refusal)
    }
}

/// "A word ends at the first byte of 20 hexadecimal or less that no label matches, but not at a line's first byte"; "28 for unreadable text
/// with its byte place, or 16 for a full word buffer, whichever comes first in the text".
fn word_from(records: &[Record], text: &[u8], at: usize, room: usize) -> (Answer, Vec<u8>) {
    let mut tiles = Vec::new();
    let Some(line) = next_line(text, at) else {
        return (Answer::default(), tiles);
    };
    let mut place = line.start;
    while place < line.end {
        match taken(records, &text[place..line.end]) {
            Some(_) if tiles.len() == room => return (Answer::refused(16), tiles),
            Some(record) => {
                tiles.push(record.tile);
                place += record.label.len();
            }
            None if text[place] <= BLANK && place > line.start => break,
            None => return (bad(28, place as u64), tiles),
        }
    }
    let answer = Answer {
        flag: true,
        start: line.start as u64,
        end: line.end as u64,
        after: line.after as u64,
        ..Answer::gives(tiles.len() as u64)
    };
    (answer, tiles)
}

/// What the list of words answers, the tiles that it puts, and the sizes of the words: line after line is read as by `next_word`, with what
/// is left of the tiles as its buffer, up to the first for which there is no size, or that is refused, or the end. What stopped the reading
/// is the answer where no word was read.
pub fn read_words(asked: &TextOf, room: usize, sizes_len: usize) -> (Answer, Vec<u8>, Vec<usize>) {
    let (mut tiles, mut sizes) = (Vec::new(), Vec::new());
    let records = match records(asked.labels) {
        Ok(records) => records,
        Err(number) => return (bad(27, number), tiles, sizes),
    };
    let mut list = Answer::default();
    let mut at = asked.at;
    let stopped = loop {
        if sizes.len() == sizes_len && next_line(asked.text, at).is_some() {
            break Answer::refused(16);
        }
        let (answer, word) = word_from(&records, asked.text, at, room - tiles.len());
        tiles.extend(&word);
        if !answer.flag {
            break answer;
        }
        sizes.push(word.len());
        at = answer.after as usize;
        list = Answer {
            flag: true,
            words: sizes.len() as u64,
            after: answer.after,
            ..Answer::gives(tiles.len() as u64)
        };
    };
    let answer = if sizes.is_empty() { stopped } else { list };
    (answer, tiles, sizes)
}
