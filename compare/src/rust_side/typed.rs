//! Texts as the Rust reads them: its `text::lines`, its `next_tile` with the labels given to it, and for lists of words that are UTF-8 its
//! `parse_machine_words`. It has no room that is full and no place to name: both come from where its `next_tile` is asked.

use super::UNKNOWN;
use crate::answer::Answer;
use crate::engine::TextOf;
use crate::paper::typed::Record;
use wolges::alphabet::AlphabetReader;
use wolges::{text, word_list};

pub fn reader_of(records: &[Record]) -> AlphabetReader {
    let labels = records.iter();
    let labels = labels.map(|record| (record.tile, record.label[..].into()));
    AlphabetReader::new_for_tiles(labels.collect())
}

/// Where a line starts and ends, and the place after its ending, where the next line starts.
#[derive(Clone, Copy, Debug, PartialEq, Eq)]
pub struct Line {
    pub start: usize,
    pub end: usize,
    pub after: usize,
}

/// The lines from a place on that are not empty.
pub fn lines(text: &[u8], at: usize) -> Vec<Line> {
    let rest = text.get(at..).unwrap_or_default();
    let spans = match str::from_utf8(rest) {
        Ok(rest) => spans(rest),
        // The Rust takes UTF-8 only. It looks for endings, so that any other byte may be replaced by a letter.
        Err(_) => {
            let letters = rest.iter().map(|byte| byte.is_ascii().then_some(*byte));
            let letters = letters.map(|byte| char::from(byte.unwrap_or(b'x')));
            spans(&letters.collect::<String>())
        }
    };
    let afters = spans.iter().skip(1).map(|span| span.0);
    let afters = afters.chain([rest.len()]);
    let lines = spans.iter().zip(afters).map(|(span, after)| Line {
        start: at + span.0,
        end: at + span.1,
        after: at + after,
    });
    lines.filter(|line| line.start < line.end).collect()
}

fn spans(rest: &str) -> Vec<(usize, usize)> {
    let span = |line: &str| {
        let start = line.as_ptr().addr() - rest.as_ptr().addr();
        (start, start + line.len())
    };
    text::lines(rest).map(span).collect()
}

// The tiles of a line for which there is room, and the refusal where that is not the word's end.
fn tiles(reader: &AlphabetReader, line: &[u8], room: usize) -> (Vec<u8>, Option<Stop>) {
    let (mut tiles, mut place) = (Vec::new(), 0);
    while place < line.len() {
        match reader.next_tile(line, place) {
            Some(_) if tiles.len() == room => return (tiles, Some(Stop::Full)),
            Some((tile, end)) => {
                tiles.push(tile);
                place = end;
            }
            None if place > 0 && line[place] <= b' ' => break,
            None => return (tiles, Some(Stop::Unreadable(place))),
        }
    }
    (tiles, None)
}

enum Stop {
    Full,
    Unreadable(usize),
}

impl Stop {
    fn answer(&self, line: &Line) -> Answer {
        match self {
            Stop::Full => Answer::refused(16),
            Stop::Unreadable(place) => Answer {
                bad: (line.start + place) as u64,
                ..Answer::refused(28)
            },
        }
    }
}

/// The answer, and the tiles put.
pub fn next_word(reader: &AlphabetReader, asked: &TextOf, room: usize) -> (Answer, Vec<u8>) {
    let Some(line) = lines(asked.text, asked.at).first().copied() else {
        return (Answer::default(), Vec::new());
    };
    let (tiles, stop) = tiles(reader, &asked.text[line.start..line.end], room);
    let answer = match stop {
        Some(stop) => stop.answer(&line),
        None => Answer {
            flag: true,
            start: line.start as u64,
            end: line.end as u64,
            after: line.after as u64,
            ..Answer::gives(tiles.len() as u64)
        },
    };
    (answer, tiles)
}

// The words of the lines that are read, the place after them, and what stopped the reading, with the tiles of a line that is refused.
struct Batch {
    words: Vec<Vec<u8>>,
    after: usize,
    stopped: Answer,
    refused_line: Vec<u8>,
}

fn batch(reader: &AlphabetReader, asked: &TextOf, room: usize, sizes_len: usize) -> Batch {
    let mut batch = Batch {
        words: Vec::new(),
        after: asked.at,
        stopped: Answer::default(),
        refused_line: Vec::new(),
    };
    let mut left = room;
    for line in lines(asked.text, asked.at) {
        if batch.words.len() == sizes_len {
            batch.stopped = Answer::refused(16);
            break;
        }
        let (word, stop) = tiles(reader, &asked.text[line.start..line.end], left);
        if let Some(stop) = stop {
            (batch.stopped, batch.refused_line) = (stop.answer(&line), word);
            break;
        }
        left -= word.len();
        batch.words.push(word);
        batch.after = line.after;
    }
    batch
}

/// The answer, the tiles put, and the sizes of the words.
pub fn read_words(
    reader: &AlphabetReader,
    asked: &TextOf,
    room: usize,
    sizes_len: usize,
) -> (Answer, Vec<u8>, Vec<usize>) {
    let mut batch = batch(reader, asked, room, sizes_len);
    let put = batch.words.iter().map(Vec::len).sum::<usize>();
    let mut answer = match batch.words.len() as u64 {
        0 => batch.stopped,
        words => Answer {
            flag: true,
            words,
            after: batch.after as u64,
            ..Answer::gives(put as u64)
        },
    };
    // The lines that are read, as a list.
    let read = asked.text.get(asked.at..batch.after).unwrap_or_default();
    if let Ok(read) = str::from_utf8(read) {
        match words_of_list(reader, read) {
            Some(listed) => batch.words = listed,
            None => answer = Answer::refused(UNKNOWN),
        }
    }
    let sizes = batch.words.iter().map(Vec::len).collect();
    let put = [batch.words.concat(), batch.refused_line].concat();
    (answer, put, sizes)
}

/// The words of a text that the Rust reads whole, or none where it refuses a line.
pub fn words_of_list(reader: &AlphabetReader, text: &str) -> Option<Vec<Vec<u8>>> {
    let words = word_list::parse(reader, text).ok()?;
    Some(words.iter().map(|word| word.to_vec()).collect())
}
