//! Whole texts, read by calls one after the other.

use super::typed::{Labels, description};
use super::{Call, Checker};
use crate::answer::{Answer, Buffer, Outcome};
use crate::rust_side::typed::{Line, lines, words_of_list};

// What a text comes to: its lines, the words of those that are read, and the refusals of the others, or of the label file.
#[derive(Default)]
struct Read {
    lines: Vec<Line>,
    words: Vec<Vec<u8>>,
    refusals: Vec<Answer>,
}

impl Read {
    fn bad_labels(&self) -> bool {
        self.refusals.iter().any(|refused| refused.refusal == 27)
    }

    // With what is read of the part that begins at this place.
    fn and(mut self, part: Self, at: usize) -> Self {
        self.lines.extend(part.lines.iter().map(|line| Line {
            start: at + line.start,
            end: at + line.end,
            after: at + line.after,
        }));
        self.words.extend(part.words);
        self.refusals.extend(part.refusals.iter().map(|refused| {
            let moved = if refused.refusal == 28 { at as u64 } else { 0 };
            Answer {
                bad: moved + refused.bad,
                ..*refused
            }
        }));
        self
    }

    // The places after the lines' endings are left out: a cut may part a line from its ending, or the ending.
    fn outcome(&self) -> Outcome {
        let ends = self.lines.iter().flat_map(|l| [l.start, l.end]);
        let refusals = self.refusals.iter();
        let refusals = refusals.flat_map(|r| [r.refusal as usize, r.bad as usize]);
        tiles(&self.words)
            .with(Buffer::Sizes(ends.collect()))
            .with(Buffer::Sizes(refusals.collect()))
    }
}

// The places of a text where a line ends: before and after each byte of an ending, and the text's own ends. Of very many, only some.
fn cuts(text: &[u8]) -> Vec<usize> {
    let ends = |byte: Option<&u8>| byte.is_none_or(|byte| b"\n\r".contains(byte));
    let at_end = |&cut: &usize| ends(text[..cut].last()) || ends(text.get(cut));
    let cuts: Vec<usize> = (0..=text.len()).filter(at_end).collect();
    let step = cuts.len().div_ceil(MOST_CUTS);
    cuts.into_iter().step_by(step).collect()
}

const MOST_CUTS: usize = 64;

fn places(lines: &[Line]) -> Outcome {
    let places = lines.iter().flat_map(|l| [l.start, l.end, l.after]);
    Outcome::default().with(Buffer::Sizes(places.collect()))
}

fn tiles(words: &[Vec<u8>]) -> Outcome {
    let sizes = words.iter().map(Vec::len).collect();
    let tiles = Outcome::default().with(Buffer::Bytes(words.concat()));
    tiles.with(Buffer::Sizes(sizes))
}

impl Checker {
    /// From a text's start each line of the Rust's that is not empty is read once, and none besides. Where the Rust reads the whole text, its
    /// words are those read line by line and those read many at a time.
    pub fn whole_text(&mut self, labels: &Labels, text: &[u8], room: usize, sizes_len: usize) {
        let Some(rust) = &labels.rust else { return };
        let input = || description(&labels.text(text, 0));
        let read = self.line_by_line(labels, text);
        let (got, expected) = (places(&read.lines), places(&lines(text, 0)));
        let held_to = "the Rust's lines";
        self.report
            .hold(Call::NextWord, held_to, &got, &expected, &input);
        let listed = str::from_utf8(text).ok();
        let Some(listed) = listed.and_then(|text| words_of_list(rust, text)) else {
            return;
        };
        let many = self.many_at_a_time(labels, text, room, sizes_len);
        let held_to = "the Rust's list";
        for (call, words) in [(Call::NextWord, read.words), (Call::ReadWords, many)] {
            let (got, expected) = (tiles(&words), tiles(&listed));
            self.report.hold(call, held_to, &got, &expected, &input);
        }
    }

    /// A text cut where a line ends reads as its first part does, and where that comes to its end, then as the second does.
    pub fn parts(&mut self, labels: &Labels, text: &[u8]) {
        let whole = self.line_by_line(labels, text).outcome();
        for cut in cuts(text) {
            let (first, second) = text.split_at(cut);
            let mut parts = self.line_by_line(labels, first);
            if !parts.bad_labels() {
                parts = parts.and(self.line_by_line(labels, second), cut);
            }
            let input = || format!("{}, cut", description(&labels.text(text, cut)));
            self.report.hold(
                Call::NextWord,
                "its parts",
                &whole,
                &parts.outcome(),
                &input,
            );
        }
    }

    // A line that cannot be read is passed over. Its ends, which a refusal does not carry, are the Rust's.
    fn line_by_line(&mut self, labels: &Labels, text: &[u8]) -> Read {
        let (mut read, mut at) = (Read::default(), 0);
        loop {
            let (answer, tiles) = self.next_word(labels, text, at, text.len());
            if answer.refusal > 0 {
                read.refusals.push(answer);
            }
            let line = if answer.flag {
                read.words.push(tiles);
                Line {
                    start: answer.start as usize,
                    end: answer.end as usize,
                    after: answer.after as usize,
                }
            } else if let (28, Some(line)) = (answer.refusal, lines(text, at).first()) {
                *line
            } else {
                return read;
            };
            read.lines.push(line);
            // An engine with an error may stay where it is.
            if line.after <= at {
                return read;
            }
            at = line.after;
        }
    }

    // The words of a text in which no line is refused. A room that is too small for a word becomes greater.
    fn many_at_a_time(
        &mut self,
        labels: &Labels,
        text: &[u8],
        room: usize,
        sizes_len: usize,
    ) -> Vec<Vec<u8>> {
        let (mut words, mut at, mut room) = (Vec::new(), 0, room);
        loop {
            let (answer, tiles, sizes) = self.read_words(labels, text, at, room, sizes_len);
            if answer.refusal == 16 && room < text.len() {
                room += 1;
                continue;
            }
            let mut rest = &tiles[..];
            for size in sizes {
                let (word, after) = rest.split_at(size.min(rest.len()));
                words.push(word.to_vec());
                rest = after;
            }
            if answer.after as usize <= at {
                return words;
            }
            at = answer.after as usize;
        }
    }
}
