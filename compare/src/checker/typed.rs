//! Texts read, line by line and many lines at a time.

use super::Checker;
use crate::answer::{Answer, Outcome};
use crate::engine::{self, TextOf};
use crate::lent::Lent;
use crate::paper::typed;
use crate::report::Call;
use crate::rust_side;
use wolges::alphabet::AlphabetReader;

type NextWord = dyn Fn(&TextOf, &mut [u8]) -> Answer;
type ReadWords = dyn Fn(&TextOf, &mut [u8], &mut [usize]) -> Answer;

/// The calls that read a text: the engine's, or in the tests those of one with an error.
pub struct Reading {
    pub next_word: Box<NextWord>,
    pub read_words: Box<ReadWords>,
}

impl Default for Reading {
    fn default() -> Self {
        Self {
            next_word: Box::new(engine::next_word),
            read_words: Box::new(engine::read_words),
        }
    }
}

/// A label file, and the Rust's reader with its labels where no line of it is bad.
pub struct Labels {
    pub file: Vec<u8>,
    pub(super) rust: Option<AlphabetReader>,
}

impl Labels {
    pub fn new(file: impl Into<Vec<u8>>) -> Self {
        let file = file.into();
        let records = typed::records(&file).ok();
        Self {
            rust: records.map(|records| rust_side::typed::reader_of(&records)),
            file,
        }
    }

    pub(super) fn text<'a>(&'a self, text: &'a [u8], at: usize) -> TextOf<'a> {
        TextOf {
            labels: &self.file,
            text,
            at,
        }
    }
}

pub(super) fn description(asked: &TextOf) -> String {
    let (labels, text) = (asked.labels.escape_ascii(), asked.text.escape_ascii());
    format!("labels \"{labels}\", text \"{text}\", at {}", asked.at)
}

impl Checker {
    /// Answers the tiles put too.
    pub fn next_word(
        &mut self,
        labels: &Labels,
        text: &[u8],
        at: usize,
        room: usize,
    ) -> (Answer, Vec<u8>) {
        let asked = labels.text(text, at);
        let before = Lent::bytes(&mut self.random, room);
        let mut word = before.clone();
        let got = (self.reading.next_word)(&asked, word.part_mut());
        let tiles = word.part()[..room.min(got.value as usize)].to_vec();
        let outcome = |(answer, tiles): (Answer, Vec<u8>)| {
            Outcome::of(answer).with(before.clone().after_writing(&tiles))
        };
        let rust = labels.rust.as_ref();
        let rust = rust.map(|rust| outcome(rust_side::typed::next_word(rust, &asked, room)));
        let paper = outcome(typed::next_word(&asked, room));
        let got = Outcome::of(got).with(word);
        let input = || format!("{}, room {room}", description(&asked));
        let got = self.compare(Call::NextWord, got, paper, rust, &input);
        (got.answer, tiles)
    }

    /// Answers the tiles and the sizes of the words too.
    pub fn read_words(
        &mut self,
        labels: &Labels,
        text: &[u8],
        at: usize,
        room: usize,
        sizes_len: usize,
    ) -> (Answer, Vec<u8>, Vec<usize>) {
        let asked = labels.text(text, at);
        let tiles_before = Lent::bytes(&mut self.random, room);
        let sizes_before = Lent::sizes(&mut self.random, sizes_len);
        let (mut tiles, mut sizes) = (tiles_before.clone(), sizes_before.clone());
        let got = (self.reading.read_words)(&asked, tiles.part_mut(), sizes.part_mut());
        let put = tiles.part()[..room.min(got.value as usize)].to_vec();
        let words = sizes.part()[..sizes_len.min(got.words as usize)].to_vec();
        let outcome = |(answer, tiles, sizes): (Answer, Vec<u8>, Vec<usize>)| {
            Outcome::of(answer)
                .with(tiles_before.clone().after_writing(&tiles))
                .with(sizes_before.clone().after_writing(&sizes))
        };
        let rust = labels.rust.as_ref();
        let rust =
            rust.map(|rust| outcome(rust_side::typed::read_words(rust, &asked, room, sizes_len)));
        let paper = outcome(typed::read_words(&asked, room, sizes_len));
        let got = Outcome::of(got).with(tiles).with(sizes);
        let input = || format!("{}, room {room}, {sizes_len} sizes", description(&asked));
        let got = self.compare(Call::ReadWords, got, paper, rust, &input);
        (got.answer, put, words)
    }
}
