// A lexicon by the Rust's numbers, of "a graph that loads, counts and ascends, lent
// with its own counts". A word in play is kept by its tiles: who is in play is what
// the calls before say, and no bit is read.

use super::{Evening, Lexicon};
use crate::calls::outcome::NO_WORD;
use crate::calls::samples::bytes_of;
use crate::kwg::{Kwg, Node24};

pub struct RustLexicon {
    graph: Kwg<Node24>,
    counts: Box<[u32]>,
    start: usize,
}

impl RustLexicon {
    // None where the evening's graph or counts are not such, or its start is not lent.
    pub fn of(evening: &Evening) -> Option<Self> {
        let graph = Kwg::<Node24>::from_bytes_alloc(&bytes_of(&evening.nodes)).ok()?;
        // A file of one node loads as two, of which one is lent here.
        let lent = graph.0.len() == evening.nodes.len() && graph.runs_ascend();
        let counts = graph.count_words_alloc().ok().filter(|_| lent)?;
        let start = evening.start as usize;
        let own = evening.counts.starts_with(&counts) && start < counts.len();
        own.then_some(Self {
            graph,
            counts,
            start,
        })
    }

    fn index_of(&self, tiles: &[u8]) -> Option<u32> {
        let start = self.start as i32;
        let number = self.graph.get_word_index(&self.counts, start, tiles);
        (number != u32::MAX).then_some(number)
    }
}

impl Lexicon for RustLexicon {
    type Word = Vec<u8>;

    // "A start node 0 is a lexicon of no words."
    fn count(&self) -> Result<u32, u64> {
        Ok(match self.start {
            0 => 0,
            start => self.counts[start],
        })
    }

    fn find(&self, tiles: &[u8]) -> Result<Vec<u8>, u64> {
        let number = self.index_of(tiles);
        number.map(|_| tiles.to_vec()).ok_or(NO_WORD)
    }

    fn number_of(&self, word: &Vec<u8>) -> u32 {
        self.index_of(word).expect("a word in play has a number")
    }

    fn word_of(&self, number: u32) -> Vec<u8> {
        let mut word = Vec::new();
        let start = self.start as i32;
        self.graph
            .get_word_by_index(&self.counts, start, number, |tile| word.push(tile))
            .expect("a number below the count names a word");
        word
    }
}
