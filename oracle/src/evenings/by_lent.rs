// A lexicon by whatever nodes and counts are lent, on which the Rust would panic or
// wrap: the oracle's own reading of documents 01 and 02. A word in play is kept by its
// number, for two words may have the same.

use super::{Evening, Lexicon};
use crate::calls::graphs::nodes_of;
use crate::calls::layout::Fields;
use crate::calls::outcome::{NO_WORD, NOT_LENT, OUT_OF_RANGE};

pub struct LentLexicon<'a> {
    nodes: Vec<Fields>,
    counts: &'a [u32],
    start: usize,
}

impl<'a> LentLexicon<'a> {
    pub fn of(evening: &'a Evening) -> Self {
        Self {
            nodes: nodes_of(&evening.nodes),
            counts: &evening.counts,
            start: evening.start as usize,
        }
    }

    // "a step to a node or count not lent"
    fn node(&self, place: usize) -> Result<Fields, u64> {
        self.nodes.get(place).copied().ok_or(NOT_LENT)
    }

    fn count_at(&self, place: usize) -> Result<u32, u64> {
        self.counts.get(place).copied().ok_or(NOT_LENT)
    }

    // "the first node of the run with the tile": its place.
    fn find_in(&self, mut place: usize, tile: u8) -> Result<Option<usize>, u64> {
        loop {
            let node = self.node(place)?;
            if node.tile == tile {
                return Ok(Some(place));
            }
            if node.is_end {
                return Ok(None);
            }
            place += 1;
        }
    }

    // "how many words of the run come before it", the run's first count read first;
    // "a difference below 0".
    fn before(&self, run: usize, found: usize) -> Result<u32, u64> {
        let first = self.count_at(run)?;
        first.checked_sub(self.count_at(found)?).ok_or(OUT_OF_RANGE)
    }

    // `get_word_index`, with "14+ a step to a node or count not lent; 15+ a difference
    // below 0 or sum above 4,294,967,295": none where a tile is not found, where an arc
    // is 0, from start 0, and for the empty word. That the greatest number is none does
    // not show: no count is above it.
    fn index_of(&self, word: &[u8]) -> Result<Option<u32>, u64> {
        let mut run = self.start;
        let mut number = 0;
        for (tiles, &tile) in (1..).zip(word) {
            if run == 0 {
                break;
            }
            let Some(place) = self.find_in(run, tile)? else {
                break;
            };
            number = sum(number, self.before(run, place)?)?;
            let node = self.node(place)?;
            if tiles == word.len() {
                return Ok(node.accepts.then_some(number));
            }
            number = sum(number, node.accepts.into())?;
            run = node.arc_index as usize;
        }
        Ok(None)
    }
}

fn sum(number: u32, more: u32) -> Result<u32, u64> {
    number.checked_add(more).ok_or(OUT_OF_RANGE)
}

impl Lexicon for LentLexicon<'_> {
    type Word = u32;

    // "14 for a start not lent"; "A start node 0 is a lexicon of no words", and its
    // count is not read.
    fn count(&self) -> Result<u32, u64> {
        self.node(self.start)?;
        match self.start {
            0 => Ok(0),
            start => self.count_at(start),
        }
    }

    // "a refusal of word numbers, 29 for a word not in the lexicon or whose number isn't
    // below the start's count".
    fn find(&self, tiles: &[u8]) -> Result<u32, u64> {
        let count = self.count()?;
        let number = self.index_of(tiles)?;
        number.filter(|&number| number < count).ok_or(NO_WORD)
    }

    fn number_of(&self, word: &u32) -> u32 {
        *word
    }

    fn word_of(&self, number: u32) -> u32 {
        number
    }
}
