// The lines of evenings, gathered call by call.

use super::super::{ARRIVAL, EVENING, LEAVING};
use crate::calls::graphs::{Graph, words_from, words_near};
use crate::numbers::join;
use crate::random::Random;
use std::collections::BTreeSet;

#[derive(Default)]
pub struct Lines(pub Vec<String>);

impl Lines {
    pub fn comment(&mut self, text: &str) {
        self.0.push(format!("# {text}"));
    }

    pub fn begin(&mut self, start: usize, bytes: usize, nodes: &[u32], counts: &[u32]) {
        let lent = nodes.iter().chain(counts).map(|&number| number.into());
        let head = [start, bytes, nodes.len()].map(|number| number as u64);
        self.push(EVENING, head.into_iter().chain(lent));
    }

    pub fn call(&mut self, arrives: bool, word: &[u8]) {
        let kind = if arrives { ARRIVAL } else { LEAVING };
        self.push(kind, word.iter().map(|&tile| tile.into()));
    }

    // Each word arrives, and again; and leaves, and again.
    pub fn call_twice(&mut self, words: &[&[u8]]) {
        for arrives in [true, true, false, false] {
            for word in words {
                self.call(arrives, word);
            }
        }
    }

    fn push(&mut self, kind: u64, numbers: impl Iterator<Item = u64>) {
        let numbers: Vec<u64> = numbers.collect();
        self.0.push(join(
            &[&[kind, numbers.len() as u64], &numbers[..]].concat(),
        ));
    }
}

// An evening on a graph that is lent with its own counts.
pub struct Round<'a> {
    lines: &'a mut Lines,
    // By their numbers.
    words: Vec<Vec<u8>>,
    in_play: BTreeSet<Vec<u8>>,
}

impl<'a> Round<'a> {
    pub fn begin(lines: &'a mut Lines, graph: &Graph, start: usize, bytes: usize) -> Self {
        lines.begin(start, bytes, &graph.words, &graph.counts);
        Self {
            lines,
            words: words_from(graph, start),
            in_play: BTreeSet::new(),
        }
    }

    pub fn call(&mut self, arrives: bool, word: &[u8]) {
        self.lines.call(arrives, word);
        if !arrives {
            self.in_play.remove(word);
        } else if self.words.iter().any(|known| known == word) {
            self.in_play.insert(word.to_vec());
        }
    }

    pub fn arrive(&mut self, number: usize) {
        self.call(true, &self.words[number].clone());
    }

    pub fn leave(&mut self, number: usize) {
        self.call(false, &self.words[number].clone());
    }

    // For each word the call that is refused now.
    pub fn refused(&mut self) {
        for word in &self.words {
            self.lines.call(self.in_play.contains(word), word);
        }
    }

    // Words that are not in the lexicon, though near to one that is: such as
    // `words_near` has, the last tile with bits that a node keeps above it, and what
    // follows a word where arc 0 is taken as node 0, whose tile is 0.
    fn strangers(&self, word: &[u8]) -> Vec<Vec<u8>> {
        let mut near = words_near(word);
        if let Some((&last, start)) = word.split_last() {
            near.extend([64, 128, 192].map(|bits| [start, &[last | bits]].concat()));
            near.push([word, &[0], &self.words[0]].concat());
        }
        near.retain(|word| !self.words.contains(word));
        near
    }

    pub fn call_strangers(&mut self) {
        for word in &self.words {
            for stranger in self.strangers(word) {
                self.lines.call(true, &stranger);
                self.lines.call(false, &stranger);
            }
        }
    }

    // So many calls, any word arriving or leaving, of eight one with a stranger.
    pub fn draw(&mut self, random: &mut Random, calls: usize) {
        for _ in 0..calls {
            let mut word = self.words[random.within(0, self.words.len() as u64) as usize].clone();
            if random.within(0, 8) == 0 {
                let strangers = self.strangers(&word);
                word = strangers[random.within(0, strangers.len() as u64) as usize].clone();
            }
            self.call(random.flag(), &word);
        }
    }

    // All that are not in play arrive, in any order.
    pub fn fill(&mut self, random: &mut Random) {
        let mut missing = self.words.clone();
        missing.retain(|word| !self.in_play.contains(word));
        missing.sort_by_cached_key(|_| random.next());
        for word in missing {
            self.call(true, &word);
        }
    }
}
