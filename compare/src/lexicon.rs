//! Lexicons: made-up words, and the graphs of a list of words, with every tail shared that can be.

use crate::random::Random;
use std::collections::{BTreeSet, HashMap};

/// Words as tiles, in order.
pub type Words = Vec<Vec<u8>>;

/// The tile between a word's turned beginning and its end in a GADDAG, 0 as for a blank.
const SEPARATOR: u8 = 0;

const CONSONANTS: &[u8] = &[2, 3, 4, 6, 7, 8, 10, 11, 12, 13, 14, 16, 18, 19, 20, 22, 23];
const VOWELS: &[u8] = &[1, 5, 9, 15, 21];
const ENDINGS: &[&[u8]] = &[
    &[],
    &[19],
    &[5, 4],
    &[9, 14, 7],
    &[5, 18],
    &[5, 18, 19],
    &[12, 25],
    &[14, 5, 19, 19],
];

/// So many words of tiles 1 to 26, from 2 to 15 tiles long: syllables with a few endings, so that many tails are equal, as in a language.
pub fn made_up_words(random: &mut Random, count: usize) -> Words {
    let mut words = BTreeSet::new();
    while words.len() < count {
        let mut stem = Vec::new();
        for _ in 0..random.within(1, 5) {
            stem.push(random.pick(CONSONANTS));
            stem.push(random.pick(VOWELS));
            if random.within(0, 3) == 0 {
                stem.push(random.pick(CONSONANTS));
            }
        }
        for ending in ENDINGS {
            let word = [&stem, *ending].concat();
            if random.flag() && word.len() <= 15 && words.len() < count {
                words.insert(word);
            }
        }
    }
    words.into_iter().collect()
}

/// The graph of a DAWG: node 0 leads to the words, node 1 nowhere.
pub fn dawg(words: &Words) -> Vec<u32> {
    let mut graph = Builder::new();
    let start = graph.run(words, 0);
    graph.finish(start, 0)
}

/// The graph with both: node 0 leads to the words, node 1 to the GADDAG of them.
pub fn gaddag(words: &Words) -> Vec<u32> {
    let mut graph = Builder::new();
    let start = graph.run(words, 0);
    let turned = graph.run(&turned(words), 0);
    graph.finish(start, turned)
}

// For each place in a word: what stands before it from back to front, the separator, and the rest; the whole word turned has no separator.
fn turned(words: &Words) -> Words {
    let mut all = BTreeSet::new();
    for word in words {
        for cut in 1..=word.len() {
            let mut tiles: Vec<u8> = word[..cut].iter().rev().copied().collect();
            if cut < word.len() {
                tiles.push(SEPARATOR);
                tiles.extend(&word[cut..]);
            }
            all.insert(tiles);
        }
    }
    all.into_iter().collect()
}

struct Builder {
    nodes: Vec<u32>,
    // Where each run stands that was put down, and each end of one.
    known: HashMap<Vec<u32>, u32>,
}

impl Builder {
    fn new() -> Self {
        Self {
            nodes: vec![0, 0],
            known: HashMap::new(),
        }
    }

    // The run of words in order that have the first `depth` tiles in common: its place, or 0 where no word goes on.
    fn run(&mut self, words: &[Vec<u8>], depth: usize) -> u32 {
        let longer = words.partition_point(|word| word.len() <= depth);
        let run: Vec<u32> = words[longer..]
            .chunk_by(|a, b| a[depth] == b[depth])
            .map(|group| {
                let accepts = group[0].len() == depth + 1;
                node(group[0][depth], accepts, false, self.run(group, depth + 1))
            })
            .collect();
        self.place_of(run)
    }

    fn place_of(&mut self, mut run: Vec<u32>) -> u32 {
        let Some(last) = run.last_mut() else {
            return 0;
        };
        *last |= 0x40;
        if let Some(&place) = self.known.get(&run) {
            return place;
        }
        let place = self.nodes.len() as u32;
        self.nodes.extend(&run);
        for from in 0..run.len() {
            self.known
                .entry(run[from..].to_vec())
                .or_insert(place + from as u32);
        }
        place
    }

    fn finish(mut self, first: u32, second: u32) -> Vec<u32> {
        self.nodes[0] = node(0, false, true, first);
        self.nodes[1] = node(0, false, true, second);
        self.nodes
    }
}

/// A KBWG node.
pub fn node(tile: u8, accepts: bool, is_end: bool, arc: u32) -> u32 {
    arc << 8 | u32::from(accepts) << 7 | u32::from(is_end) << 6 | u32::from(tile)
}

/// The KWG file of KBWG nodes whose arcs fit it.
pub fn kwg_bytes(nodes: &[u32]) -> Vec<u8> {
    let kwg = |v: &u32| (v & 0x3f) << 24 | (v & 0x80) << 16 | (v & 0x40) << 16 | v >> 8;
    nodes.iter().flat_map(|v| kwg(v).to_le_bytes()).collect()
}
