//! Each limit of words in play met and passed: starts, counts and records that are not lent or too short, numbers at and past the start's count,
//! and records of every size with the first and the last clear bit at each place.

use super::Size;
use super::in_play::{TURNS, word_of};
use super::limits::FURTHER_TILES;
use super::loads::SAMPLE;
use super::thinned::Thinned;
use crate::checker::{Checker, Graph};
use crate::engine::{PlayOf, Turn};
use crate::graphs::with_words;
use crate::lexicon::node;
use crate::random::Random;

pub fn run(checker: &mut Checker, size: Size, random: &mut Random) {
    let mut calls = Thinned::new(checker);
    starts(calls.one_in(size.of(37, 1, 1)));
    foreign_counts(calls.one_in(size.of(499, 13, 1)));
    too_many(calls.one_in(size.of(7, 1, 1)));
    few_nodes(calls.one_in(size.of(5, 1, 1)));
    every_size(checker, size, random);
    many_words(checker, size, random);
    long_records(checker, size);
}

impl Thinned<'_> {
    // Both calls.
    fn in_play(&mut self, graph: &Graph, counts: &[u32], start: u32, word: &[u8], record: &[u8]) {
        for turn in TURNS {
            if let Some(checker) = self.asked() {
                let asked = PlayOf {
                    turn,
                    counts,
                    start,
                    word,
                };
                checker.in_play(graph, &asked, record);
            }
        }
    }
}

const RECORDS: [&[u8]; 9] = [
    &[],
    &[0],
    &[0xff],
    &[0xa5],
    &[0, 0],
    &[0xff, 0xff],
    &[0x5a, 0xa5],
    &[0xf8, 0xff],
    &[0x07, 0, 0, 0, 0, 0, 0, 0, 0],
];

// The five nodes of 01 and a run of nine words, from every node and from such as are not lent, with counts cut at each place, and with more
// counts than nodes.
fn starts(calls: &mut Thinned) {
    let run = (1..=9).map(|tile| node(tile, true, tile == 9, 0));
    let heads = [0x240, 0x240].into_iter();
    let graphs = [SAMPLE.to_vec(), heads.chain(run).collect()];
    for graph in graphs.map(Graph::new) {
        let len = graph.nodes.len() as u32;
        let mut counts = graph.counts.clone().expect("the graph counts");
        counts.extend([1, 300]);
        for start in (0..=len + 1).chain([1 << 24, u32::MAX]) {
            for lent in 0..=counts.len() {
                for word in WORDS {
                    for record in RECORDS {
                        calls.in_play(&graph, &counts[..lent], start, word, record);
                    }
                }
            }
        }
    }
}

// Words of either graph, beginnings of such, and others.
const WORDS: [&[u8]; 12] = [
    &[],
    &[1],
    &[2],
    &[1, 2],
    &[2, 2],
    &[1, 2, 2],
    &[8],
    &[9],
    &[0],
    &[3, 1],
    &[64],
    &[255],
];

// Counts that are not the graph's, or not all lent: numbers at and past the start's count, differences below 0, and sums past the limit.
fn foreign_counts(calls: &mut Thinned) {
    let of_start = [0, 1, 2, 8, 9, u32::MAX - 1, u32::MAX];
    let near = [0, 1, u32::MAX - 1, u32::MAX];
    for (nodes, start, tiles) in FURTHER_TILES {
        let graph = Graph::new(nodes.to_vec());
        let others = nodes.len() - start as usize - 1;
        for number in 0..of_start.len() << (2 * others) {
            let mut counts = vec![3; start as usize];
            counts.push(of_start[number >> (2 * others)]);
            counts.extend((0..others).map(|at| near[number >> (2 * at) & 3]));
            for lent in 0..=counts.len() {
                for word in [
                    tiles,
                    &[tiles, &[1]].concat(),
                    &[tiles, &[2]].concat(),
                    &[9],
                ] {
                    for record in RECORDS {
                        calls.in_play(&graph, &counts[..lent], start, word, record);
                    }
                }
            }
        }
    }
}

// More words than the record has bits: refused whatever the word, also one whose number is refused.
fn too_many(calls: &mut Thinned) {
    let graph = Graph::new(SAMPLE.to_vec());
    for words in [65, 1 << 16, (1 << 29) + 1, 1 << 31, u32::MAX - 1, u32::MAX] {
        for other in [0, 1, words - 1, words] {
            for lent in 2..=5 {
                let counts = &[other, other, words, other, other][..lent];
                for word in [&[][..], &[1], &[1, 2], &[2, 2], &[9]] {
                    for len in [0, 1, 7, 8] {
                        calls.in_play(&graph, counts, 2, word, &vec![0x55; len]);
                    }
                }
            }
        }
    }
}

// No nodes at all, and one.
fn few_nodes(calls: &mut Thinned) {
    for graph in [vec![], vec![0x40], vec![0xc1]].map(Graph::new) {
        for counts in [&[][..], &[0], &[1], &[u32::MAX]] {
            for start in [0, 1, u32::MAX] {
                for record in [&[][..], &[0], &[0xff]] {
                    calls.in_play(&graph, counts, start, &[], record);
                    calls.in_play(&graph, counts, start, &[1], record);
                }
            }
        }
    }
}

// A graph of so many words, and its start.
struct Lexicon {
    graph: Graph,
    counts: Vec<u32>,
    start: u32,
}

impl Lexicon {
    fn of(words: u32) -> Self {
        let graph = Graph::new(with_words(words.into()));
        Self {
            counts: graph.counts.clone().expect("the graph counts"),
            start: graph.nodes[0] >> 8,
            graph,
        }
    }

    fn call(&self, checker: &mut Checker, turn: Turn, number: u32, record: &[u8]) {
        let asked = PlayOf {
            turn,
            counts: &self.counts,
            start: self.start,
            word: &word_of(&self.graph, &self.counts, self.start, number),
        };
        checker.in_play(&self.graph, &asked, record);
    }

    // At one place: the only clear bit, the only one that is set, and the lowest that is clear. The bits past the words are any.
    fn at(&self, checker: &mut Checker, random: &mut Random, place: u32) {
        let words = self.counts[self.start as usize];
        let any = random.within(0, words.into()) as u32;
        for kind in 0..3 {
            let mut is_set = |number: u32| match kind {
                _ if number >= words => random.flag(),
                0 => number != place,
                1 => number == place,
                _ => number < place || number > place && random.flag(),
            };
            let bytes = words.div_ceil(8) + [0, 1, 7, 8][place as usize % 4];
            let byte =
                |at: u32| (0..8).fold(0, |byte, bit| byte | u8::from(is_set(8 * at + bit)) << bit);
            let record: Vec<u8> = (0..bytes).map(byte).collect();
            for turn in TURNS {
                self.call(checker, turn, place, &record);
                self.call(checker, turn, any, &record);
            }
        }
    }
}

// Every size up to some 200 words, so that the last byte and the last eight bytes have each number of words.
fn every_size(checker: &mut Checker, size: Size, random: &mut Random) {
    for words in (0..=size.of(140, 200, 330)).step_by(size.of(23, 1, 1)) {
        let lexicon = Lexicon::of(words);
        for place in (0..words).step_by(size.of(11, 1, 1)) {
            lexicon.at(checker, random, place);
        }
        for number in [0, words] {
            for len in 0..=words.div_ceil(8) {
                let record = vec![[0, 0xff, 0x0f][words as usize % 3]; len as usize];
                for turn in TURNS {
                    lexicon.call(checker, turn, number, &record);
                }
            }
        }
        checker.nothing_changed(&lexicon.graph);
    }
}

// More words, at places around the ends of bytes and of eight bytes.
fn many_words(checker: &mut Checker, size: Size, random: &mut Random) {
    let counts = size.of(
        &[300][..],
        &[255, 256, 257, 511, 512, 513, 4_100],
        &[
            511, 512, 513, 1_023, 1_024, 1_025, 4_095, 4_096, 4_097, 65_535, 65_536, 65_537,
        ],
    );
    for &words in counts {
        let lexicon = Lexicon::of(words);
        let near = [0, 7, 8, 63, 64, 65, 255, 510];
        let near = near.into_iter().filter(|&at| at < words);
        let places: Vec<u32> = near.flat_map(|at| [at, words - 1 - at]).collect();
        for place in places.into_iter().step_by(size.of(5, 1, 1)) {
            lexicon.at(checker, random, place);
        }
        for _ in 0..size.of(1, 4, 20) {
            let place = random.within(0, words.into()) as u32;
            lexicon.at(checker, random, place);
        }
    }
}

// Two words, of which the counts say that they are the first and the last of very many, in the end of as many as a number can say.
fn long_records(checker: &mut Checker, size: Size) {
    let graph = Graph::new(vec![0x240, 0x240, 0x81, 0xc2]);
    let counts = size.of(
        &[(1 << 16) + 9][..],
        &[(1 << 16) + 9, (1 << 20) - 1],
        &[(1 << 20) - 1, (1 << 25) + 9, u32::MAX],
    );
    for &words in counts {
        // The record's first byte, and all others.
        for (first, byte, turn, word) in [
            (0, 0, Turn::Arrives, 2),
            (1, 0, Turn::Leaves, 1),
            (0xff, 0xff, Turn::Leaves, 2),
        ] {
            let mut record = vec![byte; words.div_ceil(8) as usize];
            record[0] = first;
            let asked = PlayOf {
                turn,
                counts: &[0, 0, words, 1],
                start: 2,
                word: &[word],
            };
            checker.in_play(&graph, &asked, &record);
        }
    }
}
