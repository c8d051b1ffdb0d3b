//! Words in play on every graph: from several starts, by its own counts and by others, over all kinds of records.

use super::all_calls::{any_word, foreign, place};
use super::evenings::evening;
use super::typed::nth;
use crate::checker::{Checker, Graph};
use crate::engine::{PlayOf, Turn};
use crate::paper::walks::word_by_index;
use crate::random::Random;

pub const TURNS: [Turn; 2] = [Turn::Arrives, Turn::Leaves];

// No record is made longer than so many bytes: for more words it is too short.
const LONGEST: u32 = 200;

// The longest word that is looked for.
const MOST_TILES: usize = 80;

/// A few calls on a graph: by its own counts from its start, from another and from node 0, and by foreign ones.
pub fn in_play(checker: &mut Checker, random: &mut Random, graph: &Graph) {
    let starts = [graph.nodes[0] >> 8, place(random, graph.nodes.len()), 0];
    if let Some(counts) = &graph.counts {
        for start in starts {
            let words = [(); 4].map(|()| some_word(random, graph, counts, start));
            over_one_record(checker, random, graph, counts, start, &words);
            if graph.has_few_words(start) {
                evening(checker, random, graph, start, 5);
            }
        }
    }
    for _ in 0..4 {
        let (counts, start) = (foreign(random, graph), random.pick(&starts));
        let words = [(); 4].map(|()| some_word(random, graph, &counts, start));
        over_one_record(checker, random, graph, &counts, start, &words);
    }
}

/// Every word of up to so many of the tiles 0 to 2 from every node, and from one that is not lent.
pub fn short_words(checker: &mut Checker, random: &mut Random, graph: &Graph, longest: u32) {
    let words_of_length = |len| (0..3usize.pow(len)).map(move |n| nth(&[0, 1, 2], len, n));
    let words: Vec<Vec<u8>> = (0..=longest).flat_map(words_of_length).collect();
    let counts = match &graph.counts {
        Some(own) => own.clone(),
        None => foreign(random, graph),
    };
    for start in 0..=graph.nodes.len() as u32 {
        over_one_record(checker, random, graph, &counts, start, &words);
    }
}

// Words that arrive or leave one after the other.
fn over_one_record(
    checker: &mut Checker,
    random: &mut Random,
    graph: &Graph,
    counts: &[u32],
    start: u32,
    words: &[Vec<u8>],
) {
    let mut record = any_record(checker, random, words_of(counts, start));
    for word in words {
        let asked = PlayOf {
            turn: random.pick(&TURNS),
            counts,
            start,
            word,
        };
        (_, record) = checker.in_play(graph, &asked, &record);
    }
}

fn words_of(counts: &[u32], start: u32) -> u32 {
    counts.get(start as usize).copied().unwrap_or(0)
}

/// The word of a number, as far as it is found.
pub fn word_of(graph: &Graph, counts: &[u32], start: u32, number: u32) -> Vec<u8> {
    word_by_index(&graph.nodes, counts, start, number, MOST_TILES).0
}

// A word of the start, at times cut or with a tile more; and at times one of any tiles of the graph.
fn some_word(random: &mut Random, graph: &Graph, counts: &[u32], start: u32) -> Vec<u8> {
    let words = words_of(counts, start);
    if words == 0 || random.within(0, 5) == 0 {
        return any_word(random, graph);
    }
    let number = random.within(0, words.into()) as u32;
    other(random, word_of(graph, counts, start, number))
}

/// The same word, or at times one that is a tile shorter or longer.
pub fn other(random: &mut Random, mut word: Vec<u8>) -> Vec<u8> {
    match random.within(0, 12) {
        0 => drop(word.pop()),
        1 => word.push(random.within(0, 4) as u8),
        _ => {}
    }
    word
}

// A record for so many words, at times too short or longer: empty, full, of any bits, or of few or nearly all.
fn any_record(checker: &mut Checker, random: &mut Random, words: u32) -> Vec<u8> {
    let len = checker.around(words.div_ceil(8).min(LONGEST) as usize);
    let kind = random.within(0, 5);
    let mut byte = || match kind {
        0 => 0,
        1 => 0xff,
        2 => random.byte() & random.byte() & random.byte(),
        3 => random.byte() | random.byte() | random.byte(),
        _ => random.byte(),
    };
    (0..len).map(|_| byte()).collect()
}
