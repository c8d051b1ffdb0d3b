//! Evenings of words in play: lexicons of which words arrive and leave, DAWGs and GADDAGs from their starts and from nodes inside.

use super::Size;
use super::in_play::{TURNS, other};
use crate::checker::{Checker, Graph};
use crate::engine::Turn;
use crate::graphs::{odd, shuffled, with_words};
use crate::lexicon::{dawg, gaddag, made_up_words};
use crate::paper::words::words;
use crate::random::Random;

pub fn run(checker: &mut Checker, size: Size, random: &mut Random) {
    for _ in 0..size.of(1, 12, 200) {
        let words = random.within(1, size.of(12, 80, 300)) as usize;
        lexicon(checker, random, words, 300);
        odd_graph(checker, random);
    }
    for words in (0..size.of(190, 140, 400)).step_by(size.of(63, 1, 1)) {
        let graph = Graph::new(with_words(words));
        evening(checker, random, &graph, graph.nodes[0] >> 8, 600);
    }
    for &words in size.of(&[][..], &[1_000], &[5_000, 20_000]) {
        lexicon(checker, random, words, 150);
    }
}

// From the start of the words, from that of the GADDAG, from nodes inside, and from node 0. Of many words only some arrive and leave.
fn lexicon(checker: &mut Checker, random: &mut Random, count: usize, most: usize) {
    let words = made_up_words(random, count);
    for graph in [dawg(&words), gaddag(&words)].map(Graph::new) {
        let inside = |random: &mut Random| random.within(2, graph.nodes.len() as u64) as u32;
        let heads = [graph.nodes[0] >> 8, graph.nodes[1] >> 8, 0];
        for start in heads.into_iter().chain([inside(random), inside(random)]) {
            evening(checker, random, &graph, start, most);
        }
        checker.nothing_changed(&graph);
    }
}

// From each node of a graph in an odd numbering, with arcs into the middle of runs.
fn odd_graph(checker: &mut Checker, random: &mut Random) {
    let (runs, tiles) = (random.within(1, 12) as usize, random.pick(&[2, 4, 50]));
    let graph = Graph::new(odd(random, runs, tiles, true));
    for start in 0..graph.nodes.len() as u32 {
        if graph.has_few_words(start) {
            evening(checker, random, &graph, start, 8);
        }
    }
}

/// Words of the start, up to so many, arrive in any order and leave in another, with other calls in between; then they arrive in their own order.
/// The graph counts, and its words from the start can be listed.
pub fn evening(checker: &mut Checker, random: &mut Random, graph: &Graph, start: u32, most: usize) {
    let words = words(&graph.nodes, start as usize);
    let mut calls = Vec::new();
    for turn in TURNS {
        for at in shuffled(random, words.len()).into_iter().take(most) {
            calls.push((turn, words[at].clone()));
            if random.within(0, 3) == 0 {
                let at = random.within(0, words.len() as u64) as usize;
                calls.push((random.pick(&TURNS), other(random, words[at].clone())));
            }
        }
        calls.push((turn, Vec::new()));
    }
    let in_order = words.iter().take(most);
    calls.extend(in_order.map(|word| (Turn::Arrives, word.clone())));
    let bytes = words.len().div_ceil(8) + random.pick(&[0, 0, 1, 9]);
    checker.evening(graph, start, bytes, &calls);
}
