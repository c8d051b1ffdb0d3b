//! Realistic lexicons: DAWGs and GADDAGs with shared tails, files longer than the pieces that the Rust reads, and every word both ways.

use super::Size;
use super::all_calls::{Nodes, all_calls};
use super::loads::{file_of, load};
use super::pages::every_page;
use crate::checker::{Checker, Fit, Graph};
use crate::lexicon::{Words, dawg, gaddag, made_up_words};
use crate::random::Random;

// A GADDAG has the tile 0 and the letters up to 26.
const TILES: usize = 27;

pub fn run(checker: &mut Checker, size: Size, random: &mut Random) {
    let sizes: &[usize] = size.of(&[5], &[20, 500, 9_000], &[20, 500, 9_000, 60_000]);
    for &count in sizes {
        let words = made_up_words(random, count);
        lexicon(checker, random, &Graph::new(dawg(&words)), &words);
        let some: Words = words.into_iter().take(size.of(5, 300, 8_000)).collect();
        let graph = Graph::new(gaddag(&some));
        lexicon(checker, random, &graph, &some);
        every_number(checker, &graph, graph.nodes[1] >> 8);
        every_page(checker, &graph, graph.nodes[1] >> 8);
    }
    for count in [10, 40] {
        let words = made_up_words(random, count);
        for graph in [dawg(&words), gaddag(&words)] {
            all_calls(checker, random, graph, Nodes::Some(30));
        }
    }
}

fn lexicon(checker: &mut Checker, random: &mut Random, graph: &Graph, words: &Words) {
    let len = graph.nodes.len();
    for layout in 0..2 {
        let bytes = file_of(&graph.nodes, layout);
        for _ in 0..3 {
            load(checker, random, &bytes, layout);
        }
        checker.load(bytes.len(), layout, &[&bytes], len);
        checker.repack(&bytes, layout, 1 - layout);
    }
    checker.count_words(graph, len + 3, 2 * len + 3);
    checker.count_words(graph, len, 2 * len - 1);
    checker.letter_bits(graph, len, len + 1);
    for format in 0..2 {
        checker.file(
            graph,
            &super::texts::plain_macondo(TILES, format),
            Fit::Around,
        );
        checker.file(graph, &super::texts::macondo(random, TILES), Fit::Around);
        checker.file(graph, &super::texts::lxd(random, TILES), Fit::Around);
    }
    checker.file(graph, &super::texts::plain_lxd(TILES), Fit::Around);
    every_number(checker, graph, graph.nodes[0] >> 8);
    every_page(checker, graph, graph.nodes[0] >> 8);
    words_and_others(checker, random, graph, words);
    checker.nothing_changed(graph);
}

// Each number to its word and back, and the number after the last.
fn every_number(checker: &mut Checker, graph: &Graph, start: u32) {
    let counts = graph.counts.clone().expect("a lexicon counts");
    for number in 0..=counts[start as usize] {
        let word = checker.word_by_index(graph, &counts, start, number, 20);
        checker.word_index(graph, &counts, start, &word);
    }
}

// Words with one tile changed, left out or added, mostly no words; and their letters as a tally.
fn words_and_others(checker: &mut Checker, random: &mut Random, graph: &Graph, words: &Words) {
    let counts = graph.counts.clone().expect("a lexicon counts");
    let start = graph.nodes[0] >> 8;
    for word in words.iter().step_by(3) {
        let at = random.within(0, word.len() as u64) as usize;
        let mut other = word.clone();
        match random.within(0, 3) {
            0 => other[at] = random.within(0, 30) as u8,
            1 => drop(other.remove(at)),
            _ => other.insert(at, random.within(0, 30) as u8),
        }
        checker.word_index(graph, &counts, start, &other);
        let mut tally = vec![0u8; 27];
        word.iter().for_each(|&tile| tally[usize::from(tile)] += 1);
        checker.accepts_alpha(graph, &tally);
        checker.alpha_cross_set(graph, &tally);
        let place = random.within(0, graph.nodes.len() as u64) as u32;
        checker.seek(graph, &counts, place, word[0]);
    }
}
