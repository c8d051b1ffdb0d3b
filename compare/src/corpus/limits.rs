//! Each limit met and passed: counts, chains, labels, texts, and graphs that the Rust's counter is no match for.

use super::all_calls::{Nodes, all_calls};
use super::pages::{every_page, plain_page};
use super::{Size, texts};
use crate::checker::{Checker, Fit, Graph};
use crate::graphs::{chain, chain_from_0, deep, loop_and_too_many, odd, with_words, without_words};
use crate::lexicon::node;
use crate::random::Random;

const MOST: u64 = 4_294_967_294;

pub fn run(checker: &mut Checker, size: Size, random: &mut Random) {
    for _ in 0..size.of(1, 4, 200) {
        counts(checker, random);
        chains(checker, random);
    }
    for times in 0..size.of(2, 60, 3000) {
        labels(checker, random, times);
        files_of_loops(checker, random);
    }
    no_words(checker, random);
    deep_graphs(checker, size);
    alphagrams(checker, random, size.of(2, 30, 3000));
    few_nodes(checker, random);
    two_refusals(checker);
    further_tiles(checker);
}

// Numbers of words around the greatest, and numbers around the last word's.
fn counts(checker: &mut Checker, random: &mut Random) {
    let near = MOST - 3..=MOST + 4;
    for count in near.chain([1, 2, 1 << 20, (1 << 31) + 1, MOST * 2, 1 << 40]) {
        let nodes = with_words(count);
        all_calls(checker, random, nodes.clone(), Nodes::Some(5));
        let graph = Graph::new(nodes);
        let Some(own) = graph.counts.clone() else {
            continue;
        };
        let start = graph.nodes[0] >> 8;
        for number in [count / 2, count - 1, count, random.next() % count] {
            let word = checker.word_by_index(&graph, &own, start, number as u32, 33);
            checker.word_index(&graph, &own, start, &word);
            plain_page(checker, &graph, &own, start, number as u32);
        }
    }
    for more in 0..3 {
        all_calls(checker, random, loop_and_too_many(more), Nodes::Some(3));
        let mut no_loop = loop_and_too_many(more);
        no_loop[1] = node(0, false, true, 2);
        all_calls(checker, random, no_loop, Nodes::Some(3));
    }
}

// Chains of 63, 64 and 65 runs, and more.
fn chains(checker: &mut Checker, random: &mut Random) {
    for runs in [1, 2, 63, 64, 65, 66, 130] {
        for nodes in [chain(runs, false), chain(runs, true), chain_from_0(runs)] {
            let graph = Graph::new(nodes.clone());
            for format in 0..2 {
                checker.file(&graph, &texts::plain_macondo(3, format), Fit::Just);
            }
            checker.file(&graph, &texts::plain_lxd(3), Fit::Just);
            all_calls(checker, random, nodes, Nodes::Some(3));
        }
    }
}

// Label counts around 50 and 64, and of none; labels in any order over all tiles.
fn labels(checker: &mut Checker, random: &mut Random, time: usize) {
    let count = [0, 1, 2, 49, 50, 51, 63, 64, 65][time % 9];
    let runs = random.within(1, 9) as usize;
    let tiles = (count as u64).clamp(1, 64);
    for ascending in [true, false] {
        let graph = Graph::new(odd(random, runs, tiles, ascending));
        checker.file(&graph, &texts::macondo(random, count), Fit::Around);
        checker.file(&graph, &texts::lxd(random, count), Fit::Around);
    }
}

// A loop that the writers meet, and one that they don't.
fn files_of_loops(checker: &mut Checker, random: &mut Random) {
    let mut nodes = odd(random, 6, 8, true);
    let at = random.within(0, nodes.len() as u64) as usize;
    let to = random.within(0, nodes.len() as u64) as u32;
    nodes[at] = nodes[at] & 0xff | to << 8;
    let graph = Graph::new(nodes);
    for format in 0..2 {
        checker.file(&graph, &texts::plain_macondo(8, format), Fit::Around);
    }
    checker.file(&graph, &texts::plain_lxd(8), Fit::Around);
    checker.count_words(&graph, graph.nodes.len(), 2 * graph.nodes.len());
}

// Runs that double the Rust's recounting each, without a word: the longest it is not asked about.
fn no_words(checker: &mut Checker, random: &mut Random) {
    for runs in [1, 2, 5, 12, 28, 63, 64, 65] {
        all_calls(checker, random, without_words(runs), Nodes::Some(3));
    }
}

fn deep_graphs(checker: &mut Checker, size: Size) {
    for len in [1000, size.of(2000, 20_000, 200_000)] {
        let graph = Graph::new(deep(len));
        checker.count_words(&graph, len as usize, 2 * len as usize);
        let counts = graph.counts.clone().expect("a deep graph counts");
        let word = checker.word_by_index(&graph, &counts, len - 1, 0, len as usize);
        checker.word_index(&graph, &counts, len - 1, &word);
        every_page(checker, &graph, len - 1);
        checker.file(&graph, &texts::plain_lxd(3), Fit::Around);
    }
}

// Graphs whose words ascend, as alpha sets want them, with tallies near their words.
fn alphagrams(checker: &mut Checker, random: &mut Random, times: usize) {
    for _ in 0..times {
        let mut words: Vec<Vec<u8>> = (0..random.within(1, 30))
            .map(|_| {
                let len = random.within(1, 7);
                let mut word: Vec<u8> = (0..len).map(|_| random.within(1, 6) as u8).collect();
                word.sort();
                word
            })
            .collect();
        words.sort();
        words.dedup();
        let graph = Graph::new(crate::lexicon::dawg(&words));
        for word in &words {
            let mut tally = vec![random.byte(); 6];
            tally[1..].fill(0);
            word.iter().for_each(|&tile| tally[usize::from(tile)] += 1);
            checker.accepts_alpha(&graph, &tally);
            let less = usize::from(word[random.within(0, word.len() as u64) as usize]);
            tally[less] -= 1;
            checker.alpha_cross_set(&graph, &tally);
        }
    }
}

// No nodes at all, and one.
fn few_nodes(checker: &mut Checker, random: &mut Random) {
    for nodes in [vec![], vec![0x40], vec![0xc1]] {
        let graph = Graph::new(nodes);
        checker.count_words(&graph, 2, 4);
        checker.letter_bits(&graph, random.within(0, 2) as usize, 1);
        for place in [0, 1, u32::MAX] {
            checker.seek(&graph, &[1], place, 1);
            checker.cursor(&graph, place);
            checker.word_index(&graph, &[1], place, &[1]);
            checker.word_by_index(&graph, &[1], place, 0, 2);
            plain_page(checker, &graph, &[1], place, 0);
        }
        for tally in [vec![], vec![0; 64], vec![0; 65], vec![0, 1]] {
            checker.accepts_alpha(&graph, &tally);
            checker.alpha_cross_set(&graph, &tally);
        }
        checker.file(&graph, &texts::plain_macondo(3, 0), Fit::Around);
        checker.file(&graph, &texts::plain_lxd(3), Fit::Around);
    }
}

// A walk that could meet two refusals: the node that is not lent comes before its count, and a full buffer before the node.
fn two_refusals(checker: &mut Checker) {
    let graph = Graph::new(vec![node(0, false, true, 1), node(1, true, true, 2)]);
    for third in [0, 1, u32::MAX] {
        checker.word_index(&graph, &[1, 1, third], 1, &[1, 1]);
        for (room, number) in [(0, 1), (1, 1), (2, 1), (0, 0)] {
            checker.word_by_index(&graph, &[2, 2, third], 1, number, room);
        }
    }
}

/// Graphs, each with its start and the tiles that lead to where a tile more is met: a second run of two nodes; a first run of two, the second of
/// which accepts; three runs; the five nodes of 01.
pub const FURTHER_TILES: [(&[u32], u32, &[u8]); 4] = [
    (&[0x140, 0x2c1, 0x81, 0xc2], 1, &[1]),
    (&[0x140, 0x01, 0x3c2, 0xc1], 1, &[2]),
    (&[0x140, 0x2c1, 0x401, 0x4c2, 0x81, 0xc2], 1, &[1, 2]),
    (&[0x240, 0x40, 0x481, 0x442, 0xc2], 2, &[1]),
];

// Counts that are not the graph's, or not all lent, at the further tiles of a word: the sum with the flag, then the run lookup with
// its own refusals, then the sum with the words before.
fn further_tiles(checker: &mut Checker) {
    let near = [0, 1, u32::MAX - 1, u32::MAX];
    for (nodes, start, tiles) in FURTHER_TILES {
        let graph = Graph::new(nodes.to_vec());
        let varied = nodes.len() - start as usize;
        for number in 0..near.len().pow(varied as u32) {
            let mut counts = vec![3; start as usize];
            counts.extend((0..varied).map(|at| near[number >> (2 * at) & 3]));
            for lent in 0..=counts.len() {
                for tile in [1, 2, 9] {
                    let word = [tiles, &[tile]].concat();
                    checker.word_index(&graph, &counts[..lent], start, &word);
                    checker.seek(&graph, &counts[..lent], start, tile);
                    checker.seek(&graph, &counts[..lent], 0, tile);
                }
            }
        }
    }
}
