// The evenings that are stored.

mod foreign;
mod round;

use crate::calls::graphs::{
    Graph, NUMBERINGS, Numbering, Words, ascend, graph_of_words, random_runs, sample, turned,
    words_from, words_in_number,
};
use crate::random::Random;
use round::{Lines, Round};

pub fn lines() -> Vec<String> {
    let mut lines = Lines::default();
    every_order(&mut lines);
    every_start(&mut lines);
    every_number(&mut lines);
    drawn_calls(&mut lines);
    inner_starts(&mut lines);
    gaddag(&mut lines);
    drawn_graphs(&mut lines);
    foreign::evenings(&mut lines);
    lines.0
}

// The numbers 0 to 2.
const ORDERS: [[usize; 3]; 6] = [
    [0, 1, 2],
    [0, 2, 1],
    [1, 0, 2],
    [1, 2, 0],
    [2, 0, 1],
    [2, 1, 0],
];

fn every_order(lines: &mut Lines) {
    lines.comment("1, 1 2 and 2 2 in every order, between them all that is refused");
    let graph = Graph::of_nodes(&sample());
    let mut round = Round::begin(lines, &graph, 2, 1);
    round.call_strangers();
    for arriving in ORDERS {
        for leaving in ORDERS {
            for number in arriving {
                round.arrive(number);
                round.refused();
            }
            for number in leaving {
                round.leave(number);
                round.refused();
            }
        }
    }
    for number in 0..3 {
        round.arrive(number);
    }
    round.call_strangers();
}

// Words of the sample from nodes 2, 3 and 4, the empty word, and others.
const SAMPLE_WORDS: [&[u8]; 7] = [&[1], &[1, 2], &[2, 2], &[2], &[], &[1, 9], &[1, 2, 2]];

// Node 0 and node 1 have no words, and a record of no bytes is enough.
fn every_start(lines: &mut Lines) {
    let Graph { words, counts, .. } = Graph::of_nodes(&sample());
    for start in 0..words.len() {
        for bytes in [0, 1, 9] {
            lines.comment(&format!("start {start}, bytes {bytes}"));
            lines.begin(start, bytes, &words, &counts);
            lines.call_twice(&SAMPLE_WORDS);
        }
    }
    lines.comment("start 2, bytes 1, a count more than there are nodes");
    lines.begin(2, 1, &words, &[&counts[..], &[7]].concat());
    lines.call_twice(&SAMPLE_WORDS);
}

// A graph of exactly so many words, and where they start.
fn drawn_lexicon(random: &mut Random, words: usize, numbering: Numbering) -> (Graph, usize) {
    let words = words_in_number(random, words, 4, 5);
    let graph = Graph::of_nodes(&graph_of_words(&words, &Words::new(), numbering));
    let start = graph.nodes[0].arc_index as usize;
    (graph, start)
}

// As many words as a byte or eight bytes have bits, one fewer and one more.
fn every_number(lines: &mut Lines) {
    let mut random = Random::new(51);
    for (at, words) in [1, 7, 8, 9, 63, 64, 65].into_iter().enumerate() {
        let (graph, start) = drawn_lexicon(&mut random, words, NUMBERINGS[at % 2]);
        let bytes = words.div_ceil(8);
        lines.comment(&format!("words {words}, bytes {bytes}: each in turn"));
        in_turn(&mut Round::begin(lines, &graph, start, bytes), words);
        let fewer = bytes - 1;
        lines.comment(&format!("words {words}, bytes {fewer}: one too few"));
        let mut round = Round::begin(lines, &graph, start, fewer);
        for number in [0, words - 1] {
            round.arrive(number);
            round.leave(number);
        }
        round.call(true, &[]);
        round.call(false, &[63]);
    }
}

// Each number is the lowest: as the words arrive in order, as one leaves while all
// others are in play, and as they leave from the last on.
fn in_turn(round: &mut Round, words: usize) {
    for number in 0..words {
        round.arrive(number);
    }
    for number in 0..words {
        round.leave(number);
        round.arrive(number);
    }
    for number in (0..words).rev() {
        round.leave(number);
    }
}

// Records of more than eight bytes, as long as they have to be or longer; the last
// calls fill them.
fn drawn_calls(lines: &mut Lines) {
    let mut random = Random::new(52);
    for (words, bytes, calls, numbering) in [
        (70, 9, 270, Numbering::ChildrenLast),
        (70, 24, 120, Numbering::ChildrenFirst),
        (93, 12, 100, Numbering::ChildrenFirst),
        (129, 17, 200, Numbering::ChildrenLast),
    ] {
        let (graph, start) = drawn_lexicon(&mut random, words, numbering);
        lines.comment(&format!("words {words}, bytes {bytes}: any calls"));
        let mut round = Round::begin(lines, &graph, start, bytes);
        round.draw(&mut random, calls);
        round.fill(&mut random);
    }
}

// The middle of the first run, its end, and where its first node leads; then all the
// words of the whole run arrive.
fn inner_starts(lines: &mut Lines) {
    let mut random = Random::new(53);
    let (graph, start) = drawn_lexicon(&mut random, 70, Numbering::ChildrenLast);
    let outer = words_from(&graph, start);
    for inner in [start + 2, start + 3, graph.nodes[start].arc_index as usize] {
        lines.comment(&format!("start {inner}; the words of node {start} arrive"));
        let bytes = graph.counts[inner].div_ceil(8);
        let mut round = Round::begin(lines, &graph, inner, bytes as usize);
        round.draw(&mut random, 30);
        for word in &outer {
            round.call(true, word);
        }
    }
}

// From where node 1 leads, and from node 1 itself, whose words have its tile first.
fn gaddag(lines: &mut Lines) {
    let mut random = Random::new(54);
    let words = words_in_number(&mut random, 8, 4, 5);
    let nodes = graph_of_words(&words, &turned(&words), Numbering::ChildrenLast);
    let graph = Graph::of_nodes(&nodes);
    for start in [graph.nodes[1].arc_index as usize, 1] {
        lines.comment(&format!("start {start} of a GADDAG"));
        let bytes = graph.counts[start].div_ceil(8);
        let mut round = Round::begin(lines, &graph, start, bytes as usize);
        for word in &words {
            round.call(true, word);
        }
        round.draw(&mut random, 60);
        round.fill(&mut random);
    }
}

// Runs in any order, some entered in their middle.
fn drawn_graphs(lines: &mut Lines) {
    let mut random = Random::new(55);
    for runs in 2..=12 {
        let mut nodes = random_runs(&mut random, runs, 8, None);
        ascend(&mut nodes);
        let graph = Graph::of_nodes(&nodes);
        let start = graph.richest();
        let words = graph.counts[start] as usize;
        if (1..=72).contains(&words) {
            lines.comment(&format!("words {words}, runs {runs}: any graph, any calls"));
            let mut round = Round::begin(lines, &graph, start, words.div_ceil(8));
            round.draw(&mut random, 2 * words);
            round.fill(&mut random);
            round.refused();
        }
    }
}
