// The list `numbers`.

use super::super::graphs::{Graph, pack_all, random_graph, random_nodes, words_from, words_near};
use super::super::layout::{Fields, Layout};
use super::super::samples::{doubled_chain, empty_graph, graph, words_of};
use super::{COUNT, NUMBER_TO_WORD, WORD_TO_NUMBER, in_range, loops};
use crate::random::Random;
use crate::requests::Requests;

// The most tiles of a word that is asked, or asked for, but in the long graphs.
const LONGEST: usize = 15;

// How many words or numbers are all asked; of more, some.
const ASK_ALL: usize = 8;

pub fn requests(requests: &mut Requests) {
    requests.comment("calls 6 to 8: the words counted, the number of a word, the word of a number");
    sample_graphs(requests);
    random_graphs(requests);
    other_counts(requests);
    long_graphs(requests);
    uncounted_graphs(requests);
    for nodes in loops::graphs() {
        ask_count(requests, &pack_all(&nodes));
    }
}

fn ask_count(requests: &mut Requests, words: &[u32]) {
    let mut numbers = vec![COUNT, words.len() as u64];
    numbers.extend(words.iter().map(|&word| u64::from(word)));
    requests.ask(&numbers);
}

// What the calls 7 and 8 start with.
fn head(call: u64, graph: &Graph, counts: &[u32], start: usize) -> Vec<u64> {
    let mut numbers = vec![call, graph.words.len() as u64];
    let words = graph.words.iter().chain(counts);
    numbers.extend(words.map(|&word| u64::from(word)));
    numbers.push(start as u64);
    numbers
}

fn ask_word(requests: &mut Requests, graph: &Graph, counts: &[u32], start: usize, word: &[u8]) {
    if in_range::number_of_word(&graph.nodes, counts, start, word) {
        let mut numbers = head(WORD_TO_NUMBER, graph, counts, start);
        numbers.push(word.len() as u64);
        numbers.extend(word.iter().map(|&tile| u64::from(tile)));
        requests.ask(&numbers);
    }
}

fn ask_number(requests: &mut Requests, graph: &Graph, counts: &[u32], start: usize, number: u32) {
    if in_range::word_of_number(&graph.nodes, counts, start, number, LONGEST) {
        let mut numbers = head(NUMBER_TO_WORD, graph, counts, start);
        numbers.push(number.into());
        requests.ask(&numbers);
    }
}

// All places of a short list; of a longer one the first two, the middle and
// the last two.
fn some_places(len: usize) -> Vec<usize> {
    if len <= ASK_ALL {
        (0..len).collect()
    } else {
        vec![0, 1, len / 2, len - 2, len - 1]
    }
}

// From a node: numbers up to one past the count, words, and words near them.
fn ask_from(requests: &mut Requests, graph: &Graph, counts: &[u32], start: usize) {
    let count = graph.counts[start];
    for number in some_places(count as usize) {
        ask_number(requests, graph, counts, start, number as u32);
    }
    for number in [count, count + 1, u32::MAX] {
        ask_number(requests, graph, counts, start, number);
    }
    let words = words_from(graph, start);
    for place in some_places(words.len()) {
        ask_word(requests, graph, counts, start, &words[place]);
    }
    let middle = words.get(words.len() / 2).cloned().unwrap_or_default();
    for word in words_near(&middle) {
        ask_word(requests, graph, counts, start, &word);
    }
}

fn sample_graphs(requests: &mut Requests) {
    for bytes in [graph(Layout::Kbwg), empty_graph(Layout::Kbwg)] {
        let graph = Graph::new(words_of(&bytes));
        ask_count(requests, &graph.words);
        for start in 0..graph.words.len() {
            ask_from(requests, &graph, &graph.counts, start);
        }
    }
}

// Of some only the count; of others also lookups from node 0, from where it
// leads, from the node with the most words, and from any node.
fn random_graphs(requests: &mut Requests) {
    let mut random = Random::new(13);
    for len in 2..=12 {
        for kind in 0..3 {
            for _ in 0..6 {
                ask_count(requests, &random_graph(&mut random, len, kind).words);
            }
            for _ in 0..2 {
                let graph = random_graph(&mut random, len, kind);
                ask_count(requests, &graph.words);
                let any = random.within(1, len as u64) as usize;
                for start in [0, graph.nodes[0].arc_index as usize, graph.richest(), any] {
                    ask_from(requests, &graph, &graph.counts, start);
                }
            }
        }
    }
}

// Counts that are not the graph's own: each the same, few, the graph's own a
// little changed, and any.
fn other_counts(requests: &mut Requests) {
    let mut random = Random::new(14);
    for len in 2..=12 {
        let graph = random_graph(&mut random, len, len as u32 % 3);
        let mut counts = vec![vec![0; len], vec![1; len], vec![u32::MAX; len]];
        counts.push((0..len).map(|_| random.within(0, 5) as u32).collect());
        counts.push((0..len).map(|_| random.word()).collect());
        // The last numbers: the largest is none.
        counts.push(
            (0..len)
                .map(|_| u32::MAX - random.within(0, 2) as u32 * u32::MAX)
                .collect(),
        );
        counts.push((0..len).map(|at| u32::MAX - at as u32).collect());
        let mut changed = graph.counts.clone();
        changed[random.within(0, len as u64) as usize] += 1;
        counts.push(changed);
        for counts in counts {
            ask_from(requests, &graph, &counts, graph.richest());
            ask_number(requests, &graph, &counts, 0, 0);
        }
    }
}

// A chain by arcs, to the next node and to the one before; and one long run.
fn long_graphs(requests: &mut Requests) {
    let len = 200;
    let node = |place: usize, is_end: bool, arc_index: usize| Fields {
        tile: (place % 64) as u8,
        accepts: place % 3 > 0,
        is_end,
        arc_index: arc_index as i32,
    };
    let on = |place| node(place, true, (place + 1) % len);
    let back = |place: usize| node(place, true, place.saturating_sub(1));
    let run = |place| node(place, place + 1 == len, 0);
    let graphs = [
        (0..len).map(on).collect::<Vec<_>>(),
        (0..len).map(back).collect(),
        (0..len).map(run).collect(),
    ];
    for (nodes, starts) in graphs.iter().zip([[1, 190], [199, 10], [1, 150]]) {
        let graph = Graph::of_nodes(nodes);
        ask_count(requests, &graph.words);
        for start in starts {
            let words = words_from(&graph, start);
            for place in [0, 5, words.len() - 1] {
                ask_number(requests, &graph, &graph.counts, start, place as u32);
                ask_word(requests, &graph, &graph.counts, start, &words[place]);
            }
            ask_number(requests, &graph, &graph.counts, start, words.len() as u32);
        }
    }
}

// Graphs that may loop, with too few words to be too many; and runs of two
// nodes that both lead to the next, up to one with too many words.
fn uncounted_graphs(requests: &mut Requests) {
    let mut random = Random::new(21);
    for len in 2..=12 {
        for _ in 0..6 {
            let mut nodes = random_nodes(&mut random, len, 5);
            for node in &mut nodes {
                node.arc_index = random.within(0, len as u64) as i32;
            }
            ask_count(requests, &pack_all(&nodes));
        }
    }
    for runs in 30..=34 {
        ask_count(requests, &pack_all(&doubled_chain(runs, true)));
    }
}
