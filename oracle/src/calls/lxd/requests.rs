// The list `lxd`.

use super::super::graphs::{
    NUMBERINGS,
    Numbering::{ChildrenFirst, ChildrenLast},
    Words, ascend, empty, graph_of_words, longest_chain, pack_all, random_nodes, random_runs,
    random_words, reached_from, run_from, sample,
};
use super::super::labels::{NO_CODE_POINT, letters_up};
use super::super::layout::Fields;
use super::super::samples::{doubled_chain, every_pair, head, long_chains};
use super::LXD;
use crate::random::Random;
use crate::requests::Requests;
use crate::windows1252::{LOST, byte_of, for_the_original, gained};

const MOST_LABELS: usize = 64;
const LONGEST_TITLE: usize = 31;
const LONGEST_DATE: usize = 19;
const LONGEST_CHAIN: usize = 64;
const LAST_BYTE: u32 = 0xff;
const NO_BYTE: u32 = 0x100;

pub fn requests(requests: &mut Requests) {
    requests.comment("call 15: an LXD file");
    sample_graphs(requests);
    every_graph_of_two_nodes(requests);
    texts(requests);
    labels(requests);
    random_graphs(requests);
    no_words(requests);
    word_graphs(requests);
    chains(requests);
    wide_graphs(requests);
}

fn ask(requests: &mut Requests, nodes: &[Fields], labels: &[u32], title: &[u32], date: &[u32]) {
    if is_asked(nodes, labels, title, date) {
        let mut numbers = vec![LXD];
        for list in [&pack_all(nodes), labels, title, date] {
            numbers.push(list.len() as u64);
            numbers.extend(list.iter().map(|&word| u64::from(word)));
        }
        requests.ask(&numbers);
    }
}

// Where the Rust has its own reason to refuse before it walks, or the graph is
// one that it can walk: every tile has a label, the chain of runs is not too
// long, and the words are not too many.
fn is_asked(nodes: &[Fields], labels: &[u32], title: &[u32], date: &[u32]) -> bool {
    let start = nodes[0].arc_index as usize;
    is_refused(title, LONGEST_TITLE)
        || is_refused(date, LONGEST_DATE)
        || nodes
            .iter()
            .all(|node| usize::from(node.tile) < labels.len())
            && longest_chain(nodes, start, LONGEST_CHAIN) <= LONGEST_CHAIN
            && words_from(nodes, start) < u64::from(u32::MAX)
}

fn is_refused(text: &[u32], longest: usize) -> bool {
    text.len() > longest || text.iter().any(|&point| byte_of(point).is_none())
}

// How many words there are from a node. The chain of runs is not too long.
fn words_from(nodes: &[Fields], start: usize) -> u64 {
    let mut counts = vec![0u64; nodes.len()];
    for _ in 0..LONGEST_CHAIN {
        counts = (0..nodes.len())
            .map(|place| {
                run_from(nodes, place).iter().fold(0, |count: u64, node| {
                    let after = match node.arc_index as usize {
                        0 => 0,
                        arc => counts[arc],
                    };
                    count
                        .saturating_add(after)
                        .saturating_add(node.accepts.into())
                })
            })
            .collect();
    }
    counts[start]
}

fn points(text: &str) -> Vec<u32> {
    text.chars().map(u32::from).collect()
}

fn sample_graphs(requests: &mut Requests) {
    for nodes in [sample(), empty()] {
        for (title, date) in [("G", ""), ("", ""), ("a title", "2026-01-31")] {
            ask(
                requests,
                &nodes,
                &letters_up(3),
                &points(title),
                &points(date),
            );
        }
    }
}

fn every_graph_of_two_nodes(requests: &mut Requests) {
    for pair in every_pair() {
        ask(requests, &pair, &letters_up(2), &[], &[]);
    }
}

// Titles and dates of every length about the longest, and of code points with
// and without a byte; each good and bad title with each good and bad date.
fn texts(requests: &mut Requests) {
    let three = letters_up(3);
    for len in [0, 1, 2, 18, 19, 20, 21, 30, 31, 32, 33, 100] {
        let text = &vec![0x54; len];
        ask(requests, &sample(), &three, text, &[]);
        ask(requests, &sample(), &three, &[], text);
        ask(requests, &sample(), &three, text, text);
        let wide = &vec![LAST_BYTE; len];
        ask(requests, &empty(), &three, wide, wide);
    }
    for point in [0, 1, 0xa, 0x20, 0x7e, 0x7f]
        .into_iter()
        .chain(0x80..=0x101)
        .chain(gained())
    {
        ask(requests, &empty(), &three, &[0x54, point], &[]);
        ask(requests, &empty(), &three, &[], &[point]);
    }
    ask(
        requests,
        &sample(),
        &three,
        &points("Œuvre, cœur"),
        &points("1er août"),
    );
    for point in [0x17f, 0x3ff, 0xd7ff, 0xe000, 0xffff, 0x10000, 0x10ffff] {
        ask(requests, &empty(), &three, &[point], &[]);
        ask(requests, &empty(), &three, &[], &[0x31, point]);
    }
    let kinds = |longest: usize| {
        let long = vec![0x41; longest + 1];
        let last = [long.clone(), vec![NO_BYTE]].concat();
        let first = [vec![NO_BYTE], long.clone()].concat();
        [vec![0x41], long, vec![NO_BYTE], last, first]
    };
    for title in kinds(LONGEST_TITLE) {
        for date in kinds(LONGEST_DATE) {
            ask(requests, &sample(), &three, &title, &date);
            // The same of a graph, and of labels, that are refused later.
            ask(requests, &looping(), &letters_up(1), &title, &date);
            ask(
                requests,
                &sample(),
                &[0x3f, NO_BYTE, NO_BYTE],
                &title,
                &date,
            );
        }
    }
}

// A graph that no writer can write.
fn looping() -> Vec<Fields> {
    let mut nodes = sample();
    nodes[4].arc_index = 2;
    nodes
}

// A run of tiles 1 and 2, and a run of tile 3 that nothing leads to. Tile 0
// starts where node 0's arc is 0.
fn four_tiles(start: i32) -> Vec<Fields> {
    let node = |tile, accepts, is_end, arc_index| Fields {
        tile,
        accepts,
        is_end,
        arc_index,
    };
    vec![
        node(0, true, true, start),
        node(1, false, false, 2),
        node(2, true, true, 0),
        node(3, true, true, 0),
    ]
}

// Labels with a byte and without, reached and not.
fn labels(requests: &mut Requests) {
    let edges = [
        0,
        1,
        0x21,
        0x5e,
        0x7f,
        0x80,
        0x84,
        0x86,
        0x9f,
        0xa1,
        0xfe,
        0xff,
        0x100,
        0x101,
        0x152,
        0x153,
        0x178,
        0x17f,
        0x1ff,
        0x3ff,
        0x20ac,
        0x2122,
        0xd7ff,
        0xd800,
        0xdfff,
        0xe000,
        0xffff,
        0x10ffff,
        NO_CODE_POINT,
        u32::MAX,
    ];
    for label in edges {
        for start in [0, 1, 2] {
            for tile in 0..4 {
                let mut labels = letters_up(4);
                labels[tile] = label;
                ask(requests, &four_tiles(start), &labels, &[], &[]);
            }
        }
    }
    // Each code point that has lost its byte, or gained one.
    for label in LOST.chain(gained()).filter(|&label| is_label(label)) {
        ask(requests, &sample(), &[0x3f, label, 0x42], &[], &[]);
    }
    // A run of every tile, under every label with a byte; up, and down.
    for labels in labels_with_a_byte().chunks(MOST_LABELS) {
        let down: Vec<u32> = labels.iter().rev().copied().collect();
        ask(requests, &one_run(labels.len(), false), labels, &[], &[]);
        ask(requests, &one_run(labels.len(), true), &down, &[], &[]);
    }
    // More labels than tiles, and equal labels.
    for count in [3, 4, 27, 63, 64] {
        ask(requests, &sample(), &letters_up(count), &[], &[]);
        ask(requests, &sample(), &vec![0x41; count], &[], &[]);
    }
}

// White space cannot be a label of the Rust's.
fn is_label(point: u32) -> bool {
    let asked = for_the_original(&[point])[0];
    char::from_u32(asked).is_some_and(|c| !c.is_whitespace())
}

fn labels_with_a_byte() -> Vec<u32> {
    (0x21..=LAST_BYTE)
        .chain(gained())
        .filter(|&point| byte_of(point).is_some() && is_label(point))
        .collect()
}

// Each of so many tiles in one run, upwards or downwards.
fn one_run(tiles: usize, down: bool) -> Vec<Fields> {
    let run = (0..tiles).map(|at| Fields {
        tile: if down { tiles - 1 - at } else { at } as u8,
        accepts: at % 3 > 0,
        is_end: at + 1 == tiles,
        arc_index: 0,
    });
    [head(1)].into_iter().chain(run).collect()
}

// Labels with a byte for every tile of the nodes, and some more. Of some
// alphabets one label has none.
fn labels_for(random: &mut Random, nodes: &[Fields]) -> Vec<u32> {
    let tiles = nodes.iter().map(|node| usize::from(node.tile) + 1).max();
    let count = (tiles.unwrap_or(1) + random.within(0, 3) as usize).min(MOST_LABELS);
    let all = labels_with_a_byte();
    let mut labels: Vec<u32> = (0..count).map(|_| random.pick(&all)).collect();
    if random.within(0, 6) == 0 {
        let place = random.within(0, count as u64) as usize;
        let without = [0x80, 0x81, 0x9f, 0x100, 0x151, 0x17f, 0x3ff, 0x2027, 0x2123];
        labels[place] = random.pick(&without);
    }
    labels
}

// The first node leads to any other.
fn with_head(random: &mut Random, nodes: &mut [Fields]) {
    nodes[0] = head(random.within(1, nodes.len() as u64) as i32);
}

fn random_graphs(requests: &mut Requests) {
    let mut random = Random::new(41);
    for len in 2..=14 {
        for tiles in [1, 3, 6, 50] {
            let mut nodes = random_nodes(&mut random, len, tiles);
            ask_labelled(requests, &mut random, &nodes);
            with_head(&mut random, &mut nodes);
            ask_labelled(requests, &mut random, &nodes);
        }
    }
    for runs in 1..=9 {
        for tiles in [1, 2, 4, 50] {
            for numbering in [Some(ChildrenLast), Some(ChildrenFirst), None, None] {
                let mut nodes = random_runs(&mut random, runs, tiles, numbering);
                ask_labelled(requests, &mut random, &nodes);
                ascend(&mut nodes);
                ask_labelled(requests, &mut random, &nodes);
            }
        }
    }
}

fn ask_labelled(requests: &mut Requests, random: &mut Random, nodes: &[Fields]) {
    let labels = labels_for(random, nodes);
    ask(requests, nodes, &labels, &points("r"), &[]);
}

// Nodes that accept are in no run that is reached, and there may be none.
fn no_words(requests: &mut Requests) {
    let mut random = Random::new(42);
    for len in 2..=12 {
        for somewhere in [false, true] {
            let mut nodes = random_nodes(&mut random, len, 4);
            with_head(&mut random, &mut nodes);
            let reached = reached_from(&nodes, nodes[0].arc_index as usize);
            for (place, node) in nodes.iter_mut().enumerate() {
                node.accepts = somewhere && !reached.contains(&place);
            }
            let labels = labels_for(&mut random, &nodes);
            ask(requests, &nodes, &labels, &points("none"), &points("1"));
        }
    }
}

// Lexicons as the Rust's builder makes them.
fn word_graphs(requests: &mut Requests) {
    let mut random = Random::new(43);
    for count in [1, 2, 3, 5, 8, 13] {
        for letters in [1, 2, 4, 26] {
            for numbering in NUMBERINGS {
                let words = random_words(&mut random, count, letters, 5);
                let nodes = graph_of_words(&words, &Words::new(), numbering);
                let labels = labels_for(&mut random, &nodes);
                ask(requests, &nodes, &labels, &points("w"), &points("2026"));
            }
        }
    }
}

fn chains(requests: &mut Requests) {
    for nodes in long_chains(LONGEST_CHAIN) {
        ask(requests, &nodes, &letters_up(3), &[], &[]);
    }
    // 2^31 words, and none at all.
    for (runs, accepts) in [(30, true), (31, true), (LONGEST_CHAIN, false)] {
        ask(
            requests,
            &doubled_chain(runs, accepts),
            &letters_up(3),
            &[],
            &[],
        );
    }
}

// Graphs of more nodes, and lexicons of more words.
fn wide_graphs(requests: &mut Requests) {
    let mut random = Random::new(44);
    for tiles in [4, 20, 60] {
        let nodes = random_runs(&mut random, 60, tiles, None);
        ask_labelled(requests, &mut random, &nodes);
    }
    for numbering in NUMBERINGS {
        let words = random_words(&mut random, 120, 9, 5);
        let nodes = graph_of_words(&words, &Words::new(), numbering);
        ask(requests, &nodes, &letters_up(12), &points("wide"), &[]);
    }
}
