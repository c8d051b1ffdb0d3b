// The list `macondo`.

use super::super::graphs::{
    NUMBERINGS,
    Numbering::{ChildrenFirst, ChildrenLast},
    Words, ascend, empty, graph_of_words, longest_chain, pack_all, random_nodes, random_runs,
    random_words, sample,
};
use super::super::labels::{NO_CODE_POINT, letters_down, letters_up};
use super::super::layout::Fields;
use super::super::samples::{doubled_chain, every_pair, head, long_chains};
use super::{DAWG, GADDAG, MACONDO};
use crate::random::Random;
use crate::requests::Requests;

const MOST_LABELS: usize = 50;
const LONGEST_NAME: usize = 255;
const LONGEST_CHAIN: usize = 64;

// Code points at the edges of the ranges that are written in one to four bytes,
// of those that are no code points, and of the mark that tile 0 stands at.
const EDGES: [u32; 17] = [
    0, 1, 0x21, 0x5d, 0x5e, 0x5f, 0x7f, 0x80, 0xff, 0x100, 0x7ff, 0x800, 0xd7ff, 0xe000, 0xffff,
    0x10000, 0x10ffff,
];

pub fn requests(requests: &mut Requests) {
    requests.comment("call 14: a file of Macondo's");
    sample_graphs(requests);
    every_graph_of_two_nodes(requests);
    label_orders(requests);
    label_counts(requests);
    names(requests);
    no_code_points(requests);
    random_graphs(requests);
    word_graphs(requests);
    chains(requests);
    wide_graphs(requests);
}

fn ask(requests: &mut Requests, nodes: &[Fields], labels: &[u32], name: &[u8]) {
    for format in [DAWG, GADDAG] {
        if is_asked(nodes, labels, name, format) {
            let mut numbers = vec![MACONDO, nodes.len() as u64];
            numbers.extend(pack_all(nodes).iter().map(|&word| u64::from(word)));
            numbers.extend([format, labels.len() as u64]);
            numbers.extend(labels.iter().map(|&label| u64::from(label)));
            numbers.push(name.len() as u64);
            numbers.extend(name.iter().map(|&byte| u64::from(byte)));
            requests.ask(&numbers);
        }
    }
}

// Where the Rust has its own reason to refuse before it walks, or the graph is
// one that it can walk: every tile has a label, runs ascend, and the chain of
// runs is not too long.
fn is_asked(nodes: &[Fields], labels: &[u32], name: &[u8], format: u64) -> bool {
    let refused = labels.is_empty() || labels.len() > MOST_LABELS || name.len() > LONGEST_NAME;
    let start = nodes[format as usize].arc_index as usize;
    refused
        || nodes
            .iter()
            .all(|node| usize::from(node.tile) < labels.len())
            && nodes
                .windows(2)
                .all(|pair| pair[0].is_end || pair[0].tile < pair[1].tile)
            && longest_chain(nodes, start, LONGEST_CHAIN) <= LONGEST_CHAIN
}

fn sample_graphs(requests: &mut Requests) {
    for nodes in [sample(), empty()] {
        for name in ["G", "", "a name"] {
            ask(requests, &nodes, &letters_up(3), name.as_bytes());
        }
    }
}

fn every_graph_of_two_nodes(requests: &mut Requests) {
    for pair in every_pair() {
        ask(requests, &pair, &letters_up(2), b"");
    }
}

// A run of tile 0 and three letters, each with an arc of its own.
fn four_arcs() -> Vec<Fields> {
    let node = |tile, accepts, is_end, arc_index| Fields {
        tile,
        accepts,
        is_end,
        arc_index,
    };
    vec![
        node(0, false, true, 2),
        node(0, false, true, 2),
        node(0, true, false, 6),
        node(1, false, false, 7),
        node(2, true, false, 8),
        node(3, true, true, 9),
        node(3, true, true, 0),
        node(2, true, true, 0),
        node(1, true, true, 0),
        node(0, true, true, 7),
    ]
}

// Every three labels of one before, one after and that mark of tile 0; and
// labels of which each is its neighbour's equal or not.
fn label_orders(requests: &mut Requests) {
    let few = [0x41, 0x5e, 0x61];
    for number in 0..27 {
        let labels = [0x3f, few[number / 9], few[number / 3 % 3], few[number % 3]];
        ask(requests, &four_arcs(), &labels, b"o");
    }
    let mut random = Random::new(31);
    for _ in 0..30 {
        let labels = random_labels(&mut random, 4, 4);
        ask(requests, &four_arcs(), &labels, b"o");
    }
}

// Each tile up to the last stands in one run.
fn one_run(labels: usize) -> Vec<Fields> {
    let run = (0..labels).map(|tile| Fields {
        tile: tile as u8,
        accepts: tile % 3 > 0,
        is_end: tile + 1 == labels,
        arc_index: if tile % 4 == 1 && tile + 1 < labels {
            // Into the middle of the run that comes after.
            (2 + labels + tile % 3) as i32
        } else {
            0
        },
    });
    let after = (0..3).map(|at| Fields {
        tile: (at * (labels - 1) / 2) as u8,
        accepts: at != 1,
        is_end: at == 2,
        arc_index: 0,
    });
    [head(2), head(2)]
        .into_iter()
        .chain(run)
        .chain(after)
        .collect()
}

fn label_counts(requests: &mut Requests) {
    for count in [1, 2, 3, 26, 27, 28, 48, 49, 50] {
        ask(requests, &tile_0_only(), &letters_up(count), b"n");
        if count > 2 {
            ask(requests, &one_run(count), &letters_up(count), b"n");
            ask(requests, &one_run(count), &letters_down(count), b"n");
        }
    }
    // Too many, also for a graph that is refused later, and with a name too
    // long.
    for count in [0, 51, 52, 63, 64, 65] {
        for nodes in [sample(), tile_0_only(), one_run(64), looping()] {
            ask(requests, &nodes, &letters_up(count), b"n");
        }
        ask(
            requests,
            &sample(),
            &letters_up(count),
            &[b'n'; LONGEST_NAME + 1],
        );
    }
}

fn tile_0_only() -> Vec<Fields> {
    let node = |accepts, arc_index| Fields {
        tile: 0,
        accepts,
        is_end: true,
        arc_index,
    };
    vec![node(false, 2), node(true, 3), node(true, 3), node(true, 0)]
}

// A graph that no writer can write.
fn looping() -> Vec<Fields> {
    let mut nodes = tile_0_only();
    nodes[3].arc_index = 2;
    nodes
}

fn names(requests: &mut Requests) {
    let long = LONGEST_NAME;
    let names = [
        String::new(),
        "a".into(),
        "\0".into(),
        "ab".into(),
        "\u{10ffff}\u{e9}\u{7f}\u{80}".into(),
        "n".repeat(long - 1),
        "n".repeat(long),
        "n".repeat(long + 1),
        "n".repeat(300),
        // Characters of two bytes each: the bytes count.
        "\u{e9}".repeat(127),
        "\u{e9}".repeat(127) + "n",
        "\u{e9}".repeat(128),
    ];
    for name in &names {
        ask(requests, &sample(), &letters_up(3), name.as_bytes());
    }
    // Too long, for graphs that are refused later and with a letter that is not
    // one code point.
    for nodes in [looping(), one_run(60), sample()] {
        ask(
            requests,
            &nodes,
            &[0x3f, 0x41, NO_CODE_POINT],
            &[b'n'; LONGEST_NAME + 1],
        );
    }
}

// A letter that is not one code point is refused, reached or not; the blank's
// label is never read.
fn no_code_points(requests: &mut Requests) {
    for label in [
        0xd7ff,
        0xd800,
        0xdc00,
        0xdfff,
        0xe000,
        0x10ffff,
        NO_CODE_POINT,
        u32::MAX,
    ] {
        for nodes in [sample(), empty(), four_arcs()] {
            for place in 0..5 {
                let mut labels = letters_up(5);
                labels[place] = label;
                ask(requests, &nodes, &labels, b"c");
            }
        }
    }
    ask(requests, &tile_0_only(), &[NO_CODE_POINT], b"c");
    ask(requests, &sample(), &[NO_CODE_POINT; 3], b"c");
}

// Labels in one of six orders.
fn random_labels(random: &mut Random, count: usize, kind: u64) -> Vec<u32> {
    match kind {
        0 => letters_up(count),
        1 => letters_down(count),
        2 => vec![0x41; count],
        3 => (0..count)
            .map(|_| random.within(0x5c, 0x61) as u32)
            .collect(),
        4 => (0..count).map(|_| random.pick(&EDGES)).collect(),
        _ => (0..count)
            .map(|_| random.within(0x21, 0x7f) as u32)
            .collect(),
    }
}

// Labels for every tile of the nodes, and some more.
fn labels_for(random: &mut Random, nodes: &[Fields]) -> Vec<u32> {
    let tiles = nodes.iter().map(|node| usize::from(node.tile) + 1).max();
    let count = tiles.unwrap_or(1) + random.within(0, 3) as usize;
    let kind = random.within(0, 6);
    random_labels(random, count, kind)
}

fn random_graphs(requests: &mut Requests) {
    let mut random = Random::new(32);
    for len in 2..=14 {
        for tiles in [1, 3, 6, 30] {
            let nodes = random_nodes(&mut random, len, tiles);
            ask_ascending(requests, &mut random, nodes);
        }
    }
    for runs in 1..=9 {
        for tiles in [1, 2, 4, 30] {
            for numbering in [Some(ChildrenLast), Some(ChildrenFirst), None, None] {
                let nodes = random_runs(&mut random, runs, tiles, numbering);
                ask_ascending(requests, &mut random, nodes);
            }
        }
    }
}

fn ask_ascending(requests: &mut Requests, random: &mut Random, mut nodes: Vec<Fields>) {
    ascend(&mut nodes);
    let labels = labels_for(random, &nodes);
    ask(requests, &nodes, &labels, b"r");
}

// Each start of a word turned round, then tile 0 and the rest of it; the whole
// word turned round without tile 0.
fn turned(words: &Words) -> Words {
    let turn = |word: &[u8], len: usize| {
        let mut turned: Vec<u8> = word[..len].iter().rev().copied().collect();
        if len < word.len() {
            turned.push(0);
            turned.extend(&word[len..]);
        }
        turned
    };
    words
        .iter()
        .flat_map(|word| (1..=word.len()).map(move |len| turn(word, len)))
        .collect()
}

// Lexicons as the Rust's builder makes them, with a graph of words and one of
// words turned round.
fn word_graphs(requests: &mut Requests) {
    let mut random = Random::new(33);
    for count in [1, 2, 3, 5, 8] {
        for letters in [1, 2, 4, 26] {
            for numbering in NUMBERINGS {
                let words = random_words(&mut random, count, letters, 4);
                let nodes = graph_of_words(&words, &turned(&words), numbering);
                let labels = labels_for(&mut random, &nodes);
                ask(requests, &nodes, &labels, b"w");
            }
        }
    }
}

fn chains(requests: &mut Requests) {
    for nodes in long_chains(LONGEST_CHAIN) {
        ask(requests, &nodes, &letters_up(3), b"");
    }
    ask(
        requests,
        &doubled_chain(LONGEST_CHAIN, true),
        &letters_up(3),
        b"",
    );
}

// Graphs of more nodes, and lexicons of more words.
fn wide_graphs(requests: &mut Requests) {
    let mut random = Random::new(34);
    for tiles in [4, 20] {
        let nodes = random_runs(&mut random, 60, tiles, None);
        ask_ascending(requests, &mut random, nodes);
    }
    for numbering in NUMBERINGS {
        let words = random_words(&mut random, 60, 9, 4);
        let nodes = graph_of_words(&words, &turned(&words), numbering);
        ask(requests, &nodes, &letters_down(12), b"wide");
    }
}
