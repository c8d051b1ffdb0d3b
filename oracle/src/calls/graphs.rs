// Graphs of KBWG nodes: as the Rust takes them, drawn at random, and made from
// words.

use super::layout::{Fields, Layout};
use super::samples::{empty_graph, graph, head, words_of};
use crate::kwg::{Kwg, Node, Node24};
use crate::random::Random;
use std::collections::{BTreeMap, BTreeSet};

pub fn kwg_of(words: &[u32]) -> Kwg<Node24> {
    Kwg(words.iter().map(|&word| Node24::new(word)).collect())
}

pub fn nodes_of(words: &[u32]) -> Vec<Fields> {
    words.iter().map(|&w| Layout::Kbwg.fields(w)).collect()
}

pub fn pack_all(nodes: &[Fields]) -> Vec<u32> {
    nodes
        .iter()
        .map(|node| Layout::Kbwg.pack(node).expect("the node fits"))
        .collect()
}

// The sample of five nodes, and the graph of no words.
pub fn sample() -> Vec<Fields> {
    nodes_of(&words_of(&graph(Layout::Kbwg)))
}

pub fn empty() -> Vec<Fields> {
    nodes_of(&words_of(&empty_graph(Layout::Kbwg)))
}

// The nodes from a place to the end of its run.
pub fn run_from(nodes: &[Fields], place: usize) -> &[Fields] {
    let rest = &nodes[place..];
    let end = rest.iter().position(|node| node.is_end);
    &rest[..=end.expect("the last node ends its run")]
}

// Nodes in no order of their own: a node leads only to nodes that come later in
// an order drawn for the graph, and node 0 may stand anywhere in it.
pub fn random_nodes(random: &mut Random, len: usize, tiles: u64) -> Vec<Fields> {
    let order: Vec<u64> = (0..len).map(|_| random.next()).collect();
    (0..len)
        .map(|place| {
            let later: Vec<usize> = (1..len).filter(|&to| order[to] > order[place]).collect();
            let arc_index = match later.len() as u64 {
                0 => 0,
                _ if random.within(0, 5) == 0 => 0,
                many => later[random.within(0, many) as usize],
            };
            Fields {
                tile: random.within(0, tiles) as u8,
                accepts: random.flag(),
                is_end: !later.contains(&(place + 1)) || random.within(0, 3) == 0,
                arc_index: arc_index as i32,
            }
        })
        .collect()
}

// Each run's tiles made to ascend, as the graphs built by the Rust have them.
pub fn ascend(nodes: &mut [Fields]) {
    for place in 1..nodes.len() {
        if !nodes[place - 1].is_end {
            nodes[place].tile = nodes[place - 1].tile + 1;
        }
    }
}

// A graph without a loop, and the number of words from each node.
pub struct Graph {
    pub words: Vec<u32>,
    pub nodes: Vec<Fields>,
    // The Rust's own.
    pub counts: Vec<u32>,
}

impl Graph {
    pub fn new(words: Vec<u32>) -> Self {
        let nodes = nodes_of(&words);
        let counts = kwg_of(&words)
            .count_words_alloc()
            .expect("the graph has no loop");
        Self {
            words,
            nodes,
            counts: counts.into_vec(),
        }
    }

    pub fn of_nodes(nodes: &[Fields]) -> Self {
        Self::new(pack_all(nodes))
    }

    // The node with the most words, but for node 0.
    pub fn richest(&self) -> usize {
        (1..self.counts.len())
            .max_by_key(|&place| self.counts[place])
            .unwrap_or(0)
    }
}

// The words from a node, in the order of their numbers. Node 0 starts none.
pub fn words_from(graph: &Graph, start: usize) -> Vec<Vec<u8>> {
    let mut words = Vec::new();
    let mut place = start;
    while place > 0 {
        let node = &graph.nodes[place];
        if node.accepts {
            words.push(vec![node.tile]);
        }
        for rest in words_from(graph, node.arc_index as usize) {
            words.push([vec![node.tile], rest].concat());
        }
        place = if node.is_end { 0 } else { place + 1 };
    }
    words
}

// Words that a graph may not have: none of the word's tiles, fewer, one more,
// one of them another, and tile 0.
pub fn words_near(word: &[u8]) -> Vec<Vec<u8>> {
    let mut near = vec![vec![], vec![0], [word, &[1]].concat()];
    if let Some((&last, start)) = word.split_last() {
        near.push(start.to_vec());
        near.push([start, &[(last + 1) % 64]].concat());
        near.push([&[63], &word[1..]].concat());
    }
    near
}

// A graph of so many nodes: of few tiles, of a few in ascending runs, or of any.
pub fn random_graph(random: &mut Random, len: usize, kind: u32) -> Graph {
    let tiles = [3, 5, 64][kind as usize];
    let mut nodes = random_nodes(random, len, tiles);
    if kind == 1 {
        ascend(&mut nodes);
    }
    Graph::of_nodes(&nodes)
}

// Runs of up to four nodes, which lead to one of the three runs after it, at
// times into its middle. Without a numbering they stand in any order. Nodes 0
// and 1 lead to the first two.
pub fn random_runs(
    random: &mut Random,
    runs: usize,
    tiles: u64,
    numbering: Option<Numbering>,
) -> Vec<Fields> {
    let lens: Vec<u64> = (0..runs).map(|_| random.within(1, 5)).collect();
    let mut order: Vec<usize> = (0..runs).collect();
    match numbering {
        Some(Numbering::ChildrenLast) => {}
        Some(Numbering::ChildrenFirst) => order.reverse(),
        None => order.sort_by_cached_key(|_| random.next()),
    }
    let mut starts = vec![0; runs];
    let mut nodes = vec![head(0); 2];
    for &run in &order {
        starts[run] = nodes.len();
        for at in 0..lens[run] {
            nodes.push(Fields {
                tile: random.within(0, tiles) as u8,
                accepts: random.flag(),
                is_end: at + 1 == lens[run],
                arc_index: 0,
            });
        }
    }
    for run in 0..runs {
        for at in 0..lens[run] {
            let to = run + random.within(1, 4) as usize;
            let within = if random.within(0, 3) == 0 {
                lens.get(to)
            } else {
                None
            };
            let middle = random.within(0, *within.unwrap_or(&1));
            if to < runs && random.within(0, 4) > 0 {
                nodes[starts[run] + at as usize].arc_index = (starts[to] as u64 + middle) as i32;
            }
        }
    }
    for place in 0..2 {
        nodes[place] = head(starts[place.min(runs - 1)] as i32);
    }
    nodes
}

pub type Words = BTreeSet<Vec<u8>>;

// So many words, or fewer where some are equal, of so many letters.
pub fn random_words(random: &mut Random, count: usize, letters: u64, longest: u64) -> Words {
    (0..count)
        .map(|_| {
            let len = random.within(1, longest + 1);
            (0..len)
                .map(|_| random.within(1, letters + 1) as u8)
                .collect()
        })
        .collect()
}

// Exactly so many words.
pub fn words_in_number(random: &mut Random, count: usize, letters: u64, longest: u64) -> Words {
    let mut words = Words::new();
    while words.len() < count {
        words.append(&mut random_words(random, 1, letters, longest));
    }
    words
}

// The words of a GADDAG: for each place in a word what stands before it from back
// to front, tile 0, and the rest; the whole word turned has no tile 0.
pub fn turned(words: &Words) -> Words {
    let mut all = Words::new();
    for word in words {
        for cut in 1..=word.len() {
            let (front, rest) = word.split_at(cut);
            let mut tiles: Vec<u8> = front.iter().rev().copied().collect();
            if !rest.is_empty() {
                tiles.push(0);
            }
            all.insert([&tiles, rest].concat());
        }
    }
    all
}

// Whether a run stands before the runs that it leads to, or after them.
#[derive(Clone, Copy)]
pub enum Numbering {
    ChildrenLast,
    ChildrenFirst,
}

pub const NUMBERINGS: [Numbering; 2] = [Numbering::ChildrenLast, Numbering::ChildrenFirst];

// Node 0 leads to the first words, node 1 to the others, as in a file of the
// Rust's builder. Runs with the same words are one, so that tails are shared.
pub fn graph_of_words(first: &Words, others: &Words, numbering: Numbering) -> Vec<Fields> {
    let mut nodes = vec![head(0), head(0)];
    let mut known = BTreeMap::new();
    for (place, words) in [first, others].into_iter().enumerate() {
        nodes[place].arc_index = add_run(&mut nodes, &mut known, words, numbering);
    }
    nodes
}

// The place of the run with these words; 0 for none.
fn add_run(
    nodes: &mut Vec<Fields>,
    known: &mut BTreeMap<Words, i32>,
    words: &Words,
    numbering: Numbering,
) -> i32 {
    if let Some(&place) = known.get(words) {
        return place;
    }
    let mut rests: BTreeMap<u8, Words> = BTreeMap::new();
    for word in words.iter().filter(|word| !word.is_empty()) {
        rests.entry(word[0]).or_default().insert(word[1..].to_vec());
    }
    if rests.is_empty() {
        return 0;
    }
    let mut run: Vec<Fields> = rests
        .iter()
        .enumerate()
        .map(|(at, (&tile, rest))| Fields {
            tile,
            accepts: rest.contains([].as_slice()),
            is_end: at + 1 == rests.len(),
            arc_index: 0,
        })
        .collect();
    let start = match numbering {
        Numbering::ChildrenLast => {
            let start = nodes.len();
            nodes.extend(&run);
            for (at, rest) in rests.values().enumerate() {
                nodes[start + at].arc_index = add_run(nodes, known, rest, numbering);
            }
            start
        }
        Numbering::ChildrenFirst => {
            for (at, rest) in rests.values().enumerate() {
                run[at].arc_index = add_run(nodes, known, rest, numbering);
            }
            let start = nodes.len();
            nodes.extend(&run);
            start
        }
    };
    known.insert(words.clone(), start as i32);
    start as i32
}

// The most runs, each reached by an arc of the one before, from a node: all
// that is over the most asked for is one more than it, and so is a loop.
pub fn longest_chain(nodes: &[Fields], start: usize, most: usize) -> usize {
    let mut chains = vec![1; nodes.len()];
    for _ in 0..most {
        chains = (0..nodes.len())
            .map(|place| {
                let arcs = run_from(nodes, place).iter().map(|node| node.arc_index);
                let longest = arcs.filter(|&arc| arc > 0).map(|arc| chains[arc as usize]);
                1 + longest.max().unwrap_or(0)
            })
            .collect();
    }
    chains[start]
}

// The nodes that a walk from a start comes to.
pub fn reached_from(nodes: &[Fields], start: usize) -> BTreeSet<usize> {
    let mut reached = BTreeSet::new();
    let mut waiting = vec![start];
    while let Some(start) = waiting.pop() {
        for (at, node) in run_from(nodes, start).iter().enumerate() {
            if reached.insert(start + at) && node.arc_index > 0 {
                waiting.push(node.arc_index as usize);
            }
        }
    }
    reached
}

// Whether a walk from a node comes back to it, by one step or more.
pub fn reaches_itself(nodes: &[Fields], place: usize) -> bool {
    let node = &nodes[place];
    let by_arc = (node.arc_index > 0).then_some(node.arc_index as usize);
    let by_run = (!node.is_end).then_some(place + 1);
    let mut steps = by_arc.into_iter().chain(by_run);
    steps.any(|next| reached_from(nodes, next).contains(&place))
}
