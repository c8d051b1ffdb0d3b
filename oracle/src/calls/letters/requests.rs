// The list `letters`.

use super::super::graphs::{ascend, kwg_of, nodes_of, pack_all, run_from};
use super::super::layout::{Fields, Layout};
use super::super::samples::{empty_graph, graph, words_of};
use super::{ACCEPTS_ALPHA, ALPHA_CROSS_SET, LETTER_BITS, SEEK, STEP};
use crate::random::Random;
use crate::requests::Requests;

// The most entries of a tally.
const LONGEST: usize = 64;

// Which tiles the nodes of a random graph have, and whether they ascend in each
// run.
struct Kind {
    tiles: (u64, u64),
    ascends: bool,
}

const KINDS: [Kind; 5] = [
    kind(0, 64, false),
    kind(0, 50, true),
    kind(0, 3, false),
    kind(1, 5, false),
    kind(1, 4, true),
];

const fn kind(low: u64, high: u64, ascends: bool) -> Kind {
    Kind {
        tiles: (low, high),
        ascends,
    }
}

struct Graph {
    words: Vec<u32>,
    nodes: Vec<Fields>,
    // The Rust's own; of a graph that it does not count, numbers that fall from
    // node to node.
    counts: Vec<u32>,
}

impl Graph {
    fn of_words(words: Vec<u32>) -> Self {
        let counts = kwg_of(&words).count_words_alloc();
        Self {
            counts: counts.map_or_else(|_| falling(words.len()), Vec::from),
            nodes: nodes_of(&words),
            words,
        }
    }

    fn of_nodes(nodes: Vec<Fields>) -> Self {
        Self::of_words(pack_all(&nodes))
    }

    // The nodes of the run that a node's arc leads to; none for arc 0.
    fn run_after(&self, node: &Fields) -> &[Fields] {
        if node.arc_index == 0 {
            return &[];
        }
        run_from(&self.nodes, node.arc_index as usize)
    }
}

pub fn requests(requests: &mut Requests) {
    requests.comment("calls 9 to 11: a tile in a run, a step along a run, the tiles of each run");
    sample_graphs(requests);
    all_tiles(requests);
    random_graphs(requests);
    more_letter_bits(requests);
    requests.comment("calls 12 and 13: the alpha sets of a tally");
    sample_tallies(requests);
    random_tallies(requests);
    every_small_tally(requests);
}

// What every call starts with.
fn head(call: u64, graph: &Graph) -> Vec<u64> {
    let mut numbers = vec![call, graph.words.len() as u64];
    numbers.extend(graph.words.iter().map(|&word| u64::from(word)));
    numbers
}

fn falling(len: usize) -> Vec<u32> {
    (0..len as u32).rev().collect()
}

fn ask_seek(requests: &mut Requests, graph: &Graph, place: usize, tile: u8) {
    ask_seek_by(requests, graph, &graph.counts, place, tile);
}

// By these counts, but not where the words before the node would be below 0.
fn ask_seek_by(requests: &mut Requests, graph: &Graph, counts: &[u32], place: usize, tile: u8) {
    let run = graph.run_after(&graph.nodes[place]);
    let first = graph.nodes[place].arc_index as usize;
    let found = run.iter().position(|node| node.tile == tile);
    if found.is_none_or(|at| counts[first + at] <= counts[first]) {
        let mut numbers = head(SEEK, graph);
        numbers.extend(counts.iter().map(|&count| u64::from(count)));
        numbers.extend([place as u64, tile.into()]);
        requests.ask(&numbers);
    }
}

fn ask_step(requests: &mut Requests, graph: &Graph, place: usize) {
    let mut numbers = head(STEP, graph);
    numbers.push(place as u64);
    requests.ask(&numbers);
}

fn ask_letter_bits(requests: &mut Requests, graph: &Graph) {
    requests.ask(&head(LETTER_BITS, graph));
}

fn ask_tally(requests: &mut Requests, graph: &Graph, tally: &[u8]) {
    for call in [ACCEPTS_ALPHA, ALPHA_CROSS_SET] {
        let mut numbers = head(call, graph);
        numbers.push(tally.len() as u64);
        numbers.extend(tally.iter().map(|&count| u64::from(count)));
        requests.ask(&numbers);
    }
}

fn sample() -> Graph {
    Graph::of_words(words_of(&graph(Layout::Kbwg)))
}

fn empty() -> Graph {
    Graph::of_words(words_of(&empty_graph(Layout::Kbwg)))
}

// Every tile from the first node, and some from each; 64 and 255 are no tiles.
fn sample_graphs(requests: &mut Requests) {
    for tile in 0..64 {
        ask_seek(requests, &sample(), 0, tile);
    }
    for graph in [sample(), empty()] {
        for place in 0..graph.words.len() {
            for tile in [0, 1, 2, 3, 63, 64, 255] {
                ask_seek(requests, &graph, place, tile);
            }
            ask_step(requests, &graph, place);
        }
        ask_letter_bits(requests, &graph);
    }
}

// A run of all tiles, up and down.
fn all_tiles(requests: &mut Requests) {
    let node = |tile: u8, is_end| Fields {
        tile,
        accepts: tile % 3 > 0,
        is_end,
        arc_index: 1,
    };
    let up = (0..64).map(|tile| node(tile, tile == 63));
    let down = (0..64).rev().map(|tile| node(tile, tile == 0));
    let first = || std::iter::once(node(0, true));
    for nodes in [first().chain(up).collect(), first().chain(down).collect()] {
        let graph = Graph::of_nodes(nodes);
        for tile in [0, 1, 31, 32, 62, 63, 64, 65, 127, 128, 255] {
            ask_seek(requests, &graph, 0, tile);
        }
        for place in [0, 1, 40, 63, 64] {
            ask_step(requests, &graph, place);
        }
        ask_letter_bits(requests, &graph);
        let last = [[0; LONGEST - 1].as_slice(), &[2]].concat();
        for tally in [vec![], vec![0, 1], vec![1; LONGEST], last] {
            ask_tally(requests, &graph, &tally);
        }
    }
}

// Arcs lead anywhere, also into the middle of a run, to the node itself and
// back. The last node ends its run.
fn random_graph(random: &mut Random, len: usize, kind: &Kind) -> Graph {
    let (low, high) = kind.tiles;
    let mut nodes: Vec<Fields> = (0..len)
        .map(|place| Fields {
            tile: random.within(low, high) as u8,
            accepts: random.flag(),
            is_end: place + 1 == len || random.within(0, 3) == 0,
            arc_index: match random.within(0, 6) {
                0 if place > 0 => 0,
                _ => random.within(u64::from(place == 0), len as u64) as i32,
            },
        })
        .collect();
    if kind.ascends {
        ascend(&mut nodes);
    }
    Graph::of_nodes(nodes)
}

fn any_count(random: &mut Random) -> u32 {
    match random.within(0, 3) {
        0 => random.word(),
        1 => u32::MAX,
        _ => random.within(0, 4) as u32,
    }
}

// From every node two tiles that are there, by the graph's counts and by any others,
// and one that is perhaps not.
fn random_graphs(requests: &mut Requests) {
    let mut random = Random::new(21);
    let mut other_counts = Random::new(25);
    for len in 2..=12 {
        for kind in &KINDS {
            let graph = random_graph(&mut random, len, kind);
            let other: Vec<u32> = (0..len).map(|_| any_count(&mut other_counts)).collect();
            for place in 0..len {
                for node in graph.run_after(&graph.nodes[place]).iter().rev().take(2) {
                    ask_seek(requests, &graph, place, node.tile);
                    ask_seek_by(requests, &graph, &other, place, node.tile);
                }
                let any = random.within(kind.tiles.0, kind.tiles.1 + 1) as u8;
                ask_seek(requests, &graph, place, any);
                ask_step(requests, &graph, place);
            }
            ask_letter_bits(requests, &graph);
        }
    }
}

fn more_letter_bits(requests: &mut Requests) {
    let mut random = Random::new(22);
    for len in 2..=12 {
        for kind in &KINDS {
            for _ in 0..3 {
                ask_letter_bits(requests, &random_graph(&mut random, len, kind));
            }
        }
    }
}

// The sample's words are 1, 1 2 and 2 2. Entry 0 is no letter.
fn sample_tallies(requests: &mut Requests) {
    let few: [&[u8]; 14] = [
        &[],
        &[0],
        &[7],
        &[0, 0],
        &[0, 1],
        &[0, 1, 0],
        &[0, 1, 1],
        &[9, 1, 1],
        &[0, 0, 1],
        &[0, 0, 2],
        &[255, 0, 2],
        &[0, 0, 3],
        &[0, 2, 1],
        &[0, 255, 255],
    ];
    for graph in [sample(), empty()] {
        for tally in few {
            ask_tally(requests, &graph, tally);
            ask_tally(requests, &graph, &padded(tally));
        }
    }
}

// The same letters in a tally of the full length.
fn padded(tally: &[u8]) -> Vec<u8> {
    let mut padded = tally.to_vec();
    padded.resize(LONGEST, 0);
    padded
}

// The tiles of a walk from the first node. Where it can, each is no lower than
// the one before, as a tally spells them.
fn walk(random: &mut Random, graph: &Graph, longest: usize) -> Vec<u8> {
    let mut tiles = Vec::new();
    let mut run = graph.run_after(&graph.nodes[0]);
    while !run.is_empty() && tiles.len() < longest {
        let last = tiles.last().copied().unwrap_or(0);
        let mut among: Vec<&Fields> = run.iter().filter(|node| node.tile >= last).collect();
        if among.is_empty() {
            among.extend(run);
        }
        let node = random.pick(&among);
        tiles.push(node.tile);
        run = graph.run_after(node);
    }
    tiles
}

// No longer than it has to be.
fn tally_of(tiles: &[u8]) -> Vec<u8> {
    let mut tally = vec![0; tiles.iter().max().map_or(0, |&tile| tile as usize + 1)];
    for &tile in tiles {
        tally[tile as usize] += 1;
    }
    tally
}

// The letters of a walk, and the same without one of them.
fn random_tallies(requests: &mut Requests) {
    let mut random = Random::new(23);
    for len in 2..=12 {
        for (kind, graphs) in KINDS.iter().zip([1, 1, 2, 5, 6]) {
            for _ in 0..graphs {
                let graph = random_graph(&mut random, len, kind);
                for longest in [1, 2, 3, 5] {
                    let mut tiles = walk(&mut random, &graph, longest);
                    ask_tally(requests, &graph, &tally_of(&tiles));
                    if !tiles.is_empty() {
                        tiles.remove(random.within(0, tiles.len() as u64) as usize);
                    }
                    let mut tally = tally_of(&tiles);
                    if let Some(none) = tally.first_mut() {
                        *none = random.within(0, 3) as u8;
                    }
                    ask_tally(requests, &graph, &tally);
                }
            }
        }
    }
}

// Each of three letters up to twice.
fn every_small_tally(requests: &mut Requests) {
    let mut random = Random::new(24);
    for kind in &KINDS[3..] {
        let graph = random_graph(&mut random, 8, kind);
        for number in 0..27 {
            ask_tally(
                requests,
                &graph,
                &[0, number / 9, number / 3 % 3, number % 3],
            );
        }
    }
}
