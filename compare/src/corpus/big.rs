//! Files of just as many nodes as their format holds, and of one more; the longest file loaded; the largest graph counted.

use super::loads::kbwg_bytes;
use super::texts;
use crate::checker::{Checker, Fit, Graph};
use crate::lexicon::node;
use crate::random::Random;

const LARGEST: usize = 1 << 24;

pub fn run(checker: &mut Checker, random: &mut Random) {
    for len in [(1 << 22) - 1, 1 << 22, (1 << 22) + 1] {
        for accepts in [true, false] {
            let graph = Graph::new(overlapping(len, accepts));
            checker.file(&graph, &texts::plain_lxd(3), Fit::Just);
        }
    }
    for len in [LARGEST, LARGEST + 1] {
        let graph = Graph::new(wide(len));
        checker.file(&graph, &texts::plain_macondo(WIDTH, 0), Fit::Just);
    }
    longest_file(checker, random);
    for len in [LARGEST, LARGEST + 1] {
        let graph = Graph::new(vec![node(1, true, true, 0); len]);
        checker.count_words(&graph, len, 2 * len);
        checker.file(&graph, &texts::plain_macondo(1, 0), Fit::Just);
        checker.file(&graph, &texts::plain_lxd(1), Fit::Just);
    }
}

/// A graph whose LXD file has so many nodes: one long run with an arc from each node into another long run, which stands in the file once
/// for each place that an arc leads to.
fn overlapping(file_nodes: usize, accepts: bool) -> Vec<u32> {
    let long = 2900;
    // The file's first two nodes and the first run; the rest are ends of the second run, the longest first.
    let mut left = file_nodes - 2 - long;
    let second = (2 + long) as u32;
    let mut nodes = vec![node(0, false, true, 2); 2];
    for at in 0..long {
        let taken = (long - at).min(left);
        left -= taken;
        let arc = match taken {
            0 => 0,
            _ => second + (long - taken) as u32,
        };
        nodes.push(node(1, false, at + 1 == long, arc));
    }
    assert_eq!(left, 0, "two runs are long enough");
    nodes.extend((0..long).map(|at| node(2, accepts, at + 1 == long, 0)));
    nodes
}

// The most nodes of a run whose tiles ascend and have labels.
const WIDTH: usize = 50;

/// A graph whose Macondo file has so many nodes: many runs of 50 nodes with a block for each place in them, since runs above them lead to
/// each of these places.
fn wide(file_nodes: usize) -> Vec<u32> {
    let size = |runs: usize| 1 + runs * (WIDTH + WIDTH * (WIDTH + 1) / 2) + above(runs * WIDTH);
    let runs = (1..)
        .find(|&runs| size(runs) >= file_nodes)
        .expect("runs enough");
    // A run's first node is in one block only: without its arc there is one node less.
    let without = size(runs) - file_nodes;
    let mut nodes = vec![node(0, false, true, 0); 2];
    nodes.push(node(1, true, true, 0));
    for run in 0..runs {
        let arc = |at: usize| if at == 0 && run < without { 0 } else { 2 };
        nodes.extend((0..WIDTH).map(|at| node(at as u8, at % 3 == 1, at + 1 == WIDTH, arc(at))));
    }
    let mut targets: Vec<u32> = (3..nodes.len() as u32).collect();
    while targets.len() > 1 {
        targets = targets
            .chunks(WIDTH)
            .map(|part| add_run(&mut nodes, part))
            .collect();
    }
    nodes[0] = node(0, false, true, targets[0]);
    nodes
}

// The nodes of the blocks that lead to so many places, by runs of 50 above runs of 50 up to a single one.
fn above(places: usize) -> usize {
    match places {
        1 => 0,
        _ => places + places.div_ceil(WIDTH) + above(places.div_ceil(WIDTH)),
    }
}

fn add_run(nodes: &mut Vec<u32>, arcs: &[u32]) -> u32 {
    let place = nodes.len() as u32;
    let last = arcs.len() - 1;
    nodes.extend(
        (0..)
            .zip(arcs)
            .map(|(at, &arc)| node(at as u8, false, at as usize == last, arc)),
    );
    place
}

// With 2^24 nodes every arc of KBWG leads to one of them.
fn longest_file(checker: &mut Checker, random: &mut Random) {
    let mut nodes: Vec<u32> = (0..LARGEST).map(|_| random.word()).collect();
    nodes[LARGEST - 1] |= 0x40;
    let bytes = kbwg_bytes(&nodes);
    let (first, second) = bytes.split_at(random.within(0, bytes.len() as u64) as usize);
    checker.load(bytes.len(), 1, &[first, second], LARGEST);
}
