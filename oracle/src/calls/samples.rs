// Graphs and bytes that the lists are made from.

use super::layout::{Fields, Layout};
use crate::random::Random;

// A graph of five nodes that hold the words 1, 1 2 and 2 2, in each layout.
const GRAPH_KWG: [u32; 5] = [0x00400002, 0x00400000, 0x01800004, 0x02400004, 0x02c00000];
const GRAPH_KBWG: [u32; 5] = [0x240, 0x40, 0x481, 0x442, 0xc2];

pub fn graph(layout: Layout) -> Vec<u8> {
    match layout {
        Layout::Kwg => bytes_of(&GRAPH_KWG),
        Layout::Kbwg => bytes_of(&GRAPH_KBWG),
    }
}

pub fn empty_graph(layout: Layout) -> Vec<u8> {
    match layout {
        Layout::Kwg => crate::kwg::EMPTY_KWG_BYTES.to_vec(),
        Layout::Kbwg => crate::kwg::EMPTY_KBWG_BYTES.to_vec(),
    }
}

// Each byte of it changed, one at a time: each of its bits, and all of them.
pub fn damaged(bytes: &[u8]) -> Vec<Vec<u8>> {
    let mut all = Vec::new();
    for place in 0..bytes.len() {
        for change in (0..8).map(|bit| 1 << bit).chain([0xff]) {
            let mut damaged = bytes.to_vec();
            damaged[place] ^= change;
            all.push(damaged);
        }
    }
    all
}

pub fn bytes_of(words: &[u32]) -> Vec<u8> {
    words.iter().flat_map(|word| word.to_le_bytes()).collect()
}

pub fn words_of(bytes: &[u8]) -> Vec<u32> {
    let words = bytes.as_chunks::<4>().0.iter();
    words.map(|&word| u32::from_le_bytes(word)).collect()
}

pub fn random_bytes(random: &mut Random, len: usize) -> Vec<u8> {
    (0..len).map(|_| random.byte()).collect()
}

// Every two nodes of the tiles 0 and 1, with arcs to each other and to
// themselves; the second ends its run.
pub fn every_pair() -> Vec<[Fields; 2]> {
    let node = |number: u32| Fields {
        tile: (number & 1) as u8,
        accepts: number & 2 > 0,
        arc_index: (number >> 2 & 1) as i32,
        is_end: number & 8 > 0,
    };
    (0..16)
        .flat_map(|first| (8..16).map(move |second| [node(first), node(second)]))
        .collect()
}

// Runs that lead each to the next, so many of them and one more or fewer, from
// where nodes 0 and 1 lead: to the node after, and to the one before; and such
// as start at node 0, whose arc is 0 and whose run goes on to node 1.
pub fn long_chains(runs: usize) -> Vec<Vec<Fields>> {
    let node = |place: usize, arc_index: usize| Fields {
        tile: place as u8 % 2 + 1,
        accepts: place % 5 == 0,
        is_end: true,
        arc_index: arc_index as i32,
    };
    let mut chains = Vec::new();
    for len in [runs - 1, runs, runs + 1] {
        let last = len + 1;
        let on = (2..=last).map(|at| node(at, if at < last { at + 1 } else { 0 }));
        let back = (2..=last).map(|at| node(at, if at > 2 { at - 1 } else { 0 }));
        let at_0 = (1..=len).map(|at| node(at, if at < len { at + 1 } else { 0 }));
        chains.push([head(2), head(2)].into_iter().chain(on).collect());
        chains.push([head(last as i32); 2].into_iter().chain(back).collect());
        let first = Fields {
            is_end: false,
            ..head(0)
        };
        chains.push([first].into_iter().chain(at_0).collect());
    }
    chains
}

// So many runs of two nodes that both lead to the next; the last two may accept.
pub fn doubled_chain(runs: usize, accepts: bool) -> Vec<Fields> {
    let last = 2 * runs;
    let run = (2..last + 2).map(|at| Fields {
        tile: at as u8 % 2 + 1,
        accepts: accepts && at >= last,
        is_end: at % 2 == 1,
        arc_index: if at < last { at / 2 * 2 + 2 } else { 0 } as i32,
    });
    [head(2), head(2)].into_iter().chain(run).collect()
}

// A node that only leads to others, as the first two of a file do.
pub fn head(arc_index: i32) -> Fields {
    Fields {
        tile: 0,
        accepts: false,
        is_end: true,
        arc_index,
    }
}
