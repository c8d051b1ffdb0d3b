// What the Rust finds in a graph that was built.

use crate::calls::labels::{alphabet_of, letters_up};
use crate::calls::outcome::unknown;
use crate::calls::samples::{bytes_of, words_of};
use crate::kwg::{Kwg, Node24, kbwg_from_bytes_alloc};
use crate::lexport::to_lxd;
use crate::numbers::Unreadable;

const LABELS: usize = 64;
const LXD_HEADER: usize = 64;

// The graph loads, ascends and counts, each word has its place in the list as its
// number and the other way round, and an LXD file numbers its nodes alike. What is
// not so stops the run.
pub fn finds(nodes: &[u32], words: &[Vec<u8>]) -> Result<(), Unreadable> {
    let graph = kbwg_from_bytes_alloc(bytes_of(nodes), true).map_err(|e| unknown(&e))?;
    let counts = graph.count_words_alloc().map_err(|e| unknown(&e))?;
    let start = nodes[0] >> 8;
    let ascends = graph.runs_ascend() && graph.0.len() == nodes.len();
    if !ascends || counts[start as usize] as usize != words.len() {
        return Err("the Rust counts other words".into());
    }
    for (number, word) in (0..).zip(words) {
        let mut tiles = Vec::new();
        let put = graph.get_word_by_index(&counts, start as i32, number, |tile| tiles.push(tile));
        put.map_err(|e| unknown(&e))?;
        if &tiles != word || graph.get_word_index(&counts, start as i32, word) != number {
            return Err(format!("the Rust has another word {number}"));
        }
    }
    match start == 0 || lxd_nodes(&graph)? == as_lxd(nodes) {
        true => Ok(()),
        false => Err("the Rust's LXD file numbers the nodes otherwise".into()),
    }
}

// The nodes of an LXD file but for its first two, which are its own.
fn lxd_nodes(graph: &Kwg<Node24>) -> Result<Vec<u32>, Unreadable> {
    let alphabet = alphabet_of(&letters_up(LABELS))?.ok_or("no alphabet of 64 labels")?;
    let file = to_lxd(graph, &alphabet, "", "").map_err(|e| unknown(&e))?;
    Ok(words_of(&file[LXD_HEADER + 8..]))
}

// End, accepts, letter and child from the highest bit down.
fn as_lxd(nodes: &[u32]) -> Vec<u32> {
    let labels = letters_up(LABELS);
    let lxd = |node: u32| {
        let letter = labels[(node & 0x3f) as usize];
        (node >> 6 & 1) << 31 | (node >> 7 & 1) << 30 | letter << 22 | node >> 8
    };
    nodes[2..].iter().map(|&node| lxd(node)).collect()
}
