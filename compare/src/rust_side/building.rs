//! What the Rust makes of a graph that was built. It is not asked to build one, for 02 leaves its builder out of the comparison: it loads the
//! nodes, counts them, and goes from each word to its number and back.

use super::{Answered, Graph, Refused, graph_of};

/// The refusal of a graph whose words are not the list's, or whose runs do not ascend.
pub const OTHER_WORDS: u32 = 997;

/// The nodes as the Rust loads them, where it finds the words in them, each with its place in the list as its number.
pub fn read_back(nodes: &[u32], words: &[&[u8]]) -> Answered<Vec<u32>> {
    let file: Vec<u8> = nodes.iter().flat_map(|node| node.to_le_bytes()).collect();
    let nodes = super::load(&file, 1)?;
    let graph = graph_of(&nodes);
    let counts = super::count_words(&graph)?;
    let start = nodes[0] >> 8;
    if !graph.runs_ascend() || counts[start as usize] as usize != words.len() {
        return Err(Refused::plain(OTHER_WORDS));
    }
    for (number, word) in (0..).zip(words) {
        if !goes_both_ways(&graph, &counts, start, number, word)? {
            return Err(Refused::plain(OTHER_WORDS));
        }
    }
    Ok(nodes)
}

fn goes_both_ways(
    graph: &Graph,
    counts: &[u32],
    start: u32,
    number: u32,
    word: &[u8],
) -> Answered<bool> {
    let (tiles, whole) = super::word_by_index(graph, counts, start, number)?;
    let back = super::word_index(graph, counts, start, word)?;
    Ok(whole && tiles == word && back == Some(number))
}
