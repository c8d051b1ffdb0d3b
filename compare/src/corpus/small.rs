//! Every small graph, through all calls.

use super::Size;
use super::all_calls::{Nodes, all_calls};
use super::in_play::short_words;
use crate::checker::{Checker, Graph};
use crate::graphs::{every_node, nth};
use crate::random::Random;

pub fn run(checker: &mut Checker, size: Size, random: &mut Random) {
    // Graphs of so many nodes over the first so many tiles and arcs: each of them, or one in so many.
    let families = [
        (1, 2, 2, 1),
        (2, 2, 2, size.of(19, 1, 1)),
        (2, 3, 3, size.of(101, 13, 1)),
        (3, 3, 3, size.of(4_999, 199, 1)),
        (4, 2, 4, size.of(199_999, 4_999, 97)),
    ];
    for (len, tiles, arcs, one_in) in families {
        let nodes = every_node(tiles, arcs);
        for number in (0..nodes.len().pow(len)).step_by(one_in) {
            let graph = nth(&nodes, len, number);
            all_calls(checker, random, graph.clone(), Nodes::Every);
            short_words(checker, random, &Graph::new(graph), len.max(2) - 1);
        }
    }
}
