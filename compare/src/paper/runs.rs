//! Runs and what is reached from a start: "The run from node p is p, p+1, .. up to the first end node. Arc 0 means no arc."

use super::nodes::{Node, kbwg};
use std::collections::BTreeSet;

/// The run from p, or what there is of it up to the last node.
pub fn run(nodes: &[u32], p: usize) -> Vec<Node> {
    let rest = nodes[p..].iter().map(|&word| kbwg(word));
    let mut run = Vec::new();
    for node in rest {
        run.push(node);
        if node.end {
            break;
        }
    }
    run
}

/// "Runs ascend when each node that is not an end has a lower tile than the node after it."
pub fn ascend(nodes: &[u32]) -> bool {
    nodes
        .windows(2)
        .map(|pair| (kbwg(pair[0]), kbwg(pair[1])))
        .all(|(node, next)| node.end || node.tile < next.tile)
}

pub fn tiles_have_labels(nodes: &[u32], labels: usize) -> bool {
    nodes
        .iter()
        .all(|&word| usize::from(kbwg(word).tile) < labels)
}

/// "The start node s is node 0's arc, for a Macondo gaddag node 1's arc; if that is 0, s is node 0".
pub fn start(nodes: &[u32], head: usize) -> usize {
    kbwg(nodes[head]).arc as usize
}

/// The runs that a chain of arcs from the start comes to as its 1st, 2nd, .. and 65th.
fn by_chain(nodes: &[u32], start: usize) -> Vec<BTreeSet<usize>> {
    let mut levels = vec![BTreeSet::from([start])];
    while levels.len() <= 64 {
        let last = &levels[levels.len() - 1];
        let arcs = last.iter().flat_map(|&p| run(nodes, p));
        levels.push(
            arcs.map(|node| node.arc as usize)
                .filter(|&arc| arc != 0)
                .collect(),
        );
    }
    levels
}

/// "22+ over 64 runs, each reached by an arc of the one before, from the start"
pub fn chain_over_64(nodes: &[u32], start: usize) -> bool {
    !by_chain(nodes, start)[64].is_empty()
}

/// Every place from which a run is reached, where no chain is over 64.
pub fn reached_runs(nodes: &[u32], start: usize) -> BTreeSet<usize> {
    by_chain(nodes, start).into_iter().flatten().collect()
}
