//! The words themselves, for graphs that have few: "for each node of the run in order, its tile alone if it accepts; then, where its arc
//! is not 0, its tile before each word from the arc."

use super::runs::run;

/// The words from p, in order. Only where no loop is reached.
pub fn words(nodes: &[u32], p: usize) -> Vec<Vec<u8>> {
    let mut all = Vec::new();
    for node in run(nodes, p) {
        if node.accepts {
            all.push(vec![node.tile]);
        }
        if node.arc != 0 {
            let longer = words(nodes, node.arc as usize);
            all.extend(longer.iter().map(|word| [&[node.tile], &word[..]].concat()));
        }
    }
    all
}
