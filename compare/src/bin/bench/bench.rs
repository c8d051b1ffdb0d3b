//! A graph with the Rust's form of it, and the buffers that the engine is lent. Both sides do what a caller of theirs has to do: the
//! engine is lent buffers that are made beforehand, the Rust allocates its answers. Each answer is compared before it is timed.

use compare::rust_side::{self, Graph};

pub struct Bench {
    pub nodes: Vec<u32>,
    pub rust: Graph,
    pub work: Vec<u32>,
    pub counts: Vec<u32>,
    pub file: Vec<u8>,
}

impl Bench {
    pub fn new(nodes: Vec<u32>) -> Self {
        let n = nodes.len();
        Self {
            rust: rust_side::graph_of(&nodes),
            work: vec![1; 8 * n],
            counts: vec![1; n],
            file: vec![1; 8 * n + 4096],
            nodes,
        }
    }
}

/// A row of the table in docs/SPEED.md.
pub fn row(name: &str, (ours, rust): (f64, f64)) {
    println!(
        "| {name} | {:.3} | {:.3} | {:.2} |",
        ours * 1e3,
        rust * 1e3,
        ours / rust
    );
}
