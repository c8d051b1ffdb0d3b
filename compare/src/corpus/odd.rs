//! Random graphs in odd numberings, with arcs into the middle of runs, and with loops.

use super::Size;
use super::all_calls::{Nodes, all_calls};
use crate::checker::Checker;
use crate::graphs::{odd, wild};
use crate::random::Random;

pub fn run(checker: &mut Checker, size: Size, random: &mut Random) {
    for _ in 0..size.of(3, 60, 3000) {
        let tiles = [2, 4, 50, 64][random.within(0, 4) as usize];
        let len = random.within(2, 40) as usize;
        let runs = random.within(1, 12) as usize;
        let graphs = [
            wild(random, len, tiles),
            odd(random, runs, tiles, false),
            odd(random, runs, tiles, true),
            odd(random, runs * 8, tiles.min(50), true),
        ];
        for graph in graphs {
            all_calls(checker, random, graph, Nodes::Some(10));
        }
    }
}
