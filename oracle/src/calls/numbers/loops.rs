// Graphs that loop: every one of three nodes, by arcs and ends, and loops of many
// shapes, whose lowest node is often not the one that a walk comes back to.

use super::super::graphs::{kwg_of, pack_all};
use super::super::layout::Fields;
use crate::random::Random;

pub fn graphs() -> Vec<Vec<Fields>> {
    let shapes = SHAPES
        .iter()
        .map(|runs| of_runs(runs.iter().map(|run| run.to_vec())));
    let mut all = of_three_nodes();
    all.extend(shapes);
    all.extend(random_graphs());
    all.retain(|nodes| kwg_of(&pack_all(nodes)).count_words_alloc().is_err());
    all
}

fn of_three_nodes() -> Vec<Vec<Fields>> {
    let node = |number: usize| Fields {
        tile: 0,
        accepts: false,
        is_end: number >= 3,
        arc_index: (number % 3) as i32,
    };
    // The last node ends its run.
    (0..6 * 6 * 3)
        .map(|number| {
            vec![
                node(number % 6),
                node(number / 6 % 6),
                node(number / 36 + 3),
            ]
        })
        .collect()
}

// A graph is a list of runs, a run a list of arcs, each the place of a node.
const SHAPES: &[&[&[i32]]] = &[
    // One loop, in order, the other way round, and shuffled above node 1.
    &[&[1], &[2], &[3], &[4], &[5], &[1]],
    &[&[5], &[5], &[1], &[2], &[3], &[4]],
    &[&[4], &[0], &[5], &[6], &[2], &[3], &[4]],
    // Nodes that lead to themselves, and a pair; nodes 1 and 2 lead to such.
    &[&[4], &[5], &[3], &[3], &[6], &[5], &[4]],
    // Pairs, one around the other; node 1 leads to one.
    &[&[6], &[3], &[0], &[7], &[6], &[0], &[4], &[3]],
    // Loops of three, the first entered in its middle.
    &[&[5], &[0], &[5], &[8], &[3], &[7], &[0], &[2], &[4]],
    // Loops inside loops.
    &[&[3], &[3], &[0], &[5, 7], &[3, 7], &[5, 0]],
    &[&[8], &[0], &[0, 4], &[2, 6], &[2, 8], &[2, 0]],
    // Loops one after the other. Nodes 1 and 2 lead from loop to loop and do not
    // loop.
    &[
        &[4],
        &[7],
        &[10],
        &[0],
        &[5],
        &[4, 1],
        &[8],
        &[7, 2],
        &[11],
        &[10],
    ],
    &[
        &[9],
        &[6],
        &[4],
        &[0],
        &[5],
        &[4],
        &[7],
        &[6, 2],
        &[10],
        &[9, 1],
    ],
    // A loop of three runs with a way into it and one out of it.
    &[
        &[1],
        &[2],
        &[3],
        &[7],
        &[5],
        &[6],
        &[0],
        &[8],
        &[4, 10],
        &[7],
    ],
    &[
        &[10],
        &[0],
        &[1],
        &[2],
        &[5],
        &[3, 7],
        &[4],
        &[5],
        &[8],
        &[9],
    ],
    // Runs entered in their middle: what stands before it does not loop.
    &[&[1], &[0, 0, 0, 7], &[0, 0, 0, 3]],
    &[&[1], &[0, 0, 2], &[2]],
    &[&[2], &[6], &[0, 0, 5], &[3, 0]],
    // Two loops, of which the one with the lower node is found later from either
    // end.
    &[&[3], &[4], &[6], &[5], &[1], &[2], &[3]],
    // A way whose every run also leads to a node that leads back.
    &[&[1], &[7, 3], &[8, 5], &[9, 1], &[1], &[3], &[5]],
    &[&[8], &[4], &[6], &[8], &[1, 6], &[2, 8], &[3, 4]],
];

fn of_runs(runs: impl Iterator<Item = Vec<i32>>) -> Vec<Fields> {
    runs.flat_map(|run| {
        let last = run.len() - 1;
        run.into_iter()
            .enumerate()
            .map(move |(at, arc_index)| Fields {
                tile: 1 + at as u8,
                accepts: at == last,
                is_end: at == last,
                arc_index,
            })
    })
    .collect()
}

// Runs of two with arcs anywhere, from few to one for each node.
fn random_graphs() -> Vec<Vec<Fields>> {
    let mut random = Random::new(31);
    let mut all = Vec::new();
    for runs in 2..=8 {
        for percent in [30, 50, 70, 100] {
            for _ in 0..4 {
                let mut arc = || match random.within(0, 100) < percent {
                    true => random.within(1, 2 * runs) as i32,
                    false => 0,
                };
                all.push(of_runs((0..runs).map(|_| vec![arc(), arc()])));
            }
        }
    }
    all
}
