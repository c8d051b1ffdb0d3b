//! Loops of many shapes. A shape is a list of runs whose arcs name runs, wherever these stand: the numbering is chosen apart from it, since in each
//! a walk comes upon the same loop in another way.

use super::shuffled;
use crate::lexicon::node;
use crate::random::Random;

/// Where the arc of a node leads: to a run, so many nodes from its first; or nowhere.
pub type To = Option<(usize, usize)>;

/// Runs, each a list of arcs, one for each of its nodes.
pub type Shape = Vec<Vec<To>>;

/// The graph of a shape: node 0, which leads to run 0, and then the runs in this order. The last node of a run accepts.
pub fn placed(shape: &Shape, order: &[usize]) -> Vec<u32> {
    let mut firsts = vec![0; shape.len()];
    let mut next = 1;
    for &run in order {
        firsts[run] = next;
        next += shape[run].len();
    }
    let place = |to: To| to.map_or(0, |(run, at)| firsts[run] + at) as u32;
    let mut nodes = vec![node(0, false, true, place(Some((0, 0))))];
    for &run in order {
        let last = shape[run].len() - 1;
        let arcs = shape[run].iter().enumerate();
        nodes.extend(arcs.map(|(at, &to)| node(1 + at as u8, at == last, at == last, place(to))));
    }
    nodes
}

/// The graph of a shape with its runs in order.
pub fn in_order(shape: &Shape) -> Vec<u32> {
    let order: Vec<usize> = (0..shape.len()).collect();
    placed(shape, &order)
}

/// The runs in order, the other way round, and shuffled; the first few stay in front.
pub fn orders(random: &mut Random, in_front: usize, runs: usize) -> [Vec<usize>; 3] {
    let others = runs - in_front;
    let orders = [
        (0..others).collect(),
        (0..others).rev().collect(),
        shuffled(random, others),
    ];
    orders.map(|order| {
        let behind = order.into_iter().map(|run| in_front + run);
        (0..in_front).chain(behind).collect()
    })
}

fn first(run: usize) -> To {
    Some((run, 0))
}

/// So many nodes in one loop.
pub fn one_loop(len: usize) -> Shape {
    small_loops(len, len)
}

/// Loops of so many nodes each, side by side: of one, every node leads to itself.
pub fn small_loops(len: usize, each: usize) -> Shape {
    let next = |at: usize| match (at + 1) % each {
        0 => at + 1 - each,
        _ => at + 1,
    };
    (0..len - len % each)
        .map(|at| vec![first(next(at))])
        .collect()
}

/// A way on which every run leads on and back: to the run before, to one half as far, to the first, or to any before.
pub fn nested(random: &mut Random, runs: usize, back: fn(&mut Random, usize) -> usize) -> Shape {
    (0..runs)
        .map(|at| {
            let on = first(at + 1).filter(|_| at + 1 < runs);
            vec![first(back(random, at)).filter(|_| at > 0), on]
        })
        .collect()
}

/// The ways back that `nested` takes.
pub const BACK: [fn(&mut Random, usize) -> usize; 4] = [
    |_, at| at.saturating_sub(1),
    |_, at| at / 2,
    |_, _| 0,
    |random, at| random.within(0, at.max(1) as u64) as usize,
];

/// A deep way, of which each run also leads to a leaf that leads back to it; the end leads to the start, so that all is one loop. The leaf is met
/// before the way on, or after it.
pub fn with_leaves(runs: usize, leaf_first: bool) -> Shape {
    let way = (0..runs).map(|at| {
        let (on, leaf) = (first((at + 1) % runs), first(runs + at));
        match leaf_first {
            true => vec![leaf, on],
            false => vec![on, leaf],
        }
    });
    way.chain((0..runs).map(|at| vec![first(at)])).collect()
}

/// Loops of three runs, each of which leads to the next loop by a bridge. The bridges, as many as loops, come first and do not loop.
pub fn bridged(loops: usize) -> Shape {
    let at = |number: usize| loops + 3 * number;
    let bridges =
        (0..loops).map(|number| vec![first(at(number + 1)).filter(|_| number + 1 < loops)]);
    let rings = (0..loops).flat_map(|number| {
        let ring = at(number);
        [
            vec![first(ring + 1)],
            vec![first(ring + 2), first(number)],
            vec![first(ring)],
        ]
    });
    bridges.chain(rings).collect()
}

/// A tail of so many runs into a loop of three, and one of as many out of it.
pub fn tails(runs: usize) -> Shape {
    let ring = 2 * runs;
    let into = (0..runs).map(|at| vec![first(if at + 1 < runs { at + 1 } else { ring })]);
    let out = (runs..ring).map(|at| vec![first(at + 1).filter(|_| at + 1 < ring)]);
    let looping = [
        vec![first(ring + 1)],
        vec![first(runs), first(ring + 2)],
        vec![first(ring)],
    ];
    into.chain(out).chain(looping).collect()
}

/// Runs of four in a loop that each enters the next at this node: those before it do not loop.
pub fn entered(runs: usize, at: usize) -> Shape {
    (0..runs)
        .map(|run| {
            let mut arcs = vec![None; 4];
            arcs[3] = Some(((run + 1) % runs, at));
            arcs
        })
        .collect()
}

/// Two loops of so many nodes. Node 0 leads to one, which the last node is in too; the other has the lower node, and so is found later from
/// either end.
pub fn lower_found_later(len: usize) -> Vec<u32> {
    let mut order: Vec<usize> = (0..2 * len).collect();
    order.rotate_left(len);
    order.swap(1, len);
    placed(&small_loops(2 * len, len), &order)
}

/// The node at p and the one at p from the end lead to each other, but for the first eighth: those lead on, and the last of them to a pair that is
/// not the lowest.
pub fn pairs_from_both_ends(len: u32) -> Vec<u32> {
    let arc = |p: u32| match p {
        0 => 1,
        p if p + 1 < len / 8 => p + 1,
        p if p + 1 == len / 8 => len - len / 4,
        p => len - p,
    };
    (0..len).map(|p| node(1, true, true, arc(p))).collect()
}

/// A loop, and runs with more words than can be counted, which the loop may lead to.
pub fn beside_too_many(reached: bool) -> Shape {
    let ring = 40;
    let doubled = (0..ring).map(|at| vec![first(at + 1).filter(|_| at + 1 < ring); 2]);
    let looping = [
        vec![first(ring + 1)],
        vec![first(ring + 2), first(0).filter(|_| reached)],
        vec![first(ring)],
    ];
    doubled.chain(looping).collect()
}

/// Runs of two with arcs anywhere, into their middle too. Of a hundred nodes so many have an arc.
pub fn random_runs(random: &mut Random, runs: usize, percent: u64) -> Shape {
    let mut arc = || {
        let to = (
            random.within(0, runs as u64) as usize,
            random.within(0, 2) as usize,
        );
        Some(to).filter(|_| random.within(0, 100) < percent)
    };
    (0..runs).map(|_| vec![arc(), arc()]).collect()
}
