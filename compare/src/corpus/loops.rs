//! Loops, counted only: every small graph, shapes of loops in several numberings, and random ones. Refusal 12 names the lowest node that loops; in many
//! of these a walk first comes upon another.

use super::Size;
use crate::checker::{Checker, Graph};
use crate::graphs::loops::{self, BACK, Shape, in_order, orders, placed};
use crate::graphs::{every_node, nth, wild};
use crate::random::Random;

pub fn run(checker: &mut Checker, size: Size, random: &mut Random) {
    small_graphs(checker, size);
    for &runs in size.of(
        &[2, 3, 7][..],
        &[2, 3, 7, 50, 900],
        &[2, 3, 7, 50, 900, 5_000],
    ) {
        for shape in shapes(random, runs) {
            in_each_order(checker, random, 0, &shape);
        }
        in_each_order(checker, random, runs, &loops::bridged(runs));
        count(checker, loops::lower_found_later(runs));
        count(checker, loops::pairs_from_both_ends(2 * runs as u32));
    }
    for reached in [true, false] {
        in_each_order(checker, random, 0, &loops::beside_too_many(reached));
    }
    for _ in 0..size.of(40, 2_000, 60_000) {
        random_graphs(checker, random);
    }
    if size == Size::Full {
        at_scale(checker, random);
    }
}

fn count(checker: &mut Checker, nodes: Vec<u32>) {
    let len = nodes.len();
    checker.count_words(&Graph::new(nodes), len, 2 * len);
}

// The first few runs stay in front.
fn in_each_order(checker: &mut Checker, random: &mut Random, in_front: usize, shape: &Shape) {
    for order in orders(random, in_front, shape.len()) {
        count(checker, placed(shape, &order));
    }
}

// Every graph of so many nodes, or one in so many; with accepting nodes where they are few.
fn small_graphs(checker: &mut Checker, size: Size) {
    let families = [
        (2, true, 1),
        (3, true, 1),
        (4, false, size.of(17, 1, 1)),
        (5, false, size.of(499, 97, 1)),
        (6, false, size.of(9_973, 997, 31)),
    ];
    for (len, accepting, one_in) in families {
        let mut nodes = every_node(1, len);
        nodes.retain(|word| accepting || word & 0x80 == 0);
        for number in (0..nodes.len().pow(len)).step_by(one_in) {
            count(checker, nth(&nodes, len, number));
        }
    }
}

// Each of at least so many runs.
fn shapes(random: &mut Random, runs: usize) -> Vec<Shape> {
    let mut shapes = vec![
        loops::one_loop(runs),
        loops::with_leaves(runs, true),
        loops::with_leaves(runs, false),
        loops::bridged(runs),
        loops::tails(runs),
    ];
    shapes.extend((1..4).map(|each| loops::small_loops(6 * runs, each)));
    shapes.extend(BACK.map(|back| loops::nested(random, runs, back)));
    shapes.extend((1..4).map(|at| loops::entered(runs, at)));
    shapes
}

// Of a hundred nodes so many have an arc: from few nodes that loop to one loop of nearly all.
const PERCENT: [u64; 6] = [5, 20, 40, 55, 75, 100];

fn random_graphs(checker: &mut Checker, random: &mut Random) {
    let (runs, percent) = (random.within(2, 30) as usize, random.pick(&PERCENT));
    let shape = loops::random_runs(random, runs, percent);
    in_each_order(checker, random, 0, &shape);
    let len = random.within(2, 60) as usize;
    count(checker, wild(random, len, 2));
}

const MILLION: usize = 1_000_000;
const LARGEST: u32 = 1 << 24;

// A shuffled tail out of a loop is left to the smaller sizes: the paper's counting goes along it a few nodes at a time.
fn at_scale(checker: &mut Checker, random: &mut Random) {
    for shape in [
        loops::one_loop(MILLION),
        loops::with_leaves(MILLION / 3, true),
        loops::nested(random, MILLION / 2, BACK[3]),
    ] {
        in_each_order(checker, random, 0, &shape);
    }
    let bridges = MILLION / 5;
    in_each_order(checker, random, bridges, &loops::bridged(bridges));
    let tails = loops::tails(MILLION / 2);
    for order in &orders(random, 0, tails.len())[..2] {
        count(checker, placed(&tails, order));
    }
    for percent in PERCENT {
        let shape = loops::random_runs(random, MILLION / 2, percent);
        count(checker, in_order(&shape));
    }
    count(checker, loops::lower_found_later(MILLION / 2));
    count(checker, loops::pairs_from_both_ends(LARGEST));
}
