//! Graphs that are made to be slow, at N, 2N and 4N nodes: the time for each node must not grow. The Rust has no column here: on the first
//! kind its time doubles with every run.

use crate::clock::fastest;
use compare::graphs::loops::{self, BACK, Shape, in_order};
use compare::graphs::without_words;
use compare::lexicon::node;
use compare::random::Random;
use compare::windows1252::gained;
use machirsun::Format;

const TILES: u32 = 40;

pub fn print() {
    println!("| | N | ns, N | ns, 2N | ns, 4N |");
    println!("|---|---|---|---|---|");
    grows(
        "count, shared empty runs",
        [25_000, 50_000, 100_000].map(without_words),
        count,
    );
    grows(
        "count, runs entered everywhere",
        [1_000, 2_000, 4_000].map(entered_runs),
        count,
    );
    loops_of("count, one long loop", loops::one_loop);
    loops_of("count, loops of three", |nodes| {
        loops::small_loops(nodes, 3)
    });
    loops_of("count, loops inside loops", |nodes| {
        loops::nested(&mut Random::new(1), nodes / 2, BACK[1])
    });
    loops_of("count, a deep way with leaves, all one loop", |nodes| {
        loops::with_leaves(nodes / 3, true)
    });
    grows(
        "Macondo, runs entered everywhere",
        [1_000, 2_000, 4_000].map(entered_runs),
        macondo,
    );
    grows(
        "LXD, runs entered everywhere",
        [1_000, 2_000, 4_000].map(entered_runs),
        lxd,
    );
    grows(
        "LXD, the same under letters that ISO/IEC 8859-1 lacks",
        [1_000, 2_000, 4_000].map(entered_runs),
        lxd_of_the_table,
    );
    grows(
        "Macondo, 15k, 30k, 60k letter sets",
        [15_000, 30_000, 60_000].map(letter_sets),
        macondo,
    );
}

// Graphs of some 50,000, 100,000 and 200,000 nodes, their runs in order.
fn loops_of(name: &str, shape: fn(usize) -> Shape) {
    let graphs = [50_000, 100_000, 200_000].map(|nodes| in_order(&shape(nodes)));
    grows(name, graphs, refuse_loop);
}

fn grows(name: &str, graphs: [Vec<u32>; 3], call: fn(&[u32], &mut Lent)) {
    print!("| {name} | {} |", graphs[0].len());
    for graph in &graphs {
        let mut lent = Lent::new(graph.len());
        let time = fastest(|| call(graph, &mut lent));
        print!(" {:.1} |", time * 1e9 / graph.len() as f64);
    }
    println!();
}

struct Lent {
    work: Vec<u32>,
    counts: Vec<u32>,
    file: Vec<u8>,
}

impl Lent {
    // A run of 40 nodes that is entered everywhere takes some 20 times its nodes in a file.
    fn new(nodes: usize) -> Self {
        Self {
            work: vec![1; 8 * nodes],
            counts: vec![1; nodes],
            file: vec![1; 100 * nodes + 4096],
        }
    }
}

fn count(nodes: &[u32], lent: &mut Lent) {
    machirsun::count_words(nodes, &mut lent.counts, &mut lent.work).expect("the words are counted");
}

fn refuse_loop(nodes: &[u32], lent: &mut Lent) {
    let refused = machirsun::count_words(nodes, &mut lent.counts, &mut lent.work);
    assert_eq!(refused.expect_err("the graph loops").number(), 12);
}

fn labels() -> Vec<u32> {
    (0x41..0x41 + TILES + 1).collect()
}

fn macondo(nodes: &[u32], lent: &mut Lent) {
    machirsun::to_macondo(
        nodes,
        &labels(),
        b"H",
        Format::Dawg,
        &mut lent.work,
        &mut lent.file,
    )
    .expect("the file is written");
}

fn lxd(nodes: &[u32], lent: &mut Lent) {
    lxd_under(&labels(), nodes, lent);
}

fn lxd_of_the_table(nodes: &[u32], lent: &mut Lent) {
    let labels: Vec<u32> = gained().cycle().take(labels().len()).collect();
    lxd_under(&labels, nodes, lent);
}

fn lxd_under(labels: &[u32], nodes: &[u32], lent: &mut Lent) {
    machirsun::to_lxd(nodes, labels, &[], &[], &mut lent.work, &mut lent.file)
        .expect("the file is written");
}

// A lone node, as the first two of a file.
fn head(arc: u32) -> u32 {
    node(0, false, true, arc)
}

// So many runs of 40 nodes, and beside each as many lone nodes, which lead to each of its nodes: each of these has a run of its own. The start
// leads to everything through a tree.
fn entered_runs(runs: u32) -> Vec<u32> {
    let mut graph = vec![head(0), head(0)];
    let mut tops = Vec::new();
    for _ in 0..runs {
        let first = graph.len() as u32;
        graph.extend((1..=TILES).map(|tile| node(tile as u8, true, tile == TILES, 0)));
        tops.push(graph.len() as u32);
        graph.extend(
            (1..=TILES).map(|tile| node(tile as u8, false, tile == TILES, first + tile - 1)),
        );
    }
    under_one_start(graph, tops)
}

// So many runs, each with its own accepting letters. They agree in the letters of the lowest ranks, by which the search in the writer's tree of
// sets begins.
fn letter_sets(sets: u32) -> Vec<u32> {
    let mut graph = vec![head(0), head(0)];
    let mut tops = Vec::new();
    for set in 0..sets {
        tops.push(graph.len() as u32);
        graph.push(node(1, true, false, 0));
        for bit in 0..16 {
            if set >> bit & 1 == 1 {
                graph.push(node(24 + bit, true, false, 0));
            }
        }
        graph.push(node(TILES as u8, true, true, 0));
    }
    under_one_start(graph, tops)
}

// Runs of arcs, 40 at a time, until one leads to all.
fn under_one_start(mut graph: Vec<u32>, mut tops: Vec<u32>) -> Vec<u32> {
    while tops.len() > 1 {
        let mut above = Vec::new();
        for group in tops.chunks(TILES as usize) {
            above.push(graph.len() as u32);
            for (tile, &to) in (1..).zip(group) {
                graph.push(node(tile, false, usize::from(tile) == group.len(), to));
            }
        }
        tops = above;
    }
    graph[0] = head(tops[0]);
    graph
}
