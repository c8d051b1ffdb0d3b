// The list `loading`.

use super::super::layout::{Fields, LAYOUTS, Layout};
use super::super::samples::{bytes_of, damaged, empty_graph, graph, random_bytes};
use super::LOAD;
use crate::random::Random;
use crate::requests::Requests;

// The least tile that a file may not have, which only KWG can hold.
const MISFIT_TILE: u8 = 64;

pub fn requests(requests: &mut Requests) {
    requests.comment("call 5: a file loaded");
    lengths(requests);
    graphs(requests);
    damaged_graphs(requests);
    one_node(requests);
    tiles(requests);
    arcs(requests);
    ends(requests);
    faults_together(requests);
    random_graphs(requests);
    long_graphs(requests);
}

fn ask(requests: &mut Requests, layout: Layout, bytes: &[u8]) {
    let mut numbers = vec![LOAD, layout.number(), bytes.len() as u64];
    numbers.extend(bytes.iter().map(|&byte| u64::from(byte)));
    requests.ask(&numbers);
}

fn ask_nodes(requests: &mut Requests, layout: Layout, nodes: &[Fields]) {
    ask(requests, layout, &file_of(layout, nodes));
}

fn file_of(layout: Layout, nodes: &[Fields]) -> Vec<u8> {
    let words: Vec<u32> = nodes
        .iter()
        .map(|node| layout.pack(node).expect("the node fits its own layout"))
        .collect();
    bytes_of(&words)
}

fn largest_arc(layout: Layout) -> i32 {
    match layout {
        Layout::Kwg => (1 << 22) - 1,
        Layout::Kbwg => (1 << 24) - 1,
    }
}

// Nodes that load: every arc leads to one of them, and the last ends its run.
fn random_nodes(random: &mut Random, len: usize) -> Vec<Fields> {
    let mut nodes: Vec<Fields> = (0..len)
        .map(|_| Fields {
            tile: random.within(0, MISFIT_TILE.into()) as u8,
            accepts: random.flag(),
            is_end: random.flag(),
            arc_index: random.within(0, len as u64) as i32,
        })
        .collect();
    nodes[len - 1].is_end = true;
    nodes
}

// First, in the middle and last.
fn places(len: usize) -> Vec<usize> {
    let mut places = vec![0, len / 2, len - 1];
    places.dedup();
    places
}

// Every length, of any bytes and of zeros.
fn lengths(requests: &mut Requests) {
    let mut random = Random::new(6);
    for layout in LAYOUTS {
        for len in 0..=40 {
            ask(requests, layout, &random_bytes(&mut random, len));
            ask(requests, layout, &vec![0; len]);
        }
    }
}

// Good graphs, also read in the wrong layout, cut short at every byte and with
// more after them.
fn graphs(requests: &mut Requests) {
    let graphs = [LAYOUTS.map(graph), LAYOUTS.map(empty_graph)];
    for layout in LAYOUTS {
        for graph in graphs.as_flattened() {
            for len in 0..=graph.len() {
                ask(requests, layout, &graph[..len]);
            }
            let mut longer = graph.clone();
            for byte in [0x40, 0, 0x40, 0] {
                longer.push(byte);
                ask(requests, layout, &longer);
            }
        }
    }
}

fn damaged_graphs(requests: &mut Requests) {
    for layout in LAYOUTS {
        for bytes in damaged(&graph(layout)) {
            ask(requests, layout, &bytes);
        }
    }
}

fn one_node(requests: &mut Requests) {
    for layout in LAYOUTS {
        for tile in [0, 1, 63, 64, 255] {
            for arc_index in [0, 1, 2, largest_arc(layout)] {
                for (accepts, is_end) in
                    [(false, false), (false, true), (true, false), (true, true)]
                {
                    let node = Fields {
                        tile,
                        accepts,
                        is_end,
                        arc_index,
                    };
                    // KBWG itself cannot hold the two last tiles.
                    if layout.pack(&node).is_some() {
                        ask_nodes(requests, layout, &[node]);
                    }
                }
            }
        }
    }
}

// Tiles about the largest that fits, in a graph that is good but for them.
fn tiles(requests: &mut Requests) {
    let mut random = Random::new(7);
    for len in [1, 2, 3, 5, 8] {
        for place in places(len) {
            for tile in [62, 63, 64, 65, 127, 128, 192, 255] {
                let mut nodes = random_nodes(&mut random, len);
                nodes[place].tile = tile;
                ask_nodes(requests, Layout::Kwg, &nodes);
            }
        }
    }
}

// Arcs about the node count, and the largest of the layout; then two that are
// too large, of which the larger comes first or last.
fn arcs(requests: &mut Requests) {
    let mut random = Random::new(8);
    for layout in LAYOUTS {
        for len in [1, 2, 3, 5, 17] {
            let count = len as i32;
            let largest = largest_arc(layout);
            for place in places(len) {
                for arc in [count - 1, count, count + 1, largest - 1, largest] {
                    let mut nodes = random_nodes(&mut random, len);
                    nodes[place].arc_index = arc;
                    ask_nodes(requests, layout, &nodes);
                }
            }
            for (first, last) in [(count, count), (count, count + 1), (count + 1, count)] {
                let mut nodes = random_nodes(&mut random, len);
                nodes[len - 1].arc_index = last;
                nodes[0].arc_index = first;
                ask_nodes(requests, layout, &nodes);
            }
        }
    }
}

// Every choice of which nodes end their runs.
fn ends(requests: &mut Requests) {
    let mut random = Random::new(9);
    for layout in LAYOUTS {
        for len in 1..=4 {
            for choice in 0..1 << len {
                let mut nodes = random_nodes(&mut random, len);
                for (place, node) in nodes.iter_mut().enumerate() {
                    node.is_end = choice >> place & 1 == 1;
                }
                ask_nodes(requests, layout, &nodes);
            }
        }
    }
}

// Every set of these faults, which shows which of them is named: an arc that is
// too large before and after a tile that does not fit, another such tile, a
// last node without an end, and a part node after it.
fn faults_together(requests: &mut Requests) {
    let mut random = Random::new(10);
    for layout in LAYOUTS {
        for faults in 0..1 << 6 {
            let has = |fault: u32| faults >> fault & 1 == 1;
            let mut nodes = random_nodes(&mut random, 5);
            if has(0) {
                nodes[0].arc_index = 5;
            }
            if has(1) {
                nodes[4].arc_index = largest_arc(layout);
            }
            if layout == Layout::Kwg && has(2) {
                nodes[1].tile = MISFIT_TILE;
            }
            if layout == Layout::Kwg && has(3) {
                nodes[3].tile = 255;
            }
            nodes[4].is_end = !has(4);
            let mut bytes = file_of(layout, &nodes);
            if has(5) {
                bytes.extend([0x40, 0]);
            }
            ask(requests, layout, &bytes);
        }
    }
}

// Good ones; ones with arcs that may be a little too large; and ones with any
// of the faults, each seldom.
fn random_graphs(requests: &mut Requests) {
    let mut random = Random::new(11);
    for layout in LAYOUTS {
        for len in 2..=60 {
            ask_nodes(requests, layout, &random_nodes(&mut random, len));

            let mut nodes = random_nodes(&mut random, len);
            let place = random.within(0, len as u64) as usize;
            nodes[place].arc_index = random.within(len as u64 - 1, len as u64 + 3) as i32;
            ask_nodes(requests, layout, &nodes);

            let mut nodes = random_nodes(&mut random, len);
            for node in &mut nodes {
                if layout == Layout::Kwg && random.within(0, 80) == 0 {
                    node.tile = random.within(MISFIT_TILE.into(), 256) as u8;
                }
                if random.within(0, 80) == 0 {
                    node.arc_index = random.within(0, 2 * len as u64) as i32;
                }
            }
            nodes[len - 1].is_end = random.within(0, 3) > 0;
            ask_nodes(requests, layout, &nodes);
        }
    }
}

// Good, with the last arc too large, and with a last node that has no end; in
// KWG also with a tile that does not fit near the end.
fn long_graphs(requests: &mut Requests) {
    let mut random = Random::new(12);
    let len = 2000;
    for layout in LAYOUTS {
        let mut nodes = random_nodes(&mut random, len);
        ask_nodes(requests, layout, &nodes);
        nodes[len - 1].arc_index = len as i32;
        ask_nodes(requests, layout, &nodes);
    }
    let mut nodes = random_nodes(&mut random, len - 1);
    nodes[len - 2].is_end = false;
    ask_nodes(requests, Layout::Kbwg, &nodes);
    nodes[len - 3].tile = MISFIT_TILE;
    ask_nodes(requests, Layout::Kwg, &nodes);
}
