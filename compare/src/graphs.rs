//! Graphs that no lexicon gives: every small one, odd numberings, loops, chains, and counts up to the limit.

pub mod loops;

use crate::lexicon::node;
use crate::random::Random;

/// Every node with these tiles and arcs.
pub fn every_node(tiles: u8, arcs: u32) -> Vec<u32> {
    let mut all = Vec::new();
    for tile in 0..tiles {
        for arc in 0..arcs {
            for flags in 0..4 {
                all.push(node(tile, flags & 1 == 1, flags & 2 == 2, arc));
            }
        }
    }
    all
}

/// The graph of this number among all graphs of so many of the nodes.
pub fn nth(nodes: &[u32], len: u32, number: usize) -> Vec<u32> {
    let digit = |place: u32| number / nodes.len().pow(place) % nodes.len();
    (0..len).map(|place| nodes[digit(place)]).collect()
}

/// Nodes with arcs anywhere, also past the end at times: most such graphs loop.
pub fn wild(random: &mut Random, len: usize, tiles: u64) -> Vec<u32> {
    let past = u64::from(random.within(0, 10) == 0);
    let arc_or_none = |random: &mut Random| match random.within(0, 3) {
        0 => 0,
        _ => random.within(0, len as u64 + past) as u32,
    };
    let mut nodes: Vec<u32> = (0..len)
        .map(|_| {
            let arc = arc_or_none(random);
            let tile = random.within(0, tiles) as u8;
            node(tile, random.flag(), random.flag(), arc)
        })
        .collect();
    if random.within(0, 20) > 0 {
        nodes[len - 1] |= 0x40;
    }
    nodes
}

/// The numbers below this one, shuffled.
pub fn shuffled(random: &mut Random, len: usize) -> Vec<usize> {
    let mut order: Vec<usize> = (0..len).collect();
    for at in (1..len).rev() {
        order.swap(at, random.within(0, at as u64 + 1) as usize);
    }
    order
}

/// Runs in an order of their own: an arc leads into a run that is later in that order, often to its middle, and the runs stand in the
/// graph as they come. Nothing loops. The tiles of a run ascend, or are any.
pub fn odd(random: &mut Random, runs: usize, tiles: u64, ascending: bool) -> Vec<u32> {
    let order = shuffled(random, runs);
    let lens: Vec<u64> = (0..runs)
        .map(|_| random.within(1, tiles.min(6) + 1))
        .collect();
    let mut firsts = vec![0u64; runs];
    let mut next = 2;
    for &run in &order {
        firsts[run] = next;
        next += lens[run];
    }
    let mut nodes = vec![node(0, false, true, 0); next as usize];
    for run in 0..runs {
        let tiles = run_tiles(random, lens[run], tiles, ascending);
        for (at, tile) in (0..).zip(tiles) {
            let arc = later_arc(random, run, &firsts, &lens);
            let end = at + 1 == lens[run];
            nodes[(firsts[run] + at) as usize] = node(tile, random.flag(), end, arc);
        }
    }
    for head in 0..2 {
        nodes[head] = node(
            0,
            random.within(0, 9) == 0,
            true,
            firsts[head.min(runs - 1)] as u32,
        );
    }
    nodes
}

fn run_tiles(random: &mut Random, len: u64, tiles: u64, ascending: bool) -> Vec<u8> {
    if !ascending {
        return (0..len).map(|_| random.within(0, tiles) as u8).collect();
    }
    let mut chosen = std::collections::BTreeSet::new();
    while (chosen.len() as u64) < len {
        chosen.insert(random.within(0, tiles) as u8);
    }
    chosen.into_iter().collect()
}

fn later_arc(random: &mut Random, run: usize, firsts: &[u64], lens: &[u64]) -> u32 {
    let to = run + random.within(1, 4) as usize;
    if to >= firsts.len() || random.within(0, 5) == 0 {
        return 0;
    }
    let middle = match random.within(0, 3) {
        0 => random.within(0, lens[to]),
        _ => 0,
    };
    (firsts[to] + middle) as u32
}

/// A chain of so many runs of one node from where nodes 0 and 1 lead; each run stands after the one before, or before it.
pub fn chain(runs: usize, downwards: bool) -> Vec<u32> {
    let place = |at: usize| 2 + if downwards { runs - 1 - at } else { at };
    let mut nodes = vec![node(0, false, true, place(0) as u32); runs + 2];
    for at in 0..runs {
        let arc = if at + 1 < runs { place(at + 1) } else { 0 };
        nodes[place(at)] = node(1 + at as u8 % 2, at % 5 == 4 || arc == 0, true, arc as u32);
    }
    nodes
}

/// Nodes from 2 on, each a run with an arc to the next, that spell a word of each of these lengths: tiles 0 to 5 in turns. The lengths ascend.
pub fn line(lengths: &[usize]) -> Vec<u32> {
    let longest = lengths.last().copied().unwrap_or(1);
    let tiles = (1..=longest).map(|len| {
        let arc = if len < longest { len as u32 + 2 } else { 0 };
        node(len as u8 % 6, lengths.contains(&len), true, arc)
    });
    [node(0, false, true, 2), node(0, false, true, 0)]
        .into_iter()
        .chain(tiles)
        .collect()
}

/// A chain of so many runs that starts at node 0: its arc is 0, and its run goes on to node 1.
pub fn chain_from_0(runs: usize) -> Vec<u32> {
    let on = (1..=runs).map(|at| {
        let arc = if at < runs { at as u32 + 1 } else { 0 };
        node(1, arc == 0, true, arc)
    });
    [node(0, false, false, 0)].into_iter().chain(on).collect()
}

/// A graph with just so many words from the start: each run of two nodes has both arcs to the run before, and so twice the words, and one more
/// where its first node accepts.
pub fn with_words(count: u64) -> Vec<u32> {
    let bits = count.max(1).ilog2();
    let mut nodes = vec![0, 0, node(1, count > 0, true, 0)];
    let mut before = 2;
    for bit in (0..bits).rev() {
        let place = nodes.len() as u32;
        nodes.push(node(1, count >> bit & 1 == 1, false, before));
        nodes.push(node(2, false, true, before));
        before = place;
    }
    nodes[0] = node(0, false, true, before);
    nodes[1] = node(0, false, true, before);
    nodes
}

/// So many runs of two nodes, both with an arc to the next, and no word.
pub fn without_words(runs: u32) -> Vec<u32> {
    let run = |at: u32| {
        let arc = if at + 1 < runs { 2 * at + 4 } else { 0 };
        [node(1, false, false, arc), node(2, false, true, arc)]
    };
    let heads = [node(0, false, true, 2); 2];
    heads.into_iter().chain((0..runs).flat_map(run)).collect()
}

/// Node 1 loops, and node 2 has just 4,294,967,295 words, or more.
pub fn loop_and_too_many(more: u32) -> Vec<u32> {
    let last = 33 + more;
    let mut nodes = vec![node(0, false, true, 0), node(0, false, true, 1)];
    nodes.extend((2..last).map(|at| node(1, true, false, at + 1)));
    nodes.push(node(1, true, true, 0));
    nodes
}

/// So many nodes, each with an arc to the one before it.
pub fn deep(len: u32) -> Vec<u32> {
    let heads = [node(0, false, true, 0), node(1, true, true, 0)];
    heads
        .into_iter()
        .chain((2..len).map(|at| node(1, false, true, at - 1)))
        .collect()
}
