//! One graph through all calls.

use super::in_play::in_play;
use super::loads::{file_of, load};
use super::pages::pages;
use super::texts;
use crate::checker::{Checker, Fit, Graph};
use crate::paper::runs::run;
use crate::random::Random;

/// How many nodes of a graph the calls on one node are asked for.
#[derive(Clone, Copy)]
pub enum Nodes {
    Every,
    Some(u64),
}

pub fn all_calls(checker: &mut Checker, random: &mut Random, nodes: Vec<u32>, asked: Nodes) {
    let graph = Graph::new(nodes);
    loading(checker, random, &graph);
    lookups(checker, random, &graph, asked);
    counting(checker, random, &graph);
    pages(checker, random, &graph);
    in_play(checker, random, &graph);
    sets(checker, random, &graph);
    files(checker, random, &graph);
    checker.nothing_changed(&graph);
}

fn loading(checker: &mut Checker, random: &mut Random, graph: &Graph) {
    for layout in 0..2 {
        let bytes = file_of(&graph.nodes, layout);
        load(checker, random, &bytes, layout);
        checker.repack(&bytes, layout, random.within(0, 2) as u32);
    }
}

/// A place that is lent, or at times one that is not.
pub fn place(random: &mut Random, len: usize) -> u32 {
    match random.within(0, 30) {
        0 => len as u32,
        1 => random.word(),
        _ => random.within(0, len as u64) as u32,
    }
}

fn lookups(checker: &mut Checker, random: &mut Random, graph: &Graph, asked: Nodes) {
    let len = graph.nodes.len();
    let places: Vec<u32> = match asked {
        Nodes::Every => (0..=len as u32).collect(),
        Nodes::Some(many) => (0..many).map(|_| place(random, len)).collect(),
    };
    for place in places {
        checker.cursor(graph, place);
        checker.words_before_mean_words(graph, place);
        let tiles: Vec<u8> = match asked {
            Nodes::Every => (0..4).collect(),
            Nodes::Some(_) => {
                let one = graph.nodes[random.within(0, len as u64) as usize] as u8 & 0x3f;
                vec![
                    random.within(0, 66) as u8,
                    one,
                    tile_after(random, graph, place),
                ]
            }
        };
        for tile in tiles {
            let counts = match &graph.counts {
                Some(own) if random.flag() => own.clone(),
                _ => foreign(random, graph),
            };
            checker.seek(graph, &counts, place, tile);
        }
    }
}

// A tile of the run that the arc of a place leads to, where it leads to a lent node.
fn tile_after(random: &mut Random, graph: &Graph, place: u32) -> u8 {
    let arc = graph.nodes.get(place as usize).map(|word| word >> 8);
    let Some(arc) = arc.filter(|&arc| (arc as usize) < graph.nodes.len()) else {
        return 1;
    };
    let run = run(&graph.nodes, arc as usize);
    run[random.within(0, run.len() as u64) as usize].tile
}

fn counting(checker: &mut Checker, random: &mut Random, graph: &Graph) {
    let len = graph.nodes.len();
    let (counts_len, work_len) = (checker.around(len), checker.around(2 * len));
    checker.count_words(graph, counts_len, work_len);
    checker.count_words(graph, len, 2 * len);
    let start = graph.nodes[0] >> 8;
    if let Some(counts) = graph.counts.clone() {
        for start in [start, place(random, len), 0] {
            some_words(checker, random, graph, &counts, start);
        }
        checker.numbers_mean_words(graph, start);
    }
    for _ in 0..6 {
        let counts = foreign(random, graph);
        let start = match random.flag() {
            true => start,
            false => place(random, len),
        };
        let number = small_or_any(random);
        let room = random.within(0, 12) as usize;
        checker.word_by_index(graph, &counts, start, number, room);
        let word = any_word(random, graph);
        checker.word_index(graph, &counts, start, &word);
    }
}

fn small_or_any(random: &mut Random) -> u32 {
    match random.within(0, 8) {
        0 => random.word(),
        1 => u32::MAX,
        _ => random.within(0, 6) as u32,
    }
}

/// A word of a few tiles that are in the graph, or at times of any.
pub fn any_word(random: &mut Random, graph: &Graph) -> Vec<u8> {
    let len = random.within(0, 5);
    let tile = |random: &mut Random| match random.within(0, 20) {
        0 => random.byte(),
        _ => graph.nodes[random.within(0, graph.nodes.len() as u64) as usize] as u8 & 0x3f,
    };
    (0..len).map(|_| tile(random)).collect()
}

// Numbers by the graph's own counts: the words found go back to their numbers.
fn some_words(
    checker: &mut Checker,
    random: &mut Random,
    graph: &Graph,
    counts: &[u32],
    start: u32,
) {
    let many = counts.get(start as usize).copied().unwrap_or(0);
    let near = [0, 1, 2, many.wrapping_sub(1), many, small_or_any(random)];
    for number in near {
        let word = checker.word_by_index(graph, counts, start, number, 80);
        checker.word_index(graph, counts, start, &word);
        let room = random.within(0, word.len() as u64 + 2) as usize;
        checker.word_by_index(graph, counts, start, number, room);
    }
    for _ in 0..6 {
        let word = any_word(random, graph);
        checker.word_index(graph, counts, start, &word);
    }
}

/// Counts that are not the graph's: off by one, zeros, huge or any, and at times too few or more than nodes.
pub fn foreign(random: &mut Random, graph: &Graph) -> Vec<u32> {
    let len = graph.nodes.len();
    let mut own = graph.counts.clone().unwrap_or(vec![1; len]);
    own.extend([1, 2].iter().take(random.within(0, 3) as usize));
    let kind = random.within(0, 6);
    let mut counts: Vec<u32> = own
        .into_iter()
        .map(|count| match kind {
            0 => count
                .wrapping_add(random.within(0, 3) as u32)
                .wrapping_sub(1),
            1 => 0,
            2 => u32::MAX - random.within(0, 3) as u32,
            3 => random.word(),
            4 => [0, 1, u32::MAX - 1, u32::MAX][random.within(0, 4) as usize],
            _ => random.within(0, 5) as u32,
        })
        .collect();
    if random.within(0, 8) == 0 {
        counts.truncate(random.within(0, len as u64 + 1) as usize);
    }
    counts
}

// Few letters, mostly such as the graph has.
fn tally(random: &mut Random, graph: &Graph) -> Vec<u8> {
    let len = match random.within(0, 16) {
        0 => 64,
        1 => 65,
        2 => 0,
        _ => random.within(1, 6) as usize,
    };
    let mut tally = vec![0; len];
    for _ in 0..random.within(0, 4) {
        let tile = graph.nodes[random.within(0, graph.nodes.len() as u64) as usize] as usize & 0x3f;
        if let Some(copies) = tally.get_mut(tile) {
            *copies += 1;
        }
    }
    if len > 0 && random.within(0, 10) == 0 {
        tally[random.within(0, len as u64) as usize] = random.byte();
    }
    tally
}

fn sets(checker: &mut Checker, random: &mut Random, graph: &Graph) {
    let len = graph.nodes.len();
    let (all, accepting) = (checker.around(len), checker.around(len));
    checker.letter_bits(graph, all, accepting);
    for _ in 0..4 {
        let tally = tally(random, graph);
        checker.accepts_alpha(graph, &tally);
        checker.alpha_cross_set(graph, &tally);
    }
}

fn files(checker: &mut Checker, random: &mut Random, graph: &Graph) {
    let largest = graph.nodes.iter().map(|word| word & 0x3f).max();
    let tiles = largest.unwrap_or(0) as usize + 1;
    for texts in [texts::macondo, texts::lxd] {
        let labels = texts::label_count(random, tiles);
        checker.file(graph, &texts(random, labels), Fit::Around);
    }
    let format = random.within(0, 2) as u32;
    checker.file(graph, &texts::plain_macondo(tiles, format), Fit::Just);
    checker.file(graph, &texts::plain_lxd(tiles), Fit::Just);
}
