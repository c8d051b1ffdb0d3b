//! Pages of every graph: from several starts and numbers, by its own counts and by others, with all kinds of labels, titles and buffers.

use super::all_calls::{foreign, place};
use crate::checker::{Checker, Graph};
use crate::engine::PageOf;
use crate::random::Random;

pub const PAGE: usize = 960;
const WORDS_A_PAGE: usize = 23;

/// Labels around both ends of the printable ones, such as have a printable low byte, and such as are no code point.
pub const ODD_LABELS: [u32; 16] = [
    0,
    0x1f,
    0x20,
    0x7e,
    0x7f,
    0x80,
    0xff,
    0x120,
    0x141,
    0xd800,
    0xd841,
    0xe041,
    0x10ffff,
    0x110000,
    0x4100_0041,
    u32::MAX,
];
pub const ODD_BYTES: [u8; 8] = [0, 0x1f, 0x20, 0x7e, 0x7f, 0x80, 0xc1, 0xff];
pub const TITLE_LENGTHS: [usize; 7] = [0, 1, 39, 40, 41, 80, 256];
pub const PAGE_LENGTHS: [usize; 8] = [0, 1, 40, 959, 960, 961, 999, 1000];

/// First numbers of pages on which the greatest number is the last, or has none or some after it.
pub const LAST_FIRSTS: [u32; 8] = [
    u32::MAX - 23,
    u32::MAX - 22,
    u32::MAX - 5,
    u32::MAX - 4,
    u32::MAX - 3,
    u32::MAX - 2,
    u32::MAX - 1,
    u32::MAX,
];

/// So many printable labels: a question mark for tile 0, then A, B and on.
pub fn plain_labels(count: usize) -> Vec<u32> {
    let printable = [0x3f].into_iter().chain(0x41..=0x7e).chain([0x20]);
    printable.cycle().take(count).collect()
}

/// How many labels a graph's tiles need.
pub fn tiles_of(graph: &Graph) -> usize {
    let tiles = graph.nodes.iter().map(|word| word & 0x3f);
    tiles.max().map_or(0, |tile| tile as usize + 1)
}

/// A page with a title that nothing is wrong with.
pub fn titled<'a>(counts: &'a [u32], labels: &'a [u32], start: u32, first: u32) -> PageOf<'a> {
    PageOf {
        counts,
        labels,
        title: b"Words",
        start,
        first,
    }
}

/// A few pages of a graph: by its own counts from its start, from another and from node 0, and by foreign ones.
pub fn pages(checker: &mut Checker, random: &mut Random, graph: &Graph) {
    let start = graph.nodes[0] >> 8;
    let starts = [start, place(random, graph.nodes.len()), 0];
    if let Some(counts) = &graph.counts {
        for start in starts {
            let many = counts.get(start as usize).copied().unwrap_or(0);
            let first = first(random, many);
            two_pages(checker, random, graph, counts, start, first);
        }
    }
    for _ in 0..2 {
        let counts = foreign(random, graph);
        let (start, first) = (random.pick(&starts), first(random, 2));
        two_pages(checker, random, graph, &counts, start, first);
    }
}

/// A page with a label for each tile, and one with other texts.
pub fn two_pages(
    checker: &mut Checker,
    random: &mut Random,
    graph: &Graph,
    counts: &[u32],
    start: u32,
    first: u32,
) {
    let labels = plain_labels(tiles_of(graph));
    let asked = titled(counts, &labels, start, first);
    checker.page(graph, &asked, PAGE);
    any_page(checker, random, graph, &asked);
}

/// A page with a label for each tile.
pub fn plain_page(checker: &mut Checker, graph: &Graph, counts: &[u32], start: u32, first: u32) {
    let labels = plain_labels(tiles_of(graph));
    checker.page(graph, &titled(counts, &labels, start, first), PAGE);
}

/// All pages of the words from a start, by the graph's own counts, and the page after the last.
pub fn every_page(checker: &mut Checker, graph: &Graph, start: u32) {
    let counts = graph.counts.as_ref().expect("the graph counts");
    for first in (0..counts[start as usize] + WORDS_A_PAGE as u32).step_by(WORDS_A_PAGE) {
        plain_page(checker, graph, counts, start, first);
    }
}

/// The first of a page's numbers, with so many words: 0, somewhere, at or after the last words, or near the greatest number.
pub fn first(random: &mut Random, many: u32) -> u32 {
    match random.within(0, 12) {
        0..5 => 0,
        5 => many / 2,
        6 => many.saturating_sub(random.within(1, 25) as u32),
        7 => many.saturating_sub(1),
        8 => many,
        9 => many.wrapping_add(1),
        10 => random.pick(&LAST_FIRSTS),
        _ => random.word(),
    }
}

// The same page with other labels, another title and another buffer, each mostly such as are not refused.
fn any_page(checker: &mut Checker, random: &mut Random, graph: &Graph, asked: &PageOf) {
    let page_len = match random.within(0, 3) {
        0 => random.pick(&PAGE_LENGTHS),
        _ => PAGE,
    };
    let asked = PageOf {
        labels: &any_labels(random, asked.labels),
        title: &any_title(random),
        ..*asked
    };
    checker.page(graph, &asked, page_len);
}

fn any_labels(random: &mut Random, labels: &[u32]) -> Vec<u32> {
    let mut labels = labels.to_vec();
    match random.within(0, 8) {
        0 => labels.truncate(labels.len().saturating_sub(1)),
        1 => labels.truncate(random.within(0, labels.len() as u64 + 1) as usize),
        2 => labels.push(random.word()),
        _ => {}
    }
    if !labels.is_empty() && random.within(0, 4) == 0 {
        let at = random.within(0, labels.len() as u64) as usize;
        labels[at] = random.pick(&ODD_LABELS);
    }
    labels
}

fn any_title(random: &mut Random) -> Vec<u8> {
    let len = match random.within(0, 6) {
        0 => random.pick(&TITLE_LENGTHS),
        _ => random.within(0, 41) as usize,
    };
    let mut title: Vec<u8> = (0..len).map(|_| random.within(0x20, 0x7f) as u8).collect();
    if len > 0 && random.within(0, 6) == 0 {
        title[random.within(0, len as u64) as usize] = random.pick(&ODD_BYTES);
    }
    title
}
