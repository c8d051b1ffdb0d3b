//! Each limit of a page met and passed: its texts, words longer than a row, numbers up to the greatest, and refusals to choose from.

use super::Size;
use super::all_calls::foreign;
use super::loads::SAMPLE;
use super::pages::{
    LAST_FIRSTS, ODD_BYTES, ODD_LABELS, PAGE, PAGE_LENGTHS, TITLE_LENGTHS, first, plain_labels,
    titled, two_pages,
};
use super::texts::with_each;
use super::thinned::Thinned;
use crate::checker::{Checker, Graph};
use crate::engine::PageOf;
use crate::graphs::line;
use crate::lexicon::node;
use crate::random::Random;

pub fn run(checker: &mut Checker, size: Size, random: &mut Random) {
    let mut pages = Thinned::new(checker);
    texts(pages.one_in(size.of(9_973, 997, 1)));
    long_words(pages.one_in(size.of(211, 5, 1)));
    greatest_numbers(pages.one_in(size.of(3, 1, 1)));
    none_and_later(pages.one_in(size.of(17, 1, 1)));
    refusals_of_rows(pages.one_in(size.of(499, 11, 1)));
    past_the_row(pages.one_in(size.of(101, 3, 1)));
    for _ in 0..size.of(1, 100, 20_000) {
        changed_lines(checker, random);
    }
}

impl Thinned<'_> {
    fn page(&mut self, graph: &Graph, asked: &PageOf, page_len: usize) {
        if let Some(checker) = self.asked() {
            checker.page(graph, asked, page_len);
        }
    }
}

// Document 01's five nodes with every kind of labels, title and page buffer, from each node and a few numbers.
fn texts(pages: &mut Thinned) {
    let graph = Graph::new(SAMPLE.to_vec());
    let counts = graph.counts.as_ref().expect("the five nodes count");
    let (every_labels, every_title) = (every_labels(3), every_title());
    for start in 0..6 {
        for first in [0, 1, 2, 3, 4, u32::MAX - 1, u32::MAX] {
            for labels in &every_labels {
                for title in &every_title {
                    let asked = PageOf {
                        title,
                        ..titled(counts, labels, start, first)
                    };
                    for page_len in PAGE_LENGTHS {
                        pages.page(&graph, &asked, page_len);
                    }
                }
            }
        }
    }
}

// Label lists for so many tiles: too short by some or long enough, and with an odd label in each place.
fn every_labels(tiles: usize) -> Vec<Vec<u32>> {
    let mut all: Vec<Vec<u32>> = (0..tiles + 2).map(plain_labels).collect();
    all.extend(with_each(&plain_labels(tiles), &ODD_LABELS));
    all
}

// Titles of each length, and with an odd byte as the first and as the last.
fn every_title() -> Vec<Vec<u8>> {
    let text = b"Words of five nodes on a page ".iter().copied();
    let plain = |len: usize| text.clone().cycle().take(len).collect::<Vec<u8>>();
    let mut all: Vec<Vec<u8>> = TITLE_LENGTHS.map(plain).to_vec();
    for odd in ODD_BYTES {
        for (len, at) in [(1, 0), (40, 0), (40, 39), (41, 40)] {
            let mut title = plain(len);
            title[at] = odd;
            all.push(title);
        }
    }
    all
}

// Words as long as a row, one tile shorter and longer, and much longer, by their own counts.
fn long_words(pages: &mut Thinned) {
    for lengths in [
        &[27][..],
        &[28],
        &[29],
        &[30],
        &[60],
        &[1, 27, 28, 29, 30, 60],
        &[28, 29],
        &[27, 28],
        &[29, 130],
    ] {
        let graph = Graph::new(line(lengths));
        let counts = graph.counts.as_ref().expect("a line counts");
        for labels in every_labels(6) {
            for first in 0..=lengths.len() as u32 {
                pages.page(&graph, &titled(counts, &labels, 2, first), PAGE);
            }
        }
    }
}

// Counts by which each of the last six 32-bit numbers names a word of its own: the run at 4 has five words after a node that is said to have
// all before them, and the run at 2 has one more after a node that is said to have all numbers but the greatest. Number 0 names a word too, so
// that numbers which come round to it would show.
fn greatest_numbers(pages: &mut Thinned) {
    let run_at_2 = [node(1, false, false, 4), node(2, true, true, 0)];
    let run_at_4 = (4..10).map(|at| node(at, true, at == 9, 0));
    let heads = [0x240, 0x40].into_iter();
    let graph = Graph::new(heads.chain(run_at_2).chain(run_at_4).collect());
    let counts = [0, 0, u32::MAX, 0, u32::MAX, 5, 4, 3, 2, 1];
    for labels in [10, 9, 3].map(plain_labels) {
        for first in LAST_FIRSTS {
            pages.page(&graph, &titled(&counts, &labels, 2, first), PAGE);
        }
    }
}

// By these counts number 0 names a word, numbers 1 to 3 name none, and number 4 names one or is refused, by 14 or by 15: it stands on no page
// that begins before it.
fn none_and_later(pages: &mut Thinned) {
    let labels = plain_labels(5);
    for (third, counts) in [
        (node(2, true, false, 0), [0, 0, 5, 1, 0, 1]),
        (node(2, false, false, 5_000), [0, 0, 5, 1, 0, 1]),
        (node(2, false, false, 0), [0, 0, 5, 1, 9, 1]),
    ] {
        let first = node(1, false, false, 5);
        let rest = [node(3, true, true, 0), node(4, true, true, 0)];
        let graph = Graph::new([&[0x240, 0x40, first, third][..], &rest].concat());
        for first in 0..7 {
            for lent in 0..=6 {
                let asked = titled(&counts[..lent], &labels, 2, first);
                pages.page(&graph, &asked, PAGE);
            }
        }
    }
}

// A run of 25 words of one tile each: word n is the tile n + 1.
const RUN: usize = 25;

fn run_of_words() -> Vec<u32> {
    let run = (1..=RUN as u8).map(|tile| node(tile, true, usize::from(tile) == RUN, 0));
    [0x240, 0x40].into_iter().chain(run).collect()
}

const ROWS: [Option<usize>; 7] = [
    None,
    Some(1),
    Some(2),
    Some(12),
    Some(22),
    Some(23),
    Some(24),
];

// A row refused by 15 and one refused by 14, each of them on the page, after it, or not at all; and what else can be wrong with such a page.
fn refusals_of_rows(pages: &mut Thinned) {
    let graph = Graph::new(run_of_words());
    let own = graph.counts.clone().expect("a run counts");
    for falls in ROWS {
        for lent in ROWS {
            // Number n is reached by way of the counts of n nodes and of the one after them.
            let mut counts = own.clone();
            if let Some(row) = falls {
                counts[2 + row] = u32::MAX;
            }
            counts.truncate(2 + lent.unwrap_or(RUN));
            refusals_of_texts(pages, &graph, &counts);
        }
    }
}

// A tile without a label and a label that is not printable, each in one of the rows; and a title with nothing wrong, with a bad byte, or too
// long, the last two also for a page buffer that is too short.
fn refusals_of_texts(pages: &mut Thinned, graph: &Graph, counts: &[u32]) {
    for unlabelled in ROWS {
        for odd in ROWS {
            let mut labels = plain_labels(RUN + 1);
            if let Some(row) = odd {
                labels[row] = 0x1f;
            }
            labels.truncate(unlabelled.unwrap_or(RUN) + 1);
            let asked = titled(counts, &labels, 2, 0);
            pages.page(graph, &asked, PAGE);
            for (title, page_len) in [(&[0; 40][..], PAGE), (&[0; 40], 959), (&[0; 41], 959)] {
                pages.page(graph, &PageOf { title, ..asked }, page_len);
            }
        }
    }
}

// Walks that after so many tiles meet a refusal, a word's end or no word: up to the 29th tile it counts, from there on it is not met.
fn past_the_row(pages: &mut Thinned) {
    let labels = plain_labels(6);
    for tiles in 26..=31 {
        for graph in endings(tiles).map(Graph::new) {
            for counts in counts_of_endings(tiles as usize + 2, graph.nodes.len()) {
                for first in [0, 1] {
                    for labels in [&labels[..], &labels[..5], &labels[..1]] {
                        pages.page(&graph, &titled(&counts, labels, 2, first), PAGE);
                    }
                }
            }
        }
    }
}

// So many nodes from 2 on, each with an arc to the next. The last leads to a node that is not lent, to none, to one more run, or back to 2.
fn endings(tiles: u32) -> [Vec<u32>; 6] {
    let after = tiles + 2;
    let line = |arc: u32, run: &[u32]| {
        let mut nodes = vec![0x240, 0x40];
        nodes.extend((2..tiles + 1).map(|at| node(at as u8 % 6, false, true, at + 1)));
        nodes.push(node(1, false, true, arc));
        nodes.extend(run);
        nodes
    };
    [
        line(5_000, &[]),
        line(0, &[]),
        line(after, &[node(5, false, true, 0)]),
        line(after, &[node(5, true, true, 0)]),
        line(after, &[node(5, false, false, 0), node(4, true, true, 0)]),
        line(2, &[]),
    ]
}

// Counts that lead down such a line: for all nodes, for those of the line only, and such as in the run after it are 0 or fall below 0.
fn counts_of_endings(line: usize, nodes: usize) -> [Vec<u32>; 5] {
    [
        vec![1; nodes],
        vec![7; nodes],
        vec![1; line],
        [vec![1; line], vec![0, 0]].concat(),
        [vec![1; line], vec![0, 1]].concat(),
    ]
}

// Long words in lines of nodes that are changed in a few places, by counts that are at times cut short or changed in one.
fn changed_lines(checker: &mut Checker, random: &mut Random) {
    let lengths = 0..random.within(1, 9);
    let mut lengths: Vec<usize> = lengths.map(|_| random.within(20, 36) as usize).collect();
    lengths.sort();
    let mut nodes = line(&lengths);
    for _ in 0..random.within(0, 4) {
        let at = random.within(2, nodes.len() as u64) as usize;
        nodes[at] ^= random.pick(&[0x80, 0x40, 0x100, 0x3f]);
    }
    let graph = Graph::new(nodes);
    let mut counts = match &graph.counts {
        Some(own) => own.clone(),
        None => foreign(random, &graph),
    };
    let at = random.within(0, counts.len() as u64 + 1) as usize;
    match random.within(0, 4) {
        0 => counts.truncate(at),
        1 => counts
            .iter_mut()
            .skip(at)
            .take(1)
            .for_each(|count| *count ^= 1),
        _ => {}
    }
    let start = random.pick(&[2, 2, 2, 0, 5]);
    let first = first(random, lengths.len() as u32);
    two_pages(checker, random, &graph, &counts, start, first);
}
