// The list `pages`.

use super::super::graphs::{
    Graph, NUMBERINGS, Words, empty, graph_of_words, kwg_of, random_graph, random_runs,
    random_words, sample,
};
use super::super::labels::letters_up;
use super::super::layout::Fields;
use super::super::numbers::in_range;
use super::super::samples::{doubled_chain, head};
use super::{PAGE, WORDS, row};
use crate::random::Random;
use crate::requests::Requests;

const MOST_TILES: usize = 64;

// Labels around both ends of the printable ones; such as have a printable low
// byte; and such as are no code point.
const ODD_LABELS: [u32; 14] = [
    0,
    0x1f,
    0x20,
    0x7e,
    0x7f,
    0x80,
    0xff,
    0x120,
    0x141,
    0xd800,
    0xe041,
    0x110000,
    0x4100_0041,
    u32::MAX,
];
const ODD_BYTES: [u8; 7] = [0, 0x1f, 0x20, 0x7e, 0x7f, 0x80, 0xff];

pub fn requests(requests: &mut Requests) {
    requests.comment("call 16: a page of words");
    sample_graphs(requests);
    titles(requests);
    labels(requests);
    two_refusals(requests);
    long_words(requests);
    word_graphs(requests);
    random_graphs(requests);
    other_counts(requests);
    great_numbers(requests);
}

// What a page is asked for, besides the graph.
#[derive(Clone, Copy)]
struct Asked<'a> {
    counts: &'a [u32],
    start: usize,
    first: u32,
    labels: &'a [u32],
    title: &'a [u8],
}

fn ask(requests: &mut Requests, graph: &Graph, asked: &Asked) {
    if words_shown(graph, asked).is_none() {
        return;
    }
    let mut numbers = vec![PAGE, graph.words.len() as u64];
    let words = graph.words.iter().chain(asked.counts);
    numbers.extend(words.map(|&word| u64::from(word)));
    numbers.extend([asked.start as u64, asked.first.into()]);
    numbers.push(asked.labels.len() as u64);
    numbers.extend(asked.labels.iter().map(|&label| u64::from(label)));
    numbers.push(asked.title.len() as u64);
    numbers.extend(asked.title.iter().map(|&byte| u64::from(byte)));
    requests.ask(&numbers);
}

// How many words the page has. None where the Rust's walk for one of them, or for
// the first number that names none, does not stay in range.
fn words_shown(graph: &Graph, asked: &Asked) -> Option<usize> {
    let kwg = kwg_of(&graph.words);
    let (nodes, counts, start) = (&graph.nodes, asked.counts, asked.start);
    let mut shown = 0;
    for number in (asked.first..=u32::MAX).take(WORDS) {
        if !in_range::word_of_number(nodes, counts, start, number, nodes.len()) {
            return None;
        }
        let row = row(&kwg, counts, start as i32, number);
        match row.expect("the Rust refuses only a number too great") {
            Some(_) => shown += 1,
            None => break,
        }
    }
    Some(shown)
}

// Of the pages of no word only a few.
fn ask_seldom_blank(requests: &mut Requests, random: &mut Random, graph: &Graph, asked: &Asked) {
    let blank = words_shown(graph, asked) == Some(0);
    if !blank || random.within(0, 16) == 0 {
        ask(requests, graph, asked);
    }
}

// By the graph's own counts, with a label for each tile.
fn plain<'a>(graph: &'a Graph, labels: &'a [u32], start: usize, first: u32) -> Asked<'a> {
    Asked {
        counts: &graph.counts,
        start,
        first,
        labels,
        title: b"Words",
    }
}

fn ask_plain(requests: &mut Requests, graph: &Graph, start: usize, first: u32) {
    let labels = plain_labels();
    ask(requests, graph, &plain(graph, &labels, start, first));
}

// A question mark, letters, and the other printable characters up to the last.
fn plain_labels() -> Vec<u32> {
    let mut labels = letters_up(MOST_TILES - 1);
    labels.push(0x20);
    labels
}

fn sample_graphs(requests: &mut Requests) {
    for nodes in [sample(), empty()] {
        let graph = Graph::of_nodes(&nodes);
        for start in 0..graph.nodes.len() {
            for first in 0..=graph.counts[start].min(3) {
                ask_plain(requests, &graph, start, first);
            }
        }
        ask_plain(requests, &graph, 0, u32::MAX);
    }
}

// The words A, A B and B B from node 2, on a page with such a title.
fn ask_titled(requests: &mut Requests, labels: &[u32], title: &[u8]) {
    let graph = Graph::of_nodes(&sample());
    let asked = Asked {
        counts: &graph.counts,
        start: 2,
        first: 0,
        labels,
        title,
    };
    ask(requests, &graph, &asked);
}

// Titles of every length about the longest, and of bytes about the printable
// ones, in the first column and in the last.
fn titles(requests: &mut Requests) {
    for len in [0, 1, 2, 38, 39, 40, 41, 42, 255] {
        ask_titled(requests, &letters_up(3), &vec![b'T'; len]);
    }
    for byte in ODD_BYTES {
        for (len, at) in [(1, 0), (40, 0), (40, 39)] {
            let mut title = vec![b't'; len];
            title[at] = byte;
            ask_titled(requests, &letters_up(3), &title);
        }
    }
}

// Too few labels, and more than enough; an odd one for a tile that is shown, and
// for one that is not.
fn labels(requests: &mut Requests) {
    for count in [0, 1, 2, 3, 4, 64, 300] {
        ask_titled(requests, &letters_up(count), b"labels");
        ask_titled(requests, &vec![b'x'.into(); count], b"labels");
    }
    for odd in ODD_LABELS {
        for at in 0..4 {
            let mut labels = letters_up(4);
            labels[at] = odd;
            ask_titled(requests, &labels, b"labels");
        }
    }
}

// Several things are wrong: the title is too long, a later tile has no label, a
// label or a byte of the title is not printable.
fn two_refusals(requests: &mut Requests) {
    for title in [&[b'T'; 41][..], &[0; 41], &[0], b""] {
        for labels in [&[][..], &[63, 7], &[63, 65], &[63, 7, 66], &[7, 65, 66]] {
            ask_titled(requests, labels, title);
        }
    }
}

// Nodes that each lead to the next, where the words have these lengths.
fn line(lengths: &[usize]) -> Graph {
    let longest = lengths.iter().copied().max().unwrap_or(1);
    let nodes = (1..=longest).map(|len| Fields {
        tile: (len % 30) as u8,
        accepts: lengths.contains(&len),
        is_end: true,
        arc_index: if len < longest { len as i32 + 2 } else { 0 },
    });
    let nodes: Vec<Fields> = [head(2), head(0)].into_iter().chain(nodes).collect();
    Graph::of_nodes(&nodes)
}

// Words about as long as a row, and longer. With 29 labels the 29th tile has
// none, which does not show; with 28 the 28th has none.
fn long_words(requests: &mut Requests) {
    for lengths in [
        &[27][..],
        &[28],
        &[29],
        &[30],
        &[60],
        &[27, 28, 29, 30, 60],
        &[1, 28, 200],
    ] {
        let graph = line(lengths);
        for first in 0..=lengths.len() as u32 {
            for labels in [30, 29, 28] {
                let asked = Asked {
                    counts: &graph.counts,
                    start: 2,
                    first,
                    labels: &letters_up(labels),
                    title: b"long words",
                };
                if labels == 30 || first == 0 {
                    ask(requests, &graph, &asked);
                }
            }
        }
    }
    // By these counts no word is found at the line's end, which a row longer than
    // the page does not come to.
    for len in 27..=30 {
        let graph = line(&[len]);
        let asked = Asked {
            counts: &vec![9; graph.nodes.len()],
            start: 2,
            first: 5,
            labels: &plain_labels(),
            title: b"no end",
        };
        ask(requests, &graph, &asked);
    }
}

// Lexicons of as many words as a page holds, one more and one fewer, and others:
// the first page, the second, the one with the last words, and after them.
fn word_graphs(requests: &mut Requests) {
    let mut random = Random::new(31);
    for (count, letters, longest) in [
        (1, 26, 9),
        (22, 2, 6),
        (23, 3, 4),
        (24, 5, 5),
        (30, 26, 3),
        (46, 2, 7),
        (60, 3, 5),
    ] {
        for numbering in NUMBERINGS {
            let first = random_words(&mut random, count, letters, longest);
            let others: Words = random_words(&mut random, 4, letters, longest);
            let graph = Graph::of_nodes(&graph_of_words(&first, &others, numbering));
            let words = first.len() as u32;
            let start = graph.nodes[0].arc_index as usize;
            for first in [0, 23, words - 1, words] {
                ask_plain(requests, &graph, start, first);
            }
            ask_plain(requests, &graph, graph.nodes[1].arc_index as usize, 0);
        }
    }
}

// Graphs in odd numberings, of any tiles: from node 0, from where it leads, from
// the node with the most words, and from any node.
fn random_graphs(requests: &mut Requests) {
    let mut random = Random::new(32);
    for len in 2..=12 {
        for kind in 0..3 {
            let graph = random_graph(&mut random, len, kind);
            ask_pages(requests, &mut random, &graph);
        }
        let nodes = random_runs(&mut random, len, 30, None);
        ask_pages(requests, &mut random, &Graph::of_nodes(&nodes));
    }
}

fn ask_pages(requests: &mut Requests, random: &mut Random, graph: &Graph) {
    let labels = plain_labels();
    let any = random.within(1, graph.nodes.len() as u64) as usize;
    let leads = graph.nodes[0].arc_index as usize;
    for start in [0, leads, graph.richest(), any] {
        let words = graph.counts[start];
        let first = match random.within(0, 4) {
            0 => random.within(0, u64::from(words) + 1) as u32,
            1 => words.saturating_sub(random.within(1, 23) as u32),
            _ => 0,
        };
        let asked = plain(graph, &labels, start, first);
        ask_seldom_blank(requests, random, graph, &asked);
    }
}

// Counts that are not the graph's own: each the same, few, falling from the
// greatest, and the graph's own a little changed.
fn other_counts(requests: &mut Requests) {
    let mut random = Random::new(33);
    for len in 2..=14 {
        let graph = random_graph(&mut random, len, len as u32 % 3);
        let mut counts = vec![vec![0; len], vec![1; len], vec![u32::MAX; len]];
        counts.push((0..len).map(|_| random.within(0, 5) as u32).collect());
        counts.push((0..len).map(|at| u32::MAX - at as u32).collect());
        counts.push((0..len).map(|at| (4 * (len - at)) as u32).collect());
        let mut changed = graph.counts.clone();
        changed[random.within(0, len as u64) as usize] += 1;
        counts.push(changed);
        for counts in &counts {
            for start in [0, graph.richest()] {
                for first in [0, 2, u32::MAX - 9, u32::MAX] {
                    let asked = Asked {
                        counts,
                        start,
                        first,
                        labels: &plain_labels(),
                        title: b"other counts",
                    };
                    ask_seldom_blank(requests, &mut random, &graph, &asked);
                }
            }
        }
    }
}

// So many words that numbers fill their columns.
fn great_numbers(requests: &mut Requests) {
    for runs in [4, 14, 24, 31] {
        let graph = Graph::of_nodes(&doubled_chain(runs, true));
        let words = 1u32 << runs;
        for first in [words / 2, words - 23, words - 22, words - 1, words] {
            if first < words {
                ask_plain(requests, &graph, 2, first);
            }
        }
    }
    last_numbers(requests);
}

// Counts by which each of the last six numbers names a word, and 0 too: the run at
// 4 has five words after a node that is said to have all before them, and the run
// at 2 one more after a node that is said to have all numbers but the greatest.
fn last_numbers(requests: &mut Requests) {
    let node = |tile, accepts, is_end, arc_index| Fields {
        tile,
        accepts,
        is_end,
        arc_index,
    };
    let mut nodes = vec![
        head(2),
        head(0),
        node(1, false, false, 4),
        node(2, true, true, 0),
    ];
    nodes.extend((4..10).map(|at| node(at, true, at == 9, 0)));
    let graph = Graph::of_nodes(&nodes);
    for first in [
        0,
        u32::MAX - 22,
        u32::MAX - 5,
        u32::MAX - 4,
        u32::MAX - 1,
        u32::MAX,
    ] {
        let asked = Asked {
            counts: &[0, 0, u32::MAX, 0, u32::MAX, 5, 4, 3, 2, 1],
            start: 2,
            first,
            labels: &plain_labels(),
            title: b"the last numbers",
        };
        ask(requests, &graph, &asked);
    }
}
