//! The row "Macondo" and the file.

use super::counting::{refused, size_and_shape};
use super::runs::{ascend, chain_over_64, reached_runs, run, start, tiles_have_labels};
use super::{WithWork, row};
use crate::answer::Answer;
use crate::engine::MacondoTexts;
use std::collections::BTreeMap;

const SEPARATOR: u32 = 50;

fn one_code_point(label: u32) -> bool {
    !(0xd800..=0xdfff).contains(&label) && label < 0x110000
}

/// What the call answers, and the file's bytes where it writes them.
pub fn to_macondo(
    nodes: &[u32],
    texts: &MacondoTexts,
    work_len: usize,
    file_len: usize,
) -> (WithWork, Vec<u8>) {
    let n = nodes.len();
    let shape = size_and_shape(nodes);
    let labels = &texts.labels;
    let before_work = row(&[
        (shape, &|| shape != 0),
        (18, &|| labels.is_empty() || labels.len() > 50),
        (19, &|| texts.name.len() > 255),
        (21, &|| !tiles_have_labels(nodes, labels.len())),
        (24, &|| !ascend(nodes)),
        (11, &|| work_len < 8 * n),
    ]);
    if before_work != 0 {
        let answer = refused(before_work, nodes);
        return (WithWork { answer, free: 0 }, Vec::new());
    }
    let start = start(nodes, usize::from(texts.format != 0));
    let refusal = row(&[
        (22, &|| chain_over_64(nodes, start)),
        (23, &|| {
            !labels[1..].iter().all(|&label| one_code_point(label))
        }),
        (25, &|| node_count(nodes, start) > 1 << 24),
    ]);
    let mut file = Vec::new();
    let mut answer = Answer::refused(refusal);
    if refusal == 0 {
        file = file_of(nodes, start, texts);
        answer = Answer::gives(file.len() as u64);
        if file_len < file.len() {
            file.clear();
            answer = Answer::refused(11);
        }
    }
    (
        WithWork {
            answer,
            free: 8 * n,
        },
        file,
    )
}

// A head and an arc for each node with one, for each run that is reached.
fn node_count(nodes: &[u32], start: usize) -> usize {
    let arcs = |p: usize| run(nodes, p).iter().filter(|node| node.arc != 0).count();
    reached_runs(nodes, start)
        .into_iter()
        .map(|p| 1 + arcs(p))
        .sum()
}

/// "Letters (tiles 1 up) rank from 0 by code point, equal ones by tile": the tiles, in that order.
fn ranked(labels: &[u32]) -> Vec<usize> {
    let mut letters: Vec<usize> = (1..labels.len()).collect();
    letters.sort_by_key(|&tile| (labels[tile], tile));
    letters
}

fn file_of(nodes: &[u32], start: usize, texts: &MacondoTexts) -> Vec<u8> {
    let labels = &texts.labels;
    let letters = ranked(labels);
    let mut written = vec![SEPARATOR; labels.len()];
    for (rank, &tile) in letters.iter().enumerate() {
        written[tile] = rank as u32;
    }
    let mut order = labels.clone();
    order[0] = 0x5e;
    let mut blocks = Blocks {
        graph: nodes,
        written: &written,
        order: &order,
        record: BTreeMap::new(),
        sets: Vec::new(),
        set_numbers: BTreeMap::new(),
        nodes: Vec::new(),
    };
    blocks.number(start);

    let mut file = if texts.format == 0 {
        *b"cdwg"
    } else {
        *b"cgdg"
    }
    .to_vec();
    file.push(texts.name.len() as u8);
    file.extend(&texts.name);
    file.extend((letters.len() as u32).to_be_bytes());
    file.extend(letters.iter().flat_map(|&tile| labels[tile].to_be_bytes()));
    file.extend((blocks.sets.len() as u32).to_be_bytes());
    file.extend(blocks.sets.iter().flat_map(|set| set.to_be_bytes()));
    file.extend((blocks.nodes.len() as u32).to_be_bytes());
    file.extend(blocks.nodes.iter().flat_map(|node| node.to_be_bytes()));
    file
}

struct Blocks<'a> {
    graph: &'a [u32],
    // The letter that a tile is written as, and the code point that gives its place among the arcs.
    written: &'a [u32],
    order: &'a [u32],
    // The number of the block of each run that has one.
    record: BTreeMap<usize, u32>,
    sets: Vec<u64>,
    set_numbers: BTreeMap<u64, u32>,
    nodes: Vec<u32>,
}

impl Blocks<'_> {
    fn number(&mut self, p: usize) -> u32 {
        if let Some(&block) = self.record.get(&p) {
            return block;
        }
        let block = self.nodes.len();
        self.record.insert(p, block as u32);
        let run = run(self.graph, p);
        let set = self.set_of(&run);
        let mut arcs: Vec<_> = run.iter().filter(|node| node.arc != 0).collect();
        arcs.sort_by_key(|node| (self.order[usize::from(node.tile)], node.tile));
        self.nodes.push((arcs.len() as u32) << 24 | set);
        self.nodes.extend(arcs.iter().map(|_| 0));
        for (at, node) in arcs.iter().enumerate() {
            let child = self.number(node.arc as usize);
            self.nodes[block + 1 + at] = self.written[usize::from(node.tile)] << 24 | child;
        }
        block as u32
    }

    // "a set has bit r for the letter of rank r", "tile 0's bit dropped"; numbers are given in the order of first appearance.
    fn set_of(&mut self, run: &[super::nodes::Node]) -> u32 {
        let accepting = run.iter().filter(|node| node.accepts && node.tile != 0);
        let set = accepting.fold(0, |set, node| {
            set | 1u64 << self.written[usize::from(node.tile)]
        });
        let next = self.sets.len() as u32;
        let number = *self.set_numbers.entry(set).or_insert(next);
        if number == next {
            self.sets.push(set);
        }
        number
    }
}
