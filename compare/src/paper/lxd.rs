//! The row "LXD" and the file, its letters and texts in Windows-1252.

use super::counting::{TOO_MANY, refused, size_and_shape, steps};
use super::nodes::kbwg;
use super::runs::{chain_over_64, reached_runs, run, start, tiles_have_labels};
use super::{WithWork, row};
use crate::answer::Answer;
use crate::engine::LxdTexts;
use crate::windows1252::byte_of;
use std::collections::BTreeMap;

const FIRST: [u32; 2] = [0x8a80_0000, 0x8a80_0002];
const NO_WORDS: u32 = 0x8a80_0000;

fn lacks_byte(text: &[u32]) -> bool {
    text.iter().any(|&code_point| byte_of(code_point).is_none())
}

/// What the call answers, and the file's bytes where it writes them.
pub fn to_lxd(
    nodes: &[u32],
    texts: &LxdTexts,
    work_len: usize,
    file_len: usize,
) -> (WithWork, Vec<u8>) {
    let n = nodes.len();
    let shape = size_and_shape(nodes);
    let labels = &texts.labels;
    let before_work = row(&[
        (shape, &|| shape != 0),
        (20, &|| lacks_byte(&texts.title)),
        (19, &|| texts.title.len() > 31),
        (20, &|| lacks_byte(&texts.date)),
        (19, &|| texts.date.len() > 19),
        (21, &|| !tiles_have_labels(nodes, labels.len())),
        (11, &|| work_len < 8 * n),
    ]);
    if before_work != 0 {
        let answer = refused(before_work, nodes);
        return (WithWork { answer, free: 0 }, Vec::new());
    }
    let start = start(nodes, 0);
    let refusal = row(&[
        (22, &|| chain_over_64(nodes, start)),
        (23, &|| reached_label_lacks_byte(nodes, start, labels)),
        (13, &|| words_from(nodes, start) >= TOO_MANY),
        (25, &|| node_count(nodes, start) > 1 << 22),
    ]);
    let mut file = Vec::new();
    let mut answer = Answer::refused(refusal);
    if refusal == 0 {
        file = file_of(nodes, start, texts);
        answer = Answer::gives(file.len() as u64);
        if file_len < file.len() {
            file.clear();
            answer = Answer::refused(11);
        }
    }
    (
        WithWork {
            answer,
            free: 8 * n,
        },
        file,
    )
}

fn reached_label_lacks_byte(nodes: &[u32], start: usize, labels: &[u32]) -> bool {
    let mut reached = reached_runs(nodes, start).into_iter();
    reached.any(|p| {
        run(nodes, p)
            .iter()
            .any(|node| byte_of(labels[usize::from(node.tile)]).is_none())
    })
}

// Nodes 0 and 1, and each run that is reached.
fn node_count(nodes: &[u32], start: usize) -> usize {
    let runs = reached_runs(nodes, start).into_iter();
    FIRST.len() + runs.map(|p| run(nodes, p).len()).sum::<usize>()
}

/// The number of words from a node from which no loop is reached.
fn words_from(nodes: &[u32], start: usize) -> u64 {
    fn at(nodes: &[u32], p: usize, known: &mut BTreeMap<usize, u64>) -> u64 {
        if let Some(&count) = known.get(&p) {
            return count;
        }
        let here = u64::from(kbwg(nodes[p]).accepts);
        let count = steps(nodes, p).fold(here, |sum, q| sum.saturating_add(at(nodes, q, known)));
        known.insert(p, count);
        count
    }
    at(nodes, start, &mut BTreeMap::new())
}

fn file_of(nodes: &[u32], start: usize, texts: &LxdTexts) -> Vec<u8> {
    let words = words_from(nodes, start);
    let file_nodes = if words == 0 {
        [&FIRST[..], &[NO_WORDS]].concat()
    } else {
        let mut runs = Runs {
            graph: nodes,
            labels: &texts.labels,
            record: BTreeMap::new(),
            nodes: FIRST.to_vec(),
        };
        runs.place(start);
        runs.nodes
    };
    let mut file = 64u32.to_le_bytes().to_vec();
    file.extend((file_nodes.len() as u32).to_le_bytes());
    file.extend(field(&texts.title, 32));
    file.extend(field(&texts.date, 20));
    file.extend((words as u32).to_le_bytes());
    file.extend(file_nodes.iter().flat_map(|node| node.to_le_bytes()));
    file
}

// A file is written only where every code point of it has a byte.
fn byte(code_point: u32) -> u8 {
    byte_of(code_point).expect("20 and 23 are asked before")
}

// Zero-filled.
fn field(text: &[u32], len: usize) -> Vec<u8> {
    let bytes = text.iter().map(|&code_point| byte(code_point));
    bytes.chain(std::iter::repeat(0)).take(len).collect()
}

struct Runs<'a> {
    graph: &'a [u32],
    labels: &'a [u32],
    // The place in the file of each run that has one.
    record: BTreeMap<usize, u32>,
    nodes: Vec<u32>,
}

impl Runs<'_> {
    // "a run takes consecutive places when first met"
    fn place(&mut self, p: usize) -> u32 {
        if let Some(&place) = self.record.get(&p) {
            return place;
        }
        let place = self.nodes.len();
        self.record.insert(p, place as u32);
        let run = run(self.graph, p);
        self.nodes.extend(run.iter().map(|_| 0));
        for (at, node) in run.iter().enumerate() {
            let child = match node.arc {
                0 => 0,
                arc => self.place(arc as usize),
            };
            let letter = u32::from(byte(self.labels[usize::from(node.tile)]));
            self.nodes[place + at] =
                u32::from(node.end) << 31 | u32::from(node.accepts) << 30 | letter << 22 | child;
        }
        place as u32
    }
}
