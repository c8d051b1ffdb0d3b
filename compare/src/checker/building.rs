//! A lexicon from a word list: the call, and the other calls on what it built.

use super::{Checker, Fit, Graph, answered};
use crate::answer::{Answer, Buffer, Outcome};
use crate::engine::{self, LxdTexts, Texts};
use crate::lent::Lent;
use crate::paper::building;
use crate::paper::nodes::kbwg;
use crate::paper::runs::ascend;
use crate::paper::words::words;
use crate::report::Call;
use crate::rust_side::building::read_back;
use crate::word_lists::list_of;

/// The call that builds: the engine's, or in the tests that of one with an error.
pub type Building = Box<dyn Fn(&[u8], &mut [u32], &mut [u32]) -> Answer>;

const THE_LIST: &str = "the list";

// As many nodes as an LXD file may have.
const MOST_IN_LXD: usize = 1 << 22;

impl Checker {
    /// Answers the nodes that were built, where they were.
    pub fn build(&mut self, list: &[u8], work_len: usize, nodes_len: usize) -> Option<Vec<u32>> {
        let work = Lent::numbers(&mut self.random, work_len);
        let nodes = Lent::numbers(&mut self.random, nodes_len);
        let bytes = Lent::bytes(&mut self.random, list.len()).after_writing(list);
        // The list is lent to be read only.
        let read = bytes.clone();
        let (mut used, mut put) = (work.clone(), nodes.clone());
        let got = (self.building)(read.part(), used.part_mut(), put.part_mut());
        let built = put.part()[..nodes_len.min(got.value as usize)].to_vec();
        let (paper, graph) = building::build(list, work_len, nodes_len);
        // The free part of the work list may have changed.
        let used = used.after_writing(&work.part()[..paper.free]);
        let got = Outcome::of(got).with(put).with(used).with(read);
        let outcome = |answer: Answer, graph: &[u32]| {
            let nodes = nodes.clone().after_writing(graph);
            let outcome = Outcome::of(answer).with(nodes).with(work.clone());
            outcome.with(bytes.clone())
        };
        let is_built = paper.answer.refusal == 0;
        let rust = is_built.then(|| rust_built(list, &built, nodes_len));
        let rust = rust.map(|(answer, graph)| outcome(answer, &graph));
        let paper = outcome(paper.answer, &graph);
        let got = self.compare(Call::Build, got, paper, rust, &|| {
            format!("list {list:?}, {work_len} numbers and {nodes_len} nodes lent")
        });
        (is_built && got.answer.refusal == 0).then_some(built)
    }

    /// With a work list and a node list that are just long enough; then the other calls on what was built.
    pub fn build_and_read(&mut self, list: &[u8]) {
        let work_len = building::work_for(list.len());
        let (_, graph) = building::build(list, work_len, usize::MAX);
        if let Some(nodes) = self.build(list, work_len, graph.len()) {
            self.built_is_the_list(list, nodes);
        }
    }

    // "It must load, and count ..; its words from the root must be the list": by the calls of the engine, and with places in the list as the
    // words' numbers. "runs take consecutive places when first met, as in LXD": an LXD file of the graph keeps its nodes' numbers.
    fn built_is_the_list(&mut self, list: &[u8], nodes: Vec<u32>) {
        let listed = building::words(list).expect("a graph was built");
        let graph = Graph::new(nodes);
        let start = graph.nodes.first().map_or(0, |node| node >> 8);
        let has = |words: usize, ascends: bool| {
            Outcome::of(Answer {
                flag: ascends,
                ..Answer::gives(words as u64)
            })
        };
        let input = || format!("list {list:?}");
        let counted = graph.counts.as_ref().map(|counts| counts[start as usize]);
        // Where the graph does not load or count, no number of words.
        let counted = counted.map_or(usize::MAX, |count| count as usize);
        let (got, expected) = (has(counted, ascend(&graph.nodes)), has(listed.len(), true));
        self.report
            .hold(Call::Build, THE_LIST, &got, &expected, &input);
        if got == expected {
            self.lists_words(&graph, start, &listed, &input);
            self.calls_on_built(&graph);
            self.lxd_keeps_numbers(&graph, &input);
        }
    }

    // The words as the definition of words lists them, and as the engine's calls by number do.
    fn lists_words(
        &mut self,
        graph: &Graph,
        start: u32,
        listed: &[&[u8]],
        input: &dyn Fn() -> String,
    ) {
        let bytes = |bytes: Vec<u8>| Outcome::default().with(Buffer::Bytes(bytes));
        let words = match start {
            0 => Vec::new(),
            start => words(&graph.nodes, start as usize),
        };
        let (got, expected) = (bytes(list_of(&words)), bytes(list_of(listed)));
        self.report
            .hold(Call::Build, THE_LIST, &got, &expected, input);
        let counts = graph.counts.clone().expect("the graph counts");
        for (number, word) in (0..).zip(listed) {
            let put = self.word_by_index(graph, &counts, start, number, word.len());
            let (got, expected) = (bytes(put), bytes(word.to_vec()));
            self.report
                .hold(Call::WordByIndex, THE_LIST, &got, &expected, input);
            let got = Outcome::of(self.word_index(graph, &counts, start, word));
            let expected = Outcome::of(Answer::found(Some(number.into())));
            self.report
                .hold(Call::WordIndex, THE_LIST, &got, &expected, input);
        }
    }

    fn calls_on_built(&mut self, graph: &Graph) {
        let len = graph.nodes.len();
        let file: Vec<u8> = graph.nodes.iter().flat_map(|v| v.to_le_bytes()).collect();
        let (first, second) = file.split_at(self.random.within(0, file.len() as u64 + 1) as usize);
        self.load(file.len(), 1, &[first, second], len);
        self.count_words(graph, len, 2 * len);
        if len <= MOST_IN_LXD {
            self.file(graph, &Texts::Lxd(texts()), Fit::Just);
        }
        self.nothing_changed(graph);
    }

    fn lxd_keeps_numbers(&mut self, graph: &Graph, input: &dyn Fn() -> String) {
        let len = graph.nodes.len();
        if graph.nodes[0] >> 8 == 0 || len > MOST_IN_LXD {
            return;
        }
        let mut file = vec![0; 64 + 4 * len];
        engine::to_lxd(&graph.nodes, &texts(), &mut vec![0; 8 * len], &mut file);
        let numbers = file[64..].as_chunks().0.iter();
        let got: Vec<u32> = numbers.map(|&bytes| u32::from_le_bytes(bytes)).collect();
        let expected: Vec<u32> = graph.nodes.iter().map(|&word| lxd_node(word)).collect();
        // The first two of an LXD file are its own.
        let after = |nodes: &[u32]| Outcome::default().with(Buffer::Numbers(nodes[2..].to_vec()));
        let (got, expected) = (after(&got), after(&expected));
        self.report
            .hold(Call::ToLxd, THE_LIST, &got, &expected, input);
    }
}

// The letter of tile 0, and after it of every other: the last 64 code points that are their own bytes.
const FIRST_LETTER: u32 = 0xc0;

fn texts() -> LxdTexts {
    LxdTexts {
        labels: (FIRST_LETTER..).take(64).collect(),
        title: Vec::new(),
        date: Vec::new(),
    }
}

fn lxd_node(word: u32) -> u32 {
    let node = kbwg(word);
    u32::from(node.end) << 31
        | u32::from(node.accepts) << 30
        | (FIRST_LETTER + u32::from(node.tile)) << 22
        | node.arc
}

// What the Rust answers where it finds the list's words in the nodes that were built, and the nodes as it loaded them.
fn rust_built(list: &[u8], built: &[u32], nodes_len: usize) -> (Answer, Vec<u32>) {
    let words = building::words(list).expect("the list is refused by nobody");
    let read = read_back(built, &words);
    let mut nodes = read.clone().unwrap_or_default();
    let answer = answered(read, |nodes| Answer::gives(nodes.len() as u64));
    nodes.truncate(nodes_len);
    (answer, nodes)
}
