//! Counting, run lookup, the run cursor and both conversions.

use super::{Checker, Graph, answered, found, refused};
use crate::answer::{Answer, Buffer, Outcome};
use crate::engine;
use crate::lent::Lent;
use crate::paper::counting::{self, TOO_MANY};
use crate::paper::runs::{ascend, run};
use crate::paper::walks;
use crate::paper::words::words;
use crate::report::Call;
use crate::rust_side::{self, PANICKED, Refused};

// The Rust's counter may call itself so often; where it would do so more often it is not asked.
const MOST_CALLS: u64 = 2_000_000;

const LISTED: &str = "the words listed";

/// The call that counts: the engine's, or in the tests that of one with an error.
pub type Counting = Box<dyn Fn(&[u32], &mut [u32], &mut [u32]) -> Answer>;

impl Checker {
    pub fn count_words(&mut self, graph: &Graph, counts_len: usize, work_len: usize) {
        let counts = Lent::numbers(&mut self.random, counts_len);
        let work = Lent::numbers(&mut self.random, work_len);
        let (mut lent, mut list, mut expected) = (counts.clone(), work.clone(), counts.clone());
        let got = (self.counting)(&graph.nodes, lent.part_mut(), list.part_mut());
        let paper = counting::count_words(&graph.nodes, expected.part_mut(), work_len);
        // The free part of the work list alone is the program's choice.
        let list = list.after_writing(&work.part()[..paper.free]);
        let rust = rust_count(graph, &paper.answer).map(|(answer, numbers)| {
            let counts = counts.after_writing(&numbers);
            Outcome::of(answer).with(counts).with(work.clone())
        });
        let got = Outcome::of(got).with(lent).with(list);
        let paper = Outcome::of(paper.answer).with(expected).with(work);
        self.compare(Call::CountWords, got, paper, rust, &|| {
            let nodes = graph.description();
            format!("{nodes}, {counts_len} counts and {work_len} numbers lent")
        });
    }

    /// By the graph's own counts, the numbers from a start name its words in order, and where runs ascend each word gives its number back.
    pub fn numbers_mean_words(&mut self, graph: &Graph, start: u32) {
        let Some(counts) = graph.counts.clone() else {
            return;
        };
        let count = counts[start as usize];
        if !graph.has_few_words(start) {
            return;
        }
        let words = words(&graph.nodes, start as usize);
        let input = || format!("{}, start {start}", graph.description());
        let number = |value: u64| Outcome::of(Answer::gives(value));
        let (got, expected) = (number(count.into()), number(words.len() as u64));
        self.report
            .hold(Call::CountWords, LISTED, &got, &expected, &input);
        let tiles = |word: &[u8]| Outcome::default().with(Buffer::Bytes(word.to_vec()));
        for (at, word) in words.iter().enumerate() {
            let put = self.word_by_index(graph, &counts, start, at as u32, word.len());
            let (got, expected) = (tiles(&put), tiles(word));
            self.report
                .hold(Call::WordByIndex, LISTED, &got, &expected, &input);
            if ascend(&graph.nodes) && start != 0 {
                let got = Outcome::of(self.word_index(graph, &counts, start, word));
                let expected = Outcome::of(Answer::found(Some(at as u64)));
                self.report
                    .hold(Call::WordIndex, LISTED, &got, &expected, &input);
            }
        }
    }

    pub fn seek(&mut self, graph: &Graph, counts: &[u32], place: u32, tile: u8) -> Answer {
        let got = engine::seek(&graph.nodes, counts, place, tile);
        let paper = walks::run_lookup(&graph.nodes, counts, place, tile);
        let paper = paper.map_or_else(Answer::refused, sought);
        let rust = graph.asked(&paper);
        let rust = rust.map(|rust| rust_side::seek(rust, counts, place, tile));
        let rust = rust.map(|answer| answered(answer, sought));
        self.compare_answers(Call::Seek, got, paper, rust, &|| {
            let nodes = graph.description();
            format!("{nodes}, counts {counts:x?}, place {place}, tile {tile}")
        })
    }

    /// By the graph's own counts, where runs ascend, the words before a node of a run are those of the run that begin below its tile.
    pub fn words_before_mean_words(&mut self, graph: &Graph, place: u32) {
        let (Some(counts), Some(node)) = (&graph.counts, graph.nodes.get(place as usize)) else {
            return;
        };
        let first = node >> 8;
        if first == 0 || !graph.has_few_words(first) || !ascend(&graph.nodes) {
            return;
        }
        let words = words(&graph.nodes, first as usize);
        for node in run(&graph.nodes, first as usize) {
            let got = self.seek(graph, counts, place, node.tile).before;
            let below = words.iter().filter(|word| word[0] < node.tile).count();
            let number = |value: u64| Outcome::of(Answer::gives(value));
            let input = || format!("{}, place {place}, {node:?}", graph.description());
            self.report.hold(
                Call::Seek,
                LISTED,
                &number(got),
                &number(below as u64),
                &input,
            );
        }
    }

    /// A cursor at a place, and one step from there.
    pub fn cursor(&mut self, graph: &Graph, at: u32) {
        let input = || format!("{}, at {at}", graph.description());
        let got = engine::cursor_at(&graph.nodes, at);
        let paper = walks::cursor_at(&graph.nodes, at);
        self.compare_answers(Call::CursorAt, got, paper, None, &input);

        let got = engine::cursor_step(&graph.nodes, at);
        let paper = walks::cursor_step(&graph.nodes, at);
        let moved = |next: Option<u32>| Answer {
            flag: next.is_none(),
            ..Answer::gives(next.unwrap_or(at).into())
        };
        let rust = graph.asked(&paper);
        let rust = rust.map(|rust| answered(rust_side::run_step(rust, at), moved));
        self.compare_answers(Call::CursorStep, got, paper, rust, &input);
    }

    pub fn word_index(&mut self, graph: &Graph, counts: &[u32], start: u32, word: &[u8]) -> Answer {
        let got = engine::word_index(&graph.nodes, counts, start, word);
        let paper = walks::found(walks::word_index(&graph.nodes, counts, start, word));
        let rust = graph.asked(&paper);
        let rust = rust.map(|rust| rust_side::word_index(rust, counts, start, word));
        let rust = rust.map(|answer| answered(answer, found));
        // The Rust reads a run's first count before it looks for the tile: where there is no word it may panic for a count that is not lent.
        let read = paper.flag || counts.len() >= graph.nodes.len();
        let rust = rust.filter(|answer| read || answer.refusal != PANICKED);
        self.compare_answers(Call::WordIndex, got, paper, rust, &|| {
            let nodes = graph.description();
            format!("{nodes}, counts {counts:x?}, start {start}, word {word:?}")
        })
    }

    /// Answers the tiles of the word, where there is one.
    pub fn word_by_index(
        &mut self,
        graph: &Graph,
        counts: &[u32],
        start: u32,
        number: u32,
        room: usize,
    ) -> Vec<u8> {
        let before = Lent::bytes(&mut self.random, room);
        let mut word = before.clone();
        let got = engine::word_by_index(&graph.nodes, counts, start, number, word.part_mut());
        let tiles = word.part()[..room.min(got.value as usize)].to_vec();
        let (put, end) = walks::word_by_index(&graph.nodes, counts, start, number, room);
        let whole = |put: &[u8], whole: bool| Answer::found(whole.then_some(put.len() as u64));
        let paper = end.map_or_else(Answer::refused, |is_whole| whole(&put, is_whole));
        let rust = graph.asked(&paper).map(|rust| {
            let answer = rust_side::word_by_index(rust, counts, start, number);
            let (put, is_whole) = answer.clone().unwrap_or_default();
            let answer = answered(answer, |_| whole(&put, is_whole));
            Outcome::of(answer).with(before.clone().after_writing(&put[..put.len().min(room)]))
        });
        let got = Outcome::of(got).with(word);
        let paper = Outcome::of(paper).with(before.after_writing(&put));
        self.compare(Call::WordByIndex, got, paper, rust, &|| {
            let nodes = graph.description();
            format!("{nodes}, counts {counts:x?}, start {start}, number {number}, room {room}")
        });
        tiles
    }
}

// What run lookup answers: the node found, and the words before it.
fn sought(answer: Option<(u32, u32)>) -> Answer {
    let (place, before) = answer.unwrap_or((0, 0));
    Answer {
        before: before.into(),
        flag: answer.is_some(),
        ..Answer::gives(place.into())
    }
}

// The Rust's answer and counts, zeros where it refuses; none where it is not asked.
fn rust_count(graph: &Graph, paper: &Answer) -> Option<(Answer, Vec<u32>)> {
    let comparable = matches!(paper.refusal, 0 | 12 | 13);
    if !comparable || graph.steps_to_count() > MOST_CALLS {
        return None;
    }
    let zeros = vec![0; graph.nodes.len()];
    Some(match rust_side::count_words(graph.rust.as_ref()?) {
        Ok(counts) => (Answer::default(), counts),
        Err(r) if paper.refusal == 12 && comes_to_a_loop(graph, paper.node, &r) => (*paper, zeros),
        Err(r) => (refused(r), zeros),
    })
}

// Where the paper says 12 the Rust names the node at which its own walk comes back to its path: that one must loop, and not be lower than the
// lowest. It may say 13 too, where a node has too many words besides.
fn comes_to_a_loop(graph: &Graph, lowest: u64, refusal: &Refused) -> bool {
    let too_many = |count: &u64| *count >= TOO_MANY;
    match refusal.number {
        12 => {
            refusal.node >= lowest && counting::reaches_itself(&graph.nodes, refusal.node as usize)
        }
        13 => graph.settled.iter().flatten().any(too_many),
        _ => false,
    }
}
