//! Words in play: a call, and the calls of a whole evening.

use super::{Checker, Graph};
use crate::answer::{Answer, Outcome};
use crate::engine::{PlayOf, Turn};
use crate::lent::Lent;
use crate::paper::runs::ascend;
use crate::paper::words::words;
use crate::paper::{in_play, row};
use crate::report::Call;
use crate::rust_side::{self, PANICKED};
use std::collections::BTreeSet;

/// The calls for words in play: the engine's, or in the tests those of one with an error.
pub type Playing = Box<dyn Fn(&[u32], &PlayOf, &mut [u8]) -> Answer>;

// The longest record that is put into a set for the Rust.
const LONGEST_IN_A_SET: usize = 1 << 12;

const EVENING: &str = "the evening";

impl Checker {
    /// Answers the record after the call too.
    pub fn in_play(&mut self, graph: &Graph, asked: &PlayOf, record: &[u8]) -> (Answer, Vec<u8>) {
        let before = Lent::bytes(&mut self.random, record.len()).after_writing(record);
        let counts = Lent::numbers(&mut self.random, asked.counts.len());
        let counts = counts.after_writing(asked.counts);
        let word = Lent::bytes(&mut self.random, asked.word.len()).after_writing(asked.word);
        // Counts and word are lent to be read only.
        let (read, tiles) = (counts.clone(), word.clone());
        let lent = PlayOf {
            counts: read.part(),
            word: tiles.part(),
            ..*asked
        };
        let mut after = before.clone();
        let got = (self.playing)(&graph.nodes, &lent, after.part_mut());
        let left = after.part().to_vec();
        let got = Outcome::of(got).with(after).with(read).with(tiles);
        let outcome = |(answer, record): (Answer, Vec<u8>)| {
            let after = before.clone().after_writing(&record);
            let outcome = Outcome::of(answer).with(after);
            outcome.with(counts.clone()).with(word.clone())
        };
        let paper = in_play::in_play(&graph.nodes, asked, record);
        let rust = rust_in_play(graph, asked, record, &paper.0).map(outcome);
        let input = || description(graph, asked, record);
        let got = self.compare(call(asked.turn), got, outcome(paper), rust, &input);
        (got.answer, left)
    }

    /// "for every list of these calls with one start node over one record, empty at first, that nobody else writes, on a graph that loads, counts
    /// and ascends, lent with its own counts, the count is the lexicon's count less the words whose last accepted call was an arrival."
    pub fn evening(
        &mut self,
        graph: &Graph,
        start: u32,
        record_len: usize,
        calls: &[(Turn, Vec<u8>)],
    ) {
        let Some(counts) = graph.counts.as_ref().filter(|_| ascend(&graph.nodes)) else {
            return;
        };
        let mut evening = Evening::of(graph, start);
        let mut record = vec![0; record_len];
        for (at, &(turn, ref word)) in calls.iter().enumerate() {
            let asked = PlayOf {
                turn,
                counts,
                start,
                word,
            };
            let got;
            (got, record) = self.in_play(graph, &asked, &record);
            let expected = Outcome::of(evening.call(turn, word, got.refusal == 0));
            let input = || {
                let calls = &calls[..=at];
                format!("{}, start {start}, calls {calls:?}", graph.description())
            };
            let got = Outcome::of(got);
            self.report
                .hold(call(turn), EVENING, &got, &expected, &input);
        }
    }
}

fn call(turn: Turn) -> Call {
    match turn {
        Turn::Arrives => Call::Arrive,
        Turn::Leaves => Call::Leave,
    }
}

fn description(graph: &Graph, asked: &PlayOf, record: &[u8]) -> String {
    let (nodes, counts) = (graph.description(), asked.counts);
    let (turn, start, word) = (asked.turn, asked.start, asked.word);
    format!("{nodes}, counts {counts:x?}, start {start}, {word:?} {turn:?}, record {record:x?}")
}

// The Rust's number of the word, and what then follows by a set; none where it is not asked.
fn rust_in_play(
    graph: &Graph,
    asked: &PlayOf,
    record: &[u8],
    paper: &Answer,
) -> Option<(Answer, Vec<u8>)> {
    let comparable = matches!(paper.refusal, 0 | 29 | 30 | 31);
    let short = record.len() <= LONGEST_IN_A_SET;
    let rust = graph.rust.as_ref().filter(|_| comparable && short)?;
    let rust = rust_side::in_play::in_play(rust, asked, record);
    // As of word numbers: where there is no word the Rust may panic for a count that is not lent.
    let read = paper.refusal != 29 || asked.counts.len() >= graph.nodes.len();
    Some(rust).filter(|(answer, _)| read || answer.refusal != PANICKED)
}

/// What the calls so far have made of a lexicon, without a record: its words in the order of their numbers, and those whose last accepted call
/// was an arrival.
struct Evening {
    words: Vec<Vec<u8>>,
    in_play: BTreeSet<Vec<u8>>,
}

impl Evening {
    /// "A start node 0 is a lexicon of no words."
    fn of(graph: &Graph, start: u32) -> Self {
        Self {
            words: match start {
                0 => Vec::new(),
                start => words(&graph.nodes, start as usize),
            },
            in_play: BTreeSet::new(),
        }
    }

    // What the history says of the next call, which was accepted or was not.
    fn call(&mut self, turn: Turn, word: &[u8], accepted: bool) -> Answer {
        let refusal = self.refusal(turn, word);
        if accepted {
            match turn {
                Turn::Arrives => self.in_play.insert(word.to_vec()),
                Turn::Leaves => self.in_play.remove(word),
            };
        }
        match refusal {
            0 => self.not_yet(),
            _ => Answer::refused(refusal),
        }
    }

    fn refusal(&self, turn: Turn, word: &[u8]) -> u32 {
        let in_play = self.in_play.contains(word);
        row(&[
            (29, &|| !self.words.iter().any(|one| one == word)),
            (30, &|| turn == Turn::Arrives && in_play),
            (31, &|| turn == Turn::Leaves && !in_play),
        ])
    }

    fn not_yet(&self) -> Answer {
        let mut words = self.words.iter();
        let lowest = words.position(|word| !self.in_play.contains(word));
        Answer {
            remaining: self.words.len().saturating_sub(self.in_play.len()) as u64,
            ..Answer::found(lowest.map(|number| number as u64))
        }
    }
}
