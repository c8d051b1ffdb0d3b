//! One method a call: lends patterned buffers, asks the engine, 01 and, in the comparison's domain, the Rust, and hands all three to the
//! report.

mod building;
mod files;
mod in_play;
mod loading;
mod numbers;
mod pages;
mod sets;
mod typed;
mod whole_texts;

pub use building::Building;
pub use files::Fit;
pub use in_play::Playing;
pub use numbers::Counting;
pub use typed::{Labels, Reading};

use crate::answer::{Answer, Buffer, Outcome};
use crate::engine;
use crate::paper::counting::{TOO_MANY, counts, size_and_shape};
use crate::random::Random;
use crate::report::{Call, Report};
use crate::rust_side::{self, Alphabets, Refused};

// The most words, and the most steps to list them, of a graph whose words are listed.
const MOST_WORDS: u32 = 60;
const MOST_STEPS: u64 = 5_000;

/// A graph with what all calls on it share.
pub struct Graph {
    pub nodes: Vec<u32>,
    // The nodes once more, to see whether a call wrote to what it may only read.
    copy: Vec<u32>,
    // As the Rust has it, where it loads.
    rust: Option<rust_side::Graph>,
    // The number of words from each node from which no loop is reached, where it loads.
    settled: Vec<Option<u64>>,
    /// The graph's own counts, where counting refuses nothing.
    pub counts: Option<Vec<u32>>,
}

impl Graph {
    pub fn new(nodes: Vec<u32>) -> Self {
        let loads = size_and_shape(&nodes) == 0;
        let settled = if loads { counts(&nodes) } else { Vec::new() };
        let few = |count: &Option<u64>| count.filter(|&c| c < TOO_MANY).map(|c| c as u32);
        let counts: Option<Vec<u32>> = settled.iter().map(few).collect();
        Self {
            rust: loads.then(|| rust_side::graph_of(&nodes)),
            counts: counts.filter(|_| loads),
            settled,
            copy: nodes.clone(),
            nodes,
        }
    }

    // The Rust is asked about graphs that load, where 01 refuses nothing: but for counting and the writers, which have others, all
    // refusals are + ones.
    fn asked(&self, paper: &Answer) -> Option<&rust_side::Graph> {
        self.rust.as_ref().filter(|_| paper.refusal == 0)
    }

    fn steps_to_count(&self) -> u64 {
        rust_side::recounting(&self.nodes, &self.settled)
    }

    /// Whether the words from a node can be listed.
    pub fn has_few_words(&self, place: u32) -> bool {
        let counts = self.counts.as_ref();
        let count = counts.and_then(|counts| counts.get(place as usize));
        count.is_some_and(|&count| count <= MOST_WORDS) && self.steps_to_count() <= MOST_STEPS
    }

    fn description(&self) -> String {
        let words: Vec<String> = self.nodes.iter().map(|word| format!("{word:x}")).collect();
        format!("nodes [{}]", words.join(" "))
    }
}

/// An error to put into what the engine did, before it is compared.
pub type Spoil = Box<dyn Fn(Call, &mut Outcome)>;

pub struct Checker {
    pub report: Report,
    random: Random,
    alphabets: Alphabets,
    spoil: Option<Spoil>,
    counting: Counting,
    reading: Reading,
    playing: Playing,
    building: Building,
}

impl Checker {
    pub fn new(seed: u64) -> Self {
        Self {
            report: Report::default(),
            random: Random::new(seed),
            alphabets: Alphabets::default(),
            spoil: None,
            counting: Box::new(engine::count_words),
            reading: Reading::default(),
            playing: Box::new(engine::in_play),
            building: Box::new(engine::build),
        }
    }

    /// For the tests: a checker of an engine with an error.
    pub fn spoiled(seed: u64, spoil: Spoil) -> Self {
        Self {
            spoil: Some(spoil),
            ..Self::new(seed)
        }
    }

    /// For the tests: a checker of an engine that counts in its own way.
    pub fn counting(seed: u64, counting: Counting) -> Self {
        Self {
            counting,
            ..Self::new(seed)
        }
    }

    /// For the tests: a checker of an engine that reads texts in its own way.
    pub fn reading(seed: u64, reading: Reading) -> Self {
        Self {
            reading,
            ..Self::new(seed)
        }
    }

    /// For the tests: a checker of an engine that has words in play in its own way.
    pub fn playing(seed: u64, playing: Playing) -> Self {
        Self {
            playing,
            ..Self::new(seed)
        }
    }

    /// For the tests: a checker of an engine that builds in its own way.
    pub fn building(seed: u64, building: Building) -> Self {
        Self {
            building,
            ..Self::new(seed)
        }
    }

    // One call: what the engine did, and what it is held to.
    fn compare(
        &mut self,
        call: Call,
        mut got: Outcome,
        paper: Outcome,
        rust: Option<Outcome>,
        input: &dyn Fn() -> String,
    ) -> Outcome {
        if let Some(spoil) = &self.spoil {
            spoil(call, &mut got);
        }
        self.report.call(call, &got, &paper, rust.as_ref(), input);
        got
    }

    // The same for a call that writes no buffer.
    fn compare_answers(
        &mut self,
        call: Call,
        got: Answer,
        paper: Answer,
        rust: Option<Answer>,
        input: &dyn Fn() -> String,
    ) -> Answer {
        let (got, paper, rust) = (Outcome::of(got), Outcome::of(paper), rust.map(Outcome::of));
        self.compare(call, got, paper, rust, input).answer
    }

    /// The nodes are lent to be read only: after all calls on a graph they are as before.
    pub fn nothing_changed(&mut self, graph: &Graph) {
        let nodes = |list: &[u32]| Outcome::default().with(Buffer::Numbers(list.to_vec()));
        let (got, expected) = (nodes(&graph.nodes), nodes(&graph.copy));
        let input = || format!("one of all calls on {}", graph.description());
        let held_to = "its nodes unchanged";
        self.report
            .hold(Call::ToLxd, held_to, &got, &expected, &input);
    }

    /// A length for a buffer that needs so many entries: mostly just so many, at times a few more, and at times too few.
    pub fn around(&mut self, need: usize) -> usize {
        match self.random.within(0, 12) {
            0..6 => need,
            6..10 => need + self.random.within(1, 9) as usize,
            10 => need.saturating_sub(1),
            _ => self.random.within(0, need as u64 + 1) as usize,
        }
    }
}

// The Rust's answer in the common form.
fn answered<T>(answer: Result<T, Refused>, gives: impl FnOnce(T) -> Answer) -> Answer {
    answer.map_or_else(refused, gives)
}

fn refused(refusal: Refused) -> Answer {
    Answer {
        node: refusal.node,
        tile: refusal.tile,
        arc: refusal.arc,
        ..Answer::refused(refusal.number)
    }
}

fn found(value: Option<u32>) -> Answer {
    Answer::found(value.map(u64::from))
}
