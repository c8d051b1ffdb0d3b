//! Counts calls by kind, and keeps the smallest input on which the engine and what it is held to differ.

use crate::answer::{Buffer, Outcome};
use std::fmt::Write;

/// The calls of the C interface.
#[derive(Clone, Copy, Debug, PartialEq, Eq)]
pub enum Call {
    Begin,
    Feed,
    Finish,
    LoadInPieces,
    Repack,
    CountWords,
    Seek,
    CursorAt,
    CursorStep,
    WordIndex,
    WordByIndex,
    LetterBits,
    AcceptsAlpha,
    AlphaCrossSet,
    ToMacondo,
    ToLxd,
    WritePage,
    NextWord,
    ReadWords,
    Arrive,
    Leave,
    Build,
}

use Call::*;

pub const CALLS: [Call; 22] = [
    Begin,
    Feed,
    Finish,
    LoadInPieces,
    Repack,
    CountWords,
    Seek,
    CursorAt,
    CursorStep,
    WordIndex,
    WordByIndex,
    LetterBits,
    AcceptsAlpha,
    AlphaCrossSet,
    ToMacondo,
    ToLxd,
    WritePage,
    NextWord,
    ReadWords,
    Arrive,
    Leave,
    Build,
];

#[derive(Clone, Copy)]
pub struct Line {
    pub calls: u64,
    /// Of these: compared with the Rust's answer as well as with 01's.
    pub with_rust: u64,
    pub differences: u64,
    /// How often each refusal was met.
    pub refusals: [u64; REFUSALS],
}

/// 0, and the refusals 1 to 33.
pub const REFUSALS: usize = 34;

/// Where the engine and what it is held to differ.
pub struct Difference {
    pub call: Call,
    pub held_to: &'static str,
    pub input: String,
    pub expected: String,
    pub got: String,
}

impl Default for Line {
    fn default() -> Self {
        Self {
            calls: 0,
            with_rust: 0,
            differences: 0,
            refusals: [0; REFUSALS],
        }
    }
}

impl Line {
    fn refusals_met(&self) -> String {
        let met = (1..REFUSALS).filter(|&number| self.refusals[number] > 0);
        met.map(|number| number.to_string())
            .collect::<Vec<_>>()
            .join(" ")
    }
}

#[derive(Default)]
pub struct Report {
    lines: [Line; CALLS.len()],
    pub smallest: Vec<Difference>,
}

impl Report {
    pub fn line(&self, call: Call) -> Line {
        self.lines[call as usize]
    }

    pub fn calls(&self) -> u64 {
        self.lines.iter().map(|line| line.calls).sum()
    }

    pub fn differences(&self) -> u64 {
        self.lines.iter().map(|line| line.differences).sum()
    }

    /// One call: what the engine did, and what it is held to.
    pub fn call(
        &mut self,
        call: Call,
        got: &Outcome,
        paper: &Outcome,
        rust: Option<&Outcome>,
        input: &dyn Fn() -> String,
    ) {
        let line = &mut self.lines[call as usize];
        line.calls += 1;
        line.with_rust += u64::from(rust.is_some());
        if let Some(met) = line.refusals.get_mut(paper.answer.refusal as usize) {
            *met += 1;
        }
        self.hold(call, "01", got, paper, input);
        if let Some(rust) = rust {
            self.hold(call, "the Rust", got, rust, input);
        }
    }

    /// A further expectation of a call that is counted already.
    pub fn hold(
        &mut self,
        call: Call,
        held_to: &'static str,
        got: &Outcome,
        expected: &Outcome,
        input: &dyn Fn() -> String,
    ) {
        if got == expected {
            return;
        }
        self.lines[call as usize].differences += 1;
        let (expected, got) = parted(expected, got);
        self.keep(Difference {
            call,
            held_to,
            input: input(),
            expected,
            got,
        });
    }

    // The smallest of each call and of each that it is held to.
    fn keep(&mut self, new: Difference) {
        let same = |old: &&mut Difference| old.call == new.call && old.held_to == new.held_to;
        match self.smallest.iter_mut().find(same) {
            Some(old) if old.input.len() > new.input.len() => *old = new,
            Some(_) => {}
            None => self.smallest.push(new),
        }
    }

    pub fn text(&self) -> String {
        let mut text = String::new();
        for call in CALLS {
            let line = self.line(call);
            let _ = writeln!(
                text,
                "{:<13} {:>9} calls, {:>9} compared with the Rust, {:>9} held to the documents alone, {} differences; refusals {}",
                format!("{call:?}"),
                grouped(line.calls),
                grouped(line.with_rust),
                grouped(line.calls - line.with_rust),
                grouped(line.differences),
                line.refusals_met()
            );
        }
        for difference in &self.smallest {
            let _ = writeln!(
                text,
                "{:?}, held to {}: {}\n  expected {}\n  got      {}",
                difference.call,
                difference.held_to,
                shortened(&difference.input),
                difference.expected,
                difference.got
            );
        }
        let (calls, differences) = (grouped(self.calls()), grouped(self.differences()));
        let _ = writeln!(text, "compare: {calls} calls, {differences} differences");
        text
    }
}

// An input is printed whole up to this length.
const LONGEST_INPUT: usize = 1500;

fn shortened(input: &str) -> String {
    let start: String = input.chars().take(LONGEST_INPUT).collect();
    let dots = if start.len() < input.len() { " .." } else { "" };
    format!("{start}{dots}")
}

// The two answers where they differ, or else the first entries of a buffer that do.
fn parted(expected: &Outcome, got: &Outcome) -> (String, String) {
    if expected.answer != got.answer {
        return (
            format!("{:?}", expected.answer),
            format!("{:?}", got.answer),
        );
    }
    for (number, (e, g)) in expected.buffers.iter().zip(&got.buffers).enumerate() {
        let (e, g) = (entries(e), entries(g));
        if e.len() != g.len() {
            let shown = |list: &[u64]| format!("buffer {number} of {} entries", list.len());
            return (shown(&e), shown(&g));
        }
        if let Some(at) = (0..e.len()).find(|&at| e[at] != g[at]) {
            let shown = |list: &[u64]| format!("buffer {number}, entry {at}: {:x}", list[at]);
            return (shown(&e), shown(&g));
        }
    }
    let shown = |outcome: &Outcome| format!("{} buffers", outcome.buffers.len());
    (shown(expected), shown(got))
}

fn entries(buffer: &Buffer) -> Vec<u64> {
    match buffer {
        Buffer::Bytes(list) => list.iter().map(|&entry| entry.into()).collect(),
        Buffer::Numbers(list) => list.iter().map(|&entry| entry.into()).collect(),
        Buffer::Sets(list) => list.clone(),
        Buffer::Sizes(list) => list.iter().map(|&entry| entry as u64).collect(),
    }
}

// 1234567 as 1,234,567.
fn grouped(number: u64) -> String {
    let digits = number.to_string();
    let mut text = String::new();
    for (at, digit) in digits.chars().enumerate() {
        if at > 0 && (digits.len() - at).is_multiple_of(3) {
            text.push(',');
        }
        text.push(digit);
    }
    text
}
