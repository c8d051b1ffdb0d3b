//! The writers of files for other programs.

use super::{Checker, Graph, answered};
use crate::answer::{Answer, Outcome};
use crate::engine::{self, Texts};
use crate::lent::Lent;
use crate::paper::{WithWork, lxd, macondo};
use crate::report::Call;
use crate::rust_side;

/// Whether the lent work list and file are just long enough, or at times more or less.
#[derive(Clone, Copy, Debug, PartialEq, Eq)]
pub enum Fit {
    Just,
    Around,
}

// A call that is refused is lent less than so many bytes, of which it must write none.
const MOST_UNWRITTEN: u64 = 200;

impl Checker {
    pub fn file(&mut self, graph: &Graph, texts: &Texts, fit: Fit) {
        let (_, whole) = judged(graph, texts, usize::MAX, usize::MAX);
        let (mut work_len, mut file_len) = (8 * graph.nodes.len(), whole.len());
        if whole.is_empty() {
            file_len = self.random.within(0, MOST_UNWRITTEN) as usize;
        }
        if fit == Fit::Around {
            (work_len, file_len) = (self.around(work_len), self.around(file_len));
        }
        let work = Lent::numbers(&mut self.random, work_len);
        let file = Lent::bytes(&mut self.random, file_len);
        let (mut list, mut written) = (work.clone(), file.clone());
        let (call, got) = written_by_engine(graph, texts, list.part_mut(), written.part_mut());
        let (paper, bytes) = judged(graph, texts, work_len, file_len);
        // The free part of the work list may have changed.
        let list = list.after_writing(&work.part()[..paper.free]);
        let got = Outcome::of(got).with(list).with(written);
        let expected = |answer: Answer, bytes: &[u8]| {
            let file = file
                .clone()
                .after_writing(&bytes[..bytes.len().min(file_len)]);
            Outcome::of(answer).with(work.clone()).with(file)
        };
        let rust = self.rust_file(graph, texts, &paper.answer);
        let rust = rust.map(|(answer, bytes)| expected(answer, &bytes));
        let paper = expected(paper.answer, &bytes);
        self.compare(call, got, paper, rust, &|| {
            let nodes = graph.description();
            format!("{nodes}, {texts:x?}, {work_len} numbers and {file_len} bytes lent")
        });
    }

    // The Rust's answer and file. Of its refusals these are not + ones.
    fn rust_file(
        &mut self,
        graph: &Graph,
        texts: &Texts,
        paper: &Answer,
    ) -> Option<(Answer, Vec<u8>)> {
        let comparable = matches!(paper.refusal, 0 | 18 | 19 | 20 | 23);
        let rust = graph.rust.as_ref().filter(|_| comparable)?;
        let file = match texts {
            Texts::Macondo(texts) => rust_side::to_macondo(rust, &mut self.alphabets, texts)?,
            Texts::Lxd(texts) => rust_side::to_lxd(rust, &mut self.alphabets, texts)?,
        };
        let bytes = file.clone().unwrap_or_default();
        let answer = answered(file, |file| Answer::gives(file.len() as u64));
        Some((answer, bytes))
    }
}

// What 01 says, and the file where one is written.
fn judged(graph: &Graph, texts: &Texts, work_len: usize, file_len: usize) -> (WithWork, Vec<u8>) {
    match texts {
        Texts::Macondo(texts) => macondo::to_macondo(&graph.nodes, texts, work_len, file_len),
        Texts::Lxd(texts) => lxd::to_lxd(&graph.nodes, texts, work_len, file_len),
    }
}

fn written_by_engine(
    graph: &Graph,
    texts: &Texts,
    work: &mut [u32],
    file: &mut [u8],
) -> (Call, Answer) {
    let nodes = &graph.nodes;
    match texts {
        Texts::Macondo(texts) => {
            let answer = engine::to_macondo(nodes, texts, work, file);
            (Call::ToMacondo, answer)
        }
        Texts::Lxd(texts) => (Call::ToLxd, engine::to_lxd(nodes, texts, work, file)),
    }
}
