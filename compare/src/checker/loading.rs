//! Begin, feed, finish and repacking.

use super::{Checker, answered, refused};
use crate::answer::{Answer, Outcome};
use crate::lent::Lent;
use crate::paper::loading::{self as paper, Joined};
use crate::report::Call;
use crate::{engine, rust_side};
use machirsun::ffi::Loader;

impl Checker {
    /// A whole load by these pieces: begin, a feed each, finish.
    pub fn load(&mut self, announced: usize, layout: u32, pieces: &[&[u8]], nodes_len: usize) {
        let mut nodes = Lent::numbers(&mut self.random, nodes_len);
        let mut state = self.begin(announced, layout, &nodes);
        let mut joined = Joined::begin(announced, layout, nodes_len);
        for piece in pieces {
            let mut expected = nodes.clone();
            let before = joined.bytes().len();
            let answer = joined.feed(piece, expected.part_mut());
            let rust = rust_feed(&joined, &answer, nodes.clone());
            let got = self.feed(state, piece, &mut nodes, rust);
            // "This, the feeds' answers included, is one claim about the whole list, not one for each call."
            let expected = Outcome::of(answer).with(expected);
            let held_to = "01 on the joined bytes";
            self.report.hold(Call::Feed, held_to, &got, &expected, &|| {
                let joined = &joined.bytes()[..before];
                format!("layout {layout}, joined before {joined:x?}, piece {piece:x?}")
            });
            state = got.answer.state.unwrap_or(state);
        }
        self.finish(state, &mut nodes, joined.whole().map(|file| (file, layout)));
    }

    fn begin(&mut self, announced: usize, layout: u32, nodes: &Lent<u32>) -> Loader {
        let got = engine::begin(announced, layout, nodes.part());
        let paper = paper::begin(announced, layout, nodes.len());
        // Of a length the Rust refuses only what is not whole nodes, before it reads a byte.
        let rust = (paper.refusal == 1 && announced < 1 << 20).then(|| {
            let answer = rust_side::load(&vec![0; announced], layout);
            answered(answer, |_| Answer::default()).with_state(paper::fresh(0, layout))
        });
        let lent = nodes.len();
        let input = || format!("length {announced}, layout {layout}, {lent} nodes lent");
        let answer = self.compare_answers(Call::Begin, got, paper, rust, &input);
        answer.state.unwrap_or(paper::fresh(0, layout))
    }

    fn feed(
        &mut self,
        state: Loader,
        piece: &[u8],
        nodes: &mut Lent<u32>,
        rust: Option<Outcome>,
    ) -> Outcome {
        let mut expected = nodes.clone();
        let got = engine::feed(state, piece, nodes.part_mut());
        let paper = paper::feed(state, piece, expected.part_mut());
        let got = Outcome::of(got).with(nodes.clone());
        let paper = Outcome::of(paper).with(expected);
        let lent = nodes.len();
        let input = || format!("state {state:?}, piece {piece:x?}, {lent} nodes lent");
        self.compare(Call::Feed, got, paper, rust, &input)
    }

    fn finish(&mut self, state: Loader, nodes: &mut Lent<u32>, file: Option<(&[u8], u32)>) {
        let before = nodes.clone();
        let mut expected = nodes.clone();
        let got = engine::finish(state, nodes.part_mut());
        let paper = paper::finish(state, expected.part_mut());
        let got = Outcome::of(got).with(nodes.clone());
        let paper = Outcome::of(paper).with(expected);
        let rust = file.map(|(file, layout)| match rust_side::load(file, layout) {
            Ok(loaded) => Outcome::of(Answer::gives(loaded.len() as u64))
                .with(before.clone().after_writing(&loaded)),
            Err(refusal) => Outcome::of(refused(refusal)).with(before.clone()),
        });
        let input = || format!("state {state:?}, nodes {:x?}", before.part());
        self.compare(Call::Finish, got, paper, rust, &input);
    }

    /// A whole load in one call: the bytes cut into pieces of these lengths, and the rest.
    pub fn load_in_pieces(
        &mut self,
        announced: usize,
        layout: u32,
        bytes: &[u8],
        cuts: &[u32],
        answers_len: usize,
        nodes_len: usize,
    ) {
        let mut answers = Lent::numbers(&mut self.random, answers_len);
        let mut nodes = Lent::numbers(&mut self.random, nodes_len);
        let (mut paper_answers, mut paper_nodes) = (answers.clone(), nodes.clone());
        let pieces = paper::cut(bytes, cuts);
        let lists = (paper_answers.part_mut(), paper_nodes.part_mut());
        let paper = paper::load_in_pieces(announced, layout, &pieces, lists.0, lists.1);
        // "Domain of the comparison": a file of the length announced, where begin refuses nothing.
        let rust = (paper.begun == 0 && announced == bytes.len())
            .then(|| rust_load_in_pieces(bytes, layout, &pieces, &paper, &answers, &nodes));
        let (answers_to, nodes_to) = (answers.part_mut(), nodes.part_mut());
        let got = engine::load_in_pieces(announced, layout, bytes, cuts, answers_to, nodes_to);
        let got = Outcome::of(got).with(answers).with(nodes);
        let paper = Outcome::of(paper).with(paper_answers).with(paper_nodes);
        let input = || {
            format!(
                "length {announced}, layout {layout}, bytes {bytes:x?}, cuts {cuts:?}, {answers_len} answers and {nodes_len} nodes lent"
            )
        };
        self.compare(Call::LoadInPieces, got, paper, rust, &input);
    }

    /// A feed and a finish from any state, also one that no load has.
    pub fn forged(&mut self, state: Loader, piece: &[u8], nodes: &[u32]) {
        let lent = Lent::numbers(&mut self.random, nodes.len()).after_writing(nodes);
        self.feed(state, piece, &mut lent.clone(), None);
        self.finish(state, &mut lent.clone(), None);
    }

    pub fn repack(&mut self, bytes: &[u8], from: u32, to: u32) {
        let mut lent = Lent::bytes(&mut self.random, bytes.len()).after_writing(bytes);
        let (mut expected, mut repacked) = (lent.clone(), lent.clone());
        let got = engine::repack(lent.part_mut(), from, to);
        let paper = paper::repack(expected.part_mut(), from, to);
        let rust = rust_side::repack(repacked.part_mut(), from, to);
        let rust = answered(rust, |()| Answer::default());
        let got = Outcome::of(got).with(lent);
        let paper = Outcome::of(paper).with(expected);
        let rust = Outcome::of(rust).with(repacked);
        let input = || format!("from {from} to {to}, bytes {bytes:x?}");
        self.compare(Call::Repack, got, paper, Some(rust), &input);
    }
}

// The Rust reads a file in pieces of its own and repacks each before it judges the whole: the nodes of the bytes joined so far are those
// bytes repacked. It has no state, so that is 01's.
fn rust_feed(joined: &Joined, paper: &Answer, nodes: Lent<u32>) -> Option<Outcome> {
    if !matches!(paper.refusal, 0 | 6) {
        return None;
    }
    let (repacked, words) = rust_fitting(joined.bytes(), joined.layout());
    let answer = Answer {
        state: paper.state,
        ..answered(repacked, |()| Answer::default())
    };
    Some(Outcome::of(answer).with(nodes.after_writing(&words)))
}

// The same of a whole load: a feed answers as the bytes up to its end are repacked, finish as the file loads, and the nodes that fit stand
// in the table.
fn rust_load_in_pieces(
    file: &[u8],
    layout: u32,
    pieces: &[&[u8]],
    paper: &Answer,
    answers: &Lent<u32>,
    nodes: &Lent<u32>,
) -> Outcome {
    let mut end = 0;
    let mut refusals = Vec::new();
    for piece in pieces.iter().take(answers.len()) {
        end += piece.len();
        let repacked = rust_side::repack(&mut file[..end].to_vec(), layout, 1);
        refusals.push(repacked.map_or_else(|refusal| refusal.number, |()| 0));
    }
    let fitting = rust_fitting(file, layout).1;
    let loaded = rust_side::load(file, layout);
    let table = loaded.as_ref().unwrap_or(&fitting);
    let nodes = nodes.clone().after_writing(table);
    let answer = Answer {
        state: paper.state,
        ..answered(loaded, |loaded| Answer::gives(loaded.len() as u64))
    };
    let answers = answers.clone().after_writing(&refusals);
    Outcome::of(answer).with(answers).with(nodes)
}

// What the Rust answers on repacking bytes for the table, and the nodes before the first that does not fit.
fn rust_fitting(bytes: &[u8], layout: u32) -> (rust_side::Answered<()>, Vec<u32>) {
    let mut bytes = bytes.to_vec();
    let repacked = rust_side::repack(&mut bytes, layout, 1);
    let fitting = repacked.map_or_else(|refusal| refusal.node as usize, |()| bytes.len() / 4);
    let words = bytes.as_chunks().0[..fitting].iter();
    (
        repacked,
        words.map(|&word| u32::from_le_bytes(word)).collect(),
    )
}
