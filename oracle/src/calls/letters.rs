// Calls 9 to 13: a tile in a run, a step along a run, the tiles of each run,
// and the alpha sets of a tally of letters.

mod requests;

use super::graphs::kwg_of;
use super::outcome::{DONE, FOUND};
use super::{Case, Family};
use crate::kwg::{Kwg, Node, Node24};
use crate::numbers::{Inputs, Unreadable};

const SEEK: u64 = 9;
const STEP: u64 = 10;
const LETTER_BITS: u64 = 11;
const ACCEPTS_ALPHA: u64 = 12;
const ALPHA_CROSS_SET: u64 = 13;

pub const FAMILY: Family = Family {
    list: "letters",
    calls: SEEK..=ALPHA_CROSS_SET,
    requests: requests::requests,
    answer,
};

fn answer(call: u64, inputs: &mut Inputs) -> Result<Case, Unreadable> {
    let words = inputs.words()?;
    let graph = kwg_of(&words);
    match call {
        SEEK => seek(&graph, &words, inputs),
        STEP => step(&graph, &words, inputs),
        LETTER_BITS => letter_bits(&graph, words, inputs),
        _ => alpha(call, &graph, words, inputs),
    }
}

fn alpha(
    call: u64,
    graph: &Kwg<Node24>,
    words: Vec<u32>,
    inputs: &mut Inputs,
) -> Result<Case, Unreadable> {
    let bytes = inputs.bytes()?;
    inputs.end()?;
    let value = match call {
        ACCEPTS_ALPHA => graph.accepts_alpha(&bytes).into(),
        _ => graph.compute_alpha_cross_set(&bytes),
    };
    Ok(Case {
        words,
        bytes,
        answer: vec![DONE, value],
    })
}

// The Rust's `seek` takes no counts. The words before the node are the difference
// that its `get_word_index` takes at a tile: the count of the run's first node less
// that of the node found.
fn seek(graph: &Kwg<Node24>, words: &[u32], inputs: &mut Inputs) -> Result<Case, Unreadable> {
    let counts = inputs.words_of(words.len() as u64)?;
    let place = inputs.index()?;
    let tile = inputs.byte()?;
    inputs.end()?;
    let answer = match graph.seek(place, tile) {
        -1 => vec![DONE, 0, 0, 0],
        found => {
            let first = counts[graph[place].arc_index() as usize];
            let before = first.checked_sub(counts[found as usize]);
            let before = before.ok_or("a difference of counts is below 0")?;
            vec![DONE, FOUND, found as u64, before.into()]
        }
    };
    let asked = [place as u32, tile.into(), words.len() as u32];
    Ok(Case::of_words([&asked, words, &counts].concat(), answer))
}

// The Rust has no call for it: its loops over a run are written out, each with
// this test before this step.
fn step(graph: &Kwg<Node24>, words: &[u32], inputs: &mut Inputs) -> Result<Case, Unreadable> {
    let place = inputs.index()?;
    inputs.end()?;
    let answer = if graph[place].is_end() {
        vec![DONE, 1, place as u64]
    } else {
        vec![DONE, 0, place as u64 + 1]
    };
    Ok(Case::of_words([&[place as u32], words].concat(), answer))
}

fn letter_bits(
    graph: &Kwg<Node24>,
    words: Vec<u32>,
    inputs: &mut Inputs,
) -> Result<Case, Unreadable> {
    inputs.end()?;
    let bits = graph.compute_letter_bits();
    let answer = [&[DONE], &*bits.letter_bits, &*bits.accepting_bits].concat();
    Ok(Case::of_words(words, answer))
}
