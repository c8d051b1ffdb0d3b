// Call 19: a graph built from a word list. The Rust's builder is not among the
// sources, and document 02 leaves it out: the nodes are the oracle's own, and stand
// in a list only where the Rust finds the words of the word list in them.

mod by_rust;
mod requests;

use super::outcome::{BAD_WORD, DONE, NOT_ABOVE, TOO_SHORT};
use super::{Case, Family};
use crate::calls::layout::{Fields, Layout};
use crate::calls::samples::head;
use crate::numbers::{Inputs, Unreadable};
use std::collections::BTreeMap;

const BUILD: u64 = 19;

// The most numbers and nodes that a case lends.
const MOST_WORK: u64 = 4096;
const MOST_NODES: u64 = 512;

const LONGEST: u8 = 64;
const GREATEST_TILE: u8 = 63;

pub const FAMILY: Family = Family {
    list: "built",
    calls: BUILD..=BUILD,
    requests: requests::requests,
    answer,
};

fn answer(_call: u64, inputs: &mut Inputs) -> Result<Case, Unreadable> {
    let work = inputs.number(MOST_WORK)?;
    let room = inputs.number(MOST_NODES)?;
    let list = inputs.bytes()?;
    inputs.end()?;
    let answer = match built(&list, work, room)? {
        Ok(nodes) => {
            let nodes = nodes.into_iter().map(u64::from);
            [DONE, nodes.len() as u64]
                .into_iter()
                .chain(nodes)
                .collect()
        }
        Err(refusal) => vec![refusal, 0],
    };
    Ok(Case {
        words: vec![work as u32, room as u32],
        bytes: list,
        answer,
    })
}

// The nodes, or the number of the refusal. So few bytes make no graph with too many
// nodes.
fn built(list: &[u8], work: u64, room: u64) -> Result<Result<Vec<u32>, u64>, Unreadable> {
    let words = match words_of(list) {
        Ok(words) => words,
        Err(refusal) => return Ok(Err(refusal)),
    };
    if work < work_for(list) {
        return Ok(Err(TOO_SHORT));
    }
    let nodes = graph_of(words.clone());
    by_rust::finds(&nodes, &words)?;
    Ok(match room < nodes.len() as u64 {
        true => Err(TOO_SHORT),
        false => Ok(nodes),
    })
}

fn work_for(list: &[u8]) -> u64 {
    8 * list.len() as u64 + 64
}

type Words = Vec<Vec<u8>>;

// The words of a list, or the number of the refusal, word by word.
fn words_of(list: &[u8]) -> Result<Words, u64> {
    let mut words = Words::new();
    let mut rest = list;
    while let [len, after @ ..] = rest {
        if !(1..=LONGEST).contains(len) || after.len() < usize::from(*len) {
            return Err(BAD_WORD);
        }
        let (word, after) = after.split_at(usize::from(*len));
        if word.iter().any(|tile| !(1..=GREATEST_TILE).contains(tile)) {
            return Err(BAD_WORD);
        }
        if words.last().is_some_and(|before| before.as_slice() >= word) {
            return Err(NOT_ABOVE);
        }
        words.push(word.to_vec());
        rest = after;
    }
    Ok(words)
}

fn graph_of(words: Words) -> Vec<u32> {
    let mut nodes = vec![head(0); 2];
    nodes[0].arc_index = run_of(words, &mut nodes, &mut BTreeMap::new());
    let pack = |node| Layout::Kbwg.pack(node).expect("the node fits");
    nodes.iter().map(pack).collect()
}

// The place of the run with these words, 0 for none: the run itself, where it is
// new, and after it what its nodes lead to, one after the other.
fn run_of(words: Words, nodes: &mut Vec<Fields>, places: &mut BTreeMap<Words, i32>) -> i32 {
    if words.is_empty() {
        return 0;
    }
    if let Some(&place) = places.get(&words) {
        return place;
    }
    let mut rests: BTreeMap<u8, Words> = BTreeMap::new();
    for word in &words {
        rests.entry(word[0]).or_default().push(word[1..].to_vec());
    }
    let place = nodes.len();
    places.insert(words, place as i32);
    let last = rests.len() - 1;
    nodes.extend(rests.iter().enumerate().map(|(at, (&tile, rests))| Fields {
        tile,
        accepts: rests.contains(&vec![]),
        is_end: at == last,
        arc_index: 0,
    }));
    for (at, mut longer) in (place..).zip(rests.into_values()) {
        longer.retain(|rest| !rest.is_empty());
        nodes[at].arc_index = run_of(longer, nodes, places);
    }
    place as i32
}
