//! Words in play by the Rust's word numbers. It keeps no record of them: that is a set of its standard library here, which is read from the lent
//! bytes and written back to them.

use super::Graph;
use crate::answer::Answer;
use crate::engine::{PlayOf, Turn};
use std::collections::BTreeSet;

/// What the call answers, and the record after it. The start's count must be lent, and have its bits in the record.
pub fn in_play(graph: &Graph, asked: &PlayOf, record: &[u8]) -> (Answer, Vec<u8>) {
    let refused = |number: u32| (Answer::refused(number), record.to_vec());
    let words = match asked.start {
        0 => 0,
        start => asked.counts[start as usize],
    };
    let number = match super::word_index(graph, asked.counts, asked.start, asked.word) {
        Ok(Some(number)) if number < words => number,
        Ok(_) => return refused(29),
        Err(refusal) => return refused(refusal.number),
    };
    let mut set = read(record, words);
    match asked.turn {
        Turn::Arrives if !set.insert(number) => return refused(30),
        Turn::Leaves if !set.remove(&number) => return refused(31),
        _ => {}
    }
    let lowest = (0..words).find(|number| !set.contains(number));
    let answer = Answer {
        remaining: u64::from(words) - set.len() as u64,
        ..Answer::found(lowest.map(u64::from))
    };
    (answer, written(record, words, &set))
}

fn read(record: &[u8], words: u32) -> BTreeSet<u32> {
    let bits = record
        .iter()
        .flat_map(|byte| (0..8).map(move |bit| byte >> bit & 1));
    let numbers = (0..words).zip(bits).filter(|&(_, bit)| bit == 1);
    numbers.map(|(number, _)| number).collect()
}

// The bits past the words stay.
fn written(record: &[u8], words: u32, set: &BTreeSet<u32>) -> Vec<u8> {
    let mut bytes = record.to_vec();
    for number in 0..words {
        bytes[number as usize >> 3] &= !(1 << (number & 7));
    }
    for number in set {
        bytes[*number as usize >> 3] |= 1 << (number & 7);
    }
    bytes
}
