//! Request C-17, words in play: "Bit n mod 8 of lent byte n / 8 records word number n of the start node. A word arrives, or leaves; after each
//! call not refused the answer has the number of words not yet in play and the lowest number among them, or none."

use super::walks::{Step, count, node, word_index};
use crate::answer::Answer;
use crate::engine::{PlayOf, Turn};

/// What the call answers, and the record after it: "A refused call changes no bit."
pub fn in_play(nodes: &[u32], asked: &PlayOf, record: &[u8]) -> (Answer, Vec<u8>) {
    let mut record = record.to_vec();
    match accepted(nodes, asked, &record) {
        Ok((words, number)) => {
            change(&mut record, number, asked.turn);
            (not_yet(&record, words), record)
        }
        Err(refusal) => (Answer::refused(refusal), record),
    }
}

/// The start's count and the word's number, or "Checks: 14 for a start not lent, 11 for too few bits, a refusal of word numbers, 29 for a word
/// not in the lexicon or whose number isn't below the start's count, 30 for an arrival of a word in play, 31 for leaving when it isn't."
fn accepted(nodes: &[u32], asked: &PlayOf, record: &[u8]) -> Step<(u32, u32)> {
    let words = words_of_start(nodes, asked)?;
    if (8 * record.len() as u64) < u64::from(words) {
        return Err(11);
    }
    let number = word_index(nodes, asked.counts, asked.start, asked.word)?;
    let Some(number) = number.filter(|&number| number < words) else {
        return Err(29);
    };
    match (asked.turn, is_in_play(record, number)) {
        (Turn::Arrives, true) => Err(30),
        (Turn::Leaves, false) => Err(31),
        _ => Ok((words, number)),
    }
}

/// "A start node 0 is a lexicon of no words": its count is not read. Of every other start the count is to be lent as the node is.
fn words_of_start(nodes: &[u32], asked: &PlayOf) -> Step<u32> {
    node(nodes, asked.start)?;
    match asked.start {
        0 => Ok(0),
        start => count(asked.counts, start),
    }
}

/// "Bit n mod 8 of lent byte n / 8 records word number n".
fn is_in_play(record: &[u8], n: u32) -> bool {
    record[n as usize / 8] >> (n % 8) & 1 == 1
}

/// A word that arrives is not in play before, and one that leaves is.
fn change(record: &mut [u8], n: u32, turn: Turn) {
    let byte = &mut record[n as usize / 8];
    match turn {
        Turn::Arrives => *byte += 1 << (n % 8),
        Turn::Leaves => *byte -= 1 << (n % 8),
    }
}

/// "the number of words not yet in play and the lowest number among them, or none": bits past the words are not read.
fn not_yet(record: &[u8], words: u32) -> Answer {
    let (mut remaining, mut lowest) = (0, None);
    for number in (0..words).filter(|&number| !is_in_play(record, number)) {
        remaining += 1;
        lowest = lowest.or(Some(number.into()));
    }
    Answer {
        remaining,
        ..Answer::found(lowest)
    }
}
