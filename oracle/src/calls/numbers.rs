// Calls 6 to 8: the words counted, the number of a word, the word of a number.

pub mod in_range;
mod loops;
mod requests;

use super::graphs::{kwg_of, nodes_of, reaches_itself};
use super::outcome::{ABSENT, DONE, FOUND, LOOP, TOO_MANY, fewer_words, named_in, unknown};
use super::{Case, Family};
use crate::numbers::{Inputs, Unreadable};

const COUNT: u64 = 6;
const WORD_TO_NUMBER: u64 = 7;
const NUMBER_TO_WORD: u64 = 8;

pub const FAMILY: Family = Family {
    list: "numbers",
    calls: COUNT..=NUMBER_TO_WORD,
    requests: requests::requests,
    answer,
};

fn answer(call: u64, inputs: &mut Inputs) -> Result<Case, Unreadable> {
    let words = inputs.words()?;
    match call {
        COUNT => count(words, inputs),
        WORD_TO_NUMBER => number_of_word(&words, inputs),
        _ => word_of_number(&words, inputs),
    }
}

// After a refusal there are no counts.
fn count(words: Vec<u32>, inputs: &mut Inputs) -> Result<Case, Unreadable> {
    inputs.end()?;
    let mut answer = vec![DONE, 0, 0];
    match kwg_of(&words).count_words_alloc() {
        Ok(counts) => answer.extend(counts.iter().map(|&count| u64::from(count))),
        Err(refusal) => {
            let refused = refused_count(&words, &refusal.to_string());
            (answer[0], answer[2]) = refused.ok_or_else(|| unknown(&refusal))?;
            answer.resize(answer.len() + words.len(), 0);
        }
    };
    Ok(Case::of_words(words, answer))
}

// The refusal, and the node that it carries. The Rust's message names the node at
// which its walk comes back to its path; that one must loop, and the lowest that
// does is stored.
fn refused_count(words: &[u32], message: &str) -> Option<(u64, u64)> {
    if message == "the word graph holds too many words to count" {
        return Some((TOO_MANY, 0));
    }
    let named = named_in(message, "the word graph loops back to node ", "")?;
    let named: usize = named.parse().ok()?;
    let nodes = nodes_of(words);
    let lowest = (0..nodes.len()).find(|&place| reaches_itself(&nodes, place))?;
    reaches_itself(&nodes, named).then_some((LOOP, lowest as u64))
}

fn number_of_word(words: &[u32], inputs: &mut Inputs) -> Result<Case, Unreadable> {
    let counts = inputs.words_of(words.len() as u64)?;
    let start = inputs.index()?;
    let word = inputs.bytes()?;
    inputs.end()?;
    let answer = match kwg_of(words).get_word_index(&counts, start, &word) {
        u32::MAX => ABSENT.to_vec(),
        number => vec![DONE, FOUND, number.into()],
    };
    Ok(Case {
        words: [&[start as u32, words.len() as u32], words, &counts].concat(),
        bytes: word,
        answer,
    })
}

fn word_of_number(words: &[u32], inputs: &mut Inputs) -> Result<Case, Unreadable> {
    let counts = inputs.words_of(words.len() as u64)?;
    let start = inputs.index()?;
    let number = inputs.word()?;
    inputs.end()?;
    let mut word: Vec<u64> = Vec::new();
    let found =
        kwg_of(words).get_word_by_index(&counts, start, number, |tile| word.push(tile.into()));
    let mut answer = match found {
        Ok(()) => vec![DONE, FOUND, word.len() as u64],
        Err(refusal) if fewer_words(&refusal) => ABSENT.to_vec(),
        Err(refusal) => return Err(unknown(&refusal)),
    };
    // Where there is no such word, what was put before the walk ended.
    answer.extend(word);
    let asked = [start as u32, number, words.len() as u32];
    Ok(Case::of_words([&asked, words, &counts].concat(), answer))
}
