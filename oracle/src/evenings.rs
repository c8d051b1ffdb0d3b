// Evenings: words that come into play and leave it, call by call over one record
// (document 02, C-17), and what the calls must answer.

mod by_lent;
mod by_rust;
mod list;

use crate::calls::outcome::{ALREADY_IN_PLAY, DONE, FOUND, NOT_IN_PLAY, TOO_SHORT};
use crate::numbers::{Inputs, Unreadable, join, parse};
use crate::requests::write_lines;
use by_lent::LentLexicon;
use by_rust::RustLexicon;
use std::collections::BTreeSet;
use std::io::BufRead;

// What a line begins with.
const EVENING: u64 = 0;
const ARRIVAL: u64 = 1;
const LEAVING: u64 = 2;

// The most numbers that a line has after its length, and the most bytes of a record.
const MOST: usize = 1000;

// What the calls of an evening are lent. The record's bytes are 0 at first.
struct Evening {
    start: u32,
    bytes: usize,
    nodes: Vec<u32>,
    counts: Vec<u32>,
}

// A word arrives, or leaves.
struct Call {
    arrives: bool,
    word: Vec<u8>,
}

pub fn write_calls() -> Result<(), String> {
    write_lines(&list::lines())
}

pub fn write_answers() -> Result<(), String> {
    let mut answers = Vec::new();
    let (mut by_rust, mut by_lent) = (0, 0);
    for (evening, calls) in read()? {
        if let Some(lexicon) = RustLexicon::of(&evening) {
            by_rust += 1;
            answers.extend(play(&lexicon, evening.bytes, &calls));
        } else {
            by_lent += 1;
            let lexicon = LentLexicon::of(&evening);
            answers.extend(play(&lexicon, evening.bytes, &calls));
        }
    }
    write_lines(&answers)?;
    let calls = answers.len();
    eprintln!("{calls} calls, {by_rust} evenings by the Rust, {by_lent} by what is lent");
    Ok(())
}

fn read() -> Result<Vec<(Evening, Vec<Call>)>, String> {
    let mut evenings = Vec::new();
    for (index, line) in std::io::stdin().lock().lines().enumerate() {
        let line = line.map_err(|e| e.to_string())?;
        if !line.starts_with('#') {
            read_line(&line, &mut evenings)
                .map_err(|why| format!("line {}: {line:?}: {why}", index + 1))?;
        }
    }
    Ok(evenings)
}

fn read_line(line: &str, evenings: &mut Vec<(Evening, Vec<Call>)>) -> Result<(), Unreadable> {
    let numbers = parse(line)?;
    let mut inputs = Inputs(&numbers);
    let kind = inputs.number(LEAVING)?;
    let len = inputs.number(MOST as u64)?;
    if len != inputs.left() {
        return Err(format!("{} numbers where {len} are said", inputs.left()));
    }
    if kind == EVENING {
        evenings.push((read_evening(&mut inputs)?, Vec::new()));
    } else {
        let (_, calls) = evenings.last_mut().ok_or("no evening has begun")?;
        calls.push(Call {
            arrives: kind == ARRIVAL,
            word: inputs.bytes_of(inputs.left())?,
        });
    }
    Ok(())
}

fn read_evening(inputs: &mut Inputs) -> Result<Evening, Unreadable> {
    Ok(Evening {
        start: inputs.word()?,
        bytes: inputs.number(MOST as u64)? as usize,
        nodes: inputs.words()?,
        counts: inputs.words_of(inputs.left())?,
    })
}

// What an answer is made from.
trait Lexicon {
    // By what a word is kept while it is in play.
    type Word: Ord;

    // How many words the start has, or the refusal.
    fn count(&self) -> Result<u32, u64>;

    // The word with these tiles, or the refusal.
    fn find(&self, tiles: &[u8]) -> Result<Self::Word, u64>;

    fn number_of(&self, word: &Self::Word) -> u32;

    // The word with a number below the count.
    fn word_of(&self, number: u32) -> Self::Word;
}

// A line for each call: its answer, and the record after it.
fn play<L: Lexicon>(lexicon: &L, bytes: usize, calls: &[Call]) -> Vec<String> {
    let mut in_play = BTreeSet::new();
    let mut answers = Vec::new();
    for call in calls {
        let (refusal, left) = match admit(lexicon, bytes, &mut in_play, call) {
            Ok(count) => (DONE, not_in_play(lexicon, count, &in_play)),
            Err(refusal) => (refusal, [0; 3]),
        };
        let record = record(lexicon, bytes, &in_play);
        answers.push(join(&[&[refusal], &left[..], &record].concat()));
    }
    answers
}

// The lexicon's count where the call is not refused. "Checks: 14 for a start not lent,
// 11 for too few bits, a refusal of word numbers, 29 for a word not in the lexicon ..,
// 30 for an arrival of a word in play, 31 for leaving when it isn't." A refused call
// leaves those in play as they were.
fn admit<L: Lexicon>(
    lexicon: &L,
    bytes: usize,
    in_play: &mut BTreeSet<L::Word>,
    call: &Call,
) -> Result<u32, u64> {
    let count = lexicon.count()?;
    if 8 * bytes < count as usize {
        return Err(TOO_SHORT);
    }
    let word = lexicon.find(&call.word)?;
    match call.arrives {
        true => in_play.insert(word).then_some(count).ok_or(ALREADY_IN_PLAY),
        false => in_play.remove(&word).then_some(count).ok_or(NOT_IN_PLAY),
    }
}

// FOUND REMAINING LOWEST: "the number of words not yet in play and the lowest number
// among them, or none"; "the count is the lexicon's count less the words whose last
// accepted call was an arrival".
fn not_in_play<L: Lexicon>(lexicon: &L, count: u32, in_play: &BTreeSet<L::Word>) -> [u64; 3] {
    let remaining = u64::from(count) - in_play.len() as u64;
    match (0..count).find(|&number| !in_play.contains(&lexicon.word_of(number))) {
        Some(lowest) => [FOUND, remaining, lowest.into()],
        None => [0, remaining, 0],
    }
}

// "Bit n mod 8 of lent byte n / 8 records word number n of the start node."
fn record<L: Lexicon>(lexicon: &L, bytes: usize, in_play: &BTreeSet<L::Word>) -> Vec<u64> {
    let mut record = vec![0; bytes];
    for word in in_play {
        let number = lexicon.number_of(word);
        record[number as usize / 8] |= 1 << (number % 8);
    }
    record
}
