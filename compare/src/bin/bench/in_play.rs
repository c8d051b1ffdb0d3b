//! Words in play, beside a plain bit set over the same bytes with the Rust's word numbers; and the engine alone on longer and longer records.

use crate::bench::{Bench, row};
use crate::clock::{fastest, in_turns};
use compare::engine::{self, PlayOf, Turn};
use compare::graphs::with_words;
use compare::lexicon::Words;
use compare::paper::walks::word_by_index;
use compare::random::Random;

// So many words make two calls each.
const WORDS: usize = 1_000;

// Whether the word of this number is in play before the first call.
type InPlay = fn(&mut Random, usize) -> bool;

const RECORDS: [(&str, InPlay); 3] = [
    ("over an empty record", |_, _| false),
    ("over a half full one", |random, _| random.flag()),
    ("over one that lacks one word", |_, number| {
        number != 150_000
    }),
];

// A word and its two calls, of which the second undoes the first.
type Calls<'a> = (&'a [u8], [Turn; 2]);

impl Bench {
    // Words anywhere that arrive and leave again or, where they are in play, leave and arrive again. The counts must be there.
    pub fn in_play(&self, random: &mut Random, words: &Words) {
        for (name, in_play) in RECORDS {
            let mut record = vec![0; words.len().div_ceil(8)];
            for number in 0..words.len() {
                record[number / 8] |= u8::from(in_play(random, number)) << (number % 8);
            }
            let calls: Vec<Calls> = (0..WORDS)
                .map(|_| {
                    let number = random.within(0, words.len() as u64) as usize;
                    let turns = match record[number / 8] >> (number % 8) & 1 {
                        0 => [Turn::Arrives, Turn::Leaves],
                        _ => [Turn::Leaves, Turn::Arrives],
                    };
                    (&words[number][..], turns)
                })
                .collect();
            let name = format!("{} calls {name}; the Rust: a plain bit set", 2 * WORDS);
            row(&name, over(self, &calls, record));
        }
    }
}

fn over(bench: &Bench, calls: &[Calls], record: Vec<u8>) -> (f64, f64) {
    let (mut our_bits, mut their_bits) = (record.clone(), record);
    for &(word, turns) in calls {
        for turn in turns {
            let answer = ours(bench, turn, word, &mut our_bits);
            assert_eq!(answer, theirs(bench, turn, word, &mut their_bits));
            assert_eq!(our_bits, their_bits);
        }
    }
    in_turns(
        || sum(calls, |turn, word| ours(bench, turn, word, &mut our_bits)),
        || {
            sum(calls, |turn, word| {
                theirs(bench, turn, word, &mut their_bits)
            })
        },
    )
}

fn sum(calls: &[Calls], mut call: impl FnMut(Turn, &[u8]) -> (u32, u32)) -> u32 {
    let mut sum = 0u32;
    for &(word, turns) in calls {
        for turn in turns {
            let (remaining, lowest) = call(turn, word);
            sum = sum.wrapping_add(remaining ^ lowest);
        }
    }
    sum
}

// How many words are not in play, and the lowest number among them, or 0.
fn ours(bench: &Bench, turn: Turn, word: &[u8], bits: &mut [u8]) -> (u32, u32) {
    let asked = PlayOf {
        turn,
        counts: &bench.counts,
        start: bench.nodes[0] >> 8,
        word,
    };
    let answer = engine::in_play(&bench.nodes, &asked, bits);
    assert_eq!(answer.refusal, 0);
    (answer.remaining as u32, answer.value as u32)
}

fn theirs(bench: &Bench, turn: Turn, word: &[u8], bits: &mut [u8]) -> (u32, u32) {
    let start = bench.nodes[0] >> 8;
    let number = bench.rust.get_word_index(&bench.counts, start as i32, word);
    plain(bits, bench.counts[start as usize], number, turn)
}

// The change of one bit; how many of the first so many are then clear, and the lowest of these, or 0.
fn plain(bits: &mut [u8], words: u32, number: u32, turn: Turn) -> (u32, u32) {
    let (byte, bit) = (&mut bits[number as usize / 8], 1 << (number % 8));
    assert!(number < words && (*byte & bit != 0) == (turn == Turn::Leaves));
    *byte ^= bit;
    let bits = &bits[..words.div_ceil(8) as usize];
    let (groups, rest) = bits.split_at(words as usize / 64 * 8);
    let groups = groups.as_chunks().0;
    let mut last = [0; 8];
    last[..rest.len()].copy_from_slice(rest);
    let clear = |group: &[u8; 8]| !u64::from_le_bytes(*group);
    let last = clear(&last) & ((1 << (words % 64)) - 1);
    let in_groups: u32 = groups.iter().map(|group| clear(group).count_ones()).sum();
    let mut all = (0..).zip(groups.iter().map(clear).chain([last]));
    let lowest = all.find(|&(_, clear)| clear != 0);
    let lowest = lowest.map_or(0, |(at, clear)| 64 * at + clear.trailing_zeros());
    (in_groups + last.count_ones(), lowest)
}

// The fewest words of a record that is made longer.
const FEWEST: u32 = 1_000_000;

/// The time for each byte of the record must not grow.
pub fn print_hostile() {
    println!("| | N | ns a byte, N | 2N | 4N |");
    println!("|---|---|---|---|---|");
    grows("record, none in play", |record| record.fill(0));
    grows("record, every other word in play", |record| {
        record.fill(0x55);
    });
    grows("record, all in play but for the last two", |record| {
        record.fill(0xff);
        record[record.len() - 1] = 0x3f;
    });
    println!();
}

// The last word arrives and leaves again.
fn grows(name: &str, fill: fn(&mut [u8])) {
    print!("| {name} | {} |", FEWEST / 8);
    for words in [FEWEST, 2 * FEWEST, 4 * FEWEST] {
        let mut bench = Bench::new(with_words(words.into()));
        bench.own_counts();
        let (nodes, counts) = (&bench.nodes, &bench.counts);
        let (last, _) = word_by_index(nodes, counts, nodes[0] >> 8, words - 1, 64);
        let mut record = vec![0; words as usize / 8];
        fill(&mut record);
        let time = fastest(|| {
            let turns = [Turn::Arrives, Turn::Leaves];
            turns.map(|turn| ours(&bench, turn, &last, &mut record))
        });
        print!(" {:.3} |", time * 1e9 / 2.0 / record.len() as f64);
    }
    println!();
}
