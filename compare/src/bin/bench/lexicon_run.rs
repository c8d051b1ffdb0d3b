//! Every call on a lexicon of 200,000 made-up words, beside the Rust's.

use crate::bench::Bench;
use crate::building;
use compare::lexicon::{self, Words};
use compare::random::Random;
use machirsun::Format;

const WORDS: usize = 200_000;
const GADDAG_WORDS: usize = 40_000;

// A lexicon that fits the nearest cache, gone through so often that its words add up to as many.
const FEW: usize = 500;
const AGAIN: usize = WORDS / FEW;

pub fn print() {
    let mut random = Random::new(2026);
    let words = lexicon::made_up_words(&mut random, WORDS);
    let mut bench = Bench::new(lexicon::dawg(&words));
    println!(
        "{} words, DAWG of {} nodes\n",
        words.len(),
        bench.nodes.len()
    );
    println!("| | ours, ms | Rust, ms | ratio |");
    println!("|---|---|---|---|");
    bench.loads();
    bench.repack();
    bench.count();
    bench.words_to_numbers(&words);
    bench.numbers_to_words(&words);
    bench.pages(&mut Random::new(23));
    bench.in_play(&mut Random::new(17), &words);
    building::print_row(&words);
    bench.seek_along("`seek`, along all words", &words, 1);
    bench.seek_anywhere(&mut random);
    let few: Words = words.iter().step_by(WORDS / FEW).cloned().collect();
    let mut small = Bench::new(lexicon::dawg(&few));
    small.own_counts();
    let name = format!("`seek`, along {FEW} words {AGAIN} times");
    small.seek_along(&name, &few, AGAIN);
    bench.run_cursor();
    bench.letter_bits();
    let alphagrams = Bench::new(lexicon::dawg(&alphagrams(&words)));
    alphagrams.accepts_alpha(&words);
    alphagrams.cross_sets(&words);
    bench.macondo("Macondo, DAWG", Format::Dawg);
    bench.lxd();
    let few = words.into_iter().step_by(WORDS / GADDAG_WORDS).collect();
    let mut gaddag = Bench::new(lexicon::gaddag(&few));
    let name = format!("Macondo, GADDAG {}k nodes", gaddag.nodes.len() / 1000);
    gaddag.macondo(&name, Format::Gaddag);
    println!();
}

// Each word's letters in ascending order.
fn alphagrams(words: &Words) -> Words {
    let mut sorted = words.clone();
    for word in &mut sorted {
        word.sort_unstable();
    }
    sorted.sort_unstable();
    sorted.dedup();
    sorted
}
