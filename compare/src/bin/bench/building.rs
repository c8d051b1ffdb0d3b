//! Lexicons from word lists: beside a plain construction in Rust, and the engine alone on longer and longer lists.

use crate::bench::row;
use crate::clock::{fastest, in_turns};
use compare::lexicon::{Words, made_up_words, node};
use compare::paper::building::{words, work_for};
use compare::random::Random;
use compare::word_lists::*;
use std::collections::HashMap;

/// All words of the lexicon.
pub fn print_row(words: &Words) {
    let list = list_of(words);
    let mut lent = Lent::new(&list);
    assert_eq!(lent.build(&list), plain(&list).len());
    let name = format!(
        "build, {} words in {} bytes; the Rust: runs in a hash map",
        words.len(),
        list.len()
    );
    row(&name, in_turns(|| lent.build(&list), || plain(&list)));
}

struct Lent {
    work: Vec<u32>,
    nodes: Vec<u32>,
}

impl Lent {
    fn new(list: &[u8]) -> Self {
        Self {
            work: vec![1; work_for(list.len())],
            nodes: vec![1; list.len() + 2],
        }
    }

    fn build(&mut self, list: &[u8]) -> usize {
        machirsun::build(list, &mut self.work, &mut self.nodes).expect("the graph is built")
    }
}

// The same graph in another order: a run stands after those that it leads to. The list is checked as the engine checks it.
fn plain(list: &[u8]) -> Vec<u32> {
    let words = words(list).expect("the list is sound");
    let mut runs = Runs {
        nodes: vec![node(0, false, true, 0); 2],
        known: HashMap::new(),
    };
    let root = runs.close(&words, 0);
    runs.nodes[0] = node(0, false, true, root);
    runs.nodes
}

struct Runs {
    nodes: Vec<u32>,
    known: HashMap<Vec<u32>, u32>,
}

impl Runs {
    // The run of words in order that have the first `depth` tiles in common: its place, or 0 where no word goes on.
    fn close(&mut self, words: &[&[u8]], depth: usize) -> u32 {
        let longer = words.partition_point(|word| word.len() <= depth);
        let groups = words[longer..].chunk_by(|a, b| a[depth] == b[depth]);
        let mut run: Vec<u32> = groups
            .map(|group| {
                let accepts = group[0].len() == depth + 1;
                node(
                    group[0][depth],
                    accepts,
                    false,
                    self.close(group, depth + 1),
                )
            })
            .collect();
        let Some(last) = run.last_mut() else {
            return 0;
        };
        *last |= 0x40;
        *self.known.entry(run).or_insert_with_key(|run| {
            self.nodes.extend(run);
            (self.nodes.len() - run.len()) as u32
        })
    }
}

/// The time for each byte of the list must not grow but for the caches.
pub fn print_hostile() {
    println!("| | N | ns a byte, N | 2N | 4N |");
    println!("|---|---|---|---|---|");
    let random = || Random::new(18);
    grows("list, ordinary words", 50_000, |count| {
        made_up_words(&mut random(), count)
    });
    grows("list, words of 3 to 12 of 26 tiles", 50_000, |count| {
        random_words(&mut random(), count, (3, 12), 26)
    });
    grows("list, every word of three tiles", 60_000, |count| {
        every_word_of_three(count)
    });
    grows("list, words of 64 tiles, nothing shared", 15_000, |count| {
        nothing_shared(&mut random(), count)
    });
    grows("list, words of 64 tiles with one end", 15_000, one_end);
    grows("list, words of 64 of two tiles", 15_000, |count| {
        random_words(&mut random(), count, (LONGEST, LONGEST), 2)
    });
    grows(
        "list, words of 64 tiles and all their beginnings",
        500,
        |count| all_beginnings(&mut random(), count),
    );
    grows(
        "list, a run for each set of 16 tiles",
        16_000,
        sets_of_tiles,
    );
    grows(
        "list, runs that lead to runs of equal sums",
        15_000,
        equal_sums,
    );
    println!();
}

fn grows(name: &str, count: usize, words: impl Fn(usize) -> Words) {
    let lists = [count, 2 * count, 4 * count].map(|count| list_of(&words(count)));
    print!("| {name} | {} |", lists[0].len());
    for list in &lists {
        let mut lent = Lent::new(list);
        let time = fastest(|| lent.build(list));
        print!(" {:.1} |", time * 1e9 / list.len() as f64);
    }
    println!();
}
