//! Words and their numbers, run lookup, and the run cursor.

use crate::behind_a_call;
use crate::bench::{Bench, row};
use crate::clock::in_turns;
use compare::lexicon::Words;
use compare::random::Random;
use compare::rust_side::{self, Graph};
use machirsun::RunCursor;
use machirsun::ffi::{Cursor, Sought};
use std::hint::black_box;
use wolges::kwg::Node;

const CALLED: &str = "the same, the Rust behind a C call";

impl Bench {
    // The counts must be there.
    pub fn words_to_numbers(&self, words: &Words) {
        let start = self.nodes[0] >> 8;
        let (nodes, counts, rust) = (&self.nodes, &self.counts, &self.rust);
        let ours = |word: &[u8]| machirsun::word_index(nodes, counts, start, word).unwrap();
        let theirs = |word: &[u8]| rust.get_word_index(counts, start as i32, word);
        for (number, word) in (0..).zip(words) {
            assert_eq!((ours(word), theirs(word)), (Some(number), number));
        }
        let times = in_turns(
            || sum(words, |word| ours(word).unwrap_or(0)),
            || sum(words, |word| theirs(word)),
        );
        row("word to number, all", times);
    }

    // The counts must be there.
    pub fn numbers_to_words(&self, words: &Words) {
        let start = self.nodes[0] >> 8;
        let (nodes, counts, rust) = (&self.nodes, &self.counts, &self.rust);
        let ours = |number: u32, word: &mut [u8; 64]| {
            machirsun::word_by_index(nodes, counts, start, number, word)
                .unwrap()
                .unwrap()
        };
        let theirs = |number: u32, word: &mut [u8; 64]| {
            let mut tiles = 0;
            let put = |tile| {
                word[tiles] = tile;
                tiles += 1;
            };
            rust.get_word_by_index(counts, start as i32, number, put)
                .unwrap();
            tiles
        };
        let (mut a, mut b) = ([0; 64], [0; 64]);
        for (number, word) in (0..).zip(words) {
            let tiles = (ours(number, &mut a), theirs(number, &mut b));
            assert_eq!((&a[..tiles.0], &b[..tiles.1]), (&word[..], &word[..]));
        }
        let all: Vec<u32> = (0..words.len() as u32).collect();
        let times = in_turns(
            || sum(&all, |&number| ours(number, &mut a) as u32),
            || sum(&all, |&number| theirs(number, &mut b) as u32),
        );
        row("number to word, all", times);
    }

    // Along every word, so often: each step needs the one before. The counts must be there.
    pub fn seek_along(&self, name: &str, words: &Words, times: usize) {
        let seeks = Seeks::of(self);
        let again = |along: &dyn Fn(&Vec<u8>) -> u32| {
            (0..times).fold(0, |total, _| u32::wrapping_add(total, sum(words, along)))
        };
        let ours = |word: &Vec<u8>| along(word, |p, t| seeks.ours(p, t));
        let theirs = |word: &Vec<u8>| along(word, |p, t| seeks.theirs(p, t));
        let called = |word: &Vec<u8>| along(word, |p, t| seeks.called(p, t));
        for word in words {
            let end = ours(word);
            assert_eq!((end, end), (theirs(word), called(word)));
        }
        row(name, in_turns(|| again(&ours), || again(&theirs)));
        row(CALLED, in_turns(|| again(&ours), || again(&called)));
    }

    // At every node for any tile, which mostly is not there. The counts must be there.
    pub fn seek_anywhere(&self, random: &mut Random) {
        let seeks = Seeks::of(self);
        let places = 0..self.nodes.len() as u32;
        let any: Vec<(u32, u8)> = places
            .map(|place| (place, random.within(1, 27) as u8))
            .collect();
        let ours = |&(place, tile): &(u32, u8)| both(seeks.ours(place, tile));
        let theirs = |&(place, tile): &(u32, u8)| both(seeks.theirs(place, tile));
        let called = |&(place, tile): &(u32, u8)| both(seeks.called(place, tile));
        for &(place, tile) in &any {
            let found = seeks.ours(place, tile);
            assert_eq!(found, seeks.theirs(place, tile));
            assert_eq!(found, seeks.called(place, tile));
        }
        let times = in_turns(|| sum(&any, ours), || sum(&any, theirs));
        row("`seek`, at each node any tile", times);
        row(CALLED, in_turns(|| sum(&any, ours), || sum(&any, called)));
    }

    // Along every run.
    pub fn run_cursor(&self) {
        let (nodes, rust) = (&self.nodes, &self.rust);
        let at: extern "C" fn(&Graph, u32) -> Cursor = black_box(behind_a_call::cursor_at);
        let step: extern "C" fn(&Graph, u32) -> Cursor = black_box(behind_a_call::cursor_step);
        let firsts: Vec<u32> = (0..nodes.len() as u32)
            .filter(|&place| place == 0 || nodes[place as usize - 1] & 0x40 != 0)
            .collect();
        let ours = |&first: &u32| {
            let mut cursor = RunCursor::at(nodes, first).unwrap();
            let mut places = first;
            while let Some(place) = cursor.step().unwrap() {
                places = places.wrapping_add(place);
            }
            places
        };
        // The Rust has no call for a step: its loops over a run are written out like this.
        let theirs = |&first: &u32| {
            let (mut place, mut places) = (first, first);
            while !rust[place as i32].is_end() {
                place += 1;
                places = places.wrapping_add(place);
            }
            places
        };
        let called = |&first: &u32| {
            let mut cursor = at(rust, first);
            assert_eq!(cursor.refusal, 0);
            let mut places = first;
            loop {
                cursor = step(rust, cursor.at);
                if cursor.done {
                    return places;
                }
                places = places.wrapping_add(cursor.at);
            }
        };
        for first in &firsts {
            let places = ours(first);
            assert_eq!((places, places), (theirs(first), called(first)));
        }
        let our_runs = || sum(&firsts, ours);
        row(
            "run cursor, all runs",
            in_turns(our_runs, || sum(&firsts, theirs)),
        );
        row(CALLED, in_turns(our_runs, || sum(&firsts, called)));
    }
}

// Run lookup in one graph: the engine's, the Rust's, and the Rust's behind a call.
struct Seeks<'a> {
    nodes: &'a [u32],
    counts: &'a [u32],
    rust: &'a Graph,
    behind: extern "C" fn(&Graph, *const u32, usize, u32, u8) -> Sought,
}

// The node's place, and the words of its run before it.
type Found = Option<(u32, u32)>;

impl<'a> Seeks<'a> {
    fn of(bench: &'a Bench) -> Self {
        Self {
            nodes: &bench.nodes,
            counts: &bench.counts,
            rust: &bench.rust,
            behind: black_box(behind_a_call::seek),
        }
    }

    #[inline(always)]
    fn ours(&self, place: u32, tile: u8) -> Found {
        let sought = machirsun::seek(self.nodes, self.counts, place, tile);
        let sought = sought.expect("every step is lent")?;
        Some((sought.place, sought.before))
    }

    #[inline(always)]
    fn theirs(&self, place: u32, tile: u8) -> Found {
        rust_side::sought(self.rust, self.counts, place, tile)
    }

    #[inline(always)]
    fn called(&self, place: u32, tile: u8) -> Found {
        let counts = self.counts;
        let sought = (self.behind)(self.rust, counts.as_ptr(), counts.len(), place, tile);
        sought.found.then_some((sought.place, sought.before))
    }
}

// The end of a word, which must be there, and the words passed on the way to it.
fn along(word: &[u8], seek: impl Fn(u32, u8) -> Found) -> u32 {
    let (mut place, mut passed) = (0, 0);
    for &tile in word {
        let (found, before) = seek(place, tile).expect("the word is there");
        place = found;
        passed += before;
    }
    place ^ passed
}

fn both(found: Found) -> u32 {
    found.map_or(0, |(place, before)| place ^ before)
}

fn sum<T>(all: &[T], mut answer: impl FnMut(&T) -> u32) -> u32 {
    all.iter()
        .fold(0, |sum, one| u32::wrapping_add(sum, answer(one)))
}
