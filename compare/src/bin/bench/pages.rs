//! Pages of words, beside what they hold: 23 words by number, the Rust's and the engine's own.

use crate::bench::{Bench, row};
use crate::clock::in_turns;
use compare::engine::PageOf;
use compare::random::Random;
use compare::rust_side;
use machirsun::PAGE;

const WORDS_A_PAGE: u32 = 23;
const TITLE: &[u8] = b"Words";

impl Bench {
    // Every page of the lexicon, one anywhere after the other, as viewers turn to them. The counts must be there.
    pub fn pages(&self, random: &mut Random) {
        let start = self.nodes[0] >> 8;
        let (nodes, counts, rust) = (&self.nodes, &self.counts, &self.rust);
        let labels: Vec<u32> = (0x40..=0x5a).collect();
        let all = counts[start as usize];
        let firsts = shuffled(random, (0..all).step_by(WORDS_A_PAGE as usize).collect());
        let numbers = |first: u32| first..all.min(first + WORDS_A_PAGE);

        let write = |first: u32, page: &mut [u8; PAGE]| {
            machirsun::write_page(nodes, counts, &labels, TITLE, start, first, page).unwrap();
            usize::from(page[PAGE - 1])
        };
        let mut word = [0; 64];
        let mut ours = |number: u32| {
            machirsun::word_by_index(nodes, counts, start, number, &mut word)
                .unwrap()
                .unwrap()
        };
        let mut word = [0; 64];
        let mut theirs = |number: u32| {
            let mut tiles = 0;
            let put = |tile| {
                word[tiles] = tile;
                tiles += 1;
            };
            rust.get_word_by_index(counts, start as i32, number, put)
                .unwrap();
            tiles
        };
        let mut page = [0; PAGE];
        for &first in &firsts {
            write(first, &mut page);
            let asked = PageOf {
                counts,
                labels: &labels,
                title: TITLE,
                start,
                first,
            };
            assert_eq!(rust_side::page(rust, &asked).as_deref(), Ok(&page[..]));
        }

        let times = in_turns(
            || sum(&firsts, |first| write(first, &mut page)),
            || sum(&firsts, |first| numbers(first).map(&mut theirs).sum()),
        );
        row("page of 23 words, all; the Rust: number to word", times);
        let times = in_turns(
            || sum(&firsts, |first| write(first, &mut page)),
            || sum(&firsts, |first| numbers(first).map(&mut ours).sum()),
        );
        row("the same; on the right: our number to word", times);
    }
}

fn shuffled(random: &mut Random, mut list: Vec<u32>) -> Vec<u32> {
    list.sort_by_cached_key(|_| random.next());
    list
}

fn sum(firsts: &[u32], mut answer: impl FnMut(u32) -> usize) -> usize {
    firsts.iter().map(|&first| answer(first)).sum()
}
