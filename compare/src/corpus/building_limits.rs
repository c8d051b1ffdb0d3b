//! Each limit of building met and passed: words, the order of words, the lengths of the lent lists, and the most nodes.

use super::Size;
use super::thinned::Thinned;
use crate::checker::Checker;
use crate::paper::building::{build, work_for};
use crate::word_lists::{LONGEST, TILES, list_of, with_nodes};

pub fn run(checker: &mut Checker, size: Size) {
    let mut calls = Thinned::new(checker);
    lengths(calls.one_in(size.of(1, 1, 1)));
    tiles(calls.one_in(size.of(7, 1, 1)));
    orders(calls.one_in(size.of(1, 1, 1)));
    two_faults(calls.one_in(size.of(1, 1, 1)));
    lent(calls.one_in(size.of(3, 1, 1)));
    if size == Size::Full {
        most_nodes(checker);
    }
}

impl Thinned<'_> {
    // With buffers just long enough, and with none.
    fn build(&mut self, list: &[u8]) {
        if let Some(checker) = self.asked() {
            checker.build(list, 0, 0);
            checker.build_and_read(list);
        }
    }
}

// A word of each length that a byte can say, alone, after another and before another; with all its tiles, with one less, and with none.
fn lengths(calls: &mut Thinned) {
    for len in 0..=u8::MAX {
        let word = vec![2; len.into()];
        for tiles in [
            &word[..],
            word.split_last().map_or(&[], |(_, most)| most),
            &[],
        ] {
            let one = [&[len], tiles].concat();
            calls.build(&one);
            calls.build(&[&[1, 1], &one[..]].concat());
            calls.build(&[&one[..], &[1, 3]].concat());
        }
    }
}

// Each byte as a tile, at each place of a word of the greatest length and of a short one.
fn tiles(calls: &mut Thinned) {
    for tile in 0..=u8::MAX {
        for len in [1, 2, LONGEST] {
            for at in [0, len / 2, len - 1] {
                let mut word = vec![5; len];
                word[at] = tile;
                calls.build(&list_of(&[word.clone()]));
                calls.build(&list_of(&[vec![1], word, vec![TILES; 2]]));
            }
        }
    }
}

const WORDS: [&[u8]; 12] = [
    &[1],
    &[1, 1],
    &[1, 1, 1],
    &[1, 2],
    &[2],
    &[2, 1],
    &[2, 1, 63],
    &[2, 2],
    &[63],
    &[63, 1],
    &[63, 63],
    &[63, 63, 1],
];

// Each two of some words in each order, and each three: equal ones, and such as begin others.
fn orders(calls: &mut Thinned) {
    for first in WORDS {
        for second in WORDS {
            calls.build(&list_of(&[first, second]));
            for third in WORDS {
                calls.build(&list_of(&[first, second, third]));
            }
        }
    }
    let long = [3; LONGEST];
    for len in [1, 2, 62, 63] {
        calls.build(&list_of(&[&long[..len], &long[..]]));
        calls.build(&list_of(&[&long[..], &long[..len]]));
        calls.build(&list_of(&[&long[..len], &[3, 4]]));
    }
}

// Words that are no words, that are not above those before them, and both at once, one after the other in each order.
const FAULTY: [&[u8]; 8] = [
    &[0],
    &[2, 2, 0],
    &[2, 1, 64],
    &[1, 1],
    &[1, 2],
    &[2, 1, 3],
    &[65],
    &[1, 255],
];

fn two_faults(calls: &mut Thinned) {
    for first in FAULTY {
        for second in FAULTY {
            for third in [&[][..], &[1, 1], &[1, 9], &[4, 9]] {
                calls.build(&[&[1, 2], first, second, third].concat());
            }
        }
    }
}

const LISTS: [&[u8]; 9] = [
    &[],
    &[1, 1],
    &[1, 1, 1, 2],
    &[2, 1, 2],
    &[1, 1, 2, 1, 2, 2, 2, 2],
    &[3, 1, 2, 3, 3, 2, 2, 3, 3, 3, 2, 3],
    // Refused, whatever is lent.
    &[0],
    &[1, 2, 1, 1],
    &[2, 1],
];

// Every number of nodes up to a few more than are needed, and work lists of about the right length and of none.
fn lent(calls: &mut Thinned) {
    for list in LISTS {
        let need = work_for(list.len());
        let (_, graph) = build(list, need, usize::MAX);
        let works = [0, 1, 63, 64, 65, 8 * list.len(), need - 8, need - 1];
        for work_len in works.into_iter().chain([need, need + 1, need + 9]) {
            for nodes_len in 0..=graph.len() + 3 {
                if let Some(checker) = calls.asked() {
                    checker.build(list, work_len, nodes_len);
                }
            }
        }
    }
}

const MOST: usize = 1 << 24;

// As many nodes as there may be; and one node more, and so many that no numbers of 24 bits are left for them, both refused before their room is.
fn most_nodes(checker: &mut Checker) {
    for (nodes, nodes_len) in [(MOST, MOST), (MOST + 1, 0), (MOST + (1 << 20), 0)] {
        let list = list_of(&with_nodes(nodes));
        checker.build(&list, work_for(list.len()), nodes_len);
    }
}
