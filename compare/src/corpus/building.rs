//! Lexicons from word lists: every small set of words, every short string of bytes, random lists whole and damaged, lists made to be hard, and the
//! words of large lexicons.

use super::Size;
use super::thinned::Thinned;
use super::typed::nth;
use crate::checker::Checker;
use crate::lexicon::{Words, made_up_words};
use crate::paper::building::{build, work_for};
use crate::random::Random;
use crate::word_lists::*;

pub fn run(checker: &mut Checker, size: Size, random: &mut Random) {
    small_sets(Thinned::new(checker).one_in(size.of(61, 1, 1)));
    short_strings(checker, size);
    for _ in 0..size.of(20, 400, 20_000) {
        random_lists(checker, random);
    }
    for words in hard_lists(random, size) {
        whole_list(checker, random, &words);
    }
    for &count in size.of(&[40][..], &[300, 5_000], &[300, 20_000, 200_000]) {
        let words = made_up_words(random, count);
        whole_list(checker, random, &words);
    }
}

// The words of one to three of two tiles, which are 14, in order.
fn short_words() -> Words {
    let mut words: Words = (1..=3)
        .flat_map(|len| (0..1 << len).map(move |number| nth(&[1, 2], len, number)))
        .collect();
    words.sort_unstable();
    words
}

// Each set of these words.
fn small_sets(calls: &mut Thinned) {
    let words = short_words();
    for set in 0..1u32 << words.len() {
        if let Some(checker) = calls.asked() {
            let chosen = (0..words.len()).filter(|at| set >> at & 1 == 1);
            let chosen: Words = chosen.map(|at| words[at].clone()).collect();
            checker.build_and_read(&list_of(&chosen));
        }
    }
}

// Lengths and tiles at their limits, and past them.
const BYTES: [u8; 8] = [0, 1, 2, 3, 63, 64, 65, 255];

fn short_strings(checker: &mut Checker, size: Size) {
    for len in 0..=size.of(4, 5, 6) {
        let one_in = match len {
            0..5 => size.of(7, 1, 1),
            _ => size.of(7, 7, 1),
        };
        let mut calls = Thinned::new(checker);
        calls.one_in(one_in);
        for number in 0..BYTES.len().pow(len) {
            if let Some(checker) = calls.asked() {
                checker.build_and_read(&nth(&BYTES, len, number));
            }
        }
    }
}

// Words of few or many tiles, short or long: the list as it is, and damaged in some way, with buffers of about the right length.
fn random_lists(checker: &mut Checker, random: &mut Random) {
    let most = random.pick(&[3, 12, 60]);
    let count = random.within(0, most) as usize;
    let longest = random.pick(&[2, 3, 6, 15, LONGEST]);
    let greatest = random.pick(&[1, 2, 3, 26, TILES]);
    let shortest = random.pick(&[1, 1, 1, longest]);
    let words = random_words(random, count, (shortest, longest), greatest);
    let list = list_of(&words);
    checker.build_and_read(&list);
    around(checker, &list);
    for _ in 0..4 {
        let damaged = damaged(random, words.clone());
        around(checker, &damaged);
    }
}

// Both buffers of about the right length.
fn around(checker: &mut Checker, list: &[u8]) {
    let (_, graph) = build(list, usize::MAX, usize::MAX);
    let work_len = checker.around(work_for(list.len()));
    let nodes_len = checker.around(graph.len());
    checker.build(list, work_len, nodes_len);
}

// Bytes that are tiles or lengths, and bytes that are not.
const FAULTY: [u8; 8] = [0, 1, 2, 62, 63, 64, 65, 255];

fn damaged(random: &mut Random, words: Words) -> Vec<u8> {
    match words.is_empty() {
        true => vec![random.pick(&FAULTY)],
        false if random.flag() => list_of(&other_words(random, words)),
        false => other_bytes(random, list_of(&words)),
    }
}

fn place(random: &mut Random, len: usize) -> usize {
    random.within(0, len as u64) as usize
}

// One of the words moved, doubled, cut, made longer, or another.
fn other_words(random: &mut Random, mut words: Words) -> Words {
    let (one, other) = (place(random, words.len()), place(random, words.len()));
    match random.within(0, 5) {
        0 => words.swap(one, other),
        1 => words.insert(one, words[other].clone()),
        2 => drop(words[one].pop()),
        3 => words[one].push(random.pick(&FAULTY)),
        _ => words[one] = random_words(random, 1, (1, 3), 3).remove(0),
    }
    words
}

// One of the bytes changed, put in or taken out, or the rest from there lost.
fn other_bytes(random: &mut Random, mut list: Vec<u8>) -> Vec<u8> {
    let at = place(random, list.len());
    match random.within(0, 4) {
        0 => list[at] = random.pick(&FAULTY),
        1 => list.insert(at, random.pick(&FAULTY)),
        2 => drop(list.remove(at)),
        _ => list.truncate(at),
    }
    list
}

// A list of words, whole and without one of them, and with its last byte lost.
fn whole_list(checker: &mut Checker, random: &mut Random, words: &Words) {
    let list = list_of(words);
    checker.build_and_read(&list);
    around(checker, &list[..list.len() - 1]);
    let mut fewer = words.clone();
    fewer.remove(place(random, words.len()));
    around(checker, &list_of(&fewer));
}

fn hard_lists(random: &mut Random, size: Size) -> Vec<Words> {
    let count = size.of(70, 1_500, 30_000);
    let mut lists = vec![
        nothing_shared(random, count),
        one_end(count),
        every_word_of_three(size.of(70, 4_500, 63 * 63 * 63)),
        all_beginnings(random, size.of(3, 30, 400)),
        // One run of 63 nodes, and runs of 63 one below the other.
        every_word_of_three(63),
        wide_runs(size.of(3, 64, 64), 1),
        wide_runs(size.of(3, 64, 64), 31),
        wide_runs(size.of(3, 64, 64), 63),
        sets_of_tiles(size.of(70, 2_000, 65_536)),
        equal_sums(size.of(70, 2_000, 60_000)),
        with_nodes(size.of(300, 70_000, 300_000)),
    ];
    for (shortest, greatest) in [(LONGEST, 2), (1, 3), (1, TILES)] {
        lists.push(random_words(random, count, (shortest, LONGEST), greatest));
    }
    lists
}
