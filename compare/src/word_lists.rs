//! Word lists in the form that the engine builds from, and words that are made to be hard to build from.

use crate::lexicon::Words;
use crate::random::Random;
use std::collections::BTreeSet;

/// The longest word, and the most tiles.
pub const LONGEST: usize = 64;
pub const TILES: u8 = 63;

/// One length byte and that many tiles a word.
pub fn list_of(words: &[impl AsRef<[u8]>]) -> Vec<u8> {
    let mut list = Vec::new();
    for word in words.iter().map(AsRef::as_ref) {
        list.push(word.len() as u8);
        list.extend(word);
    }
    list
}

/// So many words, or a few less where some are equal, of a number of tiles from a range, each up to the greatest.
pub fn random_words(
    random: &mut Random,
    count: usize,
    lengths: (usize, usize),
    greatest: u8,
) -> Words {
    let (shortest, longest) = (lengths.0 as u64, lengths.1 as u64);
    let words: BTreeSet<Vec<u8>> = (0..count)
        .map(|_| {
            let len = random.within(shortest, longest + 1);
            let tile = |_| random.within(1, u64::from(greatest) + 1) as u8;
            (0..len).map(tile).collect()
        })
        .collect();
    words.into_iter().collect()
}

// The number's digits as three tiles: in the order of the numbers.
fn digits(number: usize) -> [u8; 3] {
    let base = usize::from(TILES);
    [number / base / base, number / base, number].map(|digit| (digit % base) as u8 + 1)
}

/// Words of 64 tiles of which none shares more than its last few tiles with another.
pub fn nothing_shared(random: &mut Random, count: usize) -> Words {
    (0..count)
        .map(|number| {
            let mut word = digits(number).to_vec();
            word.resize_with(LONGEST, || random.within(1, u64::from(TILES) + 1) as u8);
            word
        })
        .collect()
}

/// Words of 64 tiles that all end in the same 61 tiles.
pub fn one_end(count: usize) -> Words {
    let end: Vec<u8> = (0..LONGEST - 3).map(|at| at as u8 % TILES + 1).collect();
    (0..count)
        .map(|number| [&digits(number)[..], &end].concat())
        .collect()
}

/// Every word of three tiles, up to so many: one run of 63 nodes after another is the same.
pub fn every_word_of_three(count: usize) -> Words {
    (0..count).map(|number| digits(number).to_vec()).collect()
}

/// Words of 64 tiles with all their beginnings, each of which accepts.
pub fn all_beginnings(random: &mut Random, words: usize) -> Words {
    let long = random_words(random, words, (LONGEST, LONGEST), TILES);
    let beginnings = long
        .iter()
        .flat_map(|word| (1..=LONGEST).map(|len| word[..len].to_vec()));
    let all: BTreeSet<Vec<u8>> = beginnings.collect();
    all.into_iter().collect()
}

/// Runs of 63 nodes, one below the other: the tile `on` leads to the next, all others are words.
pub fn wide_runs(depth: usize, on: u8) -> Words {
    let mut words = Words::new();
    for run in 0..depth {
        words.extend((1..=TILES).map(|tile| [&vec![on; run][..], &[tile]].concat()));
    }
    words.sort_unstable();
    words
}

/// So many runs that each hold other words: after three tiles each set of tiles up to 16 by the bits of a number, and tile 63.
pub fn sets_of_tiles(count: usize) -> Words {
    let mut words = Words::new();
    for number in 0..count {
        let first = digits(number);
        let tiles = (1..=16).filter(|tile| number >> (tile - 1) & 1 == 1);
        words.extend(
            tiles
                .chain([TILES])
                .map(|tile| [&first[..], &[tile]].concat()),
        );
    }
    words
}

/// Runs of two nodes that lead to runs which a builder numbered before, in either direction of reading: the first node to one after the other of
/// them, the second to one before the other, so that all sums of the two are alike. Lists of this kind fill a single place of a table by sums.
pub fn equal_sums(count: usize) -> Words {
    let mut words = Words::new();
    let numbered = |first: u8, words: &mut Words| {
        let one = |number| [&[first], &digits(number)[..], &[5], &digits(number)].concat();
        words.extend((0..count).map(one));
    };
    numbered(1, &mut words);
    for number in 0..count {
        let pair = [(1, number), (2, count - 1 - number)];
        let one = |(tile, to)| [&[30], &digits(number)[..], &[tile], &digits(to)].concat();
        words.extend(pair.map(one));
    }
    numbered(62, &mut words);
    words
}

/// Words whose graph has just so many nodes, mostly in runs of one: words of up to 64 tiles that begin and end in their number, so that two of
/// them share no more than beginnings and ends of their numbers; and for the last few nodes words of one tile.
pub fn with_nodes(nodes: usize) -> Words {
    let mut words = Words::new();
    // All but nodes 0 and 1.
    let mut left = nodes - 2;
    for number in 0.. {
        if left <= SINGLE.count() {
            break;
        }
        let others = 1 + new_at_ends(number);
        let middle = (LONGEST - 2 * 4).min(left - others);
        left -= others + middle;
        let ends = four_digits(number);
        words.push([&ends[..], &vec![1; middle], &ends].concat());
    }
    words.extend(SINGLE.take(left).map(|tile| vec![tile]));
    words
}

// Tiles that no number up to 63 * 63 * 63 * 2 begins with.
const SINGLE: std::ops::RangeInclusive<u8> = 3..=TILES;

fn four_digits(number: usize) -> [u8; 4] {
    let [second, third, fourth] = digits(number);
    let first = number / usize::from(TILES).pow(3);
    [first as u8 + 1, second, third, fourth]
}

// How many nodes the four digits of a number add where the numbers below it are there: those of beginnings and those of ends that are new. The
// whole number at the end has its node for each word, and is not counted here.
fn new_at_ends(number: usize) -> usize {
    let base = usize::from(TILES);
    let beginnings = (0..4)
        .filter(|&more| number.is_multiple_of(base.pow(more)))
        .count();
    let ends = (1..4).filter(|&len| number < base.pow(len)).count();
    beginnings + ends
}

#[cfg(test)]
mod tests {
    use super::{list_of, with_nodes};
    use crate::paper::building::{build, work_for};

    #[test]
    fn a_graph_has_as_many_nodes_as_are_asked_for() {
        for nodes in (64..600).chain([5_000, 100_000, 300_001]) {
            let list = list_of(&with_nodes(nodes));
            let (answer, _) = build(&list, work_for(list.len()), usize::MAX);
            assert_eq!(answer.answer.value, nodes as u64);
        }
    }
}
