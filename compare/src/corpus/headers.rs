//! The header of an LXD file: titles and dates of every length, every kind of code point at each of their places, and refusals that leave
//! the lent bytes as they are.

use super::Size;
use super::loads::SAMPLE;
use super::texts::{LONGEST_DATE, LONGEST_TITLE, character, labelled, letters, with_each};
use crate::checker::{Checker, Fit, Graph};
use crate::engine::Texts;
use crate::graphs::{chain, with_words, without_words};
use crate::random::Random;

// Around the limits of what is its own byte, the first and last that have gained a byte and neighbours, and no code points.
const ODD: [u32; 15] = [
    0, 0x7f, 0x80, 0x9f, 0xa0, 0xff, 0x100, 0x151, 0x152, 0x2122, 0x2123, 0xd800, 0x10_ffff,
    0x11_0000, !0,
];

pub fn run(checker: &mut Checker, size: Size, random: &mut Random) {
    for _ in 0..size.of(1, 1, 20) {
        lengths(checker, random, size.of(11, 1, 1));
        places(checker, random, size.of(11, 1, 1));
        refused_after_the_texts(checker, random);
    }
}

// No code point is 0, so that the text is told from what fills its field.
fn text(random: &mut Random, len: usize) -> Vec<u32> {
    (0..len).map(|_| character(random)).collect()
}

fn lxd(title: Vec<u32>, date: Vec<u32>) -> Texts {
    labelled(letters(3), title, date)
}

// Titles with dates, of each length up to two places past the longest; in files with words and without.
fn lengths(checker: &mut Checker, random: &mut Random, every: usize) {
    let graphs = [SAMPLE.to_vec(), without_words(2)].map(Graph::new);
    for title in 0..=LONGEST_TITLE + 2 {
        for date in (0..=LONGEST_DATE + 2).step_by(every) {
            for graph in &graphs {
                let texts = lxd(text(random, title), text(random, date));
                checker.file(graph, &texts, Fit::Around);
            }
        }
    }
}

// A text of the greatest length, or one too long, with an odd code point at each of its places.
fn places(checker: &mut Checker, random: &mut Random, every: usize) {
    let graph = Graph::new(SAMPLE.to_vec());
    for more in 0..2 {
        let titles = with_each(&text(random, LONGEST_TITLE + more), &ODD);
        for title in titles.into_iter().step_by(every) {
            checker.file(&graph, &lxd(title, text(random, LONGEST_DATE)), Fit::Just);
        }
        let dates = with_each(&text(random, LONGEST_DATE + more), &ODD);
        for date in dates.into_iter().step_by(every) {
            checker.file(&graph, &lxd(text(random, LONGEST_TITLE), date), Fit::Just);
        }
    }
}

// Nothing is wrong with the texts, but there is a tile without a label, a label without a byte, a chain too long, too many words, or too
// little room.
fn refused_after_the_texts(checker: &mut Checker, random: &mut Random) {
    let sample = Graph::new(SAMPLE.to_vec());
    let chain = Graph::new(chain(65, false));
    let words = Graph::new(with_words(u64::from(u32::MAX)));
    for len in [0, 1, LONGEST_DATE, LONGEST_TITLE] {
        let (title, date) = (text(random, len), text(random, len.min(LONGEST_DATE)));
        for labels in [letters(2), vec![0x3f, 0x41, 0x100]] {
            let texts = labelled(labels, title.clone(), date.clone());
            checker.file(&sample, &texts, Fit::Just);
        }
        for graph in [&sample, &chain, &words] {
            checker.file(graph, &lxd(title.clone(), date.clone()), Fit::Around);
        }
    }
}
