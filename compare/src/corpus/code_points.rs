//! An LXD title, date and letter of one code point: all of Unicode, and numbers that are no code points but could be taken for one.

use super::Size;
use super::loads::SAMPLE;
use super::texts::{labelled, letters};
use crate::checker::{Checker, Fit, Graph};
use crate::windows1252::{LOST, gained};

const UNICODE: u32 = 0x11_0000;

pub fn run(checker: &mut Checker, size: Size) {
    let graph = Graph::new(SAMPLE.to_vec());
    let all = size.of(0x200, 0x2200, UNICODE);
    for code_point in (0..all).chain(look_alikes()) {
        each_place(checker, &graph, code_point);
    }
}

fn each_place(checker: &mut Checker, graph: &Graph, code_point: u32) {
    let title = labelled(letters(3), vec![code_point], Vec::new());
    let date = labelled(letters(3), Vec::new(), vec![code_point]);
    let label = labelled(vec![0x3f, code_point, 0x42], Vec::new(), Vec::new());
    for texts in [title, date, label] {
        checker.file(graph, &texts, Fit::Just);
    }
}

// The neighbours, and the same with a bit that a number of 8, 16 or 24 bits, a code point or a sign would lose.
fn look_alikes() -> impl Iterator<Item = u32> {
    let near = |c: u32| [c - 1, c, c + 1];
    let with = |c: u32| [8, 16, 21, 24, 31].map(|bit| c | 1 << bit);
    let more = [0x41, 0xff, UNICODE - 1, UNICODE, !1];
    let each = LOST.chain(gained()).chain(more);
    each.flat_map(move |c| near(c).into_iter().chain(with(c)))
}
