//! Letter bits and alpha sets.

use super::{Checker, Graph, answered};
use crate::answer::{Answer, Outcome};
use crate::lent::Lent;
use crate::paper::{alpha, walks};
use crate::report::Call;
use crate::{engine, rust_side};

impl Checker {
    pub fn letter_bits(&mut self, graph: &Graph, all_len: usize, accepting_len: usize) {
        let all = Lent::sets(&mut self.random, all_len);
        let accepting = Lent::sets(&mut self.random, accepting_len);
        let (mut first, mut second) = (all.clone(), accepting.clone());
        let got = engine::letter_bits(&graph.nodes, first.part_mut(), second.part_mut());
        let got = Outcome::of(got).with(first).with(second);
        let (mut first, mut second) = (all.clone(), accepting.clone());
        let paper = walks::letter_bits(&graph.nodes, first.part_mut(), second.part_mut());
        let rust = graph.asked(&paper).map(|rust| {
            let bits = rust_side::letter_bits(rust);
            let (first, second) = bits.clone().unwrap_or_default();
            Outcome::of(answered(bits, |_| Answer::default()))
                .with(all.after_writing(&first))
                .with(accepting.after_writing(&second))
        });
        let paper = Outcome::of(paper).with(first).with(second);
        let input = || {
            format!(
                "{}, {all_len} and {accepting_len} sets lent",
                graph.description()
            )
        };
        self.compare(Call::LetterBits, got, paper, rust, &input);
    }

    pub fn accepts_alpha(&mut self, graph: &Graph, tally: &[u8]) {
        let got = engine::accepts_alpha(&graph.nodes, tally);
        let paper = alpha::accepts_alpha(&graph.nodes, tally);
        let rust = graph.asked(&paper);
        let rust = rust.map(|rust| answered(rust_side::accepts_alpha(rust, tally), Answer::says));
        let input = || format!("{}, tally {tally:?}", graph.description());
        self.compare_answers(Call::AcceptsAlpha, got, paper, rust, &input);
    }

    pub fn alpha_cross_set(&mut self, graph: &Graph, tally: &[u8]) {
        let got = engine::alpha_cross_set(&graph.nodes, tally);
        let paper = alpha::alpha_cross_set(&graph.nodes, tally);
        let rust = graph.asked(&paper);
        let rust =
            rust.map(|rust| answered(rust_side::alpha_cross_set(rust, tally), Answer::gives));
        let input = || format!("{}, tally {tally:?}", graph.description());
        self.compare_answers(Call::AlphaCrossSet, got, paper, rust, &input);
    }
}
