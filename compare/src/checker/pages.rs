//! Pages of words.

use super::{Checker, Graph, answered};
use crate::answer::{Answer, Outcome};
use crate::engine::{self, PageOf};
use crate::lent::Lent;
use crate::paper::pages;
use crate::report::Call;
use crate::rust_side;

impl Checker {
    pub fn page(&mut self, graph: &Graph, asked: &PageOf, page_len: usize) {
        let before = Lent::bytes(&mut self.random, page_len);
        let mut page = before.clone();
        let got = engine::write_page(&graph.nodes, asked, page.part_mut());
        let (paper, bytes) = pages::write_page(&graph.nodes, asked, page_len);
        let rust = graph.asked(&paper).map(|rust| {
            let page = rust_side::page(rust, asked);
            let bytes = page.clone().unwrap_or_default();
            let answer = answered(page, |_| Answer::default());
            Outcome::of(answer).with(before.clone().after_writing(&bytes))
        });
        let got = Outcome::of(got).with(page);
        let paper = Outcome::of(paper).with(before.after_writing(&bytes));
        self.compare(Call::WritePage, got, paper, rust, &|| {
            let (nodes, counts) = (graph.description(), asked.counts);
            let (labels, title) = (asked.labels, asked.title);
            let (start, first) = (asked.start, asked.first);
            format!(
                "{nodes}, counts {counts:x?}, labels {labels:x?}, title {title:x?}, \
                 start {start}, first {first}, {page_len} bytes lent"
            )
        });
    }
}
