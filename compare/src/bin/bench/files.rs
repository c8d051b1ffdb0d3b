//! Files for other programs.

use crate::bench::{Bench, row};
use crate::clock::in_turns;
use compare::rust_side::{Alphabets, Graph};
use machirsun::Format;
use wolges::lexport::{self, MacondoFormat};

const NAME: &str = "BENCH";

impl Bench {
    pub fn macondo(&mut self, name: &str, format: Format) {
        let (labels, mut alphabets) = (labels(), Alphabets::default());
        let alphabet = alphabets.of(&labels).expect("an alphabet of 27 letters");
        let rust_format = || match format {
            Format::Dawg => MacondoFormat::Dawg,
            Format::Gaddag => MacondoFormat::Gaddag,
        };
        self.file(
            name,
            |nodes, work, file| {
                machirsun::to_macondo(nodes, &labels, NAME.as_bytes(), format, work, file)
                    .expect("the file is written")
            },
            |graph| {
                lexport::to_macondo(graph, alphabet, NAME, rust_format())
                    .expect("the file is written")
            },
        );
    }

    pub fn lxd(&mut self) {
        let (labels, mut alphabets) = (labels(), Alphabets::default());
        let alphabet = alphabets.of(&labels).expect("an alphabet of 27 letters");
        let title: Vec<u32> = NAME.chars().map(u32::from).collect();
        self.file(
            "LXD",
            |nodes, work, file| {
                machirsun::to_lxd(nodes, &labels, &title, &title, work, file)
                    .expect("the file is written")
            },
            |graph| lexport::to_lxd(graph, alphabet, NAME, NAME).expect("the file is written"),
        );
    }

    fn file(
        &mut self,
        name: &str,
        ours: impl Fn(&[u32], &mut [u32], &mut [u8]) -> usize,
        rust: impl Fn(&Graph) -> Box<[u8]>,
    ) {
        let written = ours(&self.nodes, &mut self.work, &mut self.file);
        assert_eq!(self.file[..written], rust(&self.rust)[..]);
        let times = in_turns(
            || ours(&self.nodes, &mut self.work, &mut self.file),
            || rust(&self.rust),
        );
        row(name, times);
    }
}

// A blank, and A to Z.
fn labels() -> Vec<u32> {
    std::iter::once('?')
        .chain('A'..='Z')
        .map(u32::from)
        .collect()
}
