//! Loading, repacking and counting.

use crate::bench::{Bench, row};
use crate::clock::{in_turns, in_turns_given};
use compare::lexicon;
use compare::rust_side::{self, Graph};
use machirsun::{Layout, Loader};
use std::hint::black_box;
use wolges::kwg::{self, Kwg, Node22, Node24};

// What the Rust reads of a file at a time.
const READ_PIECE: usize = 1 << 16;

impl Bench {
    pub fn loads(&self) {
        let bytes = lexicon::kwg_bytes(&self.nodes);
        assert_eq!(rust_side::load(&bytes, 0).as_ref(), Ok(&self.nodes));
        for size in [bytes.len(), READ_PIECE, 4096, 1] {
            let mut table = vec![1; self.nodes.len()];
            assert_eq!(load(&bytes, size, &mut table), self.nodes.len());
            assert_eq!(table, self.nodes);
        }
        let mut table = vec![1; self.nodes.len()];
        // The Rust's callers read the whole file, and hand it over.
        let times = in_turns_given(
            || load(&bytes, bytes.len(), &mut table),
            || bytes.clone(),
            from_whole,
        );
        row("load, whole", times);
        let mut piece = vec![0; READ_PIECE];
        let times = in_turns(
            || load_read(&bytes, &mut piece, &mut table),
            || from_reader(&bytes),
        );
        row("load, read 64 KiB at a time", times);
        // What comes in other pieces the Rust's caller has to gather first.
        let times = in_turns(
            || load(&bytes, 4096, &mut table),
            || from_whole(gathered(bytes.chunks(4096), bytes.len())),
        );
        row("load, 4 KiB pieces", times);
        let times = in_turns(
            || load(&bytes, 1, &mut table),
            || from_whole(gathered(bytes.chunks(1), bytes.len())),
        );
        row("load, single bytes", times);
    }

    // There and back, so that each round begins with the same bytes.
    pub fn repack(&self) {
        let file = lexicon::kwg_bytes(&self.nodes);
        let (mut bytes, mut theirs) = (file.clone(), file.clone());
        repack_there(&mut bytes);
        rust_repack_there(&mut theirs);
        assert_eq!(bytes, theirs);
        repack_back(&mut bytes);
        rust_repack_back(&mut theirs);
        assert_eq!((&bytes, &theirs), (&file, &file));
        let ours = || {
            repack_there(&mut bytes);
            repack_back(&mut bytes);
        };
        let rust = || {
            rust_repack_there(&mut theirs);
            rust_repack_back(&mut theirs);
        };
        row("repack, there and back", in_turns(ours, rust));
    }

    pub fn own_counts(&mut self) {
        count(&self.nodes, &mut self.counts, &mut self.work);
    }

    pub fn count(&mut self) {
        let Self {
            nodes,
            rust,
            work,
            counts,
            ..
        } = self;
        count(nodes, counts, work);
        assert_eq!(counts[..], rust_count(rust)[..]);
        let times = in_turns(|| count(nodes, counts, work), || rust_count(rust));
        row("count", times);
    }
}

fn count(nodes: &[u32], counts: &mut [u32], work: &mut [u32]) {
    machirsun::count_words(nodes, counts, work).expect("the words are counted");
}

fn rust_count(graph: &Graph) -> Box<[u32]> {
    graph.count_words_alloc().expect("the words are counted")
}

fn load(bytes: &[u8], size: usize, table: &mut [u32]) -> usize {
    let mut loader = Loader::begin(bytes.len(), Layout::Kwg, table).expect("the length is allowed");
    for piece in bytes.chunks(size) {
        loader = fed(loader, piece, table);
    }
    loader.finish(table).expect("the file loads")
}

// Each piece is read into one buffer first, as from a file.
fn load_read(bytes: &[u8], buffer: &mut [u8], table: &mut [u32]) -> usize {
    let mut loader = Loader::begin(bytes.len(), Layout::Kwg, table).expect("the length is allowed");
    for piece in bytes.chunks(buffer.len()) {
        let read = &mut buffer[..piece.len()];
        read.copy_from_slice(piece);
        loader = fed(loader, read, table);
    }
    loader.finish(table).expect("the file loads")
}

fn fed(loader: Loader, piece: &[u8], table: &mut [u32]) -> Loader {
    let fed = loader.feed(piece, table);
    fed.answer.expect("every node fits");
    fed.loader
}

fn from_whole(file: Vec<u8>) -> Graph {
    kwg::kbwg_from_bytes_alloc(file, false).expect("the file loads")
}

fn from_reader(bytes: &[u8]) -> Graph {
    let read = |at: usize, piece: &mut [u8]| piece.copy_from_slice(&bytes[at..at + piece.len()]);
    Kwg::from_reader::<Node22>(bytes.len(), read).expect("the file loads")
}

fn gathered<'a>(pieces: impl Iterator<Item = &'a [u8]>, length: usize) -> Vec<u8> {
    let mut whole = Vec::with_capacity(length);
    pieces.for_each(|piece| whole.extend_from_slice(black_box(piece)));
    whole
}

fn repack_there(bytes: &mut [u8]) {
    machirsun::repack(bytes, Layout::Kwg, Layout::Kbwg).expect("every node fits");
}

fn repack_back(bytes: &mut [u8]) {
    machirsun::repack(bytes, Layout::Kbwg, Layout::Kwg).expect("every node fits");
}

fn rust_repack_there(bytes: &mut [u8]) {
    kwg::repack_in_place::<Node22, Node24>(bytes).expect("every node fits");
}

fn rust_repack_back(bytes: &mut [u8]) {
    kwg::repack_in_place::<Node24, Node22>(bytes).expect("every node fits");
}
