//! The calls of the static library, each with its answer in the common form. Each pointer and its length come from one slice, and written
//! buffers from `&mut` slices, so that each `unsafe` block keeps what the header asks for.

mod building;
mod in_play;
mod typed;

pub use building::build;
pub use in_play::in_play;
pub use typed::{next_word, read_words};

use crate::answer::Answer;
use machirsun::ffi::{self, Loader};

/// What a writer takes besides the graph and its buffers.
#[derive(Clone, Debug, PartialEq, Eq)]
pub enum Texts {
    Macondo(MacondoTexts),
    Lxd(LxdTexts),
}

#[derive(Clone, Debug, PartialEq, Eq)]
pub struct MacondoTexts {
    pub labels: Vec<u32>,
    pub name: Vec<u8>,
    pub format: u32,
}

#[derive(Clone, Debug, PartialEq, Eq)]
pub struct LxdTexts {
    pub labels: Vec<u32>,
    pub title: Vec<u32>,
    pub date: Vec<u32>,
}

/// What a page is asked for, besides the nodes and the buffer.
#[derive(Clone, Copy, Debug)]
pub struct PageOf<'a> {
    pub counts: &'a [u32],
    pub labels: &'a [u32],
    pub title: &'a [u8],
    pub start: u32,
    pub first: u32,
}

/// What a word does, and which call that is.
#[derive(Clone, Copy, Debug, PartialEq, Eq)]
pub enum Turn {
    Arrives,
    Leaves,
}

/// What the calls for words in play are asked for, besides the nodes and the record.
#[derive(Clone, Copy, Debug)]
pub struct PlayOf<'a> {
    pub turn: Turn,
    pub counts: &'a [u32],
    pub start: u32,
    pub word: &'a [u8],
}

/// A label file, and the text that is read from a place on.
#[derive(Clone, Copy, Debug)]
pub struct TextOf<'a> {
    pub labels: &'a [u8],
    pub text: &'a [u8],
    pub at: usize,
}

fn misfit(refusal: u32, node: usize, tile: u8, arc: u32) -> Answer {
    Answer {
        refusal,
        node: node as u64,
        tile,
        arc,
        ..Answer::default()
    }
}

fn flagged(refusal: u32, flag: bool, value: u64) -> Answer {
    Answer {
        refusal,
        flag,
        value,
        ..Answer::default()
    }
}

fn written(file: ffi::File) -> Answer {
    Answer {
        refusal: file.refusal,
        arc: file.arc,
        value: file.written as u64,
        ..Answer::default()
    }
}

pub fn begin(announced: usize, layout: u32, nodes: &[u32]) -> Answer {
    let r = unsafe { ffi::machirsun_begin(announced, layout, nodes.as_ptr(), nodes.len()) };
    Answer::refused(r.refusal).with_state(r.loader)
}

pub fn feed(state: Loader, piece: &[u8], nodes: &mut [u32]) -> Answer {
    let (to, len) = (nodes.as_mut_ptr(), nodes.len());
    let r = unsafe { ffi::machirsun_feed(state, piece.as_ptr(), piece.len(), to, len) };
    misfit(r.refusal, r.node, r.tile, r.arc).with_state(r.loader)
}

pub fn finish(state: Loader, nodes: &mut [u32]) -> Answer {
    let r = unsafe { ffi::machirsun_finish(state, nodes.as_mut_ptr(), nodes.len()) };
    Answer {
        value: r.nodes as u64,
        ..misfit(r.refusal, r.node, r.tile, r.arc)
    }
}

pub fn load_in_pieces(
    announced: usize,
    layout: u32,
    bytes: &[u8],
    cuts: &[u32],
    answers: &mut [u32],
    nodes: &mut [u32],
) -> Answer {
    let r = unsafe {
        ffi::machirsun_load_in_pieces(
            announced,
            layout,
            bytes.as_ptr(),
            bytes.len(),
            cuts.as_ptr(),
            cuts.len(),
            answers.as_mut_ptr(),
            answers.len(),
            nodes.as_mut_ptr(),
            nodes.len(),
        )
    };
    let last = r.finished;
    Answer {
        begun: r.begun,
        value: last.nodes as u64,
        ..misfit(last.refusal, last.node, last.tile, last.arc)
    }
    .with_state(r.loader)
}

pub fn repack(bytes: &mut [u8], from: u32, to: u32) -> Answer {
    let r = unsafe { ffi::machirsun_repack(bytes.as_mut_ptr(), bytes.len(), from, to) };
    misfit(r.refusal, r.node, r.tile, r.arc)
}

pub fn count_words(nodes: &[u32], counts: &mut [u32], work: &mut [u32]) -> Answer {
    let r = unsafe {
        ffi::machirsun_count_words(
            nodes.as_ptr(),
            nodes.len(),
            counts.as_mut_ptr(),
            counts.len(),
            work.as_mut_ptr(),
            work.len(),
        )
    };
    misfit(r.refusal, r.node as usize, 0, r.arc)
}

pub fn seek(nodes: &[u32], counts: &[u32], place: u32, tile: u8) -> Answer {
    let r = unsafe {
        ffi::machirsun_seek(
            nodes.as_ptr(),
            nodes.len(),
            counts.as_ptr(),
            counts.len(),
            place,
            tile,
        )
    };
    Answer {
        before: r.before.into(),
        ..flagged(r.refusal, r.found, r.place.into())
    }
}

pub fn cursor_at(nodes: &[u32], at: u32) -> Answer {
    let r = unsafe { ffi::machirsun_cursor_at(nodes.as_ptr(), nodes.len(), at) };
    flagged(r.refusal, r.done, r.at.into())
}

pub fn cursor_step(nodes: &[u32], at: u32) -> Answer {
    let r = unsafe { ffi::machirsun_cursor_step(nodes.as_ptr(), nodes.len(), at) };
    flagged(r.refusal, r.done, r.at.into())
}

pub fn word_index(nodes: &[u32], counts: &[u32], start: u32, word: &[u8]) -> Answer {
    let r = unsafe {
        ffi::machirsun_word_index(
            nodes.as_ptr(),
            nodes.len(),
            counts.as_ptr(),
            counts.len(),
            start,
            word.as_ptr(),
            word.len(),
        )
    };
    flagged(r.refusal, r.found, r.number.into())
}

pub fn word_by_index(
    nodes: &[u32],
    counts: &[u32],
    start: u32,
    number: u32,
    word: &mut [u8],
) -> Answer {
    let r = unsafe {
        ffi::machirsun_word_by_index(
            nodes.as_ptr(),
            nodes.len(),
            counts.as_ptr(),
            counts.len(),
            start,
            number,
            word.as_mut_ptr(),
            word.len(),
        )
    };
    flagged(r.refusal, r.found, r.tiles as u64)
}

pub fn letter_bits(nodes: &[u32], all: &mut [u64], accepting: &mut [u64]) -> Answer {
    Answer::refused(unsafe {
        ffi::machirsun_letter_bits(
            nodes.as_ptr(),
            nodes.len(),
            all.as_mut_ptr(),
            all.len(),
            accepting.as_mut_ptr(),
            accepting.len(),
        )
    })
}

pub fn accepts_alpha(nodes: &[u32], tally: &[u8]) -> Answer {
    let r = unsafe {
        ffi::machirsun_accepts_alpha(nodes.as_ptr(), nodes.len(), tally.as_ptr(), tally.len())
    };
    flagged(r.refusal, r.accepts, 0)
}

pub fn alpha_cross_set(nodes: &[u32], tally: &[u8]) -> Answer {
    let r = unsafe {
        ffi::machirsun_alpha_cross_set(nodes.as_ptr(), nodes.len(), tally.as_ptr(), tally.len())
    };
    flagged(r.refusal, false, r.tiles)
}

pub fn to_macondo(
    nodes: &[u32],
    texts: &MacondoTexts,
    work: &mut [u32],
    file: &mut [u8],
) -> Answer {
    written(unsafe {
        ffi::machirsun_to_macondo(
            nodes.as_ptr(),
            nodes.len(),
            texts.labels.as_ptr(),
            texts.labels.len(),
            texts.name.as_ptr(),
            texts.name.len(),
            texts.format,
            work.as_mut_ptr(),
            work.len(),
            file.as_mut_ptr(),
            file.len(),
        )
    })
}

pub fn to_lxd(nodes: &[u32], texts: &LxdTexts, work: &mut [u32], file: &mut [u8]) -> Answer {
    written(unsafe {
        ffi::machirsun_to_lxd(
            nodes.as_ptr(),
            nodes.len(),
            texts.labels.as_ptr(),
            texts.labels.len(),
            texts.title.as_ptr(),
            texts.title.len(),
            texts.date.as_ptr(),
            texts.date.len(),
            work.as_mut_ptr(),
            work.len(),
            file.as_mut_ptr(),
            file.len(),
        )
    })
}

pub fn write_page(nodes: &[u32], asked: &PageOf, page: &mut [u8]) -> Answer {
    Answer::refused(unsafe {
        ffi::machirsun_write_page(
            nodes.as_ptr(),
            nodes.len(),
            asked.counts.as_ptr(),
            asked.counts.len(),
            asked.labels.as_ptr(),
            asked.labels.len(),
            asked.title.as_ptr(),
            asked.title.len(),
            asked.start,
            asked.first,
            page.as_mut_ptr(),
            page.len(),
        )
    })
}
