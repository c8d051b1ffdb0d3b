//! Machirsun: word graphs loaded or built from word lists, counted, looked up and exported, words read from text, and a record of words in play,
//! over the proved library `libmachirsun.a`.
//!
//! The calls are those of `include/machirsun.h`, with slices for buffers and [`Refusal`] for the refusals' numbers. Nothing is
//! allocated here: the caller lends every buffer. Each function only hands its buffers on, and so is inlined.

mod building;
pub mod ffi;
mod in_play;
mod refusal;
mod typed;

pub use building::build;
pub use in_play::{arrive, leave, Remaining};
pub use refusal::Refusal;
pub use typed::{next_word, read_words, TypedText, TypedWord, TypedWords};

/// The layout of a file's nodes.
#[derive(Clone, Copy, Debug, PartialEq, Eq)]
pub enum Layout {
    /// Tile bits 24-31, accepts 23, end 22, arc 0-21.
    Kwg,
    /// Arc bits 8-31, accepts 7, end 6, tile 0-5.
    Kbwg,
}

impl Layout {
    #[inline]
    fn number(self) -> u32 {
        match self {
            Layout::Kwg => 0,
            Layout::Kbwg => 1,
        }
    }
}

/// The kind of a Macondo file: a DAWG starts at node 0's arc, a GADDAG at node 1's.
#[derive(Clone, Copy, Debug, PartialEq, Eq)]
pub enum Format {
    Dawg,
    Gaddag,
}

impl Format {
    #[inline]
    fn number(self) -> u32 {
        match self {
            Format::Dawg => 0,
            Format::Gaddag => 1,
        }
    }
}

#[inline]
fn refused(number: u32, node: usize, tile: u8, arc: u32) -> Result<(), Refusal> {
    match number {
        0 => Ok(()),
        _ => Err(Refusal::of(number, node, tile, arc)),
    }
}

#[inline]
fn plain(number: u32) -> Result<(), Refusal> {
    refused(number, 0, 0, 0)
}

#[inline]
fn finished(last: ffi::Finished) -> Result<usize, Refusal> {
    refused(last.refusal, last.node, last.tile, last.arc)?;
    Ok(last.nodes)
}

/// The state of a load, by value: it holds no reference to the nodes.
#[derive(Clone, Copy, Debug, PartialEq, Eq)]
pub struct Loader(ffi::Loader);

/// What a feed answered, and the state after it.
#[derive(Clone, Copy, Debug, PartialEq, Eq)]
pub struct Fed {
    pub loader: Loader,
    pub answer: Result<(), Refusal>,
}

impl Loader {
    /// Announces a file of so many bytes. Lend the same nodes to each call of the load: at least one for each 4 bytes, and 2.
    #[inline]
    pub fn begin(announced: usize, layout: Layout, nodes: &[u32]) -> Result<Loader, Refusal> {
        let begun = unsafe {
            ffi::machirsun_begin(announced, layout.number(), nodes.as_ptr(), nodes.len())
        };
        plain(begun.refusal)?;
        Ok(Loader(begun.loader))
    }

    /// The next piece of the file, of any length, also cut inside a node. A piece that is too long is not taken; a node that does not
    /// fit stops the load, and each later call repeats that refusal.
    #[inline]
    pub fn feed(self, piece: &[u8], nodes: &mut [u32]) -> Fed {
        let fed = unsafe {
            ffi::machirsun_feed(
                self.0,
                piece.as_ptr(),
                piece.len(),
                nodes.as_mut_ptr(),
                nodes.len(),
            )
        };
        Fed {
            loader: Loader(fed.loader),
            answer: refused(fed.refusal, fed.node, fed.tile, fed.arc),
        }
    }

    /// The end of the file: the number of its nodes, which stand at the front of the lent ones.
    #[inline]
    pub fn finish(self, nodes: &mut [u32]) -> Result<usize, Refusal> {
        finished(unsafe { ffi::machirsun_finish(self.0, nodes.as_mut_ptr(), nodes.len()) })
    }

    /// The length that was announced.
    #[inline]
    pub fn announced(&self) -> usize {
        self.0.announced
    }

    /// How many bytes are taken.
    #[inline]
    pub fn taken(&self) -> usize {
        self.0.taken
    }
}

/// What begin and finish answered in a whole load, and the state after the last feed.
#[derive(Clone, Copy, Debug, PartialEq, Eq)]
pub struct Loaded {
    pub begun: Result<(), Refusal>,
    pub loader: Loader,
    pub finished: Result<usize, Refusal>,
}

/// A whole load: begin, a feed of each piece, finish. The pieces have the lengths in `cuts`, and the rest of the bytes is one more; a cut
/// past the end takes what is there. Each feed's answer goes to `answers`, in order: the number of its refusal, or 0. Where `answers` is
/// shorter than that, the later ones are not written; entries past them stay.
#[inline]
pub fn load_in_pieces(
    announced: usize,
    layout: Layout,
    bytes: &[u8],
    cuts: &[u32],
    answers: &mut [u32],
    nodes: &mut [u32],
) -> Loaded {
    let loaded = unsafe {
        ffi::machirsun_load_in_pieces(
            announced,
            layout.number(),
            bytes.as_ptr(),
            bytes.len(),
            cuts.as_ptr(),
            cuts.len(),
            answers.as_mut_ptr(),
            answers.len(),
            nodes.as_mut_ptr(),
            nodes.len(),
        )
    };
    Loaded {
        begun: plain(loaded.begun),
        loader: Loader(loaded.loader),
        finished: finished(loaded.finished),
    }
}

/// Puts the nodes of a file's bytes into another layout, where they stand. A node that does not fit stops it, with the nodes before
/// rewritten; a part node at the end stays.
#[inline]
pub fn repack(bytes: &mut [u8], from: Layout, to: Layout) -> Result<(), Refusal> {
    let repacked = unsafe {
        ffi::machirsun_repack(bytes.as_mut_ptr(), bytes.len(), from.number(), to.number())
    };
    refused(repacked.refusal, repacked.node, repacked.tile, repacked.arc)
}

/// Puts the number of words from each of the N nodes into the first N counts. The work list has at least 2 × N numbers, which
/// are free afterwards.
#[inline]
pub fn count_words(nodes: &[u32], counts: &mut [u32], work: &mut [u32]) -> Result<(), Refusal> {
    let counted = unsafe {
        ffi::machirsun_count_words(
            nodes.as_ptr(),
            nodes.len(),
            counts.as_mut_ptr(),
            counts.len(),
            work.as_mut_ptr(),
            work.len(),
        )
    };
    refused(counted.refusal, counted.node as usize, 0, counted.arc)
}

/// A node with the tile that was looked for.
#[derive(Clone, Copy, Debug, PartialEq, Eq)]
pub struct Sought {
    /// The node's place.
    pub place: u32,
    /// How many words of its run come before it: with the graph's own counts, where runs ascend, the words that begin below the tile.
    pub before: u32,
}

/// The first node with the tile in the run that the arc of the node at a place leads to, and the words of the run before it. Counts are
/// read only for a tile that is found.
#[inline]
pub fn seek(
    nodes: &[u32],
    counts: &[u32],
    place: u32,
    tile: u8,
) -> Result<Option<Sought>, Refusal> {
    let sought = unsafe {
        ffi::machirsun_seek(
            nodes.as_ptr(),
            nodes.len(),
            counts.as_ptr(),
            counts.len(),
            place,
            tile,
        )
    };
    plain(sought.refusal)?;
    Ok(sought.found.then_some(Sought {
        place: sought.place,
        before: sought.before,
    }))
}

/// A cursor along one run.
#[derive(Clone, Copy, Debug)]
pub struct RunCursor<'a> {
    nodes: &'a [u32],
    at: u32,
}

impl<'a> RunCursor<'a> {
    /// A cursor at a lent node.
    #[inline]
    pub fn at(nodes: &'a [u32], at: u32) -> Result<RunCursor<'a>, Refusal> {
        let made = unsafe { ffi::machirsun_cursor_at(nodes.as_ptr(), nodes.len(), at) };
        plain(made.refusal)?;
        Ok(RunCursor { nodes, at: made.at })
    }

    /// The place of the node that the cursor is at.
    #[inline]
    pub fn place(&self) -> u32 {
        self.at
    }

    /// Moves to the next node and answers its place; at an end the cursor stays, and there is none.
    #[inline]
    pub fn step(&mut self) -> Result<Option<u32>, Refusal> {
        let moved =
            unsafe { ffi::machirsun_cursor_step(self.nodes.as_ptr(), self.nodes.len(), self.at) };
        self.at = moved.at;
        plain(moved.refusal)?;
        Ok((!moved.done).then_some(moved.at))
    }
}

/// The number of a word among the words from the start, from 0.
#[inline]
pub fn word_index(
    nodes: &[u32],
    counts: &[u32],
    start: u32,
    word: &[u8],
) -> Result<Option<u32>, Refusal> {
    let index = unsafe {
        ffi::machirsun_word_index(
            nodes.as_ptr(),
            nodes.len(),
            counts.as_ptr(),
            counts.len(),
            start,
            word.as_ptr(),
            word.len(),
        )
    };
    plain(index.refusal)?;
    Ok(index.found.then_some(index.number))
}

/// Puts the tiles of the word with a number among the words from the start, and answers how many. There is none where there are
/// fewer words.
#[inline]
pub fn word_by_index(
    nodes: &[u32],
    counts: &[u32],
    start: u32,
    number: u32,
    word: &mut [u8],
) -> Result<Option<usize>, Refusal> {
    let put = unsafe {
        ffi::machirsun_word_by_index(
            nodes.as_ptr(),
            nodes.len(),
            counts.as_ptr(),
            counts.len(),
            start,
            number,
            word.as_mut_ptr(),
            word.len(),
        )
    };
    plain(put.refusal)?;
    Ok(put.found.then_some(put.tiles))
}

/// Writes for each node all tiles, and the accepting tiles, from it to its run's end; bit t stands for tile t.
#[inline]
pub fn letter_bits(
    nodes: &[u32],
    letter_bits: &mut [u64],
    accepting_bits: &mut [u64],
) -> Result<(), Refusal> {
    plain(unsafe {
        ffi::machirsun_letter_bits(
            nodes.as_ptr(),
            nodes.len(),
            letter_bits.as_mut_ptr(),
            letter_bits.len(),
            accepting_bits.as_mut_ptr(),
            accepting_bits.len(),
        )
    })
}

/// Whether the letters of a tally, in ascending order, spell a word. Entry t says how many letters of tile t there are; entry 0 is
/// unread.
#[inline]
pub fn accepts_alpha(nodes: &[u32], tally: &[u8]) -> Result<bool, Refusal> {
    let answer = unsafe {
        ffi::machirsun_accepts_alpha(nodes.as_ptr(), nodes.len(), tally.as_ptr(), tally.len())
    };
    plain(answer.refusal)?;
    Ok(answer.accepts)
}

/// The tiles that make a word with the letters of a tally, all in ascending order; bit 0 is always set.
#[inline]
pub fn alpha_cross_set(nodes: &[u32], tally: &[u8]) -> Result<u64, Refusal> {
    let answer = unsafe {
        ffi::machirsun_alpha_cross_set(nodes.as_ptr(), nodes.len(), tally.as_ptr(), tally.len())
    };
    plain(answer.refusal)?;
    Ok(answer.tiles)
}

/// Writes the words as a Macondo file and answers its length. Labels are one code point a tile, the blank's first; the work list has
/// at least 8 × N numbers, which are free afterwards.
#[inline]
pub fn to_macondo(
    nodes: &[u32],
    labels: &[u32],
    name: &[u8],
    format: Format,
    work: &mut [u32],
    file: &mut [u8],
) -> Result<usize, Refusal> {
    let answer = unsafe {
        ffi::machirsun_to_macondo(
            nodes.as_ptr(),
            nodes.len(),
            labels.as_ptr(),
            labels.len(),
            name.as_ptr(),
            name.len(),
            format.number(),
            work.as_mut_ptr(),
            work.len(),
            file.as_mut_ptr(),
            file.len(),
        )
    };
    refused(answer.refusal, 0, 0, answer.arc)?;
    Ok(answer.written)
}

/// Writes the words as an LXD file and answers its length. Labels, title and date are code points, which are written as bytes of
/// Windows-1252; the work list has at least 8 × N numbers, which are free afterwards.
#[inline]
pub fn to_lxd(
    nodes: &[u32],
    labels: &[u32],
    title: &[u32],
    date: &[u32],
    work: &mut [u32],
    file: &mut [u8],
) -> Result<usize, Refusal> {
    let answer = unsafe {
        ffi::machirsun_to_lxd(
            nodes.as_ptr(),
            nodes.len(),
            labels.as_ptr(),
            labels.len(),
            title.as_ptr(),
            title.len(),
            date.as_ptr(),
            date.len(),
            work.as_mut_ptr(),
            work.len(),
            file.as_mut_ptr(),
            file.len(),
        )
    };
    refused(answer.refusal, 0, 0, answer.arc)?;
    Ok(answer.written)
}

/// The bytes of a page: 24 rows of 40.
pub const PAGE: usize = 960;

/// Writes a page of words into the first [`PAGE`] bytes: the title as row 0, then 23 rows, each with a number from `first` on, the labels of
/// that word's first 28 tiles, and `+` where it has more. From the first number that names no word on rows are blank. Labels are one number
/// a tile, the blank's first; a refused call writes nothing.
#[inline]
pub fn write_page(
    nodes: &[u32],
    counts: &[u32],
    labels: &[u32],
    title: &[u8],
    start: u32,
    first: u32,
    page: &mut [u8],
) -> Result<(), Refusal> {
    plain(unsafe {
        ffi::machirsun_write_page(
            nodes.as_ptr(),
            nodes.len(),
            counts.as_ptr(),
            counts.len(),
            labels.as_ptr(),
            labels.len(),
            title.as_ptr(),
            title.len(),
            start,
            first,
            page.as_mut_ptr(),
            page.len(),
        )
    })
}
