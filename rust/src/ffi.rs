//! The C interface, as `include/machirsun.h` declares it.
//!
//! What it asks of a caller: that each pointer has as many entries as the length beside it says, and that a buffer that is written overlaps
//! no other one of the call. Where both come from one slice, and written ones from `&mut` slices, Rust's borrows give just that; this
//! is why each `unsafe` block of the crate is sound.

#[repr(C)]
#[derive(Clone, Copy, Debug, PartialEq, Eq)]
pub struct Loader {
    pub announced: usize,
    pub taken: usize,
    pub held_count: usize,
    pub node: usize,
    pub layout: u32,
    pub refusal: u32,
    pub arc: u32,
    pub tile: u8,
    pub held: [u8; 3],
}

#[repr(C)]
pub struct Begun {
    pub refusal: u32,
    pub loader: Loader,
}

#[repr(C)]
pub struct Fed {
    pub refusal: u32,
    pub arc: u32,
    pub node: usize,
    pub tile: u8,
    pub loader: Loader,
}

#[repr(C)]
pub struct Finished {
    pub refusal: u32,
    pub arc: u32,
    pub nodes: usize,
    pub node: usize,
    pub tile: u8,
}

#[repr(C)]
pub struct Loaded {
    pub begun: u32,
    pub loader: Loader,
    pub finished: Finished,
}

#[repr(C)]
pub struct Repacked {
    pub refusal: u32,
    pub arc: u32,
    pub node: usize,
    pub tile: u8,
}

#[repr(C)]
pub struct Counted {
    pub refusal: u32,
    pub arc: u32,
    pub node: u32,
}

#[repr(C)]
pub struct Sought {
    pub refusal: u32,
    pub found: bool,
    pub place: u32,
    pub before: u32,
}

#[repr(C)]
pub struct Cursor {
    pub refusal: u32,
    pub done: bool,
    pub at: u32,
}

#[repr(C)]
pub struct Index {
    pub refusal: u32,
    pub found: bool,
    pub number: u32,
}

#[repr(C)]
pub struct Word {
    pub refusal: u32,
    pub found: bool,
    pub tiles: usize,
}

#[repr(C)]
pub struct Accepts {
    pub refusal: u32,
    pub accepts: bool,
}

#[repr(C)]
pub struct CrossSet {
    pub refusal: u32,
    pub tiles: u64,
}

#[repr(C)]
pub struct File {
    pub refusal: u32,
    pub arc: u32,
    pub written: usize,
}

#[repr(C)]
pub struct Typed {
    pub refusal: u32,
    pub found: bool,
    pub bad: usize,
    pub start: usize,
    pub end: usize,
    pub after: usize,
    pub tiles: usize,
}

#[repr(C)]
pub struct TypedList {
    pub refusal: u32,
    pub found: bool,
    pub bad: usize,
    pub words: usize,
    pub tiles: usize,
    pub after: usize,
}

#[repr(C)]
pub struct InPlay {
    pub refusal: u32,
    pub found: bool,
    pub remaining: u32,
    pub lowest: u32,
}

#[repr(C)]
pub struct Built {
    pub refusal: u32,
    pub nodes: u32,
}

extern "C" {
    pub fn machirsun_begin(
        announced: usize,
        layout: u32,
        nodes: *const u32,
        nodes_len: usize,
    ) -> Begun;

    pub fn machirsun_feed(
        loader: Loader,
        piece: *const u8,
        piece_len: usize,
        nodes: *mut u32,
        nodes_len: usize,
    ) -> Fed;

    pub fn machirsun_finish(loader: Loader, nodes: *mut u32, nodes_len: usize) -> Finished;

    pub fn machirsun_load_in_pieces(
        announced: usize,
        layout: u32,
        bytes: *const u8,
        bytes_len: usize,
        cuts: *const u32,
        cuts_len: usize,
        answers: *mut u32,
        answers_len: usize,
        nodes: *mut u32,
        nodes_len: usize,
    ) -> Loaded;

    pub fn machirsun_repack(bytes: *mut u8, bytes_len: usize, from: u32, to: u32) -> Repacked;

    pub fn machirsun_count_words(
        nodes: *const u32,
        nodes_len: usize,
        counts: *mut u32,
        counts_len: usize,
        work: *mut u32,
        work_len: usize,
    ) -> Counted;

    pub fn machirsun_seek(
        nodes: *const u32,
        nodes_len: usize,
        counts: *const u32,
        counts_len: usize,
        place: u32,
        tile: u8,
    ) -> Sought;

    pub fn machirsun_cursor_at(nodes: *const u32, nodes_len: usize, at: u32) -> Cursor;

    pub fn machirsun_cursor_step(nodes: *const u32, nodes_len: usize, at: u32) -> Cursor;

    pub fn machirsun_word_index(
        nodes: *const u32,
        nodes_len: usize,
        counts: *const u32,
        counts_len: usize,
        start: u32,
        word: *const u8,
        word_len: usize,
    ) -> Index;

    pub fn machirsun_word_by_index(
        nodes: *const u32,
        nodes_len: usize,
        counts: *const u32,
        counts_len: usize,
        start: u32,
        number: u32,
        word: *mut u8,
        word_len: usize,
    ) -> Word;

    pub fn machirsun_letter_bits(
        nodes: *const u32,
        nodes_len: usize,
        letter_bits: *mut u64,
        letter_bits_len: usize,
        accepting_bits: *mut u64,
        accepting_bits_len: usize,
    ) -> u32;

    pub fn machirsun_accepts_alpha(
        nodes: *const u32,
        nodes_len: usize,
        tally: *const u8,
        tally_len: usize,
    ) -> Accepts;

    pub fn machirsun_alpha_cross_set(
        nodes: *const u32,
        nodes_len: usize,
        tally: *const u8,
        tally_len: usize,
    ) -> CrossSet;

    pub fn machirsun_to_macondo(
        nodes: *const u32,
        nodes_len: usize,
        labels: *const u32,
        labels_len: usize,
        name: *const u8,
        name_len: usize,
        format: u32,
        work: *mut u32,
        work_len: usize,
        file: *mut u8,
        file_len: usize,
    ) -> File;

    pub fn machirsun_to_lxd(
        nodes: *const u32,
        nodes_len: usize,
        labels: *const u32,
        labels_len: usize,
        title: *const u32,
        title_len: usize,
        date: *const u32,
        date_len: usize,
        work: *mut u32,
        work_len: usize,
        file: *mut u8,
        file_len: usize,
    ) -> File;

    pub fn machirsun_write_page(
        nodes: *const u32,
        nodes_len: usize,
        counts: *const u32,
        counts_len: usize,
        labels: *const u32,
        labels_len: usize,
        title: *const u8,
        title_len: usize,
        start: u32,
        first: u32,
        page: *mut u8,
        page_len: usize,
    ) -> u32;

    pub fn machirsun_next_word(
        labels: *const u8,
        labels_len: usize,
        text: *const u8,
        text_len: usize,
        at: usize,
        word: *mut u8,
        word_len: usize,
    ) -> Typed;

    pub fn machirsun_read_words(
        labels: *const u8,
        labels_len: usize,
        text: *const u8,
        text_len: usize,
        at: usize,
        tiles: *mut u8,
        tiles_len: usize,
        sizes: *mut usize,
        sizes_len: usize,
    ) -> TypedList;

    pub fn machirsun_arrive(
        nodes: *const u32,
        nodes_len: usize,
        counts: *const u32,
        counts_len: usize,
        start: u32,
        word: *const u8,
        word_len: usize,
        bits: *mut u8,
        bits_len: usize,
    ) -> InPlay;

    pub fn machirsun_leave(
        nodes: *const u32,
        nodes_len: usize,
        counts: *const u32,
        counts_len: usize,
        start: u32,
        word: *const u8,
        word_len: usize,
        bits: *mut u8,
        bits_len: usize,
    ) -> InPlay;

    pub fn machirsun_build(
        list: *const u8,
        list_len: usize,
        work: *mut u32,
        work_len: usize,
        nodes: *mut u32,
        nodes_len: usize,
    ) -> Built;
}
