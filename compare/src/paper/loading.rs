//! Loading and repacking: the rows begin, feed and finish, and the claim over a whole list of pieces.

use super::nodes::{fields, largest_arc, last_ends, packed};
use super::row;
use crate::answer::Answer;
use machirsun::ffi::Loader;

const LONGEST: usize = 67_108_864;

/// A state with nothing taken, held or kept.
pub fn fresh(announced: usize, layout: u32) -> Loader {
    Loader {
        announced,
        taken: 0,
        held_count: 0,
        node: 0,
        layout: u32::from(layout != 0),
        refusal: 0,
        arc: 0,
        tile: 0,
        held: [0; 3],
    }
}

fn begin_refusal(announced: usize, nodes_len: usize) -> u32 {
    row(&[
        (1, &|| announced == 0 || !announced.is_multiple_of(4)),
        (2, &|| announced > LONGEST),
        (3, &|| nodes_len < (announced / 4).max(2)),
    ])
}

pub fn begin(announced: usize, layout: u32, nodes_len: usize) -> Answer {
    let refusal = begin_refusal(announced, nodes_len);
    let length = if refusal == 0 { announced } else { 0 };
    Answer::refused(refusal).with_state(fresh(length, layout))
}

// The state that flat numbers stand for, as flat numbers: any refusal but 0 is a kept 6, and without one nothing is carried.
fn meant(state: Loader) -> Loader {
    let kept = state.refusal != 0;
    Loader {
        layout: u32::from(state.layout != 0),
        refusal: if kept { 6 } else { 0 },
        node: if kept { state.node } else { 0 },
        tile: if kept { state.tile } else { 0 },
        arc: if kept { state.arc } else { 0 },
        ..state
    }
}

// "4+ length that begin refuses for this buffer, taken above length, or held bytes not taken mod 4, or an unused place not 0"
fn bad_state(state: &Loader, nodes_len: usize) -> bool {
    begin_refusal(state.announced, nodes_len) != 0
        || state.taken > state.announced
        || state.held_count != state.taken % 4
        || state
            .held
            .iter()
            .skip(state.held_count)
            .any(|&byte| byte != 0)
}

fn misfit(node: usize, tile: u8, arc: u32) -> Answer {
    Answer {
        refusal: 6,
        node: node as u64,
        tile,
        arc,
        ..Answer::default()
    }
}

fn kept(state: &Loader) -> Answer {
    misfit(state.node, state.tile, state.arc)
}

pub fn feed(state: Loader, piece: &[u8], nodes: &mut [u32]) -> Answer {
    let state = meant(state);
    match row(&[
        (4, &|| bad_state(&state, nodes.len())),
        (6, &|| state.refusal == 6),
        (5, &|| piece.len() > state.announced - state.taken),
    ]) {
        0 => take(state, piece, nodes),
        6 => kept(&state).with_state(state),
        refusal => Answer::refused(refusal).with_state(state),
    }
}

// The held bytes and the piece: each whole node goes to its place, up to the first that doesn't fit.
fn take(mut state: Loader, piece: &[u8], nodes: &mut [u32]) -> Answer {
    let bytes = [&state.held[..state.held_count], piece].concat();
    let first = state.taken / 4;
    state.taken += piece.len();
    let (whole, rest) = bytes.as_chunks::<4>();
    state.held_count = rest.len();
    state.held = [0; 3];
    state.held[..rest.len()].copy_from_slice(rest);
    for (place, &word) in (first..).zip(whole) {
        let node = fields(state.layout, u32::from_le_bytes(word));
        let Some(fitting) = packed(1, node) else {
            state = Loader {
                taken: 4 * place,
                refusal: 6,
                node: place,
                tile: node.tile,
                arc: node.arc,
                ..fresh(state.announced, state.layout)
            };
            return kept(&state).with_state(state);
        };
        nodes[place] = fitting;
    }
    Answer::default().with_state(state)
}

pub fn finish(state: Loader, nodes: &mut [u32]) -> Answer {
    let state = meant(state);
    let count = state.announced / 4;
    let judged = || &nodes[..count];
    let refusal = row(&[
        (4, &|| bad_state(&state, nodes.len())),
        (6, &|| state.refusal == 6),
        (7, &|| state.taken < state.announced),
        (8, &|| largest_arc(judged()) as usize >= count),
        (9, &|| !last_ends(judged())),
    ]);
    match refusal {
        0 => {
            if count == 1 {
                nodes[1] = nodes[0];
            }
            Answer::gives(count.max(2) as u64)
        }
        6 => kept(&state),
        8 => Answer {
            arc: largest_arc(judged()),
            ..Answer::refused(8)
        },
        _ => Answer::refused(refusal),
    }
}

pub fn repack(bytes: &mut [u8], from: u32, to: u32) -> Answer {
    for (place, word) in bytes.as_chunks_mut::<4>().0.iter_mut().enumerate() {
        let node = fields(from, u32::from_le_bytes(*word));
        let Some(fitting) = packed(to, node) else {
            return misfit(place, node.tile, node.arc);
        };
        *word = fitting.to_le_bytes();
    }
    Answer::default()
}

/// Pieces of these lengths, from the front, and the rest as one more; past the end there is nothing left to take.
pub fn cut<'a>(bytes: &'a [u8], cuts: &[u32]) -> Vec<&'a [u8]> {
    let mut rest = bytes;
    let mut pieces = Vec::new();
    for &cut in cuts {
        let (piece, after) = rest.split_at(rest.len().min(cut as usize));
        pieces.push(piece);
        rest = after;
    }
    pieces.push(rest);
    pieces
}

/// A whole load by pieces, by the joined bytes: the number of each feed's refusal goes to its place in `answers`, where there is one.
pub fn load_in_pieces(
    announced: usize,
    layout: u32,
    pieces: &[&[u8]],
    answers: &mut [u32],
    nodes: &mut [u32],
) -> Answer {
    let begun = begin(announced, layout, nodes.len());
    let mut joined = Joined::begin(announced, layout, nodes.len());
    let mut state = begun.state;
    for (number, piece) in pieces.iter().enumerate() {
        let fed = joined.feed(piece, nodes);
        state = fed.state;
        if let Some(answer) = answers.get_mut(number) {
            *answer = fed.refusal;
        }
    }
    let state = state.unwrap_or(fresh(0, layout));
    Answer {
        begun: begun.refusal,
        ..finish(state, nodes).with_state(state)
    }
}

/// A whole list of pieces by the joined bytes, as demand 3 says it: it knows no state, only which bytes have come.
pub struct Joined {
    announced: usize,
    layout: u32,
    refused: bool,
    bytes: Vec<u8>,
}

impl Joined {
    pub fn begin(announced: usize, layout: u32, nodes_len: usize) -> Self {
        Self {
            announced,
            layout: u32::from(layout != 0),
            refused: begin_refusal(announced, nodes_len) != 0,
            bytes: Vec::new(),
        }
    }

    /// The next feed's answer, with the state and the nodes after it.
    pub fn feed(&mut self, piece: &[u8], nodes: &mut [u32]) -> Answer {
        if self.refused {
            return Answer::refused(4).with_state(fresh(0, self.layout));
        }
        let before = self.first_misfit();
        let joins = self.bytes.len() + piece.len() <= self.announced;
        if joins {
            self.bytes.extend(piece);
        }
        let answer = match before {
            Some(answer) => answer,
            None if !joins => Answer::refused(5),
            None => self.first_misfit().unwrap_or_default(),
        };
        for (place, word) in self.fitting().into_iter().enumerate() {
            nodes[place] = word;
        }
        answer.with_state(self.state())
    }

    /// The bytes that were joined, where they are the whole file.
    pub fn whole(&self) -> Option<&[u8]> {
        (!self.refused && self.bytes.len() == self.announced).then_some(&self.bytes)
    }

    pub fn bytes(&self) -> &[u8] {
        &self.bytes
    }

    pub fn layout(&self) -> u32 {
        self.layout
    }

    fn node(&self, word: &[u8; 4]) -> super::nodes::Node {
        fields(self.layout, u32::from_le_bytes(*word))
    }

    fn first_misfit(&self) -> Option<Answer> {
        let words = self.bytes.as_chunks::<4>().0.iter();
        let mut nodes = words.map(|word| self.node(word)).enumerate();
        let (place, node) = nodes.find(|&(_, node)| packed(1, node).is_none())?;
        Some(misfit(place, node.tile, node.arc))
    }

    fn fitting(&self) -> Vec<u32> {
        let words = self.bytes.as_chunks::<4>().0.iter();
        words.map_while(|word| packed(1, self.node(word))).collect()
    }

    // "With no such node all joined bytes are taken, those after the last whole node are held"; with one, 4 × i are taken and none held.
    fn state(&self) -> Loader {
        let mut state = fresh(self.announced, self.layout);
        if let Some(misfit) = self.first_misfit() {
            state.taken = 4 * misfit.node as usize;
            state.refusal = 6;
            state.node = misfit.node as usize;
            state.tile = misfit.tile;
            state.arc = misfit.arc;
        } else {
            let rest = self.bytes.as_chunks::<4>().1;
            state.taken = self.bytes.len();
            state.held_count = rest.len();
            state.held[..rest.len()].copy_from_slice(rest);
        }
        state
    }
}
