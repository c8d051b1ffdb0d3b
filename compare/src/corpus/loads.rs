//! Loads in pieces, damaged files, and states that no load has.

use super::Size;
use super::all_calls::{Nodes, all_calls};
use crate::checker::Checker;
use crate::graphs::wild;
use crate::lexicon::{dawg, kwg_bytes, made_up_words, node};
use crate::random::Random;
use crate::rust_side;
use machirsun::ffi::Loader;

/// The five nodes of 01.
pub const SAMPLE: [u32; 5] = [0x240, 0x40, 0x481, 0x442, 0xc2];

pub fn kbwg_bytes(nodes: &[u32]) -> Vec<u8> {
    nodes.iter().flat_map(|word| word.to_le_bytes()).collect()
}

/// The file of nodes in a layout; a KWG only holds arcs of 22 bits, the rest of a longer one is lost.
pub fn file_of(nodes: &[u32], layout: u32) -> Vec<u8> {
    if layout == 0 {
        kwg_bytes(nodes)
    } else {
        kbwg_bytes(nodes)
    }
}

/// Cuts bytes: whole, into single bytes, or anywhere, with empty pieces among them.
pub fn pieces<'a>(random: &mut Random, bytes: &'a [u8]) -> Vec<&'a [u8]> {
    let longest = match random.within(0, 5) {
        0 => bytes.len() as u64 + 1,
        1 if bytes.len() < 200 => return bytes.chunks(1).collect(),
        2 | 3 if bytes.len() < 200 => 7,
        _ => bytes.len() as u64 / 2 + 1,
    };
    let mut rest = bytes;
    let mut pieces = Vec::new();
    while !rest.is_empty() {
        let len = random.within(0, longest + 1) as usize;
        let (piece, after) = rest.split_at(len.min(rest.len()));
        pieces.push(piece);
        rest = after;
    }
    pieces
}

/// Loads a file by random pieces. At times the length announced is not the file's, a piece too long stands among the others, or the node
/// buffer is too short.
pub fn load(checker: &mut Checker, random: &mut Random, bytes: &[u8], layout: u32) {
    let announced = match random.within(0, 12) {
        0 => bytes.len() + 4,
        1 => bytes.len().saturating_sub(4),
        2 => random.within(0, bytes.len() as u64 + 9) as usize,
        _ => bytes.len(),
    };
    let mut pieces = pieces(random, bytes);
    let too_long = [bytes, &[1, 2, 3]].concat();
    if random.within(0, 6) == 0 {
        let at = random.within(0, pieces.len() as u64 + 1) as usize;
        pieces.insert(at, &too_long);
    }
    let nodes_len = checker.around((announced / 4).max(2));
    checker.load(announced, layout, &pieces, nodes_len);
    let cuts = cuts(random, bytes);
    let answers_len = checker.around(cuts.len() + 1);
    checker.load_in_pieces(announced, layout, bytes, &cuts, answers_len, nodes_len);
}

// Lengths to cut bytes by: those of random pieces, at times with the last ones left out, or with cuts past the end.
fn cuts(random: &mut Random, bytes: &[u8]) -> Vec<u32> {
    let pieces = pieces(random, bytes);
    let mut cuts: Vec<u32> = pieces.iter().map(|piece| piece.len() as u32).collect();
    let at = random.within(0, cuts.len() as u64 + 1) as usize;
    match random.within(0, 4) {
        0 => cuts.truncate(at),
        1 => cuts.extend([1, 0, u32::MAX]),
        2 => cuts.insert(at, random.word()),
        _ => {}
    }
    cuts
}

pub fn run(checker: &mut Checker, size: Size, random: &mut Random) {
    lengths(checker);
    boundaries(checker, random);
    every_cut(checker, size);
    any_bytes(checker, random, size.of(20, 300, 20_000));
    forged(checker, random, size.of(60, 1000, 60_000));
    let words = made_up_words(random, 6);
    for graph in [SAMPLE.to_vec(), dawg(&words)] {
        for layout in [0, 1] {
            damage(checker, random, &file_of(&graph, layout), layout, size);
        }
    }
}

// Every short length, and those around the longest.
fn lengths(checker: &mut Checker) {
    let longest = 67_108_864;
    let near = [
        longest - 4,
        longest - 1,
        longest,
        longest + 1,
        longest + 4,
        usize::MAX - 3,
    ];
    for announced in (0..50).chain(near).chain([usize::MAX]) {
        for nodes_len in [0, 1, 2, 3, 12, 13] {
            checker.load(announced, announced as u32 % 3, &[&[0x40]], nodes_len);
            checker.load_in_pieces(announced, announced as u32 % 3, &[0x40], &[0], 3, nodes_len);
        }
    }
}

// The five nodes, and the same with a node that does not fit, cut at every two places up to one past the end.
fn every_cut(checker: &mut Checker, size: Size) {
    let mut wide = file_of(&SAMPLE, 0);
    wide[11] = 64;
    for bytes in [file_of(&SAMPLE, 0), wide] {
        let len = bytes.len();
        for first in (0..=len + 1).step_by(size.of(5, 1, 1)) {
            for second in 0..=len + 1 - first {
                let cuts = [first as u32, second as u32];
                for announced in [len, len - 4, len + 4, len - 1] {
                    checker.load_in_pieces(announced, 0, &bytes, &cuts, second % 5, 6);
                }
            }
        }
    }
}

// Nodes on both sides of what a layout holds, first, in the middle and last, before a part node.
fn boundaries(checker: &mut Checker, random: &mut Random) {
    let arcs = [(1 << 22) - 1, 1 << 22, (1 << 24) - 1];
    let kbwg = arcs.map(|arc| node(63, true, false, arc));
    let kwg = [0x3fff_ffff, 0x4000_0000, 0xff80_0000, 0x3f40_0000];
    for (layout, words) in [(0, &kwg[..]), (1, &kbwg[..])] {
        for &word in words {
            for place in 0..3 {
                let mut nodes = [0x40; 3];
                nodes[place] = word;
                let mut bytes = kbwg_bytes(&nodes);
                load(checker, random, &bytes, layout);
                bytes.extend([1, 2, 3].iter().take(place));
                checker.repack(&bytes, layout, 1 - layout);
                checker.repack(&bytes, layout, layout);
            }
        }
    }
}

fn any_bytes(checker: &mut Checker, random: &mut Random, times: usize) {
    for time in 0..times {
        let len = random.within(0, 40);
        let bytes: Vec<u8> = (0..len)
            .map(|_| random.byte() & if time % 2 == 0 { 0x43 } else { 0xff })
            .collect();
        let layout = random.within(0, 2) as u32;
        load(checker, random, &bytes, layout);
        for from in 0..2 {
            checker.repack(&bytes, from, random.within(0, 2) as u32 * 5);
        }
    }
}

// States near honest ones, with some of their numbers changed.
fn forged(checker: &mut Checker, random: &mut Random, times: usize) {
    for _ in 0..times {
        let len = random.within(2, 7) as usize;
        let nodes = wild(random, len, 4);
        let announced = 4 * nodes.len();
        let taken = random.within(0, announced as u64 + 1) as usize;
        let mut state = Loader {
            announced,
            taken,
            held_count: taken % 4,
            node: 0,
            layout: random.within(0, 3) as u32,
            refusal: 0,
            arc: 0,
            tile: 0,
            held: [0; 3],
        };
        for held in &mut state.held[..taken % 4] {
            *held = random.byte();
        }
        for _ in 0..random.within(0, 3) {
            change(random, &mut state);
        }
        let len = random.within(0, (announced - taken) as u64 + 6);
        let piece: Vec<u8> = (0..len).map(|_| random.byte() & 0x43).collect();
        let lent = checker.around(nodes.len()).min(nodes.len());
        checker.forged(state, &piece, &nodes[..lent]);
    }
}

fn change(random: &mut Random, state: &mut Loader) {
    match random.within(0, 8) {
        0 => state.announced = random.within(0, 40) as usize,
        1 => state.announced = random.next() as usize,
        2 => state.taken = random.within(0, 40) as usize,
        3 => state.taken = random.next() as usize,
        4 => state.held_count = random.within(0, 6) as usize,
        5 => state.held[random.within(0, 3) as usize] = random.byte() & 1,
        6 => {
            state.refusal = [6, 1, u32::MAX][random.within(0, 3) as usize];
            state.node = random.within(0, 9) as usize;
        }
        _ => {
            state.node = random.next() as usize;
            state.tile = random.byte();
            state.arc = random.word();
        }
    }
}

// Each bit turned, the file cut at each byte, and more after it. What still loads goes through all calls.
fn damage(checker: &mut Checker, random: &mut Random, bytes: &[u8], layout: u32, size: Size) {
    for bit in (0..8 * bytes.len()).step_by(size.of(101, 7, 1)) {
        let mut damaged = bytes.to_vec();
        damaged[bit / 8] ^= 1 << (bit % 8);
        load(checker, random, &damaged, layout);
        checker.repack(&damaged, layout, 1 - layout);
        if let Ok(nodes) = rust_side::load(&damaged, layout) {
            all_calls(checker, random, nodes, Nodes::Some(4));
        }
    }
    for len in (0..bytes.len()).step_by(size.of(37, 5, 1)) {
        load(checker, random, &bytes[..len], layout);
        let longer = [bytes, &bytes[..len]].concat();
        load(checker, random, &longer, layout);
        checker.repack(&longer, layout, 1 - layout);
    }
}
