// The list `nodes`.

use super::super::layout::{Fields, LAYOUTS, Layout, PAIRS};
use super::super::samples::{bytes_of, damaged, empty_graph, graph, random_bytes};
use super::{FIELDS, PACK, REPACK_BYTES, REPACK_ONE};
use crate::random::Random;
use crate::requests::Requests;

// Where an arc no longer fits KWG, where it no longer fits KBWG, and the last
// that the Rust can hold.
const ARCS_AT_THE_LIMITS: [i32; 9] = [
    0,
    1,
    (1 << 22) - 1,
    1 << 22,
    (1 << 22) + 1,
    (1 << 24) - 1,
    1 << 24,
    (1 << 24) + 1,
    i32::MAX,
];

// Tile 63 is the last that fits KBWG.
const TILES_AT_THE_LIMITS: [u8; 4] = [0, 63, 64, 255];

// Accepts and is_end.
const FLAGS: [(bool, bool); 4] = [(false, false), (false, true), (true, false), (true, true)];

// In both layouts a node fits the other where its two top bits are clear: they
// make a tile of 64 or more in KWG, and an arc of 2^22 or more in KBWG.
const TOP_BITS: u32 = 0xc000_0000;

pub fn requests(requests: &mut Requests) {
    requests.comment("call 1: the fields of a node");
    fields(requests);
    requests.comment("call 2: a node packed");
    packs(requests);
    requests.comment("call 3: one node repacked");
    single_repacks(requests);
    requests.comment("call 4: bytes repacked in place");
    short_inputs(requests);
    lengths(requests);
    one_misfit(requests);
    graphs(requests);
    damaged_graphs(requests);
}

fn telling_words() -> Vec<u32> {
    let mut words = vec![0, u32::MAX];
    words.extend((0..32).map(|bit| 1 << bit));
    words.extend((0..32).map(|bit| !(1 << bit)));
    words
}

fn fields(requests: &mut Requests) {
    let mut random = Random::new(1);
    for layout in LAYOUTS {
        let mut words = telling_words();
        words.extend((0..500).map(|_| random.word()));
        for word in words {
            requests.ask(&[FIELDS, layout.number(), word.into()]);
        }
    }
}

fn packs(requests: &mut Requests) {
    let mut random = Random::new(2);
    for layout in LAYOUTS {
        let mut ask = |tile: u8, (accepts, is_end): (bool, bool), arc: i32| {
            requests.ask(&[
                PACK,
                layout.number(),
                tile.into(),
                accepts.into(),
                is_end.into(),
                arc as u64,
            ]);
        };
        for tile in 0..=255 {
            for flags in FLAGS {
                ask(tile, flags, 0);
                // An arc that fits both layouts: only the tile decides.
                ask(tile, flags, random.within(1, 1 << 22) as i32);
            }
        }
        for tile in TILES_AT_THE_LIMITS {
            for flags in FLAGS {
                for arc in ARCS_AT_THE_LIMITS {
                    ask(tile, flags, arc);
                }
            }
        }
        for _ in 0..250 {
            let flags = (random.flag(), random.flag());
            // Of every size, where even ones would nearly all be too large.
            let arc = random.within(0, 1 << 31) >> random.within(0, 31);
            ask(random.byte(), flags, arc as i32);
        }
    }
}

fn single_repacks(requests: &mut Requests) {
    let mut random = Random::new(3);
    for (from, to) in PAIRS {
        let mut words = telling_words();
        // What the layout itself cannot hold makes no word.
        let mut add = |tile, (accepts, is_end), arc_index| {
            words.extend(from.pack(&Fields {
                tile,
                accepts,
                is_end,
                arc_index,
            }));
        };
        for tile in 0..=255 {
            for flags in FLAGS {
                add(tile, flags, random.within(0, 1 << 22) as i32);
            }
        }
        for tile in TILES_AT_THE_LIMITS {
            for flags in FLAGS {
                for arc in ARCS_AT_THE_LIMITS {
                    add(tile, flags, arc);
                }
            }
        }
        words.extend((0..250).map(|_| random.word()));
        for word in words {
            requests.ask(&[REPACK_ONE, from.number(), to.number(), word.into()]);
        }
    }
}

fn ask_bytes(requests: &mut Requests, from: Layout, to: Layout, bytes: &[u8]) {
    let mut numbers = vec![REPACK_BYTES, from.number(), to.number(), bytes.len() as u64];
    numbers.extend(bytes.iter().map(|&byte| u64::from(byte)));
    requests.ask(&numbers);
}

fn random_fitting_words(random: &mut Random, len: usize) -> Vec<u32> {
    (0..len).map(|_| random.word() & !TOP_BITS).collect()
}

// Up to one node, of zeros and of ones: a part node stays as it is.
fn short_inputs(requests: &mut Requests) {
    for (from, to) in PAIRS {
        for len in 0..=4 {
            for byte in [0x00, 0xff] {
                ask_bytes(requests, from, to, &vec![byte; len]);
            }
        }
    }
}

// Every length, of bytes that fit the other layout and of any.
fn lengths(requests: &mut Requests) {
    let mut random = Random::new(4);
    for (from, to) in PAIRS {
        for len in 0..=40 {
            let mut fitting = bytes_of(&random_fitting_words(&mut random, len / 4));
            fitting.extend(random_bytes(&mut random, len % 4));
            ask_bytes(requests, from, to, &fitting);
            ask_bytes(requests, from, to, &random_bytes(&mut random, len));
        }
    }
}

// Exactly one node does not fit: from KWG by its tile, from KBWG by its arc.
fn one_misfit(requests: &mut Requests) {
    let mut random = Random::new(5);
    for (from, to) in [(Layout::Kwg, Layout::Kbwg), (Layout::Kbwg, Layout::Kwg)] {
        for len in [1, 2, 3, 5, 8] {
            let mut places = vec![0, len / 2, len - 1];
            places.dedup();
            for place in places {
                // The least tile or arc that does not fit, the greatest, and
                // one between.
                let between = random.word() | 1 << random.within(30, 32);
                for misfit in [1 << 30, u32::MAX, between] {
                    for part in 0..4 {
                        let mut words = random_fitting_words(&mut random, len);
                        words[place] = misfit;
                        let mut bytes = bytes_of(&words);
                        bytes.extend(random_bytes(&mut random, part));
                        ask_bytes(requests, from, to, &bytes);
                    }
                }
            }
        }
    }
}

// Good graphs, also read in the wrong layout, whole and with a part node after.
fn graphs(requests: &mut Requests) {
    for (from, to) in PAIRS {
        let graphs = [LAYOUTS.map(graph), LAYOUTS.map(empty_graph)];
        for graph in graphs.as_flattened() {
            for part in 0..4 {
                let mut bytes = graph.clone();
                bytes.extend(&[0xff, 0x80, 0x01][..part]);
                ask_bytes(requests, from, to, &bytes);
            }
        }
    }
}

// One byte of a good graph changed.
fn damaged_graphs(requests: &mut Requests) {
    for (from, to) in PAIRS {
        for bytes in damaged(&graph(from)) {
            ask_bytes(requests, from, to, &bytes);
        }
    }
}
