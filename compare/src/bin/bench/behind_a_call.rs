//! The Rust's smallest calls behind a C interface like the engine's. Inlined into the benchmark they are a few instructions, less than the
//! way into a library and back; from behind such a call the two sides' own work can be compared.

use compare::rust_side::{Graph, sought};
use machirsun::ffi::{Cursor, Sought};
use std::slice;
use wolges::kwg::Node;

pub extern "C" fn seek(
    graph: &Graph,
    counts: *const u32,
    counts_len: usize,
    place: u32,
    tile: u8,
) -> Sought {
    let counts = unsafe { slice::from_raw_parts(counts, counts_len) };
    let answer = sought(graph, counts, place, tile);
    let (place, before) = answer.unwrap_or((0, 0));
    Sought {
        refusal: 0,
        found: answer.is_some(),
        place,
        before,
    }
}

pub extern "C" fn cursor_at(graph: &Graph, at: u32) -> Cursor {
    let lent = (at as usize) < graph.0.len();
    Cursor {
        refusal: if lent { 0 } else { 14 },
        done: false,
        at,
    }
}

pub extern "C" fn cursor_step(graph: &Graph, at: u32) -> Cursor {
    let done = graph[at as i32].is_end();
    Cursor {
        refusal: 0,
        done,
        at: at + u32::from(!done),
    }
}
