// Call 5: a whole file loaded.

mod requests;

use super::layout::{Layout, fields_of};
use super::outcome::{
    ARC_PAST_END, DOES_NOT_FIT, DONE, NO_END, NOT_WHOLE_NODES, named_in, tile_and_arc, unknown,
};
use super::{Case, Family};
use crate::error;
use crate::kwg::{Kwg, Node24, kbwg_from_bytes_alloc};
use crate::numbers::{Inputs, Unreadable};

const LOAD: u64 = 5;

pub const FAMILY: Family = Family {
    list: "loading",
    calls: LOAD..=LOAD,
    requests: requests::requests,
    answer,
};

fn answer(_call: u64, inputs: &mut Inputs) -> Result<Case, Unreadable> {
    let layout = Layout::read(inputs)?;
    let bytes = inputs.bytes()?;
    inputs.end()?;
    let answer = match load(layout, &bytes) {
        Ok(graph) => loaded(&graph)?,
        Err(refusal) => {
            refused(layout, &bytes, &refusal.to_string()).ok_or_else(|| unknown(&refusal))?
        }
    };
    Ok(Case {
        words: vec![layout as u32, cut_of(&bytes)],
        bytes,
        answer,
    })
}

// Where the replay cuts the file in two, which the Rust takes whole: any place,
// but the same for the same file.
fn cut_of(bytes: &[u8]) -> u32 {
    let sum: u32 = bytes.iter().map(|&byte| u32::from(byte)).sum();
    sum % (bytes.len() as u32 + 1)
}

fn load(layout: Layout, bytes: &[u8]) -> error::Returns<Kwg<Node24>> {
    kbwg_from_bytes_alloc(bytes.to_vec(), layout == Layout::Kbwg)
}

// A node keeps its word to itself: it is packed again from its fields.
fn loaded(graph: &Kwg<Node24>) -> Result<Vec<u64>, Unreadable> {
    let mut answer = vec![DONE, 0, graph.0.len() as u64, 0, 0];
    for &node in &graph.0 {
        let word = Layout::Kbwg
            .pack(&fields_of(node))
            .ok_or("loaded, but a node of it does not fit its own layout")?;
        answer.push(word.into());
    }
    Ok(answer)
}

// None where the message is not one of the four.
fn refused(layout: Layout, bytes: &[u8], message: &str) -> Option<Vec<u64>> {
    if message == format!("a word graph of {} bytes is not whole nodes", bytes.len()) {
        return Some(vec![NOT_WHOLE_NODES]);
    }
    if message == "the word graph's last node does not end its run" {
        return Some(vec![NO_END, 0, 0, 0, 0]);
    }
    if let Some((tile, arc)) = tile_and_arc(message) {
        let node = refused_node(layout, bytes, message)?;
        return Some(vec![DOES_NOT_FIT, arc, 0, node, tile]);
    }
    let past = format!(", past its {} nodes", bytes.len() / 4);
    let arc = named_in(message, "the word graph points to node ", &past)?;
    Some(vec![ARC_PAST_END, arc.parse().ok()?, 0, 0, 0])
}

// The refusal does not say which node it was: the last node of the shortest
// start that is refused by the same message.
fn refused_node(layout: Layout, bytes: &[u8], message: &str) -> Option<u64> {
    (0..bytes.len() / 4)
        .find(|node| {
            load(layout, &bytes[..(node + 1) * 4])
                .is_err_and(|refusal| refusal.to_string() == message)
        })
        .map(|node| node as u64)
}
