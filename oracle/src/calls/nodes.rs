// Calls 1 to 4: the fields of a node, packing, and repacking.

mod requests;

use super::layout::{Fields, Layout, repack};
use super::outcome::{DOES_NOT_FIT, DONE, tile_and_arc, unknown};
use super::{Case, Family};
use crate::numbers::{Inputs, Unreadable};

const FIELDS: u64 = 1;
const PACK: u64 = 2;
const REPACK_ONE: u64 = 3;
const REPACK_BYTES: u64 = 4;

pub const FAMILY: Family = Family {
    list: "nodes",
    calls: FIELDS..=REPACK_BYTES,
    requests: requests::requests,
    answer,
};

fn answer(call: u64, inputs: &mut Inputs) -> Result<Case, Unreadable> {
    match call {
        FIELDS => fields(inputs),
        PACK => pack(inputs),
        REPACK_ONE => repack_one(inputs),
        _ => repack_bytes(inputs),
    }
}

fn fields(inputs: &mut Inputs) -> Result<Case, Unreadable> {
    let layout = Layout::read(inputs)?;
    let word = inputs.word()?;
    inputs.end()?;
    let fields = layout.fields(word);
    let answer = vec![
        fields.tile.into(),
        fields.accepts.into(),
        fields.is_end.into(),
        // Widened with its sign, so that a negative arc would stand out.
        fields.arc_index as u64,
    ];
    Ok(Case::of_words(vec![layout as u32, word], answer))
}

fn pack(inputs: &mut Inputs) -> Result<Case, Unreadable> {
    let layout = Layout::read(inputs)?;
    let fields = Fields {
        tile: inputs.byte()?,
        accepts: inputs.flag()?,
        is_end: inputs.flag()?,
        arc_index: inputs.index()?,
    };
    inputs.end()?;
    let words = vec![
        layout as u32,
        fields.tile.into(),
        fields.accepts.into(),
        fields.is_end.into(),
        fields.arc_index as u32,
    ];
    // The Rust gives none, and no more: the tile and the arc are those asked.
    let answer = match layout.pack(&fields) {
        Some(word) => vec![DONE, word.into()],
        None => vec![DOES_NOT_FIT, fields.tile.into(), fields.arc_index as u64],
    };
    Ok(Case::of_words(words, answer))
}

// The Rust's own repacking of one node is private: four bytes in place are one
// node.
fn repack_one(inputs: &mut Inputs) -> Result<Case, Unreadable> {
    let from = Layout::read(inputs)?;
    let to = Layout::read(inputs)?;
    let word = inputs.word()?;
    inputs.end()?;
    let mut bytes = word.to_le_bytes();
    let answer = match repack(from, to, &mut bytes) {
        Ok(()) => vec![DONE, u32::from_le_bytes(bytes).into()],
        Err(refusal) => {
            let (tile, arc) =
                tile_and_arc(&refusal.to_string()).ok_or_else(|| unknown(&refusal))?;
            vec![DOES_NOT_FIT, tile, arc]
        }
    };
    Ok(Case::of_words(vec![from as u32, to as u32, word], answer))
}

fn repack_bytes(inputs: &mut Inputs) -> Result<Case, Unreadable> {
    let from = Layout::read(inputs)?;
    let to = Layout::read(inputs)?;
    let before = inputs.bytes()?;
    inputs.end()?;
    let mut after = before.clone();
    let mut answer = match repack(from, to, &mut after) {
        Ok(()) => vec![DONE, 0, 0, 0],
        Err(refusal) => {
            let node = refused_node(from, to, &before)
                .ok_or("refused, but no node of it is refused by itself")?;
            let (tile, arc) =
                tile_and_arc(&refusal.to_string()).ok_or_else(|| unknown(&refusal))?;
            vec![DOES_NOT_FIT, arc, node, tile]
        }
    };
    answer.extend(after.into_iter().map(u64::from));
    Ok(Case {
        words: vec![from as u32, to as u32],
        bytes: before,
        answer,
    })
}

// The refusal does not say which node it was: the last node of the shortest
// start that is refused.
fn refused_node(from: Layout, to: Layout, bytes: &[u8]) -> Option<u64> {
    (0..bytes.len() / 4)
        .find(|node| repack(from, to, &mut bytes[..(node + 1) * 4].to_vec()).is_err())
        .map(|node| node as u64)
}
