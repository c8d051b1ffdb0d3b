// The two layouts of a node, by the number a list gives them.

use crate::error;
use crate::kwg::{Node, Node22, Node24, repack_in_place};
use crate::numbers::{Inputs, Unreadable};

#[derive(Clone, Copy, PartialEq)]
pub enum Layout {
    Kwg = 0,
    Kbwg = 1,
}

use Layout::{Kbwg, Kwg};

pub const LAYOUTS: [Layout; 2] = [Kwg, Kbwg];

// From and to, also a layout to itself.
pub const PAIRS: [(Layout, Layout); 4] = [(Kwg, Kwg), (Kwg, Kbwg), (Kbwg, Kwg), (Kbwg, Kbwg)];

#[derive(Clone, Copy)]
pub struct Fields {
    pub tile: u8,
    pub accepts: bool,
    pub is_end: bool,
    pub arc_index: i32,
}

impl Layout {
    pub fn number(self) -> u64 {
        self as u64
    }

    pub fn read(inputs: &mut Inputs) -> Result<Self, Unreadable> {
        Ok(LAYOUTS[inputs.number(1)? as usize])
    }

    pub fn fields(self, word: u32) -> Fields {
        match self {
            Kwg => fields_of(Node22::new(word)),
            Kbwg => fields_of(Node24::new(word)),
        }
    }

    pub fn pack(self, fields: &Fields) -> Option<u32> {
        let Fields {
            tile,
            accepts,
            is_end,
            arc_index,
        } = *fields;
        match self {
            Kwg => Node22::pack(tile, accepts, is_end, arc_index),
            Kbwg => Node24::pack(tile, accepts, is_end, arc_index),
        }
    }
}

pub fn fields_of(node: impl Node) -> Fields {
    Fields {
        tile: node.tile(),
        accepts: node.accepts(),
        is_end: node.is_end(),
        arc_index: node.arc_index(),
    }
}

pub fn repack(from: Layout, to: Layout, bytes: &mut [u8]) -> error::Returns<()> {
    match (from, to) {
        (Kwg, Kwg) => repack_in_place::<Node22, Node22>(bytes),
        (Kwg, Kbwg) => repack_in_place::<Node22, Node24>(bytes),
        (Kbwg, Kwg) => repack_in_place::<Node24, Node22>(bytes),
        (Kbwg, Kbwg) => repack_in_place::<Node24, Node24>(bytes),
    }
}
