//! "KWG: tile bits 24–31, accepts 23, end 22, arc 0–21. KBWG: arc bits 8–31, accepts 7, end 6, tile 0–5."

#[derive(Clone, Copy, Debug, PartialEq, Eq)]
pub struct Node {
    pub tile: u8,
    pub accepts: bool,
    pub end: bool,
    pub arc: u32,
}

fn bits(word: u32, low: u32, high: u32) -> u32 {
    (word >> low) & ((1u64 << (high - low + 1)) - 1) as u32
}

pub fn kbwg(word: u32) -> Node {
    Node {
        tile: bits(word, 0, 5) as u8,
        accepts: bits(word, 7, 7) == 1,
        end: bits(word, 6, 6) == 1,
        arc: bits(word, 8, 31),
    }
}

fn kwg(word: u32) -> Node {
    Node {
        tile: bits(word, 24, 31) as u8,
        accepts: bits(word, 23, 23) == 1,
        end: bits(word, 22, 22) == 1,
        arc: bits(word, 0, 21),
    }
}

/// A word's fields in a layout: 0 is KWG, every other number KBWG.
pub fn fields(layout: u32, word: u32) -> Node {
    if layout == 0 { kwg(word) } else { kbwg(word) }
}

/// The word with these fields, where they fit.
pub fn packed(layout: u32, node: Node) -> Option<u32> {
    let (tile, accepts, end) = (
        u32::from(node.tile),
        u32::from(node.accepts),
        u32::from(node.end),
    );
    if layout == 0 {
        (node.arc < 1 << 22).then_some(tile << 24 | accepts << 23 | end << 22 | node.arc)
    } else {
        (tile < 64 && node.arc < 1 << 24).then_some(node.arc << 8 | accepts << 7 | end << 6 | tile)
    }
}

pub fn largest_arc(nodes: &[u32]) -> u32 {
    nodes.iter().map(|&word| kbwg(word).arc).max().unwrap_or(0)
}

pub fn last_ends(nodes: &[u32]) -> bool {
    nodes.last().is_some_and(|&word| kbwg(word).end)
}
