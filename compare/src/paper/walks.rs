//! Run lookup, the run cursor, both conversions and letter bits: walks on which the refusal met first is given.

use super::nodes::{Node, kbwg};
use super::runs::run;
use crate::answer::Answer;

/// A step's outcome, or the number of the refusal that it meets.
pub type Step<T> = Result<T, u32>;

/// "14+ a step to a node or count not lent"
pub fn node(nodes: &[u32], p: u32) -> Step<Node> {
    nodes.get(p as usize).map(|&word| kbwg(word)).ok_or(14)
}

pub fn count(counts: &[u32], p: u32) -> Step<u32> {
    counts.get(p as usize).copied().ok_or(14)
}

// "15+ a difference below 0 or sum above 4,294,967,295"
fn sum(a: u32, b: u32) -> Step<u32> {
    a.checked_add(b).ok_or(15)
}

fn difference(a: u32, b: u32) -> Step<u32> {
    a.checked_sub(b).ok_or(15)
}

/// The first node with the tile in the run from p.
fn find(nodes: &[u32], mut p: u32, tile: u8) -> Step<Option<u32>> {
    loop {
        let here = node(nodes, p)?;
        if here.tile == tile {
            return Ok(Some(p));
        }
        if here.end {
            return Ok(None);
        }
        p += 1;
    }
}

/// The Rust's `seek`, as the alpha sets walk: in the run that the arc of p leads to, none where there is no arc.
pub fn seek(nodes: &[u32], p: u32, tile: u8) -> Step<Option<u32>> {
    match node(nodes, p)?.arc {
        0 => Ok(None),
        arc => find(nodes, arc, tile),
    }
}

/// Run lookup (02, C-16): "with the node found, how many words of the run come before it. [..] It is the run's first count less that of the
/// node found [..] Counts are read only for a tile found, the run's first count first."
pub fn run_lookup(nodes: &[u32], counts: &[u32], p: u32, tile: u8) -> Step<Option<(u32, u32)>> {
    let Some(found) = seek(nodes, p, tile)? else {
        return Ok(None);
    };
    let first = count(counts, node(nodes, p)?.arc)?;
    let before = difference(first, count(counts, found)?)?;
    Ok(Some((found, before)))
}

/// An answer that finds a number or does not, or a refusal.
pub fn found(step: Step<Option<u32>>) -> Answer {
    match step {
        Ok(value) => Answer::found(value.map(u64::from)),
        Err(refusal) => Answer::refused(refusal),
    }
}

pub fn cursor_at(nodes: &[u32], at: u32) -> Answer {
    Answer {
        refusal: node(nodes, at).err().unwrap_or(0),
        ..Answer::gives(at.into())
    }
}

/// "each step moves to the next node and answers it; at an end node it says done and stays."
pub fn cursor_step(nodes: &[u32], at: u32) -> Answer {
    let moved = node(nodes, at).and_then(|here| {
        if here.end {
            return Ok((at, true));
        }
        node(nodes, at + 1).map(|_| (at + 1, false))
    });
    let (value, flag) = moved.unwrap_or((at, false));
    Answer {
        refusal: moved.err().unwrap_or(0),
        flag,
        ..Answer::gives(value.into())
    }
}

/// `get_word_index`: "none where the Rust gives `!0`; start 0 and the empty word give none. It takes the first node of the run with the
/// tile." Run lookup "for each further tile in place of its own subtraction" (02, C-16).
pub fn word_index(nodes: &[u32], counts: &[u32], start: u32, word: &[u8]) -> Step<Option<u32>> {
    let Some((&first, further)) = word.split_first() else {
        return Ok(None);
    };
    if start == 0 {
        return Ok(None);
    }
    node(nodes, start)?;
    let from_start = count(counts, start)?;
    let Some(mut p) = find(nodes, start, first)? else {
        return Ok(None);
    };
    let mut number = difference(from_start, count(counts, p)?)?;
    for &tile in further {
        number = sum(number, node(nodes, p)?.accepts.into())?;
        let Some((found, before)) = run_lookup(nodes, counts, p, tile)? else {
            return Ok(None);
        };
        number = sum(number, before)?;
        p = found;
    }
    let accepts = node(nodes, p)?.accepts;
    Ok(Some(number).filter(|&number| accepts && number != u32::MAX))
}

/// The tiles that `get_word_by_index` puts into so many places, and how the walk ends: the word is whole, there is none, or a refusal.
pub fn word_by_index(
    nodes: &[u32],
    counts: &[u32],
    start: u32,
    number: u32,
    room: usize,
) -> (Vec<u8>, Step<bool>) {
    let mut tiles = Vec::new();
    let end = put_word(nodes, counts, start, number, &mut |tile| {
        if tiles.len() == room {
            return Err(16);
        }
        tiles.push(tile);
        Ok(())
    });
    (tiles, end)
}

fn put_word(
    nodes: &[u32],
    counts: &[u32],
    start: u32,
    mut number: u32,
    put: &mut dyn FnMut(u8) -> Step<()>,
) -> Step<bool> {
    let mut p = start;
    loop {
        let here = node(nodes, p)?;
        if number == 0 && here.accepts {
            put(here.tile)?;
            return Ok(true);
        }
        let from_here = count(counts, p)?;
        let after = if here.end { 0 } else { count(counts, p + 1)? };
        let words_here = difference(from_here, after)?;
        if number < words_here {
            number = difference(number, here.accepts.into())?;
            put(here.tile)?;
            p = here.arc;
        } else if here.end {
            return Ok(false);
        } else {
            number -= words_here;
            p += 1;
        }
    }
}

/// "per node, all tiles and accepting tiles from it to its run's end, or to the last lent node where no end comes."
pub fn letter_bits(nodes: &[u32], all: &mut [u64], accepting: &mut [u64]) -> Answer {
    if all.len() < nodes.len() || accepting.len() < nodes.len() {
        return Answer::refused(11);
    }
    let set = |tiles: &[Node]| tiles.iter().fold(0, |set, node| set | 1u64 << node.tile);
    for p in 0..nodes.len() {
        let mut run = run(nodes, p);
        all[p] = set(&run);
        run.retain(|node| node.accepts);
        accepting[p] = set(&run);
    }
    Answer::default()
}
