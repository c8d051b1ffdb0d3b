// Whether a lookup by any counts stays in range: no number of it overflows, no
// node is past the graph, and it ends. Where one does not, the Rust's answer
// hangs on how it was built.

use super::super::layout::Fields;

pub fn number_of_word(nodes: &[Fields], counts: &[u32], start: usize, word: &[u8]) -> bool {
    index_of(nodes, counts, start, word).is_some()
}

pub fn word_of_number(
    nodes: &[Fields],
    counts: &[u32],
    start: usize,
    number: u32,
    longest: usize,
) -> bool {
    length_of(nodes, counts, start, number).is_some_and(|len| len <= longest)
}

// The words passed before the last node that was met; none where the numbers
// overflow.
fn index_of(nodes: &[Fields], counts: &[u32], start: usize, word: &[u8]) -> Option<u32> {
    let mut place = start;
    let mut index = 0u32;
    for (tiles, &tile) in (1..).zip(word) {
        if place == 0 {
            break;
        }
        let first = counts[place];
        index = index.checked_add(first)?;
        while nodes[place].tile != tile {
            if nodes[place].is_end {
                return Some(index);
            }
            place += 1;
        }
        // The words of the run before the node are a number of their own.
        first.checked_sub(counts[place])?;
        index -= counts[place];
        if tiles < word.len() {
            index = index.checked_add(nodes[place].accepts.into())?;
        }
        place = nodes[place].arc_index as usize;
    }
    Some(index)
}

// How many tiles are passed; none where the numbers overflow, or the tiles are
// more than the nodes.
fn length_of(nodes: &[Fields], counts: &[u32], start: usize, number: u32) -> Option<usize> {
    let mut place = start;
    let mut number = number;
    let mut len = 1;
    while len <= nodes.len() {
        let node = &nodes[place];
        if number == 0 && node.accepts {
            return Some(len);
        }
        let after = if node.is_end { 0 } else { counts[place + 1] };
        let here = counts[place].checked_sub(after)?;
        if number < here {
            number = number.checked_sub(node.accepts.into())?;
            place = node.arc_index as usize;
            len += 1;
        } else if node.is_end {
            return Some(len);
        } else {
            number -= here;
            place += 1;
        }
    }
    None
}
