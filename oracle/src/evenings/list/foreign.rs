// Evenings that the Rust is not asked about: a start or a count is not lent, the
// counts are not the graph's own, or the graph does not ascend, loops or is cut.

use super::SAMPLE_WORDS;
use super::round::Lines;
use crate::calls::graphs::{pack_all, sample};

const GREATEST: u32 = u32::MAX;

pub fn evenings(lines: &mut Lines) {
    not_lent(lines);
    other_counts(lines);
    sums(lines);
    other_graphs(lines);
}

// So many of the sample's nodes, with any counts.
fn call_sample(lines: &mut Lines, start: usize, bytes: usize, nodes: usize, counts: &[u32]) {
    lines.begin(start, bytes, &pack_all(&sample()[..nodes]), counts);
    lines.call_twice(&SAMPLE_WORDS);
}

fn not_lent(lines: &mut Lines) {
    lines.comment("14: the start or its count is not lent, before 11 too");
    for start in [5, 9, GREATEST as usize] {
        call_sample(lines, start, 1, 5, &[3, 0, 3, 1, 1, 1, 1, 1, 1, 1]);
    }
    call_sample(lines, 2, 1, 5, &[3, 0]);
    call_sample(lines, 2, 0, 5, &[]);
    call_sample(lines, 0, 1, 0, &[0]);
    lines.comment("29: the count of start 0 is not read");
    call_sample(lines, 0, 1, 5, &[]);
    call_sample(lines, 0, 0, 5, &[GREATEST]);
    lines.comment("14 of word numbers: a count is not lent, at the first tile and at the second");
    call_sample(lines, 2, 1, 5, &[3, 0, 3]);
    call_sample(lines, 2, 1, 5, &[3, 0, 3, 1]);
    lines.comment("14 of word numbers: a node is not lent");
    call_sample(lines, 2, 1, 3, &[3, 0, 3, 1, 1]);
    call_sample(lines, 2, 1, 4, &[3, 0, 3, 1, 1]);
    lines.comment("11 before 14 of word numbers");
    call_sample(lines, 2, 0, 5, &[3, 0, 3]);
}

fn other_counts(lines: &mut Lines) {
    lines.comment("a great count of which no more than a difference is read");
    call_sample(lines, 2, 1, 5, &[3, 0, 3, 1, GREATEST]);
    lines.comment("15: the count of the run's first node is below that of the node found");
    call_sample(lines, 2, 1, 5, &[3, 0, 1, 2, 1]);
    lines.comment("29: a number is the start's count, or above it");
    for counts in [[3, 0, 2, 0, 1], [3, 0, 1, 0, 1], [3, 0, 0, 0, 1]] {
        call_sample(lines, 2, 1, 5, &counts);
    }
    call_sample(lines, 2, 0, 5, &[3, 0, 0, 0, 1]);
    lines.comment("more numbers than words; 11 where the record has bits for the words only");
    for bytes in [3, 2, 1] {
        call_sample(lines, 2, bytes, 5, &[3, 0, 20, 1, 1]);
    }
    call_sample(lines, 2, 9, 5, &[3, 0, GREATEST, 1, 1]);
    lines.comment("1 2 and 2 2 have one number, by which either is in play for both");
    call_sample(lines, 2, 1, 5, &[3, 0, 3, 2, 1]);
}

fn call(lines: &mut Lines, bytes: usize, nodes: &[u32], counts: &[u32], words: &[&[u8]]) {
    lines.begin(2, bytes, nodes, counts);
    lines.call_twice(words);
}

// The words 1 1, 1 2 and 1 2 1, and 1 where node 2 accepts.
fn sums(lines: &mut Lines) {
    let words: [&[u8]; 6] = [&[1], &[1, 1], &[1, 2], &[1, 2, 1], &[1, 2, 9], &[1, 9]];
    for (node_2, added) in [(0x341, "flag"), (0x3c1, "words of the run")] {
        let nodes = [0x240, 0x40, node_2, 0x81, 0x5c2, 0xc1];
        lines.comment(&format!("15: the sum with the {added} is too great"));
        call(lines, 1, &nodes, &[4, 0, 4, GREATEST, 0, 1], &words);
        lines.comment("a sum just below");
        call(lines, 1, &nodes, &[4, 0, 4, GREATEST, 1, 1], &words);
        lines.comment("15: a difference below 0 at the second tile");
        call(lines, 1, &nodes, &[4, 0, 4, 1, 2, 1], &words);
    }
}

fn other_graphs(lines: &mut Lines) {
    lines.comment("a run that does not ascend: 1 is its word twice, and has the lower number");
    let twice = [0x240, 0x40, 0x81, 0xc1];
    call(lines, 1, &twice, &[2, 0, 2, 1], &[&[1], &[2]]);
    lines.comment("a node that leads to itself: as many words as its count says");
    let own = [0x240, 0x40, 0x2c1];
    let ones = [1; 300];
    let words = [0, 1, 2, 8, 9, 10, 11, 300].map(|len| &ones[..len]);
    call(lines, 2, &own, &[10, 0, 10], &words);
}
