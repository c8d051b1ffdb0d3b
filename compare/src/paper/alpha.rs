//! "`accepts_alpha` and `compute_alpha_cross_set` follow the Rust's walk, three nested loops: letters, copies of a letter, nodes of the
//! run. Tally entry 0 is unread; bit 0 is always set; an empty tally accepts as node 0 does."

use super::walks::{Step, node, seek};
use crate::answer::Answer;
use std::cmp::Ordering;

// Each letter of the tally from this one up, as often as it has copies.
fn letters(tally: &[u8], from: usize) -> impl Iterator<Item = u8> {
    let letters = tally.iter().enumerate().skip(from);
    letters.flat_map(|(letter, &copies)| (0..copies).map(move |_| letter as u8))
}

// Whether the letters from this one up lead from p to a node that accepts.
fn completes(nodes: &[u32], p: u32, tally: &[u8], from: usize) -> Step<bool> {
    let mut p = p;
    for letter in letters(tally, from) {
        match seek(nodes, p, letter)? {
            Some(next) => p = next,
            None => return Ok(false),
        }
    }
    Ok(node(nodes, p)?.accepts)
}

pub fn accepts_alpha(nodes: &[u32], tally: &[u8]) -> Answer {
    if tally.len() > 64 {
        return Answer::refused(17);
    }
    match completes(nodes, 0, tally, 1) {
        Ok(flag) => Answer::says(flag),
        Err(refusal) => Answer::refused(refusal),
    }
}

pub fn alpha_cross_set(nodes: &[u32], tally: &[u8]) -> Answer {
    if tally.len() > 64 {
        return Answer::refused(17);
    }
    match cross_set(nodes, tally) {
        Ok(set) => Answer::gives(set),
        Err(refusal) => Answer::refused(refusal),
    }
}

fn cross_set(nodes: &[u32], tally: &[u8]) -> Step<u64> {
    let mut set = 1;
    let mut p = node(nodes, 0)?.arc;
    if p == 0 {
        return Ok(set);
    }
    for letter in letters(tally, 1) {
        // The run up to the letter: a lower tile may be the one that is added.
        loop {
            let here = node(nodes, p)?;
            match here.tile.cmp(&letter) {
                Ordering::Greater => return Ok(set),
                Ordering::Less => {
                    if completes(nodes, p, tally, letter.into())? {
                        set |= 1 << here.tile;
                    }
                    if here.end {
                        return Ok(set);
                    }
                    p += 1;
                }
                Ordering::Equal if here.arc == 0 => return Ok(set),
                Ordering::Equal => {
                    p = here.arc;
                    break;
                }
            }
        }
    }
    // All letters are used up: every accepting tile of the run.
    loop {
        let here = node(nodes, p)?;
        if here.accepts {
            set |= 1 << here.tile;
        }
        if here.end {
            return Ok(set);
        }
        p += 1;
    }
}
