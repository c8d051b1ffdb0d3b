// Call 0, for the tests only: shows that a run survives what a call may do.
//   0 0 is answered, 0 1 panics, 0 2 exhausts the stack, 0 3 aborts.

use super::{Case, Family};
use crate::numbers::{Inputs, Unreadable};
use std::hint::black_box;

pub const FAMILY: Family = Family {
    list: "trial",
    calls: 0..=0,
    requests: |requests| {
        for kind in 0..=3 {
            requests.ask(&[0, kind]);
        }
    },
    answer,
};

fn answer(_call: u64, inputs: &mut Inputs) -> Result<Case, Unreadable> {
    let kind = inputs.number(3)?;
    inputs.end()?;
    let answer = match kind {
        0 => 0,
        1 => panic!(),
        2 => deeper(0),
        _ => std::process::abort(),
    };
    Ok(Case::of_words(vec![kind as u32], vec![answer]))
}

// The black boxes keep the compiler from making a loop of it, or nothing.
fn deeper(depth: u64) -> u64 {
    let frame = black_box([depth; 64]);
    if black_box(true) {
        deeper(depth + 1) + black_box(frame)[0]
    } else {
        depth
    }
}
