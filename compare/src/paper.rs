//! Document 01 and the requests that add to it, read once more and on their own: what each call answers and what it leaves in the lent
//! buffers, by the paper's words and not by the engine's code or the Rust's. Written to be plainly right; how long it takes hardly matters.

pub mod alpha;
pub mod building;
pub mod counting;
pub mod in_play;
pub mod loading;
pub mod lxd;
pub mod macondo;
pub mod nodes;
pub mod pages;
pub mod runs;
pub mod typed;
pub mod walks;
pub mod words;

/// A row of the table "Where each check stands": the number of the first condition that holds, or 0. A condition is asked only where
/// those before it do not hold.
pub fn row(checks: &[(u32, &dyn Fn() -> bool)]) -> u32 {
    let first = checks.iter().find(|(_, holds)| holds());
    first.map_or(0, |&(number, _)| number)
}

/// What a call with a work list answers, and how many of the list's entries are then free.
#[derive(Clone, Copy, Debug)]
pub struct WithWork {
    pub answer: crate::answer::Answer,
    pub free: usize,
}
