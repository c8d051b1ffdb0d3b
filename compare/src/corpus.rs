//! The seeded inputs, part by part. A part has a seed of its own, so that a change to one leaves the others as they were.

mod all_calls;
mod big;
pub mod building;
pub mod building_limits;
mod code_points;
pub mod evenings;
mod headers;
mod in_play;
mod label_files;
mod lexicons;
mod limits;
mod loads;
pub mod loops;
mod odd;
mod page_limits;
mod pages;
pub mod play_limits;
mod small;
mod texts;
mod thinned;
pub mod typed;

use crate::checker::Checker;
use crate::random::Random;

/// How much is asked.
#[derive(Clone, Copy, Debug, PartialEq, Eq)]
pub enum Size {
    /// A few calls of every kind, for the tests.
    Tiny,
    Short,
    Full,
}

impl Size {
    fn of<T>(self, tiny: T, short: T, full: T) -> T {
        match self {
            Size::Tiny => tiny,
            Size::Short => short,
            Size::Full => full,
        }
    }
}

pub fn run(checker: &mut Checker, size: Size, seed: u64) {
    let mut part = 0;
    let mut random = || {
        part += 1;
        Random::new(seed.wrapping_mul(1000) + part)
    };
    small::run(checker, size, &mut random());
    odd::run(checker, size, &mut random());
    loads::run(checker, size, &mut random());
    lexicons::run(checker, size, &mut random());
    limits::run(checker, size, &mut random());
    page_limits::run(checker, size, &mut random());
    if size == Size::Full {
        big::run(checker, &mut random());
    }
    headers::run(checker, size, &mut random());
    typed::run(checker, size, &mut random());
    loops::run(checker, size, &mut random());
    code_points::run(checker, size);
    play_limits::run(checker, size, &mut random());
    evenings::run(checker, size, &mut random());
    building::run(checker, size, &mut random());
    building_limits::run(checker, size);
}
