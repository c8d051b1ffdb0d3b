//! Holds the engine to the Rust it is ported from and to documents 01 and 02, and has what the benchmark shares with that: lexicons and random
//! numbers that are the same on every run.
//!
//! A call is put together in `checker` from an input of `corpus`. It is asked of the engine (`engine`), of 01 as read in `paper`, and of
//! the unchanged Rust (`rust_side`) wherever the comparison's domain reaches. The three must agree in the answer and in every entry of
//! every lent buffer; `report` counts and keeps the smallest input on which they don't.

pub mod answer;
pub mod checker;
pub mod corpus;
pub mod engine;
pub mod graphs;
pub mod lent;
pub mod lexicon;
pub mod paper;
#[path = "../../oracle/src/random.rs"]
pub mod random;
pub mod report;
pub mod rust_side;
#[path = "../../oracle/src/windows1252.rs"]
pub mod windows1252;
pub mod word_lists;
