//! The modules of andy-k/wolges that the engine is a port of, and one function of its program main_build.rs, compiled unchanged from its
//! sources. `oracle` writes down what they answer, `compare` holds the engine to them call by call and times both.

// The macro `return_error` of error.rs reaches us through an `include!`, and
// alphabet.rs names it by its full path.
#![allow(macro_expanded_macro_exports_accessed_by_absolute_paths)]

// Stands in for the compiler's own: the texts of the bundled alphabets are not
// among the sources. An alphabet is made by `Alphabet::new_static_from_text`
// from a text of ours; the makers of bundled ones panic on this empty text.
macro_rules! include_str {
    ($name:expr) => {
        ""
    };
}

// The modules must be siblings at the root of the crate, for they say
// `use super::` and `crate::return_error!`.
include!(concat!(env!("OUT_DIR"), "/wolges.rs"));

// `parse_machine_words` names its macro by the crate, as its program does.
extern crate self as wolges;

/// A word list read: the text of `parse_machine_words`, a function of the program main_build.rs, unchanged. The program's other functions need
/// modules that are not among the sources.
pub mod word_list {
    use crate::{alphabet, bites, error, text};

    include!(concat!(env!("OUT_DIR"), "/parse_machine_words.rs"));

    /// The function itself is its program's own.
    pub fn parse(
        alphabet_reader: &alphabet::AlphabetReader,
        giant_string: &str,
    ) -> error::Returns<Vec<bites::Bites>> {
        parse_machine_words(alphabet_reader, giant_string)
    }
}

// Stand-ins for modules that are not among the sources.
mod display;
mod equity;
