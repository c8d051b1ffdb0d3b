//! The calls that read a text.

use super::TextOf;
use crate::answer::Answer;
use machirsun::ffi;

pub fn next_word(asked: &TextOf, word: &mut [u8]) -> Answer {
    let r = unsafe {
        ffi::machirsun_next_word(
            asked.labels.as_ptr(),
            asked.labels.len(),
            asked.text.as_ptr(),
            asked.text.len(),
            asked.at,
            word.as_mut_ptr(),
            word.len(),
        )
    };
    Answer {
        bad: r.bad as u64,
        start: r.start as u64,
        end: r.end as u64,
        after: r.after as u64,
        ..super::flagged(r.refusal, r.found, r.tiles as u64)
    }
}

pub fn read_words(asked: &TextOf, tiles: &mut [u8], sizes: &mut [usize]) -> Answer {
    let r = unsafe {
        ffi::machirsun_read_words(
            asked.labels.as_ptr(),
            asked.labels.len(),
            asked.text.as_ptr(),
            asked.text.len(),
            asked.at,
            tiles.as_mut_ptr(),
            tiles.len(),
            sizes.as_mut_ptr(),
            sizes.len(),
        )
    };
    Answer {
        bad: r.bad as u64,
        words: r.words as u64,
        after: r.after as u64,
        ..super::flagged(r.refusal, r.found, r.tiles as u64)
    }
}
