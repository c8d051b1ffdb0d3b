//! The calls for words in play.

use super::{PlayOf, Turn};
use crate::answer::Answer;
use machirsun::ffi;

pub fn in_play(nodes: &[u32], asked: &PlayOf, bits: &mut [u8]) -> Answer {
    let call = match asked.turn {
        Turn::Arrives => ffi::machirsun_arrive,
        Turn::Leaves => ffi::machirsun_leave,
    };
    let r = unsafe {
        call(
            nodes.as_ptr(),
            nodes.len(),
            asked.counts.as_ptr(),
            asked.counts.len(),
            asked.start,
            asked.word.as_ptr(),
            asked.word.len(),
            bits.as_mut_ptr(),
            bits.len(),
        )
    };
    Answer {
        remaining: r.remaining.into(),
        ..super::flagged(r.refusal, r.found, r.lowest.into())
    }
}
