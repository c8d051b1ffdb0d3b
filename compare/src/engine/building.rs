//! The call that builds a lexicon.

use crate::answer::Answer;
use machirsun::ffi;

pub fn build(list: &[u8], work: &mut [u32], nodes: &mut [u32]) -> Answer {
    let r = unsafe {
        ffi::machirsun_build(
            list.as_ptr(),
            list.len(),
            work.as_mut_ptr(),
            work.len(),
            nodes.as_mut_ptr(),
            nodes.len(),
        )
    };
    super::flagged(r.refusal, false, r.nodes.into())
}
