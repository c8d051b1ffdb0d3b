//! Words in play: a record, one bit a word, of those that arrived and did not leave.

use crate::{ffi, plain, Refusal};

/// The words that are not in play.
#[derive(Clone, Copy, Debug, PartialEq, Eq)]
pub struct Remaining {
    /// How many they are.
    pub count: u32,
    /// The lowest number among them; none where every word is in play.
    pub lowest: Option<u32>,
}

/// What both calls share: the word arrives, or else leaves.
#[inline]
fn play(
    arrives: bool,
    nodes: &[u32],
    counts: &[u32],
    start: u32,
    word: &[u8],
    bits: &mut [u8],
) -> Result<Remaining, Refusal> {
    let call = if arrives {
        ffi::machirsun_arrive
    } else {
        ffi::machirsun_leave
    };
    let answer = unsafe {
        call(
            nodes.as_ptr(),
            nodes.len(),
            counts.as_ptr(),
            counts.len(),
            start,
            word.as_ptr(),
            word.len(),
            bits.as_mut_ptr(),
            bits.len(),
        )
    };
    plain(answer.refusal)?;
    Ok(Remaining {
        count: answer.remaining,
        lowest: answer.found.then_some(answer.lowest),
    })
}

/// A word arrives: sets its bit, and answers the words that are not in play after that. Refused by 30 where it is in play already.
///
/// Bit n mod 8 of byte n / 8 stands for word number n of the start, by [`word_index`](crate::word_index). The caller makes the record empty
/// before the first call, all bytes 0, with at least as many bits as the start's count; start 0 is a lexicon of no words. A refused call changes
/// no bit, and bits from the count on are neither read nor changed. The record does not hold its start or its counts: with others over the same
/// record the answers are of those.
///
/// ```
/// use machirsun::{arrive, leave, Refusal, Remaining};
///
/// // The words A, AB and BB, from node 2.
/// let (nodes, counts) = ([0x240, 0x40, 0x481, 0x442, 0xC2], [3, 0, 3, 1, 1]);
/// let mut bits = [0];
/// let left = arrive(&nodes, &counts, 2, &[1], &mut bits)?;
/// assert_eq!(left, Remaining { count: 2, lowest: Some(1) });
/// let again = arrive(&nodes, &counts, 2, &[1], &mut bits);
/// assert_eq!(again, Err(Refusal::AlreadyInPlay));
/// let left = leave(&nodes, &counts, 2, &[1], &mut bits)?;
/// assert_eq!(left, Remaining { count: 3, lowest: Some(0) });
/// # Ok::<(), Refusal>(())
/// ```
#[inline]
pub fn arrive(
    nodes: &[u32],
    counts: &[u32],
    start: u32,
    word: &[u8],
    bits: &mut [u8],
) -> Result<Remaining, Refusal> {
    play(true, nodes, counts, start, word, bits)
}

/// A word leaves: clears its bit, and answers the words that are not in play after that. Refused by 31 where it is not in play; the record is
/// that of [`arrive`].
#[inline]
pub fn leave(
    nodes: &[u32],
    counts: &[u32],
    start: u32,
    word: &[u8],
    bits: &mut [u8],
) -> Result<Remaining, Refusal> {
    play(false, nodes, counts, start, word, bits)
}
