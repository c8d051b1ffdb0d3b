//! A lexicon from a word list.

use crate::{ffi, plain, Refusal};

/// Builds the graph of a list's words and answers the number of its nodes, which stand at the front of the lent ones. Entries past them stay.
///
/// The list has for each word one length byte, 1 to 64, and that many tiles, each 1 to 63. The words ascend: they are compared tile by tile, a
/// word that begins another stands before it, and none stands twice. The work list has at least 8 × list bytes + 64 numbers, which are free
/// afterwards; list bytes + 2 nodes are enough. A refused call writes no node.
///
/// Node 0 leads to the words: its arc is 2, or 0 where the list has none; node 1 leads nowhere. The nodes can be lent to every other call.
///
/// ```
/// use machirsun::{build, Refusal};
///
/// // The words A, AB and BB: the nodes are those of document 01.
/// let list = [1, 1, 2, 1, 2, 2, 2, 2];
/// let mut work = [0; 8 * 8 + 64];
/// let mut nodes = [0; 10];
/// let count = build(&list, &mut work, &mut nodes)?;
/// assert_eq!(nodes[..count], [0x240, 0x40, 0x481, 0x442, 0xC2]);
///
/// // B does not come after BB.
/// let list = [2, 2, 2, 1, 2];
/// let refused = build(&list, &mut work, &mut nodes);
/// assert_eq!(refused, Err(Refusal::NotAbove));
/// # Ok::<(), Refusal>(())
/// ```
#[inline]
pub fn build(list: &[u8], work: &mut [u32], nodes: &mut [u32]) -> Result<usize, Refusal> {
    let built = unsafe {
        ffi::machirsun_build(
            list.as_ptr(),
            list.len(),
            work.as_mut_ptr(),
            work.len(),
            nodes.as_mut_ptr(),
            nodes.len(),
        )
    };
    plain(built.refusal)?;
    Ok(built.nodes as usize)
}
