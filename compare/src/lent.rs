//! Buffers to lend: filled with a seeded pattern, and with a guard on both sides that no call may touch.

use crate::answer::Buffer;
use crate::random::Random;

const GUARD: usize = 3;

/// A buffer whose middle is lent.
#[derive(Clone)]
pub struct Lent<T>(Vec<T>);

impl<T: Copy> Lent<T> {
    fn filled(len: usize, entry: impl FnMut() -> T) -> Self {
        let mut entry = entry;
        Self((0..len + 2 * GUARD).map(|_| entry()).collect())
    }

    pub fn len(&self) -> usize {
        self.0.len() - 2 * GUARD
    }

    pub fn is_empty(&self) -> bool {
        self.len() == 0
    }

    pub fn part(&self) -> &[T] {
        let end = self.0.len() - GUARD;
        &self.0[GUARD..end]
    }

    pub fn part_mut(&mut self) -> &mut [T] {
        let end = self.0.len() - GUARD;
        &mut self.0[GUARD..end]
    }

    /// The same with these entries at the front, as after a call that writes them.
    pub fn after_writing(mut self, entries: &[T]) -> Self {
        self.part_mut()[..entries.len()].copy_from_slice(entries);
        self
    }
}

impl Lent<u8> {
    pub fn bytes(random: &mut Random, len: usize) -> Self {
        Self::filled(len, || random.byte())
    }
}

impl Lent<u32> {
    pub fn numbers(random: &mut Random, len: usize) -> Self {
        Self::filled(len, || random.word())
    }
}

impl Lent<u64> {
    pub fn sets(random: &mut Random, len: usize) -> Self {
        Self::filled(len, || random.next())
    }
}

impl Lent<usize> {
    pub fn sizes(random: &mut Random, len: usize) -> Self {
        Self::filled(len, || random.next() as usize)
    }
}

impl From<Lent<u8>> for Buffer {
    fn from(lent: Lent<u8>) -> Self {
        Self::Bytes(lent.0)
    }
}

impl From<Lent<u32>> for Buffer {
    fn from(lent: Lent<u32>) -> Self {
        Self::Numbers(lent.0)
    }
}

impl From<Lent<u64>> for Buffer {
    fn from(lent: Lent<u64>) -> Self {
        Self::Sets(lent.0)
    }
}

impl From<Lent<usize>> for Buffer {
    fn from(lent: Lent<usize>) -> Self {
        Self::Sizes(lent.0)
    }
}
