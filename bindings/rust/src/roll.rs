//! What a roll call lists.

use core::iter::FusedIterator;
use core::slice::ChunksExact;

/// The live blocks by rising offset: the offset and the block size of each. Made by
/// [`Heap::roll_call`](crate::Heap::roll_call) and [`Reader::roll_call`](crate::Reader::roll_call).
#[derive(Clone, Debug)]
pub struct Roll<'r> {
    pairs: ChunksExact<'r, u32>,
}

impl<'r> Roll<'r> {
    /// The roll that a call wrote to these words, two for each block.
    pub(crate) fn new(words: &'r [u32]) -> Self {
        Roll { pairs: words.chunks_exact(2) }
    }
}

impl Iterator for Roll<'_> {
    type Item = (u32, usize);

    fn next(&mut self) -> Option<Self::Item> {
        self.pairs.next().map(|pair| (pair[0], pair[1] as usize))
    }

    fn size_hint(&self) -> (usize, Option<usize>) {
        self.pairs.size_hint()
    }
}

impl ExactSizeIterator for Roll<'_> {}

impl FusedIterator for Roll<'_> {}
