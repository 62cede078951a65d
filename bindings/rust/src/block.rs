//! A block that remembers its heap.

use crate::Refusal;
use core::fmt;
use core::sync::atomic::{AtomicU64, Ordering};

/// A block of an [`OwnedHeap`](crate::OwnedHeap): its offset, and which heap it is of. Another heap refuses it with
/// [`Refusal::OtherHeap`] before a call is made.
///
/// It is neither `Copy` nor `Clone`, and [`give_back`](crate::OwnedHeap::give_back) takes it: so a block that was given
/// back by its handle cannot be named by it any more, and a second give-back does not compile.
///
/// ```
/// # use heskavern::{Edition, OwnedHeap, Refusal};
/// let mut heap = OwnedHeap::new(1, 2, Edition::Eight)?;
/// let word = heap.ask(4)?;
/// heap.give_back(word)?;
/// # Ok::<(), Refusal>(())
/// ```
///
/// ```compile_fail,E0382
/// # use heskavern::{Edition, OwnedHeap, Refusal};
/// let mut heap = OwnedHeap::new(1, 2, Edition::Eight)?;
/// let word = heap.ask(4)?;
/// heap.give_back(word)?;
/// heap.give_back(word)?;
/// # Ok::<(), Refusal>(())
/// ```
///
/// Dropping it gives nothing back: the block stays live, and [`claim`](crate::OwnedHeap::claim) makes a handle to it
/// anew.
#[must_use = "the block stays live until it is given back"]
#[derive(Debug, PartialEq, Eq, Hash)]
pub struct Block {
    pub(crate) offset: u32,
    pub(crate) heap: HeapId,
}

impl Block {
    /// Its offset in memory, by which [`Heap`](crate::Heap), [`Reader`](crate::Reader) and [`calls`](crate::calls) know
    /// it. An offset names a block and not its holder: while the handle stands, it is the block's.
    ///
    /// ```
    /// # use heskavern::{Edition, OwnedHeap, Refusal};
    /// let mut heap = OwnedHeap::new(1, 2, Edition::Eight)?;
    /// let word = heap.ask(4)?;
    /// assert_eq!(word.offset(), 48);
    /// assert_eq!(heap.reader().view(word.offset()), heap.view(&word));
    /// # Ok::<(), Refusal>(())
    /// ```
    #[must_use]
    pub const fn offset(&self) -> u32 {
        self.offset
    }
}

/// Which heap a block is of: no two heaps of a program have the same.
#[derive(Clone, Copy, Debug, PartialEq, Eq, Hash)]
pub(crate) struct HeapId(u64);

impl HeapId {
    /// One that no heap has had.
    pub(crate) fn new() -> HeapId {
        static NEXT: AtomicU64 = AtomicU64::new(0);
        HeapId(NEXT.fetch_add(1, Ordering::Relaxed))
    }
}

/// A give-back that was refused: why, and the block, which is still its holder's. Where only the refusal is of
/// interest, `?` makes one of it.
///
/// ```
/// use heskavern::{Edition, NotGivenBack, OwnedHeap, Refusal};
/// let mut heap = OwnedHeap::new(1, 2, Edition::Eight)?;
/// let mut other = OwnedHeap::new(1, 2, Edition::Eight)?;
/// let word = heap.ask(4)?;
///
/// let NotGivenBack { refusal, block } = other.give_back(word).unwrap_err();
/// assert_eq!(refusal, Refusal::OtherHeap);
/// heap.give_back(block)?;
/// # Ok::<(), Refusal>(())
/// ```
#[derive(Debug, PartialEq, Eq)]
pub struct NotGivenBack {
    /// Why it is refused.
    pub refusal: Refusal,
    /// The block that was to be given back.
    pub block: Block,
}

impl From<NotGivenBack> for Refusal {
    fn from(NotGivenBack { refusal, .. }: NotGivenBack) -> Refusal {
        refusal
    }
}

impl fmt::Display for NotGivenBack {
    fn fmt(&self, f: &mut fmt::Formatter<'_>) -> fmt::Result {
        write!(f, "the block at {} is not given back: {}", self.block.offset, self.refusal)
    }
}

#[cfg(feature = "std")]
impl std::error::Error for NotGivenBack {}
