//! A heap that owns its buffers.

use crate::block::HeapId;
use crate::{
    books_words, map_words, memory_bytes, Block, Edition, Heap, NotGivenBack, Reader, Refusal, Request, Verdict,
};
use alloc::{boxed::Box, vec, vec::Vec};
use core::fmt;

/// A heap that owns its three buffers: it can live in a struct and go to another thread. With the feature `alloc`.
///
/// Its blocks are known by handles of a type of their own: a [`Block`] remembers its heap, and every other heap refuses
/// it with [`Refusal::OtherHeap`], before a call is made. All calls by offset are those of [`lend`](OwnedHeap::lend),
/// and those that only read also [`reader`](OwnedHeap::reader)'s.
///
/// ```
/// use heskavern::{Block, Edition, OwnedHeap, Refusal};
///
/// struct Statement {
///     texts: OwnedHeap,
///     payee: Block,
/// }
///
/// let mut texts = OwnedHeap::new(1, 16, Edition::Eight)?;
/// let payee = texts.ask(7)?;
/// let mut statement = Statement { texts, payee };
///
/// let there = std::thread::spawn(move || statement.texts.write(&statement.payee, b"A. Moss").map(|()| statement));
/// statement = there.join().unwrap()?;
/// assert!(statement.texts.view(&statement.payee)?.starts_with(b"A. Moss"));
/// statement.texts.give_back(statement.payee)?;
/// # Ok::<(), Refusal>(())
/// ```
///
/// Its memory is aligned as the global allocator gives bytes, which need not be more than to 1: where blocks must be
/// aligned, lend a [`Heap`] memory that is.
pub struct OwnedHeap {
    // The lengths are good, and A, P and the edition, unless who takes the books out of a lent heap writes other ones:
    // then the calls, which test them, are refused with 1 or 2.
    memory: Box<[u8]>,
    books: Box<[u32]>,
    map: Box<[u64]>,
    id: HeapId,
}

impl OwnedHeap {
    /// A fresh heap of the given A, P and edition, whose memory is 0. Refused with 1, and then nothing is allocated.
    ///
    /// ```
    /// # use heskavern::{Edition, OwnedHeap, Refusal, Verdict};
    /// let heap = OwnedHeap::new(1, 2, Edition::Sixteen)?;
    /// assert_eq!((heap.live(), heap.audit()), (0, Verdict::Yes));
    /// assert_eq!(OwnedHeap::new(17, 2, Edition::Sixteen).unwrap_err(), Refusal::OutOfRange);
    /// # Ok::<(), Refusal>(())
    /// ```
    pub fn new(arenas: usize, pools: usize, edition: Edition) -> Result<Self, Refusal> {
        // Format tests the range first, so that empty buffers, which it then refuses with 2, are enough to ask it.
        if let Err(refusal @ Refusal::OutOfRange) = Heap::format(&mut [], &mut [], &mut [], arenas, pools, edition) {
            return Err(refusal);
        }
        let mut memory = vec![0; memory_bytes(arenas, pools)].into_boxed_slice();
        let mut books = vec![0; books_words(arenas, pools)].into_boxed_slice();
        let mut map = vec![0; map_words(arenas, pools)].into_boxed_slice();
        Heap::format(&mut memory, &mut books, &mut map, arenas, pools, edition)?;
        Ok(OwnedHeap { memory, books, map, id: HeapId::new() })
    }

    /// A heap that was formatted before, as one that was saved, with the blocks that are live in it, to which
    /// [`claim`](OwnedHeap::claim) makes handles. The buffers may be boxed slices or `Vec`s, and slices are copied.
    /// Refused with 1 or 2, as [`Heap::open`], and then they are dropped; [`Reader::open`] tells it before.
    ///
    /// ```
    /// # use heskavern::{Edition, OwnedHeap, Refusal};
    /// let mut heap = OwnedHeap::new(1, 2, Edition::Eight)?;
    /// let word = heap.ask(4)?.offset();
    /// let (memory, books, map) = heap.into_buffers();
    ///
    /// assert_eq!(OwnedHeap::open(&memory[1..], &books[..], &map[..]).unwrap_err(), Refusal::NotExact);
    /// let mut heap = OwnedHeap::open(memory, books, map)?;
    /// let word = heap.claim(word)?;
    /// heap.give_back(word)?;
    /// # Ok::<(), Refusal>(())
    /// ```
    pub fn open(
        memory: impl Into<Box<[u8]>>,
        books: impl Into<Box<[u32]>>,
        map: impl Into<Box<[u64]>>,
    ) -> Result<Self, Refusal> {
        let (memory, books, map) = (memory.into(), books.into(), map.into());
        Reader::open(&memory, &books, &map)?;
        Ok(OwnedHeap { memory, books, map, id: HeapId::new() })
    }

    /// The three buffers, memory, books and map, as they are to be saved; [`open`](OwnedHeap::open) takes them again.
    /// [`Reader::buffers`] shows them while the heap stands.
    ///
    /// ```
    /// # use heskavern::{books_words, map_words, memory_bytes, Edition, OwnedHeap, Refusal};
    /// let (memory, books, map) = OwnedHeap::new(1, 2, Edition::Eight)?.into_buffers();
    /// assert_eq!((memory.len(), books.len(), map.len()), (memory_bytes(1, 2), books_words(1, 2), map_words(1, 2)));
    /// # Ok::<(), Refusal>(())
    /// ```
    #[must_use]
    #[allow(clippy::type_complexity)] // three buffers
    pub fn into_buffers(self) -> (Box<[u8]>, Box<[u32]>, Box<[u64]>) {
        (self.memory, self.books, self.map)
    }

    /// The heap to be read: view, stand-in, roll and audit by offset, and compare.
    ///
    /// ```
    /// # use heskavern::{Edition, OwnedHeap, Refusal};
    /// let mut heap = OwnedHeap::new(1, 2, Edition::Eight)?;
    /// let word = heap.ask(4)?;
    /// assert_eq!(heap.reader().roll(), [(word.offset(), 8)]);
    /// # Ok::<(), Refusal>(())
    /// ```
    #[must_use]
    pub fn reader(&self) -> Reader<'_> {
        Reader::over(&self.memory, &self.books, &self.map)
    }

    /// The heap lent, for calls by offset. What they do a handle does not see: one whose block is given back or resized
    /// by its offset is stale, as an offset would be. And who takes the buffers out of the lent heap may damage it.
    ///
    /// ```
    /// # use heskavern::{Edition, OwnedHeap, Refusal};
    /// let mut heap = OwnedHeap::new(1, 2, Edition::Eight)?;
    /// let (word, other) = (heap.ask(4)?, heap.ask(4)?);
    /// heap.lend().give_back(word.offset())?;
    /// assert_eq!(heap.view(&word), Err(Refusal::DeadBlock));
    /// # heap.give_back(other)?;
    /// # Ok::<(), Refusal>(())
    /// ```
    #[must_use]
    pub fn lend(&mut self) -> Heap<'_> {
        Heap { memory: &mut self.memory, books: &mut self.books, map: &mut self.map }
    }

    /// A, how many arenas it has.
    ///
    /// ```
    /// # use heskavern::{Edition, OwnedHeap, Refusal};
    /// assert_eq!(OwnedHeap::new(1, 2, Edition::Eight)?.arenas(), 1);
    /// # Ok::<(), Refusal>(())
    /// ```
    #[must_use]
    pub fn arenas(&self) -> usize {
        self.reader().arenas()
    }

    /// P, how many pools an arena has.
    ///
    /// ```
    /// # use heskavern::{Edition, OwnedHeap, Refusal};
    /// assert_eq!(OwnedHeap::new(1, 2, Edition::Eight)?.pools(), 2);
    /// # Ok::<(), Refusal>(())
    /// ```
    #[must_use]
    pub fn pools(&self) -> usize {
        self.reader().pools()
    }

    /// Its edition.
    ///
    /// ```
    /// # use heskavern::{Edition, OwnedHeap, Refusal};
    /// assert_eq!(OwnedHeap::new(1, 2, Edition::Sixteen)?.edition(), Edition::Sixteen);
    /// # Ok::<(), Refusal>(())
    /// ```
    #[must_use]
    pub fn edition(&self) -> Edition {
        self.reader().edition()
    }

    /// How many blocks are live, with a handle or without, by roll call.
    ///
    /// ```
    /// # use heskavern::{Edition, OwnedHeap, Refusal};
    /// let mut heap = OwnedHeap::new(1, 2, Edition::Eight)?;
    /// let word = heap.ask(4)?;
    /// assert_eq!(heap.live(), 1);
    /// heap.give_back(word)?;
    /// assert_eq!(heap.live(), 0);
    /// # Ok::<(), Refusal>(())
    /// ```
    #[must_use]
    pub fn live(&self) -> usize {
        self.reader().live()
    }

    /// Audit: whether the heap keeps all its rules, or the first that is broken, as [`Heap::audit`].
    ///
    /// ```
    /// # use heskavern::{Edition, OwnedHeap, Refusal, Verdict};
    /// assert_eq!(OwnedHeap::new(1, 2, Edition::Eight)?.audit(), Verdict::Yes);
    /// # Ok::<(), Refusal>(())
    /// ```
    pub fn audit(&self) -> Verdict {
        self.reader().audit()
    }

    /// Ask: hands out a block of at least `size` bytes, as [`Heap::ask`]. Refused with 3, 4 or 6.
    ///
    /// ```
    /// # use heskavern::{Edition, OwnedHeap, Refusal};
    /// let mut heap = OwnedHeap::new(1, 2, Edition::Eight)?;
    /// assert_eq!(heap.ask(8)?.offset(), 48);
    /// assert_eq!(heap.ask(0), Err(Refusal::BadSize));
    /// # Ok::<(), Refusal>(())
    /// ```
    pub fn ask(&mut self, size: usize) -> Result<Block, Refusal> {
        self.lend().ask(size).map(|offset| self.block(offset))
    }

    /// Ask all: a block for each of these sizes in one call, as [`Heap::ask_all`]; the answers are in the order of the
    /// sizes, and one that is refused does not stop the rest. Refused with 7 where there are more than
    /// [`MOST_REQUESTS`](crate::MOST_REQUESTS).
    ///
    /// ```
    /// # use heskavern::{Edition, OwnedHeap, Refusal};
    /// let mut heap = OwnedHeap::new(1, 2, Edition::Eight)?;
    /// let statement = ["A. Moss", "", "owed"];
    /// let row = heap.ask_all(&statement.map(|text| text.len() as u32))?;
    /// for (text, answer) in statement.iter().zip(&row) {
    ///     match answer {
    ///         Ok(block) => heap.write(block, text.as_bytes())?,
    ///         Err(refusal) => assert_eq!((*text, *refusal), ("", Refusal::BadSize)),
    ///     }
    /// }
    /// assert_eq!(heap.live(), 2);
    /// # Ok::<(), Refusal>(())
    /// ```
    pub fn ask_all(&mut self, sizes: &[u32]) -> Result<Vec<Result<Block, Refusal>>, Refusal> {
        let mut row: Vec<Request> = sizes.iter().copied().map(Request::new).collect();
        self.lend().ask_all(&mut row)?;
        Ok(row.iter().map(|request| request.answer().map(|offset| self.block(offset))).collect())
    }

    /// Claim: a handle to the block at `offset`, which must be live, as after a heap is loaded or cloned. Refused with
    /// 5 or 10. Whoever claims sees to it that there is one handle to a block: the heap does not.
    ///
    /// ```
    /// # use heskavern::{Block, Edition, OwnedHeap, Refusal};
    /// let mut heap = OwnedHeap::new(1, 2, Edition::Eight)?;
    /// let word = heap.ask(4)?;
    /// let mut copy = heap.clone();
    /// assert_eq!(copy.view(&word), Err(Refusal::OtherHeap));
    ///
    /// let blocks: Vec<Block> =
    ///     copy.reader().roll().iter().map(|&(offset, _)| copy.claim(offset)).collect::<Result<_, _>>()?;
    /// assert_eq!(copy.view(&blocks[0]), heap.view(&word));
    /// assert_eq!(copy.claim(0), Err(Refusal::NoBlock));
    /// # Ok::<(), Refusal>(())
    /// ```
    pub fn claim(&self, offset: u32) -> Result<Block, Refusal> {
        self.reader().view(offset).map(|_| self.block(offset))
    }

    /// Give back: the block is live no more, and its handle is gone. Refused with 5, 10 or 6, or as another heap's; the
    /// handle is then handed back.
    ///
    /// ```
    /// # use heskavern::{Edition, OwnedHeap, Refusal};
    /// let (mut heap, mut other) = (OwnedHeap::new(1, 2, Edition::Eight)?, OwnedHeap::new(1, 2, Edition::Eight)?);
    /// let word = heap.ask(4)?;
    /// let refused = other.give_back(word).unwrap_err();
    /// assert_eq!(refused.to_string(), "the block at 48 is not given back: a block of another heap");
    /// heap.give_back(refused.block)?;
    /// # Ok::<(), Refusal>(())
    /// ```
    pub fn give_back(&mut self, block: Block) -> Result<(), NotGivenBack> {
        let given = self.offset_of(&block).and_then(|offset| self.lend().give_back(offset));
        given.map_err(|refusal| NotGivenBack { refusal, block })
    }

    /// Resize: makes room for `size` bytes, as [`Heap::resize`]; the handle is then that of the block that the text is
    /// in. Refused with 3, 5, 10, 4 or 6, or as another heap's. After [`Refusal::HalfDone`] too the handle is where the
    /// text is, and the old block, which could not be given back, has none.
    ///
    /// ```
    /// # use heskavern::{Edition, OwnedHeap, Refusal};
    /// let mut heap = OwnedHeap::new(1, 2, Edition::Eight)?;
    /// let mut word = heap.ask(4)?;
    /// heap.write(&word, b"owed")?;
    /// heap.resize(&mut word, 100)?;
    /// assert_eq!(word.offset(), 4144);
    /// assert!(heap.view(&word)?.starts_with(b"owed"));
    /// # Ok::<(), Refusal>(())
    /// ```
    pub fn resize(&mut self, block: &mut Block, size: usize) -> Result<(), Refusal> {
        let offset = self.offset_of(block)?;
        let answer = self.lend().resize(offset, size);
        if let Ok(moved) | Err(Refusal::HalfDone(moved)) = answer {
            block.offset = moved;
        }
        answer.map(drop)
    }

    /// View: the block's own part of memory, the whole block. Refused with 5 or 10 where the handle is stale, or as
    /// another heap's.
    ///
    /// ```
    /// # use heskavern::{Edition, OwnedHeap, Refusal};
    /// let (mut heap, other) = (OwnedHeap::new(1, 2, Edition::Eight)?, OwnedHeap::new(1, 2, Edition::Eight)?);
    /// let word = heap.ask(4)?;
    /// assert_eq!(heap.view(&word)?, [0; 8]);
    /// assert_eq!(other.view(&word), Err(Refusal::OtherHeap));
    /// # Ok::<(), Refusal>(())
    /// ```
    pub fn view(&self, block: &Block) -> Result<&[u8], Refusal> {
        self.reader().view(self.offset_of(block)?)
    }

    /// View, for the holder to write to. Refused as [`view`](OwnedHeap::view).
    ///
    /// ```
    /// # use heskavern::{Edition, OwnedHeap, Refusal};
    /// let mut heap = OwnedHeap::new(1, 2, Edition::Eight)?;
    /// let word = heap.ask(4)?;
    /// heap.view_mut(&word)?.fill(b'-');
    /// assert_eq!(heap.view(&word)?, b"--------");
    /// # Ok::<(), Refusal>(())
    /// ```
    pub fn view_mut(&mut self, block: &Block) -> Result<&mut [u8], Refusal> {
        let size = self.view(block)?.len();
        Ok(&mut self.memory[block.offset as usize..][..size])
    }

    /// Stand-in: the block's own part of memory, the whole block, or the lent phrase itself, exactly where
    /// [`view`](OwnedHeap::view) is refused: of another heap's block too it is the phrase.
    ///
    /// ```
    /// # use heskavern::{Edition, OwnedHeap, Refusal};
    /// let (mut heap, other) = (OwnedHeap::new(1, 2, Edition::Eight)?, OwnedHeap::new(1, 2, Edition::Eight)?);
    /// let word = heap.ask(4)?;
    /// heap.write(&word, b"owed")?;
    /// assert!(heap.stand_in(&word, b"this amount can't be read out").starts_with(b"owed"));
    /// assert_eq!(other.stand_in(&word, b"this amount can't be read out"), b"this amount can't be read out");
    /// # Ok::<(), Refusal>(())
    /// ```
    #[must_use]
    pub fn stand_in<'s>(&'s self, block: &Block, phrase: &'s [u8]) -> &'s [u8] {
        self.view(block).unwrap_or(phrase)
    }

    /// Write: copies the text to the start of the block; the rest of the block stays. Refused with 5, 10 or 7, or as
    /// another heap's.
    ///
    /// ```
    /// # use heskavern::{Edition, OwnedHeap, Refusal};
    /// let mut heap = OwnedHeap::new(1, 2, Edition::Eight)?;
    /// let word = heap.ask(4)?;
    /// heap.write(&word, b"owed")?;
    /// assert!(heap.view(&word)?.starts_with(b"owed"));
    /// assert_eq!(heap.write(&word, b"overdrawn"), Err(Refusal::DoesNotFit));
    /// # Ok::<(), Refusal>(())
    /// ```
    pub fn write(&mut self, block: &Block, text: &[u8]) -> Result<(), Refusal> {
        let offset = self.offset_of(block)?;
        self.lend().write(offset, text)
    }

    /// A handle to the block of this heap at an offset.
    fn block(&self, offset: u32) -> Block {
        Block { offset, heap: self.id }
    }

    /// The offset of a block of this heap; another heap's is refused.
    fn offset_of(&self, block: &Block) -> Result<u32, Refusal> {
        if block.heap == self.id {
            Ok(block.offset)
        } else {
            Err(Refusal::OtherHeap)
        }
    }
}

/// A copy, as of yesterday's heap to [`compare`](Reader::compare) today's with. It is a heap of its own, which knows no
/// block that the first one handed out: [`claim`](OwnedHeap::claim) makes handles to its blocks.
///
/// ```
/// # use heskavern::{list_words, Edition, Kind, OwnedHeap, Refusal, CHANGES};
/// let mut today = OwnedHeap::new(1, 2, Edition::Eight)?;
/// let word = today.ask(4)?;
/// let yesterday = today.clone();
/// today.write(&word, b"owed")?;
///
/// let (mut list, mut changes) = ([0; list_words(1, 2)], [0; CHANGES]);
/// let compared = yesterday.reader().compare(today.reader(), &mut list, &mut changes)?;
/// assert!(compared.differences().map(|d| (d.offset, d.kind)).eq([(word.offset(), Kind::OtherBytes)]));
/// # Ok::<(), Refusal>(())
/// ```
impl Clone for OwnedHeap {
    fn clone(&self) -> Self {
        OwnedHeap { memory: self.memory.clone(), books: self.books.clone(), map: self.map.clone(), id: HeapId::new() }
    }
}

/// Shows A, P and the edition, and not the buffers.
impl fmt::Debug for OwnedHeap {
    fn fmt(&self, f: &mut fmt::Formatter<'_>) -> fmt::Result {
        self.reader().show("OwnedHeap", f)
    }
}
