//! A heap that is only to be read.

use crate::{calls, Comparison, Edition, Refusal, Roll, Verdict, EDITION_WORD};
#[cfg(feature = "alloc")]
use alloc::{vec, vec::Vec};
use core::fmt;

/// A heap over three shared slices, to be read: several readers stand side by side, in several threads too, and what
/// they hand out lives as long as the slices. [`Heap::reader`](crate::Heap::reader) and
/// [`OwnedHeap::reader`](crate::OwnedHeap::reader) make one of a heap that is open, and [`open`](Reader::open) of
/// buffers that were saved, or mapped from a file. Blocks are known by their offsets.
///
/// ```
/// use heskavern::{books_words, map_words, memory_bytes, Edition, Heap, Reader, Refusal};
/// let (mut memory, mut books, mut map) = ([0; memory_bytes(1, 2)], [0; books_words(1, 2)], [0; map_words(1, 2)]);
/// let mut heap = Heap::format(&mut memory, &mut books, &mut map, 1, 2, Edition::Eight)?;
/// let word = heap.ask(4)?;
/// heap.write(word, b"owed")?;
///
/// let reader = Reader::open(&memory, &books, &map)?;
/// let beside = reader; // it is Copy
/// assert!(reader.view(word)?.starts_with(b"owed"));
/// assert!(beside.audit().is_yes());
/// # Ok::<(), Refusal>(())
/// ```
#[derive(Clone, Copy)]
pub struct Reader<'a> {
    memory: &'a [u8],
    books: &'a [u32],
    map: &'a [u64],
}

impl<'a> Reader<'a> {
    /// A heap that was formatted before, to be read. Refused with 1 or 2, by the A, P and edition that stand in the
    /// books; other damage to them the [`audit`](Reader::audit) finds.
    ///
    /// ```
    /// # use heskavern::{books_words, map_words, memory_bytes, Edition, Heap, Reader, Refusal};
    /// # let (mut memory, mut books, mut map) =
    /// #     ([0; memory_bytes(1, 2)], [0; books_words(1, 2)], [0; map_words(1, 2)]);
    /// assert_eq!(Reader::open(&memory, &books, &map).unwrap_err(), Refusal::OutOfRange); // A and P are 0 there
    /// Heap::format(&mut memory, &mut books, &mut map, 1, 2, Edition::Eight)?;
    /// assert_eq!(Reader::open(&memory[1..], &books, &map).unwrap_err(), Refusal::NotExact);
    /// assert!(Reader::open(&memory, &books, &map).is_ok());
    /// # Ok::<(), Refusal>(())
    /// ```
    pub fn open(memory: &'a [u8], books: &'a [u32], map: &'a [u64]) -> Result<Self, Refusal> {
        let reader = Reader::over(memory, books, map);
        // No block starts at 0, so 5 there says that the tests before it are passed.
        match reader.view(0) {
            Ok(_) | Err(Refusal::NoBlock) => Ok(reader),
            Err(refusal) => Err(refusal),
        }
    }

    /// A reader over buffers of which these tests are known to be passed.
    pub(crate) const fn over(memory: &'a [u8], books: &'a [u32], map: &'a [u64]) -> Self {
        Reader { memory, books, map }
    }

    /// The three slices, memory, books and map, as they are to be saved.
    ///
    /// ```
    /// # use heskavern::{books_words, map_words, memory_bytes, Edition, Heap, Reader, Refusal};
    /// # let (mut memory, mut books, mut map) =
    /// #     ([0; memory_bytes(1, 2)], [0; books_words(1, 2)], [0; map_words(1, 2)]);
    /// # Heap::format(&mut memory, &mut books, &mut map, 1, 2, Edition::Eight)?;
    /// let reader = Reader::open(&memory, &books, &map)?;
    /// assert_eq!(reader.buffers(), (&memory[..], &books[..], &map[..]));
    /// # Ok::<(), Refusal>(())
    /// ```
    #[must_use]
    pub const fn buffers(self) -> (&'a [u8], &'a [u32], &'a [u64]) {
        (self.memory, self.books, self.map)
    }

    /// A, how many arenas the heap has.
    ///
    /// ```
    /// # use heskavern::{books_words, map_words, memory_bytes, Edition, Heap, Reader, Refusal};
    /// # let (mut memory, mut books, mut map) =
    /// #     ([0; memory_bytes(1, 2)], [0; books_words(1, 2)], [0; map_words(1, 2)]);
    /// # Heap::format(&mut memory, &mut books, &mut map, 1, 2, Edition::Eight)?;
    /// assert_eq!(Reader::open(&memory, &books, &map)?.arenas(), 1);
    /// # Ok::<(), Refusal>(())
    /// ```
    #[must_use]
    pub const fn arenas(self) -> usize {
        self.books[0] as usize
    }

    /// P, how many pools an arena has.
    ///
    /// ```
    /// # use heskavern::{books_words, map_words, memory_bytes, Edition, Heap, Reader, Refusal};
    /// # let (mut memory, mut books, mut map) =
    /// #     ([0; memory_bytes(1, 2)], [0; books_words(1, 2)], [0; map_words(1, 2)]);
    /// # Heap::format(&mut memory, &mut books, &mut map, 1, 2, Edition::Eight)?;
    /// assert_eq!(Reader::open(&memory, &books, &map)?.pools(), 2);
    /// # Ok::<(), Refusal>(())
    /// ```
    #[must_use]
    pub const fn pools(self) -> usize {
        self.books[1] as usize
    }

    /// The edition that the books say.
    ///
    /// ```
    /// # use heskavern::{books_words, map_words, memory_bytes, Edition, Heap, Reader, Refusal};
    /// # let (mut memory, mut books, mut map) =
    /// #     ([0; memory_bytes(1, 2)], [0; books_words(1, 2)], [0; map_words(1, 2)]);
    /// # Heap::format(&mut memory, &mut books, &mut map, 1, 2, Edition::Sixteen)?;
    /// assert_eq!(Reader::open(&memory, &books, &map)?.edition(), Edition::Sixteen);
    /// # Ok::<(), Refusal>(())
    /// ```
    #[must_use]
    pub const fn edition(self) -> Edition {
        Edition::of(self.books[EDITION_WORD])
    }

    /// View: the live block's own part of memory, the whole block. Refused with 5 or 10.
    ///
    /// ```
    /// # use heskavern::{books_words, map_words, memory_bytes, Edition, Heap, Reader, Refusal};
    /// # let (mut memory, mut books, mut map) =
    /// #     ([0; memory_bytes(1, 2)], [0; books_words(1, 2)], [0; map_words(1, 2)]);
    /// # let word = Heap::format(&mut memory, &mut books, &mut map, 1, 2, Edition::Eight)?.ask(4)?;
    /// let part = Reader::open(&memory, &books, &map)?.view(word)?; // a part of memory, which needs no reader
    /// assert_eq!(part, &memory[48..56]);
    /// # Ok::<(), Refusal>(())
    /// ```
    pub fn view(self, offset: u32) -> Result<&'a [u8], Refusal> {
        let size = calls::view_size(self.memory, self.books, self.map, offset as usize).done()?;
        Ok(&self.memory[offset as usize..][..size as usize])
    }

    /// Stand-in: the live block's own part of memory, the whole block, or the lent phrase itself, exactly where
    /// [`view`](Reader::view) is refused. It is never refused, and nothing is copied.
    ///
    /// ```
    /// # use heskavern::{books_words, map_words, memory_bytes, Edition, Heap, Reader, Refusal};
    /// # let (mut memory, mut books, mut map) =
    /// #     ([0; memory_bytes(1, 2)], [0; books_words(1, 2)], [0; map_words(1, 2)]);
    /// # let mut heap = Heap::format(&mut memory, &mut books, &mut map, 1, 2, Edition::Eight)?;
    /// let word = heap.ask(4)?;
    /// heap.write(word, b"owed")?;
    /// let reader = Reader::open(&memory, &books, &map)?;
    /// assert!(reader.stand_in(word, b"this amount can't be read out").starts_with(b"owed"));
    /// assert_eq!(reader.stand_in(word + 8, b"this amount can't be read out"), b"this amount can't be read out");
    /// # Ok::<(), Refusal>(())
    /// ```
    #[must_use]
    pub fn stand_in(self, offset: u32, phrase: &'a [u8]) -> &'a [u8] {
        calls::stand_in(self.memory, self.books, self.map, offset as usize, phrase)
    }

    /// Roll call: lists offset and block size of each live block, by rising offset, in the lent words, as
    /// [`Heap::roll_call`](crate::Heap::roll_call). Refused with 7 where they are too few;
    /// [`roll_words`](crate::roll_words) are always enough.
    ///
    /// ```
    /// # use heskavern::{books_words, map_words, memory_bytes, Edition, Heap, Reader, Refusal};
    /// # let (mut memory, mut books, mut map) =
    /// #     ([0; memory_bytes(1, 2)], [0; books_words(1, 2)], [0; map_words(1, 2)]);
    /// # Heap::format(&mut memory, &mut books, &mut map, 1, 2, Edition::Eight)?.ask(100)?;
    /// let mut words = [0; 2];
    /// assert!(Reader::open(&memory, &books, &map)?.roll_call(&mut words)?.eq([(48, 104)]));
    /// # Ok::<(), Refusal>(())
    /// ```
    pub fn roll_call<'r>(self, words: &'r mut [u32]) -> Result<Roll<'r>, Refusal> {
        let live = calls::roll_call(self.memory, self.books, self.map, words).done()?;
        Ok(Roll::new(&words[..2 * live as usize]))
    }

    /// The offset and the block size of each live block, by rising offset: a roll call to words of its own. With the
    /// feature `alloc`.
    ///
    /// ```
    /// # use heskavern::{Edition, OwnedHeap, Refusal};
    /// let mut heap = OwnedHeap::new(1, 2, Edition::Eight)?;
    /// let (word, note) = (heap.ask(4)?, heap.ask(100)?);
    /// assert_eq!(heap.reader().roll(), [(word.offset(), 8), (note.offset(), 104)]);
    /// # Ok::<(), Refusal>(())
    /// ```
    #[cfg(feature = "alloc")]
    #[must_use]
    pub fn roll(self) -> Vec<(u32, usize)> {
        self.called(|roll| roll.collect())
    }

    /// How many blocks are live, by roll call. With the feature `alloc`.
    ///
    /// ```
    /// # use heskavern::{Edition, OwnedHeap, Refusal};
    /// let mut heap = OwnedHeap::new(1, 2, Edition::Eight)?;
    /// assert_eq!(heap.reader().live(), 0);
    /// let word = heap.ask(4)?;
    /// assert_eq!(heap.reader().live(), 1);
    /// # heap.give_back(word)?;
    /// # Ok::<(), Refusal>(())
    /// ```
    #[cfg(feature = "alloc")]
    #[must_use]
    pub fn live(self) -> usize {
        self.called(|roll| roll.len())
    }

    /// What is made of the roll. Two words for each set bit of the map are enough, since a live block has its bit: so
    /// the call is refused only where the heap has no shape, and there no block is live.
    #[cfg(feature = "alloc")]
    fn called<T>(self, make: impl FnOnce(Roll<'_>) -> T) -> T {
        let set: usize = self.map.iter().map(|word| word.count_ones() as usize).sum();
        make(self.roll_call(&mut vec![0; 2 * set]).unwrap_or_else(|_| Roll::new(&[])))
    }

    /// Audit: whether the heap keeps all its rules, or the first that is broken, as
    /// [`Heap::audit`](crate::Heap::audit).
    ///
    /// ```
    /// # use heskavern::{books_words, map_words, memory_bytes, Edition, Heap, Reader, Refusal, Verdict};
    /// # let (mut memory, mut books, mut map) =
    /// #     ([0; memory_bytes(1, 2)], [0; books_words(1, 2)], [0; map_words(1, 2)]);
    /// # Heap::format(&mut memory, &mut books, &mut map, 1, 2, Edition::Eight)?.ask(4)?;
    /// assert_eq!(Reader::open(&memory, &books, &map)?.audit(), Verdict::Yes);
    /// books[72 + 8] = 0; // the count of the first pool, which has a block that is out
    /// assert_eq!(Reader::open(&memory, &books, &map)?.audit(), Verdict::Counts);
    /// # Ok::<(), Refusal>(())
    /// ```
    pub fn audit(self) -> Verdict {
        Verdict::from(calls::audit(self.memory, self.books, self.map))
    }

    /// Compare: what differs between this heap, the first, and a second one of equal A, P and edition, in the lent list
    /// and changes, as [`Heap::compare`](crate::Heap::compare). The two may share buffers, or be one. Refused with 12
    /// or 7.
    ///
    /// ```
    /// # use heskavern::{books_words, map_words, memory_bytes, Edition, Heap, Kind, Reader, Refusal, CHANGES};
    /// # let (mut memory, mut books, mut map) =
    /// #     ([0; memory_bytes(1, 2)], [0; books_words(1, 2)], [0; map_words(1, 2)]);
    /// Heap::format(&mut memory, &mut books, &mut map, 1, 2, Edition::Eight)?;
    /// let (memory_then, books_then, map_then) = (memory, books, map); // copies, and not mutable
    /// let new = Heap::open(&mut memory, &mut books, &mut map)?.ask(4)?;
    ///
    /// let yesterday = Reader::open(&memory_then, &books_then, &map_then)?;
    /// let today = Reader::open(&memory, &books, &map)?;
    /// let (mut list, mut changes) = ([0; 2], [0; CHANGES]);
    /// let compared = yesterday.compare(today, &mut list, &mut changes)?;
    /// assert!(compared.differences().map(|d| (d.offset, d.kind)).eq([(new, Kind::SecondAlone)]));
    /// # Ok::<(), Refusal>(())
    /// ```
    pub fn compare<'r>(
        self,
        second: Reader<'_>,
        list: &'r mut [u32],
        changes: &'r mut [i32],
    ) -> Result<Comparison<'r>, Refusal> {
        Comparison::of(self.buffers(), second.buffers(), list, changes)
    }

    /// Shows A, P and the edition, and not the buffers, under this name.
    pub(crate) fn show(self, name: &str, f: &mut fmt::Formatter<'_>) -> fmt::Result {
        f.debug_struct(name)
            .field("arenas", &self.arenas())
            .field("pools", &self.pools())
            .field("edition", &self.edition())
            .finish_non_exhaustive()
    }
}

/// Shows A, P and the edition, and not the buffers.
impl fmt::Debug for Reader<'_> {
    fn fmt(&self, f: &mut fmt::Formatter<'_>) -> fmt::Result {
        self.show("Reader", f)
    }
}
