//! Heskavern: a small-block allocator over memory that its caller lends, with every promise proved.
//!
//! A heap has A arenas (1 to 16) of P pools (2 to 64); a pool is 4,096 bytes. Three buffers are lent to it: memory,
//! which holds the blocks, books and map, each of an exact length ([`memory_bytes`], [`books_words`], [`map_words`]).
//! Its [`Edition`] says whether block sizes are multiples of 8 or of 16. A block is known by its offset in memory. A
//! call that cannot be done is refused with a number, which a [`Refusal`] names, and changes nothing, but for
//! [`HalfDone`](Refusal::HalfDone). The blocks of a whole row of texts are asked for in one call by
//! [`ask_all`](Heap::ask_all), which answers each [`Request`] for itself.
//!
//! ```
//! use heskavern::{books_words, map_words, memory_bytes, Edition, Heap, Refusal};
//!
//! let mut memory = [0; memory_bytes(1, 16)];
//! let mut books = [0; books_words(1, 16)];
//! let mut map = [0; map_words(1, 16)];
//! let mut heap = Heap::format(&mut memory, &mut books, &mut map, 1, 16, Edition::Eight)?;
//!
//! let (owed, paid) = (heap.ask(4)?, heap.ask(4)?);
//! heap.write(owed, b"owed")?;
//! assert!(heap.view(owed)?.starts_with(b"owed"));
//! heap.give_back(owed)?;
//! assert_eq!(heap.give_back(owed), Err(Refusal::DeadBlock));
//! heap.give_back(paid)?; // the last one: the arena is released
//! assert_eq!(heap.give_back(paid), Err(Refusal::NoBlock));
//! # Ok::<(), Refusal>(())
//! ```
//!
//! The calls are those of `libheskavern.a`, for x86-64 Linux, whose source is proved (docs/PROMISES.md in the
//! repository). This crate adds types, and nothing to what they do; view and the stand-in are cut from memory here, by
//! the size that the library gives. The crate itself is tested, and not proved.
//!
//! # Which heap
//!
//! - [`Heap`] borrows its three buffers, wherever they lie, and allocates nothing. Its blocks are offsets.
//! - [`OwnedHeap`] owns them: it can live in a struct and go to another thread. Its blocks are [`Block`]s:
//!   handles that remember their heap, none of which can be given back twice. It needs the feature `alloc`.
//! - [`Reader`] borrows them to be read alone: view, stand-in, roll call, audit and compare. The other two make one of
//!   themselves by `reader`.
//!
//! [`calls`] are the calls with their numbers, over any slices. docs/USING.md, in the repository and in a release, says
//! which call is for what.
//!
//! # What is good to know
//!
//! - An offset names a block and not its holder. While the block is not out, every call on it is refused (a resize to a
//!   size out of range with [`BadSize`](Refusal::BadSize), which comes first), but for [`stand_in`](Heap::stand_in),
//!   which hands back its phrase. Once it is out again, a stale offset is the new holder's: a view or a stand-in shows
//!   its text, a write or a give-back changes it.
//! - On a heap that nothing has damaged, a block that has come back is refused with [`DeadBlock`](Refusal::DeadBlock)
//!   until it goes out again; or until its pool, with no block out, is set to another block size, after which the
//!   offset may be a dead block or none, or a block that is out; or until the last block of its arena comes back. That
//!   releases the arena, and the offset is refused with [`NoBlock`](Refusal::NoBlock), at least until its pool is used
//!   anew. So a second give-back is refused with `DeadBlock`, or with `NoBlock` where the first one released the arena.
//!   The block that a pool has set ready for a later ask is a dead block too, though it was never out.
//! - A heap holds its three buffers, so those of two heaps cannot be mixed up in a call; its `open`, of each of the
//!   three kinds, and [`calls`] can be lent a mixture. It is refused where A × P differs. Where it is the same no call
//!   can tell: it answers by the three buffers as they are lent and touches no others, but it may write into a block
//!   that is held, and leave both heaps damaged.
//! - A heap may go to another thread, between calls, and blocks be given back there: nothing is kept outside the
//!   buffers. Several threads share one under a lock of theirs; to read it they need none, each with a [`Reader`].
//! - A block is aligned to 8 where memory is, in edition sixteen to 16 ([`Edition::alignment`]). In edition eight it is
//!   aligned to 16 too where memory is and the block size is a multiple of 16, which it is for sizes 9 to 16, 25 to 32,
//!   41 to 48 and so on. To no more, in either. A `[u8]` is aligned to 1 unless you say more.
//! - A heap may be saved and loaded, at another address too: all three buffers together, as they are between two calls,
//!   and then [`Heap::open`]. They hold offsets and no pointers, and the edition; books and map are words of a
//!   little-endian machine. A heap that was saved before there were editions is of edition eight. What has changed
//!   since, [`compare`](Heap::compare) says.
//! - How large: a text of n bytes takes a block of n rounded up to a multiple of 8, in edition sixteen of 16, and a
//!   pool has 4,048 / size of them, rounded down. For each block size divide the most texts that are live at one time
//!   by that, and round up: the sum is the pools that are always enough. (A resize that moves holds both blocks for a
//!   moment: count one text more of the new size.) 300 texts of 1 to 24 bytes and 20 of 500 want 1 + 2 + 2 + 3 pools in
//!   edition eight, for 8, 16, 24 and 504, and 2 + 3 + 3 in edition sixteen, for 16, 32 and 512: A = 1 and P = 8.
//! - After a [`Damaged`](Refusal::Damaged), of a call or of a request in a row, something other than this heap's own
//!   calls has written to books, map or a block that is not out. The call wrote nothing, but for a resize that says
//!   where the text is now, and for an [`ask_all`](Heap::ask_all), which has gone on to the rest of its row; where it
//!   wrote nothing, [`audit`](Heap::audit) names the first rule that is broken. Ask for nothing more: copy the texts
//!   out by [`roll_call`](Heap::roll_call) and [`view`](Heap::view), and format anew. Those never give it; they go by
//!   the map and the pools' classes, and show what stands there, whoever wrote it.
//! - A damaged heap may give no `Damaged` for long: no call but the audit looks at all of it. So audit one that comes
//!   from elsewhere, as a saved one, before you go on with it.
//!
//! # Features
//!
//! Without its features the crate needs `core` alone. `alloc`, which needs the crate of that name, has [`OwnedHeap`]
//! and its [`Block`], and a roll and a count of live blocks for which no words are lent. `std`, which is on by default,
//! has `alloc`, and [`Refusal`] and [`NotGivenBack`] are then each a `std::error::Error`.
#![no_std]
#![deny(missing_docs)]
#![deny(unsafe_code)]
#![cfg_attr(not(feature = "alloc"), allow(rustdoc::broken_intra_doc_links))]

#[cfg(feature = "alloc")]
extern crate alloc;
#[cfg(feature = "std")]
extern crate std;

use core::fmt;

#[cfg(feature = "alloc")]
mod block;
#[allow(unsafe_code)]
pub mod calls;
mod comparison;
mod edition;
#[cfg(feature = "alloc")]
mod owned;
mod reader;
mod refusal;
mod request;
mod roll;
mod verdict;

#[cfg(feature = "alloc")]
pub use block::{Block, NotGivenBack};
pub use comparison::{Comparison, Difference, Differences, Kind};
pub use edition::Edition;
#[cfg(feature = "alloc")]
pub use owned::OwnedHeap;
pub use reader::Reader;
pub use refusal::Refusal;
pub use request::Request;
pub use roll::Roll;
pub use verdict::Verdict;

/// The version of this crate, and of the library that it is written for.
///
/// ```
/// assert!(heskavern::VERSION.starts_with("1."));
/// ```
pub const VERSION: &str = env!("CARGO_PKG_VERSION");

/// The largest size that can be asked for.
pub const LARGEST: usize = 512;

/// The most requests that [`ask_all`](Heap::ask_all) takes at once.
pub const MOST_REQUESTS: usize = 4096;

/// The word of the books that says the edition.
const EDITION_WORD: usize = 68;

/// The exact length of memory, in bytes, for A arenas of P pools.
#[must_use]
pub const fn memory_bytes(arenas: usize, pools: usize) -> usize {
    arenas * pools * 4096
}

/// The exact length of books, in words of 32 bits, for A arenas of P pools.
#[must_use]
pub const fn books_words(arenas: usize, pools: usize) -> usize {
    72 + 8 * arenas + 8 * arenas * pools
}

/// The exact length of map, in words of 64 bits, for A arenas of P pools.
#[must_use]
pub const fn map_words(arenas: usize, pools: usize) -> usize {
    8 * arenas * pools
}

/// Roll words that are enough for every roll call on A arenas of P pools, of either edition: two for each block, were
/// all of them of 8 bytes and live.
#[must_use]
pub const fn roll_words(arenas: usize, pools: usize) -> usize {
    2 * 506 * arenas * pools
}

/// List words that are enough for every [`compare`](Heap::compare) of two heaps of A arenas of P pools, of either
/// edition. They are as many as [`roll_words`]: an offset that differs is where a block starts in one of the two, and
/// blocks of every size start where the smallest ones do, at most at 506 places of a pool.
#[must_use]
pub const fn list_words(arenas: usize, pools: usize) -> usize {
    roll_words(arenas, pools)
}

/// Changes that are enough for every [`compare`](Heap::compare), of either edition: one for each class of edition
/// eight.
pub const CHANGES: usize = Edition::Eight.classes();

/// A heap over three lent buffers.
///
/// While it stands, nothing else can read or write them. A holder writes to its own block by [`write`](Heap::write)
/// or [`view_mut`](Heap::view_mut). So, from [`format`](Heap::format) on, a block is never handed out twice and no
/// call gives 6. Only [`open`](Heap::open), and `OwnedHeap::lend`, can bring in books that something damaged;
/// [`audit`](Heap::audit) tells.
pub struct Heap<'a> {
    // The three lengths are those that A and P ask for: `format` or `open` has had them tested, and no call writes A, P
    // or the edition thereafter. (Who takes the books out of a heap that `OwnedHeap` lends may; each call tests them.)
    memory: &'a mut [u8],
    books: &'a mut [u32],
    map: &'a mut [u64],
}

impl<'a> Heap<'a> {
    /// Format: a fresh heap of the given A, P and edition. Writes all books and map and no memory. Refused with 1 or 2.
    ///
    /// ```
    /// # use heskavern::{books_words, map_words, memory_bytes, Edition, Heap, Refusal};
    /// # let (mut memory, mut books, mut map) =
    /// #     ([0; memory_bytes(1, 2)], [0; books_words(1, 2)], [0; map_words(1, 2)]);
    /// let edition = Edition::Eight;
    /// assert!(Heap::format(&mut memory, &mut books, &mut map, 1, 2, edition).is_ok());
    /// assert_eq!(Heap::format(&mut memory, &mut books, &mut map, 1, 1, edition).unwrap_err(), Refusal::OutOfRange);
    /// assert_eq!(Heap::format(&mut memory, &mut books, &mut map, 1, 3, edition).unwrap_err(), Refusal::NotExact);
    /// ```
    pub fn format(
        memory: &'a mut [u8],
        books: &'a mut [u32],
        map: &'a mut [u64],
        arenas: usize,
        pools: usize,
        edition: Edition,
    ) -> Result<Self, Refusal> {
        calls::format(memory, books, map, arenas, pools, edition.word() as usize).done()?;
        Ok(Heap { memory, books, map })
    }

    /// A heap that was formatted before, with the blocks that are live in it. Writes nothing. Refused with 1 or 2, by
    /// the A, P and edition that stand in the books; other damage to them is met by the call that comes upon it, or
    /// found by the [`audit`](Heap::audit).
    ///
    /// ```
    /// # use heskavern::{books_words, map_words, memory_bytes, Edition, Heap, Refusal};
    /// # let (mut memory, mut books, mut map) =
    /// #     ([0; memory_bytes(1, 2)], [0; books_words(1, 2)], [0; map_words(1, 2)]);
    /// let mut heap = Heap::format(&mut memory, &mut books, &mut map, 1, 2, Edition::Eight)?;
    /// let word = heap.ask(4)?;
    ///
    /// let mut heap = Heap::open(&mut memory, &mut books, &mut map)?;
    /// heap.give_back(word)?;
    /// # Ok::<(), Refusal>(())
    /// ```
    pub fn open(memory: &'a mut [u8], books: &'a mut [u32], map: &'a mut [u64]) -> Result<Self, Refusal> {
        Reader::open(memory, books, map)?;
        Ok(Heap { memory, books, map })
    }

    /// The three buffers, memory, books and map, for as long as they were lent. What is written to books and map then,
    /// or to a block that is not out, may damage the heap.
    ///
    /// ```
    /// # use heskavern::{books_words, map_words, memory_bytes, Edition, Heap, Refusal};
    /// # let (mut memory, mut books, mut map) =
    /// #     ([0; memory_bytes(1, 2)], [0; books_words(1, 2)], [0; map_words(1, 2)]);
    /// let mut heap = Heap::format(&mut memory, &mut books, &mut map, 1, 2, Edition::Eight)?;
    /// let word = heap.ask(4)?;
    /// let (memory, books, map) = heap.into_buffers();
    /// assert_eq!((memory.len(), books[0], books[1]), (memory_bytes(1, 2), 1, 2));
    /// Heap::open(memory, books, map)?.give_back(word)?;
    /// # Ok::<(), Refusal>(())
    /// ```
    #[must_use]
    pub fn into_buffers(self) -> (&'a mut [u8], &'a mut [u32], &'a mut [u64]) {
        (self.memory, self.books, self.map)
    }

    /// The heap to be read: all that [`Reader`] does, while this heap stays as it is.
    ///
    /// ```
    /// # use heskavern::{books_words, map_words, memory_bytes, Edition, Heap, Refusal};
    /// # let (mut memory, mut books, mut map) =
    /// #     ([0; memory_bytes(1, 2)], [0; books_words(1, 2)], [0; map_words(1, 2)]);
    /// let mut heap = Heap::format(&mut memory, &mut books, &mut map, 1, 2, Edition::Eight)?;
    /// let word = heap.ask(4)?;
    /// let (one, two) = (heap.reader(), heap.reader());
    /// assert_eq!(one.view(word), two.view(word));
    /// # Ok::<(), Refusal>(())
    /// ```
    #[must_use]
    pub fn reader(&self) -> Reader<'_> {
        Reader::over(self.memory, self.books, self.map)
    }

    /// A, how many arenas the heap has.
    ///
    /// ```
    /// # use heskavern::{books_words, map_words, memory_bytes, Edition, Heap, Refusal};
    /// # let (mut memory, mut books, mut map) =
    /// #     ([0; memory_bytes(1, 2)], [0; books_words(1, 2)], [0; map_words(1, 2)]);
    /// let heap = Heap::format(&mut memory, &mut books, &mut map, 1, 2, Edition::Eight)?;
    /// assert_eq!(heap.arenas(), 1);
    /// # Ok::<(), Refusal>(())
    /// ```
    #[must_use]
    pub fn arenas(&self) -> usize {
        self.reader().arenas()
    }

    /// P, how many pools an arena has.
    ///
    /// ```
    /// # use heskavern::{books_words, map_words, memory_bytes, Edition, Heap, Refusal};
    /// # let (mut memory, mut books, mut map) =
    /// #     ([0; memory_bytes(1, 2)], [0; books_words(1, 2)], [0; map_words(1, 2)]);
    /// let heap = Heap::format(&mut memory, &mut books, &mut map, 1, 2, Edition::Eight)?;
    /// assert_eq!(heap.pools(), 2);
    /// # Ok::<(), Refusal>(())
    /// ```
    #[must_use]
    pub fn pools(&self) -> usize {
        self.reader().pools()
    }

    /// The edition that the books say, as format was told it; a heap that was made before there were editions is of
    /// edition eight. [`open`](Heap::open) refuses books that say none.
    ///
    /// ```
    /// # use heskavern::{books_words, map_words, memory_bytes, Edition, Heap, Refusal};
    /// # let (mut memory, mut books, mut map) =
    /// #     ([0; memory_bytes(1, 2)], [0; books_words(1, 2)], [0; map_words(1, 2)]);
    /// let mut heap = Heap::format(&mut memory, &mut books, &mut map, 1, 2, Edition::Sixteen)?;
    /// assert_eq!((heap.ask(1), heap.ask(1)), (Ok(48), Ok(64)));
    ///
    /// let heap = Heap::open(&mut memory, &mut books, &mut map)?;
    /// assert_eq!(heap.edition(), Edition::Sixteen);
    /// # Ok::<(), Refusal>(())
    /// ```
    #[must_use]
    pub fn edition(&self) -> Edition {
        self.reader().edition()
    }

    /// Ask: hands out a block of at least `size` bytes and answers its offset. Its bytes are not cleared. Refused
    /// with 3, 4 or 6.
    ///
    /// ```
    /// # use heskavern::{books_words, map_words, memory_bytes, Edition, Heap, Refusal, LARGEST};
    /// # let (mut memory, mut books, mut map) =
    /// #     ([0; memory_bytes(1, 2)], [0; books_words(1, 2)], [0; map_words(1, 2)]);
    /// # let mut heap = Heap::format(&mut memory, &mut books, &mut map, 1, 2, Edition::Eight)?;
    /// assert_eq!(heap.ask(8), Ok(48));
    /// assert_eq!(heap.ask(8), Ok(56));
    /// assert_eq!(heap.ask(LARGEST), Ok(4144));
    /// assert_eq!(heap.ask(LARGEST + 1), Err(Refusal::BadSize));
    /// # Ok::<(), Refusal>(())
    /// ```
    pub fn ask(&mut self, size: usize) -> Result<u32, Refusal> {
        calls::ask(self.memory, self.books, self.map, size).done()
    }

    /// Ask all: a row of requests in one call. Each is an [`ask`](Heap::ask) for its size, one after the other from the
    /// front, and [`Request::answer`] is then what that ask answered; its size stays. A request that is refused does
    /// not stop the rest. So row and heap are left as by as many asks. `Ok` says that the row was gone through, and not
    /// that every request was served: look at each one's answer. Refused with 7 where there are more than
    /// [`MOST_REQUESTS`]; the row is then left as it came.
    ///
    /// ```
    /// # use heskavern::{books_words, map_words, memory_bytes, Edition, Heap, Refusal, Request};
    /// # let (mut memory, mut books, mut map) =
    /// #     ([0; memory_bytes(1, 2)], [0; books_words(1, 2)], [0; map_words(1, 2)]);
    /// # let mut heap = Heap::format(&mut memory, &mut books, &mut map, 1, 2, Edition::Eight)?;
    /// let statement = ["A. Moss", "", "owed"];
    /// let mut row = statement.map(|text| Request::new(text.len() as u32));
    /// heap.ask_all(&mut row)?;
    /// assert_eq!(row.map(Request::answer), [Ok(48), Err(Refusal::BadSize), Ok(56)]);
    ///
    /// for (text, request) in statement.iter().zip(row) {
    ///     if let Ok(offset) = request.answer() {
    ///         heap.write(offset, text.as_bytes())?;
    ///     }
    /// }
    /// assert!(heap.view(48)?.starts_with(b"A. Moss"));
    /// assert!(heap.view(56)?.starts_with(b"owed"));
    /// # Ok::<(), Refusal>(())
    /// ```
    pub fn ask_all(&mut self, requests: &mut [Request]) -> Result<(), Refusal> {
        calls::ask_all(self.memory, self.books, self.map, requests).done().map(drop)
    }

    /// Give back: the block at `offset` is live no more. Refused with 5, 10 or 6.
    ///
    /// ```
    /// # use heskavern::{books_words, map_words, memory_bytes, Edition, Heap, Refusal};
    /// # let (mut memory, mut books, mut map) =
    /// #     ([0; memory_bytes(1, 2)], [0; books_words(1, 2)], [0; map_words(1, 2)]);
    /// # let mut heap = Heap::format(&mut memory, &mut books, &mut map, 1, 2, Edition::Eight)?;
    /// let (word, other) = (heap.ask(4)?, heap.ask(4)?);
    /// assert_eq!(heap.give_back(word), Ok(()));
    /// assert_eq!(heap.give_back(word), Err(Refusal::DeadBlock));
    /// assert_eq!(heap.give_back(word + 1), Err(Refusal::NoBlock));
    /// assert_eq!(heap.give_back(other), Ok(()));
    /// # Ok::<(), Refusal>(())
    /// ```
    pub fn give_back(&mut self, offset: u32) -> Result<(), Refusal> {
        calls::give_back(self.memory, self.books, self.map, offset as usize).done().map(drop)
    }

    /// Resize: makes room for `size` bytes and answers the offset of the block that the text is then in. Of a block
    /// of s bytes, the offset is kept where `size <= s` and `4 * size > 3 * s`. Otherwise a block is asked for, the
    /// first bytes are copied to it, and the old block is given back. Refused with 3, 5, 10, 4 or 6;
    /// [`Refusal::HalfDone`] has the new offset where only the give-back could not be done.
    ///
    /// ```
    /// # use heskavern::{books_words, map_words, memory_bytes, Edition, Heap, Refusal};
    /// # let (mut memory, mut books, mut map) =
    /// #     ([0; memory_bytes(1, 2)], [0; books_words(1, 2)], [0; map_words(1, 2)]);
    /// # let mut heap = Heap::format(&mut memory, &mut books, &mut map, 1, 2, Edition::Eight)?;
    /// let word = heap.ask(100)?;
    /// heap.write(word, b"owed")?;
    /// assert_eq!(heap.resize(word, 79), Ok(word));
    /// let moved = heap.resize(word, 78)?;
    /// assert!(heap.view(moved)?.starts_with(b"owed"));
    /// assert_eq!(heap.view(word), Err(Refusal::DeadBlock));
    /// # Ok::<(), Refusal>(())
    /// ```
    pub fn resize(&mut self, offset: u32, size: usize) -> Result<u32, Refusal> {
        calls::resize(self.memory, self.books, self.map, offset as usize, size).done()
    }

    /// View: the live block's own part of memory, the whole block. Refused with 5 or 10.
    ///
    /// ```
    /// # use heskavern::{books_words, map_words, memory_bytes, Edition, Heap, Refusal};
    /// # let (mut memory, mut books, mut map) =
    /// #     ([0; memory_bytes(1, 2)], [0; books_words(1, 2)], [0; map_words(1, 2)]);
    /// # let mut heap = Heap::format(&mut memory, &mut books, &mut map, 1, 2, Edition::Eight)?;
    /// let word = heap.ask(4)?;
    /// assert_eq!(heap.view(word)?.len(), 8);
    /// assert_eq!(heap.view(word + 4), Err(Refusal::NoBlock));
    /// # Ok::<(), Refusal>(())
    /// ```
    pub fn view(&self, offset: u32) -> Result<&[u8], Refusal> {
        self.reader().view(offset)
    }

    /// Stand-in: the live block's own part of memory, the whole block, or the lent phrase itself, exactly where
    /// [`view`](Heap::view) is refused. So a block that is not out is never read out: its offset speaks the phrase. It
    /// is never refused, and an empty phrase is allowed. Nothing is copied: heap and phrase stay lent while the part is
    /// used, and the phrase may lie in a block of this heap.
    ///
    /// ```
    /// # use heskavern::{books_words, map_words, memory_bytes, Edition, Heap, Refusal};
    /// # let (mut memory, mut books, mut map) =
    /// #     ([0; memory_bytes(1, 2)], [0; books_words(1, 2)], [0; map_words(1, 2)]);
    /// # let mut heap = Heap::format(&mut memory, &mut books, &mut map, 1, 2, Edition::Eight)?;
    /// let word = heap.ask(4)?;
    /// heap.write(word, b"owed")?;
    /// assert!(heap.stand_in(word, b"this amount can't be read out").starts_with(b"owed"));
    /// heap.give_back(word)?;
    /// assert_eq!(heap.stand_in(word, b"this amount can't be read out"), b"this amount can't be read out");
    /// # Ok::<(), Refusal>(())
    /// ```
    #[must_use]
    pub fn stand_in<'s>(&'s self, offset: u32, phrase: &'s [u8]) -> &'s [u8] {
        self.reader().stand_in(offset, phrase)
    }

    /// View, for the holder to write to. Refused with 5 or 10.
    ///
    /// ```
    /// # use heskavern::{books_words, map_words, memory_bytes, Edition, Heap, Refusal};
    /// # let (mut memory, mut books, mut map) =
    /// #     ([0; memory_bytes(1, 2)], [0; books_words(1, 2)], [0; map_words(1, 2)]);
    /// # let mut heap = Heap::format(&mut memory, &mut books, &mut map, 1, 2, Edition::Eight)?;
    /// let word = heap.ask(4)?;
    /// heap.view_mut(word)?.fill(b'-');
    /// assert_eq!(heap.view(word)?, b"--------");
    /// # Ok::<(), Refusal>(())
    /// ```
    pub fn view_mut(&mut self, offset: u32) -> Result<&mut [u8], Refusal> {
        let size = self.view(offset)?.len();
        Ok(&mut self.memory[offset as usize..][..size])
    }

    /// Write: copies the text to the start of the live block; the rest of the block stays. Refused with 5, 10 or 7.
    ///
    /// ```
    /// # use heskavern::{books_words, map_words, memory_bytes, Edition, Heap, Refusal};
    /// # let (mut memory, mut books, mut map) =
    /// #     ([0; memory_bytes(1, 2)], [0; books_words(1, 2)], [0; map_words(1, 2)]);
    /// # let mut heap = Heap::format(&mut memory, &mut books, &mut map, 1, 2, Edition::Eight)?;
    /// let word = heap.ask(4)?;
    /// heap.write(word, b"owed")?;
    /// assert_eq!(&heap.view(word)?[..4], b"owed");
    /// assert_eq!(heap.write(word, b"overdrawn"), Err(Refusal::DoesNotFit));
    /// # Ok::<(), Refusal>(())
    /// ```
    pub fn write(&mut self, offset: u32, text: &[u8]) -> Result<(), Refusal> {
        calls::write(self.memory, self.books, self.map, offset as usize, text).done().map(drop)
    }

    /// Roll call: lists offset and block size of each live block, by rising offset. They are written to the lent
    /// words, two for each block; the words after them stay. Refused with 7 where there are too few; [`roll_words`]
    /// are always enough, and quickest: with fewer the live blocks are counted before they are written.
    ///
    /// ```
    /// # use heskavern::{books_words, map_words, memory_bytes, roll_words, Edition, Heap, Refusal};
    /// # let (mut memory, mut books, mut map) =
    /// #     ([0; memory_bytes(1, 2)], [0; books_words(1, 2)], [0; map_words(1, 2)]);
    /// # let mut heap = Heap::format(&mut memory, &mut books, &mut map, 1, 2, Edition::Eight)?;
    /// heap.ask(4)?;
    /// heap.ask(100)?;
    /// let mut words = [0; roll_words(1, 2)];
    /// assert!(heap.roll_call(&mut words)?.eq([(48, 8), (4144, 104)]));
    /// # Ok::<(), Refusal>(())
    /// ```
    pub fn roll_call<'r>(&self, words: &'r mut [u32]) -> Result<Roll<'r>, Refusal> {
        self.reader().roll_call(words)
    }

    /// How many blocks are live, by roll call. With the feature `alloc`; [`Reader::roll`] has their offsets and sizes.
    ///
    /// ```
    /// # use heskavern::{books_words, map_words, memory_bytes, Edition, Heap, Refusal};
    /// # let (mut memory, mut books, mut map) =
    /// #     ([0; memory_bytes(1, 2)], [0; books_words(1, 2)], [0; map_words(1, 2)]);
    /// # let mut heap = Heap::format(&mut memory, &mut books, &mut map, 1, 2, Edition::Eight)?;
    /// heap.ask(4)?;
    /// heap.ask(100)?;
    /// assert_eq!(heap.live(), 2);
    /// # Ok::<(), Refusal>(())
    /// ```
    #[cfg(feature = "alloc")]
    #[must_use]
    pub fn live(&self) -> usize {
        self.reader().live()
    }

    /// Audit: whether the heap keeps all its rules, or the first that is broken. Writes nothing, and is never refused.
    /// On a heap that nothing else has written to it is [`Verdict::Yes`]. After a yes no call gives 6, and after any
    /// call it is yes again: while the [`Heap`] stands, nothing else can write. (Rule 9 alone, [`Verdict::Order`], is
    /// broken too of a heap that was saved before the usable list had an order: every call goes on with that one.)
    ///
    /// ```
    /// # use heskavern::{books_words, map_words, memory_bytes, Edition, Heap, Refusal, Verdict};
    /// # let (mut memory, mut books, mut map) =
    /// #     ([0; memory_bytes(1, 2)], [0; books_words(1, 2)], [0; map_words(1, 2)]);
    /// let mut heap = Heap::format(&mut memory, &mut books, &mut map, 1, 2, Edition::Eight)?;
    /// let word = heap.ask(4)?;
    /// assert_eq!(heap.audit(), Verdict::Yes);
    ///
    /// books[72 + 8] = 0; // the count of the first pool, which has a block that is out
    /// let mut heap = Heap::open(&mut memory, &mut books, &mut map)?;
    /// assert_eq!(heap.give_back(word), Err(Refusal::Damaged));
    /// assert_eq!(heap.audit(), Verdict::Counts);
    /// # Ok::<(), Refusal>(())
    /// ```
    pub fn audit(&self) -> Verdict {
        self.reader().audit()
    }

    /// Compare: what differs between this heap, the first, and a second one of equal A, P and edition, as between a
    /// copy of yesterday's and today's. Each offset is listed that is live in just one of them, or live in both with
    /// another block size or other bytes, of the whole block; and for each class there is the change in live blocks.
    /// They are written to the lent list, two words for each offset, and to the lent changes, and what is after them
    /// stays. Refused with 12 where A, P or the edition differ, and with 7 where list or changes are too short;
    /// [`list_words`] and [`CHANGES`] are always enough. [`Reader::compare`] does the same of heaps that are only to be
    /// read.
    ///
    /// ```
    /// # use heskavern::{books_words, list_words, map_words, memory_bytes, Edition, Heap, Kind, Refusal, CHANGES};
    /// # let (mut memory, mut books, mut map) =
    /// #     ([0; memory_bytes(1, 2)], [0; books_words(1, 2)], [0; map_words(1, 2)]);
    /// let mut heap = Heap::format(&mut memory, &mut books, &mut map, 1, 2, Edition::Eight)?;
    /// let (owed, paid) = (heap.ask(4)?, heap.ask(4)?);
    /// heap.write(paid, b"paid")?;
    /// let (mut memory_then, mut books_then, mut map_then) = (memory, books, map); // copies
    /// let yesterday = Heap::open(&mut memory_then, &mut books_then, &mut map_then)?;
    ///
    /// let mut today = Heap::open(&mut memory, &mut books, &mut map)?;
    /// today.give_back(owed)?;
    /// today.write(paid, b"owed")?;
    /// let new = today.ask(100)?;
    ///
    /// let (mut list, mut changes) = ([0; list_words(1, 2)], [0; CHANGES]);
    /// let compared = yesterday.compare(&today, &mut list, &mut changes)?;
    /// assert!(compared.differences().map(|difference| (difference.offset, difference.kind)).eq([
    ///     (owed, Kind::FirstAlone),
    ///     (paid, Kind::OtherBytes),
    ///     (new, Kind::SecondAlone),
    /// ]));
    /// assert_eq!((compared.changes()[0], compared.changes()[12]), (-1, 1)); // blocks of 8 bytes, and of 104
    /// assert_eq!(compared.changes().iter().sum::<i32>(), 0); // two blocks were live, and two are
    /// # Ok::<(), Refusal>(())
    /// ```
    pub fn compare<'r>(
        &self,
        second: &Heap<'_>,
        list: &'r mut [u32],
        changes: &'r mut [i32],
    ) -> Result<Comparison<'r>, Refusal> {
        self.reader().compare(second.reader(), list, changes)
    }
}

/// Shows A, P and the edition, and not the buffers.
impl fmt::Debug for Heap<'_> {
    fn fmt(&self, f: &mut fmt::Formatter<'_>) -> fmt::Result {
        self.reader().show("Heap", f)
    }
}
