//! The calls as the library has them, over any three slices, [`compare`] over six: the number, and the value beside it.
//! [`Heap`](crate::Heap) says the same with types.
//!
//! Each takes any lengths, any contents of the buffers and any arguments, and answers by its rules:
//! [`Answer::number`] is 0 when it is done, and [`Answer::done`] says it with a [`Refusal`]. [`ask_all`] answers each
//! [`Request`] of its row besides. [`stand_in`] alone hands back a part: it is made here from [`view_size`]. [`audit`]
//! answers a number alone, and refuses nothing.
//!
//! ```
//! use heskavern::calls::{ask, Answer};
//! assert_eq!(ask(&mut [], &mut [], &mut [], 8), Answer { number: 2, value: 0 });
//! ```
//!
//! All the unsafe code of this crate stands here, and each call is sound for one reason. include/heskavern.h asks of
//! its caller that pointers are valid for their lengths, aligned and not null, that a buffer which the call may write
//! overlaps no other, that nothing else reads or writes that one during the call, and that nothing else writes the
//! others. A buffer that the call may write is `&mut` here and every other `&`, and that is what Rust's slices are:
//! `&mut` slices overlap nothing, `&` ones may overlap each other. A request has the layout that it has there, and any
//! three words make one. The library keeps no pointer, calls nothing back and touches nothing but the buffers.

use crate::{Refusal, Request};

/// What a call answers.
#[repr(C)]
#[must_use = "the call may have been refused"]
#[derive(Clone, Copy, Debug, Default, PartialEq, Eq)]
pub struct Answer {
    /// 0 when the call is done; otherwise why it is refused.
    pub number: u32,
    /// The offset, block size or count of a call that is done; 0 of a refusal, but for a resize that is half done.
    pub value: u32,
}

impl Answer {
    /// The value of a call that is done, or why it is refused. A 6 with a value, which only a [`resize`] gives, is
    /// [`HalfDone`](Refusal::HalfDone).
    ///
    /// ```
    /// use heskavern::calls::{ask, Answer};
    /// use heskavern::Refusal;
    /// assert_eq!(ask(&mut [], &mut [], &mut [], 8).done(), Err(Refusal::NotExact));
    /// assert_eq!(Answer { number: 0, value: 48 }.done(), Ok(48));
    /// assert_eq!(Answer { number: 6, value: 0 }.done(), Err(Refusal::Damaged));
    /// assert_eq!(Answer { number: 6, value: 48 }.done(), Err(Refusal::HalfDone(48)));
    /// ```
    pub const fn done(self) -> Result<u32, Refusal> {
        match self.number {
            0 => Ok(self.value),
            number => Err(Refusal::of(number, self.value)),
        }
    }
}

extern "C" {
    fn heskavern_format(
        memory: *const u8,
        memory_bytes: usize,
        books: *mut u32,
        books_words: usize,
        map: *mut u64,
        map_words: usize,
        arenas: usize,
        pools: usize,
        edition: usize,
    ) -> Answer;
    fn heskavern_ask(
        memory: *mut u8,
        memory_bytes: usize,
        books: *mut u32,
        books_words: usize,
        map: *mut u64,
        map_words: usize,
        size: usize,
    ) -> Answer;
    fn heskavern_ask_all(
        memory: *mut u8,
        memory_bytes: usize,
        books: *mut u32,
        books_words: usize,
        map: *mut u64,
        map_words: usize,
        requests: *mut Request,
        entries: usize,
    ) -> Answer;
    fn heskavern_give_back(
        memory: *mut u8,
        memory_bytes: usize,
        books: *mut u32,
        books_words: usize,
        map: *mut u64,
        map_words: usize,
        offset: usize,
    ) -> Answer;
    fn heskavern_resize(
        memory: *mut u8,
        memory_bytes: usize,
        books: *mut u32,
        books_words: usize,
        map: *mut u64,
        map_words: usize,
        offset: usize,
        size: usize,
    ) -> Answer;
    fn heskavern_view_size(
        memory: *const u8,
        memory_bytes: usize,
        books: *const u32,
        books_words: usize,
        map: *const u64,
        map_words: usize,
        offset: usize,
    ) -> Answer;
    fn heskavern_write(
        memory: *mut u8,
        memory_bytes: usize,
        books: *const u32,
        books_words: usize,
        map: *const u64,
        map_words: usize,
        offset: usize,
        text: *const u8,
        text_bytes: usize,
    ) -> Answer;
    fn heskavern_roll_call(
        memory: *const u8,
        memory_bytes: usize,
        books: *const u32,
        books_words: usize,
        map: *const u64,
        map_words: usize,
        roll: *mut u32,
        roll_words: usize,
    ) -> Answer;
    fn heskavern_audit(
        memory: *const u8,
        memory_bytes: usize,
        books: *const u32,
        books_words: usize,
        map: *const u64,
        map_words: usize,
    ) -> u32;
    fn heskavern_compare(
        first_memory: *const u8,
        first_memory_bytes: usize,
        first_books: *const u32,
        first_books_words: usize,
        first_map: *const u64,
        first_map_words: usize,
        second_memory: *const u8,
        second_memory_bytes: usize,
        second_books: *const u32,
        second_books_words: usize,
        second_map: *const u64,
        second_map_words: usize,
        list: *mut u32,
        list_words: usize,
        changes: *mut i32,
        changes_count: usize,
    ) -> Answer;
}

/// Format: a fresh heap of A arenas of P pools, of edition eight (0) or sixteen (1); another edition is refused with 1.
/// Value 0.
pub fn format(
    memory: &[u8],
    books: &mut [u32],
    map: &mut [u64],
    arenas: usize,
    pools: usize,
    edition: usize,
) -> Answer {
    // SAFETY: see the module.
    unsafe {
        heskavern_format(
            memory.as_ptr(),
            memory.len(),
            books.as_mut_ptr(),
            books.len(),
            map.as_mut_ptr(),
            map.len(),
            arenas,
            pools,
            edition,
        )
    }
}

/// Ask for a block of at least `size` bytes. The value is its offset.
pub fn ask(memory: &mut [u8], books: &mut [u32], map: &mut [u64], size: usize) -> Answer {
    // SAFETY: see the module.
    unsafe {
        heskavern_ask(
            memory.as_mut_ptr(),
            memory.len(),
            books.as_mut_ptr(),
            books.len(),
            map.as_mut_ptr(),
            map.len(),
            size,
        )
    }
}

/// Ask all: each [`Request`] of a row is an [`ask`] for its size, one after the other from the front, and gets that
/// ask's number and offset in its places; one that is refused does not stop the rest. The value is 0. Refused with 1,
/// 2, and then 7 where there are more than [`MOST_REQUESTS`](crate::MOST_REQUESTS); the row is then left as it came.
///
/// ```
/// use heskavern::calls::{ask_all, Answer};
/// use heskavern::Request;
/// let mut row = [Request::new(4)];
/// assert_eq!(ask_all(&mut [], &mut [], &mut [], &mut row), Answer { number: 2, value: 0 });
/// assert_eq!(row, [Request::new(4)]);
/// ```
pub fn ask_all(memory: &mut [u8], books: &mut [u32], map: &mut [u64], requests: &mut [Request]) -> Answer {
    // SAFETY: see the module.
    unsafe {
        heskavern_ask_all(
            memory.as_mut_ptr(),
            memory.len(),
            books.as_mut_ptr(),
            books.len(),
            map.as_mut_ptr(),
            map.len(),
            requests.as_mut_ptr(),
            requests.len(),
        )
    }
}

/// Give the block at `offset` back. The value is the offset.
pub fn give_back(memory: &mut [u8], books: &mut [u32], map: &mut [u64], offset: usize) -> Answer {
    // SAFETY: see the module.
    unsafe {
        heskavern_give_back(
            memory.as_mut_ptr(),
            memory.len(),
            books.as_mut_ptr(),
            books.len(),
            map.as_mut_ptr(),
            map.len(),
            offset,
        )
    }
}

/// Resize the block at `offset` to `size` bytes. The value is the offset of the block that the text is then in.
pub fn resize(memory: &mut [u8], books: &mut [u32], map: &mut [u64], offset: usize, size: usize) -> Answer {
    // SAFETY: see the module.
    unsafe {
        heskavern_resize(
            memory.as_mut_ptr(),
            memory.len(),
            books.as_mut_ptr(),
            books.len(),
            map.as_mut_ptr(),
            map.len(),
            offset,
            size,
        )
    }
}

/// View's companion: the value is the size of the live block at `offset`.
pub fn view_size(memory: &[u8], books: &[u32], map: &[u64], offset: usize) -> Answer {
    // SAFETY: see the module.
    unsafe {
        heskavern_view_size(memory.as_ptr(), memory.len(), books.as_ptr(), books.len(), map.as_ptr(), map.len(), offset)
    }
}

/// Stand-in: the live block's own part of `memory`, the whole block, or `phrase` itself, exactly where [`view_size`]
/// refuses. It answers the part alone. Neither is copied: one lifetime holds for both, and the phrase may be a part of
/// memory too.
#[must_use]
pub fn stand_in<'a>(memory: &'a [u8], books: &[u32], map: &[u64], offset: usize, phrase: &'a [u8]) -> &'a [u8] {
    match view_size(memory, books, map, offset) {
        Answer { number: 0, value: size } => &memory[offset..][..size as usize],
        _ => phrase,
    }
}

/// Write the text to the start of the live block at `offset`. The value is the offset.
pub fn write(memory: &mut [u8], books: &[u32], map: &[u64], offset: usize, text: &[u8]) -> Answer {
    // SAFETY: see the module.
    unsafe {
        heskavern_write(
            memory.as_mut_ptr(),
            memory.len(),
            books.as_ptr(),
            books.len(),
            map.as_ptr(),
            map.len(),
            offset,
            text.as_ptr(),
            text.len(),
        )
    }
}

/// Roll call: offset and block size of each live block, by rising offset, to the lent words. The value is how many
/// blocks are live.
pub fn roll_call(memory: &[u8], books: &[u32], map: &[u64], roll: &mut [u32]) -> Answer {
    // SAFETY: see the module.
    unsafe {
        heskavern_roll_call(
            memory.as_ptr(),
            memory.len(),
            books.as_ptr(),
            books.len(),
            map.as_ptr(),
            map.len(),
            roll.as_mut_ptr(),
            roll.len(),
        )
    }
}

/// Audit: 0 for yes, or the number, 1 to 9, of the first rule that is broken ([`Verdict`](crate::Verdict) has the
/// rules). Rule 1 is what 1 and 2 of the other calls say.
///
/// ```
/// use heskavern::calls::audit;
/// use heskavern::Verdict;
/// assert_eq!(Verdict::from(audit(&[], &[], &[])), Verdict::Shape);
/// ```
#[must_use = "the heap may be damaged"]
pub fn audit(memory: &[u8], books: &[u32], map: &[u64]) -> u32 {
    // SAFETY: see the module.
    unsafe { heskavern_audit(memory.as_ptr(), memory.len(), books.as_ptr(), books.len(), map.as_ptr(), map.len()) }
}

/// Compare: what differs between two heaps of equal A, P and edition, each lent as its memory, books and map; they may
/// share buffers, or be one. For each offset that differs two words go to `list`, the offset and the number of its
/// [`Kind`](crate::Kind), by rising offset; and to `changes`, for each class, the second heap's live blocks less the
/// first's. What is after those stays. The value is how many offsets differ. Refused with 1 or 2 of the first heap, 1
/// or 2 of the second, 12 where A, P or the edition differ, and 7 where list or changes are too short; then neither is
/// written.
///
/// ```
/// use heskavern::calls::{compare, Answer};
/// let none = (&[][..], &[][..], &[][..]);
/// assert_eq!(compare(none, none, &mut [], &mut []), Answer { number: 2, value: 0 });
/// ```
pub fn compare(
    first: (&[u8], &[u32], &[u64]),
    second: (&[u8], &[u32], &[u64]),
    list: &mut [u32],
    changes: &mut [i32],
) -> Answer {
    // SAFETY: see the module.
    unsafe {
        heskavern_compare(
            first.0.as_ptr(),
            first.0.len(),
            first.1.as_ptr(),
            first.1.len(),
            first.2.as_ptr(),
            first.2.len(),
            second.0.as_ptr(),
            second.0.len(),
            second.1.as_ptr(),
            second.1.len(),
            second.2.as_ptr(),
            second.2.len(),
            list.as_mut_ptr(),
            list.len(),
            changes.as_mut_ptr(),
            changes.len(),
        )
    }
}
