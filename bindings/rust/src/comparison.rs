//! What compare says of two heaps.

use crate::{calls, Edition, Refusal, EDITION_WORD};
use core::fmt;
use core::iter::FusedIterator;
use core::slice::ChunksExact;

/// How an offset differs between two heaps. Where both block size and bytes differ it is the size.
///
/// ```
/// use heskavern::Kind;
/// assert_eq!(Kind::OtherBytes.number(), 4);
/// assert_eq!(Kind::from(4), Kind::OtherBytes);
/// assert_eq!(Kind::OtherBytes.to_string(), "other bytes");
/// ```
#[derive(Clone, Copy, Debug, PartialEq, Eq, Hash)]
#[non_exhaustive]
pub enum Kind {
    /// 1: live in the first heap alone.
    FirstAlone,
    /// 2: live in the second heap alone.
    SecondAlone,
    /// 3: live in both, with another block size.
    OtherSize,
    /// 4: live in both, with the same block size and other bytes in the block, be it behind its text.
    OtherBytes,
    /// A kind that this crate does not know.
    Unknown(u32),
}

impl Kind {
    /// The number that the library gives for it.
    #[must_use]
    pub const fn number(self) -> u32 {
        match self {
            Kind::FirstAlone => 1,
            Kind::SecondAlone => 2,
            Kind::OtherSize => 3,
            Kind::OtherBytes => 4,
            Kind::Unknown(number) => number,
        }
    }
}

/// The kind that has this number, as [`calls::compare`] writes it.
impl From<u32> for Kind {
    fn from(number: u32) -> Kind {
        match number {
            1 => Kind::FirstAlone,
            2 => Kind::SecondAlone,
            3 => Kind::OtherSize,
            4 => Kind::OtherBytes,
            unknown => Kind::Unknown(unknown),
        }
    }
}

impl fmt::Display for Kind {
    fn fmt(&self, f: &mut fmt::Formatter<'_>) -> fmt::Result {
        match self {
            Kind::FirstAlone => f.write_str("live in the first alone"),
            Kind::SecondAlone => f.write_str("live in the second alone"),
            Kind::OtherSize => f.write_str("another size"),
            Kind::OtherBytes => f.write_str("other bytes"),
            Kind::Unknown(number) => write!(f, "the unknown kind {number}"),
        }
    }
}

/// An offset that is live in just one of two heaps, or in both with another block size or other bytes.
#[derive(Clone, Copy, Debug, PartialEq, Eq, Hash)]
pub struct Difference {
    /// The offset, of a block in one of the heaps or in both.
    pub offset: u32,
    /// Which of these it is.
    pub kind: Kind,
}

/// The differences between two heaps, each offset once, by rising offset. Made by [`Comparison::differences`].
#[derive(Clone, Debug)]
pub struct Differences<'r> {
    pairs: ChunksExact<'r, u32>,
}

impl Iterator for Differences<'_> {
    type Item = Difference;

    fn next(&mut self) -> Option<Difference> {
        self.pairs.next().map(|pair| Difference { offset: pair[0], kind: Kind::from(pair[1]) })
    }

    fn size_hint(&self) -> (usize, Option<usize>) {
        self.pairs.size_hint()
    }
}

impl ExactSizeIterator for Differences<'_> {}

impl FusedIterator for Differences<'_> {}

/// How the second of two heaps differs from the first: the offsets, and the change in live blocks of each class. It
/// stands in the words and numbers that were lent for it. Made by [`Heap::compare`](crate::Heap::compare) and
/// [`Reader::compare`](crate::Reader::compare).
#[derive(Clone, Copy, Debug, PartialEq, Eq)]
pub struct Comparison<'r> {
    entries: &'r [u32],
    changes: &'r [i32],
}

impl<'r> Comparison<'r> {
    /// Compares two heaps that are only to be read, each lent as its memory, books and map: as
    /// [`Heap::compare`](crate::Heap::compare), with nothing opened before. The two may share buffers, or be one.
    /// Refused with 1 or 2, of the first heap and then of the second, and then with 12 or 7.
    ///
    /// ```
    /// use heskavern::{books_words, map_words, memory_bytes, Comparison, Edition, Heap, Kind, Refusal, CHANGES};
    ///
    /// let (mut memory, mut books, mut map) =
    ///     ([0; memory_bytes(1, 2)], [0; books_words(1, 2)], [0; map_words(1, 2)]);
    /// Heap::format(&mut memory, &mut books, &mut map, 1, 2, Edition::Eight)?.ask(4)?;
    /// let (saved_memory, saved_books, saved_map) = (memory, books, map); // copies, and not mutable
    /// Heap::open(&mut memory, &mut books, &mut map)?.give_back(48)?;
    ///
    /// let (mut list, mut changes) = ([0; 2], [0; CHANGES]);
    /// let (saved, now) = ((&saved_memory[..], &saved_books[..], &saved_map[..]), (&memory[..], &books[..], &map[..]));
    /// let compared = Comparison::of(saved, now, &mut list, &mut changes)?;
    /// assert!(compared.differences().map(|d| (d.offset, d.kind)).eq([(48, Kind::FirstAlone)]));
    /// # Ok::<(), Refusal>(())
    /// ```
    pub fn of(
        first: (&[u8], &[u32], &[u64]),
        second: (&[u8], &[u32], &[u64]),
        list: &'r mut [u32],
        changes: &'r mut [i32],
    ) -> Result<Self, Refusal> {
        let entries = calls::compare(first, second, list, changes).done()? as usize;
        let classes = Edition::of(first.1[EDITION_WORD]).classes();
        Ok(Comparison { entries: &list[..2 * entries], changes: &changes[..classes] })
    }

    /// Each offset that differs, once, by rising offset. A text that has moved is at two offsets: it has gone from one
    /// and come to another.
    #[must_use]
    pub fn differences(&self) -> Differences<'r> {
        Differences { pairs: self.entries.chunks_exact(2) }
    }

    /// For each class how many more of its blocks are live in the second heap than in the first, below 0 where fewer
    /// are: [`Edition::classes`] of them. Class c, whose change has index c, has blocks of (c + 1) ×
    /// [`alignment`](Edition::alignment) bytes. They add up to the second heap's roll count less the first's.
    #[must_use]
    pub fn changes(&self) -> &'r [i32] {
        self.changes
    }
}

#[cfg(test)]
mod tests {
    use super::Kind;

    #[test]
    fn each_number_has_its_kind() {
        for number in 0..=100 {
            let kind = Kind::from(number);
            assert_eq!(kind.number(), number);
            assert_eq!(matches!(kind, Kind::Unknown(_)), !(1..=4).contains(&number));
        }
    }
}
