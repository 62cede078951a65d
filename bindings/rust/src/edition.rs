//! The edition of a heap.

use crate::LARGEST;

/// The edition of a heap: what the sizes of its blocks are multiples of. [`Heap::format`](crate::Heap::format) is told
/// it and writes it to the books, off which every other call reads it. There are these two: books with another word in
/// its place are refused with 1.
///
/// ```
/// use heskavern::Edition;
/// assert_eq!((Edition::Eight.alignment(), Edition::Sixteen.alignment()), (8, 16));
/// assert_eq!((Edition::Eight.classes(), Edition::Sixteen.classes()), (64, 32));
/// assert_eq!((Edition::Eight.word(), Edition::Sixteen.word()), (0, 1));
/// ```
#[derive(Clone, Copy, Debug, PartialEq, Eq, Hash)]
pub enum Edition {
    /// Blocks of 8, 16, 24 and so on to 512 bytes, 64 sizes: 506 of the smallest in a pool. A heap that was formatted
    /// before there were editions is of this one.
    Eight,
    /// Blocks of 16, 32, 48 and so on to 512 bytes, 32 sizes: 253 of the smallest in a pool. They lie as newer CPython
    /// aligns them on 64-bit machines.
    Sixteen,
}

impl Edition {
    /// What every block size, and the offset of every block, is a multiple of, in bytes: 8 or 16.
    #[must_use]
    pub const fn alignment(self) -> usize {
        match self {
            Edition::Eight => 8,
            Edition::Sixteen => 16,
        }
    }

    /// How many classes it has, each of one block size: 64 or 32. Class c, from 0, has blocks of (c + 1) ×
    /// [`alignment`](Edition::alignment) bytes.
    #[must_use]
    pub const fn classes(self) -> usize {
        LARGEST / self.alignment()
    }

    /// The word that says it in the books, and to [`calls::format`](crate::calls::format): 0 or 1.
    #[must_use]
    pub const fn word(self) -> u32 {
        match self {
            Edition::Eight => 0,
            Edition::Sixteen => 1,
        }
    }

    /// The edition that a word of the books says, where a call has found it to be 0 or 1.
    pub(crate) const fn of(word: u32) -> Edition {
        match word {
            0 => Edition::Eight,
            _ => Edition::Sixteen,
        }
    }
}

#[cfg(test)]
mod tests {
    use super::Edition;

    #[test]
    fn each_word_has_its_edition() {
        for edition in [Edition::Eight, Edition::Sixteen] {
            assert_eq!(Edition::of(edition.word()), edition);
        }
    }
}
