//! Why a call or a request is refused.

use core::fmt;

/// Why a call is refused, or a [`Request`](crate::Request) of a row: each of the library's numbers under a name, and
/// [`OtherHeap`], which is this crate's own. A refused call leaves every byte and word as it was, but for [`HalfDone`].
///
/// ```
/// use heskavern::Refusal;
/// assert_eq!(Refusal::NoBlock.number(), 5);
/// assert_eq!(Refusal::NoBlock.to_string(), "no block there");
/// assert_eq!(Refusal::DeadBlock.number(), 10);
/// assert_eq!(Refusal::DeadBlock.to_string(), "a dead block: given back, or never handed out");
/// ```
///
/// [`OtherHeap`]: Refusal::OtherHeap
/// [`HalfDone`]: Refusal::HalfDone
#[derive(Clone, Copy, Debug, PartialEq, Eq, Hash)]
#[non_exhaustive]
pub enum Refusal {
    /// 1: A, P or the edition out of range.
    OutOfRange,
    /// 2: a lent length is not exact.
    NotExact,
    /// 3: size 0 or above 512.
    BadSize,
    /// 4: no room.
    NoRoom,
    /// 5: no block there.
    NoBlock,
    /// A [`Block`](crate::Block) of another heap. It is refused before a call is made, with the number of [`NoBlock`]:
    /// this heap has no such block.
    ///
    /// [`NoBlock`]: Refusal::NoBlock
    OtherHeap,
    /// 6: books damaged.
    Damaged,
    /// 6 of a resize that was half done: the text stands in the new block, at this offset, and the old block could
    /// not be given back.
    HalfDone(u32),
    /// 7: text longer than its block; fewer than two roll words for each live block; fewer than two list words for each
    /// difference, or fewer changes than classes; more requests than [`MOST_REQUESTS`](crate::MOST_REQUESTS).
    DoesNotFit,
    /// 10: a dead block: given back, or never handed out.
    DeadBlock,
    /// 12: two heaps of unequal A, P or edition.
    UnequalShape,
    /// A number that this crate does not know.
    Unknown(u32),
}

impl Refusal {
    /// The number that the library gives for it.
    pub const fn number(self) -> u32 {
        match self {
            Refusal::OutOfRange => 1,
            Refusal::NotExact => 2,
            Refusal::BadSize => 3,
            Refusal::NoRoom => 4,
            Refusal::NoBlock | Refusal::OtherHeap => 5,
            Refusal::Damaged | Refusal::HalfDone(_) => 6,
            Refusal::DoesNotFit => 7,
            Refusal::DeadBlock => 10,
            Refusal::UnequalShape => 12,
            Refusal::Unknown(number) => number,
        }
    }

    /// The refusal that has this number, as [`calls`](crate::calls) answer it; 0 says that a call is done, and is none.
    /// A half-done resize has a value beside its number: [`Answer::done`](crate::calls::Answer::done) looks at both.
    ///
    /// ```
    /// use heskavern::Refusal;
    /// assert_eq!(Refusal::from_number(10), Some(Refusal::DeadBlock));
    /// assert_eq!(Refusal::from_number(0), None);
    /// ```
    #[must_use]
    pub const fn from_number(number: u32) -> Option<Refusal> {
        match number {
            0 => None,
            number => Some(Refusal::of(number, 0)),
        }
    }

    /// The refusal that has this number, with the value beside it. No block starts at 0, so a 6 with another value is
    /// a half-done resize.
    pub(crate) const fn of(number: u32, value: u32) -> Refusal {
        match (number, value) {
            (1, _) => Refusal::OutOfRange,
            (2, _) => Refusal::NotExact,
            (3, _) => Refusal::BadSize,
            (4, _) => Refusal::NoRoom,
            (5, _) => Refusal::NoBlock,
            (6, 0) => Refusal::Damaged,
            (6, offset) => Refusal::HalfDone(offset),
            (7, _) => Refusal::DoesNotFit,
            (10, _) => Refusal::DeadBlock,
            (12, _) => Refusal::UnequalShape,
            (unknown, _) => Refusal::Unknown(unknown),
        }
    }
}

impl fmt::Display for Refusal {
    fn fmt(&self, f: &mut fmt::Formatter<'_>) -> fmt::Result {
        match self {
            Refusal::OutOfRange => f.write_str("A, P or the edition out of range"),
            Refusal::NotExact => f.write_str("a lent length is not exact"),
            Refusal::BadSize => f.write_str("size 0 or above 512"),
            Refusal::NoRoom => f.write_str("no room"),
            Refusal::NoBlock => f.write_str("no block there"),
            Refusal::OtherHeap => f.write_str("a block of another heap"),
            Refusal::Damaged => f.write_str("books damaged"),
            Refusal::HalfDone(offset) => {
                write!(f, "books damaged: the text is now at {offset}, and its old block could not be given back")
            }
            Refusal::DoesNotFit => f.write_str(
                "text longer than its block, too little room for a roll, a list or changes, or too many requests",
            ),
            Refusal::DeadBlock => f.write_str("a dead block: given back, or never handed out"),
            Refusal::UnequalShape => f.write_str("two heaps of unequal A, P or edition"),
            Refusal::Unknown(number) => write!(f, "refused with the unknown number {number}"),
        }
    }
}

#[cfg(feature = "std")]
impl std::error::Error for Refusal {}

#[cfg(test)]
mod tests {
    use super::Refusal;

    #[test]
    fn each_number_has_its_refusal() {
        for number in 1..=100 {
            assert_eq!(Refusal::of(number, 0).number(), number);
            let known = number <= 7 || number == 10 || number == 12; // 8 and 9 are the replay program's
            assert_eq!(matches!(Refusal::of(number, 0), Refusal::Unknown(_)), !known);
        }
        assert_eq!(Refusal::of(6, 48), Refusal::HalfDone(48));
        assert_eq!(Refusal::HalfDone(48).number(), 6);
    }
}
