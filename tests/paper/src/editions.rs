//! The sides of W-211's clauses, by name, so that a run can say how often it met each of them: the order of the shape's
//! tests and of format's, and where sixteen parts from eight. They are told from the call, the answer and the buffers.

use crate::beside::Which;
use crate::steps::{lengths, Buffers, Call};
use crate::Answer;

/// The word of the books that says the edition.
const EDITION: usize = 68;

/// The edition that a call meets, as far as it is said: format is told it, the others read it, a compare in its first
/// heap and a batch in the one that it is asked of.
pub fn edition_met(call: &Call, heap: &Buffers) -> usize {
    match *call {
        Call::Format { edition, .. } => edition,
        Call::Compare { first, .. } => heap.to_read(first).books.get(EDITION).map_or(0, |word| *word as usize),
        Call::AskAll { which: Which::Beside(n), .. } => {
            heap.beside[n].books.get(EDITION).map_or(0, |word| *word as usize)
        }
        _ => heap.books[EDITION] as usize,
    }
}

/// A call, its answer, and what its tests go by.
pub struct Met<'a> {
    call: Call,
    answer: Answer,
    /// The heap that the call left. A, P, edition and lengths are what they were, but for a format's.
    heap: &'a Buffers,
    in_range: bool,
    edition: usize,
    /// How many words the books have.
    books: usize,
    /// Whether every length is exact; with A or P out of range none is.
    exact: bool,
}

impl<'a> Met<'a> {
    pub fn new(call: Call, answer: Answer, heap: &'a Buffers) -> Met<'a> {
        let (arenas, pools) = match call {
            Call::Format { arenas, pools, .. } => (arenas, pools),
            _ => (heap.books[0] as usize, heap.books[1] as usize),
        };
        let in_range = (1..=16).contains(&arenas) && (2..=64).contains(&pools);
        let exact = in_range && heap.lent() == lengths(arenas, pools);
        let (edition, books) = (edition_met(&call, heap), heap.lent()[1]);
        Met { call, answer, heap, in_range, edition, books, exact }
    }

    /// A format that gives this number.
    fn format(&self, number: u32) -> bool {
        matches!(self.call, Call::Format { .. }) && self.answer.number == number
    }

    /// Another call that gives this number, where the books have two words at least. The audit's numbers are rules.
    fn other(&self, number: u32) -> bool {
        !matches!(self.call, Call::Format { .. } | Call::Audit) && self.answer.number == number && self.books >= 2
    }

    /// An audit that gives this number.
    fn audit(&self, number: u32) -> bool {
        self.call == Call::Audit && self.answer.number == number
    }

    /// Whether a head of no class is not 0 in sixteen.
    fn late_head(&self) -> bool {
        self.edition == 1 && self.heap.books[36..68].iter().any(|head| *head != 0)
    }

    fn known(&self) -> bool {
        self.edition <= 1
    }

    fn reached(&self) -> bool {
        self.books > EDITION
    }

    /// The size of an ask that is done in sixteen.
    fn asked(&self) -> Option<usize> {
        match self.call {
            Call::Ask { size } if self.answer.number == 0 && self.edition == 1 => Some(size),
            _ => None,
        }
    }

    fn asked_in(&self, sizes: std::ops::RangeInclusive<usize>) -> bool {
        self.asked().map_or(false, |size| sizes.contains(&size))
    }

    /// A word of the record of the pool that an offset in memory lies in.
    fn pool_word(&self, offset: usize, word: usize) -> usize {
        let arenas = self.heap.books[0] as usize;
        self.heap.books[72 + 8 * arenas + 8 * (offset / 4096) + word] as usize
    }

    /// The count that an ask or a give-back that is done in sixteen leaves in its pool.
    fn count(&self, give_back: bool) -> usize {
        let this = match self.call {
            Call::Ask { .. } => !give_back,
            Call::GiveBack { .. } => give_back,
            _ => false,
        };
        if this && self.answer.number == 0 && self.edition == 1 {
            self.pool_word(self.answer.value as usize, 0)
        } else {
            0
        }
    }

    /// A resize that is done in sixteen, and keeps its offset or not: its size, and the size of the old block as far as
    /// the old pool's class tells.
    fn resized(&self, kept: bool) -> Option<(usize, usize)> {
        match self.call {
            Call::Resize { offset, size } if self.answer.number == 0 && self.edition == 1 => {
                let class = self.pool_word(offset, 4);
                ((self.answer.value as usize == offset) == kept).then_some((size, 16 * (class + 1)))
            }
            _ => None,
        }
    }

    /// The place in its pool and the pool's class, of an offset in memory that is 5 in sixteen.
    fn no_block(&self) -> Option<(usize, usize)> {
        let offset = self.call.offset().filter(|offset| *offset < self.heap.lent()[0])?;
        (self.other(5) && self.edition == 1).then(|| (offset % 4096, self.pool_word(offset, 4)))
    }

    /// Whether that offset is the first block of its pool with its bit set, but for the class.
    fn first_of_class(&self, classes: std::ops::RangeInclusive<usize>) -> bool {
        match (self.no_block(), self.call.offset()) {
            (Some((48, class)), Some(offset)) => {
                classes.contains(&class) && self.heap.map[8 * (offset / 4096)] & 1 == 1
            }
            _ => false,
        }
    }
}

/// A side in words, and whether it is met.
pub type Side = (&'static str, fn(&Met) -> bool);

/// The sides, by what they are of.
pub const SIDES: &[Side] = &[
    // the shape's tests, each alone and before the next
    ("2: books of 2 to 67 words, A and P in range", |met| met.other(2) && met.in_range && met.books < EDITION),
    ("2: books that end at word 67, A and P in range", |met| met.other(2) && met.in_range && met.books == EDITION),
    ("2: books that end at word 67, above 1 after them", |met| {
        met.other(2) && met.in_range && met.books == EDITION && !met.known()
    }),
    ("1: A or P, books that end before word 67", |met| met.other(1) && !met.in_range && met.books < EDITION),
    ("1: A or P, books that end at word 67", |met| met.other(1) && !met.in_range && met.books == EDITION),
    ("1: A or P, word 68 is 0 or 1", |met| met.other(1) && !met.in_range && met.reached() && met.known()),
    ("1: A or P, word 68 above 1 too", |met| met.other(1) && !met.in_range && met.reached() && !met.known()),
    ("1: word 68 is 2, lengths exact", |met| met.other(1) && met.edition == 2 && met.exact),
    ("1: word 68 above 2 by its low half", |met| met.other(1) && (3..1 << 16).contains(&met.edition) && met.exact),
    ("1: word 68 above 2, its low half 0 or 1", |met| {
        met.other(1) && met.edition > 2 && met.edition % (1 << 16) < 2 && met.exact
    }),
    ("1: word 68 above 1, books that end at it", |met| {
        met.other(1) && met.in_range && !met.known() && met.books == EDITION + 1
    }),
    ("1: word 68 above 1, another length not exact", |met| {
        met.other(1) && met.in_range && !met.known() && met.books > EDITION + 1 && !met.exact
    }),
    ("2: books that end at word 68, it is 0", |met| met.other(2) && met.books == EDITION + 1 && met.edition == 0),
    ("2: books that end at word 68, it is 1", |met| met.other(2) && met.books == EDITION + 1 && met.edition == 1),
    ("2: another length, word 68 is 0", |met| met.other(2) && met.books > EDITION + 1 && met.edition == 0),
    ("2: another length, word 68 is 1", |met| met.other(2) && met.books > EDITION + 1 && met.edition == 1),
    // format's
    ("format, 0: edition 0", |met| met.format(0) && met.edition == 0),
    ("format, 0: edition 1", |met| met.format(0) && met.edition == 1),
    ("format, 1: A or P, edition 0 or 1", |met| met.format(1) && !met.in_range && met.known()),
    ("format, 1: A or P, the edition too", |met| met.format(1) && !met.in_range && !met.known()),
    ("format, 1: edition 2, lengths exact", |met| met.format(1) && met.edition == 2 && met.exact),
    ("format, 1: edition above 2, lengths exact", |met| {
        met.format(1) && (3..1 << 32).contains(&met.edition) && met.exact
    }),
    ("format, 1: edition of more than 32 bits, lengths exact", |met| {
        met.format(1) && met.edition >= 1 << 32 && met.exact
    }),
    ("format, 1: the edition, a length too", |met| met.format(1) && met.in_range && !met.known() && !met.exact),
    ("format, 1: the edition, books of under two words", |met| {
        met.format(1) && met.in_range && !met.known() && met.books < 2
    }),
    ("format, 2: a length, edition 0", |met| met.format(2) && met.edition == 0),
    ("format, 2: a length, edition 1", |met| met.format(2) && met.edition == 1),
    // sixteen
    ("ask in sixteen: 1 to 8 bytes", |met| met.asked_in(1..=8)),
    ("ask in sixteen: 9 to 15 bytes", |met| met.asked_in(9..=15)),
    ("ask in sixteen: 16 bytes", |met| met.asked_in(16..=16)),
    ("ask in sixteen: 17 bytes", |met| met.asked_in(17..=17)),
    ("ask in sixteen: a multiple of 16", |met| met.asked().map_or(false, |size| size % 16 == 0)),
    ("ask in sixteen: one more than a multiple", |met| met.asked().map_or(false, |size| size % 16 == 1)),
    ("ask in sixteen: of class 30", |met| met.asked_in(481..=496)),
    ("ask in sixteen: of class 31", |met| met.asked_in(497..=512)),
    ("ask in sixteen: 513 bytes, 3", |met| {
        matches!(met.call, Call::Ask { size: 513 }) && met.other(3) && met.edition == 1
    }),
    ("ask in sixteen: the 253rd block of 16 bytes", |met| met.asked_in(1..=16) && met.answer.value % 4096 == 4080),
    ("ask in sixteen: count becomes 253", |met| met.count(false) == 253),
    ("ask in sixteen: count becomes 254 to 505", |met| (254..=505).contains(&met.count(false))),
    ("ask in sixteen: count becomes 506", |met| met.count(false) == 506),
    ("ask in sixteen: a head from 36 to 67 is not 0", |met| met.asked().is_some() && met.late_head()),
    ("give back in sixteen: count was 254 to 505", |met| (253..=504).contains(&met.count(true))),
    ("give back in sixteen: count was 506", |met| met.count(true) == 505),
    ("resize in sixteen: kept at its least size", |met| {
        met.resized(true).map_or(false, |(size, block)| 4 * size == 3 * block + 4)
    }),
    ("resize in sixteen: moved at three quarters", |met| {
        met.resized(false).map_or(false, |(size, block)| 4 * size == 3 * block)
    }),
    ("5 in sixteen: a start of eight alone", |met| {
        met.no_block().map_or(false, |(place, class)| place >= 48 && place % 16 == 8 && class <= 31)
    }),
    ("5 in sixteen: class 32, its first bit set", |met| met.first_of_class(32..=32)),
    ("5 in sixteen: class 33 to 63, its first bit set", |met| met.first_of_class(33..=63)),
    // the audit's
    ("audit, 1: word 68 above 1, lengths exact", |met| met.audit(1) && met.in_range && !met.known() && met.exact),
    ("audit, 1: books that end at word 67", |met| met.audit(1) && met.in_range && met.books == EDITION),
    ("audit, 0: word 68 is 1", |met| met.audit(0) && met.edition == 1),
    ("audit, 6: a head from 36 to 67 is not 0 in sixteen", |met| met.audit(6) && met.late_head()),
];
