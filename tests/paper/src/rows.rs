//! The sides of W-204's clauses, by name, so that a run can say how often it met each of them, in each edition: how
//! many entries there are, the order of the tests, and what becomes of the entries. They are told from the row as it
//! came, the answer, the row as it is left and the heap.

use crate::batches::MOST;
use crate::beside::Which;
use crate::look::EDITION;
use crate::steps::{Buffers, Call};
use crate::{Answer, LentToRead, Request};

/// The numbers that an entry can get, in words too.
pub const NUMBERS: [(&str, u32); 4] =
    [("an entry with 0", 0), ("an entry with 3", 3), ("an entry with 4", 4), ("an entry with 6", 6)];

/// A batch, its answer, and the row before and after it.
pub struct Met<'a> {
    which: Which,
    heap: LentToRead<'a>,
    answer: Answer,
    came: Vec<Request>,
    left: &'a [Request],
}

impl<'a> Met<'a> {
    /// None of another call.
    pub fn new(call: &Call, answer: Answer, heap: &'a Buffers) -> Option<Met<'a>> {
        match *call {
            Call::AskAll { which, row } => {
                let (came, left) = (row.requests(), heap.asked());
                Some(Met { which, heap: heap.to_read(which), answer, came, left })
            }
            _ => None,
        }
    }

    /// The entries that a batch that is done has gone through, as they are left.
    pub fn entries(&self) -> &[Request] {
        if self.answer.number == 0 {
            self.left
        } else {
            &[]
        }
    }

    /// Whether this number was given to a row of so many entries.
    fn number(&self, number: u32, entries: std::ops::RangeInclusive<usize>) -> bool {
        self.answer.number == number && entries.contains(&self.came.len())
    }

    /// What word 68 says, if the books reach it.
    fn edition(&self) -> Option<u32> {
        self.heap.books.get(EDITION).copied()
    }

    /// How many words the books have.
    fn books(&self) -> usize {
        self.heap.books.len()
    }

    /// How many entries got this number.
    fn with(&self, number: u32) -> usize {
        self.entries().iter().filter(|entry| entry.number == number).count()
    }

    /// Whether an entry with this number has one with that number somewhere after it.
    fn before(&self, number: u32, then: u32) -> bool {
        let mut after = self.entries().iter().skip_while(|entry| entry.number != number);
        after.any(|entry| entry.number == then)
    }

    /// Whether these three numbers come in this order, with others between them or not.
    fn in_order(&self, numbers: [u32; 3]) -> bool {
        let mut rest = self.entries().iter();
        numbers.into_iter().all(|number| rest.any(|entry| entry.number == number))
    }

    /// Whether an entry is so, as it came and as it is left.
    fn entry(&self, is: impl Fn(&Request, &Request) -> bool) -> bool {
        self.came.iter().zip(self.entries()).any(|(came, left)| is(came, left))
    }

    /// Whether two entries that are served one after the other are so, by their offsets.
    fn served(&self, are: impl Fn(u32, u32) -> bool) -> bool {
        let served: Vec<u32> =
            self.entries().iter().filter(|entry| entry.number == 0).map(|entry| entry.offset).collect();
        served.windows(2).any(|two| are(two[0], two[1]))
    }

    /// Whether an entry with this number has one of its class with that number somewhere after it.
    fn in_one_class(&self, number: u32, then: u32) -> bool {
        let alignment = if self.edition() == Some(1) { 16 } else { 8 };
        let mut had = [false; 64];
        self.entries().iter().filter(|entry| (1..=512).contains(&entry.size)).any(|entry| {
            let class = (entry.size as usize - 1) / alignment;
            let after = had[class] && entry.number == then;
            had[class] |= entry.number == number;
            after
        })
    }
}

/// A side in words, how many times rarer than the others it may be, and whether it is met.
pub type Side = (&'static str, u64, fn(&Met) -> bool);

/// The sides, by what they are of.
pub const SIDES: &[Side] = &[
    // how many entries
    ("0: an empty row", 1, |met| met.number(0, 0..=0)),
    ("0: one entry", 1, |met| met.number(0, 1..=1)),
    ("0: 2 to 9 entries", 1, |met| met.number(0, 2..=9)),
    ("0: 10 to 99 entries", 1, |met| met.number(0, 10..=99)),
    ("0: 100 to 4,094 entries", 1, |met| met.number(0, 100..=MOST - 2)),
    ("0: 4,095 entries", 4, |met| met.number(0, MOST - 1..=MOST - 1)),
    ("0: 4,096 entries", 1, |met| met.number(0, MOST..=MOST)),
    ("0: 4,096 entries, all of them served", 4, |met| met.number(0, MOST..=MOST) && met.with(0) == MOST),
    ("7: 4,097 entries", 1, |met| met.number(7, MOST + 1..=MOST + 1)),
    ("7: 4,098 to 65,535 entries", 1, |met| met.number(7, MOST + 2..=65_535)),
    ("7: more than 65,536 entries, few by their low half", 10, |met| met.number(7, 65_536..=65_536 + MOST)),
    // the order of the tests
    ("1: A or P", 1, |met| met.number(1, 1..=MOST) && met.edition() <= Some(1)),
    ("1: an empty row", 2, |met| met.number(1, 0..=0)),
    ("1: more than 4,096 entries", 2, |met| met.number(1, MOST + 1..=usize::MAX)),
    ("2: books of under two words", 2, |met| met.number(2, 1..=MOST) && met.books() < 2),
    ("2: books that do not reach word 68", 2, |met| met.number(2, 1..=MOST) && (2..=EDITION).contains(&met.books())),
    ("2: a length", 1, |met| met.number(2, 1..=MOST) && met.books() > EDITION),
    ("2: an empty row", 2, |met| met.number(2, 0..=0)),
    ("2: more than 4,096 entries", 2, |met| met.number(2, MOST + 1..=usize::MAX)),
    // which heap
    ("0: of the sequence's own heap", 1, |met| met.number(0, 1..=MOST) && met.which == Which::Own),
    ("0: of a copy", 1, |met| met.number(0, 1..=MOST) && met.which != Which::Own),
    // what becomes of the entries
    ("0: two entries or more, all of them served", 1, |met| met.number(0, 2..=MOST) && met.with(0) == met.came.len()),
    ("0: two entries or more, none of them served", 1, |met| met.number(0, 2..=MOST) && met.with(0) == 0),
    ("an entry served after a 3", 1, |met| met.before(3, 0)),
    ("an entry served after a 4", 1, |met| met.before(4, 0)),
    ("an entry served after a 6", 1, |met| met.before(6, 0)),
    ("a 4 after an entry of its class is served", 1, |met| met.in_one_class(0, 4)),
    ("a 6 after an entry of its class is served", 1, |met| met.in_one_class(0, 6)),
    ("an entry served after a 6 of its class", 1, |met| met.in_one_class(6, 0)),
    ("a 3 between entries that are served", 1, |met| met.in_order([0, 3, 0])),
    ("a 4 between entries that are served", 1, |met| met.in_order([0, 4, 0])),
    ("a 6 between entries that are served", 1, |met| met.in_order([0, 6, 0])),
    ("a 6 after a 4", 1, |met| met.before(4, 6)),
    ("a 4 after a 6", 1, |met| met.before(6, 4)),
    ("two served in one pool", 1, |met| met.served(|first, second| first / 4096 == second / 4096)),
    ("two served, the second in a later pool", 1, |met| met.served(|first, second| first / 4096 < second / 4096)),
    ("two served, the second in an earlier pool", 1, |met| met.served(|first, second| first / 4096 > second / 4096)),
    // sizes
    ("3: size 0", 1, |met| met.entry(|came, left| left.number == 3 && came.size == 0)),
    ("3: size 513", 1, |met| met.entry(|came, left| left.number == 3 && came.size == 513)),
    ("3: a size of which 16 bits alone are in range", 1, |met| {
        met.entry(|came, left| left.number == 3 && (1..=512).contains(&(came.size % (1 << 16))))
    }),
    ("an entry served with size 1", 1, |met| met.entry(|came, left| left.number == 0 && came.size == 1)),
    ("an entry served with size 512", 1, |met| met.entry(|came, left| left.number == 0 && came.size == 512)),
    // what stood in an entry's places
    ("a served entry, its number not 0 before", 1, |met| met.entry(|came, left| left.number == 0 && came.number != 0)),
    ("a served entry, its number 0 before", 1, |met| met.entry(|came, left| left.number == 0 && came.number == 0)),
    ("a served entry, another offset before", 1, |met| {
        met.entry(|came, left| left.number == 0 && came.offset != left.offset)
    }),
    ("a refused entry, its number 0 before", 1, |met| met.entry(|came, left| left.number != 0 && came.number == 0)),
    ("a refused entry, another number before", 1, |met| {
        met.entry(|came, left| left.number != 0 && came.number != 0 && came.number != left.number)
    }),
    ("a refused entry, its offset not 0 before", 1, |met| met.entry(|came, left| left.number != 0 && came.offset != 0)),
];

/// The sides that are of no edition: word 68 says none.
pub const OF_NO_EDITION: &[Side] = &[
    ("1: word 68", 1, |met| met.number(1, 1..=MOST) && met.edition() > Some(1)),
    ("1: word 68, an empty row", 1, |met| met.number(1, 0..=0) && met.edition() > Some(1)),
    ("1: word 68, more than 4,096 entries", 1, |met| met.number(1, MOST + 1..=usize::MAX) && met.edition() > Some(1)),
];
