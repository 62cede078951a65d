//! The sides of W-212's clauses, by name, so that a run can say how often it met each of them, in each edition: the
//! order of the tests, the shape, the rooms, and what is listed and changed. They are told from the call, its answer
//! and the buffers; only how many entries there would have been is asked of the paper.

use std::collections::BTreeSet;

use crate::beside::{set_bits, Which};
use crate::look::EDITION;
use crate::steps::{lengths, Buffers, Call};
use crate::{Answer, Calls, LentToRead, Paper};

/// One of the two heaps, as far as the tests go by it.
struct Shape {
    arenas: usize,
    pools: usize,
    edition: usize,
    /// Which of 1 and 2 it is refused with, 0 if with neither.
    number: u32,
}

impl Shape {
    /// As far as the books reach; a word past their end is 0.
    fn new(heap: LentToRead) -> Shape {
        let word = |at: usize| heap.books.get(at).map_or(0, |word| *word as usize);
        let (arenas, pools, edition) = (word(0), word(1), word(EDITION));
        let in_range = (1..=16).contains(&arenas) && (2..=64).contains(&pools);
        let lent = [heap.memory.len(), heap.books.len(), heap.map.len()];
        let number = match lent[1] {
            0 | 1 => 2,
            _ if !in_range => 1,
            2..=EDITION => 2,
            _ if edition > 1 => 1,
            _ => u32::from(lent != lengths(arenas, pools)) * 2,
        };
        Shape { arenas, pools, edition, number }
    }

    /// 64, or 32 in sixteen.
    fn classes(&self) -> usize {
        if self.edition == 1 {
            32
        } else {
            64
        }
    }

    /// The block size of a pool, if it has blocks.
    fn size(&self, heap: LentToRead, pool: usize) -> Option<usize> {
        let class = *heap.books.get(72 + 8 * self.arenas + 8 * pool + 4)? as usize;
        (class < self.classes()).then_some(512 / self.classes() * (class + 1))
    }
}

/// A compare, its answer, and what its tests go by.
pub struct Met<'a> {
    which: [Which; 2],
    heaps: [LentToRead<'a>; 2],
    shapes: [Shape; 2],
    answer: Answer,
    list: &'a [u32],
    changes: &'a [i32],
    /// How many entries there are, or would have been where the room is too small.
    entries: usize,
}

impl<'a> Met<'a> {
    /// None of another call.
    pub fn new(call: &Call, answer: Answer, heap: &'a Buffers) -> Option<Met<'a>> {
        let which = match *call {
            Call::Compare { first, second, .. } => [first, second],
            _ => return None,
        };
        let heaps = which.map(|which| heap.to_read(which));
        let (shapes, list, changes) = (heaps.map(Shape::new), heap.listed(), heap.changed());
        let entries = match answer.number {
            0 => answer.value as usize,
            7 => entries_of(heaps),
            _ => 0,
        };
        Some(Met { which, heaps, shapes, answer, list, changes, entries })
    }

    /// The entries of a compare that is done, as offset and kind.
    pub fn entries(&self) -> impl Iterator<Item = (usize, u32)> + '_ {
        let entries = if self.answer.number == 0 { self.entries } else { 0 };
        self.list.chunks_exact(2).take(entries).map(|entry| (entry[0] as usize, entry[1]))
    }

    /// Whether this number was given.
    fn number(&self, number: u32) -> bool {
        self.answer.number == number
    }

    /// What the two heaps are refused with by themselves.
    fn tests(&self) -> [u32; 2] {
        [self.shapes[0].number, self.shapes[1].number]
    }

    /// Which of A, P and the edition are unequal.
    fn unequal(&self) -> [bool; 3] {
        let [first, second] = &self.shapes;
        [first.arenas != second.arenas, first.pools != second.pools, first.edition != second.edition]
    }

    /// Whether A x P is equal.
    fn as_many_pools(&self) -> bool {
        let [first, second] = &self.shapes;
        first.arenas * first.pools == second.arenas * second.pools
    }

    /// By how many words the list is too long, or too short if below 0.
    fn list_over(&self) -> isize {
        self.list.len() as isize - 2 * self.entries as isize
    }

    /// The same of the changes.
    fn changes_over(&self) -> isize {
        self.changes.len() as isize - self.shapes[0].classes() as isize
    }

    /// The changes of a compare that is done.
    fn changed(&self) -> &[i32] {
        let changes = if self.number(0) { self.shapes[0].classes() } else { 0 };
        &self.changes[..changes.min(self.changes.len())]
    }

    /// A compare that is done, of which this is true.
    fn done_with(&self, is: impl Fn(&Met) -> bool) -> bool {
        self.number(0) && is(self)
    }

    /// Whether there is an entry of this kind, where the two blocks are so.
    fn listed(&self, kind: u32, are: impl Fn(&[u8], &[u8]) -> bool) -> bool {
        self.entries().filter(|(_, is)| *is == kind).any(|(offset, _)| {
            let [first, second] = [0, 1].map(|n| {
                let size = self.shapes[n].size(self.heaps[n], offset / 4096).unwrap_or(0);
                // a program may list any offset
                self.heaps[n].memory.get(offset..offset + size).unwrap_or(&[])
            });
            are(first, second)
        })
    }

    /// Whether a pool has another class in the second heap, and entries in it are of both of these kinds.
    fn interleaved(&self, kinds: [u32; 2]) -> bool {
        let [some, others] = kinds.map(|kind| {
            let of_kind = self.entries().filter(|(_, is)| *is == kind);
            of_kind.map(|(offset, _)| offset / 4096).collect::<BTreeSet<usize>>()
        });
        let mut both = some.intersection(&others);
        both.any(|pool| self.shapes[0].size(self.heaps[0], *pool) != self.shapes[1].size(self.heaps[1], *pool))
    }

    /// Whether a heap has a set bit past the last block of its class, or in a pool of a class without blocks.
    fn stray_bit(&self, n: usize, without_class: bool) -> bool {
        let (heap, shape) = (self.heaps[n], &self.shapes[n]);
        let mut in_use = heap.map.chunks_exact(8).enumerate().filter(|(_, bits)| bits.iter().any(|word| *word != 0));
        in_use.any(|(pool, bits)| match shape.size(heap, pool) {
            Some(size) => !without_class && (4048 / size..512).any(|k| bits[k / 64] >> (k % 64) & 1 == 1),
            None => without_class,
        })
    }
}

/// How many entries there would be with room for them.
fn entries_of([first, second]: [LentToRead; 2]) -> usize {
    let mut list = vec![0; 2 * (set_bits(first) + set_bits(second))];
    Paper::default().compare(first, second, &mut list, &mut [0; 64]).value as usize
}

/// The places at which two blocks of one size have other bytes.
fn differing(first: &[u8], second: &[u8]) -> Vec<usize> {
    (0..first.len().min(second.len())).filter(|at| first[*at] != second[*at]).collect()
}

/// A side in words, and whether it is met.
pub type Side = (&'static str, fn(&Met) -> bool);

/// The sides, by what they are of.
pub const SIDES: &[Side] = &[
    // the order of the tests
    ("1: of the first, the second right", |met| met.number(1) && met.tests() == [1, 0]),
    ("1: of the first, the second is 2", |met| met.number(1) && met.tests() == [1, 2]),
    ("1: of the second, the first right", |met| met.number(1) && met.tests() == [0, 1]),
    ("2: of the first, the second right", |met| met.number(2) && met.tests() == [2, 0]),
    ("2: of the first, the second is 1", |met| met.number(2) && met.tests() == [2, 1]),
    ("2: of the second, the shape equal", |met| met.number(2) && met.tests() == [0, 2] && met.unequal() == [false; 3]),
    ("2: of the second, the shape unequal", |met| {
        met.number(2) && met.tests() == [0, 2] && met.unequal() != [false; 3]
    }),
    ("12: no room for changes", |met| met.number(12) && met.changes.len() < 32),
    ("12: no list at all", |met| met.number(12) && met.list.is_empty()),
    // the shape
    ("12: A alone", |met| met.number(12) && met.unequal() == [true, false, false]),
    ("12: P alone", |met| met.number(12) && met.unequal() == [false, true, false]),
    ("12: the edition alone", |met| met.number(12) && met.unequal() == [false, false, true]),
    ("12: A and P, as many pools", |met| met.number(12) && met.unequal() == [true, true, false] && met.as_many_pools()),
    // the rooms
    ("7: the list alone, one word short", |met| met.number(7) && met.list_over() == -1 && met.changes_over() >= 0),
    ("7: the list alone, two words short", |met| met.number(7) && met.list_over() == -2 && met.changes_over() >= 0),
    ("7: no list", |met| met.number(7) && met.list.is_empty() && met.entries > 0),
    ("7: the changes alone, one short", |met| met.number(7) && met.changes_over() == -1 && met.list_over() >= 0),
    ("7: no changes", |met| met.number(7) && met.changes.is_empty() && met.list_over() >= 0),
    ("7: both", |met| met.number(7) && met.list_over() < 0 && met.changes_over() < 0),
    ("0: a list of just enough words", |met| met.number(0) && met.list_over() == 0 && met.entries > 0),
    ("0: a list of one word more", |met| met.number(0) && met.list_over() == 1),
    ("0: a list of two or more words more", |met| met.number(0) && met.list_over() > 1),
    ("0: just enough changes", |met| met.number(0) && met.changes_over() == 0),
    ("0: more changes", |met| met.number(0) && met.changes_over() > 0),
    // what is listed
    ("0: no entry", |met| met.number(0) && met.entries == 0),
    ("0: no entry and no list", |met| met.number(0) && met.list.is_empty()),
    ("0: one entry", |met| met.number(0) && met.entries == 1),
    ("0: two entries or more", |met| met.number(0) && met.entries > 1),
    ("0: a heap beside itself", |met| met.number(0) && met.which[0] == met.which[1]),
    ("0: no entry, but other memory", |met| {
        met.done_with(|met| met.entries == 0 && met.heaps[0].memory != met.heaps[1].memory)
    }),
    ("0: no entry, but other books", |met| {
        met.done_with(|met| met.entries == 0 && met.heaps[0].books != met.heaps[1].books)
    }),
    ("3: the bytes alike as far as both go", |met| met.listed(3, |first, second| differing(first, second).is_empty())),
    ("3: other bytes too", |met| met.listed(3, |first, second| !differing(first, second).is_empty())),
    ("3: a smaller block in the second", |met| met.listed(3, |first, second| first.len() > second.len())),
    ("3: a larger block in the second", |met| met.listed(3, |first, second| first.len() < second.len())),
    ("4: the first byte alone", |met| met.listed(4, |first, second| differing(first, second) == [0])),
    ("4: the last byte alone", |met| {
        met.listed(4, |first, second| differing(first, second) == [first.len().wrapping_sub(1)])
    }),
    ("4: more bytes than one", |met| met.listed(4, |first, second| differing(first, second).len() > 1)),
    ("1 and 2 in a pool of another class", |met| met.interleaved([1, 2])),
    ("1 and 3 in a pool of another class", |met| met.interleaved([1, 3])),
    ("0: a bit past the last block, of the first", |met| met.done_with(|met| met.stray_bit(0, false))),
    ("0: a bit past the last block, of the second", |met| met.done_with(|met| met.stray_bit(1, false))),
    ("0: a bit in a pool of no class, of the first", |met| met.done_with(|met| met.stray_bit(0, true))),
    ("0: a bit in a pool of no class, of the second", |met| met.done_with(|met| met.stray_bit(1, true))),
    // what is changed
    ("0: a change above 0", |met| met.changed().iter().any(|change| *change > 0)),
    ("0: a change below 0", |met| met.changed().iter().any(|change| *change < 0)),
    ("0: changes above and below 0", |met| {
        met.changed().iter().any(|change| *change > 0) && met.changed().iter().any(|change| *change < 0)
    }),
    ("0: entries and no change", |met| {
        met.done_with(|met| met.entries > 0 && met.changed().iter().all(|change| *change == 0))
    }),
    ("0: changes that add up to 0", |met| {
        met.changed().iter().any(|change| *change != 0) && met.changed().iter().sum::<i32>() == 0
    }),
    ("0: a change of the first class", |met| met.changed().first().map_or(false, |change| *change != 0)),
    ("0: a change of the last class", |met| met.changed().last().map_or(false, |change| *change != 0)),
];
