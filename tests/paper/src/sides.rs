//! The two sides of each clause of W-206's split of 5, by name, so that a run can say how often it met each of them, in
//! each edition. They are told from the buffers alone, beside the number that a program gave there.

use crate::steps::Buffers;

/// What the split goes by, for an offset that lies in memory.
pub struct Seen {
    offset: usize,
    /// The number in its heap of the pool that the offset lies in, and its number in its arena.
    pool: usize,
    number: usize,
    pools: usize,
    alignment: usize,
    /// Where in the pool it lies.
    place: usize,
    class: usize,
    open: usize,
    mark: usize,
    nextoffset: usize,
}

impl Seen {
    /// In a heap whose A, P, edition and lengths are right.
    pub fn new(heap: &Buffers, offset: usize) -> Option<Seen> {
        let word = |at: usize| heap.books[at] as usize;
        let (arenas, pools, pool) = (word(0), word(1), offset / 4096);
        if pool >= arenas * pools {
            return None;
        }
        let (arena_record, pool_record) = (72 + 8 * (pool / pools), 72 + 8 * arenas + 8 * pool);
        let (class, nextoffset) = (word(pool_record + 4), word(pool_record + 5));
        let (open, mark) = (word(arena_record), word(arena_record + 1));
        let (number, place) = (pool % pools, offset % 4096);
        let alignment = if word(68) == 1 { 16 } else { 8 };
        Some(Seen { offset, pool, number, pools, alignment, place, class, open, mark, nextoffset })
    }

    fn size(&self) -> usize {
        self.alignment * (self.class + 1)
    }

    /// 63, or 31 in sixteen.
    fn last_class(&self) -> usize {
        512 / self.alignment - 1
    }

    /// Whether the place is a whole number of blocks from the first one, in the pool or past it.
    fn on_grid(&self) -> bool {
        self.place >= 48 && (self.place - 48) % self.size() == 0
    }

    /// The clauses of 10, in this order: class, block start, open word, mark, nextoffset. Further above the last class,
    /// where blocks would soon be larger than a pool, only 48 is taken for a start.
    fn kept(&self) -> [bool; 5] {
        let (fits, last) = (self.place + self.size() <= 4096, self.last_class());
        let start = if self.class <= last + 1 { self.on_grid() && fits } else { self.place == 48 };
        [self.class <= last, start, self.open == 1, self.number < self.mark, self.place < self.nextoffset]
    }

    /// Whether this clause is the only one that is broken.
    fn but_for(&self, clause: usize) -> bool {
        self.kept().into_iter().enumerate().all(|(i, kept)| kept == (i != clause))
    }
}

const CLASS: usize = 0;
const START: usize = 1;
const OPEN: usize = 2;
const MARK: usize = 3;
const NEXTOFFSET: usize = 4;

/// A side in words, the number that is given there, and whether it is met.
pub type Side = (&'static str, u32, fn(&Seen) -> bool);

/// Where 5 is given, one clause alone is broken.
pub const SIDES: &[Side] = &[
    ("10: the last class", 10, |seen| seen.class == seen.last_class()),
    ("5: but for the class after the last", 5, |seen| seen.but_for(CLASS) && seen.class == seen.last_class() + 1),
    ("5: but for a class further on", 5, |seen| seen.but_for(CLASS) && seen.class > seen.last_class() + 1),
    ("10: the pool's first block", 10, |seen| seen.place == 48),
    ("10: the pool's last block", 10, |seen| seen.place + 2 * seen.size() > 4096),
    ("5: but for a place in the first 48 bytes", 5, |seen| seen.but_for(START) && seen.place < 48),
    ("5: but for a place inside a block", 5, |seen| seen.but_for(START) && seen.place > 48 && !seen.on_grid()),
    ("5: but for a block that would run past the pool", 5, |seen| seen.but_for(START) && seen.on_grid()),
    ("5: but for open 0", 5, |seen| seen.but_for(OPEN) && seen.open == 0),
    ("5: but for open above 1", 5, |seen| seen.but_for(OPEN) && seen.open > 1),
    ("10: the pool next below the mark", 10, |seen| seen.number + 1 == seen.mark),
    ("10: a pool further below the mark", 10, |seen| seen.number + 1 < seen.mark && seen.mark <= seen.pools),
    ("10: a mark above P", 10, |seen| seen.mark > seen.pools),
    ("10: below the mark by its number in its arena alone", 10, |seen| seen.pool >= seen.mark),
    ("5: but for the mark at the pool", 5, |seen| seen.but_for(MARK) && seen.number == seen.mark),
    ("5: but for the mark below the pool", 5, |seen| seen.but_for(MARK) && seen.number > seen.mark),
    ("10: the last block below nextoffset", 10, |seen| seen.place + seen.size() == seen.nextoffset),
    ("10: a block further below nextoffset", 10, |seen| seen.place + seen.size() < seen.nextoffset),
    ("10: a block that nextoffset lies in", 10, |seen| seen.place + seen.size() > seen.nextoffset),
    ("10: below nextoffset by its place in the pool alone", 10, |seen| seen.offset >= seen.nextoffset),
    ("5: but for nextoffset at the block", 5, |seen| seen.but_for(NEXTOFFSET) && seen.place == seen.nextoffset),
    ("5: but for nextoffset below the block", 5, |seen| seen.but_for(NEXTOFFSET) && seen.place > seen.nextoffset),
];
