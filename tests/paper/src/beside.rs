//! The heaps beside the heap of a sequence, for W-212 to compare: one that was kept on the way, and others that are
//! copied and spoilt, or made up, of the same shape or another; and a copy for W-204's batches. What is done to them
//! leaves the sequence's own heap as it is, and draws from numbers of its own, so a sequence is what it would be
//! without them.

use std::collections::VecDeque;
use std::fmt;

use crate::damage::Rng;
use crate::look::{Look, EDITION};
use crate::steps::{lengths, Buffers, Call, Step};
use crate::{whole, Answer, Lent, LentToRead};

/// A heap that is compared or that a batch is asked of: the sequence's own, or one of those beside it.
#[derive(Clone, Copy, Debug, PartialEq, Eq)]
pub enum Which {
    Own,
    Beside(usize),
}

/// The one that is kept on the way, and the two that are made for one visit.
const KEPT: usize = 0;
const ONE: usize = 1;
const OTHER: usize = 2;

/// The copy that batches are asked of. No visit compares it.
pub const BATCH: usize = 3;

/// How many heaps there are beside a sequence's own.
pub const BESIDE: usize = 4;

/// What is done to a heap beside.
#[derive(Clone, Copy, Debug, PartialEq, Eq)]
pub enum Change {
    /// It becomes a copy of this heap, with as much lent of it.
    Copy(Which),
    /// It becomes a heap that is made up whole.
    Whole { arenas: usize, pools: usize, edition: usize, seed: u64 },
    /// The classes of its pools become others, and many of its bits and a few of its bytes.
    Strew(u64),
    /// A word of its books is set.
    Word(usize, u32),
    /// Bits of a word of its map turn.
    Turn(usize, u64),
    /// A byte of its memory becomes another by this many.
    Byte(usize, u8),
    /// How many elements of its memory, books and map are lent.
    Lend([usize; 3]),
}

/// A heap beside: its buffers, with one element of each beyond what is needed, and how much of them is lent.
#[derive(Clone, Default, PartialEq, Eq)]
pub struct Beside {
    pub memory: Vec<u8>,
    pub books: Vec<u32>,
    pub map: Vec<u64>,
    pub lent: [usize; 3],
}

impl Beside {
    /// How much is lent; a shortened sequence may have made less than it lends.
    fn lengths(&self) -> [usize; 3] {
        let [memory, books, map] = self.lent;
        [memory.min(self.memory.len()), books.min(self.books.len()), map.min(self.map.len())]
    }

    /// As it is lent to read.
    pub fn to_read(&self) -> LentToRead<'_> {
        let [memory, books, map] = self.lengths();
        LentToRead { memory: &self.memory[..memory], books: &self.books[..books], map: &self.map[..map] }
    }

    /// As it is lent to any call.
    pub fn lend(&mut self) -> Lent<'_> {
        let [memory, books, map] = self.lengths();
        Lent { memory: &mut self.memory[..memory], books: &mut self.books[..books], map: &mut self.map[..map] }
    }

    /// A copy of a sequence's own heap.
    pub fn copy_of(heap: &Buffers) -> Beside {
        let (memory, books, map) = (heap.memory.clone(), heap.books.clone(), heap.map.clone());
        Beside { memory, books, map, lent: heap.lent() }
    }

    /// A change but for a copy. A place that a shortened sequence has not made is passed over.
    fn change(&mut self, change: Change) {
        match change {
            Change::Copy(_) => {}
            Change::Whole { arenas, pools, edition, seed } => {
                let mut heap = Buffers::new(arenas, pools);
                heap.whole(edition, seed);
                *self = Beside::copy_of(&heap);
            }
            Change::Strew(seed) => self.strew(seed),
            Change::Word(at, word) => self.books.get_mut(at).into_iter().for_each(|old| *old = word),
            Change::Turn(at, bits) => self.map.get_mut(at).into_iter().for_each(|word| *word ^= bits),
            Change::Byte(at, by) => self.memory.get_mut(at).into_iter().for_each(|byte| *byte = byte.wrapping_add(by)),
            Change::Lend(lent) => self.lent = lent,
        }
    }

    /// See [`Change::Strew`].
    fn strew(&mut self, seed: u64) {
        let mut rng = Rng::new(seed);
        let arenas = self.books.first().map_or(0, |arenas| *arenas as usize);
        let last = if self.books.get(EDITION) == Some(&1) { 31 } else { 63 };
        for pool in 0..self.map.len() / 8 {
            let class = rng.pick(&[0, 1, 2, 3, 7, last - 1, last, last, last + 1, 63, 64, 65_535]);
            if let (Some(word), true) = (self.books.get_mut(72 + 8 * arenas + 8 * pool + 4), rng.one_in(2)) {
                *word = class;
            }
            for word in &mut self.map[8 * pool..8 * pool + 8] {
                *word ^= rng.draw() & rng.draw() & rng.pick(&[0, 0x3FF, u64::MAX]);
            }
            let byte = 4096 * pool + 48 + rng.below(4048);
            self.memory.get_mut(byte).into_iter().for_each(|byte| *byte ^= 1 << rng.below(8));
        }
    }
}

impl Buffers {
    /// A heap beside is changed.
    pub fn change_beside(&mut self, n: usize, change: Change) {
        match change {
            Change::Copy(from) => self.beside[n] = self.copy_of(from),
            _ => self.beside[n].change(change),
        }
    }

    /// A heap as it is lent to read.
    pub fn to_read(&self, which: Which) -> LentToRead<'_> {
        match which {
            Which::Own => {
                let [memory, books, map] = self.lent();
                LentToRead { memory: &self.memory[..memory], books: &self.books[..books], map: &self.map[..map] }
            }
            Which::Beside(n) => self.beside[n].to_read(),
        }
    }

    /// The same, to any call.
    pub fn lend_which(&mut self, which: Which) -> Lent<'_> {
        match which {
            Which::Own => self.lend(),
            Which::Beside(n) => self.beside[n].lend(),
        }
    }

    /// Whether a heap is this one in every byte and word.
    pub fn is(&self, which: Which, heap: &Beside) -> bool {
        match which {
            Which::Own => self.memory == heap.memory && self.books == heap.books && self.map == heap.map,
            Which::Beside(n) => self.beside[n] == *heap,
        }
    }

    /// A copy of a heap.
    pub fn copy_of(&self, which: Which) -> Beside {
        match which {
            Which::Own => Beside::copy_of(self),
            Which::Beside(n) => self.beside[n].clone(),
        }
    }
}

/// How many bits of a heap's map are set, as far as it is lent.
pub fn set_bits(heap: LentToRead) -> usize {
    heap.map.iter().map(|word| word.count_ones() as usize).sum()
}

// Visits

/// The visits of a sequence: now and then, after a call, heaps are compared.
pub struct Visits {
    rng: Rng,
    /// One call in so many has a visit after it; none if 0.
    one_in: usize,
    /// Whether a heap is kept.
    kept: bool,
    /// What is done to heaps beside before the next pair is compared.
    waiting: VecDeque<Step>,
    pairs: VecDeque<Pair>,
    /// Whether the heap is kept as it is once they are compared.
    keep: bool,
    /// What the last compare that was done said of its entries.
    entries: usize,
}

/// Two heaps to be compared, with ample room or with room near what the last two needed.
#[derive(Clone, Copy)]
struct Pair {
    first: Which,
    second: Which,
    ample: bool,
}

impl Visits {
    /// None along with the sequence.
    pub fn none() -> Visits {
        Visits::of(0, 0)
    }

    /// After one call in so many; fewer on a large heap, where each takes long.
    pub fn new(seed: u64, one_in: usize, arenas: usize, pools: usize) -> Visits {
        Visits::of(seed.rotate_left(32), if arenas * pools > 64 { 4 * one_in } else { one_in })
    }

    /// Nothing is kept or waiting yet.
    fn of(seed: u64, one_in: usize) -> Visits {
        let (waiting, pairs) = (VecDeque::new(), VecDeque::new());
        Visits { rng: Rng::new(seed), one_in, kept: false, waiting, pairs, keep: false, entries: 0 }
    }

    /// After a call there is a visit, or none. The first call only has the heap kept.
    pub fn after_call(&mut self, heap: &Buffers) {
        if self.one_in == 0 {
            return;
        }
        if !self.kept {
            self.kept = true;
            self.keep = true;
        } else if self.rng.one_in(self.one_in) {
            self.begin(heap);
        }
    }

    /// The next step of a visit, if it is not over.
    pub fn next(&mut self, heap: &Buffers) -> Option<Step> {
        if let Some(step) = self.waiting.pop_front() {
            return Some(step);
        }
        if let Some(pair) = self.pairs.pop_front() {
            return Some(Step::Call(self.call(heap, pair)));
        }
        std::mem::take(&mut self.keep).then_some(Step::Beside(KEPT, Change::Copy(Which::Own)))
    }

    /// What the next steps can know from an answer.
    pub fn learn(&mut self, answer: Answer) {
        self.entries = if answer.number == 0 { answer.value as usize } else { self.entries };
    }

    /// What is compared on this visit, and whether the heap is kept after it.
    fn begin(&mut self, heap: &Buffers) {
        self.keep = self.rng.one_in(2);
        let (own, one) = (Which::Own, Which::Beside(ONE));
        match self.rng.below(16) {
            0..=4 => self.both_orders(own, Which::Beside(KEPT)),
            5..=8 => {
                let from = self.rng.pick(&[own, own, Which::Beside(KEPT)]);
                self.waiting.push_back(Step::Beside(ONE, Change::Copy(from)));
                self.spoil(heap);
                self.both_orders(from, one);
            }
            9 | 10 => {
                self.make_up(heap);
                self.both_orders(own, one);
            }
            11 | 12 => {
                self.go_to_another_shape(heap);
                self.both_orders(own, one);
            }
            13 | 14 => {
                self.go_to_the_tests(heap);
                self.both_orders(one, Which::Beside(OTHER));
            }
            _ => self.both_orders(own, own),
        }
    }

    /// Ample room shows how many entries there are, the same in both orders.
    fn both_orders(&mut self, first: Which, second: Which) {
        let (first, second) = if self.rng.one_in(2) { (first, second) } else { (second, first) };
        self.pairs.push_back(Pair { first, second, ample: true });
        self.pairs.push_back(Pair { first: second, second: first, ample: false });
        if self.rng.one_in(2) {
            self.pairs.push_back(Pair { first, second, ample: false });
        }
    }

    /// The compare of two heaps. Each entry has a set bit of its own, so two words for each are ample.
    fn call(&mut self, heap: &Buffers, Pair { first, second, ample }: Pair) -> Call {
        let classes = if heap.to_read(first).books.get(EDITION) == Some(&1) { 32 } else { 64 };
        if ample {
            let bits = set_bits(heap.to_read(first)) + set_bits(heap.to_read(second));
            let more = self.rng.below(4);
            return Call::Compare { first, second, list: 2 * bits + more, changes: 64 + self.rng.below(4) };
        }
        let n = 2 * self.entries;
        let fewer = [n.saturating_sub(1), n.saturating_sub(2), n / 2, 0];
        let list = match self.rng.below(8) {
            0..=2 => n,
            3 | 4 => n + self.rng.pick(&[1, 2, 7]),
            _ => self.rng.pick(&fewer),
        };
        let changes = match self.rng.below(8) {
            0..=3 => classes,
            4 | 5 => classes + self.rng.pick(&[1, 2, 32, 64]),
            _ => self.rng.pick(&[classes - 1, classes - 1, classes / 2, 31, 32, 1, 0]),
        };
        Call::Compare { first, second, list, changes }
    }

    /// The change will be made to a heap beside before the next compare.
    fn set(&mut self, n: usize, change: Change) {
        self.waiting.push_back(Step::Beside(n, change));
    }

    /// A few bytes, bits, classes and other words of a copy become others, or nothing does.
    fn spoil(&mut self, heap: &Buffers) {
        let look = Look::new(heap);
        let held = whole::held(heap);
        for _ in 0..self.rng.pick(&[0, 1, 1, 1, 2, 3, 5]) {
            let pool = self.rng.below(look.arenas * look.pools);
            let change = match self.rng.below(8) {
                0..=3 if !held.is_empty() => self.another_byte(&look, &held),
                4 => Change::Word(look.pool(pool, 4), self.another_class(&look, pool)),
                5 => self.another_bit(&look, pool),
                6 if !held.is_empty() => {
                    let offset = self.rng.pick(&held);
                    let pool = offset / 4096;
                    let k = (offset % 4096 - 48) / look.size(pool);
                    Change::Turn(8 * pool + k / 64, 1 << (k % 64))
                }
                // what a compare does not go by
                _ => Change::Word(self.rng.pick(&[2, 3, 4, 69, look.pool(pool, 0), look.pool(pool, 5)]), 7),
            };
            self.set(ONE, change);
        }
    }

    /// A byte of a live block, the first and the last of it more often, or one next to it or anywhere.
    fn another_byte(&mut self, look: &Look, held: &[usize]) -> Change {
        let offset = self.rng.pick(held);
        let size = look.size(offset / 4096);
        let inside = self.rng.below(size);
        let any = self.rng.below(look.arenas * look.pools * 4096);
        let at = [offset, offset + size - 1, offset + size - 1, offset + inside, offset + size, offset - 1, any];
        Change::Byte(self.rng.pick(&at), self.rng.between(1, 255) as u8)
    }

    /// A class next to the pool's own, one with blocks twice as large, or one about the last.
    fn another_class(&mut self, look: &Look, pool: usize) -> u32 {
        let (class, last) = (look.class(pool).min(65_535) as u32, look.last_class() as u32);
        self.rng.pick(&[class + 1, class.saturating_sub(1), 2 * class + 1, 0, 1, last, last + 1, 63, 64, 65_535])
    }

    /// A bit of any block, of one of the first, of the last or of one past it.
    fn another_bit(&mut self, look: &Look, pool: usize) -> Change {
        let blocks = look.blocks(pool);
        let k = self.rng.pick(&[0, 1, 2, blocks.saturating_sub(1), blocks, blocks + 1, 511, 63]).min(511);
        Change::Turn(8 * pool + k / 64, 1 << (k % 64))
    }

    /// A heap of the same shape that is made up, or one in which little is as it was.
    fn make_up(&mut self, heap: &Buffers) {
        let ([arenas, pools], seed) = (heap.shape(), self.rng.draw());
        if self.rng.one_in(2) && arenas * pools <= 64 {
            let edition = usize::from(heap.books[EDITION] == 1);
            self.set(ONE, Change::Whole { arenas, pools, edition, seed });
        } else {
            self.set(ONE, Change::Copy(Which::Own));
            self.set(ONE, Change::Strew(seed));
        }
    }

    /// A heap of another A, P or edition, or of another A and P with as many pools.
    fn go_to_another_shape(&mut self, heap: &Buffers) {
        let ([a, p], seed) = (heap.shape(), self.rng.draw());
        let edition = usize::from(heap.books[EDITION] == 1);
        let shapes =
            [(a + 1, p), (a.max(2) - 1, p), (a, p + 1), (a, p.max(3) - 1), (p, a), (2 * a, p / 2), (a / 2, 2 * p)];
        let (arenas, pools) = self.rng.pick(&shapes);
        let right = (1..=16).contains(&arenas) && (2..=64).contains(&pools) && arenas * pools <= 64;
        if self.rng.one_in(4) || !right {
            self.set(ONE, Change::Copy(Which::Own));
            self.set(ONE, Change::Word(EDITION, 1 - edition as u32));
        } else {
            let edition = if self.rng.one_in(6) { 1 - edition } else { edition };
            self.set(ONE, Change::Whole { arenas, pools, edition, seed });
        }
    }

    /// Two copies, each on one side or the other of the tests.
    fn go_to_the_tests(&mut self, heap: &Buffers) {
        let exact = lengths(heap.shape()[0], heap.shape()[1]);
        for n in [ONE, OTHER] {
            self.set(n, Change::Copy(Which::Own));
            let changes = to_the_tests(&mut self.rng, exact);
            changes.into_iter().for_each(|change| self.set(n, change));
        }
    }
}

/// A, P, word 68 and the lengths come to be each on one side or the other of their test.
pub fn to_the_tests(rng: &mut Rng, exact: [usize; 3]) -> Vec<Change> {
    let mut changes = Vec::new();
    if rng.one_in(3) {
        let (at, words) = rng.pick(&[
            (0, [0, 17, 1, 2]),
            (1, [0, 1, 65, 2]),
            (EDITION, [2, 3, 0, 1]),
            (EDITION, [1 << 16, u32::MAX, 0, 1]),
        ]);
        changes.push(Change::Word(at, rng.pick(&words)));
    }
    let mut lent = exact;
    let which = rng.below(3);
    match rng.below(6) {
        0 => lent[which] += 1,
        1 => lent[which] -= 1,
        2 => lent[1] = rng.pick(&[0, 1, 2, 67, 68, 69]),
        _ => {}
    }
    changes.push(Change::Lend(lent));
    changes
}

// In words

impl fmt::Display for Which {
    fn fmt(&self, f: &mut fmt::Formatter) -> fmt::Result {
        match self {
            Which::Own => write!(f, "the heap"),
            Which::Beside(KEPT) => write!(f, "the kept heap"),
            Which::Beside(BATCH) => write!(f, "the copy for batches"),
            Which::Beside(n) => write!(f, "heap {n} beside"),
        }
    }
}

impl fmt::Display for Change {
    fn fmt(&self, f: &mut fmt::Formatter) -> fmt::Result {
        match self {
            Change::Copy(which) => write!(f, "becomes a copy of {which}"),
            Change::Whole { arenas, pools, edition, seed } => {
                write!(f, "becomes a whole heap, A = {arenas}, P = {pools}, edition {edition}, from {seed:#x}")
            }
            Change::Strew(seed) => write!(f, "gets classes, bits and bytes from {seed:#x}"),
            Change::Word(at, word) => write!(f, "has word {at} of its books become {word}"),
            Change::Turn(at, bits) => write!(f, "has bits {bits:#x} of word {at} of its map turned"),
            Change::Byte(at, by) => write!(f, "has byte {at} of its memory become another by {by}"),
            Change::Lend([memory, books, map]) => {
                write!(f, "is lent as {memory} bytes of memory, {books} words of books, {map} words of map")
            }
        }
    }
}
