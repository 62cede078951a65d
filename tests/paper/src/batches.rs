//! Rows of requests for W-204, and when a sequence has a batch: after some of its calls on a copy of its heap, so that
//! the sequence is what it would be without; and in the batches' own sequences on the heap itself, which then goes on
//! as the batch left it. They draw from numbers of their own.

use std::collections::VecDeque;
use std::fmt;

use crate::beside::{to_the_tests, Change, Which, BATCH};
use crate::damage::Rng;
use crate::look::Look;
use crate::steps::{lengths, Buffers, Call, Step};
use crate::Request;

/// The most entries of a row that is not refused with 7.
pub const MOST: usize = 4096;

/// A row of requests to lend, by what they are drawn from. Of a row with fewer entries the first ones are the same.
#[derive(Clone, Copy, Debug, PartialEq, Eq)]
pub struct Row {
    pub entries: usize,
    /// The sizes that most of them have.
    pub sizes: [u32; 3],
    /// One in so many has an odd size, in range or out of it; none if 0.
    pub odd: usize,
    pub seed: u64,
}

impl Row {
    /// The requests as they come, with anything in the places for number and offset.
    pub fn requests(&self) -> Vec<Request> {
        let mut rng = Rng::new(self.seed);
        (0..self.entries).map(|_| self.request(&mut rng)).collect()
    }

    /// What stands in its places may look like an answer, as it does in a row that comes a second time.
    fn request(&self, rng: &mut Rng) -> Request {
        let block = rng.pick(&self.sizes);
        let size = if self.odd > 0 && rng.one_in(self.odd) { odd_size(rng, block) } else { block };
        let any = rng.draw();
        let number = [0, 0, 1, 3, 4, 6, 7, any as u32][any as usize >> 32 & 7];
        let offset = [0, 48, 4144, any as u32][any as usize >> 40 & 3];
        Request { size, number, offset }
    }
}

/// A size on one side or the other of the range, any size in it, or one whose low bits alone are in it.
fn odd_size(rng: &mut Rng, block: u32) -> u32 {
    let any = rng.between(1, 512) as u32;
    rng.pick(&[0, 0, 1, 512, 513, 513, 514, any, any, (1 << 16) + block, (1 << 31) + block, u32::MAX])
}

/// The batches of a sequence.
pub struct Batches {
    rng: Rng,
    /// One call in so many has a batch after it; none if 0.
    one_in: usize,
    /// Whether they are the sequence's own matter, and mostly on its own heap.
    own: bool,
    waiting: VecDeque<Step>,
}

impl Batches {
    /// None along with the sequence.
    pub fn none() -> Batches {
        Batches { rng: Rng::new(0), one_in: 0, own: false, waiting: VecDeque::new() }
    }

    /// On copies, after one call in so many; fewer on a large heap, of which a copy takes long.
    pub fn on_copies(seed: u64, one_in: usize, arenas: usize, pools: usize) -> Batches {
        let one_in = if arenas * pools > 64 { 4 * one_in } else { one_in };
        Batches { rng: Rng::new(seed.rotate_left(48)), one_in, ..Batches::none() }
    }

    /// After about every second call, mostly on the sequence's own heap.
    pub fn own(seed: u64) -> Batches {
        Batches { own: true, ..Batches::on_copies(seed, 2, 1, 1) }
    }

    /// After a call there is a batch, or none. The sequence says what sizes it asks for, and whether it has nothing
    /// more to do to the heap as it stands, so that a batch may change it.
    pub fn after_call(&mut self, heap: &Buffers, sizes: &[usize], settled: bool) {
        if self.one_in > 0 && self.rng.one_in(self.one_in) {
            self.begin(heap, sizes, settled);
        }
    }

    /// The next step of a batch, if it is not over.
    pub fn next_step(&mut self) -> Option<Step> {
        self.waiting.pop_front()
    }

    fn begin(&mut self, heap: &Buffers, sizes: &[usize], settled: bool) {
        let row = self.row(heap, sizes);
        let copy = self.rng.one_in(if settled { 6 } else { 2 });
        if self.own && !copy {
            // what waits is for the heap as it stands
            if settled {
                self.batch(Which::Own, row);
            }
            return;
        }
        self.change(Change::Copy(Which::Own));
        match self.rng.below(8) {
            0..=2 => {
                let [arenas, pools] = heap.shape();
                let changes = to_the_tests(&mut self.rng, lengths(arenas, pools));
                changes.into_iter().for_each(|change| self.change(change));
                // the tests' order is told by rows that are too long, and by empty ones
                let entries = self.rng.pick(&[row.entries, row.entries, 0, 0, MOST + 1, MOST + 1, 5000]);
                return self.batch(Which::Beside(BATCH), Row { entries, ..row });
            }
            3 | 4 => self.spoil(heap, &row),
            5 => self.block(heap, &row),
            _ => {}
        }
        self.batch(Which::Beside(BATCH), row);
        if self.rng.one_in(4) {
            let row = self.row(heap, sizes);
            self.batch(Which::Beside(BATCH), row);
        }
    }

    fn batch(&mut self, which: Which, row: Row) {
        self.waiting.push_back(Step::Call(Call::AskAll { which, row }));
    }

    /// The change will be made to the copy before the next batch on it.
    fn change(&mut self, change: Change) {
        self.waiting.push_back(Step::Beside(BATCH, change));
    }

    /// Up to three of the sequence's sizes. Of an empty heap with room for it the longest row that is done, of the
    /// smallest blocks.
    fn row(&mut self, heap: &Buffers, sizes: &[usize]) -> Row {
        let (seed, alignment) = (self.rng.draw(), Look::new(heap).alignment);
        let room = heap.map.len() / 8 * (4048 / alignment);
        if self.own && room >= MOST && heap.map.iter().all(|word| *word == 0) {
            return Row { entries: MOST, sizes: [alignment as u32; 3], odd: 0, seed };
        }
        let mut size = || {
            let block = self.rng.pick(sizes);
            (block - self.rng.below(8.min(block))) as u32
        };
        let (one, sizes) = (size(), [size(), size(), size()]);
        let sizes = if self.rng.one_in(3) { [one; 3] } else { sizes };
        let odd = self.rng.pick(&[0, 4, 4, 16, 64]);
        Row { entries: self.how_many(), sizes, odd, seed }
    }

    /// None, one, a few, tens, hundreds, or about as many as are taken; or so many that a short count is small.
    fn how_many(&mut self) -> usize {
        match self.rng.below(128) {
            0..=7 => 0,
            8..=23 => 1,
            24..=85 => self.rng.between(2, 9),
            86..=117 => self.rng.between(10, 99),
            118..=123 => self.rng.between(100, 999),
            124 => MOST,
            125 | 126 => MOST + 1,
            _ => self.rng.pick(&[MOST - 1, MOST - 1, MOST + 2, MOST + 2, 5000, 8192, (1 << 16) + 1, (1 << 16) + 1]),
        }
    }

    /// Words, links and bits of the copy that asks of the row's sizes come to, some of them only after a few.
    fn spoil(&mut self, heap: &Buffers, row: &Row) {
        let look = Look::new(heap);
        for _ in 0..self.rng.pick(&[1, 1, 2, 3]) {
            let class = (self.rng.pick(&row.sizes) as usize - 1) / look.alignment;
            let change = self.spoiling(&look, class);
            self.change(change);
        }
    }

    fn spoiling(&mut self, look: &Look, class: usize) -> Change {
        let (all, size) = (look.arenas * look.pools, look.alignment * (class + 1));
        let front = look.word(4 + class).clamp(1, all) - 1;
        let usable = look.word(2).clamp(1, look.arenas) - 1;
        match self.rng.below(10) {
            0 => Change::Word(4 + class, all as u32 + 1),
            1 | 2 => Change::Word(look.pool(front, 0), 506 - self.rng.below(6) as u32),
            3 | 4 => self.another_link(look, front),
            5 | 6 => {
                let ready = look.nextoffset(front).saturating_sub(48) / size;
                let k = (ready + self.rng.below(5)) % 512;
                Change::Turn(8 * front + k / 64, 1 << (k % 64))
            }
            7 => Change::Word(look.arena(usable, 1), self.rng.between(look.pools - 1, look.pools) as u32),
            8 => Change::Word(look.arena(usable, 2), self.rng.pick(&[0, 1, 2, look.pools as u32 + 1])),
            _ => Change::Word(self.rng.pick(&[2, 3]), look.arenas as u32 + 1),
        }
    }

    /// A freed pool comes to the front of the copy that its own class can't take and another can: the row's first size
    /// meets 6 until the second is served there, and is then served from the pool that is carved next.
    fn block(&mut self, heap: &Buffers, row: &Row) {
        let look = Look::new(heap);
        let arena = self.rng.below(look.arenas);
        let freed = arena * look.pools;
        let [own, other] = [0, 1].map(|n| (row.sizes[n] as usize - 1) / look.alignment);
        let of_arena = [(1, 1), (2, 2), (3, freed as u32 + 1)].map(|(word, value)| (look.arena(arena, word), value));
        let of_pool = [(1, 7), (2, 0), (4, own as u32)].map(|(word, value)| (look.pool(freed, word), value));
        let heads = [(2, arena as u32 + 1), (4 + own, 0), (4 + other, 0)];
        for (at, word) in heads.into_iter().chain(of_arena).chain(of_pool) {
            self.change(Change::Word(at, word));
        }
        // both can be set to a class only where their first two bits are clear
        for pool in [freed, freed + 1] {
            self.change(Change::Turn(8 * pool, heap.map[8 * pool] & 3));
        }
    }

    /// A link on the freed chain of a pool becomes another, or what would be its first one.
    fn another_link(&mut self, look: &Look, pool: usize) -> Change {
        let chain = look.chain(pool);
        let place = if chain.is_empty() { 48 } else { self.rng.pick(&chain[..chain.len().min(4)]) };
        Change::Byte(4096 * pool + place, self.rng.between(1, 255) as u8)
    }
}

impl fmt::Display for Row {
    fn fmt(&self, f: &mut fmt::Formatter) -> fmt::Result {
        const SHOWN: usize = 24;
        let shown = Row { entries: self.entries.min(SHOWN), ..*self };
        let sizes: Vec<String> = shown.requests().iter().map(|request| request.size.to_string()).collect();
        let more = if self.entries > SHOWN { ", ..." } else { "" };
        write!(f, "a row of {} requests from {:#x}: {}{more}", self.entries, self.seed, sizes.join(", "))
    }
}
