//! A heap looked at in the audit's words: which pools are carved, in use, freed and full, and what is on a list or on a
//! freed chain. It is told from the buffers alone, for what makes, spoils and counts heaps.

use crate::steps::Buffers;

/// The word of the books that says the edition.
pub const EDITION: usize = 68;

/// A heap that has the A, P and lengths which its buffers were made for.
pub struct Look<'a> {
    pub heap: &'a Buffers,
    pub arenas: usize,
    pub pools: usize,
    pub alignment: usize,
}

impl<'a> Look<'a> {
    pub fn new(heap: &'a Buffers) -> Look<'a> {
        let [arenas, pools] = heap.shape();
        let alignment = if heap.books[EDITION] == 1 { 16 } else { 8 };
        Look { heap, arenas, pools, alignment }
    }

    /// The place of a word of an arena's record, and of a pool's.
    pub fn arena(&self, n: usize, word: usize) -> usize {
        72 + 8 * n + word
    }

    pub fn pool(&self, n: usize, word: usize) -> usize {
        72 + 8 * self.arenas + 8 * n + word
    }

    pub fn word(&self, at: usize) -> usize {
        self.heap.books[at] as usize
    }

    /// What stands in a word of an arena's record, and of a pool's.
    pub fn of_arena(&self, n: usize, word: usize) -> usize {
        self.word(self.arena(n, word))
    }

    pub fn of_pool(&self, n: usize, word: usize) -> usize {
        self.word(self.pool(n, word))
    }

    pub fn open(&self, arena: usize) -> bool {
        self.of_arena(arena, 0) == 1
    }

    pub fn free(&self, arena: usize) -> usize {
        self.of_arena(arena, 2)
    }

    pub fn mark(&self, arena: usize) -> usize {
        self.of_arena(arena, 1)
    }

    pub fn carved(&self, pool: usize) -> bool {
        let arena = pool / self.pools;
        self.open(arena) && pool % self.pools < self.mark(arena)
    }

    /// How many bits of a pool are set.
    pub fn live(&self, pool: usize) -> usize {
        self.heap.map[8 * pool..8 * pool + 8].iter().map(|word| word.count_ones() as usize).sum()
    }

    pub fn bit(&self, pool: usize, k: usize) -> bool {
        self.heap.map[8 * pool + k / 64] >> (k % 64) & 1 == 1
    }

    pub fn in_use(&self, pool: usize) -> bool {
        self.carved(pool) && self.live(pool) > 0
    }

    pub fn freed(&self, pool: usize) -> bool {
        self.carved(pool) && self.live(pool) == 0
    }

    /// Whether a pool in use has as many live blocks as its class has blocks.
    pub fn full(&self, pool: usize) -> bool {
        self.in_use(pool) && self.live(pool) == self.blocks(pool)
    }

    /// Whether a pool in use has a spare block.
    pub fn listed(&self, pool: usize) -> bool {
        self.in_use(pool) && !self.full(pool)
    }

    pub fn class(&self, pool: usize) -> usize {
        self.of_pool(pool, 4)
    }

    /// 63, or 31 in sixteen.
    pub fn last_class(&self) -> usize {
        512 / self.alignment - 1
    }

    pub fn has_class(&self, pool: usize) -> bool {
        self.class(pool) <= self.last_class()
    }

    /// The block size of a pool that has a class.
    pub fn size(&self, pool: usize) -> usize {
        self.alignment * (self.class(pool) + 1)
    }

    /// How many blocks a pool has, none without a class.
    pub fn blocks(&self, pool: usize) -> usize {
        if self.has_class(pool) {
            4048 / self.size(pool)
        } else {
            0
        }
    }

    /// The place in its pool of block k, and of the end of the last one for k as many as there are.
    pub fn start(&self, pool: usize, k: usize) -> usize {
        48 + k * self.size(pool)
    }

    pub fn nextoffset(&self, pool: usize) -> usize {
        self.of_pool(pool, 5)
    }

    /// The link at a place of a pool.
    pub fn link(&self, pool: usize, place: usize) -> usize {
        let at = 4096 * pool + place;
        let bytes = &self.heap.memory[at..at + 4];
        u32::from_le_bytes([bytes[0], bytes[1], bytes[2], bytes[3]]) as usize
    }

    /// The places on the freed chain of a pool, as far as it leads to places of blocks and not on for ever.
    pub fn chain(&self, pool: usize) -> Vec<usize> {
        let mut chain = Vec::new();
        let mut place = self.of_pool(pool, 1);
        while (48..=4088).contains(&place) && chain.len() < 512 {
            chain.push(place);
            place = self.link(pool, place);
        }
        chain
    }
}

/// A list by its head's place, and whether it links arenas or pools.
#[derive(Clone, Copy)]
pub struct Linked {
    pub head: usize,
    first_next: usize,
    pub most: usize,
    /// Whether its members have a previous that matches.
    pub both_ways: bool,
}

impl Linked {
    /// The place of a member's next, and of its previous.
    pub fn next(&self, member: usize) -> usize {
        self.first_next + 8 * member
    }

    pub fn previous(&self, member: usize) -> usize {
        self.next(member) + 1
    }
}

impl Look<'_> {
    pub fn usable_list(&self) -> Linked {
        Linked { head: 2, first_next: self.arena(0, 4), most: self.arenas, both_ways: true }
    }

    pub fn unused_list(&self) -> Linked {
        Linked { head: 3, first_next: self.arena(0, 4), most: self.arenas, both_ways: true }
    }

    pub fn class_list(&self, class: usize) -> Linked {
        Linked { head: 4 + class, first_next: self.pool(0, 2), most: self.arenas * self.pools, both_ways: true }
    }

    pub fn freed_list(&self, arena: usize) -> Linked {
        let head = self.arena(arena, 3);
        Linked { head, first_next: self.pool(0, 2), most: self.arenas * self.pools, both_ways: false }
    }

    /// What is on a list, as far as it leads to records and not on for ever.
    pub fn row(&self, list: &Linked) -> Vec<usize> {
        let mut row = Vec::new();
        let mut link = self.word(list.head);
        while (1..=list.most).contains(&link) && row.len() < list.most {
            row.push(link - 1);
            link = self.word(list.next(link - 1));
        }
        row
    }
}
