//! The kept sides of the audit's clauses, by name, so that a run can say how often a heap that the audit says yes to
//! lay there: at a bound, or where a rule has nothing to say. They are told from the buffers alone.

use crate::look::{Linked, Look};
use crate::steps::Buffers;

/// A side in words, and whether a heap with a yes lies there.
pub type Side = (&'static str, fn(&Look) -> bool);

/// Which of the sides a heap lies on, in their order.
pub fn met(heap: &Buffers) -> impl Iterator<Item = bool> + '_ {
    SIDES.iter().map(move |(_, met)| met(&Look::new(heap)))
}

impl Look<'_> {
    fn an_arena(&self, is: impl Fn(usize) -> bool) -> bool {
        (0..self.arenas).any(is)
    }

    fn a_pool(&self, is: impl Fn(usize) -> bool) -> bool {
        (0..self.arenas * self.pools).any(is)
    }

    fn an_open_arena(&self, is: impl Fn(usize) -> bool) -> bool {
        self.an_arena(|arena| self.open(arena) && is(arena))
    }

    fn in_use_of(&self, arena: usize) -> usize {
        (arena * self.pools..(arena + 1) * self.pools).filter(|pool| self.in_use(*pool)).count()
    }

    /// A carved pool that has blocks, of which this is true.
    fn with_blocks(&self, is: impl Fn(usize) -> bool) -> bool {
        self.a_pool(|pool| self.carved(pool) && self.has_class(pool) && is(pool))
    }

    fn members(&self, list: &Linked) -> usize {
        self.row(list).len()
    }

    fn a_class_list(&self, is: impl Fn(usize) -> bool) -> bool {
        (0..=self.last_class()).any(|class| is(self.members(&self.class_list(class))))
    }

    /// The free pools of the usable arenas, in their order.
    fn usable(&self) -> Vec<usize> {
        self.row(&self.usable_list()).into_iter().map(|arena| self.free(arena)).collect()
    }

    /// How many are on a pool's chain, as far as the first three.
    fn on_chain(&self, pool: usize) -> usize {
        let mut place = self.of_pool(pool, 1);
        let mut length = 0;
        // a program may say yes to any heap
        while (48..=4088).contains(&place) && length < 3 {
            length += 1;
            place = self.link(pool, place);
        }
        length
    }
}

/// The sides, by rule.
pub const SIDES: &[Side] = &[
    // 3 and 4
    ("0: every arena closed", |look| !look.an_arena(|arena| look.open(arena))),
    ("0: no arena closed", |look| !look.an_arena(|arena| !look.open(arena))),
    ("0: carve mark 1", |look| look.an_open_arena(|arena| look.mark(arena) == 1)),
    ("0: carve mark P", |look| look.an_open_arena(|arena| look.mark(arena) == look.pools)),
    ("0: an open arena without free pools", |look| look.an_open_arena(|arena| look.free(arena) == 0)),
    ("0: an open arena with one free pool", |look| look.an_open_arena(|arena| look.free(arena) == 1)),
    ("0: an open arena with one pool in use", |look| look.an_open_arena(|arena| look.in_use_of(arena) == 1)),
    ("0: an open arena with no pool in use", |look| look.an_open_arena(|arena| look.in_use_of(arena) == 0)),
    // 5
    ("0: the first block is live", |look| look.with_blocks(|pool| look.bit(pool, 0))),
    ("0: the last block is live", |look| look.with_blocks(|pool| look.bit(pool, look.blocks(pool) - 1))),
    ("0: a pool in use of class 0", |look| look.a_pool(|pool| look.in_use(pool) && look.class(pool) == 0)),
    ("0: a pool in use of the last class", |look| {
        look.a_pool(|pool| look.in_use(pool) && look.class(pool) == look.last_class())
    }),
    // 6
    ("0: a freed-pool list of one", |look| look.an_arena(|arena| look.members(&look.freed_list(arena)) == 1)),
    ("0: a freed-pool list of two or more", |look| look.an_arena(|arena| look.members(&look.freed_list(arena)) > 1)),
    ("0: a usable list of one", |look| look.members(&look.usable_list()) == 1),
    ("0: a usable list of two or more", |look| look.members(&look.usable_list()) > 1),
    ("0: an unused list of one", |look| look.members(&look.unused_list()) == 1),
    ("0: an unused list of two or more", |look| look.members(&look.unused_list()) > 1),
    ("0: a class list of one", |look| look.a_class_list(|members| members == 1)),
    ("0: a class list of two or more", |look| look.a_class_list(|members| members > 1)),
    ("0: a full pool", |look| look.a_pool(|pool| look.full(pool))),
    ("0: a pool with one spare block", |look| look.a_pool(|pool| look.live(pool) + 1 == look.blocks(pool))),
    // 7
    ("0: count 1", |look| look.a_pool(|pool| look.live(pool) == 1)),
    ("0: count 2", |look| look.a_pool(|pool| look.live(pool) == 2)),
    // 8
    ("0: a freed pool of class 65,535", |look| look.a_pool(|pool| look.freed(pool) && look.class(pool) == 65_535)),
    ("0: a freed pool of the last class", |look| {
        look.a_pool(|pool| look.freed(pool) && look.class(pool) == look.last_class())
    }),
    ("0: nextoffset the last block's end", |look| {
        look.with_blocks(|pool| look.nextoffset(pool) == look.start(pool, look.blocks(pool)))
    }),
    ("0: nextoffset the last block's start", |look| {
        look.with_blocks(|pool| look.nextoffset(pool) == look.start(pool, look.blocks(pool) - 1))
    }),
    ("0: nextoffset the third block's start", |look| {
        look.with_blocks(|pool| look.nextoffset(pool) == look.start(pool, 2))
    }),
    ("0: one on the chain of a pool in use", |look| look.a_pool(|pool| look.listed(pool) && look.on_chain(pool) == 1)),
    ("0: two on the chain of a pool in use", |look| look.a_pool(|pool| look.listed(pool) && look.on_chain(pool) == 2)),
    ("0: two on the chain of a freed pool", |look| {
        look.with_blocks(|pool| look.freed(pool) && look.on_chain(pool) == 2)
    }),
    ("0: more on the chain of a freed pool", |look| {
        look.with_blocks(|pool| look.freed(pool) && look.on_chain(pool) > 2)
    }),
    // what no rule speaks of
    ("0: a link above A x P in a pool not carved", |look| {
        let most = look.arenas * look.pools;
        look.a_pool(|pool| !look.carved(pool) && look.of_pool(pool, 2).max(look.of_pool(pool, 3)) > most)
    }),
    ("0: a freeblock, nextoffset or maxnextoffset in a pool not carved", |look| {
        look.a_pool(|pool| !look.carved(pool) && [1, 5, 6].iter().any(|word| look.of_pool(pool, *word) != 0))
    }),
    ("0: a class in a pool not carved", |look| look.a_pool(|pool| !look.carved(pool) && look.has_class(pool))),
    // 9
    ("0: two usable arenas with as many free pools", |look| look.usable().windows(2).any(|two| two[0] == two[1])),
    ("0: two usable arenas, the second with more", |look| look.usable().windows(2).any(|two| two[0] < two[1])),
];
