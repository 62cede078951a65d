//! Ways to spoil a whole heap, at least one for each clause of the audit's rules: a word, bit or link, or the few that
//! it takes to break just that. Each has the number that the audit then gives; those with 0 leave the heap whole.

use crate::damage::Rng;
use crate::look::{Linked, Look, EDITION};
use crate::steps::{lengths, Buffers, Step};

/// A way in words, the number that the audit then gives, and its steps on a heap that it can be taken on.
pub type Spoil = (&'static str, u32, fn(&mut Rng, &Look) -> Option<Vec<Step>>);

/// All ways, by rule.
pub const ALL: [&[Spoil]; 7] = [WHOLE, WORDS, ARENAS_AND_BITS, LISTS, LINKS, COUNTS_AND_CLASSES, BLOCKS];

/// The steps that make the heap again what it was before these.
pub fn mends(heap: &Buffers, steps: &[Step]) -> Vec<Step> {
    let old = |step: &Step| match *step {
        Step::Word(at, _) => Step::Word(at, heap.books[at]),
        Step::Bits(at, _) => Step::Bits(at, heap.map[at]),
        Step::Link(at, _) => Step::Link(at, Look::new(heap).link(0, at) as u32),
        Step::Lend(_) => Step::Lend(heap.lent()),
        other => other,
    };
    steps.iter().map(old).collect()
}

/// One of the ways, with the number that the audit then gives. Where some can't be taken, doing nothing can.
pub fn any(rng: &mut Rng, look: &Look) -> (u32, Vec<Step>) {
    for _ in 0..8 {
        let ways = rng.pick(&ALL);
        let (_, number, way) = rng.pick(ways);
        if let Some(steps) = way(rng, look) {
            return (number, steps);
        }
    }
    (0, Vec::new())
}

fn set(at: usize, value: usize) -> Option<Vec<Step>> {
    Some(vec![Step::Word(at, value as u32)])
}

/// A number that is not 0.
fn some(rng: &mut Rng) -> usize {
    rng.pick(&[1, 1, 2, 3, 48, 255, 256, 65_535, 1 << 16, (1 << 16) + 1, 1 << 31, u32::MAX as usize])
}

/// A number above this one.
fn above(rng: &mut Rng, most: usize) -> usize {
    rng.pick(&[most + 1, most + 1, most + 2, most + (1 << 8), most + (1 << 16), 1 << 31, u32::MAX as usize])
}

/// A bit that is turned, in the map as the steps before have left it.
fn turn(look: &Look, pool: usize, k: usize) -> Option<Vec<Step>> {
    let at = 8 * pool + k / 64;
    Some(vec![Step::Bits(at, look.heap.map[at] ^ 1 << (k % 64))])
}

impl Look<'_> {
    fn any_arena(&self, rng: &mut Rng, is: impl Fn(usize) -> bool) -> Option<usize> {
        pick(rng, (0..self.arenas).filter(|arena| is(*arena)))
    }

    fn any_pool(&self, rng: &mut Rng, is: impl Fn(usize) -> bool) -> Option<usize> {
        pick(rng, (0..self.arenas * self.pools).filter(|pool| is(*pool)))
    }

    /// A block of a pool, by its number.
    fn any_block(&self, rng: &mut Rng, pool: usize, is: impl Fn(usize) -> bool) -> Option<usize> {
        pick(rng, (0..self.blocks(pool)).filter(|k| is(*k)))
    }

    /// A pool in use, or a freed one that has a class.
    fn any_with_blocks(&self, rng: &mut Rng) -> Option<usize> {
        self.any_pool(rng, |pool| self.carved(pool) && self.has_class(pool))
    }

    fn spent(&self, arena: usize) -> bool {
        self.open(arena) && self.free(arena) == 0
    }

    /// Which block is at a place of a chain.
    fn number(&self, pool: usize, place: usize) -> usize {
        (place - 48) / self.size(pool)
    }

    fn virgin(&self, pool: usize, k: usize) -> bool {
        self.start(pool, k) >= self.nextoffset(pool)
    }

    /// A list of any kind, with what is on it. The freed-pool head of a closed arena is rule 3's.
    fn any_list(&self, rng: &mut Rng) -> (Linked, Vec<usize>) {
        let class = self.class(rng.below(self.arenas * self.pools)).min(self.last_class());
        let list = match (rng.below(5), self.any_arena(rng, |arena| self.open(arena))) {
            (0, _) => self.usable_list(),
            (1, _) => self.unused_list(),
            (2, Some(arena)) => self.freed_list(arena),
            _ => self.class_list(class),
        };
        let row = self.row(&list);
        (list, row)
    }
}

fn pick(rng: &mut Rng, from: impl Iterator<Item = usize>) -> Option<usize> {
    let from: Vec<usize> = from.collect();
    if from.is_empty() {
        None
    } else {
        Some(rng.pick(&from))
    }
}

/// A heap that is still whole, in another way.
const WHOLE: &[Spoil] = &[
    ("nothing", 0, |_, _| Some(Vec::new())),
    ("a word of a pool not carved, but for count and last", 0, |rng, look| {
        let pool = look.any_pool(rng, |pool| !look.carved(pool))?;
        set(look.pool(pool, rng.between(1, 6)), some(rng))
    }),
    ("bytes of a live or virgin block", 0, |rng, look| {
        let pool = look.any_pool(rng, |pool| look.in_use(pool))?;
        let k = look.any_block(rng, pool, |k| look.bit(pool, k) || look.virgin(pool, k))?;
        Some(vec![Step::Link(4096 * pool + look.start(pool, k), some(rng) as u32)])
    }),
    ("bytes of a freed block after its link", 0, |rng, look| {
        let pool = look.any_with_blocks(rng)?;
        let place = pick(rng, look.chain(pool).into_iter())?;
        Some(vec![Step::Link(4096 * pool + place + 4, some(rng) as u32)])
    }),
    ("bytes of a pool's first 48", 0, |rng, look| {
        let pool = rng.below(look.arenas * look.pools);
        Some(vec![Step::Link(4096 * pool + rng.below(45), some(rng) as u32)])
    }),
    ("a list in another order, but for the usable one", 0, |rng, look| {
        let (list, mut row) = look.any_list(rng);
        if list.head == 2 || row.len() < 2 {
            return None;
        }
        rng.shuffle(&mut row);
        Some(relink(&list, &row))
    }),
    ("a freed chain in another order", 0, |rng, look| {
        let pool = look.any_with_blocks(rng)?;
        let mut chain = look.chain(pool);
        rng.shuffle(&mut chain);
        Some(rechain(look, pool, &chain))
    }),
    ("the blocks that are live become others", 0, |rng, look| {
        let pool = look.any_pool(rng, |pool| look.listed(pool))?;
        let mut row: Vec<usize> = (0..look.blocks(pool)).filter(|k| !look.virgin(pool, *k)).collect();
        rng.shuffle(&mut row);
        let (live, freed) = row.split_at(look.live(pool));
        let chain: Vec<usize> = freed.iter().map(|k| look.start(pool, *k)).collect();
        Some([bits(pool, live), rechain(look, pool, &chain)].concat())
    }),
];

/// The words of a list that holds these, in this order.
fn relink(list: &Linked, row: &[usize]) -> Vec<Step> {
    let (mut steps, mut at, mut before) = (Vec::new(), list.head, 0);
    for member in row {
        let link = *member as u32 + 1;
        steps.push(Step::Word(at, link));
        if list.both_ways {
            steps.push(Step::Word(list.previous(*member), before));
        }
        (at, before) = (list.next(*member), link);
    }
    steps.push(Step::Word(at, 0));
    steps
}

/// Freeblock and the links of a freed chain of these places.
fn rechain(look: &Look, pool: usize, chain: &[usize]) -> Vec<Step> {
    let mut steps = Vec::new();
    let mut next = 0;
    for place in chain.iter().rev() {
        steps.push(Step::Link(4096 * pool + place, next as u32));
        next = *place;
    }
    steps.push(Step::Word(look.pool(pool, 1), next as u32));
    steps
}

/// The map words of a pool in which these blocks are live.
fn bits(pool: usize, live: &[usize]) -> Vec<Step> {
    let mut words = [0; 8];
    live.iter().for_each(|k| words[k / 64] |= 1 << (k % 64));
    words.into_iter().enumerate().map(|(word, bits)| Step::Bits(8 * pool + word, bits)).collect()
}

/// Rules 1 to 3.
const WORDS: &[Spoil] = &[
    ("A is another", 1, |rng, look| set(0, rng.pick(&[0, look.arenas - 1, look.arenas + 1, 17, 1 << 31]))),
    ("P is another", 1, |rng, look| set(1, rng.pick(&[0, 1, look.pools + 1, 65, 1 << 31]))),
    ("word 68 is above 1", 1, |rng, _| set(EDITION, above(rng, 1))),
    ("a length is not exact", 1, |rng, look| {
        let mut lent = lengths(look.arenas, look.pools);
        let which = rng.below(3);
        lent[which] = match which {
            1 if rng.one_in(2) => rng.pick(&[2, 67, 68, 69, 72]),
            _ => rng.pick(&[0, 1, lent[which] / 2, lent[which] - 1, lent[which] + 1]),
        };
        Some(vec![Step::Lend(lent)])
    }),
    ("open is above 1", 2, |rng, look| set(look.arena(rng.below(look.arenas), 0), above(rng, 1))),
    ("a spare word", 2, |rng, _| set(rng.between(69, 71), some(rng))),
    ("an arena record's last two", 2, |rng, look| {
        set(look.arena(rng.below(look.arenas), rng.between(6, 7)), some(rng))
    }),
    ("a pool record's last", 2, |rng, look| set(look.pool(rng.below(look.arenas * look.pools), 7), some(rng))),
    ("a closed arena's mark, free pools or freed-pool head", 3, |rng, look| {
        let arena = look.any_arena(rng, |arena| !look.open(arena))?;
        set(look.arena(arena, rng.between(1, 3)), some(rng))
    }),
    ("open becomes 0", 3, |rng, look| set(look.arena(look.any_arena(rng, |arena| look.open(arena))?, 0), 0)),
];

/// Rules 4 and 5.
const ARENAS_AND_BITS: &[Spoil] = &[
    ("a closed arena becomes open", 4, |rng, look| {
        set(look.arena(look.any_arena(rng, |arena| !look.open(arena))?, 0), 1)
    }),
    ("mark 0", 4, |rng, look| set(look.arena(look.any_arena(rng, |arena| look.open(arena))?, 1), 0)),
    ("mark above P", 4, |rng, look| {
        let arena = look.any_arena(rng, |arena| look.open(arena))?;
        set(look.arena(arena, 1), above(rng, look.pools))
    }),
    ("mark at a pool in use", 4, |rng, look| {
        let pool = look.any_pool(rng, |pool| look.in_use(pool) && pool % look.pools > 0)?;
        set(look.arena(pool / look.pools, 1), pool % look.pools)
    }),
    ("free pools fewer", 4, |rng, look| {
        let arena = look.any_arena(rng, |arena| look.open(arena) && look.free(arena) > 0)?;
        set(look.arena(arena, 2), rng.pick(&[0, look.free(arena) - 1]))
    }),
    ("free pools more", 4, |rng, look| {
        let arena = look.any_arena(rng, |arena| look.open(arena))?;
        set(look.arena(arena, 2), above(rng, look.free(arena)))
    }),
    ("a bit in a freed pool", 4, |rng, look| {
        let pool = look.any_pool(rng, |pool| look.freed(pool))?;
        turn(look, pool, rng.below(512))
    }),
    ("a pool in use has no bits", 4, |rng, look| {
        let pool = look.any_pool(rng, |pool| look.in_use(pool))?;
        Some(bits(pool, &[]))
    }),
    ("a bit in a pool not carved", 5, |rng, look| {
        let pool = look.any_pool(rng, |pool| !look.carved(pool))?;
        turn(look, pool, rng.below(512))
    }),
    ("a bit past the last block", 5, |rng, look| {
        let pool = look.any_pool(rng, |pool| look.in_use(pool))?;
        let blocks = look.blocks(pool);
        turn(look, pool, rng.pick(&[blocks, blocks, (blocks + 512) / 2, 511]))
    }),
    ("a pool in use of a class without blocks", 5, |rng, look| {
        let pool = look.any_pool(rng, |pool| look.in_use(pool))?;
        set(look.pool(pool, 4), rng.pick(&[look.last_class() + 1, 64, 511, 65_535, 1 << 16, u32::MAX as usize]))
    }),
    ("a class of fewer blocks than the last live one", 5, |rng, look| {
        let past = |pool: usize| (7..512).any(|k| look.bit(pool, k));
        let pool = look.any_pool(rng, |pool| look.in_use(pool) && past(pool))?;
        set(look.pool(pool, 4), look.last_class())
    }),
];

/// Rule 6, what is on a list, and rule 9.
const LISTS: &[Spoil] = &[
    ("a list that has members is empty", 6, |rng, look| {
        let (list, row) = look.any_list(rng);
        row.first().and_then(|_| set(list.head, 0))
    }),
    ("a list is cut", 6, |rng, look| {
        let (list, row) = look.any_list(rng);
        let cut = rng.below(row.len().max(2) - 1);
        row.get(cut + 1).and_then(|_| set(list.next(row[cut]), 0))
    }),
    ("one is left out of a list", 6, |rng, look| {
        let (list, mut row) = look.any_list(rng);
        if row.is_empty() {
            return None;
        }
        row.remove(rng.below(row.len()));
        Some(relink(&list, &row))
    }),
    ("a head or next leads to no record", 6, |rng, look| {
        let (list, row) = look.any_list(rng);
        let next = row.iter().map(|member| list.next(*member));
        set(pick(rng, next.chain([list.head]))?, above(rng, list.most))
    }),
    ("a list leads back to itself", 6, |rng, look| {
        let (list, row) = look.any_list(rng);
        let last = *row.last()?;
        set(list.next(last), rng.pick(&row) + 1)
    }),
    ("a list begins with or leads on to a stranger", 6, |rng, look| {
        let (list, row) = look.any_list(rng);
        let stranger = pick(rng, (0..list.most).filter(|member| !row.contains(member)))?;
        let end = row.last().map_or(list.head, |last| list.next(*last));
        set(rng.pick(&[end, end, list.head]), stranger + 1)
    }),
    ("a stranger goes in, linked both ways", 6, |rng, look| {
        let (list, mut row) = look.any_list(rng);
        let stranger = pick(rng, (0..list.most).filter(|member| !row.contains(member)))?;
        row.insert(rng.below(row.len() + 1), stranger);
        Some(relink(&list, &row))
    }),
    ("a freed pool of another arena goes on a freed-pool list", 6, |rng, look| {
        let pool = look.any_pool(rng, |pool| look.freed(pool))?;
        let arena = look.any_arena(rng, |arena| look.open(arena) && arena != pool / look.pools)?;
        let list = look.freed_list(arena);
        let end = look.row(&list).last().map_or(list.head, |last| list.next(*last));
        set(end, pool + 1)
    }),
    ("the head of an empty class list", 6, |rng, look| {
        let head = pick(rng, (4..EDITION).filter(|head| look.word(*head) == 0))?;
        let pool = rng.between(1, look.arenas * look.pools);
        set(head, rng.pick(&[pool, pool, u32::MAX as usize]))
    }),
    ("the head of no class, in sixteen", 6, |rng, look| {
        let pool = rng.between(1, look.arenas * look.pools);
        (look.alignment == 16).then(|| set(rng.between(36, 67), pool))?
    }),
    ("the usable list turned round", 9, |_, look| {
        let list = look.usable_list();
        let mut row = look.row(&list);
        let falls = look.free(*row.first()?) < look.free(*row.last()?);
        row.reverse();
        falls.then(|| relink(&list, &row))
    }),
    ("one moved in the usable list to where it has fewer behind it", 9, |rng, look| {
        let list = look.usable_list();
        let mut row = look.row(&list);
        let at = pick(rng, (1..row.len()).filter(|at| look.free(row[at - 1]) < look.free(row[*at])))?;
        row.swap(at - 1, at);
        Some(relink(&list, &row))
    }),
];

/// Rule 6, previous, and the links of those on no list.
const LINKS: &[Spoil] = &[
    ("a previous that is not the one before", 6, |rng, look| {
        let (list, row) = look.any_list(rng);
        let at = list.previous(pick(rng, row.into_iter())?);
        let other = pick(rng, (0..=list.most + 1).filter(|link| *link != look.word(at)))?;
        set(at, rng.pick(&[other, other, u32::MAX as usize]))
    }),
    ("a full pool's next or previous", 6, |rng, look| {
        let pool = look.any_pool(rng, |pool| look.full(pool))?;
        set(look.pool(pool, rng.between(2, 3)), some(rng))
    }),
    ("a link of an open arena without free pools", 6, |rng, look| {
        let arena = look.any_arena(rng, |arena| look.spent(arena))?;
        set(look.arena(arena, rng.between(4, 5)), some(rng))
    }),
    ("the mark rises", 6, |rng, look| {
        let arena = look.any_arena(rng, |arena| look.open(arena) && look.mark(arena) < look.pools)?;
        set(look.arena(arena, 1), rng.between(look.mark(arena) + 1, look.pools))
    }),
    ("the mark falls to a freed pool", 6, |rng, look| {
        let last = |arena: usize| arena * look.pools + look.mark(arena) - 1;
        let falls = |arena: usize| look.open(arena) && look.mark(arena) > 1 && look.freed(last(arena));
        let arena = look.any_arena(rng, falls)?;
        set(look.arena(arena, 1), look.mark(arena) - 1)
    }),
    ("a pool in use of a class with more blocks", 6, |rng, look| {
        let pool = look.any_pool(rng, |pool| look.listed(pool) && look.class(pool) > 0)?;
        set(look.pool(pool, 4), rng.below(look.class(pool)))
    }),
    ("a full pool loses a bit", 6, |rng, look| {
        let pool = look.any_pool(rng, |pool| look.full(pool))?;
        turn(look, pool, rng.below(look.blocks(pool)))
    }),
    ("the last spare block gets its bit", 6, |rng, look| {
        let pool = look.any_pool(rng, |pool| look.in_use(pool) && look.live(pool) + 1 == look.blocks(pool))?;
        turn(look, pool, look.any_block(rng, pool, |k| !look.bit(pool, k))?)
    }),
];

/// Rule 7, and in rule 8 what goes before the chain.
const COUNTS_AND_CLASSES: &[Spoil] = &[
    ("count below the set bits", 7, |rng, look| {
        let pool = look.any_pool(rng, |pool| look.live(pool) > 0)?;
        set(look.pool(pool, 0), rng.pick(&[0, look.live(pool) - 1]))
    }),
    ("count above the set bits", 7, |rng, look| {
        let pool = rng.below(look.arenas * look.pools);
        set(look.pool(pool, 0), above(rng, look.live(pool)))
    }),
    ("a bit less", 7, |rng, look| {
        let pool = look.any_pool(rng, |pool| look.listed(pool) && look.live(pool) > 1)?;
        turn(look, pool, look.any_block(rng, pool, |k| look.bit(pool, k))?)
    }),
    ("a bit more", 7, |rng, look| {
        let pool = look.any_pool(rng, |pool| look.in_use(pool) && look.live(pool) + 1 < look.blocks(pool))?;
        turn(look, pool, look.any_block(rng, pool, |k| !look.bit(pool, k))?)
    }),
    ("a freed pool of a class without blocks", 8, |rng, look| {
        let pool = look.any_pool(rng, |pool| look.freed(pool))?;
        let last = look.last_class();
        set(look.pool(pool, 4), rng.pick(&[last + 1, last + 2, 64, 65_534, 65_536, (1 << 16) + 65_535]))
    }),
    ("a freed pool with blocks becomes one of 65,535", 8, |rng, look| {
        let pool = look.any_pool(rng, |pool| look.freed(pool) && look.has_class(pool))?;
        set(look.pool(pool, 4), 65_535)
    }),
    ("a freed pool of 65,535 gets a class", 8, |rng, look| {
        let pool = look.any_pool(rng, |pool| look.freed(pool) && !look.has_class(pool))?;
        set(look.pool(pool, 4), rng.below(look.last_class() + 1))
    }),
    ("a freed pool of 65,535 has another word", 8, |rng, look| {
        let pool = look.any_pool(rng, |pool| look.freed(pool) && !look.has_class(pool))?;
        set(look.pool(pool, rng.pick(&[1, 5, 6])), some(rng))
    }),
    ("a freed pool of another class", 8, |rng, look| {
        let pool = look.any_pool(rng, |pool| look.freed(pool) && look.has_class(pool))?;
        let other = pick(rng, (0..=look.last_class()).filter(|class| *class != look.class(pool)))?;
        set(look.pool(pool, 4), other)
    }),
    ("maxnextoffset", 8, |rng, look| {
        let pool = look.any_with_blocks(rng)?;
        let (right, last) = (4096 - look.size(pool), look.start(pool, look.blocks(pool) - 1));
        let others = [0, last, last, right - 1, right + 1, right + 8, 4096, right + (1 << 16)];
        set(look.pool(pool, 6), pick(rng, others.into_iter().filter(|other| *other != right))?)
    }),
    ("nextoffset no block start and not the last block's end", 8, |rng, look| {
        let pool = look.any_with_blocks(rng)?;
        let (size, end) = (look.size(pool), look.start(pool, look.blocks(pool)));
        let by = rng.pick(&[1, size / 2, size - 1]);
        let (before, after) = (look.nextoffset(pool) - by, look.nextoffset(pool) + by);
        set(look.pool(pool, 5), rng.pick(&[0, 47, before, before, after, end + size, end + 4096, u32::MAX as usize]))
    }),
    ("nextoffset another block start or the last block's end", 8, |rng, look| {
        let pool = look.any_with_blocks(rng)?;
        let starts = (0..=look.blocks(pool)).map(|k| look.start(pool, k));
        set(look.pool(pool, 5), pick(rng, starts.filter(|start| *start != look.nextoffset(pool)))?)
    }),
];

/// Rule 8, the blocks.
const BLOCKS: &[Spoil] = &[
    ("freeblock no block start", 8, |rng, look| {
        let pool = look.any_with_blocks(rng)?;
        set(look.pool(pool, 1), no_start(rng, look, pool))
    }),
    ("a link that leads to no block start", 8, |rng, look| {
        let (pool, chain) = chained(rng, look)?;
        Some(vec![Step::Link(4096 * pool + rng.pick(&chain), no_start(rng, look, pool) as u32)])
    }),
    ("freeblock another block start, or none", 8, |rng, look| {
        let pool = look.any_with_blocks(rng)?;
        let starts = (0..look.blocks(pool)).map(|k| look.start(pool, k)).chain([0]);
        set(look.pool(pool, 1), pick(rng, starts.filter(|start| *start != look.of_pool(pool, 1)))?)
    }),
    ("a link to another block start, or to none", 8, |rng, look| {
        let (pool, chain) = chained(rng, look)?;
        let place = rng.pick(&chain);
        let starts = (0..look.blocks(pool)).map(|k| look.start(pool, k)).chain([0]);
        let link = pick(rng, starts.filter(|start| *start != look.link(pool, place)))?;
        Some(vec![Step::Link(4096 * pool + place, link as u32)])
    }),
    ("a chain that leads back to itself", 8, |rng, look| {
        let (pool, chain) = chained(rng, look)?;
        let (last, link) = (*chain.last()?, rng.pick(&chain));
        Some(vec![Step::Link(4096 * pool + last, link as u32)])
    }),
    ("a freed block is live too", 8, |rng, look| {
        let pool = look.any_pool(rng, |pool| look.in_use(pool) && look.live(pool) + 1 < look.blocks(pool))?;
        let place = pick(rng, look.chain(pool).into_iter())?;
        counted(look, pool, look.number(pool, place), look.live(pool) + 1)
    }),
    ("a virgin block is live too", 8, |rng, look| {
        let pool = look.any_pool(rng, |pool| look.in_use(pool) && look.live(pool) + 1 < look.blocks(pool))?;
        let k = look.any_block(rng, pool, |k| look.virgin(pool, k))?;
        counted(look, pool, k, look.live(pool) + 1)
    }),
    ("a block is neither live, freed nor virgin", 8, |rng, look| {
        let pool = look.any_pool(rng, |pool| look.listed(pool) && look.live(pool) > 1)?;
        let k = look.any_block(rng, pool, |k| look.bit(pool, k))?;
        counted(look, pool, k, look.live(pool) - 1)
    }),
    ("a virgin block is freed too", 8, |rng, look| {
        let pool = look.any_with_blocks(rng)?;
        let mut chain = look.chain(pool);
        let k = look.any_block(rng, pool, |k| look.virgin(pool, k))?;
        chain.insert(rng.below(chain.len() + 1), look.start(pool, k));
        Some(rechain(look, pool, &chain))
    }),
    ("a block is left out of the chain", 8, |rng, look| {
        let (pool, mut chain) = chained(rng, look)?;
        chain.remove(rng.below(chain.len()));
        Some(rechain(look, pool, &chain))
    }),
    ("a freed pool with one on its chain, or none", 8, |rng, look| {
        let pool = look.any_pool(rng, |pool| look.freed(pool) && look.has_class(pool))?;
        let chain = if rng.one_in(2) { vec![48] } else { Vec::new() };
        let nextoffset = look.start(pool, chain.len()) as u32;
        Some([rechain(look, pool, &chain), vec![Step::Word(look.pool(pool, 5), nextoffset)]].concat())
    }),
    ("a pool that is not full with none on its chain", 8, |rng, look| {
        let pool = look.any_pool(rng, |pool| look.listed(pool))?;
        let live: Vec<usize> = (0..look.live(pool)).collect();
        let nextoffset = look.start(pool, live.len()) as u32;
        let words = [Step::Word(look.pool(pool, 1), 0), Step::Word(look.pool(pool, 5), nextoffset)];
        Some([bits(pool, &live), words.to_vec()].concat())
    }),
];

/// A pool with a freed chain, and the places on it.
fn chained(rng: &mut Rng, look: &Look) -> Option<(usize, Vec<usize>)> {
    let pool = look.any_pool(rng, |pool| look.carved(pool) && look.has_class(pool) && !look.full(pool))?;
    Some((pool, look.chain(pool)))
}

/// A bit turned, and the count that goes with it.
fn counted(look: &Look, pool: usize, k: usize, count: usize) -> Option<Vec<Step>> {
    let mut steps = turn(look, pool, k)?;
    steps.push(Step::Word(look.pool(pool, 0), count as u32));
    Some(steps)
}

/// In the first 48 bytes, inside a block, where a block would run past the pool, or past it.
fn no_start(rng: &mut Rng, look: &Look, pool: usize) -> usize {
    let inside = look.start(pool, rng.below(look.blocks(pool))) + rng.pick(&[1, 4, look.size(pool) - 1]);
    let end = look.start(pool, look.blocks(pool));
    rng.pick(&[4, 40, 47, inside, inside, end, 4096, 4096 + 48, u32::MAX as usize])
}
