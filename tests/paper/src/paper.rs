//! 01 as a program: its calls over lent buffers, in its order and its words, on any lengths and any contents. The split
//! of 5 that W-206 of 02 makes stands at the live test, the two editions of W-211 where 01 says classes and blocks, the
//! call of W-214 beside view, the order of the usable arenas of W-203 where a give-back frees a pool, and the audit of
//! W-201, the whole statement of W-204 and the two heaps of W-212 each in a file of its own.
//!
//! A step writes as it goes, in the order that 01 gives, and notes what stood there before. Where a used word breaks
//! its rule, the notes are walked back and the answer is 6. So 01 can be laid beside this file sentence by sentence.

use super::{Answer, Calls, Clause, Lent, LentPhrase, LentToRead, Path, Place, Request, Rule, Trail};

mod audit;
mod batch;
mod beside;

// Memory, books, map

const POOL: usize = 4096;
/// The first bytes of a pool, which are never written.
const HEADER: usize = 48;

/// Words of the books.
const USABLE: usize = 2;
const UNUSED: usize = 3;
const CLASSES: usize = 4;
/// The spare word that says the edition (W-211).
const EDITION: usize = 68;
const ARENAS: usize = 72;
const RECORD: usize = 8;

/// Words of an arena's record; `previous` follows `next` in both records.
const OPEN: usize = 0;
const CARVE_MARK: usize = 1;
const FREE_POOLS: usize = 2;
const FREED_HEAD: usize = 3;
const ARENA_NEXT: usize = 4;

/// Words of a pool's record.
const COUNT: usize = 0;
const FREEBLOCK: usize = 1;
const POOL_NEXT: usize = 2;
const POOL_PREVIOUS: usize = 3;
const CLASS: usize = 4;
const NEXTOFFSET: usize = 5;
const MAXNEXTOFFSET: usize = 6;

/// The class of a pool that has none.
const NO_CLASS: usize = 65_535;

/// A refusal, or the half-done resize.
type Refused<T> = Result<T, Answer>;

fn refuse<T>(number: u32) -> Refused<T> {
    Err(Answer { number, value: 0 })
}

/// A or P out of range is 1.
fn in_range(arenas: usize, pools: usize) -> Refused<()> {
    if (1..=16).contains(&arenas) && (2..=64).contains(&pools) {
        Ok(())
    } else {
        refuse(1)
    }
}

/// A lent length that is not exact is 2. The lengths are the same in both editions.
fn exact(lent: LentToRead, arenas: usize, pools: usize) -> Refused<()> {
    let all = arenas * pools;
    let memory = lent.memory.len() == all * POOL;
    let books = lent.books.len() == ARENAS + RECORD * arenas + RECORD * all;
    let map = lent.map.len() == 8 * all;
    if memory && books && map {
        Ok(())
    } else {
        refuse(2)
    }
}

/// A link to n is stored as n + 1; 0 is none.
fn link_to(member: Option<usize>) -> usize {
    member.map_or(0, |n| n + 1)
}

/// A heap whose A, P, edition and lengths are right. Nothing else about it is known.
struct Heap<'a> {
    lent: Lent<'a>,
    arenas: usize,
    pools: usize,
    edition: Edition,
    notes: &'a mut Vec<Was>,
    trail: &'a mut Trail,
}

/// What stood at a place before a step wrote there.
enum Was {
    Memory(usize, u8),
    Books(usize, u32),
    Map(usize, u64),
}

impl Heap<'_> {
    fn all_pools(&self) -> usize {
        self.arenas * self.pools
    }

    fn arena(&self, n: usize, word: usize) -> usize {
        ARENAS + RECORD * n + word
    }

    fn pool(&self, n: usize, word: usize) -> usize {
        ARENAS + RECORD * self.arenas + RECORD * n + word
    }

    fn read(&self, word: usize) -> usize {
        self.lent.books[word] as usize
    }

    fn put(&mut self, word: usize, value: usize) {
        self.notes.push(Was::Books(word, self.lent.books[word]));
        self.lent.books[word] = value as u32;
    }

    /// Whether block k of a pool has its bit set.
    fn bit(&self, pool: usize, k: usize) -> bool {
        self.lent.map[8 * pool + k / 64] >> (k % 64) & 1 == 1
    }

    fn put_bit(&mut self, pool: usize, k: usize, live: bool) {
        let word = 8 * pool + k / 64;
        let bit = 1 << (k % 64);
        self.notes.push(Was::Map(word, self.lent.map[word]));
        if live {
            self.lent.map[word] |= bit;
        } else {
            self.lent.map[word] &= !bit;
        }
    }
}

// Classes and blocks

/// Which edition a heap is of (W-211): 01's own, aligned to eight, or the one that is aligned to sixteen.
#[derive(Clone, Copy, PartialEq, Eq)]
enum Edition {
    Eight,
    Sixteen,
}

impl Edition {
    /// 0 for eight, 1 for sixteen, another value is 1.
    fn said_by(value: usize) -> Refused<Edition> {
        match value {
            0 => Ok(Edition::Eight),
            1 => Ok(Edition::Sixteen),
            _ => refuse(1),
        }
    }

    fn alignment(self) -> usize {
        match self {
            Edition::Eight => 8,
            Edition::Sixteen => 16,
        }
    }

    /// Wherever 01 or a request says 63 it reads 31 in sixteen.
    fn last_class(self) -> usize {
        match self {
            Edition::Eight => 63,
            Edition::Sixteen => 31,
        }
    }

    fn class_of(self, size: usize) -> usize {
        (size - 1) / self.alignment()
    }

    fn block_size(self, class: usize) -> usize {
        self.alignment() * (class + 1)
    }

    /// Which block of its pool starts at this in-pool offset, if one does. The first is at 48 in both editions.
    fn block_at(self, class: usize, start: usize) -> Option<usize> {
        let size = self.block_size(class);
        let k = start.checked_sub(HEADER)? / size;
        (start == HEADER + k * size && start <= POOL - size).then_some(k)
    }
}

/// A live block: its pool, the pool's class, which block of the pool it is, and its size.
struct Block {
    pool: usize,
    class: usize,
    k: usize,
    size: usize,
}

impl Heap<'_> {
    /// A freed block's link: its first four bytes, low byte first.
    fn link_in(&self, pool: usize, start: usize) -> usize {
        let at = pool * POOL + start;
        let bytes = &self.lent.memory[at..at + 4];
        u32::from_le_bytes([bytes[0], bytes[1], bytes[2], bytes[3]]) as usize
    }

    fn write_link(&mut self, pool: usize, start: usize, link: usize) {
        let at = pool * POOL + start;
        for (i, byte) in (link as u32).to_le_bytes().into_iter().enumerate() {
            self.notes.push(Was::Memory(at + i, self.lent.memory[at + i]));
            self.lent.memory[at + i] = byte;
        }
    }

    /// An offset is live if it lies in memory, its pool's class is at most 63 (31), it is a block start of that class
    /// and its map bit is set. Otherwise (W-206) it is 10 where it is a block start, below nextoffset, of a carved pool
    /// of class at most 63 (31), but not live; 5 otherwise.
    fn live(&self, offset: usize) -> Refused<Block> {
        if offset >= self.lent.memory.len() {
            return refuse(5);
        }
        let (pool, start) = (offset / POOL, offset % POOL);
        let class = self.read(self.pool(pool, CLASS));
        if class > self.edition.last_class() {
            return refuse(5);
        }
        let size = self.edition.block_size(class);
        match self.edition.block_at(class, start) {
            Some(k) if self.bit(pool, k) => Ok(Block { pool, class, k, size }),
            Some(_) if start < self.read(self.pool(pool, NEXTOFFSET)) && self.carved(pool) => refuse(10),
            _ => refuse(5),
        }
    }

    /// A carved pool lies below an open (1) arena's mark, by its number in its arena and whatever the mark is.
    fn carved(&self, pool: usize) -> bool {
        let (arena, number) = (pool / self.pools, pool % self.pools);
        self.read(self.arena(arena, OPEN)) == 1 && number < self.read(self.arena(arena, CARVE_MARK))
    }

    /// Every live block with its offset, by rising offset.
    fn live_blocks(&self) -> Vec<(usize, Block)> {
        let mut blocks = Vec::new();
        for pool in 0..self.all_pools() {
            let class = self.read(self.pool(pool, CLASS));
            if class > self.edition.last_class() {
                continue;
            }
            let size = self.edition.block_size(class);
            for k in (0..(POOL - HEADER) / size).filter(|&k| self.bit(pool, k)) {
                blocks.push((pool * POOL + HEADER + k * size, Block { pool, class, k, size }));
            }
        }
        blocks
    }
}

// The steps

/// A list that is linked both ways: the word of its head, the word of member 0's next, and how many could be members.
#[derive(Clone, Copy)]
struct List {
    head: usize,
    first_next: usize,
    most: usize,
}

impl List {
    fn next(&self, member: usize) -> usize {
        self.first_next + RECORD * member
    }

    fn previous(&self, member: usize) -> usize {
        self.next(member) + 1
    }
}

impl Heap<'_> {
    /// A step stands as a whole or, where it refuses, not at all.
    fn step(&mut self, step: impl FnOnce(&mut Self) -> Refused<usize>) -> Refused<usize> {
        let walked = self.trail.paths.len();
        self.notes.clear();
        let outcome = step(self);
        if outcome.is_err() {
            self.trail.paths.truncate(walked);
            while let Some(was) = self.notes.pop() {
                match was {
                    Was::Memory(at, byte) => self.lent.memory[at] = byte,
                    Was::Books(at, word) => self.lent.books[at] = word,
                    Was::Map(at, word) => self.lent.map[at] = word,
                }
            }
        }
        outcome
    }

    /// Notes a path for those who count them; no step depends on it.
    fn walk(&mut self, path: Path) {
        self.trail.paths.push(path);
    }

    /// A used word that breaks its rule is 6.
    fn rule(&mut self, holds: bool, rule: Rule) -> Refused<()> {
        if holds {
            return Ok(());
        }
        self.trail.broken = Some(rule);
        refuse(6)
    }

    /// The pool or arena that a link names; a link above their number is 6.
    fn follow(&mut self, word: usize, most: usize, rule: Rule) -> Refused<Option<usize>> {
        let link = self.read(word);
        self.rule(link <= most, rule)?;
        Ok(link.checked_sub(1))
    }

    fn class_list(&self, class: usize) -> List {
        List { head: CLASSES + class, first_next: self.pool(0, POOL_NEXT), most: self.all_pools() }
    }

    fn arena_list(&self, head: usize) -> List {
        List { head, first_next: self.arena(0, ARENA_NEXT), most: self.arenas }
    }

    /// To leave a list. The head is written and not read.
    fn leave(&mut self, list: List, member: usize, rules: [Rule; 2]) -> Refused<()> {
        let next = self.follow(list.next(member), list.most, rules[0])?;
        let previous = self.follow(list.previous(member), list.most, rules[1])?;
        match previous {
            Some(before) => {
                self.walk(Path::FromBehind);
                self.put(list.next(before), link_to(next));
            }
            None => self.put(list.head, link_to(next)),
        }
        if let Some(after) = next {
            self.put(list.previous(after), link_to(previous));
        }
        self.put(list.next(member), 0);
        self.put(list.previous(member), 0);
        Ok(())
    }

    /// To join at the front.
    fn join(&mut self, list: List, member: usize, rule: Rule) -> Refused<()> {
        let old = self.follow(list.head, list.most, rule)?;
        self.put(list.next(member), link_to(old));
        self.put(list.previous(member), 0);
        if let Some(old) = old {
            self.put(list.previous(old), link_to(Some(member)));
        }
        self.put(list.head, link_to(Some(member)));
        Ok(())
    }
}

/// **Format** writes all books and map and no memory. It is told the edition and tests it after A and P.
fn format(lent: Lent, arenas: usize, pools: usize, edition: usize) -> Refused<usize> {
    in_range(arenas, pools)?;
    Edition::said_by(edition)?;
    exact(lent.to_read(), arenas, pools)?;
    lent.map.fill(0);
    lent.books.fill(0);
    lent.books[0] = arenas as u32;
    lent.books[1] = pools as u32;
    lent.books[UNUSED] = 1;
    lent.books[EDITION] = edition as u32;
    for arena in 0..arenas {
        let next = ARENAS + RECORD * arena + ARENA_NEXT;
        let following = if arena + 1 < arenas { Some(arena + 1) } else { None };
        lent.books[next] = link_to(following) as u32;
        lent.books[next + 1] = link_to(arena.checked_sub(1)) as u32;
    }
    for pool in 0..arenas * pools {
        lent.books[ARENAS + RECORD * arenas + RECORD * pool + CLASS] = NO_CLASS as u32;
    }
    Ok(0)
}

/// The rules that a block handed out from freeblock can break: it is 0, no start, or live; its link no start, or live.
const FROM_FRONT: [Rule; 5] =
    [Rule::FrontNone, Rule::FrontNoStart, Rule::FrontLive, Rule::FrontLinkNoStart, Rule::FrontLinkLive];
const FROM_FREED: [Rule; 5] =
    [Rule::FreedNone, Rule::FreedNoStart, Rule::FreedLive, Rule::FreedLinkNoStart, Rule::FreedLinkLive];

impl Heap<'_> {
    /// **Ask.**
    fn ask(&mut self, size: usize) -> Refused<usize> {
        let class = self.edition.class_of(size);
        let list = self.class_list(class);
        let (pool, start) = match self.follow(list.head, list.most, Rule::FrontHead)? {
            Some(front) => (front, self.take_from_front(class, front)?),
            None => {
                let pool = self.take_pool()?;
                (pool, self.start_pool(class, pool)?)
            }
        };
        // Last, the map bit is set.
        self.put_bit(pool, (start - HEADER) / self.edition.block_size(class), true);
        Ok(pool * POOL + start)
    }

    /// If the class list has a pool, take the front one.
    fn take_from_front(&mut self, class: usize, pool: usize) -> Refused<usize> {
        let size = self.edition.block_size(class);
        self.rule(self.read(self.pool(pool, CLASS)) == class, Rule::FrontClass)?;
        self.rule(self.read(self.pool(pool, MAXNEXTOFFSET)) == POOL - size, Rule::FrontMaximum)?;

        let count = self.read(self.pool(pool, COUNT));
        self.rule(count <= 505, Rule::FrontCount)?;
        self.put(self.pool(pool, COUNT), count + 1);
        let start = self.hand_out(class, pool, FROM_FRONT)?;

        if self.read(self.pool(pool, FREEBLOCK)) != 0 {
            self.walk(Path::FollowLink);
            return Ok(start);
        }
        let nextoffset = self.read(self.pool(pool, NEXTOFFSET));
        if nextoffset <= self.read(self.pool(pool, MAXNEXTOFFSET)) {
            self.walk(Path::MakeReady);
            self.free_to_be(class, pool, nextoffset, [Rule::ReadyNoStart, Rule::ReadyLive])?;
            self.put(self.pool(pool, FREEBLOCK), nextoffset);
            self.put(self.pool(pool, NEXTOFFSET), nextoffset + size);
            self.write_link(pool, nextoffset, 0);
        } else {
            self.walk(Path::LastBlock);
            self.leave(self.class_list(class), pool, [Rule::FullNext, Rule::FullPrevious])?;
        }
        Ok(start)
    }

    /// The block at freeblock is the answer, freeblock becomes its link.
    fn hand_out(&mut self, class: usize, pool: usize, rules: [Rule; 5]) -> Refused<usize> {
        let start = self.read(self.pool(pool, FREEBLOCK));
        self.rule(start != 0, rules[0])?;
        self.free_to_be(class, pool, start, [rules[1], rules[2]])?;
        let link = self.link_in(pool, start);
        if link != 0 {
            self.free_to_be(class, pool, link, [rules[3], rules[4]])?;
        }
        self.put(self.pool(pool, FREEBLOCK), link);
        Ok(start)
    }

    /// A block to be handed out or to become freeblock is a block start, and its bit, by the wanted class, is clear.
    fn free_to_be(&mut self, class: usize, pool: usize, start: usize, rules: [Rule; 2]) -> Refused<()> {
        match self.edition.block_at(class, start) {
            Some(k) => self.rule(!self.bit(pool, k), rules[1]),
            None => self.rule(false, rules[0]),
        }
    }

    /// If the class list is empty: a pool from the usable front.
    fn take_pool(&mut self) -> Refused<usize> {
        let arena = match self.follow(USABLE, self.arenas, Rule::UsableHead)? {
            Some(front) => front,
            None => self.open_arena()?,
        };
        let freed_head = self.arena(arena, FREED_HEAD);
        let pool = match self.follow(freed_head, self.all_pools(), Rule::FreedHead)? {
            Some(freed) => {
                self.walk(Path::FreedPool);
                let next = self.follow(self.pool(freed, POOL_NEXT), self.all_pools(), Rule::FreedNext)?;
                self.put(freed_head, link_to(next));
                freed
            }
            None => self.carve(arena)?,
        };
        let free = self.read(self.arena(arena, FREE_POOLS));
        self.rule(free != 0, Rule::NoneFree)?;
        self.rule(free <= self.pools, Rule::ManyFree)?;
        self.put(self.arena(arena, FREE_POOLS), free - 1);
        if free == 1 {
            self.walk(Path::SpentArena);
            self.leave(self.arena_list(USABLE), arena, [Rule::SpentNext, Rule::SpentPrevious])?;
        }
        Ok(pool)
    }

    /// Where the usable list is empty, the unused head leaves its list and joins the usable one; if there is none, 4.
    fn open_arena(&mut self) -> Refused<usize> {
        let arena = match self.follow(UNUSED, self.arenas, Rule::UnusedHead)? {
            Some(arena) => arena,
            None => return refuse(4),
        };
        self.walk(Path::OpenArena);
        self.leave(self.arena_list(UNUSED), arena, [Rule::OpenedNext, Rule::OpenedPrevious])?;
        self.join(self.arena_list(USABLE), arena, Rule::UsableHead)?;
        self.put(self.arena(arena, OPEN), 1);
        self.put(self.arena(arena, CARVE_MARK), 0);
        self.put(self.arena(arena, FREED_HEAD), 0);
        self.put(self.arena(arena, FREE_POOLS), self.pools);
        Ok(arena)
    }

    /// Carve the pool at the mark: its class becomes 65,535, the mark rises by 1.
    fn carve(&mut self, arena: usize) -> Refused<usize> {
        self.walk(Path::Carve);
        let mark = self.read(self.arena(arena, CARVE_MARK));
        self.rule(mark < self.pools, Rule::CarveMark)?;
        let pool = arena * self.pools + mark;
        self.put(self.pool(pool, CLASS), NO_CLASS);
        self.put(self.arena(arena, CARVE_MARK), mark + 1);
        Ok(pool)
    }

    /// The pool goes alone on the class list with count 1, and its first block is the answer.
    fn start_pool(&mut self, class: usize, pool: usize) -> Refused<usize> {
        self.put(self.pool(pool, POOL_NEXT), 0);
        self.put(self.pool(pool, POOL_PREVIOUS), 0);
        self.put(CLASSES + class, link_to(Some(pool)));
        self.put(self.pool(pool, COUNT), 1);

        let had = self.read(self.pool(pool, CLASS));
        if had == class {
            let start = self.hand_out(class, pool, FROM_FREED)?;
            let last = self.read(self.pool(pool, FREEBLOCK)) == 0;
            self.walk(if last { Path::SameClassLast } else { Path::SameClass });
            return Ok(start);
        }
        self.walk(if had == NO_CLASS { Path::FreshClass } else { Path::OtherClass });
        self.set_class(class, pool)
    }

    /// Otherwise class is set and the answer is 48.
    fn set_class(&mut self, class: usize, pool: usize) -> Refused<usize> {
        let size = self.edition.block_size(class);
        self.put(self.pool(pool, CLASS), class);
        self.put(self.pool(pool, NEXTOFFSET), HEADER + 2 * size);
        self.put(self.pool(pool, MAXNEXTOFFSET), POOL - size);
        self.rule(!self.bit(pool, 1), Rule::SecondLive)?;
        self.put(self.pool(pool, FREEBLOCK), HEADER + size);
        self.write_link(pool, HEADER + size, 0);
        self.rule(!self.bit(pool, 0), Rule::FirstLive)?;
        Ok(HEADER)
    }

    /// **Give back.**
    fn give_back(&mut self, offset: usize, block: Block) -> Refused<usize> {
        let Block { pool, class, k, .. } = block;
        let start = offset % POOL;
        self.put_bit(pool, k, false);

        let old = self.read(self.pool(pool, FREEBLOCK));
        self.rule(old == 0 || self.edition.block_at(class, old).is_some(), Rule::BackNoStart)?;
        self.write_link(pool, start, old);
        self.put(self.pool(pool, FREEBLOCK), start);

        let count = self.read(self.pool(pool, COUNT));
        self.rule(count != 0, Rule::BackCountNone)?;
        self.rule(count <= 506, Rule::BackCountMany)?;
        self.put(self.pool(pool, COUNT), count - 1);

        if old == 0 {
            self.walk(Path::Joins);
            self.join(self.class_list(class), pool, Rule::BackHead)?;
        } else if count == 1 {
            self.walk(Path::Empties);
            self.leave(self.class_list(class), pool, [Rule::EmptiedNext, Rule::EmptiedPrevious])?;
            self.free_pool(pool)?;
        } else {
            self.walk(Path::Stays);
        }
        Ok(offset)
    }

    /// The pool goes to the front of its arena's freed pools, linked by next alone, and free pools rises by 1.
    fn free_pool(&mut self, pool: usize) -> Refused<()> {
        let arena = pool / self.pools;
        let freed_head = self.arena(arena, FREED_HEAD);
        let old = self.follow(freed_head, self.all_pools(), Rule::BackFreedHead)?;
        self.put(self.pool(pool, POOL_NEXT), link_to(old));
        self.put(self.pool(pool, POOL_PREVIOUS), 0);
        self.put(freed_head, link_to(Some(pool)));

        let free = self.read(self.arena(arena, FREE_POOLS)) + 1;
        self.rule(free <= self.pools, Rule::BackManyFree)?;
        self.put(self.arena(arena, FREE_POOLS), free);

        if free == self.pools {
            self.walk(Path::Released);
            self.release(arena)?;
        } else if free == 1 {
            self.walk(Path::UsableAgain);
            self.join(self.arena_list(USABLE), arena, Rule::UsableAgainHead)?;
        } else {
            self.move_back(arena, free)?;
        }
        Ok(())
    }

    /// After free pools rises and the arena is neither released nor newly usable (W-203), it moves back past following
    /// arenas as long as they have fewer free pools than it now has. A walk longer than A arenas is a 6. Passing none
    /// writes nothing, otherwise it leaves the list and goes in after the last passed.
    fn move_back(&mut self, arena: usize, free: usize) -> Refused<()> {
        let list = self.arena_list(USABLE);
        let mut passed = Vec::new();
        let mut following = self.follow(list.next(arena), list.most, Rule::WalkNext)?;
        while let Some(other) = following.filter(|other| self.read(self.arena(*other, FREE_POOLS)) < free) {
            passed.push(other);
            self.rule(passed.len() <= self.arenas, Rule::LongWalk)?;
            following = self.follow(list.next(other), list.most, Rule::PassedNext)?;
        }
        self.walk_ends(arena, free, following);
        let last = match passed.last() {
            Some(last) => *last,
            None => {
                self.walk(Path::ArenaStays);
                return Ok(());
            }
        };
        self.walk(if passed.len() == 1 { Path::PassesOne } else { Path::PassesMore });
        let front = self.read(list.previous(arena)) == 0;
        self.walk(if front { Path::MovesFromFront } else { Path::MovesFromBehind });
        self.leave(list, arena, [Rule::WalkNext, Rule::MovedPrevious])?;
        self.go_in_after(list, arena, last);
        Ok(())
    }

    /// Notes where the walk of an arena ends, if that is at itself or at one with as many free pools.
    fn walk_ends(&mut self, arena: usize, free: usize, following: Option<usize>) {
        match following {
            Some(other) if other == arena => self.walk(Path::ComesBack),
            Some(other) if self.read(self.arena(other, FREE_POOLS)) == free => self.walk(Path::StopsAtEqual),
            _ => {}
        }
    }

    /// To go in after the last passed, own links first: next is what the last passed's next is then, previous the last
    /// passed; that next arena's previous, if any, and the last passed's next become this one. No link can be above A
    /// here, because the walk or leaving the list has used it.
    fn go_in_after(&mut self, list: List, member: usize, last: usize) {
        let next = self.read(list.next(last)).checked_sub(1);
        self.put(list.next(member), link_to(next));
        self.put(list.previous(member), link_to(Some(last)));
        self.walk(if next.is_none() { Path::GoesInLast } else { Path::GoesInBetween });
        if let Some(after) = next {
            self.put(list.previous(after), link_to(Some(member)));
        }
        self.put(list.next(last), link_to(Some(member)));
    }

    /// The arena leaves the usable list, its record becomes 0 except that it joins the unused list at the front.
    fn release(&mut self, arena: usize) -> Refused<()> {
        self.leave(self.arena_list(USABLE), arena, [Rule::ReleasedNext, Rule::ReleasedPrevious])?;
        for word in 0..RECORD {
            self.put(self.arena(arena, word), 0);
        }
        self.join(self.arena_list(UNUSED), arena, Rule::ReleasedHead)
    }

    /// **Resize** of a live block to n. If the ask is done and the give-back would then meet 5 or 6, or 10 as well, the
    /// answer is 6 with the new offset, and the ask and copy stand.
    fn resize(&mut self, offset: usize, block: Block, n: usize) -> Refused<usize> {
        let s = block.size;
        if n <= s && 4 * n > 3 * s {
            self.walk(Path::Kept);
            return Ok(offset);
        }
        let new = self.step(|heap| heap.ask(n))?;
        self.lent.memory.copy_within(offset..offset + n.min(s), new);

        let given = self.live(offset).and_then(|block| self.step(|heap| heap.give_back(offset, block)));
        match given {
            Ok(_) => self.walk(Path::Moved),
            Err(refusal) => {
                self.walk(match refusal.number {
                    5 => Path::HalfDoneBy5,
                    10 => Path::HalfDoneBy10,
                    _ => Path::HalfDoneBy6,
                });
                return Err(Answer { number: 6, value: new as u32 });
            }
        }
        Ok(new)
    }

    /// **Write** copies a lent text to the start of a block; a text longer than its block is 7.
    fn write(&mut self, offset: usize, block: Block, text: &[u8]) -> Refused<usize> {
        if text.len() > block.size {
            return refuse(7);
        }
        self.lent.memory[offset..offset + text.len()].copy_from_slice(text);
        Ok(offset)
    }

    /// **Roll call.** Fewer than two roll words for each live block is 7.
    fn roll_call(&self, roll: &mut [u32]) -> Refused<usize> {
        let blocks = self.live_blocks();
        if roll.len() < 2 * blocks.len() {
            return refuse(7);
        }
        for (i, (offset, block)) in blocks.iter().enumerate() {
            roll[2 * i] = *offset as u32;
            roll[2 * i + 1] = block.size as u32;
        }
        Ok(blocks.len())
    }
}

// Numbers a call can return

/// 01's calls and 02's batch, stand-in, audit and compare, over whatever is lent.
#[derive(Default)]
pub struct Paper {
    notes: Vec<Was>,
    trail: Trail,
}

/// A, P and the edition, as the books say them.
#[derive(Clone, Copy, PartialEq, Eq)]
struct Shape {
    arenas: usize,
    pools: usize,
    edition: Edition,
}

impl Shape {
    /// The shape of what is lent: books under two words is 2; A or P 1; books that do not reach word 68 2; word 68
    /// above 1 1; lengths 2.
    fn said_by(lent: LentToRead) -> Refused<Shape> {
        if lent.books.len() < 2 {
            return refuse(2);
        }
        let (arenas, pools) = (lent.books[0] as usize, lent.books[1] as usize);
        in_range(arenas, pools)?;
        if lent.books.len() <= EDITION {
            return refuse(2);
        }
        let edition = Edition::said_by(lent.books[EDITION] as usize)?;
        exact(lent, arenas, pools)?;
        Ok(Shape { arenas, pools, edition })
    }
}

impl Paper {
    /// The heap that is lent.
    fn heap<'a>(&'a mut self, lent: Lent<'a>) -> Refused<Heap<'a>> {
        self.trail.clear();
        let Shape { arenas, pools, edition } = Shape::said_by(lent.to_read())?;
        Ok(Heap { lent, arenas, pools, edition, notes: &mut self.notes, trail: &mut self.trail })
    }
}

/// Size 0 or above 512 is 3.
fn asked(size: usize) -> Refused<()> {
    if (1..=512).contains(&size) {
        Ok(())
    } else {
        refuse(3)
    }
}

fn answer(outcome: Refused<usize>) -> Answer {
    match outcome {
        Ok(value) => Answer { number: 0, value: value as u32 },
        Err(refusal) => refusal,
    }
}

/// Each call tests in the order 1, 2, 3, 5 or 10, 7, and then comes the step, which gives 4 or 6.
impl Calls for Paper {
    fn format(&mut self, lent: Lent, arenas: usize, pools: usize, edition: usize) -> Answer {
        self.trail.clear();
        answer(format(lent, arenas, pools, edition))
    }

    fn ask(&mut self, lent: Lent, size: usize) -> Answer {
        answer(self.heap(lent).and_then(|mut heap| {
            asked(size)?;
            heap.step(|heap| heap.ask(size))
        }))
    }

    /// **A whole statement in a single call** (W-204).
    fn ask_all(&mut self, lent: Lent, requests: &mut [Request]) -> Answer {
        answer(batch::ask_all(self, lent, requests))
    }

    fn give_back(&mut self, lent: Lent, offset: usize) -> Answer {
        answer(self.heap(lent).and_then(|mut heap| {
            let block = heap.live(offset)?;
            heap.step(|heap| heap.give_back(offset, block))
        }))
    }

    fn resize(&mut self, lent: Lent, offset: usize, size: usize) -> Answer {
        answer(self.heap(lent).and_then(|mut heap| {
            asked(size)?;
            let block = heap.live(offset)?;
            heap.resize(offset, block, size)
        }))
    }

    /// **View** hands back the whole block; a refusal hands back the empty part.
    fn view(&mut self, lent: Lent, offset: usize) -> (usize, usize) {
        match self.heap(lent).and_then(|heap| heap.live(offset)) {
            Ok(block) => (offset, block.size),
            Err(_) => (0, 0),
        }
    }

    /// View's companion gives its number and, when done, the block size, otherwise 0.
    fn view_size(&mut self, lent: Lent, offset: usize) -> Answer {
        answer(self.heap(lent).and_then(|heap| Ok(heap.live(offset)?.size)))
    }

    /// **A stand-in phrase** (W-214) hands back either the live block's own bytes or the lent phrase itself, and the
    /// phrase exactly when view would refuse. Neither buffer is copied or changed: the answer is a place in one.
    fn stand_in(&mut self, lent: Lent, offset: usize, phrase: LentPhrase) -> Place {
        match self.heap(lent).and_then(|heap| heap.live(offset)) {
            Ok(block) => Place::Memory(offset, block.size),
            Err(_) => phrase.itself(),
        }
    }

    fn write(&mut self, lent: Lent, offset: usize, text: &[u8]) -> Answer {
        answer(self.heap(lent).and_then(|mut heap| {
            let block = heap.live(offset)?;
            heap.write(offset, block, text)
        }))
    }

    fn roll_call(&mut self, lent: Lent, roll: &mut [u32]) -> Answer {
        answer(self.heap(lent).and_then(|heap| heap.roll_call(roll)))
    }

    /// **Audit** (W-201). Rule 1 is that there is no 1 or 2; the audit is never refused.
    fn audit(&mut self, lent: Lent) -> u32 {
        match self.heap(lent) {
            Ok(mut heap) => heap.audit(),
            Err(Answer { number, .. }) => {
                self.trail.clause = Some(if number == 1 { Clause::RangeOrEdition } else { Clause::Lengths });
                1
            }
        }
    }

    /// **Two heaps side by side** (W-212).
    fn compare(&mut self, first: LentToRead, second: LentToRead, list: &mut [u32], changes: &mut [i32]) -> Answer {
        self.trail.clear();
        answer(beside::compare(first, second, list, changes))
    }

    fn trail(&self) -> Option<&Trail> {
        Some(&self.trail)
    }
}
