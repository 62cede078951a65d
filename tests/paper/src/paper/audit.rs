//! W-201's audit as a program: its rules in 02's order and its words, each of them over the whole heap. A list is read
//! into a row, and the row compared with the members that it should have. Nothing is written, on any contents.

use super::{link_to, Clause, Heap, List};
use super::{ARENAS, ARENA_NEXT, CARVE_MARK, CLASSES, EDITION, FREED_HEAD, FREE_POOLS, OPEN, RECORD, UNUSED, USABLE};
use super::{CLASS, COUNT, FREEBLOCK, MAXNEXTOFFSET, NEXTOFFSET, POOL_NEXT, POOL_PREVIOUS};
use super::{HEADER, NO_CLASS, POOL};

/// How many bits of the map a pool has.
const BITS: usize = 512;

/// Whether a rule is kept; if not, the clause at which that was seen first.
type Kept = Result<(), Clause>;

fn keeps(holds: bool, clause: Clause) -> Kept {
    if holds {
        Ok(())
    } else {
        Err(clause)
    }
}

/// What can be wrong with a list: a link that leads to no record, a walk without an end, a member that is missing, one
/// that is no member, and what its members have as previous.
type OfList = [Clause; 5];

const OF_FREED: OfList =
    [Clause::FreedNoRecord, Clause::FreedNoEnd, Clause::FreedMissing, Clause::FreedStranger, Clause::FreedPrevious];
const OF_USABLE: OfList = [
    Clause::UsableNoRecord,
    Clause::UsableNoEnd,
    Clause::UsableMissing,
    Clause::UsableStranger,
    Clause::UsablePrevious,
];
const OF_UNUSED: OfList = [
    Clause::UnusedNoRecord,
    Clause::UnusedNoEnd,
    Clause::UnusedMissing,
    Clause::UnusedStranger,
    Clause::UnusedPrevious,
];
const OF_CLASS: OfList =
    [Clause::ClassNoRecord, Clause::ClassNoEnd, Clause::ClassMissing, Clause::ClassStranger, Clause::ClassPrevious];

/// Each list holding just its members, once: a row that has an end has none twice, since next leads on in one way.
fn just_its_members(row: &[usize], members: &[usize], of: OfList) -> Kept {
    keeps(members.iter().all(|member| row.contains(member)), of[2])?;
    keeps(row.iter().all(|member| members.contains(member)), of[3])
}

/// What 02 says before the rules.
impl Heap<'_> {
    /// How many set bits a pool has, any of its 512.
    fn set_bits(&self, pool: usize) -> usize {
        (0..8).map(|word| self.lent.map[8 * pool + word].count_ones() as usize).sum()
    }

    /// A carved pool in use has a set bit.
    fn in_use(&self, pool: usize) -> bool {
        self.carved(pool) && self.set_bits(pool) > 0
    }

    /// A carved pool that is not in use is a freed one.
    fn freed(&self, pool: usize) -> bool {
        self.carved(pool) && self.set_bits(pool) == 0
    }

    /// How many blocks a pool has; a class above 63 (31) has none.
    fn blocks(&self, pool: usize) -> usize {
        let class = self.read(self.pool(pool, CLASS));
        if class > self.edition.last_class() {
            return 0;
        }
        (POOL - HEADER) / self.edition.block_size(class)
    }

    /// A full pool has no spare block. The bits tell, and not the count.
    fn full(&self, pool: usize) -> bool {
        self.in_use(pool) && self.set_bits(pool) == self.blocks(pool)
    }

    fn open(&self, arena: usize) -> bool {
        self.read(self.arena(arena, OPEN)) == 1
    }

    fn pools_of(&self, arena: usize) -> std::ops::Range<usize> {
        arena * self.pools..(arena + 1) * self.pools
    }

    /// The arenas, or pools, of which this is true, by rising number.
    fn arenas_that(&self, are: impl Fn(usize) -> bool) -> Vec<usize> {
        (0..self.arenas).filter(|arena| are(*arena)).collect()
    }

    fn pools_that(&self, are: impl Fn(usize) -> bool) -> Vec<usize> {
        (0..self.all_pools()).filter(|pool| are(*pool)).collect()
    }
}

/// The rules. Rule 1, that there is no 1 or 2, is kept by any heap that comes here.
impl Heap<'_> {
    /// Yes is 0, otherwise the first broken rule: the lowest number over the whole heap.
    pub(super) fn audit(&mut self) -> u32 {
        let rules: [fn(&Self) -> Kept; 8] = [
            Self::rule_2,
            Self::rule_3,
            Self::rule_4,
            Self::rule_5,
            Self::rule_6,
            Self::rule_7,
            Self::rule_8,
            Self::rule_9,
        ];
        for (number, rule) in (2..).zip(rules) {
            if let Err(clause) = rule(self) {
                self.trail.clause = Some(clause);
                return number;
            }
        }
        0
    }

    /// (2) Open 0 or 1, words 68 to 71, an arena record's last two and a pool record's last being 0. Word 68 says the
    /// edition (W-211), which the audit allows and rule 1 has tested.
    fn rule_2(&self) -> Kept {
        for arena in 0..self.arenas {
            keeps(self.read(self.arena(arena, OPEN)) <= 1, Clause::OpenAbove)?;
            keeps(self.read(self.arena(arena, 6)) == 0, Clause::ArenaWord6)?;
            keeps(self.read(self.arena(arena, 7)) == 0, Clause::ArenaWord7)?;
        }
        for word in EDITION + 1..ARENAS {
            keeps(self.read(word) == 0, Clause::SpareWord)?;
        }
        for pool in 0..self.all_pools() {
            keeps(self.read(self.pool(pool, 7)) == 0, Clause::PoolWord7)?;
        }
        Ok(())
    }

    /// (3) Each closed arena's record 0 but for its links.
    fn rule_3(&self) -> Kept {
        for arena in self.arenas_that(|arena| !self.open(arena)) {
            keeps(self.read(self.arena(arena, CARVE_MARK)) == 0, Clause::ClosedMark)?;
            keeps(self.read(self.arena(arena, FREE_POOLS)) == 0, Clause::ClosedFree)?;
            keeps(self.read(self.arena(arena, FREED_HEAD)) == 0, Clause::ClosedHead)?;
        }
        Ok(())
    }

    /// (4) Each open arena's carve mark 1 to P and its free pools equal to its pools not in use.
    fn rule_4(&self) -> Kept {
        for arena in self.arenas_that(|arena| self.open(arena)) {
            let mark = self.read(self.arena(arena, CARVE_MARK));
            keeps(mark >= 1, Clause::MarkNone)?;
            keeps(mark <= self.pools, Clause::MarkAbove)?;
            let free = self.read(self.arena(arena, FREE_POOLS));
            let not_in_use = self.pools_of(arena).filter(|pool| !self.in_use(*pool)).count();
            keeps(free >= not_in_use, Clause::FewFree)?;
            keeps(free <= not_in_use, Clause::ManyFree)?;
        }
        Ok(())
    }

    /// (5) No set bit in a pool not carved or at no block of its class.
    fn rule_5(&self) -> Kept {
        for pool in self.pools_that(|pool| self.set_bits(pool) > 0) {
            keeps(self.carved(pool), Clause::BitNotCarved)?;
            let blocks = self.blocks(pool);
            keeps(blocks > 0, Clause::BitNoClass)?;
            keeps((blocks..BITS).all(|k| !self.bit(pool, k)), Clause::BitNoBlock)?;
        }
        Ok(())
    }

    /// (6) Each list holding just its members, once, doubly linked ones matching both ways: freed-pool lists the own
    /// arena's carved pools not in use, with previous 0; the usable list the open arenas with free pools; the unused
    /// list the closed arenas; each class list its pools with live and spare blocks, full pools and open arenas without
    /// free pools having both links 0. In sixteen heads 36 to 67 are of lists without members.
    fn rule_6(&self) -> Kept {
        for arena in 0..self.arenas {
            self.freed_list(arena)?;
        }
        let spent = |arena: usize| self.read(self.arena(arena, FREE_POOLS)) == 0;
        let usable = self.arenas_that(|arena| self.open(arena) && !spent(arena));
        self.linked_both_ways(self.arena_list(USABLE), &usable, OF_USABLE)?;
        let unused = self.arenas_that(|arena| !self.open(arena));
        self.linked_both_ways(self.arena_list(UNUSED), &unused, OF_UNUSED)?;

        let listed = self.pools_that(|pool| self.in_use(pool) && !self.full(pool));
        for class in 0..EDITION - CLASSES {
            let mut members = listed.clone();
            members.retain(|pool| self.read(self.pool(*pool, CLASS)) == class);
            self.linked_both_ways(self.class_list(class), &members, OF_CLASS)?;
        }
        for pool in self.pools_that(|pool| self.full(pool)) {
            keeps(self.read(self.pool(pool, POOL_NEXT)) == 0, Clause::FullNext)?;
            keeps(self.read(self.pool(pool, POOL_PREVIOUS)) == 0, Clause::FullPrevious)?;
        }
        for arena in self.arenas_that(|arena| self.open(arena) && spent(arena)) {
            keeps(self.read(self.arena(arena, ARENA_NEXT)) == 0, Clause::SpentNext)?;
            keeps(self.read(self.arena(arena, ARENA_NEXT + 1)) == 0, Clause::SpentPrevious)?;
        }
        Ok(())
    }

    /// (7) Each pool's count equal to its set bits.
    fn rule_7(&self) -> Kept {
        for pool in 0..self.all_pools() {
            let count = self.read(self.pool(pool, COUNT));
            keeps(count >= self.set_bits(pool), Clause::CountBelow)?;
            keeps(count <= self.set_bits(pool), Clause::CountAbove)?;
        }
        Ok(())
    }

    /// (8) Each freed pool of class at most 63 (31), or 65,535 with all else but next 0; and the blocks of each other
    /// carved pool.
    fn rule_8(&self) -> Kept {
        for pool in self.pools_that(|pool| self.carved(pool)) {
            let class = self.read(self.pool(pool, CLASS));
            if self.freed(pool) && class == NO_CLASS {
                let mut others = (0..RECORD).filter(|word| ![POOL_NEXT, CLASS].contains(word));
                keeps(others.all(|word| self.read(self.pool(pool, word)) == 0), Clause::NoClassRecord)?;
            } else {
                keeps(class <= self.edition.last_class(), Clause::FreedClass)?;
                self.blocks_of(pool, class)?;
            }
        }
        Ok(())
    }

    /// (9) W-203's order: the usable list rises by free pools, and so never falls.
    fn rule_9(&self) -> Kept {
        let list = self.arena_list(USABLE);
        let row = self.row(list.head, |arena| list.next(arena), list.most, OF_USABLE)?;
        let free = |arena: usize| self.read(self.arena(arena, FREE_POOLS));
        keeps(row.windows(2).all(|two| free(two[0]) <= free(two[1])), Clause::Order)
    }
}

// Lists

impl Heap<'_> {
    /// A list as a row, from its head by next. A walk that is longer than the records is broken.
    fn row(&self, head: usize, next: impl Fn(usize) -> usize, most: usize, of: OfList) -> Result<Vec<usize>, Clause> {
        let mut row = Vec::new();
        let mut link = self.read(head);
        while link != 0 {
            keeps((1..=most).contains(&link), of[0])?;
            keeps(row.len() < most, of[1])?;
            row.push(link - 1);
            link = self.read(next(link - 1));
        }
        Ok(row)
    }

    /// A doubly linked list matches both ways: each member's previous is the one before it, none for the first.
    fn linked_both_ways(&self, list: List, members: &[usize], of: OfList) -> Kept {
        let row = self.row(list.head, |member| list.next(member), list.most, of)?;
        just_its_members(&row, members, of)?;
        let mut before = None;
        for member in row {
            keeps(self.read(list.previous(member)) == link_to(before), of[4])?;
            before = Some(member);
        }
        Ok(())
    }

    /// An arena's freed-pool list is linked by next alone.
    fn freed_list(&self, arena: usize) -> Kept {
        let head = self.arena(arena, FREED_HEAD);
        let row = self.row(head, |pool| self.pool(pool, POOL_NEXT), self.all_pools(), OF_FREED)?;
        let members: Vec<usize> = self.pools_of(arena).filter(|pool| self.freed(*pool)).collect();
        just_its_members(&row, &members, OF_FREED)?;
        keeps(row.iter().all(|pool| self.read(self.pool(*pool, POOL_PREVIOUS)) == 0), OF_FREED[4])
    }
}

// Blocks

impl Heap<'_> {
    /// Maxnextoffset right, nextoffset a block start or the last block's end, each block in exactly one of live, freed
    /// chain and virgin, once, with two at least on the chain if the pool is freed, one unless it is full.
    fn blocks_of(&self, pool: usize, class: usize) -> Kept {
        let (size, blocks) = (self.edition.block_size(class), self.blocks(pool));
        keeps(self.read(self.pool(pool, MAXNEXTOFFSET)) == POOL - size, Clause::Maximum)?;
        let nextoffset = self.read(self.pool(pool, NEXTOFFSET));
        let end = HEADER + blocks * size;
        keeps(nextoffset == end || self.edition.block_at(class, nextoffset).is_some(), Clause::Nextoffset)?;

        let chain = self.chain(pool, class)?;
        let mut on_chain = vec![false; blocks];
        chain.iter().for_each(|k| on_chain[*k] = true);
        for (k, freed) in on_chain.into_iter().enumerate() {
            let (live, virgin) = (self.bit(pool, k), HEADER + k * size >= nextoffset);
            keeps(live || freed || virgin, Clause::InNone)?;
            keeps(!(live && freed), Clause::LiveAndFreed)?;
            keeps(!(live && virgin), Clause::LiveAndVirgin)?;
            keeps(!(freed && virgin), Clause::FreedAndVirgin)?;
        }
        keeps(chain.len() >= 2 || !self.freed(pool), Clause::FreedShort)?;
        keeps(!chain.is_empty() || self.full(pool), Clause::ChainNone)
    }

    /// The freed chain from freeblock by the links in memory, as block numbers. Each place on it is a block's start,
    /// because it is a chain of blocks; one that is longer than all blocks has no end, and one with an end has each
    /// block once.
    fn chain(&self, pool: usize, class: usize) -> Result<Vec<usize>, Clause> {
        let mut chain = Vec::new();
        let mut start = self.read(self.pool(pool, FREEBLOCK));
        while start != 0 {
            let k = self.edition.block_at(class, start).ok_or(Clause::ChainNoStart)?;
            keeps(chain.len() < self.blocks(pool), Clause::ChainNoEnd)?;
            chain.push(k);
            start = self.link_in(pool, start);
        }
        Ok(chain)
    }
}
