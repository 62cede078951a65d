// Small changes to src/paper.rs, its audit, its compare and its batch, one at a time: the slips that 01 names, the
// other reading of each place that leaves room, the slips of a tired hand, and those of W-201, W-203, W-204, W-206,
// W-211, W-212 and W-214. The build makes a program of each, and tests/broken.rs shows that it is found.

/// The files of the paper that a slip can be to: src/paper.rs, and audit.rs, beside.rs and batch.rs in src/paper.
#[derive(Clone, Copy, PartialEq, Eq)]
pub enum File {
    Paper,
    Audit,
    Beside,
    Batch,
}

// the build reads the texts, the tests the rest
#[allow(dead_code)]
pub struct Slip {
    pub name: &'static str,
    /// How the name of a case begins that fails on it as well.
    pub case: Option<&'static str>,
    /// The file that it is to.
    pub file: File,
    /// Stands in that file exactly once.
    pub old: &'static str,
    pub new: &'static str,
}

const fn slip(name: &'static str, case: Option<&'static str>, old: &'static str, new: &'static str) -> Slip {
    Slip { name, case, file: File::Paper, old, new }
}

const fn in_audit(name: &'static str, case: Option<&'static str>, old: &'static str, new: &'static str) -> Slip {
    Slip { name, case, file: File::Audit, old, new }
}

const fn in_compare(name: &'static str, case: Option<&'static str>, old: &'static str, new: &'static str) -> Slip {
    Slip { name, case, file: File::Beside, old, new }
}

const fn in_batch(name: &'static str, case: Option<&'static str>, old: &'static str, new: &'static str) -> Slip {
    Slip { name, case, file: File::Batch, old, new }
}

pub const ALL: [&[Slip]; 23] = [
    NAMED,
    READINGS,
    TIRED,
    SPLIT,
    SHAPE,
    EDITIONS,
    BY_EIGHT,
    STAND_IN,
    ORDER,
    GOING_IN,
    AUDIT_1_TO_5,
    AUDIT_6,
    AUDIT_7_TO_9,
    AUDIT_READ,
    COMPARE_LISTS,
    COMPARE_CHANGES,
    COMPARE_TESTS,
    COMPARE_ROOMS,
    COMPARE_LIVE,
    BATCH_REST,
    BATCH_PLACES,
    BATCH_TESTS,
    BATCH_ASKS,
];

/// The slips that 01 names.
const NAMED: &[Slip] = &[
    slip(
        "all blocks of a new pool are linked at once",
        Some("K2"),
        "self.write_link(pool, HEADER + size, 0);",
        "let blocks = (POOL - HEADER) / size;
         for k in 1..blocks {
             self.write_link(pool, HEADER + k * size, if k + 1 < blocks { HEADER + (k + 1) * size } else { 0 });
         }
         self.put(self.pool(pool, NEXTOFFSET), HEADER + blocks * size);",
    ),
    slip("a freed pool that keeps its class is reset", Some("K5"), "if had == class {", "if had == 1 << 20 {"),
    slip(
        "a move is skipped because the class is the same",
        Some("K9"),
        "if n <= s && 4 * n > 3 * s {",
        "if self.edition.class_of(n) == block.class || n <= s && 4 * n > 3 * s {",
    ),
    slip(
        "a start counts although its block runs past the pool",
        Some("R17:"),
        "start <= POOL - size",
        "start <= POOL - 8",
    ),
    slip(
        "the old block is given back before the new one is asked for",
        Some("refused resize"),
        "let new = self.step(|heap| heap.ask(n))?;",
        "self.step(|heap| heap.give_back(offset, block))?;
         let new = self.step(|heap| heap.ask(n))?;",
    ),
];

/// The other reading of each place that leaves room.
const READINGS: &[Slip] = &[
    slip(
        "format on books of under two words is 2",
        Some("R1:"),
        "    in_range(arenas, pools)?;
    Edition::said_by(edition)?;",
        "    if lent.books.len() < 2 { return refuse(2); }
    in_range(arenas, pools)?;
    Edition::said_by(edition)?;",
    ),
    slip(
        "leaving a list reads the head",
        Some("R2:"),
        "None => self.put(list.head, link_to(next)),",
        "None => {
            self.follow(list.head, list.most, rules[0])?;
            self.put(list.head, link_to(next))
        }",
    ),
    slip(
        "joining a list takes a bad head for none",
        Some("R3:"),
        "let old = self.follow(list.head, list.most, rule)?;",
        "let old = self.read(list.head).checked_sub(1).filter(|old| *old < list.most);",
    ),
    slip(
        "the front member's previous is not used",
        Some("R4:"),
        "match previous {",
        "match previous.filter(|_| self.read(list.head) != member + 1) {",
    ),
    slip(
        "opening an arena zeroes words 6 and 7",
        Some("R5:"),
        "self.put(self.arena(arena, OPEN), 1);",
        "self.put(self.arena(arena, OPEN), 1);
         self.put(self.arena(arena, 6), 0);
         self.put(self.arena(arena, 7), 0);",
    ),
    slip("a release leaves words 6 and 7", Some("R5:"), "for word in 0..RECORD {", "for word in 0..6 {"),
    slip(
        "a freeblock whose link is itself is 6",
        Some("R6:"),
        "if link != 0 {",
        "self.rule(link != start, rules[4])?;
         if link != 0 {",
    ),
    slip(
        "a nextoffset equal to the block handed out is 6",
        Some("R6:"),
        "self.walk(Path::MakeReady);",
        "self.rule(nextoffset != start, Rule::ReadyLive)?;",
    ),
    slip("a full pool whose count falls to 0 is freed", Some("R7:"), "if old == 0 {", "if old == 0 && count != 1 {"),
    slip(
        "a give-back tests freeblock's bit",
        Some("R8:"),
        "old == 0 || self.edition.block_at(class, old).is_some()",
        "old == 0 || self.edition.block_at(class, old).map_or(false, |k| !self.bit(pool, k))",
    ),
    slip(
        "the copied bytes are those before the ask",
        Some("R9:"),
        "let new = self.step(|heap| heap.ask(n))?;
        self.lent.memory.copy_within(offset..offset + n.min(s), new);",
        "let text = self.lent.memory[offset..offset + n.min(s)].to_vec();
        let new = self.step(|heap| heap.ask(n))?;
        self.lent.memory[new..new + text.len()].copy_from_slice(&text);",
    ),
    slip(
        "a resize gives back by the class before its ask",
        Some("R10:"),
        "self.live(offset).and_then(|block| self.step(|heap| heap.give_back(offset, block)));",
        "self.step(|heap| heap.give_back(offset, block));",
    ),
    slip(
        "an ask holds count against the blocks of its class",
        Some("R11:"),
        "count <= 505",
        "count < (POOL - HEADER) / size",
    ),
    slip(
        "a give-back holds count against the blocks of its class",
        Some("R11:"),
        "count <= 506",
        "count <= (POOL - HEADER) / self.edition.block_size(class)",
    ),
    slip(
        "a freed pool must lie in its arena",
        Some("R12:"),
        "self.walk(Path::FreedPool);",
        "self.rule(freed / self.pools == arena, Rule::FreedHead)?;",
    ),
    slip(
        "a usable arena must be open",
        Some("R12:"),
        "let freed_head = self.arena(arena, FREED_HEAD);
        let pool",
        "let freed_head = self.arena(arena, FREED_HEAD);
        self.rule(self.read(self.arena(arena, OPEN)) == 1, Rule::UsableHead)?;
        let pool",
    ),
    slip(
        "a freed pool that keeps its class leaves the list when its link is 0",
        Some("R13:"),
        "self.walk(if last { Path::SameClassLast } else { Path::SameClass });",
        "if last { self.put(CLASSES + class, 0); }",
    ),
    slip(
        "a freed pool that keeps its class has its maxnextoffset tested",
        Some("R13:"),
        "if had == class {",
        "if had == class {
             let most = POOL - self.edition.block_size(class);
             self.rule(self.read(self.pool(pool, MAXNEXTOFFSET)) == most, Rule::FrontMaximum)?;",
    ),
    slip(
        "nextoffset is tested where there is a link as well",
        Some("R14:"),
        "self.walk(Path::FollowLink);",
        "let nextoffset = self.read(self.pool(pool, NEXTOFFSET));
         let ready = self.edition.block_at(class, nextoffset);
         self.rule(nextoffset > POOL - size || ready.is_some(), Rule::ReadyNoStart)?;",
    ),
    slip(
        "a nextoffset above maxnextoffset must be where blocks end",
        Some("R14:"),
        "self.walk(Path::LastBlock);",
        "self.rule(nextoffset == HEADER + (POOL - HEADER) / size * size, Rule::ReadyNoStart)?;",
    ),
    slip(
        "a pool set to a class has every bit tested",
        Some("R15:"),
        "self.rule(!self.bit(pool, 1), Rule::SecondLive)?;",
        "self.rule((1..(POOL - HEADER) / size).all(|k| !self.bit(pool, k)), Rule::SecondLive)?;",
    ),
    slip(
        "a resize that keeps its offset tests the count",
        Some("R16:"),
        "self.walk(Path::Kept);",
        "self.rule(self.read(self.pool(block.pool, COUNT)) != 0, Rule::BackCountNone)?;",
    ),
    slip(
        "a class above 63 is 6",
        Some("R17:"),
        "if class > self.edition.last_class() {
            return refuse(5);",
        "if class > self.edition.last_class() {
            return refuse(6);",
    ),
    slip(
        "the roll lists bits past the last block",
        Some("R17:"),
        "for k in (0..(POOL - HEADER) / size)",
        "for k in (0..POOL / size)",
    ),
    slip("an empty text is 7", Some("R22:"), "text.len() > block.size", "text.is_empty() || text.len() > block.size"),
    slip(
        "an empty roll is 7",
        Some("R22:"),
        "roll.len() < 2 * blocks.len()",
        "roll.is_empty() || roll.len() < 2 * blocks.len()",
    ),
    slip(
        "a roll needs room for every set bit",
        Some("W-202:"),
        "roll.len() < 2 * blocks.len()",
        "roll.len() < 2 * self.lent.map.iter().map(|word| word.count_ones() as usize).sum::<usize>()",
    ),
    slip(
        "a pool's roll ends at a map word with no bit set",
        None,
        "(0..(POOL - HEADER) / size)",
        "(0..(POOL - HEADER) / size).take_while(|k| self.lent.map[8 * pool + k / 64] != 0)",
    ),
    slip("P is cut to 32 bits", Some("R23:"), "contains(&pools)", "contains(&(pools as u32 as usize))"),
    slip(
        "an offset is cut to 32 bits",
        Some("R23:"),
        "Ok(heap.live(offset)?.size)",
        "Ok(heap.live(offset as u32 as usize)?.size)",
    ),
    slip(
        "a returning pool doesn't test the freed-pool head",
        Some("a returning pool"),
        "self.follow(freed_head, self.all_pools(), Rule::BackFreedHead)?;",
        "self.read(freed_head).checked_sub(1);",
    ),
];

/// The slips of a tired hand.
const TIRED: &[Slip] = &[
    slip(
        "a refused step is not undone",
        None,
        "if outcome.is_err() {",
        "if outcome.is_err() && self.notes.is_empty() {",
    ),
    slip(
        "a refused step is undone first to last",
        None,
        "while let Some(was) = self.notes.pop() {",
        "for was in std::mem::take(self.notes) {",
    ),
    slip(
        "books of under two words are 1",
        Some("order"),
        "if lent.books.len() < 2 {
            return refuse(2);",
        "if lent.books.len() < 2 {
            return refuse(1);",
    ),
    slip("a map that is too long is taken", None, "lent.map.len() == 8 * all", "lent.map.len() >= 8 * all"),
    slip(
        "resize tests its offset before its size",
        Some("dead offset"),
        "asked(size)?;
            let block = heap.live(offset)?;",
        "let block = heap.live(offset)?;
            asked(size)?;",
    ),
    slip("17 arenas will do", Some("order"), "(1..=16).contains(&arenas)", "(1..=17).contains(&arenas)"),
    slip("an arena of one pool will do", Some("order"), "(2..=64).contains(&pools)", "(1..=64).contains(&pools)"),
    slip("an arena of 65 pools will do", Some("order"), "(2..=64).contains(&pools)", "(2..=65).contains(&pools)"),
    slip("513 bytes will do", Some("K7"), "(1..=512).contains(&size)", "(1..=513).contains(&size)"),
    slip("a link to the last member is 6", None, "link <= most", "link < most"),
    slip("an ask takes a count of 506", None, "count <= 505", "count <= 506"),
    slip("a give-back refuses a count of 506", None, "count <= 506", "count <= 505"),
    slip(
        "any class will do for the front pool",
        None,
        "== class, Rule::FrontClass",
        "<= self.edition.last_class(), Rule::FrontClass",
    ),
    slip(
        "maxnextoffset may be lower",
        None,
        "== POOL - size, Rule::FrontMaximum",
        "<= POOL - size, Rule::FrontMaximum",
    ),
    slip("the last pool is not carved", None, "mark < self.pools", "mark + 1 < self.pools"),
    slip(
        "P + 1 free pools will do when taking",
        None,
        "free <= self.pools, Rule::M",
        "free <= self.pools + 1, Rule::M",
    ),
    slip(
        "P free pools will do when one returns",
        None,
        "free <= self.pools, Rule::B",
        "free <= self.pools + 1, Rule::B",
    ),
    slip("the block made ready keeps its bytes", None, "self.write_link(pool, nextoffset, 0);", ""),
    slip("a pool alone on its list keeps its next", None, "self.put(self.pool(pool, POOL_NEXT), 0);", ""),
    slip(
        "the old freed pool's record is touched",
        Some("a returning pool"),
        "self.put(freed_head, link_to(Some(pool)));",
        "self.put(freed_head, link_to(Some(pool)));
         if let Some(old) = old { self.put(self.pool(old, POOL_PREVIOUS), link_to(Some(pool))); }",
    ),
    slip(
        "who joins leaves the old head's previous",
        Some("R3:"),
        "self.put(list.previous(old), link_to(Some(member)));",
        "let _ = old;",
    ),
    slip("three quarters is near enough", Some("K8"), "4 * n > 3 * s", "4 * n >= 3 * s"),
    slip(
        "a resize copies whole blocks",
        None,
        "offset + n.min(s), new",
        "offset + self.edition.block_size(self.edition.class_of(n)).min(s), new",
    ),
    slip("a half-done resize answers offset 0", Some("R9:"), "value: new as u32", "value: 0"),
    slip(
        "a half-done resize answers what its give-back met",
        Some("R9:"),
        "Answer { number: 6, value: new",
        "Answer { number: refusal.number, value: new",
    ),
    slip(
        "write clears the rest of the block",
        Some("write and view"),
        "self.lent.memory[offset..offset + text.len()].copy_from_slice(text);",
        "self.lent.memory[offset..offset + block.size].fill(0);
         self.lent.memory[offset..offset + text.len()].copy_from_slice(text);",
    ),
    slip(
        "roll call clears the words after the roll",
        Some("roll call"),
        "for (i, (offset, block)) in",
        "roll[2 * blocks.len()..].fill(0);
         for (i, (offset, block)) in",
    ),
    slip(
        "format leaves the spare words",
        Some("format"),
        "lent.books.fill(0);",
        "lent.books[..68].fill(0); lent.books[72..].fill(0);",
    ),
    slip(
        "format links the arenas one way",
        Some("format"),
        "lent.books[next + 1] = link_to(arena.checked_sub(1)) as u32;",
        "",
    ),
];

/// The slips of W-206: first those of its clauses.
const SPLIT: &[Slip] = &[
    slip(
        "any open word but 0 is open",
        Some("W-206: carved, the open"),
        "self.read(self.arena(arena, OPEN)) == 1",
        "self.read(self.arena(arena, OPEN)) != 0",
    ),
    slip(
        "an odd open word is open",
        Some("W-206: carved, the open"),
        "self.read(self.arena(arena, OPEN)) == 1",
        "self.read(self.arena(arena, OPEN)) % 2 == 1",
    ),
    slip(
        "a pool is carved whether its arena is open or not",
        Some("W-206: carved, the open"),
        "self.read(self.arena(arena, OPEN)) == 1 && number",
        "number",
    ),
    slip(
        "the pool at the mark is carved",
        Some("W-206: carved, below"),
        "number < self.read(self.arena(arena, CARVE_MARK))",
        "number <= self.read(self.arena(arena, CARVE_MARK))",
    ),
    slip(
        "every pool of an open arena is carved",
        Some("W-206: carved, below"),
        " && number < self.read(self.arena(arena, CARVE_MARK))",
        "",
    ),
    slip(
        "below a mark above P no pool is carved",
        Some("W-206: carved, below"),
        "number < self.read(self.arena(arena, CARVE_MARK))",
        "(number + 1..=self.pools).contains(&self.read(self.arena(arena, CARVE_MARK)))",
    ),
    slip(
        "a pool's number in the heap is held against the mark",
        Some("W-206: carved, below"),
        "number < self.read(self.arena(arena, CARVE_MARK))",
        "pool < self.read(self.arena(arena, CARVE_MARK))",
    ),
    slip(
        "the first arena's record is read for every pool",
        Some("W-206: carved, below"),
        "(pool / self.pools, pool % self.pools)",
        "(0, pool % self.pools)",
    ),
    slip(
        "a carved pool that is freed has no dead blocks",
        Some("W-206: 01's whole"),
        "&& self.carved(pool) =>",
        "&& self.carved(pool) && self.read(self.pool(pool, COUNT)) != 0 =>",
    ),
    slip(
        "the block at nextoffset is dead",
        Some("W-206: the in-pool"),
        "start < self.read(self.pool(pool, NEXTOFFSET))",
        "start <= self.read(self.pool(pool, NEXTOFFSET))",
    ),
    slip(
        "a virgin block is dead",
        Some("W-206: the in-pool"),
        "start < self.read(self.pool(pool, NEXTOFFSET)) && self",
        "self",
    ),
    slip(
        "the whole offset is held against nextoffset",
        Some("W-206: the in-pool"),
        "start < self.read(self.pool(pool, NEXTOFFSET))",
        "offset < self.read(self.pool(pool, NEXTOFFSET))",
    ),
    slip(
        "a dead block must end at nextoffset or below",
        Some("W-206: the in-pool"),
        "start < self.read(self.pool(pool, NEXTOFFSET))",
        "start + size <= self.read(self.pool(pool, NEXTOFFSET))",
    ),
    slip(
        "the block that was set ready is not dead",
        Some("W-206: 10 for a block never"),
        "start < self.read(self.pool(pool, NEXTOFFSET))",
        "start + size < self.read(self.pool(pool, NEXTOFFSET))",
    ),
    slip(
        "maxnextoffset is read for nextoffset",
        Some("W-206: 10 for a block never"),
        "start < self.read(self.pool(pool, NEXTOFFSET))",
        "start < self.read(self.pool(pool, MAXNEXTOFFSET))",
    ),
    slip(
        "class 64 has dead blocks",
        Some("W-206: a class above"),
        "if class > self.edition.last_class() {
            return refuse(5);",
        "if class == 64 && self.edition.block_at(class, start).is_some() {
            let dead = start < self.read(self.pool(pool, NEXTOFFSET)) && self.carved(pool);
            return refuse(if dead { 10 } else { 5 });
        }
        if class > self.edition.last_class() {
            return refuse(5);",
    ),
    slip(
        "a pool of any class has dead blocks",
        Some("W-206: a class above"),
        "if class > self.edition.last_class() {
            return refuse(5);",
        "if class > self.edition.last_class() {
            let dead = start < self.read(self.pool(pool, NEXTOFFSET)) && self.carved(pool);
            let last = self.edition.last_class();
            return refuse(if dead && self.edition.block_at(last, start).is_some() { 10 } else { 5 });",
    ),
    slip("every place below nextoffset is dead", Some("W-206: where no block"), "Some(_) if start <", "_ if start <"),
    slip(
        "every place that a small block could start at is dead",
        Some("W-206: where no block"),
        "Some(_) if start <",
        "_ if self.edition.block_at(0, start).is_some() && start <",
    ),
    slip(
        "a dead block may run past its pool",
        Some("W-206: where no block"),
        "Some(_) if start <",
        "_ if start >= HEADER && (start - HEADER) % size == 0 && start <",
    ),
    slip(
        "an offset past memory is 10",
        Some("W-206: in each"),
        "if offset >= self.lent.memory.len() {
            return refuse(5);",
        "if offset >= self.lent.memory.len() {
            return refuse(10);",
    ),
    slip(
        "a live block must lie in a carved pool",
        Some("W-206: carved, the open"),
        "Some(k) if self.bit(pool, k) =>",
        "Some(k) if self.bit(pool, k) && self.carved(pool) =>",
    ),
    slip(
        "a live block must lie below nextoffset",
        Some("W-206: the in-pool"),
        "Some(k) if self.bit(pool, k) =>",
        "Some(k) if self.bit(pool, k) && start < self.read(self.pool(pool, NEXTOFFSET)) =>",
    ),
    // the numbers, and where they are given
    slip(
        "10 and 5 are exchanged",
        Some("W-206: 01's whole"),
        "=> refuse(10),
            _ => refuse(5),",
        "=> refuse(5),
            _ => refuse(10),",
    ),
    slip("5 is not split", Some("W-206: 01's whole"), "=> refuse(10),", "=> refuse(5),"),
    slip("a dead block is 6", Some("W-206: 01's whole"), "=> refuse(10),", "=> refuse(6),"),
    slip(
        "10 repeats the offset",
        Some("W-206: 01's whole"),
        "=> refuse(10),",
        "=> Err(Answer { number: 10, value: offset as u32 }),",
    ),
    slip(
        "give back doesn't take the split",
        Some("W-206: in each"),
        "let block = heap.live(offset)?;
            heap.step(",
        "let block = heap.live(offset).or_else(|_| refuse(5))?;
            heap.step(",
    ),
    slip(
        "resize doesn't take the split",
        Some("W-206: in each"),
        "let block = heap.live(offset)?;
            heap.resize(",
        "let block = heap.live(offset).or_else(|_| refuse(5))?;
            heap.resize(",
    ),
    slip(
        "view's companion doesn't take the split",
        Some("W-206: in each"),
        "Ok(heap.live(offset)?.size)",
        "Ok(heap.live(offset).or_else(|_| refuse(5))?.size)",
    ),
    slip(
        "write doesn't take the split",
        Some("W-206: in each"),
        "let block = heap.live(offset)?;
            heap.write(",
        "let block = heap.live(offset).or_else(|_| refuse(5))?;
            heap.write(",
    ),
    slip(
        "view hands back a dead block",
        Some("W-206: in each"),
        "Err(_) => (0, 0),",
        "Err(Answer { number: 10, .. }) => (offset, 8),
         Err(_) => (0, 0),",
    ),
    slip(
        "the empty part is handed back for 10",
        Some("W-206: in each"),
        "Err(_) => phrase.itself(),",
        "Err(Answer { number: 10, .. }) => Place::Memory(0, 0),
         Err(_) => phrase.itself(),",
    ),
    slip(
        "a text that is too long for any block is 7 before it is 10",
        Some("W-206: in the same"),
        "let block = heap.live(offset)?;
            heap.write(",
        "let block = match heap.live(offset) {
                Err(Answer { number: 10, .. }) if text.len() > 512 => return refuse(7),
                found => found?,
            };
            heap.write(",
    ),
    slip(
        "a dead block that is resized is 4 before it is 10",
        Some("W-206: in the same"),
        "let block = heap.live(offset)?;
            heap.resize(",
        "let block = match heap.live(offset) {
                Err(Answer { number: 10, .. }) if heap.read(USABLE) == 0 && heap.read(UNUSED) == 0
                    && heap.read(CLASSES + heap.edition.class_of(size)) == 0 => return refuse(4),
                found => found?,
            };
            heap.resize(",
    ),
    // the half-done resize
    slip(
        "a half-done resize that meets 5 answers 5",
        Some("W-206: the half-done"),
        "Answer { number: 6, value: new",
        "Answer { number: if refusal.number == 5 { 5 } else { 6 }, value: new",
    ),
    slip(
        "a half-done resize that meets 10 answers 10",
        Some("W-206: the half-done"),
        "Answer { number: 6, value: new",
        "Answer { number: if refusal.number == 10 { 10 } else { 6 }, value: new",
    ),
    slip(
        "a half-done resize that meets 10 is refused with it",
        Some("W-206: the half-done"),
        "Err(refusal) => {",
        "Err(Answer { number: 10, .. }) => return refuse(10),
            Err(refusal) => {",
    ),
    slip(
        "a half-done resize that meets 10 is done",
        Some("W-206: the half-done"),
        "Ok(_) => self.walk(Path::Moved),",
        "Ok(_) | Err(Answer { number: 10, .. }) => self.walk(Path::Moved),",
    ),
    slip(
        "a resize's give-back that meets 10 clears the bit",
        Some("W-206: the half-done"),
        "Err(refusal) => {",
        "Err(refusal) => {
                if refusal.number == 10 { self.put_bit(offset / POOL, (offset % POOL - HEADER) / s, false); }",
    ),
];

/// The slips of W-211: first those of the shape's tests and of format.
const SHAPE: &[Slip] = &[
    slip(
        "books that end before word 68 are 2 before A and P are tested",
        Some("W-211: the order"),
        "in_range(arenas, pools)?;
        if lent.books.len() <= EDITION {
            return refuse(2);
        }",
        "if lent.books.len() <= EDITION {
            return refuse(2);
        }
        in_range(arenas, pools)?;",
    ),
    slip(
        "books that end before word 68 are 1",
        Some("W-211: the order"),
        "if lent.books.len() <= EDITION {
            return refuse(2);",
        "if lent.books.len() <= EDITION {
            return refuse(1);",
    ),
    slip(
        "books that end at word 68 don't reach it",
        Some("W-211: the order"),
        "lent.books.len() <= EDITION",
        "lent.books.len() <= EDITION + 1",
    ),
    slip(
        "word 68 is tested after the lengths",
        Some("W-211: the order"),
        "let edition = Edition::said_by(lent.books[EDITION] as usize)?;
        exact(lent, arenas, pools)?;",
        "exact(lent, arenas, pools)?;
        let edition = Edition::said_by(lent.books[EDITION] as usize)?;",
    ),
    slip(
        "word 68 above 1 is 1 only over exact books",
        Some("W-211: the order"),
        "let edition = Edition::said_by(lent.books[EDITION] as usize)?;",
        "if lent.books.len() != ARENAS + RECORD * (arenas + arenas * pools) {
            return refuse(2);
        }
        let edition = Edition::said_by(lent.books[EDITION] as usize)?;",
    ),
    slip(
        "word 68 above 1 is 2",
        Some("W-211: any word"),
        "Edition::said_by(lent.books[EDITION] as usize)?",
        "Edition::said_by(lent.books[EDITION] as usize).or_else(|_| refuse(2))?",
    ),
    slip(
        "word 68 above 1 is 6",
        Some("W-211: any word"),
        "Edition::said_by(lent.books[EDITION] as usize)?",
        "Edition::said_by(lent.books[EDITION] as usize).or_else(|_| refuse(6))?",
    ),
    slip(
        "any word 68 but 0 says sixteen",
        Some("W-211: any word"),
        "Edition::said_by(lent.books[EDITION] as usize)?",
        "Edition::said_by(usize::from(lent.books[EDITION] != 0))?",
    ),
    slip(
        "any word 68 but 1 says eight",
        Some("W-211: any word"),
        "Edition::said_by(lent.books[EDITION] as usize)?",
        "Edition::said_by(usize::from(lent.books[EDITION] == 1))?",
    ),
    slip(
        "a word 68 of 2 says sixteen",
        Some("W-211: any word"),
        "Edition::said_by(lent.books[EDITION] as usize)?",
        "Edition::said_by(if lent.books[EDITION] == 2 { 1 } else { lent.books[EDITION] as usize })?",
    ),
    slip(
        "word 68 is read by its low bit",
        Some("W-211: any word"),
        "Edition::said_by(lent.books[EDITION] as usize)?",
        "Edition::said_by(lent.books[EDITION] as usize % 2)?",
    ),
    slip(
        "word 68 is read by its low byte",
        Some("W-211: any word"),
        "Edition::said_by(lent.books[EDITION] as usize)?",
        "Edition::said_by(lent.books[EDITION] as u8 as usize)?",
    ),
    slip(
        "word 68 is read by its low half",
        Some("W-211: any word"),
        "Edition::said_by(lent.books[EDITION] as usize)?",
        "Edition::said_by(lent.books[EDITION] as u16 as usize)?",
    ),
    slip(
        "word 69 says the edition",
        Some("W-211: K1 in"),
        "Edition::said_by(lent.books[EDITION] as usize)?",
        "Edition::said_by(lent.books.get(EDITION + 1).map_or(0, |word| *word as usize))?",
    ),
    slip(
        "every heap is of edition eight",
        Some("W-211: K1 in"),
        "Edition::said_by(lent.books[EDITION] as usize)?;",
        "Edition::said_by(lent.books[EDITION] as usize).map(|_| Edition::Eight)?;",
    ),
    slip(
        "0 says sixteen and 1 eight",
        Some("W-211: word 68 says"),
        "0 => Ok(Edition::Eight),
            1 => Ok(Edition::Sixteen),",
        "1 => Ok(Edition::Eight),
            0 => Ok(Edition::Sixteen),",
    ),
    slip(
        "an ask tests its size before word 68",
        Some("W-211: any word"),
        "fn ask(&mut self, lent: Lent, size: usize) -> Answer {",
        "fn ask(&mut self, lent: Lent, size: usize) -> Answer {
        if let [arenas, pools, .., word] = lent.books[..lent.books.len().min(EDITION + 1)] {
            let wrong = in_range(arenas as usize, pools as usize).is_ok() && lent.books.len() > EDITION && word > 1;
            if wrong && asked(size).is_err() {
                return answer(refuse(3));
            }
        }",
    ),
    slip(
        "opening an arena writes word 68",
        Some("W-211: K1 in"),
        "self.put(self.arena(arena, OPEN), 1);",
        "self.put(self.arena(arena, OPEN), 1);
         self.put(EDITION, 0);",
    ),
    slip(
        "format tests its edition after the lengths",
        Some("W-211: format tests"),
        "Edition::said_by(edition)?;
    exact(lent.to_read(), arenas, pools)?;",
        "exact(lent.to_read(), arenas, pools)?;
    Edition::said_by(edition)?;",
    ),
    slip(
        "format over books that end before the records is 2 before A and P are tested",
        Some("R1:"),
        "    in_range(arenas, pools)?;
    Edition::said_by(edition)?;",
        "    if in_range(arenas, pools).is_err() && lent.books.len() < ARENAS { return refuse(2); }
    in_range(arenas, pools)?;
    Edition::said_by(edition)?;",
    ),
    slip("format takes any edition", Some("W-211: format tests"), "    Edition::said_by(edition)?;\n", ""),
    slip(
        "format takes any edition but 0 for sixteen",
        Some("W-211: format tests"),
        "    Edition::said_by(edition)?;\n",
        "    let edition = usize::from(edition != 0);\n",
    ),
    slip(
        "format takes any edition but 1 for eight",
        Some("W-211: format tests"),
        "    Edition::said_by(edition)?;\n",
        "    let edition = usize::from(edition == 1);\n",
    ),
    slip(
        "format takes an edition of 2",
        Some("W-211: format tests"),
        "    Edition::said_by(edition)?;\n",
        "    if edition != 2 { Edition::said_by(edition)?; }\n",
    ),
    slip(
        "format's edition is told by the alignment",
        Some("W-211: format tests"),
        "    Edition::said_by(edition)?;\n",
        "    let edition = match edition { 8 => 0, 16 => 1, other => other };
    Edition::said_by(edition)?;\n",
    ),
    slip(
        "a wrong edition is 2 in format",
        Some("W-211: format tests"),
        "    Edition::said_by(edition)?;\n",
        "    Edition::said_by(edition).or_else(|_| refuse(2))?;\n",
    ),
    slip(
        "format cuts its edition to 32 bits",
        Some("W-211: no edition"),
        "    Edition::said_by(edition)?;\n",
        "    Edition::said_by(edition as u32 as usize)?;\n",
    ),
    slip(
        "format cuts its edition to 8 bits",
        Some("W-211: no edition"),
        "    Edition::said_by(edition)?;\n",
        "    Edition::said_by(edition as u8 as usize)?;\n",
    ),
    slip("format always makes a heap of eight", Some("W-211: format in"), "lent.books[EDITION] = edition as u32;", ""),
    slip(
        "format always makes a heap of sixteen",
        Some("format"),
        "lent.books[EDITION] = edition as u32;",
        "lent.books[EDITION] = 1;",
    ),
    slip(
        "format writes the alignment",
        Some("format"),
        "lent.books[EDITION] = edition as u32;",
        "lent.books[EDITION] = 8 + 8 * edition as u32;",
    ),
    slip(
        "format writes its edition to word 69",
        Some("W-211: format in"),
        "lent.books[EDITION] = edition as u32;",
        "lent.books[EDITION + 1] = edition as u32;",
    ),
    slip(
        "format leaves word 68",
        Some("W-211: format reads"),
        "lent.books.fill(0);
    lent.books[0] = arenas as u32;
    lent.books[1] = pools as u32;
    lent.books[UNUSED] = 1;
    lent.books[EDITION] = edition as u32;",
        "lent.books[..EDITION].fill(0);
    lent.books[EDITION + 1..].fill(0);
    lent.books[0] = arenas as u32;
    lent.books[1] = pools as u32;
    lent.books[UNUSED] = 1;",
    ),
    slip(
        "format over books of no edition is 1",
        Some("W-211: format reads"),
        "    Edition::said_by(edition)?;\n",
        "    Edition::said_by(edition)?;
    if let Some(word) = lent.books.get(EDITION) { Edition::said_by(*word as usize)?; }\n",
    ),
    slip(
        "format to sixteen leaves heads 36 to 67",
        Some("W-211: format in"),
        "lent.books.fill(0);",
        "lent.books[..36].fill(0);
    if edition == 0 { lent.books[36..68].fill(0); }
    lent.books[68..].fill(0);",
    ),
];

/// Those of classes, blocks and counts.
const EDITIONS: &[Slip] = &[
    slip("class by 8 in sixteen", Some("W-211: K4 in"), "(size - 1) / self.alignment()", "(size - 1) / 8"),
    slip("class by 16 in eight", Some("K4"), "(size - 1) / self.alignment()", "(size - 1) / 16"),
    slip(
        "class n div 16 in sixteen",
        Some("W-211: K2 in"),
        "(size - 1) / self.alignment()",
        "(size - usize::from(self == Edition::Eight)) / self.alignment()",
    ),
    slip("block size by 8 in sixteen", Some("W-211: K1 in"), "self.alignment() * (class + 1)", "8 * (class + 1)"),
    slip(
        "block size 16 x class",
        Some("W-211: every size"),
        "self.alignment() * (class + 1)",
        "self.alignment() * if self == Edition::Eight { class + 1 } else { class.max(1) }",
    ),
    slip(
        "the last class is 63 in sixteen",
        Some("W-211: a class above"),
        "Edition::Sixteen => 31,",
        "Edition::Sixteen => 63,",
    ),
    slip(
        "the last class is 32 in sixteen",
        Some("W-211: a class above"),
        "Edition::Sixteen => 31,",
        "Edition::Sixteen => 32,",
    ),
    slip(
        "the last class is 30 in sixteen",
        Some("W-211: a class above"),
        "Edition::Sixteen => 31,",
        "Edition::Sixteen => 30,",
    ),
    slip(
        "the last class is 31 in eight",
        Some("W-211: a class above"),
        "Edition::Eight => 63,",
        "Edition::Eight => 31,",
    ),
    slip(
        "sizes up to 1,024 in sixteen",
        Some("W-211: K7 in"),
        "asked(size)?;
            heap.step(",
        "if size == 0 || size > 1024 || heap.edition == Edition::Eight {
                asked(size)?;
            }
            heap.step(",
    ),
    slip(
        "an ask in sixteen holds count against 252",
        Some("W-211: 505"),
        "count <= 505",
        "count <= if self.edition == Edition::Eight { 505 } else { 252 }",
    ),
    slip(
        "a give-back in sixteen holds count against 253",
        Some("W-211: 505"),
        "count <= 506",
        "count <= if self.edition == Edition::Eight { 506 } else { 253 }",
    ),
    slip(
        "an ask in sixteen takes a count of 506",
        Some("W-211: 505"),
        "count <= 505",
        "count <= if self.edition == Edition::Eight { 505 } else { 506 }",
    ),
    slip(
        "heads of sixteen stand two words apart",
        Some("W-211: fill with 512"),
        "head: CLASSES + class,",
        "head: CLASSES + class * self.edition.alignment() / 8,",
    ),
    slip(
        "the heads of sixteen are the last 32",
        Some("W-211: K2 in"),
        "head: CLASSES + class,",
        "head: CLASSES + class + if self.edition == Edition::Eight { 0 } else { 32 },",
    ),
    slip(
        "in sixteen a head from 36 to 67 that is not 0 is 6",
        Some("W-211: heads"),
        "let class = self.edition.class_of(size);",
        "let class = self.edition.class_of(size);
         if self.edition == Edition::Sixteen {
             self.rule(self.lent.books[36..68].iter().all(|head| *head == 0), Rule::FrontHead)?;
         }",
    ),
    slip(
        "an ask in sixteen clears heads 36 to 67",
        Some("W-211: heads"),
        "let class = self.edition.class_of(size);",
        "let class = self.edition.class_of(size);
         if self.edition == Edition::Sixteen {
             (36..68).for_each(|head| self.put(head, 0));
         }",
    ),
    slip(
        "links have eight bytes in sixteen",
        Some("W-211: a link"),
        "(link as u32).to_le_bytes().into_iter().enumerate()",
        "(link as u64).to_le_bytes().into_iter().take(self.edition.alignment() / 2).enumerate()",
    ),
    slip(
        "a map of sixteen has four words for a pool",
        Some("W-211: the lengths"),
        "exact(lent, arenas, pools)?;",
        "exact(lent, arenas, pools)?;
        if edition == Edition::Sixteen && lent.map.len() != 4 * arenas * pools {
            return refuse(2);
        }",
    ),
    slip(
        "an ask in sixteen counts its bit by 32 blocks a word",
        Some("W-211: fill with 16"),
        "self.put_bit(pool, (start - HEADER) / self.edition.block_size(class), true);",
        "let k = (start - HEADER) / self.edition.block_size(class);
        self.put_bit(pool, if self.edition == Edition::Eight { k } else { k / 32 * 64 + k % 32 }, true);",
    ),
    slip(
        "a pool of 16-byte blocks holds 252",
        Some("W-211: fill with 16"),
        "nextoffset <= self.read(self.pool(pool, MAXNEXTOFFSET))",
        "nextoffset + usize::from(self.edition == Edition::Sixteen) <= self.read(self.pool(pool, MAXNEXTOFFSET))",
    ),
];

/// Those of a place that still goes by eight.
const BY_EIGHT: &[Slip] = &[
    slip(
        "a live block has eight's size",
        Some("W-211: write, view"),
        "let size = self.edition.block_size(class);
        match",
        "let size = 8 * (class + 1);
        match",
    ),
    slip(
        "view's companion gives eight's size",
        Some("W-211: write, view"),
        "Ok(heap.live(offset)?.size)",
        "Ok(8 * (heap.live(offset)?.class + 1))",
    ),
    slip(
        "view hands back eight's block",
        Some("W-211: write, view"),
        "Ok(block) => (offset, block.size),",
        "Ok(block) => (offset, 8 * (block.class + 1)),",
    ),
    slip(
        "stand-in hands back eight's block",
        Some("W-211: a stand-in"),
        "Ok(block) => Place::Memory(offset, block.size),",
        "Ok(block) => Place::Memory(offset, 8 * (block.class + 1)),",
    ),
    slip(
        "write holds its text against eight's block",
        Some("W-211: write, view"),
        "text.len() > block.size",
        "text.len() > 8 * (block.class + 1)",
    ),
    slip("resize goes by eight's block", Some("W-211: K8 in"), "let s = block.size;", "let s = 8 * (block.class + 1);"),
    slip(
        "resize keeps by eight's block",
        Some("W-211: K9 in"),
        "if n <= s && 4 * n > 3 * s {",
        "if n <= 8 * (block.class + 1) && 4 * n > 24 * (block.class + 1) {",
    ),
    slip(
        "resize copies no more than eight's block",
        Some("W-211: resize of 112"),
        "offset + n.min(s), new",
        "offset + n.min(8 * (block.class + 1)), new",
    ),
    slip(
        "roll call looks for eight's blocks",
        Some("W-211: write, view"),
        "let size = self.edition.block_size(class);
            for k",
        "let size = 8 * (class + 1);
            for k",
    ),
    slip(
        "roll call writes eight's sizes",
        Some("W-211: write, view"),
        "block.size as u32;",
        "8 * (block.class as u32 + 1);",
    ),
    slip(
        "roll call takes classes up to 63",
        Some("W-211: a class above"),
        "if class > self.edition.last_class() {
                continue;",
        "if class > 63 {
                continue;",
    ),
    slip(
        "the live test takes classes up to 63",
        Some("W-211: a class above"),
        "if class > self.edition.last_class() {
            return refuse(5);",
        "if class > 63 {
            return refuse(5);",
    ),
    slip(
        "an ask sets eight's bit",
        Some("W-211: K2 in"),
        "(start - HEADER) / self.edition.block_size(class), true",
        "(start - HEADER) / (8 * (class + 1)), true",
    ),
    slip(
        "a pool set to a class has eight's maxnextoffset",
        Some("W-211: K1 in"),
        "self.put(self.pool(pool, MAXNEXTOFFSET), POOL - size);",
        "self.put(self.pool(pool, MAXNEXTOFFSET), POOL - 8 * (class + 1));",
    ),
    slip(
        "a pool set to a class has eight's nextoffset",
        Some("W-211: K1 in"),
        "HEADER + 2 * size",
        "HEADER + 16 * (class + 1)",
    ),
    slip(
        "a pool set to a class has eight's second block",
        Some("W-211: K1 in"),
        "self.put(self.pool(pool, FREEBLOCK), HEADER + size);",
        "self.put(self.pool(pool, FREEBLOCK), HEADER + 8 * (class + 1));",
    ),
    slip(
        "the second block's link is written at eight's",
        Some("W-211: a link"),
        "self.write_link(pool, HEADER + size, 0);",
        "self.write_link(pool, HEADER + 8 * (class + 1), 0);",
    ),
    slip(
        "nextoffset rises by eight's size",
        Some("W-211: K2 in"),
        "nextoffset + size);",
        "nextoffset + 8 * (class + 1));",
    ),
    slip(
        "an ask holds maxnextoffset against eight's",
        Some("W-211: K2 in"),
        "== POOL - size, Rule::FrontMaximum",
        "== POOL - 8 * (class + 1), Rule::FrontMaximum",
    ),
    slip(
        "eight's starts are starts",
        Some("W-211: K10 in"),
        "let size = self.block_size(class);
        let k",
        "let size = 8 * (class + 1);
        let k",
    ),
    slip(
        "a start may be at 4,096 less eight's size",
        Some("W-211: where eight's"),
        "start <= POOL - size",
        "start <= POOL - 8 * (class + 1)",
    ),
    slip(
        "an ask takes eight's starts",
        Some("W-211: where eight's"),
        "match self.edition.block_at(class, start) {
            Some(k) => self.rule",
        "match Edition::Eight.block_at(class, start) {
            Some(k) => self.rule",
    ),
    slip(
        "a give-back takes eight's starts for freeblock",
        Some("W-211: where eight's"),
        "old == 0 || self.edition.block_at(class, old).is_some()",
        "old == 0 || Edition::Eight.block_at(class, old).is_some()",
    ),
    slip(
        "the live test takes eight's starts",
        Some("W-211: where eight's"),
        "match self.edition.block_at(class, start) {
            Some(k) if",
        "match Edition::Eight.block_at(class, start) {
            Some(k) if",
    ),
];

/// The slips of W-214.
const STAND_IN: &[Slip] = &[
    slip(
        "the empty part is handed back where view refuses",
        Some("W-214: a dead"),
        "Err(_) => phrase.itself(),",
        "Err(_) => Place::Memory(0, 0),",
    ),
    slip(
        "the empty part is handed back for 1",
        Some("W-214: 1 and 2"),
        "Err(_) => phrase.itself(),",
        "Err(Answer { number: 1, .. }) => Place::Memory(0, 0),
         Err(_) => phrase.itself(),",
    ),
    slip(
        "the empty part is handed back for 2",
        Some("W-214: 1 and 2"),
        "Err(_) => phrase.itself(),",
        "Err(Answer { number: 2, .. }) => Place::Memory(0, 0),
         Err(_) => phrase.itself(),",
    ),
    slip(
        "a dead block's own bytes are handed back",
        Some("W-214: a dead"),
        "-> Place {
        match self.heap(lent).and_then(|heap| heap.live(offset)) {",
        "-> Place {
        match self.heap(lent).and_then(|heap| {
            let pool = offset / POOL;
            let class = heap.lent.books.get(heap.pool(pool, CLASS)).map_or(64, |class| *class as usize);
            let none = class > heap.edition.last_class();
            let k = if none { None } else { heap.edition.block_at(class, offset % POOL) };
            k.map_or(refuse(5), |k| Ok(Block { pool, class, k, size: heap.edition.block_size(class) }))
        }) {",
    ),
    slip(
        "the phrase stands in for a live block",
        Some("W-214: a live"),
        "Ok(block) => Place::Memory(offset, block.size),",
        "Ok(_) => phrase.itself(),",
    ),
    slip(
        "a live block is cut to the phrase's length",
        Some("W-214: a live"),
        "Ok(block) => Place::Memory(offset, block.size),",
        "Ok(block) => match phrase.itself() {
             Place::Memory(_, length) | Place::Phrase(_, length) => Place::Memory(offset, block.size.min(length)),
             Place::Elsewhere => Place::Elsewhere,
         },",
    ),
    slip(
        "a phrase is cut to the largest block",
        Some("W-214: a dead"),
        "Err(_) => phrase.itself(),",
        "Err(_) => match phrase.itself() {
             Place::Phrase(start, length) => Place::Phrase(start, length.min(512)),
             part => part,
         },",
    ),
    slip(
        "an empty phrase is a refusal of its own",
        Some("W-214: an empty"),
        "Ok(block) => Place::Memory(offset, block.size),",
        "Ok(_) if matches!(phrase, LentPhrase::Text([])) => phrase.itself(),
         Ok(block) => Place::Memory(offset, block.size),",
    ),
    slip(
        "an empty phrase is handed back as the empty part",
        Some("W-214: an empty"),
        "Err(_) => phrase.itself(),",
        "Err(_) if matches!(phrase, LentPhrase::Text([])) => Place::Memory(0, 0),
         Err(_) => phrase.itself(),",
    ),
    slip(
        "an empty part of memory is handed back from memory's start",
        Some("W-214: an empty"),
        "Err(_) => phrase.itself(),",
        "Err(_) if matches!(phrase, LentPhrase::Part(_, 0)) => Place::Memory(0, 0),
         Err(_) => phrase.itself(),",
    ),
    slip(
        "a phrase with the block's bytes stands in for it",
        Some("W-214: a phrase with"),
        "-> Place {
        match self.heap(lent).and_then(|heap| heap.live(offset)) {",
        "-> Place {
        let there = lent.memory.get(offset..).unwrap_or(&[]).to_vec();
        match self.heap(lent).and_then(|heap| heap.live(offset)) {
            Ok(block) if matches!(&phrase, LentPhrase::Text(text) if **text == there[..block.size]) => {
                phrase.itself()
            }",
    ),
    slip(
        "a phrase over a live block stands in for it",
        Some("W-214: a phrase in"),
        "Ok(block) => Place::Memory(offset, block.size),",
        "Ok(block) => match phrase {
             LentPhrase::Part(start, length) if start < offset + block.size && offset < start + length => {
                 phrase.itself()
             }
             _ => Place::Memory(offset, block.size),
         },",
    ),
    slip(
        "a part of memory is no phrase",
        Some("W-214: a phrase in"),
        "Err(_) => phrase.itself(),",
        "Err(_) if matches!(phrase, LentPhrase::Part(..)) => Place::Memory(0, 0),
         Err(_) => phrase.itself(),",
    ),
    slip(
        "the block's bytes are copied",
        Some("W-214: a live"),
        "Ok(block) => Place::Memory(offset, block.size),",
        "Ok(_) => Place::Elsewhere,",
    ),
    slip("the phrase is copied", Some("W-214: a dead"), "Err(_) => phrase.itself(),", "Err(_) => Place::Elsewhere,"),
    slip(
        "the phrase is written to the offset",
        Some("W-214: a dead"),
        "-> Place {",
        "-> Place {
         if let (LentPhrase::Text(text), Some(from)) = (&phrase, lent.memory.get_mut(offset..)) {
             let length = text.len().min(from.len());
             from[..length].copy_from_slice(&text[..length]);
         }",
    ),
    slip(
        "the phrase is written",
        Some("W-214: a dead"),
        "-> Place {",
        "-> Place {
         let mut phrase = phrase;
         if let LentPhrase::Text([.., last]) = &mut phrase {
             *last ^= 1;
         }",
    ),
    slip(
        "stand-in cuts an offset to 32 bits",
        Some("W-214: past"),
        "-> Place {
        match self.heap(lent).and_then(|heap| heap.live(offset)) {",
        "-> Place {
        match self.heap(lent).and_then(|heap| heap.live(offset as u32 as usize)) {",
    ),
];

/// The slips of W-203: first those of the walk. A bound of A - 1, or of more than A, is none: a walk that passes A
/// arenas passes one of them twice, since it never passes its own, and then it has no end.
const ORDER: &[Slip] = &[
    slip(
        "an arena keeps its place in the list",
        Some("W-203: always rising"),
        "self.move_back(arena, free)?;",
        "self.walk(Path::ArenaStays);",
    ),
    slip(
        "in sixteen an arena keeps its place in the list",
        Some("W-203: the arena of a resize"),
        "self.move_back(arena, free)?;",
        "if self.edition == Edition::Eight {
             self.move_back(arena, free)?;
         }",
    ),
    slip(
        "only the front arena moves",
        Some("W-203: one passed, from behind"),
        "self.move_back(arena, free)?;",
        "if self.read(USABLE) == arena + 1 {
             self.move_back(arena, free)?;
         }",
    ),
    slip(
        "arenas with as many free pools are passed",
        Some("W-203: as many"),
        "self.read(self.arena(*other, FREE_POOLS)) < free",
        "self.read(self.arena(*other, FREE_POOLS)) <= free",
    ),
    slip(
        "arenas with more free pools are passed",
        Some("W-203: the next ask"),
        "self.read(self.arena(*other, FREE_POOLS)) < free",
        "self.read(self.arena(*other, FREE_POOLS)) > free",
    ),
    slip(
        "the walk goes by the number before it rose",
        Some("W-203, read: free pools"),
        "self.read(self.arena(*other, FREE_POOLS)) < free",
        "self.read(self.arena(*other, FREE_POOLS)) < free - 1",
    ),
    slip(
        "an arena that the walk comes back to has the number before it rose",
        Some("W-203, read: an arena that"),
        "self.read(self.arena(*other, FREE_POOLS)) < free",
        "self.read(self.arena(*other, FREE_POOLS)) < free + usize::from(*other == arena)",
    ),
    slip(
        "no more than one arena is passed",
        Some("W-203: two passed"),
        "while let Some(other) = following.filter(",
        "if let Some(other) = following.filter(",
    ),
    slip(
        "no more than two arenas are passed",
        Some("W-203: all others"),
        "while let Some(other) = following.filter(|other|",
        "while let Some(other) = following.filter(|other| passed.len() < 2 &&",
    ),
    slip(
        "only open arenas are passed",
        Some("W-203: a closed"),
        "while let Some(other) = following.filter(|other|",
        "while let Some(other) = following.filter(|other| self.read(self.arena(*other, OPEN)) == 1 &&",
    ),
    slip(
        "the place is looked for in the whole list",
        Some("W-203, read: a list kept"),
        "self.walk_ends(arena, free, following);",
        "let mut left = self.arenas;
         while let Some(other) = following.filter(|other| *other != arena && left > 0) {
             left -= 1;
             if self.read(self.arena(other, FREE_POOLS)) < free {
                 passed.push(other);
             }
             following = self.read(list.next(other)).checked_sub(1).filter(|next| *next < list.most);
         }",
    ),
    slip(
        "the walk begins at the usable head",
        Some("W-203: the next ask"),
        "self.follow(list.next(arena), list.most, Rule::WalkNext)?",
        "self.follow(list.head, list.most, Rule::WalkNext)?",
    ),
    slip(
        "the walk goes towards the front",
        Some("W-203: the next ask"),
        "self.follow(list.next(arena), list.most, Rule::WalkNext)?",
        "self.follow(list.previous(arena), list.most, Rule::WalkNext)?",
    ),
    slip(
        "own next above A is none",
        Some("W-203, read: own next"),
        "self.follow(list.next(arena), list.most, Rule::WalkNext)?",
        "self.read(list.next(arena)).checked_sub(1).filter(|next| *next < list.most)",
    ),
    slip(
        "a passed arena's next above A is none",
        Some("W-203: a walk into"),
        "following = self.follow(list.next(other), list.most, Rule::PassedNext)?;",
        "if self.read(list.next(other)) > list.most {
             self.put(list.next(other), 0);
         }
         following = self.follow(list.next(other), list.most, Rule::PassedNext)?;",
    ),
    slip(
        "a passed arena's previous above A is a 6",
        Some("W-203: links that"),
        "passed.push(other);",
        "passed.push(other);
         self.follow(list.previous(other), list.most, Rule::PassedNext)?;",
    ),
    slip(
        "a follower's next is tested although it is not passed",
        Some("W-203: a walk into"),
        "self.walk_ends(arena, free, following);",
        "if let Some(other) = following {
             self.follow(list.next(other), list.most, Rule::PassedNext)?;
         }",
    ),
    slip(
        "a follower with more than P free pools is 6",
        Some("W-203, read: a follower's"),
        "self.walk_ends(arena, free, following);",
        "if let Some(other) = following {
             self.rule(self.read(self.arena(other, FREE_POOLS)) <= self.pools, Rule::PassedNext)?;
         }",
    ),
    slip(
        "a follower with no free pools is 6",
        Some("W-203, read: a follower's"),
        "passed.push(other);",
        "passed.push(other);
         self.rule(self.read(self.arena(other, FREE_POOLS)) != 0, Rule::PassedNext)?;",
    ),
    slip(
        "a walk longer than one arena is a 6",
        Some("W-203: two passed"),
        "passed.len() <= self.arenas",
        "passed.len() <= 1",
    ),
    slip(
        "a walk longer than A - 2 arenas is a 6",
        Some("W-203: all others"),
        "passed.len() <= self.arenas",
        "passed.len() + 2 <= self.arenas",
    ),
    slip(
        "a walk longer than P arenas is a 6",
        Some("W-203: all others"),
        "passed.len() <= self.arenas",
        "passed.len() <= self.pools",
    ),
    slip(
        "a walk longer than A arenas stops at A",
        Some("W-203: a cycle of"),
        "while let Some(other) = following.filter(|other|",
        "while let Some(other) = following.filter(|other| passed.len() < self.arenas &&",
    ),
    slip(
        "the walk stops at an arena that was passed before",
        Some("W-203, read: more"),
        "while let Some(other) = following.filter(|other|",
        "while let Some(other) = following.filter(|other| !passed.contains(other) &&",
    ),
    slip(
        "a walk that comes back to its own arena is a 6",
        Some("W-203: a cycle through"),
        "self.walk_ends(arena, free, following);",
        "self.rule(following != Some(arena), Rule::LongWalk)?;",
    ),
    slip(
        "a newly usable arena moves as well",
        Some("W-203: a newly"),
        "self.join(self.arena_list(USABLE), arena, Rule::UsableAgainHead)?;",
        "self.join(self.arena_list(USABLE), arena, Rule::UsableAgainHead)?;
         self.move_back(arena, free)?;",
    ),
    slip(
        "a released arena walks before it leaves",
        Some("W-203: a released"),
        "self.walk(Path::Released);",
        "self.move_back(arena, free)?;",
    ),
];

/// Those of what comes after the walk.
const GOING_IN: &[Slip] = &[
    slip(
        "an arena that passes none joins the list anew",
        Some("W-203: none passed"),
        "self.walk(Path::ArenaStays);",
        "self.leave(list, arena, [Rule::WalkNext, Rule::MovedPrevious])?;
         self.join(list, arena, Rule::UsableAgainHead)?;",
    ),
    slip(
        "an arena that passes none tells the next one so",
        None,
        "self.walk(Path::ArenaStays);",
        "if let Some(after) = following {
             self.put(list.previous(after), link_to(Some(arena)));
         }",
    ),
    slip(
        "an arena that passes none tells the one before so",
        None,
        "self.walk(Path::ArenaStays);",
        "match self.read(list.previous(arena)).checked_sub(1) {
             Some(before) if before < list.most => self.put(list.next(before), link_to(Some(arena))),
             Some(_) => {}
             None => self.put(list.head, link_to(Some(arena))),
         }",
    ),
    slip(
        "own previous is tested where none is passed",
        Some("W-203, read: own previous"),
        "self.walk(Path::ArenaStays);",
        "self.follow(list.previous(arena), list.most, Rule::MovedPrevious)?;",
    ),
    slip(
        "own previous above A is none",
        Some("W-203, read: own previous"),
        "let front = self.read(list.previous(arena)) == 0;",
        "let front = self.read(list.previous(arena)) > list.most;
         if front {
             self.put(list.previous(arena), 0);
         }",
    ),
    slip(
        "own previous that was passed is a 6",
        Some("W-203: own previous is a passed"),
        "let front = self.read(list.previous(arena)) == 0;",
        "let front = self.read(list.previous(arena)) == 0;
         self.rule(!passed.iter().any(|other| self.read(list.previous(arena)) == other + 1), Rule::MovedPrevious)?;",
    ),
    slip(
        "an arena at the front is told by the head",
        Some("W-203: own previous is the arena"),
        "let front = self.read(list.previous(arena)) == 0;",
        "let front = self.read(list.head) == arena + 1;
         if front {
             self.put(list.previous(arena), 0);
         }",
    ),
    slip(
        "an arena that moves goes in before the last passed",
        Some("W-203: the next ask"),
        "let last = match passed.last() {",
        "passed.pop();
         let last = match passed.last() {",
    ),
    slip(
        "an arena that moves goes in after the first passed",
        Some("W-203: two passed"),
        "let last = match passed.last() {",
        "let last = match passed.first() {",
    ),
    slip(
        "an arena that moves goes in after the first that is not passed",
        Some("W-203: one passed, from the front"),
        "let last = match passed.last() {",
        "if let (Some(stop), false) = (following.filter(|stop| *stop != arena), passed.is_empty()) {
             self.follow(list.next(stop), list.most, Rule::PassedNext)?;
             passed.push(stop);
         }
         let last = match passed.last() {",
    ),
    slip(
        "an arena that moves goes to the end of the list",
        Some("W-203: one passed, from the front"),
        "self.go_in_after(list, arena, last);",
        "let mut last = last;
         for _ in 0..self.arenas {
             last = self.follow(list.next(last), list.most, Rule::PassedNext)?.unwrap_or(last);
         }
         self.go_in_after(list, arena, last);",
    ),
    slip(
        "an arena that moves does not leave first",
        Some("W-203: the next ask"),
        "self.leave(list, arena, [Rule::WalkNext, Rule::MovedPrevious])?;",
        "self.follow(list.previous(arena), list.most, Rule::MovedPrevious)?;",
    ),
    slip(
        "an arena that moves leaves the unused list",
        Some("W-203: the next ask"),
        "self.leave(list, arena, [Rule::WalkNext, Rule::MovedPrevious])?;",
        "self.leave(self.arena_list(UNUSED), arena, [Rule::WalkNext, Rule::MovedPrevious])?;",
    ),
    slip(
        "an arena that moves leaves the next one's previous",
        Some("W-203: the next ask"),
        "self.leave(list, arena, [Rule::WalkNext, Rule::MovedPrevious])?;",
        "let (first, back) = (passed[0], self.read(list.previous(passed[0])));
         self.leave(list, arena, [Rule::WalkNext, Rule::MovedPrevious])?;
         self.put(list.previous(first), back);",
    ),
    slip(
        "what follows the last passed is read before leaving",
        Some("W-203, read: what follows"),
        "self.go_in_after(list, arena, last);",
        "self.put(list.next(last), link_to(following));
         self.go_in_after(list, arena, last);",
    ),
    slip(
        "the next one's previous stays as it was",
        Some("W-203: one passed, from the front"),
        "self.put(list.previous(after), link_to(Some(member)));",
        "let _ = after;",
    ),
    slip(
        "the next one's previous becomes the last passed",
        Some("W-203: one passed, from the front"),
        "self.put(list.previous(after), link_to(Some(member)));",
        "self.put(list.previous(after), link_to(Some(last)));",
    ),
    slip(
        "the last passed's next stays as it was",
        Some("W-203: the next ask"),
        "self.put(list.next(last), link_to(Some(member)));",
        "",
    ),
    slip(
        "own next is left at none",
        Some("W-203: one passed, from the front"),
        "self.put(list.next(member), link_to(next));",
        "",
    ),
    slip(
        "own previous is left at none",
        Some("W-203: one passed, the records"),
        "self.put(list.previous(member), link_to(Some(last)));",
        "",
    ),
    slip(
        "a resize whose walk is a 6 answers offset 0",
        Some("W-203: a resize is half"),
        "return Err(Answer { number: 6, value: new as u32 });",
        "let walk = matches!(self.trail.broken, Some(Rule::WalkNext | Rule::PassedNext | Rule::LongWalk));
         return Err(Answer { number: 6, value: if walk { 0 } else { new as u32 } });",
    ),
    slip(
        "own links are written last",
        Some("W-203, read: own links"),
        "self.put(list.next(last), link_to(Some(member)));",
        "self.put(list.next(last), link_to(Some(member)));
         self.put(list.next(member), link_to(next));
         self.put(list.previous(member), link_to(Some(last)));",
    ),
];

/// W-201: rules 1 to 5 of the audit.
const AUDIT_1_TO_5: &[Slip] = &[
    slip(
        "a wrong length breaks no rule of the audit",
        Some("W-201: rule 1, A"),
        "                1
            }",
        "                2 - number
            }",
    ),
    slip(
        "an edition above 1 breaks no rule of the audit",
        Some("W-201: rule 1, A"),
        "    fn audit(&mut self, lent: Lent) -> u32 {
",
        "    fn audit(&mut self, lent: Lent) -> u32 {
        if lent.books.len() > EDITION && lent.books[EDITION] > 1 { return 0; }
",
    ),
    in_audit(
        "the audit counts a pool's live blocks anew",
        Some("W-201: rule 7"),
        "        let rules: [fn(&Self) -> Kept; 8] = [",
        "        if self.set_bits(0) > 0 {
            self.put(self.pool(0, COUNT), self.set_bits(0));
        }
        let rules: [fn(&Self) -> Kept; 8] = [",
    ),
    in_audit(
        "open 2 breaks no rule",
        Some("W-201: rule 2, open"),
        "self.read(self.arena(arena, OPEN)) <= 1",
        "self.read(self.arena(arena, OPEN)) <= 2",
    ),
    in_audit(
        "open is tested in the first arena alone",
        Some("W-201: rule 2, open"),
        "keeps(self.read(self.arena(arena, OPEN)) <= 1, Clause::OpenAbove)?;",
        "keeps(arena > 0 || self.read(self.arena(arena, OPEN)) <= 1, Clause::OpenAbove)?;",
    ),
    in_audit(
        "the last spare word is not tested",
        Some("W-201: rule 2, the spare"),
        "for word in EDITION + 1..ARENAS {",
        "for word in EDITION + 1..ARENAS - 1 {",
    ),
    in_audit(
        "the spare word after the edition is not tested",
        Some("W-201: rule 2, the spare"),
        "for word in EDITION + 1..ARENAS {",
        "for word in EDITION + 2..ARENAS {",
    ),
    in_audit(
        "an arena record's last but one is not tested",
        Some("W-201: rule 2, the last"),
        "keeps(self.read(self.arena(arena, 6)) == 0, Clause::ArenaWord6)?;",
        "",
    ),
    in_audit(
        "an arena record's last is not tested",
        Some("W-201: rule 2, the last"),
        "keeps(self.read(self.arena(arena, 7)) == 0, Clause::ArenaWord7)?;",
        "",
    ),
    in_audit(
        "a pool record's last is not tested",
        Some("W-201: rule 2, the last"),
        "keeps(self.read(self.pool(pool, 7)) == 0, Clause::PoolWord7)?;",
        "",
    ),
    in_audit(
        "a pool record's last is tested in carved pools alone",
        Some("W-201: rule 2, the last"),
        "keeps(self.read(self.pool(pool, 7)) == 0, Clause::PoolWord7)?;",
        "keeps(!self.carved(pool) || self.read(self.pool(pool, 7)) == 0, Clause::PoolWord7)?;",
    ),
    in_audit(
        "a closed arena's carve mark is not tested",
        Some("W-201: rule 3"),
        "keeps(self.read(self.arena(arena, CARVE_MARK)) == 0, Clause::ClosedMark)?;",
        "",
    ),
    in_audit(
        "a closed arena's free pools is not tested",
        Some("W-201: rule 3"),
        "keeps(self.read(self.arena(arena, FREE_POOLS)) == 0, Clause::ClosedFree)?;",
        "",
    ),
    in_audit(
        "a closed arena's freed-pool head is not tested",
        Some("W-201: rule 3"),
        "keeps(self.read(self.arena(arena, FREED_HEAD)) == 0, Clause::ClosedHead)?;",
        "",
    ),
    in_audit(
        "a closed arena's next is held to 0",
        Some("W-201: rule 3"),
        "keeps(self.read(self.arena(arena, FREED_HEAD)) == 0, Clause::ClosedHead)?;",
        "keeps(self.read(self.arena(arena, FREED_HEAD)) == 0, Clause::ClosedHead)?;
             keeps(self.read(self.arena(arena, ARENA_NEXT)) == 0, Clause::ClosedHead)?;",
    ),
    in_audit(
        "carve mark 0 breaks no rule",
        Some("W-201: rule 4, the carve"),
        "keeps(mark >= 1, Clause::MarkNone)?;",
        "",
    ),
    in_audit(
        "carve mark 1 breaks rule 4",
        Some("W-201: yes from"),
        "keeps(mark >= 1, Clause::MarkNone)?;",
        "keeps(mark >= 2, Clause::MarkNone)?;",
    ),
    in_audit(
        "carve mark P + 1 breaks no rule",
        Some("W-201: rule 4, the carve"),
        "keeps(mark <= self.pools, Clause::MarkAbove)?;",
        "keeps(mark <= self.pools + 1, Clause::MarkAbove)?;",
    ),
    in_audit(
        "carve mark P breaks rule 4",
        Some("W-201: rule 4, the carve"),
        "keeps(mark <= self.pools, Clause::MarkAbove)?;",
        "keeps(mark < self.pools, Clause::MarkAbove)?;",
    ),
    in_audit(
        "fewer free pools break no rule",
        Some("W-201: rule 4, free"),
        "keeps(free >= not_in_use, Clause::FewFree)?;",
        "",
    ),
    in_audit(
        "more free pools break no rule",
        Some("W-201: rule 4, free"),
        "keeps(free <= not_in_use, Clause::ManyFree)?;",
        "",
    ),
    in_audit(
        "a pool not carved is no free one",
        Some("W-201: rule 4, free"),
        "self.pools_of(arena).filter(|pool| !self.in_use(*pool)).count();",
        "self.pools_of(arena).filter(|pool| self.freed(*pool)).count();",
    ),
    in_audit(
        "a bit in a pool not carved breaks no rule",
        Some("W-201: rule 5, a pool"),
        "keeps(self.carved(pool), Clause::BitNotCarved)?;",
        "if !self.carved(pool) { continue; }",
    ),
    in_audit(
        "a bit of a class without blocks breaks no rule",
        Some("W-201: rule 5, a class"),
        "keeps(blocks > 0, Clause::BitNoClass)?;",
        "if blocks == 0 { continue; }",
    ),
    in_audit(
        "a class has blocks up to 63 in both editions",
        Some("W-201: rule 5, a class"),
        "if class > self.edition.last_class() {
            return 0;",
        "if class > 63 {
            return 0;",
    ),
    in_audit(
        "a bit past the last block breaks no rule",
        Some("W-201: rule 5, past"),
        "keeps((blocks..BITS).all(|k| !self.bit(pool, k)), Clause::BitNoBlock)?;",
        "",
    ),
    in_audit(
        "the bit next to the last block's breaks no rule",
        Some("W-201: rule 5, past"),
        "(blocks..BITS).all(",
        "(blocks + 1..BITS).all(",
    ),
    in_audit(
        "the last block's bit breaks rule 5",
        Some("W-201: rule 5, past"),
        "(blocks..BITS).all(",
        "(blocks - 1..BITS).all(",
    ),
    in_audit(
        "a pool's last bit is not tested",
        Some("W-201: rule 5, past"),
        "const BITS: usize = 512;",
        "const BITS: usize = 511;",
    ),
];

/// W-201: rule 6.
const AUDIT_6: &[Slip] = &[
    in_audit(
        "a link that leads to no record ends a list",
        None,
        "keeps((1..=most).contains(&link), of[0])?;",
        "if link > most { break; }",
    ),
    in_audit(
        "a walk without an end stops",
        None,
        "keeps(row.len() < most, of[1])?;",
        "if row.len() == most { break; }",
    ),
    in_audit(
        "a list may lack a member",
        Some("W-201: rule 6, freed"),
        "keeps(members.iter().all(|member| row.contains(member)), of[2])?;",
        "",
    ),
    in_audit(
        "a list may hold another",
        Some("W-201: rule 6, freed"),
        "keeps(row.iter().all(|member| members.contains(member)), of[3])",
        "Ok(())",
    ),
    in_audit(
        "a list that has as many as it should holds just its members",
        None,
        "keeps(members.iter().all(|member| row.contains(member)), of[2])?;
    keeps(row.iter().all(|member| members.contains(member)), of[3])",
        "keeps(row.len() == members.len(), of[2])",
    ),
    in_audit("freed-pool lists are not tested", Some("W-201: rule 6, freed"), "self.freed_list(arena)?;", ""),
    in_audit(
        "a freed-pool list is tested in an arena with one freed pool alone",
        Some("W-201: rule 6, freed"),
        "self.freed_list(arena)?;",
        "if self.pools_of(arena).filter(|pool| self.freed(*pool)).count() == 1 { self.freed_list(arena)?; }",
    ),
    in_audit(
        "a freed-pool list may hold another arena's freed pools",
        None,
        "just_its_members(&row, &members, OF_FREED)?;",
        "let mut own = row.clone();
         own.retain(|pool| pool / self.pools == arena || !self.freed(*pool));
         just_its_members(&own, &members, OF_FREED)?;",
    ),
    in_audit(
        "a freed pool's previous is not tested",
        Some("W-201: rule 6, freed"),
        "keeps(row.iter().all(|pool| self.read(self.pool(*pool, POOL_PREVIOUS)) == 0), OF_FREED[4])",
        "Ok(())",
    ),
    in_audit(
        "a freed pool's previous is held to the one before",
        Some("W-201: rule 6, freed"),
        "keeps(row.iter().all(|pool| self.read(self.pool(*pool, POOL_PREVIOUS)) == 0), OF_FREED[4])",
        "keeps(row.windows(2).all(|two| self.read(self.pool(two[1], POOL_PREVIOUS)) == two[0] + 1), OF_FREED[4])",
    ),
    in_audit(
        "the usable list is not tested",
        Some("W-201: rule 6, the usable"),
        "self.linked_both_ways(self.arena_list(USABLE), &usable, OF_USABLE)?;",
        "",
    ),
    in_audit(
        "the usable list holds every open arena",
        Some("W-201: rule 6, the usable"),
        "self.arenas_that(|arena| self.open(arena) && !spent(arena));",
        "self.arenas_that(|arena| self.open(arena));",
    ),
    in_audit(
        "the usable list holds the open arenas with a freed pool",
        None,
        "self.arenas_that(|arena| self.open(arena) && !spent(arena));",
        "self.arenas_that(|arena| self.open(arena) && self.read(self.arena(arena, FREED_HEAD)) != 0);",
    ),
    in_audit(
        "the unused list is not tested",
        Some("W-201: rule 6, the unused"),
        "self.linked_both_ways(self.arena_list(UNUSED), &unused, OF_UNUSED)?;",
        "",
    ),
    in_audit(
        "the unused list may be empty",
        Some("W-201: rule 6, the unused"),
        "self.linked_both_ways(self.arena_list(UNUSED), &unused, OF_UNUSED)?;",
        "if self.read(UNUSED) != 0 { self.linked_both_ways(self.arena_list(UNUSED), &unused, OF_UNUSED)?; }",
    ),
    in_audit(
        "class lists are not tested",
        Some("W-201: rule 6, class"),
        "self.linked_both_ways(self.class_list(class), &members, OF_CLASS)?;",
        "",
    ),
    in_audit(
        "the last class's list is not tested",
        Some("W-201: rule 6, class"),
        "for class in 0..EDITION - CLASSES {",
        "for class in (0..EDITION - CLASSES).filter(|class| *class != self.edition.last_class()) {",
    ),
    in_audit(
        "a class list holds full pools too",
        Some("W-201: rule 6, class"),
        "self.pools_that(|pool| self.in_use(pool) && !self.full(pool));",
        "self.pools_that(|pool| self.in_use(pool));",
    ),
    in_audit(
        "a class list holds freed pools too",
        None,
        "self.pools_that(|pool| self.in_use(pool) && !self.full(pool));",
        "self.pools_that(|pool| self.carved(pool) && !self.full(pool));",
    ),
    in_audit(
        "a pool may be on another class's list",
        Some("W-201: rule 6, class"),
        "members.retain(|pool| self.read(self.pool(*pool, CLASS)) == class);",
        "let row = self.row(CLASSES + class, |pool| self.pool(pool, POOL_NEXT), self.all_pools(), OF_CLASS)?;
             members.retain(|pool| row.contains(pool));",
    ),
    in_audit(
        "previous is not tested",
        Some("W-201: rule 6, the usable"),
        "keeps(self.read(list.previous(member)) == link_to(before), of[4])?;",
        "",
    ),
    in_audit(
        "the previous of the first is not tested",
        Some("W-201: rule 6, the usable"),
        "keeps(self.read(list.previous(member)) == link_to(before), of[4])?;",
        "keeps(before.is_none() || self.read(list.previous(member)) == link_to(before), of[4])?;",
    ),
    in_audit(
        "the previous of the first alone is tested",
        Some("W-201: rule 6, the usable"),
        "keeps(self.read(list.previous(member)) == link_to(before), of[4])?;",
        "keeps(before.is_some() || self.read(list.previous(member)) == link_to(before), of[4])?;",
    ),
    in_audit(
        "a full pool's next is not tested",
        Some("W-201: rule 6, full"),
        "keeps(self.read(self.pool(pool, POOL_NEXT)) == 0, Clause::FullNext)?;",
        "",
    ),
    in_audit(
        "a full pool's previous is not tested",
        Some("W-201: rule 6, full"),
        "keeps(self.read(self.pool(pool, POOL_PREVIOUS)) == 0, Clause::FullPrevious)?;",
        "",
    ),
    in_audit(
        "the next of an arena without free pools is not tested",
        Some("W-201: rule 6, full"),
        "keeps(self.read(self.arena(arena, ARENA_NEXT)) == 0, Clause::SpentNext)?;",
        "",
    ),
    in_audit(
        "the previous of an arena without free pools is not tested",
        Some("W-201: rule 6, full"),
        "keeps(self.read(self.arena(arena, ARENA_NEXT + 1)) == 0, Clause::SpentPrevious)?;",
        "",
    ),
];

/// W-201: rules 7 to 9.
const AUDIT_7_TO_9: &[Slip] = &[
    in_audit(
        "a count below the set bits breaks no rule",
        Some("W-201: rule 7"),
        "keeps(count >= self.set_bits(pool), Clause::CountBelow)?;",
        "",
    ),
    in_audit(
        "a count above the set bits breaks no rule",
        Some("W-201: rule 7"),
        "keeps(count <= self.set_bits(pool), Clause::CountAbove)?;",
        "",
    ),
    in_audit(
        "a freed pool's count is not tested",
        Some("W-201: rule 7"),
        "keeps(count <= self.set_bits(pool), Clause::CountAbove)?;",
        "keeps(self.freed(pool) || count <= self.set_bits(pool), Clause::CountAbove)?;",
    ),
    in_audit(
        "a freed pool may have any class",
        Some("W-201: rule 8, a freed pool's"),
        "keeps(class <= self.edition.last_class(), Clause::FreedClass)?;",
        "if class > self.edition.last_class() { continue; }",
    ),
    in_audit(
        "a freed pool may not have class 65,535",
        Some("W-201: after a yes"),
        "if self.freed(pool) && class == NO_CLASS {",
        "if false {",
    ),
    in_audit(
        "the freeblock of a freed pool of class 65,535 is not tested",
        Some("W-201: rule 8, a freed pool of"),
        "![POOL_NEXT, CLASS].contains(word)",
        "![POOL_NEXT, CLASS, FREEBLOCK].contains(word)",
    ),
    in_audit(
        "the nextoffset of a freed pool of class 65,535 is not tested",
        Some("W-201: rule 8, a freed pool of"),
        "![POOL_NEXT, CLASS].contains(word)",
        "![POOL_NEXT, CLASS, NEXTOFFSET].contains(word)",
    ),
    in_audit(
        "the maxnextoffset of a freed pool of class 65,535 is not tested",
        Some("W-201: rule 8, a freed pool of"),
        "![POOL_NEXT, CLASS].contains(word)",
        "![POOL_NEXT, CLASS, MAXNEXTOFFSET].contains(word)",
    ),
    in_audit(
        "the next of a freed pool of class 65,535 is held to 0",
        Some("W-201: rule 8, a freed pool of"),
        "![POOL_NEXT, CLASS].contains(word)",
        "CLASS != *word",
    ),
    in_audit(
        "maxnextoffset is not tested",
        Some("W-201: rule 8, maxnextoffset"),
        "keeps(self.read(self.pool(pool, MAXNEXTOFFSET)) == POOL - size, Clause::Maximum)?;",
        "",
    ),
    in_audit(
        "maxnextoffset is the last block's start",
        Some("W-201: rule 8, maxnextoffset"),
        "keeps(self.read(self.pool(pool, MAXNEXTOFFSET)) == POOL - size, Clause::Maximum)?;",
        "keeps(self.read(self.pool(pool, MAXNEXTOFFSET)) == HEADER + (blocks - 1) * size, Clause::Maximum)?;",
    ),
    in_audit(
        "nextoffset may be no block start",
        Some("W-201: rule 8, nextoffset"),
        "keeps(nextoffset == end || self.edition.block_at(class, nextoffset).is_some(), Clause::Nextoffset)?;",
        "",
    ),
    in_audit(
        "nextoffset may not be the last block's end",
        Some("W-201: yes from"),
        "keeps(nextoffset == end || self",
        "keeps(self",
    ),
    in_audit(
        "nextoffset may lie past the last block's end",
        Some("W-201: rule 8, nextoffset"),
        "keeps(nextoffset == end || self",
        "keeps(nextoffset >= end || self",
    ),
    in_audit(
        "the freed chain ends where no block starts",
        Some("W-201: rule 8, the freed"),
        "let k = self.edition.block_at(class, start).ok_or(Clause::ChainNoStart)?;",
        "let k = match self.edition.block_at(class, start) { Some(k) => k, None => break };",
    ),
    in_audit(
        "a freed chain without an end stops",
        Some("W-201: rule 8, the freed"),
        "keeps(chain.len() < self.blocks(pool), Clause::ChainNoEnd)?;",
        "if chain.len() == self.blocks(pool) { break; }",
    ),
    in_audit(
        "a block may be neither live, freed nor virgin",
        Some("W-201: rule 8, each"),
        "keeps(live || freed || virgin, Clause::InNone)?;",
        "",
    ),
    in_audit(
        "a block may be live and on the freed chain",
        Some("W-201: rule 8, each"),
        "keeps(!(live && freed), Clause::LiveAndFreed)?;",
        "",
    ),
    in_audit(
        "a block may be live and virgin",
        Some("W-201: each way"),
        "keeps(!(live && virgin), Clause::LiveAndVirgin)?;",
        "",
    ),
    in_audit(
        "a block may be on the freed chain and virgin",
        Some("W-201: rule 8, each"),
        "keeps(!(freed && virgin), Clause::FreedAndVirgin)?;",
        "",
    ),
    in_audit(
        "the last block is not tested",
        Some("W-201: rule 8, nextoffset"),
        "let mut on_chain = vec![false; blocks];
        chain.iter().for_each(|k| on_chain[*k] = true);",
        "let mut on_chain = vec![false; blocks];
        chain.iter().for_each(|k| on_chain[*k] = true);
        on_chain.pop();",
    ),
    in_audit(
        "one on the chain of a freed pool is enough",
        Some("W-201: rule 8, how"),
        "keeps(chain.len() >= 2 || !self.freed(pool), Clause::FreedShort)?;",
        "",
    ),
    in_audit(
        "a pool in use has two on its chain",
        Some("W-201: rule 8, how"),
        "keeps(chain.len() >= 2 || !self.freed(pool), Clause::FreedShort)?;",
        "keeps(chain.len() >= 2 || self.full(pool), Clause::FreedShort)?;",
    ),
    in_audit(
        "a pool in use may have none on its chain",
        Some("W-201: rule 8, how"),
        "keeps(!chain.is_empty() || self.full(pool), Clause::ChainNone)",
        "Ok(())",
    ),
    in_audit(
        "a full pool has one on its chain",
        Some("W-201: yes from"),
        "keeps(!chain.is_empty() || self.full(pool), Clause::ChainNone)",
        "keeps(!chain.is_empty(), Clause::ChainNone)",
    ),
    in_audit("the order is not tested", Some("W-201: rule 9"), "free(two[0]) <= free(two[1])", "true"),
    in_audit("the order falls", Some("W-201: rule 9"), "free(two[0]) <= free(two[1])", "free(two[0]) >= free(two[1])"),
    in_audit("the order of the first two alone is tested", None, "row.windows(2).all(", "row.windows(2).take(1).all("),
];

/// W-201: the other reading of each place that leaves room.
const AUDIT_READ: &[Slip] = &[
    in_audit(
        "the highest number is given",
        Some("W-201, read: the lowest"),
        "for (number, rule) in (2..).zip(rules) {",
        "for (number, rule) in (2..10).zip(rules).collect::<Vec<_>>().into_iter().rev() {",
    ),
    slip(
        "the audit of wrong lengths gives the call's number",
        Some("W-201, read: rule 1"),
        "                1
            }",
        "                number
            }",
    ),
    slip(
        "an edition above 1 is rule 2",
        Some("W-201, read: word 68"),
        "    fn audit(&mut self, lent: Lent) -> u32 {
",
        "    fn audit(&mut self, lent: Lent) -> u32 {
        if lent.books.len() > EDITION && lent.books[EDITION] > 1 { return 2; }
",
    ),
    in_audit(
        "the edition is a spare word",
        Some("W-201, read: word 68"),
        "for word in EDITION + 1..ARENAS {",
        "for word in EDITION..ARENAS {",
    ),
    in_audit(
        "a pool not carved is in use by its bit",
        Some("W-201, read: in use"),
        "self.carved(pool) && self.set_bits(pool) > 0",
        "self.set_bits(pool) > 0",
    ),
    in_audit(
        "a set bit is one of a block",
        Some("W-201, read: a set bit"),
        "(0..8).map(|word| self.lent.map[8 * pool + word].count_ones() as usize).sum()",
        "(0..self.blocks(pool)).filter(|k| self.bit(pool, *k)).count()",
    ),
    in_audit(
        "full is told by the count",
        Some("W-201, read: full"),
        "self.in_use(pool) && self.set_bits(pool) == self.blocks(pool)",
        "self.in_use(pool) && self.read(self.pool(pool, COUNT)) == self.blocks(pool)",
    ),
    in_audit(
        "heads 36 to 67 are not tested in sixteen",
        Some("W-201, read: heads"),
        "for class in 0..EDITION - CLASSES {",
        "for class in 0..=self.edition.last_class() {",
    ),
    in_audit(
        "the count of a pool not carved is not tested",
        Some("W-201, read: each pool"),
        "keeps(count <= self.set_bits(pool), Clause::CountAbove)?;",
        "keeps(!self.carved(pool) || count <= self.set_bits(pool), Clause::CountAbove)?;",
    ),
    in_audit(
        "the blocks of a freed pool are not tested",
        Some("W-201, read: every carved"),
        "self.blocks_of(pool, class)?;",
        "if !self.freed(pool) { self.blocks_of(pool, class)?; }",
    ),
    in_audit(
        "the freed chain may lead through what is no block",
        Some("W-201, read: the chain"),
        "let k = self.edition.block_at(class, start).ok_or(Clause::ChainNoStart)?;",
        "if start > POOL - 4 { return Err(Clause::ChainNoStart); }
            let k = match self.edition.block_at(class, start) {
                Some(k) => k,
                None => {
                    start = self.link_in(pool, start);
                    if self.edition.block_at(class, start).is_none() && start != 0 { return Err(Clause::ChainNoStart); }
                    continue;
                }
            };",
    ),
    in_audit(
        "an open arena with no pool in use breaks rule 4",
        Some("W-201, read: an open"),
        "keeps(free <= not_in_use, Clause::ManyFree)?;",
        "keeps(free <= not_in_use && free < self.pools, Clause::ManyFree)?;",
    ),
    in_audit(
        "a pool not carved has class 65,535 and no links",
        Some("W-201, read: a pool not carved"),
        "keeps(self.read(self.pool(pool, 7)) == 0, Clause::PoolWord7)?;",
        "keeps(self.read(self.pool(pool, 7)) == 0, Clause::PoolWord7)?;
             keeps(self.carved(pool) || self.read(self.pool(pool, CLASS)) == NO_CLASS, Clause::PoolWord7)?;",
    ),
    in_audit(
        "as many free pools break the order",
        Some("W-201, read: rising"),
        "free(two[0]) <= free(two[1])",
        "free(two[0]) < free(two[1])",
    ),
    in_audit(
        "a fall to one free pool breaks no order",
        Some("W-201, read: a list kept"),
        "free(two[0]) <= free(two[1])",
        "free(two[0]) <= free(two[1]).max(2)",
    ),
];

/// W-212: what is listed.
const COMPARE_LISTS: &[Slip] = &[
    in_compare(
        "kinds 1 and 2 are exchanged",
        Some("W-212: live in"),
        "const IN_FIRST_ALONE: u32 = 1;
const IN_SECOND_ALONE: u32 = 2;",
        "const IN_FIRST_ALONE: u32 = 2;
const IN_SECOND_ALONE: u32 = 1;",
    ),
    in_compare(
        "kinds 3 and 4 are exchanged",
        Some("W-212: another size"),
        "const ANOTHER_SIZE: u32 = 3;
const OTHER_BYTES: u32 = 4;",
        "const ANOTHER_SIZE: u32 = 4;
const OTHER_BYTES: u32 = 3;",
    ),
    in_compare(
        "a block that is live in the first alone is not listed",
        Some("W-212: as view tells"),
        "(Some(_), None) => Some(IN_FIRST_ALONE),",
        "(Some(_), None) => None,",
    ),
    in_compare(
        "a block that is live in the second alone is not listed",
        Some("W-212: calls, texts"),
        "(None, Some(_)) => Some(IN_SECOND_ALONE),",
        "(None, Some(_)) => None,",
    ),
    in_compare(
        "another size is not listed",
        Some("W-212: another size"),
        "first.bytes.len() != second.bytes.len() => Some(ANOTHER_SIZE),",
        "first.bytes.len() != second.bytes.len() => None,",
    ),
    in_compare(
        "another size is listed as other bytes",
        Some("W-212: another size"),
        "=> Some(ANOTHER_SIZE),",
        "=> Some(OTHER_BYTES),",
    ),
    in_compare(
        "a block of another size is listed as live in the first alone",
        Some("W-212: a pool of another"),
        "=> Some(ANOTHER_SIZE),",
        "=> Some(IN_FIRST_ALONE),",
    ),
    in_compare(
        "other bytes are not listed",
        Some("W-212: other bytes"),
        "if first.bytes != second.bytes => Some(OTHER_BYTES),",
        "if first.bytes != second.bytes => None,",
    ),
    in_compare(
        "equal blocks are listed",
        Some("W-212: equal heaps"),
        "(Some(first), Some(second)) if first.bytes != second.bytes => Some(OTHER_BYTES),",
        "(Some(_), Some(_)) => Some(OTHER_BYTES),",
    ),
    in_compare(
        "bytes come before size",
        Some("W-212: size before"),
        "        (Some(first), Some(second)) if first.bytes.len()",
        "        (Some(first), Some(second)) if first.bytes.iter().zip(second.bytes).any(|(a, b)| a != b) => {
            Some(OTHER_BYTES)
        }
        (Some(first), Some(second)) if first.bytes.len()",
    ),
    in_compare(
        "another size with other bytes is listed twice",
        Some("W-212: size before"),
        "offsets.into_iter().filter_map(entry).collect()",
        "let both = |offset: usize| {
        let (one, other) = (first.get(&offset)?.bytes, second.get(&offset)?.bytes);
        let too = one.len() != other.len() && one.iter().zip(other).any(|(one, other)| one != other);
        too.then_some([offset as u32, OTHER_BYTES])
    };
    offsets.into_iter().flat_map(|offset| [entry(offset), both(offset)]).flatten().collect()",
    ),
    in_compare(
        "the first byte of a block alone is compared",
        Some("W-212: other bytes"),
        "if first.bytes != second.bytes =>",
        "if first.bytes[0] != second.bytes[0] =>",
    ),
    in_compare(
        "the last byte of a block is left out",
        Some("W-212, read: other bytes"),
        "if first.bytes != second.bytes =>",
        "if first.bytes[..first.bytes.len() - 1] != second.bytes[..second.bytes.len() - 1] =>",
    ),
    in_compare(
        "the bytes where a link would be are left out",
        Some("W-212, read: other bytes"),
        "if first.bytes != second.bytes =>",
        "if first.bytes[4..] != second.bytes[4..] =>",
    ),
    in_compare(
        "the first eight bytes of a block are compared",
        Some("W-212, read: other bytes"),
        "if first.bytes != second.bytes =>",
        "if first.bytes[..8] != second.bytes[..8] =>",
    ),
    in_compare(
        "the byte after a block is compared too",
        Some("W-212, read: bytes of no"),
        "&heap.memory[offset..offset + size]",
        "&heap.memory[offset..(offset + size + 1).min(heap.memory.len())]",
    ),
    in_compare(
        "the list falls",
        Some("W-212: each once"),
        "offsets.into_iter().filter_map(entry)",
        "offsets.into_iter().rev().filter_map(entry)",
    ),
    in_compare(
        "the first heap's blocks are listed first",
        Some("W-212: each once"),
        "let offsets: BTreeSet<usize> = first.keys().chain(second.keys()).copied().collect();",
        "let more = second.keys().filter(|offset| !first.contains_key(offset));
    let offsets: Vec<usize> = first.keys().chain(more).copied().collect();",
    ),
    in_compare(
        "the list is by kind",
        Some("W-212: each once"),
        "offsets.into_iter().filter_map(entry).collect()",
        "let mut entries: Vec<[u32; 2]> = offsets.into_iter().filter_map(entry).collect();
    entries.sort_by_key(|entry| entry[1]);
    entries",
    ),
    in_compare(
        "an offset that is live in both is listed twice",
        Some("W-212: each once"),
        "let offsets: BTreeSet<usize> = first.keys().chain(second.keys()).copied().collect();",
        "let mut offsets: Vec<usize> = first.keys().chain(second.keys()).copied().collect();
    offsets.sort();",
    ),
    in_compare(
        "the last entry is dropped",
        Some("W-212: live in"),
        "offsets.into_iter().filter_map(entry).collect()",
        "let mut entries: Vec<[u32; 2]> = offsets.into_iter().filter_map(entry).collect();
    entries.pop();
    entries",
    ),
    in_compare(
        "an entry's offset is the place in its pool",
        Some("W-212, read: an entry"),
        "Some([offset as u32, kind(",
        "Some([(offset % POOL) as u32, kind(",
    ),
    in_compare(
        "an entry is kind and offset",
        Some("W-212, read: an entry"),
        "words.copy_from_slice(entry);",
        "words.copy_from_slice(&[entry[1], entry[0]]);",
    ),
];

/// W-212: what is changed.
const COMPARE_CHANGES: &[Slip] = &[
    in_compare(
        "the changes are first less second",
        Some("W-212: the changes, second"),
        "    second.values().for_each(|block| changes[block.class] += 1);
    first.values().for_each(|block| changes[block.class] -= 1);",
        "    second.values().for_each(|block| changes[block.class] -= 1);
    first.values().for_each(|block| changes[block.class] += 1);",
    ),
    in_compare(
        "the changes have no sign",
        Some("W-212: the changes, second"),
        "    first.values().for_each(|block| changes[block.class] -= 1);
    changes",
        "    first.values().for_each(|block| changes[block.class] -= 1);
    changes.into_iter().map(i32::abs).collect()",
    ),
    in_compare(
        "where the first heap has more the change is 0",
        Some("W-212: the changes, second"),
        "    first.values().for_each(|block| changes[block.class] -= 1);
    changes",
        "    first.values().for_each(|block| changes[block.class] -= 1);
    changes.into_iter().map(|change: i32| change.max(0)).collect()",
    ),
    in_compare(
        "a block is counted in the class after its own",
        Some("W-212: the changes of each"),
        "    second.values().for_each(|block| changes[block.class] += 1);
    first.values().for_each(|block| changes[block.class] -= 1);",
        "    second.values().for_each(|block| changes[(block.class + 1) % classes] += 1);
    first.values().for_each(|block| changes[(block.class + 1) % classes] -= 1);",
    ),
    in_compare(
        "the blocks of the last class are not counted",
        Some("W-212: the changes of each"),
        "    first.values().for_each(|block| changes[block.class] -= 1);
    changes",
        "    first.values().for_each(|block| changes[block.class] -= 1);
    changes[classes - 1] = 0;
    changes",
    ),
    in_compare(
        "the first heap's blocks are not counted",
        Some("W-212: the changes add up"),
        "    first.values().for_each(|block| changes[block.class] -= 1);
",
        "",
    ),
    in_compare(
        "a change is of 8 bits",
        Some("W-212: the changes of each"),
        "    first.values().for_each(|block| changes[block.class] -= 1);
    changes",
        "    first.values().for_each(|block| changes[block.class] -= 1);
    changes.into_iter().map(|change: i32| i32::from(change as i8)).collect()",
    ),
    in_compare(
        "a block of another size is no change",
        Some("W-212: another size"),
        "    second.values().for_each(|block| changes[block.class] += 1);
    first.values().for_each(|block| changes[block.class] -= 1);",
        "    let alone = |of: &Live, other: &Live| {
        let classes = of.iter().filter(|(offset, _)| !other.contains_key(offset)).map(|(_, block)| block.class);
        classes.collect::<Vec<usize>>()
    };
    alone(second, first).into_iter().for_each(|class| changes[class] += 1);
    alone(first, second).into_iter().for_each(|class| changes[class] -= 1);",
    ),
    in_compare(
        "other bytes are a change",
        Some("W-212: other bytes"),
        "    first.values().for_each(|block| changes[block.class] -= 1);",
        "    let same = |(offset, block): &(&usize, &Block)| {
        second.get(*offset).map_or(true, |other| other.class != block.class || other.bytes == block.bytes)
    };
    first.iter().filter(same).for_each(|(_, block)| changes[block.class] -= 1);",
    ),
    in_compare(
        "the changes are of the pools' counts",
        Some("W-212: the changes of each"),
        "    let (first, second) = (live(first, shape), live(second, other));
    let entries = entries(&first, &second);
    let by_class = changes_by_class(&first, &second, shape.edition.last_class() + 1);",
        "    let mut by_class = vec![0i32; shape.edition.last_class() + 1];
    for (heap, second) in [(first, false), (second, true)] {
        for pool in 0..shape.arenas * shape.pools {
            let count = heap.books[ARENAS + RECORD * shape.arenas + RECORD * pool + super::COUNT] as i32;
            if let Some(change) = by_class.get_mut(class_of(heap, shape, pool)) {
                *change = if second { change.wrapping_add(count) } else { change.wrapping_sub(count) };
            }
        }
    }
    let (first, second) = (live(first, shape), live(second, other));
    let entries = entries(&first, &second);",
    ),
];

/// W-212: the tests but for 7, and the shape.
const COMPARE_TESTS: &[Slip] = &[
    in_compare(
        "the second heap is tested first",
        Some("W-212, read: the order"),
        "    let shape = Shape::said_by(first)?;
    let other = Shape::said_by(second)?;",
        "    let other = Shape::said_by(second)?;
    let shape = Shape::said_by(first)?;",
    ),
    in_compare(
        "1 of either heap comes before 2",
        Some("W-212, read: the order"),
        "    let shape = Shape::said_by(first)?;",
        "    for refusal in [first, second].into_iter().filter_map(|heap| Shape::said_by(heap).err()) {
        if refusal.number == 1 {
            return refuse(1);
        }
    }
    let shape = Shape::said_by(first)?;",
    ),
    in_compare(
        "12 comes before 2 of the second heap",
        Some("W-212, read: the order"),
        "    let other = Shape::said_by(second)?;",
        "    let unequal = second.books.len() > super::EDITION && second.books[..2] != first.books[..2];
    let other = match Shape::said_by(second) {
        Err(refusal) if refusal.number == 2 && unequal => return refuse(12),
        other => other?,
    };",
    ),
    in_compare(
        "12 comes before 1 of the second heap",
        Some("W-212: 1 and 2"),
        "    let other = Shape::said_by(second)?;",
        "    let other = match Shape::said_by(second) {
        Err(refusal) if refusal.number == 1 => return refuse(12),
        other => other?,
    };",
    ),
    in_compare(
        "2 of the second heap is passed over where its memory is longer",
        Some("W-212: 1 and 2"),
        "    let other = Shape::said_by(second)?;",
        "    let memory = &second.memory[..second.memory.len().min(first.memory.len())];
    let other = Shape::said_by(LentToRead { memory, ..second })?;",
    ),
    in_compare(
        "7 comes before 12",
        Some("W-212, read: the order"),
        "    if shape != other {",
        "    if changes.len() <= shape.edition.last_class() {
        return refuse(7);
    }
    if shape != other {",
    ),
    in_compare(
        "A x P alone is compared",
        Some("W-212: 12 for"),
        "    if shape != other {",
        "    let pools = |shape: Shape| (shape.arenas * shape.pools, shape.edition as u8);
    if pools(shape) != pools(other) {",
    ),
    in_compare(
        "A is not compared",
        Some("W-212: 12 for"),
        "    if shape != other {",
        "    if (shape.pools, shape.edition as u8) != (other.pools, other.edition as u8) {",
    ),
    in_compare(
        "P is not compared",
        Some("W-212: 12 for"),
        "    if shape != other {",
        "    if (shape.arenas, shape.edition as u8) != (other.arenas, other.edition as u8) {",
    ),
    in_compare(
        "the edition is not compared",
        Some("W-212: 12 for"),
        "    if shape != other {",
        "    let other = Shape { edition: shape.edition, ..other };
    if shape != other {",
    ),
    in_compare("an unequal shape is 2", Some("W-212: 12 for"), "return refuse(12);", "return refuse(2);"),
    in_compare(
        "heaps in the same buffers are refused",
        Some("W-212: a heap beside"),
        "    if shape != other {",
        "    if shape != other || std::ptr::eq(first.memory, second.memory) {",
    ),
    in_compare(
        "equal shape is equal heads too",
        Some("W-212, read: equal shape"),
        "    if shape != other {",
        "    if shape != other || first.books[2..ARENAS] != second.books[2..ARENAS] {",
    ),
];

/// W-212: the rooms, what is written where, and the value.
const COMPARE_ROOMS: &[Slip] = &[
    in_compare(
        "a list of just enough words doesn't fit",
        Some("W-212: 7 for a list"),
        "list.len() < 2 * entries.len()",
        "list.len() < 2 * entries.len() + 1",
    ),
    in_compare(
        "a list that is one word short fits",
        Some("W-212: 7 for a list"),
        "list.len() < 2 * entries.len()",
        "list.len() + 1 < 2 * entries.len()",
    ),
    in_compare(
        "a list with one word for each entry fits",
        Some("W-212: 7 for a list"),
        "list.len() < 2 * entries.len()",
        "list.len() < entries.len()",
    ),
    in_compare(
        "a list needs room for all live blocks",
        Some("W-212: other bytes"),
        "list.len() < 2 * entries.len()",
        "list.len() < 2 * first.len().max(second.len()).max(entries.len())",
    ),
    in_compare(
        "a list with more room doesn't fit",
        Some("W-212, read: words after"),
        "list.len() < 2 * entries.len()",
        "list.len() != 2 * entries.len()",
    ),
    in_compare(
        "changes that are one short fit",
        Some("W-212: 7 for changes"),
        "    if list.len() < 2 * entries.len()",
        "    let by_class = &by_class[..by_class.len() - usize::from(changes.len() + 1 == by_class.len())];
    if list.len() < 2 * entries.len()",
    ),
    in_compare(
        "changes always fit",
        Some("W-212: 7 for changes"),
        "    if list.len() < 2 * entries.len()",
        "    let by_class = &by_class[..by_class.len().min(changes.len())];
    if list.len() < 2 * entries.len()",
    ),
    in_compare(
        "64 changes are needed in sixteen too",
        Some("W-212, read: 64 changes"),
        "changes.len() < by_class.len()",
        "changes.len() < 64",
    ),
    in_compare(
        "more changes than classes don't fit",
        Some("W-212, read: 64 changes"),
        "changes.len() < by_class.len()",
        "changes.len() != by_class.len()",
    ),
    in_compare(
        "just enough changes don't fit",
        Some("W-212: 7 for changes"),
        "changes.len() < by_class.len()",
        "changes.len() <= by_class.len()",
    ),
    in_compare(
        "changes past the classes become 0",
        Some("W-212, read: changes past"),
        "    changes[..by_class.len()].copy_from_slice(&by_class);",
        "    changes[by_class.len()..].fill(0);
    changes[..by_class.len()].copy_from_slice(&by_class);",
    ),
    in_compare(
        "words after the list become 0",
        Some("W-212, read: words after"),
        "    changes[..by_class.len()].copy_from_slice(&by_class);",
        "    list[2 * entries.len()..].fill(0);
    changes[..by_class.len()].copy_from_slice(&by_class);",
    ),
    in_compare(
        "the list ends with a 0 where there is room",
        Some("W-212, read: words after"),
        "    changes[..by_class.len()].copy_from_slice(&by_class);",
        "    list.get_mut(2 * entries.len()).into_iter().for_each(|word| *word = 0);
    changes[..by_class.len()].copy_from_slice(&by_class);",
    ),
    in_compare(
        "the list is written before the changes are known to fit",
        Some("W-212: either way"),
        "    if list.len() < 2 * entries.len()",
        "    if list.len() >= 2 * entries.len() {
        list.chunks_exact_mut(2).zip(&entries).for_each(|(words, entry)| words.copy_from_slice(entry));
    }
    if list.len() < 2 * entries.len()",
    ),
    in_compare(
        "the changes are written before the list is known to fit",
        Some("W-212: either way"),
        "    if list.len() < 2 * entries.len()",
        "    if changes.len() >= by_class.len() {
        changes[..by_class.len()].copy_from_slice(&by_class);
    }
    if list.len() < 2 * entries.len()",
    ),
    in_compare(
        "as much of the list is written as fits",
        Some("W-212: either way"),
        "    if list.len() < 2 * entries.len()",
        "    list.chunks_exact_mut(2).zip(&entries).for_each(|(words, entry)| words.copy_from_slice(entry));
    if list.len() < 2 * entries.len()",
    ),
    in_compare(
        "the changes are cleared before the tests",
        Some("W-212: either way"),
        "    let shape = Shape::said_by(first)?;",
        "    changes.fill(0);
    let shape = Shape::said_by(first)?;",
    ),
    in_compare(
        "the changes are not written where nothing is listed",
        Some("W-212: equal heaps"),
        "    for (words, entry) in",
        "    if entries.is_empty() {
        return Ok(0);
    }
    for (words, entry) in",
    ),
    in_compare(
        "the value is the words of the list",
        Some("W-212, read: the value"),
        "Ok(entries.len())",
        "Ok(2 * entries.len())",
    ),
    in_compare(
        "the value is the second heap's live blocks",
        Some("W-212, read: the value"),
        "Ok(entries.len())",
        "Ok(second.len())",
    ),
    in_compare(
        "7 has the entries as its value",
        Some("W-212: 7 for a list"),
        "return refuse(7);",
        "return Err(super::Answer { number: 7, value: entries.len() as u32 });",
    ),
];

/// W-212: what is live.
const COMPARE_LIVE: &[Slip] = &[
    in_compare(
        "a bit past the last block is at a block",
        Some("W-212, read: live is"),
        "            if start <= POOL - size {
                let offset = POOL * pool + start;
                live.insert(offset, Block { class, bytes: &heap.memory[offset..offset + size] });",
        "            if start < POOL {
                let offset = POOL * pool + start;
                let end = (offset + size).min(heap.memory.len());
                live.insert(offset, Block { class, bytes: &heap.memory[offset..end] });",
    ),
    in_compare(
        "a block that ends with its pool is none",
        Some("W-212, read: live is"),
        "if start <= POOL - size {",
        "if start < POOL - size {",
    ),
    in_compare(
        "the class after the last is taken for the last",
        Some("W-212, read: live is"),
        "        if class > shape.edition.last_class() {",
        "        let class = if class == shape.edition.last_class() + 1 { class - 1 } else { class };
        if class > shape.edition.last_class() {",
    ),
    in_compare(
        "the last class has no blocks",
        Some("W-212: another size"),
        "if class > shape.edition.last_class() {",
        "if class >= shape.edition.last_class() {",
    ),
    in_compare(
        "a pool not carved has no live blocks",
        Some("W-212, read: live is"),
        "        if class > shape.edition.last_class() {",
        "        let arena = ARENAS + RECORD * (pool / shape.pools);
        if heap.books[arena] != 1 || pool % shape.pools >= heap.books[arena + 1] as usize {
            continue;
        }
        if class > shape.edition.last_class() {",
    ),
    in_compare(
        "a block from nextoffset on is not live",
        Some("W-212, read: live is"),
        "            if start <= POOL - size {",
        "            let nextoffset = ARENAS + RECORD * shape.arenas + RECORD * pool + super::NEXTOFFSET;
            if start <= POOL - size && start < heap.books[nextoffset] as usize {",
    ),
    in_compare(
        "the bits of a pool's first map word alone are read",
        Some("W-212: the changes of each"),
        "for start in (0..BITS).filter(",
        "for start in (0..64).filter(",
    ),
    in_compare(
        "a pool's first bit is not read",
        Some("W-212: live in"),
        "for start in (0..BITS).filter(",
        "for start in (1..BITS).filter(",
    ),
    in_compare(
        "blocks of sixteen are as large as those of eight",
        Some("W-212: as view tells"),
        "let size = shape.edition.block_size(class);",
        "let size = 8 * (class + 1);",
    ),
    in_compare(
        "the class of a pool is read in the record before it",
        Some("W-212: live in"),
        "RECORD * shape.arenas + RECORD * pool + CLASS",
        "RECORD * (shape.arenas - 1) + RECORD * pool + CLASS",
    ),
];

/// W-204: a refusal doesn't stop the rest, and the asks come one by one, front first.
const BATCH_REST: &[Slip] = &[
    in_batch(
        "the batch stops at the first refusal",
        Some("W-204: a size out of range"),
        "        request.offset = value;
",
        "        request.offset = value;
        if number != 0 {
            break;
        }
",
    ),
    in_batch(
        "the batch stops before the first refusal, whose entry stays",
        Some("W-204: a size out of range"),
        "        request.number = number;
",
        "        if number != 0 {
            break;
        }
        request.number = number;
",
    ),
    in_batch(
        "the first refusal is the batch's answer",
        Some("W-204, read: the call answers 0"),
        "        request.offset = value;
",
        "        request.offset = value;
        if number != 0 {
            return refuse(number);
        }
",
    ),
    in_batch(
        "the batch stops where there is no room",
        Some("W-204: no room"),
        "        request.offset = value;
",
        "        request.offset = value;
        if number == 4 {
            break;
        }
",
    ),
    in_batch(
        "the batch stops at damaged books",
        Some("W-204: damaged books"),
        "        request.offset = value;
",
        "        request.offset = value;
        if number == 6 {
            break;
        }
",
    ),
    in_batch(
        "after a 4 the rest get 4",
        Some("W-204: no room"),
        "    for request in requests {
        let Answer { number, value } = ask(&mut heap, request.size as usize);
",
        "    let mut full = false;
    for request in requests {
        let Answer { number, value } = match full && (1..=512).contains(&request.size) {
            true => Answer { number: 4, value: 0 },
            false => ask(&mut heap, request.size as usize),
        };
        full = full || number == 4;
",
    ),
    in_batch(
        "after a 6 the rest get 6",
        Some("W-204: a 6 that a later"),
        "    for request in requests {
        let Answer { number, value } = ask(&mut heap, request.size as usize);
",
        "    let mut damaged = false;
    for request in requests {
        let Answer { number, value } = match damaged && (1..=512).contains(&request.size) {
            true => Answer { number: 6, value: 0 },
            false => ask(&mut heap, request.size as usize),
        };
        damaged = damaged || number == 6;
",
    ),
    in_batch(
        "all or nothing: a refusal undoes the rest",
        Some("W-204: a size out of range"),
        "    for request in requests {
        let Answer { number, value } = ask(&mut heap, request.size as usize);
        request.number = number;
        request.offset = value;
    }
",
        "    let came = (heap.lent.memory.to_vec(), heap.lent.books.to_vec(), heap.lent.map.to_vec());
    for request in requests.iter_mut() {
        let Answer { number, value } = ask(&mut heap, request.size as usize);
        request.number = number;
        request.offset = value;
    }
    if requests.iter().any(|request| request.number != 0) {
        heap.lent.memory.copy_from_slice(&came.0);
        heap.lent.books.copy_from_slice(&came.1);
        heap.lent.map.copy_from_slice(&came.2);
    }
",
    ),
    in_batch(
        "the asks come from the back",
        Some("W-204: front first"),
        "for request in requests {",
        "for request in requests.iter_mut().rev() {",
    ),
    in_batch(
        "the asks come by rising size",
        Some("W-204: front first"),
        "    for request in requests {
",
        "    let mut row: Vec<&mut Request> = requests.iter_mut().collect();
    row.sort_by_key(|request| request.size);
    for request in row {
",
    ),
    in_batch(
        "every ask is of the heap as it came",
        Some("W-204: one by one"),
        "    for request in requests {
",
        "    let came = (heap.lent.memory.to_vec(), heap.lent.books.to_vec(), heap.lent.map.to_vec());
    for request in requests {
        heap.lent.memory.copy_from_slice(&came.0);
        heap.lent.books.copy_from_slice(&came.1);
        heap.lent.map.copy_from_slice(&came.2);
",
    ),
    in_batch(
        "an entry of the size before it gets the same block",
        Some("W-204: a row of asks"),
        "    for request in requests {
        let Answer { number, value } = ask(&mut heap, request.size as usize);
",
        "    let mut last = (0, Answer::default());
    for request in requests {
        let Answer { number, value } = match last.0 == request.size {
            true if request.size > 0 => last.1,
            _ => ask(&mut heap, request.size as usize),
        };
        last = (request.size, Answer { number, value });
",
    ),
    in_batch(
        "the first entry is not asked for",
        Some("W-204: a row of asks"),
        "for request in requests {",
        "for request in requests.iter_mut().skip(1) {",
    ),
    in_batch(
        "the last entry is not asked for",
        Some("W-204: a row of asks"),
        "    for request in requests {
",
        "    let asked_for = requests.len().saturating_sub(1);
    for request in requests.iter_mut().take(asked_for) {
",
    ),
    in_batch(
        "of 4,096 entries the last is not asked for",
        Some("W-204: at most"),
        "for request in requests {",
        "for request in requests.iter_mut().take(MOST - 1) {",
    ),
    in_batch(
        "what a refused entry wrote before its 6 stands",
        Some("W-204: damaged books"),
        "heap.step(|heap| heap.ask(size))",
        "heap.ask(size)",
    ),
];

/// W-204: what stands in an entry afterwards, and what stood there before.
const BATCH_PLACES: &[Slip] = &[
    in_batch(
        "a refused entry's offset stays",
        Some("W-204, read: a refused entry"),
        "        request.offset = value;
",
        "        if number == 0 {
            request.offset = value;
        }
",
    ),
    in_batch(
        "a refused entry's number stays",
        Some("W-204, read: a refused entry"),
        "        request.number = number;
",
        "        if number == 0 {
            request.number = number;
        }
",
    ),
    in_batch(
        "a served entry's number stays",
        Some("W-204: a row of asks"),
        "        request.number = number;
",
        "        if number != 0 {
            request.number = number;
        }
",
    ),
    in_batch(
        "number and offset are exchanged",
        Some("W-204: a row of asks"),
        "        request.number = number;
        request.offset = value;
",
        "        request.number = value;
        request.offset = number;
",
    ),
    in_batch(
        "a refused entry has the offset of the one before",
        Some("W-204, read: a refused entry"),
        "    for request in requests {
        let Answer { number, value } = ask(&mut heap, request.size as usize);
",
        "    let mut last = 0;
    for request in requests {
        let Answer { number, value } = ask(&mut heap, request.size as usize);
        let value = if number == 0 { value } else { last };
        last = value;
",
    ),
    in_batch(
        "a refused entry has its number as its offset",
        Some("W-204, read: a refused entry"),
        "request.offset = value;",
        "request.offset = if number == 0 { value } else { number };",
    ),
    in_batch(
        "an offset is one in its pool",
        Some("W-204: front first"),
        "request.offset = value;",
        "request.offset = value % 4096;",
    ),
    in_batch(
        "an offset is cut to 16 bits",
        Some("W-204: at most"),
        "request.offset = value;",
        "request.offset = value % (1 << 16);",
    ),
    in_batch(
        "every refusal is a 4",
        Some("W-204: a size out of range"),
        "request.number = number;",
        "request.number = if number == 0 { 0 } else { 4 };",
    ),
    in_batch(
        "an entry's size becomes that of its block",
        Some("W-204: a row of asks"),
        "        request.offset = value;
",
        "        request.offset = value;
        if number == 0 {
            request.size = (request.size + 7) / 8 * 8;
        }
",
    ),
    in_batch(
        "a refused entry's size becomes 0",
        Some("W-204: a size out of range"),
        "        request.offset = value;
",
        "        request.offset = value;
        if number != 0 {
            request.size = 0;
        }
",
    ),
    in_batch(
        "an entry whose number is 0 is passed over",
        Some("W-204, read: what stood"),
        "for request in requests {",
        "for request in requests.iter_mut().filter(|request| request.number != 0) {",
    ),
    in_batch(
        "an entry whose number is a refusal is passed over",
        Some("W-204, read: what stood"),
        "for request in requests {",
        "for request in requests.iter_mut().filter(|request| ![3, 4, 6].contains(&request.number)) {",
    ),
    in_batch(
        "an entry that has an offset is passed over",
        Some("W-204, read: what stood"),
        "for request in requests {",
        "for request in requests.iter_mut().filter(|request| request.offset == 0) {",
    ),
];

/// W-204: 1 and 2 first, 7, the empty row, and the answer.
const BATCH_TESTS: &[Slip] = &[
    in_batch(
        "4,097 entries are taken",
        Some("W-204: otherwise 7"),
        "requests.len() > MOST",
        "requests.len() > MOST + 1",
    ),
    in_batch("4,096 entries are refused", Some("W-204: at most"), "requests.len() > MOST", "requests.len() >= MOST"),
    in_batch(
        "any number is taken",
        Some("W-204: otherwise 7"),
        "requests.len() > MOST",
        "requests.len() == usize::MAX",
    ),
    in_batch(
        "the entries are counted in 16 bits",
        Some("W-204: otherwise 7"),
        "requests.len() > MOST",
        "requests.len() as u16 as usize > MOST",
    ),
    in_batch(
        "of more than 4,096 entries the first are asked for",
        Some("W-204: otherwise 7"),
        "    if requests.len() > MOST {
        return refuse(7);
    }
",
        "    let most = requests.len().min(MOST);
    let requests = &mut requests[..most];
",
    ),
    in_batch(
        "7 comes once 4,096 are asked for",
        Some("W-204: otherwise 7"),
        "        return refuse(7);
",
        "        for request in &mut requests[..MOST] {
            let Answer { number, value } = ask(&mut heap, request.size as usize);
            (request.number, request.offset) = (number, value);
        }
        return refuse(7);
",
    ),
    in_batch(
        "with 7 every entry gets 7",
        Some("W-204: otherwise 7"),
        "        return refuse(7);
",
        "        requests.iter_mut().for_each(|request| (request.number, request.offset) = (7, 0));
        return refuse(7);
",
    ),
    in_batch(
        "7 has the entries as its value",
        Some("W-204: otherwise 7"),
        "return refuse(7);",
        "return Err(Answer { number: 7, value: requests.len() as u32 });",
    ),
    in_batch("too many entries are 3", Some("W-204: otherwise 7"), "return refuse(7);", "return refuse(3);"),
    in_batch(
        "entries with a size out of range do not count",
        Some("W-204, read: every entry"),
        "requests.len() > MOST",
        "requests.iter().filter(|request| (1..=512).contains(&request.size)).count() > MOST",
    ),
    in_batch(
        "7 comes before 1 and 2",
        Some("W-204, read: 1 and 2 come"),
        "    let mut heap = paper.heap(lent)?;
    if requests.len() > MOST {
        return refuse(7);
    }
",
        "    if requests.len() > MOST {
        return refuse(7);
    }
    let mut heap = paper.heap(lent)?;
",
    ),
    in_batch(
        "7 comes before 2",
        Some("W-204, read: 1 and 2 come"),
        "    let mut heap = paper.heap(lent)?;
",
        "    let mut heap = match paper.heap(lent) {
        Err(refusal) if refusal.number == 2 && requests.len() > MOST => return refuse(7),
        heap => heap?,
    };
",
    ),
    in_batch(
        "with 1 and 2 every entry gets the number",
        Some("W-204: 1 and 2 leave"),
        "    let mut heap = paper.heap(lent)?;
",
        "    let mut heap = match paper.heap(lent) {
        Err(refusal) => {
            requests.iter_mut().for_each(|request| (request.number, request.offset) = (refusal.number, 0));
            return Err(refusal);
        }
        Ok(heap) => heap,
    };
",
    ),
    in_batch(
        "with 1 and 2 the places are cleared",
        Some("W-204: 1 and 2 leave"),
        "    let mut heap = paper.heap(lent)?;
",
        "    if requests.len() <= MOST {
        requests.iter_mut().for_each(|request| (request.number, request.offset) = (0, 0));
    }
    let mut heap = paper.heap(lent)?;
",
    ),
    in_batch(
        "1 and 2 are the entries' numbers, and the batch is done",
        Some("W-204: 1 and 2 leave"),
        "    let mut heap = paper.heap(lent)?;
",
        "    let mut heap = match paper.heap(lent) {
        Err(refusal) => {
            requests.iter_mut().for_each(|request| (request.number, request.offset) = (refusal.number, 0));
            return Ok(0);
        }
        Ok(heap) => heap,
    };
",
    ),
    in_batch(
        "an empty row is 7",
        Some("W-204, read: an empty row"),
        "requests.len() > MOST",
        "requests.is_empty() || requests.len() > MOST",
    ),
    in_batch(
        "an empty row is 3",
        Some("W-204, read: an empty row"),
        "    for request in requests {
",
        "    if requests.is_empty() {
        return refuse(3);
    }
    for request in requests {
",
    ),
    in_batch(
        "an empty row is done on any buffers",
        Some("W-204, read: 1 and 2 of an empty"),
        "    let mut heap = paper.heap(lent)?;
",
        "    if requests.is_empty() {
        return Ok(0);
    }
    let mut heap = paper.heap(lent)?;
",
    ),
    in_batch(
        "the value is how many entries there are",
        Some("W-204, read: the call answers 0"),
        "    for request in requests {
        let Answer { number, value } = ask(&mut heap, request.size as usize);
        request.number = number;
        request.offset = value;
    }
    Ok(0)
",
        "    for request in requests.iter_mut() {
        let Answer { number, value } = ask(&mut heap, request.size as usize);
        request.number = number;
        request.offset = value;
    }
    Ok(requests.len())
",
    ),
    in_batch(
        "the value is how many are served",
        Some("W-204, read: the call answers 0"),
        "    for request in requests {
        let Answer { number, value } = ask(&mut heap, request.size as usize);
        request.number = number;
        request.offset = value;
    }
    Ok(0)
",
        "    for request in requests.iter_mut() {
        let Answer { number, value } = ask(&mut heap, request.size as usize);
        request.number = number;
        request.offset = value;
    }
    Ok(requests.iter().filter(|request| request.number == 0).count())
",
    ),
    in_batch(
        "the last entry's answer is the batch's",
        Some("W-204, read: the call answers 0"),
        "    for request in requests {
        let Answer { number, value } = ask(&mut heap, request.size as usize);
        request.number = number;
        request.offset = value;
    }
    Ok(0)
",
        "    let mut last = Answer::default();
    for request in requests {
        last = ask(&mut heap, request.size as usize);
        (request.number, request.offset) = (last.number, last.value);
    }
    if last.number == 0 {
        Ok(last.value as usize)
    } else {
        Err(last)
    }
",
    ),
    in_batch(
        "the highest number is the batch's",
        Some("W-204, read: the call answers 0"),
        "    for request in requests {
        let Answer { number, value } = ask(&mut heap, request.size as usize);
        request.number = number;
        request.offset = value;
    }
    Ok(0)
",
        "    let mut highest = 0;
    for request in requests {
        let Answer { number, value } = ask(&mut heap, request.size as usize);
        request.number = number;
        request.offset = value;
        highest = highest.max(number);
    }
    if highest == 0 {
        Ok(0)
    } else {
        refuse(highest)
    }
",
    ),
];

/// W-204: the asks themselves.
const BATCH_ASKS: &[Slip] = &[
    in_batch(
        "a size is cut to 16 bits",
        Some("W-204: a size out of range"),
        "ask(&mut heap, request.size as usize)",
        "ask(&mut heap, request.size as u16 as usize)",
    ),
    in_batch(
        "a size above 512 is taken for 512",
        Some("W-204: a size out of range"),
        "ask(&mut heap, request.size as usize)",
        "ask(&mut heap, request.size.min(512) as usize)",
    ),
    in_batch(
        "size 0 is taken for 1",
        Some("W-204: a size out of range"),
        "ask(&mut heap, request.size as usize)",
        "ask(&mut heap, request.size.max(1) as usize)",
    ),
    in_batch(
        "size 512 is out of range",
        Some("W-204: a row of asks"),
        "answer(asked(size).and_then(",
        "answer(asked(size + size / 512).and_then(",
    ),
    in_batch(
        "513 bytes are of a class after the last",
        Some("W-204, read: no ask writes"),
        "answer(asked(size).and_then(",
        "answer(asked(size - size / 513).and_then(",
    ),
    in_batch(
        "an entry with a size out of range is passed over",
        Some("W-204: a size out of range"),
        "for request in requests {",
        "for request in requests.iter_mut().filter(|request| (1..=512).contains(&request.size)) {",
    ),
    in_batch(
        "a size out of range in the row is 3 of the batch",
        Some("W-204: a size out of range"),
        "    for request in requests {
",
        "    if requests.iter().any(|request| !(1..=512).contains(&request.size)) {
        return refuse(3);
    }
    for request in requests {
",
    ),
    in_batch(
        "a block that is handed out is cleared",
        Some("W-204: between other calls"),
        "        request.offset = value;
",
        "        request.offset = value;
        if number == 0 {
            heap.lent.memory[value as usize..(value + request.size) as usize].fill(0);
        }
",
    ),
    in_batch(
        "an entry that can't be served is asked for once more",
        Some("W-204: a 6 that a later"),
        "    for request in requests {
        let Answer { number, value } = ask(&mut heap, request.size as usize);
        request.number = number;
        request.offset = value;
    }
",
        "    for request in requests.iter_mut() {
        let Answer { number, value } = ask(&mut heap, request.size as usize);
        request.number = number;
        request.offset = value;
    }
    for request in requests.iter_mut().filter(|request| request.number == 6) {
        let Answer { number, value } = ask(&mut heap, request.size as usize);
        request.number = number;
        request.offset = value;
    }
",
    ),
];
