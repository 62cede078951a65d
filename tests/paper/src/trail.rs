//! The paths of the steps, the rules of number 6 and the clauses of the audit's rules, by name, so that a run can say
//! which of them it reached.

/// An enum whose cases can be listed and said in words.
macro_rules! named {
    ($(#[$doc:meta])* $name:ident { $($case:ident = $words:literal,)* }) => {
        $(#[$doc])*
        #[derive(Clone, Copy, Debug, PartialEq, Eq)]
        pub enum $name { $($case),* }

        impl $name {
            pub const ALL: &'static [$name] = &[$($name::$case),*];

            pub fn words(self) -> &'static str {
                match self { $($name::$case => $words),* }
            }
        }
    };
}

named! {
    /// A path that a call took and that stands.
    Path {
        FollowLink = "ask: freeblock becomes its link",
        MakeReady = "ask: the block at nextoffset becomes freeblock",
        LastBlock = "ask: the last block, the full pool leaves its list",
        OpenArena = "ask: an unused arena is opened",
        FreedPool = "ask: a freed pool is taken",
        Carve = "ask: a pool is carved",
        SpentArena = "ask: the arena's last free pool, it leaves the usable list",
        SameClass = "ask: a freed pool keeps its class",
        SameClassLast = "ask: a freed pool keeps its class and its link is 0",
        OtherClass = "ask: a freed pool is set to another class",
        FreshClass = "ask: a pool of no class is set to one",
        Joins = "give back: the pool was full and joins its class list",
        Stays = "give back: the pool stays where it is",
        Empties = "give back: the pool is empty and is freed",
        Released = "give back: the arena is released",
        UsableAgain = "give back: the arena joins the usable list",
        ArenaStays = "give back: the arena passes none and stays where it is",
        PassesOne = "give back: the arena moves back past one",
        PassesMore = "give back: the arena moves back past two or more",
        MovesFromFront = "give back: the arena that moves was at the front",
        MovesFromBehind = "give back: the arena that moves was behind another",
        GoesInLast = "give back: the arena that moves goes in at the list's end",
        GoesInBetween = "give back: the arena that moves goes in before another",
        StopsAtEqual = "give back: the walk stops at an arena with as many free pools",
        ComesBack = "give back: the walk comes back to its own arena and stops there",
        FromBehind = "a member leaves its list from behind another",
        Kept = "resize: the offset is kept",
        Moved = "resize: the block moves",
        HalfDoneBy5 = "resize: half done, the give-back meets 5",
        HalfDoneBy10 = "resize: half done, the give-back meets 10",
        HalfDoneBy6 = "resize: half done, the give-back meets 6",
    }
}

named! {
    /// A rule of number 6, at the place where a step meets it.
    Rule {
        FrontHead = "ask: class head above A x P",
        FrontClass = "ask: front pool's class not that class",
        FrontMaximum = "ask: front pool's maxnextoffset not 4,096 - size",
        FrontCount = "ask: front pool's count above 505",
        FrontNone = "ask: front pool's freeblock 0",
        FrontNoStart = "ask: front pool's freeblock no block start",
        FrontLive = "ask: front pool's freeblock has its bit set",
        FrontLinkNoStart = "ask: front pool's link no block start",
        FrontLinkLive = "ask: front pool's link has its bit set",
        ReadyNoStart = "ask: nextoffset no block start",
        ReadyLive = "ask: nextoffset has its bit set",
        FullNext = "ask: full pool's next above A x P",
        FullPrevious = "ask: full pool's previous above A x P",
        UsableHead = "ask: usable head above A",
        UnusedHead = "ask: unused head above A",
        OpenedNext = "ask: opened arena's next above A",
        OpenedPrevious = "ask: opened arena's previous above A",
        FreedHead = "ask: freed-pool head above A x P",
        FreedNext = "ask: freed pool's next above A x P",
        CarveMark = "ask: carve mark not below P",
        NoneFree = "ask: free pools 0",
        ManyFree = "ask: free pools above P",
        SpentNext = "ask: spent arena's next above A",
        SpentPrevious = "ask: spent arena's previous above A",
        FreedNone = "ask: freed pool's freeblock 0",
        FreedNoStart = "ask: freed pool's freeblock no block start",
        FreedLive = "ask: freed pool's freeblock has its bit set",
        FreedLinkNoStart = "ask: freed pool's link no block start",
        FreedLinkLive = "ask: freed pool's link has its bit set",
        FirstLive = "ask: block 0 of a pool set to a class has its bit set",
        SecondLive = "ask: block 1 of a pool set to a class has its bit set",
        BackCountNone = "give back: count 0",
        BackCountMany = "give back: count above 506",
        BackNoStart = "give back: freeblock no block start",
        BackHead = "give back: class head above A x P",
        EmptiedNext = "give back: emptied pool's next above A x P",
        EmptiedPrevious = "give back: emptied pool's previous above A x P",
        BackFreedHead = "give back: freed-pool head above A x P",
        BackManyFree = "give back: free pools above P - 1",
        ReleasedNext = "give back: released arena's next above A",
        ReleasedPrevious = "give back: released arena's previous above A",
        ReleasedHead = "give back: unused head above A on a release",
        UsableAgainHead = "give back: usable head above A where the arena joins",
        WalkNext = "give back: own next above A where the walk begins",
        PassedNext = "give back: a passed arena's next above A",
        LongWalk = "give back: the walk passes more than A arenas",
        MovedPrevious = "give back: moved arena's previous above A",
    }
}

named! {
    /// A clause of the audit's rules (W-201), by what is wrong there: the first one that a broken rule was seen at.
    Clause {
        RangeOrEdition = "1: A, P or word 68 out of range",
        Lengths = "1: a lent length not exact",
        OpenAbove = "2: open above 1",
        ArenaWord6 = "2: an arena record's last but one not 0",
        ArenaWord7 = "2: an arena record's last not 0",
        SpareWord = "2: a word from 69 to 71 not 0",
        PoolWord7 = "2: a pool record's last not 0",
        ClosedMark = "3: a closed arena's carve mark not 0",
        ClosedFree = "3: a closed arena's free pools not 0",
        ClosedHead = "3: a closed arena's freed-pool head not 0",
        MarkNone = "4: carve mark 0",
        MarkAbove = "4: carve mark above P",
        FewFree = "4: free pools fewer than the pools not in use",
        ManyFree = "4: free pools more than the pools not in use",
        BitNotCarved = "5: a set bit in a pool not carved",
        BitNoClass = "5: a set bit in a pool of a class without blocks",
        BitNoBlock = "5: a set bit past the last block",
        FreedNoRecord = "6: freed-pool list: a link above A x P",
        FreedNoEnd = "6: freed-pool list: a walk without an end",
        FreedMissing = "6: freed-pool list: a freed pool is missing",
        FreedStranger = "6: freed-pool list: another pool is on it",
        FreedPrevious = "6: freed-pool list: a previous that is not 0",
        UsableNoRecord = "6: usable list: a link above A",
        UsableNoEnd = "6: usable list: a walk without an end",
        UsableMissing = "6: usable list: an open arena with free pools is missing",
        UsableStranger = "6: usable list: another arena is on it",
        UsablePrevious = "6: usable list: a previous that is not the one before",
        UnusedNoRecord = "6: unused list: a link above A",
        UnusedNoEnd = "6: unused list: a walk without an end",
        UnusedMissing = "6: unused list: a closed arena is missing",
        UnusedStranger = "6: unused list: another arena is on it",
        UnusedPrevious = "6: unused list: a previous that is not the one before",
        ClassNoRecord = "6: class list: a link above A x P",
        ClassNoEnd = "6: class list: a walk without an end",
        ClassMissing = "6: class list: a pool with live and spare blocks is missing",
        ClassStranger = "6: class list: another pool is on it",
        ClassPrevious = "6: class list: a previous that is not the one before",
        FullNext = "6: a full pool's next not 0",
        FullPrevious = "6: a full pool's previous not 0",
        SpentNext = "6: the next of an open arena without free pools not 0",
        SpentPrevious = "6: the previous of an open arena without free pools not 0",
        CountBelow = "7: count below the set bits",
        CountAbove = "7: count above the set bits",
        FreedClass = "8: a freed pool of a class without blocks",
        NoClassRecord = "8: a freed pool of class 65,535 with another word not 0",
        Maximum = "8: maxnextoffset not 4,096 - size",
        Nextoffset = "8: nextoffset neither a block start nor the last block's end",
        ChainNoStart = "8: the freed chain leads to no block start",
        ChainNoEnd = "8: the freed chain has no end",
        InNone = "8: a block neither live, freed nor virgin",
        LiveAndFreed = "8: a block live and on the freed chain",
        LiveAndVirgin = "8: a block live and virgin",
        FreedAndVirgin = "8: a block on the freed chain and virgin",
        FreedShort = "8: a freed pool with fewer than two on its chain",
        ChainNone = "8: a pool that is not full with none on its chain",
        Order = "9: the usable list falls",
    }
}

/// What the last call met: the paths that stand, the rule that was broken, and the clause of the audit's first broken
/// rule.
#[derive(Default)]
pub struct Trail {
    pub paths: Vec<Path>,
    pub broken: Option<Rule>,
    pub clause: Option<Clause>,
}

impl Trail {
    pub fn clear(&mut self) {
        self.paths.clear();
        self.broken = None;
        self.clause = None;
    }
}
