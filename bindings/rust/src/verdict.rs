//! What the audit says of a heap.

use core::fmt;

/// What [`Heap::audit`](crate::Heap::audit) says of a heap: yes, or the first of its nine rules that is broken, which
/// is the lowest one, anywhere in the heap. A carved pool lies below an open arena's mark; it is in use where a bit of
/// it is set, and otherwise freed.
///
/// ```
/// use heskavern::Verdict;
/// assert_eq!(Verdict::Counts.number(), 7);
/// assert_eq!(Verdict::from(7), Verdict::Counts);
/// assert_eq!(Verdict::Counts.to_string(), "rule 7: a pool's count is not the number of its set bits");
/// assert_eq!(Verdict::Yes.to_string(), "yes");
/// ```
#[must_use = "the heap may be damaged"]
#[derive(Clone, Copy, Debug, PartialEq, Eq, Hash)]
#[non_exhaustive]
pub enum Verdict {
    /// 0: every rule is kept.
    Yes,
    /// 1: A, P and the edition are in range, and each lent length is exact.
    Shape,
    /// 2: open is 0 or 1; words 69 to 71, an arena record's last two and a pool record's last are 0.
    Zeros,
    /// 3: each closed arena's record is 0 but for its links.
    Closed,
    /// 4: each open arena's carve mark is 1 to P, and its free pools are as many as its pools not in use.
    Open,
    /// 5: no bit is set in a pool not carved, or at no block of its class.
    Bits,
    /// 6: each list holds just its members, once, doubly linked ones matching both ways: an arena's freed-pool list its
    /// freed pools, with previous 0; the usable list the open arenas with free pools; the unused list the closed
    /// arenas; each class list its pools with live and spare blocks. Full pools, and open arenas without free pools,
    /// have both links 0.
    Lists,
    /// 7: each pool's count is the number of its set bits.
    Counts,
    /// 8: each freed pool has a class, or none and all else but next 0; in each other carved pool maxnextoffset is
    /// right, nextoffset a block start or the last block's end, and each block in exactly one of live, freed chain and
    /// virgin, once, with two at least on the chain if the pool is freed, one unless it is full.
    Blocks,
    /// 9: the usable list rises by free pools.
    Order,
    /// A rule that this crate does not know.
    Unknown(u32),
}

impl Verdict {
    /// The number that the library gives for it: 0, or that of the rule.
    pub const fn number(self) -> u32 {
        match self {
            Verdict::Yes => 0,
            Verdict::Shape => 1,
            Verdict::Zeros => 2,
            Verdict::Closed => 3,
            Verdict::Open => 4,
            Verdict::Bits => 5,
            Verdict::Lists => 6,
            Verdict::Counts => 7,
            Verdict::Blocks => 8,
            Verdict::Order => 9,
            Verdict::Unknown(number) => number,
        }
    }

    /// Whether every rule is kept.
    #[must_use]
    pub const fn is_yes(self) -> bool {
        matches!(self, Verdict::Yes)
    }
}

/// The verdict that has this number, as [`calls::audit`](crate::calls::audit) answers it.
impl From<u32> for Verdict {
    fn from(number: u32) -> Verdict {
        match number {
            0 => Verdict::Yes,
            1 => Verdict::Shape,
            2 => Verdict::Zeros,
            3 => Verdict::Closed,
            4 => Verdict::Open,
            5 => Verdict::Bits,
            6 => Verdict::Lists,
            7 => Verdict::Counts,
            8 => Verdict::Blocks,
            9 => Verdict::Order,
            unknown => Verdict::Unknown(unknown),
        }
    }
}

/// Says what is broken.
impl fmt::Display for Verdict {
    fn fmt(&self, f: &mut fmt::Formatter<'_>) -> fmt::Result {
        let broken = match self {
            Verdict::Yes => return f.write_str("yes"),
            Verdict::Shape => "A, P or the edition is out of range, or a lent length is not exact",
            Verdict::Zeros => "an arena's open word is above 1, or a word is not 0 that always is",
            Verdict::Closed => "a closed arena's record has more than its links",
            Verdict::Open => "an open arena's carve mark is not 1 to P, or its free pools are not its pools not in use",
            Verdict::Bits => "a bit is set in a pool not carved, or at no block of its class",
            Verdict::Lists => "a list does not hold just its members, once, or links do not match",
            Verdict::Counts => "a pool's count is not the number of its set bits",
            Verdict::Blocks => {
                "a carved pool's class or offset is wrong, or a block not one of live, chained and virgin"
            }
            Verdict::Order => "the usable list does not rise by free pools",
            Verdict::Unknown(_) => "one that this crate does not know",
        };
        write!(f, "rule {}: {broken}", self.number())
    }
}

#[cfg(test)]
mod tests {
    use super::Verdict;

    #[test]
    fn each_number_has_its_verdict() {
        for number in 0..=100 {
            let verdict = Verdict::from(number);
            assert_eq!(verdict.number(), number);
            assert_eq!(verdict.is_yes(), number == 0);
            assert_eq!(matches!(verdict, Verdict::Unknown(_)), number > 9);
        }
    }
}
