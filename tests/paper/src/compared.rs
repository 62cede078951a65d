//! W-212's cases: the smallest two heaps that tell each clause of it, in both editions, and a case for each reading of
//! it. Most are made up of nothing but classes, bits and bytes, which is all that a compare goes by.

use crate::beside::{Beside, Which};
use crate::cases::Case;
use crate::damage::Rng;
use crate::desk::*;
use crate::steps::Call::*;
use crate::steps::{Buffers, Step, MARK};
use crate::{Answer, Calls};

pub const CASES: &[Case] = &[
    ("W-212: equal heaps", equal_heaps),
    ("W-212: a heap beside itself", beside_itself),
    ("W-212: live in just one", live_in_one),
    ("W-212: another size", another_size),
    ("W-212: other bytes", other_bytes),
    ("W-212: size before bytes", size_before_bytes),
    ("W-212: each once, by rising offset", by_rising_offset),
    ("W-212: a pool of another class", another_class),
    ("W-212: calls, texts and a move", calls_and_texts),
    ("W-212: the changes, second less first", second_less_first),
    ("W-212: the changes of each class", each_class),
    ("W-212: the changes add up", changes_add_up),
    ("W-212: 1 and 2 of either heap", one_and_two),
    ("W-212: 12 for another A, P or edition", unequal_shape),
    ("W-212: 7 for a list that doesn't fit", short_list),
    ("W-212: 7 for changes that don't fit", short_changes),
    ("W-212: either way nothing is written", nothing_written),
    ("W-212: as view tells", as_view_tells),
];

/// A case for each reading where W-212's words leave room, which tells it from the other reading.
pub const READINGS: &[Case] = &[
    ("W-212, read: the order of the tests", order_of_tests),
    ("W-212, read: equal shape is A, P and edition, and no more", equal_shape),
    ("W-212, read: an entry is offset and kind", offset_and_kind),
    ("W-212, read: other bytes are of the whole block", whole_block),
    ("W-212, read: bytes of no live block", no_live_block),
    ("W-212, read: words after the list stay", words_after),
    ("W-212, read: 64 changes, 32 in sixteen", how_many_changes),
    ("W-212, read: changes past the classes stay", changes_past),
    ("W-212, read: the value is the entries", value_is_entries),
    ("W-212, read: live is 01's word", live_by_01),
];

// Two heaps on the desk

/// The first heap, and the second beside it, to be compared in both orders.
struct Two<'a> {
    calls: &'a mut dyn Calls,
    heaps: Buffers,
}

const FIRST: Which = Which::Own;
const SECOND: Which = Which::Beside(0);

/// Two heaps on the desk of a program.
fn two<'a>(calls: &'a mut dyn Calls, first: &Buffers, second: &Buffers) -> Two<'a> {
    let mut heaps = first.clone();
    heaps.beside[0] = Beside::copy_of(second);
    Two { calls, heaps }
}

/// How many changes an edition has.
fn classes(heap: &Buffers) -> usize {
    512 / alignment(heap.books[EDITION] as usize)
}

impl Two<'_> {
    /// The answer of a compare with this room. Neither heap is changed, and no mark on the sides of list and changes.
    fn compared(&mut self, [first, second]: [Which; 2], list: usize, changes: usize) -> Answer {
        let call = Compare { first, second, list, changes };
        let before = self.heaps.clone();
        let answer = self.heaps.take(self.calls, &Step::Call(call)).answer;
        let Buffers { memory, books, map, beside, .. } = &self.heaps;
        assert!(*memory == before.memory && *books == before.books && *map == before.map, "{call}: the heap changed");
        assert!(*beside == before.beside, "{call}: the heap beside changed");
        let (list, changes) = (&self.heaps.list, &self.heaps.changes);
        let ends = [0, 1, list.len() - 2, list.len() - 1];
        assert!(ends.iter().all(|at| list[*at] == MARK), "{call}: a word beside the list changed");
        let ends = [0, 1, changes.len() - 2, changes.len() - 1];
        assert!(ends.iter().all(|at| changes[*at] == MARK as i32), "{call}: a word beside the changes changed");
        answer
    }

    /// The compare with this room has this number and value 0, and writes nothing.
    fn refused(&mut self, order: [Which; 2], list: usize, changes: usize, number: u32) {
        assert_eq!(self.compared(order, list, changes), Answer { number, value: 0 }, "{list} words, {changes} changes");
        assert!(self.heaps.listed().iter().all(|word| *word == MARK), "{number}: the list is written");
        assert!(self.heaps.changed().iter().all(|word| *word == MARK as i32), "{number}: the changes are written");
    }

    /// In both orders the compare is refused with these, whatever the room.
    fn refused_both_ways(&mut self, number: u32, other_way: u32) {
        for (list, changes) in [(0, 0), (0, 64), (64, 0), (64, 64), (4096, 128)] {
            self.refused([FIRST, SECOND], list, changes, number);
            self.refused([SECOND, FIRST], list, changes, other_way);
        }
    }

    /// The compare is done and lists these, with these changes by class and 0 for the others; in room that is just
    /// enough, and in more, where what is past them stays.
    fn lists_in_order(&mut self, order: [Which; 2], entries: &[(usize, u32)], changes: &[(usize, i32)]) {
        let words: Vec<u32> = entries.iter().flat_map(|(offset, kind)| [*offset as u32, *kind]).collect();
        let mut by_class = vec![0; classes(&self.heaps)];
        changes.iter().for_each(|(class, change)| by_class[*class] = *change);
        for more in [0, 1, 2, 7] {
            let answer = self.compared(order, words.len() + more, by_class.len() + more);
            assert_eq!(answer, Answer { number: 0, value: entries.len() as u32 });
            assert_eq!(self.heaps.listed()[..words.len()], words);
            assert_eq!(self.heaps.changed()[..by_class.len()], by_class);
            assert_eq!(self.heaps.listed()[words.len()..], vec![MARK; more]);
            assert_eq!(self.heaps.changed()[by_class.len()..], vec![MARK as i32; more]);
        }
    }

    /// The same, and in the other order with kinds 1 and 2 exchanged and each change the other way.
    fn lists(&mut self, entries: &[(usize, u32)], changes: &[(usize, i32)]) {
        self.lists_in_order([FIRST, SECOND], entries, changes);
        let exchanged = |kind| [0, 2, 1, 3, 4][kind as usize];
        let entries: Vec<(usize, u32)> = entries.iter().map(|(offset, kind)| (*offset, exchanged(*kind))).collect();
        let changes: Vec<(usize, i32)> = changes.iter().map(|(class, change)| (*class, -change)).collect();
        self.lists_in_order([SECOND, FIRST], &entries, &changes);
    }
}

/// A fresh heap.
fn fresh(calls: &mut dyn Calls, arenas: usize, pools: usize, edition: usize) -> Buffers {
    Desk::formatted(calls, arenas, pools, edition).heap
}

/// A fresh heap of one arena with two pools.
fn small(calls: &mut dyn Calls, edition: usize) -> Buffers {
    fresh(calls, 1, 2, edition)
}

/// The same heap but for a pool that has this class, and these bits in its first map word.
fn with(heap: &Buffers, pool: usize, class: u32, bits: u64) -> Buffers {
    let mut other = heap.clone();
    let [arenas, _] = heap.shape();
    other.books[72 + 8 * arenas + 8 * pool + CLASS] = class;
    other.map[8 * pool] = bits;
    other
}

/// The same heap but for a byte of memory.
fn with_byte(heap: &Buffers, at: usize, byte: u8) -> Buffers {
    let mut other = heap.clone();
    assert_ne!(other.memory[at], byte, "the byte must become another");
    other.memory[at] = byte;
    other
}

// What is listed

/// Fresh, with live blocks, and with all else in the books another. An empty list needs no room.
fn equal_heaps(calls: &mut dyn Calls) {
    for edition in EDITIONS {
        let heap = small(calls, edition);
        two(calls, &heap, &heap).lists(&[], &[]);
        let heap = with(&heap, 1, 2, 0b1011);
        two(calls, &heap, &heap).lists(&[], &[]);
        let mut other = heap.clone();
        for at in (2..heap.books.len() - 1).filter(|at| *at != EDITION && (*at < 80 || at % 8 != CLASS)) {
            other.books[at] = 3;
        }
        two(calls, &heap, &other).lists(&[], &[]);
    }
}

/// The same buffers are both heaps.
fn beside_itself(calls: &mut dyn Calls) {
    for edition in EDITIONS {
        let heap = with(&small(calls, edition), 0, 3, 0b111);
        let mut two = two(calls, &heap, &heap);
        two.lists_in_order([FIRST, FIRST], &[], &[]);
        two.lists_in_order([SECOND, SECOND], &[], &[]);
        two.refused([FIRST, FIRST], 64, classes(&heap) - 1, 7);
    }
}

/// One block in one of two heaps, and one that is dead between two that are live in both.
fn live_in_one(calls: &mut dyn Calls) {
    for edition in EDITIONS {
        let none = small(calls, edition);
        let one = with(&none, 0, 0, 0b1);
        two(calls, &one, &none).lists(&[(48, 1)], &[(0, -1)]);
        two(calls, &none, &one).lists(&[(48, 2)], &[(0, 1)]);
        let size = alignment(edition);
        let (three, two_of) = (with(&none, 1, 0, 0b111), with(&none, 1, 0, 0b101));
        two(calls, &three, &two_of).lists(&[(4144 + size, 1)], &[(0, -1)]);
    }
}

/// Two blocks that start at one offset, and have no bytes but zeros.
fn another_size(calls: &mut dyn Calls) {
    for edition in EDITIONS {
        let none = small(calls, edition);
        for (class, other) in [(0, 1), (1, 0), (0, 511 / alignment(edition) as u32), (5, 6)] {
            let (first, second) = (with(&none, 0, class, 0b1), with(&none, 0, other, 0b1));
            two(calls, &first, &second).lists(&[(48, 3)], &[(class as usize, -1), (other as usize, 1)]);
        }
    }
}

/// In the first byte, one inside and the last one, and in more than one block.
fn other_bytes(calls: &mut dyn Calls) {
    for edition in EDITIONS {
        let size = 3 * alignment(edition);
        let heap = with(&small(calls, edition), 0, 2, 0b11);
        for at in [0, 1, 3, 4, 7, 8, size - 2, size - 1] {
            two(calls, &heap, &with_byte(&heap, 48 + at, 1)).lists(&[(48, 4)], &[]);
            two(calls, &heap, &with_byte(&heap, 48 + size + at, 255)).lists(&[(48 + size, 4)], &[]);
        }
        let both = with_byte(&with_byte(&heap, 48, 9), 48 + size, 9);
        two(calls, &heap, &both).lists(&[(48, 4), (48 + size, 4)], &[]);
    }
}

/// Both are another: it is listed once, as another size.
fn size_before_bytes(calls: &mut dyn Calls) {
    for edition in EDITIONS {
        let none = small(calls, edition);
        let (first, second) = (with(&none, 0, 1, 0b1), with(&none, 0, 2, 0b1));
        for at in [0, alignment(edition), 2 * alignment(edition) - 1, 3 * alignment(edition) - 1] {
            two(calls, &first, &with_byte(&second, 48 + at, 1)).lists(&[(48, 3)], &[(1, -1), (2, 1)]);
            two(calls, &with_byte(&second, 48 + at, 1), &first).lists(&[(48, 3)], &[(1, 1), (2, -1)]);
        }
    }
}

/// All kinds, in pools of two arenas, in an order that is not theirs.
fn by_rising_offset(calls: &mut dyn Calls) {
    for edition in EDITIONS {
        let size = alignment(edition);
        let none = fresh(calls, 2, 2, edition);
        let first = [(0, 0, 0b0110), (1, 1, 0b1), (3, 0, 0b1000)];
        let second = [(0, 0, 0b0101), (1, 2, 0b1), (2, 0, 0b1), (3, 0, 0b1001)];
        let put = |pools: &[(usize, u32, u64)]| {
            pools.iter().fold(none.clone(), |heap, (pool, class, bits)| with(&heap, *pool, *class, *bits))
        };
        let (first, second) = (put(&first), put(&second));
        let second = with_byte(&second, 48 + 2 * size, 1);
        let last = 3 * 4096 + 48;
        let entries = [(48, 2), (48 + size, 1), (48 + 2 * size, 4), (4144, 3), (8240, 2), (last, 2)];
        two(calls, &first, &second).lists(&entries, &[(0, 2), (1, -1), (2, 1)]);
    }
}

/// Blocks of one size in the first heap and of twice that in the second: every second start is both's.
fn another_class(calls: &mut dyn Calls) {
    for edition in EDITIONS {
        let size = alignment(edition);
        let none = small(calls, edition);
        let (first, second) = (with(&none, 1, 0, 0b1111), with(&none, 1, 1, 0b111));
        let at = |k: usize| 4144 + k * size;
        let entries = [(at(0), 3), (at(1), 1), (at(2), 3), (at(3), 1), (at(4), 2)];
        two(calls, &first, &second).lists(&entries, &[(0, -4), (1, 3)]);
        // with other bytes too
        let second = with_byte(&with_byte(&second, at(0), 1), at(2) + 2 * size - 1, 1);
        two(calls, &first, &second).lists(&entries, &[(0, -4), (1, 3)]);
        // starts that interleave: 0, 3 and 6 of the first, 0, 2, 4 and 6 of the second
        let (first, second) = (with(&none, 0, 2, 0b111), with(&none, 0, 1, 0b1111));
        let at = |k: usize| 48 + k * size;
        let entries = [(at(0), 3), (at(2), 2), (at(3), 1), (at(4), 2), (at(6), 3)];
        two(calls, &first, &second).lists(&entries, &[(1, 4), (2, -3)]);
    }
}

/// Heaps by calls: a text is written, one block is given back, one is new, and one has moved to a larger size.
fn calls_and_texts(calls: &mut dyn Calls) {
    for edition in EDITIONS {
        let size = alignment(edition);
        let mut desk = Desk::formatted(calls, 1, 4, edition);
        for k in 0..4 {
            desk.done(Ask { size }, 48 + (k * size) as u32);
        }
        let first = desk.heap.clone();
        desk.done(Write { offset: 48, length: 3, first: 200 }, 48);
        desk.done(GiveBack { offset: 48 + size }, 48 + size as u32);
        desk.done(Resize { offset: 48 + 2 * size, size: 2 * size }, 4144);
        desk.done(Ask { size: 3 * size }, 8240);
        let second = desk.heap;
        let entries = [(48, 4), (48 + size, 1), (48 + 2 * size, 1), (4144, 2), (8240, 2)];
        two(calls, &first, &second).lists(&entries, &[(0, -2), (1, 1), (2, 1)]);
    }
}

// What is changed

/// At 0, above and below it, with the first heap having more and the second.
fn second_less_first(calls: &mut dyn Calls) {
    for edition in EDITIONS {
        let none = small(calls, edition);
        let bits = |count: u32| u64::MAX >> (64 - count);
        for (before, after) in [(1u32, 1u32), (1, 2), (2, 1), (7, 1), (1, 7)] {
            let (first, second) = (with(&none, 0, 4, bits(before)), with(&none, 0, 4, bits(after)));
            let mut two = two(calls, &first, &second);
            assert_eq!(two.compared([FIRST, SECOND], 64, 64).number, 0);
            assert_eq!(two.heaps.changed()[4], after as i32 - before as i32);
            assert_eq!(two.heaps.changed()[3], 0);
            assert_eq!(two.heaps.changed()[5], 0);
        }
        // one goes and one comes: entries, and no change
        let (first, second) = (with(&none, 0, 4, 0b01), with(&none, 0, 4, 0b10));
        two(calls, &first, &second).lists(&[(48, 1), (48 + 5 * alignment(edition), 2)], &[]);
    }
}

/// The first and the last class too, and pools of one class in both arenas; full pools of the smallest blocks.
fn each_class(calls: &mut dyn Calls) {
    for edition in EDITIONS {
        let none = small(calls, edition);
        for class in 0..classes(&none) {
            let some = with(&none, 1, class as u32, 0b1);
            two(calls, &none, &some).lists(&[(4144, 2)], &[(class, 1)]);
        }
        let none = fresh(calls, 2, 2, edition);
        let full = 4048 / alignment(edition);
        let mut all = none.clone();
        for pool in 0..4 {
            all = with(&all, pool, 0, u64::MAX);
            all.map[8 * pool..8 * pool + 8].fill(u64::MAX);
        }
        let entries: Vec<(usize, u32)> =
            (0..4 * full).map(|n| (4096 * (n / full) + 48 + n % full * alignment(edition), 2)).collect();
        two(calls, &none, &all).lists(&entries, &[(0, 4 * full as i32)]);
    }
}

/// To the difference of the two roll counts, on heaps made up whole and beside fresh ones.
fn changes_add_up(calls: &mut dyn Calls) {
    for seed in 0..24 {
        let mut rng = Rng::new(seed);
        let (arenas, pools, edition) = (rng.between(1, 3), rng.between(2, 4), rng.below(2));
        let [first, second] = [seed, !seed].map(|seed| {
            let mut heap = Buffers::new(arenas, pools);
            heap.whole(edition, seed);
            heap
        });
        let first = if seed % 4 == 0 { fresh(calls, arenas, pools, edition) } else { first };
        let counts = [&first, &second].map(|heap| {
            let call = RollCall { words: 1012 * arenas * pools };
            let answer = heap.clone().take(calls, &Step::Call(call)).answer;
            assert_eq!(answer.number, 0);
            answer.value as i32
        });
        let mut two = two(calls, &first, &second);
        assert_eq!(two.compared([FIRST, SECOND], 2024 * arenas * pools, classes(&first)).number, 0);
        assert_eq!(two.heaps.changed().iter().sum::<i32>(), counts[1] - counts[0]);
        assert_eq!(two.compared([SECOND, FIRST], 2024 * arenas * pools, classes(&first)).number, 0);
        assert_eq!(two.heaps.changed().iter().sum::<i32>(), counts[0] - counts[1]);
    }
}

// Numbers

/// A heap with A, P or the edition out of range, and one with a length that is not exact.
fn one_and_two(calls: &mut dyn Calls) {
    for edition in EDITIONS {
        let right = with(&small(calls, edition), 0, 0, 0b1);
        for (at, word) in [(0, 0), (0, 17), (1, 1), (1, 65), (EDITION, 2), (EDITION, 65_536), (0, u32::MAX)] {
            let mut wrong = right.clone();
            wrong.books[at] = word;
            two(calls, &right, &wrong).refused_both_ways(1, 1);
        }
        let exact = right.lent();
        for (which, length) in [(0, 8191), (0, 8193), (0, 0), (1, 95), (1, 97), (1, 68), (1, 1), (2, 15), (2, 17)] {
            let mut wrong = right.clone();
            let mut lent = exact;
            lent[which] = length;
            wrong.take(calls, &Step::Lend(lent));
            two(calls, &right, &wrong).refused_both_ways(2, 2);
        }
    }
}

/// Each alone, two of them, and A and P exchanged, where there are as many pools.
fn unequal_shape(calls: &mut dyn Calls) {
    let pairs = [
        ([2, 3, 0], [3, 3, 0]),
        ([2, 3, 0], [2, 4, 0]),
        ([2, 3, 0], [2, 3, 1]),
        ([2, 3, 1], [3, 3, 1]),
        ([2, 3, 1], [2, 4, 1]),
        ([2, 3, 0], [3, 2, 0]),
        ([2, 3, 1], [3, 2, 1]),
        ([1, 4, 0], [2, 2, 0]),
        ([1, 4, 1], [2, 2, 1]),
        ([2, 3, 0], [3, 2, 1]),
        ([1, 2, 0], [16, 2, 0]),
    ];
    for ([arenas, pools, edition], [others, their_pools, their_edition]) in pairs {
        let first = fresh(calls, arenas, pools, edition);
        let second = fresh(calls, others, their_pools, their_edition);
        two(calls, &first, &second).refused_both_ways(12, 12);
        two(calls, &first, &first).lists(&[], &[]);
    }
}

/// Two words for each entry are enough, and one or two fewer are not.
fn short_list(calls: &mut dyn Calls) {
    for edition in EDITIONS {
        let none = small(calls, edition);
        for entries in [1usize, 2, 7] {
            let some = with(&none, 0, 7, u64::MAX >> (64 - entries));
            let mut two = two(calls, &none, &some);
            for list in [0, entries - 1, entries, 2 * entries - 2, 2 * entries - 1] {
                two.refused([FIRST, SECOND], list, 64, 7);
                two.refused([SECOND, FIRST], list, classes(&none), 7);
            }
            let listed: Vec<(usize, u32)> = (0..entries).map(|k| (48 + k * 8 * alignment(edition), 2)).collect();
            two.lists(&listed, &[(7, entries as i32)]);
        }
    }
}

/// One for each class is enough, and one fewer is not, also where the list is empty.
fn short_changes(calls: &mut dyn Calls) {
    for edition in EDITIONS {
        let none = small(calls, edition);
        let some = with(&none, 0, 0, 0b1);
        let enough = classes(&none);
        for changes in [0, 1, enough / 2, enough - 1] {
            two(calls, &none, &some).refused([FIRST, SECOND], 64, changes, 7);
            two(calls, &some, &none).refused([FIRST, SECOND], 2, changes, 7);
            two(calls, &none, &none).refused([FIRST, SECOND], 0, changes, 7);
        }
        two(calls, &none, &some).lists(&[(48, 2)], &[(0, 1)]);
    }
}

/// Where the list alone would fit, the changes alone, or neither; with 12, and with 1 and 2.
fn nothing_written(calls: &mut dyn Calls) {
    for edition in EDITIONS {
        let none = small(calls, edition);
        let some = with(&none, 0, 0, 0b11);
        let mut seven = two(calls, &none, &some);
        for (list, changes) in [(4, classes(&none) - 1), (64, 0), (3, classes(&none)), (0, 64), (3, 31), (1, 0)] {
            seven.refused([FIRST, SECOND], list, changes, 7);
            seven.refused([SECOND, FIRST], list, changes, 7);
        }
        let larger = with(&fresh(calls, 2, 2, edition), 0, 0, 0b1);
        two(calls, &some, &larger).refused_both_ways(12, 12);
        let mut short = some.clone();
        short.take(calls, &Step::Lend([8192, 96, 15]));
        two(calls, &some, &short).refused_both_ways(2, 2);
    }
}

/// On heaps made up whole, at each place where a block can start: view says what is live and how large, and the bytes
/// are the part that it hands back.
fn as_view_tells(calls: &mut dyn Calls) {
    for seed in 0..6 {
        let edition = seed as usize % 2;
        let [first, second] = [seed, seed + 100].map(|seed| {
            let mut heap = Buffers::new(1, 2);
            heap.whole(edition, seed);
            heap
        });
        let mut expected = Vec::new();
        for offset in (0..8192).step_by(8) {
            let [one, other] = [&first, &second].map(|heap| {
                let (start, length) = heap.clone().take(calls, &Step::Call(View { offset })).part;
                heap.memory[start..start + length].to_vec()
            });
            let kind = match (one.len(), other.len()) {
                (_, 0) if !one.is_empty() => 1,
                (0, _) if !other.is_empty() => 2,
                (before, after) if before != after => 3,
                _ if one != other => 4,
                _ => continue,
            };
            expected.extend([offset as u32, kind]);
        }
        let mut two = two(calls, &first, &second);
        let answer = two.compared([FIRST, SECOND], expected.len(), classes(&first));
        assert_eq!(answer, Answer { number: 0, value: expected.len() as u32 / 2 });
        assert_eq!(two.heaps.listed(), expected);
    }
}

// Readings

/// 1 and 2 of the first heap, then of the second, then 12, then 7. Read otherwise, one of the two would come first.
fn order_of_tests(calls: &mut dyn Calls) {
    for edition in EDITIONS {
        let right = with(&small(calls, edition), 0, 0, 0b1);
        let (mut one, mut other) = (right.clone(), right.clone());
        one.books[0] = 0;
        other.take(calls, &Step::Lend([8192, 96, 15]));
        two(calls, &one, &other).refused_both_ways(1, 2);
        // a second heap of another shape, with a length that is not exact, or of no edition
        let mut wrong = fresh(calls, 2, 2, edition);
        let [memory, books, map] = wrong.lent();
        wrong.take(calls, &Step::Lend([memory - 1, books, map]));
        two(calls, &right, &wrong).refused_both_ways(2, 2);
        let mut wrong = fresh(calls, 2, 2, edition);
        wrong.books[EDITION] = 2;
        two(calls, &right, &wrong).refused_both_ways(1, 1);
        // of another shape, and no room
        let other = fresh(calls, 2, 2, edition);
        two(calls, &right, &other).refused([FIRST, SECOND], 0, 0, 12);
        two(calls, &right, &right).refused([FIRST, SECOND], 0, 0, 7);
    }
}

/// Read as all that was lent, or as all that the books say, these would be 12.
fn equal_shape(calls: &mut dyn Calls) {
    for edition in EDITIONS {
        let fresh = small(calls, edition);
        let mut used = Desk::formatted(calls, 1, 2, edition);
        used.done(Ask { size: 512 }, 48);
        used.done(Ask { size: 8 }, 4144);
        used.done(GiveBack { offset: 48 }, 48);
        used.done(GiveBack { offset: 4144 }, 4144);
        let mut used = used.heap;
        two(calls, &fresh, &used).lists(&[], &[]);
        for spare in 69..72 {
            used.books[spare] = 1;
        }
        two(calls, &fresh, &used).lists(&[], &[]);
    }
}

/// Read as kind and offset, or with the place in its pool, the words would be others.
fn offset_and_kind(calls: &mut dyn Calls) {
    for edition in EDITIONS {
        let none = fresh(calls, 2, 2, edition);
        let last = with(&none, 3, 0, 0b10);
        let mut two = two(calls, &none, &last);
        assert_eq!(two.compared([FIRST, SECOND], 2, 64), Answer { number: 0, value: 1 });
        assert_eq!(two.heaps.listed(), [12_288 + 48 + alignment(edition) as u32, 2]);
    }
}

/// Read as what a text could reach, or as all but a link, some of its bytes would be no matter.
fn whole_block(calls: &mut dyn Calls) {
    for edition in EDITIONS {
        let none = small(calls, edition);
        for class in [0, 1, 511 / alignment(edition)] {
            let size = alignment(edition) * (class + 1);
            let heap = with(&none, 1, class as u32, 0b1);
            for at in 0..size {
                two(calls, &heap, &with_byte(&heap, 4144 + at, 128)).lists(&[(4144, 4)], &[]);
            }
        }
    }
}

/// Read as bytes of the pool, those before and after a block and those of a dead one would be listed.
fn no_live_block(calls: &mut dyn Calls) {
    for edition in EDITIONS {
        let size = 2 * alignment(edition);
        let heap = with(&small(calls, edition), 0, 1, 0b10);
        for at in [0, 47, 48, 48 + size - 1, 48 + 2 * size, 4095, 4096, 4144, 8191] {
            two(calls, &heap, &with_byte(&heap, at, 1)).lists(&[], &[]);
        }
        // past the last block of the pool, where the blocks leave bytes over
        let heap = with(&small(calls, edition), 0, 511 / alignment(edition) as u32, 0b100_0000);
        two(calls, &heap, &with_byte(&heap, 48 + 7 * 512, 1)).lists(&[], &[]);
        two(calls, &heap, &with_byte(&heap, 48 + 7 * 512 - 1, 1)).lists(&[(48 + 6 * 512, 4)], &[]);
    }
}

/// Read as a list that fills its room, they would become something.
fn words_after(calls: &mut dyn Calls) {
    for edition in EDITIONS {
        let none = small(calls, edition);
        let one = with(&none, 0, 0, 0b1);
        for (second, entries) in [(&none, 0), (&one, 1)] {
            let mut two = two(calls, &none, second);
            for list in [2, 3, 4, 100] {
                assert_eq!(two.compared([FIRST, SECOND], list, 64), Answer { number: 0, value: entries });
                assert!(two.heaps.listed()[2 * entries as usize..].iter().all(|word| *word == MARK));
            }
        }
    }
}

/// Read as 64 in both editions, or as at least one, other rooms would be 7.
fn how_many_changes(calls: &mut dyn Calls) {
    for (edition, enough) in [(0, 64), (1, 32)] {
        let none = small(calls, edition);
        let last = with(&none, 0, enough as u32 - 1, 0b1);
        let mut two = two(calls, &none, &last);
        for fewer in [0, 1, enough / 2, enough - 1] {
            two.refused([FIRST, SECOND], 2, fewer, 7);
        }
        for changes in [enough, enough + 1, 64, 65, 128] {
            assert_eq!(two.compared([FIRST, SECOND], 2, changes), Answer { number: 0, value: 1 });
            assert_eq!(two.heaps.changed()[enough - 1], 1);
            assert!(two.heaps.changed()[..enough - 1].iter().all(|change| *change == 0));
        }
    }
}

/// Read as changes that fill their room, or as 64 in sixteen too, they would become 0.
fn changes_past(calls: &mut dyn Calls) {
    for edition in EDITIONS {
        let none = small(calls, edition);
        let one = with(&none, 0, 0, 0b1);
        for second in [&none, &one] {
            let mut two = two(calls, &none, second);
            for more in [0, 1, 32, 64] {
                assert_eq!(two.compared([FIRST, SECOND], 2, classes(&none) + more).number, 0);
                assert_eq!(two.heaps.changed()[classes(&none)..], vec![MARK as i32; more]);
            }
        }
    }
}

/// Read as the words, or as the live blocks, it would be another.
fn value_is_entries(calls: &mut dyn Calls) {
    for edition in EDITIONS {
        let heap = with(&small(calls, edition), 0, 0, 0b1110_1111);
        let other = with(&with_byte(&heap, 48, 1), 0, 0, 0b1111_1111);
        let mut two = two(calls, &heap, &other);
        assert_eq!(two.compared([FIRST, SECOND], 64, 64), Answer { number: 0, value: 2 });
        assert_eq!(two.compared([SECOND, FIRST], 4, 64), Answer { number: 0, value: 2 });
        assert_eq!(two.compared([FIRST, FIRST], 4, 64), Answer { number: 0, value: 0 });
    }
}

/// Class, start and bit alone: not that the pool is carved, nor below nextoffset, nor counted. A bit past the last
/// block is at none, and a class above 63 (31) has none. Read otherwise, one would be listed too many or too few.
fn live_by_01(calls: &mut dyn Calls) {
    for edition in EDITIONS {
        let mut none = small(calls, edition);
        let (last, blocks) = (511 / alignment(edition) as u32, 4048 / alignment(edition));
        let wide = with(&none, 0, last, 0);
        two(calls, &wide, &with(&none, 0, last, 0b100_0000)).lists(&[(3120, 2)], &[(last as usize, 1)]);
        two(calls, &wide, &with(&none, 0, last, 0b1000_0000)).lists(&[], &[]);
        two(calls, &wide, &with(&none, 0, last, 1 << 63)).lists(&[], &[]);
        for class in [last + 1, 64, 65, 65_535, u32::MAX] {
            two(calls, &wide, &with(&none, 0, class, u64::MAX)).lists(&[], &[]);
        }
        // the last block of the smallest class, and the bit after it
        none = with(&none, 1, 0, 0);
        let mut some = none.clone();
        some.map[8 + (blocks - 1) / 64] = 1 << ((blocks - 1) % 64);
        two(calls, &none, &some).lists(&[(8192 - alignment(edition), 2)], &[(0, 1)]);
        let mut stray = none.clone();
        stray.map[8 + blocks / 64] = 1 << (blocks % 64);
        two(calls, &none, &stray).lists(&[], &[]);
        two(calls, &stray, &some).lists(&[(8192 - alignment(edition), 2)], &[(0, 1)]);
    }
}
