//! W-201's cases: for each clause of the audit's rules a heap that breaks it, with its number, and the whole heaps next
//! to it, in both editions; and a case for each reading of it.

use crate::cases::Case;
use crate::damage::Rng;
use crate::desk::*;
use crate::look::Look;
use crate::spoils;
use crate::steps::Call::*;
use crate::Calls;

pub const CASES: &[Case] = &[
    ("W-201: yes from format on", from_format_on),
    ("W-201: rule 1, A, P, edition and lengths", rule_1),
    ("W-201: rule 2, open", rule_2_open),
    ("W-201: rule 2, the spare words", rule_2_spare),
    ("W-201: rule 2, the last words of records", rule_2_last),
    ("W-201: rule 3, a closed arena's record", rule_3),
    ("W-201: rule 4, the carve mark", rule_4_mark),
    ("W-201: rule 4, free pools", rule_4_free),
    ("W-201: rule 5, a pool not carved", rule_5_carved),
    ("W-201: rule 5, past the last block", rule_5_past),
    ("W-201: rule 5, a class without blocks", rule_5_class),
    ("W-201: rule 6, freed-pool lists", rule_6_freed),
    ("W-201: rule 6, the usable list", rule_6_usable),
    ("W-201: rule 6, the unused list", rule_6_unused),
    ("W-201: rule 6, class lists", rule_6_class),
    ("W-201: rule 6, full pools and arenas without free pools", rule_6_links),
    ("W-201: rule 7, count", rule_7),
    ("W-201: rule 8, a freed pool's class", rule_8_class),
    ("W-201: rule 8, a freed pool of class 65,535", rule_8_no_class),
    ("W-201: rule 8, maxnextoffset", rule_8_maximum),
    ("W-201: rule 8, nextoffset", rule_8_nextoffset),
    ("W-201: rule 8, the freed chain", rule_8_chain),
    ("W-201: rule 8, each block in exactly one", rule_8_each),
    ("W-201: rule 8, how many on the chain", rule_8_how_many),
    ("W-201: rule 9, the order", rule_9),
    ("W-201: each way to spoil a whole heap", each_way),
    ("W-201: after a yes no call gives 6", after_a_yes),
];

/// A case for each reading where W-201's words leave room, which tells it from the other reading.
pub const READINGS: &[Case] = &[
    ("W-201, read: the lowest number over the whole heap", lowest),
    ("W-201, read: rule 1 is what 1 or 2 say, and no refusal", no_refusal),
    ("W-201, read: word 68 above 1 is rule 1, and 1 is allowed", word_68),
    ("W-201, read: in use is a carved pool with a set bit", in_use),
    ("W-201, read: a set bit is any of the pool's 512", any_bit),
    ("W-201, read: full is told by the bits", full_by_bits),
    ("W-201, read: heads 36 to 67 in sixteen are rule 6", heads_of_no_class),
    ("W-201, read: each pool's count, carved or not", each_count),
    ("W-201, read: every carved pool but the freed ones of 65,535", each_other),
    ("W-201, read: the chain is one of blocks", chain_of_blocks),
    ("W-201, read: an open arena with no pool in use", none_in_use),
    ("W-201, read: a pool not carved may hold anything else", not_carved),
    ("W-201, read: rising means never falling", never_falling),
    ("W-201, read: a list kept by 01's rule is rule 9", kept_by_01),
];

/// A word of the books, by what it is of.
#[derive(Clone, Copy)]
enum At {
    Books(usize),
    Arena(usize, usize),
    Pool(usize, usize),
}

use At::{Arena, Books, Pool};

fn word<'a>(desk: &'a mut Desk, at: At) -> &'a mut u32 {
    match at {
        Books(word) => desk.books(word),
        Arena(arena, word) => desk.arena(arena, word),
        Pool(pool, word) => desk.pool(pool, word),
    }
}

/// Whatever of these the word becomes, the audit gives this number; it says yes before and after.
fn becomes(desk: &mut Desk, at: At, values: &[u32], number: u32) {
    desk.audited(0);
    let was = *word(desk, at);
    for value in values {
        assert_ne!(*value, was, "the word must become another");
        *word(desk, at) = *value;
        desk.audited(number);
    }
    *word(desk, at) = was;
    desk.audited(0);
}

/// The same for a link of a freed block.
fn link_becomes(desk: &mut Desk, offset: usize, values: &[u32], number: u32) {
    desk.audited(0);
    let was = desk.link(offset);
    for value in values {
        assert_ne!(*value, was, "the link must become another");
        desk.set_link(offset, *value);
        desk.audited(number);
    }
    desk.set_link(offset, was);
    desk.audited(0);
}

/// The same for a bit of a pool that is turned.
fn bit_turns(desk: &mut Desk, pool: usize, k: usize, number: u32) {
    desk.audited(0);
    desk.heap.map[8 * pool + k / 64] ^= 1 << (k % 64);
    desk.audited(number);
    desk.heap.map[8 * pool + k / 64] ^= 1 << (k % 64);
    desk.audited(0);
}

fn ask_each(desk: &mut Desk, sizes: impl IntoIterator<Item = usize>) {
    for size in sizes {
        assert_eq!(desk.answer(Ask { size }).number, 0);
    }
}

/// The first block of each of these pools is given back.
fn give_back_first(desk: &mut Desk, pools: &[usize]) {
    for pool in pools {
        let offset = 4096 * pool + 48;
        desk.done(GiveBack { offset }, offset as u32);
    }
}

/// Five arenas of four pools. Arena 0 has no free pool: its pool 0 is full, pool 1 has one block of the same class, of
/// 512. Arena 2 has one free pool, 8, and arena 1 two, 5 and 4 in this order; they are the usable list in this order.
/// Arenas 3 and 4 are closed. Every other pool has one block, of a class of its own.
fn sample(calls: &mut dyn Calls, edition: usize) -> Desk<'_> {
    let mut desk = Desk::formatted(calls, 5, 4, edition);
    ask_each(&mut desk, [512; 8]);
    ask_each(&mut desk, (1..=10).map(|blocks| alignment(edition) * blocks));
    give_back_first(&mut desk, &[4, 5, 8]);
    desk.audited(0);
    desk
}

/// One arena of two pools. Blocks 0 and 2 of the first are live, of 512 bytes each; 1 and 3 are on its freed chain in
/// this order, at 560 and 1,584; and 4 to 6 are virgin, from 2,096 on.
fn three_of_512(calls: &mut dyn Calls, edition: usize) -> Desk<'_> {
    let mut desk = Desk::formatted(calls, 1, 2, edition);
    ask_each(&mut desk, [512; 3]);
    desk.done(GiveBack { offset: 560 }, 560);
    desk
}

/// One arena of three pools. The first is freed, with two blocks of 512 on its chain, 48 and 560; the second is in use.
fn freed_of_512(calls: &mut dyn Calls, edition: usize) -> Desk<'_> {
    let mut desk = Desk::formatted(calls, 1, 3, edition);
    ask_each(&mut desk, [512, 256]);
    give_back_first(&mut desk, &[0]);
    desk.audited(0);
    desk
}

// Whole heaps

/// What calls make of a fresh heap, at each of them: asks, give-backs, resizes and texts.
fn from_format_on(calls: &mut dyn Calls) {
    for (edition, arenas, pools) in [(0, 1, 2), (1, 1, 2), (0, 3, 3), (1, 3, 3)] {
        let mut rng = Rng::new(201);
        let mut desk = Desk::formatted(calls, arenas, pools, edition);
        let mut held = Vec::new();
        desk.audited(0);
        for _ in 0..400 {
            let size = rng.pick(&[8, 16, 256, 500, 512]);
            if held.is_empty() || rng.one_in(2) {
                let answer = desk.answer(Ask { size });
                held.extend((answer.number == 0).then_some(answer.value as usize));
            } else {
                let at = rng.below(held.len());
                let offset = held[at];
                desk.done(Write { offset, length: 8, first: 255 }, offset as u32);
                match desk.answer(Resize { offset, size }) {
                    answer if answer.number == 0 => held[at] = answer.value as usize,
                    _ => drop(desk.answer(GiveBack { offset: held.swap_remove(at) })),
                }
            }
            desk.audited(0);
        }
    }
}

/// Each way gives its number on heaps that are made up whole, and those that leave them whole give yes.
fn each_way(calls: &mut dyn Calls) {
    for seed in 0..48 {
        let mut rng = Rng::new(seed);
        let (arenas, pools) = rng.pick(&[(1, 2), (2, 2), (2, 3), (4, 3), (5, 4)]);
        let mut desk = Desk::whole(calls, arenas, pools, rng.below(2), seed);
        desk.audited(0);
        for (words, number, way) in spoils::ALL.concat() {
            if let Some(steps) = way(&mut rng, &Look::new(&desk.heap)) {
                let mends = spoils::mends(&desk.heap, &steps);
                desk.strange(&steps);
                assert_eq!(desk.answer(Audit).number, number, "seed {seed}: {words}");
                desk.strange(&mends);
            }
        }
        desk.audited(0);
    }
}

fn after_a_yes(calls: &mut dyn Calls) {
    for seed in 0..48 {
        let mut rng = Rng::new(seed);
        let edition = rng.below(2);
        let mut desk = Desk::whole(calls, rng.between(1, 4), rng.between(2, 4), edition, seed);
        for _ in 0..24 {
            desk.audited(0);
            let held = crate::whole::held(&desk.heap);
            let size = rng.pick(&crate::whole::sizes(edition, seed));
            let answer = match held.is_empty() {
                false if rng.one_in(2) => desk.answer(GiveBack { offset: rng.pick(&held) }),
                false if rng.one_in(3) => desk.answer(Resize { offset: rng.pick(&held), size }),
                _ => desk.answer(Ask { size }),
            };
            assert!([0, 4].contains(&answer.number), "seed {seed}: {answer:?}");
        }
        desk.audited(0);
    }
}

// Rules 1 to 5

fn rule_1(calls: &mut dyn Calls) {
    for edition in EDITIONS {
        let mut desk = sample(calls, edition);
        becomes(&mut desk, Books(0), &[0, 4, 6, 17, u32::MAX], 1);
        becomes(&mut desk, Books(1), &[0, 1, 3, 5, 65, u32::MAX], 1);
        becomes(&mut desk, Books(EDITION), &[2, 3, 256, 65_537, u32::MAX], 1);
        for (memory, books, map) in [(81_919, 272, 160), (81_921, 272, 160), (81_920, 271, 160), (81_920, 273, 160)] {
            desk.lend(memory, books, map);
            desk.audited(1);
        }
        for (memory, books, map) in [(81_920, 272, 159), (81_920, 272, 161), (0, 272, 160), (81_920, 272, 0)] {
            desk.lend(memory, books, map);
            desk.audited(1);
        }
        desk.lend(81_920, 272, 160);
        desk.audited(0);
    }
}

fn rule_2_open(calls: &mut dyn Calls) {
    for edition in EDITIONS {
        let mut desk = sample(calls, edition);
        for arena in 0..5 {
            becomes(&mut desk, Arena(arena, OPEN), &[2, 3, 256, 65_537, u32::MAX], 2);
        }
    }
}

fn rule_2_spare(calls: &mut dyn Calls) {
    for edition in EDITIONS {
        let mut desk = sample(calls, edition);
        for spare in [69, 70, 71] {
            becomes(&mut desk, Books(spare), &[1, 2, 65_536, u32::MAX], 2);
        }
    }
}

/// Of open and closed arenas, of pools in use, freed and not carved.
fn rule_2_last(calls: &mut dyn Calls) {
    for edition in EDITIONS {
        let mut desk = sample(calls, edition);
        for arena in 0..5 {
            becomes(&mut desk, Arena(arena, 6), &[1, u32::MAX], 2);
            becomes(&mut desk, Arena(arena, 7), &[1, u32::MAX], 2);
        }
        for pool in 0..20 {
            becomes(&mut desk, Pool(pool, 7), &[1, u32::MAX], 2);
        }
    }
}

/// An open arena that becomes closed has a mark. Links are the unused list's, so they are no matter here.
fn rule_3(calls: &mut dyn Calls) {
    for edition in EDITIONS {
        let mut desk = sample(calls, edition);
        for arena in [3, 4] {
            for at in [CARVE_MARK, FREE_POOLS, FREED_HEAD] {
                becomes(&mut desk, Arena(arena, at), &[1, 4, u32::MAX], 3);
            }
        }
        for arena in [0, 1, 2] {
            becomes(&mut desk, Arena(arena, OPEN), &[0], 3);
        }
        becomes(&mut desk, Arena(3, ARENA_NEXT), &[0, 9], 6);
    }
}

/// 1 and P are within it. A closed arena that becomes open has mark 0.
fn rule_4_mark(calls: &mut dyn Calls) {
    for edition in EDITIONS {
        let mut desk = sample(calls, edition);
        for arena in [0, 1, 2] {
            becomes(&mut desk, Arena(arena, CARVE_MARK), &[0, 5, 6, 65_540, u32::MAX], 4);
        }
        for arena in [3, 4] {
            becomes(&mut desk, Arena(arena, OPEN), &[1], 4);
        }
        let mut desk = Desk::formatted(calls, 1, 4, edition);
        // open with no pool carved, and all else as it should be
        (*desk.books(USABLE), *desk.books(UNUSED)) = (1, 0);
        (*desk.arena(0, OPEN), *desk.arena(0, FREE_POOLS)) = (1, 4);
        desk.audited(4);

        let mut desk = Desk::formatted(calls, 1, 4, edition);
        ask_each(&mut desk, [512]);
        assert_eq!(*desk.arena(0, CARVE_MARK), 1);
        becomes(&mut desk, Arena(0, CARVE_MARK), &[0, 5], 4);
        ask_each(&mut desk, [8, 24, 40]);
        assert_eq!(*desk.arena(0, CARVE_MARK), 4);
        becomes(&mut desk, Arena(0, CARVE_MARK), &[0, 3, 5], 4);
    }
}

/// Freed pools and those not carved are not in use. A carved pool comes in use with a bit and out of use without.
fn rule_4_free(calls: &mut dyn Calls) {
    for edition in EDITIONS {
        let mut desk = sample(calls, edition);
        becomes(&mut desk, Arena(0, FREE_POOLS), &[1, 4, u32::MAX], 4);
        becomes(&mut desk, Arena(1, FREE_POOLS), &[0, 1, 3, 65_538], 4);
        becomes(&mut desk, Arena(2, FREE_POOLS), &[0, 2, u32::MAX], 4);
        for pool in [2, 3, 6, 7, 9, 10, 11] {
            bit_turns(&mut desk, pool, 0, 4);
        }
        for pool in [4, 5, 8] {
            bit_turns(&mut desk, pool, 1, 4);
        }
        let mut desk = Desk::formatted(calls, 1, 4, edition);
        ask_each(&mut desk, [512, 8]);
        becomes(&mut desk, Arena(0, FREE_POOLS), &[0, 1, 3, 4], 4);
    }
}

/// Above the mark and in a closed arena; not in use, so rule 4 is whole.
fn rule_5_carved(calls: &mut dyn Calls) {
    for edition in EDITIONS {
        let mut desk = sample(calls, edition);
        for pool in [12, 15, 16, 19] {
            for k in [0, 1, 63, 64, 511] {
                bit_turns(&mut desk, pool, k, 5);
            }
        }
        let mut desk = three_of_512(calls, edition);
        bit_turns(&mut desk, 1, 0, 5);
    }
}

/// The bits after the last block's, up to the pool's last. The last block's own is rule 7's, where the pool has another
/// spare block.
fn rule_5_past(calls: &mut dyn Calls) {
    for edition in EDITIONS {
        let mut desk = three_of_512(calls, edition);
        for k in [7, 8, 63, 64, 127, 511] {
            bit_turns(&mut desk, 0, k, 5);
        }
        bit_turns(&mut desk, 0, 6, 7);
    }
    for (edition, blocks) in [(0, 506), (1, 253)] {
        let mut desk = Desk::formatted(calls, 1, 2, edition);
        ask_each(&mut desk, [1]);
        for k in [blocks, blocks + 1, 511] {
            bit_turns(&mut desk, 0, k, 5);
        }
        bit_turns(&mut desk, 0, blocks - 1, 7);
    }
}

/// 63 is the last class that has blocks, and 31 in sixteen.
fn rule_5_class(calls: &mut dyn Calls) {
    for (edition, last) in [(0, 63), (1, 31)] {
        let mut desk = three_of_512(calls, edition);
        assert_eq!(*desk.pool(0, CLASS), last);
        becomes(&mut desk, Pool(0, CLASS), &[last + 1, last + 2, 64, 511, 65_535, 65_536 + last, u32::MAX], 5);
        becomes(&mut desk, Pool(0, CLASS), &[last - 1, 0], 6);
        // with fewer blocks than the last live one
        ask_each(&mut desk, [8; 9]);
        becomes(&mut desk, Pool(1, CLASS), &[last], 5);
    }
}

// Rule 6

/// The list of arena 1 is 5, 4, and of arena 2 it is 8. Pools 2, 3 and 6 are in use, and 12 is not carved.
fn rule_6_freed(calls: &mut dyn Calls) {
    for edition in EDITIONS {
        let mut desk = sample(calls, edition);
        assert_eq!([*desk.arena(1, FREED_HEAD), *desk.pool(5, NEXT), *desk.pool(4, NEXT)], [6, 5, 0]);
        becomes(&mut desk, Arena(1, FREED_HEAD), &[0, 5, 7, 9, 13, 21, u32::MAX], 6);
        becomes(&mut desk, Pool(5, NEXT), &[0, 6, 7, 9, 21, u32::MAX], 6);
        becomes(&mut desk, Pool(4, NEXT), &[5, 6, 7, 9, 13, 21, u32::MAX], 6);
        becomes(&mut desk, Arena(2, FREED_HEAD), &[0, 5, 10, 13, 21], 6);
        becomes(&mut desk, Arena(0, FREED_HEAD), &[1, 2, 9, 21], 6);
        for pool in [4, 5, 8] {
            becomes(&mut desk, Pool(pool, PREVIOUS), &[1, 5, 6, 21, u32::MAX], 6);
        }
        // the other way round it holds the same
        for (at, link) in [(Arena(1, FREED_HEAD), 5), (Pool(4, NEXT), 6), (Pool(5, NEXT), 0)] {
            *word(&mut desk, at) = link;
        }
        desk.audited(0);
    }
    // a pool comes to be carved without being on the list, or is on it and not carved
    let mut desk = freed_of_512(calls, 0);
    becomes(&mut desk, Arena(0, CARVE_MARK), &[3], 6);
    ask_each(&mut desk, [512, 128]);
    give_back_first(&mut desk, &[2]);
    becomes(&mut desk, Arena(0, CARVE_MARK), &[2], 6);
}

/// Arena 2, then arena 1. Arena 0 has no free pools, arenas 3 and 4 are closed.
fn rule_6_usable(calls: &mut dyn Calls) {
    for edition in EDITIONS {
        let mut desk = sample(calls, edition);
        assert_eq!([*desk.books(USABLE), *desk.arena(2, ARENA_NEXT)], [3, 2]);
        becomes(&mut desk, Books(USABLE), &[0, 1, 2, 4, 5, 6, u32::MAX], 6);
        becomes(&mut desk, Arena(2, ARENA_NEXT), &[0, 1, 3, 4, 5, 6, u32::MAX], 6);
        becomes(&mut desk, Arena(1, ARENA_NEXT), &[1, 2, 3, 4, 5, 6, u32::MAX], 6);
        becomes(&mut desk, Arena(2, ARENA_PREVIOUS), &[1, 2, 3, 6, u32::MAX], 6);
        becomes(&mut desk, Arena(1, ARENA_PREVIOUS), &[0, 1, 2, 4, 6, u32::MAX], 6);
    }
    // one alone, and none
    let mut desk = Desk::fresh(calls, 1, 2);
    becomes(&mut desk, Books(USABLE), &[1, 2], 6);
    ask_each(&mut desk, [8]);
    becomes(&mut desk, Books(USABLE), &[0, 2], 6);
    becomes(&mut desk, Arena(0, ARENA_NEXT), &[1, 2], 6);
    becomes(&mut desk, Arena(0, ARENA_PREVIOUS), &[1, 2], 6);
}

/// Arena 3, then arena 4.
fn rule_6_unused(calls: &mut dyn Calls) {
    for edition in EDITIONS {
        let mut desk = sample(calls, edition);
        assert_eq!([*desk.books(UNUSED), *desk.arena(3, ARENA_NEXT)], [4, 5]);
        becomes(&mut desk, Books(UNUSED), &[0, 1, 2, 3, 5, 6, u32::MAX], 6);
        becomes(&mut desk, Arena(3, ARENA_NEXT), &[0, 1, 2, 4, 6, u32::MAX], 6);
        becomes(&mut desk, Arena(4, ARENA_NEXT), &[1, 2, 4, 5, 6, u32::MAX], 6);
        becomes(&mut desk, Arena(3, ARENA_PREVIOUS), &[1, 4, 5, 6, u32::MAX], 6);
        becomes(&mut desk, Arena(4, ARENA_PREVIOUS), &[0, 1, 5, 6, u32::MAX], 6);
        // the other way round it holds the same
        *desk.books(UNUSED) = 5;
        for (arena, next, previous) in [(4, 4, 0), (3, 0, 5)] {
            *desk.arena(arena, ARENA_NEXT) = next;
            *desk.arena(arena, ARENA_PREVIOUS) = previous;
        }
        desk.audited(0);
    }
}

/// Pool 0 has a spare block again and is before pool 1 on the list of 512. Pool 2 is alone on its list.
fn rule_6_class(calls: &mut dyn Calls) {
    for edition in EDITIONS {
        let mut desk = sample(calls, edition);
        give_back_first(&mut desk, &[0]);
        let of_512 = 3 + 512 / alignment(edition);
        assert_eq!([*desk.books(of_512), *desk.pool(0, NEXT), *desk.pool(1, PREVIOUS)], [1, 2, 1]);
        becomes(&mut desk, Books(of_512), &[0, 2, 3, 5, 13, 21, u32::MAX], 6);
        becomes(&mut desk, Pool(0, NEXT), &[0, 1, 3, 5, 13, 21, u32::MAX], 6);
        becomes(&mut desk, Pool(1, NEXT), &[1, 2, 3, 5, 13, 21, u32::MAX], 6);
        becomes(&mut desk, Pool(0, PREVIOUS), &[1, 2, 3, 21, u32::MAX], 6);
        becomes(&mut desk, Pool(1, PREVIOUS), &[0, 2, 3, 21, u32::MAX], 6);
        // a list of one, and one of none
        becomes(&mut desk, Books(4), &[0, 1, 21], 6);
        becomes(&mut desk, Pool(2, NEXT), &[2, 3, 4, 21], 6);
        becomes(&mut desk, Books(of_512 - 1), &[1, 3, 13, 21, u32::MAX], 6);
        // a pool of another class than the list it is on
        becomes(&mut desk, Pool(3, CLASS), &[0], 6);
    }
}

/// Pool 0 is full and arena 0 without free pools.
fn rule_6_links(calls: &mut dyn Calls) {
    for edition in EDITIONS {
        let mut desk = sample(calls, edition);
        becomes(&mut desk, Pool(0, NEXT), &[1, 2, 21, u32::MAX], 6);
        becomes(&mut desk, Pool(0, PREVIOUS), &[1, 2, 21, u32::MAX], 6);
        becomes(&mut desk, Arena(0, ARENA_NEXT), &[1, 2, 6, u32::MAX], 6);
        becomes(&mut desk, Arena(0, ARENA_PREVIOUS), &[1, 2, 6, u32::MAX], 6);
        // a bit less makes a full pool one with a spare block, on no list
        bit_turns(&mut desk, 0, 3, 6);
        // a bit more makes a listed pool full
        give_back_first(&mut desk, &[0]);
        bit_turns(&mut desk, 0, 0, 6);
    }
}

// Rules 7 to 9

/// In a full pool, one with a spare block, a freed one and one not carved.
fn rule_7(calls: &mut dyn Calls) {
    for edition in EDITIONS {
        let mut desk = sample(calls, edition);
        becomes(&mut desk, Pool(0, COUNT), &[0, 6, 8, 506, u32::MAX], 7);
        becomes(&mut desk, Pool(1, COUNT), &[0, 2, 7, 65_537, u32::MAX], 7);
        becomes(&mut desk, Pool(4, COUNT), &[1, 7, u32::MAX], 7);
        becomes(&mut desk, Pool(12, COUNT), &[1, 506, u32::MAX], 7);
        let mut desk = three_of_512(calls, edition);
        bit_turns(&mut desk, 0, 0, 7);
        bit_turns(&mut desk, 0, 1, 7);
    }
}

/// Any but its own has another maxnextoffset, and a class above 63 (31) no blocks.
fn rule_8_class(calls: &mut dyn Calls) {
    for (edition, last) in [(0, 63), (1, 31)] {
        let mut desk = freed_of_512(calls, edition);
        becomes(&mut desk, Pool(0, CLASS), &[0, last - 1, last + 1, 64, 65_534, 65_535, 65_536, u32::MAX], 8);
    }
}

/// All else but next 0. Its count is rule 7's, its previous rule 6's, its last word rule 2's.
fn rule_8_no_class(calls: &mut dyn Calls) {
    for edition in EDITIONS {
        let mut desk = sample(calls, edition);
        for at in [FREEBLOCK, NEXTOFFSET, MAXNEXTOFFSET] {
            *desk.pool(5, at) = 0;
        }
        *desk.pool(5, CLASS) = 65_535;
        assert_eq!(*desk.pool(5, NEXT), 5);
        for at in [FREEBLOCK, NEXTOFFSET, MAXNEXTOFFSET] {
            becomes(&mut desk, Pool(5, at), &[1, 48, 3584, u32::MAX], 8);
        }
        becomes(&mut desk, Pool(5, CLASS), &[0, 31, 63, 64, 65_534, 65_536, u32::MAX], 8);
        becomes(&mut desk, Pool(5, COUNT), &[1], 7);
        becomes(&mut desk, Pool(5, PREVIOUS), &[1], 6);
        becomes(&mut desk, Pool(5, 7), &[1], 2);
    }
}

/// 4,096 - size, also where the last block starts before it; in use, full and freed.
fn rule_8_maximum(calls: &mut dyn Calls) {
    for edition in EDITIONS {
        let mut desk = three_of_512(calls, edition);
        becomes(&mut desk, Pool(0, MAXNEXTOFFSET), &[0, 3120, 3583, 3585, 4096, 65_536 + 3584, u32::MAX], 8);
        let mut desk = sample(calls, edition);
        for pool in [0, 1] {
            becomes(&mut desk, Pool(pool, MAXNEXTOFFSET), &[0, 3120, 3583, 3585], 8);
        }
        for pool in [2, 4, 5, 8] {
            becomes(&mut desk, Pool(pool, MAXNEXTOFFSET), &[0, 48, 4096], 8);
        }
    }
}

/// A block start or the last block's end, and the one before which every block was touched.
fn rule_8_nextoffset(calls: &mut dyn Calls) {
    for edition in EDITIONS {
        let mut desk = three_of_512(calls, edition);
        assert_eq!(*desk.pool(0, NEXTOFFSET), 2096);
        becomes(&mut desk, Pool(0, NEXTOFFSET), &[0, 47, 2095, 2097, 2104, 3584, 3633, 4096, 4144, u32::MAX], 8);
        becomes(&mut desk, Pool(0, NEXTOFFSET), &[48, 560, 1072, 1584, 2608, 3120, 3632], 8);
        let mut desk = sample(calls, edition);
        assert_eq!(*desk.pool(0, NEXTOFFSET), 3632);
        becomes(&mut desk, Pool(0, NEXTOFFSET), &[0, 48, 3120, 3584, 3631, 3633, 4096, 4144, u32::MAX], 8);
        // six live, one ready; five live, one ready, the last one virgin
        give_back_first(&mut desk, &[0]);
        assert_eq!(*desk.pool(0, NEXTOFFSET), 3632);
        desk.audited(0);
        let mut desk = Desk::formatted(calls, 1, 2, edition);
        ask_each(&mut desk, [512; 5]);
        assert_eq!(*desk.pool(0, NEXTOFFSET), 3120);
        desk.audited(0);
    }
}

fn rule_8_chain(calls: &mut dyn Calls) {
    for edition in EDITIONS {
        let mut desk = three_of_512(calls, edition);
        assert_eq!([*desk.pool(0, FREEBLOCK), desk.link(560), desk.link(1584)], [560, 1584, 0]);
        becomes(&mut desk, Pool(0, FREEBLOCK), &[0, 48, 1072, 1584, 2096, 3120], 8);
        becomes(&mut desk, Pool(0, FREEBLOCK), &[1, 40, 561, 564, 3584, 3632, 4096, 4656, u32::MAX], 8);
        link_becomes(&mut desk, 560, &[0, 48, 560, 1072, 2096, 3120], 8);
        link_becomes(&mut desk, 560, &[1, 40, 1583, 1585, 3632, 4096, 5680, u32::MAX], 8);
        link_becomes(&mut desk, 1584, &[48, 560, 1072, 1584, 2096, 40, 3632, 65_536, u32::MAX], 8);
        // the other way round it holds the same
        *desk.pool(0, FREEBLOCK) = 1584;
        desk.set_link(1584, 560);
        desk.set_link(560, 0);
        desk.audited(0);
        // no link of a live or virgin block is one
        for offset in [48, 1072, 2096, 3120] {
            desk.set_link(offset, 560);
            desk.audited(0);
        }
        let mut desk = sample(calls, edition);
        assert_eq!(*desk.pool(0, FREEBLOCK), 0);
        becomes(&mut desk, Pool(0, FREEBLOCK), &[48, 3120, 3632, u32::MAX], 8);
    }
}

/// Live and freed, live and virgin, freed and virgin, or none of them, with a count that says so.
fn rule_8_each(calls: &mut dyn Calls) {
    for edition in EDITIONS {
        let mut desk = three_of_512(calls, edition);
        for (bits, count) in [(0b0111, 3), (0b1101, 3), (0b10101, 3), (0b1000101, 3), (0b0001, 1), (0b0100, 1)] {
            (*desk.bits(0), *desk.pool(0, COUNT)) = (bits, count);
            desk.audited(8);
        }
        (*desk.bits(0), *desk.pool(0, COUNT)) = (0b0101, 2);
        desk.audited(0);
        // a virgin block before, between and after the two
        for (freeblock, links) in [
            (2096, [(2096, 560), (560, 1584), (1584, 0)]),
            (560, [(560, 2096), (2096, 1584), (1584, 0)]),
            (560, [(560, 1584), (1584, 2096), (2096, 0)]),
        ] {
            *desk.pool(0, FREEBLOCK) = freeblock;
            links.into_iter().for_each(|(offset, link)| desk.set_link(offset, link));
            desk.audited(8);
            // with nextoffset past it, it is freed alone
            *desk.pool(0, NEXTOFFSET) = 2608;
            desk.audited(0);
            *desk.pool(0, NEXTOFFSET) = 2096;
        }
    }
}

/// A freed pool has two at least, any other one, but for a full one that has none.
fn rule_8_how_many(calls: &mut dyn Calls) {
    for edition in EDITIONS {
        let mut desk = freed_of_512(calls, edition);
        assert_eq!([*desk.pool(0, FREEBLOCK), desk.link(48), desk.link(560)], [48, 560, 0]);
        let chain = |desk: &mut Desk, freeblock, nextoffset| {
            *desk.pool(0, FREEBLOCK) = freeblock;
            *desk.pool(0, NEXTOFFSET) = nextoffset;
        };
        chain(&mut desk, 0, 48);
        desk.audited(8);
        desk.set_link(48, 0);
        chain(&mut desk, 48, 560);
        desk.audited(8);
        desk.set_link(48, 560);
        chain(&mut desk, 48, 1072);
        desk.audited(0);

        let mut desk = three_of_512(calls, edition);
        desk.done(Ask { size: 512 }, 560);
        assert_eq!([*desk.pool(0, FREEBLOCK), desk.link(1584)], [1584, 0]);
        desk.audited(0);
        chain(&mut desk, 0, 1584);
        desk.audited(8);
        // with all seven live it is right to have none
        chain(&mut desk, 1584, 2096);
        ask_each(&mut desk, [512; 4]);
        assert_eq!(*desk.pool(0, FREEBLOCK), 0);
        desk.audited(0);
    }
}

/// Arena 2 with one free pool goes before arena 1 with two. With as many, both orders are right.
fn rule_9(calls: &mut dyn Calls) {
    for edition in EDITIONS {
        let mut desk = sample(calls, edition);
        let order = |desk: &mut Desk, [first, second]: [usize; 2]| {
            *desk.books(USABLE) = first as u32 + 1;
            for (arena, next, previous) in [(first, second as u32 + 1, 0), (second, 0, first as u32 + 1)] {
                *desk.arena(arena, ARENA_NEXT) = next;
                *desk.arena(arena, ARENA_PREVIOUS) = previous;
            }
        };
        order(&mut desk, [1, 2]);
        desk.audited(9);
        order(&mut desk, [2, 1]);
        desk.audited(0);
        give_back_first(&mut desk, &[9]);
        for two in [[1, 2], [2, 1]] {
            order(&mut desk, two);
            desk.audited(0);
        }
    }
}

// Readings

/// Damage goes away from the highest number down, and from the last record to the first.
fn lowest(calls: &mut dyn Calls) {
    let mut desk = sample(calls, 0);
    let damage = [
        (Pool(0, MAXNEXTOFFSET), 1, 8),
        (Pool(1, COUNT), 5, 7),
        (Pool(2, PREVIOUS), 5, 6),
        (Arena(1, FREE_POOLS), 9, 4),
        (Arena(3, CARVE_MARK), 1, 3),
        (Pool(19, 7), 1, 2),
        (Books(EDITION), 2, 1),
    ];
    for (at, value, number) in damage {
        *word(&mut desk, at) = value;
        desk.audited(number);
    }
}

/// Read as refused, books of under two words would give 2.
fn no_refusal(calls: &mut dyn Calls) {
    for edition in EDITIONS {
        let mut desk = sample(calls, edition);
        for books in [0, 1, 2, 3, 67, 68, 69, 70, 271] {
            desk.lend(0, books, 0);
            desk.audited(1);
            desk.lend(81_920, books, 160);
            desk.audited(1);
        }
    }
}

/// Read as one of the spare words, above 1 would be rule 2, and so would 1 itself.
fn word_68(calls: &mut dyn Calls) {
    for edition in EDITIONS {
        let mut desk = Desk::formatted(calls, 1, 2, edition);
        becomes(&mut desk, Books(EDITION), &[2, 3, 65_536, u32::MAX], 1);
        // no pool has a class yet, so either edition is right
        *desk.books(EDITION) = 1 - edition as u32;
        desk.audited(0);
    }
}

/// Read as any pool with a set bit, it would be rule 4.
fn in_use(calls: &mut dyn Calls) {
    for edition in EDITIONS {
        let mut desk = Desk::formatted(calls, 1, 2, edition);
        ask_each(&mut desk, [8]);
        bit_turns(&mut desk, 1, 0, 5);
    }
}

/// Read as a bit of a block, a freed pool with one past its last would not be in use: rule 5.
fn any_bit(calls: &mut dyn Calls) {
    for edition in EDITIONS {
        let mut desk = freed_of_512(calls, edition);
        for k in [7, 63, 64, 511] {
            bit_turns(&mut desk, 0, k, 4);
        }
    }
}

/// Read by the count, the pool would be full and on a list all the same: rule 6.
fn full_by_bits(calls: &mut dyn Calls) {
    for edition in EDITIONS {
        let mut desk = Desk::formatted(calls, 1, 2, edition);
        ask_each(&mut desk, [512; 3]);
        becomes(&mut desk, Pool(0, COUNT), &[7], 7);
    }
}

/// Read as words of no list, they would be no matter.
fn heads_of_no_class(calls: &mut dyn Calls) {
    let mut desk = Desk::sixteen(calls, 1, 2);
    for head in 36..68 {
        becomes(&mut desk, Books(head), &[1, 2, 3, u32::MAX], 6);
    }
    ask_each(&mut desk, [512]);
    for head in 36..68 {
        becomes(&mut desk, Books(head), &[1, 2, 3, u32::MAX], 6);
    }
}

/// Read as each carved pool's, it would be no matter.
fn each_count(calls: &mut dyn Calls) {
    for edition in EDITIONS {
        let mut desk = Desk::formatted(calls, 2, 2, edition);
        for pool in 0..4 {
            becomes(&mut desk, Pool(pool, COUNT), &[1, 7, u32::MAX], 7);
        }
        ask_each(&mut desk, [8]);
        for pool in 1..4 {
            becomes(&mut desk, Pool(pool, COUNT), &[1, 7, u32::MAX], 7);
        }
    }
}

/// Read as every carved pool but the freed ones, these would be no matter.
fn each_other(calls: &mut dyn Calls) {
    for edition in EDITIONS {
        let mut desk = freed_of_512(calls, edition);
        becomes(&mut desk, Pool(0, MAXNEXTOFFSET), &[0, 3120], 8);
        becomes(&mut desk, Pool(0, NEXTOFFSET), &[0, 560, 1584, 3632], 8);
        becomes(&mut desk, Pool(0, FREEBLOCK), &[0, 560, 1072], 8);
        link_becomes(&mut desk, 560, &[48, 1072], 8);
    }
}

/// Read of blocks alone, a place that is none would be no matter: after 1,584 the chain ends at 1,588.
fn chain_of_blocks(calls: &mut dyn Calls) {
    for edition in EDITIONS {
        let mut desk = three_of_512(calls, edition);
        desk.set_link(1588, 0);
        link_becomes(&mut desk, 1584, &[1588], 8);
        desk.set_link(1588, 1584);
        link_becomes(&mut desk, 560, &[1588], 8);
        becomes(&mut desk, Pool(0, FREEBLOCK), &[1588], 8);
    }
}

/// No call makes one. Read as an arena that should have been released, it would be rule 4.
fn none_in_use(calls: &mut dyn Calls) {
    for edition in EDITIONS {
        let mut desk = freed_of_512(calls, edition);
        // the second pool is freed without its arena being released
        (*desk.bits(1), *desk.pool(1, COUNT)) = (0, 0);
        *desk.books(3 + 256 / alignment(edition)) = 0;
        (*desk.pool(1, NEXT), *desk.arena(0, FREED_HEAD)) = (1, 2);
        (*desk.pool(1, FREEBLOCK), *desk.arena(0, FREE_POOLS)) = (48, 3);
        desk.set_link(4144, 304);
        assert_eq!(desk.link(4096 + 304), 0);
        desk.audited(0);
        becomes(&mut desk, Arena(0, FREE_POOLS), &[2, 4], 4);
        desk.done(Ask { size: 256 }, 4144);
        desk.audited(0);
        give_back_first(&mut desk, &[1]);
        assert_eq!(desk.arena_record(0), [0; 8]);
        desk.audited(0);
    }
}

/// All but its count, its last word and its bits. Read as held to the lists or to rule 8, it would be 6 or 8.
fn not_carved(calls: &mut dyn Calls) {
    for edition in EDITIONS {
        let mut desk = sample(calls, edition);
        for pool in [12, 15, 16, 19] {
            for at in [FREEBLOCK, NEXT, PREVIOUS, CLASS, NEXTOFFSET, MAXNEXTOFFSET] {
                becomes(&mut desk, Pool(pool, at), &[1, 2, 63, 64, u32::MAX], 0);
            }
        }
        // above the mark of an open arena too
        let mut desk = Desk::formatted(calls, 1, 2, edition);
        ask_each(&mut desk, [8]);
        for at in [FREEBLOCK, NEXT, PREVIOUS, CLASS, NEXTOFFSET, MAXNEXTOFFSET] {
            becomes(&mut desk, Pool(1, at), &[1, 2, 63, 64, u32::MAX], 0);
        }
    }
}

/// Read as strictly rising, two arenas with as many would be rule 9.
fn never_falling(calls: &mut dyn Calls) {
    for edition in EDITIONS {
        let mut desk = sample(calls, edition);
        give_back_first(&mut desk, &[9]);
        assert_eq!([1, 2].map(|arena| *desk.arena(arena, FREE_POOLS)), [2, 2]);
        desk.audited(0);
        give_back_first(&mut desk, &[2, 3]);
        assert_eq!([0, 1, 2].map(|arena| *desk.arena(arena, FREE_POOLS)), [2, 2, 2]);
        desk.audited(0);
    }
}

/// Nine classes in three arenas of three pools, pools 3, 0 and 1 given back: 01's rule leaves arena 0 with two free
/// pools before arena 1 with one. Every other rule is whole.
fn kept_by_01(calls: &mut dyn Calls) {
    for edition in EDITIONS {
        let mut desk = Desk::formatted(calls, 3, 3, edition);
        ask_each(&mut desk, (1..=9).map(|blocks| alignment(edition) * blocks));
        give_back_first(&mut desk, &[3, 0, 1]);
        desk.audited(0);
        *desk.books(USABLE) = 1;
        for (arena, next, previous) in [(0, 2, 0), (1, 0, 1)] {
            *desk.arena(arena, ARENA_NEXT) = next;
            *desk.arena(arena, ARENA_PREVIOUS) = previous;
        }
        desk.audited(9);
    }
}
