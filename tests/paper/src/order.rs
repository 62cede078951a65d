//! W-203's cases: the usable arenas rise by free pools. An arena whose pool comes free moves back past those that have
//! fewer, on sound lists and on damaged ones, in both editions.

use crate::cases::Case;
use crate::damage::Rng;
use crate::desk::*;
use crate::steps::Call::*;
use crate::{Answer, Calls};

pub const CASES: &[Case] = &[
    ("W-203: the next ask", next_ask),
    ("W-203: one passed, the records", one_passed_records),
    ("W-203: none passed", none_passed),
    ("W-203: as many are not passed", as_many),
    ("W-203: one passed, from the front to the middle", front_to_middle),
    ("W-203: one passed, from behind another", from_behind),
    ("W-203: two passed", two_passed),
    ("W-203: all others passed", all_others),
    ("W-203: always rising", always_rising),
    ("W-203: a newly usable arena passes none", newly_usable),
    ("W-203: a released arena passes none", released),
    ("W-203: the arena of a resize moves", resize_moves),
    ("W-203: a resize is half done", resize_half_done),
    ("W-203: a walk into a bad link", bad_link),
    ("W-203: a cycle of the followers", cycle_of_followers),
    ("W-203: a cycle through the arena", cycle_through_the_arena),
    ("W-203: own previous is a passed arena", previous_is_passed),
    ("W-203: own previous is the arena itself", previous_is_itself),
    ("W-203: links that are written and not read", written_not_read),
    ("W-203: a closed arena is passed", closed_arena),
];

/// A case for each reading where W-203's words leave room, which tells it from the other reading.
pub const READINGS: &[Case] = &[
    ("W-203, read: own next is used where none is passed", own_next),
    ("W-203, read: own previous is used where one is passed", own_previous),
    ("W-203, read: a follower's free pools have no rule", no_rule),
    ("W-203, read: free pools has risen", has_risen),
    ("W-203, read: an arena that the walk comes back to", comes_back),
    ("W-203, read: more than A passed is 6", more_than_a),
    ("W-203, read: a list kept by 01's rule", kept_by_01),
    ("W-203, read: what follows is read after leaving", after_leaving),
    ("W-203, read: own links first", own_links_first),
];

/// A heap whose first pools, this many, each hold one block, of a class of its own.
fn with_pools(calls: &mut dyn Calls, edition: usize, [arenas, pools]: [usize; 2], taken: usize) -> Desk<'_> {
    let mut desk = Desk::formatted(calls, arenas, pools, edition);
    for pool in 0..taken {
        desk.done(Ask { size: alignment(edition) * (pool + 1) }, first_of(pool) as u32);
    }
    desk
}

/// The same for all pools, so that no arena is usable.
fn full(calls: &mut dyn Calls, edition: usize, arenas: usize, pools: usize) -> Desk<'_> {
    with_pools(calls, edition, [arenas, pools], arenas * pools)
}

/// The offset of a pool's first block.
fn first_of(pool: usize) -> usize {
    4096 * pool + 48
}

/// The one block of each of these pools is given back.
fn free(desk: &mut Desk, pools: &[usize]) {
    for pool in pools {
        desk.done(GiveBack { offset: first_of(*pool) }, first_of(*pool) as u32);
    }
}

fn refused(desk: &mut Desk, pool: usize) {
    desk.refused(GiveBack { offset: first_of(pool) }, 6);
}

/// An arena's next and previous.
fn links(desk: &mut Desk, arena: usize) -> [u32; 2] {
    [ARENA_NEXT, ARENA_PREVIOUS].map(|word| *desk.arena(arena, word))
}

/// The usable list from its front, linked both ways: each arena with its free pools.
fn usable(desk: &mut Desk) -> Vec<(usize, u32)> {
    let mut list = Vec::new();
    let (mut link, mut before) = (*desk.books(USABLE), 0);
    while link != 0 && list.len() < 17 {
        let arena = link as usize - 1;
        assert_eq!(*desk.arena(arena, ARENA_PREVIOUS), before, "the previous of arena {arena}");
        list.push((arena, *desk.arena(arena, FREE_POOLS)));
        (before, link) = (link, *desk.arena(arena, ARENA_NEXT));
    }
    list
}

// Sound lists

/// By 01's rule the front would stay arena 1, and the ask be served with 16,432.
fn next_ask(calls: &mut dyn Calls) {
    for edition in EDITIONS {
        let mut desk = full(calls, edition, 2, 3);
        free(&mut desk, &[0, 3, 4]);
        assert_eq!(usable(&mut desk), [(0, 1), (1, 2)]);
        desk.done(Ask { size: 7 * alignment(edition) }, 48);
        assert_eq!(usable(&mut desk), [(1, 2)]);
        desk.done(Ask { size: 8 * alignment(edition) }, 16_432);
    }
}

fn one_passed_records(calls: &mut dyn Calls) {
    for edition in EDITIONS {
        let mut desk = full(calls, edition, 2, 3);
        free(&mut desk, &[0, 3]);
        assert_eq!(*desk.books(USABLE), 2);
        assert_eq!(desk.arena_record(0), [1, 3, 1, 1, 0, 2, 0, 0]);
        assert_eq!(desk.arena_record(1), [1, 3, 1, 4, 1, 0, 0, 0]);
        free(&mut desk, &[4]);
        assert_eq!([*desk.books(USABLE), *desk.books(UNUSED)], [1, 0]);
        assert_eq!(desk.arena_record(0), [1, 3, 1, 1, 2, 0, 0, 0]);
        assert_eq!(desk.arena_record(1), [1, 3, 2, 5, 0, 1, 0, 0]);
    }
}

/// Alone, at the end of the list, and before one that has more.
fn none_passed(calls: &mut dyn Calls) {
    for edition in EDITIONS {
        let mut desk = full(calls, edition, 1, 4);
        free(&mut desk, &[0, 1]);
        assert_eq!(usable(&mut desk), [(0, 2)]);
        free(&mut desk, &[2]);
        assert_eq!(usable(&mut desk), [(0, 3)]);
        free(&mut desk, &[3]);
        assert_eq!(usable(&mut desk), []);

        let mut desk = full(calls, edition, 2, 4);
        free(&mut desk, &[0, 4, 1]);
        assert_eq!(usable(&mut desk), [(1, 1), (0, 2)]);
        free(&mut desk, &[2, 5]);
        assert_eq!(usable(&mut desk), [(1, 2), (0, 3)]);
    }
}

/// Read with equal numbers passed, the asks would be served by arena 0.
fn as_many(calls: &mut dyn Calls) {
    for edition in EDITIONS {
        let mut desk = full(calls, edition, 2, 4);
        free(&mut desk, &[0, 1, 4, 5]);
        assert_eq!(usable(&mut desk), [(1, 2), (0, 2)]);
        free(&mut desk, &[2, 6]);
        assert_eq!(usable(&mut desk), [(1, 3), (0, 3)]);
        desk.done(Ask { size: 9 * alignment(edition) }, 24_624);
        assert_eq!(usable(&mut desk), [(1, 2), (0, 3)]);
    }
}

fn front_to_middle(calls: &mut dyn Calls) {
    for edition in EDITIONS {
        let mut desk = full(calls, edition, 3, 4);
        free(&mut desk, &[0, 1, 2, 4, 8]);
        assert_eq!(usable(&mut desk), [(2, 1), (1, 1), (0, 3)]);
        free(&mut desk, &[9]);
        assert_eq!(usable(&mut desk), [(1, 1), (2, 2), (0, 3)]);
        assert_eq!([0, 1, 2].map(|arena| links(&mut desk, arena)), [[0, 3], [3, 0], [1, 2]]);
    }
}

/// From the middle to the end and to the middle, with moves from the front between them, up to a release.
fn from_behind(calls: &mut dyn Calls) {
    for edition in EDITIONS {
        let mut desk = full(calls, edition, 3, 4);
        free(&mut desk, &[0, 4, 8]);
        assert_eq!(usable(&mut desk), [(2, 1), (1, 1), (0, 1)]);
        free(&mut desk, &[5]);
        assert_eq!(usable(&mut desk), [(2, 1), (0, 1), (1, 2)]);
        free(&mut desk, &[9]);
        assert_eq!(usable(&mut desk), [(0, 1), (2, 2), (1, 2)]);
        free(&mut desk, &[10]);
        assert_eq!(usable(&mut desk), [(0, 1), (1, 2), (2, 3)]);
        free(&mut desk, &[1]);
        assert_eq!(usable(&mut desk), [(0, 2), (1, 2), (2, 3)]);
        free(&mut desk, &[2]);
        assert_eq!(usable(&mut desk), [(1, 2), (0, 3), (2, 3)]);
        free(&mut desk, &[6, 7]);
        assert_eq!(usable(&mut desk), [(0, 3), (2, 3)]);

        let mut desk = full(calls, edition, 4, 4);
        free(&mut desk, &[0, 1, 4, 8, 12]);
        assert_eq!(usable(&mut desk), [(3, 1), (2, 1), (1, 1), (0, 2)]);
        free(&mut desk, &[9]);
        assert_eq!(usable(&mut desk), [(3, 1), (1, 1), (2, 2), (0, 2)]);
    }
}

/// From the front to the end, from the front to the middle, from the middle to the end.
fn two_passed(calls: &mut dyn Calls) {
    for edition in EDITIONS {
        let mut desk = full(calls, edition, 3, 4);
        free(&mut desk, &[0, 4, 8, 9]);
        assert_eq!(usable(&mut desk), [(1, 1), (0, 1), (2, 2)]);

        let mut desk = full(calls, edition, 4, 4);
        free(&mut desk, &[0, 1, 4, 8, 12, 13]);
        assert_eq!(usable(&mut desk), [(2, 1), (1, 1), (3, 2), (0, 2)]);

        let mut desk = full(calls, edition, 4, 4);
        free(&mut desk, &[0, 4, 8, 12, 9]);
        assert_eq!(usable(&mut desk), [(3, 1), (1, 1), (0, 1), (2, 2)]);
    }
}

/// The longest walk of a sound list passes A - 1. Edition sixteen has classes for ten arenas of three pools.
fn all_others(calls: &mut dyn Calls) {
    for (edition, arenas) in [(0, 16), (1, 10)] {
        let mut desk = full(calls, edition, arenas, 3);
        for arena in 0..arenas {
            free(&mut desk, &[3 * arena]);
        }
        let last = arenas - 1;
        let mut list: Vec<_> = (0..last).rev().map(|arena| (arena, 1)).collect();
        list.push((last, 2));
        free(&mut desk, &[3 * last + 1]);
        assert_eq!(usable(&mut desk), list);
    }
}

/// After any asks and give-backs from a fresh heap the list holds the open arenas with free pools, and never falls.
fn always_rising(calls: &mut dyn Calls) {
    for edition in EDITIONS {
        let mut rng = Rng::new(203);
        let mut desk = Desk::formatted(calls, 6, 4, edition);
        let mut held = Vec::new();
        for _ in 0..2000 {
            if held.is_empty() || rng.one_in(2) {
                let answer = desk.answer(Ask { size: alignment(edition) * rng.between(1, 30) });
                if answer.number == 0 {
                    held.push(answer.value);
                }
            } else {
                let offset = held.swap_remove(rng.below(held.len()));
                desk.done(GiveBack { offset: offset as usize }, offset);
            }
            let mut list = usable(&mut desk);
            assert!(list.windows(2).all(|two| two[0].1 <= two[1].1), "{list:?}");
            list.sort_unstable();
            let records = (0..6).map(|arena| (arena, *desk.arena(arena, OPEN), *desk.arena(arena, FREE_POOLS)));
            let with_room = records.filter(|(_, open, free)| *open == 1 && *free > 0);
            assert_eq!(list, with_room.map(|(arena, _, free)| (arena, free)).collect::<Vec<_>>());
        }
    }
}

/// It joins at the front whatever follows, and its own links are not used before that.
fn newly_usable(calls: &mut dyn Calls) {
    for edition in EDITIONS {
        let mut desk = full(calls, edition, 2, 4);
        free(&mut desk, &[0]);
        *desk.arena(0, FREE_POOLS) = 0;
        *desk.arena(1, ARENA_NEXT) = 9;
        *desk.arena(1, ARENA_PREVIOUS) = 9;
        free(&mut desk, &[4]);
        assert_eq!(usable(&mut desk), [(1, 1), (0, 0)]);
    }
}

/// It leaves from where it is, so that a walk which would not end is no matter.
fn released(calls: &mut dyn Calls) {
    for edition in EDITIONS {
        let mut desk = full(calls, edition, 2, 3);
        free(&mut desk, &[0, 3]);
        *desk.arena(1, FREE_POOLS) = 2;
        *desk.arena(0, ARENA_NEXT) = 1;
        free(&mut desk, &[4]);
        assert_eq!([*desk.books(USABLE), *desk.books(UNUSED)], [1, 2]);
        assert_eq!(links(&mut desk, 0), [1, 0]);
        assert_eq!(desk.arena_record(1), [0; 8]);
    }
}

/// The give-back inside a resize has the rule too: pool 5's block goes to pool 1.
fn resize_moves(calls: &mut dyn Calls) {
    for edition in EDITIONS {
        let mut desk = full(calls, edition, 2, 4);
        free(&mut desk, &[0, 4]);
        let size = 2 * alignment(edition);
        desk.done(Resize { offset: 20_528, size }, (4144 + size) as u32);
        assert_eq!(usable(&mut desk), [(0, 1), (1, 2)]);
    }
}

// Damaged lists

/// The ask and copy stand, and the give-back does once the link is mended.
fn resize_half_done(calls: &mut dyn Calls) {
    for edition in EDITIONS {
        let mut desk = with_pools(calls, edition, [1, 4], 3);
        *desk.arena(0, ARENA_NEXT) = 9;
        let size = alignment(edition);
        let half = Answer { number: 6, value: (48 + size) as u32 };
        assert_eq!(desk.answer(Resize { offset: 4144, size }), half);
        assert_eq!([*desk.bits(0), *desk.bits(1)], [0b11, 0b1]);
        assert_eq!([*desk.pool(1, COUNT), *desk.arena(0, FREE_POOLS)], [1, 1]);
        *desk.arena(0, ARENA_NEXT) = 0;
        free(&mut desk, &[1]);
        assert_eq!(usable(&mut desk), [(0, 2)]);
    }
}

/// Arenas 2, 1 and 0 with one free pool each. The next of one that is passed is used, of one that is not it isn't.
fn bad_link(calls: &mut dyn Calls) {
    for edition in EDITIONS {
        let mut desk = full(calls, edition, 3, 4);
        free(&mut desk, &[0, 4, 8]);
        for link in [4, 99, u32::MAX] {
            *desk.arena(1, ARENA_NEXT) = link;
            refused(&mut desk, 9);
        }
        *desk.arena(1, ARENA_NEXT) = 1;
        *desk.arena(0, ARENA_NEXT) = 4;
        refused(&mut desk, 9);
        *desk.arena(0, FREE_POOLS) = 2;
        free(&mut desk, &[9]);
        assert_eq!(*desk.books(USABLE), 2);
        assert_eq!([0, 1, 2].map(|arena| links(&mut desk, arena)), [[4, 3], [3, 0], [1, 2]]);
    }
}

/// The same three arenas. The walk has no end, but for an arena in the cycle that has as many.
fn cycle_of_followers(calls: &mut dyn Calls) {
    for edition in EDITIONS {
        let mut desk = full(calls, edition, 3, 4);
        free(&mut desk, &[0, 4, 8]);
        for link in [1, 2] {
            *desk.arena(0, ARENA_NEXT) = link;
            refused(&mut desk, 9);
        }
        *desk.arena(1, ARENA_NEXT) = 2;
        refused(&mut desk, 9);
        *desk.arena(1, ARENA_NEXT) = 1;
        *desk.arena(0, FREE_POOLS) = 2;
        free(&mut desk, &[9]);
        assert_eq!(*desk.books(USABLE), 2);
        assert_eq!([0, 1, 2].map(|arena| links(&mut desk, arena)), [[2, 3], [3, 0], [1, 2]]);
    }
}

/// The same three arenas. The walk passes two and stops at its own arena, which has the risen number. Linked one way,
/// the arena goes in before itself; linked both ways, the ring is as it was.
fn cycle_through_the_arena(calls: &mut dyn Calls) {
    for edition in EDITIONS {
        let mut desk = full(calls, edition, 3, 4);
        free(&mut desk, &[0, 4, 8]);
        *desk.arena(0, ARENA_NEXT) = 3;
        free(&mut desk, &[9]);
        assert_eq!(*desk.books(USABLE), 2);
        assert_eq!([0, 1, 2].map(|arena| links(&mut desk, arena)), [[3, 2], [1, 0], [3, 3]]);

        let mut desk = full(calls, edition, 3, 4);
        free(&mut desk, &[0, 4, 8]);
        *desk.arena(0, ARENA_NEXT) = 3;
        *desk.arena(2, ARENA_PREVIOUS) = 1;
        free(&mut desk, &[9]);
        assert_eq!(*desk.books(USABLE), 3);
        assert_eq!([0, 1, 2].map(|arena| links(&mut desk, arena)), [[3, 2], [1, 3], [2, 1]]);
    }
}

/// The same three arenas, two are passed. To leave is to write the next of a passed arena: of the first, or of the
/// last, after which the arena goes in. In both cases the head stays.
fn previous_is_passed(calls: &mut dyn Calls) {
    let first = (2, [[3, 2], [2, 2], [0, 1]]);
    let last = (1, [[3, 2], [1, 3], [2, 1]]);
    for (previous, after) in [first, last] {
        for edition in EDITIONS {
            let mut desk = full(calls, edition, 3, 4);
            free(&mut desk, &[0, 4, 8]);
            *desk.arena(2, ARENA_PREVIOUS) = previous;
            free(&mut desk, &[9]);
            assert_eq!(*desk.books(USABLE), 3);
            assert_eq!([0, 1, 2].map(|arena| links(&mut desk, arena)), after);
        }
    }
}

/// Its next is written before it becomes 0, and the head stays.
fn previous_is_itself(calls: &mut dyn Calls) {
    for edition in EDITIONS {
        let mut desk = full(calls, edition, 2, 4);
        free(&mut desk, &[0, 4]);
        *desk.arena(1, ARENA_PREVIOUS) = 2;
        free(&mut desk, &[5]);
        assert_eq!(*desk.books(USABLE), 2);
        assert_eq!([0, 1].map(|arena| links(&mut desk, arena)), [[2, 2], [0, 1]]);
    }
}

/// The head, the previous of the first passed, and the previous of the one before which the arena goes in.
fn written_not_read(calls: &mut dyn Calls) {
    for edition in EDITIONS {
        let mut desk = full(calls, edition, 3, 4);
        free(&mut desk, &[0, 1, 4, 8]);
        *desk.books(USABLE) = 99;
        *desk.arena(1, ARENA_PREVIOUS) = 99;
        *desk.arena(0, ARENA_PREVIOUS) = 99;
        free(&mut desk, &[9]);
        assert_eq!(usable(&mut desk), [(1, 1), (2, 2), (0, 2)]);
    }
}

/// The open word is not read, nor which list an arena is on: arenas 1 and 2 are unused, with no free pools.
fn closed_arena(calls: &mut dyn Calls) {
    for edition in EDITIONS {
        let mut desk = with_pools(calls, edition, [3, 4], 3);
        *desk.arena(0, ARENA_NEXT) = 2;
        free(&mut desk, &[1]);
        assert_eq!([*desk.books(USABLE), *desk.books(UNUSED)], [2, 2]);
        assert_eq!([0, 1, 2].map(|arena| links(&mut desk, arena)), [[0, 3], [3, 0], [1, 2]]);
    }
}

// Readings

/// Read as used only where something is passed, or only on leaving, it would be done, as by 01's rule.
fn own_next(calls: &mut dyn Calls) {
    for edition in EDITIONS {
        let mut desk = with_pools(calls, edition, [1, 4], 3);
        for link in [2, 9, u32::MAX] {
            *desk.arena(0, ARENA_NEXT) = link;
            refused(&mut desk, 1);
        }
        *desk.arena(0, ARENA_NEXT) = 0;
        free(&mut desk, &[1]);
        assert_eq!(usable(&mut desk), [(0, 2)]);
    }
}

/// Read as used by each walk, it would be 6 with none passed; taken for none, it would be done with one passed.
fn own_previous(calls: &mut dyn Calls) {
    for edition in EDITIONS {
        let mut desk = with_pools(calls, edition, [1, 4], 3);
        *desk.arena(0, ARENA_PREVIOUS) = 9;
        free(&mut desk, &[1]);
        assert_eq!([*desk.books(USABLE), *desk.arena(0, FREE_POOLS)], [1, 2]);
        assert_eq!(links(&mut desk, 0), [0, 9]);

        let mut desk = full(calls, edition, 2, 3);
        free(&mut desk, &[0, 3]);
        for link in [3, 9, u32::MAX] {
            *desk.arena(1, ARENA_PREVIOUS) = link;
            refused(&mut desk, 4);
        }
        *desk.arena(0, FREE_POOLS) = 2;
        free(&mut desk, &[4]);
        assert_eq!(*desk.books(USABLE), 2);
        assert_eq!([0, 1].map(|arena| links(&mut desk, arena)), [[0, 2], [1, u32::MAX]]);
    }
}

/// Read with 01's rule for one that is taken from or that a pool returns to, none or more than P would be 6.
fn no_rule(calls: &mut dyn Calls) {
    for edition in EDITIONS {
        for number in [3, 4, 99, u32::MAX] {
            let mut desk = full(calls, edition, 2, 3);
            free(&mut desk, &[0, 3]);
            *desk.arena(0, FREE_POOLS) = number;
            free(&mut desk, &[4]);
            assert_eq!(usable(&mut desk), [(1, 2), (0, number)]);
        }
        let mut desk = full(calls, edition, 2, 3);
        free(&mut desk, &[0, 3]);
        *desk.arena(0, FREE_POOLS) = 0;
        free(&mut desk, &[4]);
        assert_eq!(usable(&mut desk), [(0, 0), (1, 2)]);
    }
}

/// Read with the number before it rose, one would not be fewer and the arena would stay.
fn has_risen(calls: &mut dyn Calls) {
    for edition in EDITIONS {
        let mut desk = full(calls, edition, 2, 3);
        free(&mut desk, &[0, 3]);
        assert_eq!(usable(&mut desk), [(1, 1), (0, 1)]);
        free(&mut desk, &[4]);
        assert_eq!(usable(&mut desk), [(0, 1), (1, 2)]);
    }
}

/// Read with the number that it had, it would pass itself without an end: 6.
fn comes_back(calls: &mut dyn Calls) {
    for edition in EDITIONS {
        let mut desk = with_pools(calls, edition, [1, 4], 3);
        *desk.arena(0, ARENA_NEXT) = 1;
        free(&mut desk, &[1]);
        assert_eq!([*desk.books(USABLE), *desk.arena(0, FREE_POOLS)], [1, 2]);
        assert_eq!(links(&mut desk, 0), [1, 0]);
    }
}

/// Read as a walk that stops at A, or at an arena that was passed before, it would be done.
fn more_than_a(calls: &mut dyn Calls) {
    for edition in EDITIONS {
        let mut desk = full(calls, edition, 2, 3);
        free(&mut desk, &[0, 3]);
        *desk.arena(0, ARENA_NEXT) = 1;
        refused(&mut desk, 4);
        *desk.arena(0, ARENA_NEXT) = 0;
        free(&mut desk, &[4]);
        assert_eq!(usable(&mut desk), [(0, 1), (1, 2)]);
    }
}

/// It has no move of its own: the walk goes on only as long as followers have fewer, and stops before one that has as
/// many although one with fewer is behind it. Read as a place that is looked for in the whole list, arena 2 would move.
fn kept_by_01(calls: &mut dyn Calls) {
    for edition in EDITIONS {
        let mut desk = full(calls, edition, 3, 3);
        free(&mut desk, &[3, 0, 1]);
        assert_eq!(usable(&mut desk), [(1, 1), (0, 2)]);
        *desk.books(USABLE) = 1;
        for (arena, next, previous) in [(0, 2, 0), (1, 0, 1)] {
            *desk.arena(arena, ARENA_NEXT) = next;
            *desk.arena(arena, ARENA_PREVIOUS) = previous;
        }
        free(&mut desk, &[6]);
        assert_eq!(usable(&mut desk), [(2, 1), (0, 2), (1, 1)]);
        free(&mut desk, &[7]);
        assert_eq!(usable(&mut desk), [(2, 2), (0, 2), (1, 1)]);
        free(&mut desk, &[4]);
        assert_eq!(usable(&mut desk), [(2, 2), (0, 2), (1, 2)]);
        for (blocks, offset) in [(10, 28_720), (11, 24_624)] {
            desk.done(Ask { size: blocks * alignment(edition) }, offset);
        }
        assert_eq!(usable(&mut desk), [(0, 2), (1, 2)]);
        free(&mut desk, &[2]);
        assert_eq!(usable(&mut desk), [(1, 2)]);
    }
}

/// Own previous is the passed arena, so that leaving makes it its own next and previous: it is what follows then. Read
/// before leaving, none would follow, and the links be [2, 1] and [0, 1].
fn after_leaving(calls: &mut dyn Calls) {
    for edition in EDITIONS {
        let mut desk = full(calls, edition, 2, 3);
        free(&mut desk, &[0, 3]);
        *desk.arena(1, ARENA_PREVIOUS) = 1;
        free(&mut desk, &[4]);
        assert_eq!(*desk.books(USABLE), 2);
        assert_eq!([0, 1].map(|arena| links(&mut desk, arena)), [[2, 2], [1, 1]]);
    }
}

/// The arena follows the passed one, so that it goes in before itself: its previous is written as its own, and then as
/// that of the next. Read the other way round it would be the passed arena.
fn own_links_first(calls: &mut dyn Calls) {
    for edition in EDITIONS {
        let mut desk = full(calls, edition, 2, 3);
        free(&mut desk, &[0, 3]);
        *desk.arena(0, ARENA_NEXT) = 2;
        free(&mut desk, &[4]);
        assert_eq!(*desk.books(USABLE), 1);
        assert_eq!([0, 1].map(|arena| links(&mut desk, arena)), [[2, 0], [2, 2]]);
    }
}
