//! A case for each reading of 01 and 02 where their words leave room, which tells it from the other reading.

use crate::cases::Case;
use crate::desk::*;
use crate::steps::Call::*;
use crate::steps::Phrase::*;
use crate::{Answer, Calls, Place};

pub const CASES: &[Case] = &[
    ("R1: format tests its own A and P before any length", r1),
    ("R2: leaving a list writes the head without reading it", r2),
    ("R3: joining a list reads the old head", r3),
    ("R4: a front member with a previous", r4),
    ("R5: what opening and releasing an arena write", r5),
    ("R6: a bit is judged as it stands before the step", r6),
    ("R7: a full pool joins its list even at count 0", r7),
    ("R8: a give-back doesn't test freeblock's bit", r8),
    ("R9: the copy sees what the ask wrote", r9),
    ("R10: the give-back of a resize tests and steps anew", r10),
    ("R11: 505 and 506 for every class", r11),
    ("R12: a freed pool may lie anywhere", r12),
    ("R13: a freed pool that keeps its class", r13),
    ("R14: nextoffset is read where the link is 0", r14),
    ("R15: a pool set to a class, bits 0 and 1", r15),
    ("R16: a resize that keeps its offset runs no step", r16),
    ("R17: a class above 63 and bits past the last block", r17),
    ("R22: an empty text, an empty roll", r22),
    ("R23: no number of a caller is cut to fit", r23),
    ("a returning pool reads the freed-pool head", returning_pool),
    ("W-202: a bit at no block is in no roll, and takes no room", w202),
    ("W-206: carved, the open word is 1", w206_open),
    ("W-206: carved, below the mark whatever it is", w206_mark),
    ("W-206: the in-pool place is below nextoffset", w206_nextoffset),
    ("W-206: a class above 63 has no dead block", w206_class),
    ("W-206: where no block starts there is no dead one", w206_start),
    ("W-206: 10 for a block never handed out", w206_ready),
    ("W-206: the half-done resize meets 10", w206_half_done),
    ("W-211: the order of the shape's tests", w211_order),
    ("W-211: format tests A and P, then the edition, then the lengths", w211_format),
    ("W-211: any word 68 above 1 is 1 in each call", w211_above),
    ("W-211: word 68 says which at each call", w211_word),
    ("W-211: no edition of a caller is cut to fit", w211_cut),
    ("W-211: format reads no edition from the books", w211_format_over),
    ("W-211: the lengths are the same in both editions", w211_lengths),
    ("W-211: 505 and 506 in both editions", w211_counts),
    ("W-211: a class above 31 has no blocks in sixteen", w211_class),
    ("W-211: heads 36 to 67 are of no class in sixteen", w211_heads),
    ("W-211: where eight's blocks start and sixteen's don't", w211_starts),
    ("W-214: 1 and 2 are refusals of view too, so the phrase", w214),
];

fn r1(calls: &mut dyn Calls) {
    let mut desk = Desk::fresh(calls, 1, 2);
    for books in [0, 1] {
        desk.lend(0, books, 0);
        desk.refused(Format { arenas: 0, pools: 2, edition: 0 }, 1);
        desk.refused(Format { arenas: 1, pools: 65, edition: 0 }, 1);
        desk.refused(Format { arenas: 1, pools: 2, edition: 0 }, 2);
    }
}

/// A bad class head is overwritten by a pool that empties, a bad usable head by an arena that is released.
fn r2(calls: &mut dyn Calls) {
    let mut desk = Desk::fresh(calls, 1, 16);
    desk.done(Ask { size: 8 }, 48);
    *desk.books(head(8)) = u32::MAX;
    *desk.books(USABLE) = u32::MAX;
    desk.done(GiveBack { offset: 48 }, 48);
    assert_eq!([*desk.books(head(8)), *desk.books(USABLE)], [0, 0]);
}

fn r3(calls: &mut dyn Calls) {
    // a full pool's give-back reads the class head
    let mut desk = Desk::fresh(calls, 1, 2);
    (0..7).for_each(|k| desk.done(Ask { size: 512 }, 48 + 512 * k));
    *desk.books(head(512)) = 3;
    desk.refused(GiveBack { offset: 48 }, 6);
    *desk.books(head(512)) = 2;
    desk.done(GiveBack { offset: 48 }, 48);
    assert_eq!([*desk.pool(0, NEXT), *desk.pool(1, PREVIOUS)], [2, 1]);

    // a newly usable arena reads the usable head
    let mut desk = Desk::fresh(calls, 1, 2);
    desk.done(Ask { size: 8 }, 48);
    desk.done(Ask { size: 16 }, 4144);
    *desk.books(USABLE) = 2;
    desk.refused(GiveBack { offset: 48 }, 6);

    // a release reads the unused head; where that is the arena itself, its previous is written last
    let mut desk = Desk::fresh(calls, 1, 2);
    desk.done(Ask { size: 8 }, 48);
    *desk.books(UNUSED) = 2;
    desk.refused(GiveBack { offset: 48 }, 6);
    *desk.books(UNUSED) = 1;
    desk.done(GiveBack { offset: 48 }, 48);
    assert_eq!(desk.arena_record(0), [0, 0, 0, 0, 1, 1, 0, 0]);
}

/// The previous member's next is written, the head stays.
fn r4(calls: &mut dyn Calls) {
    let mut desk = Desk::fresh(calls, 1, 16);
    (0..6).for_each(|k| desk.done(Ask { size: 512 }, 48 + 512 * k));
    *desk.pool(0, PREVIOUS) = 3;
    *desk.pool(2, NEXT) = 9;
    desk.done(Ask { size: 512 }, 3120);
    assert_eq!([*desk.pool(2, NEXT), *desk.books(head(512)), *desk.pool(0, PREVIOUS)], [0, 1, 0]);
}

/// Opening leaves words 6 and 7 and reads no old mark, free pools or freed-pool head. A release zeroes all eight words.
fn r5(calls: &mut dyn Calls) {
    let mut desk = Desk::fresh(calls, 1, 2);
    for (word, value) in [(CARVE_MARK, 99), (FREE_POOLS, 77), (FREED_HEAD, 55), (6, 7), (7, 9)] {
        *desk.arena(0, word) = value;
    }
    desk.done(Ask { size: 8 }, 48);
    assert_eq!(desk.arena_record(0), [1, 1, 1, 0, 0, 0, 7, 9]);
    desk.done(GiveBack { offset: 48 }, 48);
    assert_eq!(desk.arena_record(0), [0; 8]);
}

/// A freeblock whose link is itself, and a nextoffset equal to the block handed out, are served.
fn r6(calls: &mut dyn Calls) {
    let mut desk = Desk::fresh(calls, 1, 16);
    desk.done(Ask { size: 8 }, 48);
    desk.set_link(56, 56);
    desk.done(Ask { size: 8 }, 56);
    assert_eq!(*desk.pool(0, FREEBLOCK), 56);
    desk.refused(Ask { size: 8 }, 6);

    let mut desk = Desk::fresh(calls, 1, 16);
    desk.done(Ask { size: 8 }, 48);
    *desk.pool(0, NEXTOFFSET) = 56;
    desk.done(Ask { size: 8 }, 56);
    assert_eq!([*desk.pool(0, FREEBLOCK), *desk.pool(0, NEXTOFFSET)], [56, 64]);
}

fn r7(calls: &mut dyn Calls) {
    let mut desk = Desk::fresh(calls, 1, 16);
    desk.done(Ask { size: 8 }, 48);
    *desk.pool(0, FREEBLOCK) = 0;
    *desk.books(head(8)) = 0;
    desk.done(GiveBack { offset: 48 }, 48);
    assert_eq!([*desk.pool(0, COUNT), *desk.books(head(8)), *desk.arena(0, FREE_POOLS)], [0, 1, 15]);
}

fn r8(calls: &mut dyn Calls) {
    let mut desk = Desk::fresh(calls, 1, 16);
    desk.done(Ask { size: 8 }, 48);
    *desk.bits(0) |= 1 << 1;
    desk.done(GiveBack { offset: 48 }, 48);
    assert_eq!(desk.link(48), 56);
}

/// The pool of the old block is carved again, and the link that the ask writes lies in the old block.
fn r9(calls: &mut dyn Calls) {
    let mut desk = Desk::fresh(calls, 1, 16);
    (0..3).for_each(|k| desk.done(Ask { size: 8 }, 48 + 8 * k));
    desk.done(Write { offset: 64, length: 8, first: b'A' }, 64);
    desk.done(GiveBack { offset: 48 }, 48);
    desk.done(GiveBack { offset: 56 }, 56);
    *desk.arena(0, CARVE_MARK) = 0;
    // by its new class the old offset is not live, so the resize is half done
    assert_eq!(desk.answer(Resize { offset: 64, size: 16 }), Answer { number: 6, value: 48 });
    assert_eq!(desk.bytes(48, 8), [0, 0, 0, 0, b'E', b'F', b'G', b'H']);
    assert_eq!(*desk.bits(0), 0b101);
}

/// As in R9, but the old offset is live by the class that the books then show, as another block of the pool.
fn r10(calls: &mut dyn Calls) {
    let mut desk = Desk::fresh(calls, 1, 16);
    (0..5).for_each(|k| desk.done(Ask { size: 8 }, 48 + 8 * k));
    for offset in [48, 56, 72] {
        desk.done(GiveBack { offset }, offset as u32);
    }
    *desk.arena(0, CARVE_MARK) = 0;
    desk.done(Resize { offset: 80, size: 16 }, 48);
    assert_eq!(*desk.bits(0), 0b10001);
    assert_eq!([*desk.pool(0, COUNT), *desk.books(head(16)), *desk.arena(0, FREED_HEAD)], [0, 0, 1]);
}

/// A pool of 7 blocks may have a count of 505 on an ask, and of 506 on a give-back.
fn r11(calls: &mut dyn Calls) {
    let mut desk = Desk::fresh(calls, 1, 16);
    desk.done(Ask { size: 512 }, 48);
    *desk.pool(0, COUNT) = 505;
    desk.done(Ask { size: 512 }, 560);
    desk.refused(Ask { size: 512 }, 6);
    desk.done(GiveBack { offset: 560 }, 560);
    *desk.pool(0, COUNT) = 507;
    desk.refused(GiveBack { offset: 48 }, 6);
}

/// A freed pool of another arena, never carved, is taken; `open`, spare words (but for 68, which is W-211's) and a
/// pool's eighth word are not read.
fn r12(calls: &mut dyn Calls) {
    let mut desk = Desk::fresh(calls, 2, 2);
    desk.done(Ask { size: 8 }, 48);
    *desk.arena(0, FREED_HEAD) = 4;
    *desk.arena(0, OPEN) = 0;
    desk.heap.books[69..72].fill(5);
    *desk.pool(3, 7) = 6;
    desk.done(Ask { size: 16 }, 12_336);
    assert_eq!([*desk.arena(0, OPEN), *desk.pool(3, 7)], [0, 6]);
    assert_eq!(desk.heap.books[69..72], [5; 3]);
}

/// Count, nextoffset and maxnextoffset are not tested; with link 0 freeblock becomes 0 and the pool stays listed.
fn r13(calls: &mut dyn Calls) {
    let mut desk = Desk::fresh(calls, 1, 16);
    desk.done(Ask { size: 8 }, 48);
    desk.done(Ask { size: 16 }, 4144);
    desk.done(GiveBack { offset: 48 }, 48);
    desk.set_link(48, 0);
    for (word, value) in [(COUNT, 900), (NEXTOFFSET, 64), (MAXNEXTOFFSET, 2)] {
        *desk.pool(0, word) = value;
    }
    desk.done(Ask { size: 8 }, 48);
    assert_eq!([COUNT, FREEBLOCK, NEXTOFFSET, MAXNEXTOFFSET].map(|word| *desk.pool(0, word)), [1, 0, 64, 2]);
    assert_eq!(*desk.books(head(8)), 1);
}

/// It is not read where there is a link, and above maxnextoffset any value means full.
fn r14(calls: &mut dyn Calls) {
    let mut desk = Desk::fresh(calls, 1, 16);
    desk.done(Ask { size: 8 }, 48);
    desk.done(Ask { size: 8 }, 56);
    desk.done(GiveBack { offset: 48 }, 48);
    *desk.pool(0, NEXTOFFSET) = 49;
    desk.done(Ask { size: 8 }, 48);
    desk.refused(Ask { size: 8 }, 6);
    *desk.pool(0, NEXTOFFSET) = u32::MAX;
    desk.done(Ask { size: 8 }, 64);
    assert_eq!([*desk.pool(0, FREEBLOCK), *desk.books(head(8))], [0, 0]);
}

/// A set bit of block 2 is not tested, one of block 0 or 1 is 6.
fn r15(calls: &mut dyn Calls) {
    for (bits, number) in [(0b001, 6), (0b010, 6), (0b100, 0)] {
        let mut desk = Desk::fresh(calls, 1, 16);
        *desk.bits(0) = bits;
        assert_eq!(desk.answer(Ask { size: 8 }).number, number, "bits {bits:#b}");
    }
}

fn r16(calls: &mut dyn Calls) {
    let mut desk = Desk::fresh(calls, 1, 16);
    desk.done(Ask { size: 8 }, 48);
    *desk.books(head(8)) = u32::MAX;
    *desk.pool(0, COUNT) = 0;
    *desk.pool(0, FREEBLOCK) = 49;
    desk.done(Resize { offset: 48, size: 7 }, 48);
    desk.refused(Resize { offset: 48, size: 6 }, 6);
}

fn r17(calls: &mut dyn Calls) {
    let mut desk = Desk::fresh(calls, 1, 2);
    desk.done(Ask { size: 512 }, 48);
    *desk.bits(0) |= 1 << 7;
    desk.refused(GiveBack { offset: 3632 }, 5);
    assert_eq!(desk.roll(2), (Answer { number: 0, value: 1 }, vec![48, 512]));

    *desk.pool(0, CLASS) = 64;
    desk.refused(GiveBack { offset: 48 }, 5);
    desk.refused(Resize { offset: 48, size: 8 }, 5);
    desk.refused(ViewSize { offset: 48 }, 5);
    desk.refused(Write { offset: 48, length: 0, first: 0 }, 5);
    assert_eq!(desk.roll(0), (Answer { number: 0, value: 0 }, vec![]));
}

fn w202(calls: &mut dyn Calls) {
    let mut desk = Desk::fresh(calls, 1, 2);
    desk.done(Ask { size: 512 }, 48);
    *desk.bits(0) |= 1 << 9;
    desk.refused(RollCall { words: 1 }, 7);
    assert_eq!(desk.roll(2), (Answer { number: 0, value: 1 }, vec![48, 512]));
    assert_eq!(desk.roll(2024).0, Answer { number: 0, value: 1 });

    // ones alone, in every word
    desk.all_bits(u64::MAX);
    desk.refused(RollCall { words: 13 }, 7);
    let seven = [48, 560, 1072, 1584, 2096, 2608, 3120].iter().flat_map(|&offset| [offset, 512]).collect();
    assert_eq!(desk.roll(14), (Answer { number: 0, value: 7 }, seven));
    assert_eq!(desk.roll(2024).0, Answer { number: 0, value: 7 });
    *desk.pool(0, CLASS) = 64;
    desk.done(RollCall { words: 0 }, 0);
    desk.done(RollCall { words: 2024 }, 0);
}

/// Read as any word but 0, open 2 would be 10; read as no clause of the split, open 0 too. A block that is live is so
/// whatever the word.
fn w206_open(calls: &mut dyn Calls) {
    let mut desk = Desk::fresh(calls, 1, 2);
    desk.done(Ask { size: 8 }, 48);
    desk.done(Ask { size: 8 }, 56);
    desk.done(GiveBack { offset: 48 }, 48);
    for (open, number) in [(0, 5), (1, 10), (2, 5), (3, 5), (65_537, 5), (u32::MAX, 5)] {
        *desk.arena(0, OPEN) = open;
        desk.refused(GiveBack { offset: 48 }, number);
        desk.refused(GiveBack { offset: 64 }, number);
        desk.refused(GiveBack { offset: 72 }, 5);
        desk.done(ViewSize { offset: 56 }, 8);
    }
}

/// Pool 4 is number 1 of arena 1. Read as at most the mark, 1 would be 10; by the pool's number in the heap, 2 to 4
/// would be 5, and so would those above P if they were no mark. Another arena's mark says nothing.
fn w206_mark(calls: &mut dyn Calls) {
    let mut desk = Desk::fresh(calls, 2, 3);
    for (n, size) in [8, 16, 24, 32, 40].into_iter().enumerate() {
        desk.done(Ask { size }, 4096 * n as u32 + 48);
    }
    for other in [0, 3] {
        *desk.arena(0, CARVE_MARK) = other;
        for (mark, number) in [(0, 5), (1, 5), (2, 10), (3, 10), (4, 10), (5, 10), (u32::MAX, 10)] {
            *desk.arena(1, CARVE_MARK) = mark;
            desk.refused(GiveBack { offset: 16_472 }, number);
            desk.done(ViewSize { offset: 16_432 }, 40);
        }
    }
}

/// Place 64 of pool 1 is offset 4,160. Read as at most nextoffset, 64 would be 10; by the whole offset, all up to 4,160
/// would be 5, and by where the block ends 65 to 79. A block that is live is so above nextoffset too.
fn w206_nextoffset(calls: &mut dyn Calls) {
    let mut desk = Desk::fresh(calls, 1, 2);
    for (size, offset) in [(8, 48), (16, 4144), (16, 4160)] {
        desk.done(Ask { size }, offset);
    }
    desk.done(GiveBack { offset: 4160 }, 4160);
    for nextoffset in [0, 48, 63, 64] {
        *desk.pool(1, NEXTOFFSET) = nextoffset;
        desk.refused(GiveBack { offset: 4160 }, 5);
        desk.done(ViewSize { offset: 4144 }, 16);
    }
    for nextoffset in [65, 72, 79, 80, 96, 4096, 4160, 4161, u32::MAX] {
        *desk.pool(1, NEXTOFFSET) = nextoffset;
        desk.refused(GiveBack { offset: 4160 }, 10);
    }
}

/// 560 is a start of class 63, and 568 would be one of class 64. Read with a class of 64 or with any, 48 and 568 would
/// be 10.
fn w206_class(calls: &mut dyn Calls) {
    let mut desk = Desk::fresh(calls, 1, 2);
    desk.done(Ask { size: 512 }, 48);
    desk.refused(GiveBack { offset: 560 }, 10);
    desk.all_bits(0);
    desk.refused(GiveBack { offset: 48 }, 10);
    for nextoffset in [1072, u32::MAX] {
        *desk.pool(0, NEXTOFFSET) = nextoffset;
        for class in [64, 65, 127, 65_535, u32::MAX] {
            *desk.pool(0, CLASS) = class;
            for offset in [48, 560, 568, 576, 1072] {
                desk.refused(GiveBack { offset }, 5);
            }
        }
    }
}

/// In the header, inside a block, and where a block would run past its pool. Read as any place below nextoffset, they
/// would be 10.
fn w206_start(calls: &mut dyn Calls) {
    let mut desk = Desk::fresh(calls, 1, 2);
    desk.done(Ask { size: 16 }, 48);
    desk.done(Ask { size: 512 }, 4144);
    for nextoffset in [80, u32::MAX] {
        *desk.pool(0, NEXTOFFSET) = nextoffset;
        for offset in [0, 16, 32, 47, 49, 52, 56, 63, 65, 68, 72, 79] {
            desk.refused(GiveBack { offset }, 5);
        }
        desk.refused(GiveBack { offset: 64 }, 10);
    }
    desk.refused(GiveBack { offset: 4080 }, 10);
    *desk.pool(1, NEXTOFFSET) = u32::MAX;
    desk.refused(GiveBack { offset: 4096 + 3120 }, 10);
    desk.refused(GiveBack { offset: 4096 + 3632 }, 5);
}

/// Read as a block that was handed out and came back, 56 would be 5.
fn w206_ready(calls: &mut dyn Calls) {
    let mut desk = Desk::fresh(calls, 1, 2);
    desk.done(Ask { size: 1 }, 48);
    desk.refused(GiveBack { offset: 56 }, 10);
    desk.refused(GiveBack { offset: 64 }, 5);
}

/// The old block's pool is set to another class, of which the old offset is the second start: below nextoffset, and not
/// live. Read without 10, the answer would be 10 or a resize that is done. Where the pool is not carved, or where no
/// block of that class starts, the give-back meets 5 and the answer is the same.
fn w206_half_done(calls: &mut dyn Calls) {
    for (word, value, met) in [(OPEN, 1, 10), (OPEN, 0, 5), (OPEN, 2, 5), (CARVE_MARK, 0, 5)] {
        let mut desk = Desk::fresh(calls, 1, 2);
        (0..3).for_each(|k| desk.done(Ask { size: 8 }, 48 + 8 * k));
        desk.done(Write { offset: 64, length: 8, first: b'A' }, 64);
        desk.done(GiveBack { offset: 48 }, 48);
        desk.done(GiveBack { offset: 56 }, 56);
        *desk.arena(0, FREED_HEAD) = 1;
        *desk.arena(0, word) = value;
        assert_eq!(desk.answer(Resize { offset: 64, size: 16 }), Answer { number: 6, value: 48 });

        // the ask and the copy stand
        assert_eq!([COUNT, FREEBLOCK, CLASS, NEXTOFFSET].map(|word| *desk.pool(0, word)), [1, 64, 1, 80]);
        assert_eq!(*desk.bits(0), 0b101);
        assert_eq!(desk.bytes(48, 8), [0, 0, 0, 0, b'E', b'F', b'G', b'H']);
        desk.refused(GiveBack { offset: 64 }, met);
    }

    let mut desk = Desk::fresh(calls, 1, 2);
    (0..4).for_each(|k| desk.done(Ask { size: 8 }, 48 + 8 * k));
    desk.done(GiveBack { offset: 48 }, 48);
    desk.done(GiveBack { offset: 56 }, 56);
    *desk.arena(0, FREED_HEAD) = 1;
    assert_eq!(desk.answer(Resize { offset: 72, size: 16 }), Answer { number: 6, value: 48 });
    desk.refused(GiveBack { offset: 72 }, 5);
}

/// Every call but format gives this number, and view the empty part.
fn all_refuse(desk: &mut Desk, number: u32) {
    let (offset, length, first) = (48, 1, 0);
    for size in [0, 8] {
        desk.refused(Ask { size }, number);
        desk.refused(Resize { offset, size }, number);
    }
    desk.refused(GiveBack { offset }, number);
    desk.refused(ViewSize { offset }, number);
    desk.refused(Write { offset, length, first }, number);
    desk.refused(RollCall { words: 0 }, number);
    assert_eq!(desk.view(offset), (0, 0));
    desk.stand_in(offset, Text(6, b'z'), Place::Phrase(0, 6));
}

/// Each row: how many words of the books are lent, A, P, word 68, the number.
const ORDER: [(usize, u32, u32, u32, u32); 19] = [
    (0, 0, 2, 2, 2),
    (1, 0, 2, 2, 2),
    (2, 0, 2, 2, 1),
    (2, 1, 65, 0, 1),
    (2, 1, 2, 2, 2),
    (68, 0, 2, 2, 1),
    (68, 17, 2, 0, 1),
    (68, 1, 1, 1, 1),
    (68, 1, 2, 0, 2),
    (68, 1, 2, 1, 2),
    (68, 1, 2, 2, 2),
    (69, 0, 2, 0, 1),
    (69, 1, 2, 2, 1),
    (69, 1, 2, 1, 2),
    (69, 1, 2, 0, 2),
    (95, 1, 2, 2, 1),
    (95, 1, 2, 1, 2),
    (97, 1, 2, 2, 1),
    (96, 1, 65, 2, 1),
];

/// Read with word 68 before A and P, the rows of 68 words with a bad A or P would be 2; with the lengths before word
/// 68, all 1 of a good A and P would be 2; with the word taken for a bad one where it is not there, the 2 of 68 words
/// would be 1.
fn w211_order(calls: &mut dyn Calls) {
    let mut desk = Desk::fresh(calls, 1, 2);
    desk.done(Ask { size: 8 }, 48);
    for (books, arenas, pools, edition, number) in ORDER {
        desk.lend(8192, books, 16);
        for (at, word) in [(0, arenas), (1, pools), (EDITION, edition)] {
            *desk.books(at) = word;
        }
        all_refuse(&mut desk, number);
    }
    (*desk.books(0), *desk.books(1)) = (1, 2);
    for (memory, map) in [(8191, 16), (8193, 16), (8192, 15), (8192, 17), (0, 0)] {
        desk.lend(memory, 96, map);
        for (edition, number) in [(0, 2), (1, 2), (2, 1)] {
            *desk.books(EDITION) = edition;
            all_refuse(&mut desk, number);
        }
    }
}

/// Read with the lengths before the edition, 2 for the edition over wrong lengths.
fn w211_format(calls: &mut dyn Calls) {
    let mut desk = Desk::fresh(calls, 1, 2);
    for (memory, books, map) in
        [(8192, 0, 16), (8192, 1, 16), (8192, 68, 16), (8192, 69, 16), (8191, 96, 16), (0, 0, 0)]
    {
        desk.lend(memory, books, map);
        desk.refused(Format { arenas: 1, pools: 2, edition: 2 }, 1);
        for edition in [0, 1] {
            desk.refused(Format { arenas: 1, pools: 2, edition }, 2);
            desk.refused(Format { arenas: 17, pools: 2, edition }, 1);
            desk.refused(Format { arenas: 1, pools: 65, edition }, 1);
        }
    }
    desk.lend(8192, 96, 16);
    for edition in [2, 3, 8, 16] {
        desk.refused(Format { arenas: 1, pools: 2, edition }, 1);
        desk.refused(Format { arenas: 0, pools: 2, edition }, 1);
    }
    for edition in [0, 1] {
        desk.done(Format { arenas: 1, pools: 2, edition }, 0);
        assert_eq!(*desk.books(EDITION), edition as u32);
    }
}

/// Read by its low bit, byte or half, or as 'not 0', these words would say eight or sixteen.
fn w211_above(calls: &mut dyn Calls) {
    let mut desk = Desk::sixteen(calls, 1, 2);
    desk.done(Ask { size: 8 }, 48);
    for word in [2, 3, 8, 16, 256, 257, 1 << 16, (1 << 16) + 1, 1 << 31, (1 << 31) + 1, u32::MAX] {
        *desk.books(EDITION) = word;
        all_refuse(&mut desk, 1);
    }
    *desk.books(EDITION) = 1;
    desk.done(Ask { size: 8 }, 64);
}

/// A heap made before has 0 there, and so is of edition eight; the same words but for this one are a heap of sixteen.
fn w211_word(calls: &mut dyn Calls) {
    let mut desk = Desk::fresh(calls, 1, 2);
    desk.done(Ask { size: 8 }, 48);
    desk.done(Ask { size: 8 }, 56);
    assert_eq!(*desk.books(EDITION), 0);
    *desk.books(EDITION) = 1;
    assert_eq!(desk.roll(4), (Answer { number: 0, value: 2 }, vec![48, 16, 64, 16]));
    desk.refused(ViewSize { offset: 56 }, 5);
    // maxnextoffset is eight's
    desk.refused(Ask { size: 8 }, 6);
    *desk.books(EDITION) = 0;
    desk.done(Ask { size: 8 }, 64);

    let mut desk = Desk::sixteen(calls, 1, 2);
    desk.done(Ask { size: 8 }, 48);
    desk.done(Ask { size: 8 }, 64);
    *desk.books(EDITION) = 0;
    assert_eq!(desk.roll(4), (Answer { number: 0, value: 2 }, vec![48, 8, 56, 8]));
    desk.refused(ViewSize { offset: 64 }, 10);
    desk.refused(Ask { size: 8 }, 6);
    *desk.books(EDITION) = 1;
    desk.done(Ask { size: 8 }, 80);
}

/// Read by their low 32 bits or fewer, these would be 0 or 1.
fn w211_cut(calls: &mut dyn Calls) {
    let mut desk = Desk::fresh(calls, 1, 2);
    for edition in [256, 257, 1 << 16, (1 << 16) + 1, 1 << 32, (1 << 32) + 1, 1 << 63, (1 << 63) + 1, usize::MAX] {
        desk.refused(Format { arenas: 1, pools: 2, edition }, 1);
    }
}

/// As in R1 it reads no shape from them: whatever word 68 says, it is overwritten.
fn w211_format_over(calls: &mut dyn Calls) {
    let mut desk = Desk::fresh(calls, 1, 2);
    for word in [0, 1, 2, 7, u32::MAX] {
        for edition in [0, 1] {
            *desk.books(EDITION) = word;
            desk.done(Format { arenas: 1, pools: 2, edition }, 0);
            assert_eq!(*desk.books(EDITION), edition as u32);
        }
    }
}

/// Read with 32 words of heads or four of map for a pool, (8192, 64, 16) or (8192, 96, 8) would be right.
fn w211_lengths(calls: &mut dyn Calls) {
    let mut desk = Desk::sixteen(calls, 1, 2);
    desk.done(Ask { size: 8 }, 48);
    for (memory, books, map) in [(8192, 64, 16), (8192, 96, 8), (8192, 64, 8)] {
        desk.lend(memory, books, map);
        all_refuse(&mut desk, 2);
        desk.refused(Format { arenas: 1, pools: 2, edition: 1 }, 2);
    }
    desk.lend(8192, 96, 16);
    desk.done(Ask { size: 8 }, 64);
}

/// Read as 252 and 253, the blocks of 16 that a pool holds, a count of 400 would be 6.
fn w211_counts(calls: &mut dyn Calls) {
    let mut desk = Desk::sixteen(calls, 1, 2);
    (0..3).for_each(|k| desk.done(Ask { size: 16 }, 48 + 16 * k));
    *desk.pool(0, COUNT) = 400;
    desk.done(Ask { size: 16 }, 96);
    desk.done(GiveBack { offset: 96 }, 96);
    for (count, asked) in [(253, 0), (254, 0), (505, 0), (506, 6), (507, 6)] {
        let mut desk = Desk::sixteen(calls, 1, 2);
        desk.done(Ask { size: 16 }, 48);
        *desk.pool(0, COUNT) = count;
        assert_eq!(desk.answer(Ask { size: 16 }).number, asked, "count {count}");
    }
    for (count, given) in [(0, 6), (253, 0), (254, 0), (506, 0), (507, 6)] {
        let mut desk = Desk::sixteen(calls, 1, 2);
        desk.done(Ask { size: 16 }, 48);
        *desk.pool(0, COUNT) = count;
        assert_eq!(desk.answer(GiveBack { offset: 48 }).number, given, "count {count}");
    }
}

/// Read as 63, class 32 would have a live block of 528 bytes at 48 and a dead one at 576. In eight it has its blocks.
fn w211_class(calls: &mut dyn Calls) {
    let mut desk = Desk::sixteen(calls, 1, 2);
    desk.done(Ask { size: 512 }, 48);
    assert_eq!(desk.roll(2), (Answer { number: 0, value: 1 }, vec![48, 512]));
    desk.refused(GiveBack { offset: 560 }, 10);
    for class in [32, 33, 62, 63, 64, 65_535, u32::MAX] {
        *desk.pool(0, CLASS) = class;
        all_refuse_5(&mut desk);
        desk.refused(GiveBack { offset: 576 }, 5);
    }
    *desk.pool(0, CLASS) = 30;
    desk.done(ViewSize { offset: 48 }, 496);

    let mut desk = Desk::fresh(calls, 1, 2);
    desk.done(Ask { size: 257 }, 48);
    assert_eq!(*desk.pool(0, CLASS), 32);
    desk.done(ViewSize { offset: 48 }, 264);
    desk.refused(GiveBack { offset: 312 }, 10);
}

/// Offset 48 is 5 for each call that takes one, and no roll has it.
fn all_refuse_5(desk: &mut Desk) {
    let offset = 48;
    desk.refused(GiveBack { offset }, 5);
    desk.refused(Resize { offset, size: 500 }, 5);
    desk.refused(ViewSize { offset }, 5);
    desk.refused(Write { offset, length: 0, first: 0 }, 5);
    assert_eq!(desk.view(offset), (0, 0));
    desk.stand_in(offset, Text(6, b'z'), Place::Phrase(0, 6));
    desk.done(RollCall { words: 0 }, 0);
}

/// No step reads or writes them, so that a bad one is no 6 and stays. In eight word 36 is the head of class 32.
fn w211_heads(calls: &mut dyn Calls) {
    for word in [0, u32::MAX] {
        let mut desk = Desk::sixteen(calls, 1, 4);
        desk.heap.books[36..68].fill(word);
        for (size, offset) in [(512, 48), (512, 560), (16, 4144), (264, 8240), (272, 8512)] {
            desk.done(Ask { size }, offset);
        }
        desk.done(Resize { offset: 48, size: 500 }, 48);
        desk.done(Resize { offset: 48, size: 300 }, 12_336);
        desk.done(GiveBack { offset: 560 }, 560);
        desk.done(Ask { size: 505 }, 560);
        assert_eq!(desk.heap.books[36..68], [word; 32]);
    }
    let mut desk = Desk::fresh(calls, 1, 4);
    *desk.books(36) = u32::MAX;
    desk.done(Ask { size: 256 }, 48);
    desk.refused(Ask { size: 257 }, 6);
}

/// 56, 72 and 88 are starts of blocks of 8 alone: neither live nor freeblock, link or nextoffset. 3,632 would be the
/// eighth start of 512, but its block would run past the pool.
fn w211_starts(calls: &mut dyn Calls) {
    let mut desk = Desk::sixteen(calls, 1, 2);
    desk.done(Ask { size: 16 }, 48);
    desk.done(Ask { size: 16 }, 64);
    for freeblock in [56, 72, 88, 4088] {
        *desk.pool(0, FREEBLOCK) = freeblock;
        desk.refused(GiveBack { offset: 48 }, 6);
        desk.refused(Ask { size: 16 }, 6);
    }
    *desk.pool(0, FREEBLOCK) = 80;
    desk.set_link(80, 88);
    desk.refused(Ask { size: 16 }, 6);
    desk.set_link(80, 0);
    *desk.pool(0, NEXTOFFSET) = 104;
    desk.refused(Ask { size: 16 }, 6);
    *desk.pool(0, NEXTOFFSET) = 96;
    desk.done(Ask { size: 16 }, 80);

    desk.done(Ask { size: 512 }, 4144);
    desk.all_bits(u64::MAX);
    for offset in [56, 72, 88, 4088, 4096 + 3632] {
        desk.refused(GiveBack { offset }, 5);
    }
}

/// The block would be live but for A and P, or for the lengths.
fn w214(calls: &mut dyn Calls) {
    fn stands_in(desk: &mut Desk, number: u32) {
        desk.refused(ViewSize { offset: 48 }, number);
        for offset in [48, 49] {
            desk.stand_in(offset, Text(6, b'z'), Place::Phrase(0, 6));
            desk.stand_in(offset, Text(0, 0), Place::Phrase(0, 0));
            desk.stand_in(offset, Same(8), Place::Phrase(0, 8));
            desk.stand_in(offset, Part(44, 8), Place::Memory(44, 8));
        }
    }
    let mut desk = Desk::fresh(calls, 1, 2);
    desk.done(Ask { size: 8 }, 48);
    for (memory, map) in [(8191, 16), (8193, 16), (8192, 15), (8192, 17)] {
        desk.lend(memory, 96, map);
        stands_in(&mut desk, 2);
    }
    for books in [0, 1, 2, 95, 97] {
        desk.lend(8192, books, 16);
        stands_in(&mut desk, 2);
    }
    desk.lend(8192, 96, 16);
    desk.stand_in(48, Text(6, b'z'), Place::Memory(48, 8));
    for (arenas, pools) in [(0, 2), (17, 2), (1, 1), (1, 65), (u32::MAX, u32::MAX)] {
        *desk.books(0) = arenas;
        *desk.books(1) = pools;
        stands_in(&mut desk, 1);
    }
}

fn r22(calls: &mut dyn Calls) {
    let mut desk = Desk::fresh(calls, 1, 16);
    desk.done(RollCall { words: 0 }, 0);
    desk.done(Ask { size: 8 }, 48);
    desk.done(Write { offset: 48, length: 0, first: 0 }, 48);
    desk.refused(RollCall { words: 1 }, 7);
}

fn r23(calls: &mut dyn Calls) {
    let mut desk = Desk::fresh(calls, 1, 2);
    let far = 1 << 32;
    desk.refused(Format { arenas: far + 1, pools: 2, edition: 0 }, 1);
    desk.refused(Format { arenas: 1, pools: far + 2, edition: 0 }, 1);
    desk.refused(Ask { size: far + 8 }, 3);
    desk.done(Ask { size: 8 }, 48);
    desk.refused(GiveBack { offset: far + 48 }, 5);
    desk.refused(Resize { offset: 48, size: far + 8 }, 3);
    desk.refused(Resize { offset: far + 48, size: 8 }, 5);
    desk.refused(ViewSize { offset: far + 48 }, 5);
    desk.refused(Write { offset: far + 48, length: 1, first: 0 }, 5);
}

/// Its value becomes the pool's next, so it is used: above A x P it is 6.
fn returning_pool(calls: &mut dyn Calls) {
    let mut desk = Desk::fresh(calls, 1, 16);
    desk.done(Ask { size: 8 }, 48);
    *desk.arena(0, FREED_HEAD) = 17;
    desk.refused(GiveBack { offset: 48 }, 6);
    *desk.arena(0, FREED_HEAD) = 16;
    desk.done(GiveBack { offset: 48 }, 48);
    assert_eq!([*desk.pool(0, NEXT), *desk.pool(15, PREVIOUS)], [16, 0]);
}
