//! 01's cases, W-201's, W-203's, W-204's, W-206's, W-211's, W-212's and W-214's, for any program behind the calls. Each
//! number is 01's, or follows from the sentence that its case names.

use crate::audited;
use crate::batched;
use crate::compared;
use crate::desk::*;
use crate::order;
use crate::readings;
use crate::sixteen;
use crate::steps::Call::*;
use crate::steps::Phrase::*;
use crate::{Answer, Calls, Place};

/// A case by its name. It panics where the program answers otherwise.
pub type Case = (&'static str, fn(&mut dyn Calls));

/// Every case: 01's own, W-206's, W-214's, W-211's, W-203's, W-201's, W-212's, W-204's and those of the readings.
pub fn all() -> Vec<Case> {
    let ordered = [order::CASES, order::READINGS, audited::CASES, audited::READINGS].concat();
    let beside = [compared::CASES, compared::READINGS, batched::CASES, batched::READINGS].concat();
    [&[PAPER, SPLIT, STAND_IN, sixteen::CASES].concat(), &ordered, &beside, readings::CASES].concat()
}

const PAPER: &[Case] = &[
    ("K1", k1),
    ("K2", k2),
    ("K3", k3),
    ("K4", k4),
    ("K5", k5),
    ("K6", k6),
    ("K7", k7),
    ("K8", k8),
    ("K9", k9),
    ("K10", k10),
    ("fill with 8", fill_with_8),
    ("fill with 512", fill_with_512),
    ("resize of 104", resize_of_104),
    ("dead offset resized to 0", dead_offset_to_0),
    ("refused resize", refused_resize),
    ("order of the numbers", order_of_the_numbers),
    ("format", format),
    ("write and view", write_and_view),
    ("roll call", roll_call),
    ("two usable arenas", two_usable_arenas),
    ("released arena", released_arena),
];

const SPLIT: &[Case] = &[
    ("W-206: 01's whole case", whole_case),
    ("W-206: given back twice", given_back_twice),
    ("W-206: one arena of two released", one_arena_released),
    ("W-206: in each call", split_in_each_call),
    ("W-206: in the same place", split_in_the_same_place),
    ("W-206: ready and virgin blocks", ready_and_virgin),
    ("W-206: a pool that was full", was_full),
    ("W-206: another class", another_class),
    ("W-206: a block that moved", moved_away),
];

const STAND_IN: &[Case] = &[
    ("W-214: a live block", stand_in_for_live),
    ("W-214: a dead block", stand_in_for_dead),
    ("W-214: no block start", stand_in_for_no_start),
    ("W-214: past memory", stand_in_past_memory),
    ("W-214: an empty phrase", empty_phrase),
    ("W-214: a phrase with the block's bytes", phrase_with_the_bytes),
    ("W-214: a phrase in memory", phrase_in_memory),
    ("W-214: out again", out_again),
];

fn k1(calls: &mut dyn Calls) {
    let mut desk = Desk::fresh(calls, 1, 16);
    desk.done(Ask { size: 1 }, 48);
    assert_eq!([FREEBLOCK, NEXTOFFSET, MAXNEXTOFFSET].map(|word| *desk.pool(0, word)), [56, 64, 4088]);
}

fn k2(calls: &mut dyn Calls) {
    let mut desk = Desk::fresh(calls, 1, 16);
    desk.done(Ask { size: 1 }, 48);
    desk.done(Ask { size: 8 }, 56);
    assert_eq!([FREEBLOCK, NEXTOFFSET].map(|word| *desk.pool(0, word)), [64, 72]);
}

fn k3(calls: &mut dyn Calls) {
    let mut desk = Desk::fresh(calls, 1, 16);
    desk.done(Ask { size: 1 }, 48);
    desk.done(Ask { size: 1 }, 56);
    desk.done(GiveBack { offset: 48 }, 48);
    desk.done(Ask { size: 8 }, 48);
}

fn k4(calls: &mut dyn Calls) {
    let mut desk = Desk::fresh(calls, 1, 16);
    desk.done(Ask { size: 8 }, 48);
    desk.done(Ask { size: 9 }, 4144);
}

fn k5(calls: &mut dyn Calls) {
    let mut desk = Desk::fresh(calls, 1, 16);
    desk.done(Ask { size: 1 }, 48);
    desk.done(Ask { size: 1 }, 56);
    desk.done(Ask { size: 9 }, 4144);
    desk.done(GiveBack { offset: 48 }, 48);
    desk.done(GiveBack { offset: 56 }, 56);
    desk.done(Ask { size: 8 }, 56);
}

fn k6(calls: &mut dyn Calls) {
    let mut desk = Desk::fresh(calls, 1, 16);
    desk.done(Ask { size: 1 }, 48);
    desk.done(Ask { size: 9 }, 4144);
    desk.done(GiveBack { offset: 48 }, 48);
    desk.done(Ask { size: 17 }, 48);
}

fn k7(calls: &mut dyn Calls) {
    let mut desk = Desk::fresh(calls, 1, 16);
    desk.refused(Ask { size: 0 }, 3);
    desk.refused(Ask { size: 513 }, 3);
    desk.done(Ask { size: 512 }, 48);
    assert_eq!(*desk.pool(0, MAXNEXTOFFSET), 3584);
}

fn k8(calls: &mut dyn Calls) {
    let mut desk = Desk::fresh(calls, 1, 16);
    desk.done(Ask { size: 100 }, 48);
    desk.done(ViewSize { offset: 48 }, 104);
    desk.done(Resize { offset: 48, size: 79 }, 48);
    desk.done(Resize { offset: 48, size: 78 }, 4144);
}

fn k9(calls: &mut dyn Calls) {
    let mut desk = Desk::fresh(calls, 1, 16);
    desk.done(Ask { size: 8 }, 48);
    desk.done(Resize { offset: 48, size: 6 }, 56);
    desk.done(Resize { offset: 56, size: 7 }, 56);
}

fn k10(calls: &mut dyn Calls) {
    let mut desk = Desk::fresh(calls, 1, 16);
    desk.done(Ask { size: 1 }, 48);
    for offset in [52, 0, 65_536] {
        desk.refused(GiveBack { offset }, 5);
    }
    desk.done(GiveBack { offset: 48 }, 48);
    desk.refused(GiveBack { offset: 48 }, 5);
}

/// P = 2, asks of 8. Give any back and the next ask is served.
fn fill_with_8(calls: &mut dyn Calls) {
    let mut desk = Desk::fresh(calls, 1, 2);
    let offsets: Vec<u32> = (0..1012).map(|_| desk.answer(Ask { size: 8 }).value).collect();
    assert_eq!([506, 507, 1012].map(|n: usize| offsets[n - 1]), [4088, 4144, 8184]);
    desk.refused(Ask { size: 8 }, 4);
    for offset in offsets {
        desk.done(GiveBack { offset: offset as usize }, offset);
        desk.done(Ask { size: 8 }, offset);
    }
}

/// P = 2, asks of 512.
fn fill_with_512(calls: &mut dyn Calls) {
    let mut desk = Desk::fresh(calls, 1, 2);
    let offsets: Vec<u32> = (0..14).map(|_| desk.answer(Ask { size: 512 }).value).collect();
    assert_eq!(offsets[6], 3120);
    desk.refused(Ask { size: 512 }, 4);
}

/// Resize a 104-byte block to 104 keeps it; to 105 moves it and carries 104 bytes.
fn resize_of_104(calls: &mut dyn Calls) {
    let mut desk = Desk::fresh(calls, 1, 16);
    desk.done(Ask { size: 104 }, 48);
    desk.done(Write { offset: 48, length: 104, first: 1 }, 48);
    desk.heap.memory[4144..4256].fill(200);
    desk.done(Resize { offset: 48, size: 104 }, 48);
    desk.done(Resize { offset: 48, size: 105 }, 4144);
    let text: Vec<u8> = (1..=104).collect();
    assert_eq!(desk.bytes(4144, 104), text);
    assert_eq!(desk.bytes(4248, 8), [200; 8]);
}

fn dead_offset_to_0(calls: &mut dyn Calls) {
    let mut desk = Desk::fresh(calls, 1, 16);
    desk.refused(Resize { offset: 48, size: 0 }, 3);
    desk.refused(Resize { offset: 48, size: 1 }, 5);
}

/// A resize that finds no room leaves the old block as it was.
fn refused_resize(calls: &mut dyn Calls) {
    let mut desk = Desk::fresh(calls, 1, 2);
    desk.done(Ask { size: 8 }, 48);
    desk.done(Ask { size: 16 }, 4144);
    desk.refused(Resize { offset: 48, size: 24 }, 4);
    desk.done(GiveBack { offset: 48 }, 48);
}

/// Books under two words is 2; then 1, 2, 3, 5 or 10, 7.
fn order_of_the_numbers(calls: &mut dyn Calls) {
    let mut desk = Desk::fresh(calls, 1, 2);
    desk.done(Ask { size: 8 }, 48);
    desk.refused(Write { offset: 49, length: 600, first: 0 }, 5);
    desk.refused(Write { offset: 56, length: 600, first: 0 }, 10);
    desk.refused(Write { offset: 48, length: 9, first: 0 }, 7);
    for (memory, books, map) in [(8191, 96, 16), (8192, 95, 16), (8192, 96, 15), (8193, 96, 16), (0, 2, 0)] {
        desk.lend(memory, books, map);
        desk.refused(Ask { size: 0 }, 2);
        desk.refused(ViewSize { offset: 49 }, 2);
        desk.refused(RollCall { words: 0 }, 2);
    }
    for (arenas, pools) in [(0, 2), (17, 2), (1, 1), (1, 65), (u32::MAX, u32::MAX)] {
        *desk.books(0) = arenas;
        *desk.books(1) = pools;
        desk.refused(GiveBack { offset: 48 }, 1);
        desk.refused(Resize { offset: 48, size: 0 }, 1);
    }
    desk.lend(0, 1, 0);
    desk.refused(Write { offset: 48, length: 9, first: 0 }, 2);
}

/// Format writes all books and map and no memory.
fn format(calls: &mut dyn Calls) {
    let mut desk = Desk::fresh(calls, 3, 2);
    desk.heap.memory.fill(7);
    desk.heap.books.fill(7);
    desk.heap.map.fill(7);
    desk.refused(Format { arenas: 3, pools: 3, edition: 0 }, 2);
    desk.refused(Format { arenas: 17, pools: 3, edition: 0 }, 1);
    desk.done(Format { arenas: 3, pools: 2, edition: 0 }, 0);
    let mut books = [0; 144];
    books[..4].copy_from_slice(&[3, 2, 0, 1]);
    (books[76], books[84], books[85], books[93]) = (2, 3, 1, 2);
    (0..6).for_each(|pool| books[96 + 8 * pool + CLASS] = 65_535);
    assert_eq!(desk.heap.books[..144], books);
    assert_eq!(desk.heap.map[..48], [0; 48]);
    assert!(desk.heap.memory.iter().all(|byte| *byte == 7));
}

/// Write leaves the rest of the block; view is the whole block, and a refusal the empty part.
fn write_and_view(calls: &mut dyn Calls) {
    let mut desk = Desk::fresh(calls, 1, 16);
    desk.done(Ask { size: 16 }, 48);
    desk.done(Write { offset: 48, length: 16, first: 10 }, 48);
    desk.done(Write { offset: 48, length: 3, first: 90 }, 48);
    assert_eq!(desk.bytes(48, 6), [90, 91, 92, 13, 14, 15]);
    assert_eq!(desk.view(48), (48, 16));
    desk.done(ViewSize { offset: 48 }, 16);
    for (offset, number) in [(64, 10), (80, 5)] {
        assert_eq!(desk.view(offset), (0, 0));
        desk.refused(ViewSize { offset }, number);
    }
}

/// Offset and block size by rising offset; the words after them stay, and so does a roll that is too short.
fn roll_call(calls: &mut dyn Calls) {
    let mut desk = Desk::fresh(calls, 1, 16);
    for (size, offset) in [(8, 48), (9, 4144), (8, 56)] {
        desk.done(Ask { size }, offset);
    }
    let stays = 0xA5A5_A5A5;
    let three = Answer { number: 0, value: 3 };
    assert_eq!(desk.roll(7), (three, vec![48, 8, 56, 8, 4144, 16, stays]));
    assert_eq!(desk.roll(5), (Answer { number: 7, value: 0 }, vec![stays; 5]));
}

/// The arena that is usable again comes first and, with a second free pool, moves back past the other (W-203).
fn two_usable_arenas(calls: &mut dyn Calls) {
    let mut desk = Desk::fresh(calls, 2, 3);
    for (n, size) in [8, 16, 24, 32, 40, 48].into_iter().enumerate() {
        desk.done(Ask { size }, 4096 * n as u32 + 48);
    }
    for pool in [0, 3, 4] {
        desk.done(GiveBack { offset: 4096 * pool + 48 }, 4096 * pool as u32 + 48);
    }
    desk.done(Ask { size: 56 }, 48);
}

/// The last arena is released as well, and is carved again from its first pool.
fn released_arena(calls: &mut dyn Calls) {
    let mut desk = Desk::fresh(calls, 1, 2);
    desk.done(Ask { size: 8 }, 48);
    desk.done(Ask { size: 16 }, 4144);
    desk.done(GiveBack { offset: 48 }, 48);
    desk.done(GiveBack { offset: 4144 }, 4144);
    assert_eq!([*desk.books(USABLE), *desk.books(UNUSED)], [0, 1]);
    assert_eq!(desk.arena_record(0), [0; 8]);
    desk.done(Ask { size: 24 }, 48);
}

/// The fourth reply becomes 10: the pool is freed, but the second block holds its arena open.
fn whole_case(calls: &mut dyn Calls) {
    let mut desk = Desk::fresh(calls, 1, 16);
    desk.done(Ask { size: 1 }, 48);
    desk.done(Ask { size: 9 }, 4144);
    desk.done(GiveBack { offset: 48 }, 48);
    desk.refused(GiveBack { offset: 48 }, 10);
}

/// It is 10 while another block holds the arena open, in its own pool or in another one, and 5 once the arena is
/// released. A released arena that is opened again has carved only what it carved since.
fn given_back_twice(calls: &mut dyn Calls) {
    let mut desk = Desk::fresh(calls, 1, 2);
    for (size, offset) in [(8, 48), (8, 56), (16, 4144)] {
        desk.done(Ask { size }, offset);
    }
    for offset in [48, 56] {
        desk.done(GiveBack { offset }, offset as u32);
        desk.refused(GiveBack { offset }, 10);
    }
    desk.refused(GiveBack { offset: 48 }, 10);
    desk.done(GiveBack { offset: 4144 }, 4144);
    for offset in [48, 56, 4144] {
        desk.refused(GiveBack { offset }, 5);
    }

    // the second pool's record stands as it stood, but the pool is not carved
    desk.done(Ask { size: 8 }, 48);
    desk.refused(GiveBack { offset: 56 }, 10);
    assert_eq!([CLASS, NEXTOFFSET].map(|word| *desk.pool(1, word)), [1, 80]);
    desk.refused(GiveBack { offset: 4144 }, 5);
    desk.done(Ask { size: 24 }, 4144);
    desk.done(GiveBack { offset: 4144 }, 4144);
    desk.refused(GiveBack { offset: 4144 }, 10);
}

/// The other arena stays open, and its dead blocks dead.
fn one_arena_released(calls: &mut dyn Calls) {
    let mut desk = Desk::fresh(calls, 2, 2);
    for (size, offset) in [(8, 48), (16, 4144), (24, 8240), (32, 12_336)] {
        desk.done(Ask { size }, offset);
    }
    for offset in [48, 8240, 4144] {
        desk.done(GiveBack { offset }, offset as u32);
    }
    for (offset, number) in [(48, 5), (4144, 5), (8240, 10), (12_368, 10)] {
        desk.refused(GiveBack { offset }, number);
    }
}

/// Every call that gave 5 takes the split; what view hands back is empty, and stand-in's is the phrase.
fn split_in_each_call(calls: &mut dyn Calls) {
    let mut desk = Desk::fresh(calls, 1, 2);
    desk.done(Ask { size: 16 }, 48);
    desk.done(Ask { size: 16 }, 64);
    desk.done(GiveBack { offset: 48 }, 48);
    for (offset, number) in [(48, 10), (80, 10), (96, 5), (56, 5), (0, 5), (4144, 5), (8192, 5), (usize::MAX, 5)] {
        desk.refused(GiveBack { offset }, number);
        for size in [8, 15, 16, 512] {
            desk.refused(Resize { offset, size }, number);
        }
        desk.refused(ViewSize { offset }, number);
        for length in [0, 16] {
            desk.refused(Write { offset, length, first: 7 }, number);
        }
        assert_eq!(desk.view(offset), (0, 0));
        desk.stand_in(offset, Text(6, b'z'), Place::Phrase(0, 6));
    }
    desk.done(ViewSize { offset: 64 }, 16);
}

/// After 1, 2 and 3, before 7, and before the step with its 4 and 6.
fn split_in_the_same_place(calls: &mut dyn Calls) {
    let mut desk = Desk::fresh(calls, 1, 2);
    for (size, offset) in [(8, 48), (8, 56), (16, 4144)] {
        desk.done(Ask { size }, offset);
    }
    desk.done(GiveBack { offset: 48 }, 48);
    for size in [0, 513] {
        desk.refused(Resize { offset: 48, size }, 3);
    }
    for length in [9, 513, 600] {
        desk.refused(Write { offset: 48, length, first: 7 }, 10);
    }
    desk.refused(Resize { offset: 56, size: 24 }, 4);
    desk.refused(Resize { offset: 48, size: 24 }, 10);

    for word in [USABLE, head(8), head(16)] {
        *desk.books(word) = u32::MAX;
    }
    for word in [COUNT, FREEBLOCK] {
        *desk.pool(0, word) = 49_999;
    }
    desk.refused(Resize { offset: 56, size: 16 }, 6);
    desk.refused(GiveBack { offset: 56 }, 6);
    desk.refused(Resize { offset: 48, size: 16 }, 10);
    desk.refused(GiveBack { offset: 48 }, 10);

    *desk.books(1) = 1;
    desk.refused(GiveBack { offset: 48 }, 1);
    *desk.books(1) = 2;
    desk.lend(8191, 96, 16);
    desk.refused(GiveBack { offset: 48 }, 2);
}

/// A block is 5 while it is virgin, at nextoffset and above it, and 10 from when an ask sets it ready.
fn ready_and_virgin(calls: &mut dyn Calls) {
    let mut desk = Desk::fresh(calls, 1, 16);
    for k in 0..4 {
        desk.done(Ask { size: 8 }, 48 + 8 * k as u32);
        assert_eq!([FREEBLOCK, NEXTOFFSET].map(|word| *desk.pool(0, word)), [56 + 8 * k as u32, 64 + 8 * k as u32]);
        for (offset, number) in [(56 + 8 * k, 10), (64 + 8 * k, 5), (72 + 8 * k, 5), (4088, 5)] {
            desk.refused(GiveBack { offset }, number);
        }
    }
}

/// Its nextoffset is where blocks end, so that each of its blocks is below it.
fn was_full(calls: &mut dyn Calls) {
    let mut desk = Desk::fresh(calls, 1, 2);
    (0..7).for_each(|k| desk.done(Ask { size: 512 }, 48 + 512 * k));
    assert_eq!(*desk.pool(0, NEXTOFFSET), 3632);
    for offset in [3120, 48, 1584] {
        desk.done(GiveBack { offset }, offset as u32);
        desk.refused(GiveBack { offset }, 10);
    }
    desk.refused(GiveBack { offset: 3632 }, 5);
}

/// A freed pool keeps its class and its dead blocks; set to another class it has the starts of that one.
fn another_class(calls: &mut dyn Calls) {
    let mut desk = Desk::fresh(calls, 1, 16);
    for (size, offset) in [(8, 48), (8, 56), (16, 4144)] {
        desk.done(Ask { size }, offset);
    }
    desk.done(GiveBack { offset: 48 }, 48);
    desk.done(GiveBack { offset: 56 }, 56);
    for (offset, number) in [(48, 10), (56, 10), (64, 10), (72, 5)] {
        desk.refused(ViewSize { offset }, number);
    }
    desk.done(Ask { size: 24 }, 48);
    for (offset, number) in [(56, 5), (64, 5), (72, 10), (96, 5)] {
        desk.refused(ViewSize { offset }, number);
    }
}

/// Where a block was before a resize moved it, it is dead.
fn moved_away(calls: &mut dyn Calls) {
    let mut desk = Desk::fresh(calls, 1, 16);
    desk.done(Ask { size: 8 }, 48);
    desk.done(Resize { offset: 48, size: 6 }, 56);
    desk.refused(GiveBack { offset: 48 }, 10);
    desk.done(Resize { offset: 56, size: 16 }, 4144);
    for offset in [48, 56] {
        desk.refused(Resize { offset, size: 8 }, 10);
    }
}

/// The block's own bytes, the whole block as in view, however long text and phrase are.
fn stand_in_for_live(calls: &mut dyn Calls) {
    let mut desk = Desk::fresh(calls, 1, 16);
    desk.done(Ask { size: 9 }, 48);
    desk.done(Write { offset: 48, length: 3, first: b'a' }, 48);
    for length in [1, 3, 9, 16, 17, 600] {
        desk.stand_in(48, Text(length, b'z'), Place::Memory(48, 16));
    }
    assert_eq!(desk.view(48), (48, 16));
}

/// The lent phrase itself, the whole of it, and never what was once there.
fn stand_in_for_dead(calls: &mut dyn Calls) {
    let mut desk = Desk::fresh(calls, 1, 16);
    desk.done(Ask { size: 16 }, 48);
    desk.done(Ask { size: 16 }, 64);
    desk.done(Write { offset: 48, length: 16, first: b'a' }, 48);
    desk.done(GiveBack { offset: 48 }, 48);
    for length in [1, 15, 16, 17, 600] {
        desk.stand_in(48, Text(length, b'z'), Place::Phrase(0, length));
    }
    // but for the link, the old text still stands there
    assert_eq!(desk.bytes(52, 12), *b"efghijklmnop");

    // a block that is ready but was never out; and two whose arena is released
    desk.stand_in(80, Text(6, b'z'), Place::Phrase(0, 6));
    desk.done(GiveBack { offset: 64 }, 64);
    for offset in [48, 64] {
        desk.stand_in(offset, Text(6, b'z'), Place::Phrase(0, 6));
    }
}

/// The header, the inside of a live block, a set bit past the last block or in a pool of no class.
fn stand_in_for_no_start(calls: &mut dyn Calls) {
    let mut desk = Desk::fresh(calls, 1, 2);
    desk.done(Ask { size: 512 }, 48);
    desk.all_bits(u64::MAX);
    for offset in [0, 47, 49, 52, 559, 3632, 4095, 4144] {
        desk.stand_in(offset, Text(6, b'z'), Place::Phrase(0, 6));
    }
    *desk.pool(0, CLASS) = 64;
    desk.stand_in(48, Text(6, b'z'), Place::Phrase(0, 6));
}

/// From memory's end on, and an offset of more than 32 bits is not cut to fit.
fn stand_in_past_memory(calls: &mut dyn Calls) {
    let mut desk = Desk::fresh(calls, 1, 2);
    desk.done(Ask { size: 8 }, 48);
    for offset in [8192, 8240, (1 << 32) + 48, usize::MAX] {
        desk.stand_in(offset, Text(6, b'z'), Place::Phrase(0, 6));
    }
}

/// It is allowed: a live block's bytes all the same, and otherwise it is handed back itself, not memory's empty part.
fn empty_phrase(calls: &mut dyn Calls) {
    let mut desk = Desk::fresh(calls, 1, 16);
    desk.done(Ask { size: 16 }, 48);
    desk.stand_in(48, Text(0, 0), Place::Memory(48, 16));
    desk.stand_in(48, Part(100, 0), Place::Memory(48, 16));
    desk.stand_in(64, Text(0, 0), Place::Phrase(0, 0));
    for start in [0, 48, 100, 65_536] {
        desk.stand_in(64, Part(start, 0), Place::Memory(start, 0));
    }
}

/// Still memory's own part for a live block, and still the phrase for a dead one.
fn phrase_with_the_bytes(calls: &mut dyn Calls) {
    let mut desk = Desk::fresh(calls, 1, 16);
    desk.done(Ask { size: 16 }, 48);
    desk.done(Write { offset: 48, length: 16, first: b'a' }, 48);
    desk.stand_in(48, Same(16), Place::Memory(48, 16));
    desk.stand_in(48, Text(16, b'a'), Place::Memory(48, 16));
    desk.stand_in(48, Same(5), Place::Memory(48, 16));
    desk.stand_in(64, Same(16), Place::Phrase(0, 16));
}

/// A part of memory can be the phrase, over the block or apart from it: one or the other, whole, and nothing between.
fn phrase_in_memory(calls: &mut dyn Calls) {
    let mut desk = Desk::fresh(calls, 1, 16);
    desk.done(Ask { size: 16 }, 48);
    desk.done(Ask { size: 16 }, 64);
    let parts = [(48, 16), (48, 8), (52, 4), (56, 16), (40, 12), (40, 32), (64, 16), (4144, 600), (65_535, 1)];
    for (start, length) in parts {
        desk.stand_in(48, Part(start, length), Place::Memory(48, 16));
    }
    desk.done(GiveBack { offset: 48 }, 48);
    for (start, length) in parts {
        desk.stand_in(48, Part(start, length), Place::Memory(start, length));
    }
}

/// The bytes of who holds the block now, by the class that its pool now has.
fn out_again(calls: &mut dyn Calls) {
    let mut desk = Desk::fresh(calls, 1, 16);
    desk.done(Ask { size: 8 }, 48);
    desk.done(Ask { size: 16 }, 4144);
    desk.done(Write { offset: 48, length: 8, first: b'a' }, 48);
    for size in [8, 24] {
        desk.done(GiveBack { offset: 48 }, 48);
        desk.stand_in(48, Text(6, b'z'), Place::Phrase(0, 6));
        desk.done(Ask { size }, 48);
        desk.done(Write { offset: 48, length: size, first: 100 }, 48);
        desk.stand_in(48, Text(6, b'z'), Place::Memory(48, size));
        assert_eq!(desk.bytes(48, 8), [100, 101, 102, 103, 104, 105, 106, 107]);
    }

    // a block that moves is dead where it was
    desk.done(Resize { offset: 48, size: 32 }, 8240);
    desk.stand_in(48, Text(6, b'z'), Place::Phrase(0, 6));
    desk.stand_in(8240, Text(6, b'z'), Place::Memory(8240, 32));
}
