//! W-211's cases: 01's, W-206's and W-214's over a heap of edition sixteen, each number moved there by 01's rules, and
//! what the request says of classes and blocks.

use crate::cases::Case;
use crate::desk::*;
use crate::steps::Call::*;
use crate::steps::Phrase::*;
use crate::{Answer, Calls, Place};

pub const CASES: &[Case] = &[
    ("W-211: K1 in sixteen", k1),
    ("W-211: K2 in sixteen", k2),
    ("W-211: K3 in sixteen", k3),
    ("W-211: K4 in sixteen", k4),
    ("W-211: K5 in sixteen", k5),
    ("W-211: K6 in sixteen", k6),
    ("W-211: K7 in sixteen", k7),
    ("W-211: K8 in sixteen", k8),
    ("W-211: K9 in sixteen", k9),
    ("W-211: K10 in sixteen", k10),
    ("W-211: fill with 16", fill_with_16),
    ("W-211: fill with 512", fill_with_512),
    ("W-211: every size", every_size),
    ("W-211: every class", every_class),
    ("W-211: resize of 112", resize_of_112),
    ("W-211: format in sixteen", format),
    ("W-211: write, view and roll call", write_view_roll_call),
    ("W-211: a link of four bytes", link_of_four_bytes),
    ("W-211: a dead block and no block", dead_block),
    ("W-211: a stand-in", stand_in),
    ("W-211: two usable arenas", two_usable_arenas),
    ("W-211: released arena", released_arena),
];

fn k1(calls: &mut dyn Calls) {
    let mut desk = Desk::sixteen(calls, 1, 16);
    desk.done(Ask { size: 1 }, 48);
    assert_eq!([FREEBLOCK, NEXTOFFSET, MAXNEXTOFFSET].map(|word| *desk.pool(0, word)), [64, 80, 4080]);
    assert_eq!([*desk.pool(0, CLASS), *desk.books(4), *desk.books(EDITION)], [0, 1, 1]);
}

fn k2(calls: &mut dyn Calls) {
    let mut desk = Desk::sixteen(calls, 1, 16);
    desk.done(Ask { size: 1 }, 48);
    desk.done(Ask { size: 16 }, 64);
    assert_eq!([FREEBLOCK, NEXTOFFSET].map(|word| *desk.pool(0, word)), [80, 96]);
    assert_eq!(*desk.bits(0), 0b11);
}

fn k3(calls: &mut dyn Calls) {
    let mut desk = Desk::sixteen(calls, 1, 16);
    desk.done(Ask { size: 1 }, 48);
    desk.done(Ask { size: 1 }, 64);
    desk.done(GiveBack { offset: 48 }, 48);
    desk.done(Ask { size: 16 }, 48);
}

/// 8 and 9 lie in one pool, 16 and 17 in two.
fn k4(calls: &mut dyn Calls) {
    let mut desk = Desk::sixteen(calls, 1, 16);
    desk.done(Ask { size: 16 }, 48);
    desk.done(Ask { size: 17 }, 4144);
    desk.done(Ask { size: 8 }, 64);
    desk.done(Ask { size: 9 }, 80);
    assert_eq!([0, 1].map(|pool| *desk.pool(pool, CLASS)), [0, 1]);
}

fn k5(calls: &mut dyn Calls) {
    let mut desk = Desk::sixteen(calls, 1, 16);
    desk.done(Ask { size: 1 }, 48);
    desk.done(Ask { size: 1 }, 64);
    desk.done(Ask { size: 17 }, 4144);
    desk.done(GiveBack { offset: 48 }, 48);
    desk.done(GiveBack { offset: 64 }, 64);
    desk.done(Ask { size: 16 }, 64);
}

fn k6(calls: &mut dyn Calls) {
    let mut desk = Desk::sixteen(calls, 1, 16);
    desk.done(Ask { size: 1 }, 48);
    desk.done(Ask { size: 17 }, 4144);
    desk.done(GiveBack { offset: 48 }, 48);
    desk.done(Ask { size: 33 }, 48);
}

/// 512 has class 31, and its head is word 35.
fn k7(calls: &mut dyn Calls) {
    let mut desk = Desk::sixteen(calls, 1, 16);
    for size in [0, 513, 528, 1024] {
        desk.refused(Ask { size }, 3);
    }
    desk.done(Ask { size: 512 }, 48);
    assert_eq!([*desk.pool(0, MAXNEXTOFFSET), *desk.pool(0, CLASS), *desk.books(35)], [3584, 31, 1]);
    desk.done(Ask { size: 497 }, 560);
    desk.done(Ask { size: 496 }, 4144);
}

fn k8(calls: &mut dyn Calls) {
    let mut desk = Desk::sixteen(calls, 1, 16);
    desk.done(Ask { size: 100 }, 48);
    desk.done(ViewSize { offset: 48 }, 112);
    desk.done(Resize { offset: 48, size: 85 }, 48);
    desk.done(Resize { offset: 48, size: 84 }, 4144);
}

/// As in K9, and with K9's own sizes, of which 7 moves here: 28 is not above 48.
fn k9(calls: &mut dyn Calls) {
    let mut desk = Desk::sixteen(calls, 1, 16);
    desk.done(Ask { size: 16 }, 48);
    desk.done(Resize { offset: 48, size: 12 }, 64);
    desk.done(Resize { offset: 64, size: 13 }, 64);

    let mut desk = Desk::sixteen(calls, 1, 16);
    desk.done(Ask { size: 8 }, 48);
    desk.done(Resize { offset: 48, size: 6 }, 64);
    desk.done(Resize { offset: 64, size: 7 }, 48);
}

fn k10(calls: &mut dyn Calls) {
    let mut desk = Desk::sixteen(calls, 1, 16);
    desk.done(Ask { size: 1 }, 48);
    for offset in [52, 56, 0, 65_536] {
        desk.refused(GiveBack { offset }, 5);
    }
    desk.done(GiveBack { offset: 48 }, 48);
    desk.refused(GiveBack { offset: 48 }, 5);
}

/// P = 2, asks of 16: a pool holds 253. Give any back and the next ask is served.
fn fill_with_16(calls: &mut dyn Calls) {
    let mut desk = Desk::sixteen(calls, 1, 2);
    let offsets: Vec<u32> = (0..506).map(|_| desk.answer(Ask { size: 16 }).value).collect();
    assert_eq!([253, 254, 506].map(|n: usize| offsets[n - 1]), [4080, 4144, 8176]);
    desk.refused(Ask { size: 16 }, 4);
    desk.done(RollCall { words: 1012 }, 506);
    for offset in offsets {
        desk.done(GiveBack { offset: offset as usize }, offset);
        desk.done(Ask { size: 1 }, offset);
    }
}

/// P = 2, asks of 512: as in eight.
fn fill_with_512(calls: &mut dyn Calls) {
    let mut desk = Desk::sixteen(calls, 1, 2);
    let offsets: Vec<u32> = (0..14).map(|_| desk.answer(Ask { size: 512 }).value).collect();
    assert_eq!([7, 8, 14].map(|n: usize| offsets[n - 1]), [3120, 4144, 7216]);
    desk.refused(Ask { size: 512 }, 4);
}

/// A block is as large as the next multiple of 16, and its class is one less than that has sixteens.
fn every_size(calls: &mut dyn Calls) {
    for size in 1..=512 {
        let mut desk = Desk::sixteen(calls, 1, 2);
        desk.done(Ask { size }, 48);
        let sixteens = (size as u32 + 15) / 16;
        desk.done(ViewSize { offset: 48 }, 16 * sixteens);
        assert_eq!(*desk.pool(0, CLASS), sixteens - 1);
        assert_eq!(*desk.books(head_in_sixteen(16 * sixteens as usize)), 1);
    }
}

/// A pool holds 4,048 div size blocks, from 48 on, and the next ask of that size goes to another one.
fn every_class(calls: &mut dyn Calls) {
    for size in (16..=512).step_by(16) {
        let mut desk = Desk::sixteen(calls, 1, 2);
        for k in 0..4048 / size {
            desk.done(Ask { size }, (48 + k * size) as u32);
        }
        assert_eq!(*desk.books(head_in_sixteen(size)), 0);
        desk.done(Ask { size }, 4144);
    }
}

/// Resize a 112-byte block to 112 keeps it; to 113 moves it and carries 112 bytes.
fn resize_of_112(calls: &mut dyn Calls) {
    let mut desk = Desk::sixteen(calls, 1, 16);
    desk.done(Ask { size: 105 }, 48);
    desk.done(Write { offset: 48, length: 112, first: 1 }, 48);
    desk.heap.memory[4144..4272].fill(200);
    desk.done(Resize { offset: 48, size: 112 }, 48);
    desk.done(Resize { offset: 48, size: 113 }, 4144);
    let text: Vec<u8> = (1..=112).collect();
    assert_eq!(desk.bytes(4144, 112), text);
    assert_eq!(desk.bytes(4256, 16), [200; 16]);
    desk.done(ViewSize { offset: 4144 }, 128);
}

/// As in eight but for word 68: heads 36 to 67 are 0 too.
fn format(calls: &mut dyn Calls) {
    let mut desk = Desk::sixteen(calls, 3, 2);
    desk.heap.memory.fill(7);
    desk.heap.books.fill(7);
    desk.heap.map.fill(7);
    desk.refused(Format { arenas: 3, pools: 3, edition: 1 }, 2);
    desk.refused(Format { arenas: 17, pools: 2, edition: 1 }, 1);
    desk.refused(Format { arenas: 3, pools: 2, edition: 2 }, 1);
    desk.done(Format { arenas: 3, pools: 2, edition: 1 }, 0);
    let mut books = [0; 144];
    books[..4].copy_from_slice(&[3, 2, 0, 1]);
    books[68] = 1;
    (books[76], books[84], books[85], books[93]) = (2, 3, 1, 2);
    (0..6).for_each(|pool| books[96 + 8 * pool + CLASS] = 65_535);
    assert_eq!(desk.heap.books[..144], books);
    assert_eq!(desk.heap.map[..48], [0; 48]);
    assert!(desk.heap.memory.iter().all(|byte| *byte == 7));

    // in edition eight the word is 0
    desk.done(Format { arenas: 3, pools: 2, edition: 0 }, 0);
    books[68] = 0;
    assert_eq!(desk.heap.books[..144], books);
}

/// The whole block has sixteen bytes, whatever was asked for.
fn write_view_roll_call(calls: &mut dyn Calls) {
    let mut desk = Desk::sixteen(calls, 1, 16);
    for (size, offset) in [(1, 48), (17, 4144), (8, 64), (512, 8240)] {
        desk.done(Ask { size }, offset);
    }
    assert_eq!([desk.view(48), desk.view(4144), desk.view(8240)], [(48, 16), (4144, 32), (8240, 512)]);
    desk.done(ViewSize { offset: 64 }, 16);
    desk.done(Write { offset: 48, length: 16, first: 10 }, 48);
    desk.refused(Write { offset: 48, length: 17, first: 10 }, 7);
    desk.refused(Write { offset: 4144, length: 33, first: 10 }, 7);
    let four = Answer { number: 0, value: 4 };
    assert_eq!(desk.roll(8), (four, vec![48, 16, 64, 16, 4144, 32, 8240, 512]));
    desk.refused(RollCall { words: 7 }, 7);
}

/// A freed block's first four bytes hold its link; the other twelve stay.
fn link_of_four_bytes(calls: &mut dyn Calls) {
    let mut desk = Desk::sixteen(calls, 1, 2);
    desk.heap.memory.fill(9);
    desk.done(Ask { size: 16 }, 48);
    assert_eq!(desk.bytes(64, 16), [0, 0, 0, 0, 9, 9, 9, 9, 9, 9, 9, 9, 9, 9, 9, 9]);
    desk.done(Ask { size: 16 }, 64);
    desk.done(GiveBack { offset: 48 }, 48);
    assert_eq!(desk.bytes(48, 16), [80, 0, 0, 0, 9, 9, 9, 9, 9, 9, 9, 9, 9, 9, 9, 9]);
}

/// 64 is ready and so dead, 80 is virgin, and at 56 no block starts. 01's whole case with the next class.
fn dead_block(calls: &mut dyn Calls) {
    let mut desk = Desk::sixteen(calls, 1, 16);
    desk.done(Ask { size: 1 }, 48);
    for (offset, number) in [(64, 10), (80, 5), (56, 5), (72, 5)] {
        desk.refused(GiveBack { offset }, number);
    }
    desk.done(Ask { size: 17 }, 4144);
    desk.refused(GiveBack { offset: 4160 }, 5);
    desk.refused(GiveBack { offset: 4176 }, 10);
    desk.done(GiveBack { offset: 48 }, 48);
    desk.refused(GiveBack { offset: 48 }, 10);
}

fn stand_in(calls: &mut dyn Calls) {
    let mut desk = Desk::sixteen(calls, 1, 16);
    desk.done(Ask { size: 8 }, 48);
    for length in [0, 1, 8, 16, 17, 600] {
        desk.stand_in(48, Text(length, b'z'), Place::Memory(48, 16));
        desk.stand_in(56, Text(length, b'z'), Place::Phrase(0, length));
        desk.stand_in(64, Text(length, b'z'), Place::Phrase(0, length));
    }
}

/// By W-203's order, as in eight.
fn two_usable_arenas(calls: &mut dyn Calls) {
    let mut desk = Desk::sixteen(calls, 2, 3);
    for (n, size) in [16, 32, 48, 64, 80, 96].into_iter().enumerate() {
        desk.done(Ask { size }, 4096 * n as u32 + 48);
    }
    for pool in [0, 3, 4] {
        desk.done(GiveBack { offset: 4096 * pool + 48 }, 4096 * pool as u32 + 48);
    }
    desk.done(Ask { size: 112 }, 48);
}

/// A release leaves word 68 as it is, so the arena is opened in the same edition.
fn released_arena(calls: &mut dyn Calls) {
    let mut desk = Desk::sixteen(calls, 1, 2);
    desk.done(Ask { size: 16 }, 48);
    desk.done(Ask { size: 32 }, 4144);
    desk.done(GiveBack { offset: 48 }, 48);
    desk.done(GiveBack { offset: 4144 }, 4144);
    assert_eq!([*desk.books(USABLE), *desk.books(UNUSED), *desk.books(EDITION)], [0, 1, 1]);
    assert_eq!(desk.arena_record(0), [0; 8]);
    desk.done(Ask { size: 40 }, 48);
    desk.done(ViewSize { offset: 48 }, 48);
}
