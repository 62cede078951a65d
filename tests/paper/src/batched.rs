//! W-204's cases: the smallest rows that tell each clause of it, in both editions, and a case for each reading of it.
//! Every row that is done is held against the same asks one by one as well, in each byte and word that they leave.

use crate::batches::{Row, MOST};
use crate::cases::Case;
use crate::damage::Rng;
use crate::desk::*;
use crate::steps::Call::*;
use crate::steps::{Buffers, MARK};
use crate::{Answer, Calls, Request};

pub const CASES: &[Case] = &[
    ("W-204: a row of asks", row_of_asks),
    ("W-204: one by one", one_by_one),
    ("W-204: front first", front_first),
    ("W-204: a size out of range doesn't stop the rest", out_of_range),
    ("W-204: no room doesn't stop the rest", no_room),
    ("W-204: damaged books don't stop the rest", damaged_books),
    ("W-204: a 6 that a later entry clears", cleared),
    ("W-204: 1 and 2 leave the row as it came", one_and_two),
    ("W-204: at most 4,096 entries", at_most),
    ("W-204: otherwise 7 and no change", otherwise_7),
    ("W-204: between other calls", between_other_calls),
];

/// A case for each reading where W-204's words leave room, which tells it from the other reading.
pub const READINGS: &[Case] = &[
    ("W-204, read: the call answers 0 with offset 0", answers_0),
    ("W-204, read: 1 and 2 come before 7", order_of_tests),
    ("W-204, read: a refused entry gets its number and offset 0", number_and_offset_0),
    ("W-204, read: an empty row is done", empty_row),
    ("W-204, read: 1 and 2 of an empty row", empty_row_of_no_heap),
    ("W-204, read: no ask writes A, P and the edition", words_stay),
    ("W-204, read: what stood in an entry's places is no matter", places_before),
    ("W-204, read: every entry counts", every_entry_counts),
];

// Rows on the desk

/// Requests for these sizes, with this in their places.
fn row_with(sizes: &[u32], number: u32, offset: u32) -> Vec<Request> {
    sizes.iter().map(|size| Request { size: *size, number, offset }).collect()
}

/// Requests for these sizes, with marks in their places.
fn row(sizes: &[u32]) -> Vec<Request> {
    row_with(sizes, MARK, MARK)
}

/// So many requests for one size.
fn many(size: usize, entries: usize) -> Vec<Request> {
    row(&vec![size as u32; entries])
}

/// The heap is the other in every byte and word.
fn same(heap: &Buffers, other: &Buffers) -> bool {
    heap.memory == other.memory && heap.books == other.books && heap.map == other.map
}

/// The batch is done, and leaves row and heap as the same asks one by one do; what it leaves in the row.
fn as_singly(desk: &mut Desk, row: &[Request]) -> Vec<Request> {
    let before = desk.heap.clone();
    let singly: Vec<Request> = row
        .iter()
        .map(|request| {
            let Answer { number, value } = desk.answer(Ask { size: request.size as usize });
            Request { number, offset: value, ..*request }
        })
        .collect();
    let after = std::mem::replace(&mut desk.heap, before);
    let (answer, left) = desk.ask_all(row);
    assert_eq!(answer, Answer { number: 0, value: 0 }, "ask all of {} requests", row.len());
    assert_eq!(left, singly);
    assert!(same(&desk.heap, &after), "the heap is not as the asks one by one leave it");
    left
}

/// The entries of these sizes get these numbers and offsets, whatever stood in their places.
fn gets(desk: &mut Desk, entries: &[(usize, u32, u32)]) {
    let sizes: Vec<u32> = entries.iter().map(|(size, ..)| *size as u32).collect();
    let before = desk.heap.clone();
    for (number, offset) in [(MARK, MARK), (0, 0), (6, 48), (4, 0)] {
        desk.heap = before.clone();
        let left = as_singly(desk, &row_with(&sizes, number, offset));
        for (entry, (size, number, offset)) in left.iter().zip(entries) {
            assert_eq!([entry.number, entry.offset], [*number, *offset], "size {size}");
        }
    }
}

// The clauses

/// Of one class and of several, in both editions.
fn row_of_asks(calls: &mut dyn Calls) {
    gets(&mut Desk::fresh(calls, 1, 2), &[(1, 0, 48)]);
    gets(&mut Desk::fresh(calls, 1, 16), &[(1, 0, 48), (8, 0, 56), (9, 0, 4144), (16, 0, 4160), (17, 0, 8240)]);
    gets(&mut Desk::sixteen(calls, 1, 16), &[(1, 0, 48), (8, 0, 64), (9, 0, 80), (16, 0, 96), (17, 0, 4144)]);
    for edition in EDITIONS {
        gets(&mut Desk::formatted(calls, 1, 2, edition), &[(512, 0, 48), (512, 0, 560), (511, 0, 1072)]);
    }
}

/// On heaps that are made up whole, and on heaps of which anything may be wrong.
fn one_by_one(calls: &mut dyn Calls) {
    for seed in 0..48 {
        let mut rng = Rng::new(seed);
        let (arenas, pools, edition) = (rng.between(1, 3), rng.between(2, 4), rng.below(2));
        let mut desk = Desk::whole(calls, arenas, pools, edition, seed);
        if seed % 2 == 1 {
            for _ in 0..8 {
                let at = rng.between(4, desk.heap.books.len() - 2);
                desk.heap.books[at] = if at == EDITION { edition as u32 } else { rng.below(4) as u32 };
            }
        }
        let sizes = crate::whole::sizes(edition, seed);
        let sizes = [sizes[0], sizes[1], sizes[2]].map(|size| size as u32);
        let row = Row { entries: rng.between(2, 60), sizes, odd: 8, seed };
        as_singly(&mut desk, &row.requests());
    }
}

/// The first takes the first pool. From the back, offsets would be exchanged.
fn front_first(calls: &mut dyn Calls) {
    for edition in EDITIONS {
        gets(&mut Desk::formatted(calls, 1, 2, edition), &[(16, 0, 48), (512, 0, 4144)]);
        gets(&mut Desk::formatted(calls, 1, 2, edition), &[(512, 0, 48), (16, 0, 4144)]);
        // the pools go to the first two classes, and none is left for the third
        gets(&mut Desk::formatted(calls, 1, 2, edition), &[(16, 0, 48), (512, 0, 4144), (256, 4, 0)]);
        gets(&mut Desk::formatted(calls, 1, 2, edition), &[(256, 0, 48), (512, 0, 4144), (16, 4, 0)]);
    }
}

/// 3 at the front, in the middle and at the end, and of every entry.
fn out_of_range(calls: &mut dyn Calls) {
    let most = u32::MAX as usize;
    for edition in EDITIONS {
        let second = 48 + alignment(edition) as u32;
        for wrong in [0, 513, 514, 65_536, 65_544, 1 << 31, most] {
            let mut desk = Desk::formatted(calls, 1, 2, edition);
            gets(&mut desk, &[(wrong, 3, 0), (1, 0, 48), (wrong, 3, 0), (wrong, 3, 0), (1, 0, second), (wrong, 3, 0)]);
            gets(&mut desk, &[(wrong, 3, 0), (wrong, 3, 0)]);
        }
    }
}

/// Both pools have a class: the eighth block of 512 has no room, and one of the other class has.
fn no_room(calls: &mut dyn Calls) {
    for edition in EDITIONS {
        let small = alignment(edition);
        let wide = (0..7).map(|k| (512, 0, 4144 + 512 * k));
        let mut entries: Vec<(usize, u32, u32)> = [(small, 0, 48)].into_iter().chain(wide).collect();
        entries.extend([(512, 4, 0), (256, 4, 0), (small, 0, 48 + small as u32), (512, 4, 0)]);
        gets(&mut Desk::formatted(calls, 1, 2, edition), &entries);
    }
}

/// The second block of a freed chain has a link to no start: its class meets 6 from the second entry on, which writes
/// nothing; another class is served.
fn damaged_books(calls: &mut dyn Calls) {
    for edition in EDITIONS {
        let size = alignment(edition);
        let mut desk = Desk::formatted(calls, 1, 3, edition);
        for k in 0..3 {
            desk.done(Ask { size }, (48 + k * size) as u32);
        }
        desk.done(GiveBack { offset: 48 }, 48);
        desk.done(GiveBack { offset: 48 + size }, (48 + size) as u32);
        desk.set_link(48, 7);
        let first = (size, 0, (48 + size) as u32);
        gets(&mut desk, &[first, (size, 6, 0), (size, 6, 0), (2 * size, 0, 4144), (size, 6, 0), (512, 0, 8240)]);
        // a step that has written much before it meets its 6: an arena is opened and a pool carved
        let mut desk = Desk::formatted(calls, 2, 2, edition);
        *desk.bits(0) = 0b10;
        gets(&mut desk, &[(size, 6, 0), (512, 6, 0), (0, 3, 0), (size, 6, 0)]);
        // a head that leads to no pool, between two that lead to none
        let mut desk = Desk::formatted(calls, 1, 2, edition);
        *desk.books(5) = 3;
        gets(&mut desk, &[(size, 0, 48), (2 * size, 6, 0), (512, 0, 4144), (2 * size, 6, 0), (256, 4, 0)]);
    }
}

/// A freed pool's chain leads to no start, which its own class meets; another class sets the pool anew, and then its
/// own class is served from the next pool.
fn cleared(calls: &mut dyn Calls) {
    for edition in EDITIONS {
        let size = alignment(edition);
        let mut desk = Desk::formatted(calls, 1, 3, edition);
        desk.done(Ask { size }, 48);
        desk.done(Ask { size: 512 }, 4144);
        desk.done(GiveBack { offset: 48 }, 48);
        desk.set_link(48, 7);
        gets(&mut desk, &[(size, 6, 0), (256, 0, 48), (size, 0, 8240), (256, 0, 304)]);
    }
}

/// A, P and word 68 out of range, and lengths that are not exact, with rows of any length.
fn one_and_two(calls: &mut dyn Calls) {
    let rows = [1, 2, 7, MOST].map(|entries| many(8, entries));
    for edition in EDITIONS {
        for (at, word) in [(0, 0), (0, 17), (1, 1), (1, 65), (EDITION, 2), (EDITION, 65_536), (0, u32::MAX)] {
            let mut desk = Desk::formatted(calls, 1, 2, edition);
            *desk.books(at) = word;
            rows.iter().for_each(|row| desk.refused_all(row, 1));
        }
        for [memory, books, map] in [[8191, 96, 16], [8193, 96, 16], [0, 96, 16], [8192, 95, 16], [8192, 97, 16]]
            .into_iter()
            .chain([[8192, 68, 16], [8192, 1, 16], [8192, 0, 16], [8192, 96, 15], [8192, 96, 17], [0, 0, 0]])
        {
            let mut desk = Desk::formatted(calls, 1, 2, edition);
            desk.lend(memory, books, map);
            rows.iter().for_each(|row| desk.refused_all(row, 2));
        }
        // what is in the row is no matter, and the heap goes on
        let mut desk = Desk::formatted(calls, 1, 2, edition);
        desk.lend(8192, 96, 15);
        desk.refused_all(&row_with(&[0, 513, 8], 0, 0), 2);
        desk.refused_all(&row_with(&[0, 513, 8], 2, 48), 2);
        desk.lend(8192, 96, 16);
        gets(&mut desk, &[(8, 0, 48)]);
    }
}

/// All of them served, and on a heap that has no room for most of them.
fn at_most(calls: &mut dyn Calls) {
    for edition in EDITIONS {
        let size = alignment(edition);
        let mut desk = Desk::formatted(calls, 1, 17, edition);
        let left = as_singly(&mut desk, &many(size, MOST));
        let blocks = 4048 / size;
        for (n, entry) in left.iter().enumerate() {
            let offset = 4096 * (n / blocks) + 48 + n % blocks * size;
            assert_eq!([entry.number, entry.offset], [0, offset as u32], "entry {n}");
        }
        let mut desk = Desk::formatted(calls, 1, 2, edition);
        let left = as_singly(&mut desk, &many(512, MOST));
        assert_eq!(left.iter().filter(|entry| entry.number == 0).count(), 14);
        assert_eq!(left.iter().filter(|entry| [entry.number, entry.offset] == [4, 0]).count(), MOST - 14);
        as_singly(&mut desk, &many(512, MOST - 1));
    }
}

/// One entry more than 4,096, two more, and so many that a shorter count would be small; with room and without.
fn otherwise_7(calls: &mut dyn Calls) {
    for edition in EDITIONS {
        let mut desk = Desk::formatted(calls, 1, 17, edition);
        for entries in [MOST + 1, MOST + 2, 2 * MOST, 1 << 16, (1 << 16) + 1] {
            desk.refused_all(&many(8, entries), 7);
        }
        desk.refused_all(&row_with(&[8; MOST + 1], 0, 0), 7);
        let mut desk = Desk::formatted(calls, 1, 2, edition);
        as_singly(&mut desk, &many(512, 15));
        desk.refused_all(&many(512, MOST + 1), 7);
        *desk.books(2) = 3;
        desk.refused_all(&many(8, MOST + 1), 7);
    }
}

/// What a batch handed out is like any other block, and what came back goes out again.
fn between_other_calls(calls: &mut dyn Calls) {
    for edition in EDITIONS {
        let size = alignment(edition);
        let at = |k: usize| (48 + k * size) as u32;
        let mut desk = Desk::formatted(calls, 1, 2, edition);
        desk.done(Ask { size }, at(0));
        gets(&mut desk, &[(size, 0, at(1)), (size, 0, at(2))]);
        desk.done(Write { offset: at(1) as usize, length: 4, first: 9 }, at(1));
        desk.done(GiveBack { offset: at(0) as usize }, at(0));
        desk.done(GiveBack { offset: at(2) as usize }, at(2));
        gets(&mut desk, &[(size, 0, at(2)), (512, 0, 4144), (size, 0, at(0)), (size, 0, at(3))]);
        assert_eq!(desk.bytes(at(1) as usize, 4), [9, 10, 11, 12]);
        desk.done(ViewSize { offset: 4144 }, 512);
        desk.done(RollCall { words: 10 }, 5);
        desk.audited(0);
    }
}

// Readings

/// Read as how many there are, how many are served, or what the last one or the first refused one got, it would be
/// another.
fn answers_0(calls: &mut dyn Calls) {
    for edition in EDITIONS {
        for sizes in [&[8][..], &[8, 8], &[0], &[8, 0], &[0, 8], &[512, 256, 8], &[8, 512, 256], &[513, 513, 513]] {
            let mut desk = Desk::formatted(calls, 1, 2, edition);
            assert_eq!(desk.ask_all(&row(sizes)).0, Answer { number: 0, value: 0 }, "{sizes:?}");
        }
        let mut desk = Desk::formatted(calls, 1, 2, edition);
        *desk.books(2) = 2;
        assert_eq!(desk.ask_all(&row(&[8])).0, Answer { number: 0, value: 0 });
        assert_eq!(desk.heap.asked()[0].number, 6);
    }
}

/// Read otherwise, a row that is too long would be 7 on any buffers.
fn order_of_tests(calls: &mut dyn Calls) {
    let long = many(8, MOST + 1);
    for edition in EDITIONS {
        for (at, word) in [(0, 0), (1, 65), (EDITION, 2)] {
            let mut desk = Desk::formatted(calls, 1, 2, edition);
            *desk.books(at) = word;
            desk.refused_all(&long, 1);
        }
        for lent in [[8191, 96, 16], [8192, 96, 17], [8192, 68, 16], [8192, 1, 16]] {
            let mut desk = Desk::formatted(calls, 1, 2, edition);
            desk.lend(lent[0], lent[1], lent[2]);
            desk.refused_all(&long, 2);
        }
        Desk::formatted(calls, 1, 2, edition).refused_all(&long, 7);
    }
}

/// Read as leaving its places, or one of them, they would be as they came.
fn number_and_offset_0(calls: &mut dyn Calls) {
    for edition in EDITIONS {
        let mut desk = Desk::formatted(calls, 1, 2, edition);
        *desk.books(4) = 3;
        let sizes = [0, 513, 8, 512, 256, 128];
        for (number, offset) in [(MARK, MARK), (0, 48), (0, 0), (1, 1), (6, 4144)] {
            let before = desk.heap.clone();
            let (_, left) = desk.ask_all(&row_with(&sizes, number, offset));
            let got: Vec<[u32; 2]> = left.iter().map(|entry| [entry.number, entry.offset]).collect();
            assert_eq!(got, [[3, 0], [3, 0], [6, 0], [0, 48], [0, 4144], [4, 0]]);
            desk.heap = before;
        }
    }
}

/// Read as nothing to do and so a fault, it would be refused. On damaged books too, for it makes no ask.
fn empty_row(calls: &mut dyn Calls) {
    for edition in EDITIONS {
        let mut desk = Desk::formatted(calls, 1, 2, edition);
        let before = desk.heap.clone();
        assert_eq!(desk.ask_all(&[]), (Answer { number: 0, value: 0 }, Vec::new()));
        assert!(same(&desk.heap, &before));
        *desk.books(2) = 9;
        let before = desk.heap.clone();
        assert_eq!(desk.ask_all(&[]), (Answer { number: 0, value: 0 }, Vec::new()));
        assert!(same(&desk.heap, &before));
    }
}

/// Read as done because there is nothing to ask for, it would be 0.
fn empty_row_of_no_heap(calls: &mut dyn Calls) {
    for edition in EDITIONS {
        for (at, word) in [(0, 0), (1, 1), (EDITION, 2)] {
            let mut desk = Desk::formatted(calls, 1, 2, edition);
            *desk.books(at) = word;
            desk.refused_all(&[], 1);
        }
        let mut desk = Desk::formatted(calls, 1, 2, edition);
        desk.lend(8192, 96, 15);
        desk.refused_all(&[], 2);
        desk.lend(0, 0, 0);
        desk.refused_all(&[], 2);
    }
}

/// On sound books and on books whose words may be anything, so 1 and 2 are what they were for each entry. A class after
/// the last has its head where word 68 is.
fn words_stay(calls: &mut dyn Calls) {
    for seed in 0..48 {
        let mut rng = Rng::new(seed);
        let edition = rng.below(2);
        let mut desk = Desk::whole(calls, rng.between(1, 2), rng.between(2, 4), edition, seed);
        let words = [0, 1, EDITION];
        for at in (0..desk.heap.books.len()).filter(|at| !words.contains(at)) {
            if rng.one_in(3) && seed > 1 {
                *desk.books(at) = rng.pick(&[0, 1, 2, 3, 48, 56, 64, 506, 4088, 4096, u32::MAX]);
            }
        }
        let before = words.map(|at| *desk.books(at));
        let sizes: Vec<u32> = [513, 520, 512, 505, 1, 8, 9, 16].into_iter().chain((1..=512).step_by(7)).collect();
        as_singly(&mut desk, &row(&sizes));
        assert_eq!(words.map(|at| *desk.books(at)), before);
    }
}

/// Read as an answer that stands already, an entry would be passed over.
fn places_before(calls: &mut dyn Calls) {
    for edition in EDITIONS {
        let size = alignment(edition) as u32;
        for (number, offset) in [(0, 0), (0, 48), (3, 0), (4, 0), (6, 0), (7, 4144), (MARK, MARK), (0, u32::MAX)] {
            let mut desk = Desk::formatted(calls, 1, 2, edition);
            let (_, left) = desk.ask_all(&row_with(&[size, 0, size], number, offset));
            let expected = [(size, 0, 48), (0, 3, 0), (size, 0, 48 + size)];
            assert_eq!(left, expected.map(|(size, number, offset)| Request { size, number, offset }));
            // the same row once more
            let (_, left) = desk.ask_all(&left);
            assert_eq!(left[0].offset, 48 + 2 * size);
            assert_eq!(left[2].offset, 48 + 3 * size);
        }
    }
}

/// Read as those that can be served, or that have a size in range, 4,097 could be fewer.
fn every_entry_counts(calls: &mut dyn Calls) {
    for edition in EDITIONS {
        let mut desk = Desk::formatted(calls, 1, 2, edition);
        for size in [0, 513, 512] {
            desk.refused_all(&many(size, MOST + 1), 7);
        }
        let mut row = many(8, MOST);
        row.push(Request { size: 0, number: 0, offset: 0 });
        desk.refused_all(&row, 7);
        row.rotate_right(1);
        desk.refused_all(&row, 7);
    }
}
