//! W-204's row of requests in one call through the bindings, at either edition: that it is as the same asks one by one,
//! on sound heaps and on damaged ones, what each request gets, and when row and heap stay as they were.

mod common;

use common::{at_either_edition, below, lent, smallest, Lent};
use heskavern::calls::{self, Answer};
use heskavern::{Edition, Refusal, Request, LARGEST, MOST_REQUESTS};

at_either_edition! {
    each_request_gets_its_block_from_the_front,
    a_bad_size_does_not_stop_the_rest,
    no_room_does_not_stop_the_rest,
    damage_does_not_stop_the_rest,
    an_empty_row_changes_nothing,
    the_most_requests_are_served_and_one_more_is_refused,
    a_heap_of_no_shape_leaves_the_row,
    a_row_is_as_its_asks_one_by_one,
    a_row_on_a_damaged_heap_is_as_its_asks_one_by_one,
}

/// Words of the books of a heap of one arena: the edition, and the first pool's count.
const EDITION: usize = 68;
const COUNT: usize = 72 + 8;

/// A row of these sizes, whose places held something else.
fn row_of(sizes: &[u32]) -> Vec<Request> {
    sizes.iter().map(|&size| Request { size, number: 77, offset: 99 }).collect()
}

/// The number and offset of each request.
fn places(row: &[Request]) -> Vec<(u32, u32)> {
    row.iter().map(|request| (request.number, request.offset)).collect()
}

/// The call over any buffers.
fn ask_all(lent: &mut Lent, row: &mut [Request]) -> Answer {
    calls::ask_all(&mut lent.memory, &mut lent.books, &mut lent.map, row)
}

/// The row as the same asks one by one answer it, on this heap.
fn one_by_one(lent: &mut Lent, row: &[Request]) -> Vec<Request> {
    let Lent { memory, books, map } = lent;
    let mut served = |request: &Request| {
        let Answer { number, value: offset } = calls::ask(memory, books, map, request.size as usize);
        Request { number, offset, ..*request }
    };
    row.iter().map(&mut served).collect()
}

/// Makes the call, and sees that row and heap are, in every byte and word, as the asks one by one leave them on a copy.
#[track_caller]
fn asked(lent: &mut Lent, sizes: &[u32]) -> Vec<Request> {
    let (mut row, mut copy) = (row_of(sizes), lent.clone());
    assert_eq!(ask_all(lent, &mut row), Answer { number: 0, value: 0 });
    assert_eq!(row, one_by_one(&mut copy, &row_of(sizes)));
    assert!(*lent == copy);
    row
}

/// Sees that the call is refused with this number and leaves row and heap.
#[track_caller]
fn assert_left(lent: &mut Lent, sizes: &[u32], number: u32) {
    let (mut row, before) = (row_of(sizes), lent.clone());
    assert_eq!(ask_all(lent, &mut row), Answer { number, value: 0 });
    assert!(row == row_of(sizes) && *lent == before);
}

fn each_request_gets_its_block_from_the_front(edition: Edition) -> Result<(), Refusal> {
    let (size, step) = smallest(edition);
    let mut lent = lent(1, 4);
    let mut heap = lent.format(1, 4, edition)?;
    let mut row = [1, size, size + 1, 1].map(|size| Request::new(size as u32));
    assert_eq!(heap.ask_all(&mut row), Ok(()));
    assert_eq!(row.map(Request::answer), [Ok(48), Ok(48 + step), Ok(4144), Ok(48 + 2 * step)]);
    assert_eq!(row.map(|request| request.size as usize), [1, size, size + 1, 1]);
    heap.give_back(48)?;
    heap.give_back(48 + 2 * step)?;
    assert_eq!(heap.ask_all(&mut row[..3]), Ok(())); // the same row again, but for its last
    assert_eq!(row.map(Request::answer), [Ok(48 + 2 * step), Ok(48), Ok(4144 + 2 * step), Ok(48 + 2 * step)]);
    Ok(())
}

fn a_bad_size_does_not_stop_the_rest(edition: Edition) -> Result<(), Refusal> {
    let (_, step) = smallest(edition);
    let mut lent = lent(1, 2);
    lent.format(1, 2, edition)?;
    let row = asked(&mut lent, &[0, 8, 513, 8, (1 << 16) + 8, u32::MAX, 512]);
    assert_eq!(places(&row), [(3, 0), (0, 48), (3, 0), (0, 48 + step), (3, 0), (3, 0), (0, 4144)]);
    assert_eq!(row[2].answer(), Err(Refusal::BadSize));
    Ok(())
}

/// Two pools, one of seven blocks of 512 bytes: then there is none for a third size.
fn no_room_does_not_stop_the_rest(edition: Edition) -> Result<(), Refusal> {
    let (_, step) = smallest(edition);
    let mut lent = lent(1, 2);
    let mut heap = lent.format(1, 2, edition)?;
    let mut row = [512, 512, 512, 512, 512, 512, 512, 1, 512, 100, 1].map(Request::new);
    heap.ask_all(&mut row)?;
    assert_eq!(row[6].answer(), Ok(3120));
    assert_eq!(places(&row[7..]), [(0, 4144), (4, 0), (4, 0), (0, 4144 + step)]);
    assert_eq!(row[8].answer(), Err(Refusal::NoRoom));
    assert_eq!(places(&asked(&mut lent, &[512, 0, 1])), [(4, 0), (3, 0), (0, 4144 + 2 * step)]);
    Ok(())
}

/// The first pool has a count that none can have: it serves no more, and the others do.
fn damage_does_not_stop_the_rest(edition: Edition) -> Result<(), Refusal> {
    let (size, step) = smallest(edition);
    let mut lent = lent(1, 4);
    let mut heap = lent.format(1, 4, edition)?;
    assert_eq!([heap.ask(size)?, heap.ask(2 * size)?], [48, 4144]);
    lent.books[COUNT] = 506;
    let row = asked(&mut lent, &[step, 2 * step, step, 3 * step]);
    assert_eq!(places(&row), [(6, 0), (0, 4144 + 2 * step), (6, 0), (0, 8240)]);
    assert_eq!(row[0].answer(), Err(Refusal::Damaged));
    Ok(())
}

fn an_empty_row_changes_nothing(edition: Edition) -> Result<(), Refusal> {
    let mut lent = lent(1, 2);
    let mut heap = lent.format(1, 2, edition)?;
    heap.ask(8)?;
    assert_eq!(heap.ask_all(&mut []), Ok(()));
    assert_left(&mut lent, &[], 0);
    lent.books[COUNT] = 506;
    assert_left(&mut lent, &[], 0);
    Ok(())
}

fn the_most_requests_are_served_and_one_more_is_refused(edition: Edition) -> Result<(), Refusal> {
    assert_eq!(MOST_REQUESTS, 4096);
    let mut lent = lent(2, 16);
    lent.format(2, 16, edition)?;
    let sizes = vec![8; MOST_REQUESTS + 1];
    assert_left(&mut lent, &sizes, 7);
    assert_left(&mut lent, &[0; 2 * MOST_REQUESTS], 7);
    let row = asked(&mut lent, &sizes[1..]);
    assert!(row.iter().all(|request| request.answer().is_ok()));
    let mut heap = lent.open()?;
    assert_eq!(heap.ask_all(&mut row_of(&sizes)), Err(Refusal::DoesNotFit));
    assert_eq!(heap.ask_all(&mut row_of(&sizes[1..])), Ok(()));
    Ok(())
}

/// 1 and 2 come before 7, and of an empty row too.
fn a_heap_of_no_shape_leaves_the_row(edition: Edition) -> Result<(), Refusal> {
    let mut good = lent(1, 2);
    good.format(1, 2, edition)?.ask(8)?;
    let with = |change: fn(&mut Lent)| {
        let mut lent = good.clone();
        change(&mut lent);
        lent
    };
    let cases = [
        (with(|lent| lent.books[0] = 17), 1),
        (with(|lent| lent.books[1] = 1), 1),
        (with(|lent| lent.books[EDITION] = 2), 1),
        (with(|lent| lent.books.truncate(1)), 2),
        (with(|lent| lent.books.truncate(EDITION)), 2),
        (with(|lent| lent.books.push(0)), 2),
        (with(|lent| lent.memory.push(0)), 2),
        (with(|lent| lent.map.clear()), 2),
    ];
    for (mut lent, number) in cases {
        for sizes in [&[][..], &[8], &[0, 8, 513], &[8; MOST_REQUESTS], &[8; MOST_REQUESTS + 1]] {
            assert_left(&mut lent, sizes, number);
        }
    }
    Ok(())
}

/// A row of sizes, some of them out of range.
fn some_sizes(state: &mut u64) -> Vec<u32> {
    let most = [20, 80, LARGEST as u64 + 20][below(state, 3) as usize];
    (0..below(state, 60)).map(|_| below(state, most) as u32).collect()
}

fn a_row_is_as_its_asks_one_by_one(edition: Edition) -> Result<(), Refusal> {
    let (mut lent, mut state, mut held, mut refused) = (lent(3, 3), 1, Vec::new(), [0; 5]);
    lent.format(3, 3, edition)?;
    for _ in 0..300 {
        let sizes = some_sizes(&mut state);
        let row = asked(&mut lent, &sizes);
        let mut heap = lent.open()?;
        assert!(heap.audit().is_yes());
        for request in row {
            refused[request.number as usize] += 1; // 3, 4, and never 6
            held.extend(request.answer());
        }
        for _ in 0..below(&mut state, 1 + 2 * sizes.len() as u64).min(held.len() as u64) {
            let place = below(&mut state, held.len() as u64) as usize;
            heap.give_back(held.swap_remove(place))?;
        }
    }
    assert!(refused[0] > 1000 && refused[3] > 100 && refused[4] > 100, "{refused:?}");
    Ok(())
}

/// Any word of the books but A, P and the edition, any of the map, and any byte of memory may be another.
fn a_row_on_a_damaged_heap_is_as_its_asks_one_by_one(edition: Edition) -> Result<(), Refusal> {
    let (mut sound, mut state, mut damaged) = (lent(2, 3), 1, 0);
    sound.format(2, 3, edition)?;
    for round in 0..2000 {
        if round % 100 == 0 {
            asked(&mut sound, &some_sizes(&mut state));
        }
        let mut lent = sound.clone();
        for _ in 0..=below(&mut state, 3) {
            let mut word = 2 + below(&mut state, lent.books.len() as u64 - 2) as usize;
            word += usize::from(word == EDITION);
            lent.books[word] = [0, 1, 2, 7, 48, 4096, 65535, u32::MAX][below(&mut state, 8) as usize];
            let (word, bit) = (below(&mut state, lent.map.len() as u64) as usize, below(&mut state, 64));
            lent.map[word] ^= 1 << bit;
            let byte = below(&mut state, lent.memory.len() as u64) as usize;
            lent.memory[byte] ^= below(&mut state, 256) as u8;
        }
        let row = asked(&mut lent, &some_sizes(&mut state));
        damaged += row.iter().filter(|request| request.number == 6).count();
    }
    assert!(damaged > 1000, "{damaged}");
    Ok(())
}

#[test]
fn a_request_is_laid_out_as_in_c() {
    let row = [Request { size: 1, number: 2, offset: 3 }, Request::default()];
    let from_start = |place: &u32| place as *const u32 as usize - row.as_ptr() as usize;
    let [first, second] = &row;
    assert_eq!([&first.size, &first.number, &first.offset, &second.size].map(from_start), [0, 4, 8, 12]);
    assert_eq!((std::mem::size_of::<Request>(), std::mem::align_of::<Request>()), (12, 4));
    assert_eq!(Request::new(0), Request::default());
}
