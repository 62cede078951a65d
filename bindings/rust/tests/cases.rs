//! 01's cases, W-203's, W-206's and W-214's through the bindings, at either edition of W-211: what a caller in Rust
//! gets for each number, and what it can get hold of. The heaps are audited before and after each call.

mod common;

use common::{at_either_edition, lent, smallest, Kept};
use heskavern::{calls, roll_words, Edition, Refusal};

at_either_edition! {
    blocks_come_back_in_01s_order,
    a_full_heap_serves_again_what_is_given_back,
    a_pool_has_seven_of_the_largest_blocks,
    resize_keeps_more_than_three_quarters,
    resize_moves_within_a_block_size,
    resize_moves_to_a_larger_block,
    no_block_is_there_as_in_k10,
    the_fullest_arena_serves_first,
    an_arena_with_a_bad_link_takes_no_pool_back,
    a_block_that_is_given_back_is_dead_while_another_is_out,
    a_block_that_is_set_ready_is_dead_and_the_next_is_none,
    a_pool_of_another_block_size_has_other_blocks,
    a_half_done_resize_tells_where_the_text_is,
    open_asks_for_a_formatted_heap,
    another_thread_gives_back_between_calls,
    a_heap_is_the_same_at_another_address,
    a_short_roll_is_left_as_it_was,
    a_stale_offset_speaks_the_phrase,
    a_stand_in_is_no_copy,
    a_heap_of_no_shape_speaks_the_phrase,
    no_offset_is_too_large_to_ask_about,
}

/// Every call on the offset is refused with this, whatever the text, and the stand-in is its phrase. Only a bad size
/// comes before it.
#[track_caller]
fn assert_refused(heap: &mut Kept, offset: u32, refusal: Refusal) {
    let phrase = b"this amount can't be read out";
    assert_eq!(heap.give_back(offset), Err(refusal));
    assert_eq!(heap.resize(offset, 0), Err(Refusal::BadSize));
    assert_eq!(heap.resize(offset, 8), Err(refusal));
    assert_eq!(heap.view(offset), Err(refusal));
    assert_eq!(heap.view_mut(offset), Err(refusal));
    for text in [b"".as_slice(), b"owed", &[0; 513]] {
        assert_eq!(heap.write(offset, text), Err(refusal));
    }
    assert!(std::ptr::eq(heap.stand_in(offset, phrase), phrase));
}

fn blocks_come_back_in_01s_order(edition: Edition) -> Result<(), Refusal> {
    let (size, step) = smallest(edition);
    let mut lent = lent(1, 16);
    let mut heap = lent.format(1, 16, edition)?;
    assert_eq!([heap.ask(1)?, heap.ask(1)?, heap.ask(size + 1)?], [48, 48 + step, 4144]);
    heap.give_back(48)?;
    heap.give_back(48 + step)?;
    assert_eq!(heap.ask(size), Ok(48 + step));
    Ok(())
}

fn a_full_heap_serves_again_what_is_given_back(edition: Edition) -> Result<(), Refusal> {
    let (size, _) = smallest(edition);
    let (blocks, last) = match edition {
        Edition::Eight => (506, 4088),
        Edition::Sixteen => (253, 4080),
    };
    let mut lent = lent(1, 2);
    let mut heap = lent.format(1, 2, edition)?;
    let all: Vec<u32> = (0..2 * blocks).map(|_| heap.ask(1)).collect::<Result<_, _>>()?;
    assert_eq!([all[0], all[blocks - 1], all[blocks], all[2 * blocks - 1]], [48, last, 4144, 4096 + last]);
    for &offset in &all {
        assert_eq!(heap.ask(1), Err(Refusal::NoRoom));
        heap.give_back(offset)?;
        assert_eq!(heap.ask(1), Ok(offset));
    }
    let mut words = [0; roll_words(1, 2)];
    assert!(heap.roll_call(&mut words)?.eq(all.iter().map(|&offset| (offset, size))));
    Ok(())
}

fn a_pool_has_seven_of_the_largest_blocks(edition: Edition) -> Result<(), Refusal> {
    let mut lent = lent(1, 2);
    let mut heap = lent.format(1, 2, edition)?;
    let all: Vec<u32> = (0..14).map(|_| heap.ask(512)).collect::<Result<_, _>>()?;
    assert_eq!([all[0], all[6], all[7], all[13]], [48, 3120, 4144, 7216]);
    assert_eq!(heap.ask(512), Err(Refusal::NoRoom));
    assert_eq!(heap.view(7216)?.len(), 512);
    assert_refused(&mut heap, 3632, Refusal::NoBlock); // a block would run past its pool
    Ok(())
}

/// K8.
fn resize_keeps_more_than_three_quarters(edition: Edition) -> Result<(), Refusal> {
    let (block, kept) = match edition {
        Edition::Eight => (104, 79),
        Edition::Sixteen => (112, 85),
    };
    let mut lent = lent(1, 16);
    let mut heap = lent.format(1, 16, edition)?;
    assert_eq!(heap.ask(100), Ok(48));
    assert_eq!(heap.view(48)?.len(), block);
    assert_eq!(heap.resize(48, kept), Ok(48));
    assert_eq!(heap.resize(48, kept - 1), Ok(4144));
    Ok(())
}

/// K9.
fn resize_moves_within_a_block_size(edition: Edition) -> Result<(), Refusal> {
    let (moved, to) = match edition {
        Edition::Eight => (6, 56),
        Edition::Sixteen => (12, 64),
    };
    let mut lent = lent(1, 16);
    let mut heap = lent.format(1, 16, edition)?;
    assert_eq!(heap.ask(8), Ok(48));
    assert_eq!(heap.resize(48, moved), Ok(to));
    assert_eq!(heap.resize(to, moved + 1), Ok(to));
    Ok(())
}

fn resize_moves_to_a_larger_block(edition: Edition) -> Result<(), Refusal> {
    let (block, larger) = match edition {
        Edition::Eight => (104, 112),
        Edition::Sixteen => (112, 128),
    };
    let mut lent = lent(1, 16);
    let mut heap = lent.format(1, 16, edition)?;
    let text: Vec<u8> = (0..).take(block).collect();
    assert_eq!(heap.ask(block), Ok(48));
    heap.write(48, &text)?;
    assert_eq!(heap.resize(48, block), Ok(48));
    assert_eq!(heap.resize(48, block + 1), Ok(4144));
    assert_eq!(heap.view(4144)?[..block], text);
    assert_eq!(heap.view(4144)?.len(), larger);
    assert_eq!(heap.resize(48, 0), Err(Refusal::BadSize));
    assert_eq!(heap.resize(48, 1), Err(Refusal::DeadBlock));
    Ok(())
}

fn no_block_is_there_as_in_k10(edition: Edition) -> Result<(), Refusal> {
    let mut lent = lent(1, 16);
    let mut heap = lent.format(1, 16, edition)?;
    assert_eq!(heap.ask(1), Ok(48));
    for offset in [52, 0, 65536] {
        assert_eq!(heap.give_back(offset), Err(Refusal::NoBlock));
    }
    assert_eq!(heap.give_back(48), Ok(()));
    assert_eq!(heap.give_back(48), Err(Refusal::NoBlock)); // its arena is released
    Ok(())
}

/// W-203. Arena 1, which comes to have two free pools, goes behind arena 0, which has one.
fn the_fullest_arena_serves_first(edition: Edition) -> Result<(), Refusal> {
    let (size, _) = smallest(edition);
    let mut lent = lent(2, 3);
    let mut heap = lent.format(2, 3, edition)?;
    let all: Vec<u32> = (1..=6).map(|n| heap.ask(n * size)).collect::<Result<_, _>>()?;
    assert_eq!(all, [48, 4144, 8240, 12336, 16432, 20528]);
    for offset in [48, 12336, 16432] {
        heap.give_back(offset)?;
    }
    assert_eq!(heap.ask(7 * size), Ok(48));
    Ok(())
}

/// W-203. Its next is read even where no other arena is there to move past.
fn an_arena_with_a_bad_link_takes_no_pool_back(edition: Edition) -> Result<(), Refusal> {
    let (size, _) = smallest(edition);
    let mut lent = lent(1, 4);
    let mut heap = lent.format(1, 4, edition)?;
    assert_eq!([heap.ask(size)?, heap.ask(2 * size)?, heap.ask(3 * size)?], [48, 4144, 8240]);
    lent.books[72 + 4] = 9; // the arena's next
    let before = lent.clone();
    assert_eq!(lent.open()?.give_back(4144), Err(Refusal::Damaged));
    assert!(lent == before);
    Ok(())
}

fn a_block_that_is_given_back_is_dead_while_another_is_out(edition: Edition) -> Result<(), Refusal> {
    let (_, step) = smallest(edition);
    let mut lent = lent(1, 2);
    let mut heap = lent.format(1, 2, edition)?;
    assert_refused(&mut heap, 48, Refusal::NoBlock); // nothing was asked for
    assert_eq!([heap.ask(8)?, heap.ask(8)?], [48, 48 + step]);
    heap.give_back(48)?;
    assert_refused(&mut heap, 48, Refusal::DeadBlock);
    assert_eq!(heap.ask(8), Ok(48)); // out again: the stale offset is the new holder's
    heap.give_back(48)?;
    heap.give_back(48 + step)?; // the last one: the arena is released
    assert_refused(&mut heap, 48, Refusal::NoBlock);
    assert_refused(&mut heap, 48 + step, Refusal::NoBlock);
    Ok(())
}

fn a_block_that_is_set_ready_is_dead_and_the_next_is_none(edition: Edition) -> Result<(), Refusal> {
    let (_, step) = smallest(edition);
    let mut lent = lent(1, 2);
    let mut heap = lent.format(1, 2, edition)?;
    assert_eq!(heap.ask(1), Ok(48));
    assert_refused(&mut heap, 48 + step / 2, Refusal::NoBlock); // inside the block that is out
    assert_refused(&mut heap, 48 + step, Refusal::DeadBlock);
    assert_refused(&mut heap, 48 + 2 * step, Refusal::NoBlock);
    assert_refused(&mut heap, 4144, Refusal::NoBlock); // a pool that was never used
    Ok(())
}

fn a_pool_of_another_block_size_has_other_blocks(edition: Edition) -> Result<(), Refusal> {
    let (size, step) = smallest(edition);
    let mut lent = lent(1, 2);
    let mut heap = lent.format(1, 2, edition)?;
    assert_eq!([heap.ask(size)?, heap.ask(size + 1)?], [48, 4144]);
    heap.give_back(48)?;
    assert_refused(&mut heap, 48, Refusal::DeadBlock); // its pool stands as it was
    assert_refused(&mut heap, 48 + step, Refusal::DeadBlock);
    assert_eq!(heap.ask(2 * size + 1), Ok(48)); // the same pool, for the third block size
    assert_eq!(heap.view(48)?.len(), 3 * size);
    assert_refused(&mut heap, 48 + step, Refusal::NoBlock);
    assert_refused(&mut heap, 48 + 3 * step, Refusal::DeadBlock);
    assert_refused(&mut heap, 48 + 6 * step, Refusal::NoBlock);
    Ok(())
}

fn a_half_done_resize_tells_where_the_text_is(edition: Edition) -> Result<(), Refusal> {
    let mut lent = lent(1, 16);
    let mut heap = lent.format(1, 16, edition)?;
    assert_eq!(heap.ask(8), Ok(48));
    heap.write(48, b"owed")?;
    lent.books[72 + 8] = 0; // the first pool's count, so that no block can be given back there
    let mut heap = lent.open()?;
    assert_eq!(heap.give_back(48), Err(Refusal::Damaged));
    assert_eq!(heap.resize(48, 100), Err(Refusal::HalfDone(4144)));
    assert!(heap.view(4144)?.starts_with(b"owed"));
    Ok(())
}

fn open_asks_for_a_formatted_heap(edition: Edition) -> Result<(), Refusal> {
    let (size, _) = smallest(edition);
    let mut lent = lent(2, 3);
    assert_eq!(lent.open().unwrap_err(), Refusal::OutOfRange);
    lent.format(2, 3, edition)?.ask(2 * size + 1)?;
    assert_eq!(lent.open()?.view(48)?.len(), 3 * size);
    lent.map.pop();
    assert_eq!(lent.open().unwrap_err(), Refusal::NotExact);
    lent.books.truncate(1);
    assert_eq!(lent.open().unwrap_err(), Refusal::NotExact);
    Ok(())
}

fn another_thread_gives_back_between_calls(edition: Edition) -> Result<(), Refusal> {
    let mut lent = lent(1, 2);
    let mut heap = lent.format(1, 2, edition)?;
    let word = heap.ask(4)?;
    let mut heap = std::thread::scope(|threads| {
        let there = threads.spawn(move || heap.give_back(word).map(|()| heap));
        there.join().expect("the thread ends")
    })?;
    assert_eq!(heap.give_back(word), Err(Refusal::NoBlock)); // it was the last one, so its arena is released
    Ok(())
}

fn a_heap_is_the_same_at_another_address(edition: Edition) -> Result<(), Refusal> {
    let mut here = lent(1, 2);
    let mut heap = here.format(1, 2, edition)?;
    let word = heap.ask(4)?;
    heap.write(word, b"owed")?;
    let mut there = here.clone();
    let mut heap = there.open()?;
    assert_eq!(heap.edition(), edition);
    assert!(heap.view(word)?.starts_with(b"owed"));
    heap.give_back(word)
}

fn a_short_roll_is_left_as_it_was(edition: Edition) -> Result<(), Refusal> {
    let (size, step) = smallest(edition);
    let mut lent = lent(1, 2);
    let mut heap = lent.format(1, 2, edition)?;
    assert_eq!(heap.roll_call(&mut [])?.next(), None);
    heap.ask(size)?;
    heap.ask(size + 1)?;
    let mut words = [7; 5];
    assert_eq!(heap.roll_call(&mut words[..3]).unwrap_err(), Refusal::DoesNotFit);
    assert_eq!(words, [7; 5]);
    assert_eq!(heap.roll_call(&mut words)?.collect::<Vec<_>>(), [(48, size), (4144, 2 * size)]);
    assert_eq!(words, [48, step, 4144, 2 * step, 7]);
    Ok(())
}

fn a_stale_offset_speaks_the_phrase(edition: Edition) -> Result<(), Refusal> {
    let phrase = b"this amount can't be read out";
    let mut lent = lent(1, 2);
    let mut heap = lent.format(1, 2, edition)?;
    assert_eq!(heap.ask(8), Ok(48));
    heap.write(48, b"owed 100")?;
    assert!(heap.stand_in(48, phrase).starts_with(b"owed 100"));
    heap.give_back(48)?;
    for offset in [0, 47, 48, 52, 56, 64, 8192, u32::MAX] {
        assert!(std::ptr::eq(heap.stand_in(offset, phrase), phrase));
        assert_eq!(heap.stand_in(offset, b""), b"");
    }
    assert_eq!(heap.ask(8), Ok(48));
    heap.write(48, b"paid 100")?;
    assert!(heap.stand_in(48, phrase).starts_with(b"paid 100"));
    assert_eq!(heap.stand_in(48, phrase).len(), smallest(edition).0);
    Ok(())
}

fn a_stand_in_is_no_copy(edition: Edition) -> Result<(), Refusal> {
    let (_, step) = smallest(edition);
    let mut lent = lent(1, 2);
    let mut heap = lent.format(1, 2, edition)?;
    assert_eq!([heap.ask(8)?, heap.ask(8)?], [48, 48 + step]);
    heap.write(48, b"owed 100")?;
    heap.write(48 + step, b"no entry")?;
    // its own part of memory, though the phrase is empty, has the same bytes, or lies in memory, over the block too
    let own = heap.view(48)?;
    let same = own.to_vec();
    for phrase in [b"".as_slice(), &same, heap.view(48 + step)?, &own[..4], &own[4..]] {
        assert!(std::ptr::eq(heap.stand_in(48, phrase), own));
    }
    // and the phrase itself where no block is, though it lies in one
    for offset in [52, 48 + 2 * step] {
        assert!(std::ptr::eq(heap.stand_in(offset, &own[4..]), &own[4..]));
    }
    Ok(())
}

fn a_heap_of_no_shape_speaks_the_phrase(edition: Edition) -> Result<(), Refusal> {
    let mut lent = lent(1, 2);
    assert_eq!(lent.format(1, 2, edition)?.ask(8), Ok(48));
    fn stand_in<'a>(memory: &'a [u8], books: &[u32], map: &[u64]) -> &'a [u8] {
        calls::stand_in(memory, books, map, 48, b"no")
    }
    assert_eq!(stand_in(&lent.memory, &lent.books, &lent.map), &lent.memory[48..][..smallest(edition).0]);
    assert_eq!(stand_in(&lent.memory[1..], &lent.books, &lent.map), b"no");
    assert_eq!(stand_in(&lent.memory, &lent.books[..1], &lent.map), b"no");
    assert_eq!(stand_in(&lent.memory, &lent.books, &[]), b"no");
    lent.books[0] = 17;
    assert_eq!(stand_in(&lent.memory, &lent.books, &lent.map), b"no");
    Ok(())
}

fn no_offset_is_too_large_to_ask_about(edition: Edition) -> Result<(), Refusal> {
    let mut lent = lent(1, 2);
    let mut heap = lent.format(1, 2, edition)?;
    heap.ask(8)?;
    for offset in [0, 47, 52, 8192, u32::MAX] {
        assert_refused(&mut heap, offset, Refusal::NoBlock);
    }
    assert_eq!(heap.write(48, b""), Ok(()));
    Ok(())
}
