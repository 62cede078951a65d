//! W-201's audit through the bindings, with W-203's order as its last rule, at either edition: yes of sound heaps, and
//! for each rule heaps that break it.

mod common;

use common::{at_either_edition, below, lent, smallest, Kept, Lent};
use heskavern::{calls, Edition, Refusal, Verdict, LARGEST};

at_either_edition! {
    a_heap_stays_sound_over_many_calls,
    a_word_that_is_not_right_has_its_rule,
    a_bit_that_is_not_right_has_its_rule,
    a_link_that_is_not_right_has_its_rule,
    the_order_of_the_usable_list_is_the_last_rule,
    the_lowest_rule_is_named,
    a_refusal_with_6_is_explained,
    a_heap_of_no_shape_breaks_rule_1,
}

/// The words of a record by their places there; an arena's, and a pool's.
const OPEN: usize = 0;
const MARK: usize = 1;
const FREE_POOLS: usize = 2;
const FREED_HEAD: usize = 3;
const NEXT: usize = 4;
const PREVIOUS: usize = 5;
const COUNT: usize = 0;
const FREEBLOCK: usize = 1;
const POOL_NEXT: usize = 2;
const POOL_PREVIOUS: usize = 3;
const CLASS: usize = 4;
const NEXTOFFSET: usize = 5;
const MAXNEXTOFFSET: usize = 6;

/// Where a word of a record stands, on a heap of two arenas.
fn arena(number: usize, word: usize) -> usize {
    72 + 8 * number + word
}

fn pool(number: usize, word: usize) -> usize {
    72 + 8 * 2 + 8 * number + word
}

/// What the audit says of the buffers; it leaves them as they are.
fn audit(lent: &Lent) -> Verdict {
    let before = lent.clone();
    let verdict = Verdict::from(calls::audit(&lent.memory, &lent.books, &lent.map));
    assert!(*lent == before);
    verdict
}

/// What it says where a word of the books is another one.
fn with(lent: &Lent, word: usize, value: u32) -> Verdict {
    let mut other = lent.clone();
    assert_ne!(other.books[word], value);
    other.books[word] = value;
    audit(&other)
}

/// Two arenas of two pools: of the smallest three sizes pool 0 was freed, and pools 1 and 2 have a live block each.
fn three_sizes(edition: Edition) -> Result<Lent, Refusal> {
    let (size, _) = smallest(edition);
    let mut lent = lent(2, 2);
    let mut heap = lent.format(2, 2, edition)?;
    assert_eq!([heap.ask(size)?, heap.ask(2 * size)?, heap.ask(3 * size)?], [48, 4144, 8240]);
    heap.give_back(48)?;
    assert_eq!(heap.audit(), Verdict::Yes);
    Ok(lent)
}

/// Each call is looked at by [`Kept`].
fn a_heap_stays_sound_over_many_calls(edition: Edition) -> Result<(), Refusal> {
    let (mut lent, mut state, mut held, mut full) = (lent(3, 3), 1, Vec::new(), 0);
    let mut heap: Kept = lent.format(3, 3, edition)?;
    for call in 0..6000 {
        let size = 1 + below(&mut state, LARGEST as u64) as usize;
        let grows = call / 1000 % 2 == 0;
        if held.is_empty() || below(&mut state, 3) < if grows { 2 } else { 1 } {
            match heap.ask(size) {
                Ok(offset) => held.push(offset),
                Err(refusal) => {
                    assert_eq!(refusal, Refusal::NoRoom);
                    full += 1;
                }
            }
        } else {
            let place = below(&mut state, held.len() as u64) as usize;
            if call % 4 == 0 {
                held[place] = heap.resize(held[place], size).unwrap_or(held[place]);
            } else {
                heap.give_back(held.swap_remove(place))?;
            }
        }
    }
    assert!(full > 0);
    for offset in held {
        heap.view_mut(offset)?.fill(0xFF);
        assert_eq!(heap.audit(), Verdict::Yes);
        heap.give_back(offset)?;
    }
    Ok(())
}

fn a_word_that_is_not_right_has_its_rule(edition: Edition) -> Result<(), Refusal> {
    let (_, step) = smallest(edition);
    let lent = three_sizes(edition)?;
    let cases = [
        (0, 17, Verdict::Shape),
        (1, 1, Verdict::Shape),
        (68, 2, Verdict::Shape),
        (69, 1, Verdict::Zeros),
        (arena(1, OPEN), 2, Verdict::Zeros),
        (arena(0, 6), 1, Verdict::Zeros),
        (pool(3, 7), 1, Verdict::Zeros),
        (arena(0, MARK), 0, Verdict::Open),
        (arena(0, MARK), 3, Verdict::Open),
        (arena(1, FREE_POOLS), 0, Verdict::Open),
        (2, 0, Verdict::Lists),
        (3, 1, Verdict::Lists),
        (4, 1, Verdict::Lists),
        (67, 1, Verdict::Lists),
        (arena(0, FREED_HEAD), 0, Verdict::Lists),
        (arena(0, NEXT), 0, Verdict::Lists),
        (arena(1, PREVIOUS), 0, Verdict::Lists),
        (pool(0, POOL_NEXT), 1, Verdict::Lists),
        (pool(1, POOL_PREVIOUS), 1, Verdict::Lists),
        (pool(1, COUNT), 2, Verdict::Counts),
        (pool(3, COUNT), 1, Verdict::Counts),
        (pool(0, CLASS), 64, Verdict::Blocks),
        (pool(0, FREEBLOCK), 0, Verdict::Blocks),
        (pool(1, FREEBLOCK), 48, Verdict::Blocks),
        (pool(1, NEXTOFFSET), 48 + 2 * step, Verdict::Blocks),
        (pool(2, MAXNEXTOFFSET), 4096, Verdict::Blocks),
    ];
    for (word, value, verdict) in cases {
        assert_eq!(with(&lent, word, value), verdict, "word {word} is {value}");
    }
    assert_eq!(with(&lent, arena(1, OPEN), 0), Verdict::Closed); // its mark and its free pools are not 0
    Ok(())
}

fn a_bit_that_is_not_right_has_its_rule(edition: Edition) -> Result<(), Refusal> {
    let lent = three_sizes(edition)?;
    // word and bit of the map; pool 1 has blocks of the second size, half as many as of the smallest
    let last = (4048 / (2 * edition.alignment()) - 1) as u32;
    let cases = [
        (8 * 3, 0, Verdict::Bits), // pool 3 is not carved
        (8 + 7, 63, Verdict::Bits),
        (8 + (last as usize + 1) / 64, (last + 1) % 64, Verdict::Bits),
        (8 + last as usize / 64, last % 64, Verdict::Counts),
        (0, 0, Verdict::Open), // pool 0 is then in use
    ];
    for (word, bit, verdict) in cases {
        let mut other = lent.clone();
        other.map[word] ^= 1 << bit;
        assert_eq!(audit(&other), verdict, "bit {bit} of word {word}");
    }
    Ok(())
}

/// Pool 0's freed chain has the blocks at 48 and after it.
fn a_link_that_is_not_right_has_its_rule(edition: Edition) -> Result<(), Refusal> {
    let (_, step) = smallest(edition);
    let lent = three_sizes(edition)?;
    assert_eq!(lent.memory[48..52], (48 + step).to_le_bytes());
    for link in [0, 48, 48 + step / 2, 48 + 2 * step, 4096, u32::MAX] {
        let mut other = lent.clone();
        other.memory[48..52].copy_from_slice(&link.to_le_bytes());
        assert_eq!(audit(&other), Verdict::Blocks, "the link is {link}");
    }
    Ok(())
}

/// Arena 0 has one free pool of three and arena 1 two: the second may not stand first.
fn the_order_of_the_usable_list_is_the_last_rule(edition: Edition) -> Result<(), Refusal> {
    let (size, _) = smallest(edition);
    let mut lent = lent(2, 3);
    let mut heap = lent.format(2, 3, edition)?;
    let all: Vec<u32> = (1..=6).map(|n| heap.ask(n * size)).collect::<Result<_, _>>()?;
    for place in [0, 3, 4] {
        heap.give_back(all[place])?;
    }
    lent.books[2] = 2;
    (lent.books[arena(1, NEXT)], lent.books[arena(1, PREVIOUS)]) = (1, 0);
    (lent.books[arena(0, NEXT)], lent.books[arena(0, PREVIOUS)]) = (0, 2);
    assert_eq!(audit(&lent), Verdict::Order);
    Ok(())
}

/// Each damage breaks a lower rule than those before it.
fn the_lowest_rule_is_named(edition: Edition) -> Result<(), Refusal> {
    let mut lent = three_sizes(edition)?;
    let damages = [
        (pool(1, NEXTOFFSET), 0, Verdict::Blocks),
        (pool(2, COUNT), 0, Verdict::Counts),
        (4, 9, Verdict::Lists),
        (pool(1, CLASS), 65535, Verdict::Bits),
        (arena(0, FREE_POOLS), 0, Verdict::Open),
        (arena(1, OPEN), 0, Verdict::Closed),
        (71, 1, Verdict::Zeros),
        (0, 0, Verdict::Shape),
    ];
    for (word, value, verdict) in damages {
        lent.books[word] = value;
        assert_eq!(audit(&lent), verdict);
    }
    Ok(())
}

fn a_refusal_with_6_is_explained(edition: Edition) -> Result<(), Refusal> {
    let mut lent = three_sizes(edition)?;
    lent.books[pool(1, COUNT)] = 0;
    let mut heap = lent.open()?;
    assert_eq!(heap.give_back(4144), Err(Refusal::Damaged));
    assert_eq!(heap.audit(), Verdict::Counts);
    assert_eq!(heap.audit().number(), 7);
    Ok(())
}

fn a_heap_of_no_shape_breaks_rule_1(edition: Edition) -> Result<(), Refusal> {
    let lent = three_sizes(edition)?;
    assert_eq!(calls::audit(&lent.memory, &lent.books, &lent.map), 0);
    assert_eq!(calls::audit(&lent.memory[1..], &lent.books, &lent.map), 1);
    assert_eq!(calls::audit(&lent.memory, &lent.books[..1], &lent.map), 1);
    assert_eq!(calls::audit(&lent.memory, &lent.books[..68], &lent.map), 1);
    assert_eq!(calls::audit(&lent.memory, &lent.books, &[]), 1);
    Ok(())
}
