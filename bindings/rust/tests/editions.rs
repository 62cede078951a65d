//! W-211's editions through the bindings: the word of the books that says which it is, the block sizes of each, and the
//! refusal of any other, by format and by every call.

mod common;

use common::{at_either_edition, lent, smallest, Lent};
use heskavern::calls::{self, Answer};
use heskavern::{roll_words, Edition, Refusal, Request, LARGEST};
use std::collections::BTreeSet;

at_either_edition! {
    the_books_say_the_edition,
    every_size_gets_its_block,
    the_last_class_has_the_largest_blocks,
    the_rule_of_the_count_is_that_of_01,
    another_word_is_no_edition,
    the_edition_is_tested_after_a_and_p_and_before_the_lengths,
}

/// Words of the books of a heap of one arena.
const EDITION: usize = 68;
const FIRST_POOL: usize = 72 + 8;
const COUNT: usize = FIRST_POOL;
const CLASS: usize = FIRST_POOL + 4;

/// How many block sizes an edition has.
fn classes(edition: Edition) -> usize {
    match edition {
        Edition::Eight => 64,
        Edition::Sixteen => 32,
    }
}

/// Every call on these buffers is refused with this number, also where its offset or size would be refused later, the
/// stand-in is its phrase, and the audit says rule 1. Nothing is written.
#[track_caller]
fn assert_refused(lent: &mut Lent, number: u32) {
    let refused = Answer { number, value: 0 };
    let before = lent.clone();
    let Lent { memory, books, map } = lent;
    for (offset, size) in [(48, 8), (0, 0)] {
        assert_eq!(calls::ask(memory, books, map, size), refused);
        assert_eq!(calls::give_back(memory, books, map, offset), refused);
        assert_eq!(calls::resize(memory, books, map, offset, size), refused);
        assert_eq!(calls::view_size(memory, books, map, offset), refused);
        assert_eq!(calls::stand_in(memory, books, map, offset, b"no"), b"no");
        assert_eq!(calls::write(memory, books, map, offset, b"owed"), refused);
    }
    let (mut row, mut roll) = ([Request::new(8)], [7; 2]);
    assert_eq!(calls::ask_all(memory, books, map, &mut row), refused);
    assert_eq!(calls::roll_call(memory, books, map, &mut roll), refused);
    assert_eq!((row, roll), ([Request::new(8)], [7; 2]));
    assert_eq!(calls::audit(memory, books, map), 1);
    assert_eq!(lent.open().map(drop).map_err(Refusal::number), Err(number));
    assert!(*lent == before);
}

fn the_books_say_the_edition(edition: Edition) -> Result<(), Refusal> {
    let (word, other) = match edition {
        Edition::Eight => (0, Edition::Sixteen),
        Edition::Sixteen => (1, Edition::Eight),
    };
    let mut lent = lent(1, 2);
    lent.format(1, 2, other)?.ask(8)?;
    assert_eq!(lent.format(1, 2, edition)?.edition(), edition); // format goes by what it is told
    assert_eq!(lent.books[EDITION..72], [word, 0, 0, 0]); // of eight all 0, as before there were editions
    let mut heap = lent.open()?;
    assert_eq!(format!("{:?}", *heap), format!("Heap {{ arenas: 1, pools: 2, edition: {edition:?}, .. }}"));
    let offset = heap.ask(8)?;
    let offset = heap.resize(offset, 100)?;
    heap.give_back(offset)?;
    assert_eq!(heap.edition(), edition);
    Ok(())
}

fn every_size_gets_its_block(edition: Edition) -> Result<(), Refusal> {
    let (smallest, _) = smallest(edition);
    let mut lent = lent(2, 64);
    let mut heap = lent.format(2, 64, edition)?;
    for size in 1..=LARGEST {
        let offset = heap.ask(size)?;
        assert_eq!(heap.view(offset)?.len(), (size - 1) / smallest * smallest + smallest);
        assert_eq!(offset as usize % edition.alignment(), 0);
    }
    let mut words = vec![0; roll_words(2, 64)];
    let sizes: BTreeSet<usize> = heap.roll_call(&mut words)?.map(|(_, size)| size).collect();
    assert!(sizes.into_iter().eq((1..=classes(edition)).map(|n| n * edition.alignment())));
    assert!(lent.books[4 + classes(edition)..EDITION].iter().all(|&head| head == 0)); // of sixteen 36 to 67
    Ok(())
}

fn the_last_class_has_the_largest_blocks(edition: Edition) -> Result<(), Refusal> {
    let mut lent = lent(1, 2);
    assert_eq!(lent.format(1, 2, edition)?.ask(8), Ok(48));
    lent.books[CLASS] = classes(edition) as u32 - 1;
    assert_eq!(lent.open()?.view(48)?.len(), LARGEST);
    lent.books[CLASS] += 1;
    assert_eq!(lent.open()?.view(48), Err(Refusal::NoBlock));
    let mut words = [7; 2];
    for room in [2, 0] {
        assert_eq!(lent.open()?.roll_call(&mut words[..room])?.len(), 0);
    }
    assert_eq!(words, [7; 2]);
    Ok(())
}

/// 505 and 506 stand in either edition, though a pool of edition sixteen has 253 blocks at most.
fn the_rule_of_the_count_is_that_of_01(edition: Edition) -> Result<(), Refusal> {
    let (_, step) = smallest(edition);
    let mut lent = lent(1, 2);
    let mut heap = lent.format(1, 2, edition)?;
    assert_eq!([heap.ask(8)?, heap.ask(8)?, heap.ask(8)?], [48, 48 + step, 48 + 2 * step]);
    lent.books[COUNT] = 505;
    assert_eq!(lent.open()?.ask(8), Ok(48 + 3 * step));
    assert_eq!(lent.open()?.ask(8), Err(Refusal::Damaged)); // the count is 506 now
    assert_eq!(lent.open()?.give_back(48), Ok(()));
    lent.books[COUNT] = 507;
    assert_eq!(lent.open()?.give_back(48 + step), Err(Refusal::Damaged));
    Ok(())
}

fn another_word_is_no_edition(edition: Edition) -> Result<(), Refusal> {
    let mut lent = lent(1, 2);
    assert_eq!(lent.format(1, 2, edition)?.ask(8), Ok(48));
    for word in [2, 1 << 8, 1 << 16, u32::MAX] {
        lent.books[EDITION] = word;
        assert_refused(&mut lent, 1);
    }
    Ok(())
}

fn the_edition_is_tested_after_a_and_p_and_before_the_lengths(edition: Edition) -> Result<(), Refusal> {
    let mut lent = lent(1, 2);
    assert_eq!(lent.format(1, 2, edition)?.ask(8), Ok(48));
    let word = edition.word();
    // A, the word of the edition, how many words the books have, and the number
    let cases = [
        (1, word, 1, 2),
        (17, word, 2, 1),
        (1, word, 2, 2),
        (17, 2, 68, 1),
        (1, 2, 68, 2),
        (1, word, 68, 2),
        (1, 2, 69, 1),
        (1, word, 69, 2),
    ];
    for (arenas, word, words, number) in cases {
        let mut lent = lent.clone();
        (lent.books[0], lent.books[EDITION]) = (arenas, word);
        lent.books.truncate(words);
        assert_refused(&mut lent, number);
    }
    // and so where another buffer has not its length
    lent.map.pop();
    assert_refused(&mut lent, 2);
    lent.books[EDITION] = 2;
    assert_refused(&mut lent, 1);
    Ok(())
}

#[test]
fn format_refuses_another_edition() {
    let mut lent = lent(1, 2);
    let before = lent.clone();
    let format = |lent: &mut Lent, map_words: usize, pools: usize, edition: usize| {
        calls::format(&lent.memory, &mut lent.books, &mut lent.map[..map_words], 1, pools, edition)
    };
    let refused = |number: u32| Answer { number, value: 0 };
    for edition in [2, 1 << 32, (1 << 32) + 1, usize::MAX] {
        assert_eq!(format(&mut lent, 16, 2, edition), refused(1));
        assert_eq!(format(&mut lent, 15, 2, edition), refused(1)); // before the lengths
    }
    for edition in [0, 1] {
        assert_eq!(format(&mut lent, 16, 1, edition), refused(1));
        assert_eq!(format(&mut lent, 15, 2, edition), refused(2));
    }
    assert!(lent == before);
}
