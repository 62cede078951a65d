//! Heaps that own their buffers, and the handles of their blocks, at either edition.
#![cfg(feature = "alloc")]

mod common;

use common::{at_either_edition, below, lent, smallest, Lent};
use heskavern::{
    calls, list_words, roll_words, Block, Edition, Kind, NotGivenBack, OwnedHeap, Reader, Refusal, Verdict,
};
use heskavern::{CHANGES, MOST_REQUESTS};
use std::collections::BTreeSet;

at_either_edition! {
    a_heap_lives_in_a_struct_and_goes_to_another_thread,
    a_new_heap_is_of_its_shape,
    another_heaps_block_is_refused_before_a_call,
    a_refused_give_back_hands_the_block_back,
    the_handle_goes_where_the_text_goes,
    a_half_done_resize_leaves_the_handle_where_the_text_is,
    a_row_is_answered_in_its_order,
    only_a_live_block_is_claimed,
    a_copy_is_compared,
    a_heap_is_saved_and_loaded,
    open_refuses_what_is_no_heap,
    an_owned_heap_does_what_a_lent_one_does,
    live_is_the_roll_count_on_any_heap,
    books_of_no_shape_refuse_all,
}

/// The three buffers as they are now.
fn saved(heap: &OwnedHeap) -> Lent {
    let (memory, books, map) = heap.reader().buffers();
    Lent { memory: memory.to_vec(), books: books.to_vec(), map: map.to_vec() }
}

fn load(Lent { memory, books, map }: Lent) -> Result<OwnedHeap, Refusal> {
    OwnedHeap::open(memory, books, map)
}

fn a_heap_lives_in_a_struct_and_goes_to_another_thread(edition: Edition) -> Result<(), Refusal> {
    struct Statement {
        texts: OwnedHeap,
        payee: Block,
        owed: Option<Block>,
    }
    fn goes<T: Send + Sync + 'static>(it: T) -> T {
        it
    }
    let mut texts = OwnedHeap::new(1, 2, edition)?;
    let (payee, owed) = (texts.ask(7)?, texts.ask(4)?);
    let mut statement = goes(Statement { texts, payee, owed: Some(owed) });
    let there = std::thread::spawn(move || -> Result<Statement, Refusal> {
        statement.texts.write(&statement.payee, b"A. Moss")?;
        statement.texts.give_back(statement.owed.take().expect("it is out"))?;
        Ok(statement)
    });
    statement = there.join().expect("the thread ends")?;
    assert!(statement.texts.view(&statement.payee)?.starts_with(b"A. Moss"));
    assert_eq!((statement.texts.live(), statement.texts.audit()), (1, Verdict::Yes));
    Ok(())
}

fn a_new_heap_is_of_its_shape(edition: Edition) -> Result<(), Refusal> {
    for (arenas, pools) in [(1, 2), (16, 2), (1, 64), (16, 64)] {
        let heap = OwnedHeap::new(arenas, pools, edition)?;
        assert_eq!((heap.arenas(), heap.pools(), heap.edition()), (arenas, pools, edition));
        assert_eq!((heap.live(), heap.audit()), (0, Verdict::Yes));
        let mut lent = lent(arenas, pools);
        lent.memory.fill(0);
        lent.format(arenas, pools, edition)?;
        assert!(saved(&heap) == lent);
    }
    let huge = usize::MAX / 2 + 1;
    for (arenas, pools) in [(0, 2), (17, 2), (1, 1), (1, 65), (1, 0), (huge, 2), (2, huge), (huge, huge)] {
        assert_eq!(OwnedHeap::new(arenas, pools, edition).unwrap_err(), Refusal::OutOfRange);
    }
    let shown = format!("{:?}", OwnedHeap::new(2, 3, edition)?);
    assert_eq!(shown, format!("OwnedHeap {{ arenas: 2, pools: 3, edition: {edition:?}, .. }}"));
    Ok(())
}

/// A new heap, a clone and a loaded one, each with a block of its own at that offset, so that a call would be done.
fn another_heaps_block_is_refused_before_a_call(edition: Edition) -> Result<(), Refusal> {
    let mut first = OwnedHeap::new(1, 4, edition)?;
    let mut word = first.ask(8)?;
    let mut new = OwnedHeap::new(1, 4, edition)?;
    let own = new.ask(8)?;
    assert!(own.offset() == word.offset() && own != word);
    for mut other in [new, first.clone(), load(saved(&first))?] {
        let (before, phrase) = (saved(&other), b"this amount can't be read out");
        assert!(other.reader().view(word.offset()).is_ok());
        assert_eq!(other.view(&word), Err(Refusal::OtherHeap));
        assert_eq!(other.view_mut(&word), Err(Refusal::OtherHeap));
        assert_eq!(other.write(&word, b"owed"), Err(Refusal::OtherHeap));
        for size in [0, 8, 100] {
            assert_eq!(other.resize(&mut word, size), Err(Refusal::OtherHeap));
        }
        assert!(std::ptr::eq(other.stand_in(&word, phrase), phrase));
        let NotGivenBack { refusal, block } = other.give_back(word).unwrap_err();
        assert_eq!((refusal, refusal.number(), block.offset()), (Refusal::OtherHeap, 5, 48));
        word = block;
        assert!(saved(&other) == before);
    }
    first.give_back(word)?;
    Ok(())
}

fn a_refused_give_back_hands_the_block_back(edition: Edition) -> Result<(), Refusal> {
    let mut heap = OwnedHeap::new(1, 2, edition)?;
    let (word, _other) = (heap.ask(8)?, heap.ask(8)?);
    heap.lend().give_back(word.offset())?;
    let refused = heap.give_back(word).unwrap_err();
    assert_eq!(refused.refusal, Refusal::DeadBlock);
    assert_eq!(refused.to_string(), format!("the block at 48 is not given back: {}", Refusal::DeadBlock));
    assert_eq!(heap.ask(8)?.offset(), 48); // out again: the stale handle is then a second one
    assert_eq!(heap.give_back(refused.block), Ok(()));

    let mut lent = saved(&OwnedHeap::new(1, 2, edition)?);
    lent.open()?.ask(8)?;
    lent.books[72 + 8] = 0; // the first pool's count, so that no block can be given back there
    let mut heap = load(lent)?;
    let word = heap.claim(48)?;
    let NotGivenBack { refusal, block } = heap.give_back(word).unwrap_err();
    assert_eq!(refusal, Refusal::Damaged);
    assert!(heap.view(&block).is_ok());
    Ok(())
}

fn the_handle_goes_where_the_text_goes(edition: Edition) -> Result<(), Refusal> {
    let (size, _) = smallest(edition);
    let mut heap = OwnedHeap::new(1, 2, edition)?;
    let mut word = heap.ask(size)?;
    heap.write(&word, b"owed")?;
    heap.resize(&mut word, size)?;
    assert_eq!(word.offset(), 48); // it is kept
    heap.resize(&mut word, size + 1)?;
    assert_eq!(word.offset(), 4144);
    assert!(heap.stand_in(&word, b"no").starts_with(b"owed"));
    assert_eq!(heap.resize(&mut word, 0), Err(Refusal::BadSize));
    let _third = heap.ask(size)?;
    assert_eq!(heap.resize(&mut word, 512), Err(Refusal::NoRoom));
    assert_eq!((word.offset(), heap.live()), (4144, 2));
    heap.view_mut(&word)?[..4].copy_from_slice(b"paid");
    assert!(heap.view(&word)?.starts_with(b"paid"));
    assert_eq!(heap.write(&word, &[0; 513]), Err(Refusal::DoesNotFit));
    heap.give_back(word)?;
    Ok(())
}

fn a_half_done_resize_leaves_the_handle_where_the_text_is(edition: Edition) -> Result<(), Refusal> {
    let mut heap = OwnedHeap::new(1, 2, edition)?;
    let word = heap.ask(8)?;
    heap.write(&word, b"owed")?;
    let mut lent = saved(&heap);
    lent.books[72 + 8] = 0; // the first pool's count
    let mut heap = load(lent)?;
    let mut word = heap.claim(word.offset())?;
    assert_eq!(heap.resize(&mut word, 100), Err(Refusal::HalfDone(4144)));
    assert_eq!(word.offset(), 4144);
    assert!(heap.view(&word)?.starts_with(b"owed"));
    assert!(heap.claim(48).is_ok()); // the old block is live still
    heap.give_back(word)?;
    Ok(())
}

fn a_row_is_answered_in_its_order(edition: Edition) -> Result<(), Refusal> {
    let (_, step) = smallest(edition);
    let mut heap = OwnedHeap::new(1, 2, edition)?;
    let row = heap.ask_all(&[8, 0, 8, 512, 513, 100])?;
    let offsets: Vec<_> = row.iter().map(|answer| answer.as_ref().map(Block::offset).map_err(|&r| r)).collect();
    let (bad, full) = (Err(Refusal::BadSize), Err(Refusal::NoRoom));
    assert_eq!(offsets, [Ok(48), bad, Ok(48 + step), Ok(4144), bad, full]);
    for block in row.into_iter().flatten() {
        heap.give_back(block)?;
    }
    assert_eq!(heap.ask_all(&[]), Ok(vec![]));
    let before = saved(&heap);
    assert_eq!(heap.ask_all(&[8; MOST_REQUESTS + 1]), Err(Refusal::DoesNotFit));
    assert!(saved(&heap) == before);
    assert_eq!(heap.ask_all(&[8; MOST_REQUESTS])?.len(), MOST_REQUESTS);
    Ok(())
}

fn only_a_live_block_is_claimed(edition: Edition) -> Result<(), Refusal> {
    let (_, step) = smallest(edition);
    let mut heap = OwnedHeap::new(1, 2, edition)?;
    drop(heap.ask(8)?); // that gives nothing back
    for (offset, refusal) in [(0, Refusal::NoBlock), (52, Refusal::NoBlock), (48 + step, Refusal::DeadBlock)] {
        assert_eq!(heap.claim(offset), Err(refusal));
    }
    let word = heap.claim(48)?;
    assert_eq!((word.offset(), heap.live()), (48, 1));
    assert_eq!(Some(&word), heap.claim(48).as_ref().ok());
    heap.give_back(word)?;
    assert_eq!(heap.claim(48), Err(Refusal::NoBlock)); // its arena is released
    Ok(())
}

fn a_copy_is_compared(edition: Edition) -> Result<(), Refusal> {
    let mut today = OwnedHeap::new(1, 4, edition)?;
    let (owed, paid) = (today.ask(8)?, today.ask(8)?);
    let (owed_at, yesterday) = (owed.offset(), today.clone());
    assert!(saved(&yesterday) == saved(&today));
    today.give_back(owed)?;
    today.write(&paid, b"owed")?;
    let new = today.ask(100)?;
    let (mut list, mut changes) = ([0; list_words(1, 4)], [0; CHANGES]);
    let compared = yesterday.reader().compare(today.reader(), &mut list, &mut changes)?;
    let found = [(owed_at, Kind::FirstAlone), (paid.offset(), Kind::OtherBytes), (new.offset(), Kind::SecondAlone)];
    assert!(compared.differences().map(|difference| (difference.offset, difference.kind)).eq(found));
    assert_eq!(compared.changes().iter().sum::<i32>(), today.live() as i32 - yesterday.live() as i32);
    Ok(())
}

fn a_heap_is_saved_and_loaded(edition: Edition) -> Result<(), Refusal> {
    let mut heap = OwnedHeap::new(2, 3, edition)?;
    let word = heap.ask(8)?;
    heap.write(&word, b"owed")?;
    let before = saved(&heap);
    let (memory, books, map) = heap.into_buffers();
    let heap = OwnedHeap::open(memory.to_vec(), &books[..], map.clone())?; // a Vec, a slice and a box
    assert!(saved(&heap) == before);
    assert_eq!(heap.view(&word), Err(Refusal::OtherHeap));
    assert!(heap.view(&heap.claim(word.offset())?)?.starts_with(b"owed"));
    let (there, address) = (memory.clone(), memory.as_ptr());
    let (memory, _, _) = OwnedHeap::open(memory, books, map)?.into_buffers();
    assert_eq!((memory.as_ptr(), &memory), (address, &there)); // a box is not copied
    Ok(())
}

fn open_refuses_what_is_no_heap(edition: Edition) -> Result<(), Refusal> {
    let good = saved(&OwnedHeap::new(1, 2, edition)?);
    assert_eq!(load(lent(1, 2)).unwrap_err(), Refusal::OutOfRange); // not formatted
    let with = |damage: fn(&mut Lent)| {
        let mut lent = good.clone();
        damage(&mut lent);
        lent
    };
    let cases = [
        (with(|lent| lent.books[0] = 0), Refusal::OutOfRange),
        (with(|lent| lent.books[68] = 2), Refusal::OutOfRange),
        (with(|lent| lent.books.clear()), Refusal::NotExact),
        (with(|lent| lent.books.truncate(68)), Refusal::NotExact),
        (with(|lent| lent.memory.truncate(4096)), Refusal::NotExact),
        (with(|lent| lent.map.push(0)), Refusal::NotExact),
    ];
    for (lent, refusal) in cases {
        assert_eq!(load(lent).unwrap_err(), refusal);
    }
    Ok(())
}

/// The same calls on a lent heap, by offset: the same answers, and the same bytes and words after each.
fn an_owned_heap_does_what_a_lent_one_does(edition: Edition) -> Result<(), Refusal> {
    let (mut heap, mut state, mut held, mut full) = (OwnedHeap::new(2, 3, edition)?, 1, Vec::new(), 0);
    let mut lent = saved(&heap);
    for call in 0..1500 {
        let size = below(&mut state, 520) as usize;
        let place = below(&mut state, held.len().max(1) as u64) as usize;
        match below(&mut state, 4) {
            0 if !held.is_empty() => {
                let block: Block = held.swap_remove(place);
                assert_eq!(lent.open()?.give_back(block.offset()), Ok(()));
                assert_eq!(heap.give_back(block), Ok(()));
            }
            1 if !held.is_empty() => {
                let answer = lent.open()?.resize(held[place].offset(), size);
                assert_eq!(heap.resize(&mut held[place], size).map(|()| held[place].offset()), answer);
                let text = [call as u8; 5];
                assert_eq!(heap.write(&held[place], &text), lent.open()?.write(held[place].offset(), &text));
            }
            _ => {
                let (answer, block) = (lent.open()?.ask(size), heap.ask(size));
                assert_eq!(block.as_ref().map(Block::offset), answer.as_ref().copied());
                full += usize::from(answer == Err(Refusal::NoRoom));
                held.extend(block);
            }
        }
        assert!(saved(&heap) == lent);
        assert_eq!(heap.live(), held.len());
    }
    assert!(full > 100, "{full}");
    Ok(())
}

/// Any class, any bits of the map: the roll and its count are those of a roll call with words for every block.
fn live_is_the_roll_count_on_any_heap(edition: Edition) -> Result<(), Refusal> {
    let (mut lent, mut state, mut counts) = (lent(1, 2), 1, BTreeSet::new());
    lent.format(1, 2, edition)?.ask(8)?;
    for _ in 0..300 {
        for word in &mut lent.map {
            let place = below(&mut state, 3) as usize;
            *word = [0, u64::MAX, state][place];
        }
        for pool in 0..2 {
            let class = &mut lent.books[72 + 8 + 8 * pool + 4];
            *class = [0, 1, 20, 31, 63, 64, 65535][below(&mut state, 7) as usize];
        }
        let reader = Reader::open(&lent.memory, &lent.books, &lent.map)?;
        let mut words = [0; roll_words(1, 2)];
        let count = calls::roll_call(&lent.memory, &lent.books, &lent.map, &mut words).done()? as usize;
        let pairs = words.chunks_exact(2).take(count).map(|pair| (pair[0], pair[1] as usize));
        assert!(reader.roll().into_iter().eq(pairs));
        assert_eq!((reader.live(), lent.open()?.live()), (count, count));
        counts.insert(count);
    }
    assert!(counts.contains(&0) && counts.len() > 50, "{counts:?}");
    Ok(())
}

/// Whoever takes the books out of a lent heap may write to them.
fn books_of_no_shape_refuse_all(edition: Edition) -> Result<(), Refusal> {
    let mut heap = OwnedHeap::new(1, 2, edition)?;
    let mut word = heap.ask(8)?;
    heap.lend().into_buffers().1[0] = 17;
    let refused = Err(Refusal::OutOfRange);
    assert_eq!(heap.ask(8).map(drop), refused);
    assert_eq!(heap.ask_all(&[8]).map(drop), refused);
    assert_eq!(heap.claim(48).map(drop), refused);
    assert_eq!(heap.resize(&mut word, 100), refused);
    assert_eq!(heap.write(&word, b"owed"), refused);
    assert_eq!(heap.view(&word).map(drop), refused);
    assert_eq!(heap.view_mut(&word).map(drop), refused);
    assert_eq!(heap.give_back(word).map_err(Refusal::from), refused);
    assert_eq!((heap.live(), heap.reader().roll(), heap.audit()), (0, vec![], Verdict::Shape));
    Ok(())
}

#[cfg(feature = "std")]
#[test]
fn a_refused_give_back_is_an_error() -> Result<(), Box<dyn std::error::Error>> {
    let (mut heap, mut other) = (OwnedHeap::new(1, 2, Edition::Eight)?, OwnedHeap::new(1, 2, Edition::Eight)?);
    let block = heap.ask(8)?;
    let error: Box<dyn std::error::Error> = other.give_back(block).unwrap_err().into();
    assert_eq!(error.to_string(), "the block at 48 is not given back: a block of another heap");
    Ok(())
}
