//! Heaps that are only read, through [`Reader`], at either edition: what each method answers is what the call over the
//! same slices does; and what goes with it: a lent heap's buffers, numbers and answers as refusals, their words, and
//! the version.

mod common;

use common::{at_either_edition, below, lent, smallest, Lent};
use heskavern::calls::{self, Answer};
use heskavern::{
    books_words, map_words, memory_bytes, roll_words, Edition, Heap, Kind, Reader, Refusal, Verdict, CHANGES,
};

at_either_edition! {
    a_reader_says_the_shape,
    a_reader_reads_what_the_calls_read,
    a_reader_opens_what_the_calls_take,
    readers_stand_side_by_side_in_threads,
    what_a_reader_hands_out_outlives_it,
    two_readers_are_compared,
    the_buffers_come_out_of_a_heap,
}

fn open(lent: &Lent) -> Result<Reader<'_>, Refusal> {
    Reader::open(&lent.memory, &lent.books, &lent.map)
}

fn a_reader_says_the_shape(edition: Edition) -> Result<(), Refusal> {
    for (arenas, pools) in [(1, 2), (2, 3), (16, 2), (1, 64), (16, 64)] {
        let mut lent = lent(arenas, pools);
        let heap = lent.format(arenas, pools, edition)?;
        assert_eq!((heap.arenas(), heap.pools(), heap.edition()), (arenas, pools, edition));
        let reader = open(&lent)?;
        assert_eq!((reader.arenas(), reader.pools(), reader.edition()), (arenas, pools, edition));
        let shape = format!("arenas: {arenas}, pools: {pools}, edition: {edition:?}, ..");
        assert_eq!(format!("{reader:?}"), format!("Reader {{ {shape} }}"));
    }
    Ok(())
}

/// Every offset of a heap of some blocks, sound and then damaged.
fn a_reader_reads_what_the_calls_read(edition: Edition) -> Result<(), Refusal> {
    let (mut lent, mut state) = (lent(2, 2), 1);
    let mut heap = lent.format(2, 2, edition)?;
    for size in [1, 9, 40, 8, 200] {
        let offset = heap.ask(size)?;
        heap.view_mut(offset)?.fill(size as u8);
    }
    heap.give_back(48)?;
    for _ in 0..40 {
        let (Lent { memory, books, map }, reader) = (&lent, open(&lent)?);
        assert_eq!(reader.buffers(), (&memory[..], &books[..], &map[..]));
        for offset in 0..=memory.len() as u32 {
            let size = calls::view_size(memory, books, map, offset as usize).done();
            let part = size.map(|size| &memory[offset as usize..][..size as usize]);
            assert_eq!(reader.view(offset), part);
            assert_eq!(reader.stand_in(offset, b"no"), part.unwrap_or(b"no"));
        }
        let (mut roll, mut words) = ([7; roll_words(2, 2)], [7; roll_words(2, 2)]);
        let live = calls::roll_call(memory, books, map, &mut roll).value as usize;
        assert_eq!(reader.roll_call(&mut words)?.len(), live);
        assert_eq!(words, roll);
        assert_eq!(reader.audit().number(), calls::audit(memory, books, map));
        let (word, bit) = (below(&mut state, lent.map.len() as u64) as usize, below(&mut state, 64));
        lent.map[word] ^= 1 << bit;
        lent.books[72 + 16 + 4] = below(&mut state, 70) as u32; // the first pool's class
    }
    Ok(())
}

fn a_reader_opens_what_the_calls_take(edition: Edition) -> Result<(), Refusal> {
    let mut good = lent(1, 2);
    assert_eq!(open(&good).unwrap_err(), Refusal::OutOfRange); // not formatted
    good.format(1, 2, edition)?.ask(8)?;
    let with = |damage: fn(&mut Lent)| {
        let mut lent = good.clone();
        damage(&mut lent);
        lent
    };
    let cases = [
        (with(|_| {}), Ok(())),
        (with(|lent| lent.books[72 + 8] = 9), Ok(())), // a count: that is not its to test
        (with(|lent| lent.books[0] = 17), Err(Refusal::OutOfRange)),
        (with(|lent| lent.books[1] = 1), Err(Refusal::OutOfRange)),
        (with(|lent| lent.books[68] = 2), Err(Refusal::OutOfRange)),
        (with(|lent| lent.books.truncate(1)), Err(Refusal::NotExact)),
        (with(|lent| lent.books.truncate(68)), Err(Refusal::NotExact)),
        (with(|lent| lent.memory.push(0)), Err(Refusal::NotExact)),
        (with(|lent| lent.map.clear()), Err(Refusal::NotExact)),
    ];
    for (mut lent, opens) in cases {
        assert_eq!(open(&lent).map(drop), opens);
        assert_eq!(lent.open().map(drop), opens);
    }
    Ok(())
}

fn readers_stand_side_by_side_in_threads(edition: Edition) -> Result<(), Refusal> {
    let mut lent = lent(1, 2);
    let mut heap = lent.format(1, 2, edition)?;
    let word = heap.ask(4)?;
    heap.write(word, b"owed")?;
    let reader = heap.reader();
    let views: Vec<&[u8]> = std::thread::scope(|threads| {
        let there = [0; 3].map(|_| threads.spawn(move || reader.view(word)));
        there.into_iter().map(|thread| thread.join().expect("the thread ends")).collect::<Result<_, _>>()
    })?;
    assert!(views.iter().all(|view| std::ptr::eq(*view, heap.view(word).unwrap())));
    Ok(())
}

/// Its part lives as long as the slices; those of a program's own data, or of a file that is mapped, for ever.
fn what_a_reader_hands_out_outlives_it(edition: Edition) -> Result<(), Refusal> {
    let mut lent = lent(1, 2);
    let mut heap = lent.format(1, 2, edition)?;
    let word = heap.ask(4)?;
    heap.write(word, b"owed")?;
    let (memory, books, map): (&'static [u8], &'static [u32], &'static [u64]) =
        (lent.memory.leak(), lent.books.leak(), lent.map.leak());
    let part: &'static [u8] = Reader::open(memory, books, map)?.view(word)?;
    assert!(std::ptr::eq(part, &memory[word as usize..][..smallest(edition).0]));
    assert!(part.starts_with(b"owed"));
    Ok(())
}

fn two_readers_are_compared(edition: Edition) -> Result<(), Refusal> {
    let (_, step) = smallest(edition);
    let mut first = lent(1, 2);
    first.format(1, 2, edition)?.ask(8)?;
    let mut second = first.clone();
    second.open()?.ask(8)?;
    let (yesterday, today) = (open(&first)?, open(&second)?);
    let (mut list, mut changes) = ([7; 4], [7; CHANGES]);
    let compared = yesterday.compare(today, &mut list, &mut changes)?;
    assert_eq!((compared.differences().len(), compared.changes()[0]), (1, 1));
    assert_eq!(list, [48 + step, 2, 7, 7]);
    assert_eq!(today.compare(today, &mut list, &mut changes)?.differences().len(), 0);
    assert_eq!(yesterday.compare(today, &mut [], &mut changes).unwrap_err(), Refusal::DoesNotFit);
    let mut larger = lent(1, 3);
    larger.format(1, 3, edition)?;
    assert_eq!(today.compare(open(&larger)?, &mut list, &mut changes).unwrap_err(), Refusal::UnequalShape);
    Ok(())
}

fn the_buffers_come_out_of_a_heap(edition: Edition) -> Result<(), Refusal> {
    let mut lent = lent(1, 2);
    let before: (*const u8, *const u32, *const u64) = (lent.memory.as_ptr(), lent.books.as_ptr(), lent.map.as_ptr());
    let mut heap = Heap::format(&mut lent.memory, &mut lent.books, &mut lent.map, 1, 2, edition)?;
    let word = heap.ask(8)?;
    let (memory, books, map) = heap.into_buffers();
    assert_eq!((memory.as_ptr(), books.as_ptr(), map.as_ptr()), before);
    assert_eq!((memory.len(), books.len(), map.len()), (memory_bytes(1, 2), books_words(1, 2), map_words(1, 2)));
    Heap::open(memory, books, map)?.give_back(word)
}

/// A fresh heap as a program's own data, which no call may write.
#[test]
fn a_reader_reads_static_data() -> Result<(), Refusal> {
    const fn fresh() -> [u32; books_words(1, 2)] {
        let mut books = [0; books_words(1, 2)];
        (books[0], books[1], books[3]) = (1, 2, 1); // A, P, and the unused list
        books
    }
    static MEMORY: [u8; memory_bytes(1, 2)] = [0; memory_bytes(1, 2)];
    static BOOKS: [u32; books_words(1, 2)] = fresh();
    static MAP: [u64; map_words(1, 2)] = [0; map_words(1, 2)];
    let reader: Reader<'static> = Reader::open(&MEMORY, &BOOKS, &MAP)?;
    assert_eq!(reader.audit(), Verdict::Yes);
    assert_eq!(reader.edition(), Edition::Eight);
    assert_eq!(reader.roll_call(&mut [])?.len(), 0);
    assert_eq!(reader.view(48), Err(Refusal::NoBlock));
    Ok(())
}

#[test]
fn a_number_is_a_refusal() {
    assert_eq!(Refusal::from_number(0), None);
    for number in 1..=100 {
        let refusal = Refusal::from_number(number).expect("any but 0");
        assert_eq!(refusal.number(), number);
        assert_eq!(matches!(refusal, Refusal::Unknown(_)), ![1, 2, 3, 4, 5, 6, 7, 10, 12].contains(&number));
        for value in [0, 48] {
            let expected = if (number, value) == (6, 48) { Refusal::HalfDone(48) } else { refusal };
            assert_eq!(Answer { number, value }.done(), Err(expected));
        }
    }
    assert_eq!(Refusal::from_number(5), Some(Refusal::NoBlock));
    assert_eq!(Refusal::from_number(6), Some(Refusal::Damaged));
    assert_eq!([0, 48, u32::MAX].map(|value| Answer { number: 0, value }.done()), [Ok(0), Ok(48), Ok(u32::MAX)]);
}

/// The header says the version of the library.
#[test]
fn the_version_is_the_librarys() {
    let header = include_str!("../../../include/heskavern.h");
    let number = |name: &str| {
        let after = header.split(&format!("#define HESKAVERN_{name} ")).nth(1).expect("the header says it");
        after.lines().next().expect("a number")
    };
    assert_eq!(heskavern::VERSION, ["MAJOR", "MINOR", "PATCH"].map(number).join("."));
}

/// C says numbers, rules and kinds in the same words.
#[test]
fn c_has_the_same_words() {
    let header = include_str!("../../../include/heskavern_heap.h");
    let refusals = [1, 2, 3, 4, 5, 6, 7, 10, 12].map(|number| Refusal::from_number(number).unwrap().to_string());
    let verdicts = (0..=9).map(|rule| Verdict::from(rule).to_string());
    let kinds = (1..=4).map(|kind| Kind::from(kind).to_string());
    for words in refusals.into_iter().chain(verdicts).chain(kinds) {
        assert_eq!(header.matches(&format!("return \"{words}\";")).count(), 1, "{words}");
    }
}
