//! W-212's comparison of two heaps through the bindings, at either edition: each kind of difference, the changes, the
//! order of the refusals, and what stays.

mod common;

use common::{at_either_edition, below, lent, smallest, Kept, Lent};
use heskavern::calls::{self, Answer};
use heskavern::{list_words, roll_words, Comparison, Difference, Edition, Kind, Refusal, CHANGES, LARGEST};

at_either_edition! {
    a_heap_differs_from_itself_in_nothing,
    each_kind_has_its_name,
    every_byte_of_a_block_counts_and_no_other,
    the_size_comes_before_the_bytes,
    the_starts_of_two_sizes_are_merged,
    what_is_live_goes_by_map_and_class,
    heaps_that_are_swapped_differ_the_other_way_round,
    what_is_after_list_and_changes_stays,
    too_little_room_leaves_list_and_changes,
    heaps_of_unequal_shape_are_refused,
    the_first_heap_is_tested_and_then_the_second,
    a_full_heap_beside_an_empty_one_takes_the_most_words,
    two_heaps_differ_as_their_views_and_rolls_do,
}

/// The three buffers, to be read.
fn slices(lent: &Lent) -> (&[u8], &[u32], &[u64]) {
    (&lent.memory, &lent.books, &lent.map)
}

/// The word of a pool's record, of one arena, that has its class.
fn class(pool: usize) -> usize {
    72 + 8 + 8 * pool + 4
}

/// The differences as pairs, and the changes that are not 0 as pairs of class and change.
type Found = (Vec<(u32, Kind)>, Vec<(usize, i32)>);

/// What the call finds. Neither heap is written, and the changes add up to the difference of the roll counts.
#[track_caller]
fn compared(first: &Lent, second: &Lent) -> Found {
    let (first_before, second_before) = (first.clone(), second.clone());
    let words = first.map.len() / 8 * 1012;
    let (mut list, mut changes, mut roll) = (vec![7; words], [7; CHANGES], vec![0; words]);
    let comparison = Comparison::of(slices(first), slices(second), &mut list, &mut changes).unwrap();
    assert!(*first == first_before && *second == second_before);
    let mut count = |lent: &Lent| calls::roll_call(&lent.memory, &lent.books, &lent.map, &mut roll).value as i32;
    assert_eq!(comparison.changes().iter().sum::<i32>(), count(second) - count(first));
    let differences = comparison.differences();
    assert_eq!((differences.len(), differences.size_hint().1), (differences.clone().count(), Some(differences.len())));
    let changed = comparison.changes().iter().copied().enumerate().filter(|&(_, change)| change != 0);
    (differences.map(|Difference { offset, kind }| (offset, kind)).collect(), changed.collect())
}

/// Two equal heaps of four pools: of the smallest size three blocks are live, and of the second one.
fn two_equal(edition: Edition) -> Result<(Lent, Lent), Refusal> {
    let (size, step) = smallest(edition);
    let mut first = lent(1, 4);
    let mut heap = first.format(1, 4, edition)?;
    assert_eq!([heap.ask(size)?, heap.ask(size)?, heap.ask(size)?], [48, 48 + step, 48 + 2 * step]);
    assert_eq!(heap.ask(2 * size), Ok(4144));
    let second = first.clone();
    Ok((first, second))
}

fn a_heap_differs_from_itself_in_nothing(edition: Edition) -> Result<(), Refusal> {
    let (mut first, second) = two_equal(edition)?;
    assert_eq!(compared(&first, &second), (vec![], vec![]));
    assert_eq!(compared(&first, &first), (vec![], vec![]));
    let heap = first.open()?;
    let mut changes = vec![7; edition.classes()];
    let comparison = heap.compare(&heap, &mut [], &mut changes)?;
    assert_eq!(comparison.differences().next(), None);
    assert_eq!(comparison.changes(), vec![0; edition.classes()]);
    Ok(())
}

fn each_kind_has_its_name(edition: Edition) -> Result<(), Refusal> {
    let (size, step) = smallest(edition);
    let (mut first, mut second) = two_equal(edition)?;
    let yesterday = first.open()?;
    let mut today: Kept = second.open()?;
    today.write(48, b"A. Moss")?;
    today.give_back(48 + step)?;
    today.give_back(4144)?;
    assert_eq!(today.ask(3 * size), Ok(4144)); // the freed pool, for another size
    assert_eq!(today.resize(48 + 2 * step, 2 * size), Ok(8240));
    let (mut list, mut changes) = ([0; list_words(1, 4)], [0; CHANGES]);
    let comparison = yesterday.compare(&today, &mut list, &mut changes)?;
    let found: Vec<Difference> = comparison.differences().collect();
    let expected = [
        (48, Kind::OtherBytes),
        (48 + step, Kind::FirstAlone),
        (48 + 2 * step, Kind::FirstAlone), // it has moved ..
        (4144, Kind::OtherSize),
        (8240, Kind::SecondAlone), // .. to here
    ];
    assert_eq!(found, expected.map(|(offset, kind)| Difference { offset, kind }));
    assert_eq!(comparison.changes().len(), edition.classes());
    assert_eq!(comparison.changes()[..3], [-2, 0, 1]);
    assert!(comparison.changes()[3..].iter().all(|&change| change == 0));
    Ok(())
}

fn every_byte_of_a_block_counts_and_no_other(edition: Edition) -> Result<(), Refusal> {
    let (size, step) = smallest(edition);
    let (first, second) = two_equal(edition)?;
    let (block, end) = (48 + 2 * step, 48 + 3 * size);
    for byte in block as usize..end {
        let mut other = second.clone();
        other.memory[byte] ^= 1;
        assert_eq!(compared(&first, &other), (vec![(block, Kind::OtherBytes)], vec![]));
    }
    let mut other = second;
    for (at, byte) in other.memory.iter_mut().enumerate() {
        if !(48..end).contains(&at) && !(4144..4144 + 2 * size).contains(&at) {
            *byte ^= 0xFF;
        }
    }
    assert_eq!(compared(&first, &other), (vec![], vec![]));
    Ok(())
}

fn the_size_comes_before_the_bytes(edition: Edition) -> Result<(), Refusal> {
    let (first, mut second) = two_equal(edition)?;
    second.books[class(1)] = 2;
    assert_eq!(compared(&first, &second), (vec![(4144, Kind::OtherSize)], vec![(1, -1), (2, 1)]));
    second.memory[4144] ^= 1;
    assert_eq!(compared(&first, &second), (vec![(4144, Kind::OtherSize)], vec![(1, -1), (2, 1)]));
    Ok(())
}

fn the_starts_of_two_sizes_are_merged(edition: Edition) -> Result<(), Refusal> {
    let (size, step) = smallest(edition);
    let with = |blocks: usize, of: usize| -> Result<Lent, Refusal> {
        let mut lent = lent(1, 2);
        let mut heap = lent.format(1, 2, edition)?;
        for _ in 0..blocks {
            heap.ask(of * size)?;
        }
        Ok(lent)
    };
    let (found, changed) = compared(&with(4, 2)?, &with(3, 3)?);
    let expected = [
        (0, Kind::OtherSize),
        (2, Kind::FirstAlone),
        (3, Kind::SecondAlone),
        (4, Kind::FirstAlone),
        (6, Kind::OtherSize),
    ];
    assert_eq!(found, expected.map(|(k, kind)| (48 + k * step, kind)));
    assert_eq!(changed, [(1, -4), (2, 3)]);
    Ok(())
}

fn what_is_live_goes_by_map_and_class(edition: Edition) -> Result<(), Refusal> {
    let (_, step) = smallest(edition);
    let (first, mut second) = two_equal(edition)?;
    second.map[7] |= 1 << 63; // bits at no block of the class
    second.map[16..24].fill(u64::MAX); // of a pool that has no class
    second.books[72] = 0; // the arena's open word, and a pool's count and nextoffset
    (second.books[80], second.books[85]) = (9, 9);
    assert_eq!(compared(&first, &second), (vec![], vec![]));
    for none in [edition.classes() as u32, 65535, u32::MAX] {
        second.books[class(0)] = none;
        let gone = [0, 1, 2].map(|k| (48 + k * step, Kind::FirstAlone));
        assert_eq!(compared(&first, &second), (gone.to_vec(), vec![(0, -3)]));
    }
    second.books[class(0)] = 0;
    second.books[class(2)] = edition.classes() as u32 - 1; // seven blocks of 512 bytes
    let come = [0, 1, 2, 3, 4, 5, 6].map(|k| (8240 + 512 * k, Kind::SecondAlone));
    assert_eq!(compared(&first, &second), (come.to_vec(), vec![(edition.classes() - 1, 7)]));
    Ok(())
}

fn heaps_that_are_swapped_differ_the_other_way_round(edition: Edition) -> Result<(), Refusal> {
    let (size, step) = smallest(edition);
    let (first, mut second) = two_equal(edition)?;
    let mut heap = second.open()?;
    heap.give_back(48)?;
    heap.write(48 + step, b"A. Moss")?;
    assert_eq!(heap.ask(3 * size), Ok(8240));
    let (there, back) = (compared(&first, &second), compared(&second, &first));
    let found = [(48, Kind::FirstAlone), (48 + step, Kind::OtherBytes), (8240, Kind::SecondAlone)];
    assert_eq!(there, (found.to_vec(), vec![(0, -1), (2, 1)]));
    let turned = [(48, Kind::SecondAlone), (48 + step, Kind::OtherBytes), (8240, Kind::FirstAlone)];
    assert_eq!(back, (turned.to_vec(), vec![(0, 1), (2, -1)]));
    Ok(())
}

fn what_is_after_list_and_changes_stays(edition: Edition) -> Result<(), Refusal> {
    let (first, mut second) = two_equal(edition)?;
    second.open()?.give_back(48)?;
    let (mut list, mut changes) = ([7; 5], [7; CHANGES + 2]);
    let answer = calls::compare(slices(&first), slices(&second), &mut list, &mut changes);
    assert_eq!(answer, Answer { number: 0, value: 1 });
    assert_eq!(list, [48, 1, 7, 7, 7]);
    assert_eq!(changes[..2], [-1, 0]);
    assert!(changes[2..edition.classes()].iter().all(|&change| change == 0));
    assert!(changes[edition.classes()..].iter().all(|&change| change == 7));
    Ok(())
}

fn too_little_room_leaves_list_and_changes(edition: Edition) -> Result<(), Refusal> {
    let (mut first, mut second) = two_equal(edition)?;
    let (yesterday, mut today) = (first.open()?, second.open()?);
    today.give_back(48)?;
    today.write(4144, b"A. Moss")?;
    let (mut list, mut changes) = ([7; 5], [7; CHANGES]);
    for (words, count) in [(3, CHANGES), (0, CHANGES), (5, edition.classes() - 1), (5, 0), (0, 0)] {
        let refused = yesterday.compare(&today, &mut list[..words], &mut changes[..count]);
        assert_eq!(refused, Err(Refusal::DoesNotFit));
        assert!(list == [7; 5] && changes == [7; CHANGES]);
    }
    let comparison = yesterday.compare(&today, &mut list[..4], &mut changes[..edition.classes()])?;
    assert_eq!(comparison.differences().len(), 2);
    Ok(())
}

fn heaps_of_unequal_shape_are_refused(edition: Edition) -> Result<(), Refusal> {
    let other = match edition {
        Edition::Eight => Edition::Sixteen,
        Edition::Sixteen => Edition::Eight,
    };
    let shapes = [(2, 3, edition), (1, 3, edition), (2, 4, edition), (3, 2, edition), (1, 6, edition), (2, 3, other)];
    for (n, &(arenas, pools, of_first)) in shapes.iter().enumerate() {
        for (m, &(more_arenas, more_pools, of_second)) in shapes.iter().enumerate() {
            let (mut one, mut two) = (lent(arenas, pools), lent(more_arenas, more_pools));
            let first = one.format(arenas, pools, of_first)?;
            let second = two.format(more_arenas, more_pools, of_second)?;
            let mut changes = [7; CHANGES];
            let answer = first.compare(&second, &mut [], &mut changes);
            if n == m {
                assert_eq!(answer?.differences().len(), 0);
            } else {
                assert_eq!(answer, Err(Refusal::UnequalShape));
                assert_eq!(first.compare(&second, &mut [], &mut []), Err(Refusal::UnequalShape)); // 12 before 7
                assert_eq!(changes, [7; CHANGES]);
            }
        }
    }
    assert_eq!(Refusal::UnequalShape.number(), 12);
    assert_eq!(Refusal::UnequalShape.to_string(), "two heaps of unequal A, P or edition");
    Ok(())
}

fn the_first_heap_is_tested_and_then_the_second(edition: Edition) -> Result<(), Refusal> {
    let (good, mut range) = two_equal(edition)?;
    range.books[68] = 2;
    let mut length = good.clone();
    length.map.pop();
    let mut larger = lent(2, 4);
    larger.format(2, 4, edition)?;
    let cases = [
        (&good, &good, 7), // a list of none
        (&range, &length, 1),
        (&length, &range, 2),
        (&good, &range, 1),
        (&good, &length, 2),
        (&range, &good, 1),
        (&length, &good, 2),
        (&larger, &range, 1),
        (&larger, &length, 2),
        (&range, &larger, 1),
        (&length, &larger, 2),
        (&good, &larger, 12),
        (&larger, &good, 12),
    ];
    for (first, second, number) in cases {
        let answer = calls::compare(slices(first), slices(second), &mut [], &mut []);
        assert_eq!(answer, Answer { number, value: 0 });
        let refused = Comparison::of(slices(first), slices(second), &mut [], &mut []);
        assert_eq!(refused.unwrap_err().number(), number);
    }
    Ok(())
}

fn a_full_heap_beside_an_empty_one_takes_the_most_words(edition: Edition) -> Result<(), Refusal> {
    let (empty, mut full) = (&mut lent(1, 2), lent(1, 2));
    empty.format(1, 2, edition)?;
    let mut heap = full.format(1, 2, edition)?;
    while heap.ask(1).is_ok() {}
    let words = list_words(1, 2) * 8 / edition.alignment();
    let (mut list, mut changes) = (vec![7; words], [0; CHANGES]);
    let short = Comparison::of(slices(empty), slices(&full), &mut list[1..], &mut changes);
    assert_eq!(short, Err(Refusal::DoesNotFit));
    let comparison = Comparison::of(slices(empty), slices(&full), &mut list, &mut changes)?;
    assert_eq!(comparison.differences().len(), words / 2);
    assert_eq!(comparison.changes()[0] as usize, words / 2);
    assert!(comparison.differences().all(|difference| difference.kind == Kind::SecondAlone));
    Ok(())
}

/// What differs, by the views of every offset.
fn by_views(yesterday: &Kept, today: &Kept, end: u32) -> Vec<(u32, Kind)> {
    let kind_at = |offset| match (yesterday.view(offset), today.view(offset)) {
        (Ok(_), Err(_)) => Some(Kind::FirstAlone),
        (Err(_), Ok(_)) => Some(Kind::SecondAlone),
        (Ok(one), Ok(other)) if one.len() != other.len() => Some(Kind::OtherSize),
        (Ok(one), Ok(other)) if one != other => Some(Kind::OtherBytes),
        _ => None,
    };
    (0..end).filter_map(|offset| kind_at(offset).map(|kind| (offset, kind))).collect()
}

/// The blocks of each class, by the roll.
fn by_roll(heap: &Kept, edition: Edition) -> Result<Vec<i32>, Refusal> {
    let (mut words, mut counts) = ([0; roll_words(2, 3)], vec![0; edition.classes()]);
    for (_, size) in heap.roll_call(&mut words)? {
        counts[size / edition.alignment() - 1] += 1;
    }
    Ok(counts)
}

fn two_heaps_differ_as_their_views_and_rolls_do(edition: Edition) -> Result<(), Refusal> {
    let (mut now, mut state, mut held) = (lent(2, 3), 1, Vec::new());
    now.format(2, 3, edition)?;
    for round in 0..40 {
        let mut then = now.clone();
        let (yesterday, mut today) = (then.open()?, now.open()?);
        for _ in 0..below(&mut state, 40) {
            let size = 1 + below(&mut state, LARGEST as u64) as usize;
            let place = below(&mut state, 1 + held.len() as u64) as usize;
            match below(&mut state, 4) {
                0 if place < held.len() => today.give_back(held.swap_remove(place))?,
                1 if place < held.len() => held[place] = today.resize(held[place], size).unwrap_or(held[place]),
                2 if place < held.len() => today.view_mut(held[place])?.fill(round),
                _ => held.extend(today.ask(size)),
            }
        }
        let (mut list, mut changes) = ([0; list_words(2, 3)], [0; CHANGES]);
        let comparison = yesterday.compare(&today, &mut list, &mut changes)?;
        let found: Vec<_> = comparison.differences().map(|difference| (difference.offset, difference.kind)).collect();
        assert_eq!(found, by_views(&yesterday, &today, 6 * 4096));
        let (before, after) = (by_roll(&yesterday, edition)?, by_roll(&today, edition)?);
        assert!(comparison.changes().iter().copied().eq(after.iter().zip(&before).map(|(now, then)| now - then)));
    }
    Ok(())
}
