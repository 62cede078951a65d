//! W-212's call as a program: two heaps side by side. The live blocks of each heap are gathered by their offsets, and
//! the two gatherings laid beside each other. Neither heap can be written; the list and the changes are, once it is
//! known that both fit.

use std::collections::{BTreeMap, BTreeSet};

use super::{refuse, LentToRead, Refused, Shape};
use super::{ARENAS, CLASS, HEADER, POOL, RECORD};

/// How many bits of the map a pool has.
const BITS: usize = 512;

/// The kinds of an entry.
const IN_FIRST_ALONE: u32 = 1;
const IN_SECOND_ALONE: u32 = 2;
const ANOTHER_SIZE: u32 = 3;
const OTHER_BYTES: u32 = 4;

/// A live block: its class and its bytes, the whole block.
struct Block<'a> {
    class: usize,
    bytes: &'a [u8],
}

/// The live blocks of a heap, by their offsets.
type Live<'a> = BTreeMap<usize, Block<'a>>;

/// The class that the books say a pool has.
fn class_of(heap: LentToRead, shape: Shape, pool: usize) -> usize {
    heap.books[ARENAS + RECORD * shape.arenas + RECORD * pool + CLASS] as usize
}

/// Whether bit k of a pool is set.
fn bit(heap: LentToRead, pool: usize, k: usize) -> bool {
    heap.map[8 * pool + k / 64] >> (k % 64) & 1 == 1
}

/// An offset is live if its pool's class is at most 63 (31), it is a block start of that class and its map bit is set.
/// A start is at most 4,096 less the size; a bit past that is at no block.
fn live<'a>(heap: LentToRead<'a>, shape: Shape) -> Live<'a> {
    let mut live = Live::new();
    for pool in 0..shape.arenas * shape.pools {
        let class = class_of(heap, shape, pool);
        if class > shape.edition.last_class() {
            continue;
        }
        let size = shape.edition.block_size(class);
        for start in (0..BITS).filter(|k| bit(heap, pool, *k)).map(|k| HEADER + k * size) {
            if start <= POOL - size {
                let offset = POOL * pool + start;
                live.insert(offset, Block { class, bytes: &heap.memory[offset..offset + size] });
            }
        }
    }
    live
}

/// Which of the four an offset is, size before bytes; none of them where the two blocks are equal.
fn kind(first: Option<&Block>, second: Option<&Block>) -> Option<u32> {
    match (first, second) {
        (Some(_), None) => Some(IN_FIRST_ALONE),
        (None, Some(_)) => Some(IN_SECOND_ALONE),
        (Some(first), Some(second)) if first.bytes.len() != second.bytes.len() => Some(ANOTHER_SIZE),
        (Some(first), Some(second)) if first.bytes != second.bytes => Some(OTHER_BYTES),
        _ => None,
    }
}

/// Each offset that is one of the four, once, by rising offset, with which of them it is.
fn entries(first: &Live, second: &Live) -> Vec<[u32; 2]> {
    let offsets: BTreeSet<usize> = first.keys().chain(second.keys()).copied().collect();
    let entry = |offset| Some([offset as u32, kind(first.get(&offset), second.get(&offset))?]);
    offsets.into_iter().filter_map(entry).collect()
}

/// For each class, the signed change in live blocks, second heap less first.
fn changes_by_class(first: &Live, second: &Live, classes: usize) -> Vec<i32> {
    let mut changes = vec![0; classes];
    second.values().for_each(|block| changes[block.class] += 1);
    first.values().for_each(|block| changes[block.class] -= 1);
    changes
}

/// 1 and 2 of the first heap, 1 and 2 of the second, 12 for an unequal shape, 7 for a list or changes that don't fit.
pub(super) fn compare(first: LentToRead, second: LentToRead, list: &mut [u32], changes: &mut [i32]) -> Refused<usize> {
    let shape = Shape::said_by(first)?;
    let other = Shape::said_by(second)?;
    if shape != other {
        return refuse(12);
    }
    let (first, second) = (live(first, shape), live(second, other));
    let entries = entries(&first, &second);
    let by_class = changes_by_class(&first, &second, shape.edition.last_class() + 1);
    if list.len() < 2 * entries.len() || changes.len() < by_class.len() {
        return refuse(7);
    }
    for (words, entry) in list.chunks_exact_mut(2).zip(&entries) {
        words.copy_from_slice(entry);
    }
    changes[..by_class.len()].copy_from_slice(&by_class);
    Ok(entries.len())
}
