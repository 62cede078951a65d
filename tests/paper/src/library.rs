//! The proved library behind the same calls, through the Rust crate.

use crate::{Answer, Calls, Lent, LentPhrase, LentToRead, Place, Request};
use heskavern::{calls, Heap};

/// The proved library. It keeps nothing between calls.
pub struct Library;

impl From<calls::Answer> for Answer {
    fn from(calls::Answer { number, value }: calls::Answer) -> Answer {
        Answer { number, value }
    }
}

/// Where a part starts in the whole, by their addresses, if it lies there.
fn start_in(part: &[u8], whole: &[u8]) -> Option<usize> {
    let start = (part.as_ptr() as usize).checked_sub(whole.as_ptr() as usize)?;
    (start + part.len() <= whole.len()).then_some(start)
}

impl Calls for Library {
    fn format(&mut self, lent: Lent, arenas: usize, pools: usize, edition: usize) -> Answer {
        calls::format(lent.memory, lent.books, lent.map, arenas, pools, edition).into()
    }

    fn ask(&mut self, lent: Lent, size: usize) -> Answer {
        calls::ask(lent.memory, lent.books, lent.map, size).into()
    }

    fn ask_all(&mut self, lent: Lent, requests: &mut [Request]) -> Answer {
        calls::ask_all(lent.memory, lent.books, lent.map, requests).into()
    }

    fn give_back(&mut self, lent: Lent, offset: usize) -> Answer {
        calls::give_back(lent.memory, lent.books, lent.map, offset).into()
    }

    fn resize(&mut self, lent: Lent, offset: usize, size: usize) -> Answer {
        calls::resize(lent.memory, lent.books, lent.map, offset, size).into()
    }

    /// The crate's own view. An offset of more than 32 bits lies in no memory.
    fn view(&mut self, lent: Lent, offset: usize) -> (usize, usize) {
        let start = lent.memory.as_ptr() as usize;
        match (Heap::open(lent.memory, lent.books, lent.map), u32::try_from(offset)) {
            (Ok(heap), Ok(offset)) => {
                heap.view(offset).map_or((0, 0), |part| (part.as_ptr() as usize - start, part.len()))
            }
            _ => (0, 0),
        }
    }

    fn view_size(&mut self, lent: Lent, offset: usize) -> Answer {
        calls::view_size(lent.memory, lent.books, lent.map, offset).into()
    }

    fn stand_in(&mut self, lent: Lent, offset: usize, phrase: LentPhrase) -> Place {
        let memory = &*lent.memory;
        let phrase = match phrase {
            LentPhrase::Text(text) => &*text,
            LentPhrase::Part(start, length) => &memory[start..start + length],
        };
        let part = calls::stand_in(memory, lent.books, lent.map, offset, phrase);
        match (start_in(part, memory), start_in(part, phrase)) {
            (Some(start), _) => Place::Memory(start, part.len()),
            (None, Some(start)) => Place::Phrase(start, part.len()),
            (None, None) => Place::Elsewhere,
        }
    }

    fn write(&mut self, lent: Lent, offset: usize, text: &[u8]) -> Answer {
        calls::write(lent.memory, lent.books, lent.map, offset, text).into()
    }

    fn roll_call(&mut self, lent: Lent, roll: &mut [u32]) -> Answer {
        calls::roll_call(lent.memory, lent.books, lent.map, roll).into()
    }

    fn audit(&mut self, lent: Lent) -> u32 {
        calls::audit(lent.memory, lent.books, lent.map)
    }

    fn compare(&mut self, first: LentToRead, second: LentToRead, list: &mut [u32], changes: &mut [i32]) -> Answer {
        let [first, second] = [first, second].map(|heap| (heap.memory, heap.books, heap.map));
        calls::compare(first, second, list, changes).into()
    }
}
