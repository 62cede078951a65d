//! A heap on the desk: a program, its buffers, and calls whose answers are laid down.

use crate::beside::Which;
use crate::steps::{Buffers, Call, Phrase, Step, MARGIN, MARKED};
use crate::{Answer, Calls, Place, Request};

pub const USABLE: usize = 2;
pub const UNUSED: usize = 3;

/// The word of the books that says the edition.
pub const EDITION: usize = 68;

/// The word of the books that is the head of the list of this block size, in edition eight.
pub fn head(size: usize) -> usize {
    3 + size / 8
}

/// The same in edition sixteen.
pub fn head_in_sixteen(size: usize) -> usize {
    3 + size / 16
}

/// Both editions, as format is told them.
pub const EDITIONS: [usize; 2] = [0, 1];

/// What an edition aligns to.
pub fn alignment(edition: usize) -> usize {
    8 + 8 * edition
}

/// Words of an arena's record.
pub const OPEN: usize = 0;
pub const CARVE_MARK: usize = 1;
pub const FREE_POOLS: usize = 2;
pub const FREED_HEAD: usize = 3;
pub const ARENA_NEXT: usize = 4;
pub const ARENA_PREVIOUS: usize = 5;

/// Words of a pool's record.
pub const COUNT: usize = 0;
pub const FREEBLOCK: usize = 1;
pub const NEXT: usize = 2;
pub const PREVIOUS: usize = 3;
pub const CLASS: usize = 4;
pub const NEXTOFFSET: usize = 5;
pub const MAXNEXTOFFSET: usize = 6;

pub struct Desk<'a> {
    calls: &'a mut dyn Calls,
    pub heap: Buffers,
    arenas: usize,
}

impl<'a> Desk<'a> {
    /// A fresh heap of this many arenas and pools, of edition eight.
    pub fn fresh(calls: &'a mut dyn Calls, arenas: usize, pools: usize) -> Desk<'a> {
        Desk::formatted(calls, arenas, pools, 0)
    }

    /// A fresh heap of edition sixteen.
    pub fn sixteen(calls: &'a mut dyn Calls, arenas: usize, pools: usize) -> Desk<'a> {
        Desk::formatted(calls, arenas, pools, 1)
    }

    pub fn formatted(calls: &'a mut dyn Calls, arenas: usize, pools: usize, edition: usize) -> Desk<'a> {
        let mut desk = Desk { calls, heap: Buffers::new(arenas, pools), arenas };
        desk.done(Call::Format { arenas, pools, edition }, 0);
        desk
    }

    /// A heap that is made up whole, of this edition.
    pub fn whole(calls: &'a mut dyn Calls, arenas: usize, pools: usize, edition: usize, seed: u64) -> Desk<'a> {
        let mut heap = Buffers::new(arenas, pools);
        heap.whole(edition, seed);
        Desk { calls, heap, arenas }
    }

    /// What a stranger does to the buffers.
    pub fn strange(&mut self, steps: &[Step]) {
        steps.iter().for_each(|step| {
            self.heap.take(self.calls, step);
        });
    }

    pub fn answer(&mut self, call: Call) -> Answer {
        self.heap.take(self.calls, &Step::Call(call)).answer
    }

    /// The call is done and answers this value.
    pub fn done(&mut self, call: Call, value: u32) {
        assert_eq!(self.answer(call), Answer { number: 0, value }, "{call}");
    }

    /// The call gives this number and offset 0, and changes nothing.
    pub fn refused(&mut self, call: Call, number: u32) {
        let before = self.heap.clone();
        assert_eq!(self.answer(call), Answer { number, value: 0 }, "{call}");
        self.unchanged(&before, call);
    }

    /// The audit says this, 0 for yes or the first broken rule, and changes nothing.
    pub fn audited(&mut self, number: u32) {
        let before = self.heap.clone();
        assert_eq!(self.answer(Call::Audit), Answer { number, value: 0 }, "audit");
        self.unchanged(&before, Call::Audit);
    }

    /// The answer of a batch with this row, and the row that it leaves. No mark on the sides of the row is changed, and
    /// no size in it.
    pub fn ask_all(&mut self, row: &[Request]) -> (Answer, Vec<Request>) {
        let answer = self.heap.ask_all(self.calls, Which::Own, row);
        let (all, left) = (&self.heap.row, self.heap.asked().to_vec());
        let marks = [&all[..MARGIN], &all[MARGIN + left.len()..]].concat();
        assert!(marks.iter().all(|mark| *mark == MARKED), "ask all: a request beside the row changed");
        assert!(left.iter().zip(row).all(|(left, came)| left.size == came.size), "ask all: a size changed");
        (answer, left)
    }

    /// The batch gives this number and value 0, and changes nothing.
    pub fn refused_all(&mut self, row: &[Request], number: u32) {
        let before = self.heap.clone();
        let (answer, left) = self.ask_all(row);
        assert_eq!(answer, Answer { number, value: 0 }, "ask all of {} requests", row.len());
        assert!(left == row, "{number}: the row changed");
        self.unchanged(&before, "ask all");
    }

    fn unchanged(&self, before: &Buffers, call: impl std::fmt::Display) {
        assert!(self.heap.memory == before.memory, "{call}: memory changed");
        assert!(self.heap.books == before.books, "{call}: the books changed");
        assert!(self.heap.map == before.map, "{call}: the map changed");
    }

    /// Stand-in hands back the bytes at this place, and changes nothing, the phrase neither.
    pub fn stand_in(&mut self, offset: usize, phrase: Phrase, place: Place) {
        let call = Call::StandIn { offset, phrase };
        let before = self.heap.clone();
        assert_eq!(self.heap.take(self.calls, &Step::Call(call)).place, Some(place), "{call}");
        self.unchanged(&before, call);
        assert!(self.heap.phrase == before.text_of(phrase, offset), "{call}: the phrase changed");
    }

    /// Start and length of the part that view hands back.
    pub fn view(&mut self, offset: usize) -> (usize, usize) {
        self.heap.take(self.calls, &Step::Call(Call::View { offset })).part
    }

    /// The roll that a roll call with this many words writes, and its answer.
    pub fn roll(&mut self, words: usize) -> (Answer, Vec<u32>) {
        let answer = self.answer(Call::RollCall { words });
        (answer, self.heap.roll.clone())
    }

    pub fn lend(&mut self, memory: usize, books: usize, map: usize) {
        self.heap.take(self.calls, &Step::Lend([memory, books, map]));
    }

    pub fn books(&mut self, word: usize) -> &mut u32 {
        &mut self.heap.books[word]
    }

    pub fn arena(&mut self, arena: usize, word: usize) -> &mut u32 {
        &mut self.heap.books[72 + 8 * arena + word]
    }

    pub fn pool(&mut self, pool: usize, word: usize) -> &mut u32 {
        &mut self.heap.books[72 + 8 * self.arenas + 8 * pool + word]
    }

    pub fn arena_record(&self, arena: usize) -> &[u32] {
        &self.heap.books[72 + 8 * arena..80 + 8 * arena]
    }

    /// The first map word of a pool.
    pub fn bits(&mut self, pool: usize) -> &mut u64 {
        &mut self.heap.map[8 * pool]
    }

    /// Every word of the map becomes this.
    pub fn all_bits(&mut self, word: u64) {
        self.heap.map.fill(word);
    }

    pub fn link(&self, offset: usize) -> u32 {
        let bytes = self.bytes(offset, 4);
        u32::from_le_bytes([bytes[0], bytes[1], bytes[2], bytes[3]])
    }

    pub fn set_link(&mut self, offset: usize, link: u32) {
        self.heap.take(self.calls, &Step::Link(offset, link));
    }

    pub fn bytes(&self, offset: usize, length: usize) -> &[u8] {
        &self.heap.memory[offset..offset + length]
    }
}
