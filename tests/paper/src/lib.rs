//! 01, and W-201, W-203, W-204, W-206, W-211, W-212 and W-214 of 02, read a second time: the calls as a trait, one
//! program that keeps them, and what tells any other program from it.

pub mod audited;
pub mod batched;
pub mod batches;
pub mod beside;
pub mod bounds;
pub mod cases;
pub mod compare;
pub mod compared;
pub mod damage;
pub mod desk;
pub mod editions;
#[cfg(feature = "library")]
pub mod library;
pub mod look;
pub mod order;
pub mod pairs;
pub mod paper;
pub mod readings;
pub mod rows;
pub mod sides;
pub mod sixteen;
pub mod spoils;
pub mod steps;
pub mod trail;
pub mod whole;

pub use paper::Paper;
pub use trail::{Clause, Path, Rule, Trail};

/// What a call answers: its number, and the offset, size or count that goes with it.
#[derive(Clone, Copy, Debug, Default, PartialEq, Eq)]
pub struct Answer {
    pub number: u32,
    pub value: u32,
}

/// The three buffers that a call is lent.
pub struct Lent<'a> {
    pub memory: &'a mut [u8],
    pub books: &'a mut [u32],
    pub map: &'a mut [u64],
}

impl Lent<'_> {
    /// The same buffers, to read alone.
    pub fn to_read(&self) -> LentToRead<'_> {
        LentToRead { memory: self.memory, books: self.books, map: self.map }
    }
}

/// The three buffers of a heap that a call is lent to read alone, so that two such heaps may be one.
#[derive(Clone, Copy)]
pub struct LentToRead<'a> {
    pub memory: &'a [u8],
    pub books: &'a [u32],
    pub map: &'a [u64],
}

/// A request of a row (W-204): a size, and a place for its number and offset. With the library it is the one of its
/// crate, so that the row itself, between the marks on its sides, is lent to it and no copy.
#[cfg(feature = "library")]
pub use heskavern::Request;

/// A request of a row (W-204): a size, and a place for its number and offset.
#[cfg(not(feature = "library"))]
#[derive(Clone, Copy, Debug, Default, PartialEq, Eq)]
pub struct Request {
    pub size: u32,
    pub number: u32,
    pub offset: u32,
}

/// A phrase that is lent: a text of its own or, because it is only read, a part of memory by start and length. Like the
/// buffers of [`Lent`] a text can be written, so that a program which does is seen.
pub enum LentPhrase<'a> {
    Text(&'a mut [u8]),
    Part(usize, usize),
}

impl LentPhrase<'_> {
    /// Where the phrase itself lies, the whole of it.
    pub fn itself(&self) -> Place {
        match self {
            LentPhrase::Text(text) => Place::Phrase(0, text.len()),
            LentPhrase::Part(start, length) => Place::Memory(*start, *length),
        }
    }
}

/// Which bytes are handed back: their buffer, and start and length there. A phrase that is a part of memory lies in
/// memory, so the same bytes are always the same place.
#[derive(Clone, Copy, Debug, PartialEq, Eq)]
pub enum Place {
    Memory(usize, usize),
    /// In a phrase that is a text of its own.
    Phrase(usize, usize),
    /// In neither of them: a copy.
    Elsewhere,
}

/// 01's seven calls, view's companion and 02's batch, stand-in, audit and compare, over buffers of any length and with
/// any contents.
pub trait Calls {
    /// The edition is 0 for eight and 1 for sixteen.
    fn format(&mut self, lent: Lent, arenas: usize, pools: usize, edition: usize) -> Answer;
    fn ask(&mut self, lent: Lent, size: usize) -> Answer;
    /// Each request gets the number and the offset of its ask. The value is 0.
    fn ask_all(&mut self, lent: Lent, requests: &mut [Request]) -> Answer;
    fn give_back(&mut self, lent: Lent, offset: usize) -> Answer;
    fn resize(&mut self, lent: Lent, offset: usize, size: usize) -> Answer;
    /// Where in memory the part handed back starts, and its length; the empty part is (0, 0).
    fn view(&mut self, lent: Lent, offset: usize) -> (usize, usize);
    fn view_size(&mut self, lent: Lent, offset: usize) -> Answer;
    /// The place alone: it has no number, and a phrase may lie over the block that is asked about.
    fn stand_in(&mut self, lent: Lent, offset: usize, phrase: LentPhrase) -> Place;
    fn write(&mut self, lent: Lent, offset: usize, text: &[u8]) -> Answer;
    fn roll_call(&mut self, lent: Lent, roll: &mut [u32]) -> Answer;
    /// 0 for yes, or the number of the first broken rule.
    fn audit(&mut self, lent: Lent) -> u32;
    /// An entry of the list is two words, offset and kind: 1 live in the first alone, 2 in the second alone, 3 another
    /// size, 4 other bytes. The value is how many there are.
    fn compare(&mut self, first: LentToRead, second: LentToRead, list: &mut [u32], changes: &mut [i32]) -> Answer;

    /// The paths, broken rule and clause of the last call, from a program that notes them.
    fn trail(&self) -> Option<&Trail> {
        None
    }
}
