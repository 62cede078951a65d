//! The steps of a comparison: the calls, and what a stranger does to the buffers between them.

use std::fmt;

use crate::batches::Row;
use crate::beside::{Beside, Change, Which, BATCH, BESIDE};
use crate::damage::Rng;
use crate::{Answer, Calls, Lent, LentPhrase, Place, Request};

/// A call with its arguments. A text is said by its length and first byte; a roll by how many words it has.
#[derive(Clone, Copy, Debug, PartialEq, Eq)]
pub enum Call {
    Format {
        arenas: usize,
        pools: usize,
        edition: usize,
    },
    Ask {
        size: usize,
    },
    GiveBack {
        offset: usize,
    },
    Resize {
        offset: usize,
        size: usize,
    },
    View {
        offset: usize,
    },
    ViewSize {
        offset: usize,
    },
    Write {
        offset: usize,
        length: usize,
        first: u8,
    },
    RollCall {
        words: usize,
    },
    StandIn {
        offset: usize,
        phrase: Phrase,
    },
    Audit,
    /// Two heaps, how many words the list has, and how many changes there are.
    Compare {
        first: Which,
        second: Which,
        list: usize,
        changes: usize,
    },
    /// A row of requests, and the heap that they are asked of.
    AskAll {
        which: Which,
        row: Row,
    },
}

/// A phrase to lend. Only a part of memory has no buffer of its own.
#[derive(Clone, Copy, Debug, PartialEq, Eq)]
pub enum Phrase {
    /// A text, by its length and first byte.
    Text(usize, u8),
    /// A text of this length that has the bytes at the offset.
    Same(usize),
    /// A part of memory, by its start and length.
    Part(usize, usize),
}

/// The numbers that view can give.
const VIEW: &[usize] = &[0, 1, 2, 5, 10];

impl Call {
    /// The kinds of calls, each with the numbers that it can give. View gives none, its companion gives view's.
    /// Stand-in gives none either, but goes by view's, and is a kind of its own with each kind of phrase. The audit's
    /// are its rules.
    pub const KINDS: [(&'static str, &'static [usize]); 17] = [
        ("format", &[0, 1, 2]),
        ("ask", &[0, 1, 2, 3, 4, 6]),
        ("give back", &[0, 1, 2, 5, 6, 10]),
        ("resize", &[0, 1, 2, 3, 4, 5, 6, 10]),
        ("view", &[]),
        ("view's size", VIEW),
        ("write", &[0, 1, 2, 5, 7, 10]),
        ("roll call", &[0, 1, 2, 7]),
        ("stand-in: an empty text", VIEW),
        ("stand-in: a text", VIEW),
        ("stand-in: the bytes at the offset", VIEW),
        ("stand-in: an empty part of memory", VIEW),
        ("stand-in: memory over the offset", VIEW),
        ("stand-in: other memory", VIEW),
        ("audit", &[0, 1, 2, 3, 4, 5, 6, 7, 8, 9]),
        ("compare", &[0, 1, 2, 7, 12]),
        ("ask all", &[0, 1, 2, 7]),
    ];

    /// Which of the kinds it is.
    pub fn kind(&self) -> usize {
        match *self {
            Call::Format { .. } => 0,
            Call::Ask { .. } => 1,
            Call::GiveBack { .. } => 2,
            Call::Resize { .. } => 3,
            Call::View { .. } => 4,
            Call::ViewSize { .. } => 5,
            Call::Write { .. } => 6,
            Call::RollCall { .. } => 7,
            Call::StandIn { offset, phrase } => match phrase {
                Phrase::Text(0, _) => 8,
                Phrase::Text(..) => 9,
                Phrase::Same(_) => 10,
                Phrase::Part(_, 0) => 11,
                Phrase::Part(start, length) if (start..start + length).contains(&offset) => 12,
                Phrase::Part(..) => 13,
            },
            Call::Audit => 14,
            Call::Compare { .. } => 15,
            Call::AskAll { .. } => 16,
        }
    }

    /// The offset that it is given, if it takes one.
    pub fn offset(&self) -> Option<usize> {
        match *self {
            Call::GiveBack { offset }
            | Call::Resize { offset, .. }
            | Call::View { offset }
            | Call::ViewSize { offset }
            | Call::Write { offset, .. }
            | Call::StandIn { offset, .. } => Some(offset),
            Call::Format { .. } | Call::Ask { .. } | Call::RollCall { .. } => None,
            Call::Audit | Call::Compare { .. } | Call::AskAll { .. } => None,
        }
    }
}

/// One step: a call, or a change to the buffers or to how much of them is lent from here on.
#[derive(Clone, Copy, Debug, PartialEq, Eq)]
pub enum Step {
    Call(Call),
    /// A word of the books is set.
    Word(usize, u32),
    /// A word of the map is set.
    Bits(usize, u64),
    /// Four bytes of memory are set, low byte first.
    Link(usize, u32),
    /// All three buffers are filled with noise.
    Noise(u64),
    /// Memory is filled with in-pool offsets, so that links lead somewhere.
    Links(u64),
    /// All three buffers become a whole heap of this edition, which the audit says yes to.
    Whole {
        edition: usize,
        seed: u64,
    },
    /// How many elements of memory, books and map are lent.
    Lend([usize; 3]),
    /// One of the heaps beside is changed.
    Beside(usize, Change),
}

/// The exact lengths of memory, books and map for a heap of this many arenas and pools.
pub fn lengths(arenas: usize, pools: usize) -> [usize; 3] {
    let all = arenas * pools;
    [all * 4096, 72 + 8 * arenas + 8 * all, 8 * all]
}

/// As much of a part of memory as lies in this many bytes of it.
pub fn within(start: usize, length: usize, memory: usize) -> (usize, usize) {
    let start = start.min(memory);
    (start, length.min(memory - start))
}

/// What stands in a roll, list or changes before a call, so that what it leaves is seen.
pub const MARK: u32 = 0xA5A5_A5A5;

/// A request that is a mark.
pub const MARKED: Request = Request { size: MARK, number: MARK, offset: MARK };

/// How many marks stand on either side of a list, of changes and of a row, which are not lent.
pub const MARGIN: usize = 2;

/// One program's buffers, with one element of each beyond what a heap needs, its last roll and its last phrase; and the
/// heaps beside it, with the last list, the last changes and the last row, each with its margins.
#[derive(Clone)]
pub struct Buffers {
    pub memory: Vec<u8>,
    pub books: Vec<u32>,
    pub map: Vec<u64>,
    pub roll: Vec<u32>,
    pub phrase: Vec<u8>,
    pub beside: [Beside; BESIDE],
    pub list: Vec<u32>,
    pub changes: Vec<i32>,
    pub row: Vec<Request>,
    /// The A and P that they were made for.
    shape: [usize; 2],
    lent: [usize; 3],
}

/// What a call answers: number and value, view's part, and the place of what stand-in hands back. The buffers are
/// compared as well, so what is handed back at the same place has the same bytes.
#[derive(Clone, Copy, Debug, Default, PartialEq, Eq)]
pub struct Outcome {
    pub answer: Answer,
    pub part: (usize, usize),
    pub place: Option<Place>,
}

impl Buffers {
    pub fn new(arenas: usize, pools: usize) -> Buffers {
        let lent = lengths(arenas, pools);
        let [memory, books, map] = lent.map(|length| length + 1);
        let (memory, books, map) = (vec![0; memory], vec![0; books], vec![0; map]);
        let (roll, phrase, shape) = (Vec::new(), Vec::new(), [arenas, pools]);
        let (beside, list, changes, row) = (Default::default(), Vec::new(), Vec::new(), Vec::new());
        Buffers { memory, books, map, roll, phrase, beside, list, changes, row, shape, lent }
    }

    /// Whether the other program's buffers are the same after a call. Compares and batches alone are lent heaps beside.
    pub fn same_after(&self, call: &Call, other: &Buffers) -> bool {
        let heap = self.memory == other.memory && self.books == other.books && self.map == other.map;
        let rest = self.roll == other.roll && self.phrase == other.phrase;
        let (beside, others) = (&self.beside, &other.beside);
        let more = || match call {
            Call::Compare { .. } => {
                let written = self.list == other.list && self.changes == other.changes;
                written && beside[..BATCH] == others[..BATCH]
            }
            Call::AskAll { .. } => self.row == other.row && beside[BATCH] == others[BATCH],
            _ => true,
        };
        heap && rest && more()
    }

    /// The list of the last compare, as far as it was lent.
    pub fn listed(&self) -> &[u32] {
        &self.list[MARGIN..self.list.len() - MARGIN]
    }

    /// The changes of the last compare, as far as they were lent.
    pub fn changed(&self) -> &[i32] {
        &self.changes[MARGIN..self.changes.len() - MARGIN]
    }

    /// The row of the last batch, as far as it was lent.
    pub fn asked(&self) -> &[Request] {
        &self.row[MARGIN..self.row.len() - MARGIN]
    }

    /// The A and P that they were made for.
    pub fn shape(&self) -> [usize; 2] {
        self.shape
    }

    /// How many elements of memory, books and map are lent.
    pub fn lent(&self) -> [usize; 3] {
        self.lent
    }

    pub fn lend(&mut self) -> Lent<'_> {
        let [memory, books, map] = self.lent;
        Lent { memory: &mut self.memory[..memory], books: &mut self.books[..books], map: &mut self.map[..map] }
    }

    /// The step as this program takes it.
    pub fn take(&mut self, calls: &mut dyn Calls, step: &Step) -> Outcome {
        match *step {
            Step::Call(call) => return self.call(calls, call),
            Step::Word(at, word) => self.books[at] = word,
            Step::Bits(at, word) => self.map[at] = word,
            Step::Link(at, link) => self.memory[at..at + 4].copy_from_slice(&link.to_le_bytes()),
            Step::Noise(seed) => self.noise(seed),
            Step::Links(seed) => self.links(seed),
            Step::Whole { edition, seed } => self.whole(edition, seed),
            Step::Lend(lent) => self.lent = lent,
            Step::Beside(n, change) => self.change_beside(n, change),
        }
        Outcome::default()
    }

    fn call(&mut self, calls: &mut dyn Calls, call: Call) -> Outcome {
        let answer = match call {
            Call::Format { arenas, pools, edition } => calls.format(self.lend(), arenas, pools, edition),
            Call::Ask { size } => calls.ask(self.lend(), size),
            Call::GiveBack { offset } => calls.give_back(self.lend(), offset),
            Call::Resize { offset, size } => calls.resize(self.lend(), offset, size),
            Call::View { offset } => {
                return Outcome { part: calls.view(self.lend(), offset), ..Outcome::default() };
            }
            Call::ViewSize { offset } => calls.view_size(self.lend(), offset),
            Call::Write { offset, length, first } => calls.write(self.lend(), offset, &text(length, first)),
            Call::RollCall { words } => {
                // what a refused or short roll call leaves must be seen
                let mut roll = vec![MARK; words];
                let answer = calls.roll_call(self.lend(), &mut roll);
                self.roll = roll;
                answer
            }
            Call::StandIn { offset, phrase } => return self.stand_in(calls, offset, phrase),
            Call::Audit => Answer { number: calls.audit(self.lend()), value: 0 },
            Call::Compare { first, second, list, changes } => self.compare(calls, [first, second], list, changes),
            Call::AskAll { which, row } => self.ask_all(calls, which, &row.requests()),
        };
        Outcome { answer, ..Outcome::default() }
    }

    /// Two heaps are compared, with marks in the list and the changes and on both sides of them.
    fn compare(&mut self, calls: &mut dyn Calls, [first, second]: [Which; 2], words: usize, count: usize) -> Answer {
        let mut list = vec![MARK; words + 2 * MARGIN];
        let mut changes = vec![MARK as i32; count + 2 * MARGIN];
        let (lent, room) = (&mut list[MARGIN..MARGIN + words], &mut changes[MARGIN..MARGIN + count]);
        let answer = calls.compare(self.to_read(first), self.to_read(second), lent, room);
        (self.list, self.changes) = (list, changes);
        answer
    }

    /// A row is asked of a heap, with marks on both sides of it.
    pub fn ask_all(&mut self, calls: &mut dyn Calls, which: Which, requests: &[Request]) -> Answer {
        let margin = [MARKED; MARGIN];
        let mut row = [&margin[..], requests, &margin].concat();
        let lent = &mut row[MARGIN..MARGIN + requests.len()];
        let answer = calls.ask_all(self.lend_which(which), lent);
        self.row = row;
        answer
    }

    /// The place of what stand-in hands back, and beside it what view's companion answers, which decides it.
    fn stand_in(&mut self, calls: &mut dyn Calls, offset: usize, phrase: Phrase) -> Outcome {
        let mut text = self.text_of(phrase, offset);
        let last = text.len().saturating_sub(1);
        let lent = match phrase {
            Phrase::Text(..) | Phrase::Same(_) => LentPhrase::Text(&mut text[1..last]),
            Phrase::Part(start, length) => {
                // a shortened sequence may lend less of memory than the part was made for
                let (start, length) = within(start, length, self.lent[0]);
                LentPhrase::Part(start, length)
            }
        };
        let answer = calls.view_size(self.lend(), offset);
        let place = Some(calls.stand_in(self.lend(), offset, lent));
        self.phrase = text;
        Outcome { answer, place, ..Outcome::default() }
    }

    /// A phrase's own buffer, if it has one, with a byte on either side that is not lent: so even an empty phrase has
    /// an address at which no other buffer begins or ends.
    pub fn text_of(&self, phrase: Phrase, offset: usize) -> Vec<u8> {
        let bytes = match phrase {
            Phrase::Text(length, first) => text(length, first),
            Phrase::Same(length) => self.memory[offset..offset + length].to_vec(),
            Phrase::Part(..) => return Vec::new(),
        };
        [vec![0xA5], bytes, vec![0xA5]].concat()
    }

    fn noise(&mut self, seed: u64) {
        let mut rng = Rng::new(seed);
        self.memory.iter_mut().for_each(|byte| *byte = rng.draw() as u8);
        self.books.iter_mut().for_each(|word| *word = rng.draw() as u32);
        self.map.iter_mut().for_each(|word| *word = rng.draw());
    }

    pub fn links(&mut self, seed: u64) {
        let mut rng = Rng::new(seed);
        for block in self.memory.chunks_exact_mut(8) {
            block[..4].copy_from_slice(&rng.link().to_le_bytes());
        }
    }
}

fn text(length: usize, first: u8) -> Vec<u8> {
    (0..length).map(|i| first.wrapping_add(i as u8)).collect()
}

/// What the word of the books at this place is, in a heap of this many arenas.
pub fn word_name(at: usize, arenas: usize) -> String {
    const ARENA: [&str; 8] =
        ["open", "carve mark", "free pools", "freed-pool head", "next", "previous", "word 6", "word 7"];
    const POOL: [&str; 8] =
        ["count", "freeblock", "next", "previous", "class", "nextoffset", "maxnextoffset", "word 7"];
    match at {
        0 => "A".into(),
        1 => "P".into(),
        2 => "usable head".into(),
        3 => "unused head".into(),
        4..=67 => format!("head of class {}", at - 4),
        68 => "edition".into(),
        69..=71 => "spare".into(),
        _ if at < 72 + 8 * arenas => format!("arena {}: {}", (at - 72) / 8, ARENA[at % 8]),
        _ => format!("pool {}: {}", (at - 72) / 8 - arenas, POOL[at % 8]),
    }
}

impl fmt::Display for Call {
    fn fmt(&self, f: &mut fmt::Formatter) -> fmt::Result {
        match self {
            Call::Format { arenas, pools, edition } => {
                write!(f, "format, A = {arenas}, P = {pools}, edition {edition}")
            }
            Call::Ask { size } => write!(f, "ask {size}"),
            Call::GiveBack { offset } => write!(f, "give back {offset}"),
            Call::Resize { offset, size } => write!(f, "resize {offset} to {size}"),
            Call::View { offset } => write!(f, "view {offset}"),
            Call::ViewSize { offset } => write!(f, "view's size of {offset}"),
            Call::Write { offset, length, first } => {
                write!(f, "write {length} bytes, {first} and rising, to {offset}")
            }
            Call::RollCall { words } => write!(f, "roll call with {words} words"),
            Call::StandIn { offset, phrase } => write!(f, "stand-in for {offset}, lent {phrase}"),
            Call::Audit => write!(f, "audit"),
            Call::Compare { first, second, list, changes } => {
                write!(f, "compare {first} with {second}, a list of {list} words and {changes} changes")
            }
            Call::AskAll { which, row } => write!(f, "ask all of {which}, {row}"),
        }
    }
}

impl fmt::Display for Phrase {
    fn fmt(&self, f: &mut fmt::Formatter) -> fmt::Result {
        match self {
            Phrase::Text(0, _) => write!(f, "an empty phrase"),
            Phrase::Text(length, first) => write!(f, "a phrase of {length} bytes, {first} and rising"),
            Phrase::Same(length) => write!(f, "a phrase of the {length} bytes there"),
            Phrase::Part(start, length) => write!(f, "{length} bytes of memory from {start}"),
        }
    }
}

impl fmt::Display for Place {
    fn fmt(&self, f: &mut fmt::Formatter) -> fmt::Result {
        match self {
            Place::Memory(start, length) => write!(f, "{length} bytes of memory from {start}"),
            Place::Phrase(start, length) => write!(f, "{length} bytes of the phrase from {start}"),
            Place::Elsewhere => write!(f, "bytes that were not lent"),
        }
    }
}

/// A step in words, for a heap of this many arenas.
pub fn in_words(step: &Step, arenas: usize) -> String {
    match step {
        Step::Call(call) => call.to_string(),
        Step::Word(at, word) => format!("word {at} of the books ({}) becomes {word}", word_name(*at, arenas)),
        Step::Bits(at, word) => format!("word {at} of the map (pool {}) becomes {word:#x}", at / 8),
        Step::Link(at, link) => format!("bytes {at} to {} of memory become the link {link}", at + 3),
        Step::Noise(seed) => format!("all buffers are filled with noise {seed:#x}"),
        Step::Links(seed) => format!("memory is filled with links {seed:#x}"),
        Step::Whole { edition, seed } => format!("a whole heap of edition {edition} is made up from {seed:#x}"),
        Step::Lend([memory, books, map]) => {
            format!("lent from here: {memory} bytes of memory, {books} words of books, {map} words of map")
        }
        Step::Beside(n, change) => format!("{} {change}", Which::Beside(*n)),
    }
}
