//! What the tests share: the buffers that they lend, a heap that is audited before and after each call, numbers that a
//! seed decides, and a test at either edition.

use heskavern::{books_words, map_words, memory_bytes, Edition, Heap, Refusal, Request, Verdict};
use std::ops::{Deref, DerefMut};

/// Buffers for A arenas of P pools, which held something else.
#[derive(Clone, PartialEq)]
pub struct Lent {
    pub memory: Vec<u8>,
    pub books: Vec<u32>,
    pub map: Vec<u64>,
}

pub fn lent(arenas: usize, pools: usize) -> Lent {
    Lent {
        memory: vec![0xA5; memory_bytes(arenas, pools)],
        books: vec![0xA5; books_words(arenas, pools)],
        map: vec![0xA5; map_words(arenas, pools)],
    }
}

impl Lent {
    pub fn format(&mut self, arenas: usize, pools: usize, edition: Edition) -> Result<Kept<'_>, Refusal> {
        let heap = Heap::format(&mut self.memory, &mut self.books, &mut self.map, arenas, pools, edition)?;
        assert_eq!(heap.audit(), Verdict::Yes);
        Ok(Kept(heap))
    }

    pub fn open(&mut self) -> Result<Kept<'_>, Refusal> {
        Heap::open(&mut self.memory, &mut self.books, &mut self.map).map(Kept)
    }
}

/// A heap of which it is seen, at each call that may write to it: where the audit says yes before, no 6 comes, and it
/// says yes after it.
#[derive(Debug)]
pub struct Kept<'a>(Heap<'a>);

#[allow(dead_code)] // not every file of tests makes every call
impl<'a> Kept<'a> {
    #[track_caller]
    fn kept<T>(&mut self, call: impl FnOnce(&mut Heap<'a>) -> Result<T, Refusal>) -> Result<T, Refusal> {
        let whole = self.0.audit().is_yes();
        let answer = call(&mut self.0);
        if whole {
            assert!(!matches!(answer, Err(Refusal::Damaged | Refusal::HalfDone(_))), "a 6 after a yes");
            assert_eq!(self.0.audit(), Verdict::Yes);
        }
        answer
    }

    #[track_caller]
    pub fn ask(&mut self, size: usize) -> Result<u32, Refusal> {
        self.kept(|heap| heap.ask(size))
    }

    /// No request of a row gets a 6 either.
    #[track_caller]
    pub fn ask_all(&mut self, requests: &mut [Request]) -> Result<(), Refusal> {
        let whole = self.0.audit().is_yes();
        self.kept(|heap| heap.ask_all(requests))?;
        assert!(!whole || requests.iter().all(|request| request.number != 6), "a 6 after a yes");
        Ok(())
    }

    #[track_caller]
    pub fn give_back(&mut self, offset: u32) -> Result<(), Refusal> {
        self.kept(|heap| heap.give_back(offset))
    }

    #[track_caller]
    pub fn resize(&mut self, offset: u32, size: usize) -> Result<u32, Refusal> {
        self.kept(|heap| heap.resize(offset, size))
    }

    #[track_caller]
    pub fn write(&mut self, offset: u32, text: &[u8]) -> Result<(), Refusal> {
        self.kept(|heap| heap.write(offset, text))
    }
}

impl<'a> Deref for Kept<'a> {
    type Target = Heap<'a>;

    fn deref(&self) -> &Heap<'a> {
        &self.0
    }
}

impl<'a> DerefMut for Kept<'a> {
    fn deref_mut(&mut self) -> &mut Heap<'a> {
        &mut self.0
    }
}

/// The smallest block size of an edition, as a size and as a distance between offsets.
pub fn smallest(edition: Edition) -> (usize, u32) {
    match edition {
        Edition::Eight => (8, 8),
        Edition::Sixteen => (16, 16),
    }
}

/// Numbers that a seed decides, each below n.
#[allow(dead_code)]
pub fn below(state: &mut u64, n: u64) -> u64 {
    *state = state.wrapping_mul(6364136223846793005).wrapping_add(1442695040888963407);
    (*state >> 33) % n
}

/// Makes two tests of each of these functions, one at either edition, so that a failure names its edition.
macro_rules! at_either_edition {
    ($($name:ident),* $(,)?) => {
        at_either_edition! { eight Eight $($name)* }
        at_either_edition! { sixteen Sixteen $($name)* }
    };
    ($module:ident $edition:ident $($name:ident)*) => {
        mod $module {
            $(#[test]
            fn $name() -> Result<(), heskavern::Refusal> {
                super::$name(heskavern::Edition::$edition)
            })*
        }
    };
}
pub(crate) use at_either_edition;
