//! A request of a row that is asked for in one call.

use crate::Refusal;

/// A request of [`Heap::ask_all`](crate::Heap::ask_all): the size that is asked for, and the places for the number and
/// the offset of its answer, which [`answer`](Request::answer) reads. It has the library's layout.
///
/// ```
/// use heskavern::{Refusal, Request};
/// let new = Request::new(4);
/// assert_eq!(new, Request { size: 4, number: 0, offset: 0 });
/// assert_eq!(Request { offset: 48, ..new }.answer(), Ok(48));
/// assert_eq!(Request { number: 4, ..new }.answer(), Err(Refusal::NoRoom));
/// ```
#[repr(C)]
#[derive(Clone, Copy, Debug, Default, PartialEq, Eq, Hash)]
pub struct Request {
    /// The size that is asked for. The call leaves it.
    pub size: u32,
    /// 0 when it is served; otherwise why it is refused.
    pub number: u32,
    /// The offset of the block that it is served with; 0 of a refusal.
    pub offset: u32,
}

impl Request {
    /// A request for a block of at least `size` bytes, with 0 in both places.
    #[must_use]
    pub const fn new(size: u32) -> Request {
        Request { size, number: 0, offset: 0 }
    }

    /// What the ask for it answered: the offset of its block, or why it is refused, with 3, 4 or 6. Of a new request,
    /// whose row no call has gone through, it is `Ok(0)`, and no block starts there.
    pub const fn answer(self) -> Result<u32, Refusal> {
        match self.number {
            0 => Ok(self.offset),
            number => Err(Refusal::of(number, 0)), // of an ask there is no half-done 6
        }
    }
}

#[cfg(test)]
mod tests {
    use super::Request;
    use crate::Refusal;

    #[test]
    fn each_number_has_its_answer() {
        assert_eq!(Request::new(8).answer(), Ok(0));
        assert_eq!(Request { size: 8, number: 0, offset: u32::MAX }.answer(), Ok(u32::MAX));
        for number in 1..=100 {
            for offset in [0, 48] {
                assert_eq!(Request { size: 8, number, offset }.answer(), Err(Refusal::of(number, 0)));
            }
        }
    }
}
