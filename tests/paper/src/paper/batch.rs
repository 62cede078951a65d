//! W-204's call as a program: a whole statement in a single call. The row goes through the paper's own ask, one request
//! after the other on the heap that the one before left, front first.

use super::{answer, asked, refuse, Answer, Heap, Lent, Paper, Refused, Request};

/// At most 4,096 entries, otherwise 7 and no change.
const MOST: usize = 4096;

/// An ask as a single call would make it, but for 1 and 2.
fn ask(heap: &mut Heap, size: usize) -> Answer {
    answer(asked(size).and_then(|()| heap.step(|heap| heap.ask(size))))
}

/// 1 and 2 are tested once, first, and leave the row as it came; then 7. The result is that of the same asks one by
/// one, front first; a refusal doesn't stop the rest, and its entry gets its number and offset 0. Done is 0 with offset
/// 0, of an empty row too.
pub(super) fn ask_all(paper: &mut Paper, lent: Lent, requests: &mut [Request]) -> Refused<usize> {
    let mut heap = paper.heap(lent)?;
    if requests.len() > MOST {
        return refuse(7);
    }
    for request in requests {
        let Answer { number, value } = ask(&mut heap, request.size as usize);
        request.number = number;
        request.offset = value;
    }
    Ok(0)
}
