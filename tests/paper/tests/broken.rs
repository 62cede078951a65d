//! Every slip is found: a program with one small change differs from the paper, and fails the case that tells it.

use std::panic::{self, AssertUnwindSafe};

use heskavern_paper::compare::{compare, Of, Run, Tally};
use heskavern_paper::{audited, batched, cases, compared, order, readings};
use heskavern_paper::{Answer, Calls, Lent, LentPhrase, LentToRead, Paper, Place, Request};

#[path = "../slips.rs"]
mod slips;

/// A call by itself.
enum One {
    Compare(fn(LentToRead, LentToRead, &mut [u32], &mut [i32]) -> Answer),
    AskAll(fn(Lent, &mut [Request]) -> Answer),
}

/// The paper but for one call.
struct ButForOne {
    paper: Paper,
    one: One,
}

impl ButForOne {
    fn new(one: One) -> ButForOne {
        ButForOne { paper: Paper::default(), one }
    }
}

impl Calls for ButForOne {
    fn format(&mut self, lent: Lent, arenas: usize, pools: usize, edition: usize) -> Answer {
        self.paper.format(lent, arenas, pools, edition)
    }

    fn ask(&mut self, lent: Lent, size: usize) -> Answer {
        self.paper.ask(lent, size)
    }

    fn ask_all(&mut self, lent: Lent, requests: &mut [Request]) -> Answer {
        match self.one {
            One::AskAll(ask_all) => ask_all(lent, requests),
            One::Compare(_) => self.paper.ask_all(lent, requests),
        }
    }

    fn give_back(&mut self, lent: Lent, offset: usize) -> Answer {
        self.paper.give_back(lent, offset)
    }

    fn resize(&mut self, lent: Lent, offset: usize, size: usize) -> Answer {
        self.paper.resize(lent, offset, size)
    }

    fn view(&mut self, lent: Lent, offset: usize) -> (usize, usize) {
        self.paper.view(lent, offset)
    }

    fn view_size(&mut self, lent: Lent, offset: usize) -> Answer {
        self.paper.view_size(lent, offset)
    }

    fn stand_in(&mut self, lent: Lent, offset: usize, phrase: LentPhrase) -> Place {
        self.paper.stand_in(lent, offset, phrase)
    }

    fn write(&mut self, lent: Lent, offset: usize, text: &[u8]) -> Answer {
        self.paper.write(lent, offset, text)
    }

    fn roll_call(&mut self, lent: Lent, roll: &mut [u32]) -> Answer {
        self.paper.roll_call(lent, roll)
    }

    fn audit(&mut self, lent: Lent) -> u32 {
        self.paper.audit(lent)
    }

    fn compare(&mut self, first: LentToRead, second: LentToRead, list: &mut [u32], changes: &mut [i32]) -> Answer {
        match self.one {
            One::Compare(compare) => compare(first, second, list, changes),
            One::AskAll(_) => self.paper.compare(first, second, list, changes),
        }
    }
}

include!(concat!(env!("OUT_DIR"), "/broken.rs"));

/// A slip that so many calls don't find would be one that the comparison is blind to.
const CALLS: u64 = 1_000_000;

fn all_slips() -> impl Iterator<Item = &'static slips::Slip> {
    slips::ALL.into_iter().flatten()
}

/// The sequences that find a slip: the audit's own for one that is of the audit, those with compares for one that is of
/// the compare, the batches' own for one that is of the batch, and else those of the calls.
fn sequences(slip: &slips::Slip) -> Run {
    let of = match slip.file {
        slips::File::Audit => Of::Audits,
        slips::File::Beside => Of::Compares,
        slips::File::Batch => Of::Batches,
        slips::File::Paper if slip.case.map_or(false, |case| case.starts_with("W-201")) => Of::Audits,
        slips::File::Paper => Of::Calls,
    };
    Run { seed: 1, calls: CALLS, of }
}

/// Where the comparison finds the slip and how it shows it, in words.
fn found(program: &mut dyn Calls, run: Run) -> Option<String> {
    let mut paper = Paper::default();
    let mut difference = compare(&mut paper, program, run, &mut Tally::new()).err()?;
    difference.shorten(&mut paper, program);
    let shown = difference.report(&mut paper, program).contains("the other: ");
    shown.then(|| format!("found at call {:>6}, shown in {:>2} steps", difference.call, difference.steps.len()))
}

/// Whether the case whose name begins so holds of this program.
fn holds(begins: &str, program: &mut dyn Calls) -> bool {
    let all = cases::all();
    let (_, case) = all.iter().find(|(name, _)| name.starts_with(begins)).expect(begins);
    panic::set_hook(Box::new(|_| {}));
    let held = panic::catch_unwind(AssertUnwindSafe(|| case(program))).is_ok();
    let _ = panic::take_hook();
    held
}

/// No reading's case is idle, and none of W-203's, W-201's, W-212's and W-204's: each has a slip, the other reading,
/// that it fails on.
fn every_reading_has_its_slip() {
    let with_slips = [readings::CASES, order::READINGS, order::CASES, audited::READINGS, audited::CASES].concat();
    let beside = [compared::READINGS, compared::CASES, batched::READINGS, batched::CASES].concat();
    for (name, _) in [with_slips, beside].concat() {
        let told = all_slips().filter_map(|slip| slip.case).any(|begins| name.starts_with(begins));
        assert!(told, "no slip names the case '{name}'");
    }
}

/// Slips to the audit that break its promise, so that a program differs from no other and is still found: its audit
/// says no to a whole heap, or yes to one on which a call then gives 6.
const BREAK_THE_PROMISE: [&str; 12] = [
    "carve mark 1 breaks rule 4",
    "more free pools break no rule",
    "the last block's bit breaks rule 5",
    "a link that leads to no record ends a list",
    "a list may lack a member",
    "the usable list is not tested",
    "class lists are not tested",
    "previous is not tested",
    "maxnextoffset is not tested",
    "the freed chain ends where no block starts",
    "a block may be live and on the freed chain",
    "a freed pool may not have class 65,535",
];

/// Slips to the compare whose changes don't add up to the difference of the roll counts.
const BREAK_THE_SUM: [&str; 6] = [
    "the changes are first less second",
    "the changes have no sign",
    "the blocks of the last class are not counted",
    "the first heap's blocks are not counted",
    "other bytes are a change",
    "the changes are of the pools' counts",
];

/// The promises are held to: such a program beside itself does not pass. No slip to the batch does, for it is then
/// another than the asks one by one.
fn the_promises_are_held_to() -> Vec<String> {
    let mut unseen = Vec::new();
    let audits = BREAK_THE_PROMISE.into_iter().map(|name| (slips::File::Audit, name, Of::Audits));
    let compares = BREAK_THE_SUM.into_iter().map(|name| (slips::File::Beside, name, Of::Compares));
    let of_batch = all_slips().filter(|slip| slip.file == slips::File::Batch);
    let batches = of_batch.map(|slip| (slips::File::Batch, slip.name, Of::Batches));
    for (file, name, of) in audits.chain(compares).chain(batches) {
        let n = all_slips().position(|slip| slip.file == file && slip.name == name).expect(name);
        let [mut left, mut right] = [(); 2].map(|_| programs().swap_remove(n));
        let run = Run { seed: 1, calls: 10_000, of };
        if compare(left.as_mut(), right.as_mut(), run, &mut Tally::new()).is_ok() {
            unseen.push(format!("the promise is kept although {name}"));
        }
    }
    unseen
}

// one test, because the hook that keeps an expected panic quiet is the whole process's
#[test]
fn every_slip_is_found() {
    every_reading_has_its_slip();
    let mut wrong = the_promises_are_held_to();
    for (slip, mut program) in all_slips().zip(programs()) {
        match found(program.as_mut(), sequences(slip)) {
            Some(words) => println!("{words}: {}", slip.name),
            None => wrong.push(format!("not found in {CALLS} calls: {}", slip.name)),
        }
        match slip.case {
            Some(case) if holds(case, program.as_mut()) => wrong.push(format!("{case} holds although {}", slip.name)),
            _ => {}
        }
    }
    assert!(wrong.is_empty(), "{}", wrong.join("\n"));
}
