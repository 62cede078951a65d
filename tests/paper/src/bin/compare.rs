//! Compares the proved library with the paper, or says what the sequences reach.

use std::process::ExitCode;
use std::time::Instant;

use heskavern_paper::compare::{compare, Of, Run, Tally};
use heskavern_paper::{Calls, Paper};

const USAGE: &str = "usage: compare [--seed N] [--calls N] [--coverage [--least N]]
  --seed N      the seed of the first heap (1); a difference names the seed of its heap
  --calls N     at least this many calls, audits, compares, batches and their own sequences not counted (3000000)
  --coverage    make the calls of the paper alone and print how often each number, path, rule, side, clause and kind was
                met
  --least N     with --coverage: fail where a number that a call can give, a path, rule, side, clause or kind was met
                less often (0); a few sides of a batch may be rarer, as src/rows.rs says";

struct Wanted {
    run: Run,
    coverage: bool,
    least: u64,
}

fn wanted(mut arguments: impl Iterator<Item = String>) -> Result<Wanted, String> {
    let run = Run { seed: 1, calls: 3_000_000, of: Of::All };
    let mut wanted = Wanted { run, coverage: false, least: 0 };
    while let Some(argument) = arguments.next() {
        let place = match argument.as_str() {
            "--coverage" => {
                wanted.coverage = true;
                continue;
            }
            "--seed" => &mut wanted.run.seed,
            "--calls" => &mut wanted.run.calls,
            "--least" => &mut wanted.least,
            _ => return Err(format!("'{argument}' is not an option")),
        };
        let number = arguments.next().ok_or(format!("{argument} needs a number"))?;
        *place = number.parse().map_err(|_| format!("{argument}: '{number}' is not a number"))?;
    }
    Ok(wanted)
}

#[cfg(feature = "library")]
fn library() -> Option<Box<dyn Calls>> {
    Some(Box::new(heskavern_paper::library::Library))
}

#[cfg(not(feature = "library"))]
fn library() -> Option<Box<dyn Calls>> {
    None
}

/// The calls of the paper alone, and how often each number, path, rule, side, clause and kind was met.
fn coverage(wanted: &Wanted) -> ExitCode {
    let mut tally = Tally::new();
    let same = compare(&mut Paper::default(), &mut Paper::default(), wanted.run, &mut tally);
    print!("{tally}");
    let rare = tally.rarer_than(wanted.least);
    for words in &rare {
        println!("fewer than {} times: {words}", wanted.least);
    }
    if same.is_ok() && rare.is_empty() {
        ExitCode::SUCCESS
    } else {
        ExitCode::FAILURE
    }
}

fn against(other: &mut dyn Calls, wanted: &Wanted) -> ExitCode {
    let mut paper = Paper::default();
    let mut tally = Tally::new();
    let begun = Instant::now();
    match compare(&mut paper, other, wanted.run, &mut tally) {
        Ok(()) => {
            let seconds = begun.elapsed().as_secs_f32();
            println!(
                "the library and the paper agree on {} calls, {} audits, {} compares and {} batches of {} asks in all \
                 over {} heaps of edition eight and {} of sixteen, and keep the audit's promise, the compare's sum and \
                 the batch's asks one by one ({seconds:.0} s)",
                tally.calls, tally.audits, tally.compares, tally.batches, tally.entries, tally.heaps[0], tally.heaps[1]
            );
            ExitCode::SUCCESS
        }
        Err(mut difference) => {
            println!("the library and the paper differ at call {}, seed {}", difference.call, difference.seed);
            difference.shorten(&mut paper, other);
            println!("{}", difference.report(&mut paper, other));
            ExitCode::FAILURE
        }
    }
}

fn main() -> ExitCode {
    let wanted = match wanted(std::env::args().skip(1)) {
        Ok(wanted) => wanted,
        Err(message) => {
            eprintln!("compare: {message}\n{USAGE}");
            return ExitCode::from(2);
        }
    };
    if wanted.coverage {
        return coverage(&wanted);
    }
    match library() {
        Some(mut library) => against(library.as_mut(), &wanted),
        None => {
            eprintln!("compare: built without the library; build with --features library, or ask for --coverage");
            ExitCode::from(2)
        }
    }
}
