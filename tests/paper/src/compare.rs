//! Two programs, the same steps: number, value, view's part, the place of what stand-in hands back and every byte and
//! word of every buffer, a lent phrase too, after every call; of both heaps, list and changes after a compare, and of
//! the heap and the row after a batch. Three promises are held to beside that: once the audit has said yes, no call
//! gives 6 and it says yes again; what a compare says of the classes adds up to the difference of the two roll counts;
//! and a batch is what the same asks one by one come to.

use std::fmt;
use std::time::{Duration, Instant};

use crate::batches::{Row, MOST};
use crate::beside::{set_bits, Beside, Which, BESIDE};
use crate::damage::{Along, Source};
use crate::editions::{self, edition_met, Met};
use crate::look::EDITION;
use crate::sides::{Seen, SIDES};
use crate::steps::{in_words, lengths, word_name, Buffers, Call, Outcome, Step, MARGIN};
use crate::{bounds, pairs, rows, Answer, Calls, Clause, Path, Request, Rule, Trail};

/// The numbers that a call can give; 8 and 9 are rules of the audit, which has no 10.
const NUMBERS: [usize; 12] = [0, 1, 2, 3, 4, 5, 6, 7, 8, 9, 10, 12];

/// The highest of them.
const HIGHEST: usize = 12;

/// The kinds of an entry, from 1, in words.
const KINDS: [&str; 4] = ["live in the first alone", "live in the second alone", "another size", "other bytes"];

/// The editions by what word 68 says.
const EDITIONS: [&str; 2] = ["eight", "sixteen"];

/// In one edition: how often each call gave each number, each path, rule and side of the split was met, each clause of
/// the audit was broken first, a heap with a yes lay at each of its bounds, how many entries of each kind and sides of
/// a compare were met, and how many entries with each number and sides of a batch.
struct Counts {
    numbers: [[u64; HIGHEST + 1]; Call::KINDS.len()],
    paths: Vec<u64>,
    rules: Vec<u64>,
    sides: Vec<u64>,
    clauses: Vec<u64>,
    bounds: Vec<u64>,
    kinds: [u64; KINDS.len()],
    pairs: Vec<u64>,
    entries: [u64; rows::NUMBERS.len()],
    rows: Vec<u64>,
}

impl Counts {
    fn new() -> Counts {
        let (paths, rules) = (vec![0; Path::ALL.len()], vec![0; Rule::ALL.len()]);
        let (clauses, bounds) = (vec![0; Clause::ALL.len()], vec![0; bounds::SIDES.len()]);
        let (sides, pairs) = (vec![0; SIDES.len()], vec![0; pairs::SIDES.len()]);
        let (numbers, kinds) = (Default::default(), [0; KINDS.len()]);
        let (entries, rows) = ([0; rows::NUMBERS.len()], vec![0; rows::SIDES.len()]);
        Counts { numbers, paths, rules, sides, clauses, bounds, kinds, pairs, entries, rows }
    }

    fn note(&mut self, call: &Call, number: u32, heap: &Buffers, trail: Option<&Trail>) {
        if let Some(count) = self.numbers[call.kind()].get_mut(number as usize) {
            *count += 1;
        }
        // a refused call has changed nothing
        if let (5 | 10, Some(offset)) = (number, call.offset()) {
            self.note_sides(number, heap, offset);
        }
        // a batch's trail is that of many asks, and those made singly are to meet every path and rule by themselves
        if let Some(trail) = trail.filter(|_| !matches!(call, Call::AskAll { .. })) {
            trail.paths.iter().for_each(|path| self.paths[*path as usize] += 1);
            trail.broken.iter().for_each(|rule| self.rules[*rule as usize] += 1);
            trail.clause.iter().for_each(|clause| self.clauses[*clause as usize] += 1);
        }
        if let (Call::Audit, 0) = (call, number) {
            self.bounds.iter_mut().zip(bounds::met(heap)).for_each(|(count, met)| *count += u64::from(met));
        }
    }

    /// A compare's answer, and the list that it left.
    fn note_compare(&mut self, call: &Call, answer: Answer, heap: &Buffers) {
        let met = match pairs::Met::new(call, answer, heap) {
            Some(met) => met,
            None => return,
        };
        for (_, kind) in met.entries() {
            self.kinds.get_mut((kind as usize).wrapping_sub(1)).into_iter().for_each(|count| *count += 1);
        }
        for (count, (_, is_met)) in self.pairs.iter_mut().zip(pairs::SIDES) {
            *count += u64::from(is_met(&met));
        }
    }

    /// A batch's answer, and the row that it left.
    fn note_batch(&mut self, met: &rows::Met) {
        for (count, (_, number)) in self.entries.iter_mut().zip(rows::NUMBERS) {
            *count += met.entries().iter().filter(|entry| entry.number == number).count() as u64;
        }
        for (count, (_, _, is_met)) in self.rows.iter_mut().zip(rows::SIDES) {
            *count += u64::from(is_met(met));
        }
    }

    fn note_sides(&mut self, number: u32, heap: &Buffers, offset: usize) {
        if let Some(seen) = Seen::new(heap, offset) {
            for (count, (_, gives, met)) in self.sides.iter_mut().zip(SIDES) {
                *count += u64::from(*gives == number && met(&seen));
            }
        }
    }

    /// All that is counted, in words, each with how often it was met; what may be rarer counts as often as it may.
    fn all(&self) -> Vec<(String, u64)> {
        let numbers = Call::KINDS.iter().zip(&self.numbers).flat_map(|((name, can), met)| {
            can.iter().map(move |number| (format!("{name}: number {number}"), met[*number]))
        });
        let paths = Path::ALL.iter().zip(&self.paths).map(|(path, n)| (path.words().to_string(), *n));
        let rules = Rule::ALL.iter().zip(&self.rules).map(|(rule, n)| (rule.words().to_string(), *n));
        let sides = SIDES.iter().zip(&self.sides).map(|((words, ..), n)| (words.to_string(), *n));
        let audit = |words: &str| format!("audit: {words}");
        let clauses = Clause::ALL.iter().zip(&self.clauses).map(|(clause, n)| (audit(clause.words()), *n));
        let bounds = bounds::SIDES.iter().zip(&self.bounds).map(|((words, _), n)| (audit(words), *n));
        let calls = numbers.chain(paths).chain(rules).chain(sides).chain(clauses).chain(bounds);
        let compare = |words: &str| format!("compare: {words}");
        let kinds = KINDS.iter().zip(&self.kinds).map(|(words, n)| (compare(words), *n));
        let pairs = pairs::SIDES.iter().zip(&self.pairs).map(|((words, _), n)| (compare(words), *n));
        calls.chain(kinds).chain(pairs).chain(self.all_of_batches()).collect()
    }

    fn all_of_batches(&self) -> impl Iterator<Item = (String, u64)> + '_ {
        let entries = rows::NUMBERS.iter().zip(&self.entries).map(|((words, _), n)| (*words, *n));
        let sides = rows::SIDES.iter().zip(&self.rows).map(|((words, rarer, _), n)| (*words, rarer * n));
        entries.chain(sides).map(|(words, n)| (format!("ask all: {words}"), n))
    }
}

impl fmt::Display for Counts {
    fn fmt(&self, f: &mut fmt::Formatter) -> fmt::Result {
        writeln!(f, "{:34}{}", "", NUMBERS.map(|number| format!("{number:>9}")).concat())?;
        for ((name, can), met) in Call::KINDS.iter().zip(&self.numbers) {
            if !can.is_empty() {
                writeln!(f, "{name:34}{}", NUMBERS.map(|number| format!("{:>9}", met[number])).concat())?;
            }
        }
        counted(f, "paths:", Path::ALL.iter().map(|path| path.words()).zip(&self.paths))?;
        counted(f, "rules of 6:", Rule::ALL.iter().map(|rule| rule.words()).zip(&self.rules))?;
        counted(f, "sides of the split of 5:", SIDES.iter().map(|side| side.0).zip(&self.sides))?;
        let clauses = Clause::ALL.iter().map(|clause| clause.words()).zip(&self.clauses);
        let bounds = bounds::SIDES.iter().map(|side| side.0).zip(&self.bounds);
        counted(f, "clauses of the audit, broken and kept:", clauses.chain(bounds))?;
        let pairs = pairs::SIDES.iter().map(|side| side.0).zip(&self.pairs);
        counted(f, "entries of a compare, by kind, and its sides:", KINDS.into_iter().zip(&self.kinds).chain(pairs))?;
        let entries = rows::NUMBERS.iter().map(|number| number.0).zip(&self.entries);
        let sides = rows::SIDES.iter().map(|side| side.0).zip(&self.rows);
        counted(f, "entries of a batch, by number, and its sides:", entries.chain(sides))
    }
}

/// How often each of these was met, a line for each under their title.
fn counted<'a>(f: &mut fmt::Formatter, title: &str, met: impl Iterator<Item = (&'static str, &'a u64)>) -> fmt::Result {
    writeln!(f, "{title}")?;
    for (words, n) in met {
        writeln!(f, "{n:>10}  {words}")?;
    }
    Ok(())
}

/// What a run met: in each edition, of the sides of W-211's clauses, and of those of W-204's that are of no edition.
pub struct Tally {
    /// The calls but for audits, compares and batches, the audits, the compares and the batches.
    pub calls: u64,
    pub audits: u64,
    pub compares: u64,
    pub batches: u64,
    /// The asks that the batches made.
    pub entries: u64,
    /// The heaps that were made in each edition.
    pub heaps: [u64; 2],
    /// By whether word 68, or the edition given to a format, is 1: a value above 1 is counted with eight.
    met: [Counts; 2],
    editions: Vec<u64>,
    of_no_edition: Vec<u64>,
}

impl Tally {
    pub fn new() -> Tally {
        let met = [Counts::new(), Counts::new()];
        let (calls, audits, compares, batches, entries) = (0, 0, 0, 0, 0);
        let (editions, of_no_edition) = (vec![0; editions::SIDES.len()], vec![0; rows::OF_NO_EDITION.len()]);
        Tally { calls, audits, compares, batches, entries, heaps: [0, 0], met, editions, of_no_edition }
    }

    /// A call's outcome, and the heap that it left.
    fn note(&mut self, call: &Call, outcome: &Outcome, heap: &Buffers, trail: Option<&Trail>) {
        match call {
            Call::Audit => self.audits += 1,
            Call::Compare { .. } => self.compares += 1,
            Call::AskAll { row, .. } => {
                self.batches += 1;
                self.entries += if outcome.answer.number == 0 { row.entries as u64 } else { 0 };
            }
            _ => self.calls += 1,
        }
        let sixteen = edition_met(call, heap) == 1;
        let counts = &mut self.met[usize::from(sixteen)];
        counts.note(call, outcome.answer.number, heap, trail);
        counts.note_compare(call, outcome.answer, heap);
        if let Some(met) = rows::Met::new(call, outcome.answer, heap) {
            counts.note_batch(&met);
            for (count, (_, _, is_met)) in self.of_no_edition.iter_mut().zip(rows::OF_NO_EDITION) {
                *count += u64::from(is_met(&met));
            }
        }
        // view has no number, and a compare and a batch go by other heaps too
        if !matches!(call, Call::View { .. } | Call::Compare { .. } | Call::AskAll { .. }) {
            let seen = Met::new(*call, outcome.answer, heap);
            for (count, (_, met)) in self.editions.iter_mut().zip(editions::SIDES) {
                *count += u64::from(met(&seen));
            }
        }
    }

    /// What was met fewer times than this, in words: in either edition the numbers that a call can give, the paths,
    /// rules and sides; and W-211's sides, and those of no edition.
    pub fn rarer_than(&self, least: u64) -> Vec<String> {
        let met = EDITIONS.iter().zip(&self.met).flat_map(|(edition, counts)| {
            counts.all().into_iter().map(move |(words, n)| (format!("in {edition}, {words}"), n))
        });
        let sides = editions::SIDES.iter().zip(&self.editions).map(|((words, _), n)| (words.to_string(), *n));
        let batch = rows::OF_NO_EDITION.iter().zip(&self.of_no_edition);
        let sides = sides.chain(batch.map(|((words, ..), n)| (format!("ask all: {words}"), *n)));
        met.chain(sides).filter(|(_, n)| *n < least).map(|(words, n)| format!("{words}: {n} times")).collect()
    }
}

impl Default for Tally {
    fn default() -> Tally {
        Tally::new()
    }
}

impl fmt::Display for Tally {
    fn fmt(&self, f: &mut fmt::Formatter) -> fmt::Result {
        for ((edition, heaps), counts) in EDITIONS.iter().zip(self.heaps).zip(&self.met) {
            writeln!(f, "edition {edition}, {heaps} heaps made in it, calls by number:")?;
            write!(f, "{counts}")?;
        }
        counted(f, "sides of W-211:", editions::SIDES.iter().map(|side| side.0).zip(&self.editions))?;
        let batch = rows::OF_NO_EDITION.iter().map(|side| side.0).zip(&self.of_no_edition);
        counted(f, "sides of a batch of no edition:", batch)
    }
}

/// One program's place in the comparison: its calls and its buffers.
struct Side<'a> {
    calls: &'a mut dyn Calls,
    buffers: Buffers,
}

/// The same heap on both sides.
struct Pair<'a> {
    left: Side<'a>,
    right: Side<'a>,
    /// Whether the audit has said yes, or must, and only calls have changed the heap since.
    whole: bool,
}

/// What a step did on both sides.
struct Taken {
    left: Outcome,
    right: Outcome,
    /// Whether the right one agrees in everything.
    same: bool,
    /// The promise that either does not keep, in words.
    broken: Option<&'static str>,
}

impl Taken {
    /// Whether the two agree and keep their promises.
    fn passes(&self) -> bool {
        self.same && self.broken.is_none()
    }
}

/// The promises in words.
const WHOLE: &str = "the heap is whole here, so no call gives 6 and the audit says yes";
const ADDS_UP: &str = "the changes add up to the difference of the two roll counts";
const ONE_BY_ONE: &str = "the batch is what the same asks one by one come to, and leaves A, P and the edition";

/// What a batch is lent, as it came.
#[derive(Clone)]
struct Before {
    which: Which,
    heap: Beside,
    row: Vec<Request>,
}

impl Before {
    /// None of another step.
    fn new(step: &Step, heap: &Buffers) -> Option<Before> {
        match *step {
            Step::Call(Call::AskAll { which, row }) => {
                Some(Before { which, heap: heap.copy_of(which), row: row.requests() })
            }
            _ => None,
        }
    }

    /// What the tests go by but for the lengths: A, P and the edition, as far as the books reach.
    fn shape(&self) -> [Option<u32>; 3] {
        [0, 1, EDITION].map(|at| self.heap.books.get(at).copied())
    }
}

impl Side<'_> {
    /// The same asks one by one, by its own ask, on what a batch was lent. An ask for no bytes is refused with 3 where
    /// there is no 1 or 2.
    fn one_by_one(&mut self, Before { heap, row, .. }: &mut Before) -> Answer {
        let number = match self.calls.ask(heap.lend(), 0).number {
            number @ (1 | 2) => number,
            _ if row.len() > MOST => 7,
            _ => 0,
        };
        let all = if number == 0 { &mut row[..] } else { &mut [] };
        for request in all {
            let Answer { number, value } = self.calls.ask(heap.lend(), request.size as usize);
            (request.number, request.offset) = (number, value);
        }
        Answer { number, value: 0 }
    }

    /// A batch has the answer, the row and the heap that these asks come to. None of them writes A, P or the edition,
    /// so that 1 and 2 need no second test.
    fn is_one_by_one(&mut self, mut lent: Before, answer: Answer) -> bool {
        let shape = lent.shape();
        let same = self.one_by_one(&mut lent) == answer && lent.row == self.buffers.asked();
        same && self.buffers.is(lent.which, &lent.heap) && lent.shape() == shape
    }

    /// Whether a call gave 6, a batch to one of its entries, on the sequence's own heap.
    fn gave_6(&self, call: &Call, answer: Answer) -> bool {
        match call {
            Call::AskAll { which: Which::Own, .. } if answer.number == 0 => {
                self.buffers.asked().iter().any(|entry| entry.number == 6)
            }
            _ => answer.number == 6,
        }
    }

    /// The changes of a compare that is done add up to the difference of the two roll counts, by its own roll call.
    fn adds_up(&mut self, call: &Call) -> bool {
        let (first, second) = match *call {
            Call::Compare { first, second, .. } => (first, second),
            _ => return true,
        };
        let classes = if edition_met(call, &self.buffers) == 1 { 32 } else { 64 };
        let sum: i64 = self.buffers.changed().iter().take(classes).map(|change| i64::from(*change)).sum();
        let [first, second] = [first, second].map(|which| {
            let mut roll = vec![0; 2 * set_bits(self.buffers.to_read(which))];
            self.calls.roll_call(self.buffers.lend_which(which), &mut roll).value
        });
        sum == i64::from(second) - i64::from(first)
    }
}

impl<'a> Pair<'a> {
    fn new(left: &'a mut dyn Calls, right: &'a mut dyn Calls, arenas: usize, pools: usize) -> Pair<'a> {
        let side = |calls| Side { calls, buffers: Buffers::new(arenas, pools) };
        Pair { left: side(left), right: side(right), whole: false }
    }

    fn take(&mut self, step: &Step) -> Taken {
        let lent = Before::new(step, &self.left.buffers);
        let left = self.left.buffers.take(self.left.calls, step);
        let right = self.right.buffers.take(self.right.calls, step);
        let call = match step {
            Step::Call(call) => call,
            _ => {
                self.whole = self.whole_after(step, left.answer.number);
                return Taken { left, right, same: true, broken: None };
            }
        };
        let same = left == right && self.left.buffers.same_after(call, &self.right.buffers);
        let broken = self.broken(call, [left.answer, right.answer], lent);
        self.whole = self.whole_after(step, left.answer.number);
        Taken { left, right, same, broken }
    }

    /// The promise that either side does not keep in this call.
    fn broken(&mut self, call: &Call, answers: [Answer; 2], lent: Option<Before>) -> Option<&'static str> {
        let sides = [&self.left, &self.right];
        if !sides.into_iter().zip(answers).all(|(side, answer)| self.keeps_promise(side, call, answer)) {
            return Some(WHOLE);
        }
        let lent = [lent.clone(), lent];
        for ((side, answer), lent) in [&mut self.left, &mut self.right].into_iter().zip(answers).zip(lent) {
            if answer.number == 0 && !side.adds_up(call) {
                return Some(ADDS_UP);
            }
            if lent.map_or(false, |lent| !side.is_one_by_one(lent, answer)) {
                return Some(ONE_BY_ONE);
            }
        }
        None
    }

    /// Where all of the buffers is lent, or not, for one call.
    fn exact(&self) -> bool {
        let [arenas, pools] = self.left.buffers.shape();
        self.left.buffers.lent() == lengths(arenas, pools)
    }

    /// After a yes, no call gives 6, and the audit says yes again. It says yes after a format too (demand 2).
    fn keeps_promise(&self, side: &Side, call: &Call, answer: Answer) -> bool {
        match call {
            Call::Audit => answer.number == 0 || !self.whole || !self.exact(),
            _ => !side.gave_6(call, answer) || !self.whole,
        }
    }

    /// Whether the heap is one that the audit has to say yes to after this step.
    fn whole_after(&self, step: &Step, number: u32) -> bool {
        match step {
            Step::Call(Call::Audit) if self.exact() => number == 0,
            Step::Call(Call::Format { .. }) => self.whole || number == 0,
            Step::Call(_) | Step::Lend(_) | Step::Beside(..) => self.whole,
            Step::Whole { .. } => true,
            _ => false,
        }
    }
}

/// Where two programs part, or break a promise, with a sequence of steps from zeroed buffers that shows it.
pub struct Difference {
    pub seed: u64,
    /// Which call of the whole run it was.
    pub call: u64,
    arenas: usize,
    pools: usize,
    pub steps: Vec<Step>,
}

/// Which sequences are run.
#[derive(Clone, Copy, PartialEq, Eq)]
pub enum Of {
    /// Those of the calls, without audits and compares.
    Calls,
    /// The audit's own, on heaps that are made up whole.
    Audits,
    /// Those of the calls, with compares.
    Compares,
    /// The batches' own.
    Batches,
    /// Those of the calls and the audit's own, with audits, compares and batches between the calls; and now and then
    /// one of the batches' own.
    All,
}

/// Heaps are compared after one call in so many: among all else, and where compares are what is looked at.
const SELDOM: usize = 96;
const OFTEN: usize = 4;

/// Among all else a row is asked of a copy after one call in so many, and one seed in so many has a sequence of the
/// batches' own.
const BATCH_SELDOM: usize = 384;
const BATCHED_SEEDS: u64 = 12;

/// A run: the seed of its first heaps, at least how many calls, and of what.
#[derive(Clone, Copy)]
pub struct Run {
    pub seed: u64,
    pub calls: u64,
    pub of: Of,
}

impl Run {
    fn sources(&self, seed: u64) -> Vec<Source> {
        let none = Along::default();
        match self.of {
            Of::Calls => vec![Source::new(seed, none)],
            Of::Audits => vec![Source::whole(seed, none)],
            Of::Compares => vec![Source::new(seed, Along { compares: OFTEN, ..none })],
            Of::Batches => vec![Source::batched(seed)],
            Of::All => {
                let along = Along { audits: true, compares: SELDOM, batches: BATCH_SELDOM };
                let batched = (seed % BATCHED_SEEDS == 0).then(|| Source::batched(seed));
                [Source::new(seed, along), Source::whole(seed, along)].into_iter().chain(batched).collect()
            }
        }
    }
}

/// Runs the same sequences through both programs, until they differ or break a promise.
pub fn compare(left: &mut dyn Calls, right: &mut dyn Calls, wanted: Run, tally: &mut Tally) -> Result<(), Difference> {
    let (mut seed, mut made) = (wanted.seed, 0);
    while made < wanted.calls {
        for source in wanted.sources(seed) {
            // beside all else, the batches' own come on top, and the others are what they would be without
            let on_top = source.batched && wanted.of == Of::All;
            let before = tally.calls;
            run(left, right, source, tally).map_err(|difference| Difference { seed, ..difference })?;
            made += if on_top { 0 } else { tally.calls - before };
        }
        seed = seed.wrapping_add(1);
    }
    Ok(())
}

/// One sequence through both programs.
fn run(left: &mut dyn Calls, right: &mut dyn Calls, mut source: Source, tally: &mut Tally) -> Result<(), Difference> {
    let (arenas, pools, edition) = (source.arenas, source.pools, source.edition);
    let mut pair = Pair::new(left, right, arenas, pools);
    let mut steps = Vec::new();
    while let Some(step) = source.next(&pair.left.buffers) {
        steps.push(step);
        let taken = pair.take(&step);
        if let Step::Call(call) = step {
            tally.note(&call, &taken.left, &pair.left.buffers, pair.left.calls.trail());
            source.learn(&call, taken.left.answer, &pair.left.buffers);
        }
        if !taken.passes() {
            return Err(Difference { seed: 0, call: tally.calls, arenas, pools, steps });
        }
    }
    tally.heaps[edition] += 1;
    Ok(())
}

/// A shorter sequence is looked for during this time.
const PATIENCE: Duration = Duration::from_secs(20);

impl Difference {
    /// The place of the first step after which the sides differ, if they do.
    fn replay(&self, left: &mut dyn Calls, right: &mut dyn Calls, steps: &[Step]) -> Option<usize> {
        let mut pair = Pair::new(left, right, self.arenas, self.pools);
        steps.iter().map(|step| pair.take(step)).position(|taken| !taken.passes())
    }

    /// Drops steps, many at a time and then one by one, while a difference remains.
    pub fn shorten(&mut self, left: &mut dyn Calls, right: &mut dyn Calls) {
        let begun = Instant::now();
        let mut many = self.steps.len() / 2;
        while many > 0 {
            let before = self.steps.len();
            let mut from = 0;
            while from < self.steps.len() && begun.elapsed() < PATIENCE {
                let mut fewer = self.steps.clone();
                fewer.drain(from..(from + many).min(fewer.len()));
                match self.replay(left, right, &fewer) {
                    Some(last) => {
                        fewer.truncate(last + 1);
                        self.steps = fewer;
                    }
                    None => from += many,
                }
            }
            // the last round, one by one, is over once it drops nothing
            let again = many == 1 && self.steps.len() < before && begun.elapsed() < PATIENCE;
            many = if again { 1 } else { many / 2 };
        }
        self.shorten_row(left, right, begun);
    }

    /// Drops entries from the end of the last row, many at a time and then one by one, while a difference remains.
    fn shorten_row(&mut self, left: &mut dyn Calls, right: &mut dyn Calls, begun: Instant) {
        let (which, mut row) = match self.steps.last() {
            Some(Step::Call(Call::AskAll { which, row })) => (*which, *row),
            _ => return,
        };
        let mut many = row.entries.next_power_of_two();
        while many > 0 && begun.elapsed() < PATIENCE {
            let fewer = Row { entries: row.entries.saturating_sub(many), ..row };
            let mut steps = self.steps.clone();
            steps.pop();
            steps.push(Step::Call(Call::AskAll { which, row: fewer }));
            if fewer != row && self.replay(left, right, &steps).is_some() {
                (row, self.steps) = (fewer, steps);
            } else {
                many /= 2;
            }
        }
    }

    /// The sequence in words, and what differs after its last step.
    pub fn report(&self, left: &mut dyn Calls, right: &mut dyn Calls) -> String {
        let mut pair = Pair::new(left, right, self.arenas, self.pools);
        let mut lines = vec![format!("A = {}, P = {}, from zeroed buffers:", self.arenas, self.pools)];
        for (i, step) in self.steps.iter().enumerate() {
            let Taken { left, right, same, broken } = pair.take(step);
            let words = in_words(step, self.arenas);
            match step {
                Step::Call(_) if same => lines.push(format!("{:>4}. {words}: {}", i + 1, said(step, &left))),
                Step::Call(_) => {
                    lines.push(format!("{:>4}. {words}", i + 1));
                    lines.push(format!("      the paper: {}", said(step, &left)));
                    lines.push(format!("      the other: {}", said(step, &right)));
                }
                _ => lines.push(format!("{:>4}. {words}", i + 1)),
            }
            lines.extend(broken.map(|promise| format!("      it is not so that {promise}")));
        }
        lines.extend(pair.differing(self.arenas));
        lines.join("\n")
    }
}

fn said(step: &Step, outcome: &Outcome) -> String {
    match step {
        Step::Call(Call::View { .. }) => format!("{} bytes from {}", outcome.part.1, outcome.part.0),
        _ => match outcome.place {
            Some(place) => format!("{place}; view's number is {}", outcome.answer.number),
            None => format!("{}, {}", outcome.answer.number, outcome.answer.value),
        },
    }
}

impl Pair<'_> {
    /// For each buffer that differs: the first element that does, and how many more.
    fn differing(&self, arenas: usize) -> Vec<String> {
        let (left, right) = (&self.left.buffers, &self.right.buffers);
        let word = |at| format!("word {at} of the books ({})", word_name(at, arenas));
        let lines = [
            first(&left.memory, &right.memory, |at| format!("byte {at} of memory")),
            first(&left.books, &right.books, word),
            first(&left.map, &right.map, |at| format!("word {at} of the map (pool {})", at / 8)),
            first(&left.roll, &right.roll, |at| format!("word {at} of the roll")),
            first(&left.phrase, &right.phrase, |at| format!("byte {at} of the phrase's buffer")),
            first(&left.list, &right.list, |at| format!("word {} of the list", at as isize - MARGIN as isize)),
            first(&left.changes, &right.changes, |at| format!("change {}", at as isize - MARGIN as isize)),
            first(&words(&left.row), &words(&right.row), |at| {
                let (entry, word) = ((at / 3) as isize - MARGIN as isize, ["size", "number", "offset"][at % 3]);
                format!("{word} of entry {entry}")
            }),
        ];
        let beside = (0..BESIDE).flat_map(|n| {
            let (left, right, which) = (&left.beside[n], &right.beside[n], Which::Beside(n));
            [
                first(&left.memory, &right.memory, |at| format!("byte {at} of the memory of {which}")),
                first(&left.books, &right.books, |at| format!("word {at} of the books of {which}")),
                first(&left.map, &right.map, |at| format!("word {at} of the map of {which}")),
            ]
        });
        lines.into_iter().chain(beside).flatten().collect()
    }
}

/// The words of a row.
fn words(row: &[Request]) -> Vec<u32> {
    row.iter().flat_map(|request| [request.size, request.number, request.offset]).collect()
}

fn first<T: PartialEq + fmt::LowerHex + fmt::Display>(
    left: &[T],
    right: &[T],
    name: impl Fn(usize) -> String,
) -> Option<String> {
    let mut differ = (0..left.len()).filter(|&at| left[at] != right[at]);
    let at = differ.next()?;
    let (paper, other) = (&left[at], &right[at]);
    let more = differ.count();
    Some(format!("      {}: the paper {paper} ({paper:#x}), the other {other} ({other:#x}); {more} more", name(at)))
}
