//! Seeded sequences of steps: heaps reached by calls, heaps that are spoilt on the way, and heaps made up at random, of
//! one edition or the other, with pools of few classes or with most pools of a class of their own. The audit goes along
//! with them, and has sequences of its own on heaps that are made up whole. On the way heaps are compared, and rows of
//! requests are asked of copies; batches have sequences of their own too.

use std::collections::VecDeque;

use crate::batches::Batches;
use crate::beside::{Visits, Which};
use crate::look::Look;
use crate::steps::{lengths, within, Buffers, Call, Phrase, Step};
use crate::{spoils, whole, Answer};

/// A small generator of numbers (splitmix64): the same seed gives the same numbers.
pub struct Rng(u64);

impl Rng {
    pub fn new(seed: u64) -> Rng {
        Rng(seed)
    }

    pub fn draw(&mut self) -> u64 {
        self.0 = self.0.wrapping_add(0x9E37_79B9_7F4A_7C15);
        let z = (self.0 ^ (self.0 >> 30)).wrapping_mul(0xBF58_476D_1CE4_E5B9);
        let z = (z ^ (z >> 27)).wrapping_mul(0x94D0_49BB_1331_11EB);
        z ^ (z >> 31)
    }

    pub fn below(&mut self, n: usize) -> usize {
        (self.draw() % n as u64) as usize
    }

    pub fn between(&mut self, least: usize, most: usize) -> usize {
        least + self.below(most - least + 1)
    }

    pub fn one_in(&mut self, n: usize) -> bool {
        self.below(n) == 0
    }

    pub fn pick<T: Copy>(&mut self, from: &[T]) -> T {
        from[self.below(from.len())]
    }

    pub fn shuffle<T>(&mut self, row: &mut [T]) {
        (1..row.len()).rev().for_each(|n| row.swap(n, self.below(n + 1)));
    }

    /// A link that a freed block could hold: often 0, or a block start of one of a few sizes.
    pub fn link(&mut self) -> u32 {
        let size = self.pick(&[8, 8, 16, 16, 24, 32, 256, 512]);
        if self.one_in(3) {
            0
        } else {
            block_start(size, self.below(4048 / size)) as u32
        }
    }
}

fn block_start(size: usize, k: usize) -> usize {
    48 + k * size
}

/// The word of the books that says the edition.
const EDITION: usize = 68;

/// What the books align to, as far as they tell.
fn alignment(heap: &Buffers) -> usize {
    if heap.books[EDITION] == 1 {
        16
    } else {
        8
    }
}

/// How a heap comes to be.
#[derive(Clone, Copy, PartialEq, Eq)]
enum Kind {
    /// By calls alone.
    Sound,
    /// By calls, with words, bits and links spoilt between them and often mended again.
    Spoilt,
    /// Made up at random, from values small enough that paths are really taken.
    MadeUp,
    /// Made up at random so that the audit says yes; calls and ways to spoil it take turns.
    Whole,
}

/// In the sequences that are not the audit's own it comes after each so many calls.
const AUDIT_EVERY: usize = 4;

/// What goes along with a sequence and leaves its heap as it is.
#[derive(Clone, Copy, Default)]
pub struct Along {
    pub audits: bool,
    /// Heaps are compared after one call in so many, or never if 0.
    pub compares: usize,
    /// The same of batches on a copy.
    pub batches: usize,
}

/// The steps on one heap. They depend on its seed and on what the calls before them left.
pub struct Source {
    rng: Rng,
    kind: Kind,
    pub arenas: usize,
    pub pools: usize,
    /// The edition that format was last told, or that the heap was made up in.
    pub edition: usize,
    /// Whether most pools come to have a class of their own, so that whole pools come free and their arenas move.
    apart: bool,
    /// The block sizes that are asked for; few of them, so that pools fill and empty, or as many as make pools apart.
    sizes: Vec<usize>,
    /// The offsets that were handed out and not given back, as far as the answers tell.
    held: Vec<usize>,
    /// The last few that were given back or moved away from.
    gone: VecDeque<usize>,
    /// How many of a hundred asks and give-backs are asks.
    rise: usize,
    calls_left: usize,
    /// How many asks and give-backs in a row were refused with 6.
    stuck: usize,
    waiting: VecDeque<Step>,
    /// What was spoilt as it was, each with the number of calls left at which it is mended.
    mends: Vec<(usize, Step)>,
    /// What was spoilt as it was, to be mended unless the next audit says yes.
    unless_whole: Option<Step>,
    /// How many calls were made, but for audits.
    made: usize,
    /// Whether the audit goes along.
    audited: bool,
    /// Where heaps are compared.
    visits: Visits,
    /// Where rows are asked of a copy or of the heap itself.
    batches: Batches,
    /// Whether the sequence is one of the batches' own.
    pub batched: bool,
}

impl Source {
    /// The steps of calls, with or without audits and compares between them.
    pub fn new(seed: u64, along: Along) -> Source {
        let mut rng = Rng::new(seed);
        let large = rng.one_in(100);
        let kind = match rng.below(16) {
            0 => Kind::Sound,
            1..=7 => Kind::Spoilt,
            _ => Kind::MadeUp,
        };
        let apart = kind != Kind::MadeUp && !large && rng.one_in(4);
        let shape = shape(&mut rng, large, apart);
        let source = Source::of(rng, kind, shape, large, apart);
        Source { audited: along.audits, ..source }.with(seed, along)
    }

    /// The audit's own steps, on a heap that is made up whole, with compares and batches between them.
    pub fn whole(seed: u64, along: Along) -> Source {
        let mut rng = Rng::new(!seed);
        let large = rng.one_in(200);
        let apart = !large && rng.one_in(3);
        let shape = shape(&mut rng, large, apart);
        Source::of(rng, Kind::Whole, shape, large, apart).with(!seed, along)
    }

    /// The batches' own steps: a few calls on a heap of any kind, and after about every second one a batch on it. Now
    /// and then the heap has room for the longest row, in both editions.
    pub fn batched(seed: u64) -> Source {
        let mut rng = Rng::new(seed.rotate_left(16));
        let kind = match rng.below(8) {
            0 | 1 => Kind::Sound,
            2..=4 => Kind::Spoilt,
            5 | 6 => Kind::MadeUp,
            _ => Kind::Whole,
        };
        let roomy = rng.one_in(6);
        let apart = kind != Kind::MadeUp && !roomy && rng.one_in(4);
        let shape = if roomy { rng.pick(&[(1, 17), (2, 9), (3, 6)]) } else { shape(&mut rng, false, apart) };
        let calls_left = rng.between(4, 36);
        let source = Source::of(rng, kind, shape, false, apart);
        Source { calls_left, batches: Batches::own(seed), batched: true, ..source }
    }

    /// With compares and batches along, each after one call in so many.
    fn with(self, seed: u64, along: Along) -> Source {
        let visits = Visits::new(seed, along.compares, self.arenas, self.pools);
        let batches = Batches::on_copies(seed, along.batches, self.arenas, self.pools);
        Source { visits, batches, ..self }
    }

    fn of(mut rng: Rng, kind: Kind, (arenas, pools): (usize, usize), large: bool, apart: bool) -> Source {
        let calls_left = how_many_calls(&mut rng, kind, large);
        let edition = rng.below(2);
        let alignment = 8 + 8 * edition;
        let sizes = if apart { each_size(2 * arenas * pools, alignment) } else { sizes(&mut rng, kind, alignment) };
        let (held, gone, rise, stuck) = (Vec::new(), VecDeque::new(), 80, 0);
        let (waiting, mends, unless_whole, made) = (VecDeque::new(), Vec::new(), None, 0);
        let mut source = Source {
            rng,
            kind,
            arenas,
            pools,
            edition,
            apart,
            sizes,
            held,
            gone,
            rise,
            calls_left,
            stuck,
            waiting,
            mends,
            unless_whole,
            made,
            audited: true,
            visits: Visits::none(),
            batches: Batches::none(),
            batched: false,
        };
        source.begin();
        source
    }

    /// The next step, if there is one more.
    pub fn next(&mut self, heap: &Buffers) -> Option<Step> {
        if let Some(step) = self.visits.next(heap).or_else(|| self.batches.next_step()) {
            return Some(step);
        }
        if self.waiting.is_empty() {
            self.calls_left = self.calls_left.checked_sub(1)?;
            if self.kind == Kind::Whole {
                self.prepare_whole(heap);
            } else {
                self.prepare(heap);
            }
        }
        let step = self.waiting.pop_front();
        if self.kind != Kind::Whole && matches!(step, Some(Step::Call(call)) if call != Call::Audit) {
            self.made += 1;
            // it draws no number, so the sequences are what they would be without it
            if self.audited && self.made % AUDIT_EVERY == 0 {
                self.waiting.push_front(Step::Call(Call::Audit));
            }
        }
        step
    }

    /// What the next steps can know from a call's answer and the heap that it left.
    pub fn learn(&mut self, call: &Call, answer: Answer, heap: &Buffers) {
        match call {
            Call::Compare { .. } => self.visits.learn(answer),
            Call::AskAll { which, .. } => self.learn_row(*which, answer, heap),
            _ => {
                self.visits.after_call(heap);
                let settled = self.waiting.is_empty() && self.unless_whole.is_none();
                self.batches.after_call(heap, &self.sizes, settled);
            }
        }
        if let Call::Ask { .. } | Call::GiveBack { .. } = call {
            self.stuck = if answer.number == 6 { self.stuck + 1 } else { 0 };
        }
        // no mend has helped: another heap tells more
        if self.stuck == 16 {
            self.calls_left = 0;
        }
        match (call, answer.number) {
            (Call::Ask { .. }, 0) => self.held.push(answer.value as usize),
            (Call::Ask { .. }, 4) => self.rise = self.rng.pick(&[10, 30, 50]),
            (Call::GiveBack { offset }, 0) => self.let_go(*offset),
            (Call::GiveBack { offset }, 5 | 10) => self.held.retain(|held| held != offset),
            (Call::Resize { offset, .. }, 0) => {
                self.let_go(*offset);
                self.held.push(answer.value as usize);
            }
            (Call::Resize { .. }, 6) if answer.value != 0 => self.held.push(answer.value as usize),
            (Call::Format { edition, .. }, 0) => {
                self.held.clear();
                self.edition = *edition;
            }
            (Call::Audit, number) => {
                let mend = self.unless_whole.take();
                mend.filter(|_| number != 0).into_iter().for_each(|mend| self.waiting.push_front(mend));
            }
            _ => {}
        }
    }

    /// What a batch on the heap itself handed out is held.
    fn learn_row(&mut self, which: Which, answer: Answer, heap: &Buffers) {
        if which == Which::Own && answer.number == 0 {
            let served = heap.asked().iter().filter(|request| request.number == 0);
            self.held.extend(served.map(|request| request.offset as usize));
        }
    }

    fn let_go(&mut self, offset: usize) {
        self.held.retain(|held| *held != offset);
        self.gone.push_front(offset);
        self.gone.truncate(8);
    }

    fn begin(&mut self) {
        let seed = self.rng.draw();
        if self.kind == Kind::MadeUp {
            self.waiting.push_back(Step::Links(seed));
            self.make_up();
            return;
        }
        if self.kind == Kind::Whole {
            self.waiting.push_back(Step::Whole { edition: self.edition, seed });
            self.sizes = whole::sizes(self.edition, seed);
            return;
        }
        // format must write every word, whatever stood there
        self.waiting.push_back(if self.rng.one_in(2) { Step::Noise(seed) } else { Step::Links(seed) });
        let (arenas, pools, edition) = (self.arenas, self.pools, self.edition);
        self.waiting.push_back(Step::Call(Call::Format { arenas, pools, edition }));
    }

    /// One clause is spoilt, audited and mended; or anything at all is, and stays where the audit says yes all the
    /// same; or calls are made, with an audit before and after each.
    fn prepare_whole(&mut self, heap: &Buffers) {
        const AUDIT: Step = Step::Call(Call::Audit);
        if self.held.is_empty() {
            self.held = whole::held(heap);
        }
        match self.rng.below(8) {
            0..=4 => {
                let (number, steps) = spoils::any(&mut self.rng, &Look::new(heap));
                let mends = if number == 0 { Vec::new() } else { spoils::mends(heap, &steps) };
                self.waiting.extend(steps.into_iter().chain([AUDIT]).chain(mends));
            }
            5 => {
                let (spoilt, mend) = self.spoiling(heap);
                self.waiting.extend([spoilt, AUDIT]);
                self.unless_whole = Some(mend);
            }
            _ => {
                self.waiting.push_back(AUDIT);
                for _ in 0..self.rng.between(1, 4) {
                    let call = self.call(heap, lengths(self.arenas, self.pools)[0]);
                    self.waiting.extend([Step::Call(call), AUDIT]);
                }
            }
        }
    }

    fn prepare(&mut self, heap: &Buffers) {
        let left = self.calls_left;
        let (due, later) = self.mends.drain(..).partition(|(at, _)| *at >= left);
        self.mends = later;
        for (_, mend) in due {
            self.waiting.push_back(mend);
        }
        let often = if self.kind == Kind::Spoilt { 5 } else { 16 };
        if self.kind != Kind::Sound && self.rng.one_in(often) {
            for _ in 0..self.rng.pick(&[1, 1, 1, 2, 3]) {
                self.spoil(heap);
            }
        }
        if self.rng.one_in(40) {
            self.rise = self.rng.pick(&[5, 20, 50, 80, 95]);
        }
        let exact = lengths(self.arenas, self.pools);
        if self.rng.one_in(100) {
            let wrong = self.wrong_lengths();
            let call = if self.rng.one_in(4) { self.format() } else { self.call(heap, wrong[0]) };
            self.waiting.extend([Step::Lend(wrong), Step::Call(call), Step::Lend(exact)]);
        } else if self.apart && self.rng.one_in(6) {
            self.empty_a_pool(heap);
        } else if self.kind == Kind::Sound || !self.go_to_an_edge(heap) {
            let call = self.call(heap, exact[0]);
            self.waiting.push_back(Step::Call(call));
        }
    }

    /// Now and then, where the heap need not be sound, a call meets words that lie on one side or the other of a rule.
    fn go_to_an_edge(&mut self, heap: &Buffers) -> bool {
        match self.rng.below(60) {
            0 => self.take_again(heap),
            1 => self.go_to_the_split(heap),
            2 => self.go_to_the_shape(heap),
            3 => self.go_to_the_last_class(heap),
            4 => self.go_to_the_count(heap),
            5..=7 if self.pools > 2 => self.go_to_the_order(heap),
            _ => return false,
        }
        true
    }

    /// Lengths of which one or more are one short, one long or 0, or books that are cut at their first words or about
    /// word 68.
    fn wrong_lengths(&mut self) -> [usize; 3] {
        let mut lent = lengths(self.arenas, self.pools);
        for _ in 0..self.rng.pick(&[1, 1, 1, 2, 3]) {
            let which = self.rng.below(3);
            lent[which] = match self.rng.below(5) {
                0 | 1 => lent[which] - lent[which].min(1),
                2 | 3 => lengths(self.arenas, self.pools)[which] + 1,
                _ if which == 1 => self.rng.pick(&[0, 1, 2, 3, 68, 69]),
                _ => self.rng.below(4),
            };
        }
        lent
    }
}

/// Few on a heap that soon gives nothing but refusals.
fn how_many_calls(rng: &mut Rng, kind: Kind, large: bool) -> usize {
    match kind {
        _ if large => rng.between(8, 400),
        Kind::Sound => rng.between(100, 1600),
        Kind::Spoilt => rng.between(40, 400),
        Kind::MadeUp => rng.between(8, 64),
        Kind::Whole => rng.between(10, 40),
    }
}

/// How many arenas, and pools of each. An arena of two pools never moves: with one free pool it is newly usable, with
/// two it is released.
fn shape(rng: &mut Rng, large: bool, apart: bool) -> (usize, usize) {
    if large {
        return (rng.between(1, 16), rng.between(2, 64));
    }
    if apart {
        let arenas = if rng.one_in(4) { rng.between(3, 16) } else { rng.between(3, 5) };
        return (arenas, rng.pick(&[2, 3, 3, 3, 4, 4]));
    }
    let small = [(1, 2), (1, 2), (1, 3), (1, 4), (2, 2), (2, 2), (2, 3), (3, 2), (3, 3), (4, 2), (3, 4), (4, 3)];
    rng.pick(&small)
}

/// The block sizes of this many classes, the first ones, or of all.
fn each_size(classes: usize, alignment: usize) -> Vec<usize> {
    (1..=classes.min(512 / alignment)).map(|blocks| alignment * blocks).collect()
}

/// One to four block sizes: of small blocks, of large ones, or of any.
fn sizes(rng: &mut Rng, kind: Kind, alignment: usize) -> Vec<usize> {
    if kind == Kind::MadeUp {
        return vec![alignment, 2 * alignment, rng.pick(&[3 * alignment, 256, 512])];
    }
    let (half, all) = (256 / alignment, 512 / alignment);
    let large = (half + 1, all);
    let (least, most) = rng.pick(&[(1, 4), large, large, (all - 4, all), (1, all), (all, all), (1, 1)]);
    (0..rng.between(1, 4)).map(|_| alignment * rng.between(least, most)).collect()
}

// Calls

impl Source {
    /// A call that is lent this many bytes of memory.
    fn call(&mut self, heap: &Buffers, memory: usize) -> Call {
        let offset = self.offset(heap);
        match self.rng.below(100) {
            0..=25 => self.call_on(heap, offset, memory),
            26..=27 => Call::RollCall { words: self.roll_words(heap) },
            28 if self.rng.one_in(3) => self.format(),
            _ if self.rng.below(100) < self.rise || self.held.is_empty() => Call::Ask { size: self.size() },
            _ => Call::GiveBack { offset },
        }
    }

    /// A call on this offset, but for a give-back.
    fn call_on(&mut self, heap: &Buffers, offset: usize, memory: usize) -> Call {
        match self.rng.below(26) {
            0..=1 => Call::View { offset },
            2..=3 => Call::ViewSize { offset },
            4..=6 => {
                let length = self.length(heap, offset);
                Call::Write { offset, length, first: self.rng.draw() as u8 }
            }
            7..=10 => Call::StandIn { offset, phrase: self.phrase(heap, offset, memory) },
            _ => Call::Resize { offset, size: self.new_size(heap, offset) },
        }
    }

    /// A format with good or bad numbers; on the heap itself it is rare, for it ends what was reached.
    fn format(&mut self) -> Call {
        let odd = [0, 1, 2, 16, 17, 64, 65, usize::MAX, (1 << 32) + self.arenas, (1 << 32) + self.pools];
        let (mut arenas, mut pools) = (self.arenas, self.pools);
        match self.rng.below(8) {
            0 | 1 => {}
            2 | 3 => arenas = self.rng.pick(&odd),
            4 | 5 => pools = self.rng.pick(&odd),
            _ => (arenas, pools) = (self.rng.pick(&odd), self.rng.pick(&odd)),
        }
        let none = [2, 2, 2, 3, 8, 16, 255, 256, 257, 1 << 31, 1 << 32, (1 << 32) + 1, (1 << 63) + 1, usize::MAX];
        let edition = if self.rng.one_in(3) { self.rng.pick(&none) } else { self.rng.below(2) };
        Call::Format { arenas, pools, edition }
    }

    /// What the heap was made to align to.
    fn alignment(&self) -> usize {
        8 + 8 * self.edition
    }

    fn size(&mut self) -> usize {
        let block = self.rng.pick(&self.sizes);
        match self.rng.below(40) {
            0 => self.rng.pick(&[0, 1, 512, 513, 514, 1 << 31, (1 << 32) + block, usize::MAX, usize::MAX - 7]),
            1 => self.rng.between(1, 512),
            2 => self.rng.draw() as usize >> self.rng.below(64),
            // a format may have brought the other edition
            _ => block - self.rng.below(self.alignment().min(block)),
        }
    }

    /// A size on one side or the other of where a resize keeps its offset, or any size.
    fn new_size(&mut self, heap: &Buffers, offset: usize) -> usize {
        let block = self.block_size(heap, offset);
        match self.rng.below(8) {
            0 => block,
            1 => block + 1,
            2 => block * 3 / 4,
            3 => block * 3 / 4 + 1,
            _ => self.size(),
        }
    }

    /// A text's length: fitting, exact, one too long, empty, or far too long.
    fn length(&mut self, heap: &Buffers, offset: usize) -> usize {
        let block = self.block_size(heap, offset);
        let any = self.rng.below(block + 1);
        self.rng.pick(&[0, any, any, block, block + 1, 513, 600])
    }

    /// Two words for each live block, or a few more or fewer; or so many that no roll is longer, or one less.
    fn roll_words(&mut self, heap: &Buffers) -> usize {
        if self.rng.one_in(4) {
            return 2 * 506 * self.arenas * self.pools - self.rng.below(2);
        }
        let bits: u32 = heap.map.iter().map(|word| word.count_ones()).sum();
        let live = self.rng.pick(&[bits as usize, self.held.len()]);
        let words =
            self.rng.pick(&[2 * live, 2 * live, 2 * live + 1, 2 * live + 5, (2 * live).saturating_sub(1), live]);
        if self.rng.one_in(16) {
            0
        } else {
            words
        }
    }

    /// A text, empty, as long as the block or of another length; the bytes at the offset; or a part of memory.
    fn phrase(&mut self, heap: &Buffers, offset: usize, memory: usize) -> Phrase {
        let block = self.block_size(heap, offset);
        match self.rng.below(12) {
            0 | 1 => Phrase::Text(0, 0),
            2 | 3 => {
                let length = self.rng.pick(&[1, block - 1, block, block + 1, 513, 600]);
                Phrase::Text(length, self.rng.draw() as u8)
            }
            4 | 5 if offset.saturating_add(block) <= heap.memory.len() => Phrase::Same(block),
            _ => self.part(offset, block, memory),
        }
    }

    /// A part of memory: the block, from inside it, up to inside it, all of it and more, anywhere, or an empty part.
    fn part(&mut self, offset: usize, block: usize, memory: usize) -> Phrase {
        let offset = offset.min(memory);
        let (inside, any) = (self.rng.below(block), self.rng.below(memory + 1));
        let (start, length) = match self.rng.below(8) {
            0 => (offset, block),
            1 => (offset + inside, self.rng.pick(&[1, block])),
            2 => (offset.saturating_sub(block - inside), block),
            3 => (offset.saturating_sub(8), block + 16),
            4 | 5 => (any, self.rng.pick(&[1, block, 600])),
            _ => (self.rng.pick(&[0, offset, any, memory]), 0),
        };
        let (start, length) = within(start, length, memory);
        Phrase::Part(start, length)
    }

    /// Mostly an offset that is held; otherwise one near it, one that may be dead or no block, or any number at all.
    fn offset(&mut self, heap: &Buffers) -> usize {
        let all = self.arenas * self.pools;
        let held = if self.held.is_empty() { 48 } else { self.rng.pick(&self.held) };
        let memory = all * 4096;
        match self.rng.below(40) {
            0 => self.rng.pick(&[0, 47, memory - 1, memory, memory + 48, usize::MAX, usize::MAX - 4047]),
            1 => held.wrapping_add(self.rng.pick(&[1, 4, 8, 16, 4096, usize::MAX, usize::MAX - 7])),
            2 => held + self.rng.pick(&[1 << 32, 1 << 63, memory]),
            3 => self.rng.draw() as usize >> self.rng.below(64),
            4 | 5 => {
                let pool = self.rng.below(all);
                let size = self.block_size(heap, 4096 * pool);
                // a start, or the place after the last one
                4096 * pool + block_start(size, self.rng.below(4048 / size + 1))
            }
            6 => self.dead(heap),
            // the newest, so that blocks come and go in turn
            7..=16 => self.held.last().copied().unwrap_or(48),
            _ => held,
        }
    }

    /// An offset that is likely dead: given back, freed, ready, or a start on one side or the other of nextoffset.
    fn dead(&mut self, heap: &Buffers) -> usize {
        if !self.gone.is_empty() && self.rng.one_in(2) {
            return self.gone[self.rng.below(self.gone.len())];
        }
        let (pool, size, first) = self.freed(heap);
        let nextoffset = heap.books[self.pool_word(pool, 5)] as usize;
        let place = match self.rng.below(6) {
            0 => first,
            1 => nextoffset,
            2 => nextoffset.wrapping_sub(size),
            3 => nextoffset + size,
            4 => block_start(size, self.rng.below(3)),
            _ => block_start(size, 4048 / size - 1),
        };
        4096 * pool + place % 4096
    }

    /// The block size of the pool that an offset lies in, as far as the books tell.
    fn block_size(&mut self, heap: &Buffers, offset: usize) -> usize {
        let (pool, alignment) = (offset / 4096, alignment(heap));
        let class = if pool < self.arenas * self.pools { heap.books[self.pool_word(pool, 4)] as usize } else { 64 };
        if class < 512 / alignment {
            alignment * (class + 1)
        } else {
            self.rng.pick(&self.sizes)
        }
    }

    fn arena_word(&self, arena: usize, word: usize) -> usize {
        72 + 8 * arena + word
    }

    fn pool_word(&self, pool: usize, word: usize) -> usize {
        72 + 8 * self.arenas + 8 * pool + word
    }
}

// Damage

impl Source {
    /// One word, link or bit is spoilt, or a word of the map, and will mostly be mended after a few calls.
    fn spoil(&mut self, heap: &Buffers) {
        let (spoilt, mend) = self.spoiling(heap);
        self.waiting.push_back(spoilt);
        // a heap with a wrong A, P or edition takes no step, so it isn't left so for long; a stand-in has its answer
        // there too
        let shape = matches!(spoilt, Step::Word(0 | 1, _) | Step::Word(EDITION, 2..));
        if shape {
            let offset = self.offset(heap);
            let phrase = self.phrase(heap, offset, lengths(self.arenas, self.pools)[0]);
            self.waiting.push_back(Step::Call(Call::StandIn { offset, phrase }));
        }
        if shape || !self.rng.one_in(4) {
            let last = if shape { 2 } else { 12 };
            let until = self.calls_left.saturating_sub(self.rng.between(1, last));
            self.mends.push((until, mend));
        }
    }

    /// A step that spoils something, and the one that mends it.
    fn spoiling(&mut self, heap: &Buffers) -> (Step, Step) {
        match self.rng.below(20) {
            _ if self.apart && self.rng.one_in(2) => self.spoil_order(heap),
            0..=3 => self.spoil_link(heap),
            4..=6 => self.spoil_bit(heap),
            7 => self.spoil_bits(heap),
            _ => self.spoil_word(heap),
        }
    }

    /// The pool of a held block comes to be the next that an ask takes, and the block is resized: the ask and the
    /// give-back of one resize then meet in one pool, often where the old block is the new class's second.
    fn take_again(&mut self, heap: &Buffers) {
        let all = self.arenas * self.pools;
        let offset = self.offset(heap);
        let pool = (offset / 4096).min(all - 1);
        let alignment = alignment(heap);
        let second = (offset % 4096).saturating_sub(48) / alignment * alignment;
        let of = |blocks: usize| blocks * alignment;
        let size = match self.rng.pick(&[of(1), of(2), of(3), of(4), 256, 512, second, second, second]) {
            size @ 8..=512 => size,
            _ => of(2),
        };
        let arena = (heap.books[2] as usize).clamp(1, self.arenas) - 1;
        let free = self.rng.between(1, self.pools) as u32;
        let words = [
            (2, arena as u32 + 1),
            (3 + size / alignment, 0),
            (self.arena_word(arena, 2), free),
            (self.arena_word(arena, 3), pool as u32 + 1),
            (self.pool_word(pool, 2), 0),
        ];
        self.waiting.extend(words.map(|(at, word)| Step::Word(at, word)));
        // a pool is set to a class only where its first two bits are clear
        self.waiting.push_back(Step::Bits(8 * pool, heap.map[8 * pool] & !3));
        self.waiting.push_back(Step::Call(Call::Resize { offset, size: size - self.rng.below(alignment) }));
    }

    /// The words that W-206's split reads come to make a dead block of an offset, but for one of them, or the offset,
    /// that is on the other side; a call meets it, and then the words are as they were.
    fn go_to_the_split(&mut self, heap: &Buffers) {
        let mut offset = self.dead(heap);
        let (pool, place) = (offset / 4096, offset % 4096);
        let (arena, number) = (pool / self.pools, (pool % self.pools) as u32);
        let (pools, size) = (self.pools as u32, self.block_size(heap, offset));
        let [at_open, at_mark] = [0, 1].map(|word| self.arena_word(arena, word));
        let [at_class, at_nextoffset] = [4, 5].map(|word| self.pool_word(pool, word));

        let (mut open, mut class) = (1, heap.books[at_class]);
        let mut mark = self.rng.pick(&[number + 1, number + 1, pools, pools + 1, u32::MAX]);
        let mut nextoffset = self.rng.pick(&[place + 1, place + size, place + size, 4096 - size, 4096, offset + 1]);
        match self.rng.below(6) {
            0 => open = self.rng.pick(&[0, 2, 2, 3, 1 << 16, (1 << 16) + 1, u32::MAX]),
            1 => mark = self.rng.pick(&[0, number, number, number.saturating_sub(1)]),
            2 => nextoffset = place.saturating_sub(self.rng.pick(&[0, 0, 1, size, place])),
            3 => {
                class = self.late_class(heap);
                // what would be a start of such a class
                let larger = 512 + alignment(heap);
                let size = self.rng.pick(&[512, larger, larger, larger + alignment(heap)]);
                offset = 4096 * pool + block_start(size, self.rng.below(4048 / size));
                nextoffset = 4096;
            }
            4 => {
                // in the header, inside a block, or where a block would run past the pool
                let past = block_start(size, 4048 / size);
                offset = 4096 * pool + self.rng.pick(&[0, 40, 47, place + 1, place + 4, place + 8, past, past]) % 4096;
                nextoffset = 4096;
            }
            _ => {}
        }
        let words = [(at_open, open), (at_mark, mark), (at_class, class), (at_nextoffset, nextoffset as u32)];
        self.waiting.extend(words.map(|(at, word)| Step::Word(at, word)));
        let give_back = self.rng.one_in(3);
        let memory = lengths(self.arenas, self.pools)[0];
        let call = if give_back { Call::GiveBack { offset } } else { self.call_on(heap, offset, memory) };
        self.waiting.push_back(Step::Call(call));
        self.waiting.extend(words.map(|(at, _)| Step::Word(at, heap.books[at])));
    }

    /// The last class of the heap's edition, or one after it: near, or in the other edition's place, or far.
    fn late_class(&mut self, heap: &Buffers) -> u32 {
        let above = 512 / alignment(heap) as u32;
        let near = [above - 1, above, above, above, above + 1, above + 2];
        let far = [63, 64, 511, 65_535, (1 << 16) + 1, u32::MAX];
        if self.rng.one_in(3) {
            self.rng.pick(&far)
        } else {
            self.rng.pick(&near)
        }
    }

    /// The shape's tests meet each other: A, P, word 68 and the lengths are each on one side or the other of their
    /// test, a call meets them, and then they are as they were.
    fn go_to_the_shape(&mut self, heap: &Buffers) {
        let exact = lengths(self.arenas, self.pools);
        let (mut arenas, mut pools) = (self.arenas as u32, self.pools as u32);
        match self.rng.below(8) {
            0 => arenas = self.rng.pick(&[0, 17, u32::MAX]),
            1 => pools = self.rng.pick(&[0, 1, 65, u32::MAX]),
            _ => {}
        }
        let edition = self.rng.pick(&[0, 1, 2, 2, 3, 1 << 8, (1 << 16) + 1, (1 << 31) + 1, u32::MAX]);
        let mut lent = exact;
        match self.rng.below(8) {
            0 | 1 => {}
            2 => lent[1] = 68,
            3 => lent[1] = 69,
            4 => lent[1] = self.rng.below(2),
            5 => lent[1] = self.rng.pick(&[2, 3, 36, 67, 70, 71, 72]),
            _ => lent = self.wrong_lengths(),
        }
        let words = [(0, arenas), (1, pools), (EDITION, edition)];
        self.waiting.extend(words.map(|(at, word)| Step::Word(at, word)));
        let call = if self.rng.one_in(3) { self.format() } else { self.call(heap, lent[0]) };
        self.waiting.extend([Step::Lend(lent), Step::Call(call), Step::Lend(exact)]);
        self.waiting.extend(words.map(|(at, _)| Step::Word(at, heap.books[at])));
    }

    /// A pool comes to have the last class or one after it, and its first bit set; a call meets the block there, or all
    /// blocks, and then class and bits are as they were.
    fn go_to_the_last_class(&mut self, heap: &Buffers) {
        let pool = self.rng.below(self.arenas * self.pools);
        let class = self.late_class(heap);
        let (at, bits) = (self.pool_word(pool, 4), heap.map[8 * pool]);
        self.waiting.extend([Step::Word(at, class), Step::Bits(8 * pool, bits | 1)]);
        let (offset, memory) = (4096 * pool + 48, lengths(self.arenas, self.pools)[0]);
        let call = match self.rng.below(4) {
            0 => Call::RollCall { words: self.roll_words(heap) },
            1 => Call::GiveBack { offset },
            _ => self.call_on(heap, offset, memory),
        };
        self.waiting.push_back(Step::Call(call));
        self.waiting.extend([Step::Word(at, heap.books[at]), Step::Bits(8 * pool, bits)]);
    }

    /// The count of a listed pool comes to one side or the other of the blocks that a pool can hold, in this edition
    /// and the other; an ask or a give-back meets it, and then it is as it was.
    fn go_to_the_count(&mut self, heap: &Buffers) {
        let size = self.rng.pick(&self.sizes);
        let front = heap.books[4 + (size - 1) / alignment(heap)] as usize;
        let pool = front.clamp(1, self.arenas * self.pools) - 1;
        let at = self.pool_word(pool, 0);
        let count = self.rng.pick(&[252, 253, 254, 400, 504, 505, 505, 506, 507]);
        let held = self.held.iter().rev().find(|offset| **offset / 4096 == pool);
        let call = match held {
            Some(offset) if self.rng.one_in(2) => Call::GiveBack { offset: *offset },
            _ => Call::Ask { size },
        };
        self.waiting.extend([Step::Word(at, count), Step::Call(call), Step::Word(at, heap.books[at])]);
    }

    /// All that is held in a pool is given back, so that it comes free.
    fn empty_a_pool(&mut self, heap: &Buffers) {
        let pool = self.offset(heap) / 4096;
        let held = self.held.iter().filter(|offset| **offset / 4096 == pool);
        self.waiting.extend(held.map(|offset| Step::Call(Call::GiveBack { offset: *offset })));
        let call = Call::Ask { size: self.size() };
        self.waiting.push_back(Step::Call(call));
    }

    /// The last block of a pool is given back, and its arena comes to have a row of followers: the walk of W-203 goes
    /// along it. Then the words are mostly as they were, but for own free pools.
    fn go_to_the_order(&mut self, heap: &Buffers) {
        let offset = self.last_in_its_pool(heap);
        let pool = (offset / 4096).min(self.arenas * self.pools - 1);
        let arena = pool / self.pools;
        let free = self.rng.between(1, self.pools - 2) as u32;
        let words = self.row_of_followers(arena, free);
        let own = [(self.arena_word(arena, 2), free), (self.pool_word(pool, 0), 1)];
        self.waiting.extend(words.iter().chain(&own).map(|(at, word)| Step::Word(*at, *word)));
        let resize = self.rng.one_in(6);
        let call =
            if resize { Call::Resize { offset, size: self.new_size(heap, offset) } } else { Call::GiveBack { offset } };
        self.waiting.push_back(Step::Call(call));
        if !self.rng.one_in(3) {
            self.waiting.extend(words.iter().map(|(at, _)| Step::Word(*at, heap.books[*at])));
        }
    }

    /// The words of a row of arenas that follow this one, none or all others or some: most have no more free pools than
    /// it has and point back to the one before.
    fn row_of_followers(&mut self, arena: usize, free: u32) -> Vec<(usize, u32)> {
        let mut row: Vec<usize> = (0..self.arenas).filter(|other| *other != arena).collect();
        self.rng.shuffle(&mut row);
        let length = if self.rng.one_in(2) { row.len().min(self.rng.below(3)) } else { self.rng.below(row.len() + 1) };
        let mut words = vec![(self.arena_word(arena, 5), self.previous_of_moved(arena, &row))];
        let mut from = arena;
        for other in &row[..length] {
            let fewer = self.rng.below(free as usize + 1) as u32;
            let number = if self.rng.one_in(12) { free + 1 + self.rng.below(2) as u32 } else { fewer };
            let back = if self.rng.one_in(6) { self.arena_link() } else { from as u32 + 1 };
            words.push((self.arena_word(from, 4), *other as u32 + 1));
            words.extend([(self.arena_word(*other, 5), back), (self.arena_word(*other, 2), number)]);
            from = *other;
        }
        words.push((self.arena_word(from, 4), self.end_of_row(arena, &row, length)));
        // the one that the row leads to mostly has as many or more
        if let (Some(other), false) = (row.get(length), self.rng.one_in(3)) {
            let pools = self.pools as u32;
            let number = self.rng.pick(&[free + 1, free + 1, free + 2, pools, pools + 1, u32::MAX]);
            words.push((self.arena_word(*other, 2), number));
        }
        words
    }

    /// What the last of this many in a row of followers leads to: none, the next in the row, the arena, one of the row
    /// or above A.
    fn end_of_row(&mut self, arena: usize, row: &[usize], length: usize) -> u32 {
        let above = self.arenas as u32 + 1;
        match self.rng.below(8) {
            0 => arena as u32 + 1,
            1 => self.rng.pick(&[above, above, above + 1, u32::MAX]),
            2 | 3 if length > 0 => row[self.rng.below(length)] as u32 + 1,
            4 | 5 => row.get(length).map_or(0, |next| *next as u32 + 1),
            _ => 0,
        }
    }

    /// None, one of the row, the first more often, the arena itself, or above A.
    fn previous_of_moved(&mut self, arena: usize, row: &[usize]) -> u32 {
        let above = self.arenas as u32 + 1;
        match self.rng.below(8) {
            0 => self.rng.pick(&[above, above, above + 1, u32::MAX]),
            1 => arena as u32 + 1,
            2 if !row.is_empty() => row[0] as u32 + 1,
            3 | 4 if !row.is_empty() => self.rng.pick(row) as u32 + 1,
            _ => 0,
        }
    }

    /// A block that is held alone in its pool, as far as the books tell, or any that is held.
    fn last_in_its_pool(&mut self, heap: &Buffers) -> usize {
        let all = self.arenas * self.pools;
        let alone = |offset: &usize| offset / 4096 < all && heap.books[self.pool_word(offset / 4096, 0)] == 1;
        let alone: Vec<usize> = self.held.iter().copied().filter(alone).collect();
        if alone.is_empty() {
            self.offset(heap)
        } else {
            self.rng.pick(&alone)
        }
    }

    /// The usable head, or a link or the free pools of an arena that is or may be listed.
    fn spoil_order(&mut self, heap: &Buffers) -> (Step, Step) {
        let (arenas, pools) = (self.arenas as u32, self.pools as u32);
        let front = (heap.books[2] as usize).clamp(1, self.arenas) - 1;
        let any = self.rng.below(self.arenas);
        let arena = self.rng.pick(&[front, any, any]);
        let word = self.rng.pick(&[2, 4, 4, 4, 5, 5]);
        let at = if self.rng.one_in(12) { 2 } else { self.arena_word(arena, word) };
        let other = self.rng.between(1, self.arenas) as u32;
        let new = match word {
            2 => self.rng.pick(&[0, 1, 2, pools - 1, pools, pools + 1, u32::MAX]),
            _ => self.rng.pick(&[0, other, other, other, other, arena as u32 + 1, arenas + 1, u32::MAX]),
        };
        (Step::Word(at, new), Step::Word(at, heap.books[at]))
    }

    fn spoil_word(&mut self, heap: &Buffers) -> (Step, Step) {
        let arena = self.rng.below(self.arenas);
        let pool = self.rng.below(self.arenas * self.pools);
        let word = self.rng.below(8);
        let at = match self.rng.below(33) {
            0 => self.rng.below(2),
            32 => EDITION,
            1 | 2 => 2,
            3..=5 => 3,
            6..=8 => 4 + (self.rng.pick(&self.sizes) - 1) / alignment(heap),
            9..=15 => self.arena_word(arena, word),
            16..=29 => self.pool_word(pool, word),
            _ => self.rng.below(lengths(self.arenas, self.pools)[1]),
        };
        let old = heap.books[at];
        let limits = [0, 1, 2, 16, 17, 64, 65, u32::MAX];
        let new = match at {
            0 | 1 => self.rng.pick(&limits),
            EDITION => self.rng.pick(&[0, 1, 2, 3, 1 << 8, (1 << 16) + 1, 1 << 31, u32::MAX]),
            _ => self.edge(old),
        };
        (Step::Word(at, new), Step::Word(at, old))
    }

    /// The link of a freed block: the one at freeblock, or the one after it.
    fn spoil_link(&mut self, heap: &Buffers) -> (Step, Step) {
        let (pool, size, first) = self.freed(heap);
        let link = link_at(heap, pool, first);
        let start = if self.rng.one_in(3) && is_inside(link) { link as usize } else { first };
        let old = link_at(heap, pool, start);
        let new = match self.rng.below(4) {
            0 => 0,
            1 => block_start(size, self.rng.below(4048 / size)) as u32,
            2 => first as u32,
            _ => self.edge(old),
        };
        (Step::Link(4096 * pool + start, new), Step::Link(4096 * pool + start, old))
    }

    /// Any word of the map, as a whole.
    fn spoil_bits(&mut self, heap: &Buffers) -> (Step, Step) {
        let at = self.rng.below(8 * self.arenas * self.pools);
        (Step::Bits(at, self.some_bits()), Step::Bits(at, heap.map[at]))
    }

    /// No bits, all of them, or a few.
    fn some_bits(&mut self) -> u64 {
        let few = self.rng.draw() & self.rng.draw() & self.rng.draw();
        self.rng.pick(&[0, u64::MAX, few, few])
    }

    /// The bit of a block that an ask is likely to test, or of any.
    fn spoil_bit(&mut self, heap: &Buffers) -> (Step, Step) {
        let (pool, size, first) = self.freed(heap);
        let start = match self.rng.below(6) {
            0 | 1 => first,
            2 => link_at(heap, pool, first) as usize,
            3 => heap.books[self.pool_word(pool, 5)] as usize,
            4 => block_start(size, self.rng.below(2)),
            _ => block_start(size, self.rng.below(512)),
        };
        let k = start.wrapping_sub(48) / size % 512;
        let at = 8 * pool + k / 64;
        let bits = heap.map[at];
        (Step::Bits(at, bits ^ 1 << (k % 64)), Step::Bits(at, bits))
    }

    /// A pool, its block size, and its freeblock if that is a place for one.
    fn freed(&mut self, heap: &Buffers) -> (usize, usize, usize) {
        let pool = self.rng.below(self.arenas * self.pools);
        let size = self.block_size(heap, 4096 * pool);
        let freeblock = heap.books[self.pool_word(pool, 1)];
        (pool, size, if is_inside(freeblock) { freeblock as usize } else { 48 })
    }

    /// A value near the edge of some rule, or near what stood there.
    fn edge(&mut self, old: u32) -> u32 {
        let (arenas, pools) = (self.arenas as u32, self.pools as u32);
        let all = arenas * pools;
        let size = self.rng.pick(&self.sizes) as u32;
        match self.rng.below(16) {
            0 | 1 => 0,
            2 => 1,
            3 => self.rng.pick(&[arenas, arenas + 1, arenas + 1]),
            4 => self.rng.pick(&[all, all + 1, all + 1]),
            5 => self.rng.pick(&[pools - 1, pools, pools + 1]),
            6 => self.rng.pick(&[252, 253, 254, 505, 506, 507]),
            7 => self.rng.pick(&[31, 32, 63, 64, 65_535, (size - 1) / self.alignment() as u32]),
            8 => block_start(size as usize, self.rng.below(4)) as u32,
            9 => self.rng.pick(&[4096 - size, 4097 - size, 4095 - size, 4096, 48 + 4048 / size * size]),
            10 => old.wrapping_add(self.rng.pick(&[1, 8, size])),
            11 => old.wrapping_sub(self.rng.pick(&[1, 8, size])),
            12 => self.rng.below(8) as u32,
            13 => self.rng.below(4096) as u32,
            14 => self.rng.pick(&[u32::MAX, 1 << 31, 1 << 16]),
            _ => self.rng.draw() as u32,
        }
    }
}

fn is_inside(start: u32) -> bool {
    (48..=4088).contains(&start)
}

fn link_at(heap: &Buffers, pool: usize, start: usize) -> u32 {
    let at = 4096 * pool + start;
    let bytes = &heap.memory[at..at + 4];
    u32::from_le_bytes([bytes[0], bytes[1], bytes[2], bytes[3]])
}

// Made-up heaps

impl Source {
    /// Books and map of the right lengths, each word of a kind that its place could hold.
    fn make_up(&mut self) {
        let words = [self.arenas as u32, self.pools as u32, self.arena_link(), self.arena_link()];
        for (at, word) in words.into_iter().enumerate() {
            self.waiting.push_back(Step::Word(at, word));
        }
        self.waiting.push_back(Step::Word(EDITION, self.edition as u32));
        // in sixteen the heads of the classes from 32 on are read by no step
        for class in 0..64 {
            let asked = self.sizes.contains(&(self.alignment() * (class + 1)));
            if asked || self.rng.one_in(16) {
                let link = self.pool_link();
                self.set(4 + class, link);
            }
        }
        for arena in 0..self.arenas {
            let pools = self.pools + 1;
            let (mark, free) = (self.rng.below(pools) as u32, self.rng.below(pools) as u32);
            let words = [1, mark, free, self.pool_link(), self.arena_link(), self.arena_link()];
            for (word, value) in words.into_iter().enumerate() {
                self.set(self.arena_word(arena, word), value);
            }
        }
        for pool in 0..self.arenas * self.pools {
            self.make_up_pool(pool);
        }
    }

    fn make_up_pool(&mut self, pool: usize) {
        let size = self.rng.pick(&self.sizes);
        let blocks = 4048 / size;
        let class = if self.rng.one_in(6) { 65_535 } else { size / self.alignment() - 1 };
        let full = self.rng.pick(&[253, 506, 506]);
        let count = if self.rng.one_in(6) { self.rng.between(full - 2, full + 1) } else { self.rng.below(4) };
        let near = if self.rng.one_in(8) { blocks - 1 } else { self.rng.below(blocks.min(6)) };
        let freeblock = if self.rng.one_in(4) { 0 } else { block_start(size, near) };
        let nextoffset = block_start(size, self.rng.pick(&[near + 1, near + 2, blocks, blocks - 1]));
        // a full pool uses both on leaving its list, which few do
        let above = self.arenas * self.pools + 1;
        let [next, previous] = [0; 2].map(|_| if self.rng.one_in(12) { above } else { self.pool_link() as usize });
        let words = [count, freeblock, next, previous, class, nextoffset, 4096 - size];
        for (word, value) in words.into_iter().enumerate() {
            self.set(self.pool_word(pool, word), value as u32);
        }
        let bits = match self.rng.below(4) {
            0 => 0,
            1 => self.rng.draw() & self.rng.draw() & self.rng.draw(),
            _ => self.rng.draw() & self.rng.draw() & 0x3F8,
        };
        self.waiting.push_back(Step::Bits(8 * pool, bits));
        for k in (0..blocks.min(64)).filter(|k| bits >> k & 1 == 1) {
            self.held.push(4096 * pool + block_start(size, k));
        }
        // bits that an ask seldom reads, and a roll call always
        for word in 1..8 {
            if self.rng.one_in(16) {
                let bits = self.some_bits();
                self.waiting.push_back(Step::Bits(8 * pool + word, bits));
            }
        }
    }

    /// The word as given or, now and then, one near some rule's edge.
    fn set(&mut self, at: usize, word: u32) {
        let word = if self.rng.one_in(48) { self.edge(word) } else { word };
        self.waiting.push_back(Step::Word(at, word));
    }

    fn pool_link(&mut self) -> u32 {
        if self.rng.one_in(2) {
            0
        } else {
            self.rng.between(1, self.arenas * self.pools) as u32
        }
    }

    fn arena_link(&mut self) -> u32 {
        if self.rng.one_in(2) {
            0
        } else {
            self.rng.between(1, self.arenas) as u32
        }
    }
}
