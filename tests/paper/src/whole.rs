//! Whole heaps, made up at random by the audit's rules and not by calls: any marks, any blocks live or freed, any order
//! of lists and chains that the rules leave open, and anything in the records of pools not carved.

use crate::damage::Rng;
use crate::look::{Linked, Look, EDITION};
use crate::steps::Buffers;

/// The block sizes of such a heap: few, so that class lists become longer than one pool.
pub fn sizes(edition: usize, seed: u64) -> Vec<usize> {
    let mut rng = Rng::new(seed);
    let alignment = 8 + 8 * edition;
    let mut size = || match rng.below(6) {
        0 => alignment * rng.between(1, 512 / alignment),
        1 => rng.pick(&[alignment, 2 * alignment]),
        _ => rng.pick(&[512, 512, 496, 256]),
    };
    vec![size(), size(), size()]
}

/// The offsets of a heap's live blocks.
pub fn held(heap: &Buffers) -> Vec<usize> {
    let look = Look::new(heap);
    let blocks = |pool| (0..look.blocks(pool)).map(move |k| (pool, k));
    let all = (0..look.arenas * look.pools).flat_map(blocks);
    all.filter(|(pool, k)| look.bit(*pool, *k)).map(|(pool, k)| 4096 * pool + look.start(pool, k)).collect()
}

impl Buffers {
    /// The buffers become a whole heap of this edition.
    pub fn whole(&mut self, edition: usize, seed: u64) {
        self.links(seed);
        self.books.fill(0);
        self.map.fill(0);
        let [arenas, pools] = self.shape();
        for (at, word) in [(0, arenas), (1, pools), (EDITION, edition)] {
            self.books[at] = word as u32;
        }
        let (rng, sizes) = (Rng::new(!seed), sizes(edition, seed));
        Maker { heap: self, rng, sizes, alignment: 8 + 8 * edition }.make();
    }
}

struct Maker<'a> {
    heap: &'a mut Buffers,
    rng: Rng,
    sizes: Vec<usize>,
    alignment: usize,
}

impl Maker<'_> {
    fn make(mut self) {
        let [arenas, pools] = self.heap.shape();
        for pool in 0..arenas * pools {
            self.not_carved(pool);
        }
        for arena in 0..arenas {
            if !self.rng.one_in(4) {
                self.open(arena);
            }
        }
        let look = Look::new(self.heap);
        let mut usable: Vec<usize> = (0..arenas).filter(|arena| look.free(*arena) > 0).collect();
        let mut unused: Vec<usize> = (0..arenas).filter(|arena| !look.open(*arena)).collect();
        let lists = [look.usable_list(), look.unused_list()];
        [&mut usable, &mut unused].into_iter().for_each(|row| self.rng.shuffle(row));
        // rising, and in any order where they have as many
        usable.sort_by_key(|arena| Look::new(self.heap).free(*arena));
        self.link(&lists[0], &usable);
        self.link(&lists[1], &unused);
        for class in 0..512 / self.alignment {
            self.link_class(class);
        }
    }

    fn link_class(&mut self, class: usize) {
        let look = Look::new(self.heap);
        let of_class = |pool: &usize| look.listed(*pool) && look.class(*pool) == class;
        let mut row: Vec<usize> = (0..look.arenas * look.pools).filter(of_class).collect();
        let list = look.class_list(class);
        self.rng.shuffle(&mut row);
        self.link(&list, &row);
    }

    fn link(&mut self, list: &Linked, row: &[usize]) {
        let (mut at, mut before) = (list.head, 0);
        for member in row {
            self.heap.books[at] = *member as u32 + 1;
            if list.both_ways {
                self.heap.books[list.previous(*member)] = before;
            }
            (at, before) = (list.next(*member), *member as u32 + 1);
        }
        self.heap.books[at] = 0;
    }

    fn put(&mut self, pool: usize, words: [usize; 7]) {
        let at = Look::new(self.heap).pool(pool, 0);
        for (word, value) in words.into_iter().enumerate() {
            self.heap.books[at + word] = value as u32;
        }
    }

    /// As format leaves it, or with anything but a count and a last word.
    fn not_carved(&mut self, pool: usize) {
        let mut any = [0, 0, 0, 0, 65_535, 0, 0];
        if self.rng.one_in(2) {
            let some = [0, 1, 2, 3, 48, 56, 64, 3584, 4096, 65_535, 1 << 31, u32::MAX as usize];
            any = [0; 7].map(|_| self.rng.pick(&some));
            any[0] = 0;
        }
        self.put(pool, any);
    }

    /// An open arena: its mark, and the pools below it in use or freed.
    fn open(&mut self, arena: usize) {
        let [_, pools] = self.heap.shape();
        let mark = match self.rng.below(4) {
            0 => 1,
            1 => pools,
            _ => self.rng.between(1, pools),
        };
        let often = self.rng.pick(&[2, 4, 100]);
        let mut freed = Vec::new();
        for pool in arena * pools..arena * pools + mark {
            let is_freed = self.rng.one_in(often);
            if is_freed {
                freed.push(pool);
            }
            if is_freed && self.rng.one_in(3) {
                self.put(pool, [0, 0, 0, 0, 65_535, 0, 0]);
            } else {
                self.carve(pool, is_freed);
            }
        }
        let look = Look::new(self.heap);
        let (record, list) = (look.arena(arena, 0), look.freed_list(arena));
        let free = pools - mark + freed.len();
        for (word, value) in [1, mark, free].into_iter().enumerate() {
            self.heap.books[record + word] = value as u32;
        }
        self.rng.shuffle(&mut freed);
        self.link(&list, &freed);
    }

    /// The blocks below nextoffset, in any order: first the live ones, then the freed chain.
    fn carve(&mut self, pool: usize, freed: bool) {
        let size = self.rng.pick(&self.sizes);
        let blocks = 4048 / size;
        let touched = match self.rng.below(4) {
            0 => blocks,
            1 => blocks - self.rng.below(2),
            _ => self.rng.between(2, blocks.min(9)),
        };
        let most = if touched == blocks { blocks } else { touched - 1 };
        let live = match self.rng.below(4) {
            _ if freed => 0,
            0 => most,
            1 => self.rng.pick(&[1, touched - 1]),
            _ => self.rng.between(1, most),
        };
        let mut row: Vec<usize> = (0..touched).collect();
        self.rng.shuffle(&mut row);
        for k in &row[..live] {
            self.heap.map[8 * pool + k / 64] |= 1 << (k % 64);
        }
        let mut freeblock = 0;
        for k in &row[live..] {
            let place = 48 + k * size;
            let at = 4096 * pool + place;
            self.heap.memory[at..at + 4].copy_from_slice(&(freeblock as u32).to_le_bytes());
            freeblock = place;
        }
        let class = size / self.alignment - 1;
        self.put(pool, [live, freeblock, 0, 0, class, 48 + touched * size, 4096 - size]);
    }
}
