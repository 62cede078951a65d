"""The replay program's answers, from 01's rules and W-206's: a heap of one arena of 16 pools, and the records. No
memory and no books: a pool keeps its freed blocks as a list whose last is freeblock, and a list's front is a Python
list's first."""
import struct

POOLS, POOL, HEADER, RECORD = 16, 4096, 48, 16
ASK, GIVE_BACK, RESIZE = 1, 2, 3


class Refused(Exception):
    """A call's number other than 0."""


class Pool:
    def __init__(self, n):
        self.start = POOL * n
        self.size = 0               # of a block; 0 while the pool has no class
        self.live = set()           # offsets in the pool, as all below
        self.freed = []
        self.nextoffset = 0

    def set_up(self, size):
        self.size = size
        self.freed = [HEADER + size, HEADER]
        self.nextoffset = HEADER + 2 * size

    def take(self):
        """Hands a block out. The next that was never used becomes freeblock where no freed one is left, and where it
        still fits."""
        block = self.freed.pop()
        if not self.freed and self.nextoffset <= POOL - self.size:
            self.freed = [self.nextoffset]
            self.nextoffset += self.size
        self.live.add(block)
        return self.start + block

    def give_back(self, block):
        self.live.remove(block)
        self.freed.append(block)

    def has_made(self, block):
        """Whether a block starts there that was handed out or set ready, be it live or not."""
        return block in range(HEADER, self.nextoffset, self.size)


class Heap:
    """One arena. While it is not open its mark is 0 and no pool is freed: so it need not be told from an open one."""

    def __init__(self):
        self.pools = [Pool(n) for n in range(POOLS)]
        self.mark = 0               # pools from here on are not carved
        self.freed_pools = []
        self.classes = {size: [] for size in range(8, 513, 8)}     # pools with live and freed blocks

    def live(self):
        return sum(len(pool.live) for pool in self.pools)

    def pool_of(self, offset):
        """The pool of a live offset. One that is not live is a dead block in a pool that is carved, or no block."""
        n, block = divmod(offset, POOL)
        if n < POOLS and block in self.pools[n].live:
            return self.pools[n], block
        raise Refused(10 if n < self.mark and self.pools[n].has_made(block) else 5)

    def ask(self, n):
        if not 1 <= n <= 512:
            raise Refused(3)
        size = 8 * ((n - 1) // 8 + 1)
        listed = self.classes[size]
        if not listed:
            listed.append(self.new_pool(size))
        pool = listed[0]
        offset = pool.take()
        if not pool.freed:
            listed.remove(pool)
        return offset, size

    def new_pool(self, size):
        """The pool freed last, or else the next one carved. It keeps its blocks where its class is the wanted one
        already."""
        if self.freed_pools:
            pool = self.freed_pools.pop(0)
        elif self.mark < POOLS:
            pool = self.pools[self.mark]
            pool.size = 0
            self.mark += 1
        else:
            raise Refused(4)
        if pool.size != size:
            pool.set_up(size)
        return pool

    def give_back(self, offset):
        pool, block = self.pool_of(offset)
        was_full = not pool.freed
        pool.give_back(block)
        if was_full:
            self.classes[pool.size].insert(0, pool)
        elif not pool.live:
            self.classes[pool.size].remove(pool)
            self.freed_pools.insert(0, pool)
            if len(self.freed_pools) == self.mark:      # every pool is free: the arena is released
                self.mark, self.freed_pools = 0, []
        return offset, pool.size

    def resize(self, offset, n):
        if not 1 <= n <= 512:
            raise Refused(3)
        size = self.pool_of(offset)[0].size
        if n <= size and 4 * n > 3 * size:
            return offset, size
        moved = self.ask(n)
        self.give_back(offset)
        return moved


def reply(heap, record):
    if len(record) < RECORD:
        return struct.pack('<BBHIII', 0, 8, 0, 0, 0, heap.live())
    op, size, offset = struct.unpack('<B3xII4x', record)
    try:
        if op not in (ASK, GIVE_BACK, RESIZE) or any(record[1:4] + record[12:]):
            raise Refused(9)
        number = 0
        offset, size = (heap.ask(size) if op == ASK else
                        heap.give_back(offset) if op == GIVE_BACK else heap.resize(offset, size))
    except Refused as refused:
        number = refused.args[0]
        offset, size = 0 if op == ASK else offset, 0
    return struct.pack('<BBHIII', op, number, 0, offset, size, heap.live())


def replies(data):
    """What the program writes for an input."""
    heap = Heap()
    return b''.join(reply(heap, data[i:i + RECORD]) for i in range(0, len(data), RECORD))
