/* The cases of 01, run through heskavern.h: K1 to K10, the fills, the moves, and each number from 0 to 7; those of 02's
   W-203, W-206, with number 10, W-211 and W-214; and what the header says is good to know. Each is run in both
   editions, with 01's numbers where that is eight, and is audited from call to call (heap.h). C99, and C++ too. */
#include "heap.h"

static void k1_to_k3(void)
{
    fresh(1, 16);
    EXPECT(done(ASK(1), 48));
    EXPECT(*pool_word(0, FREEBLOCK) == at(1) && *pool_word(0, NEXTOFFSET) == at(2));
    EXPECT(*pool_word(0, MAXNEXTOFFSET) == 4096 - now->smallest && *pool_word(0, CLASS) == 0);
    fresh(1, 16);
    EXPECT(done(ASK(1), 48));
    EXPECT(done(ASK(now->smallest), at(1)));
    EXPECT(*pool_word(0, FREEBLOCK) == at(2) && *pool_word(0, NEXTOFFSET) == at(3));
    fresh(1, 16);
    EXPECT(done(ASK(1), 48));
    EXPECT(done(ASK(1), at(1)));
    EXPECT(done(GIVE_BACK(48), 48));
    EXPECT(done(ASK(now->smallest), 48));
    expect_untouched();
}

static void k4_to_k6(void)
{
    const size_t second = now->smallest + 1, third = 2 * now->smallest + 1; /* sizes of the next two classes */
    fresh(1, 16);
    EXPECT(done(ASK(now->smallest), 48));
    EXPECT(done(ASK(second), 4144));
    fresh(1, 16);
    EXPECT(done(ASK(1), 48));
    EXPECT(done(ASK(1), at(1)));
    EXPECT(done(ASK(second), 4144));
    EXPECT(done(GIVE_BACK(48), 48));
    EXPECT(done(GIVE_BACK(at(1)), at(1)));
    EXPECT(done(ASK(now->smallest), at(1)));
    fresh(1, 16);
    EXPECT(done(ASK(1), 48));
    EXPECT(done(ASK(second), 4144));
    EXPECT(done(GIVE_BACK(48), 48));
    EXPECT(done(ASK(third), 48));
    expect_untouched();
}

static void k7_to_k10(void)
{
    fresh(1, 16);
    EXPECT(is(ASK(0), HESKAVERN_BAD_SIZE, 0));
    EXPECT(HESKAVERN_LARGEST == 512);
    EXPECT(is(ASK(HESKAVERN_LARGEST + 1), HESKAVERN_BAD_SIZE, 0));
    EXPECT(done(ASK(HESKAVERN_LARGEST), 48));
    EXPECT(*pool_word(0, MAXNEXTOFFSET) == 3584 && *pool_word(0, CLASS) == now->last_class);
    fresh(1, 16);
    EXPECT(done(ASK(100), 48));
    EXPECT(done(VIEW_SIZE(48), now->of_100));
    EXPECT(done(RESIZE(48, now->of_100 / 4 * 3 + 1), 48)); /* to 79 in edition eight, and to 85 in sixteen */
    EXPECT(done(RESIZE(48, now->of_100 / 4 * 3), 4144));
    fresh(1, 16);
    EXPECT(done(ASK(now->smallest), 48));
    EXPECT(done(RESIZE(48, now->smallest / 4 * 3), at(1)));
    EXPECT(done(RESIZE(at(1), now->smallest / 4 * 3 + 1), at(1)));
    fresh(1, 16);
    EXPECT(done(ASK(1), 48));
    EXPECT(is(GIVE_BACK(52), HESKAVERN_NO_BLOCK, 0));
    EXPECT(is(GIVE_BACK(48 + now->smallest / 2), HESKAVERN_NO_BLOCK, 0));
    EXPECT(is(GIVE_BACK(0), HESKAVERN_NO_BLOCK, 0));
    EXPECT(is(GIVE_BACK(65536), HESKAVERN_NO_BLOCK, 0));
    EXPECT(is(GIVE_BACK((size_t)-1), HESKAVERN_NO_BLOCK, 0));
    EXPECT(done(GIVE_BACK(48), 48));
    EXPECT(is(GIVE_BACK(48), HESKAVERN_NO_BLOCK, 0)); /* its arena is released */
    expect_untouched();
}

/* Asks for a block of each of the first n classes: each has a pool of its own. */
static void ask_classes(uint32_t n)
{
    uint32_t i;
    for (i = 1; i <= n; i++)
        EXPECT(done(ASK(i * now->smallest), 4096 * (i - 1) + 48));
}

/* Arena 1, which comes to have two free pools, goes behind arena 0, which has one: so the next pool is of arena 0. */
static void usable_order(void)
{
    fresh(2, 3);
    ask_classes(6);
    EXPECT(done(GIVE_BACK(48), 48));
    EXPECT(done(GIVE_BACK(12336), 12336));
    EXPECT(done(GIVE_BACK(16432), 16432));
    EXPECT(done(ASK(7 * now->smallest), 48));
    expect_untouched();
}

/* With this value in the word the block cannot be given back, and nothing changes. */
static void expect_no_walk(uint32_t *word, uint32_t value, size_t offset)
{
    uint32_t before = *word;
    *word = value;
    remember();
    EXPECT(is(GIVE_BACK(offset), HESKAVERN_DAMAGED, 0));
    EXPECT(unchanged());
    *word = before;
}

/* The words that an arena moves by: its next is read even where it stays, its previous only where it moves. It passes
   at most A others: where links lead round, that is 6. */
static void damaged_order(void)
{
    fresh(1, 4);
    ask_classes(3);
    expect_no_walk(arena_word(0, NEXT), 9, 4144);
    *arena_word(0, PREVIOUS) = 9;
    EXPECT(done(GIVE_BACK(4144), 4144));
    fresh(2, 3);
    ask_classes(6);
    EXPECT(done(GIVE_BACK(48), 48));
    EXPECT(done(GIVE_BACK(12336), 12336));
    expect_no_walk(arena_word(1, PREVIOUS), 3, 16432);
    expect_no_walk(arena_word(0, NEXT), 3, 16432);
    expect_no_walk(arena_word(0, NEXT), 1, 16432); /* arena 0 itself */
    EXPECT(done(GIVE_BACK(16432), 16432));
    expect_untouched();
}

/* The answer to the n-th ask for a smallest block, from 1, on a heap that is filled with them. */
static uint32_t nth(uint32_t n) { return (n - 1) / now->in_pool * 4096 + at((n - 1) % now->in_pool); }

/* Asks for a smallest block, n times on a fresh heap, and says whether each is served as it should be. */
static int serves(uint32_t n)
{
    uint32_t i = 1;
    while (i <= n && done(ASK(now->smallest), nth(i)))
        i++;
    return i == n + 1;
}

/* The places that the cases speak of, in 01's numbers and in those of edition sixteen. */
static void places(void)
{
    if (now->edition == HESKAVERN_EIGHT)
        EXPECT(at(1) == 56 && at(2) == 64 && at(3) == 72 && nth(506) == 4088 && nth(507) == 4144 && nth(1012) == 8184);
    else
        EXPECT(at(1) == 64 && at(2) == 80 && at(3) == 96 && nth(253) == 4080 && nth(254) == 4144 && nth(506) == 8176);
}

static void fill_with_smallest(void)
{
    const uint32_t most = 2 * now->in_pool;
    uint32_t n = 1;
    fresh(1, 2);
    EXPECT(serves(most));
    while (n <= most && is(ASK(now->smallest), HESKAVERN_NO_ROOM, 0) && done(GIVE_BACK(nth(n)), nth(n))
        && done(ASK(1), nth(n)))
        n++;
    EXPECT(n == most + 1);
    expect_untouched();
}

static void fill_with_512(void)
{
    uint32_t n;
    fresh(1, 2);
    for (n = 1; n <= 14; n++)
        EXPECT(done(ASK(512), (n - 1) / 7 * 4096 + 48 + 512 * ((n - 1) % 7)));
    EXPECT(done(VIEW_SIZE(3120), 512));
    EXPECT(is(ASK(512), HESKAVERN_NO_ROOM, 0));
    EXPECT(is(VIEW_SIZE(3632), HESKAVERN_NO_BLOCK, 0));
    expect_untouched();
}

static void moves(void)
{
    uint8_t text[HESKAVERN_LARGEST];
    const uint32_t size = now->of_100;
    heskavern_answer moved;
    size_t i;
    for (i = 0; i < size; i++)
        text[i] = (uint8_t)i;
    fresh(1, 16);
    EXPECT(done(ASK(size), 48));
    EXPECT(done(WRITE(48, text, size), 48));
    remember();
    EXPECT(done(RESIZE(48, size), 48));
    EXPECT(unchanged());
    moved = RESIZE(48, size + 1);
    EXPECT(done(moved, 4144));
    EXPECT(done(VIEW_SIZE(moved.value), size + now->smallest));
    EXPECT(memcmp(memory + moved.value, text, size) == 0);
    EXPECT(is(VIEW_SIZE(48), HESKAVERN_DEAD_BLOCK, 0));
    EXPECT(is(RESIZE(48, 0), HESKAVERN_BAD_SIZE, 0));
    EXPECT(is(RESIZE(48, 1), HESKAVERN_DEAD_BLOCK, 0));
    expect_untouched();
}

static void view_and_write(void)
{
    heskavern_part part;
    fresh(1, 2);
    EXPECT(done(ASK(12), 48));
    EXPECT(done(WRITE(48, "payee", 5), 48));
    part = heskavern_view(HEAP, 48);
    EXPECT(lies(part, memory + 48, 16));
    EXPECT(memcmp(part.bytes, "payee", 5) == 0 && filled(part.bytes + 5, 11));
    EXPECT(done(WRITE(48, "", 0), 48));
    EXPECT(done(WRITE(48, books, 4), 48)); /* buffers that are only read may overlap */
    EXPECT(memcmp(memory + 48, books, 4) == 0);
    EXPECT(done(WRITE(48, "sixteen letters.", 16), 48));
    remember();
    EXPECT(is(WRITE(48, "seventeen letters", 17), HESKAVERN_DOES_NOT_FIT, 0));
    EXPECT(is(WRITE(64, "no", 2), HESKAVERN_DEAD_BLOCK, 0)); /* it is set ready for the next ask */
    EXPECT(is(VIEW_SIZE(64), HESKAVERN_DEAD_BLOCK, 0));
    EXPECT(lies(heskavern_view(HEAP, 64), memory, 0));
    EXPECT(unchanged());
    expect_untouched();
}

/* The phrase itself for an offset that is not live, whatever once stood there, and wherever the phrase lies. */
static void expect_phrase(size_t offset)
{
    static const char phrase[] = "this amount can't be read out";
    EXPECT(VIEW_SIZE(offset).number != HESKAVERN_DONE);
    EXPECT(lies(STAND_IN(offset, phrase, 29), phrase, 29));
    EXPECT(lies(STAND_IN(offset, phrase, 0), phrase, 0));
    EXPECT(lies(STAND_IN(offset, memory + 40, 24), memory + 40, 24));
}

/* The block's own part while it is live, whatever the phrase is: also an empty one, one that has the block's bytes, and
   one that is a part of memory, over the block itself. */
static void expect_own(size_t offset, size_t size)
{
    uint8_t same[HESKAVERN_LARGEST];
    memcpy(same, memory + offset, size);
    EXPECT(done(VIEW_SIZE(offset), (uint32_t)size));
    EXPECT(lies(STAND_IN(offset, "no", 2), memory + offset, size));
    EXPECT(lies(STAND_IN(offset, "", 0), memory + offset, size));
    EXPECT(lies(STAND_IN(offset, same, size), memory + offset, size));
    EXPECT(lies(STAND_IN(offset, memory + offset - 8, size), memory + offset, size));
}

static void stand_ins(void)
{
    static const size_t not_live[] = {0, 47, 52, 80, 4144, HESKAVERN_MEMORY_BYTES(1, 2), (size_t)-1};
    size_t i;
    fresh(1, 2);
    expect_phrase(48);
    EXPECT(done(ASK(12), 48));
    EXPECT(done(ASK(12), 64));
    EXPECT(done(WRITE(48, "sixteen letters.", 16), 48));
    remember();
    expect_own(48, 16);
    for (i = 0; i < sizeof not_live / sizeof *not_live; i++)
        expect_phrase(not_live[i]);
    EXPECT(unchanged());
    EXPECT(done(GIVE_BACK(48), 48));
    remember();
    expect_phrase(48);
    expect_own(64, 16);
    EXPECT(unchanged());
    EXPECT(done(ASK(16), 48));
    EXPECT(done(WRITE(48, "the new holder's", 16), 48));
    expect_own(48, 16);
    expect_untouched();
}

/* Every call on this offset is refused with 10, or with 5, whatever the text; a bad size comes first. Nothing changes,
   and the stand-in is the phrase. */
static void expect_not_live(size_t offset, uint32_t number)
{
    static const uint8_t text[HESKAVERN_LARGEST + 1] = {0};
    remember();
    EXPECT(is(GIVE_BACK(offset), number, 0));
    EXPECT(is(RESIZE(offset, 8), number, 0));
    EXPECT(is(RESIZE(offset, HESKAVERN_LARGEST), number, 0));
    EXPECT(is(RESIZE(offset, 0), HESKAVERN_BAD_SIZE, 0));
    EXPECT(is(VIEW_SIZE(offset), number, 0));
    EXPECT(lies(heskavern_view(HEAP, offset), memory, 0));
    EXPECT(is(WRITE(offset, text, 0), number, 0));
    EXPECT(is(WRITE(offset, text, sizeof text), number, 0));
    expect_phrase(offset);
    EXPECT(unchanged());
}

static void expect_dead(size_t offset) { expect_not_live(offset, HESKAVERN_DEAD_BLOCK); }
static void expect_none(size_t offset) { expect_not_live(offset, HESKAVERN_NO_BLOCK); }

/* What a user meets, on a heap that only the calls have written. */
static void dead_or_none(void)
{
    fresh(1, 2);
    expect_none(48);
    EXPECT(done(ASK(1), 48));
    expect_dead(at(1)); /* set ready, and never handed out */
    expect_none(at(2)); /* the block after it */
    expect_none(52);
    expect_none(48 + now->smallest / 2);
    expect_none(40);
    expect_none(0);
    expect_none(4144);  /* a pool that is not carved */
    expect_none(HESKAVERN_MEMORY_BYTES(1, 2) + at(1));
    expect_none((size_t)-1);
    EXPECT(done(ASK(1), at(1)));
    EXPECT(done(GIVE_BACK(48), 48));
    expect_dead(48);    /* a second give-back, with another block out */
    EXPECT(done(ASK(1), 48));
    EXPECT(done(GIVE_BACK(48), 48));
    EXPECT(done(GIVE_BACK(at(1)), at(1)));
    expect_none(48);    /* with the last block its arena was released */
    expect_none(at(1));

    EXPECT(done(ASK(now->smallest), 48));
    EXPECT(done(ASK(2 * now->smallest), 4144));
    EXPECT(done(GIVE_BACK(48), 48));
    expect_dead(48);    /* an emptied pool keeps its blocks */
    expect_dead(at(1));
    EXPECT(done(ASK(3 * now->smallest), 48));
    expect_none(at(1)); /* until it is set to another size */
    expect_dead(at(3));
    expect_none(at(6));
    EXPECT(done(GIVE_BACK(48), 48));
    EXPECT(done(GIVE_BACK(4144), 4144));
    EXPECT(done(ASK(3 * now->smallest), 48));
    expect_none(4144);  /* the arena is open again, and this pool not carved again */
    EXPECT(done(ASK(2 * now->smallest), 4144));
    expect_dead(4096 + at(2));
    expect_untouched();
}

/* The last block of a pool: of one that the blocks fill to its end, and of one that they do not. */
static void last_blocks(void)
{
    uint32_t n;
    fresh(1, 2);
    EXPECT(serves(now->in_pool));
    EXPECT(done(GIVE_BACK(4096 - now->smallest), 4096 - now->smallest));
    expect_dead(4096 - now->smallest);
    expect_none(4096 - now->smallest / 2);
    expect_none(4096);
    fresh(1, 2);
    for (n = 0; n < 7; n++)
        EXPECT(done(ASK(512), 48 + 512 * n));
    EXPECT(done(GIVE_BACK(3120), 3120));
    expect_dead(3120);
    expect_none(3632);  /* a block there would end past its pool */
    expect_untouched();
}

/* Pool 3 of two arenas of two pools, the second of its arena, with blocks of 32 bytes at the places 48, which was given
   back, 80, which is out, 112, which is set ready, and 144, which is nextoffset. All four pools are in use, with sizes
   that both editions have. */
enum { POOL = 3, START = POOL * 4096 };
static void four_in_use(void)
{
    fresh(2, 2);
    EXPECT(done(ASK(16), 48));
    EXPECT(done(ASK(48), 4144));
    EXPECT(done(ASK(64), 8240));
    EXPECT(done(ASK(32), START + 48));
    EXPECT(done(ASK(32), START + 80));
    EXPECT(done(GIVE_BACK(START + 48), START + 48));
    EXPECT(*arena_word(1, OPEN) == 1 && *arena_word(1, MARK) == 2 && *pool_word(POOL, NEXTOFFSET) == 144);
    expect_dead(START + 48);
    expect_dead(START + 112);
    expect_none(START + 144);
}

/* With this value in a word of the books, the dead block at this place of pool 3 is dead still, or none. */
static void expect_with(uint32_t *word, uint32_t value, size_t place, uint32_t number)
{
    uint32_t before = *word;
    *word = value;
    expect_not_live(START + place, number);
    *word = before;
}

/* Each word that tells a dead block from none, on both sides of its bound: on damaged books too the tests go by what
   the word says. */
static void dead_by_the_books(void)
{
    uint32_t *open = arena_word(1, OPEN), *mark = arena_word(1, MARK), *class_word, *next;
    const uint32_t dead = HESKAVERN_DEAD_BLOCK, none = HESKAVERN_NO_BLOCK;
    four_in_use();
    class_word = pool_word(POOL, CLASS);
    next = pool_word(POOL, NEXTOFFSET);
    expect_with(open, 0, 48, none);
    expect_with(open, 1, 48, dead);
    expect_with(open, 2, 48, none);
    expect_with(open, UINT32_MAX, 48, none);
    expect_with(mark, 0, 48, none);         /* the pool's number in its arena is 1 */
    expect_with(mark, 1, 48, none);
    expect_with(mark, 2, 48, dead);
    expect_with(mark, 3, 48, dead);         /* above P: the mark is compared, whatever it is */
    expect_with(mark, UINT32_MAX, 48, dead);
    expect_with(next, 0, 48, none);         /* the place in the pool is compared, not the offset */
    expect_with(next, 48, 48, none);
    expect_with(next, 49, 48, dead);        /* also with what is no block's end */
    expect_with(next, 111, 112, none);
    expect_with(next, 112, 112, none);
    expect_with(next, 113, 112, dead);
    expect_with(next, 145, 144, dead);      /* never set ready: only the word says so */
    expect_with(next, UINT32_MAX, 4048, dead);
    expect_with(next, UINT32_MAX, 4080, none);  /* no block starts so near to the end */
    expect_with(next, UINT32_MAX, 4095, none);
    expect_with(next, UINT32_MAX, 16, none);    /* nor before the first one, or between two */
    expect_with(next, UINT32_MAX, 47, none);
    expect_with(next, UINT32_MAX, 49, none);
    expect_with(next, UINT32_MAX, 64, none);
    expect_with(class_word, 0, 96, dead);   /* a start by the class that stands there */
    expect_with(class_word, 0, 112, dead);
    expect_with(class_word, now->last_class, 48, dead);
    expect_with(class_word, now->last_class, 112, none);
    expect_with(class_word, now->last_class + 1, 48, none);
    expect_with(class_word, 65535, 48, none);
    expect_untouched();
}

/* The other arena and the other pools have no say; a block whose bit is set is live, whatever those words are. */
static void dead_or_live(void)
{
    four_in_use();
    *arena_word(0, OPEN) = *arena_word(0, MARK) = 0;
    *pool_word(2, CLASS) = now->last_class + 1;
    *pool_word(2, NEXTOFFSET) = 0;
    expect_dead(START + 48);
    *arena_word(1, OPEN) = *arena_word(1, MARK) = *pool_word(POOL, NEXTOFFSET) = 0;
    expect_none(START + 48);
    EXPECT(done(VIEW_SIZE(START + 80), 32));
    map[8 * POOL] |= 1;
    EXPECT(done(VIEW_SIZE(START + 48), 32));
    EXPECT(done(WRITE(START + 48, "owed", 4), START + 48));
    EXPECT(done(RESIZE(START + 48, 32), START + 48));
    EXPECT(done(GIVE_BACK(START + 48), START + 48));
    expect_none(START + 48);
    expect_untouched();
}

/* A resize whose ask takes the pool of its own block, and sets it to another size: by that one the old offset is a dead
   block, or none. Either way the give-back cannot be done, and what the ask has left of the text stands in the new
   block. */
static void half_done(uint32_t size, const char *text, uint32_t number)
{
    fresh(1, 2);
    EXPECT(done(ASK(8), 48));
    EXPECT(done(ASK(8), at(1)));
    EXPECT(done(ASK(8), at(2)));
    EXPECT(done(WRITE(at(2), "owed 100", 8), at(2)));
    EXPECT(done(GIVE_BACK(48), 48));
    EXPECT(done(GIVE_BACK(at(1)), at(1)));
    *arena_word(0, FREED_HEAD) = 1;
    EXPECT(is(RESIZE(at(2), size), HESKAVERN_DAMAGED, 48));
    EXPECT(done(VIEW_SIZE(48), size) && memcmp(memory + 48, text, 8) == 0);
    expect_not_live(at(2), number);
    expect_untouched();
}

static void half_done_resizes(void)
{
    half_done(2 * now->smallest, "\0\0\0\0 100", HESKAVERN_DEAD_BLOCK); /* the link of the block set ready is there */
    half_done(3 * now->smallest, "owed 100", HESKAVERN_NO_BLOCK);
}

static void roll_calls(void)
{
    fresh(2, 2);
    EXPECT(done(ROLL_CALL(0), 0));
    EXPECT(done(ASK(300), 48));
    EXPECT(done(ASK(8), 4144));
    EXPECT(done(ASK(8), 4096 + at(1)));
    EXPECT(done(ASK(now->smallest + 1), 8240));
    EXPECT(done(GIVE_BACK(4144), 4144));
    remember();
    EXPECT(is(ROLL_CALL(5), HESKAVERN_DOES_NOT_FIT, 0));
    EXPECT(filled(roll, sizeof roll));
    EXPECT(done(ROLL_CALL(6), 3));
    EXPECT(roll[0] == 48 && roll[1] == 304 && roll[2] == 4096 + at(1) && roll[3] == now->smallest);
    EXPECT(roll[4] == 8240 && roll[5] == 2 * now->smallest);
    EXPECT(filled(roll + 6, sizeof roll - 6 * sizeof *roll));
    EXPECT(unchanged());
    expect_untouched();
}

/* The roll has so many blocks of this size, the first here and each so many bytes after the one before: with just room
   for them, and with room for every block that a pool could hold, where a roll call counts none before it writes. With
   a word less it has no room. */
static void expect_rolled(uint32_t blocks, uint32_t size, uint32_t first, uint32_t step)
{
    const size_t most = HESKAVERN_ROLL_WORDS(books[0], books[1]), rooms[] = {2 * (size_t)blocks, most};
    size_t i;
    memset(roll, FILL, sizeof roll);
    if (blocks > 0)
        EXPECT(is(ROLL_CALL(2 * blocks - 1), HESKAVERN_DOES_NOT_FIT, 0));
    EXPECT(filled(roll, sizeof roll));
    for (i = 0; i < sizeof rooms / sizeof *rooms; i++) {
        uint32_t n = 0;
        memset(roll, FILL, sizeof roll);
        EXPECT(done(ROLL_CALL(rooms[i]), blocks));
        while (n < blocks && roll[2 * n] == first + n * step && roll[2 * n + 1] == size)
            n++;
        EXPECT(n == blocks);
        EXPECT(filled(roll + 2 * blocks, sizeof roll - 2 * blocks * sizeof *roll));
    }
}

/* Bits at no block of their pool's class: they are in no roll, and take no room. */
static void stray_bits(void)
{
    const uint32_t last = now->in_pool - 1;
    size_t i;
    fresh(1, 2);
    expect_rolled(0, 0, 0, 0);
    EXPECT(done(ASK(512), 48));
    map[0] |= (uint64_t)1 << 9;     /* a pool has seven blocks of 512 bytes */
    expect_rolled(1, 512, 48, 0);
    for (i = 0; i < map_words; i++)
        map[i] = UINT64_MAX;
    expect_rolled(7, 512, 48, 512);     /* pool 1 has no class */
    *pool_word(0, CLASS) = 0;
    expect_rolled(now->in_pool, now->smallest, 48, now->smallest);
    *pool_word(0, CLASS) = now->last_class + 1;
    expect_rolled(0, 0, 0, 0);
    for (i = 0; i < map_words; i++)
        map[i] = 0;
    *pool_word(0, CLASS) = 0;
    *pool_word(1, CLASS) = 0;
    map[last / 64] = map[8 + last / 64] = (uint64_t)1 << last % 64; /* of each pool, after words of zeros */
    expect_rolled(2, now->smallest, 4096 - now->smallest, 4096);
    expect_untouched();
}

/* The largest heap, filled: the roll's macro gives just the words that are needed in edition eight, and twice as many
   in edition sixteen. */
static void largest(void)
{
    const uint32_t blocks = now->in_pool * A * P;
    const size_t words = HESKAVERN_ROLL_WORDS(A, P) * 8 / now->smallest;
    uint32_t n = 1;
    fresh(A, P);
    EXPECT(serves(blocks));
    EXPECT(is(ASK(8), HESKAVERN_NO_ROOM, 0));
    EXPECT(is(ROLL_CALL(words - 1), HESKAVERN_DOES_NOT_FIT, 0));
    EXPECT(done(ROLL_CALL(words), blocks));
    while (n <= blocks && roll[2 * n - 2] == nth(n) && roll[2 * n - 1] == now->smallest)
        n++;
    EXPECT(n == blocks + 1);
    EXPECT(filled(roll + words, sizeof roll - words * sizeof *roll));
    expect_untouched();
}

/* Every call answers this number over the buffers as they are lent, the audit its first rule, and nothing changes. The
   sizes and offsets are good ones. */
static void expect_refused(uint32_t number)
{
    heskavern_request request = {8, 97, 98};
    remember();
    EXPECT(is(ASK(8), number, 0));
    EXPECT(is(ASK_ALL(&request, 1), number, 0));
    EXPECT(request.size == 8 && request.number == 97 && request.offset == 98);
    EXPECT(is(GIVE_BACK(48), number, 0));
    EXPECT(is(RESIZE(48, 100), number, 0));
    EXPECT(is(VIEW_SIZE(48), number, 0));
    EXPECT(lies(heskavern_view(HEAP, 48), memory, 0));
    expect_phrase(48);
    EXPECT(is(WRITE(48, "owed", 4), number, 0));
    EXPECT(is(ROLL_CALL(100), number, 0));
    EXPECT(AUDIT() == HESKAVERN_AUDIT_SHAPE);
    EXPECT(unchanged());
    EXPECT(filled(roll, sizeof roll));
}

static void wrong_shapes(void)
{
    static const size_t shapes[][2] = {{0, 2}, {17, 2}, {1, 1}, {1, 65}, {(size_t)-1, (size_t)-1}};
    size_t i;
    for (i = 0; i < sizeof shapes / sizeof *shapes; i++) {
        fresh(1, 2);
        EXPECT(done(ASK(8), 48));
        remember();
        EXPECT(is(FORMAT(shapes[i][0], shapes[i][1], now->edition), HESKAVERN_OUT_OF_RANGE, 0));
        EXPECT(unchanged());
        books[0] = (uint32_t)shapes[i][0];
        books[1] = (uint32_t)shapes[i][1];
        expect_refused(HESKAVERN_OUT_OF_RANGE);
    }
}

static void wrong_lengths(void)
{
    size_t *const lengths[] = {&memory_bytes, &books_words, &map_words};
    size_t i;
    fresh(1, 2);
    EXPECT(done(ASK(8), 48));
    for (i = 0; i < 6; i++) {
        lend(1, 2);
        *lengths[i / 2] += i % 2 ? 1 : (size_t)-1;
        EXPECT(is(FORMAT(1, 2, now->edition), HESKAVERN_NOT_EXACT, 0));
        expect_refused(HESKAVERN_NOT_EXACT);
    }
    lend(1, 2);
    books_words = 1;
    books[0] = 0;
    EXPECT(is(FORMAT(1, 2, now->edition), HESKAVERN_NOT_EXACT, 0));
    EXPECT(is(FORMAT(0, 2, now->edition), HESKAVERN_OUT_OF_RANGE, 0));
    expect_refused(HESKAVERN_NOT_EXACT);
}

/* The tests of a shape in their order, on both sides of each: books of under two words; A and P; books that do not
   reach the edition's word; the edition; the lengths. */
static void wrong_editions(void)
{
    static const uint32_t wrong[] = {2, 3, 65536, UINT32_MAX};
    size_t i;
    for (i = 0; i < sizeof wrong / sizeof *wrong; i++) {
        fresh(1, 2);
        EXPECT(done(ASK(8), 48));
        books[EDITION] = wrong[i];
        expect_refused(HESKAVERN_OUT_OF_RANGE);
        memory_bytes--;
        expect_refused(HESKAVERN_OUT_OF_RANGE);
        books_words = EDITION + 1;
        expect_refused(HESKAVERN_OUT_OF_RANGE);
        books_words = EDITION;
        expect_refused(HESKAVERN_NOT_EXACT);
        books_words = 2;
        expect_refused(HESKAVERN_NOT_EXACT);
        books[0] = 0;
        expect_refused(HESKAVERN_OUT_OF_RANGE);
        books_words = 1;
        expect_refused(HESKAVERN_NOT_EXACT);
        books_words = EDITION;
        expect_refused(HESKAVERN_OUT_OF_RANGE);
        books[0] = 1;
        books[EDITION] = (uint32_t)now->edition;
        expect_refused(HESKAVERN_NOT_EXACT);
        books_words = EDITION + 1;
        expect_refused(HESKAVERN_NOT_EXACT);
        lend(1, 2);
        EXPECT(done(VIEW_SIZE(48), now->smallest));
    }
}

/* Format tests the edition after A and P, which have its number, and before the lengths; it is not cut to 32 bits. */
static void wrong_formats(void)
{
    static const size_t wrong[] = {2, 3, (size_t)1 << 32, ((size_t)1 << 32) + 1, (size_t)-1};
    size_t i;
    fresh(1, 2);
    EXPECT(done(ASK(8), 48));
    remember();
    for (i = 0; i < sizeof wrong / sizeof *wrong; i++) {
        lend(1, 2);
        EXPECT(is(FORMAT(1, 2, wrong[i]), HESKAVERN_OUT_OF_RANGE, 0));
        EXPECT(is(FORMAT(17, 2, wrong[i]), HESKAVERN_OUT_OF_RANGE, 0));
        EXPECT(is(FORMAT(1, 1, wrong[i]), HESKAVERN_OUT_OF_RANGE, 0));
        map_words++;
        EXPECT(is(FORMAT(1, 2, wrong[i]), HESKAVERN_OUT_OF_RANGE, 0));
        books_words = EDITION;
        EXPECT(is(FORMAT(1, 2, wrong[i]), HESKAVERN_OUT_OF_RANGE, 0));
        EXPECT(is(FORMAT(1, 2, now->edition), HESKAVERN_NOT_EXACT, 0));
        EXPECT(is(FORMAT(1, 65, now->edition), HESKAVERN_OUT_OF_RANGE, 0));
        books_words = 0;
        EXPECT(is(FORMAT(1, 2, wrong[i]), HESKAVERN_OUT_OF_RANGE, 0));
    }
    EXPECT(unchanged());
}

/* The class heads are those of a heap whose one pool is of this class, and of the words after them only the edition's
   may be other than 0. */
static int heads_are(uint32_t class_of)
{
    uint32_t word = 4;
    while (word < 72 && books[word] == (word == 4 + class_of ? 1 : word == EDITION ? now->edition : 0))
        word++;
    return word == 72;
}

/* Each size has its class, and a block of the least multiple of the alignment that is enough for it. */
static void classes(void)
{
    uint32_t n;
    fresh(1, 2);
    for (n = 1; n <= HESKAVERN_LARGEST; n++) {
        const uint32_t class_of = (n - 1) / now->smallest;
        EXPECT(done(FORMAT(1, 2, now->edition), 0));
        EXPECT(done(ASK(n), 48) && done(VIEW_SIZE(48), now->smallest * (class_of + 1)));
        EXPECT(*pool_word(0, CLASS) == class_of && heads_are(class_of));
    }
    expect_untouched();
}

/* One block for every size: offsets and sizes are multiples of the alignment, and in edition eight not all of 16. */
static void multiples(void)
{
    uint32_t n, odd = 0;
    fresh(2, 64);
    for (n = 1; n <= HESKAVERN_LARGEST; n++)
        EXPECT(ASK(n).number == HESKAVERN_DONE);
    EXPECT(done(ROLL_CALL(2 * HESKAVERN_LARGEST), HESKAVERN_LARGEST));
    for (n = 0; n < 2 * HESKAVERN_LARGEST; n++) {
        EXPECT(roll[n] % now->smallest == 0);
        odd += roll[n] % 16 != 0;
    }
    EXPECT((odd > 0) == (now->edition == HESKAVERN_EIGHT));
}

/* 505 and 506 bound the count in both editions, though in sixteen no pool has so many blocks. */
static void counts(void)
{
    fresh(1, 2);
    EXPECT(serves(3));
    *pool_word(0, COUNT) = 400;
    EXPECT(done(ASK(now->smallest), at(3)));
    *pool_word(0, COUNT) = 505;
    EXPECT(done(ASK(now->smallest), at(4)));
    remember();
    EXPECT(is(ASK(1), HESKAVERN_DAMAGED, 0));
    EXPECT(unchanged());
    EXPECT(done(GIVE_BACK(48), 48));
    *pool_word(0, COUNT) = 507;
    remember();
    EXPECT(is(GIVE_BACK(at(1)), HESKAVERN_DAMAGED, 0));
    EXPECT(unchanged());
}

/* The edition is what its word says. With the other one there an empty heap is what a format of that edition makes; and
   with blocks 0 and 1 out, every call takes their bits for those of the other edition's smallest blocks. */
static void other_edition(void)
{
    const struct edition *other = &editions[1 - now->edition];
    const uint32_t next = 48 + other->smallest;
    fresh(1, 16);
    books[EDITION] = (uint32_t)other->edition;
    remember();
    EXPECT(done(FORMAT(1, 16, other->edition), 0));
    EXPECT(unchanged());
    EXPECT(done(FORMAT(1, 16, now->edition), 0));
    EXPECT(books[EDITION] == now->edition);
    EXPECT(serves(2));
    books[EDITION] = (uint32_t)other->edition;
    EXPECT(done(VIEW_SIZE(next), other->smallest));
    EXPECT(done(RESIZE(next, other->smallest), next));
    EXPECT(done(WRITE(next, "sixteen letters.", other->smallest), next));
    EXPECT(is(WRITE(next, "seventeen letters", other->smallest + 1), HESKAVERN_DOES_NOT_FIT, 0));
    EXPECT(done(ROLL_CALL(4), 2));
    EXPECT(roll[0] == 48 && roll[1] == other->smallest && roll[2] == next && roll[3] == other->smallest);
    EXPECT(is(GIVE_BACK(at(1)), other->edition == HESKAVERN_EIGHT ? HESKAVERN_DEAD_BLOCK : HESKAVERN_NO_BLOCK, 0));
    EXPECT(is(ASK(1), HESKAVERN_DAMAGED, 0)); /* maxnextoffset is not that of this size */
    expect_untouched();
}

static void damaged(void)
{
    fresh(1, 16);
    EXPECT(done(ASK(8), 48));
    books[4] = 17; /* the class head, above the pools that there are */
    remember();
    EXPECT(is(ASK(8), HESKAVERN_DAMAGED, 0));
    EXPECT(unchanged());
    books[4] = 1;
    EXPECT(done(WRITE(48, "owed", 4), 48));
    *pool_word(0, COUNT) = 0; /* so that no block can be given back there */
    remember();
    EXPECT(is(GIVE_BACK(48), HESKAVERN_DAMAGED, 0));
    EXPECT(unchanged());
    EXPECT(is(RESIZE(48, 100), HESKAVERN_DAMAGED, 4144)); /* half done */
    EXPECT(memcmp(memory + 4144, "owed", 4) == 0);
    EXPECT(done(ROLL_CALL(4), 2));
    EXPECT(roll[0] == 48 && roll[1] == now->smallest && roll[2] == 4144 && roll[3] == now->of_100);
    *pool_word(0, CLASS) = now->last_class + 1;
    EXPECT(is(VIEW_SIZE(48), HESKAVERN_NO_BLOCK, 0));
    expect_untouched();
}

/* The header's sums: 300 texts of each block size up to 24, in edition sixteen of sizes 16 and 24, and 20 of 500 fit in
   8 pools, and the blocks of a size are aligned as it says, counted from memory's start. */
static void sized_and_aligned(void)
{
    static const uint32_t sizes[] = {8, 16, 24, 500}, texts[] = {300, 300, 300, 20}, aligned[] = {8, 16, 8, 8};
    const size_t first = now->edition == HESKAVERN_EIGHT ? 0 : 1;
    size_t i, text;
    fresh(1, 8);
    for (i = first; i < sizeof sizes / sizeof *sizes; i++) {
        for (text = 0; text < texts[i]; text++) {
            heskavern_answer block = ASK(sizes[i]);
            EXPECT(block.number == HESKAVERN_DONE && block.value % aligned[i] == 0 && block.value % now->smallest == 0);
        }
    }
    EXPECT(ROLL_CALL(HESKAVERN_ROLL_WORDS(1, 8)).value == 920 - 300 * first);
    EXPECT(is(ASK(40), HESKAVERN_NO_ROOM, 0));
}

/* A resize that moves holds both blocks for a moment, so it wants one block more than there are texts. */
static void resize_wants_one_more(void)
{
    fresh(1, 2);
    EXPECT(serves(now->in_pool));
    EXPECT(done(ASK(500), 4144));
    EXPECT(is(RESIZE(48, 6), HESKAVERN_NO_ROOM, 0));
    EXPECT(done(GIVE_BACK(at(1)), at(1)));
    EXPECT(done(RESIZE(48, 6), at(1)));
}

/* A heap that is copied, all three buffers together, is the same heap elsewhere; and a stale offset is the block's, not
   its holder's. */
static void copied_and_stale(void)
{
    heskavern_part part;
    fresh(1, 2);
    EXPECT(done(ASK(4), 48));
    EXPECT(done(WRITE(48, "owed", 4), 48));
    remember();
    fresh(1, 2);
#define COPY memory_before, memory_bytes, books_before, books_words, map_before, map_words
    part = heskavern_view(COPY, 48);
    EXPECT(lies(part, memory_before + 48, now->smallest) && memcmp(part.bytes, "owed", 4) == 0);
    EXPECT(done(heskavern_give_back(COPY, 48), 48));
    EXPECT(is(heskavern_give_back(COPY, 48), HESKAVERN_NO_BLOCK, 0)); /* its arena is released */
    EXPECT(done(heskavern_ask(COPY, 4), 48));
    EXPECT(done(heskavern_give_back(COPY, 48), 48));
#undef COPY
}

/* Books and map of a second heap of the same shape: no call can tell, and an ask writes into a block that is held. */
static void mixed_up(void)
{
    fresh(1, 2);
    remember();
    EXPECT(done(ASK(4), 48));
    EXPECT(done(ASK(4), at(1)));
    EXPECT(done(WRITE(at(1), "paid", 4), at(1)));
    EXPECT(done(heskavern_ask(memory, memory_bytes, books_before, books_words, map_before, map_words, 4), 48));
    EXPECT(memcmp(heskavern_view(HEAP, at(1)).bytes, "\0\0\0\0", 4) == 0);
    expect_untouched();
}

static void of_the_papers(void)
{
    places();
    k1_to_k3();
    k4_to_k6();
    k7_to_k10();
    usable_order();
    damaged_order();
    fill_with_smallest();
    fill_with_512();
    moves();
    view_and_write();
    stand_ins();
    dead_or_none();
    last_blocks();
    dead_by_the_books();
    dead_or_live();
    half_done_resizes();
    roll_calls();
    stray_bits();
    largest();
    wrong_shapes();
    wrong_lengths();
    wrong_editions();
    wrong_formats();
    classes();
    multiples();
    counts();
    other_edition();
    damaged();
}

static void good_to_know(void)
{
    sized_and_aligned();
    resize_wants_one_more();
    copied_and_stale();
    mixed_up();
}

int main(void)
{
    for (now = editions; now < editions + sizeof editions / sizeof *editions; now++) {
        of_the_papers();
        good_to_know();
    }
    printf("%lu facts\n", facts);
    return 0;
}
