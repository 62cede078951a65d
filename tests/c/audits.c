/* The audit of 02's W-201, with W-203's order as its last rule, run through heskavern.h: for each clause of each rule a
   heap that breaks it, with its number, and beside it heaps that just keep it. Each is run in both editions. C99, and
   C++ too. */
#include "heap.h"

/* Two arenas of two pools: pool n is in arena n div 2 and starts at 4,096n; a link to an arena is at most 2, to a pool
   at most 4. */
enum { USABLE_HEAD = 2, UNUSED_HEAD = 3, CLASS_HEADS = 4, NO_CLASS = 65535 };

/* The audit answers this, and changes nothing. */
static int gives(uint32_t rule)
{
    uint32_t answered;
    remember();
    answered = AUDIT();
    return answered == rule && unchanged();
}

/* It answers this where the word is another one; then the word is as it was. */
static int with(uint32_t *word, uint32_t value, uint32_t rule)
{
    const uint32_t before = *word;
    int so;
    *word = value;
    so = gives(rule);
    *word = before;
    return so;
}

/* And where the bit of block k of a pool is another one. */
static int with_bit(uint32_t pool, uint32_t k, uint32_t rule)
{
    uint64_t *word = &map[8 * pool + k / 64], bit = (uint64_t)1 << k % 64;
    int so;
    *word ^= bit;
    so = gives(rule);
    *word ^= bit;
    return so;
}

/* The link in a block that is not live. */
static void put_link(uint32_t offset, uint32_t link)
{
    uint32_t i;
    for (i = 0; i < 4; i++)
        memory[offset + i] = (uint8_t)(link >> 8 * i);
}

/* And where a link, which is this, is another one. */
static int with_link(uint32_t offset, uint32_t link, uint32_t other, uint32_t rule)
{
    int so;
    put_link(offset, other);
    so = gives(rule);
    put_link(offset, link);
    return so;
}

static uint32_t *class_head(uint32_t of_class) { return &books[CLASS_HEADS + of_class]; }

/* Asks for a block of the n-th size, from 1. */
static heskavern_answer ask(uint32_t n) { return ASK(n * now->smallest); }

/* ---- heaps */

/* Pool 0 has one live block of the smallest size, and the next one is set ready; arena 1 is closed. */
static void one(void)
{
    fresh(2, 2);
    EXPECT(done(ask(1), 48));
    EXPECT(gives(HESKAVERN_AUDIT_YES));
}

/* Pool 0, of the first size, was freed, and pool 1 has a live block of the second. */
static void freed(void)
{
    one();
    EXPECT(done(ask(2), 4144));
    EXPECT(done(GIVE_BACK(48), 48));
    EXPECT(gives(HESKAVERN_AUDIT_YES));
}

/* Pools 0, 1 and 2 have a live block each: arena 0 has no free pool, and arena 1 one. */
static void spent(void)
{
    one();
    EXPECT(done(ask(2), 4144));
    EXPECT(done(ask(3), 8240));
    EXPECT(gives(HESKAVERN_AUDIT_YES));
}

/* Pools 0 and 2 were freed, and pools 1 and 3 have a live block: the usable list is 0, 1. */
static void both(void)
{
    spent();
    EXPECT(done(ask(4), 12336));
    EXPECT(done(GIVE_BACK(8240), 8240));
    EXPECT(done(GIVE_BACK(48), 48));
    EXPECT(gives(HESKAVERN_AUDIT_YES));
}

/* Arena 1 is open too, with pool 2 carved and freed, and no pool in use, and stands after arena 0 in the usable list.
   No call makes such a one. */
static void opened(void)
{
    one();
    *arena_word(1, OPEN) = *arena_word(1, MARK) = 1;
    *arena_word(1, FREE_POOLS) = 2;
    *arena_word(1, FREED_HEAD) = 3;
    books[UNUSED_HEAD] = 0;
    *arena_word(0, NEXT) = 2;
    *arena_word(1, PREVIOUS) = 1;
    EXPECT(gives(HESKAVERN_AUDIT_YES));
}

/* So many blocks of 512 bytes; a pool has seven. */
static void large(uint32_t blocks)
{
    uint32_t k;
    fresh(2, 2);
    for (k = 0; k < blocks; k++)
        EXPECT(done(ASK(512), 48 + 512 * k));
    EXPECT(gives(HESKAVERN_AUDIT_YES));
}

/* ---- the rules */

static void shape(void)
{
    static const uint32_t arenas[] = {0, 1, 3, 17, UINT32_MAX}, pools[] = {0, 1, 3, 65, UINT32_MAX};
    size_t i;
    fresh(2, 2);
    for (i = 0; i < sizeof arenas / sizeof *arenas; i++)
        EXPECT(with(&books[0], arenas[i], 1) && with(&books[1], pools[i], 1));
    EXPECT(with(&books[EDITION], 2, 1) && with(&books[EDITION], UINT32_MAX, 1));
    EXPECT(with(&books[EDITION], 1 - (uint32_t)now->edition, 0)); /* an empty heap of the other edition */
    memory_bytes--;
    EXPECT(gives(1));
    lend(2, 2);
    map_words++;
    EXPECT(gives(1));
    lend(2, 2);
    books_words--;
    EXPECT(gives(1));
    books_words = EDITION;
    EXPECT(gives(1));
    books_words = 1;
    EXPECT(gives(1));
    memory_bytes = books_words = map_words = 0;
    EXPECT(gives(1));
}

static void zeros(void)
{
    uint32_t word;
    one();
    EXPECT(with(arena_word(0, OPEN), 2, 2) && with(arena_word(1, OPEN), 2, 2));
    EXPECT(with(arena_word(1, OPEN), UINT32_MAX, 2) && with(arena_word(1, OPEN), 1, 4));
    for (word = 69; word <= 71; word++)
        EXPECT(with(&books[word], 1, 2));
    EXPECT(with(arena_word(0, 6), 1, 2) && with(arena_word(0, 7), 1, 2));
    EXPECT(with(arena_word(1, 6), 1, 2) && with(arena_word(1, 7), UINT32_MAX, 2));
    EXPECT(with(pool_word(0, 7), 1, 2) && with(pool_word(3, 7), UINT32_MAX, 2));
}

static void closed_arenas(void)
{
    one();
    EXPECT(with(arena_word(1, MARK), 1, 3) && with(arena_word(1, FREE_POOLS), 2, 3));
    EXPECT(with(arena_word(1, FREED_HEAD), 3, 3));
    EXPECT(with(arena_word(1, NEXT), 1, 6) && with(arena_word(1, PREVIOUS), 1, 6));
}

static void open_arenas(void)
{
    one();
    EXPECT(with(arena_word(0, MARK), 0, 4) && with(arena_word(0, MARK), 3, 4));
    EXPECT(with(arena_word(0, FREE_POOLS), 0, 4) && with(arena_word(0, FREE_POOLS), 2, 4));
    EXPECT(done(ask(2), 4144));
    EXPECT(with(arena_word(0, MARK), 3, 4) && with(arena_word(0, FREE_POOLS), 1, 4));
    freed();
    EXPECT(with(arena_word(0, FREE_POOLS), 0, 4));
    spent();
    EXPECT(with(arena_word(1, FREE_POOLS), 2, 4));
    opened();
    *arena_word(1, FREED_HEAD) = 0;
    EXPECT(with(arena_word(1, MARK), 0, 4)); /* no pool in use and none carved */
}

static void bits(void)
{
    one();
    EXPECT(with_bit(1, 0, 5) && with_bit(3, 511, 5)); /* in a pool not carved */
    EXPECT(with_bit(0, now->in_pool - 1, 7) && with_bit(0, now->in_pool, 5) && with_bit(0, 511, 5));
    EXPECT(done(ASK(512), 4144));
    EXPECT(with_bit(1, 6, 7) && with_bit(1, 7, 5) && with_bit(1, 64, 5));
    EXPECT(with(pool_word(1, CLASS), now->last_class + 1, 5)); /* it has no blocks */
    freed();
    EXPECT(with_bit(0, 511, 4)); /* any bit puts a carved pool in use */
    EXPECT(done(GIVE_BACK(4144), 4144));
    EXPECT(*pool_word(0, CLASS) == 0 && with_bit(0, 0, 5)); /* its arena is released: it is not carved any more */
}

static void freed_lists(void)
{
    freed();
    EXPECT(with(arena_word(0, FREED_HEAD), 0, 6) && with(arena_word(0, FREED_HEAD), 2, 6));
    EXPECT(with(arena_word(0, FREED_HEAD), 5, 6) && with(arena_word(0, FREED_HEAD), UINT32_MAX, 6));
    EXPECT(with(pool_word(0, POOL_NEXT), 1, 6) && with(pool_word(0, POOL_NEXT), 2, 6));
    EXPECT(with(pool_word(0, POOL_PREVIOUS), 1, 6));
    one();
    EXPECT(with(arena_word(0, MARK), 2, 6)); /* pool 1 is carved, on no list */
    opened();
    *arena_word(1, MARK) = 2;
    *pool_word(2, POOL_NEXT) = 4;
    EXPECT(gives(HESKAVERN_AUDIT_YES)); /* two freed pools, each with previous 0 */
    EXPECT(with(pool_word(3, POOL_PREVIOUS), 3, 6) && with(pool_word(2, POOL_NEXT), 0, 6));
    EXPECT(with(pool_word(3, POOL_NEXT), 3, 6) && with(arena_word(1, FREED_HEAD), 4, 6));
    both();
    *arena_word(0, FREED_HEAD) = 3;
    *arena_word(1, FREED_HEAD) = 1;
    EXPECT(gives(6)); /* each on the other arena's list */
}

static void arena_lists(void)
{
    one();
    EXPECT(with(&books[USABLE_HEAD], 0, 6) && with(&books[USABLE_HEAD], 2, 6) && with(&books[USABLE_HEAD], 3, 6));
    EXPECT(with(arena_word(0, NEXT), 1, 6) && with(arena_word(0, NEXT), 2, 6));
    EXPECT(with(arena_word(0, PREVIOUS), 1, 6) && with(&books[UNUSED_HEAD], 1, 6));
    both();
    EXPECT(with(&books[USABLE_HEAD], 2, 6));
    EXPECT(with(arena_word(0, NEXT), 0, 6) && with(arena_word(0, NEXT), 1, 6));
    EXPECT(with(arena_word(1, PREVIOUS), 0, 6) && with(arena_word(1, PREVIOUS), 2, 6));
    EXPECT(with(arena_word(1, NEXT), 1, 6));
    spent();
    EXPECT(with(arena_word(0, NEXT), 2, 6) && with(arena_word(0, PREVIOUS), 2, 6));
    EXPECT(with(&books[USABLE_HEAD], 1, 6));
    fresh(2, 2);
    EXPECT(with(&books[UNUSED_HEAD], 0, 6) && with(&books[UNUSED_HEAD], 2, 6));
    EXPECT(with(arena_word(0, NEXT), 0, 6) && with(arena_word(0, NEXT), 3, 6));
    EXPECT(with(arena_word(1, PREVIOUS), 0, 6) && with(arena_word(1, NEXT), 1, 6));
    books[UNUSED_HEAD] = 3; /* pool 0's record, read as that of an arena 2, would be a member */
    *pool_word(0, CLASS) = 2;
    *arena_word(1, PREVIOUS) = 3;
    EXPECT(gives(6));
}

static void class_lists(void)
{
    uint32_t of_class;
    one();
    EXPECT(with(class_head(0), 0, 6) && with(class_head(0), 2, 6) && with(class_head(0), 5, 6));
    for (of_class = 1; of_class < 64; of_class++) /* in edition sixteen the last heads are of classes without blocks */
        EXPECT(with(class_head(of_class), 1, 6));
    EXPECT(with(pool_word(0, POOL_NEXT), 1, 6) && with(pool_word(0, POOL_NEXT), 2, 6));
    EXPECT(with(pool_word(0, POOL_PREVIOUS), 1, 6) && with(pool_word(0, CLASS), 1, 6));
    large(7);
    EXPECT(with(pool_word(0, POOL_NEXT), 2, 6) && with(pool_word(0, POOL_PREVIOUS), 2, 6)); /* it is full */
    EXPECT(with(class_head(now->last_class), 1, 6) && with(pool_word(0, COUNT), 6, 7));
    EXPECT(done(ASK(512), 4144));
    EXPECT(done(GIVE_BACK(48), 48));
    EXPECT(gives(HESKAVERN_AUDIT_YES)); /* two pools of one class: 0 and then 1 */
    EXPECT(with(class_head(now->last_class), 2, 6) && with(pool_word(0, POOL_NEXT), 0, 6));
    EXPECT(with(pool_word(1, POOL_PREVIOUS), 0, 6) && with(pool_word(1, POOL_NEXT), 1, 6));
}

static void counts(void)
{
    large(3);
    EXPECT(with(pool_word(0, COUNT), 7, 7) && with(pool_word(0, COUNT), 2, 7) && with(pool_word(0, COUNT), 65539, 7));
    EXPECT(with(pool_word(1, COUNT), 1, 7) && with(pool_word(3, COUNT), 1, 7));
    EXPECT(with_bit(0, 0, 7) && with_bit(0, 4, 7));
}

/* Pool 1 is carved, on its arena's list, and was not set to a class yet: no call makes such a one. */
static void without_class(void)
{
    const uint32_t none = now->last_class + 1, size = (none + 1) * now->smallest;
    one();
    *arena_word(0, MARK) = *arena_word(0, FREED_HEAD) = 2;
    EXPECT(gives(HESKAVERN_AUDIT_YES));
    EXPECT(with(pool_word(1, FREEBLOCK), 48, 8) && with(pool_word(1, NEXTOFFSET), 48, 8));
    EXPECT(with(pool_word(1, MAXNEXTOFFSET), 4096 - now->smallest, 8));
    EXPECT(with(pool_word(1, CLASS), none, 8) && with(pool_word(1, CLASS), now->last_class, 8));
    EXPECT(with(pool_word(1, CLASS), NO_CLASS - 1, 8) && with(pool_word(1, CLASS), UINT32_MAX, 8));
    *pool_word(1, CLASS) = none; /* no class, though blocks of that size be in order */
    *pool_word(1, MAXNEXTOFFSET) = 4096 - size;
    *pool_word(1, NEXTOFFSET) = 48 + 2 * size;
    *pool_word(1, FREEBLOCK) = 48;
    put_link(4144, 48 + size);
    put_link(4144 + size, 0);
    EXPECT(gives(8));
}

static void offsets(void)
{
    const uint32_t second = 2 * now->smallest;
    freed();
    EXPECT(with(pool_word(0, MAXNEXTOFFSET), 4096 - second, 8));
    EXPECT(with(pool_word(1, MAXNEXTOFFSET), 4096 - now->smallest, 8));
    EXPECT(with(pool_word(0, NEXTOFFSET), at(2) + 1, 8) && with(pool_word(1, NEXTOFFSET), 48 + 2 * second + 1, 8));
    EXPECT(with(pool_word(1, NEXTOFFSET), 4096, 8) && with(pool_word(1, NEXTOFFSET), 0, 8));
    EXPECT(with(pool_word(0, CLASS), now->last_class + 1, 8) && with(pool_word(0, CLASS), NO_CLASS, 8));
    large(7); /* all were handed out: nextoffset is the last block's end */
    EXPECT(with(pool_word(0, NEXTOFFSET), 3120, 8) && with(pool_word(0, NEXTOFFSET), 4144, 8));
    EXPECT(with(pool_word(0, FREEBLOCK), 48, 8));
}

/* Each block is one of live, on the freed chain and virgin: 0 is live, 1 on the chain, and 2 the first virgin one. */
static void chains(void)
{
    one();
    EXPECT(done(WRITE(48, "\0\0\0\0", 4), 48)); /* so that this looks like a chain's end, and block 2 does */
    put_link(at(2), 0);
    EXPECT(gives(HESKAVERN_AUDIT_YES));
    EXPECT(with(pool_word(0, NEXTOFFSET), 48, 8) && with(pool_word(0, NEXTOFFSET), at(3), 8));
    EXPECT(with(pool_word(0, FREEBLOCK), 48, 8) && with(pool_word(0, FREEBLOCK), at(2), 8));
    EXPECT(with(pool_word(0, FREEBLOCK), at(1) + 1, 8) && with(pool_word(0, FREEBLOCK), 0, 8));
    EXPECT(with_link(at(1), 0, at(1), 8) && with_link(at(1), 0, 48, 8) && with_link(at(1), 0, at(2), 8));
    EXPECT(with_link(at(1), 0, UINT32_MAX, 8));
    EXPECT(done(ask(1), at(1)));
    EXPECT(done(GIVE_BACK(48), 48));
    EXPECT(gives(HESKAVERN_AUDIT_YES)); /* a chain of 0 and 2 */
    EXPECT(with_link(48, at(2), 0, 8) && with_link(48, at(2), 48, 8) && with(pool_word(0, FREEBLOCK), at(2), 8));
    *pool_word(0, FREEBLOCK) = at(2);
    put_link(at(2), 48);
    put_link(48, 0);
    EXPECT(gives(HESKAVERN_AUDIT_YES)); /* in the other order */
}

/* Blocks 0 and 5 are live, and the second of them virgin; 1 is on the chain, and 2 in none of the three. */
static void live_and_virgin(void)
{
    one();
    map[0] |= 1 << 5;
    *pool_word(0, COUNT) = 2;
    *pool_word(0, NEXTOFFSET) = at(3);
    EXPECT(gives(8));
}

/* Two at least on the chain if the pool is freed, one unless it is full. */
static void least_on_chain(void)
{
    freed();
    *pool_word(0, NEXTOFFSET) = at(1);
    put_link(48, 0);
    EXPECT(gives(8));
    *pool_word(0, NEXTOFFSET) = 48;
    *pool_word(0, FREEBLOCK) = 0;
    EXPECT(gives(8));
    one();
    *pool_word(0, NEXTOFFSET) = at(1);
    *pool_word(0, FREEBLOCK) = 0;
    EXPECT(gives(8));
}

/* Arena 1 goes before arena 0. */
static void turn_round(void)
{
    books[USABLE_HEAD] = 2;
    *arena_word(1, NEXT) = 1;
    *arena_word(1, PREVIOUS) = 0;
    *arena_word(0, NEXT) = 0;
    *arena_word(0, PREVIOUS) = 2;
}

static void order(void)
{
    both();
    turn_round();
    EXPECT(gives(HESKAVERN_AUDIT_YES)); /* one has as many free pools as the other */
    opened();
    turn_round();
    EXPECT(gives(9)); /* it has one more than the next */
}

/* The lowest rule that is broken, wherever. Each damage here breaks a lower one than those before. */
static void first_broken(void)
{
    opened();
    turn_round();
    EXPECT(gives(HESKAVERN_AUDIT_ORDER));
    *pool_word(0, MAXNEXTOFFSET) = 0;
    EXPECT(gives(HESKAVERN_AUDIT_BLOCKS));
    *pool_word(3, COUNT) = 1;
    EXPECT(gives(HESKAVERN_AUDIT_COUNTS));
    *pool_word(0, POOL_NEXT) = 1;
    EXPECT(gives(HESKAVERN_AUDIT_LISTS));
    map[8 * 3] = 1;
    EXPECT(gives(HESKAVERN_AUDIT_BITS));
    *arena_word(1, FREE_POOLS) = 0;
    EXPECT(gives(HESKAVERN_AUDIT_OPEN));
    *arena_word(0, OPEN) = 0;
    EXPECT(gives(HESKAVERN_AUDIT_CLOSED));
    *pool_word(3, 7) = 1;
    EXPECT(gives(HESKAVERN_AUDIT_ZEROS));
    books[0] = 3;
    EXPECT(gives(HESKAVERN_AUDIT_SHAPE));
}

/* A give-back that meets damage: the audit names it, before and after. */
static void after_a_6(void)
{
    one();
    *pool_word(0, COUNT) = 0;
    EXPECT(gives(HESKAVERN_AUDIT_COUNTS));
    EXPECT(is(GIVE_BACK(48), HESKAVERN_DAMAGED, 0));
    EXPECT(gives(HESKAVERN_AUDIT_COUNTS));
    *pool_word(0, COUNT) = 1;
    EXPECT(done(GIVE_BACK(48), 48));
}

/* The largest heap, full, and with every second block given back. */
static void largest(void)
{
    const uint32_t blocks = now->in_pool * A * P;
    uint32_t n = 0;
    fresh(A, P);
    while (n < blocks && ASK(1).number == HESKAVERN_DONE)
        n++;
    EXPECT(n == blocks && gives(HESKAVERN_AUDIT_YES));
    n = 0;
    while (n < blocks && GIVE_BACK(n / now->in_pool * 4096 + at(n % now->in_pool)).number == HESKAVERN_DONE)
        n += 2;
    EXPECT(n >= blocks && gives(HESKAVERN_AUDIT_YES));
    EXPECT(with(pool_word(A * P - 1, FREEBLOCK), 0, 8) && with(pool_word(A * P - 1, COUNT), 0, 7));
    EXPECT(with_bit(A * P - 1, 511, 5) && with(pool_word(A * P - 1, 7), 1, 2));
}

int main(void)
{
    for (now = editions; now < editions + sizeof editions / sizeof *editions; now++) {
        shape();
        zeros();
        closed_arenas();
        open_arenas();
        bits();
        freed_lists();
        arena_lists();
        class_lists();
        counts();
        without_class();
        offsets();
        chains();
        live_and_virgin();
        least_on_chain();
        order();
        first_broken();
        after_a_6();
        largest();
    }
    printf("%lu facts\n", facts);
    return 0;
}
