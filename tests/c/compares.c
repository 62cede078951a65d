/* Two heaps side by side, 02's W-212, run through heskavern.h: each kind of difference, the changes, the order of the
   tests, and what stays. Each case is compared both ways round and with every room that matters, is held to the two
   roll calls, and is run in both editions. Then random pairs of heaps, damaged ones too, are held to what view_size and
   roll call tell of them. C99, and C++ too. */
#include "heap.h"
#include "../compare/random.h"

/* The first heap is a copy that was put aside; the second is the one that heap.h works on. */
static uint8_t first_memory[sizeof memory], first_memory_before[sizeof memory];
static uint32_t first_books[sizeof books / sizeof *books], first_books_before[sizeof books / sizeof *books];
static uint64_t first_map[sizeof map / sizeof *map], first_map_before[sizeof map / sizeof *map];
static size_t first_memory_bytes, first_books_words, first_map_words;
#define FIRST first_memory, first_memory_bytes, first_books, first_books_words, first_map, first_map_words

static void put_aside(void)
{
    memcpy(first_memory, memory, sizeof memory);
    memcpy(first_books, books, sizeof books);
    memcpy(first_map, map, sizeof map);
    first_memory_bytes = memory_bytes;
    first_books_words = books_words;
    first_map_words = map_words;
}

static void remember_both(void)
{
    remember();
    memcpy(first_memory_before, first_memory, sizeof first_memory);
    memcpy(first_books_before, first_books, sizeof first_books);
    memcpy(first_map_before, first_map, sizeof first_map);
}

static int both_unchanged(void)
{
    return unchanged() && memcmp(first_memory_before, first_memory, sizeof first_memory) == 0
        && memcmp(first_books_before, first_books, sizeof first_books) == 0
        && memcmp(first_map_before, first_map, sizeof first_map) == 0;
}

/* ---- the call, and what it writes to */

static uint32_t list[HESKAVERN_LIST_WORDS(A, P) + GUARD];
static int32_t changes[HESKAVERN_CHANGES + GUARD];
static size_t watched; /* words of the list that are filled before a call, and looked at after it */

/* Compares first and second, or swapped second and first. */
static heskavern_answer compare(int swapped, size_t list_words, size_t changes_count)
{
    memset(list, FILL, watched * sizeof *list);
    memset(changes, FILL, sizeof changes);
    return swapped ? heskavern_compare(HEAP, FIRST, list, list_words, changes, changes_count)
                   : heskavern_compare(FIRST, HEAP, list, list_words, changes, changes_count);
}

/* It is refused, and writes nothing. */
static void expect_refusal(int swapped, size_t list_words, size_t changes_count, uint32_t number)
{
    EXPECT(is(compare(swapped, list_words, changes_count), number, 0));
    EXPECT(filled(list, watched * sizeof *list) && filled(changes, sizeof changes));
}

/* ---- what is expected: the entries, and the change of each class */

static uint32_t expected[HESKAVERN_LIST_WORDS(A, P)], entries;
static int32_t expected_changes[HESKAVERN_CHANGES];

static void differs(size_t offset, uint32_t kind)
{
    expected[2 * entries] = (uint32_t)offset;
    expected[2 * entries + 1] = kind;
    entries++;
}

static void changes_by(uint32_t of_class, int32_t change) { expected_changes[of_class] += change; }

/* The kind of an entry where the heaps are swapped: what was live in the first alone is so in the second. */
static uint32_t kind_of(uint32_t entry, int swapped)
{
    const uint32_t kind = expected[2 * entry + 1];
    return swapped && kind <= HESKAVERN_SECOND_ALONE ? 3 - kind : kind;
}

/* With such room just what is expected is written, and the rest of list and changes stays. */
static void expect_written(int swapped, size_t list_words, size_t changes_count)
{
    uint32_t n = 0, of_class = 0;
    EXPECT(done(compare(swapped, list_words, changes_count), entries));
    while (n < entries && list[2 * n] == expected[2 * n] && list[2 * n + 1] == kind_of(n, swapped))
        n++;
    EXPECT(n == entries && filled(list + 2 * n, (watched - 2 * n) * sizeof *list));
    while (of_class <= now->last_class && changes[of_class] == (swapped ? -1 : 1) * expected_changes[of_class])
        of_class++;
    EXPECT(of_class == now->last_class + 1);
    EXPECT(filled(changes + of_class, sizeof changes - of_class * sizeof *changes));
}

static int32_t added_up(void)
{
    int32_t sum = 0;
    uint32_t of_class;
    for (of_class = 0; of_class <= now->last_class; of_class++)
        sum += changes[of_class];
    return sum;
}

static int32_t count(heskavern_answer rolled)
{
    EXPECT(rolled.number == HESKAVERN_DONE);
    return (int32_t)rolled.value;
}

/* The two heaps differ as expected, both ways round, with just room and with more; with a word less, or a change less,
   it does not fit. Neither heap is written. Then nothing is expected any more. */
static void expect_compared(void)
{
    const size_t words = 2 * (size_t)entries, most = HESKAVERN_LIST_WORDS(books[0], books[1]);
    const size_t classes = now->last_class + 1;
    int swapped;
    watched = most + GUARD;
    remember_both();
    for (swapped = 0; swapped < 2; swapped++) {
        expect_written(swapped, words, classes);
        expect_written(swapped, words + 1, classes + 1);
        expect_written(swapped, most, HESKAVERN_CHANGES);
        if (words > 0) {
            expect_refusal(swapped, words - 1, classes, HESKAVERN_DOES_NOT_FIT);
            expect_refusal(swapped, 0, HESKAVERN_CHANGES, HESKAVERN_DOES_NOT_FIT);
        }
        expect_refusal(swapped, words, classes - 1, HESKAVERN_DOES_NOT_FIT);
        expect_refusal(swapped, most, 0, HESKAVERN_DOES_NOT_FIT);
    }
    expect_written(0, words, classes);
    EXPECT(added_up() == count(ROLL_CALL(most)) - count(heskavern_roll_call(FIRST, roll, most)));
    EXPECT(both_unchanged());
    entries = 0;
    memset(expected_changes, 0, sizeof expected_changes);
}

/* ---- cases */

/* Asks for a block of the n-th size, from 1. */
static heskavern_answer ask(uint32_t n) { return ASK(n * now->smallest); }

/* Two equal heaps: pool 0 has three live blocks of the smallest size, and pool 1 one of the second. */
static void equal(void)
{
    fresh(1, 4);
    EXPECT(done(ask(1), 48) && done(ask(1), at(1)) && done(ask(1), at(2)) && done(ask(2), 4144));
    put_aside();
    expect_compared();
}

static void kinds(void)
{
    equal();
    EXPECT(done(GIVE_BACK(at(1)), at(1)));
    differs(at(1), HESKAVERN_FIRST_ALONE);
    changes_by(0, -1);
    expect_compared();
    EXPECT(done(ask(1), at(1))); /* out again, with a link in it that was not there */
    differs(at(1), HESKAVERN_OTHER_BYTES);
    expect_compared();
    EXPECT(done(WRITE(at(1), first_memory + at(1), now->smallest), at(1)));
    expect_compared();
    EXPECT(done(ask(1), at(3)));
    differs(at(3), HESKAVERN_SECOND_ALONE);
    changes_by(0, 1);
    expect_compared();
    EXPECT(done(GIVE_BACK(4144), 4144));
    EXPECT(done(ask(3), 4144)); /* the freed pool, for another size */
    differs(at(3), HESKAVERN_SECOND_ALONE);
    differs(4144, HESKAVERN_OTHER_SIZE);
    changes_by(0, 1);
    changes_by(1, -1);
    changes_by(2, 1);
    expect_compared();
    EXPECT(done(WRITE(48, "A. Moss", 7), 48));
    EXPECT(done(GIVE_BACK(at(1)), at(1)));
    differs(48, HESKAVERN_OTHER_BYTES); /* all four, by rising offset */
    differs(at(1), HESKAVERN_FIRST_ALONE);
    differs(at(3), HESKAVERN_SECOND_ALONE);
    differs(4144, HESKAVERN_OTHER_SIZE);
    changes_by(1, -1);
    changes_by(2, 1);
    expect_compared();
    expect_untouched();
}

/* A text that a resize has moved is gone from one offset and has come to another. */
static void moved(void)
{
    equal();
    EXPECT(done(RESIZE(at(1), 3 * now->smallest), 8240));
    differs(at(1), HESKAVERN_FIRST_ALONE);
    differs(8240, HESKAVERN_SECOND_ALONE);
    changes_by(0, -1);
    changes_by(2, 1);
    expect_compared();
}

/* Each byte of a live block counts, to its end, and no byte that is in none. */
static void whole_blocks(void)
{
    uint32_t o;
    equal();
    for (o = at(2); o < at(3); o++) {
        memory[o] ^= 0x80;
        differs(at(2), HESKAVERN_OTHER_BYTES);
        expect_compared();
        memory[o] ^= 0x80;
    }
    for (o = 0; o < memory_bytes; o++)
        if ((o < 48 || o >= at(3)) && (o < 4144 || o >= 4144 + 2 * now->smallest))
            memory[o] = (uint8_t)~memory[o];
    expect_compared();
    for (o = 0; o < memory_bytes; o++)
        memory[o] = (uint8_t)~first_memory[o];
    differs(48, HESKAVERN_OTHER_BYTES);
    differs(at(1), HESKAVERN_OTHER_BYTES);
    differs(at(2), HESKAVERN_OTHER_BYTES);
    differs(4144, HESKAVERN_OTHER_BYTES);
    expect_compared();
}

/* Of another size, with the same bytes or with others. */
static void size_before_bytes(void)
{
    uint32_t o;
    int other;
    for (other = 0; other < 2; other++) {
        fresh(1, 2);
        EXPECT(done(ask(1), 48) && done(ask(1), at(1)) && done(ask(1), at(2)));
        put_aside();
        fresh(1, 2);
        EXPECT(done(ask(2), 48) && done(ask(2), at(2)));
        for (o = 48; o < at(4); o++)
            memory[o] = (uint8_t)(other ? ~first_memory[o] : first_memory[o]);
        differs(48, HESKAVERN_OTHER_SIZE);
        differs(at(1), HESKAVERN_FIRST_ALONE); /* in the second it is the middle of a block */
        differs(at(2), HESKAVERN_OTHER_SIZE);
        changes_by(0, -3);
        changes_by(1, 2);
        expect_compared();
    }
}

/* A pool of two sizes, neither a multiple of the other: the starts of both, by rising offset. */
static void merged(void)
{
    uint32_t k;
    fresh(1, 2);
    for (k = 0; k < 4; k++)
        EXPECT(done(ask(2), at(2 * k)));
    put_aside();
    fresh(1, 2);
    for (k = 0; k < 4; k++)
        EXPECT(done(ask(3), at(3 * k)));
    differs(48, HESKAVERN_OTHER_SIZE);
    differs(at(2), HESKAVERN_FIRST_ALONE);
    differs(at(3), HESKAVERN_SECOND_ALONE);
    differs(at(4), HESKAVERN_FIRST_ALONE);
    differs(at(6), HESKAVERN_OTHER_SIZE);
    differs(at(9), HESKAVERN_SECOND_ALONE);
    changes_by(1, -4);
    changes_by(2, 4);
    expect_compared();
}

/* A block of every size, in a pool of its own; then of every size in the turned order, and of none. */
static void every_class(void)
{
    const uint32_t classes = now->last_class + 1;
    uint32_t n;
    fresh(2, 32);
    for (n = 1; n <= classes; n++)
        EXPECT(done(ask(n), 4096 * (n - 1) + 48));
    put_aside();
    fresh(2, 32);
    for (n = 1; n <= classes; n++) {
        EXPECT(done(ask(classes + 1 - n), 4096 * (n - 1) + 48));
        differs(4096 * (n - 1) + 48, HESKAVERN_OTHER_SIZE); /* of each: there is no middle one, their number is even */
    }
    expect_compared();
    fresh(2, 32);
    for (n = 1; n <= classes; n++) {
        differs(4096 * (n - 1) + 48, HESKAVERN_FIRST_ALONE);
        changes_by(n - 1, -1);
    }
    expect_compared();
}

static void set_bit(uint32_t pool, uint32_t k) { map[8 * pool + k / 64] |= (uint64_t)1 << k % 64; }

/* What is live goes by the maps and the pools' classes alone: bits at no block of their pool's class are none, and no
   other word has a say. */
static void stray_bits(void)
{
    static const uint32_t beyond[] = {0, 65535, UINT32_MAX}; /* 0 stands for the first that is no class */
    uint32_t k;
    size_t i;
    equal();
    for (k = now->in_pool; k < 512; k++)
        set_bit(0, k);
    for (k = now->in_pool / 2; k < 512; k++)
        set_bit(1, k);
    for (k = 0; k < 512; k++)
        set_bit(2, k); /* it has no class */
    *pool_word(0, COUNT) = *pool_word(0, NEXTOFFSET) = *pool_word(1, MAXNEXTOFFSET) = 7;
    *arena_word(0, OPEN) = *arena_word(0, MARK) = 0;
    expect_compared();
    for (i = 0; i < sizeof beyond / sizeof *beyond; i++) {
        *pool_word(0, CLASS) = i == 0 ? now->last_class + 1 : beyond[i];
        differs(48, HESKAVERN_FIRST_ALONE);
        differs(at(1), HESKAVERN_FIRST_ALONE);
        differs(at(2), HESKAVERN_FIRST_ALONE);
        changes_by(0, -3);
        expect_compared();
    }
    *pool_word(0, CLASS) = now->last_class; /* seven blocks of 512 bytes, of which bits 0 to 2 make three live */
    for (k = 0; k < 512; k++)
        set_bit(3, k);
    *pool_word(3, CLASS) = now->last_class;
    differs(48, HESKAVERN_OTHER_SIZE);
    differs(at(1), HESKAVERN_FIRST_ALONE);
    differs(at(2), HESKAVERN_FIRST_ALONE);
    differs(560, HESKAVERN_SECOND_ALONE);
    differs(1072, HESKAVERN_SECOND_ALONE);
    for (k = 0; k < 7; k++)
        differs(12336 + 512 * k, HESKAVERN_SECOND_ALONE);
    changes_by(0, -3);
    changes_by(now->last_class, 10);
    expect_compared();
}

/* The last block of each pool, alone. */
static void last_blocks(void)
{
    const uint32_t last = now->in_pool - 1;
    uint32_t pool;
    fresh(2, 2);
    put_aside();
    for (pool = 0; pool < 4; pool++) {
        *pool_word(pool, CLASS) = 0;
        set_bit(pool, last);
        differs(4096 * pool + at(last), HESKAVERN_SECOND_ALONE);
    }
    changes_by(0, 4);
    expect_compared();
    put_aside();
    memory[8191] ^= 1;
    memory[16383] ^= 1;
    differs(4096 + at(last), HESKAVERN_OTHER_BYTES);
    differs(12288 + at(last), HESKAVERN_OTHER_BYTES);
    expect_compared();
}

/* A heap beside itself, in one and the same buffers, and beside one that shares its memory. */
static void shared(void)
{
    equal();
    set_bit(0, 5);
    remember_both();
    watched = 8;
    memset(list, FILL, watched * sizeof *list);
    memset(changes, FILL, sizeof changes);
    EXPECT(done(heskavern_compare(HEAP, HEAP, list, 0, changes, now->last_class + 1), 0));
    EXPECT(filled(list, watched * sizeof *list));
    EXPECT(added_up() == 0 && changes[0] == 0 && filled(changes + now->last_class + 1, GUARD * sizeof *changes));
    EXPECT(done(heskavern_compare(
        memory, memory_bytes, first_books, first_books_words, first_map, first_map_words, HEAP,
        list, 2, changes, HESKAVERN_CHANGES), 1));
    EXPECT(list[0] == at(5) && list[1] == HESKAVERN_SECOND_ALONE && changes[0] == 1 && added_up() == 1);
    EXPECT(both_unchanged());
}

/* ---- refusals */

/* It is refused so, whatever room there is. Neither heap is written. */
static void expect_refused(uint32_t number)
{
    watched = 100;
    remember_both();
    expect_refusal(0, watched, HESKAVERN_CHANGES, number);
    expect_refusal(0, 0, HESKAVERN_CHANGES, number);
    expect_refusal(0, watched, 0, number);
    expect_refusal(0, 0, 0, number);
    EXPECT(both_unchanged());
}

/* A heap of this shape, with a block, in heap.h's buffers. */
static void one(size_t arenas, size_t pools)
{
    fresh(arenas, pools);
    EXPECT(done(ask(1), 48));
}

/* What is wrong with a heap's shape, and its number: a word of the books, and lengths; the books are cut to so many
   words where that is not 0. In the order of the tests of a shape. */
static const struct wrong {
    size_t word;
    uint32_t value;
    size_t cut, memory_less, map_more;
    uint32_t number;
} wrongs[] = {
    {69, 0, 0, 0, 0, 0}, /* nothing */
    {0, 17, 1, 0, 0, 2},
    {0, 17, 2, 0, 0, 1},
    {0, 0, 0, 0, 0, 1},
    {1, 65, 0, 1, 0, 1},
    {EDITION, 2, EDITION, 0, 0, 2},
    {EDITION, 2, EDITION + 1, 0, 0, 1},
    {EDITION, UINT32_MAX, 0, 0, 1, 1},
    {69, 0, EDITION + 1, 0, 0, 2},
    {69, 0, 0, 1, 0, 2},
    {69, 0, 0, 0, 1, 2},
};
enum { WRONGS = sizeof wrongs / sizeof *wrongs };

/* The first heap's shape is tested before the second's, and each before the two are held beside each other. */
static void wrong_shapes(void)
{
    size_t i, j, arenas;
    for (arenas = 1; arenas < 3; arenas++)
        for (i = 0; i < WRONGS; i++)
            for (j = 0; j < WRONGS; j++) {
                const struct wrong *of_first = &wrongs[i], *of_second = &wrongs[j];
                const uint32_t number = of_first->number ? of_first->number : of_second->number;
                one(1, 2);
                put_aside();
                first_books[of_first->word] = of_first->value;
                first_memory_bytes -= of_first->memory_less;
                first_books_words = of_first->cut ? of_first->cut : first_books_words;
                first_map_words += of_first->map_more;
                one(arenas, 2);
                books[of_second->word] = of_second->value;
                memory_bytes -= of_second->memory_less;
                books_words = of_second->cut ? of_second->cut : books_words;
                map_words += of_second->map_more;
                if (number)
                    expect_refused(number);
                else if (arenas != 1)
                    expect_refused(HESKAVERN_UNEQUAL_SHAPE);
                else
                    expect_compared();
            }
}

/* Another A, another P, both with as many pools, and another edition. */
static void unequal_shapes(void)
{
    static const size_t pairs[][4] = {{1, 2, 2, 2}, {1, 2, 1, 3}, {2, 3, 3, 2}, {1, 4, 2, 2}, {16, 2, 2, 16}};
    size_t i;
    for (i = 0; i < 2 * (sizeof pairs / sizeof *pairs); i++) {
        const size_t *pair = pairs[i / 2], turned = i % 2 * 2;
        one(pair[turned], pair[turned + 1]);
        put_aside();
        one(pair[2 - turned], pair[3 - turned]);
        expect_refused(HESKAVERN_UNEQUAL_SHAPE);
    }
    for (i = 0; i < 2; i++) {
        const struct edition *of_cases = now;
        now = &editions[i];
        one(2, 2);
        put_aside();
        now = &editions[1 - i];
        one(2, 2);
        expect_refused(HESKAVERN_UNEQUAL_SHAPE);
        fresh(2, 2);
        first_books[EDITION] = (uint32_t)now->edition; /* by the word alone */
        differs(48, HESKAVERN_FIRST_ALONE);
        changes_by(0, -1);
        expect_compared();
        now = of_cases;
    }
}

/* ---- many blocks, and many heaps */

/* The largest heap, none live and all: the macro gives just the words that are needed in edition eight, and twice as
   many in edition sixteen. */
static void largest(void)
{
    const uint32_t blocks = now->in_pool * A * P;
    uint32_t n;
    size_t i;
    fresh(A, P);
    put_aside();
    for (n = 0; n < blocks; n++) {
        const uint32_t offset = n / now->in_pool * 4096 + at(n % now->in_pool);
        if (!done(ASK(1), offset))
            break;
        differs(offset, HESKAVERN_SECOND_ALONE);
    }
    EXPECT(n == blocks && 2 * (size_t)entries == HESKAVERN_LIST_WORDS(A, P) * 8 / now->smallest);
    changes_by(0, (int32_t)blocks);
    expect_compared();
    put_aside();
    for (n = 0; n < blocks; n++)
        differs(expected[2 * n], HESKAVERN_OTHER_BYTES);
    for (i = 0; i < memory_bytes; i++)
        memory[i] ^= 0xFF;
    expect_compared();
}

/* Counts the blocks of a roll, by class. */
static void tally(heskavern_answer rolled, int32_t each)
{
    uint32_t n;
    EXPECT(rolled.number == HESKAVERN_DONE);
    for (n = 0; n < rolled.value; n++)
        changes_by(roll[2 * n + 1] / now->smallest - 1, each);
}

/* What is expected, as the other calls tell it: by the block size at each offset of the two, and by both rolls. */
static void expect_as_told(void)
{
    const size_t room = HESKAVERN_ROLL_WORDS(books[0], books[1]);
    size_t o;
    for (o = 0; o < memory_bytes; o++) {
        const uint32_t size = heskavern_view_size(FIRST, o).value, other = VIEW_SIZE(o).value; /* 0 where not live */
        if (size == 0 || other == 0) {
            if (size != other)
                differs(o, size ? HESKAVERN_FIRST_ALONE : HESKAVERN_SECOND_ALONE);
        } else if (size != other) {
            differs(o, HESKAVERN_OTHER_SIZE);
        } else if (memcmp(first_memory + o, memory + o, size) != 0) {
            differs(o, HESKAVERN_OTHER_BYTES);
        }
    }
    tally(heskavern_roll_call(FIRST, roll, room), -1);
    tally(ROLL_CALL(room), 1);
}

/* So many calls, each on an offset that may be live, with sizes of few classes, so that pools are set to others. */
static void go_on(int calls)
{
    while (calls-- > 0) {
        const uint32_t offset = 4096 * below((uint32_t)(memory_bytes / 4096)) + at(below(24)), size = 1 + below(120);
        switch (below(4)) {
        case 0: (void)GIVE_BACK(offset); break;
        case 1: (void)RESIZE(offset, size); break;
        case 2: (void)WRITE(offset, "A. Moss", below(8)); break;
        default: (void)ASK(size);
        }
    }
}

/* Another class, or bits that no call has set. */
static void damage(void)
{
    const uint32_t pool = below((uint32_t)(memory_bytes / 4096));
    if (below(2))
        *pool_word(pool, CLASS) = below(now->last_class + 3);
    else
        map[8 * pool + below(8)] ^= (uint64_t)1 << below(64) | (uint64_t)1 << below(64);
}

static void random_pairs(void)
{
    static const size_t shapes[][2] = {{1, 2}, {1, 5}, {3, 2}, {2, 3}};
    uint32_t n, kind, seen[5] = {0, 0, 0, 0, 0};
    int turn;
    random_state = now->edition;
    for (turn = 0; turn < 120; turn++) {
        const size_t *of_turn = shapes[turn % 4];
        fresh(of_turn[0], of_turn[1]);
        go_on((int)below(80));
        if (turn % 3 == 2)
            damage();
        put_aside();
        go_on((int)below(turn % 2 ? 80 : 8));
        if (turn % 3 == 2)
            damage();
        expect_as_told();
        for (n = 0; n < entries; n++)
            seen[expected[2 * n + 1]]++;
        expect_compared();
    }
    for (kind = HESKAVERN_FIRST_ALONE; kind <= HESKAVERN_OTHER_BYTES; kind++)
        EXPECT(seen[kind] > 20);
}

int main(void)
{
    EXPECT(HESKAVERN_LIST_WORDS(1, 1) == 1012 && HESKAVERN_CHANGES == 64);
    for (now = editions; now < editions + sizeof editions / sizeof *editions; now++) {
        kinds();
        moved();
        whole_blocks();
        size_before_bytes();
        merged();
        every_class();
        stray_bits();
        last_blocks();
        shared();
        wrong_shapes();
        unequal_shapes();
        largest();
        random_pairs();
    }
    printf("%lu facts\n", facts);
    return 0;
}
