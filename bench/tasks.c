/* The traces, and the tasks over them. */
#define _DEFAULT_SOURCE
#include "tasks.h"

#include "random.h"

#include <stdio.h>
#include <stdlib.h>
#include <string.h>
#include <time.h>

/* Of the mixed trace; a visit runs one window of it. */
enum { PAIRS = 8192, WARM = 2048, WINDOWS = 32, COUNTED = 8 * PAIRS };
/* Of the statement's trace; its texts have 1 to 40 bytes. */
enum { RUNS = 32, SHORTEST_RUN = 50, LONGEST_RUN = 400, RUN_WINDOWS = 8, TEXT = 40 };
/* Of the give-backs that move an arena: the arenas, their pools, and how many blocks of 512 bytes a pool has. */
enum { MOVING = 4, EMPTIED = MOVING * POOLS, IN_POOL = 7 };

static struct step mixed[WINDOWS * PAIRS + WARM], texts[RUN_WINDOWS][RUNS * LONGEST_RUN];
static struct step start[SLOTS], wide[SLOTS], up[SLOTS], down[SLOTS], halves[SLOTS / 2];
static struct step full[IN_POOL * EMPTIED], others[(IN_POOL - 1) * EMPTIED], lasts[EMPTIED];
static uint16_t runs[RUN_WINDOWS][RUNS];
static uint8_t text[512];

/* Of roll call, audit, format and two heaps side by side: the largest heap, and about the nanoseconds of a short visit,
 * where a pool takes two and a live block one; of the audit a pool takes some more, and a block on a freed chain about
 * three; of two heaps a pool takes some more too, and a live block about ten. */
enum { VISIT = 40000, AUDITED_POOL = 50, ON_CHAIN = 3, COMPARED_POOL = 10, COMPARED_BLOCK = 10 };
static uint8_t heap_memory[HESKAVERN_MEMORY_BYTES(16, 64)];
static uint32_t heap_books[HESKAVERN_BOOKS_WORDS(16, 64)], roll[HESKAVERN_ROLL_WORDS(16, 64)];
static uint64_t heap_map[HESKAVERN_MAP_WORDS(16, 64)];
/* Of two heaps side by side: the second one, and list and changes. */
enum { CLASSES = 64 };
static uint8_t second_memory[sizeof heap_memory];
static uint32_t second_books[sizeof heap_books / sizeof *heap_books], list[sizeof roll / sizeof *roll];
static uint64_t second_map[sizeof heap_map / sizeof *heap_map];
static int32_t changes[CLASSES];

void fail(const char *who, const char *what)
{
    fprintf(stderr, "bench/measure: %s: %s\n", who, what);
    exit(1);
}

static void must(unsigned refused, const struct variant *v)
{
    if (refused != 0)
        fail(v->name, "a call was refused");
}

/* The processor's time: what else the machine runs is not counted. */
static double now(void)
{
    struct timespec t;
    clock_gettime(CLOCK_THREAD_CPUTIME_ID, &t);
    return (double)t.tv_sec * 1e9 + (double)t.tv_nsec;
}

/* The time that passes. Reading it takes some 20 ns, and the processor's time some 500, which is as much as a short run
 * of asks: so it is this where the clock stands between runs. What else the machine does then falls on few rounds. */
static double passing(void)
{
    struct timespec t;
    clock_gettime(CLOCK_MONOTONIC, &t);
    return (double)t.tv_sec * 1e9 + (double)t.tv_nsec;
}

/* The last block of a pool is given back in each arena in turn, there and back: so most of these give-backs are in the
 * first usable arena, which then has more free pools than those that follow. */
static void make_full(void)
{
    for (uint16_t i = 0; i < EMPTIED; i++) {
        uint16_t turn = i / MOVING, arena = turn % 2 == 0 ? i % MOVING : MOVING - 1 - i % MOVING;
        uint16_t slot = (uint16_t)(IN_POOL * (POOLS * arena + turn));
        for (uint16_t k = 0; k < IN_POOL; k++)
            full[IN_POOL * i + k] = (struct step){(uint16_t)(IN_POOL * i + k), HESKAVERN_LARGEST};
        for (uint16_t k = 0; k < IN_POOL - 1; k++)
            others[(IN_POOL - 1) * i + k] = (struct step){(uint16_t)(slot + k), 0};
        lasts[i] = (struct step){(uint16_t)(slot + IN_POOL - 1), 0};
    }
}

void make_traces(void)
{
    make_full();
    for (size_t i = 0; i < sizeof mixed / sizeof *mixed; i++)
        mixed[i] = (struct step){(uint16_t)below(SLOTS), (uint16_t)between(1, 512)};
    for (size_t w = 0; w < RUN_WINDOWS; w++) {
        for (size_t i = 0; i < RUNS * LONGEST_RUN; i++)
            texts[w][i] = (struct step){0, (uint16_t)between(1, TEXT)};
        for (size_t i = 0; i < RUNS; i++)
            runs[w][i] = (uint16_t)between(SHORTEST_RUN, LONGEST_RUN);
    }
    for (uint16_t i = 0; i < SLOTS; i++) {
        uint16_t other = (uint16_t)(i * 1237u % SLOTS), a = (uint16_t)between(1, 512), b = (uint16_t)between(1, 512);
        start[i] = (struct step){i, (uint16_t)between(1, 512)};
        wide[i] = (struct step){i, (uint16_t)between(200, 512)};
        up[i] = (struct step){other, a > b ? a : b};
        down[i] = (struct step){other, a > b ? b : a};
        if (i % 2 != 0)
            halves[i / 2] = (struct step){i, 0};
    }
    for (size_t i = 0; i < sizeof text; i++)
        text[i] = (uint8_t)below(256);
}

/* ---- ask and give back */

bool has_edition(const struct variant *v, size_t edition)
{
    return v->mixed != NULL && (edition == HESKAVERN_EIGHT || !v->older);
}

static bool can_ask(const struct variant *v)
{
    return has_edition(v, HESKAVERN_EIGHT);
}

static bool can_ask_sixteen(const struct variant *v)
{
    return has_edition(v, HESKAVERN_SIXTEEN);
}

/* This preparation and the others find an empty heap. */
static void prepare_mixed(const struct variant *v)
{
    must(v->fill(start, SLOTS), v);
}

static double visit_mixed(const struct variant *v, size_t round)
{
    const struct step *window = mixed + round % WINDOWS * PAIRS;
    must(v->mixed(window, WARM), v);
    double begin = now();
    unsigned refused = v->mixed(window + WARM, PAIRS);
    double end = now();
    must(refused, v);
    return (end - begin) / PAIRS;
}

/* Every slot has held a block, so that the variants' slots can be compared. */
static void prepare_empty(const struct variant *v)
{
    must(v->fill(start, SLOTS), v);
    must(v->drain(start, SLOTS), v);
}

/* How many texts the runs of a window have. */
static size_t texts_in(size_t w)
{
    size_t sum = 0;
    for (size_t i = 0; i < RUNS; i++)
        sum += runs[w][i];
    return sum;
}

static double visit_statement(const struct variant *v, size_t round)
{
    size_t w = round % RUN_WINDOWS;
    must(v->statement(texts[w], runs[w], RUNS / 4), v);
    double begin = now();
    unsigned refused = v->statement(texts[w], runs[w], RUNS);
    double end = now();
    must(refused, v);
    return (end - begin) / (double)texts_in(w);
}

static double visit_emptied(const struct variant *v, size_t round)
{
    (void)round;
    must(v->fill(full, IN_POOL * EMPTIED), v);
    must(v->drain(others, (IN_POOL - 1) * EMPTIED), v);
    double begin = now();
    unsigned refused = v->drain(lasts, EMPTIED);
    double end = now();
    must(refused, v);
    return (end - begin) / EMPTIED;
}

size_t run_mixed(const struct variant *v, size_t edition)
{
    v->fresh(edition);
    prepare_mixed(v);
    must(v->mixed(mixed, COUNTED), v);
    return COUNTED;
}

size_t run_statement(const struct variant *v, size_t edition)
{
    size_t pairs = 0;
    v->fresh(edition);
    prepare_empty(v);
    for (size_t w = 0; w < RUN_WINDOWS; w++) {
        must(v->statement(texts[w], runs[w], RUNS), v);
        pairs += texts_in(w);
    }
    return pairs;
}

/* ---- a statement in one call */

bool has_rows(const struct variant *v, size_t edition)
{
    return v->ask_row != NULL && (edition == HESKAVERN_EIGHT || !v->older);
}

static bool can_ask_row(const struct variant *v)
{
    return has_rows(v, HESKAVERN_EIGHT);
}

static bool can_ask_row_sixteen(const struct variant *v)
{
    return has_rows(v, HESKAVERN_SIXTEEN);
}

/* Asks for the texts of the first so many runs of a window, each as a row, and gives them back. The time of the asks:
 * the row is made, and given back, while the clock stands. */
static double ask_rows(const struct variant *v, size_t w, size_t n)
{
    static heskavern_request row[LONGEST_RUN];
    const struct step *text_of = texts[w];
    double time = 0;
    for (size_t r = 0; r < n; r++) {
        for (size_t i = 0; i < runs[w][r]; i++)
            row[i] = (heskavern_request){text_of[i].size, HESKAVERN_DAMAGED, 0};
        double begin = passing();
        unsigned refused = v->ask_row(row, runs[w][r]);
        double end = passing();
        must(refused, v);
        must(v->back_row(row, runs[w][r]), v);
        time += end - begin;
        text_of += runs[w][r];
    }
    return time;
}

static double visit_rows(const struct variant *v, size_t round)
{
    size_t w = round % RUN_WINDOWS;
    ask_rows(v, w, RUNS / 4);
    return ask_rows(v, w, RUNS) / (double)texts_in(w);
}

size_t run_rows(const struct variant *v, size_t edition)
{
    size_t asks = 0;
    v->fresh(edition);
    prepare_empty(v);
    for (size_t w = 0; w < RUN_WINDOWS; w++) {
        ask_rows(v, w, RUNS);
        asks += texts_in(w);
    }
    return asks;
}

/* ---- resize */

static void prepare_resize(const struct variant *v)
{
    must(v->fill(down, SLOTS), v);
}

/* Each block goes up and then down again; one of the two is timed, the second time round. */
static double resize_both(const struct variant *v, bool timed_up)
{
    must(v->resize(up, SLOTS), v);
    must(v->resize(down, SLOTS), v);
    double begin = now();
    must(v->resize(up, SLOTS), v);
    double middle = now();
    must(v->resize(down, SLOTS), v);
    double end = now();
    return (timed_up ? middle - begin : end - middle) / SLOTS;
}

static double visit_up(const struct variant *v, size_t round)
{
    (void)round;
    return resize_both(v, true);
}

static double visit_down(const struct variant *v, size_t round)
{
    (void)round;
    return resize_both(v, false);
}

/* ---- write and view */

static bool can_write(const struct variant *v)
{
    return v->write != NULL;
}

static void prepare_write(const struct variant *v)
{
    must(v->fill(wide, SLOTS), v);
}

static double write_bytes(const struct variant *v, size_t round, size_t bytes)
{
    const struct step *window = mixed + round % WINDOWS * PAIRS;
    must(v->write(window, WARM, text, bytes), v);
    double begin = now();
    unsigned refused = v->write(window + WARM, PAIRS, text, bytes);
    double end = now();
    must(refused, v);
    return (end - begin) / PAIRS;
}

static double visit_write_16(const struct variant *v, size_t round)
{
    return write_bytes(v, round, 16);
}

static double visit_write_200(const struct variant *v, size_t round)
{
    return write_bytes(v, round, 200);
}

/* Holds the sum of a variant that has places to the library's, which is kept. */
static void hold(const struct variant *v, uint64_t *kept, uint64_t sum, const char *otherwise)
{
    if (v == variants[0])
        *kept = sum;
    if (v->place != NULL && *kept != 0 && *kept != sum)
        fail(v->name, otherwise);
}

static double visit_view(const struct variant *v, size_t round)
{
    const struct step *window = mixed + round % WINDOWS * PAIRS;
    static uint64_t sums[WINDOWS];
    uint64_t sum = 0, warm = 0;
    must(v->view_size(window, WARM, &warm), v);
    double begin = now();
    unsigned refused = v->view_size(window + WARM, PAIRS, &sum);
    double end = now();
    must(refused, v);
    hold(v, &sums[round % WINDOWS], sum, "its view sizes are not the library's");
    return (end - begin) / PAIRS;
}

/* ---- the stand-in, of offsets half of which are not live any more */

static bool can_stand_in(const struct variant *v)
{
    return v->stand_in != NULL;
}

static void prepare_stand_in(const struct variant *v)
{
    prepare_write(v);
    must(v->drain(halves, SLOTS / 2), v);
}

static double visit_stand_in(const struct variant *v, size_t round)
{
    const struct step *window = mixed + round % WINDOWS * PAIRS;
    static uint64_t sums[WINDOWS];
    uint64_t sum = 0, warm = 0;
    v->stand_in(window, WARM, text, TEXT, &warm);
    double begin = now();
    v->stand_in(window + WARM, PAIRS, text, TEXT, &sum);
    double end = now();
    hold(v, &sums[round % WINDOWS], sum, "its stand-ins are not the library's");
    return (end - begin) / PAIRS;
}

/* ---- roll call, audit, format and two heaps side by side */

/* The heap that these are about, and the one beside it: the same for all variants. */
static struct {
    size_t arenas, pools, roll_words, list_words;
    uint32_t live, entries;                 /* so many blocks are live, and so many differ */
    uint32_t calls, audits, comparisons;    /* so many calls of a visit are timed */
} heap;

#define HEAP HESKAVERN_LENT(heap_memory, heap_books, heap_map, heap.arenas, heap.pools)
#define SECOND HESKAVERN_LENT(second_memory, second_books, second_map, heap.arenas, heap.pools)

static bool can_roll(const struct variant *v)
{
    return v->roll_call != NULL;
}

static bool can_audit(const struct variant *v)
{
    return v->audit != NULL;
}

static bool can_format(const struct variant *v)
{
    return v->format != NULL;
}

static bool can_compare(const struct variant *v)
{
    return v->compare != NULL;
}

/* Asks for 1 to so many bytes until there is no room, and then until there is none for any size. */
static void fill_heap(uint32_t largest)
{
    while (heskavern_ask(HEAP, between(1, largest)).number == HESKAVERN_DONE)
        ;
    for (uint32_t size = 8; size <= HESKAVERN_LARGEST; size += 8)
        while (heskavern_ask(HEAP, size).number == HESKAVERN_DONE)
            ;
}

/* Of the first so many blocks of the roll, gives any back until so many are live. */
static void drain_heap(uint32_t left, uint32_t live)
{
    for (; left > live; left--) {
        uint32_t i = below(left);
        if (heskavern_give_back(HEAP, roll[2 * i]).number != HESKAVERN_DONE)
            fail("this library", "a give-back was refused");
        roll[2 * i] = roll[2 * (left - 1)];
    }
}

/* All but the first block of each pool go to the front of the roll; how many these are. */
static uint32_t all_but_first(uint32_t blocks)
{
    uint32_t others = 0;
    for (uint32_t i = 0; i < blocks; i++)
        if (roll[2 * i] % 4096 != 48)
            roll[2 * others++] = roll[2 * i];
    return others;
}

/* Of the blocks of the roll those stay live that are wanted; how many these are. */
static uint32_t leave_live(const struct wanted_heap *w, uint32_t blocks)
{
    uint32_t share = (uint32_t)(((uint64_t)blocks * w->share + 500) / 1000);
    if (w->live == A_SHARE) {
        drain_heap(blocks, share);
        return share;
    }
    uint32_t others = all_but_first(blocks);
    drain_heap(others, 0);
    return blocks - others;
}

/* The heap that is wanted, the room of its roll, and how long a visit is. */
static void make_heap(const struct wanted_heap *w)
{
    heap.arenas = w->arenas;
    heap.pools = w->pools;
    if (heskavern_format(HEAP, w->arenas, w->pools, HESKAVERN_EIGHT).number != HESKAVERN_DONE)
        fail("this library", "a format was refused");
    if (w->live == ONE_ALONE)
        (void)heskavern_ask(HEAP, w->largest);
    else
        fill_heap(w->largest);
    uint32_t blocks = heskavern_roll_call(HEAP, roll, sizeof roll / sizeof *roll).value;
    heap.live = leave_live(w, blocks);
    heap.roll_words = w->tight ? 2 * (size_t)heap.live : HESKAVERN_ROLL_WORDS(w->arenas, w->pools);
    heap.calls = 1 + VISIT / (2 * w->arenas * w->pools + heap.live);
    heap.audits = 1 + VISIT / (AUDITED_POOL * w->arenas * w->pools + ON_CHAIN * (blocks - heap.live));
}

/* The second heap becomes a copy of the heap. */
static void copy_heap(void)
{
    memcpy(second_memory, heap_memory, sizeof heap_memory);
    memcpy(second_books, heap_books, sizeof heap_books);
    memcpy(second_map, heap_map, sizeof heap_map);
}

/* Takes any of the first so many blocks out of the roll: offset and size, which go to its end. */
static const uint32_t *draw_block(uint32_t left)
{
    uint32_t *block = &roll[2 * below(left)], *last = &roll[2 * (left - 1)], offset = block[0], size = block[1];
    block[0] = last[0], block[1] = last[1];
    last[0] = offset, last[1] = size;
    return last;
}

/* In the second heap about a tenth of as many blocks as are live differs, of three sorts, at least one of each: blocks
 * that come, blocks in which a byte anywhere is another, and blocks that are given back. They come before any is given
 * back, so that no pool is taken for another size. */
static void change_second(void)
{
    uint32_t left = heskavern_roll_call(HEAP, roll, sizeof roll / sizeof *roll).value;
    uint32_t each = left < 45 ? 1 : (left + 15) / 30;
    for (uint32_t come = 0; come < each;)
        come += heskavern_ask(SECOND, between(1, HESKAVERN_LARGEST)).number == HESKAVERN_DONE;
    for (uint32_t i = 0; i < each; i++) {
        const uint32_t *written = draw_block(left--);
        second_memory[written[0] + below(written[1])] ^= 1;
        if (heskavern_give_back(SECOND, draw_block(left--)[0]).number != HESKAVERN_DONE)
            fail("this library", "a give-back was refused");
    }
}

/* The heap that is wanted, the one beside it, the room of the list, and how long a visit is. */
static void make_pair(const struct wanted_heap *w)
{
    make_heap(w);
    copy_heap();
    if (w->second == A_TENTH_DIFFERS)
        change_second();
    else if (w->second == FILLED_APART)
        make_heap(w);
    heap.entries = heskavern_compare(HEAP, SECOND, list, sizeof list / sizeof *list, changes, CLASSES).value;
    heap.list_words = w->tight ? 2 * (size_t)heap.entries : HESKAVERN_ROLL_WORDS(w->arenas, w->pools);
    heap.comparisons = 1 + VISIT / (COMPARED_POOL * w->arenas * w->pools + COMPARED_BLOCK * heap.live);
}

static void call_roll(const struct variant *v)
{
    heskavern_answer a = v->roll_call(HEAP, roll, heap.roll_words);
    if (a.number != HESKAVERN_DONE || a.value != heap.live)
        fail(v->name, "its roll call counts wrongly");
}

/* Every variant's roll is the library's, word by word. */
static void prepare_roll(const struct variant *v)
{
    static uint32_t first[sizeof roll / sizeof *roll];
    size_t bytes = 2 * heap.live * sizeof *roll;
    memset(roll, 0, bytes);
    call_roll(v);
    if (v == variants[0])
        memcpy(first, roll, bytes);
    if (memcmp(first, roll, bytes) != 0)
        fail(v->name, "its roll is not the library's");
}

static double visit_roll(const struct variant *v, size_t round)
{
    (void)round;
    call_roll(v);
    double begin = now();
    for (uint32_t i = 0; i < heap.calls; i++)
        call_roll(v);
    double end = now();
    return (end - begin) / heap.calls / 1000;
}

static void prepare_audit(const struct variant *v)
{
    if (v->audit(HEAP) != HESKAVERN_AUDIT_YES)
        fail(v->name, "its audit does not say yes of a sound heap");
}

/* By the pool, so that it shows how the time grows with their number. */
static double visit_audit(const struct variant *v, size_t round)
{
    uint32_t broken = v->audit(HEAP);
    (void)round;
    double begin = now();
    for (uint32_t i = 0; i < heap.audits; i++)
        broken |= v->audit(HEAP);
    double end = now();
    if (broken != HESKAVERN_AUDIT_YES)
        fail(v->name, "its audit does not say yes of a sound heap");
    return (end - begin) / heap.audits / (double)(heap.arenas * heap.pools);
}

static void prepare_format(const struct variant *v)
{
    (void)v;
}

static void call_format(const struct variant *v)
{
    if (v->format(HEAP, heap.arenas, heap.pools, HESKAVERN_EIGHT).number != HESKAVERN_DONE)
        fail(v->name, "its format was refused");
}

static double visit_format(const struct variant *v, size_t round)
{
    (void)round;
    call_format(v);
    double begin = now();
    for (uint32_t i = 0; i < heap.calls; i++)
        call_format(v);
    double end = now();
    return (end - begin) / heap.calls / 1000;
}

static void call_compare(const struct variant *v)
{
    heskavern_answer a = v->compare(HEAP, SECOND, list, heap.list_words, changes, CLASSES);
    if (a.number != HESKAVERN_DONE || a.value != heap.entries)
        fail(v->name, "its comparison counts wrongly");
}

/* Every variant's list and changes are the library's, word by word. */
static void prepare_compare(const struct variant *v)
{
    static uint32_t first[sizeof list / sizeof *list];
    static int32_t first_changes[CLASSES];
    size_t bytes = 2 * heap.entries * sizeof *list;
    memset(list, 0, bytes);
    memset(changes, 0x5a, sizeof changes);
    call_compare(v);
    if (v == variants[0]) {
        memcpy(first, list, bytes);
        memcpy(first_changes, changes, sizeof changes);
    }
    if (memcmp(first, list, bytes) != 0 || memcmp(first_changes, changes, sizeof changes) != 0)
        fail(v->name, "its list or changes are not the library's");
}

static double visit_compare(const struct variant *v, size_t round)
{
    (void)round;
    call_compare(v);
    double begin = now();
    for (uint32_t i = 0; i < heap.comparisons; i++)
        call_compare(v);
    double end = now();
    return (end - begin) / heap.comparisons / 1000;
}

/* ---- all of them */

void prepare(const struct task *t, const struct variant *v)
{
    if (t->wanted.arenas == 0)
        v->fresh(t->edition);
    else if (v == variants[0])
        (t->wanted.second == NO_SECOND ? make_heap : make_pair)(&t->wanted);
    t->prepare(v);
}

double visit(const struct task *t, const struct variant *v, size_t round)
{
    volatile uint8_t shift[1 + 272 * round % 4096];
    shift[0] = 0;
    double time = t->visit(v, round);
    return time + shift[0];
}

/* Roll call over one heap, with each share of its blocks live; and the same where the roll has just room enough. */
#define ROLL(title, share, tight, ...) \
    {title, can_roll, prepare_roll, .visit = visit_roll, .wanted = {__VA_ARGS__, share, tight, A_SHARE, NO_SECOND}}
#define ROLLS(title, ...) \
    ROLL(title ", 0 % live", 0, false, __VA_ARGS__), ROLL(title ", 0.1 % live", 1, false, __VA_ARGS__), \
        ROLL(title ", 1 % live", 10, false, __VA_ARGS__), ROLL(title ", 10 % live", 100, false, __VA_ARGS__), \
        ROLL(title ", 50 % live", 500, false, __VA_ARGS__), ROLL(title ", 90 % live", 900, false, __VA_ARGS__), \
        ROLL(title ", 100 % live", 1000, false, __VA_ARGS__)
#define TIGHT_ROLLS(title, ...) \
    ROLL(title ", 0.1 % live, just room enough", 1, true, __VA_ARGS__), \
        ROLL(title ", 10 % live, just room enough", 100, true, __VA_ARGS__), \
        ROLL(title ", 100 % live, just room enough", 1000, true, __VA_ARGS__)

/* The audit of heaps of blocks of 8 bytes, of each number of pools, with these of the blocks live. */
#define AUDIT(title, live, arenas, pools) \
    {title, can_audit, prepare_audit, .visit = visit_audit, .wanted = {arenas, pools, 8, 1000, false, live, NO_SECOND}}
#define AUDITS(title, live) \
    AUDIT("16 pools, " title, live, 1, 16), AUDIT("256 pools, " title, live, 4, 64), \
        AUDIT("1,024 pools, " title, live, 16, 64)

/* Two heaps of 1,024 pools and blocks of all sizes, of which this share is live in the first. */
#define PAIR(title, share, tight, second) \
    {"1,024 pools, " title, can_compare, prepare_compare, .visit = visit_compare, \
     .wanted = {16, 64, HESKAVERN_LARGEST, share, tight, A_SHARE, second}}
#define PAIRS(title, share) \
    PAIR(title ", equal", share, false, A_COPY), PAIR(title ", a tenth differs", share, false, A_TENTH_DIFFERS)

const struct task tasks[TASKS] = {
    {"ask + give back, mixed: ns a pair", can_ask, prepare_mixed, .visit = visit_mixed},
    {"ask + give back, statement: ns a pair", can_ask, prepare_empty, .visit = visit_statement},
    {"ask + give back, mixed, edition sixteen: ns a pair", can_ask_sixteen, prepare_mixed, .visit = visit_mixed,
     .edition = HESKAVERN_SIXTEEN},
    {"ask + give back, statement, edition sixteen: ns a pair", can_ask_sixteen, prepare_empty,
     .visit = visit_statement, .edition = HESKAVERN_SIXTEEN},
    {"give back, most moving an arena: ns", can_ask, prepare_empty, .visit = visit_emptied},
    {"resize up: ns", can_ask, prepare_resize, .visit = visit_up},
    {"resize down: ns", can_ask, prepare_resize, .visit = visit_down},
    {"write 16 bytes (source: memcpy): ns", can_write, prepare_write, .visit = visit_write_16},
    {"write 200 bytes (source: memcpy): ns", can_write, prepare_write, .visit = visit_write_200},
    {"view_size: ns", can_write, prepare_write, .visit = visit_view},
    {"stand-in, half of the blocks given back: ns", can_stand_in, prepare_stand_in, .visit = visit_stand_in},
    {"format (C: memset and a loop): µs", can_format, prepare_format, .visit = visit_format,
     .wanted = {4, 64, 8, 0, false, A_SHARE, NO_SECOND}},
    ROLLS("16 pools, blocks of 8 bytes", 1, 16, 8),
    ROLLS("16 pools, blocks of all sizes", 1, 16, HESKAVERN_LARGEST),
    ROLLS("1,024 pools, blocks of 8 bytes", 16, 64, 8),
    ROLLS("1,024 pools, blocks of all sizes", 16, 64, HESKAVERN_LARGEST),
    TIGHT_ROLLS("1,024 pools, blocks of 8 bytes", 16, 64, 8),
    TIGHT_ROLLS("1,024 pools, blocks of all sizes", 16, 64, HESKAVERN_LARGEST),
    AUDITS("all blocks of 8 bytes live", A_SHARE),
    AUDITS("one block live", ONE_ALONE),
    AUDITS("one block of each pool live, and 505 on its freed chain", ONE_A_POOL),
    PAIRS("0.1 % live", 1),
    PAIRS("10 % live", 100),
    PAIRS("90 % live", 900),
    PAIR("90 % live, a tenth differs, just room enough", 900, true, A_TENTH_DIFFERS),
    PAIR("10 % live, filled apart", 100, false, FILLED_APART),
    {"50 to 400 texts of 1 to 40 bytes", can_ask_row, prepare_empty, .visit = visit_rows},
    {"50 to 400 texts of 1 to 40 bytes, edition sixteen", can_ask_row_sixteen, prepare_empty, .visit = visit_rows,
     .edition = HESKAVERN_SIXTEEN},
};
