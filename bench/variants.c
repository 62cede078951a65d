/* The allocators that are compared. */
#define _GNU_SOURCE
#include "variants.h"

#include "peers.h"
#include "pymalloc.h"

#include <dlfcn.h>
#include <stdio.h>
#include <stdlib.h>
#include <string.h>

/* The parts of a variant's row. */
#define TRACES(v) \
    .stem = #v, .fill = v##_fill_trace, .drain = v##_drain_trace, .mixed = v##_mixed_trace, \
    .statement = v##_statement_trace, .resize = v##_resize_trace
#define ROW(v, way) \
    .ask_row = v##_ask_##way##_trace, .back_row = v##_back_##way##_trace, .row_trace = #v "_ask_" #way "_trace"
#define WITH_BLOCKS(v) .same = v##_same_block
#define WRITE_TRACES(v) .write = v##_write_trace, .view_size = v##_view_trace
#define STAND_IN_TRACE(v) .stand_in = v##_stand_in_trace
#define WITH_PLACES(v) .place = v##_place_of_slot

/* ---- this library, an older archive of it, and the same checks in C by two compilers */

#define CHECKED(v) .fresh = v##_fresh, TRACES(v), WITH_BLOCKS(v), WRITE_TRACES(v), WITH_PLACES(v)
/* The row one by one alone, with the same heap and slots as in one call. */
#define ONE_BY_ONE(v) .fresh = v##_fresh, .fill = v##_fill_trace, .drain = v##_drain_trace, ROW(v, each)

#define THIS(name) library_##name
#define CALL(name) heskavern_##name
#define STANDS_IN
#define ASKS_ALL
#include "checked.h"
static const struct variant library = {
    "this library", CHECKED(library), ROW(library, all), STAND_IN_TRACE(library), .roll_call = heskavern_roll_call,
    .format = heskavern_format, .audit = heskavern_audit, .compare = heskavern_compare
};
static const struct variant library_each = {"this library, one by one", ONE_BY_ONE(library)};
static const struct variant merged_rolls = {"two rolls, merged, in C over the library", .compare = two_rolls};

/* The older archive is linked with before_ask for heskavern_ask and so on. One of before W-201 has no audit, and one of
 * before W-212 does not compare: neither is measured of any. One of before W-204 has no call for a row: any asks for it
 * one by one. In one of before W-211 format takes no edition. It is given one all the same: on x86-64 that stands on
 * the stack after the arguments that it reads, and is its caller's to clear away. */
#ifdef BEFORE
#define CHECKS(name) before_##name
#include "checks.h"
#define THIS(name) archive_before_##name
#define CALL(name) CHECKS(name)
#include "checked.h"
static const struct variant archive_before = {
    "this library, before", .older = true, CHECKED(archive_before), ROW(archive_before, each),
    .roll_call = before_roll_call, .format = before_format
};
#undef CHECKS
#endif

#define CHECKS(name) gcc_##name
#include "checks.h"
#define THIS(name) by_gcc_##name
#define CALL(name) CHECKS(name)
#define STANDS_IN
#define ASKS_ALL
#include "checked.h"
static const struct variant by_gcc = {
    "the same checks in C, gcc -O2", CHECKED(by_gcc), ROW(by_gcc, all), STAND_IN_TRACE(by_gcc),
    .roll_call = gcc_roll_call, .format = gcc_format, .audit = gcc_audit, .compare = gcc_compare
};
static const struct variant by_gcc_each = {"the same checks one by one, gcc -O2", ONE_BY_ONE(by_gcc)};
static const struct variant plain_by_gcc = {"a plain loop with ctz, gcc -O2", .roll_call = gcc_plain_roll_call};
#undef CHECKS

#define CHECKS(name) clang_##name
#include "checks.h"
#define THIS(name) by_clang_##name
#define CALL(name) CHECKS(name)
#define STANDS_IN
#define ASKS_ALL
#include "checked.h"
static const struct variant by_clang = {
    "the same checks in C, clang -O3", CHECKED(by_clang), ROW(by_clang, all), STAND_IN_TRACE(by_clang),
    .roll_call = clang_roll_call, .format = clang_format, .audit = clang_audit, .compare = clang_compare
};
static const struct variant by_clang_each = {"the same checks one by one, clang -O3", ONE_BY_ONE(by_clang)};
static const struct variant plain_by_clang = {"a plain loop with ctz, clang -O3", .roll_call = clang_plain_roll_call};
static const struct variant grouped_by_clang = {
    "the same with loops for memcmp, clang -O3", .compare = clang_grouped_compare
};
#undef CHECKS

/* ---- the program written from the source, which trusts its caller: to write is to copy */

static struct pymalloc source_heap;
static _Alignas(POOL_SIZE) uint8_t source_memory[HESKAVERN_MEMORY_BYTES(ARENAS, POOLS)];

#define THIS(name) source_##name
#define BLOCK uint8_t *
#define WRITES
#define PLACES

static void source_fresh(size_t edition)
{
    pymalloc_format(&source_heap, source_memory, ARENAS, POOLS, 3 + (unsigned)edition);
}

static inline BLOCK source_ask(size_t size, unsigned *refused)
{
    BLOCK p = pymalloc_ask(&source_heap, size);
    *refused |= p == NULL;
    return p;
}

static inline void source_give_back(BLOCK p, unsigned *refused)
{
    (void)refused;
    pymalloc_give_back(&source_heap, p);
}

static inline BLOCK source_resize(BLOCK p, size_t size, unsigned *refused)
{
    p = pymalloc_resize(&source_heap, p, size);
    *refused |= p == NULL;
    return p;
}

static inline void source_write(BLOCK p, const uint8_t *text, size_t bytes, unsigned *refused)
{
    (void)refused;
    memcpy(p, text, bytes);
}

static inline uint32_t source_view_size(BLOCK p, unsigned *refused)
{
    (void)refused;
    return pymalloc_size(&source_heap, p);
}

static inline uint32_t source_place(BLOCK p)
{
    return (uint32_t)(p - source_memory);
}

#include "traces.h"
static const struct variant source = {
    "the program from the source", .fresh = source_fresh, TRACES(source), ROW(source, each), WITH_BLOCKS(source),
    WRITE_TRACES(source), WITH_PLACES(source)
};

/* ---- the system's allocators */

struct system_calls {
    void *(*ask)(size_t);
    void (*give_back)(void *);
    void *(*resize)(void *, size_t);
};

static void no_heap(size_t edition)
{
    (void)edition;
}

#define SYSTEM(v) .fresh = no_heap, TRACES(v), ROW(v, each), WITH_BLOCKS(v)

#define THIS(name) glibc_##name
#include "system.h"
static const struct variant glibc = {"glibc", SYSTEM(glibc)};

#define THIS(name) mimalloc_##name
#include "system.h"
static const struct variant mimalloc = {"mimalloc", SYSTEM(mimalloc)};

#define THIS(name) jemalloc_##name
#include "system.h"
static const struct variant jemalloc = {"jemalloc", SYSTEM(jemalloc)};

/* Finds an allocator's calls in a library that is loaded beside the program's own. */
static bool find_calls(struct system_calls *calls, const char *library, const char *ask, const char *give_back,
                       const char *resize)
{
    void *handle = dlopen(library, RTLD_NOW | RTLD_LOCAL);
    if (handle == NULL)
        return false;
    *(void **)&calls->ask = dlsym(handle, ask);
    *(void **)&calls->give_back = dlsym(handle, give_back);
    *(void **)&calls->resize = dlsym(handle, resize);
    return calls->ask != NULL && calls->give_back != NULL && calls->resize != NULL;
}

/* ---- the loop alone */

#define THIS(name) loop_##name
#define BLOCK uint32_t
#define WRITES
#define STANDS_IN
#define NOTHING(x) nothing(HESKAVERN_LENT(library_memory, library_books, library_map, ARENAS, POOLS), x)

static inline BLOCK loop_ask(size_t size, unsigned *refused)
{
    return library_value(NOTHING(size), refused);
}

static inline void loop_give_back(BLOCK block, unsigned *refused)
{
    library_value(NOTHING(block), refused);
}

static inline BLOCK loop_resize(BLOCK block, size_t size, unsigned *refused)
{
    return library_value(NOTHING(block + size), refused);
}

static inline void loop_write(BLOCK block, const uint8_t *text, size_t bytes, unsigned *refused)
{
    (void)text, (void)bytes;
    library_value(NOTHING(block), refused);
}

static inline uint32_t loop_view_size(BLOCK block, unsigned *refused)
{
    return library_value(NOTHING(block), refused);
}

static inline heskavern_part loop_stand_in(BLOCK block, const uint8_t *phrase, size_t bytes)
{
    return (heskavern_part){phrase, bytes + NOTHING(block).value};
}

#include "traces.h"
static const struct variant loop = {
    "the loop alone", .fresh = no_heap, TRACES(loop), ROW(loop, each), WRITE_TRACES(loop), STAND_IN_TRACE(loop)
};

/* ---- all of them */

const struct variant *variants[MOST_VARIANTS];
size_t variant_count;

static void add(bool found, const struct variant *v)
{
    if (found)
        variants[variant_count++] = v;
    else
        fprintf(stderr, "bench: %s cannot be loaded and is left out\n", v->name);
}

/* Its traces are those over the process's own malloc: they run in the peer's process. */
static void add_peer(struct peer *peer)
{
    static struct variant rows[MOST_PEERS];
    static size_t n;
    rows[n] = glibc;
    rows[n].name = peer->name;
    rows[n].peer = peer;
    variants[variant_count++] = &rows[n++];
}

/* As the program is linked: a library that is loaded first may have them under versions that a search would miss. */
const struct variant *find_own(const char **file)
{
    Dl_info where;
    glibc_calls = (struct system_calls){malloc, free, realloc};
    *file = dladdr(*(void **)&glibc_calls.ask, &where) != 0 ? where.dli_fname : "";
    return &glibc;
}

void find_variants(struct peer *peers, size_t n)
{
    const char *file;
    add(true, &library);
    add(true, &library_each);
#ifdef BEFORE
    add(true, &archive_before);
#endif
    add(true, &by_gcc);
    add(true, &by_clang);
    add(true, &by_gcc_each);
    add(true, &by_clang_each);
    add(true, &plain_by_gcc);
    add(true, &plain_by_clang);
    add(true, &grouped_by_clang);
    add(true, &merged_rolls);
    add(true, &source);
    add(true, find_own(&file));
    add(find_calls(&mimalloc_calls, "libmimalloc.so.2", "mi_malloc", "mi_free", "mi_realloc"), &mimalloc);
    add(find_calls(&jemalloc_calls, "libjemalloc.so.2", "malloc", "free", "realloc"), &jemalloc);
    for (size_t i = 0; i < n; i++)
        add_peer(&peers[i]);
    add(true, &loop);
}
