/* Rows of requests, for verify.c, after checks.h, random.h and pairs.h: what ask_all has left in a row and in its heap
 * must be what as many single asks by the library leave in a copy of them; where it was refused, what came. */

#include <stdbool.h>
#include <stdio.h>
#include <string.h>

enum { MOST_ENTRIES = HESKAVERN_MOST_REQUESTS + 1 };
enum { NO_REQUEST, ONE_REQUEST, SOME_REQUESTS, ALL_REQUESTS, ONE_TOO_MANY, ROW_LENGTHS };

static const char *const row_lengths[ROW_LENGTHS] = {
    [NO_REQUEST] = "no request",
    [ONE_REQUEST] = "one",
    [SOME_REQUESTS] = "more",
    [ALL_REQUESTS] = "4,096",
    [ONE_TOO_MANY] = "4,097, refused with 7",
};
static const uint8_t of_calls[] = {HESKAVERN_DONE, HESKAVERN_OUT_OF_RANGE, HESKAVERN_NOT_EXACT, HESKAVERN_DOES_NOT_FIT};
static const uint8_t of_asks[] = {HESKAVERN_DONE, HESKAVERN_BAD_SIZE, HESKAVERN_NO_ROOM, HESKAVERN_DAMAGED};

/* In an edition: calls by their number and by their length, requests by their number, on damaged books and on sound
 * ones, and of the refused ones those that a served one of their row comes after. */
struct met_rows {
    unsigned long calls[NUMBERS], lengths[ROW_LENGTHS], requests[2][NUMBERS], before_served[NUMBERS];
};

static heskavern_request single_row[MOST_ENTRIES + 1];  /* the row as it came, and an entry behind it */
static struct copy single;                              /* and its heap */

/* How many requests a row has. A long one fills the heap, so there are few of these. */
static size_t random_entries(bool few)
{
    switch (below(400)) {
    case 0: return HESKAVERN_MOST_REQUESTS;
    case 1: return MOST_ENTRIES;
    default: return below(few ? 4 : below(4) == 0 ? 60 : 10);
    }
}

/* Whether a call of this number has left the row and the heap as it is to: as as many single asks do, or, where it is
 * refused, as they came. */
static bool as_by_asks(const heskavern_request *row, size_t entries, uint32_t number, const uint8_t *memory,
                       const uint32_t *books, const uint64_t *map)
{
    struct copy *s = &single;
    for (size_t i = 0; number == HESKAVERN_DONE && i < entries; i++) {
        heskavern_answer a = heskavern_ask(HESKAVERN_LENT(s->memory, s->books, s->map, s->arenas, s->pools),
                                           single_row[i].size);
        single_row[i].number = a.number;
        single_row[i].offset = a.value;
    }
    const bool too_many = entries > HESKAVERN_MOST_REQUESTS;
    const struct lengths l = exact_lengths(s);
    if (number != (too_many ? HESKAVERN_DONE : HESKAVERN_DOES_NOT_FIT)
        && memcmp(row, single_row, (entries + 1) * sizeof *row) == 0 && memcmp(memory, s->memory, l.memory_bytes) == 0
        && memcmp(books, s->books, l.books_words * sizeof *books) == 0
        && memcmp(map, s->map, l.map_words * sizeof *map) == 0)
        return true;
    printf("bench/verify: a row of %zu requests, which gives %u, is not left as by single asks\n", entries, number);
    return false;
}

/* Counts a call over such a row. */
static void note_row(struct met_rows *m, const heskavern_request *row, size_t entries, uint32_t number, bool sound)
{
    unsigned long refused[NUMBERS] = {0};
    m->calls[number]++;
    if (number == HESKAVERN_DOES_NOT_FIT)
        m->lengths[ONE_TOO_MANY]++;
    if (number != HESKAVERN_DONE)
        return;
    m->lengths[entries == HESKAVERN_MOST_REQUESTS ? ALL_REQUESTS : entries > 1 ? SOME_REQUESTS : entries]++;
    for (size_t i = 0; i < entries; i++) {
        m->requests[sound][row[i].number]++;
        refused[row[i].number]++;
        if (row[i].number != HESKAVERN_DONE)
            continue;
        for (size_t n = 0; n < NUMBERS; n++) {
            m->before_served[n] += refused[n];
            refused[n] = 0;
        }
    }
}

/* Says how often each of these numbers was met, and whether all of them were. */
static bool say_each(const char *what, const unsigned long *met, const uint8_t *numbers, size_t n)
{
    bool all = true;
    printf("%s", what);
    for (size_t i = 0; i < n; i++)
        all &= say_all("", &met[numbers[i]], 1);
    return all;
}

/* Says what was met of rows, and whether all of it was. Sound books give no 6. */
static bool say_rows(const struct met_rows *m)
{
    bool all = say_each("  rows of requests by 0, 1, 2 and 7:", m->calls, of_calls, sizeof of_calls);
    printf("; by how many they have");
    for (size_t i = 0; i < ROW_LENGTHS; i++) {
        printf("%s %s:", i == 0 ? "" : ",", row_lengths[i]);
        all &= say_all("", &m->lengths[i], 1);
    }
    all &= say_each("\n    requests by 0, 3 and 4 on sound books:", m->requests[true], of_asks, sizeof of_asks - 1);
    all &= say_each("; by 0, 3, 4 and 6 on damaged ones:", m->requests[false], of_asks, sizeof of_asks);
    all &= say_each("; by 3, 4 and 6 before one that is served:", m->before_served, of_asks + 1, sizeof of_asks - 1);
    printf("\n");
    return all && m->requests[true][HESKAVERN_DAMAGED] == 0;
}
