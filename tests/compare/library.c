/* Replays 01's records through the C library, for a heap of any shape and edition: library A P EDITION < records
 * > replies. The records are whole and well made: bad ones are the replay program's own business. Asks that follow each
 * other are mostly made in rows of a few, by one call. After every call, or where the heap is large after some, the
 * audit must say yes; and after some that are of one record the heap, beside itself before it, must differ by what the
 * reply says and by nothing else. */
#include "../../include/heskavern.h"
#include "../source/bytes.h"

#include <stdio.h>
#include <stdlib.h>
#include <string.h>

enum { RECORD = 16, ASK = 1, GIVE_BACK = 2, RESIZE = 3 };
enum { MOST = 16 * 64 };
enum { ROW = 5 };       /* the most asks that one call makes */
enum { SMALL = 16 };    /* pools; the time of an audit grows with them, and it is made as much more seldom */
enum { SELDOM = 16 };   /* audits to a comparison, which reads every live byte */

static struct heap {
    uint8_t memory[HESKAVERN_MEMORY_BYTES(1, MOST)];
    uint32_t books[HESKAVERN_BOOKS_WORDS(16, 64)];
    uint64_t map[HESKAVERN_MAP_WORDS(1, MOST)];
} now, before;
static size_t arenas, pools;

#define LENT(heap) HESKAVERN_LENT(heap.memory, heap.books, heap.map, arenas, pools)
#define HEAP LENT(now)

/* The reply to a record; live is the number of live blocks before it and after it. */
static void answer(const unsigned char *record, unsigned char *reply, uint32_t *live)
{
    unsigned op = record[0];
    uint32_t size = get32(record + 4), offset = get32(record + 8);
    uint32_t given = op == GIVE_BACK ? heskavern_view_size(HEAP, offset).value : 0;
    heskavern_answer a = op == ASK ? heskavern_ask(HEAP, size)
        : op == GIVE_BACK ? heskavern_give_back(HEAP, offset)
        : heskavern_resize(HEAP, offset, size);
    int done = a.number == HESKAVERN_DONE;
    if (done && op == ASK)
        ++*live;
    if (done && op == GIVE_BACK)
        --*live;
    put32(reply, op | a.number << 8);
    put32(reply + 4, done ? a.value : op == ASK ? 0 : offset);
    put32(reply + 8, !done ? 0 : op == GIVE_BACK ? given : heskavern_view_size(HEAP, a.value).value);
    put32(reply + 12, *live);
}

/* The replies to asks that one call makes, as if each were made alone. What stands in the row's places before must not
 * matter. */
static void answer_all(unsigned char records[][RECORD], size_t asks, unsigned char replies[][RECORD], uint32_t *live)
{
    heskavern_request row[ROW];
    memset(row, 0xff, sizeof row);
    for (size_t i = 0; i < asks; ++i)
        row[i].size = get32(records[i] + 4);
    heskavern_answer a = heskavern_ask_all(HEAP, row, asks);
    for (size_t i = 0; i < asks; ++i) {
        uint32_t number = a.number == HESKAVERN_DONE ? row[i].number : a.number;
        int done = number == HESKAVERN_DONE;
        *live += (uint32_t)done;
        put32(replies[i], ASK | number << 8);
        put32(replies[i] + 4, row[i].offset);
        put32(replies[i] + 8, done ? heskavern_view_size(HEAP, row[i].offset).value : 0);
        put32(replies[i] + 12, *live);
    }
}

/* The record that comes next, if there is one. */
static unsigned char next[RECORD];
static int more;

static void read_next(void)
{
    more = fread(next, 1, RECORD, stdin) == RECORD;
}

/* Takes the records of a call: the next one, and where it is an ask also those after it, to so many in all. Answers how
 * many. */
static size_t take(unsigned char records[][RECORD], size_t most)
{
    size_t taken = 0;
    do {
        memcpy(records[taken++], next, RECORD);
        read_next();
    } while (more && taken < most && records[0][0] == ASK && next[0] == ASK);
    return taken;
}

/* Says that the audit gives a rule after so many records; whether it does. */
static int broken(unsigned long records)
{
    uint32_t rule = heskavern_audit(HEAP);
    if (rule != HESKAVERN_AUDIT_YES)
        fprintf(stderr, "the audit gives %u after %lu records\n", rule, records);
    return rule != HESKAVERN_AUDIT_YES;
}

/* Keeps the heap as it is before a record. */
static void keep(void)
{
    memcpy(before.memory, now.memory, HESKAVERN_MEMORY_BYTES(arenas, pools));
    memcpy(before.books, now.books, HESKAVERN_BOOKS_WORDS(arenas, pools) * sizeof *now.books);
    memcpy(before.map, now.map, HESKAVERN_MAP_WORDS(arenas, pools) * sizeof *now.map);
}

/* Says that compare does not find just what a record with this reply has changed; whether so. What went from an offset
 * was live before alone, and what came to one is live now alone; a resize that moves is both. */
static int astray(const unsigned char *record, const unsigned char *reply, unsigned long records)
{
    static const int32_t none[HESKAVERN_CHANGES];
    const uint32_t from = get32(record + 8), to = get32(reply + 4), smallest = now.books[68] ? 16 : 8;
    const uint32_t gone[2] = {from, HESKAVERN_FIRST_ALONE}, come[2] = {to, HESKAVERN_SECOND_ALONE};
    int moves = reply[1] == HESKAVERN_DONE && !(record[0] == RESIZE && from == to);
    int went = moves && record[0] != ASK, came = moves && record[0] != GIVE_BACK;
    uint32_t list[4] = {0, 0, 0, 0};
    int32_t changes[HESKAVERN_CHANGES] = {0};
    heskavern_answer a = heskavern_compare(LENT(before), LENT(now), list, 4, changes, HESKAVERN_CHANGES);
    int right = a.number == HESKAVERN_DONE && a.value == (uint32_t)(went + came)
        && (!went || memcmp(list + (came && to < from ? 2 : 0), gone, sizeof gone) == 0)
        && (!came || memcmp(list + (went && from < to ? 2 : 0), come, sizeof come) == 0);
    if (right && went) /* both are taken back, and then no change is left */
        ++changes[heskavern_view_size(LENT(before), from).value / smallest - 1];
    if (right && came)
        --changes[heskavern_view_size(LENT(now), to).value / smallest - 1];
    right = right && memcmp(changes, none, sizeof none) == 0;
    if (!right)
        fprintf(stderr, "compare does not find just what record %lu has changed\n", records);
    return !right;
}

int main(int argc, char **argv)
{
    unsigned char record[ROW][RECORD], reply[ROW][RECORD];
    uint32_t live = 0;
    unsigned long calls = 0, records = 0;
    arenas = argc == 4 ? strtoul(argv[1], NULL, 10) : 0;
    pools = argc == 4 ? strtoul(argv[2], NULL, 10) : 0;
    size_t edition = argc == 4 ? strtoul(argv[3], NULL, 10) : 0;
    if (arenas > 16 || pools > 64 || heskavern_format(HEAP, arenas, pools, edition).number != HESKAVERN_DONE) {
        fputs("usage: library A P EDITION, A from 1 to 16, P from 2 to 64, EDITION 0 or 1\n", stderr);
        return 2;
    }
    size_t each = arenas * pools > SMALL ? arenas * pools / SMALL : 1;
    read_next();
    while (more) {
        int compared = ++calls % (SELDOM * each) == 0;
        size_t taken = take(record, compared ? 1 : 1 + calls % ROW);
        records += taken;
        if (compared)
            keep();
        if (taken == 1)
            answer(record[0], reply[0], &live);
        else
            answer_all(record, taken, reply, &live);
        fwrite(reply, RECORD, taken, stdout);
        if ((calls % each == 0 && broken(records)) || (compared && astray(record[0], reply[0], records)))
            return 1;
    }
    return fflush(stdout) == 0 ? 0 : 1;
}
