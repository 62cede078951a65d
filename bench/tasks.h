/* What is measured, over the same traces for every variant. */
#ifndef TASKS_H
#define TASKS_H

#include "variants.h"

/* Those of roll call, then those of the audit, then those of two heaps side by side, and then those of a statement in
 * one call are the last ones. */
enum { FIRST_ROLL = 12, FIRST_AUDIT = FIRST_ROLL + 34, FIRST_PAIR = FIRST_AUDIT + 9, FIRST_ROW = FIRST_PAIR + 8 };
enum { TASKS = FIRST_ROW + 2 };

/* The blocks of a heap that are live. */
enum live { A_SHARE, ONE_A_POOL, ONE_ALONE };

/* The heap beside it: none; a copy of it; one in which about a tenth of as many blocks as are live differs; or one that
 * was filled and drained like it, but of other sizes and in another order. */
enum second { NO_SECOND, A_COPY, A_TENTH_DIFFERS, FILLED_APART };

/* A heap that was filled with blocks for 1 to so many bytes until there was room for none, of which this share, in
 * thousandths and to the nearest block, is still live, or one of each pool; or where one alone was asked for. The roll
 * has room for just these where it is tight, and otherwise for every block that a heap of so many pools could have; and
 * where there is a second heap, the list for just the entries, or for all that there could be. */
struct wanted_heap {
    uint32_t arenas, pools, largest, share;
    bool tight;
    enum live live;
    enum second second;
};

/* A visit gives the time of one operation; it makes some of them untimed first. */
struct task {
    const char *title;
    bool (*can)(const struct variant *v);
    void (*prepare)(const struct variant *v);
    double (*visit)(const struct variant *v, size_t round);
    struct wanted_heap wanted;      /* of roll call, audit, format and pairs; 0 arenas where each has its own heap */
    size_t edition;                 /* of their own heaps */
};

extern const struct task tasks[TASKS];

/* Says who did what wrong, and ends the program. */
_Noreturn void fail(const char *who, const char *what);

/* The traces, always the same. Before anything else here. */
void make_traces(void);

/* What comes before the visits to a variant; the library is the first. */
void prepare(const struct task *t, const struct variant *v);

/* A visit with the stack moved by another amount in each round: should it matter where the stack stands, one place does
 * not decide the run. */
double visit(const struct task *t, const struct variant *v, size_t round);

/* Prepares and runs a whole trace once, for the instructions to be counted; how many pairs it has, or of rows how many
 * asks. */
size_t run_mixed(const struct variant *v, size_t edition);
size_t run_statement(const struct variant *v, size_t edition);
size_t run_rows(const struct variant *v, size_t edition);

/* Whether a variant can run the traces in this edition, and those of rows. */
bool has_edition(const struct variant *v, size_t edition);
bool has_rows(const struct variant *v, size_t edition);

#endif
