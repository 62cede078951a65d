/* The allocators that are compared, each with the same traces run over it. */
#ifndef VARIANTS_H
#define VARIANTS_H

#include "heskavern.h"

#include <stdbool.h>

enum { ARENAS = 16, POOLS = 64, SLOTS = 2000, MOST_VARIANTS = 21 };

/* A slot holds a block of this variant. A trace is made of such steps, each for one slot. */
struct step {
    uint16_t slot, size;
};

/* Each trace gives 0 where every call in it was done. A variant has NULL for what it cannot do. */
struct variant {
    const char *name;
    struct peer *peer;              /* the process that it runs in, where that is not this one */
    bool older;                     /* whether it is an older archive of the library, measured in edition eight alone */
    const char *stem;               /* what the names of its traces' functions begin with: callgrind knows them by it */
    void (*fresh)(size_t edition);                          /* an empty heap, of that edition where it has editions */
    unsigned (*fill)(const struct step *steps, size_t n);   /* asks */
    unsigned (*drain)(const struct step *steps, size_t n);  /* give-backs */
    unsigned (*mixed)(const struct step *steps, size_t n);  /* gives back what the slot holds, then asks */
    /* asks in runs, gives each run back in reverse */
    unsigned (*statement)(const struct step *steps, const uint16_t *runs, size_t n);
    /* asks for a row of texts, in one call or one by one, and looks at each number; gives the row back in reverse */
    unsigned (*ask_row)(heskavern_request *row, size_t n);
    unsigned (*back_row)(const heskavern_request *row, size_t n);
    const char *row_trace;          /* the name of the function that asks for a row */
    unsigned (*resize)(const struct step *steps, size_t n);
    unsigned (*write)(const struct step *steps, size_t n, const uint8_t *text, size_t bytes);
    unsigned (*view_size)(const struct step *steps, size_t n, uint64_t *sum);   /* adds up the sizes */
    /* adds up how long the parts are that are handed back, and where they begin in a page */
    void (*stand_in)(const struct step *steps, size_t n, const uint8_t *phrase, size_t bytes, uint64_t *sum);
    bool (*same)(size_t slot, size_t other);                /* whether two slots hold the same block */
    uint32_t (*place)(size_t slot);                         /* the offset of the slot's block */
    heskavern_answer (*roll_call)(const uint8_t *, size_t, const uint32_t *, size_t, const uint64_t *, size_t,
                                  uint32_t *, size_t);
    heskavern_answer (*format)(const uint8_t *, size_t, uint32_t *, size_t, uint64_t *, size_t, size_t, size_t, size_t);
    uint32_t (*audit)(const uint8_t *, size_t, const uint32_t *, size_t, const uint64_t *, size_t);
    __typeof__(heskavern_compare) *compare;
};

/* All variants that this machine has; the library is the first. */
extern const struct variant *variants[MOST_VARIANTS];
extern size_t variant_count;

/* Takes what a call takes and does nothing. */
heskavern_answer nothing(const uint8_t *memory, size_t memory_bytes, const uint32_t *books, size_t books_words,
                         const uint64_t *map, size_t map_words, size_t x);

/* Compares two heaps by two roll calls of the library. */
__typeof__(heskavern_compare) two_rolls;

/* The process's own malloc, and the file that it is in. */
const struct variant *find_own(const char **file);

/* Adds all of them: also the allocators that are linked at run time, and those of the peers' processes. */
void find_variants(struct peer *peers, size_t n);

#endif
