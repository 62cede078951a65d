/* What a variant does when a block is given back twice: tried, not quoted. */
#ifndef AGAIN_H
#define AGAIN_H

#include "variants.h"

enum { AT_ONCE, AMONG_OTHERS, OUT_AGAIN, WAYS };
enum { SAID = 128 };

extern const char *const ways[WAYS];

/* Tries it in a child process, and says what came of it. */
void try_again(const struct variant *v, size_t way, char said[SAID]);

/* Whether that says that it was taken for a first give-back, or that it was refused with this number. */
bool passed(const char *said);
bool refused(const char *said, unsigned number);

#endif
