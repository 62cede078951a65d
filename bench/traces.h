/* The traces over one variant. Included once for each, with THIS(name) for its own names, its type `BLOCK`, and its
 * calls
 *   static inline BLOCK THIS(ask)(size_t size, unsigned *refused)
 *   static inline void THIS(give_back)(BLOCK block, unsigned *refused)
 *   static inline BLOCK THIS(resize)(BLOCK block, size_t size, unsigned *refused)
 * which make *refused other than 0 where a call is refused. All variants get the same loops; a call is never inlined
 * into them, since each allocator is compiled on its own. */

static BLOCK THIS(slots)[SLOTS];

static unsigned THIS(fill_trace)(const struct step *steps, size_t n)
{
    unsigned refused = 0;
    for (size_t i = 0; i < n; i++)
        THIS(slots)[steps[i].slot] = THIS(ask)(steps[i].size, &refused);
    return refused;
}

static unsigned THIS(drain_trace)(const struct step *steps, size_t n)
{
    unsigned refused = 0;
    for (size_t i = 0; i < n; i++)
        THIS(give_back)(THIS(slots)[steps[i].slot], &refused);
    return refused;
}

static unsigned THIS(mixed_trace)(const struct step *steps, size_t n)
{
    unsigned refused = 0;
    for (size_t i = 0; i < n; i++) {
        BLOCK *slot = &THIS(slots)[steps[i].slot];
        THIS(give_back)(*slot, &refused);
        *slot = THIS(ask)(steps[i].size, &refused);
    }
    return refused;
}

static unsigned THIS(statement_trace)(const struct step *steps, const uint16_t *runs, size_t n)
{
    unsigned refused = 0;
    for (size_t r = 0; r < n; r++) {
        for (size_t i = 0; i < runs[r]; i++)
            THIS(slots)[i] = THIS(ask)(steps[i].size, &refused);
        for (size_t i = runs[r]; i-- > 0;)
            THIS(give_back)(THIS(slots)[i], &refused);
        steps += runs[r];
    }
    return refused;
}

/* The texts of a row, asked for one by one; and given back in reverse. */
static unsigned THIS(ask_each_trace)(heskavern_request *row, size_t n)
{
    unsigned refused = 0;
    for (size_t i = 0; i < n; i++)
        THIS(slots)[i] = THIS(ask)(row[i].size, &refused);
    return refused;
}

static unsigned THIS(back_each_trace)(const heskavern_request *row, size_t n)
{
    unsigned refused = 0;
    (void)row;
    for (size_t i = n; i-- > 0;)
        THIS(give_back)(THIS(slots)[i], &refused);
    return refused;
}

static unsigned THIS(resize_trace)(const struct step *steps, size_t n)
{
    unsigned refused = 0;
    for (size_t i = 0; i < n; i++) {
        BLOCK *slot = &THIS(slots)[steps[i].slot];
        *slot = THIS(resize)(*slot, steps[i].size, &refused);
    }
    return refused;
}

/* Whether two slots hold the same block. */
static inline bool THIS(same_block)(size_t slot, size_t other)
{
    return THIS(slots)[slot] == THIS(slots)[other];
}

#ifdef WRITES
/* Also with  static inline void THIS(write)(BLOCK block, const uint8_t *text, size_t bytes, unsigned *refused)
 *       and  static inline uint32_t THIS(view_size)(BLOCK block, unsigned *refused) */

static unsigned THIS(write_trace)(const struct step *steps, size_t n, const uint8_t *text, size_t bytes)
{
    unsigned refused = 0;
    for (size_t i = 0; i < n; i++)
        THIS(write)(THIS(slots)[steps[i].slot], text, bytes, &refused);
    return refused;
}

static unsigned THIS(view_trace)(const struct step *steps, size_t n, uint64_t *sum)
{
    unsigned refused = 0;
    for (size_t i = 0; i < n; i++)
        *sum += THIS(view_size)(THIS(slots)[steps[i].slot], &refused);
    return refused;
}
#endif

#ifdef ASKS_ALL
/* Also with  static inline void THIS(ask_all)(heskavern_request *row, size_t n, unsigned *refused). A row in one call,
 * and a look at each request's number; its offsets go to the slots before they are given back. */

static unsigned THIS(ask_all_trace)(heskavern_request *row, size_t n)
{
    unsigned refused = 0;
    THIS(ask_all)(row, n, &refused);
    for (size_t i = 0; i < n; i++)
        refused |= row[i].number;
    return refused;
}

static unsigned THIS(back_all_trace)(const heskavern_request *row, size_t n)
{
    for (size_t i = 0; i < n; i++)
        THIS(slots)[i] = row[i].offset;
    return THIS(back_each_trace)(row, n);
}
#endif

#ifdef STANDS_IN
/* Also with  static inline heskavern_part THIS(stand_in)(BLOCK block, const uint8_t *phrase, size_t bytes) */

static void THIS(stand_in_trace)(const struct step *steps, size_t n, const uint8_t *phrase, size_t bytes, uint64_t *sum)
{
    for (size_t i = 0; i < n; i++) {
        heskavern_part part = THIS(stand_in)(THIS(slots)[steps[i].slot], phrase, bytes);
        *sum += part.size + (uintptr_t)part.bytes % 4096;
    }
}
#endif

#ifdef PLACES
/* Also with  static inline uint32_t THIS(place)(BLOCK block), its offset. */

static uint32_t THIS(place_of_slot)(size_t slot)
{
    return THIS(place)(THIS(slots)[slot]);
}
#endif

#undef THIS
#undef BLOCK
#undef WRITES
#undef ASKS_ALL
#undef STANDS_IN
#undef PLACES
