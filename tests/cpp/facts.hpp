/* What the programs share: facts, which are counted, and where one is not so the program ends with 1; answers; and a
   heap that is spoilt. */
#ifndef FACTS_HPP
#define FACTS_HPP

#include <cstdio>
#include <cstdlib>
#include "heskavern.hpp"

inline unsigned long facts = 0;

#define EXPECT(fact) expect((fact), #fact, __FILE__, __LINE__)
inline void expect(bool fact, const char *words, const char *file, int line)
{
    facts++;
    if (!fact) {
        std::printf("%s:%d: not so: %s\n", file, line, words);
        std::exit(1);
    }
}

inline bool is(heskavern_answer answer, std::uint32_t number, std::uint32_t value)
{
    return answer.number == number && answer.value == value;
}

/* The value of a call that must be done. */
inline std::uint32_t value_of(heskavern_answer answer)
{
    EXPECT(answer.number == HESKAVERN_DONE);
    return answer.value;
}

/* A heap like another, but that the count of its first pool is more than the pool has blocks: an ask of that pool's
   class and a give-back there are refused with 6, and a resize out of it is half done. */
inline heskavern::heap spoilt(heskavern::heap good)
{
    heskavern::buffers saved = std::move(good).into_buffers();
    saved.books[72 + 8 * saved.books[0]] = 507;
    return heskavern::heap(std::move(saved));
}

#endif
