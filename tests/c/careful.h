/* What the careful programs share: buffers that nothing has written, local arrays or (FROM_MALLOC) from malloc, and
   facts, of which one that is not so ends the program. C99 and every later C, C++98 and every later C++. */
#include <stdio.h>
#include <stdlib.h>
#include <string.h>

#if defined FROM_MALLOC && defined __cplusplus
#define BUFFER(type, name, length) type *name = static_cast<type *>(malloc((length) * sizeof(type)))
#elif defined FROM_MALLOC
#define BUFFER(type, name, length) type *name = (type *)malloc((length) * sizeof(type))
#else
#define BUFFER(type, name, length) type name[length]
#endif

#define EXPECT(fact) expect(fact, #fact, __FILE__, __LINE__)
static void expect(int fact, const char *words, const char *file, int line)
{
    if (!fact) {
        printf("%s:%d: not so: %s\n", file, line, words);
        exit(1);
    }
}
