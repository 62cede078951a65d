/* Two heaps side by side: a talking statement's texts as they were yesterday, and today. Overnight the block of the
   word "owed" was given back and went out again, with the payee's name in it; a text has moved to a larger block, and
   others came and went. The desk compares the two heaps, and says what has become of each text that is not as it was.

   gcc -Iinclude examples/beside.c target/staticlib/libheskavern.a -o target/beside && target/beside
   gcc beside.c $(pkg-config --cflags --libs heskavern) -o beside      where it is installed */
#include <stdio.h>
#include <stdlib.h>
#include <string.h>
#include "heskavern_heap.h"

HESKAVERN_HEAP(yesterday, 1, 4, HESKAVERN_EIGHT);
HESKAVERN_HEAP(today, 1, 4, HESKAVERN_EIGHT);

static uint32_t list[HESKAVERN_LIST_WORDS(1, 4)], roll[HESKAVERN_ROLL_WORDS(1, 4)];
static int32_t changes[HESKAVERN_CHANGES];

/* The value of a call that must be done. */
static uint32_t value_of(heskavern_answer answer)
{
    if (answer.number != HESKAVERN_DONE) {
        printf("refused: %s\n", heskavern_say(answer.number));
        exit(1);
    }
    return answer.value;
}

/* Writes a text and the zero that ends it to a block of today's heap. */
static void put(uint32_t offset, const char *text)
{
    value_of(heskavern_heap_write(&today, offset, text, strlen(text) + 1));
    printf("\"%s\" is at %u\n", text, offset);
}

/* Keeps a text in a block that is asked for it, and answers where. */
static uint32_t keep(const char *text)
{
    uint32_t offset = value_of(heskavern_heap_ask(&today, strlen(text) + 1));
    put(offset, text);
    return offset;
}

/* The day is over: a copy of today's three buffers is yesterday's heap. */
static void day_ends(void)
{
    memcpy(yesterday.memory, today.memory, sizeof today_memory);
    memcpy(yesterday.books, today.books, sizeof today_books);
    memcpy(yesterday.map, today.map, sizeof today_map);
}

/* Says how an offset differs, with the text there before and after. Where it is not live, the view's number says so. */
static void tell(uint32_t offset, uint32_t kind)
{
    heskavern_viewed before = heskavern_heap_view(&yesterday, offset), after = heskavern_heap_view(&today, offset);
    const char *was = (const char *)before.bytes, *is = (const char *)after.bytes;
    if (after.number != HESKAVERN_DONE)
        printf("%u: no longer live, it was \"%s\"\n", offset, was);
    else if (before.number != HESKAVERN_DONE)
        printf("%u: newly live, it is \"%s\"\n", offset, is);
    else if (kind == HESKAVERN_OTHER_BYTES)
        printf("%u: %s, it was \"%s\" and is \"%s\"\n", offset, heskavern_say_kind(kind), was, is);
    else
        printf("%u: %s, it was \"%s\" in %zu bytes and is \"%s\" in %zu\n", offset, heskavern_say_kind(kind), was,
               before.size, is, after.size);
}

int main(void)
{
    value_of(heskavern_heap_format(&today));
    printf("yesterday:\n");
    uint32_t owed = keep("owed");
    keep("paid");
    uint32_t rent = keep("rent for May");
    uint32_t note = keep("please call your branch by Friday");
    day_ends();

    printf("today:\n");
    value_of(heskavern_heap_give_back(&today, owed));
    keep("A. Moss");
    value_of(heskavern_heap_give_back(&today, note));
    put(value_of(heskavern_heap_resize(&today, rent, 22)), "rent for May and June");
    keep("fee");
    keep("12.50");

    printf("side by side:\n");
    uint32_t differences = value_of(heskavern_heap_compare(
        &yesterday, &today, list, HESKAVERN_LIST_WORDS(1, 4), changes, HESKAVERN_CHANGES));
    for (uint32_t i = 0; i < differences; i++)
        tell(list[2 * i], list[2 * i + 1]);
    int sum = 0;
    for (int c = 0; c < HESKAVERN_CHANGES; c++) {
        sum += changes[c];
        if (changes[c] != 0)
            printf("blocks of %d bytes: %+d\n", 8 * (c + 1), changes[c]);
    }
    uint32_t before = value_of(heskavern_heap_roll_call(&yesterday, roll, HESKAVERN_ROLL_WORDS(1, 4)));
    uint32_t after = value_of(heskavern_heap_roll_call(&today, roll, HESKAVERN_ROLL_WORDS(1, 4)));
    printf("the changes add up to %+d: by roll call %u were live, and %u are\n", sum, before, after);
    return 0;
}
