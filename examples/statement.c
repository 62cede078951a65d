/* A talking statement keeps each text in a block, and asks for the blocks of a row of texts in one call. The block of
   the word "owed" is given back twice: the second time is refused with 10, a dead block, and while the block is not out
   a stand-in is spoken for it. Then an empty text is refused with 3, which does not stop the rest of its row: the
   payee's name gets a block of its own. The roll call says what every block that is out holds, and the audit that all
   is in order.

   gcc -Iinclude examples/statement.c target/staticlib/libheskavern.a -o target/statement && target/statement
   gcc statement.c $(pkg-config --cflags --libs heskavern) -o statement      where it is installed */
#include <stdio.h>
#include <stdlib.h>
#include <string.h>
#include "heskavern_heap.h"

HESKAVERN_HEAP(statement, 1, 2, HESKAVERN_EIGHT);

/* The value of a call that must be done. */
static uint32_t value_of(heskavern_answer answer)
{
    if (answer.number != HESKAVERN_DONE) {
        printf("refused: %s\n", heskavern_say(answer.number));
        exit(1);
    }
    return answer.value;
}

/* Keeps a row of at most MOST texts, each in a block of its own; all are asked for in one call, and each that is served
   is written. Answers where the first one is. */
enum { MOST = 3 };
static uint32_t keep(const char *const texts[], size_t count)
{
    heskavern_request row[MOST];
    for (size_t i = 0; i < count; i++)
        row[i].size = (uint32_t)strlen(texts[i]);
    value_of(heskavern_heap_ask_all(&statement, row, count));
    for (size_t i = 0; i < count; i++) {
        if (row[i].number == HESKAVERN_DONE) {
            value_of(heskavern_heap_write(&statement, row[i].offset, texts[i], row[i].size));
            printf("keep \"%s\" at %u\n", texts[i], row[i].offset);
        } else {
            printf("keep \"%s\": number %u\n", texts[i], row[i].number);
        }
    }
    return row[0].offset;
}

static void give_back(uint32_t offset)
{
    printf("give back %u: number %u\n", offset, heskavern_heap_give_back(&statement, offset).number);
}

/* Speaks the text at an offset, or for one that is not live the stand-in, never what was once there. */
static void speak(uint32_t offset)
{
    static const char stand_in[] = "this amount can't be read out";
    heskavern_part spoken = heskavern_heap_stand_in(&statement, offset, stand_in, strlen(stand_in));
    printf("speak %u: \"%.*s\"\n", offset, (int)spoken.size, (const char *)spoken.bytes);
}

/* Says of each block that is out where it is, its size and what it holds. */
static void call_roll(void)
{
    static uint32_t roll[HESKAVERN_ROLL_WORDS(1, 2)];
    uint32_t live = value_of(heskavern_heap_roll_call(&statement, roll, HESKAVERN_ROLL_WORDS(1, 2)));
    for (uint32_t i = 0; i < live; i++) {
        uint32_t offset = roll[2 * i], size = roll[2 * i + 1];
        heskavern_viewed text = heskavern_heap_view(&statement, offset);
        if (text.number == HESKAVERN_DONE)
            printf("roll call: %u, %u bytes, \"%.*s\"\n", offset, size, (int)text.size, (const char *)text.bytes);
        else
            printf("roll call: %u, %s\n", offset, heskavern_say(text.number));
    }
}

int main(void)
{
    static const char *const texts[] = {"owed", "paid"}, *const others[] = {"owed", "", "A. Moss"};
    value_of(heskavern_heap_format(&statement));
    uint32_t owed = keep(texts, 2);
    speak(owed);
    give_back(owed);
    speak(owed);
    give_back(owed);
    keep(others, 3);
    call_roll();
    printf("audit: %s\n", heskavern_say_audit(heskavern_heap_audit(&statement)));
    return 0;
}
