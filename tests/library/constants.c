/* Tries the call for what packages need to know of the library. The last line that it prints is `N tries, M wrong`; a wrong one
 * is shown before it. */

#include "odb_batch.h"

#include "buffers.h"

#define ROOM 4096 /* more than the text has */

static uint32_t ask(char *text, size_t room, size_t *length)
{
    return odb_constants((uint8_t *)text, room, length);
}

int main(void)
{
    char text[ROOM];
    size_t whole = 77, length = 77;
    refuse_after(0, 1);
    uint32_t status = ask(text, ROOM, &whole);
    count("it allocates nothing", 0, !allow_all() && status == ODB_DONE && whole > 2 && text[0] == '{' && text[whole - 1] == '}');
    for (size_t room = 0; room <= whole; room++) {
        char *small = filled(room + 1);
        size_t written = room < whole ? 0 : whole;
        int right = ask(small, room, &length) == (uint32_t)(room < whole ? ODB_SMALL_BUFFER : ODB_DONE) && length == whole;
        count("a size", (long)room, right && memcmp(small, text, written) == 0 && is_unchanged(small + written, room + 1 - written));
        free(small);
    }
    count("no buffer", 0, ask(NULL, 0, &length) == ODB_SMALL_BUFFER && length == whole);
    return ended();
}
