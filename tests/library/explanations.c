/* Tries the call for what a code means. The last line that it prints is `N tries, M wrong`; a wrong one is shown before it. */

#include "odb_batch.h"

#include "allocations.h"
#include "tries.h"

#include <stdlib.h>
#include <string.h>

#define FILLING 0xa5
#define ROOM 4096 /* more than any explanation has */

static uint32_t explain(const char *code, char *text, size_t room, size_t *length)
{
    return odb_explain((const uint8_t *)code, code == NULL ? 0 : strlen(code), (uint8_t *)text, room, length);
}

/* Whether a text of this length begins with a line and has another text in it. */
static int is_text(const char *text, size_t length, const char *line, const char *part)
{
    char copy[ROOM + 1];
    memcpy(copy, text, length);
    copy[length] = 0;
    return strncmp(copy, line, strlen(line)) == 0 && strstr(copy, part) != NULL && copy[length - 1] != '\n';
}

static void try_known(const char *code, const char *line, const char *part)
{
    char text[ROOM];
    size_t length = 77;
    count(code, 0, explain(code, text, ROOM, &length) == ODB_DONE && is_text(text, length, line, part));
    size_t whole = length;
    for (size_t room = 0; room <= whole; room += room + 2 < whole ? 97 : 1) {
        char *small = malloc(room + 1);
        if (small == NULL)
            exit(70);
        memset(small, FILLING, room + 1);
        uint32_t status = explain(code, small, room, &length);
        int right = room < whole ? status == ODB_SMALL_BUFFER && (unsigned char)small[0] == FILLING : status == ODB_DONE;
        count(code, (long)room, right && length == whole && (unsigned char)small[room] == FILLING);
        free(small);
    }
    count("without a buffer", 0, explain(code, NULL, 0, &length) == ODB_SMALL_BUFFER && length == whole);
}

static void try_unknown(const char *code)
{
    char text[1] = {(char)FILLING};
    size_t length = 77;
    count("unknown", 0, explain(code, text, 1, &length) == ODB_WRONG_OPTION && length == 0 && text[0] == (char)FILLING);
}

int main(void)
{
    try_known("F41", "F41 ForwardName /requests/N\n", "\nrefused: {\"requests\":[");
    try_known("S4", "S4 Waiting /events/N\n", "\naccepted: ");
    try_known("F01", "F01 TooLong ", "16,777,216 bytes");
    try_unknown("F");
    try_unknown("F4");
    try_unknown("F41 ");
    try_unknown("F99");
    try_unknown("ForwardName");
    try_unknown("");
    try_unknown(NULL);
    refuse_after(0, 1);
    size_t length;
    char text[ROOM];
    uint32_t status = explain("F41", text, ROOM, &length);
    count("it allocates nothing", 0, !allow_all() && status == ODB_DONE);
    return ended();
}
