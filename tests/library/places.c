/* Tries the call for where the element of a place begins and ends in a document.
 *
 * The last line that it prints is `N tries, M wrong`; a wrong one is shown before it. Documents are blocks of just
 * their size, so that valgrind and the sanitizers see what goes beyond. */

#include "odb_batch.h"

#include "allocations.h"
#include "tries.h"

#include <stdio.h>
#include <stdlib.h>
#include <string.h>

#define UNSET 77

/* The elements begin at the bytes 14, 17, 21 and 27: the last two on the second line, one of them after a character of two bytes. */
#define BATCH "{\"requests\": [7, {},\n\"\303\244\", {\"id\":\"a\"}]}"

/* A document, a place in it, and where that is. */
static const struct trial {
    const char *document, *place;
    odb_position wanted;
} trials[] = {
    {BATCH, "batch", {1, 1, 0, 39}},
    {BATCH, "/requests/0", {1, 15, 14, 15}},
    {BATCH, "/requests/1", {1, 18, 17, 19}},
    {BATCH, "/requests/2", {2, 1, 21, 25}},
    {BATCH, "/requests/3", {2, 6, 27, 37}},
    {BATCH, "/requests/4", {1, 1, 0, 39}},
    {BATCH, "/requests/18446744073709551615", {1, 1, 0, 39}},
    {BATCH, "/outcomes/0", {1, 1, 0, 39}},
    {"\n {\"outcomes\":[\n1 ]} \n", "outcomes", {2, 2, 2, 20}},
    {"\n {\"outcomes\":[\n1 ]} \n", "/outcomes/0", {3, 1, 16, 17}},
    {"{\"responses\":[[],{}]}", "responses", {1, 1, 0, 21}},
    {"{\"responses\":[[],{}]}", "/responses/1", {1, 18, 17, 19}},
    {"{\"events\":[[],{}]}", "events", {1, 1, 0, 18}},
    {"{\"events\":[[],{}]}", "/events/1", {1, 15, 14, 16}},
    {"{\"requests\":[1],\"requests\":[2]}", "/requests/0", {1, 29, 28, 29}},
    {"[7,]", "batch", {1, 4, 3, 3}},
    {"{\n\"\303\244\":", "batch", {2, 5, 7, 7}},
    {"", "batch", {1, 1, 0, 0}},
    {NULL, "batch", {1, 1, 0, 0}},
};

/* What names no place. */
static const char *const no_places[] = {
    "", "b", "batchs", "Batch", "/batch", "report", "outcome", "requests", "/requests", "/requests/", "/requests/x", "/requests/-1",
    "/requests/+1", "/requests/01", "/requests/00", "/requests/1 ", "/requests/1/2", " /requests/1", "/requests/18446744073709551616",
    "/outcomes/", "/responses/\303\244", "/events/0x1", "/request/1", NULL,
};

/* Returns a copy of a text in a block of just its size; NULL of none. */
static uint8_t *block_of(const char *text, size_t *size)
{
    *size = text == NULL ? 0 : strlen(text);
    if (text == NULL)
        return NULL;
    uint8_t *block = malloc(*size);
    if (block == NULL && *size > 0)
        exit(70);
    memcpy(block, text, *size);
    return block;
}

static int is_at(odb_position found, odb_position wanted)
{
    return found.line == wanted.line && found.column == wanted.column && found.offset == wanted.offset && found.end == wanted.end;
}

static const odb_position unset = {UNSET, UNSET, UNSET, UNSET};

/* Asks for a place, while allocations fail or not. Returns whether all is as wanted; no document is changed. */
static int answers(const char *document, const char *place, uint32_t wanted_status, odb_position wanted)
{
    size_t size, place_size;
    uint8_t *bytes = block_of(document, &size), *text = block_of(place, &place_size);
    odb_position found = unset;
    long blocks = live_blocks;
    uint32_t status = odb_where(bytes, size, text, place_size, &found);
    int right = live_blocks == blocks && status == wanted_status && is_at(found, wanted);
    free(bytes);
    free(text);
    return right;
}

/* Lets each allocation fail in turn, alone or with all later ones, until none does. */
static void try_memory(const struct trial *it, long at, int rest)
{
    for (long after = 0;; after++) {
        odb_position found = unset;
        size_t size = it->document == NULL ? 0 : strlen(it->document);
        refuse_after(after, rest);
        uint32_t status = odb_where((const uint8_t *)it->document, size, (const uint8_t *)it->place, strlen(it->place), &found);
        if (!allow_all()) {
            count("with all memory", at, status == ODB_DONE && is_at(found, it->wanted));
            return;
        }
        count("without memory", at, status == ODB_OUT_OF_MEMORY && is_at(found, unset));
    }
}

int main(void)
{
    for (size_t at = 0; at < sizeof trials / sizeof *trials; at++) {
        count(trials[at].place, (long)at, answers(trials[at].document, trials[at].place, ODB_DONE, trials[at].wanted));
        try_memory(&trials[at], (long)at, 0);
        try_memory(&trials[at], (long)at, 1);
    }
    for (size_t at = 0; at < sizeof no_places / sizeof *no_places; at++)
        count("no place", (long)at, answers(BATCH, no_places[at], ODB_WRONG_OPTION, unset));
    return ended();
}
