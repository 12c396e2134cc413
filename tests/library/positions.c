/* Tries the ids of a live run and the look-ups of positions by them, and without memory.
 *
 * The last line that it prints is `N tries, M wrong`; a wrong one is shown before it. Ids are blocks of just
 * their size, so that valgrind and the sanitizers see what goes beyond. */

#include "odb_batch.h"

#include "allocations.h"
#include "tries.h"

#include <stdio.h>
#include <stdlib.h>
#include <string.h>

#define UNSET UINT32_MAX
#define MANY 10000 /* as many requests as a batch may have */
#define FACTOR 7919 /* no factor of MANY, so that each id comes once */

#define BATCH "{\"requests\":[{\"id\":\"b\",\"method\":\"get\",\"url\":\"X\"},{\"id\":\"a\",\"method\":\"get\",\"url\":\"X\"}," \
    "{\"id\":\"\\u0041bc\",\"method\":\"get\",\"url\":\"X\"},{\"atomicityGroup\":\"g\",\"id\":\"1\",\"method\":\"get\",\"url\":\"X\"}]}"
#define NO_EVENTS "{\"events\":[]}"

static odb_live_run opened(const char *batch)
{
    odb_live_run run = NULL;
    size_t length;
    uint32_t status = odb_run_open((const uint8_t *)batch, strlen(batch), (const uint8_t *)NO_EVENTS, strlen(NO_EVENTS),
                                   ODB_CONTINUE, ODB_MAX_WIDTH, &run, NULL, 0, &length, 7);
    count("open", 0, status == ODB_DONE && length == 0);
    return run;
}

/* Looks for an id, and returns whether it is at the position, or is not there if that is UNSET. */
static int is_at(odb_live_run *run, const char *id, size_t size, uint32_t wanted)
{
    uint32_t position = UNSET;
    uint8_t *bytes = malloc(size);
    if (bytes == NULL && size > 0)
        exit(70);
    memcpy(bytes, id, size);
    long blocks = live_blocks;
    refuse_after(0, 1);
    uint32_t status = odb_run_position(run, bytes, size, &position);
    int right = !allow_all() && live_blocks == blocks && position == wanted;
    free(bytes);
    return right && status == (wanted == UNSET ? ODB_WRONG_OPTION : ODB_DONE);
}

/* Asks for all ids with buffers of each length, and without memory. */
static void try_lines(odb_live_run *run, const char *wanted)
{
    size_t length = UNSET;
    for (size_t size = 0; size <= strlen(wanted) + 3; size++) {
        uint8_t *text = malloc(size);
        if (text == NULL && size > 0)
            exit(70);
        uint32_t status = odb_run_ids(run, text, size, &length);
        int fits = size >= strlen(wanted);
        count("ids into a buffer of size", (long)size, length == strlen(wanted) && status == (fits ? ODB_DONE : ODB_SMALL_BUFFER)
              && (!fits || memcmp(text, wanted, strlen(wanted)) == 0));
        free(text);
    }
    count("ids into no buffer", 0, odb_run_ids(run, NULL, 0, &length) == ODB_SMALL_BUFFER && length == strlen(wanted));
    refuse_after(0, 1);
    uint32_t status = odb_run_ids(run, NULL, 0, &length);
    count("ids without memory", 0, allow_all() && status == ODB_OUT_OF_MEMORY && length == 0);
}

static void try_ids(odb_live_run *run)
{
    static const struct { const char *id; size_t size; uint32_t position; } ids[] = {
        {"b", 1, 0}, {"a", 1, 1}, {"Abc", 3, 2}, {"1", 1, 3}, {"", 0, UNSET}, {"g", 1, UNSET}, {"B", 1, UNSET}, {"abc", 3, UNSET},
        {"Ab", 2, UNSET}, {"Abcd", 4, UNSET}, {"c", 1, UNSET}, {"a\0", 2, UNSET}, {"\0", 1, UNSET}, {"\xff", 1, UNSET},
        {"a\xc3", 2, UNSET}, {"\xc3\xa4", 2, UNSET}, {"\xed\xa0\x80", 3, UNSET},
    };
    for (size_t at = 0; at < sizeof ids / sizeof *ids; at++)
        count("an id", (long)at, is_at(run, ids[at].id, ids[at].size, ids[at].position));
    uint32_t position = UNSET;
    count("no id", 0, odb_run_position(run, NULL, 0, &position) == ODB_WRONG_OPTION && position == UNSET);
}

static void try_states(void)
{
    odb_live_run run = opened(BATCH);
    try_ids(&run);
    try_lines(&run, "b\na\nAbc\n1\n");
    for (uint32_t at = 0; at < 4; at++) {
        count("a start", at, odb_run_start(&run, at) == ODB_DONE);
        try_ids(&run);
        count("a report", at, odb_run_report(&run, at, 200, NULL, 0, NULL, 0) == ODB_DONE);
    }
    uint8_t text[256];
    size_t length;
    count("a response", 0, odb_run_response(&run, text, sizeof text, &length) == ODB_DONE);
    try_ids(&run);
    odb_run_close(run);
}

/* Looks for each id of a batch of as many requests as may be, whose ids are not in the order of texts. */
static void try_many(void)
{
    char *batch = malloc(MANY * 64), *end = batch, id[16];
    if (batch == NULL)
        exit(70);
    end += sprintf(end, "{\"requests\":[");
    for (long at = 0; at < MANY; at++)
        end += sprintf(end, "%s{\"id\":\"r%ld\",\"method\":\"get\",\"url\":\"X\"}", at ? "," : "", at * FACTOR % MANY);
    strcpy(end, "]}");
    odb_live_run run = opened(batch);
    for (long at = 0; at < MANY; at++) {
        sprintf(id, "r%ld", at * FACTOR % MANY);
        count("an id of many", at, is_at(&run, id, strlen(id), (uint32_t)at));
    }
    count("no id of many", 0, is_at(&run, "r10000", 6, UNSET));
    odb_run_close(run);
    free(batch);
}

int main(void)
{
    try_states();
    odb_live_run run = opened("{\"requests\":[]}");
    count("an id of none", 0, is_at(&run, "a", 1, UNSET));
    size_t length = UNSET;
    count("ids of none", 0, odb_run_ids(&run, NULL, 0, &length) == ODB_DONE && length == 0);
    odb_run_close(run);
    try_many();
    return ended();
}
