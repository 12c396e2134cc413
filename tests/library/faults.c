/* Tries the call for all faults of a batch with where they are. The last line that it prints is `N tries, M wrong`; a wrong
 * one is shown before it. */

#include "odb_batch.h"

#include "buffers.h"

#define MOST 3   /* faults of a batch */
#define ROOM 256 /* more than the text of their lines */

/* A fault. */
struct wanted {
    const char *code, *name, *place;
    odb_position at;
};

/* A batch, and its faults. In the first one a character of two bytes comes before the second fault, in its line. */
static const struct trial {
    const char *batch;
    size_t count;
    struct wanted faults[MOST];
} trials[] = {
    {"{\"requests\": [\n {\"id\":\"a\",\"method\":\"get\",\"url\":\"$b\"},"
     "{\"id\":\"\303\244\",\"method\":\"get\",\"url\":\"A\"}, 7,\n\n  []]}", 3,
     {{"F13", "BadId", "/requests/1", {2, 39, 53, 89}},
      {"F10", "NotRequestObject", "/requests/2", {2, 76, 91, 92}},
      {"F10", "NotRequestObject", "/requests/3", {4, 3, 97, 99}}}},
    {"{\"requests\":[{\"id\":\"a\",\"method\":\"get\",\"url\":\"$b\"}]}", 1,
     {{"F44", "UnknownReference", "/requests/0", {1, 14, 13, 49}}}},
    {" {\"requests\":1}", 1, {{"F04", "NoRequests", "batch", {1, 2, 1, 15}}}},
    {"[7,]", 1, {{"F02", "NotJson", "batch", {1, 4, 3, 3}}}},
    {NULL, 1, {{"F02", "NotJson", "batch", {1, 1, 0, 0}}}},
    {"{\"requests\":[]}", 0, {{NULL, NULL, NULL, {0, 0, 0, 0}}}},
};

/* What `odb_check_all` writes of a batch that is refused, or nothing. */
static size_t lines_of(const char *batch, char *lines)
{
    size_t length;
    uint32_t status = odb_check_all((const uint8_t *)batch, batch == NULL ? 0 : strlen(batch), (uint8_t *)lines, ROOM, &length, 7);
    return status == ODB_REFUSED ? length : 0;
}

static int word_is(const char *text, odb_part part, const char *wanted)
{
    return part.length == strlen(wanted) && memcmp(text + part.start, wanted, part.length) == 0;
}

static int is_at(odb_position found, odb_position wanted)
{
    return found.line == wanted.line && found.column == wanted.column && found.offset == wanted.offset && found.end == wanted.end;
}

/* Whether a fault is as wanted, and where `odb_where` has it. */
static int fault_is(const char *batch, const char *text, const odb_fault *found, const struct wanted *it)
{
    odb_position at = {0, 0, 0, 0};
    uint32_t status = odb_where((const uint8_t *)batch, batch == NULL ? 0 : strlen(batch), (const uint8_t *)it->place,
                                strlen(it->place), &at);
    return word_is(text, found->code, it->code) && word_is(text, found->name, it->name)
        && word_is(text, found->place, it->place) && is_at(found->position, it->at) && status == ODB_DONE && is_at(at, it->at);
}

static void ask(void *trial, struct answer *it)
{
    const char *batch = ((const struct trial *)trial)->batch;
    it->status = odb_faults((const uint8_t *)batch, batch == NULL ? 0 : strlen(batch), (uint8_t *)it->text, it->room, &it->length,
                            it->items, it->most, &it->count, 7);
}

/* Whether the text and the faults are those of a trial. */
static int are_faults(void *trial, const struct answer *it, int is_done)
{
    const struct trial *of = trial;
    const odb_fault *found = it->items;
    char lines[ROOM];
    size_t length = lines_of(of->batch, lines);
    if (is_done && memcmp(it->text, lines, length) != 0)
        return 0;
    for (size_t at = 0; is_done && at < of->count; at++)
        if (!fault_is(of->batch, it->text, &found[at], &of->faults[at]))
            return 0;
    return 1;
}

/* Asks without buffers. */
static void try_no_buffers(const struct trial *of, long title)
{
    char lines[ROOM];
    size_t length = 77, found = 77, whole = lines_of(of->batch, lines);
    uint32_t status = odb_faults((const uint8_t *)of->batch, of->batch == NULL ? 0 : strlen(of->batch), NULL, 9, &length, NULL, 9,
                                 &found, 7);
    count("no buffers", title, length == whole && found == of->count && status == (uint32_t)(whole > 0 ? ODB_SMALL_BUFFER : ODB_DONE));
    if (of->batch == NULL)
        status = odb_faults((const uint8_t *)1, 0, (uint8_t *)1, 0, &length, (odb_fault *)8, 0, &found, 7);
    count("nothing at any address", title, length == whole && found == of->count && status == (uint32_t)(whole > 0 ? ODB_SMALL_BUFFER : ODB_DONE));
}

int main(void)
{
    char lines[ROOM];
    for (size_t at = 0; at < sizeof trials / sizeof *trials; at++) {
        struct trial it = trials[at];
        uint32_t done = it.count > 0 ? ODB_REFUSED : ODB_DONE;
        struct listing all = {&it, ask, are_faults, sizeof(odb_fault), lines_of(it.batch, lines), it.count, done};
        try_sizes(&all, (long)at);
        try_no_buffers(&it, (long)at);
        try_memory(&all, (long)at);
    }
    return ended();
}
