/* Tries the call for headers as pairs. The last line that it prints is `N tries, M wrong`; a wrong one is shown before it. */

#include "odb_batch.h"

#include "buffers.h"

#define MOST 3 /* headers of an object */

struct wanted {
    const char *name, *value;
};

/* Headers, and what they are. If they are refused, `count` is REFUSED. */
#define REFUSED 99
static const struct trial {
    const char *headers;
    size_t count;
    struct wanted pairs[MOST];
} trials[] = {
    {"{\"x-b\":\"\",\"ETag\" : \"W/\\\"1\\\"\", \"A\":\" \\u0042\\n\"}", 3, {{"a", " B\n"}, {"etag", "W/\"1\""}, {"x-b", ""}}},
    {"{\"\\u0041\\u00C4z\":\"\303\204\"}", 1, {{"a\303\204z", "\303\204"}}},
    {"{\"B\":\"1\",\"B\":\"2\",\"a\":\"1\"}", 2, {{"a", "1"}, {"b", "2"}}},
    {"\n{\"\":\"\"}", 1, {{"", ""}}},
    {"{}", 0, {{NULL, NULL}}},
    {" null ", 0, {{NULL, NULL}}},
    {"", 0, {{NULL, NULL}}},
    {NULL, 0, {{NULL, NULL}}},
    {"{\"a\":\"1\",\"A\":\"2\"}", REFUSED, {{NULL, NULL}}},
    {"{\"a\":1}", REFUSED, {{NULL, NULL}}},
    {"{\"a\":null}", REFUSED, {{NULL, NULL}}},
    {"{\"a\":[\"1\"]}", REFUSED, {{NULL, NULL}}},
    {"[[\"a\",\"1\"]]", REFUSED, {{NULL, NULL}}},
    {"\"a\"", REFUSED, {{NULL, NULL}}},
    {"{\"a\":\"1\",}", REFUSED, {{NULL, NULL}}},
    {"{\"a\":\"\377\"}", REFUSED, {{NULL, NULL}}},
    {" ", REFUSED, {{NULL, NULL}}},
};

static size_t size_of(const char *headers)
{
    return headers == NULL ? 0 : strlen(headers);
}

static uint32_t status_of(const struct trial *of)
{
    return of->count == REFUSED ? ODB_REFUSED : ODB_DONE;
}

/* How long the text of a trial is. */
static size_t length_of(const struct trial *of)
{
    size_t length = 0;
    for (size_t at = 0; of->count != REFUSED && at < of->count; at++)
        length += strlen(of->pairs[at].name) + strlen(of->pairs[at].value);
    return length;
}

static int part_is(const char *text, odb_part part, const char *wanted)
{
    return part.length == strlen(wanted) && memcmp(text + part.start, wanted, part.length) == 0;
}

static void ask(void *trial, struct answer *it)
{
    const char *headers = ((const struct trial *)trial)->headers;
    it->status = odb_headers((const uint8_t *)headers, size_of(headers), (uint8_t *)it->text, it->room, &it->length, it->items,
                             it->most, &it->count);
}

/* Whether the pairs are those of a trial. */
static int are_pairs(void *trial, const struct answer *it, int is_done)
{
    const struct trial *of = trial;
    const odb_header *found = it->items;
    for (size_t at = 0; is_done && of->count != REFUSED && at < of->count; at++)
        if (!part_is(it->text, found[at].name, of->pairs[at].name) || !part_is(it->text, found[at].value, of->pairs[at].value))
            return 0;
    return 1;
}

/* Asks without buffers, which may be at any address. */
static void try_no_buffers(const struct trial *of, long title)
{
    size_t length = 77, found = 77, wanted = of->count == REFUSED ? 0 : of->count;
    uint32_t fits = of->count == 0 ? ODB_DONE : of->count == REFUSED ? ODB_REFUSED : ODB_SMALL_BUFFER;
    uint32_t status = odb_headers((const uint8_t *)of->headers, size_of(of->headers), NULL, 9, &length, NULL, 9, &found);
    count("no buffers", title, status == fits && length == length_of(of) && found == wanted);
    if (size_of(of->headers) > 0)
        return;
    status = odb_headers((const uint8_t *)1, 0, (uint8_t *)1, 0, &length, (odb_header *)8, 0, &found);
    count("nothing at any address", title, status == ODB_DONE && length == 0 && found == 0);
}

/* Reports the headers: a run takes just those that have pairs. */
static void try_report(const struct trial *of, long title)
{
    static const char batch[] = "{\"requests\":[{\"id\":\"a\",\"method\":\"get\",\"url\":\"A\"}]}", none[] = "{\"events\":[]}";
    odb_live_run run;
    size_t length;
    uint32_t opened = odb_run_open((const uint8_t *)batch, strlen(batch), (const uint8_t *)none, strlen(none), ODB_CONTINUE, 1, &run,
                                   NULL, 0, &length, 7);
    if (opened != ODB_DONE || odb_run_start(&run, 0) != ODB_DONE)
        exit(70);
    uint32_t status = odb_run_report(&run, 0, 200, (const uint8_t *)of->headers, size_of(of->headers), NULL, 0);
    count("a report", title, status == status_of(of));
    odb_run_close(run);
}

int main(void)
{
    for (size_t at = 0; at < sizeof trials / sizeof *trials; at++) {
        struct trial it = trials[at];
        size_t pairs = it.count == REFUSED ? 0 : it.count;
        struct listing all = {&it, ask, are_pairs, sizeof(odb_header), length_of(&it), pairs, status_of(&it)};
        try_sizes(&all, (long)at);
        try_no_buffers(&it, (long)at);
        try_memory(&all, (long)at);
        try_report(&it, (long)at);
    }
    return ended();
}
