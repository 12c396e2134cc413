/* Tries the call for what is to be sent of each request of a batch. The last line that it prints is `N tries, M wrong`; a
 * wrong one is shown before it. */

#include "odb_batch.h"

#include "buffers.h"

#define MOST 3        /* requests of the batch */
#define ROOM 256      /* more than the text of the batch */

#define BODY "{\"price\": 9.990, \"number\": 12345678901234567890123}"
#define BATCH "{\"requests\":[" \
    "{\"id\":\"a\",\"method\":\"Post\",\"url\":\"Orders\",\"atomicityGroup\":\"g\",\"headers\":{\"X-B\":\"2\",\"A\":\"1\"},\"body\": " BODY " }," \
    "{\"id\":\"b\",\"method\":\"get\",\"url\":\"$a/Lines?x=1\",\"dependsOn\":[\"g\"],\"body\":null}," \
    "{\"body\":1,\"id\":\"c\",\"method\":\"PUT\",\"url\":\"\\u0041\",\"body\":[ 2.0 ]}]}"
#define REFUSED "{\"requests\":[{\"id\":\"a\",\"method\":\"get\",\"url\":\"$b\"}]}"
#define LINE "fault F44 UnknownReference /requests/0\n"

/* What a request is to be. */
struct wanted {
    const char *id, *method, *url, *rest, *headers, *group, *needs, *body;
    size_t reference;
};

static const struct wanted wanted[MOST] = {
    {"a", "POST", "Orders", "Orders", "{\"a\":\"1\",\"x-b\":\"2\"}", "g", "", BODY, ODB_NONE},
    {"b", "GET", "$a/Lines?x=1", "/Lines?x=1", "{}", NULL, "g,a", NULL, 0},
    {"c", "PUT", "A", "A", "{}", NULL, "", "[ 2.0 ]", ODB_NONE},
};

/* Whether the part of a text is as wanted. */
static int part_is(const char *text, odb_part part, const char *wanted)
{
    if (wanted == NULL)
        return part.start == ODB_NONE && part.length == 0;
    return part.length == strlen(wanted) && memcmp(text + part.start, wanted, part.length) == 0;
}

static int request_is(const char *text, const odb_request *found, const struct wanted *it)
{
    return part_is(text, found->id, it->id) && part_is(text, found->method, it->method)
        && part_is(text, found->url, it->url) && part_is(text, found->rest, it->rest)
        && part_is(text, found->headers, it->headers) && part_is(text, found->group, it->group)
        && part_is(text, found->needs, it->needs) && part_is(BATCH, found->body, it->body) && found->reference == it->reference;
}

/* The status of a call. */
static uint32_t ask(const char *batch, char *text, size_t room, size_t *length, odb_request *requests, size_t most,
                    size_t *count)
{
    return odb_requests((const uint8_t *)batch, strlen(batch), (uint8_t *)text, room, length, requests, most, count, 7);
}

static void ask_whole(void *batch, struct answer *it)
{
    it->status = ask(batch, it->text, it->room, &it->length, it->items, it->most, &it->count);
}

static int are_requests(void *batch, const struct answer *it, int is_done)
{
    const odb_request *found = it->items;
    (void)batch;
    for (size_t at = 0; is_done && at < MOST; at++)
        if (!request_is(it->text, &found[at], &wanted[at]))
            return 0;
    return 1;
}

static void try_refused(void)
{
    char text[ROOM];
    odb_request *requests = filled(sizeof *requests);
    size_t length = 77, found = 77;
    uint32_t status = ask(REFUSED, text, ROOM, &length, requests, 1, &found);
    count("a refused batch", 0, status == ODB_REFUSED && found == 0 && length == strlen(LINE) && memcmp(text, LINE, length) == 0);
    status = ask(REFUSED, text, strlen(LINE) - 1, &length, requests, 1, &found);
    count("its long line", 0, status == ODB_SMALL_BUFFER && found == 0 && length == strlen(LINE));
    count("its requests", 0, is_unchanged(requests, sizeof *requests));
    free(requests);
}

static void try_none(void)
{
    size_t length = 77, found = 77;
    count("no requests", 0, ask("{\"requests\":[]}", NULL, 0, &length, NULL, 0, &found) == ODB_DONE && length == 0 && found == 0);
}

int main(void)
{
    char batch[] = BATCH;
    struct listing all = {batch, ask_whole, are_requests, sizeof(odb_request), 77, MOST, ODB_DONE};
    size_t number = 77;
    uint32_t asked = ask(BATCH, NULL, 0, &all.length, NULL, 0, &number);
    count("the sizes", 0, asked == ODB_SMALL_BUFFER && number == MOST && all.length < ROOM);
    try_sizes(&all, 0);
    try_memory(&all, 0);
    try_refused();
    try_none();
    return ended();
}
