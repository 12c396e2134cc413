/* Tries the call for the responses in the document of a service. The last line that it prints is `N tries, M wrong`; a wrong
 * one is shown before it. */

#include "odb_batch.h"

#include "buffers.h"

#define MOST 4        /* responses of the document */
#define ROOM 256      /* more than their text */

#define BODY "{\"price\": 9.990, \"number\": 12345678901234567890123}"
#define HEADERS "{\"ETag\": \"W/\\\"1\\\"\" }"
#define DOCUMENT "\n{\"@context\":\"x\",\"responses\":[9],\"responses\": [" \
    "{\"id\":\"\\u0061b\",\"status\":201,\"atomicityGroup\":\"g\",\"headers\": " HEADERS " ,\"body\" : " BODY " }," \
    "{\"status\":404,\"id\":\"\",\"body\":null,\"headers\":null,\"atomicityGroup\":null} ," \
    "{\"body\":1,\"id\":\"c\",\"status\":100,\"body\":\"]}\",\"headers\":7}," \
    "{\"id\":\"c\",\"status\":599,\"body\":[ 2.0 ]}]}"
#define REFUSED "{\"responses\":[{\"id\":\"a\",\"status\":200},{\"id\":\"b\",\"status\":600}]}"
#define LINE "fault F70 BadResponses /responses/1\n"

/* What a response is to be. */
struct wanted {
    const char *id, *group, *headers, *body;
    size_t status;
};

static const struct wanted wanted[MOST] = {
    {"ab", "g", HEADERS, BODY, 201},
    {"", NULL, NULL, NULL, 404},
    {"c", NULL, "7", "\"]}\"", 100},
    {"c", NULL, NULL, "[ 2.0 ]", 599},
};

/* Whether the part of a text is as wanted. */
static int part_is(const char *text, odb_part part, const char *wanted)
{
    if (wanted == NULL)
        return part.start == ODB_NONE && part.length == 0;
    return part.start != ODB_NONE && part.length == strlen(wanted) && memcmp(text + part.start, wanted, part.length) == 0;
}

static int response_is(const char *text, const odb_response *found, const struct wanted *it)
{
    return part_is(text, found->id, it->id) && part_is(text, found->group, it->group)
        && part_is(DOCUMENT, found->headers, it->headers) && part_is(DOCUMENT, found->body, it->body)
        && found->status == it->status;
}

/* The status of a call. */
static uint32_t ask(const char *document, char *text, size_t room, size_t *length, odb_response *responses, size_t most,
                    size_t *count)
{
    size_t size = document == NULL ? 0 : strlen(document);
    return odb_responses((const uint8_t *)document, size, (uint8_t *)text, room, length, responses, most, count);
}

static void ask_whole(void *document, struct answer *it)
{
    it->status = ask(document, it->text, it->room, &it->length, it->items, it->most, &it->count);
}

static int are_responses(void *document, const struct answer *it, int is_done)
{
    const odb_response *found = it->items;
    (void)document;
    for (size_t at = 0; is_done && at < MOST; at++)
        if (!response_is(it->text, &found[at], &wanted[at]))
            return 0;
    return 1;
}

static void try_refused(void)
{
    char text[ROOM];
    odb_response *responses = filled(sizeof *responses);
    size_t length = 77, found = 77;
    uint32_t status = ask(REFUSED, text, ROOM, &length, responses, 1, &found);
    count("a refused document", 0, status == ODB_REFUSED && found == 0 && length == strlen(LINE) && memcmp(text, LINE, length) == 0);
    status = ask(REFUSED, text, strlen(LINE) - 1, &length, responses, 1, &found);
    count("its long line", 0, status == ODB_SMALL_BUFFER && found == 0 && length == strlen(LINE));
    status = ask("[", text, ROOM, &length, responses, 1, &found);
    count("no JSON", 0, status == ODB_REFUSED && found == 0 && memcmp(text, "fault F02 NotJson responses\n", length) == 0);
    status = ask(NULL, text, ROOM, &length, responses, 1, &found);
    count("no document", 0, status == ODB_REFUSED && found == 0 && memcmp(text, "fault F02 NotJson responses\n", length) == 0);
    count("its responses", 0, is_unchanged(responses, sizeof *responses));
    free(responses);
}

static void try_none(void)
{
    size_t length = 77, found = 77;
    uint32_t status = ask("{\"responses\":[]}", NULL, 0, &length, NULL, 0, &found);
    count("no responses", 0, status == ODB_DONE && length == 0 && found == 0);
}

int main(void)
{
    char document[] = DOCUMENT;
    struct listing all = {document, ask_whole, are_responses, sizeof(odb_response), 77, MOST, ODB_DONE};
    size_t number = 77;
    uint32_t asked = ask(DOCUMENT, NULL, 0, &all.length, NULL, 0, &number);
    count("the sizes", 0, asked == ODB_SMALL_BUFFER && number == MOST && all.length < ROOM);
    try_sizes(&all, 0);
    try_memory(&all, 0);
    try_refused();
    try_none();
    return ended();
}
