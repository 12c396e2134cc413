/* Tries the call that opens a live run and gives what is to be sent of its requests. The last line that it prints is `N tries,
 * M wrong`; a wrong one is shown before it. */

#include "odb_batch.h"

#include "buffers.h"

#define MOST 2   /* requests of the batch */
#define ROOM 256 /* more than the text of the batch, and than any line */

#define BATCH "{\"requests\":[{\"id\":\"a\",\"method\":\"post\",\"url\":\"Orders\",\"body\": 9.990 }," \
    "{\"id\":\"b\",\"method\":\"get\",\"url\":\"$a/Lines\",\"dependsOn\":[\"a\"]}]}"
#define NONE "{\"events\":[]}"
#define STARTED "{\"events\":[{\"start\":\"a\"}]}"

/* What the call is passed, and what it returns. */
struct opening {
    const char *batch, *events;
    uint32_t mode, width;
    odb_live_run run;
    size_t length, count;
};

static uint32_t ask(struct opening *it, char *text, size_t room, odb_request *requests, size_t most)
{
    return odb_run_open_requests((const uint8_t *)it->batch, strlen(it->batch), (const uint8_t *)it->events, strlen(it->events),
                                 it->mode, it->width, &it->run, (uint8_t *)text, room, &it->length, requests, most, &it->count, 7);
}

/* Whether the text and the requests are those that `odb_requests` gives. */
static int are_requests(const char *text, size_t length, const odb_request *requests, size_t number)
{
    char wanted_text[ROOM];
    odb_request wanted[MOST];
    size_t wanted_length, wanted_number;
    return odb_requests((const uint8_t *)BATCH, strlen(BATCH), (uint8_t *)wanted_text, ROOM, &wanted_length, wanted, MOST,
                        &wanted_number, 7) == ODB_DONE
        && length == wanted_length && number == wanted_number && memcmp(text, wanted_text, length) == 0
        && memcmp(requests, wanted, sizeof wanted) == 0;
}

/* Whether a run that was opened goes on to its response. */
static int goes_on(odb_live_run *run)
{
    char text[ROOM];
    size_t length;
    int started = odb_run_start(run, 0) == ODB_DONE && odb_run_report(run, 0, 404, NULL, 0, NULL, 0) == ODB_DONE;
    const char *wanted = "{\"responses\":[{\"id\":\"a\",\"status\":404},{\"id\":\"b\",\"status\":424}]}\n";
    return started && odb_run_response(run, (uint8_t *)text, ROOM, &length) == ODB_DONE && length == strlen(wanted)
        && memcmp(text, wanted, length) == 0;
}

static void open_into(void *given, struct answer *it)
{
    struct opening *opening = given;
    opening->run = NULL;
    it->status = ask(opening, it->text, it->room, it->items, it->most);
    it->length = opening->length;
    it->count = opening->count;
}

/* Whether a run is opened just then, and goes on; closes it. */
static int is_opened(void *given, const struct answer *it, int is_done)
{
    odb_live_run *run = &((struct opening *)given)->run;
    int right = (*run != NULL) == is_done;
    if (is_done && right)
        right = are_requests(it->text, it->length, it->items, it->count) && goes_on(run);
    if (*run != NULL)
        odb_run_close(*run);
    return right;
}

static void try_events(void)
{
    char text[ROOM];
    odb_request requests[MOST];
    struct opening it = {BATCH, STARTED, ODB_CONTINUE, 1, NULL, 77, 77};
    uint32_t running, number, status = ask(&it, text, ROOM, requests, MOST);
    size_t found;
    count("after an event", 0, status == ODB_DONE && odb_run_running(&it.run, &running, 1, &found) == ODB_DONE && found == 1
          && running == 0 && odb_run_state(&it.run, 1, &running, &number) == ODB_DONE && running == ODB_STATE_WAITING);
    odb_run_close(it.run);
}

/* Opens what may not be opened. */
static void try_refused(const char *batch, const char *events, uint32_t mode, uint32_t width, uint32_t wanted, const char *line)
{
    char text[ROOM];
    odb_request *requests = filled(MOST * sizeof *requests);
    struct opening it = {batch, events, mode, width, NULL, 77, 77};
    uint32_t status = ask(&it, text, ROOM, requests, MOST);
    count("refused", (long)wanted, status == wanted && it.run == NULL && it.count == 0 && it.length == strlen(line)
          && memcmp(text, line, it.length) == 0 && is_unchanged(requests, MOST * sizeof *requests));
    free(requests);
}

int main(void)
{
    struct opening it = {BATCH, NONE, ODB_CONTINUE, 1, NULL, 77, 77};
    uint32_t asked = ask(&it, NULL, 0, NULL, 0);
    struct listing all = {&it, open_into, is_opened, sizeof(odb_request), it.length, MOST, ODB_DONE};
    count("the sizes", 0, asked == ODB_SMALL_BUFFER && it.count == MOST && it.length < ROOM && it.run == NULL);
    try_sizes(&all, 0);
    try_memory(&all, 0);
    try_events();
    try_refused("{\"requests\":7}", NONE, ODB_STOP, 1, ODB_REFUSED, "fault F04 NoRequests batch\n");
    try_refused(BATCH, "{\"events\":[{\"start\":\"b\"}]}", ODB_STOP, 1, ODB_REFUSED, "fault S4 Waiting /events/0\n");
    try_refused(BATCH, NONE, 2, 1, ODB_WRONG_OPTION, "");
    try_refused(BATCH, NONE, ODB_STOP, 0, ODB_WRONG_OPTION, "");
    try_refused(BATCH, NONE, ODB_STOP, ODB_MAX_WIDTH + 1, ODB_WRONG_OPTION, "");
    return ended();
}
