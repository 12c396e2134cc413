/* Drives live runs by `odb_run_next`: in each order they take the steps of the trace that `odb_replay` writes.
 *
 * The last line that it prints is `N tries, M wrong`; a wrong one is shown before it. */

#include "odb_batch.h"

#include "allocations.h"
#include "tries.h"

#include <stdio.h>
#include <string.h>

#define MOST 4 /* requests of a batch, which are a, b, c and d */
#define ROOM 1000
#define ONE(id, rest) "{\"id\":\"" id "\",\"method\":\"patch\",\"url\":\"X\"" rest "}"
#define AFTER(names) ",\"dependsOn\":[" names "]"
#define IN_GROUP ",\"atomicityGroup\":\"g\""
#define NO_EVENTS "{\"events\":[]}"

static const char *const batches[] = {
    "{\"requests\":[" ONE("a", "") "," ONE("b", "") "," ONE("c", "") "," ONE("d", "") "]}",
    "{\"requests\":[" ONE("a", "") "," ONE("b", AFTER("\"a\"")) "," ONE("c", AFTER("\"a\"")) "," ONE("d", AFTER("\"b\",\"c\"")) "]}",
    "{\"requests\":[" ONE("a", "") "," ONE("b", IN_GROUP AFTER("\"a\"")) "," ONE("c", IN_GROUP) "," ONE("d", AFTER("\"g\"")) "]}",
    "{\"requests\":[" ONE("a", "") "," ONE("b", "") "," ONE("c", AFTER("\"b\"")) "," ONE("d", AFTER("\"a\"")) "]}",
};
static const uint32_t widths[] = {1, 2, ODB_MAX_WIDTH};

#define COUNT(list) (sizeof(list) / sizeof *(list))

/* Adds words to a text that has room for them. */
static void add(char *text, const char *words)
{
    strncat(text, words, ROOM - 1 - strlen(text));
}

/* What a request is answered: bit `position` of `failures` says that it fails. */
static uint32_t status_of(unsigned failures, uint32_t position)
{
    return failures >> position & 1 ? 409 : 204;
}

static odb_live_run open_batch(const char *batch, uint32_t mode, uint32_t width)
{
    odb_live_run run = NULL;
    size_t length = 77;
    count("open", 0, odb_run_open((const uint8_t *)batch, strlen(batch), (const uint8_t *)NO_EVENTS, strlen(NO_EVENTS),
                                  mode, width, &run, NULL, 0, &length, 7) == ODB_DONE);
    return run;
}

/* Takes the next step, and adds it to a trace; returns whether there was one that may come. */
static int take(odb_live_run *run, uint32_t order, unsigned failures, char *trace)
{
    char line[32];
    uint32_t step = 77, position = 78;
    if (odb_run_next(run, order, &step, &position) != ODB_DONE || position >= MOST)
        return 0;
    if (step == ODB_STEP_START) {
        snprintf(line, sizeof line, "start %c\n", 'a' + (char)position);
        add(trace, line);
        return odb_run_start(run, position) == ODB_DONE;
    }
    uint32_t status = status_of(failures, position);
    snprintf(line, sizeof line, "report %c %u\n", 'a' + (char)position, (unsigned)status);
    add(trace, line);
    return step == ODB_STEP_REPORT && odb_run_report(run, position, status, NULL, 0, NULL, 0) == ODB_DONE;
}

/* Writes the trace and the response of a replay; a line of an undone request is no step, and is left out. */
static void replay(const char *batch, uint32_t mode, uint32_t width, uint32_t order, unsigned failures, char *wanted)
{
    char outcomes[ROOM] = "{\"outcomes\":[", text[ROOM], line[64];
    size_t length = 0;
    for (uint32_t at = 0; at < MOST; at++) {
        snprintf(line, sizeof line, "%s{\"id\":\"%c\",\"status\":%u}", at ? "," : "", 'a' + (char)at, (unsigned)status_of(failures, at));
        add(outcomes, line);
    }
    add(outcomes, "]}");
    uint32_t status = odb_replay((const uint8_t *)batch, strlen(batch), (const uint8_t *)outcomes, strlen(outcomes), mode, width,
                                 order, 1, (uint8_t *)text, sizeof text - 1, &length, 7);
    count("a replay", order, status == ODB_DONE);
    text[status == ODB_DONE ? length : 0] = '\0';
    wanted[0] = '\0';
    for (char *at = strtok(text, "\n"); at != NULL; at = strtok(NULL, "\n"))
        if (strncmp(at, "undo ", 5) != 0) {
            add(wanted, at);
            add(wanted, "\n");
        }
}

/* Whether a run that is finished has no next step, and this trace and its response are what a replay writes. */
static int ends_as(odb_live_run *run, uint32_t order, char *trace, const char *wanted)
{
    char text[ROOM];
    size_t length = 0;
    uint32_t step = 77, position = 78;
    if (odb_run_next(run, order, &step, &position) != ODB_DONE || step != ODB_STEP_NONE || position != 78)
        return 0;
    if (odb_run_response(run, (uint8_t *)text, sizeof text - 1, &length) != ODB_DONE)
        return 0;
    text[length] = '\0';
    add(trace, text);
    return strcmp(trace, wanted) == 0;
}

/* Drives a run of a batch to its end, beside a replay with the same outcomes. */
static void try_run(size_t batch, uint32_t mode, uint32_t width, uint32_t order)
{
    for (unsigned failures = 0; failures < 1 << MOST; failures++) {
        char trace[ROOM] = "", wanted[ROOM];
        odb_live_run run = open_batch(batches[batch], mode, width);
        int right = 1;
        while (right && !odb_run_finished(&run))
            right = take(&run, order, failures, trace);
        replay(batches[batch], mode, width, order, failures, wanted);
        right = right && ends_as(&run, order, trace, wanted);
        count("the steps of a run", (long)(batch * 1000 + order * 100 + failures), right);
        odb_run_close(run);
    }
}

static int next_is(odb_live_run *run, uint32_t order, uint32_t wanted, uint32_t wanted_position)
{
    uint32_t step = 77, position = 78;
    return odb_run_next(run, order, &step, &position) == ODB_DONE && step == wanted && position == wanted_position;
}

/* Asks in no order: both places stay as they are. */
static void try_no_order(void)
{
    static const uint32_t orders[] = {ODB_WIDE + 1, 77, UINT32_MAX};
    odb_live_run run = open_batch(batches[0], ODB_CONTINUE, 1);
    for (size_t at = 0; at < COUNT(orders); at++) {
        uint32_t step = 77, position = 78;
        uint32_t returned = odb_run_next(&run, orders[at], &step, &position);
        count("no order", (long)at, returned == ODB_WRONG_OPTION && step == 77 && position == 78);
    }
    odb_run_close(run);
}

/* A group that started as one, and a stop, which no replay has. No call changes the run, or allocates. */
static void try_units(void)
{
    odb_live_run run = open_batch(batches[2], ODB_CONTINUE, 1);
    count("the first", 0, next_is(&run, ODB_FIRST, ODB_STEP_START, 0) && next_is(&run, ODB_FIRST, ODB_STEP_START, 0));
    count("the last", 0, next_is(&run, ODB_LAST, ODB_STEP_START, 2) && next_is(&run, ODB_WIDE, ODB_STEP_START, 0));
    count("a start", 0, odb_run_start(&run, 0) == ODB_DONE && next_is(&run, ODB_WIDE, ODB_STEP_REPORT, 0));
    count("a report", 0, odb_run_report(&run, 0, 204, NULL, 0, NULL, 0) == ODB_DONE && odb_run_start_unit(&run, 1) == ODB_DONE);
    refuse_after(0, 1);
    int right = next_is(&run, ODB_FIRST, ODB_STEP_REPORT, 1) && next_is(&run, ODB_LAST, ODB_STEP_REPORT, 2);
    count("a group without memory", 0, !allow_all() && right);
    count("the last of it", 0, odb_run_report(&run, 2, 204, NULL, 0, NULL, 0) == ODB_DONE);
    odb_run_stop(&run);
    count("after a stop", 0, next_is(&run, ODB_LAST, ODB_STEP_REPORT, 1) && next_is(&run, ODB_WIDE, ODB_STEP_REPORT, 1));
    count("its end", 0, odb_run_report(&run, 1, 204, NULL, 0, NULL, 0) == ODB_DONE && next_is(&run, ODB_WIDE, ODB_STEP_NONE, 78));
    odb_run_close(run);
}

int main(void)
{
    for (size_t batch = 0; batch < COUNT(batches); batch++)
        for (size_t width = 0; width < COUNT(widths); width++)
            for (uint32_t order = ODB_FIRST; order <= ODB_WIDE; order++) {
                try_run(batch, ODB_CONTINUE, widths[width], order);
                try_run(batch, ODB_STOP, widths[width], order);
            }
    try_no_order();
    try_units();
    return ended();
}
