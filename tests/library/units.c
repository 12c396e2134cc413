/* Tries the calls for whole units, for the state of a request, and to stop a run.
 *
 * The last line that it prints is `N tries, M wrong`; a wrong one is shown before it. Buffers are blocks of just
 * their size, so that valgrind and the sanitizers see what goes beyond. */

#include "odb_batch.h"

#include "allocations.h"
#include "tries.h"

#include <stdio.h>
#include <stdlib.h>
#include <string.h>

#define FILLING 0xa5
#define MOST 4 /* requests of the batch */

/* A request, a group of two that needs it, and a request that needs the group. The second member needs the first. */
#define BATCH "{\"requests\":[" \
    "{\"id\":\"a\",\"method\":\"get\",\"url\":\"X\"}," \
    "{\"id\":\"b\",\"method\":\"post\",\"url\":\"Y\",\"atomicityGroup\":\"g\",\"dependsOn\":[\"a\"]}," \
    "{\"id\":\"c\",\"method\":\"post\",\"url\":\"Y\",\"atomicityGroup\":\"g\",\"dependsOn\":[\"b\"]}," \
    "{\"id\":\"d\",\"method\":\"get\",\"url\":\"Z\",\"dependsOn\":[\"g\"]}]}"
#define NO_EVENTS "{\"events\":[]}"

static odb_live_run open_batch(uint32_t mode, uint32_t width)
{
    odb_live_run run = NULL;
    size_t length = 77;
    count("open", 0, odb_run_open((const uint8_t *)BATCH, strlen(BATCH), (const uint8_t *)NO_EVENTS, strlen(NO_EVENTS),
                                  mode, width, &run, NULL, 0, &length, 7) == ODB_DONE);
    return run;
}

static int report(odb_live_run *run, uint32_t position, uint32_t status)
{
    return odb_run_report(run, position, status, NULL, 0, NULL, 0) == ODB_DONE;
}

static int perform(odb_live_run *run, uint32_t position, uint32_t status)
{
    return odb_run_start(run, position) == ODB_DONE && report(run, position, status);
}

/* Whether the next unit has these positions, for buffers of each length. */
static int next_is(odb_live_run *run, uint32_t from, size_t wanted)
{
    int right = 1;
    for (size_t size = 0; size <= MOST; size++) {
        uint32_t *positions = malloc(size * sizeof *positions);
        size_t found = 77, written = wanted <= size ? wanted : 0;
        if (positions == NULL && size > 0)
            exit(70);
        if (size > 0)
            memset(positions, FILLING, size * sizeof *positions);
        uint32_t status = odb_run_next_unit(run, positions, size, &found);
        right = right && found == wanted && status == (wanted <= size ? ODB_DONE : ODB_SMALL_BUFFER);
        for (size_t at = 0; at < size; at++)
            right = right && positions[at] == (at < written ? from + (uint32_t)at : 0xa5a5a5a5);
        free(positions);
    }
    return right;
}

static int state_is(odb_live_run *run, uint32_t position, uint32_t wanted, uint32_t wanted_status)
{
    uint32_t state = 77, status = 77;
    return odb_run_state(run, position, &state, &status) == ODB_DONE && state == wanted && status == wanted_status;
}

/* Performs one unit after another. */
static void try_units(void)
{
    odb_live_run run = open_batch(ODB_CONTINUE, 10000);
    count("the first unit", 0, next_is(&run, 0, 1) && next_is(&run, 0, 1));
    count("what waits", 0, state_is(&run, 0, ODB_STATE_READY, 0) && state_is(&run, 1, ODB_STATE_WAITING, 0));
    count("a start", 0, odb_run_start(&run, 0) == ODB_DONE && next_is(&run, 0, 0) && state_is(&run, 0, ODB_STATE_RUNNING, 0));
    count("a report", 0, report(&run, 0, 200) && state_is(&run, 0, ODB_STATE_REPORTED, 200));
    count("the group", 0, next_is(&run, 1, 2) && state_is(&run, 1, ODB_STATE_READY, 0) && state_is(&run, 2, ODB_STATE_WAITING, 0));
    count("its first member", 0, perform(&run, 1, 201) && next_is(&run, 0, 0) && state_is(&run, 2, ODB_STATE_READY, 0));
    count("its second member", 0, perform(&run, 2, 204) && next_is(&run, 3, 1));
    count("the last unit", 0, perform(&run, 3, 200) && next_is(&run, 0, 0) && odb_run_finished(&run) == 1);
    count("the answers", 0, state_is(&run, 1, ODB_STATE_REPORTED, 201) && state_is(&run, 3, ODB_STATE_REPORTED, 200));
    odb_run_close(run);
}

/* Fails a group: what depends on it is skipped, and what its other member did is undone. */
static void try_failure(void)
{
    odb_live_run run = open_batch(ODB_CONTINUE, 10000);
    count("a group that fails", 0, perform(&run, 0, 200) && perform(&run, 1, 201) && odb_run_start(&run, 2) == ODB_DONE);
    count("before it fails", 0, state_is(&run, 1, ODB_STATE_REPORTED, 201) && state_is(&run, 3, ODB_STATE_WAITING, 0));
    count("its failure", 0, report(&run, 2, 409) && next_is(&run, 0, 0) && odb_run_finished(&run) == 1);
    count("what is undone", 0, state_is(&run, 1, ODB_STATE_UNDONE, 424) && state_is(&run, 2, ODB_STATE_REPORTED, 409));
    count("what is skipped", 0, state_is(&run, 3, ODB_STATE_SKIPPED, 424) && state_is(&run, 0, ODB_STATE_REPORTED, 200));
    odb_run_close(run);
}

/* Starts the group as one, at width 1: it takes one place, and its members are reported in any order. */
static void try_whole(void)
{
    odb_live_run run = open_batch(ODB_CONTINUE, 1);
    count("a group that waits", 0, odb_run_start_unit(&run, 2) == ODB_WAITING && state_is(&run, 2, ODB_STATE_WAITING, 0));
    count("no position", 0, odb_run_start_unit(&run, MOST) == ODB_WRONG_OPTION && odb_run_start_unit(&run, UINT32_MAX) == ODB_WRONG_OPTION);
    count("a request alone", 0, odb_run_start_unit(&run, 0) == ODB_DONE && odb_run_start_unit(&run, 0) == ODB_ALREADY_STARTED && report(&run, 0, 200));
    count("the whole group", 0, odb_run_start_unit(&run, 2) == ODB_DONE && state_is(&run, 1, ODB_STATE_RUNNING, 0) && state_is(&run, 2, ODB_STATE_RUNNING, 0));
    count("another start", 0, odb_run_start_unit(&run, 1) == ODB_ALREADY_STARTED && odb_run_start(&run, 1) == ODB_ALREADY_STARTED);
    count("its second member", 0, report(&run, 2, 204) && next_is(&run, 0, 0));
    count("its first member", 0, report(&run, 1, 201) && next_is(&run, 3, 1));
    odb_run_stop(&run);
    count("after a stop", 0, odb_run_start_unit(&run, 3) == ODB_STOPPED && state_is(&run, 1, ODB_STATE_REPORTED, 201));
    odb_run_close(run);
    run = open_batch(ODB_CONTINUE, 10000);
    count("a group that fails", 0, perform(&run, 0, 200) && odb_run_start_unit(&run, 1) == ODB_DONE && report(&run, 1, 409));
    count("its other member", 0, report(&run, 2, 204) && odb_run_start_unit(&run, 3) == ODB_UNIT_FAILED && odb_run_finished(&run) == 1);
    count("all or none", 0, state_is(&run, 1, ODB_STATE_REPORTED, 409) && state_is(&run, 2, ODB_STATE_UNDONE, 424));
    odb_run_close(run);
}

/* Stops runs before and after an event. */
static void try_stops(uint32_t mode)
{
    odb_live_run run = open_batch(mode, 1);
    odb_run_stop(&run);
    count("a run that is stopped at once", mode, odb_run_finished(&run) == 1 && next_is(&run, 0, 0));
    count("its start", mode, odb_run_start(&run, 0) == ODB_STOPPED && state_is(&run, 0, ODB_STATE_SKIPPED, 424));
    odb_run_close(run);
    run = open_batch(mode, 1);
    count("a start", mode, odb_run_start(&run, 0) == ODB_DONE);
    odb_run_stop(&run);
    count("a run that is stopped", mode, odb_run_finished(&run) == 0 && state_is(&run, 0, ODB_STATE_RUNNING, 0) && state_is(&run, 1, ODB_STATE_SKIPPED, 0));
    odb_run_stop(&run);
    count("its report", mode, report(&run, 0, 200) && odb_run_finished(&run) == 1 && next_is(&run, 0, 0));
    count("its answers", mode, state_is(&run, 0, ODB_STATE_REPORTED, 200) && state_is(&run, 1, ODB_STATE_SKIPPED, 424));
    odb_run_close(run);
}

/* Asks for no request: both places stay as they are. */
static void try_no_request(void)
{
    odb_live_run run = open_batch(ODB_STOP, 1);
    static const uint32_t positions[] = {MOST, MOST + 1, UINT32_MAX};
    for (size_t at = 0; at < sizeof positions / sizeof *positions; at++) {
        uint32_t state = 77, status = 78;
        uint32_t returned = odb_run_state(&run, positions[at], &state, &status);
        count("the state of no request", (long)at, returned == ODB_WRONG_OPTION && state == 77 && status == 78);
    }
    count("a start at width 1", 0, odb_run_start(&run, 0) == ODB_DONE && next_is(&run, 0, 0));
    odb_run_close(run);
}

/* No call allocates. */
static void try_memory(void)
{
    odb_live_run run = open_batch(ODB_CONTINUE, 10000);
    uint32_t positions[MOST];
    size_t found = 77;
    refuse_after(0, 1);
    int right = odb_run_next_unit(&run, positions, MOST, &found) == ODB_DONE && found == 1 && positions[0] == 0;
    right = right && state_is(&run, 0, ODB_STATE_READY, 0) && odb_run_start_unit(&run, 0) == ODB_DONE;
    odb_run_stop(&run);
    right = right && !allow_all();
    count("the calls without memory", 0, right && report(&run, 0, 200) && odb_run_finished(&run) == 1);
    odb_run_close(run);
}

int main(void)
{
    try_units();
    try_failure();
    try_whole();
    try_stops(ODB_CONTINUE);
    try_stops(ODB_STOP);
    try_no_request();
    try_memory();
    return ended();
}
