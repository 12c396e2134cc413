/* Tries the calls on live runs, with good and bad arguments, and with allocations that fail.
 *
 * The last line that it prints is `N tries, M wrong`; a wrong one is shown before it. Documents and
 * buffers are blocks of just their size, so that valgrind and the sanitizers see what goes beyond. */

#include "odb_batch.h"

#include "allocations.h"
#include "tries.h"

#include <stdio.h>
#include <stdlib.h>
#include <string.h>

#define FILLING 0xa5
#define MOST 8      /* more than the requests of a batch here */
#define LONGEST 16777216
#define RUNS 10000
#define DEEPEST 124 /* levels of a body */
#define LARGE 1000000

#define A "{\"id\":\"a\",\"method\":\"GET\",\"url\":\"X\"}"
#define B "{\"id\":\"b\",\"method\":\"get\",\"url\":\"Y\",\"dependsOn\":[\"a\"]}"
#define C "{\"id\":\"c\",\"method\":\"get\",\"url\":\"Z\"}"
#define BATCH "{\"requests\":[" A "," B "," C "]}"
#define NO_EVENTS "{\"events\":[]}"
#define SOME_EVENTS "{\"events\":[{\"start\":\"a\"},{\"report\":\"a\",\"status\":200}]}"
#define UNFINISHED "fault F66 Unfinished events\n"
#define RESPONSE "{\"responses\":[{\"body\":{\"n\":1},\"headers\":{\"etag\":\"1\"},\"id\":\"a\",\"status\":201}," \
    "{\"id\":\"b\",\"status\":200},{\"id\":\"c\",\"status\":404}]}\n"

/* Returns a block of just this size. */
static void *block_of(size_t size)
{
    void *block = malloc(size);
    if (block == NULL && size > 0)
        exit(70);
    return block;
}

static uint8_t *copy_of(const char *text)
{
    return memcpy(block_of(strlen(text)), text, strlen(text));
}

static int is_filled(const void *bytes, size_t from, size_t to)
{
    for (; from < to; from++)
        if (((const uint8_t *)bytes)[from] != FILLING)
            return 0;
    return 1;
}

/* Opens a run with a buffer of this size. */
static uint32_t opened(odb_live_run *run, const char *batch, const char *events, uint32_t mode, uint32_t width,
                       uint8_t *text, size_t size, size_t *length)
{
    uint8_t *document = copy_of(batch), *recorded = copy_of(events);
    uint32_t status = odb_run_open(document, strlen(batch), recorded, strlen(events), mode, width, run,
                                   text, size, length, 7);
    free(document);
    free(recorded);
    return status;
}

#define F01 "fault F01 TooLong events\n"
#define F02 "fault F02 NotJson events\n"
#define F64 "fault F64 BadEvents /events/0\n"

static odb_live_run open_batch(const char *events)
{
    odb_live_run run = NULL;
    size_t length = 77;
    count("open", 0, opened(&run, BATCH, events, ODB_CONTINUE, 10000, NULL, 0, &length) == ODB_DONE && length == 0);
    return run;
}

static uint32_t report(odb_live_run *run, uint32_t position, uint32_t status, const char *headers, const char *body)
{
    uint8_t *first = copy_of(headers), *second = copy_of(body);
    uint32_t returned = odb_run_report(run, position, status, first, strlen(headers), second, strlen(body));
    free(first);
    free(second);
    return returned;
}

/* Whether this line says why headers and a body are refused, and none if it is empty, in buffers of each size. */
static int is_fault(const char *headers, const char *body, const char *line)
{
    uint8_t *first = copy_of(headers), *second = copy_of(body);
    size_t whole = strlen(line);
    int right = 1;
    for (size_t room = 0; right && room <= whole + 2; room++) {
        uint8_t *text = memset(block_of(room), FILLING, room);
        size_t length = 77;
        uint32_t status = odb_report_fault(first, strlen(headers), second, strlen(body), text, room, &length);
        int fits = room >= whole;
        right = length == whole && status == (fits ? whole > 0 ? ODB_REFUSED : ODB_DONE : ODB_SMALL_BUFFER);
        right = right && (!fits || memcmp(text, line, whole) == 0) && is_filled(text, fits ? whole : 0, room);
        free(text);
    }
    free(first);
    free(second);
    return right;
}

/* Headers and bodies of blanks, as long as they may be and longer. */
static void try_long_reports(void)
{
    char *blanks = memset(block_of(LONGEST + 2), ' ', LONGEST + 2);
    blanks[LONGEST + 1] = 0;
    count("too long headers", 0, is_fault(blanks, "", F01));
    count("a too long body", 0, is_fault("", blanks, F01));
    blanks[LONGEST] = 0;
    blanks[0] = '0';
    count("the longest body", 0, is_fault("", blanks, ""));
    free(blanks);
}

/* Returns a bit for each position that a call gives, or -1 if it gives one twice, or what does not fit. */
static long set_of(uint32_t call(odb_live_run *, uint32_t *, size_t, size_t *), odb_live_run *run)
{
    uint32_t positions[MOST];
    size_t length = 77;
    long set = 0;
    if (call(run, positions, MOST, &length) != ODB_DONE || length > MOST)
        return -1;
    for (size_t at = 0; at < length; at++) {
        if (positions[at] >= MOST || set >> positions[at] & 1)
            return -1;
        set |= 1L << positions[at];
    }
    return set;
}

static uint32_t ready_of(odb_live_run *run, uint32_t *positions, size_t size, size_t *length)
{
    return odb_run_ready(run, positions, size, length);
}

static uint32_t running_of(odb_live_run *run, uint32_t *positions, size_t size, size_t *length)
{
    return odb_run_running(run, positions, size, length);
}

static uint32_t undone_of(odb_live_run *run, uint32_t *positions, size_t size, size_t *length)
{
    return odb_run_undone(run, positions, size, length);
}

static int is_in(odb_live_run *run, long ready, long running, uint32_t finished)
{
    return set_of(ready_of, run) == ready && set_of(running_of, run) == running && odb_run_finished(run) == finished;
}

/* Asks for the response with buffers of each length. */
static void try_response(odb_live_run *run, uint32_t status, const char *wanted)
{
    for (size_t size = 0; size <= strlen(wanted) + 3; size++) {
        uint8_t *text = block_of(size);
        size_t length = 77;
        memset(text, FILLING, size);
        uint32_t returned = odb_run_response(run, text, size, &length);
        int right = length == strlen(wanted);
        if (size < strlen(wanted))
            right = right && returned == ODB_SMALL_BUFFER && is_filled(text, 0, size);
        else
            right = right && returned == status && memcmp(text, wanted, strlen(wanted)) == 0 && is_filled(text, strlen(wanted), size);
        count("a response into a buffer of size", (long)size, right);
        free(text);
    }
}

/* Asks for positions with buffers of each length. */
static void try_positions(uint32_t call(odb_live_run *, uint32_t *, size_t, size_t *), odb_live_run *run, size_t wanted)
{
    for (size_t size = 0; size < MOST; size++) {
        uint32_t *positions = block_of(size * sizeof *positions);
        size_t length = 77, from = wanted <= size ? wanted : 0;
        memset(positions, FILLING, size * sizeof *positions);
        uint32_t returned = call(run, positions, size, &length);
        int right = length == wanted && returned == (wanted <= size ? ODB_DONE : ODB_SMALL_BUFFER);
        count("positions into a buffer of size", (long)size,
              right && is_filled(positions, from * sizeof *positions, size * sizeof *positions));
        free(positions);
    }
    size_t length = 77;
    count("positions into no buffer", 0, call(run, NULL, 0, &length) == (wanted ? ODB_SMALL_BUFFER : ODB_DONE) && length == wanted);
}

/* Drives a run from its start to its end. */
static void try_course(void)
{
    odb_live_run run = open_batch(NO_EVENTS);
    count("a new run", 0, is_in(&run, 5, 0, 0));
    try_positions(ready_of, &run, 2);
    try_positions(running_of, &run, 0);
    try_response(&run, ODB_REFUSED, UNFINISHED);
    count("a start", 0, odb_run_start(&run, 0) == ODB_DONE && is_in(&run, 4, 1, 0));
    count("a second start", 0, odb_run_start(&run, 0) == ODB_ALREADY_STARTED);
    count("a start that waits", 0, odb_run_start(&run, 1) == ODB_WAITING);
    count("a start of no request", 0, odb_run_start(&run, 3) == ODB_WRONG_OPTION);
    count("a start far off", 0, odb_run_start(&run, UINT32_MAX) == ODB_WRONG_OPTION);
    count("a report of no request", 0, report(&run, 3, 200, "", "") == ODB_WRONG_OPTION);
    count("a report far off", 0, report(&run, UINT32_MAX, 200, "x", "x") == ODB_WRONG_OPTION);
    count("a report before the start", 0, report(&run, 2, 200, "", "") == ODB_NOT_RUNNING);
    static const uint32_t statuses[] = {0, 199, 600, 65535, 65536, 65736, UINT32_MAX};
    for (size_t at = 0; at < sizeof statuses / sizeof *statuses; at++)
        count("a report with a bad status", (long)at, report(&run, 0, statuses[at], "", "") == ODB_BAD_STATUS);
    static const char *const headers[] = {"[]", "1", "{\"a\":1}", "{\"a\":\"1\",\"A\":\"2\"}", "{", "{}{}", " "};
    for (size_t at = 0; at < sizeof headers / sizeof *headers; at++) {
        count("a report with bad headers", (long)at, report(&run, 0, 200, headers[at], "") == ODB_REFUSED);
        count("why headers are bad", (long)at, is_fault(headers[at], "", at < 4 ? F64 : F02) && is_fault(headers[at], "{", at < 4 ? F64 : F02));
    }
    static const char *const bodies[] = {"{", "9.", "01", "[1,]", "1 2", " ", "\xff", "{\"a\":1e400}"};
    for (size_t at = 0; at < sizeof bodies / sizeof *bodies; at++) {
        count("a report with a bad body", (long)at, report(&run, 0, 200, "{}", bodies[at]) == ODB_REFUSED);
        count("why a body is bad", (long)at, is_fault("{}", bodies[at], F02));
    }
    count("no fault", 0, is_fault("", "", "") && is_fault("null", "null", "") && is_fault("{\"a\":\"\"}", "9.990", ""));
    try_long_reports();
    count("what was refused", 0, is_in(&run, 4, 1, 0));
    count("a report", 0, report(&run, 0, 201, "{\"ETag\":\"1\"}", "{\"n\":1}") == ODB_DONE && is_in(&run, 6, 0, 0));
    count("a second report", 0, report(&run, 0, 201, "", "") == ODB_NOT_RUNNING);
    count("a start after it", 0, odb_run_start(&run, 1) == ODB_DONE && is_in(&run, 4, 2, 0));
    count("another start", 0, odb_run_start(&run, 2) == ODB_DONE && is_in(&run, 0, 6, 0));
    try_positions(running_of, &run, 2);
    count("a report of null", 0, report(&run, 1, 200, "null", "null") == ODB_DONE && is_in(&run, 0, 4, 0));
    count("a report of an error", 0, odb_run_report(&run, 2, 404, NULL, 0, NULL, 0) == ODB_DONE && is_in(&run, 0, 0, 1));
    try_response(&run, ODB_DONE, RESPONSE);
    odb_run_close(run);
}

/* Writes a body that nests so deep. */
static void nest(char *body, int levels, const char *open, const char *close)
{
    *body = 0;
    for (int level = 0; level < levels; level++)
        strcat(body, open);
    strcat(body, "1");
    for (int level = 0; level < levels; level++)
        strcat(body, close);
}

/* Reports bodies that nest as deep as they may, and deeper: no response may show those. */
static void try_deep_bodies(const char *open, const char *close)
{
    for (int levels = DEEPEST; levels <= DEEPEST + 4; levels++) {
        char body[1024];
        odb_live_run run = open_batch(NO_EVENTS);
        nest(body, levels, open, close);
        count("a start", 0, odb_run_start(&run, 0) == ODB_DONE);
        if (levels > DEEPEST) {
            count("a report that is too deep", levels, report(&run, 0, 200, "", body) == ODB_REFUSED && is_in(&run, 4, 1, 0));
            count("why it is refused", levels, is_fault("", body, F02));
            nest(body, 1, open, close);
        }
        count("a report", levels, report(&run, 0, 200, "", body) == ODB_DONE && is_in(&run, 6, 0, 0));
        odb_run_close(run);
    }
}

/* Reports a body to a request alone: the response repeats its text byte for byte. */
static void try_text(const char *body)
{
    static const char head[] = "{\"responses\":[{\"body\":", tail[] = ",\"id\":\"a\",\"status\":200}]}\n";
    odb_live_run run = NULL;
    size_t length = 77, size = strlen(head) + strlen(body) + strlen(tail);
    count("a request alone", 0, opened(&run, "{\"requests\":[" A "]}", NO_EVENTS, ODB_CONTINUE, 1, NULL, 0, &length) == ODB_DONE);
    count("its start", 0, odb_run_start(&run, 0) == ODB_DONE);
    count(body, 0, report(&run, 0, 200, "", body) == ODB_DONE && is_in(&run, 0, 0, 1));
    char *wanted = block_of(size + 1);
    uint8_t *text = block_of(size);
    snprintf(wanted, size + 1, "%s%s%s", head, body, tail);
    count("its response", (long)size, odb_run_response(&run, text, size, &length) == ODB_DONE && length == size && memcmp(text, wanted, size) == 0);
    free(text);
    free(wanted);
    odb_run_close(run);
}

static void try_texts(void)
{
    static const char *const bodies[] = {"9.990", "12345678901234567890123", "-0", "1E+2", " {\"b\" : [0.10],\t\"a\":1 } ",
        "{\"a\":1,\"a\":2.0}", "\"\\u00e9\\/\\ud83d\\ude00\"", "\"\xc3\xa9\""};
    for (size_t at = 0; at < sizeof bodies / sizeof *bodies; at++)
        try_text(bodies[at]);
    char deep[1024], *large = block_of(LARGE + 3);
    nest(deep, DEEPEST, "[", "]");
    try_text(deep);
    memset(large, 'x', LARGE + 2);
    large[0] = large[LARGE + 1] = '"';
    large[LARGE + 2] = 0;
    try_text(large);
    free(large);
}

/* A level in a member that a later one of its name replaces counts, too. */
static void try_hidden_depth(void)
{
    odb_live_run run = open_batch(NO_EVENTS);
    char deep[1024], body[2048];
    count("a start", 0, odb_run_start(&run, 0) == ODB_DONE);
    nest(deep, DEEPEST, "[", "]");
    snprintf(body, sizeof body, "{\"a\":%s,\"a\":1}", deep);
    count("a hidden level", 0, report(&run, 0, 200, "", body) == ODB_REFUSED && is_in(&run, 4, 1, 0));
    odb_run_close(run);
}

/* A request alone and a group of three: the members that succeeded are undone if another one fails. */
#define GROUPED "{\"requests\":[" A "," \
    "{\"id\":\"g\",\"method\":\"post\",\"url\":\"X\",\"atomicityGroup\":\"w\"}," \
    "{\"id\":\"h\",\"method\":\"post\",\"url\":\"Y\",\"atomicityGroup\":\"w\"}," \
    "{\"id\":\"i\",\"method\":\"post\",\"url\":\"Z\",\"atomicityGroup\":\"w\"}]}"

static odb_live_run open_grouped(void)
{
    odb_live_run run = NULL;
    size_t length = 77;
    count("a batch with a group", 0, opened(&run, GROUPED, NO_EVENTS, ODB_CONTINUE, 10000, NULL, 0, &length) == ODB_DONE);
    for (uint32_t at = 0; at < 4; at++)
        count("a start of a group", at, odb_run_start(&run, at) == ODB_DONE);
    return run;
}

/* Asks a run that is not finished for what is undone, with buffers of each length. */
static void try_unfinished(odb_live_run *run)
{
    for (size_t size = 0; size < MOST; size++) {
        uint32_t *positions = block_of(size * sizeof *positions);
        size_t length = 77;
        memset(positions, FILLING, size * sizeof *positions);
        uint32_t returned = odb_run_undone(run, positions, size, &length);
        count("undone of an unfinished run", (long)size, returned == ODB_REFUSED && length == 0 && is_filled(positions, 0, size * sizeof *positions));
        free(positions);
    }
    size_t length = 77;
    count("undone of an unfinished run into no buffer", 0, odb_run_undone(run, NULL, 0, &length) == ODB_REFUSED && length == 0);
}

/* Ends a run with this status of the last of the group: asks for what is undone, which is in this order. */
static void try_undone(uint32_t status, const uint32_t *wanted, size_t count_wanted)
{
    odb_live_run run = open_grouped();
    for (uint32_t at = 0; at < 4; at++) {
        try_unfinished(&run);
        count("a report of a group", at, report(&run, at, at == 3 ? status : 204, "", "") == ODB_DONE);
    }
    uint32_t positions[MOST];
    size_t length = 77;
    int right = odb_run_undone(&run, positions, MOST, &length) == ODB_DONE && length == count_wanted;
    count("undone", status, right && (length == 0 || memcmp(positions, wanted, length * sizeof *wanted) == 0));
    try_positions(undone_of, &run, count_wanted);
    count("a run whose undone requests were asked for", status, is_in(&run, 0, 0, 1));
    odb_run_close(run);
}

static void try_all_undone(void)
{
    static const uint32_t wanted[] = {2, 1};
    try_undone(500, wanted, 2);
    try_undone(399, wanted, 2);
    try_undone(299, NULL, 0);
}

/* Opens runs under other policies, and after recorded events. */
static void try_openings(void)
{
    odb_live_run run = open_batch(SOME_EVENTS);
    count("a run after events", 0, is_in(&run, 6, 0, 0));
    odb_run_close(run);
    size_t length = 77;
    count("a run that stops", 0, opened(&run, BATCH, NO_EVENTS, ODB_STOP, 1, NULL, 0, &length) == ODB_DONE);
    count("its start", 0, odb_run_start(&run, 2) == ODB_DONE && odb_run_start(&run, 0) == ODB_WIDTH_REACHED);
    count("its error", 0, report(&run, 2, 500, "", "") == ODB_DONE && odb_run_start(&run, 0) == ODB_STOPPED && is_in(&run, 0, 0, 1));
    odb_run_close(run);
    count("a run of the empty batch", 0, opened(&run, "{\"requests\":[]}", NO_EVENTS, ODB_CONTINUE, 1, NULL, 0, &length) == ODB_DONE);
    count("its start", 0, is_in(&run, 0, 0, 1) && odb_run_start(&run, 0) == ODB_WRONG_OPTION);
    odb_run_close(run);
    run = open_batch(NO_EVENTS);
    count("a unit that failed", 0, odb_run_start(&run, 0) == ODB_DONE && report(&run, 0, 400, "", "") == ODB_DONE && odb_run_start(&run, 1) == ODB_UNIT_FAILED);
    odb_run_close(run);
}

/* Opens no run: with buffers of each length for the line of the fault. */
static void try_refusal(const char *batch, const char *events, uint32_t mode, uint32_t width, uint32_t status, const char *wanted)
{
    for (size_t size = 0; size <= strlen(wanted) + 3; size++) {
        odb_live_run unset = (odb_live_run)(void *)batch, run = unset;
        uint8_t *text = block_of(size);
        size_t length = 77;
        memset(text, FILLING, size);
        uint32_t returned = opened(&run, batch, events, mode, width, text, size, &length);
        int right = length == strlen(wanted) && run == unset;
        if (size < strlen(wanted))
            right = right && returned == ODB_SMALL_BUFFER && is_filled(text, 0, size);
        else
            right = right && returned == status && memcmp(text, wanted, strlen(wanted)) == 0 && is_filled(text, strlen(wanted), size);
        count(wanted, (long)size, right);
        free(text);
    }
}

static void try_refusals(void)
{
    try_refusal("[", NO_EVENTS, ODB_CONTINUE, 1, ODB_REFUSED, "fault F02 NotJson batch\n");
    try_refusal("", "", ODB_CONTINUE, 1, ODB_REFUSED, "fault F02 NotJson batch\n");
    try_refusal(BATCH, "", ODB_CONTINUE, 1, ODB_REFUSED, "fault F02 NotJson events\n");
    try_refusal(BATCH, "{}", ODB_CONTINUE, 1, ODB_REFUSED, "fault F64 BadEvents events\n");
    try_refusal(BATCH, "{\"events\":[{\"start\":\"z\"}]}", ODB_CONTINUE, 1, ODB_REFUSED, "fault F65 UnknownEvent /events/0\n");
    try_refusal(BATCH, "{\"events\":[{\"start\":\"a\"},{\"start\":\"b\"}]}", ODB_CONTINUE, 9, ODB_REFUSED, "fault S4 Waiting /events/1\n");
    try_refusal(BATCH, "{\"events\":[{\"report\":\"a\",\"status\":200}]}", ODB_CONTINUE, 9, ODB_REFUSED, "fault P1 NotRunning /events/0\n");
    try_refusal(BATCH, NO_EVENTS, 2, 1, ODB_WRONG_OPTION, "");
    try_refusal(BATCH, NO_EVENTS, ODB_STOP, 0, ODB_WRONG_OPTION, "");
    try_refusal(BATCH, NO_EVENTS, ODB_STOP, 10001, ODB_WRONG_OPTION, "");
}

/* Opens and closes many runs, in each state that a run comes to. */
static void try_many(void)
{
    static const struct { int starts; uint32_t position; } course[] = {{1, 0}, {1, 2}, {0, 0}, {1, 1}, {0, 2}, {0, 1}};
    long blocks = live_blocks;
    size_t steps = sizeof course / sizeof *course;
    for (long made = 0; made < RUNS; made++) {
        odb_live_run run = NULL;
        size_t length;
        int right = odb_run_open((const uint8_t *)BATCH, strlen(BATCH), (const uint8_t *)NO_EVENTS, strlen(NO_EVENTS),
                                 ODB_CONTINUE, 10000, &run, NULL, 0, &length, 0) == ODB_DONE;
        for (size_t at = 0; at < (size_t)made % (steps + 1); at++)
            right = right && (course[at].starts ? odb_run_start(&run, course[at].position)
                              : odb_run_report(&run, course[at].position, 200, NULL, 0, (const uint8_t *)"{\"n\":[1]}", 9)) == ODB_DONE;
        odb_run_close(run);
        count("a run of many", made, right && live_blocks == blocks);
    }
}

/* Lets each allocation of a call fail in turn, until none does: the run stays as it is. */
static void try_allocations(int rest)
{
    for (long at = 0, has_failed = 1; has_failed; at++) {
        odb_live_run run = NULL;
        size_t length = 77;
        long blocks = live_blocks;
        refuse_after(at, rest);
        uint32_t status = odb_run_open((const uint8_t *)BATCH, strlen(BATCH), (const uint8_t *)SOME_EVENTS, strlen(SOME_EVENTS),
                                       ODB_CONTINUE, 10000, &run, NULL, 0, &length, 7);
        has_failed = allow_all();
        if (has_failed)
            count("an opening without memory", at, status == ODB_OUT_OF_MEMORY && length == 0 && run == NULL && live_blocks == blocks);
        else
            odb_run_close(run);
    }
    odb_live_run run = open_batch(SOME_EVENTS);
    count("a start without memory", 0, (refuse_after(0, 1), odb_run_start(&run, 1)) == ODB_DONE && !allow_all());
    for (long at = 0, has_failed = 1; has_failed; at++) {
        long blocks = live_blocks;
        refuse_after(at, rest);
        uint32_t status = odb_run_report(&run, 1, 200, (const uint8_t *)"{\"ETag\":\"1\"}", 12, (const uint8_t *)"{\"n\":[1]}", 9);
        has_failed = allow_all();
        if (has_failed)
            count("a report without memory", at, status == ODB_OUT_OF_MEMORY && is_in(&run, 4, 2, 0) && live_blocks == blocks);
        else
            count("a report", at, status == ODB_DONE && is_in(&run, 4, 0, 0));
    }
    for (long at = 0, has_failed = 1; has_failed; at++) {
        uint8_t text[64];
        size_t length = 77;
        long blocks = live_blocks;
        refuse_after(at, rest);
        uint32_t status = odb_run_response(&run, text, sizeof text, &length);
        has_failed = allow_all();
        count("a response without memory", at, status == (has_failed ? ODB_OUT_OF_MEMORY : ODB_REFUSED) && is_in(&run, 4, 0, 0) && live_blocks == blocks);
    }
    odb_run_close(run);
    run = open_grouped();
    for (uint32_t at = 0; at < 4; at++)
        count("a report of a group", at, report(&run, at, at == 3 ? 500 : 204, "", "") == ODB_DONE);
    for (long at = 0, has_failed = 1; has_failed; at++) {
        uint32_t positions[MOST];
        size_t length = 77;
        long blocks = live_blocks;
        memset(positions, FILLING, sizeof positions);
        refuse_after(at, rest);
        uint32_t status = odb_run_undone(&run, positions, MOST, &length);
        has_failed = allow_all();
        if (has_failed)
            count("undone without memory", at, status == ODB_OUT_OF_MEMORY && length == 0 && is_filled(positions, 0, sizeof positions) && live_blocks == blocks);
        else
            count("undone", at, status == ODB_DONE && length == 2 && positions[0] == 2 && positions[1] == 1 && live_blocks == blocks);
    }
    odb_run_close(run);
}

int main(void)
{
    try_course();
    try_deep_bodies("[", "]");
    try_deep_bodies("{\"k\":", "}");
    try_texts();
    try_hidden_depth();
    try_all_undone();
    try_openings();
    try_refusals();
    try_many();
    try_allocations(0);
    try_allocations(1);
    return ended();
}
