/* Tries each call of the library, with good and bad arguments, and with allocations that fail.
 *
 * The last line that it prints is `N tries, M wrong`; a wrong one is shown before it. Documents and
 * buffers are blocks of just their size, so that valgrind and the sanitizers see what goes beyond. */

#include "odb_batch.h"

#include "allocations.h"

#include <stdio.h>
#include <stdlib.h>
#include <string.h>

#define FILLING 0xa5
#define ROOM 64 /* bytes of the buffer beyond the text */

struct document {
    const uint8_t *bytes;
    size_t size;
};

/* What a call is passed: its documents, its options and its seed. */
struct arguments {
    struct document batch, second;
    uint32_t mode, width, order, flag, form;
    uint64_t seed;
};

typedef uint32_t call(const struct arguments *given, uint8_t *text, size_t size, size_t *length);

/* A call with what it has to return. */
struct trial {
    const char *title;
    call *made;
    const char *batch, *second;
    uint32_t mode, width, order, flag, form;
    uint32_t status;
    const char *text;
};

static uint32_t check(const struct arguments *it, uint8_t *text, size_t size, size_t *length)
{
    return odb_check(it->batch.bytes, it->batch.size, text, size, length, it->seed);
}

static uint32_t plan(const struct arguments *it, uint8_t *text, size_t size, size_t *length)
{
    return odb_plan(it->batch.bytes, it->batch.size, text, size, length, it->seed);
}

static uint32_t canon(const struct arguments *it, uint8_t *text, size_t size, size_t *length)
{
    return odb_canon(it->batch.bytes, it->batch.size, text, size, length, it->seed);
}

static uint32_t match(const struct arguments *it, uint8_t *text, size_t size, size_t *length)
{
    return odb_match(it->batch.bytes, it->batch.size, it->second.bytes, it->second.size,
                     text, size, length, it->seed);
}

static uint32_t run(const struct arguments *it, uint8_t *text, size_t size, size_t *length)
{
    return odb_run(it->batch.bytes, it->batch.size, it->second.bytes, it->second.size,
                   it->mode, it->width, text, size, length, it->seed);
}

static uint32_t replay(const struct arguments *it, uint8_t *text, size_t size, size_t *length)
{
    return odb_replay(it->batch.bytes, it->batch.size, it->second.bytes, it->second.size,
                      it->mode, it->width, it->order, it->flag, text, size, length, it->seed);
}

static uint32_t check_as(const struct arguments *it, uint8_t *text, size_t size, size_t *length)
{
    return odb_check_as(it->batch.bytes, it->batch.size, it->form, text, size, length, it->seed);
}

static uint32_t check_all(const struct arguments *it, uint8_t *text, size_t size, size_t *length)
{
    return odb_check_all(it->batch.bytes, it->batch.size, text, size, length, it->seed);
}

static uint32_t check_all_as(const struct arguments *it, uint8_t *text, size_t size, size_t *length)
{
    return odb_check_all_as(it->batch.bytes, it->batch.size, it->form, text, size, length, it->seed);
}

static uint32_t plan_as(const struct arguments *it, uint8_t *text, size_t size, size_t *length)
{
    return odb_plan_as(it->batch.bytes, it->batch.size, it->form, text, size, length, it->seed);
}

static uint32_t canon_as(const struct arguments *it, uint8_t *text, size_t size, size_t *length)
{
    return odb_canon_as(it->batch.bytes, it->batch.size, it->form, text, size, length, it->seed);
}

static uint32_t match_as(const struct arguments *it, uint8_t *text, size_t size, size_t *length)
{
    return odb_match_as(it->batch.bytes, it->batch.size, it->second.bytes, it->second.size, it->form,
                        text, size, length, it->seed);
}

static uint32_t match_with(const struct arguments *it, uint8_t *text, size_t size, size_t *length)
{
    return odb_match_with(it->batch.bytes, it->batch.size, it->second.bytes, it->second.size, it->mode, it->flag, it->form,
                          text, size, length, it->seed);
}

static uint32_t rest(const struct arguments *it, uint8_t *text, size_t size, size_t *length)
{
    return odb_rest(it->batch.bytes, it->batch.size, it->second.bytes, it->second.size, it->mode, it->form,
                    text, size, length, it->seed);
}

static uint32_t run_as(const struct arguments *it, uint8_t *text, size_t size, size_t *length)
{
    return odb_run_as(it->batch.bytes, it->batch.size, it->second.bytes, it->second.size,
                      it->mode, it->width, it->form, text, size, length, it->seed);
}

static uint32_t replay_as(const struct arguments *it, uint8_t *text, size_t size, size_t *length)
{
    return odb_replay_as(it->batch.bytes, it->batch.size, it->second.bytes, it->second.size,
                         it->mode, it->width, it->order, it->flag, it->form, text, size, length, it->seed);
}

#define ONE "{\"id\":\"a\",\"method\":\"GET\",\"url\":\"X\"}"
#define TWO "{\"id\":\"b\",\"method\":\"get\",\"url\":\"Y\",\"dependsOn\":[\"a\"],\"atomicityGroup\":\"g\"}"
#define BATCH "{\"requests\":[" ONE "," TWO "]}"
#define WRONG "{\"requests\":[7," ONE ",{\"id\":\"b\"}]}"
#define UNFIT "{\"requests\":[" TWO "," TWO "]}"
#define OUTCOMES "{\"outcomes\":[{\"id\":\"a\",\"status\":200},{\"id\":\"b\",\"status\":409}]}"
#define RESPONSES "{\"responses\":[{\"id\":\"a\",\"status\":200}," \
    "{\"atomicityGroup\":\"g\",\"id\":\"b\",\"status\":409}]}"
#define UNSTARTED "{\"responses\":[{\"id\":\"a\",\"status\":404}," \
    "{\"atomicityGroup\":\"g\",\"id\":\"b\",\"status\":409}]}"
#define LEFT_OUT "{\"responses\":[{\"id\":\"a\",\"status\":500}]}"
#define CHAIN "{\"requests\":[{\"id\":\"a\",\"method\":\"post\",\"url\":\"X\"}," \
    "{\"id\":\"b\",\"dependsOn\":[\"a\"],\"method\":\"put\",\"url\":\"$a/Y\",\"body\":{\"P\":9.990}}]}"
#define MADE "{\"responses\":[{\"id\":\"a\",\"status\":201,\"headers\":{\"Location\":\"X(7)\"}},{\"id\":\"b\",\"status\":503}]}"
#define UNPLACED "{\"responses\":[{\"id\":\"a\",\"status\":201},{\"id\":\"b\",\"status\":503}]}"
#define LEFT "{\"requests\":[{\"body\":{\"P\":9.990},\"id\":\"b\",\"method\":\"put\",\"url\":\"X(7)/Y\"}]}\n"
#define EVENTS "{\"events\":[{\"start\":\"a\"},{\"report\":\"a\",\"status\":200}," \
    "{\"start\":\"b\"},{\"report\":\"b\",\"status\":409}]}"
#define FREE "{\"requests\":[" ONE ",{\"id\":\"b\",\"method\":\"get\",\"url\":\"Y\"}]}"
#define FAILURE "{\"outcomes\":[{\"id\":\"a\",\"status\":500},{\"id\":\"b\",\"status\":200}]}"
#define NOT_JSON "fault F02 NotJson batch\n"
#define FAULT(code, name, place) "{\"fault\":{\"code\":\"" code "\",\"name\":\"" name "\",\"place\":\"" place "\"}}\n"

static const struct trial trials[] = {
    {"a check", check, BATCH, NULL, 0, 0, 0, 0, 0, ODB_DONE, "ok 2 requests 1 groups\n"},
    {"a check of the empty batch", check, "{\"requests\":[]}", NULL, 0, 0, 0, 0, 0, ODB_DONE, "ok 0 requests 0 groups\n"},
    {"a check of no JSON", check, "[", NULL, 0, 0, 0, 0, 0, ODB_REFUSED, NOT_JSON},
    {"a check of nothing", check, NULL, NULL, 0, 0, 0, 0, 0, ODB_REFUSED, NOT_JSON},
    {"a plan", plan, BATCH, NULL, 0, 0, 0, 0, 0, ODB_DONE,
     "0 a level 0 group * needs *\n1 b level 1 group g needs a\n"},
    {"a plan of the empty batch", plan, "{\"requests\":[]}", NULL, 0, 0, 0, 0, 0, ODB_DONE, ""},
    {"a plan of nothing", plan, NULL, NULL, 0, 0, 0, 0, 0, ODB_REFUSED, NOT_JSON},
    {"a canonical text", canon, "{\"requests\":[" ONE "]}", NULL, 0, 0, 0, 0, 0, ODB_DONE,
     "{\"requests\":[{\"id\":\"a\",\"method\":\"get\",\"url\":\"X\"}]}\n"},
    {"a canonical text of nothing", canon, NULL, NULL, 0, 0, 0, 0, 0, ODB_REFUSED, NOT_JSON},
    {"a match", match, BATCH, RESPONSES, 0, 0, 0, 0, 0, ODB_DONE, "ok 2 responses\na 200\nb 409\n"},
    {"a match of nothing", match, BATCH, NULL, 0, 0, 0, 0, 0, ODB_REFUSED, "fault F02 NotJson responses\n"},
    {"a match of a batch that is refused", match, NULL, NULL, 0, 0, 0, 0, 0, ODB_REFUSED, NOT_JSON},
    {"a run", run, BATCH, EVENTS, ODB_CONTINUE, 1, 0, 0, 0, ODB_DONE, RESPONSES "\n"},
    {"a run that is not finished", run, BATCH, "{\"events\":[]}", ODB_STOP, 10000, 0, 0, 0, ODB_REFUSED,
     "fault F66 Unfinished events\n"},
    {"a run by nothing", run, BATCH, NULL, ODB_STOP, 7, 0, 0, 0, ODB_REFUSED, "fault F02 NotJson events\n"},
    {"a replay", replay, BATCH, OUTCOMES, ODB_CONTINUE, 10000, ODB_FIRST, 0, 0, ODB_DONE, RESPONSES "\n"},
    {"a replay with its trace", replay, FREE, FAILURE, ODB_CONTINUE, 10000, ODB_FIRST, 1, 0, ODB_DONE,
     "start a\nreport a 500\nstart b\nreport b 200\n"
     "{\"responses\":[{\"id\":\"a\",\"status\":500},{\"id\":\"b\",\"status\":200}]}\n"},
    {"a replay from the last", replay, FREE, FAILURE, ODB_CONTINUE, 10000, ODB_LAST, 1, 0, ODB_DONE,
     "start b\nreport b 200\nstart a\nreport a 500\n"
     "{\"responses\":[{\"id\":\"a\",\"status\":500},{\"id\":\"b\",\"status\":200}]}\n"},
    {"a wide replay", replay, FREE, FAILURE, ODB_CONTINUE, 10000, ODB_WIDE, 1, 0, ODB_DONE,
     "start a\nstart b\nreport a 500\nreport b 200\n"
     "{\"responses\":[{\"id\":\"a\",\"status\":500},{\"id\":\"b\",\"status\":200}]}\n"},
    {"a wide replay, one at a time", replay, FREE, FAILURE, ODB_CONTINUE, 1, ODB_WIDE, 1, 0, ODB_DONE,
     "start a\nreport a 500\nstart b\nreport b 200\n"
     "{\"responses\":[{\"id\":\"a\",\"status\":500},{\"id\":\"b\",\"status\":200}]}\n"},
    {"a replay that stops", replay, FREE, FAILURE, ODB_STOP, 10000, ODB_FIRST, 0, 0, ODB_DONE,
     "{\"responses\":[{\"id\":\"a\",\"status\":500},{\"id\":\"b\",\"status\":424}]}\n"},
    {"a replay by nothing", replay, BATCH, NULL, ODB_CONTINUE, 10000, ODB_FIRST, 0, 0, ODB_REFUSED,
     "fault F02 NotJson outcomes\n"},
    {"a run in no mode", run, BATCH, EVENTS, 2, 1, 0, 0, 0, ODB_WRONG_OPTION, ""},
    {"a run in a mode far off", run, BATCH, EVENTS, UINT32_MAX, 1, 0, 0, 0, ODB_WRONG_OPTION, ""},
    {"a run of width 0", run, BATCH, EVENTS, ODB_CONTINUE, 0, 0, 0, 0, ODB_WRONG_OPTION, ""},
    {"a run of width 10001", run, BATCH, EVENTS, ODB_CONTINUE, 10001, 0, 0, 0, ODB_WRONG_OPTION, ""},
    {"a run of nothing in no mode", run, NULL, NULL, 2, 1, 0, 0, 0, ODB_WRONG_OPTION, ""},
    {"a replay in no mode", replay, BATCH, OUTCOMES, 2, 1, 0, 0, 0, ODB_WRONG_OPTION, ""},
    {"a replay of width 0", replay, BATCH, OUTCOMES, 0, 0, 0, 0, 0, ODB_WRONG_OPTION, ""},
    {"a replay in no order", replay, BATCH, OUTCOMES, 0, 1, 3, 0, 0, ODB_WRONG_OPTION, ""},
    {"a replay with half a trace", replay, BATCH, OUTCOMES, 0, 1, 0, 2, 0, ODB_WRONG_OPTION, ""},
    {"a check in lines", check_as, BATCH, NULL, 0, 0, 0, 0, ODB_LINES, ODB_DONE, "ok 2 requests 1 groups\n"},
    {"a check in JSON", check_as, BATCH, NULL, 0, 0, 0, 0, ODB_JSON, ODB_DONE, "{\"groups\":1,\"requests\":2}\n"},
    {"a check of nothing in JSON", check_as, NULL, NULL, 0, 0, 0, 0, ODB_JSON, ODB_REFUSED, FAULT("F02", "NotJson", "batch")},
    {"a check in no form", check_as, BATCH, NULL, 0, 0, 0, 0, 2, ODB_WRONG_OPTION, ""},
    {"a check in a form far off", check_as, BATCH, NULL, 0, 0, 0, 0, UINT32_MAX, ODB_WRONG_OPTION, ""},
    {"a check of nothing in no form", check_as, NULL, NULL, 0, 0, 0, 0, 2, ODB_WRONG_OPTION, ""},
    {"a check for all faults", check_all, BATCH, NULL, 0, 0, 0, 0, 0, ODB_DONE, "ok 2 requests 1 groups\n"},
    {"all faults of a shape", check_all, WRONG, NULL, 0, 0, 0, 0, 0, ODB_REFUSED,
     "fault F10 NotRequestObject /requests/0\nfault F14 BadMethod /requests/2\nfault F15 BadUrl /requests/2\n"},
    {"all faults of names", check_all, UNFIT, NULL, 0, 0, 0, 0, 0, ODB_REFUSED, "fault F30 IdTwice /requests/1\n"},
    {"all faults of nothing", check_all, NULL, NULL, 0, 0, 0, 0, 0, ODB_REFUSED, NOT_JSON},
    {"a check for all faults in JSON", check_all_as, BATCH, NULL, 0, 0, 0, 0, ODB_JSON, ODB_DONE, "{\"groups\":1,\"requests\":2}\n"},
    {"all faults of a shape in JSON", check_all_as, WRONG, NULL, 0, 0, 0, 0, ODB_JSON, ODB_REFUSED,
     "{\"faults\":[{\"code\":\"F10\",\"name\":\"NotRequestObject\",\"place\":\"/requests/0\"},"
     "{\"code\":\"F14\",\"name\":\"BadMethod\",\"place\":\"/requests/2\"},"
     "{\"code\":\"F15\",\"name\":\"BadUrl\",\"place\":\"/requests/2\"}]}\n"},
    {"all faults of nothing in lines", check_all_as, NULL, NULL, 0, 0, 0, 0, ODB_LINES, ODB_REFUSED, NOT_JSON},
    {"a check for all faults in no form", check_all_as, BATCH, NULL, 0, 0, 0, 0, 2, ODB_WRONG_OPTION, ""},
    {"all faults in a form far off", check_all_as, NULL, NULL, 0, 0, 0, 0, UINT32_MAX, ODB_WRONG_OPTION, ""},
    {"a plan in lines", plan_as, BATCH, NULL, 0, 0, 0, 0, ODB_LINES, ODB_DONE,
     "0 a level 0 group * needs *\n1 b level 1 group g needs a\n"},
    {"a plan in JSON", plan_as, BATCH, NULL, 0, 0, 0, 0, ODB_JSON, ODB_DONE,
     "{\"requests\":[{\"id\":\"a\",\"level\":0,\"needs\":[]},"
     "{\"group\":\"g\",\"id\":\"b\",\"level\":1,\"needs\":[\"a\"]}]}\n"},
    {"a plan in no form", plan_as, BATCH, NULL, 0, 0, 0, 0, 2, ODB_WRONG_OPTION, ""},
    {"a canonical text in JSON", canon_as, "{\"requests\":[" ONE "]}", NULL, 0, 0, 0, 0, ODB_JSON, ODB_DONE,
     "{\"requests\":[{\"id\":\"a\",\"method\":\"get\",\"url\":\"X\"}]}\n"},
    {"a canonical text of nothing in lines", canon_as, NULL, NULL, 0, 0, 0, 0, ODB_LINES, ODB_REFUSED, NOT_JSON},
    {"a canonical text of nothing in JSON", canon_as, NULL, NULL, 0, 0, 0, 0, ODB_JSON, ODB_REFUSED,
     FAULT("F02", "NotJson", "batch")},
    {"a canonical text in no form", canon_as, BATCH, NULL, 0, 0, 0, 0, 2, ODB_WRONG_OPTION, ""},
    {"a match in lines", match_as, BATCH, RESPONSES, 0, 0, 0, 0, ODB_LINES, ODB_DONE, "ok 2 responses\na 200\nb 409\n"},
    {"a match in JSON", match_as, BATCH, RESPONSES, 0, 0, 0, 0, ODB_JSON, ODB_DONE,
     "{\"responses\":[{\"id\":\"a\",\"status\":200},{\"id\":\"b\",\"status\":409}]}\n"},
    {"a match of nothing in JSON", match_as, BATCH, NULL, 0, 0, 0, 0, ODB_JSON, ODB_REFUSED,
     FAULT("F02", "NotJson", "responses")},
    {"a match in no form", match_as, BATCH, RESPONSES, 0, 0, 0, 0, 2, ODB_WRONG_OPTION, ""},
    {"a match in a mode", match_with, BATCH, RESPONSES, ODB_CONTINUE, 0, 0, 0, ODB_LINES, ODB_DONE,
     "ok 2 responses\na 200\nb 409\n"},
    {"a match of what a service left out", match_with, BATCH, LEFT_OUT, ODB_CONTINUE, 0, 0, 0, ODB_LINES, ODB_REFUSED,
     "fault F73 ResponseMissing /requests/1\n"},
    {"a match of a service that stops", match_with, BATCH, LEFT_OUT, ODB_STOP, 0, 0, 0, ODB_LINES, ODB_DONE,
     "ok 2 responses\na 500\nb 424\n"},
    {"a match of a service that stops in JSON", match_with, BATCH, LEFT_OUT, ODB_STOP, 0, 0, 0, ODB_JSON, ODB_DONE,
     "{\"responses\":[{\"id\":\"a\",\"status\":500},{\"id\":\"b\",\"status\":424}]}\n"},
    {"a match of a service that stops without an error", match_with, FREE, "{\"responses\":[]}", ODB_STOP, 0, 0, 0, ODB_JSON,
     ODB_REFUSED, FAULT("F73", "ResponseMissing", "/requests/0")},
    {"a strict match", match_with, BATCH, RESPONSES, ODB_CONTINUE, 0, 0, 1, ODB_LINES, ODB_DONE,
     "ok 2 responses\na 200\nb 409\n"},
    {"a strict match of what no run answers", match_with, BATCH, UNSTARTED, ODB_CONTINUE, 0, 0, 1, ODB_LINES, ODB_REFUSED,
     "fault F78 NotStarted /requests/1\n"},
    {"a match of what no run answers", match_with, BATCH, UNSTARTED, ODB_CONTINUE, 0, 0, 0, ODB_LINES, ODB_DONE,
     "ok 2 responses\na 404\nb 409\n"},
    {"a strict match of a service that stops", match_with, BATCH, LEFT_OUT, ODB_STOP, 0, 0, 1, ODB_JSON, ODB_DONE,
     "{\"responses\":[{\"id\":\"a\",\"status\":500},{\"id\":\"b\",\"status\":424}]}\n"},
    {"a match neither strict nor not", match_with, BATCH, RESPONSES, ODB_CONTINUE, 0, 0, 3, ODB_LINES, ODB_WRONG_OPTION, ""},
    {"a match of nothing in a mode", match_with, BATCH, NULL, ODB_STOP, 0, 0, 0, ODB_LINES, ODB_REFUSED,
     "fault F02 NotJson responses\n"},
    {"a match in no mode", match_with, BATCH, RESPONSES, 2, 0, 0, 0, ODB_LINES, ODB_WRONG_OPTION, ""},
    {"a match in a mode far off", match_with, NULL, NULL, UINT32_MAX, 0, 0, 0, ODB_JSON, ODB_WRONG_OPTION, ""},
    {"a match in a mode and no form", match_with, BATCH, RESPONSES, ODB_STOP, 0, 0, 0, 2, ODB_WRONG_OPTION, ""},
    {"a rest", rest, CHAIN, MADE, ODB_CONTINUE, 0, 0, 0, ODB_LINES, ODB_DONE, LEFT},
    {"a rest in JSON", rest, CHAIN, MADE, ODB_CONTINUE, 0, 0, 0, ODB_JSON, ODB_DONE, LEFT},
    {"a rest without requests", rest, BATCH, RESPONSES, ODB_STOP, 0, 0, 0, ODB_LINES, ODB_DONE, "{\"requests\":[]}\n"},
    {"a rest without a Location", rest, CHAIN, UNPLACED, ODB_CONTINUE, 0, 0, 0, ODB_LINES, ODB_REFUSED,
     "fault F90 NoLocation /requests/1\n"},
    {"a rest without a Location in JSON", rest, CHAIN, UNPLACED, ODB_STOP, 0, 0, 0, ODB_JSON, ODB_REFUSED,
     FAULT("F90", "NoLocation", "/requests/1")},
    {"a rest by what a service left out", rest, FREE, "{\"responses\":[{\"id\":\"a\",\"status\":503}]}", ODB_STOP, 0, 0, 0,
     ODB_LINES, ODB_DONE, "{\"requests\":[{\"id\":\"a\",\"method\":\"get\",\"url\":\"X\"},"
     "{\"id\":\"b\",\"method\":\"get\",\"url\":\"Y\"}]}\n"},
    {"a rest by responses that do not fit", rest, BATCH, LEFT_OUT, ODB_CONTINUE, 0, 0, 0, ODB_LINES, ODB_REFUSED,
     "fault F73 ResponseMissing /requests/1\n"},
    {"a rest by nothing", rest, BATCH, NULL, ODB_CONTINUE, 0, 0, 0, ODB_LINES, ODB_REFUSED, "fault F02 NotJson responses\n"},
    {"a rest of nothing in JSON", rest, NULL, NULL, ODB_CONTINUE, 0, 0, 0, ODB_JSON, ODB_REFUSED, FAULT("F02", "NotJson", "batch")},
    {"a rest in no mode", rest, CHAIN, MADE, 2, 0, 0, 0, ODB_LINES, ODB_WRONG_OPTION, ""},
    {"a rest in a mode far off and no form", rest, NULL, NULL, UINT32_MAX, 0, 0, 0, 2, ODB_WRONG_OPTION, ""},
    {"a rest in no form", rest, CHAIN, MADE, ODB_STOP, 0, 0, 0, 2, ODB_WRONG_OPTION, ""},
    {"a run in JSON", run_as, BATCH, EVENTS, ODB_CONTINUE, 1, 0, 0, ODB_JSON, ODB_DONE, RESPONSES "\n"},
    {"a run that is not finished in lines", run_as, BATCH, "{\"events\":[]}", ODB_STOP, 10000, 0, 0, ODB_LINES, ODB_REFUSED,
     "fault F66 Unfinished events\n"},
    {"a run that is not finished in JSON", run_as, BATCH, "{\"events\":[]}", ODB_STOP, 10000, 0, 0, ODB_JSON, ODB_REFUSED,
     FAULT("F66", "Unfinished", "events")},
    {"a run in no mode in JSON", run_as, BATCH, EVENTS, 2, 1, 0, 0, ODB_JSON, ODB_WRONG_OPTION, ""},
    {"a run in no form", run_as, BATCH, EVENTS, ODB_CONTINUE, 1, 0, 0, 2, ODB_WRONG_OPTION, ""},
    {"a replay in JSON with its trace", replay_as, FREE, FAILURE, ODB_CONTINUE, 10000, ODB_LAST, 1, ODB_JSON, ODB_DONE,
     "start b\nreport b 200\nstart a\nreport a 500\n"
     "{\"responses\":[{\"id\":\"a\",\"status\":500},{\"id\":\"b\",\"status\":200}]}\n"},
    {"a replay by nothing in lines", replay_as, BATCH, NULL, ODB_CONTINUE, 10000, ODB_FIRST, 0, ODB_LINES, ODB_REFUSED,
     "fault F02 NotJson outcomes\n"},
    {"a replay by nothing in JSON", replay_as, BATCH, NULL, ODB_CONTINUE, 10000, ODB_FIRST, 0, ODB_JSON, ODB_REFUSED,
     FAULT("F02", "NotJson", "outcomes")},
    {"a replay in no order in JSON", replay_as, BATCH, OUTCOMES, 0, 1, 3, 0, ODB_JSON, ODB_WRONG_OPTION, ""},
    {"a replay in no form", replay_as, BATCH, OUTCOMES, 0, 1, 0, 0, 2, ODB_WRONG_OPTION, ""},
};

static long tries, wrong;

static void count(const struct trial *trial, const char *what, long at, int is_right)
{
    tries++;
    if (is_right)
        return;
    wrong++;
    printf("%s: %s %ld is wrong\n", trial->title, what, at);
}

/* Returns a block of just this size. */
static uint8_t *block_of(size_t size)
{
    uint8_t *block = malloc(size);
    if (block == NULL && size > 0)
        exit(70);
    return block;
}

/* Returns a copy of a text as a document, or none. */
static struct document document_of(const char *text)
{
    struct document made = {NULL, 0};
    if (text != NULL) {
        uint8_t *bytes = block_of(strlen(text));
        memcpy(bytes, text, strlen(text));
        made.bytes = bytes;
        made.size = strlen(text);
    }
    return made;
}

static int is_filled(const uint8_t *bytes, size_t from, size_t to)
{
    for (; from < to; from++)
        if (bytes[from] != FILLING)
            return 0;
    return 1;
}

/* Calls with a buffer of this size, and returns whether all is as the trial says. */
static int is_right(const struct trial *trial, const struct arguments *given, size_t size)
{
    size_t wanted = strlen(trial->text), length = 77;
    uint8_t *text = block_of(size);
    memset(text, FILLING, size);
    long blocks = live_blocks;
    uint32_t status = trial->made(given, text, size, &length);
    int right = live_blocks == blocks && length == wanted;
    if (size < wanted)
        right = right && status == ODB_SMALL_BUFFER && is_filled(text, 0, size);
    else
        right = right && status == trial->status && memcmp(text, trial->text, wanted) == 0 && is_filled(text, wanted, size);
    free(text);
    return right;
}

/* Calls without a buffer, or with one of size 0 at any address. */
static int is_measured(const struct trial *trial, const struct arguments *given, uint8_t *text)
{
    size_t wanted = strlen(trial->text), length = 77;
    uint32_t status = trial->made(given, text, 0, &length);
    return length == wanted && status == (wanted > 0 ? ODB_SMALL_BUFFER : trial->status);
}

/* Lets each allocation of a call fail in turn, until none does. */
static void try_allocations(const struct trial *trial, const struct arguments *given, int rest)
{
    size_t size = strlen(trial->text) + ROOM, wanted = strlen(trial->text);
    uint8_t *text = block_of(size);
    for (long at = 0;; at++) {
        size_t length = 77;
        memset(text, FILLING, size);
        long blocks = live_blocks;
        refuse_after(at, rest);
        uint32_t status = trial->made(given, text, size, &length);
        int has_failed = allow_all();
        int kept = live_blocks == blocks;
        if (!has_failed) {
            count(trial, "the last call", at, kept && status == trial->status && length == wanted);
            break;
        }
        count(trial, "failing allocation", at, kept && status == ODB_OUT_OF_MEMORY && length == 0 && is_filled(text, 0, size));
    }
    free(text);
}

static void try_all(const struct trial *trial)
{
    static const uint64_t seeds[] = {0, 1, 7, UINT64_MAX};
    struct arguments given = {document_of(trial->batch), document_of(trial->second),
                              trial->mode, trial->width, trial->order, trial->flag, trial->form, 0};
    for (size_t at = 0; at < sizeof seeds / sizeof *seeds; at++) {
        given.seed = seeds[at];
        count(trial, "seed", (long)at, is_right(trial, &given, strlen(trial->text) + ROOM));
    }
    given.seed = odb_seed();
    for (size_t size = 0; size <= strlen(trial->text); size++)
        count(trial, "a buffer of size", (long)size, is_right(trial, &given, size));
    count(trial, "no buffer", 0, is_measured(trial, &given, NULL));
    count(trial, "a buffer of size 0", 0, is_measured(trial, &given, (uint8_t *)1));
    try_allocations(trial, &given, 0);
    try_allocations(trial, &given, 1);
    free((void *)given.batch.bytes);
    free((void *)given.second.bytes);
}

int main(void)
{
    if (odb_version() != ODB_VERSION) {
        printf("the library has version %u and the header %u\n", odb_version(), (unsigned)ODB_VERSION);
        wrong++;
    }
    for (size_t at = 0; at < sizeof trials / sizeof *trials; at++)
        try_all(&trials[at]);
    if (live_blocks != 0) {
        printf("%ld blocks are not freed\n", live_blocks);
        wrong++;
    }
    printf("%ld tries, %ld wrong\n", tries, wrong);
    return wrong != 0;
}
