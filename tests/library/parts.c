/* Tries the calls for the parts of a live run: a table of batches, each with the parts that it goes in, what they are answered, and
 * the statuses of the whole.
 *
 * The last line that it prints is `N tries, M wrong`; a wrong one is shown before it. Buffers are blocks of just
 * their size, so that valgrind and the sanitizers see what goes beyond. */

#include "odb_batch.h"

#include "allocations.h"
#include "buffers.h"
#include "tries.h"

#include <stdio.h>
#include <stdlib.h>
#include <string.h>

#define ROOM 1024     /* more than the text of any part */
#define MOST 6        /* requests of a batch */
#define MOST_PARTS 4
#define NO_EVENTS "{\"events\":[]}"

#define GET(id, url) "{\"id\":\"" id "\",\"method\":\"get\",\"url\":\"" url "\"}"
#define POST(id, url) "{\"id\":\"" id "\",\"method\":\"post\",\"url\":\"" url "\"}"
#define NEEDS(names, id, url) "{\"dependsOn\":[" names "],\"id\":\"" id "\",\"method\":\"get\",\"url\":\"" url "\"}"
#define MEMBER(group, id, url) "{\"atomicityGroup\":\"" group "\",\"id\":\"" id "\",\"method\":\"post\",\"url\":\"" url "\"}"
#define BATCH(requests) "{\"requests\":[" requests "]}"

/* A part of a run: its text, its positions, and what it is answered. */
struct part {
    const char *text;
    const char *positions; /* a digit for each */
    uint32_t statuses[MOST];
    const char *place; /* the Location of each success with 201 */
};

/* A batch, with its parts and the statuses of the whole. */
struct row {
    const char *title, *batch;
    uint32_t limit, mode;
    struct part parts[MOST_PARTS];
    uint32_t statuses[MOST];
};

static const struct row rows[] = {
    {"a request alone", BATCH(GET("a", "A")), 1, ODB_CONTINUE, {{BATCH(GET("a", "A")), "0", {200}, NULL}}, {200}},
    {"as many as the limit", BATCH(GET("a", "A") "," GET("b", "B") "," GET("c", "C")), 2, ODB_CONTINUE,
     {{BATCH(GET("a", "A") "," GET("b", "B")), "01", {200, 404}, NULL},
      {BATCH(GET("c", "C")), "2", {200}, NULL}},
     {200, 404, 200}},
    {"a dependency within a part and beyond it",
     BATCH(GET("a", "A") "," NEEDS("\"a\"", "b", "B") "," NEEDS("\"a\",\"b\"", "c", "C")), 2, ODB_CONTINUE,
     {{BATCH(GET("a", "A") "," NEEDS("\"a\"", "b", "B")), "01", {200, 200}, NULL},
      {BATCH(GET("c", "C")), "2", {204}, NULL}},
     {200, 200, 204}},
    {"what has failed, and what needs it", BATCH(GET("a", "A") "," NEEDS("\"a\"", "b", "B") "," NEEDS("\"b\"", "c", "C") "," GET("d", "D")),
     2, ODB_CONTINUE,
     {{BATCH(GET("a", "A") "," NEEDS("\"a\"", "b", "B")), "01", {500, 424}, NULL},
      {BATCH(GET("d", "D")), "3", {200}, NULL}},
     {500, 424, 424, 200}},
    {"a reference beyond the part", BATCH(POST("a", "Orders") "," NEEDS("\"a\"", "b", "$a/Lines?x=1") "," GET("c", "C")), 1, ODB_CONTINUE,
     {{BATCH(POST("a", "Orders")), "0", {201}, "/Orders(7)"},
      {BATCH(GET("b", "/Orders(7)/Lines?x=1")), "1", {200}, NULL},
      {BATCH(GET("c", "C")), "2", {200}, NULL}},
     {201, 200, 200}},
    {"a group is whole", BATCH(GET("a", "A") "," MEMBER("g", "b", "B") "," MEMBER("g", "c", "C") "," NEEDS("\"g\"", "d", "D")), 2, ODB_CONTINUE,
     {{BATCH(GET("a", "A")), "0", {200}, NULL},
      {BATCH(MEMBER("g", "b", "B") "," MEMBER("g", "c", "C")), "12", {204, 204}, NULL},
      {BATCH(GET("d", "D")), "3", {200}, NULL}},
     {200, 204, 204, 200}},
    {"a group that fails is undone", BATCH(MEMBER("g", "a", "A") "," MEMBER("g", "b", "B") "," NEEDS("\"g\"", "c", "C")), 3, ODB_CONTINUE,
     {{BATCH(MEMBER("g", "a", "A") "," MEMBER("g", "b", "B") "," NEEDS("\"g\"", "c", "C")), "012",
       {424, 409, 424}, NULL}},
     {424, 409, 424}},
    {"a service that stops", BATCH(GET("a", "A") "," GET("b", "B") "," GET("c", "C") "," GET("d", "D")), 3, ODB_STOP,
     {{BATCH(GET("a", "A") "," GET("b", "B") "," GET("c", "C")), "012", {0, 404, 200}, NULL}},
     {424, 404, 200, 424}},
};

static odb_live_run opened(const char *batch, uint32_t mode)
{
    odb_live_run run = NULL;
    size_t length = 77;
    count("open", 0, odb_run_open((const uint8_t *)batch, strlen(batch), (const uint8_t *)NO_EVENTS, strlen(NO_EVENTS), mode,
                                  ODB_MAX_WIDTH, &run, NULL, 0, &length, 7) == ODB_DONE);
    return run;
}

static uint32_t ask(odb_live_run *run, const char *batch, uint32_t limit, char *text, size_t room, size_t *length, uint32_t *positions,
                    size_t most, size_t *number)
{
    return odb_run_part(run, (const uint8_t *)batch, strlen(batch), limit, (uint8_t *)text, room, length, positions, most, number, 7);
}

/* Whether the next part is this one; none is one without requests. */
static int part_is(odb_live_run *run, const struct row *row, const struct part *wanted)
{
    const char *text = wanted->text ? wanted->text : BATCH(""), *at = wanted->text ? wanted->positions : "";
    char found[ROOM];
    uint32_t positions[MOST];
    size_t length = 77, number = 77;
    if (ask(run, row->batch, row->limit, found, ROOM, &length, positions, MOST, &number) != ODB_DONE)
        return 0;
    int right = length == strlen(text) && memcmp(found, text, length) == 0 && number == strlen(at);
    for (size_t i = 0; right && i < number; i++)
        right = positions[i] == (uint32_t)(at[i] - '0');
    if (!right)
        printf("%.*s\n", (int)length, found);
    return right;
}

/* Whether the request at a position is in the group of a batch. */
static int is_member(const char *batch, unsigned position)
{
    char id[16];
    sprintf(id, "\"id\":\"%c\"", 'a' + position);
    const char *at = strstr(batch, id);
    while (*at != '{')
        at--;
    return strncmp(at, "{\"atomicityGroup\"", 17) == 0;
}

/* Reports the answers to a part one by one: first the successes. */
static void report_each(odb_live_run *run, const struct part *part)
{
    for (int successes = 1; successes >= 0; successes--) {
        for (size_t i = 0; part->positions[i] != 0; i++) {
            uint32_t at = (uint32_t)(part->positions[i] - '0'), status = part->statuses[i];
            char headers[ROOM] = "";
            if (status == 0 || (status < 300) != successes)
                continue;
            if (status == 201)
                snprintf(headers, ROOM, "{\"location\":\"%s\"}", part->place);
            (void)odb_run_start_unit(run, at);
            (void)odb_run_report(run, at, status, (const uint8_t *)headers, strlen(headers), NULL, 0);
        }
    }
}

/* Whether the run is finished, with these statuses. */
static int statuses_are(odb_live_run *run, const uint32_t *wanted)
{
    int right = odb_run_finished(run) == 1;
    for (uint32_t at = 0; right && at < MOST && wanted[at] != 0; at++) {
        uint32_t state = 77, status = 77;
        right = odb_run_state(run, at, &state, &status) == ODB_DONE && status == wanted[at];
    }
    return right;
}

static void try_rows(void)
{
    for (size_t at = 0; at < sizeof rows / sizeof *rows; at++) {
        const struct row *row = &rows[at];
        odb_live_run run = opened(row->batch, row->mode);
        for (size_t k = 0; k < MOST_PARTS && row->parts[k].text != NULL; k++) {
            const struct part *part = &row->parts[k];
            static const struct part none = {NULL, "", {0}, NULL};
            count(row->title, (long)k, part_is(&run, row, part));
            report_each(&run, part);
            if (k + 1 == MOST_PARTS || row->parts[k + 1].text == NULL)
                count("no further part", (long)at, part_is(&run, row, &none));
        }
        count(row->title, 77, statuses_are(&run, row->statuses));
        odb_run_close(run);
    }
}

/* Writes the responses to a part, those without a status left out. */
static void respond(const struct row *row, const struct part *part, char *text)
{
    char *at = text + sprintf(text, "{\"responses\":[");
    const char *comma = "";
    for (size_t i = 0; part->positions[i] != 0; i++) {
        unsigned position = (unsigned)(part->positions[i] - '0'), status = part->statuses[i];
        if (status == 0)
            continue;
        at += sprintf(at, "%s{\"id\":\"%c\",\"status\":%u", comma, 'a' + position, status);
        if (strstr(row->batch, "atomicityGroup") != NULL && is_member(row->batch, position))
            at += sprintf(at, ",\"atomicityGroup\":\"g\"");
        if (status == 201)
            at += sprintf(at, ",\"headers\":{\"Location\":\"%s\"}", part->place);
        at += sprintf(at, "}");
        comma = ",";
    }
    sprintf(at, "]}");
}

static uint32_t take(odb_live_run *run, const char *part, const char *responses, uint32_t mode, char *text, size_t room, size_t *length)
{
    return odb_run_take(run, (const uint8_t *)part, strlen(part), (const uint8_t *)responses, strlen(responses), mode, (uint8_t *)text, room,
                        length, 7);
}

/* The same rows, each part with all its answers at once. */
static void try_takes(void)
{
    for (size_t at = 0; at < sizeof rows / sizeof *rows; at++) {
        const struct row *row = &rows[at];
        odb_live_run run = opened(row->batch, row->mode);
        for (size_t k = 0; k < MOST_PARTS && row->parts[k].text != NULL; k++) {
            char responses[ROOM];
            size_t length = 77;
            count(row->title, (long)k, part_is(&run, row, &row->parts[k]));
            respond(row, &row->parts[k], responses);
            count("taken", (long)k, take(&run, row->parts[k].text, responses, row->mode, NULL, 0, &length) == ODB_DONE && length == 0);
        }
        count(row->title, 78, statuses_are(&run, row->statuses));
        odb_run_close(run);
    }
}

#define PAIR BATCH(GET("a", "A") "," GET("b", "B") "," NEEDS("\"b\"", "c", "C"))

/* Parts that are out together have no request in common. */
static void try_apart(void)
{
    static const struct row row = {"apart", PAIR, 1, ODB_CONTINUE, {{NULL}}, {0}};
    static const struct part first = {BATCH(GET("a", "A")), "0", {200}, NULL}, second = {BATCH(GET("b", "B")), "1", {200}, NULL};
    static const struct part last = {BATCH(GET("c", "C")), "2", {200}, NULL}, none = {NULL, "", {0}, NULL};
    odb_live_run run = opened(PAIR, ODB_CONTINUE);
    count("apart", 1, part_is(&run, &row, &first));
    count("apart", 2, part_is(&run, &row, &second));
    count("apart", 3, part_is(&run, &row, &none));
    report_each(&run, &second);
    count("apart", 4, part_is(&run, &row, &last));
    report_each(&run, &first);
    report_each(&run, &last);
    count("apart", 5, part_is(&run, &row, &none) && odb_run_finished(&run) == 1);
    odb_run_close(run);
}

/* Asks with buffers of each size, of which only the last ones are large enough: then alone the part is out. */
static void try_rooms(void)
{
    odb_live_run run = opened(PAIR, ODB_CONTINUE);
    size_t whole = 77, number = 77;
    uint32_t asked = ask(&run, PAIR, 2, NULL, 0, &whole, NULL, 0, &number);
    count("the sizes", 0, asked == ODB_SMALL_BUFFER && number == 2 && whole == strlen(BATCH(GET("a", "A") "," GET("b", "B"))));
    for (size_t room = 0; room <= whole + 1; room++) {
        for (size_t most = 0; most <= 3; most++) {
            odb_live_run other = room >= whole && most >= 2 ? opened(PAIR, ODB_CONTINUE) : run;
            char *text = filled(room);
            uint32_t *positions = filled(most * sizeof *positions);
            size_t length = 77, found = 77;
            int fits = room >= whole && most >= 2;
            uint32_t status = ask(&other, PAIR, 2, text, room, &length, positions, most, &found);
            int right = length == whole && found == 2 && status == (fits ? ODB_DONE : ODB_SMALL_BUFFER);
            right = right && is_unchanged(text + (fits ? whole : 0), fits ? room - whole : room);
            right = right && is_unchanged(positions + (fits ? 2 : 0), (fits ? most - 2 : most) * sizeof *positions);
            count("a size", (long)(room * 10 + most), right && (!fits || (positions[0] == 0 && positions[1] == 1)));
            free(positions);
            free(text);
            if (fits)
                odb_run_close(other);
        }
    }
    odb_run_close(run);
}

#define GROUP BATCH(MEMBER("g", "a", "A") "," MEMBER("g", "b", "B"))
#define LACKING BATCH(POST("a", "A") "," NEEDS("\"a\"", "b", "$a/B"))
#define F90 "fault F90 NoLocation /requests/1\n"
#define F02 "fault F02 NotJson batch\n"

/* Whether a part is refused, with this text, and nothing has changed. */
static int is_refused(odb_live_run *run, const char *batch, uint32_t limit, uint32_t wanted, const char *line)
{
    char text[ROOM];
    uint32_t *positions = filled(MOST * sizeof *positions);
    size_t length = 77, number = 77;
    uint32_t status = ask(run, batch, limit, text, ROOM, &length, positions, MOST, &number);
    int right = status == wanted && number == 0 && length == strlen(line) && memcmp(text, line, length) == 0;
    right = right && is_unchanged(positions, MOST * sizeof *positions);
    free(positions);
    return right;
}

#define LACKS BATCH(POST("a", "A") "," GET("b", "B") "," NEEDS("\"a\"", "c", "$a/C") "," GET("d", "D"))

/* A part ends before a unit that lacks a Location. If that is the first there is none, and once it is reported the next begins after it. */
static void try_lacking(void)
{
    static const struct row row = {"lacking", LACKS, MOST, ODB_CONTINUE, {{NULL}}, {0}};
    static const struct part second = {BATCH(GET("b", "B")), "1", {200}, NULL}, last = {BATCH(GET("d", "D")), "3", {200}, NULL};
    static const char empty[] = "{\"Location\":\"\"}";
    odb_live_run run = opened(LACKS, ODB_CONTINUE);
    count("lacking", 0, odb_run_start_unit(&run, 0) == ODB_DONE && odb_run_report(&run, 0, 201, (const uint8_t *)empty, strlen(empty), NULL, 0) == ODB_DONE);
    count("lacking", 1, part_is(&run, &row, &second));
    report_each(&run, &second);
    count("lacking", 2, is_refused(&run, LACKS, MOST, ODB_REFUSED, "fault F90 NoLocation /requests/2\n"));
    count("lacking", 3, odb_run_start_unit(&run, 2) == ODB_DONE && odb_run_report(&run, 2, 424, NULL, 0, NULL, 0) == ODB_DONE);
    count("lacking", 4, part_is(&run, &row, &last));
    odb_run_close(run);
}

#define TAGGED(needs, tag) "{" needs "\"headers\":{\"if-match\":\"" tag "\"},\"id\":\"c\",\"method\":\"get\",\"url\":\"C\"}"
#define TAGS BATCH(POST("a", "A") "," GET("b", "B") "," TAGGED("\"dependsOn\":[\"a\"],", "$a") "," GET("d", "D"))

/* A condition gets the ETag of a request that is not in the part; which ends before a unit that lacks it. */
static void try_tags(void)
{
    static const struct row row = {"tags", TAGS, MOST, ODB_CONTINUE, {{NULL}}, {0}};
    static const struct part tagged = {BATCH(GET("b", "B") "," TAGGED("", "7") "," GET("d", "D")), "123", {200, 200, 200}, NULL};
    static const struct part first = {BATCH(GET("b", "B")), "1", {200}, NULL};
    static const char etag[] = "{\"ETag\":\"7\"}";
    odb_live_run run = opened(TAGS, ODB_CONTINUE);
    count("tags", 0, odb_run_start_unit(&run, 0) == ODB_DONE && odb_run_report(&run, 0, 201, (const uint8_t *)etag, strlen(etag), NULL, 0) == ODB_DONE);
    count("tags", 1, part_is(&run, &row, &tagged));
    odb_run_close(run);
    run = opened(TAGS, ODB_CONTINUE);
    count("tags", 2, odb_run_start_unit(&run, 0) == ODB_DONE && odb_run_report(&run, 0, 201, NULL, 0, NULL, 0) == ODB_DONE);
    count("tags", 3, part_is(&run, &row, &first));
    report_each(&run, &first);
    count("tags", 4, is_refused(&run, TAGS, MOST, ODB_REFUSED, "fault F91 NoETag /requests/2\n"));
    odb_run_close(run);
}

static void try_refused_parts(void)
{
    odb_live_run run = opened(GROUP, ODB_CONTINUE);
    count("a group that is too long", 0, is_refused(&run, GROUP, 1, ODB_WRONG_OPTION, ""));
    count("no limit", 0, is_refused(&run, GROUP, 0, ODB_WRONG_OPTION, ""));
    count("another batch", 0, is_refused(&run, PAIR, 2, ODB_WRONG_OPTION, ""));
    count("no batch", 0, is_refused(&run, "", 2, ODB_REFUSED, F02));
    odb_run_close(run);
    run = opened(LACKING, ODB_CONTINUE);
    count("a Location that is lacking", 0, odb_run_start_unit(&run, 0) == ODB_DONE && odb_run_report(&run, 0, 201, NULL, 0, NULL, 0) == ODB_DONE);
    count("a Location that is lacking", 1, is_refused(&run, LACKING, 2, ODB_REFUSED, F90));
    odb_run_close(run);
}

/* The bodies of a part are the bytes of the document. */
static void try_bodies(void)
{
    static const char batch[] = BATCH("{\"id\":\"a\",\"method\":\"post\",\"url\":\"A\",\"body\":{\"n\": 9.990}}");
    static const char part[] = BATCH("{\"body\":{\"n\": 9.990},\"id\":\"a\",\"method\":\"post\",\"url\":\"A\"}");
    odb_live_run run = opened(batch, ODB_CONTINUE);
    char text[ROOM];
    uint32_t positions[1];
    size_t length = 77, number = 77;
    count("a body", 0, ask(&run, batch, 1, text, ROOM, &length, positions, 1, &number) == ODB_DONE && length == strlen(part)
                           && memcmp(text, part, length) == 0);
    odb_run_close(run);
}

#define ANSWER(id, status) "{\"id\":\"" id "\",\"status\":" status "}"
#define WITH(id, status, member) "{\"id\":\"" id "\",\"status\":" status "," member "}"
#define RESPONSES(responses) "{\"responses\":[" responses "]}"

/* Responses that are refused, of a run whose part has the requests a and b. */
static const struct {
    const char *responses, *line;
} unfit[] = {
    {"", "fault F02 NotJson responses\n"},
    {"{}", "fault F70 BadResponses responses\n"},
    {RESPONSES(ANSWER("a", "200")), "fault F73 ResponseMissing /requests/1\n"},
    {RESPONSES(ANSWER("a", "200") "," ANSWER("c", "200")), "fault F71 UnknownResponse /responses/1\n"},
    {RESPONSES(ANSWER("a", "200") "," ANSWER("a", "200")), "fault F72 ResponseTwice /responses/1\n"},
    {RESPONSES(WITH("a", "200", "\"atomicityGroup\":\"g\"") "," ANSWER("b", "200")), "fault F74 GroupDiffers /requests/0\n"},
    {RESPONSES(ANSWER("a", "404") "," ANSWER("b", "200")), "fault F75 UnsoundSuccess /requests/1\n"},
    {RESPONSES(ANSWER("b", "200") "," ANSWER("a", "200") "," ANSWER("b", "600")), "fault F70 BadResponses /responses/2\n"},
    {RESPONSES(ANSWER("b", "404") "," ANSWER("a", "199")), "fault F70 BadResponses /responses/1\n"},
    {RESPONSES(ANSWER("b", "404") "," WITH("a", "200", "\"headers\":{\"x\":1}")), "fault F70 BadResponses /responses/1\n"},
    {RESPONSES(ANSWER("b", "404") "," WITH("a", "200", "\"headers\":{\"x\":\"\",\"X\":\"\"}")), "fault F70 BadResponses /responses/1\n"},
    {RESPONSES(WITH("a", "200", "\"headers\":[]") "," ANSWER("b", "200")), "fault F70 BadResponses /responses/0\n"},
};

#define TWO BATCH(GET("a", "A") "," NEEDS("\"a\"", "b", "B") "," GET("c", "C"))
#define FIRST_TWO BATCH(GET("a", "A") "," NEEDS("\"a\"", "b", "B"))
#define GOOD RESPONSES(WITH("b", "200", "\"body\": 9.990 , \"headers\":{\"X\":\"y\"}") "," ANSWER("a", "204"))

/* Gives the first two requests of a run. */
static void give_two(odb_live_run *run)
{
    char text[ROOM];
    uint32_t positions[MOST];
    size_t length = 77, number = 77;
    count("two of three", 0, ask(run, TWO, 2, text, ROOM, &length, positions, MOST, &number) == ODB_DONE && number == 2);
}

/* Whether no request has started. */
static int is_untouched(odb_live_run *run)
{
    for (uint32_t at = 0; at < 3; at++) {
        uint32_t state = 77, status = 77;
        if (odb_run_state(run, at, &state, &status) != ODB_DONE || status != 0 || state == ODB_STATE_RUNNING)
            return 0;
    }
    return 1;
}

static void try_unfit_answers(void)
{
    odb_live_run run = opened(TWO, ODB_CONTINUE);
    size_t length = 77;
    char text[ROOM];
    count("not given", 0, take(&run, FIRST_TWO, GOOD, ODB_CONTINUE, text, ROOM, &length) == ODB_WRONG_OPTION && length == 0);
    give_two(&run);
    for (size_t at = 0; at < sizeof unfit / sizeof *unfit; at++) {
        const char *line = unfit[at].line;
        for (size_t room = 0; room <= strlen(line) + 1; room++) {
            char *buffer = filled(room);
            int fits = room >= strlen(line);
            uint32_t status = take(&run, FIRST_TWO, unfit[at].responses, ODB_CONTINUE, buffer, room, &length);
            int right = status == (fits ? ODB_REFUSED : ODB_SMALL_BUFFER) && length == strlen(line);
            right = right && (!fits || memcmp(buffer, line, length) == 0) && is_unchanged(buffer + (fits ? length : 0), fits ? room - length : room);
            count(line, (long)room, right && is_untouched(&run));
            free(buffer);
        }
    }
    count("a part that is no batch", 0, take(&run, "", GOOD, ODB_CONTINUE, text, ROOM, &length) == ODB_REFUSED && length == strlen(F02)
                                            && memcmp(text, F02, length) == 0);
    count("a mode", 0, take(&run, FIRST_TWO, GOOD, 2, text, ROOM, &length) == ODB_WRONG_OPTION && length == 0);
    count("more than the part", 0, take(&run, TWO, GOOD, ODB_CONTINUE, text, ROOM, &length) == ODB_WRONG_OPTION && length == 0);
    count("while one runs", 0, odb_run_start(&run, 2) == ODB_DONE);
    count("while one runs", 1, take(&run, FIRST_TWO, GOOD, ODB_CONTINUE, text, ROOM, &length) == ODB_WRONG_OPTION && length == 0);
    count("while one runs", 2, odb_run_report(&run, 2, 200, NULL, 0, NULL, 0) == ODB_DONE);
    count("good", 0, take(&run, FIRST_TWO, GOOD, ODB_CONTINUE, text, ROOM, &length) == ODB_DONE && length == 0);
    count("once more", 0, take(&run, FIRST_TWO, GOOD, ODB_CONTINUE, text, ROOM, &length) == ODB_WRONG_OPTION && length == 0);
    count("its response", 0, odb_run_response(&run, (uint8_t *)text, ROOM, &length) == ODB_DONE);
    count("its response", 1, memcmp(text, RESPONSES(ANSWER("a", "204") "," "{\"body\":9.990,\"headers\":{\"x\":\"y\"},\"id\":\"b\",\"status\":200}" ","
                                              ANSWER("c", "200")) "\n", length) == 0);
    odb_run_close(run);
}

/* Answers of a service that stops: each has its statuses in the run. */
static const struct {
    const char *title, *batch;
    uint32_t statuses[MOST], wanted[MOST];
} stops[] = {
    {"all errors are kept", BATCH(GET("a", "A") "," GET("b", "B") "," GET("c", "C") "," GET("d", "D")), {404, 500, 200, 0}, {404, 500, 200, 424}},
    {"an error after what was skipped", BATCH(GET("a", "A") "," GET("b", "B") "," GET("c", "C")), {424, 503, 304}, {424, 503, 304}},
    {"a group that failed otherwise", BATCH(MEMBER("g", "a", "A") "," MEMBER("g", "b", "B") "," GET("c", "C")), {424, 304, 200}, {424, 304, 200}},
    {"a group with an error", BATCH(MEMBER("g", "a", "A") "," MEMBER("g", "b", "B") "," GET("c", "C")), {424, 409, 0}, {424, 409, 424}},
    {"a 3xx after what was undone", BATCH(MEMBER("g", "a", "A") "," MEMBER("g", "b", "$a/B") "," GET("c", "C")), {424, 304, 200}, {424, 304, 200}},
    {"what waits for a 3xx of its group", BATCH(MEMBER("g", "a", "A") "," MEMBER("g", "b", "$a/B") "," GET("c", "C")), {304, 424, 200},
     {304, 424, 200}},
    {"a group of two kinds", BATCH(MEMBER("g", "a", "A") "," MEMBER("g", "b", "B")), {500, 304}, {500, 304}},
    {"a group whose member needs another", BATCH(MEMBER("g", "a", "A") "," MEMBER("g", "b", "$a/B")), {424, 500}, {424, 500}},
};

static void try_stops(void)
{
    for (size_t at = 0; at < sizeof stops / sizeof *stops; at++) {
        struct row row = {stops[at].title, stops[at].batch, MOST, ODB_STOP, {{stops[at].batch, "", {0}, NULL}}, {0}};
        char responses[ROOM], positions[MOST + 1] = "", text[ROOM];
        uint32_t given[MOST];
        size_t length = 77, number = 77;
        odb_live_run run = opened(row.batch, ODB_STOP);
        count(row.title, 0, ask(&run, row.batch, MOST, text, ROOM, &length, given, MOST, &number) == ODB_DONE);
        for (size_t i = 0; i < number; i++)
            positions[i] = (char)('0' + i);
        row.parts[0].positions = positions;
        memcpy(row.parts[0].statuses, stops[at].statuses, sizeof row.parts[0].statuses);
        respond(&row, &row.parts[0], responses);
        count(row.title, 1, take(&run, row.batch, responses, ODB_STOP, NULL, 0, &length) == ODB_DONE);
        count(row.title, 2, statuses_are(&run, stops[at].wanted));
        odb_run_close(run);
    }
}

/* Has each allocation of a take fail in turn: then nothing has started. */
static void try_failing_takes(void)
{
    odb_live_run run = opened(TWO, ODB_CONTINUE);
    give_two(&run);
    for (long after = 0, failed = 1; failed; after++) {
        size_t length = 77;
        refuse_after(after, 1);
        uint32_t status = take(&run, FIRST_TWO, GOOD, ODB_CONTINUE, NULL, 0, &length);
        failed = allow_all();
        count(failed ? "a take without memory" : "a take with all memory", after,
              failed ? status == ODB_OUT_OF_MEMORY && length == 0 && is_untouched(&run) : status == ODB_DONE);
    }
    odb_run_close(run);
}

/* Has each allocation fail in turn: then nothing is out. */
static void try_failures(void)
{
    odb_live_run run = opened(PAIR, ODB_CONTINUE);
    for (long after = 0, failed = 1; failed; after++) {
        char text[ROOM];
        uint32_t positions[MOST];
        size_t length = 77, number = 77;
        refuse_after(after, 1);
        uint32_t status = ask(&run, PAIR, MOST, text, ROOM, &length, positions, MOST, &number);
        failed = allow_all();
        count(failed ? "without memory" : "with all memory", after,
              failed ? status == ODB_OUT_OF_MEMORY && length == 0 && number == 0 : status == ODB_DONE && number == 3);
    }
    odb_run_close(run);
}

int main(void)
{
    try_rows();
    try_apart();
    try_rooms();
    try_refused_parts();
    try_lacking();
    try_tags();
    try_bodies();
    try_takes();
    try_unfit_answers();
    try_stops();
    try_failing_takes();
    try_failures();
    return ended();
}
