/* Measures how much stack the calls of the library take: each is made by a thread with a stack of
 * ODB_STACK_BYTES, on documents that nest as deep as they may and deeper, of objects, of arrays and of both by turns,
 * and on a long chain of requests. What the C library takes of the stack for its thread is counted, too.
 *
 * A call that takes more ends the program by a signal, after its title. The last line is the most that a call
 * took, `N of M bytes of stack`. The status is 1 if less than a quarter is left, for the program's thread-local
 * variables and signal handlers, and for other C libraries. */

#ifdef _WIN32
#define _WIN32_WINNT 0x0602 /* Windows 8 */
#endif

#include "odb_batch.h"

#include <stdio.h>
#include <stdlib.h>
#include <string.h>
#ifdef _WIN32
#include <windows.h>
#else
#include <pthread.h>
#include <sys/mman.h>
#endif

#define PAGE 4096
#define FILLING 0xa5
#define MOST_BYTES 4194304
#define DEEPEST 124 /* levels of a body in a document of 127 */
#define CHAIN 10000

#ifdef _WIN32
static char *stpcpy(char *to, const char *from)
{
    return strcpy(to, from) + strlen(from);
}
#endif

static char batch[MOST_BYTES], second[MOST_BYTES];
static uint8_t text[MOST_BYTES];
static size_t length;

/* What a thread does, and whether it ended as it had to. */
typedef int work(void);

static const uint8_t *bytes(const char *document)
{
    return (const uint8_t *)document;
}

static int is_done(uint32_t status)
{
    return status == ODB_DONE;
}

static int check(void)
{
    return is_done(odb_check(bytes(batch), strlen(batch), text, sizeof text, &length, 7));
}

static int check_without_a_seed(void)
{
    return is_done(odb_check(bytes(batch), strlen(batch), text, sizeof text, &length, 0));
}

static int plan(void)
{
    return is_done(odb_plan(bytes(batch), strlen(batch), text, sizeof text, &length, 7));
}

static int canon(void)
{
    return is_done(odb_canon(bytes(batch), strlen(batch), text, sizeof text, &length, 7));
}

static int requests(void)
{
    static odb_request found[10000];
    size_t count;
    return is_done(odb_requests(bytes(batch), strlen(batch), text, sizeof text, &length, found, 10000, &count, 7));
}

static int check_in_json(void)
{
    return is_done(odb_check_as(bytes(batch), strlen(batch), ODB_JSON, text, sizeof text, &length, 7));
}

static int check_for_all_faults(void)
{
    return is_done(odb_check_all(bytes(batch), strlen(batch), text, sizeof text, &length, 7));
}

static int all_faults_in_json(void)
{
    return odb_check_all_as(bytes(batch), strlen(batch), ODB_JSON, text, sizeof text, &length, 7) == ODB_REFUSED;
}

/* Asks for all faults of a batch, with where they are. */
static uint32_t ask_for_faults(void)
{
    static odb_fault found[CHAIN];
    size_t count;
    return odb_faults(bytes(batch), strlen(batch), text, sizeof text, &length, found, CHAIN, &count, 7);
}

static int no_faults(void)
{
    return is_done(ask_for_faults());
}

static int faults(void)
{
    return ask_for_faults() == ODB_REFUSED;
}

/* Looks for the document, which is read for that, and for its first request. */
static int find(void)
{
    odb_position found;
    return is_done(odb_where(bytes(batch), strlen(batch), bytes("batch"), 5, &found))
        && is_done(odb_where(bytes(batch), strlen(batch), bytes("/requests/0"), 11, &found));
}

/* Asks for the pairs of headers whose one value nests. */
static int nested_headers(void)
{
    static odb_header pairs[1];
    size_t count;
    return odb_headers(bytes(second), strlen(second), text, sizeof text, &length, pairs, 1, &count) == ODB_REFUSED;
}

static int constants(void)
{
    return is_done(odb_constants(text, sizeof text, &length));
}

/* Asks where a request with a long path of dot segments is sent, from a long list of roots. */
static int resolve(void)
{
    static const char base[] = "http://host/odata/";
    char *end = second;
    for (int i = 0; i < CHAIN; i++)
        end = stpcpy(end, "http://other/odata/\n");
    strcpy(end, base);
    end = batch;
    for (int i = 0; i < CHAIN; i++)
        end = stpcpy(end, "a/../%20./");
    return is_done(odb_resolve(bytes(base), strlen(base), bytes(second), strlen(second), bytes(batch), strlen(batch), NULL, 0,
                               NULL, 0, 0, text, sizeof text, &length));
}

static int plan_in_json(void)
{
    return is_done(odb_plan_as(bytes(batch), strlen(batch), ODB_JSON, text, sizeof text, &length, 7));
}

static int canon_in_json(void)
{
    return is_done(odb_canon_as(bytes(batch), strlen(batch), ODB_JSON, text, sizeof text, &length, 7));
}

static int match_in_json(void)
{
    return is_done(odb_match_as(bytes(batch), strlen(batch), bytes(second), strlen(second), ODB_JSON,
                                text, sizeof text, &length, 7));
}

static int rest_in_json(void)
{
    return is_done(odb_rest(bytes(batch), strlen(batch), bytes(second), strlen(second), ODB_CONTINUE, ODB_JSON,
                            text, sizeof text, &length, 7));
}

static int run_in_json(void)
{
    return is_done(odb_run_as(bytes(batch), strlen(batch), bytes(second), strlen(second), ODB_CONTINUE, ODB_MAX_WIDTH,
                              ODB_JSON, text, sizeof text, &length, 7));
}

static int replay_in_json(void)
{
    return is_done(odb_replay_as(bytes(batch), strlen(batch), bytes(second), strlen(second), ODB_CONTINUE, ODB_MAX_WIDTH,
                                 ODB_WIDE, 1, ODB_JSON, text, sizeof text, &length, 7));
}

static int refused_in_json(void)
{
    return odb_check_as(bytes(batch), strlen(batch), ODB_JSON, text, sizeof text, &length, 7) == ODB_REFUSED;
}

static int refused(void)
{
    return odb_check(bytes(batch), strlen(batch), text, sizeof text, &length, 7) == ODB_REFUSED;
}

static int match(void)
{
    return is_done(odb_match(bytes(batch), strlen(batch), bytes(second), strlen(second), text, sizeof text, &length, 7));
}

static int replay(void)
{
    return is_done(odb_replay(bytes(batch), strlen(batch), bytes(second), strlen(second), ODB_CONTINUE, ODB_MAX_WIDTH,
                              ODB_WIDE, 1, text, sizeof text, &length, 7));
}

static int run(void)
{
    return is_done(odb_run(bytes(batch), strlen(batch), bytes(second), strlen(second), ODB_CONTINUE, ODB_MAX_WIDTH,
                           text, sizeof text, &length, 7));
}

/* Opens a run after the events in `second`, which end it, and makes its response. */
static int live_after_events(void)
{
    odb_live_run opened;
    if (odb_run_open(bytes(batch), strlen(batch), bytes(second), strlen(second), ODB_STOP, 1, &opened, text, sizeof text, &length, 7))
        return 0;
    int right = is_done(odb_run_response(&opened, text, sizeof text, &length));
    odb_run_close(opened);
    return right;
}

/* Takes the responses in `second` to the one part of a run. */
static int take(void)
{
    static const char none[] = "{\"events\":[]}";
    odb_live_run opened;
    uint32_t positions[1];
    size_t count;
    if (odb_run_open(bytes(batch), strlen(batch), bytes(none), strlen(none), ODB_STOP, 1, &opened, text, sizeof text, &length, 7))
        return 0;
    int right = is_done(odb_run_part(&opened, bytes(batch), strlen(batch), 1, text, sizeof text, &length, positions, 1, &count, 7))
        && is_done(odb_run_take(&opened, bytes(batch), strlen(batch), bytes(second), strlen(second), ODB_STOP, text, sizeof text, &length, 7))
        && odb_run_finished(&opened);
    odb_run_close(opened);
    return right;
}

/* Opens a run, and makes all of its calls: its one request is reported with the body in `second`. */
static int live(void)
{
    static const char none[] = "{\"events\":[]}", headers[] = "{\"ETag\":\"7\"}";
    odb_live_run opened;
    uint32_t positions[1], state, status, step;
    size_t count;
    if (odb_run_open(bytes(batch), strlen(batch), bytes(none), strlen(none), ODB_STOP, 1, &opened, text, sizeof text, &length, 7))
        return 0;
    int right = is_done(odb_run_ready(&opened, positions, 1, &count))
        && is_done(odb_run_position(&opened, bytes("a"), 1, positions))
        && is_done(odb_run_ids(&opened, text, sizeof text, &length))
        && is_done(odb_run_next_unit(&opened, positions, 1, &count))
        && is_done(odb_run_next(&opened, ODB_LAST, &step, positions))
        && is_done(odb_run_part(&opened, bytes(batch), strlen(batch), 1, text, sizeof text, &length, positions, 1, &count, 7))
        && is_done(odb_run_start(&opened, 0)) && is_done(odb_run_state(&opened, 0, &state, &status))
        && is_done(odb_run_running(&opened, positions, 1, &count))
        && is_done(odb_report_fault(bytes(headers), strlen(headers), bytes(second), strlen(second), text, sizeof text, &length))
        && is_done(odb_run_report(&opened, 0, 200, bytes(headers), strlen(headers), bytes(second), strlen(second)))
        && odb_run_finished(&opened) && is_done(odb_run_undone(&opened, positions, 1, &count))
        && is_done(odb_run_response(&opened, text, sizeof text, &length));
    odb_run_stop(&opened);
    odb_run_close(opened);
    return right;
}

#define OBJECT "{\"k\":"

/* What the even and the odd levels of a value that nests open and close with. */
static const struct shape {
    const char *name, *open[2], *close[2];
} shapes[] = {
    {"objects", {OBJECT, OBJECT}, {"}", "}"}},
    {"arrays", {"[", "["}, {"]", "]"}},
    {"both by turns", {"[", OBJECT}, {"]", "}"}},
};

#define SHAPES (sizeof shapes / sizeof *shapes)

static const struct shape *shape = shapes;

/* Appends a value that nests so deep. */
static void nest(char *document, int levels)
{
    char *end = document + strlen(document);
    for (int level = 0; level < levels; level++)
        end = stpcpy(end, shape->open[level % 2]);
    end = stpcpy(end, "1");
    for (int level = levels; level-- > 0;)
        end = stpcpy(end, shape->close[level % 2]);
}

/* Makes a document of a text, a value that nests, and a text. */
static void make(char *document, const char *before, int levels, const char *after)
{
    strcpy(document, before);
    nest(document, levels);
    strcat(document, after);
}

static void make_deep(int levels)
{
    make(batch, "{\"requests\":[{\"id\":\"a\",\"method\":\"post\",\"url\":\"X\","
                "\"headers\":{\"Content-Type\":\"application/json\"},\"body\":", levels, "}]}");
}

/* Makes a batch in which each request needs the one before it, and an entry for each in another document. */
static void make_chain(const char *name, const char *more)
{
    char *end = stpcpy(batch, "{\"requests\":["), *other = second + sprintf(second, "{\"%s\":[", name);
    for (int i = 0; i < CHAIN; i++) {
        end += sprintf(end, "%s{\"id\":\"r%d\",\"method\":\"get\",\"url\":\"X\"", i ? "," : "", i);
        end += i ? sprintf(end, ",\"dependsOn\":[\"r%d\"]}", i - 1) : sprintf(end, "}");
        other += sprintf(other, "%s{\"id\":\"r%d\",\"status\":200%s}", i ? "," : "", i, more);
    }
    strcpy(end, "]}");
    strcpy(other, "]}");
}

#ifdef _WIN32

#define SPARE 16384 /* of a stack: what is not filled */

/* What a thread does, whether it ended as it had to, and how much of its stack was written. */
struct task {
    work *done;
    int is_right;
    size_t used;
};

/* Fills the stack below it, and returns where that starts. */
static __attribute__((noinline)) uintptr_t fill(void)
{
    volatile uint8_t room[ODB_STACK_BYTES - SPARE];
    for (size_t at = 0; at < sizeof room; at++)
        room[at] = FILLING;
    return (uintptr_t)room;
}

static DWORD WINAPI perform(void *given)
{
    struct task *it = given;
    const uint8_t *left = (const uint8_t *)fill();
    it->is_right = it->done();
    while (*left == FILLING)
        left++;
    ULONG_PTR start, end;
    GetCurrentThreadStackLimits(&start, &end);
    it->used = end - (ULONG_PTR)left;
    return 0;
}

/* Does the work in a thread with a stack of ODB_STACK_BYTES. Returns how much of it was written. */
static size_t used_by(work *done, int *is_right)
{
    struct task task = {done, 0, 0};
    HANDLE thread = CreateThread(NULL, ODB_STACK_BYTES, perform, &task, STACK_SIZE_PARAM_IS_A_RESERVATION, NULL);
    if (thread == NULL || WaitForSingleObject(thread, INFINITE) != WAIT_OBJECT_0)
        exit(70);
    CloseHandle(thread);
    *is_right = task.is_right;
    return task.used;
}

#else

static void *perform(void *given)
{
    work *const *done = given;
    return (*done)() ? text : NULL;
}

/* Makes a stack whose bytes are known, above a page on which a thread that goes beyond it ends. */
static uint8_t *new_stack(void)
{
    uint8_t *page = mmap(NULL, PAGE + ODB_STACK_BYTES, PROT_READ | PROT_WRITE, MAP_PRIVATE | MAP_ANONYMOUS, -1, 0);
    if (page == MAP_FAILED || mprotect(page, PAGE, PROT_NONE))
        exit(70);
    return memset(page + PAGE, FILLING, ODB_STACK_BYTES);
}

/* Does the work in a thread with such a stack. Returns how much of it was written. */
static size_t used_by(work *done, int *is_right)
{
    pthread_t thread;
    pthread_attr_t attributes;
    void *result = NULL;
    uint8_t *stack = new_stack();
    if (pthread_attr_init(&attributes) || pthread_attr_setstack(&attributes, stack, ODB_STACK_BYTES)
        || pthread_create(&thread, &attributes, perform, &done) || pthread_join(thread, &result))
        exit(70);
    size_t left = 0;
    while (left < ODB_STACK_BYTES && stack[left] == FILLING)
        left++;
    *is_right = result != NULL;
    pthread_attr_destroy(&attributes);
    munmap(stack - PAGE, PAGE + ODB_STACK_BYTES);
    return ODB_STACK_BYTES - left;
}

#endif

static size_t most;
static int wrong;

/* Does the work in a thread, and prints how much of its stack was written. */
static void measure(const char *title, work *done)
{
    int is_right;
    printf("%s: ", title);
    fflush(stdout);
    size_t used = used_by(done, &is_right);
    wrong += !is_right;
    printf("%zu%s\n", used, is_right ? "" : ", is wrong");
    most = used > most ? used : most;
}

/* Makes each call on documents whose bodies nest as deep as they may, and deeper. */
static void measure_deep(void)
{
    make_deep(DEEPEST);
    measure("a check of a deep body", check);
    measure("a check of a deep body without a seed", check_without_a_seed);
    measure("a check of a deep body in JSON", check_in_json);
    measure("a check of a deep body for all faults", check_for_all_faults);
    measure("no faults of a deep body", no_faults);
    measure("where a deep body is", find);
    measure("a plan of a deep body", plan);
    measure("a plan of a deep body in JSON", plan_in_json);
    measure("a canonical text of a deep body", canon);
    measure("what is to be sent of a deep body", requests);
    measure("a canonical text of a deep body in JSON", canon_in_json);
    make(second, "{\"responses\":[{\"id\":\"a\",\"status\":200,\"body\":", DEEPEST, "}]}");
    measure("a match of a deep body", match);
    measure("a match of a deep body in JSON", match_in_json);
    measure("an answer to a part with a deep body", take);
    make(second, "{\"responses\":[{\"id\":\"a\",\"status\":503,\"body\":", DEEPEST, "}]}");
    measure("the rest of a deep body", rest_in_json);
    make(second, "{\"outcomes\":[{\"id\":\"a\",\"status\":200,\"body\":", DEEPEST, "}]}");
    measure("a replay of a deep body", replay);
    measure("a replay of a deep body in JSON", replay_in_json);
    make(second, "{\"events\":[{\"start\":\"a\"},{\"report\":\"a\",\"status\":200,\"body\":", DEEPEST, "}]}");
    measure("a run of a deep body", run);
    measure("a run of a deep body in JSON", run_in_json);
    measure("a live run after a deep body", live_after_events);
    make(second, "", DEEPEST, "");
    measure("a live run of a deep body", live);
    make(second, "{\"k\":", DEEPEST, "}");
    measure("headers that nest deep", nested_headers);
    make_deep(100000);
    measure("a check of a body that is too deep", refused);
    measure("a check of a body that is too deep in JSON", refused_in_json);
    measure("all faults of a body that is too deep", all_faults_in_json);
    measure("where the faults of a body that is too deep are", faults);
    measure("where a body is too deep", find);
}

/* Makes each call on a batch in which each request needs the one before it. */
static void measure_chain(void)
{
    make_chain("outcomes", "");
    measure("a check of a chain", check);
    measure("a check of a chain without a seed", check_without_a_seed);
    measure("a check of a chain in JSON", check_in_json);
    measure("a check of a chain for all faults", check_for_all_faults);
    measure("no faults of a chain", no_faults);
    measure("a plan of a chain", plan);
    measure("a plan of a chain in JSON", plan_in_json);
    measure("a canonical text of a chain in JSON", canon_in_json);
    measure("a canonical text of a chain", canon);
    measure("what is to be sent of a chain", requests);
    measure("a replay of a chain", replay);
    measure("a replay of a chain in JSON", replay_in_json);
    make_chain("responses", "");
    measure("a match of a chain", match);
    measure("a match of a chain in JSON", match_in_json);
    measure("the rest of a chain", rest_in_json);
}

int main(void)
{
    measure("where a request is sent", resolve);
    measure("the constants", constants);
    for (size_t at = 0; at < SHAPES; at++) {
        shape = &shapes[at];
        printf("%s\n", shape->name);
        measure_deep();
    }
    measure_chain();
    printf("%zu of %d bytes of stack\n", most, ODB_STACK_BYTES);
    return wrong != 0 || most > ODB_STACK_BYTES / 4 * 3;
}
