/* Live runs for Node: a run is an external value, and is closed once that is collected: by its finalizer, after the turn
 * of the event loop, or when another run is opened in the same turn.
 *
 *   open(batch, events, mode, width) -> [status, text, run]
 *   openListed(batch, events, mode, width) -> [status, text, numbers, run], with the numbers that `requests` of lists.c gives
 *   ready(run, positions), running(run, positions), undone(run, positions), nextUnit(run, positions)
 *     -> [status, count]
 *   state(run, position, numbers) -> status, with the state and its status in `numbers`
 *   next(run, order, numbers) -> status, with the step and its position in `numbers`
 *   start(run, position), startUnit(run, position), report(run, position, status, headers, body), finished(run)
 *     -> status
 *   part(run, batch, limit, positions) -> [status, text, count]
 *   take(run, part, responses, mode), reportFault(headers, body) -> [status, text]
 *   stop(run)
 *   ids(run, size), response(run, size) -> [status, text]
 *   close(run)
 *
 * Documents are Uint8Arrays, `positions` is a Uint32Array with room for all positions, and `size` a guess of
 * how long the text is. run.js makes the class of it. */

#include <stdlib.h>

#include "addon.h"

#define LINE 256  /* longer than the line of a fault */
#define GROWTH 8  /* about how many bytes a run holds for each byte of its documents */
#define FEW_RUNS 16

/* A run and whether it is open: then it is in the list of its instance. */
struct live {
    odb_live_run run;
    int is_open;
    int64_t held;             /* how many bytes V8 takes it to hold */
    napi_ref value;           /* a weak reference to its value: empty once that is collected */
    struct instance *instance;
    struct live *next, **at;  /* the next one of the list, and the pointer to this one */
};

/* Has V8 know of the memory that a run holds more, or less, so that it collects forgotten runs in time. */
static void hold(napi_env env, struct live *it, int64_t more)
{
    int64_t all;
    it->held += more;
    napi_adjust_external_memory(env, more, &all);
}

/* Puts a run that was opened into the list. `size` is how long its documents are. */
static void enlist(napi_env env, struct live *it, size_t size)
{
    struct instance *all = it->instance;
    it->next = all->lives;
    it->at = &all->lives;
    if (it->next != NULL)
        it->next->at = &it->next;
    all->lives = it;
    all->open++;
    all->opened++;
    hold(env, it, GROWTH * (int64_t)size);
}

static void close_live(napi_env env, struct live *it)
{
    if (!it->is_open)
        return;
    it->is_open = 0;
    odb_run_close(it->run);
    *it->at = it->next;
    if (it->next != NULL)
        it->next->at = it->at;
    it->instance->open--;
    hold(env, it, -it->held);
}

/* Closes the runs whose values are collected, where as many runs as are open were opened since the last time. */
static void close_forgotten(napi_env env, struct instance *all)
{
    napi_handle_scope scope;
    if (all->opened < FEW_RUNS + all->kept || napi_open_handle_scope(env, &scope) != napi_ok)
        return;
    for (struct live *it = all->lives, *next; it != NULL; it = next) {
        napi_value value = NULL;
        next = it->next;
        if (napi_get_reference_value(env, it->value, &value) == napi_ok && value == NULL)
            close_live(env, it);
    }
    napi_close_handle_scope(env, scope);
    all->opened = 0;
    all->kept = all->open;
}

static void free_live(napi_env env, void *data, void *hint)
{
    struct live *it = data;
    (void)hint;
    close_live(env, it);
    napi_delete_reference(env, it->value);
    release_instance(it->instance);
    free(it);
}

/* Makes the value of a run that is not open yet, or returns NULL. */
static struct live *new_live(napi_env env, napi_value *value)
{
    struct live *it = calloc(1, sizeof *it);
    if (it == NULL || napi_create_external(env, it, free_live, NULL, value) != napi_ok) {
        free(it);
        return NULL;
    }
    it->instance = instance_of(env);
    it->instance->users++;
    return napi_create_reference(env, *value, 0, &it->value) == napi_ok ? it : NULL;
}

/* Reads a run that is open. */
static int read_live(napi_env env, napi_value value, struct live **found)
{
    void *at = NULL;
    napi_valuetype type;
    if (napi_typeof(env, value, &type) != napi_ok || type != napi_external)
        return 0;
    if (napi_get_value_external(env, value, &at) != napi_ok)
        return 0;
    *found = at;
    return (*found)->is_open;
}

static int read_number(napi_env env, napi_value value, uint32_t *found)
{
    return napi_get_value_uint32(env, value, found) == napi_ok;
}

static napi_value number_of(napi_env env, uint32_t number)
{
    napi_value value;
    return napi_create_uint32(env, number, &value) == napi_ok ? value : NULL;
}

/* What a run is opened with, and where. */
struct opening {
    struct bytes batch, events;
    uint32_t mode, width;
    uint64_t seed;
    struct live *live;
};

/* Opens a run: a writer of the line of the fault. */
static uint32_t open_live(void *given, struct bytes text, size_t *length)
{
    const struct opening *it = given;
    uint32_t status = odb_run_open(it->batch.at, it->batch.size, it->events.at, it->events.size, it->mode, it->width,
                                   &it->live->run, text.at, text.size, length, it->seed);
    it->live->is_open = status == ODB_DONE;
    return status;
}

/* The same with what is to be sent of the requests: a lister. */
static uint32_t list_live(void *given, struct bytes text, size_t *length, void *items, size_t room, size_t *count)
{
    const struct opening *it = given;
    uint32_t status = odb_run_open_requests(it->batch.at, it->batch.size, it->events.at, it->events.size, it->mode, it->width,
                                            &it->live->run, text.at, text.size, length, items, room, count, it->seed);
    it->live->is_open = status == ODB_DONE;
    return status;
}

/* Opens a run, by what it is passed; `is_listed` if with its requests. */
static napi_value opened(napi_env env, napi_callback_info info, int is_listed)
{
    struct opening given;
    napi_value it[4], run;
    if (!read_arguments(env, info, it, 4)
        || !read_bytes(env, it[0], &given.batch) || !read_bytes(env, it[1], &given.events)
        || !read_number(env, it[2], &given.mode) || !read_number(env, it[3], &given.width))
        return wrong_arguments(env);
    given.seed = instance_of(env)->seed;
    close_forgotten(env, instance_of(env));
    given.live = new_live(env, &run);
    if (given.live == NULL) {
        napi_throw_error(env, "ERR_ODB_OUT_OF_MEMORY", "out of memory");
        return NULL;
    }
    napi_value found = is_listed ? listed(env, list_live, &given, given.batch.size, sizeof(odb_request) / sizeof(size_t))
                                 : written(env, open_live, &given, LINE);
    if (given.live->is_open)
        enlist(env, given.live, given.batch.size + given.events.size);
    if (found == NULL || napi_set_element(env, found, is_listed ? 3 : 2, run) != napi_ok)
        return NULL;
    return found;
}

static napi_value open_run(napi_env env, napi_callback_info info)
{
    return opened(env, info, 0);
}

static napi_value open_listed(napi_env env, napi_callback_info info)
{
    return opened(env, info, 1);
}

/* Makes the pair of a status and a count. */
static napi_value count_of(napi_env env, uint32_t status, size_t count)
{
    napi_value pair, first = number_of(env, status), second = number_of(env, (uint32_t)count);
    if (first == NULL || second == NULL || napi_create_array_with_length(env, 2, &pair) != napi_ok
        || napi_set_element(env, pair, 0, first) != napi_ok || napi_set_element(env, pair, 1, second) != napi_ok)
        return NULL;
    return pair;
}

typedef uint32_t listing(odb_live_run *run, uint32_t *positions, size_t positions_size, size_t *count);

/* Has a function list positions into the array that is passed. */
static napi_value list(napi_env env, napi_callback_info info, listing *listed)
{
    struct live *live;
    napi_typedarray_type type;
    napi_value it[2];
    size_t size = 0, count = 0;
    void *positions = NULL;
    if (!read_arguments(env, info, it, 2) || !read_live(env, it[0], &live)
        || napi_get_typedarray_info(env, it[1], &type, &size, &positions, NULL, NULL) != napi_ok
        || type != napi_uint32_array || size == 0)
        return wrong_arguments(env);
    uint32_t status = listed(&live->run, positions, size, &count);
    return count_of(env, status, count);
}

static napi_value ready(napi_env env, napi_callback_info info)
{
    return list(env, info, odb_run_ready);
}

static napi_value running(napi_env env, napi_callback_info info)
{
    return list(env, info, odb_run_running);
}

static napi_value undone(napi_env env, napi_callback_info info)
{
    return list(env, info, odb_run_undone);
}

static napi_value next_unit(napi_env env, napi_callback_info info)
{
    return list(env, info, odb_run_next_unit);
}

typedef uint32_t asking(odb_live_run *run, uint32_t number, uint32_t *first, uint32_t *second);

/* Has a function give two numbers, by one that is passed, into the array that is passed. */
static napi_value ask(napi_env env, napi_callback_info info, asking *asked)
{
    struct live *live;
    napi_typedarray_type type;
    uint32_t number;
    size_t size = 0;
    napi_value it[3];
    void *numbers = NULL;
    if (!read_arguments(env, info, it, 3) || !read_live(env, it[0], &live) || !read_number(env, it[1], &number)
        || napi_get_typedarray_info(env, it[2], &type, &size, &numbers, NULL, NULL) != napi_ok
        || type != napi_uint32_array || size < 2)
        return wrong_arguments(env);
    uint32_t *found = numbers;
    return number_of(env, asked(&live->run, number, &found[0], &found[1]));
}

static napi_value state(napi_env env, napi_callback_info info)
{
    return ask(env, info, odb_run_state);
}

static napi_value next(napi_env env, napi_callback_info info)
{
    return ask(env, info, odb_run_next);
}

static napi_value stop(napi_env env, napi_callback_info info)
{
    struct live *live;
    napi_value it[1];
    if (!read_arguments(env, info, it, 1) || !read_live(env, it[0], &live))
        return wrong_arguments(env);
    odb_run_stop(&live->run);
    return NULL;
}

typedef uint32_t starting(odb_live_run *run, uint32_t position);

/* Has a function start what is at the position that is passed. */
static napi_value start_by(napi_env env, napi_callback_info info, starting *started)
{
    struct live *live;
    uint32_t position;
    napi_value it[2];
    if (!read_arguments(env, info, it, 2) || !read_live(env, it[0], &live) || !read_number(env, it[1], &position))
        return wrong_arguments(env);
    return number_of(env, started(&live->run, position));
}

static napi_value start(napi_env env, napi_callback_info info)
{
    return start_by(env, info, odb_run_start);
}

static napi_value start_unit(napi_env env, napi_callback_info info)
{
    return start_by(env, info, odb_run_start_unit);
}

static napi_value report(napi_env env, napi_callback_info info)
{
    struct live *live;
    struct bytes headers, body;
    uint32_t position, status;
    napi_value it[5];
    if (!read_arguments(env, info, it, 5) || !read_live(env, it[0], &live) || !read_number(env, it[1], &position)
        || !read_number(env, it[2], &status) || !read_bytes(env, it[3], &headers) || !read_bytes(env, it[4], &body))
        return wrong_arguments(env);
    uint32_t end = odb_run_report(&live->run, position, status, headers.at, headers.size, body.at, body.size);
    if (end == ODB_DONE)
        hold(env, live, GROWTH * (int64_t)(headers.size + body.size));
    return number_of(env, end);
}

static napi_value finished(napi_env env, napi_callback_info info)
{
    struct live *live;
    napi_value it[1];
    if (!read_arguments(env, info, it, 1) || !read_live(env, it[0], &live))
        return wrong_arguments(env);
    return number_of(env, odb_run_finished(&live->run));
}

/* Writes the ids: a writer. */
static uint32_t list_ids(void *live, struct bytes text, size_t *length)
{
    return odb_run_ids(&((struct live *)live)->run, text.at, text.size, length);
}

/* Writes the response: a writer. */
static uint32_t respond(void *live, struct bytes text, size_t *length)
{
    return odb_run_response(&((struct live *)live)->run, text.at, text.size, length);
}

/* Has a writer write of a run. */
static napi_value text_of(napi_env env, napi_callback_info info, writer *write)
{
    struct live *live;
    uint32_t size;
    napi_value it[2];
    if (!read_arguments(env, info, it, 2) || !read_live(env, it[0], &live) || !read_number(env, it[1], &size))
        return wrong_arguments(env);
    return written(env, write, live, (size_t)size + 1);
}

static napi_value ids(napi_env env, napi_callback_info info)
{
    return text_of(env, info, list_ids);
}

static napi_value response(napi_env env, napi_callback_info info)
{
    return text_of(env, info, respond);
}

/* What a part is asked of, and where its positions go. */
struct parting {
    struct live *live;
    struct bytes batch;
    uint32_t limit, *positions;
    uint64_t seed;
    size_t size, count;
};

/* Gives the next part: a writer. */
static uint32_t give_part(void *given, struct bytes text, size_t *length)
{
    struct parting *it = given;
    return odb_run_part(&it->live->run, it->batch.at, it->batch.size, it->limit, text.at, text.size, length, it->positions, it->size,
                        &it->count, it->seed);
}

static napi_value part(napi_env env, napi_callback_info info)
{
    struct parting given = {0};
    napi_typedarray_type type;
    napi_value it[4], found, count;
    void *positions = NULL;
    if (!read_arguments(env, info, it, 4) || !read_live(env, it[0], &given.live) || !read_bytes(env, it[1], &given.batch)
        || !read_number(env, it[2], &given.limit)
        || napi_get_typedarray_info(env, it[3], &type, &given.size, &positions, NULL, NULL) != napi_ok
        || type != napi_uint32_array || given.size == 0)
        return wrong_arguments(env);
    given.positions = positions;
    given.seed = instance_of(env)->seed;
    found = written(env, give_part, &given, given.batch.size + LINE);
    count = number_of(env, (uint32_t)given.count);
    return found != NULL && count != NULL && napi_set_element(env, found, 2, count) == napi_ok ? found : NULL;
}

/* What the answers to a part are. */
struct taking {
    napi_env env;
    struct live *live;
    struct bytes part, responses;
    uint32_t mode;
    uint64_t seed;
};

/* Takes them: a writer of the line of the fault. */
static uint32_t take_part(void *given, struct bytes text, size_t *length)
{
    const struct taking *it = given;
    uint32_t status = odb_run_take(&it->live->run, it->part.at, it->part.size, it->responses.at, it->responses.size, it->mode, text.at,
                                   text.size, length, it->seed);
    if (status == ODB_DONE)
        hold(it->env, it->live, GROWTH * (int64_t)it->responses.size);
    return status;
}

static napi_value take(napi_env env, napi_callback_info info)
{
    struct taking given;
    napi_value it[4];
    if (!read_arguments(env, info, it, 4) || !read_live(env, it[0], &given.live) || !read_bytes(env, it[1], &given.part)
        || !read_bytes(env, it[2], &given.responses) || !read_number(env, it[3], &given.mode))
        return wrong_arguments(env);
    given.seed = instance_of(env)->seed;
    given.env = env;
    return written(env, take_part, &given, LINE);
}

/* Says why a report is refused: a writer. */
static uint32_t find_fault(void *given, struct bytes text, size_t *length)
{
    const struct bytes *it = given;
    return odb_report_fault(it[0].at, it[0].size, it[1].at, it[1].size, text.at, text.size, length);
}

static napi_value report_fault(napi_env env, napi_callback_info info)
{
    struct bytes given[2];
    napi_value it[2];
    if (!read_arguments(env, info, it, 2) || !read_bytes(env, it[0], &given[0]) || !read_bytes(env, it[1], &given[1]))
        return wrong_arguments(env);
    return written(env, find_fault, given, LINE);
}

static napi_value close_run(napi_env env, napi_callback_info info)
{
    struct live *live;
    napi_value it[1];
    if (!read_arguments(env, info, it, 1) || !read_live(env, it[0], &live))
        return wrong_arguments(env);
    close_live(env, live);
    return NULL;
}

napi_status export_runs(napi_env env, napi_value exports)
{
    static const struct {
        const char *name;
        napi_callback call;
    } calls[] = {
        {"open", open_run},     {"ready", ready},       {"running", running},
        {"start", start},       {"report", report},     {"finished", finished},
        {"undone", undone},     {"ids", ids},           {"response", response},
        {"nextUnit", next_unit}, {"state", state},      {"stop", stop},
        {"startUnit", start_unit}, {"next", next},      {"close", close_run},
        {"openListed", open_listed}, {"part", part},    {"take", take},
        {"reportFault", report_fault},
    };
    for (size_t i = 0; i < sizeof calls / sizeof *calls; i++) {
        napi_property_descriptor it = {calls[i].name, NULL, calls[i].call, NULL, NULL, NULL, napi_enumerable, NULL};
        napi_status status = napi_define_properties(env, exports, 1, &it);
        if (status != napi_ok)
            return status;
    }
    return napi_ok;
}
