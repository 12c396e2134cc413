/* The addon of odb_batch for Node, by Node-API: the commands as one function, what is to be sent and all faults (lists.c),
 * where it is sent (targets.c), and live runs (runs.c).
 *
 *   call(command, batch, second, mode, width, order, trace, strict, form) -> [status, text]
 *
 * `command` is the place of a command in `COMMANDS` of commands.js, `batch` and `second` are Uint8Arrays, and the other
 * arguments numbers; what a command does not take is ignored. commands.js makes the calls of it.
 *
 *   explain(code), constants() -> [status, text]
 *
 * `code` is a Uint8Array.
 *
 *   where(document, place, numbers) -> status
 *
 * Both are Uint8Arrays; the line, the column, the offset and the end are written to `numbers`, a Float64Array of four. */

#include <stdlib.h>

#include "addon.h"

#define ARGUMENTS 9

#define EXPLANATION 2048 /* longer than most explanations */
#define MORE 256 /* how much longer than its documents a text is thought to be */

/* What the function is passed. */
struct given {
    uint32_t command, mode, width, order, trace, strict, form;
    struct bytes batch, second;
    uint64_t seed;
};

/* Calls a command: a writer. */
static uint32_t make(void *given, struct bytes text, size_t *length)
{
    const struct given *it = given;
    const struct bytes a = it->batch, b = it->second;
    switch (it->command) {
    case 0:
        return odb_check_as(a.at, a.size, it->form, text.at, text.size, length, it->seed);
    case 1:
        return odb_plan_as(a.at, a.size, it->form, text.at, text.size, length, it->seed);
    case 2:
        return odb_canon_as(a.at, a.size, it->form, text.at, text.size, length, it->seed);
    case 3:
        return odb_match_with(a.at, a.size, b.at, b.size, it->mode, it->strict, it->form,
                              text.at, text.size, length, it->seed);
    case 4:
        return odb_run_as(a.at, a.size, b.at, b.size, it->mode, it->width, it->form,
                          text.at, text.size, length, it->seed);
    case 5:
        return odb_replay_as(a.at, a.size, b.at, b.size, it->mode, it->width, it->order, it->trace, it->form,
                             text.at, text.size, length, it->seed);
    default:
        return odb_rest(a.at, a.size, b.at, b.size, it->mode, it->form, text.at, text.size, length, it->seed);
    }
}

int read_arguments(napi_env env, napi_callback_info info, napi_value *arguments, size_t wanted)
{
    size_t count = wanted;
    return napi_get_cb_info(env, info, &count, arguments, NULL, NULL) == napi_ok && count == wanted;
}

int read_bytes(napi_env env, napi_value value, struct bytes *found)
{
    napi_typedarray_type type;
    void *at = NULL;
    if (napi_get_typedarray_info(env, value, &type, &found->size, &at, NULL, NULL) != napi_ok || type != napi_uint8_array)
        return 0;
    found->at = at;
    return 1;
}

struct instance *instance_of(napi_env env)
{
    void *instance = NULL;
    return napi_get_instance_data(env, &instance) == napi_ok ? instance : NULL;
}

void release_instance(struct instance *it)
{
    if (--it->users == 0)
        free(it);
}

/* Makes the pair of a status and a text, or returns NULL with an exception. */
static napi_value pair_of(napi_env env, uint32_t status, struct bytes text)
{
    napi_value pair, first, second;
    if (napi_create_array_with_length(env, 2, &pair) == napi_ok
        && napi_create_uint32(env, status, &first) == napi_ok
        && napi_create_buffer_copy(env, text.size, text.at, NULL, &second) == napi_ok
        && napi_set_element(env, pair, 0, first) == napi_ok
        && napi_set_element(env, pair, 1, second) == napi_ok)
        return pair;
    napi_throw_error(env, "ERR_ODB_OUT_OF_MEMORY", "out of memory");
    return NULL;
}

napi_value written(napi_env env, writer *write, void *given, size_t size)
{
    struct bytes text = {NULL, 0};
    uint32_t status;
    do {
        uint8_t *room = realloc(text.at, size > 0 ? size : 1); /* a text may be empty, and realloc frees a block for 0 bytes */
        if (room == NULL) {
            status = ODB_OUT_OF_MEMORY;
            size = 0;
            break;
        }
        text.at = room;
        text.size = size;
        status = write(given, text, &size);
    } while (status == ODB_SMALL_BUFFER);
    text.size = size;
    napi_value pair = pair_of(env, status, text);
    free(text.at);
    return pair;
}

napi_value wrong_arguments(napi_env env)
{
    napi_throw_type_error(env, NULL, "wrong arguments");
    return NULL;
}

static napi_value call(napi_env env, napi_callback_info info)
{
    struct given given;
    napi_value it[ARGUMENTS];
    if (!read_arguments(env, info, it, ARGUMENTS)
        || !read_bytes(env, it[1], &given.batch) || !read_bytes(env, it[2], &given.second)
        || napi_get_value_uint32(env, it[0], &given.command) != napi_ok
        || napi_get_value_uint32(env, it[3], &given.mode) != napi_ok
        || napi_get_value_uint32(env, it[4], &given.width) != napi_ok
        || napi_get_value_uint32(env, it[5], &given.order) != napi_ok
        || napi_get_value_uint32(env, it[6], &given.trace) != napi_ok
        || napi_get_value_uint32(env, it[7], &given.strict) != napi_ok
        || napi_get_value_uint32(env, it[8], &given.form) != napi_ok)
        return wrong_arguments(env);
    given.seed = instance_of(env)->seed;
    return written(env, make, &given, given.batch.size + given.second.size + MORE);
}

/* Writes what a code means: a writer. */
static uint32_t make_explanation(void *given, struct bytes text, size_t *length)
{
    const struct bytes *code = given;
    return odb_explain(code->at, code->size, text.at, text.size, length);
}

static napi_value explain(napi_env env, napi_callback_info info)
{
    struct bytes code;
    napi_value it[1];
    if (!read_arguments(env, info, it, 1) || !read_bytes(env, it[0], &code))
        return wrong_arguments(env);
    return written(env, make_explanation, &code, EXPLANATION);
}

/* Writes the constants: a writer. */
static uint32_t make_constants(void *given, struct bytes text, size_t *length)
{
    (void)given;
    return odb_constants(text.at, text.size, length);
}

static napi_value constants(napi_env env, napi_callback_info info)
{
    (void)info;
    return written(env, make_constants, NULL, EXPLANATION);
}

static napi_value where(napi_env env, napi_callback_info info)
{
    struct bytes document, place;
    napi_typedarray_type type;
    size_t size = 0;
    napi_value it[3], result;
    void *numbers = NULL;
    if (!read_arguments(env, info, it, 3) || !read_bytes(env, it[0], &document) || !read_bytes(env, it[1], &place)
        || napi_get_typedarray_info(env, it[2], &type, &size, &numbers, NULL, NULL) != napi_ok
        || type != napi_float64_array || size < 4)
        return wrong_arguments(env);
    odb_position position = {0, 0, 0, 0};
    uint32_t status = odb_where(document.at, document.size, place.at, place.size, &position);
    double *found = numbers;
    found[0] = (double)position.line;
    found[1] = (double)position.column;
    found[2] = (double)position.offset;
    found[3] = (double)position.end;
    return napi_create_uint32(env, status, &result) == napi_ok ? result : NULL;
}

static void end_instance(napi_env env, void *instance, void *hint)
{
    (void)env;
    (void)hint;
    release_instance(instance);
}

/* Makes the instance, with a seed that nobody can see, and exports the calls of this and the other files, and `version`. */
NAPI_MODULE_INIT()
{
    const napi_property_descriptor calls[] = {
        {"call", NULL, call, NULL, NULL, NULL, napi_default_jsproperty, NULL},
        {"explain", NULL, explain, NULL, NULL, NULL, napi_default_jsproperty, NULL},
        {"constants", NULL, constants, NULL, NULL, NULL, napi_default_jsproperty, NULL},
        {"where", NULL, where, NULL, NULL, NULL, napi_default_jsproperty, NULL},
    };
    napi_value version;
    struct instance *instance = calloc(1, sizeof *instance);
    if (instance == NULL || napi_set_instance_data(env, instance, end_instance, NULL) != napi_ok) {
        free(instance);
        napi_throw_error(env, "ERR_ODB_OUT_OF_MEMORY", "out of memory");
        return NULL;
    }
    instance->users = 1;
    instance->seed = odb_seed();
    if (napi_define_properties(env, exports, sizeof calls / sizeof *calls, calls) == napi_ok
        && napi_create_uint32(env, odb_version(), &version) == napi_ok
        && napi_set_named_property(env, exports, "version", version) == napi_ok
        && export_lists(env, exports) == napi_ok
        && export_targets(env, exports) == napi_ok)
        export_runs(env, exports);
    return exports;
}
