/* What a document has, for Node: what is to be sent of each request of a batch, all its faults with where they are, and the
 * responses of a service.
 *
 *   requests(batch), faults(batch), responses(document) -> [status, text, numbers]
 *
 * A document is a Uint8Array. `numbers` is a Float64Array with those of an odb_request, an odb_fault or an odb_response for
 * each, in their order, and -1 for ODB_NONE. requests.js, commands.js and responses.js make values of it. */

#include <stdlib.h>

#include "addon.h"

#define MORE 256       /* how much longer than its document a text is thought to be */
#define SHORTEST 32    /* how short a request or a response may be in a document, */
#define MOST 10000     /* and how many a batch may have */

/* What a call lists, and what it finds: structs of so many sizes and positions each. */
struct asked {
    lister *list;
    void *given;
    size_t numbers;
    void *items;
    size_t room, count;
};

/* Has room for so many structs. */
static int make_room(struct asked *it, size_t room)
{
    void *items = realloc(it->items, room * it->numbers * sizeof(size_t));
    if (items == NULL)
        return 0;
    it->items = items;
    it->room = room;
    return 1;
}

/* Makes the list: a writer of its text. */
static uint32_t give(void *given, struct bytes text, size_t *length)
{
    struct asked *it = given;
    uint32_t status = it->list(it->given, text, length, it->items, it->room, &it->count);
    if (status != ODB_SMALL_BUFFER || it->count <= it->room || make_room(it, it->count))
        return status;
    *length = 0;
    return ODB_OUT_OF_MEMORY;
}

/* Makes the array of the numbers of a list, or returns NULL. */
static napi_value numbers_of(napi_env env, const struct asked *it)
{
    napi_value buffer, array;
    void *data = NULL;
    size_t length = it->count < it->room ? it->count * it->numbers : it->room * it->numbers;
    if (napi_create_arraybuffer(env, length * sizeof(double), &data, &buffer) != napi_ok
        || napi_create_typedarray(env, napi_float64_array, length, buffer, 0, &array) != napi_ok)
        return NULL;
    double *numbers = data;
    const size_t *found = it->items;
    for (size_t i = 0; i < length; i++)
        numbers[i] = found[i] == ODB_NONE ? -1 : (double)found[i];
    return array;
}

napi_value listed(napi_env env, lister *list, void *given, size_t size, size_t numbers)
{
    struct asked it = {list, given, numbers, NULL, 0, 0};
    size_t few = size / SHORTEST + 1;
    if (!make_room(&it, few < MOST ? few : MOST)) {
        napi_throw_error(env, "ERR_ODB_OUT_OF_MEMORY", "out of memory");
        return NULL;
    }
    napi_value found = written(env, give, &it, size + MORE);
    if (found != NULL) {
        napi_value all = numbers_of(env, &it);
        if (all == NULL || napi_set_element(env, found, 2, all) != napi_ok)
            found = NULL;
    }
    free(it.items);
    return found;
}

/* A document, and the seed of the instance. */
struct document {
    struct bytes bytes;
    uint64_t seed;
};

static uint32_t list_requests(void *given, struct bytes text, size_t *length, void *items, size_t room, size_t *count)
{
    const struct document *it = given;
    return odb_requests(it->bytes.at, it->bytes.size, text.at, text.size, length, items, room, count, it->seed);
}

static uint32_t list_faults(void *given, struct bytes text, size_t *length, void *items, size_t room, size_t *count)
{
    const struct document *it = given;
    return odb_faults(it->bytes.at, it->bytes.size, text.at, text.size, length, items, room, count, it->seed);
}

static uint32_t list_responses(void *given, struct bytes text, size_t *length, void *items, size_t room, size_t *count)
{
    const struct document *it = given;
    return odb_responses(it->bytes.at, it->bytes.size, text.at, text.size, length, items, room, count);
}

/* Makes a list of a document, of structs of so many numbers. */
static napi_value listed_of(napi_env env, napi_callback_info info, lister *list, size_t numbers)
{
    struct document given = {{NULL, 0}, instance_of(env)->seed};
    napi_value it[1];
    if (!read_arguments(env, info, it, 1) || !read_bytes(env, it[0], &given.bytes))
        return wrong_arguments(env);
    return listed(env, list, &given, given.bytes.size, numbers);
}

static napi_value requests(napi_env env, napi_callback_info info)
{
    return listed_of(env, info, list_requests, sizeof(odb_request) / sizeof(size_t));
}

static napi_value faults(napi_env env, napi_callback_info info)
{
    return listed_of(env, info, list_faults, sizeof(odb_fault) / sizeof(size_t));
}

static napi_value responses(napi_env env, napi_callback_info info)
{
    return listed_of(env, info, list_responses, sizeof(odb_response) / sizeof(size_t));
}

napi_status export_lists(napi_env env, napi_value exports)
{
    const napi_property_descriptor calls[] = {
        {"requests", NULL, requests, NULL, NULL, NULL, napi_enumerable, NULL},
        {"faults", NULL, faults, NULL, NULL, NULL, napi_enumerable, NULL},
        {"responses", NULL, responses, NULL, NULL, NULL, napi_enumerable, NULL},
    };
    return napi_define_properties(env, exports, sizeof calls / sizeof *calls, calls);
}
