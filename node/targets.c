/* Where a request is sent, for Node.
 *
 *   resolve(base, roots, url, sent, location) -> URL or status
 *
 * All are Uint8Arrays, as `odb_resolve` has them; that a POST was answered with what it has created is for the caller to see.
 * The URL is a string. http/targets.js makes the call of it. */

#include <stdlib.h>

#include "addon.h"

#define TEXTS 5
#define ROOM 1024 /* for a URL of usual length */

/* Calls the library with texts. */
static uint32_t make(const struct bytes *it, struct bytes text, size_t *length)
{
    return odb_resolve(it[0].at, it[0].size, it[1].at, it[1].size, it[2].at, it[2].size, it[3].at, it[3].size,
                       it[4].at, it[4].size, 0, text.at, text.size, length);
}

/* Makes the URL that lies there, or the status if it is not done; returns NULL if that cannot be made. */
static napi_value url_of(napi_env env, uint32_t status, const uint8_t *text, size_t length)
{
    napi_value it;
    napi_status made = status == ODB_DONE ? napi_create_string_latin1(env, (const char *)text, length, &it)
                                          : napi_create_uint32(env, status, &it);
    return made == napi_ok ? it : NULL;
}

static napi_value resolve(napi_env env, napi_callback_info info)
{
    struct bytes texts[TEXTS];
    napi_value it[TEXTS];
    uint8_t few[ROOM];
    size_t length = 0;
    if (!read_arguments(env, info, it, TEXTS))
        return wrong_arguments(env);
    for (size_t i = 0; i < TEXTS; i++)
        if (!read_bytes(env, it[i], &texts[i]))
            return wrong_arguments(env);
    struct bytes text = {few, ROOM};
    uint32_t status = make(texts, text, &length);
    if (status != ODB_SMALL_BUFFER)
        return url_of(env, status, few, length);
    text.at = malloc(length);
    text.size = length;
    status = text.at == NULL ? (uint32_t)ODB_OUT_OF_MEMORY : make(texts, text, &length);
    napi_value url = url_of(env, status, text.at, length);
    free(text.at);
    return url;
}

napi_status export_targets(napi_env env, napi_value exports)
{
    napi_value function;
    napi_status status = napi_create_function(env, "resolve", NAPI_AUTO_LENGTH, resolve, NULL, &function);
    return status == napi_ok ? napi_set_named_property(env, exports, "resolve", function) : status;
}
