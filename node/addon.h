/* What the files of the addon share. */

#ifndef ODB_BATCH_ADDON_H
#define ODB_BATCH_ADDON_H

#include <node_api.h>

#include "../include/odb_batch.h"

struct bytes {
    uint8_t *at;
    size_t size;
};

struct live;

/* What an instance of the addon keeps, until it and all of its runs are freed. */
struct instance {
    uint64_t seed;
    size_t users;       /* the instance itself, and the runs that are not freed */
    struct live *lives; /* the open runs */
    size_t open;        /* how many they are */
    size_t opened;      /* how many were opened since forgotten ones were looked for, and */
    size_t kept;        /* how many were open then */
};

/* Returns the instance of the thread. */
struct instance *instance_of(napi_env env);

/* Takes a user from an instance, and frees it with the last one. */
void release_instance(struct instance *it);

/* Reads the arguments of a call, which have to be so many. Returns whether they are. */
int read_arguments(napi_env env, napi_callback_info info, napi_value *arguments, size_t wanted);

/* Reads a Uint8Array. Returns whether it is one. */
int read_bytes(napi_env env, napi_value value, struct bytes *found);

/* A call that writes a text to a buffer, and the length of the text; returns its status. */
typedef uint32_t writer(void *given, struct bytes buffer, size_t *length);

/* Has a call write its text, once more if that did not fit. `size` is a guess of how long it is. Returns the
 * pair of status and text, or NULL with an exception. */
napi_value written(napi_env env, writer *write, void *given, size_t size);

/* A call that writes a text, and a list of structs to a buffer of `room` structs; returns its status. */
typedef uint32_t lister(void *given, struct bytes text, size_t *length, void *items, size_t room, size_t *count);

/* Has a call list what a document of `size` bytes has, in structs of so many numbers. Returns the status, the text and the
 * numbers, or NULL with an exception. */
napi_value listed(napi_env env, lister *list, void *given, size_t size, size_t numbers);

/* Throws the exception for arguments of the wrong kind, and returns NULL. */
napi_value wrong_arguments(napi_env env);

/* Adds the calls for what a document has to the exports. */
napi_status export_lists(napi_env env, napi_value exports);

/* Adds the call for where a request is sent to the exports. */
napi_status export_targets(napi_env env, napi_value exports);

/* Adds the calls of live runs to the exports. */
napi_status export_runs(napi_env env, napi_value exports);

#endif
