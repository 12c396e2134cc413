/* Calls that write a text and a list of structs: to buffers of each size, and with too little memory. Buffers are blocks of
 * just their size, so that valgrind and the sanitizers see what goes beyond. */
#ifndef BUFFERS_H
#define BUFFERS_H

#include <stdlib.h>
#include <string.h>

#include "allocations.h"
#include "tries.h"

#define FILLING 0xa5

static inline void *filled(size_t size)
{
    void *block = malloc(size > 0 ? size : 1);
    if (block == NULL)
        exit(70);
    memset(block, FILLING, size);
    return block;
}

/* Whether all bytes are as they were before. */
static inline int is_unchanged(const void *at, size_t size)
{
    const unsigned char *bytes = at;
    for (size_t i = 0; i < size; i++)
        if (bytes[i] != FILLING)
            return 0;
    return 1;
}

/* What a call returns, and what it leaves in buffers of `room` bytes and `most` structs. */
struct answer {
    uint32_t status;
    char *text;
    void *items;
    size_t room, most, length, count;
};

/* A call, and what it has to do. */
struct listing {
    void *given;
    void (*ask)(void *given, struct answer *it);
    int (*is_right)(void *given, const struct answer *it, int is_done); /* `is_done` if text and list are written */
    size_t size;                                                          /* of a struct */
    size_t length, count;                                                 /* of the text and the list */
    uint32_t done;                                                        /* what is returned then */
};

/* Makes a call with buffers of these sizes. Returns whether it does what it has to. */
static inline int is_answered(const struct listing *of, struct answer *it, uint32_t wanted, size_t length, size_t count)
{
    int is_done = wanted == of->done;
    size_t text = is_done ? of->length : 0, items = is_done ? of->count : 0;
    return it->status == wanted && it->length == length && it->count == count && of->is_right(of->given, it, is_done)
        && is_unchanged(it->text + text, it->room - text)
        && is_unchanged((char *)it->items + items * of->size, (it->most - items) * of->size);
}

static inline struct answer buffers(const struct listing *of, size_t room, size_t most)
{
    struct answer it = {77, filled(room), filled(most * of->size), room, most, 77, 77};
    return it;
}

static inline void forget(struct answer it)
{
    free(it.items);
    free(it.text);
}

/* Makes a call with buffers of each size, of which only the last ones are large enough. */
static inline void try_sizes(const struct listing *of, long title)
{
    for (size_t room = 0; room <= of->length + 1; room++) {
        for (size_t most = 0; most <= of->count + 1; most++) {
            struct answer it = buffers(of, room, most);
            of->ask(of->given, &it);
            int fits = room >= of->length && most >= of->count;
            count("a size", title * 100000 + (long)(room * 10 + most),
                  is_answered(of, &it, fits ? of->done : (uint32_t)ODB_SMALL_BUFFER, of->length, of->count));
            forget(it);
        }
    }
}

/* Has each allocation of a call fail in turn. */
static inline void try_memory(const struct listing *of, long title)
{
    for (long after = 0;; after++) {
        struct answer it = buffers(of, of->length, of->count);
        refuse_after(after, 1);
        of->ask(of->given, &it);
        int has_failed = allow_all();
        count("memory", title * 100000 + after,
              has_failed ? is_answered(of, &it, ODB_OUT_OF_MEMORY, 0, 0) : is_answered(of, &it, of->done, of->length, of->count));
        forget(it);
        if (!has_failed)
            return;
    }
}

#endif
