#include "allocations.h"

#include <errno.h>
#include <stddef.h>

extern void *__real_malloc(size_t size);
extern void *__real_realloc(void *old, size_t size);
extern void __real_free(void *block);

long live_blocks;

static long left;
static int refuses, refuses_rest, has_refused;

/* What the C library has allocated before main is not counted. */
__attribute__((constructor)) static void begin(void)
{
    live_blocks = 0;
}

void refuse_after(long count, int rest)
{
    left = count;
    refuses = 1;
    refuses_rest = rest;
    has_refused = 0;
}

int allow_all(void)
{
    refuses = 0;
    return has_refused;
}

static int is_refused(void)
{
    if (!refuses)
        return 0;
    if (has_refused ? !refuses_rest : left-- > 0)
        return 0;
    has_refused = 1;
    errno = ENOMEM;
    return 1;
}

void *__wrap_malloc(size_t size)
{
    void *block = is_refused() ? NULL : __real_malloc(size);
    live_blocks += block != NULL;
    return block;
}

void *__wrap_realloc(void *old, size_t size)
{
    void *block = is_refused() ? NULL : __real_realloc(old, size);
    live_blocks += old == NULL && block != NULL;
    return block;
}

void __wrap_free(void *block)
{
    live_blocks -= block != NULL;
    __real_free(block);
}
