/* The allocator of the compiled crates over that of the C library, for systems for which the toolchain has none compiled. */

#include <stdbool.h>
#include <stddef.h>
#include <stdlib.h>

/* The crates take an answer in two registers. C for Windows returns it in memory, unless it calls as Linux does. */
#ifdef _WIN32
#define AS_ON_LINUX __attribute__((sysv_abi))
#else
#define AS_ON_LINUX
#endif

/* Whether there was memory, and a pointer that is never NULL. */
typedef struct answer {
    bool is_done;
    void *at;
} answer;

static max_align_t nothing;

static answer answer_of(void *at)
{
    return (answer){at != NULL, at != NULL ? at : &nothing};
}

/* No alignment that is asked for is greater than that of malloc. */
AS_ON_LINUX answer rattle_alloc(size_t bytes, size_t alignment)
{
    return answer_of(malloc(bytes != 0 ? bytes : alignment));
}

AS_ON_LINUX answer rattle_realloc(void *at, size_t kept, size_t bytes, size_t alignment)
{
    (void)kept;
    return answer_of(realloc(at, bytes != 0 ? bytes : alignment));
}

AS_ON_LINUX void rattle_dealloc(void *at)
{
    free(at);
}
