/* What the program calls beside the C library, for a Linux for which the toolchain has it not compiled. */

#include <errno.h>
#include <string.h>
#include <sys/types.h>

static int word_count;
static char **words;

/* The C library calls this before main, with what it passes main. */
__attribute__((constructor)) static void keep_words(int count, char **given)
{
    word_count = count;
    words = given;
}

/* Puts an argument at the start of a buffer. Returns its length, -1 if there is none, or -2 if it does not fit. */
ssize_t rattle_arg(size_t at, unsigned char *buffer, size_t size)
{
    if (at >= (size_t)word_count)
        return -1;
    size_t length = strlen(words[at]);
    memcpy(buffer, words[at], length < size ? length : size);
    return length <= size ? (ssize_t)length : -2;
}

int rattle_errno(void)
{
    return errno;
}

void rattle_set_errno(int error)
{
    errno = error;
}
