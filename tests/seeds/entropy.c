/* Gives the program that it is loaded into the bytes of a number, where it asks for random ones.
 *
 * Loaded by LD_PRELOAD. ENTROPY in the environment is the number; without it there are no bytes.
 * They are the eight of the number, the lowest first, and then zeros. */

#include <errno.h>
#include <stddef.h>
#include <stdint.h>
#include <stdlib.h>

int getentropy(void *buffer, size_t length)
{
    const char *text = getenv("ENTROPY");
    if (text == NULL) {
        errno = EIO;
        return -1;
    }
    uint64_t number = strtoull(text, NULL, 10);
    for (size_t i = 0; i < length; i++, number >>= 8)
        ((unsigned char *)buffer)[i] = number & 0xff;
    return 0;
}
