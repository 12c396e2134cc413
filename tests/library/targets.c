/* Tries the call that says where a request is sent.
 *
 * The last line that it prints is `N tries, M wrong`; a wrong one is shown before it. Texts are blocks of just their
 * size, so that valgrind and the sanitizers see what goes beyond. */

#include "odb_batch.h"

#include "allocations.h"
#include "tries.h"

#include <stdlib.h>
#include <string.h>

#define FILLING 0xa5
#define ROOM 256
#define BASE "http://host/odata/"
#define ROOTS BASE "\nhttps://other/v4/"

/* What is asked of a request, and the URL to which it is sent, or the status if it is not. */
static const struct trial {
    const char *roots, *url, *sent, *location;
    uint32_t post;
    const char *target;
    uint32_t status;
} trials[] = {
    {ROOTS, "Books", "", "", 0, BASE "Books", ODB_DONE},
    {ROOTS, "Books('a b')?$top=1#x", NULL, NULL, 0, BASE "Books('a%20b')?$top=1", ODB_DONE},
    {ROOTS, "http://HOST:80/odata/Books", "", "", 0, BASE "Books", ODB_DONE},
    {ROOTS, "https://other:443/v4/Loans", "", "", 0, "https://other/v4/Loans", ODB_DONE},
    {ROOTS, "", "", "", 0, BASE, ODB_DONE},
    {ROOTS, "../admin", "", "", 0, NULL, ODB_OUTSIDE},
    {ROOTS, "%252e%252e/admin", "", "", 0, NULL, ODB_OUTSIDE},
    {ROOTS, "http://evil/odata/Books", "", "", 0, NULL, ODB_OUTSIDE},
    {ROOTS, "Books\n", "", "", 0, NULL, ODB_UNREADABLE},
    {ROOTS, "Books\xff", "", "", 0, NULL, ODB_UNREADABLE},
    {BASE "\n\xff", "Books", "", "", 0, NULL, ODB_UNREADABLE},
    {"", "Books", "", "", 0, NULL, ODB_OUTSIDE},
    {NULL, "Books", "", "", 0, NULL, ODB_OUTSIDE},
    {"http://host/odata", "Books", "", "", 0, NULL, ODB_OUTSIDE},
    {ROOTS, "/Lines", BASE "Books", "Books(1)", 1, BASE "Books(1)/Lines", ODB_DONE},
    {ROOTS, "/Lines", BASE "Books", "https://other/v4/Books(1)/", 1, "https://other/v4/Books(1)/Lines", ODB_DONE},
    {ROOTS, "/Lines", BASE "Books(1)?x=1", "", 0, BASE "Books(1)/Lines", ODB_DONE},
    {ROOTS, "", BASE "Books(1)", NULL, 0, BASE "Books(1)", ODB_DONE},
    {ROOTS, "/Lines", BASE "Books", "", 1, NULL, ODB_NO_LOCATION},
    {ROOTS, "/Lines", BASE "Books", "http://evil/Books(1)", 1, NULL, ODB_OUTSIDE},
    {ROOTS, "/../Loans", BASE "Books", "Books(1)", 1, NULL, ODB_OUTSIDE},
    {ROOTS, "Lines", BASE "Books", "Books(1)", 1, NULL, ODB_UNREADABLE},
};

/* A text in a block of just its size; none for NULL. */
struct block {
    uint8_t *at;
    size_t size;
};

static struct block block_of(const char *text)
{
    struct block it = {NULL, text == NULL ? 0 : strlen(text)};
    if (text == NULL)
        return it;
    it.at = malloc(it.size > 0 ? it.size : 1);
    if (it.at == NULL)
        exit(70);
    memcpy(it.at, text, it.size);
    return it;
}

/* Whether all bytes are as they were before. */
static int is_unchanged(const uint8_t *at, size_t size)
{
    for (size_t i = 0; i < size; i++)
        if (at[i] != FILLING)
            return 0;
    return 1;
}

/* Asks for a target, with a buffer of this size or without one. */
static uint32_t ask(const struct trial *of, uint8_t *text, size_t room, size_t *length)
{
    struct block base = block_of(BASE), roots = block_of(of->roots), url = block_of(of->url), sent = block_of(of->sent),
                 location = block_of(of->location);
    uint32_t status = odb_resolve(base.at, base.size, roots.at, roots.size, url.at, url.size, sent.at, sent.size,
                                  location.at, location.size, of->post, text, room, length);
    free(base.at);
    free(roots.at);
    free(url.at);
    free(sent.at);
    free(location.at);
    return status;
}

/* Asks with buffers of each size. */
static void try_sizes(const struct trial *of, long title)
{
    size_t whole = of->target == NULL ? 0 : strlen(of->target);
    for (size_t room = 0; room <= whole + 1; room++) {
        struct block text = {malloc(room > 0 ? room : 1), room};
        size_t length = 77;
        if (text.at == NULL)
            exit(70);
        memset(text.at, FILLING, room);
        uint32_t status = ask(of, text.at, room, &length);
        int fits = room >= whole;
        int right = status == (of->target != NULL && !fits ? (uint32_t)ODB_SMALL_BUFFER : of->status) && length == whole;
        if (right && fits && whole > 0)
            right = memcmp(text.at, of->target, whole) == 0;
        right = right && is_unchanged(text.at + (fits ? whole : 0), fits ? room - whole : room);
        count(of->url, title * 1000 + (long)room, right);
        free(text.at);
    }
    size_t length = 77;
    uint32_t status = ask(of, NULL, 9, &length);
    count("no buffer", title, status == (whole > 0 ? (uint32_t)ODB_SMALL_BUFFER : of->status) && length == whole);
}

/* Has each allocation fail in turn. */
static void try_memory(const struct trial *of, long title)
{
    static uint8_t text[ROOM];
    for (long after = 0;; after++) {
        size_t length = 77;
        refuse_after(after, 1);
        uint32_t status = odb_resolve((const uint8_t *)BASE, strlen(BASE), (const uint8_t *)of->roots, of->roots ? strlen(of->roots) : 0,
                                      (const uint8_t *)of->url, strlen(of->url), (const uint8_t *)of->sent, of->sent ? strlen(of->sent) : 0,
                                      (const uint8_t *)of->location, of->location ? strlen(of->location) : 0, of->post,
                                      text, ROOM, &length);
        if (!allow_all()) {
            count("with all memory", title, status == of->status);
            return;
        }
        count("without memory", after, status == ODB_OUT_OF_MEMORY && length == 0);
    }
}

int main(void)
{
    for (size_t at = 0; at < sizeof trials / sizeof *trials; at++) {
        try_sizes(&trials[at], (long)at);
        try_memory(&trials[at], (long)at);
    }
    return ended();
}
