/* Measures checks of a document: prints the text of one, and to standard error its processor time, in
 * microseconds.
 *
 *   speed FILE SECONDS */

#include "odb_batch.h"

#include <stdio.h>
#include <stdlib.h>
#include <time.h>

#define MOST_BYTES 16777216

static double spent(void)
{
    return (double)clock() / CLOCKS_PER_SEC;
}

int main(int count, char **words)
{
    uint8_t *document = malloc(MOST_BYTES), text[128];
    FILE *file = count == 3 ? fopen(words[1], "rb") : NULL;
    if (document == NULL || file == NULL)
        return 70;
    size_t size = fread(document, 1, MOST_BYTES, file), length;
    uint64_t seed = odb_seed();
    double limit = atof(words[2]), begun = spent();
    long calls = 0;
    do {
        if (odb_check(document, size, text, sizeof text, &length, seed) != ODB_DONE)
            return 1;
        calls++;
    } while (spent() - begun < limit);
    fprintf(stderr, "%.1f\n", (spent() - begun) / (double)calls * 1e6);
    fwrite(text, 1, length, stdout);
    fclose(file);
    free(document);
    return 0;
}
