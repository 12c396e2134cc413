/* Finds all faults of a document once, without where they are (`check`) or with it (`faults`), and prints how many lines are
 * written. Instructions are counted from outside.
 *
 *   faults_speed FILE check|faults */

#include "odb_batch.h"

#include <stdio.h>
#include <stdlib.h>
#include <string.h>

#define MOST_BYTES 16777216
#define MOST_FAULTS 100000

int main(int count, char **words)
{
    uint8_t *document = malloc(MOST_BYTES), *text = malloc(MOST_BYTES);
    odb_fault *faults = malloc(MOST_FAULTS * sizeof *faults);
    FILE *file = count == 3 ? fopen(words[1], "rb") : NULL;
    if (document == NULL || text == NULL || faults == NULL || file == NULL)
        return 70;
    size_t size = fread(document, 1, MOST_BYTES, file), length = 0, found = 0;
    uint32_t status = strcmp(words[2], "check") == 0
        ? odb_check_all(document, size, text, MOST_BYTES, &length, 7)
        : odb_faults(document, size, text, MOST_BYTES, &length, faults, MOST_FAULTS, &found, 7);
    for (size_t i = found = 0; i < length; i++)
        found += text[i] == '\n';
    printf("%zu\n", found);
    fclose(file);
    free(faults);
    free(text);
    free(document);
    return status != ODB_REFUSED;
}
