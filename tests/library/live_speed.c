/* Measures a live run of the batch in a document, whose ids are `r0` and so on, with all its calls: opens it,
 * looks for each request by its id, starts and reports it when it is ready, and writes the response. Prints the
 * response, and to standard error the processor time of it all, in milliseconds.
 *
 *   live_speed FILE */

#include "odb_batch.h"

#include <stdio.h>
#include <stdlib.h>
#include <time.h>

#define MOST_BYTES 16777216
#define MOST_REQUESTS 10000

static const uint8_t events[] = "{\"events\":[]}", body[] = "{\"Count\":1}";

/* Looks for the request whose id is `r` and its position, and starts it. */
static int is_started(odb_live_run *run, uint32_t position)
{
    char id[16];
    uint32_t found;
    int size = sprintf(id, "r%u", (unsigned)position);
    return odb_run_position(run, (const uint8_t *)id, (size_t)size, &found) == ODB_DONE && found == position
        && odb_run_start(run, position) == ODB_DONE;
}

/* Starts all that is ready, reports all that runs, and so on to the end. */
static int is_driven(odb_live_run *run)
{
    static uint32_t positions[MOST_REQUESTS];
    size_t count;
    while (!odb_run_finished(run)) {
        if (odb_run_ready(run, positions, MOST_REQUESTS, &count) != ODB_DONE || count == 0)
            return 0;
        for (size_t at = 0; at < count; at++)
            if (!is_started(run, positions[at]))
                return 0;
        for (size_t at = 0; at < count; at++)
            if (odb_run_report(run, positions[at], 200, NULL, 0, body, sizeof body - 1) != ODB_DONE)
                return 0;
    }
    return 1;
}

int main(int count, char **words)
{
    uint8_t *document = malloc(MOST_BYTES), *text = malloc(MOST_BYTES);
    FILE *file = count == 2 ? fopen(words[1], "rb") : NULL;
    if (document == NULL || text == NULL || file == NULL)
        return 70;
    size_t size = fread(document, 1, MOST_BYTES, file), length;
    fclose(file);
    odb_live_run run;
    clock_t begun = clock();
    if (odb_run_open(document, size, events, sizeof events - 1, ODB_CONTINUE, ODB_MAX_WIDTH, &run,
                     text, MOST_BYTES, &length, odb_seed()) != ODB_DONE)
        return 1;
    int is_done = is_driven(&run) && odb_run_response(&run, text, MOST_BYTES, &length) == ODB_DONE;
    odb_run_close(run);
    fprintf(stderr, "%.1f\n", (double)(clock() - begun) / CLOCKS_PER_SEC * 1e3);
    if (is_done)
        fwrite(text, 1, length, stdout);
    free(document);
    free(text);
    return !is_done;
}
