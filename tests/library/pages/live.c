/* A program around the live run of docs/embedding.md, which is in run.inc. */

#include <odb_batch.h>
#include <stdio.h>
#include <string.h>

int main(void)
{
    static const char requests[] = "{\"requests\":[{\"id\":\"a\",\"method\":\"get\",\"url\":\"Books\"}]}";
    static const char none[] = "{\"events\":[]}";
    const uint8_t *batch = (const uint8_t *)requests, *events = (const uint8_t *)none;
    size_t batch_size = strlen(requests), events_size = strlen(none);
    uint64_t seed = odb_seed();
    uint8_t text[128];
#include "run.inc"
    printf("%.*s", (int)length, (const char *)text);
    return (int)status;
}
