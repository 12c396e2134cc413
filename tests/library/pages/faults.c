/* A program around what docs/embedding.md shows of faults, which is in faults.inc. */

#include <odb_batch.h>
#include <stdio.h>
#include <string.h>

int main(void)
{
    static const char document[] = "{\"requests\":[7,\n7,7 , {\"id\":\"a\",\"method\":\"get\",\"url\":\"A\"}]}";
    const uint8_t *batch = (const uint8_t *)document;
    size_t batch_size = strlen(document), length, count;
    uint64_t seed = odb_seed();
    uint8_t text[256];
#include "faults.inc"
    return 0;
}
