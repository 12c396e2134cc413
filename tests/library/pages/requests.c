/* A program around what is to be sent in docs/embedding.md, which is in requests.inc. */

#include <odb_batch.h>
#include <stdio.h>
#include <string.h>

int main(void)
{
    static const char document[] = "{\"requests\":[{\"id\":\"a\",\"method\":\"post\",\"url\":\"Orders\",\"body\":9.990}]}";
    const uint8_t *batch = (const uint8_t *)document;
    size_t batch_size = strlen(document), length, count;
    uint64_t seed = odb_seed();
    uint8_t text[128];
#include "requests.inc"
    return 0;
}
