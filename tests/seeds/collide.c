// Prints COUNT names whose hashes begin with HIGH zero bits and end in LOW ones:
//
//     collide COUNT LOW HIGH [SEED]
//
// They crowd a hash table that has this seed, or none: it looks up a name in the slots that the low
// bits of its hash pick, so all these names are looked for one after another; and it compares the
// name with those there whose hashes begin with the same bits. The hasher is that of the toolchain's
// tables, in its first state or once it has read the seed: it multiplies the state and the text to
// 128 bits and joins the halves, once for the text and once for the byte that ends it.
#include <stdint.h>
#include <stdio.h>
#include <stdlib.h>

enum { LENGTH = 8, HASH_BITS = 32 };

static const uint64_t FIRST_STATE = 0x243f6a8885a308d3;
static const uint64_t FACTOR = 0x9e3779b97f4a7c15;
static const char LETTERS[] = "abcdefghijklmnopqrstuvwxyz0123456789-_~.ABCDEFGHIJKLMNOPQRSTUVWX";

// The name with this number, as the 8 bytes of one little-endian word.
static uint64_t name_of(uint64_t number) {
    uint64_t word = 0;
    for (int i = 0; i < LENGTH; i++) word |= (uint64_t)LETTERS[(number >> (6 * i)) % 64] << (8 * i);
    return word;
}

static uint64_t mixed(uint64_t state, uint64_t input, uint64_t length) {
    unsigned __int128 product = (unsigned __int128)(state ^ input) * (FACTOR ^ (2 * length));
    return (uint64_t)product ^ (uint64_t)(product >> 64);
}

static uint32_t hash_of(uint64_t start, uint64_t name) {
    uint64_t state = mixed(mixed(start, name, LENGTH), 0xffffff, 1);
    return (uint32_t)(state ^ (state >> 32));
}

int main(int count, char **words) {
    if (count != 4 && count != 5) return 2;
    long wanted = atol(words[1]);
    uint32_t low = ((uint32_t)1 << atoi(words[2])) - 1;
    uint32_t mask = low | ~(uint32_t)(((uint64_t)1 << (HASH_BITS - atoi(words[3]))) - 1);
    uint64_t start = count == 5 ? mixed(FIRST_STATE, strtoull(words[4], NULL, 10), sizeof start) : FIRST_STATE;
    for (uint64_t number = 0; wanted > 0; number++) {
        uint64_t name = name_of(number);
        if ((hash_of(start, name) & mask) == 0) {
            fwrite(&name, 1, LENGTH, stdout);
            putchar('\n');
            wanted--;
        }
    }
    return 0;
}
