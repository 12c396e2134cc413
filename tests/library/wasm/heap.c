/* Tests the heap of the WebAssembly module natively: random calls over a memory that may refuse to grow.
 *
 *   heap STEPS SEED
 *
 * Each block is filled and compared before it is changed. At times all blocks are walked: their headers, sizes and lists
 * have to agree with the blocks in use. A call that is refused has to leave all as it was. In the end everything is
 * freed, and the memory has to be one free block. */

#define _GNU_SOURCE

#include <stdio.h>
#include <stdlib.h>
#include <string.h>
#include <sys/mman.h>

#include "../../../wasm/heap.c"

#define MOST_MEMORY (1ul << 28)
#define BLOCKS 3000
#define WALK_EVERY 2000

static char *memory;
static word memory_size = 3 * PAGE, memory_limit = MOST_MEMORY, refused_growths;

/* Not a multiple of 16, as a linker may have it. */
word memory_start(void)
{
    return (word)memory + 24;
}

word memory_end(void)
{
    return (word)memory + memory_size;
}

int grow_memory(word pages)
{
    if (pages > (memory_limit - memory_size) / PAGE) {
        refused_growths++;
        return 0;
    }
    memory_size += pages * PAGE;
    return 1;
}

/* A block that the test has. */
static struct {
    unsigned char *payload;
    word bytes;
    unsigned char fill;
} blocks[BLOCKS];

static word random_state;

/* A number below a limit, by xorshift. */
static word below(word limit)
{
    random_state ^= random_state << 13;
    random_state ^= random_state >> 7;
    random_state ^= random_state << 17;
    return random_state % limit;
}

static void require(int holds, const char *what)
{
    if (holds)
        return;
    fprintf(stderr, "heap: %s\n", what);
    exit(1);
}

/* How many free blocks are in the lists; each has to be in the list of its class. */
static word listed_blocks(void)
{
    word count = 0;
    for (int class = 0; class < CLASSES; class++) {
        int is_filled = (int)(filled[class / 64] >> class % 64 & 1);
        require(is_filled == (lists[class] != 0), "the bit of a class is wrong");
        for (block *it = lists[class], *before = 0; it; before = it, it = it->next, count++) {
            require(class_of(size_of(it)) == class, "a block is in the list of another class");
            require(it->previous == before, "a link is wrong");
        }
    }
    return count;
}

/* Walks all blocks, and returns how many are free. */
static word walk(void)
{
    word in_use = 0, free_blocks = 0, was_used = AFTER_USED;
    block *it = first;
    for (; it != last; it = block_after(it)) {
        require(size_of(it) >= LEAST_SIZE && it < last, "a size is wrong");
        require((word)payload_of(it) % ALIGNMENT == 0, "a payload is not aligned");
        require((it->header & AFTER_USED) == was_used, "the flag of the block before is wrong");
        if (it->header & IS_USED) {
            in_use += size_of(it);
        } else {
            require(was_used && *foot_of(it) == size_of(it), "a free block is not joined, or its last word is wrong");
            free_blocks++;
        }
        was_used = it->header & IS_USED ? AFTER_USED : 0;
    }
    require((last->header & AFTER_USED) == was_used && size_of(last) == 0, "the end mark is wrong");
    require(in_use == odb_allocated(), "the bytes in use are counted wrong");
    require(free_blocks == listed_blocks(), "a free block is in no list");
    return free_blocks;
}

/* All bytes are the same if the first is right and each has its neighbour's value. */
static void compare(int i, word bytes)
{
    const unsigned char *payload = blocks[i].payload;
    require(bytes == 0 || (payload[0] == blocks[i].fill && memcmp(payload, payload + 1, bytes - 1) == 0),
            "a payload has changed");
}

static void fill(int i, void *payload, word bytes)
{
    blocks[i].payload = payload;
    blocks[i].bytes = bytes;
    blocks[i].fill = (unsigned char)below(256);
    memset(payload, blocks[i].fill, bytes);
}

/* Mostly a small size, at times one of many pages, and seldom one that no memory has. */
static word any_size(void)
{
    switch (below(2000)) {
    case 0:
        return below(1 << 22);
    case 1:
        return (word)-1 - below(64);
    case 2:
    case 3:
        return 0;
    case 4:
    case 5:
    case 6:
    case 7:
        return below(20000);
    default:
        return below(300);
    }
}

/* Does one call on one block; returns whether it was refused. */
static int step(void)
{
    int i = (int)below(BLOCKS);
    word bytes = any_size(), was = odb_allocated();
    if (!blocks[i].payload) {
        answer found = rattle_alloc(bytes, 8);
        if (found.is_done)
            fill(i, found.payload, bytes);
        else
            require(odb_allocated() == was && found.payload != 0, "a refused call has changed something");
        return !found.is_done;
    }
    compare(i, blocks[i].bytes);
    if (below(2)) {
        rattle_dealloc(blocks[i].payload);
        blocks[i].payload = 0;
        return 0;
    }
    word kept = blocks[i].bytes < bytes ? blocks[i].bytes : bytes;
    answer found = rattle_realloc(blocks[i].payload, kept, bytes, 8);
    if (!found.is_done) {
        require(odb_allocated() == was, "a refused call has changed something");
        compare(i, blocks[i].bytes);
        return 1;
    }
    blocks[i].payload = found.payload;
    compare(i, kept);
    fill(i, found.payload, bytes);
    return 0;
}

int main(int count, char **arguments)
{
    require(count == 3, "usage: heap STEPS SEED");
    word steps = strtoul(arguments[1], NULL, 10), refused = 0;
    random_state = strtoul(arguments[2], NULL, 10) * 2 + 1;
    memory = mmap(NULL, MOST_MEMORY, PROT_READ | PROT_WRITE, MAP_PRIVATE | MAP_ANONYMOUS | MAP_NORESERVE, -1, 0);
    require(memory != MAP_FAILED, "no memory");
    for (word i = 0; i < steps; i++) {
        refused += (word)step();
        if (i % WALK_EVERY == 0 && first)
            walk();
        /* From half of the steps on the memory may grow now and then alone. */
        if (i > steps / 2)
            memory_limit = below(4000) ? memory_size : memory_size + below(64) * PAGE;
        if (memory_limit > MOST_MEMORY)
            memory_limit = MOST_MEMORY;
    }
    for (int i = 0; i < BLOCKS; i++) {
        if (!blocks[i].payload)
            continue;
        compare(i, blocks[i].bytes);
        rattle_dealloc(blocks[i].payload);
    }
    require(walk() == 1 && odb_allocated() == 0, "something is left");
    require(refused_growths > 0 && refused > 0, "no growth was refused");
    printf("%lu calls, %lu refused, %lu bytes of memory\n", steps, refused, memory_size);
    return 0;
}
