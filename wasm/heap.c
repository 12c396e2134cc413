/* The heap of the WebAssembly module: what the compiled crates call in place of malloc, realloc and free, and calls by
 * which the host gets room for documents and buffers.
 *
 * Blocks lie side by side, from `first` to the end mark at `last`. A block is a header, a word with its size in bytes and
 * two flags, and the payload. A free block has links to its neighbours in the list of its class after the header, and
 * its size once more in its last word, so that the block behind it finds its start (Knuth's boundary tags). Two free
 * blocks never lie side by side: they are joined at once. There are four classes for each power of two.
 *
 * Memory grows and never shrinks, as WebAssembly has it. Payloads are aligned to 16 bytes, and no alignment that is asked
 * for is greater. One thread calls. */

typedef unsigned long word;

_Static_assert(sizeof(word) == 8 && sizeof(void *) == 8, "a word is as wide as a pointer");

typedef struct block {
    word header;
    struct block *next, *previous; /* only in a free block */
} block;

#define IS_USED 1ul        /* of a header: the block is in use, */
#define AFTER_USED 2ul     /* and so is the one before it */
#define FLAGS 15ul
#define ALIGNMENT 16ul
#define LEAST_SIZE 32ul    /* of a block: a header, two links and the size */
#define MOST_BYTES (1ul << 40)
#define PAGE 65536ul
#define CLASSES 128
#define TRIES 16           /* how many blocks of a class are looked at */

#ifdef __wasm__
extern unsigned char __heap_base; /* defined by the linker: where the data ends */

static word memory_start(void)
{
    return (word)&__heap_base;
}

static word memory_end(void)
{
    return __builtin_wasm_memory_size(0) * PAGE;
}

static int grow_memory(word pages)
{
    return __builtin_wasm_memory_grow(0, pages) != ~0ul;
}
#else
word memory_start(void), memory_end(void);
int grow_memory(word pages);
#endif

static block *lists[CLASSES];
static word filled[CLASSES / 64]; /* a bit for each class: whether its list has a block */
static block *first, *last;       /* the first block and the end mark; NULL before there is memory */
static word used;                 /* bytes of blocks in use */

static word size_of(const block *it)
{
    return it->header & ~FLAGS;
}

static block *behind(block *it, word bytes)
{
    return (block *)((char *)it + bytes);
}

static block *block_after(block *it)
{
    return behind(it, size_of(it));
}

/* The word at the end of a free block, which has its size. */
static word *foot_of(block *it)
{
    return (word *)block_after(it) - 1;
}

static void *payload_of(block *it)
{
    return (word *)it + 1;
}

static block *block_of(void *payload)
{
    return (block *)((word *)payload - 1);
}

/* The class of a size: two bits below its highest one make four classes for each power of two. */
static int class_of(word size)
{
    int power = 63 - __builtin_clzl(size);
    int found = (power - 5) * 4 + (int)((size >> (power - 2)) & 3);
    return found < CLASSES ? found : CLASSES - 1;
}

/* Puts a free block in front of its list. */
static void put_in_list(block *it)
{
    int class = class_of(size_of(it));
    *foot_of(it) = size_of(it);
    it->previous = 0;
    it->next = lists[class];
    if (it->next)
        it->next->previous = it;
    lists[class] = it;
    filled[class / 64] |= 1ul << class % 64;
}

static void take_from_list(block *it)
{
    int class = class_of(size_of(it));
    if (it->next)
        it->next->previous = it->previous;
    if (it->previous)
        it->previous->next = it->next;
    else
        lists[class] = it->next;
    if (!lists[class])
        filled[class / 64] &= ~(1ul << class % 64);
}

/* Makes a free block of the bytes at a block, and joins it with the free blocks before and behind it. */
static void make_free(block *it, word bytes)
{
    block *next = behind(it, bytes);
    if (!(next->header & IS_USED)) {
        take_from_list(next);
        bytes += size_of(next);
    }
    if (!(it->header & AFTER_USED)) {
        word before = *((word *)it - 1);
        it = (block *)((char *)it - before);
        take_from_list(it);
        bytes += before;
    }
    it->header = bytes | (it->header & AFTER_USED);
    block_after(it)->header &= ~AFTER_USED;
    put_in_list(it);
}

/* Cuts a block in use down to a size, and frees the rest if that can be a block. */
static void cut(block *it, word size)
{
    word rest = size_of(it) - size;
    if (rest < LEAST_SIZE)
        return;
    it->header = size | (it->header & FLAGS);
    behind(it, size)->header = AFTER_USED;
    make_free(behind(it, size), rest);
}

/* Grows the memory until it ends at an address or later: by an eighth, or by what is missing alone. */
static int reach(word end)
{
    word now = memory_end();
    if (end <= now)
        return 1;
    word missing = (end - now + PAGE - 1) / PAGE, eighth = now / PAGE / 8;
    return (eighth > missing && grow_memory(eighth)) || grow_memory(missing);
}

/* Makes a free block of at least a size at the end mark, which moves behind it. Returns whether there was memory. */
static int extend(word size)
{
    /* A header lies 8 bytes before a multiple of 16. */
    word start = last ? (word)last : (memory_start() + ALIGNMENT + 7) / ALIGNMENT * ALIGNMENT - sizeof(word);
    if (!reach(start + size + sizeof(word)))
        return 0;
    block *it = (block *)start;
    if (!last) {
        first = it;
        it->header = AFTER_USED;
    }
    word bytes = (memory_end() - sizeof(word) - start) / ALIGNMENT * ALIGNMENT;
    last = behind(it, bytes);
    last->header = IS_USED;
    make_free(it, bytes);
    return 1;
}

/* A free block of at least a size, or NULL: one of the first of its class that fits, else the first of the next class. */
static block *find(word size)
{
    int class = class_of(size), tries = TRIES;
    for (block *it = lists[class]; it && tries; it = it->next, tries--)
        if (size_of(it) >= size)
            return it;
    while (++class < CLASSES) {
        word classes = filled[class / 64] >> class % 64;
        if (classes)
            return lists[class + __builtin_ctzl(classes)];
        class |= 63;
    }
    return 0;
}

/* The size of a block whose payload has so many bytes. */
static word block_size(word bytes)
{
    word size = (bytes + sizeof(word) + ALIGNMENT - 1) / ALIGNMENT * ALIGNMENT;
    return size < LEAST_SIZE ? LEAST_SIZE : size;
}

static void *allocate(word bytes)
{
    if (bytes > MOST_BYTES)
        return 0;
    word size = block_size(bytes);
    block *it = find(size);
    if (!it && extend(size))
        it = find(size);
    if (!it)
        return 0;
    take_from_list(it);
    it->header |= IS_USED;
    block_after(it)->header |= AFTER_USED;
    cut(it, size);
    used += size_of(it);
    return payload_of(it);
}

static void release(void *payload)
{
    block *it = block_of(payload);
    used -= size_of(it);
    make_free(it, size_of(it));
}

/* Joins a block in use with a free one behind it, if it gets a size so. */
static void widen(block *it, word size)
{
    block *next = block_after(it);
    if ((next->header & IS_USED) || size_of(it) + size_of(next) < size)
        return;
    take_from_list(next);
    it->header += size_of(next);
    block_after(it)->header |= AFTER_USED;
}

/* Gives a payload room for so many bytes, where it is or elsewhere; there it has the first `kept` bytes. */
static void *resize(void *payload, word kept, word bytes)
{
    block *it = block_of(payload);
    word size = block_size(bytes), old = size_of(it);
    if (bytes > MOST_BYTES)
        return 0;
    if (old < size)
        widen(it, size);
    if (size_of(it) >= size) {
        cut(it, size);
        used += size_of(it) - old;
        return payload;
    }
    void *moved = allocate(bytes);
    if (!moved)
        return 0;
    __builtin_memcpy(moved, payload, kept);
    release(payload);
    return moved;
}

/* What the compiled crates call: whether there was memory, and a pointer that is never NULL. */
typedef struct answer {
    word is_done; /* the caller reads a byte */
    void *payload;
} answer;

static _Alignas(ALIGNMENT) char nothing[ALIGNMENT];

static answer answer_of(void *payload)
{
    return (answer){payload != 0, payload ? payload : nothing};
}

answer rattle_alloc(word bytes, word alignment)
{
    (void)alignment;
    return answer_of(allocate(bytes));
}

answer rattle_realloc(void *payload, word kept, word bytes, word alignment)
{
    (void)alignment;
    return answer_of(resize(payload, kept, bytes));
}

void rattle_dealloc(void *payload)
{
    release(payload);
}

/* What the host calls. The attribute export_name would keep a table of functions too, so the assembler exports them. */
#ifdef __wasm__
#define EXPORTED(name) __asm__(".export_name " #name ", " #name);
#else
#define EXPORTED(name)
#endif

/* Returns the address of so many bytes, or NULL. */
EXPORTED(odb_allocate)
void *odb_allocate(word bytes)
{
    return allocate(bytes);
}

/* Frees what `odb_allocate` returned, which is not NULL. */
EXPORTED(odb_free)
void odb_free(void *payload)
{
    release(payload);
}

/* Returns how many bytes the blocks in use have. */
EXPORTED(odb_allocated)
word odb_allocated(void)
{
    return used;
}
