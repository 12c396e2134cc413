/* Counts the blocks of memory that a program has, and lets allocations fail. The program is linked with
 * -Wl,--wrap=malloc,--wrap=realloc,--wrap=free and the static library, so that this sees each call of
 * both. */
#ifndef ALLOCATIONS_H
#define ALLOCATIONS_H

/* The number of blocks that were allocated and not freed. */
extern long live_blocks;

/* Lets the allocation after the next `count` ones fail, and all later ones too if `rest` is set. */
void refuse_after(long count, int rest);

/* Lets no further allocation fail. Returns whether one has failed. */
int allow_all(void);

#endif
