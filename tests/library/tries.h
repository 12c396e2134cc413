/* Counts what a program tries, and what is wrong of it. */
#ifndef TRIES_H
#define TRIES_H

#include <stdio.h>

#include "allocations.h"

static long tries, wrong;

/* Counts a try, and shows it if it is wrong; `at` distinguishes those of a title. */
static void count(const char *title, long at, int is_right)
{
    tries++;
    if (is_right)
        return;
    wrong++;
    printf("%s: %ld is wrong\n", title, at);
}

/* Prints the last line, and returns the status of the program: 0 if nothing is wrong, and each block is freed. */
static int ended(void)
{
    if (live_blocks != 0) {
        printf("%ld blocks are not freed\n", live_blocks);
        wrong++;
    }
    printf("%ld tries, %ld wrong\n", tries, wrong);
    return wrong != 0;
}

#endif
