/*
 * The counting of checks, for the C program.
 */
#ifndef BEND_TESTS_CHECK_H
#define BEND_TESTS_CHECK_H

#include <stdio.h>

static int passed;
static int failed;

static void check(const char *name, int holds)
{
    if (holds) {
        passed++;
    } else {
        failed++;
        printf("FAILED %s\n", name);
    }
}

#endif
