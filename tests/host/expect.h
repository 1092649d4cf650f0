/* What a test of calls expects, for one file of each program. */
#ifndef TESTS_HOST_EXPECT_H
#define TESTS_HOST_EXPECT_H

#include <stdbool.h>
#include <stdio.h>

static int failures;

/* Counts and names what does not hold. */
static void expect(bool held, const char *what)
{
    if (!held) {
        printf("not as expected: %s\n", what);
        failures++;
    }
}

#endif
