/* What the programs that test the header share: a count of what is not as expected, and the bits of a float. */
#ifndef KLAVERDOMP_TESTS_EXPECT_H
#define KLAVERDOMP_TESTS_EXPECT_H

#include <stdint.h>
#include <stdio.h>
#include <string.h>

static int failures = 0;

static void expect(int holds, const char *what)
{
    if (!holds) {
        failures++;
        printf("FAILED: %s\n", what);
    }
}

static uint32_t bits(float x)
{
    uint32_t b;
    memcpy(&b, &x, sizeof b);
    return b;
}

#endif
