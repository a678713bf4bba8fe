/* What the tests share: answers are counted as right or wrong, and each wrong one is told with its place. */

#ifndef COMPARE_H
#define COMPARE_H

#include <stdint.h>
#include <stdio.h>
#include <string.h>

static int right = 0;
static int wrong = 0;

static void compare_at(const char *file, int line, const char *call, uint64_t found, uint64_t expected)
{
    if (found == expected) {
        right++;
    } else {
        wrong++;
        printf("%s:%d: %s is %llu, and not %llu\n", file, line, call, (unsigned long long)found, (unsigned long long)expected);
    }
}

#define compare(line, call, found, expected) compare_at(__FILE__, line, call, found, expected)
#define EXPECT(call, expected) compare(__LINE__, #call, (uint64_t)(call), expected)

#endif
