// What the tests of the host share: checks that are counted, and their last line.
#ifndef CHECK_H
#define CHECK_H

#include <stdatomic.h>
#include <stdbool.h>
#include <stdio.h>

enum { SHOWN = 20 }; // more failures than these aren't printed

static atomic_ulong passed, failed;

static inline void check(bool holds, const char *text, const char *file, int line)
{
    if (holds) {
        passed++;
    } else if (failed++ < SHOWN) {
        printf("FAILED: %s:%d: %s\n", file, line, text);
    }
}

#define HOLDS(condition) check((condition), #condition, __FILE__, __LINE__)

// A test of a program, whose `main` runs all of them, from its first line to its last one.
#define TEST(name) \
    static void name(void); \
    __attribute__((constructor(1000 + __LINE__))) static void add_##name(void) \
    { \
        tests[test_count++] = name; \
    } \
    static void name(void)

static void (*tests[100])(void);
static int test_count;

static inline void run_tests(void)
{
    for (int i = 0; i < test_count; i++) {
        tests[i]();
    }
}

// Prints the line that counts, and returns the program's status.
static inline int report_checks(void)
{
    printf("%lu passed, %lu failed\n", passed, failed);
    fflush(stdout);
    return failed != 0 || passed == 0;
}

#endif
