// What the models of disks and databases, and their tests, share.
#ifndef MODELS_H
#define MODELS_H

#include <stdint.h>
#include <stdio.h>
#include <stdlib.h>

// A random number below this one.
static inline uint32_t below_number(uint64_t *seed, uint32_t limit)
{
    *seed ^= *seed >> 12;
    *seed ^= *seed << 25;
    *seed ^= *seed >> 27;
    return (uint32_t)((*seed * UINT64_C(2685821657736338717) >> 32) * limit >> 32);
}

// Memory of the test's own. A test that refuses memory to a host wraps malloc, calloc and realloc, but
// not this call.
static inline void *resized(void *block, size_t size)
{
    void *fresh = reallocarray(block, 1, size + 1);
    if (fresh == NULL) {
        fputs("the test itself ran out of memory\n", stderr);
        exit(2);
    }
    return fresh;
}

#endif
