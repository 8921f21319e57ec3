// An allocator that refuses a request. The linker puts it in place of that of libc:
// -Wl,--wrap=malloc,--wrap=calloc,--wrap=realloc
#ifndef REFUSE_H
#define REFUSE_H

#include <stddef.h>

void *__real_malloc(size_t size);
void *__real_calloc(size_t count, size_t size);
void *__real_realloc(void *old, size_t size);
void *__wrap_malloc(size_t size);
void *__wrap_calloc(size_t count, size_t size);
void *__wrap_realloc(void *old, size_t size);

// Requests are counted and refused only within calls of the library. The one with the number
// `refused_one` is refused; none if that is 0. `largest` is how many bytes one has asked for.
static int within;
static unsigned long requests, refused_one;
static size_t largest;

static int refuses(size_t size)
{
    largest = within && size > largest ? size : largest;
    return within && ++requests == refused_one;
}

void *__wrap_malloc(size_t size)
{
    return refuses(size) ? NULL : __real_malloc(size);
}

void *__wrap_calloc(size_t count, size_t size)
{
    return refuses(count * size) ? NULL : __real_calloc(count, size);
}

void *__wrap_realloc(void *old, size_t size)
{
    return refuses(size) ? NULL : __real_realloc(old, size);
}

#endif
