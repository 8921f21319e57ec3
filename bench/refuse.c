/* Wraps the C library's allocator, and makes allocations of a program's first thread fail: the one numbered $REFUSE, counted
 * from 1, or with $REFUSE_ALL that one and all later ones. When the program ends, the number of requests is written to the
 * file $REQUESTS. It is loaded with LD_PRELOAD, as tests/memory does. */
#define _GNU_SOURCE
#include <errno.h>
#include <fcntl.h>
#include <pthread.h>
#include <stdio.h>
#include <stdlib.h>
#include <sys/syscall.h>
#include <unistd.h>

extern void *__libc_malloc(size_t size);
extern void *__libc_calloc(size_t count, size_t size);
extern void *__libc_realloc(void *old, size_t size);
extern void *__libc_memalign(size_t align, size_t size);

static unsigned long requests, refused;
static int all;
static pthread_t first;

__attribute__((constructor)) static void begin(void) {
    const char *number = getenv("REFUSE");
    refused = number ? strtoul(number, NULL, 10) : 0;
    all = getenv("REFUSE_ALL") != NULL;
    requests = 0;
    first = pthread_self();
}

/* Whether this request fails. Requests of other threads come in any order, so they aren't counted and never fail. */
static int refuses(void) {
    if (!pthread_equal(pthread_self(), first)) return 0;
    requests++;
    if (!refused || (all ? requests < refused : requests != refused)) return 0;
    errno = ENOMEM;
    return 1;
}

void *malloc(size_t size) { return refuses() ? NULL : __libc_malloc(size); }

void *calloc(size_t count, size_t size) { return refuses() ? NULL : __libc_calloc(count, size); }

void *realloc(void *old, size_t size) { return refuses() ? NULL : __libc_realloc(old, size); }

void *memalign(size_t align, size_t size) { return refuses() ? NULL : __libc_memalign(align, size); }

void *aligned_alloc(size_t align, size_t size) { return memalign(align, size); }

int posix_memalign(void **place, size_t align, size_t size) {
    void *block = memalign(align, size);
    if (block) *place = block;
    return block ? 0 : ENOMEM;
}

/* Writes the number of requests. */
static void tell(void) {
    const char *path = getenv("REQUESTS");
    int file = path ? open(path, O_WRONLY | O_CREAT | O_TRUNC, 0644) : -1;
    if (file < 0) return;
    dprintf(file, "%lu\n", requests);
    close(file);
}

/* Rattle programs end by calling this. */
void _exit(int status) {
    tell();
    syscall(SYS_exit_group, status);
    __builtin_unreachable();
}
