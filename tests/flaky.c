// Makes calls on the files of a disk fail. It is loaded before the C library, as LD_PRELOAD.
//
// The file next-NAME in the current folder, NAME being select, a or b, has one byte. It says what the
// next pread, pwrite or fsync of a file NAME in any folder does:
//
//     0  it succeeds, as without the file
//     1  it is interrupted, and the call after it succeeds
//     2  a write takes two bytes
//     3  a write takes two bytes, and the call after it fails
//     4  it fails
//     5  it fails, and so do all later calls
//
// writes-NAME gets the number of calls of pwrite, in one byte.
#define _GNU_SOURCE
#include <errno.h>
#include <fcntl.h>
#include <stdio.h>
#include <string.h>
#include <sys/syscall.h>
#include <unistd.h>

enum { WELL, INTERRUPTED, SHORT, STOPS, FAILS, LOST };

// The byte in a file of the current folder; 0 if there isn't one.
static unsigned char get(const char *kind, const char *name)
{
    char path[32];
    unsigned char byte = 0;
    snprintf(path, sizeof path, "%s-%s", kind, name);
    int file = open(path, O_RDONLY | O_CLOEXEC);
    if (file >= 0) {
        if (read(file, &byte, 1) != 1) {
            byte = 0;
        }
        close(file);
    }
    return byte;
}

static void set(const char *kind, const char *name, unsigned char byte)
{
    char path[32];
    snprintf(path, sizeof path, "%s-%s", kind, name);
    int file = open(path, O_WRONLY | O_CREAT | O_TRUNC | O_CLOEXEC, 0600);
    if (file < 0 || write(file, &byte, 1) != 1) {
        fprintf(stderr, "flaky: %s can't be written\n", path);
    }
    close(file);
}

// The name of the disk's file that has this descriptor, or NULL.
static const char *name_of(int file)
{
    static const char *const NAMES[] = {"select", "a", "b"};
    char link[32], path[512];
    snprintf(link, sizeof link, "/proc/self/fd/%d", file);
    ssize_t length = readlink(link, path, sizeof path - 1);
    path[length > 0 ? length : 0] = 0;
    const char *last = strrchr(path, '/');
    for (int i = 0; last != NULL && i < 3; i++) {
        if (strcmp(last + 1, NAMES[i]) == 0) {
            return NAMES[i];
        }
    }
    return NULL;
}

// What this call does. It also sets what the next one does.
static int meets(const char *name)
{
    int next = get("next", name);
    if (next != WELL && next != LOST) {
        set("next", name, next == STOPS ? FAILS : WELL);
    }
    return next;
}

// Whether the call fails.
static int fails(int met)
{
    errno = met == INTERRUPTED ? EINTR : EIO;
    return met == INTERRUPTED || met == FAILS || met == LOST;
}

ssize_t pread(int file, void *into, size_t count, off_t at)
{
    const char *name = name_of(file);
    if (name != NULL && fails(meets(name))) {
        return -1;
    }
    return syscall(SYS_pread64, file, into, count, at);
}

ssize_t pwrite(int file, const void *from, size_t count, off_t at)
{
    const char *name = name_of(file);
    if (name != NULL) {
        set("writes", name, (unsigned char)(get("writes", name) + 1));
        int met = meets(name);
        if (fails(met)) {
            return -1;
        }
        count = (met == SHORT || met == STOPS) && count > 2 ? 2 : count;
    }
    return syscall(SYS_pwrite64, file, from, count, at);
}

int fsync(int file)
{
    const char *name = name_of(file);
    int met = name != NULL ? meets(name) : WELL;
    if (met != INTERRUPTED && fails(met)) {
        return -1;
    }
    return (int)syscall(SYS_fsync, file);
}
