// Makes calls of a process to the system fail for a while. It is loaded before the C library, as
// LD_PRELOAD. The variable MARKRING_FLAKY is how many of 1,000 calls that happens to: reads, writes
// and syncs of files are interrupted, reads and writes are cut short, and now and then a disk is full
// for some writes.
#include <errno.h>
#include <stdlib.h>
#include <sys/syscall.h>
#include <time.h>
#include <unistd.h>

enum { FULL_WRITES = 3 };

enum fate { WELL, INTERRUPTED, CUT, FULL };

static enum fate next_fate(void)
{
    static _Thread_local unsigned state;
    static int rate = -1;
    if (rate < 0) {
        const char *given = getenv("MARKRING_FLAKY");
        rate = given != NULL ? atoi(given) : 0;
    }
    if (state == 0) {
        state = (unsigned)getpid() * 2654435761u ^ (unsigned)time(NULL);
    }
    state = state * 1664525u + 1013904223u;
    return (int)((state >> 8) % 1000) >= rate ? WELL : (enum fate)(1 + (state >> 20) % 3);
}

static ssize_t fail(int error)
{
    errno = error;
    return -1;
}

ssize_t pread(int file, void *bytes, size_t length, off_t offset)
{
    enum fate fate = next_fate();
    // (direct reads move whole blocks)
    size_t cut = length > 8192 ? length / 8192 * 4096 : length;
    return fate == INTERRUPTED ? fail(EINTR)
                               : syscall(SYS_pread64, file, bytes, fate == CUT ? cut : length, offset);
}

ssize_t pwrite(int file, const void *bytes, size_t length, off_t offset)
{
    static int full;
    enum fate fate = next_fate();
    full = fate == FULL && full == 0 ? FULL_WRITES : full;
    if (fate == INTERRUPTED) {
        return fail(EINTR);
    }
    if (full > 0) {
        full--;
        return fail(ENOSPC);
    }
    return syscall(SYS_pwrite64, file, bytes, fate == CUT ? (length + 1) / 2 : length, offset);
}

int fdatasync(int file)
{
    return next_fate() == INTERRUPTED ? (int)fail(EINTR) : (int)syscall(SYS_fdatasync, file);
}

int fsync(int file)
{
    return next_fate() == INTERRUPTED ? (int)fail(EINTR) : (int)syscall(SYS_fsync, file);
}
