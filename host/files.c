// The system calls of a store.
#include "store.h"

#include <errno.h>
#include <fcntl.h>
#include <stdlib.h>
#include <string.h>
#include <sys/file.h>
#include <sys/stat.h>
#include <unistd.h>

static int make_folder(void *context, const char *path)
{
    (void)context;
    return mkdir(path, 0700) == 0 ? 0 : -errno;
}

static int open_folder(void *context, const char *path)
{
    (void)context;
    int folder = open(path, O_RDONLY | O_DIRECTORY | O_CLOEXEC);
    return folder >= 0 ? folder : -errno;
}

static int lock(void *context, int descriptor)
{
    (void)context;
    return flock(descriptor, LOCK_EX | LOCK_NB) == 0 ? 0 : -errno;
}

// Syncs a folder. One above the node's may be of a file system that has nothing to sync, or that
// can't be written.
static int sync_folder(int folder, bool is_own)
{
    int status;
    do {
        status = fsync(folder) == 0 ? 0 : errno;
    } while (status == EINTR);
    bool has_nothing = status == EINVAL || status == EROFS || status == ENOTSUP;
    return !is_own && has_nothing ? 0 : -status;
}

// 1 if the folder above is another one, 0 if it is the root itself.
static int is_other(int folder, int above)
{
    struct stat here, there;
    if (fstat(folder, &here) != 0 || fstat(above, &there) != 0) {
        return -errno;
    }
    return here.st_ino != there.st_ino || here.st_dev != there.st_dev;
}

// Syncs a folder, and opens the one above. `*above` is -1 if there isn't one, or if this user can't
// read it and so didn't make it.
static int sync_and_climb(int folder, bool is_own, int *above)
{
    *above = -1;
    int status = sync_folder(folder, is_own);
    if (status != 0) {
        return status;
    }
    *above = openat(folder, "..", O_RDONLY | O_DIRECTORY | O_CLOEXEC);
    if (*above < 0) {
        return errno == EACCES ? 0 : -errno;
    }
    status = is_other(folder, *above);
    if (status != 1) {
        close(*above);
        *above = -1;
    }
    return status < 0 ? status : 0;
}

static int sync_names(void *context, int folder)
{
    (void)context;
    int at = folder, status = 0;
    do {
        int above;
        status = sync_and_climb(at, at == folder, &above);
        if (at != folder) {
            close(at);
        }
        at = above;
    } while (status == 0 && at >= 0);
    return status;
}

static int open_file(void *context, int folder, const char *name, int create)
{
    (void)context;
    int file = openat(folder, name, O_RDWR | O_CLOEXEC | (create ? O_CREAT : 0), 0600);
    return file >= 0 ? file : -errno;
}

static int64_t size(void *context, int file)
{
    (void)context;
    struct stat it;
    return fstat(file, &it) == 0 ? (int64_t)it.st_size : -errno;
}

// Direct reads move whole blocks, from and to addresses that are multiples of this.
enum { BLOCK = 4096, BLOCKS = 256 * BLOCK };

// Reads at most BLOCKS bytes of a file that is read directly.
static int64_t read_blocks(int file, uint8_t *bytes, size_t length, uint64_t offset)
{
    size_t skipped = (size_t)(offset % BLOCK);
    uint8_t *blocks = aligned_alloc(BLOCK, BLOCKS);
    if (blocks == NULL) {
        return -ENOMEM;
    }
    ssize_t count = pread(file, blocks, BLOCKS, (off_t)(offset - skipped));
    int64_t status = count >= 0 ? 0 : -errno;
    if (count > (ssize_t)skipped) {
        status = count - (ssize_t)skipped < (ssize_t)length ? count - (ssize_t)skipped
                                                            : (int64_t)length;
        memcpy(bytes, blocks + skipped, (size_t)status);
    }
    free(blocks);
    return status;
}

static int64_t read_at(void *context, int file, uint8_t *bytes, size_t length, uint64_t offset)
{
    (void)context;
    int flags = fcntl(file, F_GETFL);
    if (flags >= 0 && (flags & O_DIRECT) != 0) {
        return read_blocks(file, bytes, length, offset);
    }
    ssize_t count = pread(file, bytes, length, (off_t)offset);
    return count >= 0 ? count : -errno;
}

static int64_t write_at(
    void *context, int file, const uint8_t *bytes, size_t length, uint64_t offset)
{
    (void)context;
    ssize_t count = pwrite(file, bytes, length, (off_t)offset);
    return count >= 0 ? count : -errno;
}

static int sync_data(void *context, int file)
{
    (void)context;
    return fdatasync(file) == 0 ? 0 : -errno;
}

static int forget_cached(void *context, int file)
{
    (void)context;
    return -posix_fadvise(file, 0, 0, POSIX_FADV_DONTNEED);
}

static int read_directly(void *context, int file, int on)
{
    (void)context;
    int flags = fcntl(file, F_GETFL);
    return flags >= 0 && fcntl(file, F_SETFL, on ? flags | O_DIRECT : flags & ~O_DIRECT) == 0
        ? 0
        : -errno;
}

static void close_descriptor(void *context, int descriptor)
{
    (void)context;
    close(descriptor);
}

const store_calls STORE_SYSTEM = {NULL, make_folder, open_folder, lock, sync_names,
    open_file, size, read_at, write_at, sync_data, forget_cached, read_directly, close_descriptor};
