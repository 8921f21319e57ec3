#include "disk.h"
#include "models.h"

#include <errno.h>
#include <string.h>

enum { FOLDER = 100 };

static void extend(uint8_t **bytes, size_t *length, size_t to)
{
    if (to > *length) {
        *bytes = resized(*bytes, to);
        memset(*bytes + *length, 0, to - *length);
        *length = to;
    }
}

static void apply(uint8_t **bytes, size_t *length, const disk_write *it)
{
    extend(bytes, length, it->offset + it->length);
    memcpy(*bytes + it->offset, it->bytes, it->length);
}

// Puts garbage into what the process has written of this part of a write.
static void spoil(disk *it, disk_file *file, const disk_write *write, size_t from, size_t to)
{
    uint8_t garbage[SECTOR];
    size_t end = write->from + write->written;
    from = from < write->from ? write->from : from;
    to = to < end ? to : end;
    if (from < to) {
        disk_write part = {write->offset + from, to - from, garbage, 0, 0};
        memset(garbage, (int)below_number(it->seed, 256), sizeof garbage);
        apply(&file->durable, &file->durable_length, &part);
    }
}

// One write gets to the disk in part: each sector is new, old or garbage. What was written before
// stays.
static void tear(disk *it, disk_file *file, const disk_write *write)
{
    for (size_t at = 0; at < write->length; at += SECTOR) {
        size_t length = write->length - at < SECTOR ? write->length - at : SECTOR;
        disk_write part = {write->offset + at, length, write->bytes + at, 0, length};
        uint32_t fate = below_number(it->seed, 8);
        if (fate < 5) {
            apply(&file->durable, &file->durable_length, &part);
        } else if (fate == 5) {
            spoil(it, file, write, at, at + length);
        }
    }
}

static void drop_pending(disk_file *file)
{
    for (int i = 0; i < file->pending_count; i++) {
        free(file->pending[i].bytes);
    }
    file->pending_count = 0;
}

// What wasn't synced gets to the disk, or not, or in part.
static void settle_pending(disk *it, disk_file *file)
{
    for (int i = 0; i < file->pending_count; i++) {
        uint32_t fate = below_number(it->seed, 3);
        if (fate == 0) {
            apply(&file->durable, &file->durable_length, &file->pending[i]);
        } else if (fate == 1) {
            tear(it, file, &file->pending[i]);
        }
    }
    drop_pending(file);
}

static void write_pending(disk_file *file)
{
    for (int i = 0; i < file->pending_count; i++) {
        apply(&file->durable, &file->durable_length, &file->pending[i]);
    }
    drop_pending(file);
}

// What a process reads is what is on the disk, and what will be written there.
static void read_again(disk_file *file)
{
    free(file->seen);
    file->seen = resized(NULL, file->durable_length + 1);
    if (file->durable_length > 0) {
        memcpy(file->seen, file->durable, file->durable_length);
    }
    file->seen_length = file->durable_length;
    for (int i = 0; i < file->pending_count; i++) {
        apply(&file->seen, &file->seen_length, &file->pending[i]);
    }
}

// ## Calls

// Counts a call. Returns an error, or 0.
static int enter(disk *it)
{
    it->calls++;
    if (it->dies_in > 0 && --it->dies_in == 0) {
        it->dead = true;
    }
    if (it->dead) {
        return -EIO;
    }
    uint32_t fate = below_number(it->seed, 1000);
    if (fate < it->failing) {
        it->failed++;
        return fate % 3 == 0 ? -EINTR : -EIO;
    }
    return 0;
}

static int make_folder(void *context, const char *path)
{
    disk *it = context;
    int status = enter(it);
    (void)path;
    if (status == 0 && it->has_folder) {
        status = -EEXIST;
    }
    it->has_folder = it->has_folder || status == 0;
    return status;
}

static int open_folder(void *context, const char *path)
{
    disk *it = context;
    int status = enter(it);
    (void)path;
    return status != 0 ? status : it->has_folder ? FOLDER : -ENOENT;
}

static int lock(void *context, int descriptor)
{
    disk *it = context;
    bool *locked = descriptor == FOLDER ? &it->locked : &it->files[descriptor].locked;
    int status = enter(it);
    if (status == 0 && *locked) {
        status = -EWOULDBLOCK;
    }
    *locked = *locked || status == 0;
    return status;
}

static int sync_names(void *context, int folder)
{
    disk *it = context;
    int status = enter(it);
    (void)folder;
    if (status != 0) {
        return -EIO;
    }
    it->folder_synced = true;
    for (int i = 0; i < DISK_FILES; i++) {
        it->files[i].name_synced = it->files[i].exists;
    }
    return 0;
}

static int open_file(void *context, int folder, const char *name, int create)
{
    disk *it = context;
    int status = enter(it), at = name[0] - 'a';
    (void)folder;
    if (status == 0 && !it->files[at].exists) {
        status = create ? 0 : -ENOENT;
        it->files[at].exists = create != 0;
    }
    return status != 0 ? status : at;
}

static int64_t size(void *context, int file)
{
    disk *it = context;
    int status = enter(it);
    return status != 0 ? status : (int64_t)it->files[file].seen_length;
}

static int64_t read_at(void *context, int file, uint8_t *bytes, size_t length, uint64_t offset)
{
    disk *it = context;
    disk_file *from = &it->files[file];
    int status = enter(it);
    if (status != 0) {
        return status;
    }
    if (offset >= from->seen_length) {
        return 0;
    }
    if (from->direct) {
        write_pending(from);
        extend(&from->durable, &from->durable_length, from->seen_length);
    }
    size_t count = from->seen_length - offset < length ? from->seen_length - offset : length;
    if (count > 1 && below_number(it->seed, 10) == 0) {
        count = 1 + below_number(it->seed, (uint32_t)count);
    }
    memcpy(bytes, (from->direct ? from->durable : from->seen) + offset, count);
    return (int64_t)count;
}

// Notes the pages in which this many bytes were written.
static void note_write(disk_file *to, size_t offset, size_t count)
{
    size_t start = offset / PAGE * PAGE, end = (offset + count + PAGE - 1) / PAGE * PAGE;
    end = end < to->seen_length ? end : to->seen_length;
    disk_write write = {start, end - start, resized(NULL, end - start), offset - start, count};
    memcpy(write.bytes, to->seen + start, write.length);
    to->pending[to->pending_count++] = write;
}

static int64_t write_at(
    void *context, int file, const uint8_t *bytes, size_t length, uint64_t offset)
{
    disk *it = context;
    disk_file *to = &it->files[file];
    if (it->dead) {
        return -EIO;
    }
    if (to->direct) {
        return -EINVAL;
    }
    int status = enter(it);
    // A call that fails, or during which the process dies, may have written a part.
    bool fails = status != 0 || it->without_memory;
    size_t count = fails                  ? below_number(it->seed, (uint32_t)length + 1)
        : below_number(it->seed, 10) == 0 ? 1 + below_number(it->seed, (uint32_t)length)
                                          : length;
    if (to->pending_count == DISK_PENDING) {
        write_pending(to);
    }
    if (count > 0) {
        extend(&to->seen, &to->seen_length, offset + count);
        memcpy(to->seen + offset, bytes, count);
        note_write(to, offset, count);
    }
    return status != 0 ? status : it->without_memory ? -ENOSPC : (int64_t)count;
}

static int sync_file(void *context, int file)
{
    disk *it = context;
    disk_file *at = &it->files[file];
    int status = enter(it);
    if (status == -EINTR || (status != 0 && it->dead)) {
        return status;
    }
    if (status != 0) {
        // The system counts these writes as done, whatever became of them.
        settle_pending(it, at);
        return status;
    }
    write_pending(at);
    return 0;
}

static int forget(void *context, int file)
{
    disk *it = context;
    int status = enter(it);
    // Who maps a file ends at some time.
    if (status == 0 && (it->forgets || below_number(it->seed, 4) == 0)) {
        read_again(&it->files[file]);
    }
    return status;
}

static int read_directly(void *context, int file, int on)
{
    disk *it = context;
    int status = enter(it);
    if (status == 0 && it->without_direct) {
        status = -EINVAL;
    }
    it->files[file].direct = status == 0 && on != 0;
    return status;
}

static void close_descriptor(void *context, int descriptor)
{
    disk *it = context;
    if (!it->dead) {
        *(descriptor == FOLDER ? &it->locked : &it->files[descriptor].locked) = false;
    }
    if (descriptor != FOLDER) {
        it->files[descriptor].direct = false;
    }
}

store_calls disk_calls(disk *it)
{
    store_calls calls = {it, make_folder, open_folder, lock, sync_names, open_file, size,
        read_at, write_at, sync_file, forget, read_directly, close_descriptor};
    return calls;
}

// ## Crashes

void disk_kill(disk *it)
{
    it->locked = it->files[0].locked = it->files[1].locked = false;
    it->files[0].direct = it->files[1].direct = false;
    it->dead = false;
    it->dies_in = 0;
}

void disk_power_off(disk *it)
{
    disk_kill(it);
    it->has_folder = it->has_folder && (it->folder_synced || below_number(it->seed, 2) == 0);
    for (int i = 0; i < DISK_FILES; i++) {
        disk_file *file = &it->files[i];
        settle_pending(it, file);
        read_again(file);
        bool stays = it->has_folder && (file->name_synced || below_number(it->seed, 2) == 0);
        if (file->exists && !stays) {
            free(file->seen);
            free(file->durable);
            memset(file, 0, sizeof *file);
        }
        file->name_synced = file->exists;
    }
    it->folder_synced = it->has_folder;
}

void disk_rest(disk *it)
{
    for (int i = 0; i < DISK_FILES; i++) {
        write_pending(&it->files[i]);
    }
}

void disk_copy(disk *to, const disk *from)
{
    disk_free(to);
    uint64_t *seed = from->seed;
    *to = *from;
    to->seed = seed;
    for (int i = 0; i < DISK_FILES; i++) {
        disk_file *file = &to->files[i];
        const disk_file *old = &from->files[i];
        file->seen = resized(NULL, old->seen_length + 1);
        file->durable = resized(NULL, old->durable_length + 1);
        if (old->seen_length > 0) {
            memcpy(file->seen, old->seen, old->seen_length);
        }
        if (old->durable_length > 0) {
            memcpy(file->durable, old->durable, old->durable_length);
        }
        for (int k = 0; k < old->pending_count; k++) {
            file->pending[k].bytes = resized(NULL, old->pending[k].length);
            memcpy(file->pending[k].bytes, old->pending[k].bytes, old->pending[k].length);
        }
    }
}

void disk_free(disk *it)
{
    for (int i = 0; i < DISK_FILES; i++) {
        drop_pending(&it->files[i]);
        free(it->files[i].seen);
        free(it->files[i].durable);
    }
    memset(it->files, 0, sizeof it->files);
}
