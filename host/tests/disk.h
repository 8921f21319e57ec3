// A machine's disk in memory, for tests: one folder with files, whose writes and names get to the
// disk with a sync, and perhaps without one. Calls fail, are interrupted, are cut short, and end
// the process, as the test asks.
#ifndef TESTS_DISK_H
#define TESTS_DISK_H

#include "../store.h"

#include <stdbool.h>

enum { DISK_FILES = 2, DISK_PENDING = 64, SECTOR = 512, PAGE = 4096 };

// Whole pages as they are in memory, of which a process wrote a part, from `from` on.
typedef struct disk_write {
    size_t offset, length;
    uint8_t *bytes;
    size_t from, written;
} disk_write;

typedef struct disk_file {
    bool exists, name_synced, locked, direct;
    // What is in memory, which a process reads, and what is on the disk. After a sync that failed,
    // the first may have what the second hasn't, for ever.
    uint8_t *seen, *durable;
    size_t seen_length, durable_length;
    // Writes that aren't synced yet.
    disk_write pending[DISK_PENDING];
    int pending_count;
} disk_file;

typedef struct disk {
    bool has_folder, folder_synced, locked;
    disk_file files[DISK_FILES];
    uint64_t *seed;
    // Of 1,000 calls, this many fail; more are interrupted and cut short.
    uint32_t failing;
    bool without_memory; // calls fail as on a full disk
    bool forgets;        // nobody maps the files, so they can be dropped from memory
    bool without_direct; // no file can be read past memory
    // After this many calls the process is dead: nothing that it does counts. 0: it lives.
    unsigned long dies_in;
    bool dead;
    unsigned long calls, failed;
} disk;

store_calls disk_calls(disk *it);

// The process is gone, and with it its lock. The machine goes on.
void disk_kill(disk *it);

// The machine stops: what wasn't synced is kept, lost or torn.
void disk_power_off(disk *it);

// What wasn't synced gets to the disk, as it does after a while.
void disk_rest(disk *it);

// Copies all of a disk.
void disk_copy(disk *to, const disk *from);

void disk_free(disk *it);

#endif
