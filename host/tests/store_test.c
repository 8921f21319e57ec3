// The store: what each failing call leaves; every crash of a creation, an opening and a save, of
// whole values and of entries; and folders through many crashes. Each byte of a folder is changed.
// Then come folders of the first version, and locks and refusals on the file system.
//
//     store_test [CRASHES]
#include "../bytes.h"
#include "disk.h"

#include <errno.h>
#include <stdio.h>
#include <stdlib.h>
#include <sys/stat.h>
#include <unistd.h>

#define XXH_INLINE_ALL
#include <xxhash.h>

enum { LENGTH = 1000, CALLS = 48, MARK = 32, LIVES = 6, SAVES = 12, LONGEST = 9000, TRIES = 300 };

static uint64_t seed = 1;
static unsigned long passed, failed, rewrites;

static void check(bool holds, const char *text, int line)
{
    if (holds) {
        passed++;
    } else if (failed++ < 20) {
        printf("FAILED: store_test.c:%d: %s\n", line, text);
    }
}

#define HOLDS(condition) check((condition), #condition, __LINE__)

// How values are saved: whole, as entries, or at random.
static enum { WHOLE, ENTRIES, MIXED } way;

// A value whose bytes show its number.
static store_value value_of(uint8_t number)
{
    size_t room = STORE_HEAD + LENGTH + STORE_TAIL;
    seed = seed * UINT64_C(6364136223846793005) + 1;
    bool is_entry = way == ENTRIES || (way == MIXED && seed >> 63 != 0);
    store_value it = {malloc(room), LENGTH, room, is_entry, 0, 0};
    memset(it.buffer + STORE_HEAD, number, LENGTH);
    return it;
}

// The number that all of these bytes are; -1 if they aren't those of a value of ours.
static int number_of(const uint8_t *bytes, size_t length)
{
    for (size_t i = 1; i < LENGTH && length == LENGTH; i++) {
        if (bytes[i] != bytes[0]) {
            return -1;
        }
    }
    return length == LENGTH ? bytes[0] : -1;
}

// The number of the value that is read, or of the last entry behind it; -1 if one isn't ours, or
// doesn't follow the one before.
static int number_in(const store_value *it)
{
    int number = number_of(it->buffer + STORE_HEAD, it->length);
    size_t at = 0, length = 0;
    for (const uint8_t *entry = store_next(it, &at, &length); entry != NULL && number > 0;
         entry = store_next(it, &at, &length)) {
        number = number_of(entry, length) == number + 1 ? number + 1 : -1;
    }
    return number;
}

static uint32_t below(uint32_t limit)
{
    seed = seed * UINT64_C(6364136223846793005) + 1442695040888963407;
    return (uint32_t)((seed >> 32) * limit >> 32);
}

// On some disks somebody maps the files, and some of the others can't be read past memory.
static disk fresh(void)
{
    disk it;
    memset(&it, 0, sizeof it);
    it.seed = &seed;
    it.forgets = below(2) == 0;
    it.without_direct = it.forgets && below(2) == 0;
    return it;
}

static store_status create(disk *at, uint8_t number)
{
    store it;
    store_calls calls = disk_calls(at);
    store_value value = value_of(number);
    value.is_entry = false;
    store_status status = store_create(&it, &calls, "folder", &value);
    if (status == STORE_OK) {
        HOLDS(it.state.number == 1);
        store_close(&it);
    }
    free(value.buffer);
    return status;
}

static unsigned long stale;

// Opens. While memory has what the disk hasn't, it is tried again: whoever maps the files ends.
static store_status open_at(store *it, const store_calls *calls, store_value *value)
{
    store_status status = store_open(it, calls, "folder", value);
    for (int tries = 0; status == STORE_STALE && tries < TRIES; tries++) {
        stale++;
        status = store_open(it, calls, "folder", value);
    }
    return status;
}

// Opens, and returns the number that is found, or minus the status.
static int found(disk *at)
{
    store it;
    store_calls calls = disk_calls(at);
    store_value value = {NULL, 0, 0, false, 0, 0};
    store_status status = open_at(&it, &calls, &value);
    int number = status == STORE_OK ? number_in(&value) : -100 - (int)status;
    if (status == STORE_OK) {
        store_close(&it);
    }
    free(value.buffer);
    return number;
}

// Opens and saves two values. Returns how many of the saves succeeded; `*unsure` is whether a sync
// failed.
static int work(disk *at, bool *unsure)
{
    store it;
    store_calls calls = disk_calls(at);
    store_value old = {NULL, 0, 0, false, 0, 0};
    store_status status = open_at(&it, &calls, &old);
    int saved = 0;
    *unsure = status == STORE_UNKNOWN;
    free(old.buffer);
    if (status != STORE_OK) {
        return 0;
    }
    for (uint8_t number = 2; number <= 3 && !*unsure; number++) {
        store_value value = value_of(number);
        status = store_save(&it, &value);
        free(value.buffer);
        // A save that failed is made again as a whole value, as a host does.
        if (status == STORE_FAILED) {
            value = value_of(number);
            value.is_entry = false;
            status = store_save(&it, &value);
            free(value.buffer);
        }
        *unsure = status == STORE_UNKNOWN;
        saved += status == STORE_OK;
        if (status != STORE_OK) {
            break;
        }
    }
    store_close(&it);
    return saved;
}

// The process dies at each call, and the machine with it or not. The old value is found, or the one
// that was being saved.
static void test_crashes(unsigned long times)
{
    for (unsigned long i = 0; i < times; i++) {
        for (unsigned long at = 1; at < CALLS; at++) {
            disk it = fresh();
            bool unsure = false;
            HOLDS(create(&it, 1) == STORE_OK);
            it.dies_in = at;
            it.failing = i % 4 == 3 ? 100 : 0;
            int saved = work(&it, &unsure);
            it.failing = 0;
            if (i % 2 == 0) {
                disk_power_off(&it);
            } else {
                disk_kill(&it);
            }
            int now = found(&it);
            HOLDS(now == 1 + saved || now == 2 + saved);
            // What was found is found again, after a failure of power too.
            disk_power_off(&it);
            HOLDS(found(&it) == now);
            disk_free(&it);
        }
    }
}

// A creation that is broken off leaves a node that opens, or none.
static void test_creations(unsigned long times)
{
    for (unsigned long i = 0; i < times; i++) {
        for (unsigned long at = 0; at < 12; at++) {
            disk it = fresh();
            it.dies_in = at;
            store_status status = create(&it, 1);
            bool died = it.dead;
            HOLDS(at != 0 || (status == STORE_OK && !died));
            disk_power_off(&it);
            int now = found(&it);
            if (status == STORE_OK && !died) {
                HOLDS(now == 1);
                HOLDS(create(&it, 2) == STORE_EXISTS);
            } else {
                HOLDS(now == 1 || now == -100 - STORE_ABSENT || now == -100 - STORE_DAMAGED);
            }
            disk_free(&it);
        }
    }
}

// Whatever fails, the value that was saved last is found when calls succeed again.
static void test_failures(unsigned long times)
{
    for (unsigned long i = 0; i < times; i++) {
        disk it = fresh();
        bool unsure = false;
        HOLDS(create(&it, 1) == STORE_OK);
        it.failing = 1 + (uint32_t)i % 300;
        it.without_memory = i % 5 == 0;
        int saved = work(&it, &unsure);
        it.failing = 0;
        it.without_memory = false;
        disk_kill(&it);
        int now = found(&it);
        HOLDS(now == 1 + saved || now == 2 + saved);
        disk_power_off(&it);
        HOLDS(found(&it) == now);
        disk_free(&it);
    }
}

// What is found if a slot is cut off.
static int found_in_cut(const disk *of, int slot, size_t length)
{
    disk cut;
    memset(&cut, 0, sizeof cut);
    disk_copy(&cut, of);
    cut.files[slot].durable_length = cut.files[slot].seen_length = length;
    int now = found(&cut);
    disk_free(&cut);
    return now;
}

// A slot that is cut off: the other slot counts.
static void test_cuts(void)
{
    disk it = fresh();
    bool unsure;
    way = WHOLE;
    HOLDS(create(&it, 1) == STORE_OK && work(&it, &unsure) == 2 && found(&it) == 3);
    disk_rest(&it);
    int last = it.files[0].seen[STORE_HEAD] == 3 ? 0 : 1;
    for (size_t length = 0; length < STORE_HEAD + LENGTH + STORE_TAIL; length++) {
        HOLDS(found_in_cut(&it, last, length) == 2);
    }
    it.files[1 - last].durable_length = it.files[1 - last].seen_length = 3;
    HOLDS(found_in_cut(&it, last, LENGTH) == -100 - STORE_DAMAGED);
    disk_free(&it);
}

static void put(disk_file *file, size_t at, uint8_t byte)
{
    file->seen[at] = file->durable[at] = byte;
}

// What is found if an entry is cut off: what was saved before it.
static void test_entries(void)
{
    disk it = fresh();
    bool unsure;
    size_t head = STORE_HEAD + LENGTH + STORE_TAIL, entry = 16 + LENGTH + STORE_TAIL;
    way = ENTRIES;
    HOLDS(create(&it, 1) == STORE_OK && work(&it, &unsure) == 2 && found(&it) == 3);
    disk_rest(&it);
    disk_file *file = &it.files[0];
    // Behind the entries are a mark and zeros.
    HOLDS(file->seen_length == 65536 && it.files[1].seen_length == 0);
    for (size_t at = head + 2 * entry; at < file->seen_length; at++) {
        HOLDS((file->seen[at] == 0) == (at >= head + 2 * entry + MARK) || at >= head + 2 * entry + 8);
    }
    for (size_t length = head; length <= head + 2 * entry; length++) {
        HOLDS(found_in_cut(&it, 0, length) == 1 + (int)((length - head) / entry));
    }
    // A whole value goes into the other slot; entries of an earlier save aren't taken for its own.
    way = WHOLE;
    HOLDS(work(&it, &unsure) == 2 && found(&it) == 3);
    HOLDS(file->seen_length == 65536 && it.files[1].seen_length == head + MARK);
    disk_free(&it);
}

// ## Rot

static unsigned long changed, refused, harmless;

// Changes each byte of a folder in which this number was saved last, and counts how many changes
// are refused, and how many take nothing back. Returns how many are neither.
static unsigned long rot(disk *it, int last)
{
    unsigned long lost = 0;
    for (int i = 0; i < DISK_FILES; i++) {
        disk_file *file = &it->files[i];
        for (size_t at = 0; at < file->seen_length && at < 5000; at++) {
            uint8_t old = file->seen[at];
            put(file, at, (uint8_t)(old ^ (1 + below(255))));
            int now = found(it);
            put(file, at, old);
            changed++;
            refused += now == -100 - STORE_DAMAGED;
            harmless += now == last;
            lost += now != -100 - STORE_DAMAGED && now != last;
        }
    }
    return lost;
}

static void test_rot(void)
{
    for (way = WHOLE; way <= MIXED; way++) {
        disk it = fresh();
        bool unsure;
        HOLDS(create(&it, 1) == STORE_OK && work(&it, &unsure) == 2);
        disk_rest(&it);
        unsigned long before = refused;
        HOLDS(rot(&it, 3) == 0 && refused - before >= STORE_HEAD + LENGTH + STORE_TAIL);
        disk_free(&it);
    }
    printf("%lu bytes changed: %lu refused, %lu harmless\n", changed, refused, harmless);
}

// The machine stops before the marks get to the disk. Then a change is found if an entry is behind
// it, and the lengths are as they were.
static void test_rot_without_marks(void)
{
    disk it = fresh();
    bool unsure;
    size_t head = STORE_HEAD + LENGTH + STORE_TAIL, entry = 16 + LENGTH + STORE_TAIL;
    way = ENTRIES;
    HOLDS(create(&it, 1) == STORE_OK && work(&it, &unsure) == 2);
    disk_file *file = &it.files[0];
    disk_rest(&it);
    for (size_t at = head + 2 * entry; at < head + 2 * entry + MARK; at++) {
        put(file, at, 0);
    }
    for (size_t at = 0; at < head + 2 * entry; at++) {
        bool is_length = at >= head && at < head + 8;
        uint8_t old = file->seen[at];
        put(file, at, (uint8_t)(old ^ (1 + below(255))));
        int now = found(&it);
        put(file, at, old);
        HOLDS(now == -100 - STORE_DAMAGED || (is_length && now == 1)
            || (at >= head + entry && now == 2));
    }
    disk_free(&it);
}

// What programs may have written, and a crash left behind what is whole: what looks like a mark or an
// entry shows nothing.
static void test_forgeries(void)
{
    disk it = fresh();
    bool unsure;
    size_t head = STORE_HEAD + LENGTH + STORE_TAIL, entry = 16 + LENGTH + STORE_TAIL;
    way = ENTRIES;
    HOLDS(create(&it, 1) == STORE_OK && work(&it, &unsure) == 2);
    disk_rest(&it);
    disk_file *file = &it.files[0];
    size_t last = head + entry, end = head + 2 * entry;
    for (uint64_t number = 3; number < 7; number++) {
        // A mark of another value, and an entry without the checksum before it.
        writer to = writer_of(file->seen + end + MARK + 8 * number, 32);
        write_number(&to, UINT64_MAX, 8);
        write_number(&to, number, 8);
        write_number(&to, LENGTH, 8);
        write_number(&to, XXH3_64bits_withSeed(to.start, 24, number), 8);
        to = writer_of(file->seen + end + 2000, entry);
        write_bytes(&to, file->seen + last, entry);
        to = writer_of(file->seen + end + 2000 + 8, 8);
        write_number(&to, number, 8);
        memcpy(file->durable, file->seen, file->seen_length);
        HOLDS(found(&it) == 3);
    }
    disk_free(&it);
}

// Any bytes in both files, most of which look like heads and marks: the folder opens or is damaged, and
// nothing beyond the bytes is read.
static void test_garbage(unsigned long times)
{
    disk it = fresh();
    HOLDS(create(&it, 1) == STORE_OK);
    disk_rest(&it);
    for (unsigned long i = 0; i < times; i++) {
        for (int k = 0; k < DISK_FILES; k++) {
            disk_file *file = &it.files[k];
            uint8_t bytes[400] = {0x4D, 0x52, 0x53, 2};
            size_t length = below(sizeof bytes), at = 4;
            while (at + 8 < sizeof bytes) {
                memset(bytes + at, below(3) == 0 ? 0xFF : 0, 8);
                bytes[at + 7] = (uint8_t)(below(3) == 0 ? 0xFF : below(200));
                at += 8 - (below(9) == 0);
            }
            free(file->seen);
            free(file->durable);
            file->seen = memcpy(malloc(length + 1), bytes, length);
            file->durable = memcpy(malloc(length + 1), bytes, length);
            file->seen_length = file->durable_length = length;
            file->exists = true;
        }
        HOLDS(found(&it) == -100 - STORE_DAMAGED);
    }
    disk_free(&it);
}

// ## Many crashes

// A value or an entry of any length, that begins with its number. Its other bytes are any, all FF,
// or what the file holds.
static store_value any_value(const disk *at, uint64_t number, bool is_entry)
{
    size_t length = 8 + below(4) * below(below(4) == 0 ? LONGEST / 3 : 100);
    size_t room = STORE_HEAD + length + STORE_TAIL;
    store_value it = {malloc(room), length, room, is_entry, 0, 0};
    const disk_file *file = &at->files[below(2)];
    uint32_t kind = below(3);
    writer to = writer_of(it.buffer + STORE_HEAD, length);
    write_number(&to, number, 8);
    for (size_t i = 8, from = below(2000); i < length; i++, from++) {
        it.buffer[STORE_HEAD + i] = kind == 0 ? 0xFF
            : kind == 1                       ? (uint8_t)below(256)
            : from < file->seen_length        ? file->seen[from]
                                              : 0;
    }
    return it;
}

static uint64_t last_in(const store_value *it)
{
    reader from = reader_of(it->buffer + STORE_HEAD, it->length);
    uint64_t number = read_number(&from, 8);
    size_t at = 0, length = 0;
    for (const uint8_t *entry = store_next(it, &at, &length); entry != NULL;
         entry = store_next(it, &at, &length)) {
        from = reader_of(entry, length);
        number = read_number(&from, 8);
    }
    return number;
}

// A rewrite that goes on beside saves.
typedef struct rewriting {
    store_rewrite of;
    enum { NONE, BEGUN, WRITTEN } stage;
    uint64_t base; // what counted when it began
} rewriting;

// Writes one value with what counts.
static store_status write_again(disk *at, store_rewrite *of, uint64_t kept)
{
    store_value old = {NULL, 0, 0, false, 0, 0};
    store_status status = store_rewrite_read(of, &old);
    if (status != STORE_OK) {
        HOLDS(status == STORE_FAILED && (at->failing > 0 || at->dead));
        return status;
    }
    HOLDS(last_in(&old) == kept);
    store_value whole = any_value(at, last_in(&old), false);
    status = store_rewrite_write(of, &whole);
    free(old.buffer);
    free(whole.buffer);
    return status;
}

// A step of a rewrite, or none. Returns whether the process may go on.
static bool rewrite(disk *at, store *it, rewriting *now, uint64_t kept)
{
    store_status status = STORE_OK;
    if (now->stage == NONE && below(3) == 0) {
        HOLDS(store_rewrite_begin(it, &now->of) == STORE_OK);
        now->stage = BEGUN;
        now->base = kept;
    } else if (now->stage == BEGUN && below(2) == 0) {
        status = write_again(at, &now->of, now->base);
        now->stage = status == STORE_OK ? WRITTEN : NONE;
    } else if (now->stage == WRITTEN && below(2) == 0) {
        status = store_rewrite_follow(&now->of, it->state.end);
        now->stage = status == STORE_OK ? WRITTEN : NONE;
    }
    return status != STORE_UNKNOWN;
}

// Saves, perhaps so that a rewrite ends. It is given up if a whole value is saved, or a save fails.
static store_status save_beside(store *it, rewriting *now, store_value *value)
{
    bool ends = value->is_entry && now->stage == WRITTEN && below(2) == 0;
    store_status status =
        ends ? store_rewrite_end(it, &now->of, value) : store_save(it, value);
    rewrites += ends && status == STORE_OK;
    if (ends || !value->is_entry || status != STORE_OK) {
        now->stage = NONE;
    }
    return status;
}

// One process: it finds what was saved last, or a later save that was begun, and saves until
// something fails or it dies.
static void live(disk *at, uint64_t *kept, uint64_t *begun)
{
    store it;
    store_calls calls = disk_calls(at);
    store_value value = {NULL, 0, 0, false, 0, 0};
    store_status status = open_at(&it, &calls, &value);
    if (status != STORE_OK) {
        HOLDS(at->dead || (at->failing > 0 && (status == STORE_FAILED || status == STORE_UNKNOWN)));
        free(value.buffer);
        return;
    }
    uint64_t now = last_in(&value);
    HOLDS(now >= *kept && now <= *begun);
    *kept = now;
    bool is_whole = value.whole > 0, goes_on = true;
    rewriting again = {.stage = NONE};
    free(value.buffer);
    for (uint32_t i = below(SAVES); i > 0 && goes_on && status != STORE_UNKNOWN && !at->dead; i--) {
        if (status == STORE_OK) {
            goes_on = rewrite(at, &it, &again, *kept) && rewrite(at, &it, &again, *kept);
        }
        if (!goes_on) {
            break;
        }
        value = any_value(at, ++*begun, !is_whole && below(5) > 0);
        status = save_beside(&it, &again, &value);
        *kept = status == STORE_OK ? *begun : *kept;
        is_whole = status != STORE_OK;
        free(value.buffer);
    }
    store_close(&it);
}

static void test_lives(unsigned long times)
{
    unsigned long before = rewrites;
    for (unsigned long i = 0; i < times; i++) {
        disk it = fresh();
        uint64_t kept = 1, begun = 1;
        store at;
        store_calls calls = disk_calls(&it);
        store_value value = any_value(&it, 1, false);
        HOLDS(store_create(&at, &calls, "folder", &value) == STORE_OK);
        store_close(&at);
        free(value.buffer);
        for (int lives = 0; lives < LIVES; lives++) {
            it.dies_in = below(3) == 0 ? 0 : 1 + below(80);
            it.failing = below(3) == 0 ? 1 + below(60) : 0;
            live(&it, &kept, &begun);
            it.failing = 0;
            if (below(3) == 0) {
                disk_rest(&it);
            }
            if (below(3) > 0) {
                disk_power_off(&it);
            } else {
                disk_kill(&it);
            }
        }
        it.dies_in = 0;
        live(&it, &kept, &begun);
        disk_free(&it);
    }
    HOLDS(rewrites > before);
}

// ## Rewrites

// Opens, adds an entry, and rewrites what is there while another one is added; a third one ends that.
// Returns how many saves succeeded.
static int work_again(disk *at, bool *unsure)
{
    store it;
    store_calls calls = disk_calls(at);
    store_value value = {NULL, 0, 0, false, 0, 0};
    store_rewrite again;
    store_status status = open_at(&it, &calls, &value);
    int saved = 0;
    free(value.buffer);
    *unsure = status == STORE_UNKNOWN;
    if (status != STORE_OK) {
        return 0;
    }
    for (uint8_t number = 2; number <= 4 && status == STORE_OK; number++) {
        way = ENTRIES;
        value = value_of(number);
        status = number == 4 ? store_rewrite_end(&it, &again, &value) : store_save(&it, &value);
        saved += status == STORE_OK;
        free(value.buffer);
        if (number == 2 && status == STORE_OK) {
            way = WHOLE;
            value = value_of(2);
            HOLDS(store_rewrite_begin(&it, &again) == STORE_OK);
            status = store_rewrite_write(&again, &value);
            free(value.buffer);
        }
        if (number == 3 && status == STORE_OK && below(2) == 0) {
            status = store_rewrite_follow(&again, it.state.end);
        }
    }
    *unsure = status == STORE_UNKNOWN;
    store_close(&it);
    return saved;
}

// The process dies at each call of a rewrite, and the machine with it or not.
static void test_rewrites(unsigned long times)
{
    for (unsigned long i = 0; i < times; i++) {
        for (unsigned long at = 0; at < 2 * CALLS; at++) {
            disk it = fresh();
            bool unsure = false;
            way = ENTRIES;
            HOLDS(create(&it, 1) == STORE_OK);
            it.dies_in = at;
            it.failing = i % 4 == 3 ? 100 : 0;
            int saved = work_again(&it, &unsure);
            HOLDS(at > 0 || it.failing > 0 || saved == 3);
            it.failing = 0;
            if (i % 2 == 0) {
                disk_power_off(&it);
            } else {
                disk_kill(&it);
            }
            int now = found(&it);
            HOLDS(now == 1 + saved || now == 2 + saved);
            disk_power_off(&it);
            HOLDS(found(&it) == now);
            disk_free(&it);
        }
    }
}

// What a rewrite leaves in which slot, and that each changed byte is found.
static void test_rewritten(void)
{
    disk it = fresh();
    bool unsure;
    size_t whole = STORE_HEAD + LENGTH + STORE_TAIL, entry = 16 + LENGTH + STORE_TAIL;
    way = ENTRIES;
    HOLDS(create(&it, 1) == STORE_OK && work_again(&it, &unsure) == 3);
    disk_rest(&it);
    HOLDS(it.files[0].seen[STORE_HEAD] == 1 && it.files[1].seen[STORE_HEAD] == 2);
    HOLDS(it.files[1].seen_length == whole + 2 * entry + MARK && found(&it) == 4);
    for (size_t length = 0; length < whole + 2 * entry; length++) {
        // (no crash leaves the same save in both)
        bool is_same = length >= whole + entry;
        HOLDS(found_in_cut(&it, 1, length) == (is_same ? -100 - STORE_DAMAGED : 3));
    }
    HOLDS(rot(&it, 4) == 0);
    disk_free(&it);
}

// What counts has changed on the disk since it was written: it isn't taken into the new value.
static void test_rewrite_of_rot(void)
{
    disk it = fresh();
    store at;
    store_calls calls = disk_calls(&it);
    store_value value = {NULL, 0, 0, false, 0, 0};
    store_rewrite again;
    way = ENTRIES;
    HOLDS(create(&it, 1) == STORE_OK);
    HOLDS(store_open(&at, &calls, "folder", &value) == STORE_OK);
    free(value.buffer);
    HOLDS(store_rewrite_begin(&at, &again) == STORE_OK);
    it.files[0].seen[STORE_HEAD + 5] ^= 1;
    HOLDS(store_rewrite_read(&again, &value) == STORE_DAMAGED);
    it.files[0].seen[STORE_HEAD + 5] ^= 1;
    HOLDS(store_rewrite_read(&again, &value) == STORE_OK && number_in(&value) == 1);
    HOLDS(store_rewrite_write(&again, &value) == STORE_OK);
    free(value.buffer);
    value = value_of(2);
    uint64_t place = at.state.end;
    HOLDS(store_save(&at, &value) == STORE_OK);
    free(value.buffer);
    it.files[0].seen[place + 20] ^= 1;
    HOLDS(store_rewrite_follow(&again, at.state.end) == STORE_DAMAGED);
    value = value_of(3);
    HOLDS(store_rewrite_end(&at, &again, &value) == STORE_FAILED && at.state.counts == 0);
    it.files[0].seen[place + 20] ^= 1;
    HOLDS(store_rewrite_end(&at, &again, &value) == STORE_OK && at.state.counts == 1);
    free(value.buffer);
    store_close(&at);
    HOLDS(found(&it) == 3);
    disk_free(&it);
}

// ## What the saver waits for

static size_t unsynced, most_unsynced;
static uint64_t written_up_to;

static int64_t count_write(
    void *context, int file, const uint8_t *bytes, size_t length, uint64_t offset)
{
    (void)context;
    (void)bytes;
    HOLDS(file == 1 && offset == written_up_to);
    written_up_to += length;
    unsynced += length;
    most_unsynced = unsynced > most_unsynced ? unsynced : most_unsynced;
    return (int64_t)length;
}

static int64_t read_entry(void *context, int file, uint8_t *bytes, size_t length, uint64_t offset)
{
    HOLDS(file == 0);
    memcpy(bytes, (const uint8_t *)context + offset, length);
    return (int64_t)length;
}

static int count_sync(void *context, int file)
{
    (void)context;
    HOLDS(file == 1);
    unsynced = 0;
    return 0;
}

// While a rewrite goes on, it leaves never more than 1 MiB to be synced, for which a save would wait.
static void test_parts(void)
{
    enum { LONG = 7 << 19, MOST = 1 << 20, ROOM = STORE_HEAD + LONG + STORE_TAIL };
    store_value value = {calloc(1, ROOM), LONG, ROOM, false, 0, 0};
    store_rewrite again;
    store at = {.slots = {0, 1}};
    at.calls.write_at = count_write;
    at.calls.read_at = read_entry;
    at.calls.sync = count_sync;
    markring_slots_open(&at.state, 0, &(markring_slot_found){.version = 2}, 0, 0, 0, 0);
    HOLDS(store_rewrite_begin(&at, &again) == STORE_OK);
    HOLDS(store_rewrite_write(&again, &value) == STORE_OK);
    HOLDS(unsynced == 0 && most_unsynced <= MOST && again.state.end == ROOM);
    store_bytes entry = store_seal_entry(&value, 1, 0);
    again.from.calls.context = entry.bytes;
    most_unsynced = 0;
    HOLDS(store_rewrite_follow(&again, entry.length) == STORE_OK);
    HOLDS(unsynced == 0 && most_unsynced <= MOST && again.state.end == ROOM + entry.length);
    free(value.buffer);
}

static int64_t (*real_write)(void *, int, const uint8_t *, size_t, uint64_t);

// A write that doesn't fail while all other calls do.
static int64_t write_well(
    void *context, int file, const uint8_t *bytes, size_t length, uint64_t offset)
{
    disk *at = context;
    uint32_t failing = at->failing;
    at->failing = 0;
    int64_t moved = real_write(context, file, bytes, length, offset);
    at->failing = failing;
    return moved;
}

// A sync fails, and memory has what the disk hasn't. The next process doesn't count it.
static void test_failed_sync(unsigned long times)
{
    unsigned long before = stale;
    for (unsigned long i = 0; i < times; i++) {
        disk it = fresh();
        it.forgets = it.without_direct = false;
        bool unsure;
        HOLDS(create(&it, 1) == STORE_OK);
        store at;
        store_calls calls = disk_calls(&it);
        store_value old = {NULL, 0, 0, false, 0, 0}, value = value_of(2);
        HOLDS(store_open(&at, &calls, "folder", &old) == STORE_OK);
        real_write = calls.write_at;
        at.calls.write_at = write_well;
        it.failing = 1000;
        HOLDS(store_save(&at, &value) != STORE_OK);
        it.failing = 0;
        free(value.buffer);
        free(old.buffer);
        store_close(&at);
        int now = found(&it);
        HOLDS(now == 1 || now == 2);
        int saved = now == 1 ? work(&it, &unsure) : 0;
        disk_power_off(&it);
        HOLDS(found(&it) == now + saved);
        disk_free(&it);
    }
    HOLDS(stale > before);
}

// The call of a disk that writes, and whether the next write of all its bytes fails.
static int64_t (*written_at)(void *, int, const uint8_t *, size_t, uint64_t);
static bool write_fails;

static int64_t write_and_fail(
    void *context, int file, const uint8_t *bytes, size_t length, uint64_t offset)
{
    int64_t moved = written_at(context, file, bytes, length, offset);
    bool fails = write_fails && moved == (int64_t)length;
    write_fails = write_fails && !fails;
    return fails ? -EIO : moved;
}

// An entry is written as a whole, but the call fails. The value that is saved next is found, since
// it has another number.
static void test_failed_write(void)
{
    disk it = fresh();
    store at;
    store_calls calls = disk_calls(&it);
    store_value old = {NULL, 0, 0, false, 0, 0};
    written_at = calls.write_at;
    calls.write_at = write_and_fail;
    HOLDS(create(&it, 1) == STORE_OK);
    HOLDS(store_open(&at, &calls, "folder", &old) == STORE_OK);
    way = ENTRIES;
    store_value entry = value_of(2);
    way = WHOLE;
    store_value value = value_of(3);
    write_fails = true;
    HOLDS(store_save(&at, &entry) == STORE_FAILED && !write_fails);
    // Until then no entry is added, and no rewrite begins.
    store_rewrite again;
    unsigned long long number = at.state.number;
    HOLDS(store_save(&at, &entry) == STORE_FAILED && at.state.number == number);
    HOLDS(store_rewrite_begin(&at, &again) == STORE_FAILED);
    HOLDS(store_save(&at, &value) == STORE_OK);
    store_close(&at);
    HOLDS(found(&it) == 3);
    disk_power_off(&it);
    HOLDS(found(&it) == 3);
    free(old.buffer);
    free(entry.buffer);
    free(value.buffer);
    disk_free(&it);
}

static int64_t write_no_head(
    void *context, int file, const uint8_t *bytes, size_t length, uint64_t offset)
{
    int64_t moved = written_at(context, file, bytes, length, offset);
    return length == STORE_HEAD ? -EIO : moved;
}

// The head of a rewrite is written, but the call fails. Nobody knows whether it counts, so nothing more
// is saved.
static void test_failed_head(void)
{
    disk it = fresh();
    store at;
    store_rewrite again;
    store_calls calls = disk_calls(&it);
    store_value old = {NULL, 0, 0, false, 0, 0};
    written_at = calls.write_at;
    calls.write_at = write_no_head;
    HOLDS(create(&it, 1) == STORE_OK);
    HOLDS(store_open(&at, &calls, "folder", &old) == STORE_OK);
    HOLDS(store_rewrite_begin(&at, &again) == STORE_OK);
    way = WHOLE;
    store_value whole = value_of(1), next = value_of(3);
    HOLDS(store_rewrite_write(&again, &whole) == STORE_OK);
    way = ENTRIES;
    store_value entry = value_of(2);
    HOLDS(store_rewrite_end(&at, &again, &entry) == STORE_UNKNOWN);
    HOLDS(store_save(&at, &next) == STORE_FAILED && store_save(&at, &entry) == STORE_FAILED);
    store_close(&at);
    disk_rest(&it);
    HOLDS(found(&it) == 2);
    free(old.buffer);
    free(whole.buffer);
    free(next.buffer);
    free(entry.buffer);
    disk_free(&it);
}

// Makes a slot one of the first version.
static void make_old(disk *it)
{
    disk_rest(it);
    disk_file *file = &it->files[0];
    file->seen[3] = 1;
    uint64_t seal = XXH3_64bits(file->seen, STORE_HEAD + LENGTH);
    for (int i = 0; i < STORE_TAIL; i++) {
        file->seen[STORE_HEAD + LENGTH + i] = (uint8_t)(seal >> 8 * (STORE_TAIL - 1 - i));
    }
    memcpy(file->durable, file->seen, file->seen_length);
}

// A folder of the first version opens. It has no slot of that version once two values were saved.
static void test_versions(void)
{
    disk it = fresh();
    store at;
    store_calls calls = disk_calls(&it);
    way = WHOLE;
    HOLDS(create(&it, 1) == STORE_OK);
    make_old(&it);
    for (int whole = 2; whole >= 0; whole--) {
        store_value value = {NULL, 0, 0, false, 0, 0}, next = value_of((uint8_t)(4 - whole));
        HOLDS(store_open(&at, &calls, "folder", &value) == STORE_OK);
        HOLDS(number_in(&value) == 3 - whole && value.whole == whole);
        HOLDS((value.whole > 0) == (whole > 0));
        HOLDS(store_save(&at, &next) == STORE_OK);
        store_close(&at);
        free(value.buffer);
        free(next.buffer);
    }
    it.files[0].seen[3] = it.files[0].durable[3] = 3;
    HOLDS(it.files[1].seen[3] == 2 && it.files[0].seen[STORE_HEAD] == 3 && found(&it) == 4);
    disk_free(&it);
}

// On the file system.
static void test_system(void)
{
    char place[] = "/tmp/store-XXXXXX", folder[64];
    store first, second;
    store_value value = value_of(1), got = {NULL, 0, 0, false, 0, 0};
    HOLDS(mkdtemp(place) != NULL);
    snprintf(folder, sizeof folder, "%s/node", place);
    HOLDS(store_open(&first, &STORE_SYSTEM, folder, &got) == STORE_ABSENT);
    HOLDS(store_create(&first, &STORE_SYSTEM, folder, &value) == STORE_OK);
    HOLDS(store_create(&second, &STORE_SYSTEM, folder, &value) == STORE_LOCKED);
    HOLDS(store_open(&second, &STORE_SYSTEM, folder, &got) == STORE_LOCKED);
    memset(value.buffer + STORE_HEAD, 2, LENGTH);
    HOLDS(store_save(&first, &value) == STORE_OK);
    store_close(&first);
    HOLDS(store_create(&second, &STORE_SYSTEM, folder, &value) == STORE_EXISTS);
    HOLDS(store_open(&second, &STORE_SYSTEM, folder, &got) == STORE_OK);
    HOLDS(second.state.number == 2 && number_in(&got) == 2);
    store_close(&second);
    free(got.buffer);
    free(value.buffer);
    snprintf(folder, sizeof folder, "rm -r %s", place);
    HOLDS(system(folder) == 0);
}

int main(int count, char **given)
{
    unsigned long times = count > 1 ? strtoul(given[1], NULL, 10) : 100;
    for (way = WHOLE; way <= MIXED; way++) {
        test_crashes(times);
        test_failures(10 * times);
    }
    test_creations(times);
    test_cuts();
    test_entries();
    test_rot();
    test_rot_without_marks();
    test_forgeries();
    test_garbage(50 * times);
    test_lives(5 * times);
    test_rewrites(times);
    test_rewritten();
    test_rewrite_of_rot();
    test_parts();
    test_failed_sync(times);
    test_failed_write();
    test_failed_head();
    test_versions();
    test_system();
    printf("%lu passed, %lu failed\n", passed, failed);
    return failed != 0 || passed == 0;
}
