#include "store.h"

#include "bytes.h"

#include <errno.h>
#include <stdlib.h>

#define XXH_INLINE_ALL
#include <xxhash.h>

// The last byte is the version. Entries are behind values of version 2 alone.
static const uint8_t MAGIC[4] = {0x4D, 0x52, 0x53, 0x02};
static const char *const NAMES[2] = {"a", "b"};

// An entry that makes its file longer has zeros behind it up to a multiple of STEP, since a sync is
// slower if the file's length has changed.
enum { ENTRY_HEAD = STORE_ENTRY_HEAD, MARK_HEAD = 24, FIRST_VERSION = 1, STEP = 65536, ZEROS = 4096 };
enum { COMPARED = 1 << 20 };

// What a mark begins with, which is no entry's length.
static const uint64_t MARKS = UINT64_MAX;

// A slot as it was read: its bytes, or nothing; what was found in it, and the last checksum.
typedef struct slot {
    markring_slot_found what;
    uint64_t seal;
    uint64_t base; // the checksum of the value, or of what its length says
    store_value value;
} slot;

static void forget(store *it, uint64_t number)
{
    it->folder = it->slots[0] = it->slots[1] = -1;
    it->size = 0;
    markring_slots_create(&it->state, number);
}

void store_close(store *it)
{
    for (int i = 0; i < 2; i++) {
        if (it->slots[i] >= 0) {
            it->calls.close(it->calls.context, it->slots[i]);
        }
    }
    if (it->folder >= 0) {
        it->calls.close(it->calls.context, it->folder);
    }
    forget(it, 0);
}

store_status store_fail(store *it, int64_t error)
{
    it->cause = error < 0 ? (int)-error : EIO;
    return STORE_FAILED;
}

static store_status close_with(store *it, store_status status)
{
    store_close(it);
    return status;
}

static store_status lock(store *it, int descriptor)
{
    int locked = it->calls.lock(it->calls.context, descriptor);
    return locked == 0 ? STORE_OK : locked == -EWOULDBLOCK ? STORE_LOCKED : store_fail(it, locked);
}

// Opens the folder, and locks it as earlier versions do. That isn't possible on every file system;
// the lock that counts is that of the first slot.
static store_status enter(store *it, const char *path)
{
    it->folder = it->calls.open_folder(it->calls.context, path);
    if (it->folder < 0) {
        return it->folder == -ENOENT || it->folder == -ENOTDIR ? STORE_ABSENT
                                                               : store_fail(it, it->folder);
    }
    return lock(it, it->folder) == STORE_LOCKED ? STORE_LOCKED : STORE_OK;
}

// Opens the slots, and locks the first one.
static store_status open_slots(store *it, int create)
{
    for (int i = 0; i < 2; i++) {
        it->slots[i] = it->calls.open_file(it->calls.context, it->folder, NAMES[i], create);
        if (it->slots[i] < 0 && (it->slots[i] != -ENOENT || create)) {
            return store_fail(it, it->slots[i]);
        }
    }
    return it->slots[0] >= 0 ? lock(it, it->slots[0]) : STORE_OK;
}

store_status store_sync(store *it, int file)
{
    int status;
    do {
        status = it->calls.sync(it->calls.context, file);
    } while (status == -EINTR);
    if (status == 0) {
        return STORE_OK;
    }
    (void)store_fail(it, status);
    return STORE_UNKNOWN;
}

static store_status sync_names(store *it)
{
    int status = it->calls.sync_names(it->calls.context, it->folder);
    if (status == 0) {
        return STORE_OK;
    }
    (void)store_fail(it, status);
    return STORE_UNKNOWN;
}

store_status store_write_all(
    store *it, int file, const uint8_t *bytes, size_t length, uint64_t offset)
{
    size_t done = 0;
    while (done < length) {
        int64_t count = it->calls.write_at(
            it->calls.context, file, bytes + done, length - done, offset + done);
        if (count == 0 || (count < 0 && count != -EINTR)) {
            return store_fail(it, count);
        }
        done += count > 0 ? (size_t)count : 0;
    }
    return STORE_OK;
}

// Makes the slot that counts longer, if the next entry will. If that fails, the file stays shorter.
static void lengthen(store *it)
{
    static const uint8_t zeros[ZEROS];
    uint64_t end;
    if (markring_slots_zeros(&it->state, &end) == 0) {
        return;
    }
    it->size = it->size > end ? it->size : end;
    while (it->size == end && end % STEP != 0) {
        size_t count = ZEROS - (size_t)(end % ZEROS);
        if (store_write_all(it, it->slots[it->state.counts], zeros, count, end) != STORE_OK) {
            return;
        }
        end += count;
        it->size = end;
    }
}

// An entry's checksum begins with the one before it, so bytes of earlier saves that follow aren't taken
// for entries.
store_bytes store_seal_entry(store_value *value, uint64_t number, uint64_t before)
{
    uint8_t *entry = value->buffer + STORE_HEAD - ENTRY_HEAD;
    writer head = writer_of(entry, ENTRY_HEAD);
    write_number(&head, value->length, 8);
    write_number(&head, number, 8);
    size_t length = ENTRY_HEAD + value->length;
    uint64_t seal = XXH3_64bits_withSeed(entry, length, before);
    writer tail = writer_of(entry + length, STORE_TAIL);
    write_number(&tail, seal, 8);
    return (store_bytes){entry, length + STORE_TAIL, seal};
}

store_bytes store_seal_whole(store_value *value, uint64_t number)
{
    writer head = writer_of(value->buffer, STORE_HEAD);
    write_bytes(&head, MAGIC, sizeof MAGIC);
    write_number(&head, value->length, 8);
    write_number(&head, number, 8);
    size_t length = STORE_HEAD + value->length;
    uint64_t seal = XXH3_64bits(value->buffer, length);
    writer tail = writer_of(value->buffer + length, STORE_TAIL);
    write_number(&tail, seal, 8);
    return (store_bytes){value->buffer, length + STORE_TAIL, seal};
}

store_status store_put(store *it, const markring_slot_target *place, const store_bytes *what)
{
    int file = it->slots[place->slot];
    store_status status = store_write_all(it, file, what->bytes, what->length, place->offset);
    if (status == STORE_OK) {
        lengthen(it);
        status = store_sync(it, file);
    }
    if (status == STORE_OK) {
        markring_slots_stored(&it->state, what->seal);
    } else if (status == STORE_UNKNOWN) {
        markring_slots_doubt(&it->state);
    } else if (markring_slots_failed(&it->state) == 0) {
        status = STORE_UNKNOWN;
    }
    return status;
}

// Writes a mark behind what was synced: the number of that save, the length of the value, and a
// checksum that begins with the value's. The next entry is written over it. It needs no sync: it
// may be lost. If it is there, what is before it was whole, and no crash can have torn it.
void store_put_mark(store *it)
{
    uint8_t bytes[MARK_HEAD + STORE_TAIL];
    markring_slot_mark mark;
    if (markring_slots_mark(&it->state, &mark) == 0) {
        return;
    }
    writer to = writer_of(bytes, sizeof bytes);
    write_number(&to, MARKS, 8);
    write_number(&to, mark.number, 8);
    write_number(&to, mark.length, 8);
    write_number(&to, XXH3_64bits_withSeed(bytes, MARK_HEAD, mark.base), STORE_TAIL);
    (void)store_write_all(it, it->slots[mark.slot], bytes, sizeof bytes, mark.offset);
}

store_status store_save(store *it, store_value *value)
{
    markring_slot_target place;
    int may = value->is_entry ? markring_slots_entry(&it->state, value->length, &place)
                              : markring_slots_whole(&it->state, value->length, &place);
    if (may == 0) {
        return store_fail(it, -EINVAL);
    }
    store_bytes what = value->is_entry ? store_seal_entry(value, place.number, place.before)
                                       : store_seal_whole(value, place.number);
    store_status status = store_put(it, &place, &what);
    if (status == STORE_OK) {
        it->size = value->is_entry ? it->size : it->state.end;
        store_put_mark(it);
    }
    return status;
}

// Refuses a folder that has a slot with a byte in it.
static store_status test_empty(store *it)
{
    for (int i = 0; i < 2; i++) {
        int64_t size = it->calls.size(it->calls.context, it->slots[i]);
        if (size != 0) {
            return size > 0 ? STORE_EXISTS : store_fail(it, size);
        }
    }
    return STORE_OK;
}

store_status store_create(store *it, const store_calls *calls, const char *path, store_value *value)
{
    return store_create_after(it, calls, path, value, 0);
}

store_status store_create_after(
    store *it, const store_calls *calls, const char *path, store_value *value, uint64_t number)
{
    it->calls = *calls;
    it->cause = 0;
    forget(it, number);
    int made = calls->make_folder(calls->context, path);
    if (made != 0 && made != -EEXIST) {
        return store_fail(it, made);
    }
    store_status status = enter(it, path);
    if (status == STORE_OK) {
        status = open_slots(it, 1);
    }
    if (status == STORE_OK) {
        status = test_empty(it);
    }
    if (status == STORE_OK) {
        status = store_save(it, value);
    }
    if (status == STORE_OK) {
        status = sync_names(it);
    }
    return status == STORE_OK ? STORE_OK : close_with(it, status);
}

store_status store_read_all(
    store *it, int file, uint8_t *bytes, size_t length, uint64_t offset)
{
    size_t done = 0;
    while (done < length) {
        int64_t count =
            it->calls.read_at(it->calls.context, file, bytes + done, length - done, offset + done);
        if (count == 0 || (count < 0 && count != -EINTR)) {
            return store_fail(it, count);
        }
        done += count > 0 ? (size_t)count : 0;
    }
    return STORE_OK;
}

// Reads the checksum behind this many bytes. Returns whether it is theirs.
static bool is_sealed(reader *from, uint64_t length, uint64_t seal, uint64_t *found)
{
    const uint8_t *start = from->at;
    if (!from->ok || length > SIZE_MAX || read_bytes(from, (size_t)length) == NULL) {
        return false;
    }
    *found = read_number(from, STORE_TAIL);
    return from->ok && *found == XXH3_64bits_withSeed(start, (size_t)length, seal);
}

// The number of the entry at this place, if it is whole and the checksum before it is this one; or
// 0. Then `*seal` is its checksum, and `*end` the offset of its end.
static uint64_t entry_at(
    const store_value *value, size_t at, uint64_t before, uint64_t *seal, size_t *end)
{
    if (at > value->room) {
        return 0;
    }
    reader rest = reader_of(value->buffer + at, value->room - at), whole = rest;
    uint64_t length = read_number(&rest, 8), number = read_number(&rest, 8);
    if (!rest.ok || length > rest.left || !is_sealed(&whole, ENTRY_HEAD + length, before, seal)) {
        return 0;
    }
    *end = at + ENTRY_HEAD + (size_t)length + STORE_TAIL;
    return number;
}

// Finds the entries behind a value.
static void find_entries(slot *found)
{
    store_value *value = &found->value;
    size_t end;
    uint64_t seal, number = entry_at(value, value->end, found->seal, &seal, &end);
    while (markring_slots_found_entry(&found->what, number) != 0) {
        found->seal = seal;
        value->end = end;
        number = entry_at(value, value->end, found->seal, &seal, &end);
    }
}

// Finds out whether the bytes of a file are a whole slot, and finds the end of its entries.
static void find_whole(slot *found)
{
    store_value *value = &found->value;
    reader head = reader_of(value->buffer, value->room), whole = head;
    const uint8_t *magic = read_bytes(&head, sizeof MAGIC);
    uint64_t length = read_number(&head, 8), number = read_number(&head, 8);
    if (!head.ok || length > head.left || head.left - length < STORE_TAIL) {
        return;
    }
    value->length = (size_t)length;
    found->base = XXH3_64bits(value->buffer, STORE_HEAD + value->length);
    bool is_known = memcmp(magic, MAGIC, sizeof MAGIC - 1) == 0
        && (magic[sizeof MAGIC - 1] == FIRST_VERSION
            || magic[sizeof MAGIC - 1] == MAGIC[sizeof MAGIC - 1]);
    if (!is_known || !is_sealed(&whole, STORE_HEAD + length, 0, &found->seal)) {
        return;
    }
    markring_slots_found_value(&found->what, magic[sizeof MAGIC - 1], number);
    value->end = STORE_HEAD + value->length + STORE_TAIL;
    find_entries(found);
}

bool store_read_bytes(uint8_t *bytes, size_t length, store_found *to)
{
    slot found;
    memset(&found, 0, sizeof found);
    found.value.buffer = bytes;
    found.value.room = length;
    find_whole(&found);
    if (found.what.version != MAGIC[sizeof MAGIC - 1] || found.value.end != length) {
        return false;
    }
    *to = (store_found){found.value, found.what.number, found.seal};
    return true;
}

// ## Rot
//
// A crash damages what was being written, and nothing before it. So a mark, or an entry, behind
// something that isn't whole shows that this was whole once. Values and entries hold bytes that
// programs choose, so what is taken for a mark or an entry fits in more than its checksum.

// The number of the mark at this place; 0 if there isn't one. In a value that isn't whole, one byte
// may have changed: of its checksum, or of something else.
static uint64_t mark_at(const slot *found, size_t at)
{
    const store_value *value = &found->value;
    reader from = reader_of(value->buffer + at, value->room - at), whole = from;
    uint64_t seal, start = read_number(&from, 8), number = read_number(&from, 8);
    uint64_t length = read_number(&from, 8);
    bool is_of_value = found->what.version != 0 ? length == value->length
                                                : length <= value->room - STORE_HEAD - STORE_TAIL;
    if (!from.ok || start != MARKS || !is_of_value) {
        return 0;
    }
    reader base = reader_of(value->buffer + STORE_HEAD + length, STORE_TAIL), again = whole;
    bool is_whole = is_sealed(&whole, MARK_HEAD, read_number(&base, STORE_TAIL), &seal)
        || (length == value->length && is_sealed(&again, MARK_HEAD, found->base, &seal));
    return is_whole ? number : 0;
}

// Finds the marks from this place on.
static void find_marks(slot *found, size_t at)
{
    const store_value *value = &found->value;
    const uint8_t *next = memchr(value->buffer + at, 0xFF, value->room - at);
    while (next != NULL) {
        at = (size_t)(next - value->buffer);
        markring_slots_found_mark(&found->what, mark_at(found, at));
        next = memchr(next + 1, 0xFF, value->room - at - 1);
    }
}

// Finds an entry behind the value or the entry at this place, which isn't whole. One byte may have
// changed: of its checksum, or of its content.
static void find_behind(slot *found, size_t at, size_t head, uint64_t before)
{
    const store_value *value = &found->value;
    reader from = reader_of(value->buffer + at, value->room - at);
    size_t end = 0;
    (void)read_bytes(&from, head - ENTRY_HEAD);
    uint64_t length = read_number(&from, 8), number = read_number(&from, 8), seal;
    if (!from.ok || length > from.left || from.left - length < STORE_TAIL) {
        return;
    }
    (void)read_bytes(&from, (size_t)length);
    size_t next = at + head + (size_t)length + STORE_TAIL;
    uint64_t behind = entry_at(value, next, read_number(&from, STORE_TAIL), &seal, &end);
    if (behind == 0) {
        before = XXH3_64bits_withSeed(value->buffer + at, head + (size_t)length, before);
        behind = entry_at(value, next, before, &seal, &end);
    }
    markring_slots_found_behind(&found->what, number, behind);
}

// Finds out which saves were whole for sure, beyond those that are.
static void find_synced(slot *found)
{
    bool is_whole = found->what.version != 0;
    size_t at = is_whole ? found->value.end : 0;
    find_marks(found, at);
    find_behind(found, at, is_whole ? ENTRY_HEAD : STORE_HEAD, is_whole ? found->seal : 0);
}

// Makes that a file is read directly, or as usual. Some file systems can't read directly.
static store_status read_directly(store *it, int file, int on, bool *done)
{
    int status = it->calls.read_directly(it->calls.context, file, on);
    *done = status == 0;
    return status == 0 || (on && status == -EINVAL) ? STORE_OK : store_fail(it, status);
}

// Compares these bytes with those of the file, as it is read now.
static store_status compare(store *it, int file, const uint8_t *bytes, size_t length)
{
    size_t room = length < COMPARED ? length : COMPARED, done = 0;
    uint8_t *part = malloc(room);
    store_status status = part != NULL ? STORE_OK : STORE_MEMORY;
    while (done < length && status == STORE_OK) {
        size_t left = length - done < room ? length - done : room;
        int64_t count = it->calls.read_at(it->calls.context, file, part, left, done);
        if (count < 0 && count != -EINTR) {
            status = store_fail(it, count);
        } else if (count == 0 || (count > 0 && memcmp(part, bytes + done, (size_t)count) != 0)) {
            status = STORE_STALE;
        }
        done += count > 0 ? (size_t)count : 0;
    }
    free(part);
    return status;
}

// Compares what was read, perhaps from memory, with the disk. Some file systems say only when they
// read that they can't do so directly.
static store_status compare_with_disk(store *it, int file, const uint8_t *bytes, size_t length)
{
    bool is_direct, is_usual;
    store_status status = read_directly(it, file, 1, &is_direct);
    if (status != STORE_OK || !is_direct) {
        return status;
    }
    status = compare(it, file, bytes, length);
    if (status == STORE_FAILED && it->cause == EINVAL) {
        status = STORE_OK;
    }
    store_status after = read_directly(it, file, 0, &is_usual);
    return status == STORE_OK ? after : status;
}

// Reads a slot. `found->value.buffer` is NULL if it isn't whole.
static store_status read_slot(store *it, int file, slot *found)
{
    memset(found, 0, sizeof *found);
    int64_t size = it->calls.size(it->calls.context, file);
    if (size < 0) {
        return store_fail(it, size);
    }
    if (size < STORE_HEAD + STORE_TAIL) {
        return STORE_OK;
    }
    found->value.room = (size_t)size;
    found->value.buffer = malloc(found->value.room);
    if (found->value.buffer == NULL) {
        return STORE_MEMORY;
    }
    store_status status = store_read_all(it, file, found->value.buffer, found->value.room, 0);
    if (status == STORE_OK) {
        status = compare_with_disk(it, file, found->value.buffer, found->value.room);
    }
    if (status == STORE_OK) {
        find_whole(found);
        find_synced(found);
    }
    if (found->what.version == 0) {
        free(found->value.buffer);
        found->value.buffer = NULL;
    }
    return status;
}

// Brings what is in memory to the disk, and reads what is there.
static store_status read_synced(store *it, int file, slot *found)
{
    if (file < 0) {
        return STORE_OK;
    }
    store_status status = store_sync(it, file);
    if (status == STORE_OK) {
        int forgotten = it->calls.forget(it->calls.context, file);
        status = forgotten == 0 ? STORE_OK : store_fail(it, forgotten);
    }
    return status == STORE_OK ? read_slot(it, file, found) : status;
}

// Takes the slot that counts, of two that were read.
static store_status choose(store *it, slot *found, store_value *value)
{
    int choice = markring_slots_choose(&found[0].what, &found[1].what);
    if (choice == MARKRING_SLOTS_DAMAGED) {
        return STORE_DAMAGED;
    }
    slot *last = &found[choice];
    markring_slots_open(&it->state, (uint8_t)choice, &last->what, last->value.end, last->seal,
        last->base, last->value.length);
    it->size = last->value.room;
    *value = last->value;
    value->whole = markring_slots_wholes_due(&last->what, &found[1 - choice].what);
    last->value.buffer = NULL;
    return STORE_OK;
}

static store_status read_both(store *it, store_value *value)
{
    slot found[2];
    memset(found, 0, sizeof found);
    store_status status = STORE_OK;
    for (int i = 0; i < 2 && status == STORE_OK; i++) {
        status = read_synced(it, it->slots[i], &found[i]);
    }
    // Names are synced after the files: a name without its file's bytes would be a torn slot.
    if (status == STORE_OK) {
        status = sync_names(it);
    }
    if (status == STORE_OK) {
        status = choose(it, found, value);
    }
    free(found[0].value.buffer);
    free(found[1].value.buffer);
    return status;
}

store_status store_open(store *it, const store_calls *calls, const char *path, store_value *value)
{
    it->calls = *calls;
    it->cause = 0;
    forget(it, 0);
    store_value found;
    memset(&found, 0, sizeof found);
    store_status status = enter(it, path);
    if (status == STORE_OK) {
        status = open_slots(it, 0);
    }
    if (status == STORE_OK && it->slots[0] < 0 && it->slots[1] < 0) {
        status = STORE_ABSENT;
    }
    if (status == STORE_OK) {
        status = read_both(it, &found);
    }
    if (status == STORE_OK && (it->slots[0] < 0 || it->slots[1] < 0)) {
        free(found.buffer);
        status = STORE_DAMAGED;
    }
    if (status != STORE_OK) {
        return close_with(it, status);
    }
    *value = found;
    return STORE_OK;
}

const uint8_t *store_next(const store_value *value, size_t *at, size_t *length)
{
    size_t start = *at != 0 ? *at : STORE_HEAD + value->length + STORE_TAIL;
    if (start >= value->end) {
        return NULL;
    }
    reader head = reader_of(value->buffer + start, value->end - start);
    *length = (size_t)read_number(&head, 8);
    *at = start + ENTRY_HEAD + *length + STORE_TAIL;
    return value->buffer + start + ENTRY_HEAD;
}

const char *store_text(store_status status)
{
    switch (status) {
    case STORE_OK: return "ok";
    case STORE_MEMORY: return "out of memory";
    case STORE_ABSENT: return "there is no node in this folder";
    case STORE_EXISTS: return "there is a node in this folder already";
    case STORE_LOCKED: return "another process has this folder";
    case STORE_DAMAGED: return "the files a and b are damaged";
    case STORE_STALE: return "memory has what the disk hasn't, since a sync failed";
    case STORE_FAILED: return "a call to the system failed";
    case STORE_TAKEN: return "another process has taken over";
    case STORE_UNKNOWN: return "a sync failed";
    case STORE_ADDRESS: return "the address can't be read, or doesn't say which node";
    case STORE_PASSWORD: return "there is a password in the address";
    case STORE_LIBRARY: return "there is no client library of PostgreSQL";
    case STORE_AWAY: return "no server takes a connection";
    case STORE_DENIED: return "the server refuses this user or this database";
    case STORE_NO_SCHEMA: return "there is no schema in this database";
    case STORE_EARLIER: return "the schema is of an earlier version";
    case STORE_LATER: return "the schema is of a later version";
    case STORE_READS: return "the server takes no changes";
    case STORE_FORGETS: return "the server forgets what it has committed";
    case STORE_FULL: return "the server's disk is full";
    case STORE_OTHER: return "this is the value of another node or another space";
    case STORE_MISSING: return "pieces of the node are missing";
    default: return "unknown";
    }
}
