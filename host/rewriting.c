// A whole value in place of another one and its entries, written while more entries are added.
#include "store.h"

#include "bytes.h"

#include <errno.h>
#include <stdlib.h>

#define XXH_INLINE_ALL
#include <xxhash.h>

// The saver's syncs wait for what this one has written. So that is never more than a PART.
enum { ENTRY_HEAD = STORE_ENTRY_HEAD, PART = 1 << 20 };

store_status store_rewrite_begin(store *it, store_rewrite *to)
{
    memset(to, 0, sizeof *to);
    to->from = *it;
    return markring_slots_rewrite(&it->state, &to->state) != 0 ? STORE_OK : store_fail(it, -EINVAL);
}

store_status store_rewrite_read(store_rewrite *it, store_value *value)
{
    store *from = &it->from;
    const markring_slots *was = &from->state;
    store_found found;
    size_t length = (size_t)was->end;
    uint8_t *bytes = malloc(length);
    if (bytes == NULL) {
        return STORE_MEMORY;
    }
    store_status status = store_read_all(from, from->slots[was->counts], bytes, length, 0);
    if (status == STORE_OK
        && (!store_read_bytes(bytes, length, &found) || found.number != was->number
            || found.seal != was->seal)) {
        status = STORE_DAMAGED;
    }
    if (status != STORE_OK) {
        free(bytes);
        return status;
    }
    *value = found.value;
    return STORE_OK;
}

// Writes and syncs, one part after another.
static store_status write_parts(
    store *it, int file, const uint8_t *bytes, size_t length, uint64_t offset)
{
    store_status status = STORE_OK;
    for (size_t at = 0; at < length && status == STORE_OK; at += PART) {
        size_t count = length - at < PART ? length - at : PART;
        status = store_write_all(it, file, bytes + at, count, offset + at);
        status = status == STORE_OK ? store_sync(it, file) : status;
    }
    return status;
}

// The head is written last: without it, the slot isn't whole.
store_status store_rewrite_write(store_rewrite *it, store_value *whole)
{
    static const uint8_t none[STORE_HEAD];
    store *from = &it->from;
    markring_slot_target place;
    if (markring_slots_rewrite_value(&it->state, whole->length, &place) == 0) {
        return store_fail(from, -EINVAL);
    }
    store_bytes sealed = store_seal_whole(whole, place.number);
    memcpy(it->head, sealed.bytes, sizeof it->head);
    memcpy(sealed.bytes, none, sizeof none);
    store_status status =
        write_parts(from, from->slots[place.slot], sealed.bytes, sealed.length, place.offset);
    if (status == STORE_OK) {
        markring_slots_rewrite_written(&it->state, whole->length, sealed.seal);
    }
    return status;
}

bool store_seal_again(uint8_t *bytes, size_t length, uint64_t *old, uint64_t *new)
{
    size_t at = 0;
    while (at < length) {
        reader head = reader_of(bytes + at, length - at);
        uint64_t size = read_number(&head, 8);
        if (length - at < ENTRY_HEAD + STORE_TAIL
            || size > length - at - ENTRY_HEAD - STORE_TAIL) {
            return false;
        }
        size_t sealed = ENTRY_HEAD + (size_t)size;
        reader tail = reader_of(bytes + at + sealed, STORE_TAIL);
        *old = XXH3_64bits_withSeed(bytes + at, sealed, *old);
        if (read_number(&tail, STORE_TAIL) != *old) {
            return false;
        }
        *new = XXH3_64bits_withSeed(bytes + at, sealed, *new);
        writer to = writer_of(bytes + at + sealed, STORE_TAIL);
        write_number(&to, *new, STORE_TAIL);
        at += sealed + STORE_TAIL;
    }
    return true;
}

// How bytes are written: with syncs or without.
typedef store_status (*writing)(
    store *it, int file, const uint8_t *bytes, size_t length, uint64_t offset);

static store_status follow(store_rewrite *it, uint64_t end, writing write)
{
    store *from = &it->from;
    markring_slot_copying copy;
    if (markring_slots_rewrite_copy(&it->state, end, &copy) == 0) {
        return store_fail(from, -EINVAL);
    }
    size_t length = (size_t)copy.length;
    if (length == 0) {
        return STORE_OK;
    }
    uint8_t *bytes = malloc(length);
    if (bytes == NULL) {
        return STORE_MEMORY;
    }
    store_status status =
        store_read_all(from, from->slots[copy.from_slot], bytes, length, copy.from);
    uint64_t old = it->state.from_seal, new = it->state.seal;
    if (status == STORE_OK && !store_seal_again(bytes, length, &old, &new)) {
        status = STORE_DAMAGED;
    }
    if (status == STORE_OK) {
        status = write(from, from->slots[copy.to_slot], bytes, length, copy.to);
    }
    if (status == STORE_OK) {
        markring_slots_rewrite_copied(&it->state, end, old, new);
    }
    free(bytes);
    return status;
}

store_status store_rewrite_follow(store_rewrite *it, uint64_t end)
{
    return follow(it, end, write_parts);
}

store_status store_rewrite_end(store *it, store_rewrite *with, store_value *entry)
{
    markring_slot_target place;
    if (follow(with, it->state.end, store_write_all) != STORE_OK) {
        it->cause = with->from.cause;
        return STORE_FAILED;
    }
    if (markring_slots_last(&it->state, &with->state, entry->length, &place) == 0) {
        return store_fail(it, -EINVAL);
    }
    store_bytes what = store_seal_entry(entry, place.number, place.before);
    store_status status = store_put(it, &place, &what);
    if (status == STORE_OK && markring_slots_head(&it->state, &place) != 0) {
        what = (store_bytes){with->head, sizeof with->head, what.seal};
        status = store_put(it, &place, &what);
    }
    if (status == STORE_OK) {
        it->size = it->state.end;
        store_put_mark(it);
    }
    return status;
}
