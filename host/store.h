// The store of markring_host.h, under the names that the host's own sources use.
#ifndef HOST_STORE_H
#define HOST_STORE_H

#include <markring_host.h>

typedef markring_store store;
typedef markring_store_calls store_calls;
typedef markring_store_rewrite store_rewrite;
typedef markring_store_status store_status;
typedef markring_store_value store_value;

#define store_close markring_store_close
#define store_create markring_store_create
#define store_next markring_store_next
#define store_open markring_store_open
#define store_rewrite_begin markring_store_rewrite_begin
#define store_rewrite_end markring_store_rewrite_end
#define store_rewrite_follow markring_store_rewrite_follow
#define store_rewrite_read markring_store_rewrite_read
#define store_rewrite_write markring_store_rewrite_write
#define store_save markring_store_save
#define store_text markring_store_text
#define STORE_SYSTEM MARKRING_STORE_SYSTEM

#define STORE_HEAD MARKRING_STORE_HEAD
#define STORE_TAIL MARKRING_STORE_TAIL
#define STORE_OK MARKRING_STORE_OK
#define STORE_MEMORY MARKRING_STORE_MEMORY
#define STORE_ABSENT MARKRING_STORE_ABSENT
#define STORE_EXISTS MARKRING_STORE_EXISTS
#define STORE_LOCKED MARKRING_STORE_LOCKED
#define STORE_DAMAGED MARKRING_STORE_DAMAGED
#define STORE_STALE MARKRING_STORE_STALE
#define STORE_FAILED MARKRING_STORE_FAILED
#define STORE_UNKNOWN MARKRING_STORE_UNKNOWN
#define STORE_TAKEN MARKRING_STORE_TAKEN
#define STORE_ADDRESS MARKRING_STORE_ADDRESS
#define STORE_PASSWORD MARKRING_STORE_PASSWORD
#define STORE_LIBRARY MARKRING_STORE_LIBRARY
#define STORE_AWAY MARKRING_STORE_AWAY
#define STORE_DENIED MARKRING_STORE_DENIED
#define STORE_NO_SCHEMA MARKRING_STORE_NO_SCHEMA
#define STORE_EARLIER MARKRING_STORE_EARLIER
#define STORE_LATER MARKRING_STORE_LATER
#define STORE_READS MARKRING_STORE_READS
#define STORE_FORGETS MARKRING_STORE_FORGETS
#define STORE_FULL MARKRING_STORE_FULL
#define STORE_OTHER MARKRING_STORE_OTHER
#define STORE_MISSING MARKRING_STORE_MISSING

// ## What the parts of the store share

// Before an entry: its length and its number.
enum { STORE_ENTRY_HEAD = 16 };

// The bytes of a value or an entry with what is around it, and its seal.
typedef struct store_bytes {
    uint8_t *bytes;
    size_t length;
    uint64_t seal;
} store_bytes;

// A call failed with this negative errno; or with 0, if it moved nothing.
store_status store_fail(store *it, int64_t error);
store_status store_sync(store *it, int file);
store_status store_write_all(
    store *it, int file, const uint8_t *bytes, size_t length, uint64_t offset);
store_status store_read_all(store *it, int file, uint8_t *bytes, size_t length, uint64_t offset);
// Shows behind what was synced that it was, if it is known.
void store_put_mark(store *it);

// Writes and syncs what is to be saved at this place, with which the save, or a part of it, is over.
// STORE_FAILED, STORE_UNKNOWN.
store_status store_put(store *it, const markring_slot_target *place, const store_bytes *what);

// ## For places other than folders
//
// Such a place has the bytes of a slot: a whole value and the entries behind it, each with its head
// and its seal.

// Writes head and seal into the room around a value, or around an entry; `before` is the seal
// before it.
store_bytes store_seal_whole(store_value *value, uint64_t number);
store_bytes store_seal_entry(store_value *value, uint64_t number, uint64_t before);

// A value that was read, the number of its last save, and the last seal.
typedef struct store_found {
    store_value value;
    uint64_t number, seal;
} store_found;

// Reads the bytes of a slot, which become those of the value. Returns whether all of them are a
// whole value and whole entries.
bool store_read_bytes(uint8_t *bytes, size_t length, store_found *to);

// Puts seals that begin behind `*new` into these entries, in place of those that they have, which
// begin behind `*old`; both are then those of the last entry. Returns whether all are whole entries.
bool store_seal_again(uint8_t *bytes, size_t length, uint64_t *old, uint64_t *new);

// Like store_create, but the number of the save is the one after `number`.
store_status store_create_after(
    store *it, const store_calls *calls, const char *path, store_value *value, uint64_t number);

#endif
