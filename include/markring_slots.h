// How a folder keeps what is saved, for whoever writes a store of their own: in two files, its
// slots. Each holds a whole value and entries behind it, which say what has changed since. One slot
// counts; the other one holds something older, or what is being written. These calls say to which
// place each save is written, what counts once it is synced, and what counts at an opening. They
// are proved (crate `slots`). libmarkring-host asks them (markring_host.h, "Stores"), and
// docs/FORMATS.md ("Folders of processes") has its bytes.
//
// # What a store owes
//
// - It keeps a markring_slots and changes it by these calls alone. One process at a time has a
//   folder.
// - A save writes what markring_slots_entry or markring_slots_whole says, there; then it syncs that
//   file; then it calls markring_slots_stored. If a write fails, it calls markring_slots_failed in
//   place of that; if a sync fails, markring_slots_doubt, and then nothing more.
// - Each value and each entry begins with its length and its number, and ends with its seal: a
//   checksum of all of it, which for an entry begins with the seal before. No torn write may have a
//   right seal.
// - Marks and zeros are written to the places that these calls say. They need no sync.
// - An opening syncs both files and reads them as the disk has them. It puts what it finds whole
//   into a markring_slot_found each, in order, and asks markring_slots_choose.
// - A rewrite writes and syncs a value without its head, and copies of entries with new seals
//   behind one another, as these calls say. The save that ends it syncs what is left to be copied
//   and its entry, then calls markring_slots_stored; then it writes and syncs the head, and calls
//   that again. A save of a whole value ends each rewrite: whoever writes for it stops before.
//
// Then an opening finds the last save that was stored, or one that was begun after it; and it is
// never said that a folder is damaged which a crash has left (`slots::laws`).
//
// These calls can't fail otherwise than they say, take any numbers, and take no memory. Each
// pointer is valid and isn't null, and no two are the same. One thread at a time uses a
// markring_slots or a markring_slot_rewrite. A slot is 0 or 1.
#ifndef MARKRING_SLOTS_H
#define MARKRING_SLOTS_H

#include <stdint.h>

#ifdef __cplusplus
extern "C" {
#endif

// The slots of an open folder: the number of the last save, also of one that failed. Of the slot
// that counts: the end of its last entry, the seal of that, and the seal and the length of its
// value.
typedef struct markring_slots {
    uint64_t number;
    uint64_t end;
    uint64_t seal;
    uint64_t base;
    uint64_t length;
    uint64_t next_end;
    uint64_t next_base;
    uint64_t next_length;
    uint64_t turns;
    uint8_t counts;
    uint8_t phase;
} markring_slots;

// The place of something that is written, the number of its save, and the seal with which its own
// begins.
typedef struct markring_slot_target {
    uint64_t offset;
    uint64_t number;
    uint64_t before;
    uint8_t slot;
} markring_slot_target;

// A mark: the number of a save that was synced, and the length and the seal of the value, with
// which its own begins.
typedef struct markring_slot_mark {
    uint64_t offset;
    uint64_t number;
    uint64_t length;
    uint64_t base;
    uint8_t slot;
} markring_slot_mark;

// The slots of a new folder, whose first save has the number after this one. It is a whole value.
void markring_slots_create(markring_slots *slots, uint64_t number);

// An entry of this length is to be saved. Returns 1 and its place, or 0 and changes nothing. It is
// 0 if a save is under way; if one has failed and no whole value was stored since; if the value is
// of version 1; if a sync has failed; or if a number would be too high.
int markring_slots_entry(markring_slots *slots, uint64_t length, markring_slot_target *place);

// The same for a whole value, which may follow a save that failed.
int markring_slots_whole(markring_slots *slots, uint64_t length, markring_slot_target *place);

// What the save under way has written is synced, and its seal is this one. So it counts; or, if it
// ends a rewrite, its head is to be written now.
void markring_slots_stored(markring_slots *slots, uint64_t seal);

// A write of the save under way has failed. Returns 1 if what counted still does; 0 if nobody
// knows, since it was that of a head. Then nothing is saved any more.
int markring_slots_failed(markring_slots *slots);

// A sync has failed: nobody knows what counts, and nothing is saved any more.
void markring_slots_doubt(markring_slots *slots);

// The offset from which on zeros may be written in the slot that counts, behind the entry under
// way: 1; or 0 without one.
int markring_slots_zeros(const markring_slots *slots, uint64_t *offset);

// The mark of the last save: 1; or 0 if it isn't known that this is stored.
int markring_slots_mark(const markring_slots *slots, markring_slot_mark *mark);

// # Rewrites

// A rewrite: the number of the save that its value holds. In the slot that counts: the offset up to
// which it has copied, and the seal before that. In the other slot: the seals of the value and of
// the last copy, the length of the value, and the offset of the next copy (0 before the value is
// written).
typedef struct markring_slot_rewrite {
    uint64_t turn;
    uint64_t number;
    uint64_t from_end;
    uint64_t from_seal;
    uint64_t base;
    uint64_t seal;
    uint64_t length;
    uint64_t end;
    uint8_t from;
} markring_slot_rewrite;

// Bytes of entries: how many, from which offset of the slot that counts, to which of the other one.
typedef struct markring_slot_copying {
    uint64_t length;
    uint64_t from;
    uint64_t to;
    uint8_t from_slot;
    uint8_t to_slot;
} markring_slot_copying;

// Begins a rewrite of what is stored, and ends any other one: 1; or 0, as markring_slots_entry.
int markring_slots_rewrite(markring_slots *slots, markring_slot_rewrite *rewrite);

// The place of its value, which is written without its head: 1; or 0 if it is written already.
int markring_slots_rewrite_value(
    const markring_slot_rewrite *rewrite, uint64_t length, markring_slot_target *place);

// The value is written and synced, and this is its seal.
void markring_slots_rewrite_written(
    markring_slot_rewrite *rewrite, uint64_t length, uint64_t seal);

// What is to be copied of the entries up to this offset, the end of a stored one: 1; or 0 if no
// value is written, or more is copied.
int markring_slots_rewrite_copy(
    const markring_slot_rewrite *rewrite, uint64_t end, markring_slot_copying *copying);

// They are written. These are the last seals of what was copied, and of the copies.
void markring_slots_rewrite_copied(
    markring_slot_rewrite *rewrite, uint64_t end, uint64_t from_seal, uint64_t seal);

// The entry that ends a rewrite, behind its copies: 1 and its place; or 0, as markring_slots_entry,
// or if the rewrite is over, or hasn't copied all entries.
int markring_slots_last(markring_slots *slots, const markring_slot_rewrite *rewrite,
    uint64_t length, markring_slot_target *place);

// The place of the head, once the entry that ends a rewrite was stored: 1; or 0 if none is due.
int markring_slots_head(const markring_slots *slots, markring_slot_target *place);

// # Openings

// What is found in a slot: the number of its last save; the highest number of a save that was whole
// for sure; and the version of its value, 1 or 2. All are 0 before anything is found.
typedef struct markring_slot_found {
    uint64_t number;
    uint64_t synced;
    uint8_t version;
} markring_slot_found;

// The slot has a whole value.
void markring_slots_found_value(markring_slot_found *found, uint8_t version, uint64_t number);

// Behind that is a whole entry, sealed over the seal before: 1 if it belongs there. If not, the
// slot ends before it.
int markring_slots_found_entry(markring_slot_found *found, uint64_t number);

// Behind that is a whole mark of this value.
void markring_slots_found_mark(markring_slot_found *found, uint64_t number);

// Behind that is something that isn't whole, and behind this a whole entry of the number `behind`,
// sealed over it. If no value is whole, the first one has the number `claimed` in it.
void markring_slots_found_behind(markring_slot_found *found, uint64_t claimed, uint64_t behind);

enum markring_slots_choice {
    MARKRING_SLOTS_FIRST = 0,
    MARKRING_SLOTS_SECOND = 1,
    // Neither slot is whole, or both have the same number; or something was whole that isn't now.
    MARKRING_SLOTS_DAMAGED = 2
};

// Which slot counts: the one whose last save has the higher number.
int markring_slots_choose(const markring_slot_found *first, const markring_slot_found *second);

// How many saves have to be whole values, since a slot is of version 1, if the first of these
// counts.
int markring_slots_wholes_due(const markring_slot_found *counts, const markring_slot_found *other);

// The slots of a folder in which this one counts: the end of what was found in it, its last seal,
// and the seal and the length of its value.
void markring_slots_open(markring_slots *slots, uint8_t slot, const markring_slot_found *found,
    uint64_t end, uint64_t seal, uint64_t base, uint64_t length);

#ifdef __cplusplus
}
#endif

#endif
