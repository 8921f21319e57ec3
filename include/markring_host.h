// A node of an object space with all that runs it, except for how its packets travel:
// libmarkring-host. It is what markring-node is made of, for programs that have their own loop and
// their own transport. C11. docs/EMBEDDING.md ("Your loop, our host") says how to use it.
//
// There are three parts. A *store* keeps a node in a folder, safe against crashes. A *place* is
// such a folder, or a node's address in a PostgreSQL database. A *host* decides what is sent when,
// answers programs, collects, and says what is to be saved. Programs speak to it by requests of
// markring_remote.h, or are linked to it (markring_host_node).
#ifndef MARKRING_HOST_H
#define MARKRING_HOST_H

#include <markring.h>
#include <markring_slots.h>

#include <stdbool.h>

#ifdef __cplusplus
extern "C" {
#endif

// # Stores
//
// A folder in which one process keeps a value. It has two files, the slots `a` and `b`. A save
// overwrites the slot that doesn't count with a whole value, or adds an entry behind the value that
// counts, and behind its entries. The slot that counts is the whole one whose last save has the
// higher number; whether a value or an entry is whole is shown by a checksum of 64 bits. What a
// crash leaves of an entry that was being added isn't one, unless all of it is there.
// docs/FORMATS.md ("Folders of processes") has the bytes.
//
// Nothing here waits for another process, starts a thread or reads a clock. All system calls go
// through a table, so a test can put its own file system in their place.

// Room that a save needs before the value or the entry, and behind it.
enum { MARKRING_STORE_HEAD = 20, MARKRING_STORE_TAIL = 8 };

typedef enum markring_store_status {
    MARKRING_STORE_OK = 0,
    // An allocation failed. Nothing has changed.
    MARKRING_STORE_MEMORY,
    // There is no such folder, or it has no slots.
    MARKRING_STORE_ABSENT,
    // The folder that would be created has a slot already.
    MARKRING_STORE_EXISTS,
    // Another process has the folder.
    MARKRING_STORE_LOCKED,
    // Neither slot is whole, or both have the same number. Or what was saved last was whole, and
    // has changed since.
    MARKRING_STORE_DAMAGED,
    // Memory has what the disk hasn't, since a sync failed before, and somebody maps the files. The
    // same may be tried again.
    MARKRING_STORE_STALE,
    // A call failed, and what counted still counts. The same may be tried again. `cause` says why.
    MARKRING_STORE_FAILED,
    // A sync failed: nobody knows whether the new value or the old one is on the disk. The process
    // has to end, since another sync could succeed without having written. `cause` says why.
    MARKRING_STORE_UNKNOWN,
    // Another process has taken over, so nothing can be saved any more. A store in a folder doesn't
    // say so; a place in a database does, and one of the caller's own may.
    MARKRING_STORE_TAKEN,
    // What follows is of places in databases alone.
    //
    // The address can't be read, or doesn't say which node.
    MARKRING_STORE_ADDRESS,
    // There is a password in the address, which all users of the machine could see.
    MARKRING_STORE_PASSWORD,
    // PostgreSQL's client library can't be loaded.
    MARKRING_STORE_LIBRARY,
    // No server takes a connection now. The same may be tried again.
    MARKRING_STORE_AWAY,
    // The server refuses this user, this database, or what it is asked for.
    MARKRING_STORE_DENIED,
    // There is no schema; or it is of an earlier, or a later version.
    MARKRING_STORE_NO_SCHEMA,
    MARKRING_STORE_EARLIER,
    MARKRING_STORE_LATER,
    // The server takes no changes: it is a standby, or read-only.
    MARKRING_STORE_READS,
    // The server forgets what it has committed: synchronous_commit is off.
    MARKRING_STORE_FORGETS,
    // The server's disk is full.
    MARKRING_STORE_FULL,
    // The value is of another node, or of another space, than the address names.
    MARKRING_STORE_OTHER,
    // Pieces of the node that have to be there aren't.
    MARKRING_STORE_MISSING
} markring_store_status;

// The system calls. Each returns what it opened, how many bytes it moved, or 0; or a negative
// errno.
typedef struct markring_store_calls {
    void *context;
    int (*make_folder)(void *context, const char *path);
    int (*open_folder)(void *context, const char *path);
    // Takes the lock of an open folder or file, without waiting. Its end is that of the process, or
    // closing the descriptor.
    int (*lock)(void *context, int descriptor);
    // Writes the names in the folder, and those of the folder and of all above it, to the disk.
    // Above it, a file system may have nothing to write.
    int (*sync_names)(void *context, int folder);
    // Opens a file in a folder, and makes it if `create` isn't 0.
    int (*open_file)(void *context, int folder, const char *name, int create);
    int64_t (*size)(void *context, int file);
    int64_t (*read_at)(void *context, int file, uint8_t *bytes, size_t length, uint64_t offset);
    int64_t (*write_at)(
        void *context, int file, const uint8_t *bytes, size_t length, uint64_t offset);
    int (*sync)(void *context, int file);
    // Asks the system to drop from memory what it has of a file. It may keep what somebody maps.
    int (*forget)(void *context, int file);
    // Makes that a file is read from the disk, and not from memory; or, if `on` is 0, as usual. It
    // can't be written meanwhile. -EINVAL if the file system can't do that.
    int (*read_directly)(void *context, int file, int on);
    void (*close)(void *context, int descriptor);
} markring_store_calls;

// Those of the operating system.
extern const markring_store_calls MARKRING_STORE_SYSTEM;

typedef struct markring_store {
    markring_store_calls calls;
    int folder;
    int slots[2];
    markring_slots state; // which slot counts, and what it holds
    uint64_t size;        // of the file of that slot, at least
    int cause; // the errno of the last call that failed, also after the store was closed
} markring_store;

// A value with room around it: it begins at `buffer + MARKRING_STORE_HEAD`. `room` counts the value
// and the room around it.
//
// `is_entry` says that it isn't a value, but is to be added behind the one that counts.
//
// If it was read, the entries behind it end at `buffer + end`; markring_store_next reads them.
// `whole` is how many saves have to be whole values before an entry may be added: a slot of an
// earlier version can't have entries, and shouldn't stay either, since earlier versions would open
// it.
typedef struct markring_store_value {
    uint8_t *buffer;
    size_t length, room;
    bool is_entry;
    size_t end;
    int whole;
} markring_store_value;

// Makes the folder, unless it exists, and saves the first value in it. Only this user can read the
// folder and its files. It is locked then, and the number of the save is 1. After any other status
// the store is closed. MARKRING_STORE_EXISTS; MARKRING_STORE_LOCKED; MARKRING_STORE_FAILED;
// MARKRING_STORE_UNKNOWN. After the last two the folder may have slots that aren't whole: remove
// it, and create it again.
markring_store_status markring_store_create(markring_store *it, const markring_store_calls *calls,
    const char *path, markring_store_value *value);

// Locks the folder and reads what counts; the caller frees `value->buffer`. Both slots and their
// names are synced first, so that no failure can take back what was read. What memory has of the
// slots is compared with the disk, if the file system can read past memory. After a sync that
// failed, memory may have what the disk hasn't, and what is written over it may be lost too. After
// any other status the store is closed and `value` is as it was. MARKRING_STORE_ABSENT;
// MARKRING_STORE_LOCKED; MARKRING_STORE_DAMAGED; MARKRING_STORE_MEMORY; MARKRING_STORE_STALE;
// MARKRING_STORE_FAILED; MARKRING_STORE_UNKNOWN.
markring_store_status markring_store_open(markring_store *it, const markring_store_calls *calls,
    const char *path, markring_store_value *value);

// Saves a value, or adds an entry, with the next number. The bytes around it are overwritten.
// MARKRING_STORE_FAILED, MARKRING_STORE_UNKNOWN. After MARKRING_STORE_FAILED its number isn't used
// again: all of it may have been written, and it counts if the process ends before another save. The
// next one has to be a value then; an entry fails, and changes nothing.
markring_store_status markring_store_save(markring_store *it, markring_store_value *value);

// # Whole values while entries are added
//
// Once there are many entries behind a value, a whole value should take their place. A *rewrite*
// makes one while saves of entries go on: it reads back what counts, writes one value in its place
// into the slot that doesn't count, and the entries that were added meanwhile behind it. The save
// that ends it adds its entry there, and makes this slot the one that counts. Until then the other
// one counts, whatever fails and whenever the process ends.
//
// Begin a rewrite and end it in the thread that saves, with no save under way. The calls between may
// be made by another one. Save no whole value meanwhile; to give a rewrite up, forget it, and begin
// no other one while a call of the first is under way.

typedef struct markring_store_rewrite {
    markring_store from; // as it was when the rewrite began
    uint8_t head[MARKRING_STORE_HEAD];
    markring_slot_rewrite state; // how far it is
} markring_store_rewrite;

// Begins a rewrite of what the last save left. MARKRING_STORE_FAILED: that save failed, or it was the
// last number.
markring_store_status markring_store_rewrite_begin(
    markring_store *it, markring_store_rewrite *to);

// Reads back the value that counted then, with its entries; the caller frees `value->buffer`. After
// any other status `value` is as it was. MARKRING_STORE_MEMORY; MARKRING_STORE_FAILED;
// MARKRING_STORE_DAMAGED: the file has changed since it was written.
markring_store_status markring_store_rewrite_read(
    markring_store_rewrite *it, markring_store_value *value);

// Writes one value with what was read, as markring_host_rewrite makes it. The bytes around it are
// overwritten. After any other status, give the rewrite up. MARKRING_STORE_FAILED;
// MARKRING_STORE_UNKNOWN, after which the process has to end, as after a save.
markring_store_status markring_store_rewrite_write(
    markring_store_rewrite *it, markring_store_value *whole);

// Writes the entries up to `end`, which was the `end` of the store after a save that succeeded. It
// is only for speed, since markring_store_rewrite_end writes what is left. As for
// markring_store_rewrite_write; MARKRING_STORE_MEMORY; MARKRING_STORE_DAMAGED.
markring_store_status markring_store_rewrite_follow(markring_store_rewrite *it, uint64_t end);

// Adds an entry as markring_store_save does, and ends the rewrite. After any other status, give it
// up; the next save has to be a whole value. MARKRING_STORE_FAILED; MARKRING_STORE_UNKNOWN.
markring_store_status markring_store_rewrite_end(
    markring_store *it, markring_store_rewrite *with, markring_store_value *entry);

// The next entry behind a value that was read, or NULL. `*at` is 0 for the first entry, and is then
// moved on.
const uint8_t *markring_store_next(const markring_store_value *value, size_t *at, size_t *length);

// Closes the folder, which another process may then lock.
void markring_store_close(markring_store *it);

// A status in words, for messages.
const char *markring_store_text(markring_store_status status);

// # Places
//
// In what a process keeps its node: a folder, or a PostgreSQL database. The address of a node in one
// is postgresql://USER@HOST/DATABASE#SPACE/NODE, with any options of libpq. libpq.so.5 is loaded
// when the first such address is used. docs/PROCESSES.md ("Nodes in a database") says what holds,
// docs/FORMATS.md ("Databases") has the tables.
//
// Whoever opens a node in a database takes it over, and no save of the process before succeeds any
// more. So call markring_place_renew in each turn, and give the host no request of a program while
// markring_place_serves says no: the process before could still answer, or another one already.
//
// Calls of a place in a database wait for the server. While the connection is lost, a save and a
// renewal connect again until the server has said what counts, unless `pause` gives up. One thread
// at a time uses a place, but any thread may call markring_place_serves and markring_place_wait.

typedef struct markring_place markring_place;

// What a place calls while it has no connection.
typedef struct markring_place_events {
    void *context;
    // Waits that many milliseconds before another attempt, at most 1,000. After false, the call of
    // the place ends with MARKRING_STORE_UNKNOWN. NULL: it sleeps and goes on.
    bool (*pause)(void *context, uint64_t milliseconds);
    // The connection is lost, or there again; see markring_host_unreachable. May be NULL.
    void (*note)(void *context, bool is_lost);
} markring_place_events;

// Whether this is the address of a database, and not a folder.
bool markring_place_is_database(const char *where);

// Makes a place for this value, and saves it there. An address may leave out which node: it is that
// of the value. The caller closes `*it` after any status; NULL is closed without effect. As
// markring_store_create, and the statuses of databases. After MARKRING_STORE_AWAY and
// MARKRING_STORE_FAILED the node may be there.
markring_store_status markring_place_create(
    markring_place **it, const char *where, markring_store_value *value);

// Opens a place, in a database as the node's new holder, and reads what counts; the caller frees
// `value->buffer`. The caller closes `*it` after any status. As markring_store_open, and the statuses
// of databases. After a failure nothing has changed, except that this process may be the holder after
// MARKRING_STORE_AWAY and MARKRING_STORE_FAILED.
markring_store_status markring_place_open(
    markring_place **it, const char *where, markring_store_value *value);

// Makes the schema in a database, unless it has one of this version. The caller closes `*it` after
// any status. The statuses of databases; MARKRING_STORE_MEMORY; MARKRING_STORE_FAILED.
markring_store_status markring_place_make_schema(markring_place **it, const char *where);

// From now on, these are called. NULL: none.
void markring_place_listen(markring_place *it, const markring_place_events *events);

// As markring_store_save; in a database MARKRING_STORE_TAKEN too, and MARKRING_STORE_UNKNOWN if
// `pause` gave up.
markring_store_status markring_place_save(markring_place *it, markring_store_value *value);

// Shows to others that this process has the node. It asks the server only if the last save or renewal
// began at least a second ago, and does nothing in a folder. MARKRING_STORE_TAKEN, after which
// markring_host_taken ends the host; MARKRING_STORE_FAILED; MARKRING_STORE_UNKNOWN.
markring_store_status markring_place_renew(markring_place *it);

// How many milliseconds may pass before the next renewal; UINT64_MAX in a folder.
uint64_t markring_place_wait(const markring_place *it);

// Whether no other process can serve the node's programs now. It is false for 3 seconds after a
// node was opened that another process had left without closing it, and once 3 seconds have passed
// since the last save or renewal that succeeded. Always true in a folder.
bool markring_place_serves(const markring_place *it);

// The number of the last save, also of one that failed.
uint64_t markring_place_number(const markring_place *it);

// What an operator should know of the server's settings; NULL if there is nothing, or in a folder.
const char *markring_place_warning(const markring_place *it);

// Why the last call that failed did, in words for an operator; no password is in them. It stays
// until the next call.
const char *markring_place_text(const markring_place *it);

// The errno of the last call to the system that failed; 0 in a database.
int markring_place_cause(const markring_place *it);

// Closes the place and frees it. A node in a database is left to anybody.
void markring_place_close(markring_place *it);

// # Hosts
//
// One node of a space, run over any carrier of packets. The caller brings packets and requests, the
// time, and a place to save; the host decides what is sent when, so that only what a stored image
// holds leaves the node.
//
// The caller's loop is one turn after another:
//
//     markring_host_packet, markring_host_request, markring_host_control     for all that came
//     markring_host_turn                                   collects, saves, answers, sends
//     wait at most markring_host_wait milliseconds
//
// `save` of the calls begins a save, which may go on in another thread while the loop runs; when it
// is over, the loop calls markring_host_saved. One thread at a time uses a host. Nothing here has a
// socket, a thread or a clock: times are milliseconds of a clock of the caller that never goes
// back.
//
// Once markring_host_end isn't MARKRING_HOST_RUNS, no call does anything any more.

enum {
    // The bytes of a space's id.
    MARKRING_HOST_SPACE_ID = 8,
    // A reply address is at most this long, with its final zero.
    MARKRING_HOST_REPLY = 128,
    MARKRING_HOST_NAME = 32, // of a space, at most; letters, digits, '-' and '_'
    // Packets and requests that one turn should take.
    MARKRING_HOST_TAKES = 512,
    MARKRING_HOST_REASON = 640,
    // An image of a node of a plain space has at most 67,108,864 bytes. Programs may let it grow up
    // to MARKRING_HOST_IMAGE_MOST; messages and the collector, up to MARKRING_HOST_IMAGE_TIGHT.
    // What is left is for messages that came before their turn, and for the ends of cycles. In wide
    // spaces there is no limit.
    MARKRING_HOST_LETTERS_MOST = 800000,
    MARKRING_HOST_LETTER_BYTES_MOST = 268435456,
    // The bytes of letters to one node that may be unacknowledged, unless another number is given.
    MARKRING_HOST_BYTE_LIMIT = 67108864,
    MARKRING_HOST_IMAGE_MOST = 41943040,
    MARKRING_HOST_IMAGE_TIGHT = 62914560,
    MARKRING_HOST_ENTRIES_LEAST = 1 << 20
};

typedef enum markring_host_end {
    MARKRING_HOST_RUNS = 0,
    // It was asked to leave, and all is saved.
    MARKRING_HOST_LEFT,
    // The folder is older than what other nodes have seen of this node, or is used twice.
    MARKRING_HOST_OLDER,
    // A sync failed: nobody knows what is on the disk.
    MARKRING_HOST_UNSURE,
    // The node's image is too large to be saved.
    MARKRING_HOST_TOO_LARGE,
    // The library answered what it never answers.
    MARKRING_HOST_BROKEN
} markring_host_end;

// What a node is, from its creation on.
typedef struct markring_host_shape {
    char name[MARKRING_HOST_NAME + 1]; // of the space
    uint8_t space[MARKRING_HOST_SPACE_ID];  // random; the same for all nodes of a space
    uint8_t own, nodes;
    uint16_t registers;
    uint32_t slots;
    // How many messages of programs to one node may be unacknowledged, and from how many bytes of
    // letters on a program can post no more; 0 for any number.
    uint64_t limit, byte_limit;
    bool wide;
    uint8_t places; // that an object has at most; at its creation a plain space may leave it out
    uint32_t bytes; // that an object has at most; in a plain space 0
} markring_host_shape;

typedef struct markring_host_options {
    // Node 0 begins a cycle this many milliseconds after the last one; 0 for never.
    uint64_t cycle_every;
    // Node 0 begins a cycle when there are twice as many objects as after the last one, and at
    // least this many; 0 for never.
    uint32_t cycle_objects;
    // The node reclaims the young when this many objects were made since the last time; and all,
    // when it has twice as many as after the last time that it did so, and at least this many. (If
    // it has more than 32,768, it asks for a cycle in place of that, which goes in steps, unless
    // another node is lost.) It does both when a program finds it full. 0 for never.
    uint32_t reclaim_objects;
    // While this many letters wait, or letters with this many bytes, the node takes no messages; 0
    // for MARKRING_HOST_LETTERS_MOST and MARKRING_HOST_LETTER_BYTES_MOST.
    uint64_t letters_most;
    size_t letter_bytes_most;
    // While the node's image has more bytes, events of programs that make it grow are refused; 0
    // for MARKRING_HOST_IMAGE_MOST, or in a wide space for no limit. (If the image has more than
    // 1 MiB, that is found out once a 64th of it may have changed, or after a second.)
    size_t image_most;
    // While it has more, or could have more by joining a cycle, the node takes no messages; 0 for
    // MARKRING_HOST_IMAGE_TIGHT, or in a wide space for no limit.
    size_t image_tight;
    // The entries behind a whole value may have as many bytes as the value, or this many, before
    // they are rewritten; and twice as many until that is done. 0 for MARKRING_HOST_ENTRIES_LEAST.
    size_t entries_least;
    // The folder is the newest one, whatever other nodes know; and what was heard of their
    // processes is forgotten. For an operator who knows that a node has lied.
    bool trusts_folder;
    // Take the place of the folder's limits of unacknowledged messages, while this process runs.
    bool has_limit, has_byte_limit;
    uint64_t limit, byte_limit;
} markring_host_options;

typedef struct markring_host_calls {
    void *context;
    // Sends a packet to a node. It may be lost.
    void (*send)(void *context, uint8_t to, const uint8_t *bytes, size_t length);
    // Sends an answer to whoever asked. It may be lost.
    void (*answer)(void *context, const char *reply, const uint8_t *bytes, size_t length);
    // Begins to save the value. The caller may write to the room around it, but keeps the value
    // until it calls markring_host_saved, also from within this call. No other save begins before
    // that.
    void (*save)(void *context, markring_store_value *value);
    // Asks for a rewrite of what is stored now, before the next save ("Whole values while entries
    // are added"). A save that ends it is an entry, and the caller then calls
    // markring_host_rewritten after markring_host_saved; it does so too when the rewrite was given
    // up, but not if that is because a whole value was to be saved. NULL: the host saves whole
    // values itself, and the loop waits while they are made.
    void (*rewrite)(void *context);
} markring_host_calls;

// What a host has counted since it was opened.
typedef struct markring_host_counts {
    uint64_t packets_in, packets_out, frames_in, frames_out, bytes_out, saves, failed_saves;
    uint64_t requests, repeated_requests, refused_requests;
    // Packets that aren't for this node or not of this space; frames that are malformed.
    uint64_t foreign, malformed;
    // Packets of earlier processes, and frames that came again or were sent again.
    uint64_t outdated, repeats, resends;
    // Frames that weren't taken because too many letters wait or the image is too large; what was
    // dropped for lack of memory.
    uint64_t full, dropped;
    uint64_t freed, reclaimed; // objects, by cycles and without them
} markring_host_counts;

typedef struct markring_host markring_host;

// Makes a new node of a space, as the value to be saved first. The caller frees `value->buffer`.
// Returns MARKRING_OK, or the refusal of markring_node_make, or MARKRING_MEMORY.
int markring_host_create(const markring_host_shape *shape, markring_store_value *value);

// Opens the node of a value that was saved with this number. `nonce` is a random number, not 0.
// Returns MARKRING_OK; MARKRING_MEMORY; or MARKRING_BAD_IMAGE if the value isn't that of a node.
// The value isn't kept.
int markring_host_open(markring_host **it, const markring_store_value *value, uint64_t number,
    uint64_t nonce, const markring_host_options *options, const markring_host_calls *calls,
    uint64_t now);

// Makes a value of the node as it was opened, but of a space with another id. The host can't go on
// after that. The caller frees `value->buffer`. Returns MARKRING_OK or what the library refuses.
int markring_host_rename(markring_host *it, const uint8_t *space, markring_store_value *value);

// Frees the host. What isn't saved is lost.
void markring_host_free(markring_host *it);

// A packet came, from the node that the carrier names as its sender.
void markring_host_packet(
    markring_host *it, uint64_t now, uint8_t from, const uint8_t *bytes, size_t length);

// A request of a program came. The answer goes to `reply`, once all that it shows is stored.
void markring_host_request(
    markring_host *it, uint64_t now, const uint8_t *bytes, size_t length, const char *reply);

// A word of the operator came: `status`, `begin` or `stop`. The answer is JSON. That to `stop`
// comes once all is saved; the others come at once, and show what may not be saved yet.
void markring_host_control(
    markring_host *it, uint64_t now, const char *word, size_t length, const char *reply);

// Collects, begins a save if one is due, answers programs and sends packets.
void markring_host_turn(markring_host *it, uint64_t now);

// The save that `save` began is over. `number` is that of the save, if it succeeded. After
// MARKRING_STORE_TAKEN the host ends with MARKRING_HOST_OLDER.
void markring_host_saved(
    markring_host *it, uint64_t now, markring_store_status status, uint64_t number);

// The rewrite that `rewrite` asked for is over: the value that counts has `whole` bytes, and the
// entries behind it `entries`; or, after any other status than MARKRING_STORE_OK, it was given up.
// MARKRING_STORE_UNKNOWN ends the host.
void markring_host_rewritten(
    markring_host *it, markring_store_status status, size_t whole, size_t entries);

// Makes one value with what a value and its entries have, for a rewrite. Any thread may do it; it
// takes memory for another node. The caller frees `whole->buffer`. Returns MARKRING_OK,
// MARKRING_MEMORY or MARKRING_BAD_IMAGE.
int markring_host_rewrite(const markring_store_value *stored, markring_store_value *whole);

// How many milliseconds may pass before the next turn, if nothing comes.
uint64_t markring_host_wait(markring_host *it, uint64_t now);

// The carrier has a connection again after it had none: what isn't acknowledged is sent again.
void markring_host_connected(markring_host *it, uint64_t now);

// Another process runs the node: this host ends with MARKRING_HOST_OLDER.
void markring_host_taken(markring_host *it);

// The place of saves can't be reached, or can be reached again. The status shows it.
void markring_host_unreachable(markring_host *it, uint64_t now, bool is_unreachable);

// Asks the host to save all and to leave.
void markring_host_leave(markring_host *it);

markring_host_end markring_host_ended(const markring_host *it);

// Why the host has ended, in words for an operator.
const char *markring_host_reason(const markring_host *it);

const markring_host_shape *markring_host_is(const markring_host *it);

const markring_host_counts *markring_host_counted(const markring_host *it);

// The node, for programs that are linked to the host, and for tests. Call markring_host_changed
// after an event that was Ok, or markring_host_wrote after one that wrote this many bytes into an
// object. The host lists what is freed for the node's programs: don't call
// markring_node_track_freed or markring_node_freed of it.
markring_node *markring_host_node(markring_host *it);
void markring_host_changed(markring_host *it);
void markring_host_wrote(markring_host *it, size_t bytes);

#ifdef __cplusplus
}
#endif

#endif
