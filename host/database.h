// A node kept in a database, with the statuses of a store: one row says who holds the node and which
// save counts, and pieces have the bytes. docs/FORMATS.md ("Databases") has both.
//
// Whoever opens the node becomes its holder, and a save succeeds only for the holder. So at most one
// process saves a node, and one that was cut off or paused finds out with its next save. A
// connection is a session of its holder. After one was lost, the next one first ends the session
// before it, so what was asked for there can't count later.
//
// All that goes to the database goes through a table, so a test can put a model in its place.
#ifndef HOST_DATABASE_H
#define HOST_DATABASE_H

#include "store.h"

#include <stdbool.h>

// The bytes of a piece, and of an entry that is saved without waiting, at most.
enum { PIECE_MOST = 1 << 20, ASKED_MOST = 1 << 16 };

typedef enum database_status {
    DATABASE_DONE,
    DATABASE_NONE,    // there is no such row
    DATABASE_REFUSED, // the server refused
    DATABASE_LOST,    // no answer came: what was asked for last may count or not
    DATABASE_MEMORY
} database_status;

typedef struct database_row {
    uint64_t holder, session; // a random number, or 0 if nobody holds the node; its connection
    uint64_t number, base;    // of the save that counts; of the whole value that it begins with
    uint64_t beat;            // changes with each save and each renewal
} database_row;

// A part of what a save brings: the bytes of a value or an entry, in parts of PIECE_MOST bytes. That
// of a rewrite counts only if its number is the row's base.
typedef struct database_piece {
    uint64_t number;
    uint32_t part;
    bool is_entry, is_rewrite;
    const uint8_t *bytes;
    size_t length;
} database_piece;

// What is known of a save that was asked for.
typedef enum database_news {
    NEWS_NONE,
    NEWS_DONE,
    NEWS_OTHER // no answer comes, or another one, which `answer` says
} database_news;

// Takes a piece that was read. Returns whether there was memory.
typedef bool (*database_taker)(void *to, const database_piece *piece);

// The calls for one node. A transaction is over after its commit, and after each call that isn't
// DATABASE_DONE; then nothing of it counts, except after a commit that is DATABASE_LOST. After
// DATABASE_LOST there is no connection until the next `connect`.
typedef struct database_calls {
    void *context;
    // Makes a connection, in place of one that there was.
    database_status (*connect)(void *context);
    void (*disconnect)(void *context);
    database_status (*begin)(void *context);
    database_status (*commit)(void *context);
    // Reads the row and locks it until the transaction is over.
    database_status (*lock)(void *context, database_row *row);
    // Adds the row. DATABASE_NONE if there is one.
    database_status (*add)(void *context, const database_row *row);
    // Changes the row, if holder, session and number are those of `from`; else DATABASE_NONE. The
    // beat changes too.
    database_status (*move)(void *context, const database_row *from, const database_row *to);
    database_status (*put)(void *context, const database_piece *piece);
    // Asks for both in a transaction of their own, without waiting. Until `answer` nothing else is
    // asked for. Returns whether all was sent: if not, `answer` sends the rest.
    bool (*ask)(void *context, const database_row *from, const database_row *to,
        const database_piece *piece);
    // What has come of the answer, without waiting; and what is readable once more has come.
    database_news (*hear)(void *context);
    int (*descriptor)(void *context);
    // Waits for the answer, as of `move`.
    database_status (*answer)(void *context);
    // Deletes the pieces with lower numbers than the base, for this holder and session.
    database_status (*clear)(void *context, const database_row *row);
    // Puts a piece of a rewrite in a transaction of its own, if this is the holder; else
    // DATABASE_NONE. No process takes the node over meanwhile.
    database_status (*put_apart)(void *context, uint64_t holder, const database_piece *piece);
    // Whether all parts of a rewrite with this number are there; else DATABASE_NONE.
    database_status (*find_parts)(void *context, uint64_t number, uint32_t parts);
    // Deletes the pieces of rewrites that aren't the base.
    database_status (*sweep)(void *context, uint64_t base);
    // Whether a value is that of the node that these calls are for. NULL: any is.
    bool (*is_own)(void *context, const store_value *value);
    // Gives all pieces from the base on that count to `take`, in order.
    database_status (*read)(void *context, uint64_t base, database_taker take, void *to);
    // Waits. Returns false if it makes no sense to try again.
    bool (*pause)(void *context, uint64_t milliseconds);
    // The connection is lost, or there again.
    void (*note)(void *context, bool is_lost);
} database_calls;

typedef struct database {
    database_calls calls;
    database_row row; // as it was read or written last
    uint64_t number;  // of the last save, also of one that failed
    uint64_t session; // the last one that was tried
    uint64_t seal;    // the one before the next entry
    bool is_connected;
    bool has_older; // pieces of saves before the base
    bool was_held;  // another process held the node when it was opened
    size_t added;   // the bytes of all entries that this process has saved
    // The save that is under way: the row that it makes, and its bytes. `is_asked`: it was asked
    // for, and its answer wasn't taken yet.
    database_row to;
    store_bytes what;
    bool is_asked;
} database;

// Makes a new node, whose first save has the number after this one. After any other status than
// STORE_OK the store is closed. STORE_EXISTS; STORE_FAILED: perhaps it was made.
store_status database_create(database *it, const database_calls *calls, uint64_t holder,
    store_value *value, uint64_t number);

// Takes the node over, and reads it; the caller frees `value->buffer`. After any other status than
// STORE_OK the store is closed and nothing has changed, except perhaps the holder after STORE_FAILED.
// STORE_ABSENT; STORE_DAMAGED; STORE_MISSING: pieces that have to be there aren't; STORE_OTHER;
// STORE_MEMORY.
store_status database_open(
    database *it, const database_calls *calls, uint64_t holder, store_value *value);

// Reads the node without taking it over, in a transaction that is under way.
store_status database_look(const database_calls *calls, store_value *value, database_row *row);

// Saves a value or adds an entry. A save of which no answer came is looked for until the server
// says whether it counts; if it doesn't, it is tried again with the next number. If the value was
// asked for by database_ask, this comes to the end of that. STORE_TAKEN;
// STORE_FAILED: the server refused, and it doesn't count; STORE_UNKNOWN: `pause` gave up.
store_status database_save(database *it, store_value *value);

// ## Saves without waiting
//
// A thread that may not wait asks for the save of an entry and hears of it later. Whatever isn't
// done at once, database_save comes to the end of, with the same value. Nothing else may be called
// meanwhile.

// Whether the value can be saved so.
bool database_can_ask(const database *it, const store_value *value);

// Returns whether all was sent: if not, only database_save goes on.
bool database_ask(database *it, store_value *value);

// NEWS_DONE: it is saved. NEWS_OTHER: only database_save goes on.
database_news database_hear(database *it, const store_value *value);

// ## Whole values while entries are added
//
// A rewrite takes the next number, and another connection puts the pieces of its value under that.
// They count only once a save makes this number the base. Entries that were saved meanwhile have
// higher numbers, and stay as they are: what counts are the value and the entries from there on. A
// process that takes the node over deletes the pieces of a rewrite that it broke off.
//
// Begin a rewrite and end it in the thread that saves, with no save under way; the calls between may
// be made by another one. Save no whole value meanwhile; to give a rewrite up, forget it.

typedef struct database_rewrite {
    database_calls calls;  // of the other connection
    uint64_t holder, base; // as they were
    uint64_t last, seal;   // the number of the last save that the value has, and its seal
    uint64_t number;       // of the rewrite
    uint32_t parts;        // that were put
    size_t length, added;  // of the whole value; the bytes of all entries before
} database_rewrite;

// Begins a rewrite of what the last save left, which succeeded.
void database_rewrite_begin(database *it, const database_calls *other, database_rewrite *to);

// Connects, and reads what counted then; the caller frees `value->buffer`. After any other status
// `value` is as it was, and the rewrite is to be given up. STORE_MEMORY; STORE_FAILED;
// STORE_DAMAGED, STORE_MISSING: what is there isn't what was.
store_status database_rewrite_read(database_rewrite *it, store_value *value);

// Puts one value with what was read, and disconnects. After any other status, give the rewrite up.
// STORE_FAILED; STORE_TAKEN.
store_status database_rewrite_write(database_rewrite *it, store_value *whole);

// Saves an entry as database_save does, and ends the rewrite; `*is_done` says whether its value
// counts. If it doesn't, the entry may be saved all the same.
store_status database_rewrite_end(
    database *it, const database_rewrite *with, store_value *entry, bool *is_done);

// Shows that the holder is there. The same statuses.
store_status database_renew(database *it);

// Leaves the node to anybody, and closes the connection.
void database_close(database *it);

#endif
