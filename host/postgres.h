// The calls of database.h over PostgreSQL's libpq, which is loaded when an address asks for it. One
// thread at a time uses a server.
#ifndef HOST_POSTGRES_H
#define HOST_POSTGRES_H

#include "database.h"

enum { ADDRESS_NAME = 32, SCHEMA_VERSION = 1 };

// `postgresql://..#SPACE/NODE`. What is behind `#` may be absent, or a space alone.
typedef struct database_address {
    char *server; // before `#`, in memory of its own
    char space[ADDRESS_NAME + 1];
    bool has_space, has_node;
    uint8_t node;
} database_address;

// Why something didn't succeed.
typedef enum postgres_reason {
    POSTGRES_OK,
    POSTGRES_MEMORY,
    POSTGRES_LIBRARY,  // there is no libpq
    POSTGRES_ADDRESS,  // libpq can't read the address
    POSTGRES_PASSWORD, // there is a password in it
    POSTGRES_AWAY,     // no server answers, or none that takes connections now
    POSTGRES_DENIED,   // the server refuses this user, or what it asks for
    POSTGRES_NO_SCHEMA,
    POSTGRES_OLDER, // the schema is older, or newer, than this program's
    POSTGRES_NEWER,
    POSTGRES_READS, // the server takes no changes: it is a standby
    POSTGRES_ASYNCHRONOUS, // synchronous_commit is off
    POSTGRES_LOCKED,       // another process is at work on the node
    POSTGRES_FULL,
    POSTGRES_OTHER
} postgres_reason;

typedef struct postgres postgres;

// The schema in SQL, as one transaction.
extern const char POSTGRES_SCHEMA[];

// Whether this is the address of a database, and not a folder.
bool names_database(const char *word);

// Takes an address apart. Returns false if what is behind `#` isn't a node's name, or without
// memory.
bool read_address(const char *word, database_address *to);

// What may be shown of a folder or an address.
const char *shown_place(const char *word);

// Loads libpq and reads the address of a server, without connecting. The caller frees what was made
// also after a failure.
bool postgres_open(postgres **made, const char *server);

// Makes another one for the same server and node, without connecting. Returns false without memory.
bool postgres_again(const postgres *it, postgres **made);

// All calls from now on are for this node.
void postgres_select(postgres *it, const char *space, uint8_t node);

database_calls postgres_calls(postgres *it);

// How the calls `pause` and `note` act.
typedef struct postgres_events {
    bool (*pause)(void *context, uint64_t milliseconds);
    void (*note)(void *context, bool is_lost);
    void *context;
} postgres_events;

void postgres_listen(postgres *it, postgres_events events);

// Why the last call that failed did, and the same in words for an operator.
postgres_reason postgres_why(const postgres *it);
const char *postgres_text(const postgres *it);

// What an operator should know of the server's settings; NULL if there is nothing.
const char *postgres_warning(const postgres *it);

// Makes the schema, unless there is one of this version.
database_status postgres_make_schema(postgres *it);

// Reads the row of the node without locking it.
database_status postgres_peek(postgres *it, database_row *row);

// Begins a transaction that reads, of one moment. Within it, `lock` locks nothing.
database_status postgres_begin_look(postgres *it);

// Calls `take` for each node of the space, or of all if it is NULL, in order.
typedef void (*postgres_taker)(void *to, const char *space, uint8_t node);
database_status postgres_list(postgres *it, const char *space, postgres_taker take, void *to);

void postgres_free(postgres *it);

#endif
