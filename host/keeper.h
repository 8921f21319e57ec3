// In what a process keeps its node: a folder, or a database.
#ifndef HOST_KEEPER_H
#define HOST_KEEPER_H

#include "postgres.h"

// Milliseconds: how often a process shows that it holds a node in a database, and how long it may
// be sure of that.
enum { RENEW_EACH = 1000, SURE_FOR = 3000 };

typedef struct keeper keeper;

struct keeper {
    bool is_database;
    const char *place; // of a folder
    store folder;
    database_address address;
    postgres *server;
    database base;
};

// Takes a folder or an address, of which nothing is opened yet, and no node is selected. The caller
// frees it also after a failure. STORE_ADDRESS; STORE_PASSWORD; STORE_LIBRARY; STORE_MEMORY.
store_status keeper_name(keeper *it, const char *place);

// What follows is for this node. STORE_ADDRESS if the address names another one.
store_status keeper_select(keeper *it, const char *space, uint8_t node);

// The same for the node that the address names. STORE_ADDRESS if it names none.
store_status keeper_select_named(keeper *it);

// As for a store, with the statuses of places in databases. The first save of a new node has the
// number after `number`.
store_status keeper_create(keeper *it, store_value *value, uint64_t number);
store_status keeper_open(keeper *it, store_value *value);

// As for a store; in a database STORE_TAKEN too.
store_status keeper_save(keeper *it, store_value *value);

// ## Saves without waiting, as in a database
//
// Whatever isn't done at once, keeper_save comes to the end of.

bool keeper_can_ask(const keeper *it, const store_value *value);
bool keeper_ask(keeper *it, store_value *value);
database_news keeper_hear(keeper *it, const store_value *value);

// Whether a save was asked for that hasn't come to its end.
bool keeper_is_asked(const keeper *it);

// What is readable once there may be news.
int keeper_descriptor(const keeper *it);

// ## Whole values while entries are added, as in a store
//
// Begin and end a rewrite in the thread that saves; the calls between may be made by another one.

typedef struct keeper_rewrite {
    bool is_database;
    store_rewrite folder;
    database_rewrite base;
    postgres *server; // another connection
} keeper_rewrite;

// Begins a rewrite of what the last save left, which succeeded. The caller frees it.
store_status keeper_rewrite_begin(keeper *it, keeper_rewrite *to);
store_status keeper_rewrite_read(keeper_rewrite *it, store_value *value);
store_status keeper_rewrite_write(keeper_rewrite *it, store_value *whole);
store_status keeper_rewrite_follow(keeper_rewrite *it, uint64_t end);
void keeper_rewrite_free(keeper_rewrite *it);

// What became of a rewrite: the bytes of the value that counts, and of the entries behind it.
typedef struct rewritten {
    bool is_over;
    store_status status;
    size_t whole, entries;
} rewritten;

// Saves an entry and ends the rewrite. Returns the status of the save.
store_status keeper_rewrite_end(
    keeper *it, keeper_rewrite *with, store_value *entry, rewritten *outcome);

// The end of what is in a folder, for keeper_rewrite_follow.
uint64_t keeper_end(const keeper *it);

// Shows that the process is there. It does nothing in a folder.
store_status keeper_renew(keeper *it);

// The number of the last save.
uint64_t keeper_number(const keeper *it);

// Why the last save failed, in words.
const char *keeper_why(const keeper *it);

// The status of the last call to a server, which failed; and why, in words for an operator.
store_status server_status(const postgres *it);
void server_text(const postgres *it, char *text, size_t room);

// What a status of a place means, in words for an operator.
void keeper_text(const keeper *it, store_status status, char *text, size_t room);

// Closes the place and frees it. A node in a database is left to anybody.
void keeper_close(keeper *it);

// Frees one that isn't open.
void keeper_free(keeper *it);

#endif
