#include "keeper.h"

#include <errno.h>
#include <stdio.h>
#include <stdlib.h>
#include <string.h>
#include <sys/random.h>

// ## What is said

// What a reason of a server means, and what comes before its text.
typedef struct advice {
    store_status status;
    const char *before;
} advice;

static const advice ADVICE[] = {
    [POSTGRES_OK] = {STORE_FAILED, "the database failed: "},
    [POSTGRES_MEMORY] = {STORE_MEMORY, ""},
    [POSTGRES_LIBRARY] = {STORE_LIBRARY, ""},
    [POSTGRES_ADDRESS] = {STORE_ADDRESS, ""},
    [POSTGRES_PASSWORD] = {STORE_PASSWORD, ""},
    [POSTGRES_AWAY] = {STORE_AWAY,
        "no server takes a connection at this address. Does it run, and is the address right? It "
        "says: "},
    [POSTGRES_DENIED] = {STORE_DENIED,
        "the server refuses this user or this database. Test its password (in a file that "
        "PGPASSFILE names, or a service that PGSERVICE names), pg_hba.conf, and its rights in the "
        "schema markring. It says: "},
    [POSTGRES_NO_SCHEMA] = {STORE_NO_SCHEMA, ""},
    [POSTGRES_OLDER] = {STORE_EARLIER, ""},
    [POSTGRES_NEWER] = {STORE_LATER, ""},
    [POSTGRES_READS] = {STORE_READS, ""},
    [POSTGRES_ASYNCHRONOUS] = {STORE_FORGETS, ""},
    [POSTGRES_LOCKED] = {STORE_LOCKED,
        "another process is at work on this node. Try again once it is done. The server says: "},
    [POSTGRES_FULL] = {STORE_FULL,
        "the server's disk is full, and nothing was changed. Make room there. It says: "},
    [POSTGRES_OTHER] = {STORE_FAILED, "the server refuses, and nothing was changed. It says: "},
};

store_status server_status(const postgres *it)
{
    return ADVICE[postgres_why(it)].status;
}

void server_text(const postgres *it, char *text, size_t room)
{
    snprintf(text, room, "%s%s", ADVICE[postgres_why(it)].before, postgres_text(it));
}

// What a status says of a node in a database; NULL if the server's text does.
static const char *text_of(const keeper *it, store_status status)
{
    switch (status) {
    case STORE_ABSENT:
        return "there is no such node in this database. Is it the right database, space and "
               "number? A node that was lost can't be created again: restore the schema markring "
               "from a dump";
    case STORE_EXISTS: return "there is such a node in this database already";
    case STORE_DAMAGED:
        return "pieces of this node are damaged in the database: a seal doesn't fit. Restore the "
               "whole schema markring from one dump";
    case STORE_MISSING:
        return "pieces of this node are missing in the database. Restore the whole schema markring "
               "from one dump";
    case STORE_OTHER:
        return "what the database has under this address is another node, or one of another "
               "space. Use the address under which it was created, or restore the schema markring "
               "from a dump";
    case STORE_MEMORY:
    case STORE_TAKEN: return store_text(status);
    case STORE_ADDRESS:
        return it->server == NULL
            ? "the address of a node in a database ends with #SPACE/NODE, as in "
              "postgresql://USER@HOST/DATABASE#ring/0"
            : postgres_why(it->server) == POSTGRES_ADDRESS ? NULL
            : it->address.has_node ? "the address names another space or node"
            : "the address has to say which node: add #SPACE/NODE, as in #ring/0";
    default: return NULL;
    }
}

void keeper_text(const keeper *it, store_status status, char *text, size_t room)
{
    bool has_cause = status == STORE_FAILED || status == STORE_UNKNOWN;
    const char *said = it->is_database ? text_of(it, status) : store_text(status);
    if (said == NULL) {
        server_text(it->server, text, room);
    } else if (!it->is_database && has_cause) {
        snprintf(text, room, "%s: %s", said, strerror(it->folder.cause));
    } else {
        snprintf(text, room, "%s", said);
    }
}

// A call failed: for what reason, if the server has said it.
static store_status status_of(const keeper *it, store_status status)
{
    return it->is_database && status == STORE_FAILED ? server_status(it->server) : status;
}

// ## Names

store_status keeper_name(keeper *it, const char *place)
{
    memset(it, 0, sizeof *it);
    it->place = place;
    it->is_database = names_database(place);
    if (!it->is_database) {
        return STORE_OK;
    }
    if (!read_address(place, &it->address)) {
        return STORE_ADDRESS;
    }
    return postgres_open(&it->server, it->address.server) ? STORE_OK : server_status(it->server);
}

store_status keeper_select(keeper *it, const char *space, uint8_t node)
{
    const database_address *at = &it->address;
    if (!it->is_database) {
        return STORE_OK;
    }
    if ((at->has_space && strcmp(at->space, space) != 0) || (at->has_node && at->node != node)) {
        return STORE_ADDRESS;
    }
    postgres_select(it->server, space, node);
    return STORE_OK;
}

store_status keeper_select_named(keeper *it)
{
    bool is_named = !it->is_database || it->address.has_node;
    return is_named ? keeper_select(it, it->address.space, it->address.node) : STORE_ADDRESS;
}

// ## The place

// A random number that isn't 0, and that the database can keep; 0 if the system gave none.
static uint64_t new_holder(void)
{
    uint64_t number = 0;
    bool is_there = getrandom(&number, sizeof number, 0) == (ssize_t)sizeof number;
    return is_there ? (number >> 1) | 1 : 0;
}

store_status keeper_create(keeper *it, store_value *value, uint64_t number)
{
    if (!it->is_database) {
        return store_create_after(&it->folder, &STORE_SYSTEM, it->place, value, number);
    }
    uint64_t holder = new_holder();
    database_calls calls = postgres_calls(it->server);
    return holder == 0
        ? STORE_FAILED
        : status_of(it, database_create(&it->base, &calls, holder, value, number));
}

store_status keeper_open(keeper *it, store_value *value)
{
    if (!it->is_database) {
        return store_open(&it->folder, &STORE_SYSTEM, it->place, value);
    }
    uint64_t holder = new_holder();
    database_calls calls = postgres_calls(it->server);
    return holder == 0 ? STORE_FAILED
                       : status_of(it, database_open(&it->base, &calls, holder, value));
}

store_status keeper_save(keeper *it, store_value *value)
{
    return it->is_database ? database_save(&it->base, value) : store_save(&it->folder, value);
}

store_status keeper_renew(keeper *it)
{
    return it->is_database ? database_renew(&it->base) : STORE_OK;
}

bool keeper_can_ask(const keeper *it, const store_value *value)
{
    return it->is_database && database_can_ask(&it->base, value);
}

bool keeper_ask(keeper *it, store_value *value)
{
    return database_ask(&it->base, value);
}

database_news keeper_hear(keeper *it, const store_value *value)
{
    return database_hear(&it->base, value);
}

bool keeper_is_asked(const keeper *it)
{
    return it->is_database && it->base.is_asked;
}

int keeper_descriptor(const keeper *it)
{
    return it->base.calls.descriptor(it->base.calls.context);
}

uint64_t keeper_number(const keeper *it)
{
    return it->is_database ? it->base.number : it->folder.state.number;
}

const char *keeper_why(const keeper *it)
{
    return it->is_database ? postgres_text(it->server) : strerror(it->folder.cause);
}

// ## Rewrites

store_status keeper_rewrite_begin(keeper *it, keeper_rewrite *to)
{
    memset(to, 0, sizeof *to);
    to->is_database = it->is_database;
    if (!it->is_database) {
        return store_rewrite_begin(&it->folder, &to->folder);
    }
    if (!postgres_again(it->server, &to->server)) {
        return STORE_MEMORY;
    }
    database_calls calls = postgres_calls(to->server);
    database_rewrite_begin(&it->base, &calls, &to->base);
    return STORE_OK;
}

store_status keeper_rewrite_read(keeper_rewrite *it, store_value *value)
{
    return it->is_database ? database_rewrite_read(&it->base, value)
                           : store_rewrite_read(&it->folder, value);
}

store_status keeper_rewrite_write(keeper_rewrite *it, store_value *whole)
{
    return it->is_database ? database_rewrite_write(&it->base, whole)
                           : store_rewrite_write(&it->folder, whole);
}

store_status keeper_rewrite_follow(keeper_rewrite *it, uint64_t end)
{
    return it->is_database ? STORE_OK : store_rewrite_follow(&it->folder, end);
}

void keeper_rewrite_free(keeper_rewrite *it)
{
    postgres_free(it->server);
    it->server = NULL;
}

uint64_t keeper_end(const keeper *it)
{
    return it->folder.state.end;
}

store_status keeper_rewrite_end(
    keeper *it, keeper_rewrite *with, store_value *entry, rewritten *outcome)
{
    if (it->is_database) {
        bool is_done = false;
        store_status status = database_rewrite_end(&it->base, &with->base, entry, &is_done);
        *outcome = (rewritten){true, is_done ? STORE_OK : STORE_FAILED, with->base.length,
            it->base.added - with->base.added};
        return status;
    }
    store_status status = store_rewrite_end(&it->folder, &with->folder, entry);
    size_t whole = (size_t)it->folder.state.length;
    *outcome = (rewritten){
        true, status, whole, (size_t)it->folder.state.end - STORE_HEAD - whole - STORE_TAIL};
    return status;
}

void keeper_close(keeper *it)
{
    if (it->is_database) {
        database_close(&it->base);
    } else {
        store_close(&it->folder);
    }
    keeper_free(it);
}

void keeper_free(keeper *it)
{
    postgres_free(it->server);
    free(it->address.server);
    it->server = NULL;
    it->address.server = NULL;
}
