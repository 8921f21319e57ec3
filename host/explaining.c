#include "explaining.h"

enum { TEXT = 1280 };

// The exit status for each status of a database.
static const enum leave LEAVES[] = {
    [STORE_MEMORY] = LEAVE_SYSTEM,
    [STORE_ABSENT] = LEAVE_ABSENT,
    [STORE_EXISTS] = LEAVE_EXISTS,
    [STORE_LOCKED] = LEAVE_IN_USE,
    [STORE_DAMAGED] = LEAVE_DAMAGED,
    [STORE_STALE] = LEAVE_SYSTEM,
    [STORE_FAILED] = LEAVE_SYSTEM,
    [STORE_UNKNOWN] = LEAVE_UNSURE,
    [STORE_TAKEN] = LEAVE_OLDER,
    [STORE_ADDRESS] = LEAVE_USAGE,
    [STORE_PASSWORD] = LEAVE_USAGE,
    [STORE_LIBRARY] = LEAVE_LIBRARY,
    [STORE_AWAY] = LEAVE_AWAY,
    [STORE_DENIED] = LEAVE_DENIED,
    [STORE_NO_SCHEMA] = LEAVE_NO_SCHEMA,
    [STORE_EARLIER] = LEAVE_EARLIER,
    [STORE_LATER] = LEAVE_LATER,
    [STORE_READS] = LEAVE_READS,
    [STORE_FORGETS] = LEAVE_FORGETS,
    [STORE_FULL] = LEAVE_FULL,
    [STORE_OTHER] = LEAVE_OTHER,
    [STORE_MISSING] = LEAVE_MISSING,
};

int explain_server(const postgres *it)
{
    char text[TEXT];
    server_text(it, text, sizeof text);
    return complain(LEAVES[server_status(it)], text);
}

int keeper_explain(const keeper *it, store_status status)
{
    char text[TEXT];
    if (!it->is_database) {
        return explain_folder(status, it->folder.cause);
    }
    store_status why = status == STORE_FAILED ? server_status(it->server) : status;
    keeper_text(it, why, text, sizeof text);
    return complain(LEAVES[why], text);
}

static int begin_with(keeper *it, store_status status)
{
    int leave = status == STORE_OK ? 0 : keeper_explain(it, status);
    if (leave != 0) {
        keeper_free(it);
    }
    return leave;
}

int keeper_begin(keeper *it, const char *place)
{
    store_status status = keeper_name(it, place);
    return begin_with(it, status == STORE_OK ? keeper_select_named(it) : status);
}

int keeper_begin_node(keeper *it, const char *place, const char *space, uint8_t node)
{
    store_status status = keeper_name(it, place);
    return begin_with(it, status == STORE_OK ? keeper_select(it, space, node) : status);
}
