// Why markring-node can't use a folder or a database. Each returns the exit status after it has
// said so.
#ifndef HOST_EXPLAINING_H
#define HOST_EXPLAINING_H

#include "keeper.h"
#include "leaving.h"

// As keeper_name and keeper_select_named. Returns 0; or the exit status, and nothing is to be freed.
int keeper_begin(keeper *it, const char *place);

// The same for a node of this space; an address may leave it out.
int keeper_begin_node(keeper *it, const char *place, const char *space, uint8_t node);

int keeper_explain(const keeper *it, store_status status);

// Of the last call to the server, which failed.
int explain_server(const postgres *it);

#endif
