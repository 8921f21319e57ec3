// How markring-node ends: its exit statuses, and what it says then.
#ifndef HOST_LEAVING_H
#define HOST_LEAVING_H

#include "store.h"

#include <stdbool.h>

// The exit statuses, besides 0. `markring-node --help` lists them for operators.
enum leave {
    LEAVE_USAGE = 2,
    LEAVE_FOLDER = 3, // the folder can't be used
    // Memory, a thread, a call at the opening, the port for metrics, or the connection's options.
    LEAVE_SYSTEM = 4,
    LEAVE_OLDER = 5, // the node is older than what left it: don't start it again
    LEAVE_TOO_LARGE = 6,
    LEAVE_UNSURE = 7, // a sync failed
    // The rest is of databases. The first four may pass, so a unit starts the process again.
    LEAVE_AWAY = 8,
    LEAVE_READS = 9,
    LEAVE_FULL = 10,
    LEAVE_IN_USE = 11,
    LEAVE_LIBRARY = 12,
    LEAVE_DENIED = 13,
    LEAVE_FORGETS = 14,
    LEAVE_NO_SCHEMA = 15,
    LEAVE_EARLIER = 16,
    LEAVE_LATER = 17,
    LEAVE_ABSENT = 18,
    LEAVE_EXISTS = 19,
    LEAVE_OTHER = 20,
    LEAVE_DAMAGED = 21,
    LEAVE_MISSING = 22
};

// Whether the same may succeed later, without anybody's doing here.
bool leave_may_pass(int status);

// Says why the process ends. Returns the status.
int complain(enum leave status, const char *text);
int complain_of(enum leave status, const char *text, int cause);

// Says why a folder can't be used. Returns the status.
int explain_folder(store_status status, int cause);

#endif
