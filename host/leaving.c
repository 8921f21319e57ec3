#include "leaving.h"

#include "clock.h"
#include "log.h"

#include <errno.h>
#include <string.h>

int complain(enum leave status, const char *text)
{
    log_say(now_ms(), (log_line){LEVEL_ERROR, EVENT_FAILED, {{"status", status}}}, "%s", text);
    return (int)status;
}

int complain_of(enum leave status, const char *text, int cause)
{
    log_say(now_ms(), (log_line){LEVEL_ERROR, EVENT_FAILED, {{"status", status}}}, "%s: %s", text,
        strerror(cause));
    return (int)status;
}

bool leave_may_pass(int status)
{
    return status == LEAVE_SYSTEM || (status >= LEAVE_AWAY && status <= LEAVE_IN_USE);
}

// Whether a call that failed with this errno may succeed later, without anybody's doing.
static bool may_pass(int cause)
{
    static const int stays[] = {
        EACCES, EPERM, EROFS, EISDIR, ENOTDIR, ELOOP, ENAMETOOLONG, EINVAL, ENOTSUP, ENOSYS};
    for (size_t i = 0; i < sizeof stays / sizeof *stays; i++) {
        if (cause == stays[i]) {
            return false;
        }
    }
    return true;
}

int explain_folder(store_status status, int cause)
{
    if (status == STORE_ABSENT) {
        return complain(LEAVE_FOLDER,
            "there is no node in this folder. Is its file system mounted? A node that was lost "
            "can't be created again: restore the folders of all nodes from one backup");
    }
    if (status == STORE_DAMAGED) {
        return complain(LEAVE_FOLDER,
            "its files a and b are damaged: what was saved last isn't whole any more. If its "
            "creation was broken off, remove the folder and create it again; else restore the "
            "folders of all nodes from one backup");
    }
    if (status == STORE_STALE) {
        return complain(LEAVE_SYSTEM,
            "memory has what the disk hasn't, since a sync failed before, and another process maps "
            "the files a and b. End that process, or start the machine again");
    }
    if (status == STORE_FAILED || status == STORE_UNKNOWN) {
        return complain_of(
            may_pass(cause) ? LEAVE_SYSTEM : LEAVE_FOLDER, store_text(status), cause);
    }
    return complain(status == STORE_MEMORY ? LEAVE_SYSTEM : LEAVE_FOLDER, store_text(status));
}
