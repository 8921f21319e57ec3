#include "service.h"

#include <inttypes.h>
#include <stdio.h>
#include <stdlib.h>
#include <sys/socket.h>
#include <sys/un.h>
#include <unistd.h>

enum { SAYS_EACH = 10000, TEXT = 256 }; // milliseconds between two texts

// Sends this to the socket that systemd names, as sd_notify does; but never waits. Returns false if
// systemd doesn't read now, and it has to be said again.
static bool notify(const char *text)
{
    struct sockaddr_un at = {.sun_family = AF_UNIX};
    const char *name = getenv("NOTIFY_SOCKET");
    size_t length = name != NULL ? strlen(name) : 0;
    if (length < 2 || length >= sizeof at.sun_path || (name[0] != '/' && name[0] != '@')) {
        return true;
    }
    memcpy(at.sun_path, name, length);
    if (name[0] == '@') {
        at.sun_path[0] = 0; // an abstract name
    }
    int it = socket(AF_UNIX, SOCK_DGRAM | SOCK_CLOEXEC | SOCK_NONBLOCK, 0);
    if (it < 0) {
        return false;
    }
    socklen_t size = (socklen_t)(offsetof(struct sockaddr_un, sun_path) + length);
    ssize_t sent = sendto(it, text, strlen(text), MSG_NOSIGNAL, (struct sockaddr *)&at, size);
    close(it);
    return sent >= 0;
}

// The number of a variable, or 0.
static uint64_t number_in(const char *variable)
{
    const char *text = getenv(variable);
    return text != NULL ? strtoull(text, NULL, 10) : 0;
}

void service_begin(service *it)
{
    uint64_t owner = number_in("WATCHDOG_PID"), time = number_in("WATCHDOG_USEC");
    *it = (service){false, 0, 0, 0};
    if (time > 0 && (owner == 0 || owner == (uint64_t)getpid())) {
        // Three signs of life in the time that systemd gives.
        it->every = time / 3000 > 0 ? time / 3000 : 1;
    }
}

static void say_how(service *it, uint64_t now, const host_view *view, bool is_connected)
{
    char text[TEXT];
    snprintf(text, sizeof text,
        "STATUS=node %" PRIu64 " of %s, %s; save %" PRIu64 ", cycle %" PRIu64 ", %" PRIu64
        " objects",
        view->own, view->space, is_connected ? "connected" : "not connected", view->save,
        view->cycle, view->live);
    it->said_at = now;
    (void)notify(text);
}

static void show_life(service *it, uint64_t now)
{
    if (it->every > 0 && now - it->alive_at >= it->every && notify("WATCHDOG=1")) {
        it->alive_at = now;
    }
}

void service_wait(service *it, uint64_t now)
{
    it->is_ready = it->is_ready || notify("READY=1\nSTATUS=on standby");
    show_life(it, now);
}

void service_turn(service *it, uint64_t now, const host_view *view, bool is_connected)
{
    if (!it->is_ready && is_connected && view->counts.saves > 0) {
        it->is_ready = notify("READY=1");
        it->said_at = 0;
    }
    show_life(it, now);
    if (it->said_at == 0 || now - it->said_at >= SAYS_EACH) {
        say_how(it, now, view, is_connected);
    }
}

void service_stop(void)
{
    (void)notify("STOPPING=1");
}
