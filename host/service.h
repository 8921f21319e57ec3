// What systemd is told, if it runs the process with Type=notify: that it is ready, how it is, that
// it turns, that it ends. Without systemd nothing happens.
#ifndef HOST_SERVICE_H
#define HOST_SERVICE_H

#include "showing.h"

typedef struct service {
    bool is_ready;
    uint64_t every; // milliseconds between two signs of life that systemd expects; 0 for none
    uint64_t alive_at, said_at;
} service;

void service_begin(service *it);

// The process turns. It is ready once `is_ready` was true.
void service_turn(service *it, uint64_t now, const host_view *view, bool is_connected);

// The process waits for its turn to run the node, which counts as ready: it may wait for long.
void service_wait(service *it, uint64_t now);

void service_stop(void);

#endif
