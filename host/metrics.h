// The numbers of a running node for Prometheus, and its health, over HTTP. The server's threads see
// what metrics_show was given last, and never the host; its caller never waits for a client.
#ifndef HOST_METRICS_H
#define HOST_METRICS_H

#include "showing.h"

#include <stdio.h>

typedef struct metrics metrics;

typedef enum metrics_status {
    METRICS_OK = 0,
    METRICS_BAD_ADDRESS, // it isn't `ADDRESS:PORT` or `[ADDRESS]:PORT`, in numbers
    METRICS_FAILED       // errno says why
} metrics_status;

// Serves /metrics, /healthz and /readyz there. Until metrics_show was called, the last two fail.
metrics_status metrics_open(metrics **opened, const char *address);

// `now` is in milliseconds of CLOCK_MONOTONIC.
void metrics_show(metrics *it, const host_view *view, bool is_connected, uint64_t now);

void metrics_close(metrics *it);

// What /metrics shows, in Prometheus' text format 0.0.4.
void metrics_write(FILE *to, const host_view *view, bool is_connected);

#endif
