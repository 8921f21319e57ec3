// What the host calls of libnats, over no server: a test sees what is published, and says what
// comes and how connections go.
#ifndef TESTS_NATS_MODEL_H
#define TESTS_NATS_MODEL_H

#include <nats/nats.h>

#include <stdatomic.h>
#include <stdbool.h>
#include <stddef.h>

enum { MODEL_CONNECTS = 64 };

typedef struct nats_model {
    // What the next attempts to connect give, in order; NATS_OK after them.
    natsStatus connects[MODEL_CONNECTS];
    int connects_count, attempts;
    int64_t max_payload;
    bool is_away; // connections are lost, for now
    // Is called for each message that is published. `reply` may be NULL.
    void (*published)(const char *subject, const char *reply, const void *bytes, int length);
    // Is called, unless it is NULL, by all that waits for a connection's lock.
    void (*locked)(void);
    // The last error, as nats_GetLastError gives it.
    const char *text;
    // How many options, connections, subscriptions and messages were made and not destroyed.
    atomic_long alive;
    // The last connection that was made, and what it subscribed to.
    natsConnection *last;
    char subscribed[160];
    // How many messages and bytes libnats may keep for it.
    int kept_messages, kept_bytes;
} nats_model;

extern nats_model model;

// A message comes in, for the last subscription.
void model_deliver(const char *subject, const char *reply, const void *bytes, size_t length);

// Calls what a connection's options name.
void model_close(natsConnection *it);
void model_connect(natsConnection *it);
void model_error(natsConnection *it, natsStatus status);

// Makes that a connection stays after it was destroyed, as it does while libnats has a call of it
// waiting; and frees it.
void model_hold(natsConnection *it);
void model_release(natsConnection *it);

#endif
