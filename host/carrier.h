// A connection to a NATS server.
#ifndef HOST_CARRIER_H
#define HOST_CARRIER_H

#include <nats/nats.h>

// The address of the server, and how to show who one is. All but `url` may be NULL.
typedef struct carrier_options {
    const char *url; // with a user and a password, if the server needs them
    const char *ca;  // a file of certificates that are trusted; TLS is used if it is given
    const char *certificate, *key; // files of one's own certificate and its key
    const char *credentials;       // a file of NATS credentials
} carrier_options;

// What is called from threads of libnats. A call may come late, when the connection was destroyed,
// so each says which one it is of. No other connection has the same address until the call is over.
typedef struct carrier_events {
    // For the first time, or again.
    void (*connected)(void *context, const natsConnection *of);
    // For ever: the server refuses the user, for example.
    void (*closed)(void *context, const natsConnection *of);
    // The server doesn't let this user publish or subscribe to something. `text` is what it says.
    void (*forbidden)(void *context, const natsConnection *of, const char *text);
    void *context;
} carrier_events;

// Connects, and connects again for ever when the connection is lost. A server that can't be reached
// yet is tried again and again, in another thread; one that refuses the user is a failure. `events`
// may be NULL.
natsStatus carrier_connect(natsConnection **it, const carrier_options *options, const char *name,
    const carrier_events *events);

#endif
