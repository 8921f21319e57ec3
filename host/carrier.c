#include "carrier.h"

enum { RECONNECT_MS = 100, CONNECT_MS = 2000, PING_MS = 5000, BACKLOG = 1 << 20, ODD_ANSWERS = 5 };

static void on_connected(natsConnection *connection, void *closure)
{
    const carrier_events *events = closure;
    events->connected(events->context, connection);
}

// With a callback, libnats tries in another thread; without one the call would wait.
static void on_first_connection(natsConnection *connection, void *closure)
{
    if (closure != NULL) {
        on_connected(connection, closure);
    }
}

static void on_closed(natsConnection *connection, void *closure)
{
    const carrier_events *events = closure;
    events->closed(events->context, connection);
}

static void on_error(
    natsConnection *connection, natsSubscription *subscription, natsStatus error, void *closure)
{
    const carrier_events *events = closure;
    natsStatus last;
    (void)subscription;
    if (error == NATS_NOT_PERMITTED) {
        // (libnats sets this thread's last error before it calls.)
        const char *text = nats_GetLastError(&last);
        events->forbidden(events->context, connection, text != NULL ? text : "");
    }
}

static natsStatus set_events(natsOptions *to, const carrier_events *events)
{
    natsStatus status = natsOptions_SetReconnectedCB(to, on_connected, (void *)events);
    status = status == NATS_OK ? natsOptions_SetClosedCB(to, on_closed, (void *)events) : status;
    return status == NATS_OK ? natsOptions_SetErrorHandler(to, on_error, (void *)events) : status;
}

static natsStatus set_secrets(natsOptions *to, const carrier_options *from)
{
    natsStatus status = NATS_OK;
    if (from->ca != NULL) {
        status = natsOptions_SetSecure(to, true);
        if (status == NATS_OK) {
            status = natsOptions_LoadCATrustedCertificates(to, from->ca);
        }
    }
    if (status == NATS_OK && from->certificate != NULL) {
        status = natsOptions_LoadCertificatesChain(to, from->certificate, from->key);
    }
    if (status == NATS_OK && from->credentials != NULL) {
        status = natsOptions_SetUserCredentialsFromFiles(to, from->credentials, NULL);
    }
    return status;
}

// What is published while there is no connection is kept up to a limit; it is sent again anyway.
static natsStatus set_times(natsOptions *to)
{
    natsStatus status = natsOptions_SetSendAsap(to, true);
    status = status == NATS_OK ? natsOptions_SetTimeout(to, CONNECT_MS) : status;
    status = status == NATS_OK ? natsOptions_SetWriteDeadline(to, CONNECT_MS) : status;
    status = status == NATS_OK ? natsOptions_SetPingInterval(to, PING_MS) : status;
    status = status == NATS_OK ? natsOptions_SetMaxReconnect(to, -1) : status;
    status = status == NATS_OK ? natsOptions_SetReconnectWait(to, RECONNECT_MS) : status;
    status = status == NATS_OK ? natsOptions_SetReconnectBufSize(to, BACKLOG) : status;
    return status;
}

static natsStatus try_once(natsConnection **it, const carrier_options *options, const char *name,
    bool patient, const carrier_events *events)
{
    natsOptions *all = NULL;
    natsStatus status = natsOptions_Create(&all);
    status = status == NATS_OK ? natsOptions_SetURL(all, options->url) : status;
    status = status == NATS_OK ? natsOptions_SetName(all, name) : status;
    status = status == NATS_OK ? set_secrets(all, options) : status;
    status = status == NATS_OK ? set_times(all) : status;
    if (status == NATS_OK && events != NULL) {
        status = set_events(all, events);
    }
    if (status == NATS_OK && patient) {
        status =
            natsOptions_SetRetryOnFailedConnect(all, true, on_first_connection, (void *)events);
    }
    status = status == NATS_OK ? natsConnection_Connect(it, all) : status;
    natsOptions_Destroy(all);
    return status == NATS_NOT_YET_CONNECTED ? NATS_OK : status;
}

natsStatus carrier_connect(natsConnection **it, const carrier_options *options, const char *name,
    const carrier_events *events)
{
    natsStatus status = try_once(it, options, name, false, events);
    // (seen once while servers were killed)
    for (int tries = 0; status == NATS_PROTOCOL_ERROR && tries < ODD_ANSWERS; tries++) {
        nats_Sleep(RECONNECT_MS);
        status = try_once(it, options, name, false, events);
    }
    bool is_away = status == NATS_NO_SERVER || status == NATS_TIMEOUT || status == NATS_IO_ERROR
        || status == NATS_CONNECTION_CLOSED || status == NATS_CONNECTION_DISCONNECTED;
    return is_away ? try_once(it, options, name, true, events) : status;
}
