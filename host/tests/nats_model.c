#include "nats_model.h"
#include "models.h"

#include <string.h>

#pragma GCC diagnostic ignored "-Wunused-parameter"

nats_model model = {.max_payload = 1048576};

struct __natsOptions {
    natsConnectionHandler closed, reconnected, connected;
    natsErrHandler error;
    void *closed_closure, *reconnected_closure, *connected_closure, *error_closure;
};

struct __natsConnection {
    struct __natsOptions options;
    int holders;
    bool closed;
};

struct __natsMsg {
    char *subject, *reply, *bytes;
    int length;
};

struct __natsSubscription {
    natsConnection *connection;
    natsMsgHandler handler;
    natsOnCompleteCB complete;
    void *closure, *complete_closure;
};

static natsSubscription *subscription;

static char *copied(const char *text)
{
    return strcpy(resized(NULL, strlen(text)), text);
}

// Waits for the lock of a connection.
static void lock(void)
{
    if (model.locked != NULL) {
        model.locked();
    }
}

// Makes something that has to be destroyed.
static void *made(size_t size)
{
    model.alive++;
    return memset(resized(NULL, size), 0, size);
}

static void destroyed(void *it)
{
    model.alive -= it != NULL;
    free(it);
}

// ## Options

natsStatus natsOptions_Create(natsOptions **it)
{
    *it = made(sizeof **it);
    return NATS_OK;
}

void natsOptions_Destroy(natsOptions *it)
{
    destroyed(it);
}

natsStatus natsOptions_SetURL(natsOptions *it, const char *url)
{
    return url != NULL ? NATS_OK : NATS_INVALID_ARG;
}

natsStatus natsOptions_SetName(natsOptions *it, const char *name)
{
    return name != NULL ? NATS_OK : NATS_INVALID_ARG;
}

natsStatus natsOptions_SetReconnectedCB(
    natsOptions *it, natsConnectionHandler handler, void *closure)
{
    it->reconnected = handler;
    it->reconnected_closure = closure;
    return NATS_OK;
}

natsStatus natsOptions_SetClosedCB(natsOptions *it, natsConnectionHandler handler, void *closure)
{
    it->closed = handler;
    it->closed_closure = closure;
    return NATS_OK;
}

natsStatus natsOptions_SetErrorHandler(natsOptions *it, natsErrHandler handler, void *closure)
{
    it->error = handler;
    it->error_closure = closure;
    return NATS_OK;
}

natsStatus natsOptions_SetRetryOnFailedConnect(
    natsOptions *it, bool retry, natsConnectionHandler handler, void *closure)
{
    it->connected = retry ? handler : NULL;
    it->connected_closure = closure;
    return NATS_OK;
}

// What the model doesn't look at.
#define IGNORED(option, ...) \
    natsStatus natsOptions_##option(natsOptions *it, __VA_ARGS__) \
    { \
        return NATS_OK; \
    }

IGNORED(SetSecure, bool secure)
IGNORED(LoadCATrustedCertificates, const char *file)
IGNORED(LoadCertificatesChain, const char *file, const char *key)
IGNORED(SetUserCredentialsFromFiles, const char *file, const char *seed)
IGNORED(SetSendAsap, bool asap)
IGNORED(SetTimeout, int64_t time)
IGNORED(SetWriteDeadline, int64_t time)
IGNORED(SetPingInterval, int64_t time)
IGNORED(SetMaxReconnect, int most)
IGNORED(SetReconnectWait, int64_t time)
IGNORED(SetReconnectBufSize, int size)

// ## Connections

natsStatus natsConnection_Connect(natsConnection **it, natsOptions *options)
{
    natsStatus status = NATS_OK;
    lock();
    if (model.attempts < model.connects_count) {
        status = model.connects[model.attempts];
    }
    model.attempts++;
    if (status != NATS_OK && !(status == NATS_NO_SERVER && options->connected != NULL)) {
        return status;
    }
    *it = model.last = made(sizeof **it);
    (*it)->options = *options;
    (*it)->holders = 1;
    return status == NATS_OK ? NATS_OK : NATS_NOT_YET_CONNECTED;
}

void natsConnection_Close(natsConnection *it)
{
    if (it != NULL) {
        lock();
        it->closed = true;
    }
}

void model_hold(natsConnection *it)
{
    it->holders++;
}

void model_release(natsConnection *it)
{
    if (--it->holders == 0) {
        destroyed(it);
    }
}

void natsConnection_Destroy(natsConnection *it)
{
    if (it != NULL) {
        model_release(it);
    }
}

bool natsConnection_IsClosed(natsConnection *it)
{
    lock();
    return it == NULL || it->closed;
}

natsConnStatus natsConnection_Status(natsConnection *it)
{
    lock();
    return it == NULL || it->closed ? NATS_CONN_STATUS_CLOSED
        : model.is_away             ? NATS_CONN_STATUS_RECONNECTING
                                    : NATS_CONN_STATUS_CONNECTED;
}

natsStatus natsConnection_GetLastError(natsConnection *it, const char **text)
{
    *text = model.text;
    return NATS_OK;
}

const char *nats_GetLastError(natsStatus *status)
{
    *status = NATS_OK;
    return model.text;
}

int64_t natsConnection_GetMaxPayload(natsConnection *it)
{
    lock();
    return it != NULL ? model.max_payload : 0;
}

natsStatus natsConnection_FlushTimeout(natsConnection *it, int64_t time)
{
    lock();
    return it != NULL ? NATS_OK : NATS_INVALID_ARG;
}

natsStatus natsConnection_PublishRequest(
    natsConnection *it, const char *subject, const char *reply, const void *bytes, int length)
{
    if (it == NULL) {
        return NATS_INVALID_ARG;
    }
    lock();
    if (length > model.max_payload) {
        return NATS_MAX_PAYLOAD;
    }
    if (model.published != NULL) {
        model.published(subject, reply, bytes, length);
    }
    return NATS_OK;
}

natsStatus natsConnection_Publish(
    natsConnection *it, const char *subject, const void *bytes, int length)
{
    return natsConnection_PublishRequest(it, subject, NULL, bytes, length);
}

void model_close(natsConnection *it)
{
    it->closed = true;
    it->options.closed(it, it->options.closed_closure);
}

void model_connect(natsConnection *it)
{
    it->options.reconnected(it, it->options.reconnected_closure);
}

void model_error(natsConnection *it, natsStatus status)
{
    it->options.error(it, subscription, status, it->options.error_closure);
}

// ## Subscriptions and messages

natsStatus natsConnection_Subscribe(natsSubscription **it, natsConnection *connection,
    const char *subject, natsMsgHandler handler, void *closure)
{
    if (connection == NULL) {
        return NATS_INVALID_ARG;
    }
    snprintf(model.subscribed, sizeof model.subscribed, "%s", subject);
    *it = subscription = made(sizeof **it);
    subscription->connection = connection;
    subscription->handler = handler;
    subscription->closure = closure;
    return NATS_OK;
}

natsStatus natsSubscription_SetOnCompleteCB(
    natsSubscription *it, natsOnCompleteCB complete, void *closure)
{
    it->complete = complete;
    it->complete_closure = closure;
    return NATS_OK;
}

natsStatus natsSubscription_SetPendingLimits(natsSubscription *it, int messages, int bytes)
{
    model.kept_messages = messages;
    model.kept_bytes = bytes;
    return it != NULL ? NATS_OK : NATS_INVALID_ARG;
}

void natsSubscription_Destroy(natsSubscription *it)
{
    if (it == NULL) {
        return;
    }
    if (it == subscription) {
        subscription = NULL;
    }
    if (it->complete != NULL) {
        it->complete(it->complete_closure);
    }
    destroyed(it);
}

void model_deliver(const char *subject, const char *reply, const void *bytes, size_t length)
{
    natsMsg *it = made(sizeof *it);
    it->subject = copied(subject);
    it->reply = reply != NULL ? copied(reply) : NULL;
    // Exactly as many bytes as there are, so that reading beyond is noticed.
    it->bytes = resized(NULL, length + (length == 0));
    if (length > 0) {
        memcpy(it->bytes, bytes, length);
    }
    it->length = (int)length;
    if (subscription == NULL) {
        natsMsg_Destroy(it);
    } else {
        subscription->handler(subscription->connection, subscription, it, subscription->closure);
    }
}

const char *natsMsg_GetSubject(const natsMsg *it)
{
    return it->subject;
}

const char *natsMsg_GetReply(const natsMsg *it)
{
    return it->reply;
}

const char *natsMsg_GetData(const natsMsg *it)
{
    return it->bytes;
}

int natsMsg_GetDataLength(const natsMsg *it)
{
    return it->length;
}

void natsMsg_Destroy(natsMsg *it)
{
    if (it != NULL) {
        free(it->subject);
        free(it->reply);
        free(it->bytes);
        destroyed(it);
    }
}

// ## The rest

void nats_Sleep(int64_t time)
{
}

const char *natsStatus_GetText(natsStatus status)
{
    return status == NATS_CONNECTION_AUTH_FAILED ? "Authentication Violation" : "a status";
}
