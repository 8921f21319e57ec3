#include "asking.h"

#include <markring_remote.h>

#include <ctype.h>
#include <stdio.h>
#include <stdlib.h>
#include <string.h>
#include <sys/random.h>
#include <time.h>

enum { USER = 32 };
// Milliseconds. CLOSING: how long the end of a subscription is waited for.
enum { FIRST_PAUSE = 100, LONGEST_PAUSE = 800, CLOSING = 1000, DAY = 86400000 };

int64_t now_ms(void)
{
    struct timespec now;
    clock_gettime(CLOCK_MONOTONIC, &now);
    return (int64_t)now.tv_sec * 1000 + now.tv_nsec / 1000000;
}

int64_t time_after(int64_t now, int64_t timeout)
{
    timeout = timeout > 0 ? timeout : 0;
    return timeout < INT64_MAX - now ? now + timeout : INT64_MAX;
}

// ## Tasks

task *make_task(size_t length)
{
    task *it = malloc(sizeof *it + length);
    if (it != NULL) {
        memset(it, 0, sizeof *it);
        it->length = length;
    }
    return it;
}

void ask_for(asker *it, task *of, int64_t end)
{
    of->status = -1;
    // (one that is asked for again may be held: it keeps its address)
    if (of->number == 0) {
        of->number = ++it->numbers;
    }
    of->end = end;
    of->due = INT64_MIN;
    of->pause = FIRST_PAUSE;
    of->next = it->tasks;
    it->tasks = of;
    pthread_cond_broadcast(&it->changed);
}

// Takes a task out of the list, if it is in it.
static void unlink_task(asker *it, const task *of)
{
    task **at = &it->tasks;
    while (*at != NULL && *at != of) {
        at = &(*at)->next;
    }
    if (*at != NULL) {
        *at = of->next;
    }
}

void end_task(asker *it, task *of, int status)
{
    unlink_task(it, of);
    of->status = status;
    pthread_cond_broadcast(&it->changed);
    if (of->over != NULL) {
        of->over(of->context, status);
    }
}

void drop_task(asker *it, task *of)
{
    unlink_task(it, of);
    of->is_dropped = true;
    if (!of->is_held) {
        free(of);
    }
}

void wait_for_change(asker *it, int64_t end)
{
    int64_t most = time_after(now_ms(), DAY);
    end = end < most ? end : most;
    struct timespec at = {end / 1000, end % 1000 * 1000000};
    (void)pthread_cond_timedwait(&it->changed, &it->lock, &at);
}

// ## Answers

// The number at the end of an address; 0, which no task has, if it isn't one.
static uint64_t number_of(const char *address)
{
    const char *point = strrchr(address, '.');
    if (point == NULL || !isdigit((unsigned char)point[1])) {
        return 0;
    }
    char *end;
    uint64_t number = strtoull(point + 1, &end, 10);
    return *end == 0 ? number : 0;
}

// Called from a thread of libnats.
static void on_answer(
    natsConnection *connection, natsSubscription *subscription, natsMsg *came, void *context)
{
    asker *it = context;
    uint64_t number = number_of(natsMsg_GetSubject(came));
    const uint8_t *bytes = (const uint8_t *)natsMsg_GetData(came);
    (void)connection;
    (void)subscription;
    pthread_mutex_lock(&it->lock);
    task *found = it->tasks;
    while (found != NULL && found->number != number) {
        found = found->next;
    }
    int status = found != NULL
        ? found->take(found->context, bytes, (size_t)natsMsg_GetDataLength(came))
        : -1;
    if (status >= 0) {
        end_task(it, found, status);
    }
    pthread_mutex_unlock(&it->lock);
    natsMsg_Destroy(came);
}

// ## The connection

// The user that a URL names before a password, if it is a word; or `any`.
static void copy_user(const char *url, char *user)
{
    const char *at = strstr(url, "://");
    size_t length = 0;
    at = at != NULL ? at + 3 : url;
    while (isalnum((unsigned char)at[length]) || at[length] == '-' || at[length] == '_') {
        length++;
    }
    bool is_user = length > 0 && length <= USER && at[length] == ':' && strchr(at, '@') != NULL;
    snprintf(user, USER + 1, "%.*s", is_user ? (int)length : 3, is_user ? at : "any");
}

// Makes the beginning of all addresses for answers: the server lets no other user read them, and
// nobody can guess them.
static natsStatus make_inbox(asker *it)
{
    uint64_t words[2];
    char user[USER + 1];
    if (getrandom(words, sizeof words, 0) != (ssize_t)sizeof words) {
        return NATS_SYS_ERROR;
    }
    copy_user(it->carrier.url, user);
    snprintf(it->inbox, sizeof it->inbox, "_INBOX.%s.%016llx%016llx", user,
        (unsigned long long)words[0], (unsigned long long)words[1]);
    return NATS_OK;
}

static void hold(asker *it)
{
    pthread_mutex_lock(&it->lock);
    it->holders++;
    pthread_mutex_unlock(&it->lock);
}

// Frees the asker once nobody holds it.
static void let_go(void *context)
{
    asker *it = context;
    pthread_mutex_lock(&it->lock);
    bool is_last = --it->holders == 0;
    pthread_cond_broadcast(&it->changed);
    pthread_mutex_unlock(&it->lock);
    if (!is_last) {
        return;
    }
    pthread_cond_destroy(&it->changed);
    pthread_mutex_destroy(&it->lock);
    for (int i = 0; i < 5; i++) {
        free(it->words[i]);
    }
    free(it);
}

// Subscribes to the answers. Libnats may be in a call when a subscription is destroyed, so that
// holds the asker until its last call is over.
static natsStatus subscribe(asker *it)
{
    char subject[SUBJECT + 2];
    snprintf(subject, sizeof subject, "%s.*", it->inbox);
    hold(it);
    natsStatus status =
        natsConnection_Subscribe(&it->answers, it->connection, subject, on_answer, it);
    if (status != NATS_OK) {
        let_go(it);
        return status;
    }
    // (should this fail, the asker is never freed)
    return natsSubscription_SetOnCompleteCB(it->answers, let_go, it);
}

static natsStatus connect_asker(asker *it)
{
    natsStatus status = carrier_connect(&it->connection, &it->carrier, "markring program", NULL);
    status = status == NATS_OK ? make_inbox(it) : status;
    return status == NATS_OK ? subscribe(it) : status;
}

static void disconnect_asker(asker *it)
{
    // Closed first: libnats uses the subscription while it connects again.
    natsConnection_Close(it->connection);
    natsSubscription_Destroy(it->answers);
    natsConnection_Destroy(it->connection);
    it->answers = NULL;
    it->connection = NULL;
}

// ## The thread

// Publishes a request, unless the server takes no message as long as it, or as its answer. A
// connection that libnats has given up is made again. Returns a status for it, or -1.
static int publish(asker *it, const task *of)
{
    char address[SUBJECT + 24];
    if (it->connection == NULL || natsConnection_IsClosed(it->connection)) {
        disconnect_asker(it);
        if (connect_asker(it) != NATS_OK) {
            disconnect_asker(it);
            return -1;
        }
    }
    // (0 as long as there was no connection)
    int64_t most = natsConnection_GetMaxPayload(it->connection);
    if (most > 0 && ((uint64_t)most < of->answer || (uint64_t)most < of->length)) {
        return MARKRING_REMOTE_CARRIER;
    }
    snprintf(address, sizeof address, "%s.%llu", it->inbox, (unsigned long long)of->number);
    (void)natsConnection_PublishRequest(
        it->connection, of->subject, address, of->bytes, (int)of->length);
    return -1;
}

// Publishes a request, without the lock. It is sent again after a pause.
static void send_task(asker *it, task *of)
{
    of->due = time_after(now_ms(), of->pause);
    of->pause = 2 * of->pause < LONGEST_PAUSE ? 2 * of->pause : LONGEST_PAUSE;
    of->is_held = true;
    pthread_mutex_unlock(&it->lock);
    int status = publish(it, of);
    pthread_mutex_lock(&it->lock);
    of->is_held = false;
    if (of->is_dropped) {
        free(of);
    } else if (status >= 0 && of->status < 0) {
        end_task(it, of, status);
    }
}

// The task to which something happens first: it is sent, or given up.
static task *next_task(const asker *it, int64_t *when)
{
    task *found = NULL;
    *when = INT64_MAX;
    for (task *of = it->tasks; of != NULL; of = of->next) {
        int64_t at = of->due < of->end ? of->due : of->end;
        if (found == NULL || at < *when) {
            found = of;
            *when = at;
        }
    }
    return found;
}

static void *send_tasks(void *context)
{
    asker *it = context;
    pthread_mutex_lock(&it->lock);
    while (!it->ends) {
        int64_t now = now_ms(), when;
        task *next = next_task(it, &when);
        if (next == NULL) {
            pthread_cond_wait(&it->changed, &it->lock);
        } else if (when > now) {
            wait_for_change(it, when);
        } else if (next->end <= now) {
            end_task(it, next, MARKRING_REMOTE_TIMEOUT);
        } else {
            send_task(it, next);
        }
    }
    pthread_mutex_unlock(&it->lock);
    return NULL;
}

// ## Opening and closing

// Copies the options. Returns whether there was memory.
static bool copy_options(asker *it, const carrier_options *from)
{
    const char *given[5] = {from->url, from->ca, from->certificate, from->key, from->credentials};
    const char **to[5] = {&it->carrier.url, &it->carrier.ca, &it->carrier.certificate,
        &it->carrier.key, &it->carrier.credentials};
    for (int i = 0; i < 5; i++) {
        it->words[i] = given[i] != NULL ? strdup(given[i]) : NULL;
        if (given[i] != NULL && it->words[i] == NULL) {
            return false;
        }
        *to[i] = it->words[i];
    }
    return true;
}

static void make_lock(asker *it)
{
    pthread_condattr_t times;
    pthread_condattr_init(&times);
    pthread_condattr_setclock(&times, CLOCK_MONOTONIC);
    pthread_mutex_init(&it->lock, NULL);
    pthread_cond_init(&it->changed, &times);
    pthread_condattr_destroy(&times);
}

natsStatus asker_open(asker **it, const carrier_options *options)
{
    asker *made = calloc(1, sizeof *made);
    if (made == NULL) {
        return NATS_NO_MEMORY;
    }
    made->holders = 1;
    make_lock(made);
    natsStatus status = copy_options(made, options) ? connect_asker(made) : NATS_NO_MEMORY;
    if (status == NATS_OK) {
        made->has_thread = pthread_create(&made->thread, NULL, send_tasks, made) == 0;
        status = made->has_thread ? NATS_OK : NATS_NO_MEMORY;
    }
    if (status != NATS_OK) {
        asker_close(made);
        return status;
    }
    *it = made;
    return NATS_OK;
}

void asker_close(asker *it)
{
    pthread_mutex_lock(&it->lock);
    it->ends = true;
    pthread_cond_broadcast(&it->changed);
    pthread_mutex_unlock(&it->lock);
    if (it->has_thread) {
        pthread_join(it->thread, NULL);
    }
    disconnect_asker(it);
    int64_t end = time_after(now_ms(), CLOSING);
    pthread_mutex_lock(&it->lock);
    while (it->holders > 1 && now_ms() < end) {
        wait_for_change(it, end);
    }
    pthread_mutex_unlock(&it->lock);
    let_go(it);
}
