// A net that loses, repeats and delays packets between nodes, for tests: the environment variable
// MARKRING_FAULTS is how many of 1,000 packets each of that happens to. At its end, a node that is
// built with the sanitizers says what it has leaked.
#ifndef TESTS_FAULTS_H
#define TESTS_FAULTS_H

#include <nats/nats.h>

#include <pthread.h>
#include <stdint.h>
#include <stdlib.h>
#include <string.h>
#include <unistd.h>

typedef struct delayed {
    natsConnection *to;
    char subject[160];
    int length;
    uint8_t bytes[4096];
} delayed;

// Publishes a packet up to half a second later.
static void *publish_later(void *context)
{
    delayed *it = context;
    usleep((useconds_t)(rand() % 500000));
    (void)natsConnection_Publish(it->to, it->subject, it->bytes, it->length);
    free(it);
    return NULL;
}

static void publish_delayed(
    natsConnection *to, const char *subject, const uint8_t *bytes, size_t length)
{
    pthread_t thread;
    delayed *it = malloc(sizeof *it);
    if (it == NULL || length > sizeof it->bytes || strlen(subject) >= sizeof it->subject) {
        free(it);
        return;
    }
    it->to = to;
    it->length = (int)length;
    memcpy(it->bytes, bytes, length);
    strcpy(it->subject, subject);
    if (pthread_create(&thread, NULL, publish_later, it) == 0) {
        pthread_detach(thread);
    } else {
        free(it);
    }
}

static void faults_publish(
    natsConnection *to, const char *subject, const uint8_t *bytes, size_t length)
{
    static int rate = -1;
    if (rate < 0) {
        const char *given = getenv("MARKRING_FAULTS");
        rate = given != NULL ? atoi(given) : 50;
        srand((unsigned)getpid());
    }
    int fate = rand() % 1000;
    if (fate < rate) {
        return;
    }
    if (fate < 2 * rate) {
        publish_delayed(to, subject, bytes, length);
        return;
    }
    (void)natsConnection_Publish(to, subject, bytes, (int)length);
    if (fate < 3 * rate) {
        (void)natsConnection_Publish(to, subject, bytes, (int)length);
    }
}

// (of the sanitizers)
int __lsan_do_recoverable_leak_check(void) __attribute__((weak));

enum { LEAVE_LEAK = 23, KEPT_MOST = 4096 };

static natsConnection *volatile faults_kept[KEPT_MOST];

// A connection that the node has left. It isn't destroyed, since a delayed packet may still be
// published over it; here it is no leak.
static void faults_keep(natsConnection *old)
{
    static int count;
    if (count < KEPT_MOST) {
        faults_kept[count++] = old;
    }
}

static void faults_end(void)
{
    if (__lsan_do_recoverable_leak_check != NULL && __lsan_do_recoverable_leak_check() != 0) {
        _Exit(LEAVE_LEAK);
    }
}

#endif
