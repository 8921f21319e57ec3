// A space of two nodes, their server and the client of programs, in one library without a network:
// for tests of what is over the client (tests/client builds it in place of libmarkring-remote.so).
// The client and the hosts are the real ones; libnats and the disks are models. Whatever a program
// sends, all nodes turn until nothing is left to do.
//
// One space of one process at a time may be connected.
#include "../host.h"
#include "nats_model.h"

#include <pthread.h>
#include <stdio.h>
#include <stdlib.h>
#include <string.h>

enum { NODES = 2, PACKETS = 4096, TURNS = 64, STEP = 50 };

typedef struct packet {
    struct packet *next;
    uint8_t from, to;
    size_t length;
    uint8_t bytes[];
} packet;

typedef struct place {
    host *host;
    uint8_t own;
    // What was saved last.
    uint8_t *stored;
    size_t length;
    uint64_t number, nonce;
    uint64_t performed; // before this process
    bool is_away;
} place;

static pthread_mutex_t lock = PTHREAD_MUTEX_INITIALIZER;
static place places[NODES];
static packet *first, **last = &first;
static uint64_t now_is = 1000;
// How many requests of programs, and answers to them, are lost from now on.
static int lost_requests, lost_answers;

// ## What tests say. Each returns 0, or else what went wrong.

__attribute__((visibility("default"))) int model_begin(void);
__attribute__((visibility("default"))) void model_lose(int requests, int answers);
__attribute__((visibility("default"))) int model_restart(int node);
__attribute__((visibility("default"))) void model_leave(int node, int is_away);
__attribute__((visibility("default"))) uint64_t model_performed(int node);

// ## The nodes

static void on_send(void *context, uint8_t to, const uint8_t *bytes, size_t length)
{
    packet *it = malloc(sizeof *it + length);
    if (it != NULL) {
        *it = (packet){NULL, ((place *)context)->own, to, length};
        memcpy(it->bytes, bytes, length);
        *last = it;
        last = &it->next;
    }
}

static void on_answer(void *context, const char *reply, const uint8_t *bytes, size_t length)
{
    (void)context;
    if (lost_answers > 0) {
        lost_answers--;
    } else {
        model_deliver(reply, NULL, bytes, length);
    }
}

static void on_save(void *context, store_value *value)
{
    place *at = context;
    uint8_t *copy = malloc(STORE_HEAD + value->length + STORE_TAIL);
    store_status status = copy != NULL ? STORE_OK : STORE_FAILED;
    if (copy != NULL) {
        memcpy(copy + STORE_HEAD, value->buffer + STORE_HEAD, value->length);
        free(at->stored);
        at->stored = copy;
        at->length = value->length;
        at->number++;
    }
    host_saved(at->host, now_is, status, at->number);
}

// (all saves are whole values)
static int open_place(place *at)
{
    static const host_options options = {0};
    size_t end = STORE_HEAD + at->length + STORE_TAIL;
    store_value value = {at->stored, at->length, end, false, end, 1000000000};
    host_calls calls = {at, on_send, on_answer, on_save, NULL};
    at->nonce++;
    return host_open(&at->host, &value, at->number, at->nonce, &options, &calls, now_is);
}

static int make_place(place *at, uint8_t own)
{
    host_shape shape = {.name = "model", .own = own, .nodes = NODES, .registers = 16,
        .slots = 1000, .wide = true, .places = 4, .bytes = 1000000, .limit = 100};
    store_value value = {0};
    host_free(at->host);
    free(at->stored);
    // (a number beyond those with a sign)
    *at = (place){.own = own, .number = 1, .nonce = (UINT64_C(1) << 63) + 100 + own};
    int status = host_create(&shape, &value);
    at->stored = value.buffer;
    at->length = value.length;
    return status != MARKRING_OK ? status : open_place(at);
}

static void deliver_packets(void)
{
    for (int i = 0; i < PACKETS && first != NULL; i++) {
        packet *it = first;
        first = it->next;
        last = first == NULL ? &first : last;
        if (!places[it->to].is_away) {
            host_packet(places[it->to].host, now_is, it->from, it->bytes, it->length);
        }
        free(it);
    }
}

// All nodes turn, until nothing has happened for a while.
static void settle(void)
{
    for (int i = 0; i < TURNS; i++) {
        for (int j = 0; j < NODES; j++) {
            if (!places[j].is_away) {
                host_turn(places[j].host, now_is);
            }
        }
        now_is += STEP;
        if (first == NULL && i > 2) {
            break;
        }
        deliver_packets();
    }
}

static void on_request(const char *subject, const char *reply, const void *bytes, int length)
{
    static const char begin[] = "markring.model.node.";
    size_t at = sizeof begin - 1;
    if (strncmp(subject, begin, at) != 0 || subject[at] < '0' || subject[at] >= '0' + NODES) {
        return;
    }
    pthread_mutex_lock(&lock);
    place *to = &places[subject[at] - '0'];
    if (lost_requests > 0) {
        lost_requests--;
    } else if (!to->is_away && strcmp(subject + at + 1, ".program") == 0) {
        host_request(to->host, now_is, bytes, (size_t)length, reply);
        settle();
    } else if (!to->is_away && strcmp(subject + at + 1, ".control") == 0) {
        host_control(to->host, now_is, bytes, (size_t)length, reply);
        settle();
    }
    pthread_mutex_unlock(&lock);
}

// ## The tests

int model_begin(void)
{
    pthread_mutex_lock(&lock);
    model.published = on_request;
    lost_requests = lost_answers = 0;
    int status = MARKRING_OK;
    for (uint8_t i = 0; i < NODES && status == MARKRING_OK; i++) {
        status = make_place(&places[i], i);
    }
    pthread_mutex_unlock(&lock);
    return status;
}

void model_lose(int requests, int answers)
{
    pthread_mutex_lock(&lock);
    lost_requests = requests;
    lost_answers = answers;
    pthread_mutex_unlock(&lock);
}

int model_restart(int node)
{
    pthread_mutex_lock(&lock);
    place *at = &places[node];
    at->performed += host_counted(at->host)->requests;
    host_free(at->host);
    at->host = NULL;
    int status = open_place(at);
    pthread_mutex_unlock(&lock);
    return status;
}

void model_leave(int node, int is_away)
{
    pthread_mutex_lock(&lock);
    places[node].is_away = is_away != 0;
    pthread_mutex_unlock(&lock);
}

uint64_t model_performed(int node)
{
    pthread_mutex_lock(&lock);
    uint64_t performed = places[node].performed + host_counted(places[node].host)->requests;
    pthread_mutex_unlock(&lock);
    return performed;
}
