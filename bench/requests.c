// How long a program of a node in a process waits for small requests, beside many objects.
//
//     requests URL SPACE OBJECTS SECONDS
//
// It makes a list of OBJECTS objects at node 0. Then it sends one request after another: each has
// one SetWord, and one every 50 ms has 128 objects that are dropped at once. (So a faster machine
// makes no more garbage between two cycles, for which a node with 1,000,000 objects has few slots.)
// It prints how many there were, and quantiles and the worst in milliseconds.
#define _POSIX_C_SOURCE 200809L
#include "quantiles.h"

#include <markring_remote.h>

#include <stdbool.h>

enum { MOST = 256, WAIT = 20000, SAMPLES = 1 << 22, GARBAGE_EACH = 50 };

static markring_remote *program;
static markring_event events[MOST];
static markring_result results[MOST];

static void must(int status)
{
    if (status != 0) {
        fprintf(stderr, "requests: %s\n", markring_remote_text(status));
        exit(1);
    }
}

static void perform(size_t count)
{
    int status = markring_remote_perform(program, events, count, results, WAIT);
    while (status == MARKRING_REMOTE_TIMEOUT) {
        status = markring_remote_finish(program, results, WAIT);
    }
    must(status);
    for (size_t i = 0; i < count; i++) {
        if (results[i].status != MARKRING_OK) {
            fprintf(stderr, "requests: event %zu was refused: %d\n", i, results[i].status);
            exit(1);
        }
    }
}

// A list under register 0: each new object has the one before in its place.
static void make_list(long objects)
{
    events[0] = (markring_event){.kind = MARKRING_EVENT_ALLOC, .reg = 0, .place = 1};
    perform(1);
    for (long made = 1; made < objects;) {
        size_t n = 0;
        for (; n + 3 <= MOST && made < objects; made++) {
            events[n++] = (markring_event){.kind = MARKRING_EVENT_ALLOC, .reg = 1, .place = 1};
            events[n++] = (markring_event){.kind = MARKRING_EVENT_STORE, .object = 1, .reg = 0};
            events[n++] = (markring_event){.kind = MARKRING_EVENT_COPY, .reg = 0, .source = 1};
        }
        perform(n);
    }
}

static size_t next_request(size_t number, bool makes_garbage)
{
    if (!makes_garbage) {
        events[0] = (markring_event){.kind = MARKRING_EVENT_SET_WORD, .word = number};
        return 1;
    }
    for (size_t n = 0; n < MOST; n += 2) {
        events[n] = (markring_event){.kind = MARKRING_EVENT_ALLOC, .reg = 2, .place = 1};
        events[n + 1] = (markring_event){.kind = MARKRING_EVENT_DROP, .reg = 2};
    }
    return MOST;
}

// Sends requests one after another until then. Returns how many.
static size_t send_requests(double *took, double end)
{
    size_t done = 0;
    double began = now_ms(), garbage_at = began;
    for (; began < end && done < SAMPLES; done++) {
        bool makes_garbage = began >= garbage_at;
        garbage_at += makes_garbage ? GARBAGE_EACH : 0;
        size_t count = next_request(done, makes_garbage);
        began = now_ms();
        perform(count);
        double after = now_ms();
        took[done] = after - began;
        began = after;
    }
    return done;
}

int main(int count, char **given)
{
    if (count != 5) {
        fputs("usage: requests URL SPACE OBJECTS SECONDS\n", stderr);
        return 2;
    }
    markring_remote_options options = {given[1], NULL, NULL, NULL, 0};
    markring_remote_space *space;
    must(markring_remote_connect(&space, &options, given[2]));
    must(markring_remote_open(&program, space, 0, 0, 5000, NULL));
    make_list(atol(given[3]));
    double *took = malloc(SAMPLES * sizeof *took);
    size_t done = took != NULL ? send_requests(took, now_ms() + 1e3 * atof(given[4])) : 0;
    if (done == 0) {
        fputs("requests: there was no time, or no memory\n", stderr);
        return 1;
    }
    print_times("request", took, done);
    return 0;
}
