// The program markring-node in a test, over a model of libnats.
#ifndef RUNNING_H
#define RUNNING_H

#ifndef NODE
#define NODE "../node.c"
#endif
#define main node_main
#include NODE
#undef main

#include "check.h"
#include "nats_model.h"

enum { PROGRAM = 5 };

static running at;
static carrier_options carrier = {"nats://none", NULL, NULL, NULL, NULL};

// Rounds, until this is so. A machine that is busy has 20 seconds for it, a wrong node no more than
// twice.
#define GO_ON_UNTIL(condition) \
    for (uint64_t end = now_ms() + 20000; !(condition) && failed < 2 && now_ms() < end;) { \
        (void)go_round(&at); \
    }

// Rounds, until this time is over. Returns the last one's state.
static carrier_state go_on(uint64_t time)
{
    uint64_t end = now_ms() + time;
    carrier_state state;
    do {
        state = go_round(&at);
    } while (now_ms() < end && host_ended(at.host) == HOST_RUNS);
    return state;
}

static void ask_status(const char *reply)
{
    model_deliver("markring.test.node.0.control", reply, "status", 6);
}

// Opens the program, which needs a save.
static void ask_to_open(uint64_t session, uint64_t number, const char *reply)
{
    uint8_t bytes[REQUEST_HEAD];
    writer to = writer_of(bytes, sizeof bytes);
    request_head head = {REQUEST_OPEN, PROGRAM, session, number, 0};
    write_request_head(&to, &head);
    model_deliver("markring.test.node.0.program", reply, bytes, to.length);
}

// Starts a node, runs the tests, each with a call behind it, and ends the node.
static void run_node(void (*start)(void), void (*after_each)(void))
{
    pthread_t saves, rewrites, signals;
    HOLDS(start_threads(&at, &saves, &rewrites, &signals));
    start();
    for (int i = 0; i < test_count; i++) {
        tests[i]();
        after_each();
    }
    end_saver(&at, saves, rewrites);
    disconnect_node(&at);
    host_free(at.host);
    keeper_close(&at.keeper);
}

#endif
