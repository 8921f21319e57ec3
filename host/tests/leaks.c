// A program at a node, to be built with the sanitizers: all calls of the client, some of which time
// out. What it leaves behind is a leak, which ends it with another status.
//
//     leaks PROGRAM-URL OPERATOR-URL
#include "check.h"

#include <markring_remote.h>

#include <string.h>

enum { REQUESTS = 200, WORDS = 20, TIME = 60000, SHORT = 30 };

static markring_result results[MARKRING_REMOTE_EVENTS];

static void work(markring_remote_space *space)
{
    static const uint16_t registers[] = {0, 1, 2};
    markring_event events[WORDS];
    markring_remote_facts facts;
    markring_remote *program, *again;
    uint64_t letters;
    size_t count;
    memset(events, 0, sizeof events);
    events[0].kind = MARKRING_EVENT_ALLOC;
    for (int i = 1; i < WORDS; i++) {
        events[i].kind = MARKRING_EVENT_WORD;
    }
    if (markring_remote_open(&program, space, 0, 0, TIME, &facts) != MARKRING_REMOTE_OK) {
        HOLDS(false);
        return;
    }
    for (int i = 0; i < REQUESTS; i++) {
        HOLDS(markring_remote_perform(program, events, WORDS, results, TIME) == MARKRING_REMOTE_OK);
        HOLDS(markring_remote_read(program, registers, 3, results, TIME) == MARKRING_REMOTE_OK);
    }
    for (int i = 0; i < 5; i++) {
        HOLDS(markring_remote_wait(program, &letters, SHORT) == MARKRING_REMOTE_TIMEOUT);
    }
    HOLDS(markring_remote_open(&again, space, 0, 0, TIME, &facts) == MARKRING_REMOTE_OK);
    HOLDS(facts.last == REQUESTS);
    HOLDS(markring_remote_last(again, results, WORDS, &count) == MARKRING_REMOTE_OK && count == WORDS);
    HOLDS(markring_remote_perform(program, events, WORDS, results, TIME) == MARKRING_REMOTE_SUPERSEDED);
    markring_remote_close(program);
    markring_remote_close(again);
    HOLDS(markring_remote_open(&again, space, 1, 0, SHORT, &facts) == MARKRING_REMOTE_TIMEOUT);
}

int main(int count, char **words)
{
    markring_remote_space *space = NULL;
    char text[4096];
    for (int i = 1; i < count && i < 3; i++) {
        markring_remote_options options = {words[i], NULL, NULL, NULL, NULL};
        HOLDS(markring_remote_connect(&space, &options, "test") == MARKRING_REMOTE_OK);
        if (i == 1) {
            work(space);
        } else {
            HOLDS(markring_remote_ask(space, 0, "status", text, sizeof text, TIME) == MARKRING_REMOTE_OK);
        }
        markring_remote_disconnect(space);
    }
    markring_remote_options wrong = {"nats://127.0.0.1:1", "no file", NULL, NULL, NULL};
    HOLDS(markring_remote_connect(&space, &wrong, "test") == MARKRING_REMOTE_CARRIER);
    return report_checks();
}
