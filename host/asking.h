// Requests over a connection to a NATS server. A thread sends each of them again and again, until it
// is answered or its time is over.
//
// While libnats connects again, it holds a connection's lock: for four seconds, if a server says
// little. Whatever uses the connection waits for that. So that thread alone does, and no caller
// waits for it.
#ifndef HOST_ASKING_H
#define HOST_ASKING_H

#include "carrier.h"

#include <pthread.h>
#include <stdbool.h>
#include <stddef.h>
#include <stdint.h>

enum { SUBJECT = 128 };

typedef struct task task;
typedef struct asker asker;

// Takes an answer if it is the one that is waited for. Returns a status, or -1 to wait on.
typedef int (*taker)(void *context, const uint8_t *bytes, size_t length);

struct task {
    task *next;
    int status; // -1 as long as it is asked for
    size_t length, answer; // `answer`: bytes that its answer has at least
    char subject[SUBJECT];
    // Both are called under the lock. `over` may be NULL: the task has got a status.
    taker take;
    void (*over)(void *context, int status);
    void *context;
    // The rest is the asker's.
    uint64_t number;         // the last word of the address for the answer
    int64_t end, due, pause; // when it is given up, and sent next
    bool is_held, is_dropped;
    uint8_t bytes[]; // `length` of them, which its caller writes
};

struct asker {
    carrier_options carrier;
    char *words[5]; // those of `carrier`
    // The thread's alone, while it runs.
    natsConnection *connection;
    natsSubscription *answers; // to all addresses that begin with `inbox` and a point
    char inbox[128];
    pthread_t thread;
    bool has_thread;
    // The rest is used under the lock.
    pthread_mutex_t lock;
    pthread_cond_t changed;
    int holders; // who has it open, and each subscription that may still call
    bool ends;
    uint64_t numbers; // of tasks
    task *tasks;      // those that are asked for
};

// Milliseconds of a clock that never goes back.
int64_t now_ms(void);
int64_t time_after(int64_t now, int64_t timeout);

// Connects. A server that can't be reached is tried again and again.
natsStatus asker_open(asker **it, const carrier_options *options);

// Ends the thread and the connection. All tasks were dropped.
void asker_close(asker *it);

// Makes a task, of which the caller sets the rest. Returns NULL if there is no memory.
task *make_task(size_t length);

// The caller of these has the lock.

// Begins to ask, and gives up at `end`.
void ask_for(asker *it, task *of, int64_t end);

// Ends a task that is asked for, with this status.
void end_task(asker *it, task *of, int status);

// Frees a task, now or once the thread has sent it. Nothing is called for it any more.
void drop_task(asker *it, task *of);

// Waits until something changes, at most to the end.
void wait_for_change(asker *it, int64_t end);

#endif
