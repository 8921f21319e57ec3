// What a host shows to its operator: numbers, how long things took, and notes of what happens.
#ifndef HOST_SHOWING_H
#define HOST_SHOWING_H

#include "host.h"

// ## Times

enum { HOST_BOUNDS = 16 };

// In milliseconds.
extern const uint32_t HOST_BOUND[HOST_BOUNDS];

// How often something took more than one bound, and at most the next one. The last count is of what
// took longer than all bounds.
typedef struct host_times {
    uint64_t counts[HOST_BOUNDS + 1];
    uint64_t sum; // milliseconds
} host_times;

// ## Numbers

typedef struct host_peer_view {
    bool is_seen; // it was heard, and isn't lost
    bool is_late; // it has acknowledged nothing for ten seconds, though messages wait
    uint64_t unacknowledged;
} host_peer_view;

// A host at one moment. Times are in milliseconds.
typedef struct host_view {
    char space[HOST_NAME + 1];
    uint64_t own, nodes, registers, slots, places, bytes, wide, limit;
    uint64_t byte_limit, letter_bytes, queued_bytes;
    uint64_t cycle, ended, swept, token, live, letters, unacknowledged;
    uint64_t image, save, saved_ago, save_took, database_lost, run;
    host_counts counts;
    host_times saves, cycles, requests;
    host_peer_view peers[64]; // `nodes` of them
} host_view;

void host_look(host *it, uint64_t now, host_view *to);

// A number of the status: its name there, its name as a metric, and what it means.
typedef struct host_number {
    const char *name, *metric, *help;
    size_t at;    // the offset of a uint64_t in a host_view
    bool is_time; // it is in milliseconds
} host_number;

extern const host_number HOST_NUMBER[];
extern const size_t HOST_NUMBERS;

uint64_t host_number_of(const host_view *view, const host_number *which);

// ## Notes

typedef enum host_note_kind {
    // A packet of another node came, the first one since this process began or since the node was
    // lost.
    NOTE_PEER_SEEN,
    // It has answered nothing for a while, though messages wait.
    NOTE_PEER_LOST,
    // This node has joined a cycle, knows that its marking has ended, has swept it.
    NOTE_CYCLE_BEGUN,
    NOTE_CYCLE_ENDED,
    NOTE_CYCLE_SWEPT,
    // A cycle has been under way for a minute, and waits for a node; or, at node 0, for one that it
    // can't name.
    NOTE_CYCLE_WAITS,
    NOTE_CYCLE_STUCK,
    // A save takes longer than a second. None has for a minute.
    NOTE_SAVE_SLOW,
    NOTE_SAVES_QUICK,
    // A limit is reached; it was reached, and no longer is.
    NOTE_LIMIT_REACHED,
    NOTE_LIMIT_LEFT
} host_note_kind;

typedef enum host_limit {
    LIMIT_MESSAGES, // unacknowledged messages to `node`: programs can send it nothing
    LIMIT_LETTERS,  // letters that wait: the node takes no messages
    LIMIT_IMAGE     // the node's image: programs can't make it grow
} host_limit;

typedef struct host_note {
    host_note_kind kind;
    host_limit limit;
    uint8_t node;    // another node that it is about
    uint64_t cycle;
    uint64_t count;  // objects that this node has freed; saves that were slow
    uint64_t time;   // milliseconds that it took
} host_note;

// Calls `note` for each note from now on, from within the calls of the host.
void host_listen(host *it, void (*note)(void *context, const host_note *what), void *context);

#endif
