// What a sweep costs for each object that it frees, with no list of what is freed, and with one;
// and a walk over all objects.
//
//     freed [OBJECTS [ROUNDS]]
//
// Each round makes objects of two places without a root, at node 0 of a space of two nodes, looks
// at each of them, ends two cycles, and sweeps 4,096 slots a call. With a list, it then takes the
// entries out. It prints the least time of an object, over all rounds.
#define _POSIX_C_SOURCE 200809L
#include <markring.h>
#include <stdio.h>
#include <stdlib.h>
#include <time.h>

#define MUST(call)                                                          \
    do {                                                                    \
        int status_ = (call);                                               \
        if (status_ != 0) {                                                 \
            fprintf(stderr, "%s: %s\n", #call, markring_status_text(status_)); \
            exit(1);                                                        \
        }                                                                   \
    } while (0)

enum { NODES = 2, SLICE = 4096 };

static markring_node nodes[NODES];
static markring_answer answer;

static double now(void)
{
    struct timespec time;
    clock_gettime(CLOCK_MONOTONIC, &time);
    return (double)time.tv_sec * 1e9 + (double)time.tv_nsec;
}

// Moves all frames of both links.
static void move(void)
{
    uint8_t frame[64];
    size_t length;
    for (int from = 0; from < NODES; from++) {
        int to = 1 - from;
        MUST(markring_node_release(&nodes[from]));
        for (uint8_t place = 0; markring_node_frame_at(&nodes[from], (uint8_t)to, place, frame,
                                    sizeof frame, &length) == 0; place++)
            MUST(markring_node_take(&nodes[to], frame, length, &answer));
        MUST(markring_node_ack_for(&nodes[to], (uint8_t)from, frame, sizeof frame, &length));
        MUST(markring_node_take(&nodes[from], frame, length, &answer));
    }
}

// Runs a cycle until its marking has ended on both nodes.
static void mark(uint64_t cycle)
{
    markring_state states[NODES];
    MUST(markring_node_begin(&nodes[0], &answer));
    do {
        for (int own = 0; own < NODES; own++) {
            while (markring_node_scan(&nodes[own], &answer) == 0)
                ;
            (void)markring_node_pass(&nodes[own], &answer);
        }
        move();
        for (int own = 0; own < NODES; own++)
            MUST(markring_node_state(&nodes[own], &states[own]));
    } while (states[0].ended < cycle || states[1].ended < cycle);
}

// Sweeps a node, and returns how many objects that freed.
static long sweep(int own)
{
    long freed = 0;
    uint32_t count;
    uint8_t done = 0;
    while (!done) {
        MUST(markring_node_sweep(&nodes[own], SLICE, &answer));
        if (!markring_answer_freed(&answer, &count, &done))
            exit(2);
        freed += count;
    }
    return freed;
}

// What is ready of the list.
static long take_out(void)
{
    static markring_freed entries[SLICE];
    long taken = 0;
    for (size_t count = 1; count; taken += (long)count)
        MUST(markring_node_freed(&nodes[0], entries, SLICE, &count));
    return taken;
}

// How many objects there are.
static long walk(void)
{
    markring_object object;
    uint32_t slots;
    long found = 0;
    MUST(markring_node_slots(&nodes[0], &slots));
    for (uint32_t slot = 0; slot < slots; slot++)
        found += markring_node_object(&nodes[0], slot, &object) == 0;
    return found;
}

enum { SWEPT, WALKED, TAKEN_OUT, TIMES };

static void note(double least[TIMES], int what, double start, long expected, long counted)
{
    double took = (now() - start) / (double)expected;
    if (counted != expected) {
        fprintf(stderr, "freed: %ld objects, and not %ld\n", counted, expected);
        exit(2);
    }
    if (took < least[what])
        least[what] = took;
}

static void measure(long objects, int rounds, uint8_t tracks, double least[TIMES])
{
    static uint64_t cycle = 0;
    MUST(markring_node_track_freed(&nodes[0], tracks));
    for (int round = 0; round < rounds; round++) {
        for (long object = 0; object < objects; object++)
            MUST(markring_node_alloc(&nodes[0], 0, 2, &answer));
        MUST(markring_node_drop(&nodes[0], 0, &answer));
        double start = now();
        note(least, WALKED, start, objects, walk());
        for (int times = 0; times < 2; times++) {
            mark(++cycle);
            (void)sweep(1);
            start = now();
            long freed = sweep(0);
            if (freed > 0)
                note(least, SWEPT, start, objects, freed);
            move();
        }
        start = now();
        if (tracks)
            note(least, TAKEN_OUT, start, objects, take_out());
    }
}

int main(int argc, char **argv)
{
    long objects = argc > 1 ? atol(argv[1]) : 1000000;
    int rounds = argc > 2 ? atoi(argv[2]) : 10;
    for (int own = 0; own < NODES; own++)
        MUST(markring_node_new(&nodes[own], NODES, 4, 1048576, (uint8_t)own, 0));
    for (int tracks = 0; tracks < 2; tracks++) {
        double least[TIMES] = {1e9, 1e9, 1e9};
        measure(objects, rounds, (uint8_t)tracks, least);
        printf("%s: walked %.1f ns, swept %.1f ns", tracks ? "with a list" : "without a list",
            least[WALKED], least[SWEPT]);
        printf(tracks ? ", taken out %.1f ns\n" : "\n", least[TAKEN_OUT]);
    }
    return 0;
}
