// Makes a full binary tree and marks it, on node 0 of a space of two or with Boehm's collector
// (BOEHM), and prints the nanoseconds of an object of two places: making, marking.
//
//     marking DEPTH ROUNDS
#define _POSIX_C_SOURCE 200809L
#ifdef BOEHM
#include <gc.h>
#else
#include <markring.h>
#endif

#include <stdint.h>
#include <stdio.h>
#include <stdlib.h>
#include <time.h>

static double now(void)
{
    struct timespec it;
    clock_gettime(CLOCK_PROCESS_CPUTIME_ID, &it);
    return 1e9 * (double)it.tv_sec + (double)it.tv_nsec;
}

#ifdef BOEHM
typedef struct tree {
    uint64_t word;
    struct tree *places[2];
} tree;

static tree *volatile root;

static tree *make(int depth)
{
    tree *it = GC_MALLOC(sizeof *it);
    for (int i = 0; i < 2 && depth > 0; i++) {
        it->places[i] = make(depth - 1);
    }
    return it;
}

static void begin(int depth)
{
    GC_INIT();
    GC_set_free_space_divisor(1);
    root = make(depth);
}

static void mark(void)
{
    GC_gcollect();
}

static void end_cycle(void) {}
#else
enum { REGISTERS = 64, SLOTS = 1048576 };

static markring_node nodes[2];
static markring_answer answer;

static void must(int status)
{
    if (status != MARKRING_OK) {
        fprintf(stderr, "marking: %s\n", markring_status_text(status));
        exit(1);
    }
}

// A tree under a register; those after it are used for its subtrees.
static void make(int depth, uint16_t reg)
{
    must(markring_node_alloc(&nodes[0], reg, 2, &answer));
    for (uint8_t place = 0; place < 2 && depth > 0; place++) {
        make(depth - 1, reg + 1);
        must(markring_node_store(&nodes[0], reg, place, reg + 1, &answer));
    }
}

static void begin(int depth)
{
    for (uint8_t own = 0; own < 2; own++) {
        must(markring_node_new(&nodes[own], 2, REGISTERS, SLOTS, own, 0));
    }
    make(depth, 0);
}

static void mark(void)
{
    markring_work work;
    must(markring_node_begin(&nodes[0], &answer));
    must(markring_node_work(&nodes[0], UINT32_MAX, 0, &work));
}

static void move_frames(int from, int to)
{
    uint8_t frame[MARKRING_FRAME_BYTES];
    size_t length;
    must(markring_node_release(&nodes[from]));
    while (markring_node_frame_at(&nodes[from], (uint8_t)to, 0, frame, sizeof frame, &length)
        == MARKRING_OK) {
        must(markring_node_take(&nodes[to], frame, length, &answer));
        must(markring_node_release(&nodes[to]));
        must(markring_node_ack_for(&nodes[to], (uint8_t)from, frame, sizeof frame, &length));
        must(markring_node_take(&nodes[from], frame, length, &answer));
    }
}

static void end_cycle(void)
{
    markring_state state;
    markring_work work;
    do {
        move_frames(0, 1);
        move_frames(1, 0);
        must(markring_node_work(&nodes[0], SLOTS, SLOTS, &work));
        must(markring_node_work(&nodes[1], SLOTS, SLOTS, &work));
        must(markring_node_state(&nodes[1], &state));
    } while (state.swept < state.cycle || work.received + work.scanned + work.passed > 0);
    move_frames(1, 0);
}
#endif

int main(int count, char **given)
{
    if (count != 3) {
        fputs("usage: marking DEPTH ROUNDS\n", stderr);
        return 2;
    }
    int depth = atoi(given[1]), rounds = atoi(given[2]);
    double objects = (double)((2L << depth) - 1), began = now();
    begin(depth);
    double made = (now() - began) / objects, least = 1e18;
    for (int i = 0; i < rounds; i++) {
        began = now();
        mark();
        double took = (now() - began) / objects;
        least = took < least ? took : least;
        end_cycle();
    }
    printf("%.1f\t%.1f\n", made, least);
    return 0;
}
