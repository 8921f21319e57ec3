// What a wide space costs through C, in nanoseconds:
//
// - reading and patching 100 bytes of an object, above a memcpy of them;
// - joining a cycle with 10 registers filled, by how many registers the shape has.
//
// Each is the least of several rounds.
#define _POSIX_C_SOURCE 200809L
#include <markring.h>

#include <stdio.h>
#include <stdlib.h>
#include <string.h>
#include <time.h>

enum { ROUNDS = 9, CALLS = 1000000, CYCLES = 300, LENGTH = 100, FILLED = 10, SLOTS = 1000 };

static markring_node nodes[2];
static markring_answer answer;
static uint8_t data[LENGTH], buffer[LENGTH];

static void must(int status, const char *call)
{
    if (status != MARKRING_OK) {
        fprintf(stderr, "joins: %s: %s\n", call, markring_status_text(status));
        exit(1);
    }
}

#define MUST(call) must((call), #call)

static double now(void)
{
    struct timespec it;
    clock_gettime(CLOCK_MONOTONIC, &it);
    return 1e9 * (double)it.tv_sec + (double)it.tv_nsec;
}

// Prints the least time of a call over all rounds. The compiler may not leave out any of them.
#define TIME(name, call) \
    do { \
        double least = 1e18; \
        for (int round = 0; round < ROUNDS; round++) { \
            double began = now(); \
            for (int i = 0; i < CALLS; i++) { \
                call; \
                __asm__ volatile("" ::: "memory"); \
            } \
            double took = (now() - began) / CALLS; \
            least = took < least ? took : least; \
        } \
        printf("%s\t%.1f\n", name, least); \
    } while (0)

static void time_bytes(uint8_t places, uint32_t bytes)
{
    markring_shape shape = {SLOTS, bytes, 2, 2, places, 1};
    size_t needed;
    char name[99];
    MUST(markring_node_make(&nodes[0], &shape, 0, 0));
    MUST(markring_node_alloc(&nodes[0], 0, 2, &answer));
    MUST(markring_node_set_bytes(&nodes[0], 0, data, LENGTH, &answer));
    snprintf(name, sizeof name, "reading 100 bytes, shape of %d places and %u bytes", places, bytes);
    TIME(name, MUST(markring_node_bytes(&nodes[0], 0, 0, LENGTH, buffer, LENGTH, &needed)));
    snprintf(name, sizeof name, "patching 100 bytes, shape of %d places and %u bytes", places, bytes);
    TIME(name, MUST(markring_node_patch(&nodes[0], 0, 0, data, LENGTH, &answer)));
    MUST(markring_node_free(&nodes[0]));
}

static void send(uint8_t from, uint8_t to)
{
    uint8_t frame[48];
    size_t needed;
    for (uint8_t place = 0; place < 32; place++) {
        int status = markring_node_frame_at(&nodes[from], to, place, frame, sizeof frame, &needed);
        if (status == MARKRING_NOTHING) {
            break;
        }
        must(status, "markring_node_frame_at");
        MUST(markring_node_take(&nodes[to], frame, needed, &answer));
    }
    MUST(markring_node_ack_for(&nodes[from], to, frame, sizeof frame, &needed));
    MUST(markring_node_take(&nodes[to], frame, needed, &answer));
}

// Ends the cycle: both nodes have swept it, and node 0 knows.
static void end_cycle(void)
{
    markring_state zero, one;
    markring_work work;
    do {
        for (uint8_t node = 0; node < 2; node++) {
            MUST(markring_node_work(&nodes[node], UINT32_MAX, SLOTS, &work));
            MUST(markring_node_release(&nodes[node]));
            send(node, 1 - node);
        }
        MUST(markring_node_state(&nodes[0], &zero));
        MUST(markring_node_state(&nodes[1], &one));
    } while (zero.swept < zero.cycle || one.swept < zero.cycle);
    send(1, 0);
}

static void time_joining(uint16_t registers)
{
    markring_shape shape = {SLOTS, 0, registers, 2, 2, 1};
    uint16_t filled = registers < FILLED ? registers : FILLED;
    double least = 1e18;
    for (uint8_t own = 0; own < 2; own++) {
        MUST(markring_node_make(&nodes[own], &shape, own, 0));
    }
    for (uint16_t reg = 0; reg < filled; reg++) {
        MUST(markring_node_alloc(&nodes[0], reg, 2, &answer));
    }
    for (int cycle = 0; cycle < CYCLES; cycle++) {
        double began = now();
        MUST(markring_node_begin(&nodes[0], &answer));
        double took = now() - began;
        least = took < least ? took : least;
        end_cycle();
    }
    printf("joining a cycle, %u registers of which %u are filled\t%.0f\n", registers, filled, least);
    MUST(markring_node_free(&nodes[0]));
    MUST(markring_node_free(&nodes[1]));
}

int main(void)
{
    TIME("memcpy of 100 bytes", memcpy(buffer, data, LENGTH));
    time_bytes(2, 100);
    time_bytes(255, 16777216);
    time_joining(1);
    time_joining(1000);
    time_joining(65535);
    return 0;
}
