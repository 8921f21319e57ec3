// Collects a list of OBJECTS objects of two places, all reachable from node 0, in a space of two
// cells, and prints the least processor time of ROUNDS collections in seconds. bench/collections
// compares it with Python's.
#define _POSIX_C_SOURCE 200809L
#include <markring.h>

#include <stdio.h>
#include <stdlib.h>
#include <time.h>

enum { NODES = 2, ROUNDS = 5 };

static void must(int status, const char *call)
{
    if (status != MARKRING_OK) {
        fprintf(stderr, "collect: %s: %s\n", call, markring_status_text(status));
        exit(1);
    }
}

#define MUST(call) must((call), #call)

static double now(void)
{
    struct timespec it;
    clock_gettime(CLOCK_PROCESS_CPUTIME_ID, &it);
    return (double)it.tv_sec + 1e-9 * (double)it.tv_nsec;
}

// A collection has one buffer for its images, as Python's.
typedef struct buffer {
    uint8_t *bytes;
    size_t length;
} buffer;

static void save(markring_cell *cell, buffer *to)
{
    size_t needed;
    uint64_t mark;
    int status;
    while ((status = markring_cell_image(cell, to->bytes, to->length, &needed, &mark)) == MARKRING_SHORT_BUFFER) {
        free(to->bytes);
        *to = (buffer){calloc(needed, 1), needed};
        if (to->bytes == NULL) {
            must(MARKRING_MEMORY, "calloc");
        }
    }
    must(status, "markring_cell_image");
    MUST(markring_cell_save(cell, mark));
}

static void collect(markring_cell *cells)
{
    markring_state state;
    buffer image = {calloc(1, 1), 0};
    uint8_t done = 0;
    MUST(markring_cell_state(&cells[0], &state));
    while (!done) {
        MUST(markring_space_collect(cells, NODES, state.cycle + 1, &done));
        for (int i = 0; i < NODES; i++) {
            uint8_t unsaved;
            MUST(markring_cell_unsaved(&cells[i], &unsaved));
            if (unsaved) {
                save(&cells[i], &image);
            }
        }
    }
    free(image.bytes);
}

int main(int count, char **words)
{
    uint32_t objects = count > 1 ? (uint32_t)strtoul(words[1], NULL, 10) : 1000000;
    markring_space space = {0};
    markring_cell cells[NODES] = {{0}};
    markring_answer answer;
    markring_shape shape = {.nodes = NODES, .slots = objects, .registers = 2, .places = 2, .wide = 1};
    uint8_t apart[2];
    MUST(markring_space_make(&space, &shape, 0));
    MUST(markring_space_open(&space, &apart[0], &apart[1]));
    for (uint8_t i = 0; i < NODES; i++) {
        MUST(markring_space_cell(&space, i, &cells[i]));
    }
    for (uint32_t i = 0; i < objects; i++) {
        MUST(markring_cell_alloc(&cells[0], 1, 2, &answer));
        if (i > 0) {
            MUST(markring_cell_store(&cells[0], 1, 0, 0, &answer));
        }
        MUST(markring_cell_copy(&cells[0], 0, 1, &answer));
    }
    double least = 1e9;
    for (int round = 0; round < ROUNDS; round++) {
        double began = now();
        collect(cells);
        double took = now() - began;
        least = took < least ? took : least;
    }
    printf("%.3f\n", least);
    return 0;
}
