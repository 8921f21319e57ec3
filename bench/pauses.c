// How long single calls of the C library take beside many objects, with collection cycles under
// way: of a node with a log, and of two cells in threads.
//
//     pauses node|cells OBJECTS SECONDS
//
// Node 0 has a list of OBJECTS objects. A turn is eight events, the collector's share, and frames;
// every hundredth turn the node stores a batch, and an image once the batches have as many bytes.
// A cell saves its image every hundredth turn. A row has how many calls there were, quantiles and
// the worst, in microseconds.
#define _POSIX_C_SOURCE 200809L
#include <markring.h>

#include <pthread.h>
#include <stdatomic.h>
#include <stdbool.h>
#include <stdio.h>
#include <stdlib.h>
#include <string.h>
#include <time.h>

enum { SCANS = 256, SLOTS = 4096, SAVE = 100, SAMPLES = 1 << 22, BATCH = 1 << 21, KINDS = 16 };

typedef struct kind {
    const char *name;
    size_t count;
    float *took;
} kind;

// What one thread measured.
typedef struct record {
    kind kinds[KINDS];
    double began;
} record;

static double now(void)
{
    struct timespec it;
    clock_gettime(CLOCK_MONOTONIC, &it);
    return 1e6 * (double)it.tv_sec + 1e-3 * (double)it.tv_nsec;
}

static void must(int status, const char *call)
{
    if (status != MARKRING_OK) {
        fprintf(stderr, "pauses: %s: %s\n", call, markring_status_text(status));
        exit(1);
    }
}

#define MUST(call) must((call), #call)

static int note(record *it, const char *name, int status)
{
    double took = now() - it->began;
    kind *at = it->kinds;
    while (at->name != NULL && strcmp(at->name, name) != 0) {
        at++;
    }
    if (at->name == NULL) {
        at->name = name;
        at->took = malloc(SAMPLES * sizeof *at->took);
    }
    if (at->count < SAMPLES) {
        at->took[at->count++] = (float)took;
    }
    return status;
}

// The status of a call, whose time is noted.
#define TIMED(it, name, call) ((it)->began = now(), note((it), (name), (call)))

static int compare(const void *a, const void *b)
{
    float x = *(const float *)a, y = *(const float *)b;
    return (x > y) - (x < y);
}

static void print(const char *of, record *it)
{
    for (kind *at = it->kinds; at->name != NULL; at++) {
        size_t n = at->count;
        qsort(at->took, n, sizeof *at->took, compare);
        printf("%s, %s\t%zu", of, at->name, n);
        for (double rest = 0.5; rest > 5e-5; rest = rest == 0.5 ? 0.01 : rest / 10) {
            printf("\t%.1f", at->took[(size_t)((double)(n - 1) * (1 - rest))]);
        }
        printf("\t%.1f\n", at->took[n - 1]);
        free(at->took);
    }
}

// ---- a node with a log

static markring_node nodes[2];
static record of_node;

static void save_node(uint8_t *image, size_t room, size_t *length, size_t *batches)
{
    static uint8_t batch[BATCH];
    size_t size = 0, needed = 0;
    uint64_t mark;
    int status =
        TIMED(&of_node, "batch", markring_node_batch(&nodes[0], batch, BATCH, &size, &mark));
    *batches += size;
    if (status != MARKRING_OK || *batches > *length) {
        MUST(TIMED(&of_node, "image_size", markring_node_image_size(&nodes[0], &needed)));
        MUST(TIMED(&of_node, "image", markring_node_image(&nodes[0], image, room, length, &mark)));
        *batches = 0;
    }
    MUST(TIMED(&of_node, "kept", markring_node_kept(&nodes[0], mark)));
}

static void move_frames(int from, int to)
{
    markring_answer answer;
    uint8_t frame[MARKRING_FRAME_BYTES];
    size_t length;
    for (uint8_t place = 0; place < 32; place++) {
        int status = markring_node_frame_at(
            &nodes[from], (uint8_t)to, place, frame, sizeof frame, &length);
        if (status == MARKRING_NOTHING) {
            break;
        }
        MUST(status);
        MUST(TIMED(&of_node, "take", markring_node_take(&nodes[to], frame, length, &answer)));
    }
    MUST(markring_node_ack_for(&nodes[from], (uint8_t)to, frame, sizeof frame, &length));
    MUST(TIMED(&of_node, "take", markring_node_take(&nodes[to], frame, length, &answer)));
}

static void node_events(unsigned long turn)
{
    markring_answer answer;
    for (uint64_t i = 0; i < 4; i++) {
        MUST(TIMED(&of_node, "set_word", markring_node_set_word(&nodes[0], 0, turn + i, &answer)));
    }
    MUST(TIMED(&of_node, "alloc", markring_node_alloc(&nodes[0], 1, 2, &answer)));
    MUST(TIMED(&of_node, "store", markring_node_store(&nodes[0], 1, 0, 0, &answer)));
    MUST(TIMED(&of_node, "load", markring_node_load(&nodes[0], 2, 1, 0, &answer)));
    MUST(TIMED(&of_node, "drop", markring_node_drop(&nodes[0], 1, &answer)));
    (void)TIMED(&of_node, "begin", markring_node_begin(&nodes[0], &answer));
}

static void measure_node(long objects, double seconds)
{
    markring_answer answer;
    markring_work work;
    size_t room = 128 * (size_t)objects + (1 << 22), length = 0, batches = 1;
    uint8_t *image = malloc(room);
    memset(image, 1, room);
    for (uint8_t own = 0; own < 2; own++) {
        MUST(markring_node_new(&nodes[own], 2, 4, 1048576, own, 0));
    }
    MUST(markring_node_alloc(&nodes[0], 0, 1, &answer));
    for (long made = 1; made < objects; made++) {
        MUST(markring_node_alloc(&nodes[0], 1, 1, &answer));
        MUST(markring_node_store(&nodes[0], 1, 0, 0, &answer));
        MUST(markring_node_copy(&nodes[0], 0, 1, &answer));
    }
    MUST(markring_node_log(&nodes[0], 1));
    save_node(image, room, &length, &batches);
    double end = now() + 1e6 * seconds;
    for (unsigned long turn = 0; now() < end; turn++) {
        node_events(turn);
        MUST(TIMED(&of_node, "work", markring_node_work(&nodes[0], SCANS, SLOTS, &work)));
        MUST(markring_node_work(&nodes[1], SCANS, SLOTS, &work));
        if (turn % SAVE == 0) {
            save_node(image, room, &length, &batches);
            MUST(markring_node_release(&nodes[1]));
            move_frames(0, 1);
            move_frames(1, 0);
        }
    }
    print("node", &of_node);
    free(image);
}

// ---- two cells in threads

typedef struct seat {
    markring_cell cell;
    uint8_t own;
    record of;
    uint8_t *image;
    size_t room;
    double end;
} seat;

static atomic_int stopped;

static void save_cell(seat *at)
{
    uint8_t unsaved = 0;
    size_t length;
    uint64_t mark;
    MUST(markring_cell_unsaved(&at->cell, &unsaved));
    if (unsaved) {
        MUST(TIMED(&at->of, "image",
            markring_cell_image(&at->cell, at->image, at->room, &length, &mark)));
        MUST(TIMED(&at->of, "save", markring_cell_save(&at->cell, mark)));
    }
}

static void cell_events(seat *at, unsigned long turn)
{
    markring_answer answer;
    for (uint64_t i = 0; i < 4; i++) {
        MUST(TIMED(&at->of, "set_word", markring_cell_set_word(&at->cell, 0, turn + i, &answer)));
    }
    MUST(TIMED(&at->of, "alloc", markring_cell_alloc(&at->cell, 1, 2, &answer)));
    MUST(TIMED(&at->of, "store", markring_cell_store(&at->cell, 1, 0, 0, &answer)));
    MUST(TIMED(&at->of, "load", markring_cell_load(&at->cell, 2, 1, 0, &answer)));
    MUST(TIMED(&at->of, "drop", markring_cell_drop(&at->cell, 1, &answer)));
    (void)TIMED(&at->of, "begin", markring_cell_begin(&at->cell, &answer));
}

static void *run_cell(void *given)
{
    seat *at = given;
    markring_answer answer;
    markring_work work;
    uint8_t sent, peer = 1 - at->own;
    for (unsigned long turn = 0; at->own == 0 ? now() < at->end : !atomic_load(&stopped); turn++) {
        if (at->own == 0) {
            cell_events(at, turn);
        }
        MUST(TIMED(&at->of, "work", markring_cell_work(&at->cell, SCANS, SLOTS, &work)));
        (void)TIMED(&at->of, "receive", markring_cell_receive(&at->cell, peer, &answer));
        if (turn % SAVE == 0) {
            save_cell(at);
        }
        MUST(TIMED(&at->of, "send", markring_cell_send(&at->cell, peer, &sent)));
    }
    atomic_store(&stopped, 1);
    return NULL;
}

static void measure_cells(long objects, double seconds)
{
    static seat seats[2];
    markring_space space = {0};
    markring_answer answer;
    pthread_t threads[2];
    uint8_t apart[2];
    MUST(markring_space_new(&space, 2, 4, 1048576, 0));
    MUST(markring_space_open(&space, &apart[0], &apart[1]));
    for (uint8_t own = 0; own < 2; own++) {
        seats[own].own = own;
        MUST(markring_space_cell(&space, own, &seats[own].cell));
        seats[own].room = 128 * (size_t)objects + (1 << 22);
        seats[own].image = malloc(seats[own].room);
    }
    markring_cell *cell = &seats[0].cell;
    MUST(markring_cell_alloc(cell, 0, 1, &answer));
    for (long made = 1; made < objects; made++) {
        MUST(markring_cell_alloc(cell, 1, 1, &answer));
        MUST(markring_cell_store(cell, 1, 0, 0, &answer));
        MUST(markring_cell_copy(cell, 0, 1, &answer));
    }
    seats[0].end = now() + 1e6 * seconds;
    for (int own = 0; own < 2; own++) {
        pthread_create(&threads[own], NULL, run_cell, &seats[own]);
    }
    for (int own = 0; own < 2; own++) {
        pthread_join(threads[own], NULL);
    }
    print("cell", &seats[0].of);
}

int main(int count, char **given)
{
    if (count != 4) {
        fputs("usage: pauses node|cells OBJECTS SECONDS\n", stderr);
        return 2;
    }
    (strcmp(given[1], "node") == 0 ? measure_node : measure_cells)(atol(given[2]), atof(given[3]));
    return 0;
}
