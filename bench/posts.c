// What letters with references and bytes cost. bench/wide compiles it.
//
//     posts
//
// Each row has how many references and bytes a letter has. Three numbers are the nanoseconds of
// processor time that it takes from node to node in one thread: to post it, to move its frame, and to
// accept it with its bytes. (Moving is frames, take, the acknowledgement, and a release on both
// sides.) The last number is how many letters a second go from a cell in one thread to a cell in
// another. The cells' images are made and saved, but stored nowhere.
#define _POSIX_C_SOURCE 200809L
#include <markring.h>

#include <pthread.h>
#include <sched.h>
#include <stdatomic.h>
#include <stdbool.h>
#include <stdio.h>
#include <stdlib.h>
#include <string.h>
#include <time.h>

enum { REFERENCES = 8, BYTES = 64000, WINDOW = MARKRING_WINDOW, ROOM = WINDOW * (BYTES + 200) };

static uint8_t data[BYTES], window[ROOM], buffer[BYTES];
static const markring_shape SHAPE = {
    .slots = 1024, .bytes = BYTES, .registers = 64, .nodes = 2, .places = REFERENCES, .wide = 1};

static void must(int status)
{
    if (status != MARKRING_OK) {
        fprintf(stderr, "posts: %s\n", markring_status_text(status));
        exit(1);
    }
}

static double now(clockid_t clock)
{
    struct timespec it;
    clock_gettime(clock, &it);
    return 1e9 * (double)it.tv_sec + (double)it.tv_nsec;
}

// ## Nodes in one thread

typedef struct costs {
    double post, move, accept;
} costs;

static void move_window(markring_node *from, markring_node *to)
{
    size_t count = 0, needed = 0;
    markring_answer answer;
    must(markring_node_release(from));
    must(markring_node_frames(from, 1, 0, window, sizeof window, &count, &needed));
    const uint8_t *at = window;
    for (size_t i = 0; i < count; i++) {
        size_t length = (size_t)at[0] << 24 | (size_t)at[1] << 16 | (size_t)at[2] << 8 | at[3];
        must(markring_node_take(to, at + 12, length, &answer));
        at += 12 + length;
    }
    must(markring_node_release(to));
    uint8_t ack[MARKRING_ACK_BYTES];
    must(markring_node_ack_for(to, 0, ack, sizeof ack, &needed));
    must(markring_node_take(from, ack, needed, &answer));
}

static costs cost_of(uint8_t references, size_t bytes, int rounds)
{
    markring_node nodes[2] = {{0}, {0}};
    markring_answer answer;
    costs sum = {0, 0, 0};
    for (uint8_t own = 0; own < 2; own++) {
        must(markring_node_make(&nodes[own], &SHAPE, own, 0));
    }
    for (uint16_t reg = 0; reg < REFERENCES; reg++) {
        must(markring_node_alloc(&nodes[0], reg, 0, &answer));
    }
    for (int round = 0; round < rounds; round++) {
        double began = now(CLOCK_THREAD_CPUTIME_ID);
        for (int i = 0; i < WINDOW; i++) {
            must(markring_node_post(&nodes[0], 1, 7, 0, references, data, bytes, &answer));
        }
        double posted = now(CLOCK_THREAD_CPUTIME_ID);
        move_window(&nodes[0], &nodes[1]);
        double moved = now(CLOCK_THREAD_CPUTIME_ID);
        for (int i = 0; i < WINDOW; i++) {
            size_t needed = 0;
            must(markring_node_accept_into(&nodes[1], 0, buffer, sizeof buffer, &needed, &answer));
        }
        sum.post += posted - began;
        sum.move += moved - posted;
        sum.accept += now(CLOCK_THREAD_CPUTIME_ID) - moved;
    }
    for (int own = 0; own < 2; own++) {
        must(markring_node_free(&nodes[own]));
    }
    double letters = (double)rounds * WINDOW;
    return (costs){sum.post / letters, sum.move / letters, sum.accept / letters};
}

// ## Cells in two threads

typedef struct end {
    markring_cell cell;
    uint8_t own, references;
    size_t bytes;
    long count; // of letters that it still has to post, or to accept
    uint8_t *image;
    size_t room;
} end;

static atomic_bool is_over;

static void save(end *it)
{
    size_t needed = 0;
    uint64_t mark;
    uint8_t unsaved = 0;
    must(markring_cell_unsaved(&it->cell, &unsaved));
    if (!unsaved) {
        return;
    }
    while (markring_cell_image(&it->cell, it->image, it->room, &needed, &mark)
        == MARKRING_SHORT_BUFFER) {
        it->image = realloc(it->image, it->room = 2 * needed);
    }
    must(markring_cell_save(&it->cell, mark));
}

static void send_all(end *it)
{
    uint8_t sent = 1;
    for (int i = 0; sent && i < 2; i++) {
        must(markring_cell_send(&it->cell, (uint8_t)(1 - it->own), &sent));
    }
}

// A turn, in which a window of letters is posted once the last one was acknowledged, or what came
// is accepted. Returns whether anything came.
static bool turn(end *it)
{
    markring_answer answer;
    markring_link link;
    size_t needed = 0;
    bool came = markring_cell_receive(&it->cell, (uint8_t)(1 - it->own), &answer) == MARKRING_OK;
    must(markring_cell_link(&it->cell, (uint8_t)(1 - it->own), &link));
    if (it->own == 0 && link.acknowledged == link.appended) {
        for (int i = 0; i < WINDOW && it->count > 0; i++, it->count--) {
            must(markring_cell_post(
                &it->cell, 1, 7, 0, it->references, data, it->bytes, &answer));
        }
    }
    while (it->own == 1
        && markring_cell_accept_into(&it->cell, 0, buffer, sizeof buffer, &needed, &answer)
            == MARKRING_OK) {
        it->count--;
    }
    save(it);
    send_all(it);
    return came;
}

static void *work(void *context)
{
    end *it = context;
    while (!is_over) {
        if (!turn(it)) {
            sched_yield();
        }
        if (it->own == 1 && it->count <= 0) {
            is_over = true;
        }
    }
    return NULL;
}

static double between_threads(uint8_t references, size_t bytes, long count)
{
    markring_space space = {0};
    markring_answer answer;
    pthread_t threads[2];
    end ends[2];
    uint8_t sender, receiver;
    must(markring_space_make(&space, &SHAPE, 0));
    must(markring_space_open(&space, &sender, &receiver));
    is_over = false;
    for (uint8_t own = 0; own < 2; own++) {
        ends[own] = (end){{0}, own, references, bytes, count, NULL, 0};
        must(markring_space_cell(&space, own, &ends[own].cell));
    }
    for (uint16_t reg = 0; reg < REFERENCES; reg++) {
        must(markring_cell_alloc(&ends[0].cell, reg, 0, &answer));
    }
    double began = now(CLOCK_MONOTONIC);
    for (int own = 0; own < 2; own++) {
        pthread_create(&threads[own], NULL, work, &ends[own]);
    }
    for (int own = 0; own < 2; own++) {
        pthread_join(threads[own], NULL);
    }
    double took = now(CLOCK_MONOTONIC) - began;
    for (int own = 0; own < 2; own++) {
        must(markring_cell_free(&ends[own].cell));
        free(ends[own].image);
    }
    must(markring_space_free(&space));
    return (double)count / took * 1e9;
}

int main(void)
{
    static const uint8_t references[] = {0, 1, 8};
    static const size_t bytes[] = {0, 16, 100, 1000, 64000};
    for (size_t i = 0; i < sizeof references; i++) {
        for (size_t k = 0; k < sizeof bytes / sizeof *bytes; k++) {
            bool is_long = bytes[k] > 10000;
            costs found = cost_of(references[i], bytes[k], is_long ? 100 : 3000);
            double rate = between_threads(references[i], bytes[k], is_long ? 3200 : 96000);
            printf("a letter of %d references, %zu bytes\t%.0f\t%.0f\t%.0f\t%.0f\n", references[i],
                bytes[k], found.post, found.move, found.accept, rate);
        }
    }
    return 0;
}
