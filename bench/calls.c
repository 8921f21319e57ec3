// The time of single calls of the C library, in nanoseconds: the least of several rounds.
#define _POSIX_C_SOURCE 200809L
#include <markring.h>

#include <stdio.h>
#include <stdlib.h>
#include <time.h>

enum { ROUNDS = 9, CALLS = 1000000, LETTERS = 20000 };

static markring_node zero, one;
static markring_answer answer;

static void must(int status, const char *call)
{
    if (status != MARKRING_OK) {
        fprintf(stderr, "calls: %s: %s\n", call, markring_status_text(status));
        exit(1);
    }
}

#define MUST(call) must((call), #call)

static double now(void)
{
    struct timespec it;
    clock_gettime(CLOCK_MONOTONIC, &it);
    return 1e9 * (double)it.tv_sec + (double)it.tv_nsec;
}

// Prints the least time of a call over all rounds.
#define TIME(name, expected, call) \
    do { \
        double least = 1e18; \
        for (int round = 0; round < ROUNDS; round++) { \
            double began = now(); \
            for (int i = 0; i < CALLS; i++) { \
                if ((call) != (expected)) { \
                    must((call), name); \
                } \
            } \
            double took = (now() - began) / CALLS; \
            least = took < least ? took : least; \
        } \
        printf("%s\t%.1f\n", name, least); \
    } while (0)

static void save(markring_node *node)
{
    static uint8_t image[1 << 22];
    size_t needed;
    uint64_t mark;
    MUST(markring_node_image(node, image, sizeof image, &needed, &mark));
    MUST(markring_node_kept(node, mark));
}

// Letters of node 0 to node 1: giving, moving and accepting are timed apart.
static void letters(void)
{
    uint8_t window[1920], ack[MARKRING_ACK_BYTES];
    size_t count, needed;
    double given = 1e18, moved = 1e18, accepted = 1e18;
    for (int round = 0; round < ROUNDS; round++) {
        double began = now();
        for (uint32_t i = 0; i < LETTERS; i++) {
            MUST(markring_node_give(&zero, 1, i, 0, &answer));
        }
        double gave = now();
        save(&zero);
        double saved = now(), spent = 0;
        while (markring_node_frames(&zero, 1, 0, window, sizeof window, &count, &needed)
            == MARKRING_OK) {
            // (each behind its length, in four bytes, and its number, in eight)
            uint8_t *at = window;
            for (size_t i = 0; i < count; i++) {
                size_t length = (size_t)at[2] << 8 | at[3];
                MUST(markring_node_take(&one, at + 12, length, &answer));
                at += 12 + length;
            }
            // Saving isn't counted.
            double paused = now();
            save(&one);
            spent += now() - paused;
            MUST(markring_node_ack_for(&one, 0, ack, sizeof ack, &needed));
            MUST(markring_node_take(&zero, ack, needed, &answer));
        }
        double came = now();
        for (uint32_t i = 0; i < LETTERS; i++) {
            MUST(markring_node_accept(&one, 0, &answer));
            if (answer.label != i) {
                exit(1);
            }
        }
        double ended = now();
        given = gave - began < given ? gave - began : given;
        moved = came - saved - spent < moved ? came - saved - spent : moved;
        accepted = ended - came < accepted ? ended - came : accepted;
    }
    printf("give\t%.1f\naccept\t%.1f\nframes, take and ack, a letter\t%.1f\n", given / LETTERS,
        accepted / LETTERS, moved / LETTERS);
}

static void time_cell(void)
{
    markring_space space = {0};
    markring_cell cell = {0};
    uint8_t apart[2];
    MUST(markring_space_new(&space, 2, 4, 1024, 0));
    MUST(markring_space_open(&space, &apart[0], &apart[1]));
    MUST(markring_space_cell(&space, 0, &cell));
    MUST(markring_cell_alloc(&cell, 0, 2, &answer));
    TIME("word of a cell", MARKRING_OK, markring_cell_word(&cell, 0, &answer));
    TIME("set_word of a cell", MARKRING_OK, markring_cell_set_word(&cell, 0, 7, &answer));
    MUST(markring_cell_free(&cell));
    MUST(markring_space_free(&space));
}

int main(void)
{
    MUST(markring_node_new(&zero, 2, 4, 1024, 0, 0));
    MUST(markring_node_new(&one, 2, 4, 1024, 1, 0));
    MUST(markring_node_alloc(&zero, 0, 2, &answer));
    MUST(markring_node_alloc(&zero, 1, 2, &answer));
    MUST(markring_node_store(&zero, 0, 0, 1, &answer));
    TIME("word", MARKRING_OK, markring_node_word(&zero, 0, &answer));
    TIME("set_word", MARKRING_OK, markring_node_set_word(&zero, 0, 7, &answer));
    TIME("load", MARKRING_OK, markring_node_load(&zero, 2, 0, 0, &answer));
    TIME("store", MARKRING_OK, markring_node_store(&zero, 0, 1, 2, &answer));
    TIME("a refusal", MARKRING_EMPTY_REGISTER, markring_node_word(&zero, 3, &answer));
    time_cell();
    letters();
    MUST(markring_node_free(&zero));
    MUST(markring_node_free(&one));
    return 0;
}
