// A space whose nodes are in threads: letters go around the ring of nodes while collection cycles
// run, cells are reopened, and the whole space crashes and continues from its stored images. Every
// letter comes once and in order, and at the end no garbage is left.
//
// Before that, two threads send and receive frames through one mailbox. None is lost or comes twice.
//
//     threads NODES LETTERS CRASHES
#define _POSIX_C_SOURCE 200809L
#include "check.h"

#include <pthread.h>
#include <sched.h>
#include <stdatomic.h>
#include <time.h>

// A node gives a letter unless AHEAD of its messages to the receiver aren't acknowledged.
enum { MOST = 64, REGISTERS = 8, SLOTS = 512, IMAGE = 1 << 16, AHEAD = 64, SECONDS = 300 };

// Registers: one object counts the letters that were accepted and those that were given, in the
// words of two objects. Of a ring of two objects one is held until the next letter.
enum { ACCEPTED = 0, GIVEN = 1, RING = 2, OTHER = 3, LETTER = 4 };

typedef struct site {
    markring_cell cell;
    uint8_t own_number;
    // The image that was stored last.
    uint8_t image[IMAGE];
    size_t length;
    uint64_t seed;
    unsigned long saves, reopenings, cycles, freed;
    // Failures are counted by thread, since the counters of check.h belong to one thread.
    unsigned long wrong;
} site;

static site sites[MOST];
static uint8_t nodes;
static uint64_t letters;
static atomic_int stop, finished;

// Counts a failure of this thread, unless the condition holds.
static int right(site *it, int holds)
{
    it->wrong += !holds;
    return holds;
}

static uint64_t word_of(site *it, uint16_t reg)
{
    markring_answer answer;
    uint64_t word = 0;
    right(it, markring_cell_word(&it->cell, reg, &answer) == MARKRING_OK
        && markring_answer_word(&answer, &word));
    return word;
}

// Takes an image, stores it, and saves the cell.
static void save_cell(site *it)
{
    uint64_t mark = 0;
    uint8_t flag = 0;
    if (!right(it, markring_cell_unsaved(&it->cell, &flag) == MARKRING_OK) || !flag) {
        return;
    }
    right(it, markring_cell_image(&it->cell, it->image, IMAGE, &it->length, &mark) == MARKRING_OK);
    right(it, markring_cell_save(&it->cell, mark) == MARKRING_OK);
    it->saves++;
}

// Makes two objects that refer to each other, and puts the letter's content, if any, into one.
static void make_ring(site *it, int has_content)
{
    markring_answer answer;
    int status = markring_cell_alloc(&it->cell, RING, 2, &answer);
    if (status == MARKRING_OK) {
        status = markring_cell_alloc(&it->cell, OTHER, 1, &answer);
    }
    if (status == MARKRING_ARENA_FULL) {
        return;
    }
    right(it, status == MARKRING_OK);
    right(it, markring_cell_store(&it->cell, RING, 0, OTHER, &answer) == MARKRING_OK);
    right(it, markring_cell_store(&it->cell, OTHER, 0, RING, &answer) == MARKRING_OK);
    if (has_content) {
        right(it, markring_cell_store(&it->cell, RING, 1, LETTER, &answer) == MARKRING_OK);
    }
    right(it, markring_cell_drop(&it->cell, OTHER, &answer) == MARKRING_OK);
}

// Accepts a letter, whose label must be the next one, and gives one to the next node.
static int play(site *it)
{
    markring_answer answer;
    markring_letter letter = {0};
    markring_link link = {0};
    int busy = 0;
    uint8_t next = (uint8_t)((it->own_number + 1) % nodes);
    uint64_t given = word_of(it, GIVEN);
    right(it, markring_cell_link(&it->cell, next, &link) == MARKRING_OK);
    if (given < letters && link.appended - link.acknowledged < AHEAD) {
        markring_ref held;
        if (markring_cell_register(&it->cell, RING, &held) == MARKRING_NOTHING) {
            make_ring(it, 0);
        }
        right(it, markring_cell_give(&it->cell, next, (uint32_t)given, RING, &answer)
            == MARKRING_OK);
        right(it, markring_cell_set_word(&it->cell, GIVEN, given + 1, &answer) == MARKRING_OK);
        busy = 1;
    }
    int status = markring_cell_accept(&it->cell, LETTER, &answer);
    if (status == MARKRING_OK) {
        uint64_t accepted = word_of(it, ACCEPTED);
        right(it, markring_answer_letter(&answer, &letter));
        right(it, letter.label == accepted);
        right(it, letter.from == (it->own_number + nodes - 1) % nodes);
        right(it, markring_cell_set_word(&it->cell, ACCEPTED, accepted + 1, &answer)
            == MARKRING_OK);
        // Every fourth ring refers to no older one.
        make_ring(it, markring_ref_is_some(letter.reference) && accepted % 4 != 0);
        busy = 1;
    } else {
        right(it, status == MARKRING_NO_LETTER);
    }
    return busy;
}

static int collect(site *it)
{
    markring_answer answer;
    uint32_t count = 0;
    uint8_t done = 0;
    int busy = 0;
    for (int i = 0; i < 8 && markring_cell_scan(&it->cell, &answer) == MARKRING_OK; i++) {
        busy = 1;
    }
    busy |= markring_cell_pass(&it->cell, &answer) == MARKRING_OK;
    if (markring_cell_sweep(&it->cell, 64, &answer) == MARKRING_OK) {
        right(it, markring_answer_freed(&answer, &count, &done));
        it->freed += count;
        busy = 1;
    }
    if (it->own_number == 0) {
        int status = markring_cell_begin(&it->cell, &answer);
        right(it, status == MARKRING_OK || status == MARKRING_CYCLE_RUNNING);
        it->cycles += status == MARKRING_OK;
    }
    return busy;
}

static int exchange(site *it)
{
    markring_answer answer;
    uint8_t sent;
    uint64_t cycle;
    int busy = 0;
    for (uint8_t peer = 0; peer < nodes; peer++) {
        if (peer == it->own_number) {
            continue;
        }
        int status = markring_cell_receive(&it->cell, peer, &answer);
        right(it, status == MARKRING_OK || status == MARKRING_NOTHING);
        busy |= status == MARKRING_OK && answer.kind == MARKRING_ANSWER_RECEIVED;
    }
    save_cell(it);
    for (uint8_t peer = 0; peer < nodes; peer++) {
        if (peer != it->own_number) {
            right(it, markring_cell_send(&it->cell, peer, &sent) == MARKRING_OK);
        }
    }
    if (it->own_number == 0) {
        right(it, markring_cell_raise(&it->cell, &cycle) == MARKRING_OK);
    }
    return busy;
}

static void *run(void *given)
{
    site *it = (site *)given;
    int is_finished = 0;
    while (!atomic_load(&stop)) {
        int busy = play(it) | collect(it) | exchange(it);
        if (draw(&it->seed) % 512 == 0) {
            // What wasn't saved is lost.
            (void)play(it);
            right(it, markring_cell_reopen(&it->cell) == MARKRING_OK);
            it->reopenings++;
        }
        if (!is_finished && word_of(it, ACCEPTED) == letters && word_of(it, GIVEN) == letters) {
            save_cell(it);
            is_finished = 1;
            atomic_fetch_add(&finished, 1);
        }
        if (!busy) {
            sched_yield();
        }
    }
    return NULL;
}

// Opens the space, on the stored images if there are any, with a watch.
static void make_space(int has_images, markring_watch *watch)
{
    markring_space space = {0};
    markring_answer answer;
    OK(markring_space_new(&space, nodes, REGISTERS, SLOTS, 1));
    for (uint8_t node = 0; node < nodes; node++) {
        if (has_images) {
            OK(markring_space_disk(&space, node, sites[node].image, sites[node].length));
        }
    }
    OK(open_space(&space));
    OK(markring_space_watch(&space, watch));
    for (uint8_t node = 0; node < nodes; node++) {
        site *it = &sites[node];
        OK(markring_space_cell(&space, node, &it->cell));
        it->own_number = node;
        if (!has_images) {
            OK(markring_cell_alloc(&it->cell, ACCEPTED, 0, &answer));
            OK(markring_cell_alloc(&it->cell, GIVEN, 0, &answer));
            save_cell(it);
        }
    }
    OK(markring_space_free(&space));
}

// Runs the threads until all letters have come, or until a time that ends in a crash. Meanwhile
// this thread looks at the watch.
static void run_threads(int crashes, uint64_t *seed, markring_watch *watch)
{
    pthread_t threads[MOST];
    uint64_t last = 0, cycle = 0;
    atomic_store(&stop, 0);
    atomic_store(&finished, 0);
    for (uint8_t node = 0; node < nodes; node++) {
        sites[node].seed = draw(seed) | 1;
        HOLDS(pthread_create(&threads[node], NULL, run, &sites[node]) == 0);
    }
    struct timespec moment = {0, crashes ? (long)(1000000 + below(seed, 20000000)) : 1000000};
    time_t began = time(NULL);
    do {
        nanosleep(&moment, NULL);
        OK(markring_watch_look(watch, &cycle));
        HOLDS(cycle >= last);
        last = cycle;
    } while (!crashes && atomic_load(&finished) < nodes && time(NULL) - began < SECONDS);
    atomic_store(&stop, 1);
    for (uint8_t node = 0; node < nodes; node++) {
        HOLDS(pthread_join(threads[node], NULL) == 0);
        EQUAL(0, sites[node].wrong);
    }
}

static uint64_t live(void)
{
    uint64_t all = 0;
    for (uint8_t node = 0; node < nodes; node++) {
        markring_state state;
        OK(markring_cell_state(&sites[node].cell, &state));
        all += state.live;
    }
    return all;
}

// ## One mailbox

enum { TRIES = 2000, TIMES = 3 };

typedef struct user {
    markring_cell cell;
    unsigned long frames, wrong;
    int sends;
} user;

// Tries many times to send the next frame, which acknowledges nothing, or to receive one.
static void *use_mailbox(void *given)
{
    user *it = (user *)given;
    for (int i = 0; i < TRIES; i++) {
        markring_answer answer;
        uint8_t sent = 7;
        int status = it->sends ? markring_cell_send(&it->cell, 1, &sent)
                               : markring_cell_receive(&it->cell, 0, &answer);
        if (it->sends) {
            it->wrong += status != MARKRING_OK || sent > 1;
            it->frames += sent == 1;
        } else {
            it->wrong += status == MARKRING_OK ? answer.kind != MARKRING_ANSWER_DONE
                                               : status != MARKRING_NOTHING;
            it->frames += status == MARKRING_OK;
        }
        if (i % 16 == 0) {
            sched_yield();
        }
    }
    return NULL;
}

// All frames that were sent are received, except at most one that is left in the mailbox.
static void one_mailbox(void)
{
    for (int times = 0; times < TIMES; times++) {
        markring_space space = {0};
        markring_answer answer;
        pthread_t threads[2];
        user users[2] = {{{0}, 0, 0, 1}, {{0}, 0, 0, 0}};
        OK(markring_space_new(&space, 2, 1, 1, 0));
        OK(open_space(&space));
        for (uint8_t node = 0; node < 2; node++) {
            OK(markring_space_cell(&space, node, &users[node].cell));
        }
        OK(markring_space_free(&space));
        for (int i = 0; i < 2; i++) {
            HOLDS(pthread_create(&threads[i], NULL, use_mailbox, &users[i]) == 0);
        }
        for (int i = 0; i < 2; i++) {
            HOLDS(pthread_join(threads[i], NULL) == 0);
            EQUAL(0, users[i].wrong);
        }
        int is_left = markring_cell_receive(&users[1].cell, 0, &answer) == MARKRING_OK;
        EQUAL(users[0].frames, users[1].frames + (unsigned long)is_left);
        HOLDS(users[0].frames > 0);
        IS(MARKRING_NOTHING, markring_cell_receive(&users[1].cell, 0, &answer));
        for (int i = 0; i < 2; i++) {
            OK(markring_cell_free(&users[i].cell));
        }
    }
}

int main(int length, char **given)
{
    uint64_t seed = 9;
    markring_watch watch = {0};
    markring_answer answer;
    uint64_t cycle = 0, later = 0;
    nodes = (uint8_t)(length > 1 ? strtoul(given[1], NULL, 10) : 3);
    letters = length > 2 ? strtoul(given[2], NULL, 10) : 2000;
    unsigned long crashes = length > 3 ? strtoul(given[3], NULL, 10) : 5;
    one_mailbox();
    make_space(0, &watch);
    for (unsigned long i = 0; i < crashes; i++) {
        run_threads(1, &seed, &watch);
        OK(markring_watch_look(&watch, &cycle));
        for (uint8_t node = 0; node < nodes; node++) {
            OK(markring_cell_free(&sites[node].cell));
        }
        OK(markring_watch_free(&watch));
        make_space(1, &watch);
        OK(markring_watch_look(&watch, &later));
        EQUAL(0, later);
    }
    run_threads(0, &seed, &watch);
    for (uint8_t node = 0; node < nodes; node++) {
        EQUAL(letters, word_of(&sites[node], ACCEPTED));
        EQUAL(letters, word_of(&sites[node], GIVEN));
        OK(markring_cell_drop(&sites[node].cell, ACCEPTED, &answer));
        OK(markring_cell_drop(&sites[node].cell, GIVEN, &answer));
        OK(markring_cell_drop(&sites[node].cell, RING, &answer));
        (void)markring_cell_drop(&sites[node].cell, LETTER, &answer);
    }
    // In one thread: two cycles free everything.
    for (int turns = 0; live() > 0 && turns < 100000; turns++) {
        for (uint8_t node = 0; node < nodes; node++) {
            (void)collect(&sites[node]);
            (void)exchange(&sites[node]);
        }
    }
    EQUAL(0, live());
    OK(markring_watch_look(&watch, &cycle));
    HOLDS(cycle > 0);
    for (uint8_t node = 0; node < nodes; node++) {
        site *it = &sites[node];
        EQUAL(0, it->wrong);
        HOLDS(it->freed > 0);
        printf("node %d: %lu saves, %lu reopenings, %lu cycles, %lu objects freed\n", node,
            it->saves, it->reopenings, it->cycles, it->freed);
        OK(markring_cell_free(&it->cell));
    }
    OK(markring_watch_free(&watch));
    return report();
}
