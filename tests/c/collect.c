// Collections by markring_space_collect: rings of objects across nodes, letters beyond a window,
// stores that fail, closed cells, wrong arguments. What is expected comes from docs/RULES.md and
// from the header.
#include "check.h"

#include <stdbool.h>

enum { MOST = 64 };

static markring_cell cells[MOST];
static uint8_t nodes;
static markring_answer answer;

static void begin(uint8_t count)
{
    markring_space space = {0};
    nodes = count;
    OK(markring_space_new(&space, nodes, 4, 64, 0));
    OK(open_space(&space));
    for (uint8_t node = 0; node < nodes; node++) {
        OK(markring_space_cell(&space, node, &cells[node]));
    }
    OK(markring_space_free(&space));
}

static void end(void)
{
    for (uint8_t node = 0; node < nodes; node++) {
        OK(markring_cell_free(&cells[node]));
    }
}

// Stores the image of a node, and returns a status.
typedef int store(void *context, uint8_t node, const uint8_t *image, size_t length);

static int store_nowhere(void *context, uint8_t node, const uint8_t *image, size_t length)
{
    HOLDS(context == NULL && node < nodes && image != NULL && length > 0);
    return MARKRING_OK;
}

// Saves the cell, if it is unsaved.
static int save_cell(uint8_t node, store *keep, void *context)
{
    static uint8_t image[1 << 20];
    uint8_t unsaved = 0;
    size_t length = 0;
    uint64_t mark = 0;
    OK(markring_cell_unsaved(&cells[node], &unsaved));
    if (!unsaved) {
        return MARKRING_OK;
    }
    int status = markring_cell_image(&cells[node], image, sizeof image, &length, &mark);
    if (status == MARKRING_OK) {
        status = keep(context, node, image, length);
    }
    return status == MARKRING_OK ? markring_cell_save(&cells[node], mark) : status;
}

// Collects until each node has swept this cycle, or a call fails.
static int collect_until(uint64_t cycle, store *keep, void *context)
{
    uint8_t done = 2;
    int status = MARKRING_OK;
    for (int calls = 0; done != 1 && status == MARKRING_OK && calls < 100000; calls++) {
        done = 2;
        status = markring_space_collect(cells, nodes, cycle, &done);
        HOLDS(status == MARKRING_OK ? done < 2 : done == 2);
        bool has_saved = false;
        for (uint8_t node = 0; node < nodes && status == MARKRING_OK; node++) {
            uint8_t unsaved = 0;
            OK(markring_cell_unsaved(&cells[node], &unsaved));
            has_saved = has_saved || unsaved;
            status = save_cell(node, keep, context);
        }
        HOLDS(status != MARKRING_OK || has_saved == !done);
    }
    HOLDS(status != MARKRING_OK || done == 1);
    return status;
}

static markring_state state_of(uint8_t node)
{
    markring_state state = {0};
    OK(markring_cell_state(&cells[node], &state));
    return state;
}

// A collection, after which each node has this many objects and has swept this cycle.
static void collect(uint32_t objects, uint64_t cycle)
{
    OK(collect_until(state_of(0).cycle + 1, store_nowhere, NULL));
    for (uint8_t node = 0; node < nodes; node++) {
        uint8_t unsaved = 1;
        markring_state state = state_of(node);
        EQUAL(objects, state.live);
        EQUAL(cycle, state.swept);
        OK(markring_cell_unsaved(&cells[node], &unsaved));
        EQUAL(0, unsaved);
    }
}

// Each node has an object that refers to that of the next node; register 0 refers to it.
static void make_ring(void)
{
    for (uint8_t node = 0; node < nodes; node++) {
        OK(markring_cell_alloc(&cells[node], 0, 1, &answer));
        OK(markring_cell_give(&cells[node], (uint8_t)((node + nodes - 1) % nodes), 1, 0, &answer));
    }
    // The letters come in the course of a collection.
    collect(1, 1);
    for (uint8_t node = 0; node < nodes; node++) {
        OK(markring_cell_accept(&cells[node], 1, &answer));
        EQUAL((uint64_t)(node + 1) % nodes, answer.reference.node);
        OK(markring_cell_store(&cells[node], 0, 0, 1, &answer));
        OK(markring_cell_drop(&cells[node], 1, &answer));
    }
}

// A ring stays while one register refers to it, and goes when none does.
static void rings(uint8_t count)
{
    begin(count);
    make_ring();
    for (uint8_t node = 1; node < nodes; node++) {
        OK(markring_cell_drop(&cells[node], 0, &answer));
    }
    collect(1, 2);
    OK(markring_cell_drop(&cells[0], 0, &answer));
    collect(0, 3);
    collect(0, 4);
    end();
}

// More letters than a window has, each way, arrive in their order; what they refer to stays.
static void windows(void)
{
    begin(3);
    for (uint8_t node = 0; node < nodes; node++) {
        OK(markring_cell_alloc(&cells[node], 0, 0, &answer));
        for (uint32_t label = 0; label < 100; label++) {
            OK(markring_cell_give(&cells[node], (uint8_t)((node + 1) % nodes), label, 0, &answer));
        }
        OK(markring_cell_drop(&cells[node], 0, &answer));
    }
    collect(1, 1);
    for (uint8_t node = 0; node < nodes; node++) {
        for (uint32_t label = 0; label < 100; label++) {
            OK(markring_cell_accept(&cells[node], 0, &answer));
            EQUAL(label, answer.label);
            EQUAL((uint64_t)(node + nodes - 1) % nodes, answer.reference.node);
        }
        OK(markring_cell_drop(&cells[node], 0, &answer));
    }
    collect(0, 2);
    end();
}

// A cycle that is under way is ended first: what was garbage when it began may take the next one.
static void half_a_cycle(void)
{
    begin(4);
    make_ring();
    OK(markring_cell_begin(&cells[0], &answer));
    EQUAL(2, answer.number);
    OK(markring_cell_scan(&cells[0], &answer));
    for (uint8_t node = 0; node < nodes; node++) {
        OK(markring_cell_drop(&cells[node], 0, &answer));
    }
    collect(0, 3);
    end();
}

// ## Stores

typedef struct shelf {
    uint8_t *image[MOST];
    size_t length[MOST];
    unsigned calls, fails_at;
} shelf;

static int keep(void *context, uint8_t node, const uint8_t *image, size_t length)
{
    shelf *it = (shelf *)context;
    if (++it->calls == it->fails_at) {
        return MARKRING_DISK;
    }
    it->image[node] = (uint8_t *)own(realloc(it->image[node], length));
    memcpy(it->image[node], image, length);
    it->length[node] = length;
    return MARKRING_OK;
}

// The images that were stored open as the space that was left.
static void reopen(const shelf *from, uint32_t objects, uint64_t cycle)
{
    markring_space space = {0};
    OK(markring_space_new(&space, nodes, 4, 64, 0));
    for (uint8_t node = 0; node < nodes; node++) {
        OK(markring_space_disk(&space, node, from->image[node], from->length[node]));
    }
    OK(open_space(&space));
    for (uint8_t node = 0; node < nodes; node++) {
        OK(markring_space_cell(&space, node, &cells[node]));
        EQUAL(objects, state_of(node).live);
        EQUAL(cycle, state_of(node).swept);
    }
    OK(markring_space_free(&space));
}

// Whichever store fails, the collection says so, and the next one ends it.
static void stores(void)
{
    unsigned most = 0;
    for (unsigned fails_at = 0; fails_at == 0 || fails_at <= most; fails_at++) {
        shelf stored = {{0}, {0}, 0, fails_at};
        begin(3);
        make_ring();
        for (uint8_t node = 0; node < nodes; node++) {
            OK(markring_cell_drop(&cells[node], 0, &answer));
        }
        if (fails_at > 0) {
            IS(MARKRING_DISK, collect_until(state_of(0).cycle + 1, keep, &stored));
            EQUAL(fails_at, stored.calls);
        }
        OK(collect_until(state_of(0).cycle + 1, keep, &stored));
        most = fails_at == 0 ? stored.calls : most;
        uint64_t swept = state_of(0).swept;
        HOLDS(swept == 2 || (fails_at > 0 && swept == 3));
        end();
        reopen(&stored, 0, swept);
        end();
        for (uint8_t node = 0; node < nodes; node++) {
            free(stored.image[node]);
        }
    }
    HOLDS(most > 10);
}

// Cells that aren't those of all nodes, in order, are refused, and nothing is done.
static void arguments(void)
{
    uint8_t done = 2;
    begin(3);
    markring_cell swapped[3] = {cells[1], cells[0], cells[2]};
    markring_cell with_none[3] = {cells[0], cells[1], {0}};
    IS(MARKRING_BAD_ARGUMENT, markring_space_collect(swapped, 3, 1, &done));
    IS(MARKRING_BAD_ARGUMENT, markring_space_collect(with_none, 3, 1, &done));
    for (size_t count = 0; count < 3; count++) {
        IS(MARKRING_BAD_ARGUMENT, markring_space_collect(cells, count, 1, &done));
    }
    IS(MARKRING_BAD_ARGUMENT, markring_space_collect(swapped + 1, 1, 1, &done));
    EQUAL(2, done);
    for (uint8_t node = 0; node < nodes; node++) {
        uint8_t unsaved = 1;
        OK(markring_cell_unsaved(&cells[node], &unsaved));
        EQUAL(0, unsaved);
    }
    // A cycle that each node has swept needs nothing.
    OK(markring_space_collect(cells, 3, 0, &done));
    EQUAL(1, done);
    end();
}

// collect [NODES]: the nodes of the largest ring, 64 without a word.
int main(int argc, char **argv)
{
    rings(2);
    rings(3);
    rings(7);
    rings(argc > 1 ? (uint8_t)atoi(argv[1]) : MOST);
    windows();
    half_a_cycle();
    stores();
    arguments();
    return report();
}
