// The collector's share of a turn: markring_node_work and markring_cell_work. Each node of a random
// space has a twin, which is given the single calls that the header lists; both have to say the
// same. Then the spaces collect by turns of work alone, over nets that turn the order of frames
// round. Further cases are about limits, refusals and memory.
//
//     work SEEDS STEPS
#include "check.h"
#include "refuse.h"

enum { NODES = 3, REGISTERS = 4, SLOTS = 24, PLACES = 2 };
static const uint32_t MANY[] = {0, 1, 2, 5, SLOTS, UINT32_MAX};

typedef struct site {
    markring_node node, twin;
} site;

static site sites[NODES];
static uint64_t seed;
static unsigned long early, scanned, passes, freed, unfinished;
static markring_answer answer;

// Work that no call wrote.
static markring_work blotted_work(void)
{
    markring_work work;
    memset(&work, 0xA5, sizeof work);
    return work;
}

static uint32_t any(const uint32_t *from, uint32_t count)
{
    return from[below(&seed, count)];
}

// Whether something is left, by the state.
static uint8_t is_left(markring_node *node)
{
    markring_state state;
    OK(markring_node_state(node, &state));
    return state.grey > 0 || state.swept < state.ended;
}

// The single calls. Returns the first status that ends them.
static int by_hand(markring_node *node, uint8_t own, uint32_t scans, uint32_t slots,
    markring_work *work)
{
    int status = MARKRING_OK;
    memset(work, 0, sizeof *work);
    for (uint8_t from = 0; from < NODES; from++) {
        while (from != own && (status = markring_node_next(node, from, &answer)) == MARKRING_OK) {
            work->received++;
        }
        if (status != MARKRING_OK && status != MARKRING_NOTHING_TO_DO) {
            return status;
        }
    }
    while (work->scanned < scans
        && (status = markring_node_scan(node, &answer)) == MARKRING_OK) {
        work->scanned++;
    }
    if (status != MARKRING_OK && status != MARKRING_NOTHING_TO_DO) {
        return status;
    }
    status = markring_node_pass(node, &answer);
    work->passed = status == MARKRING_OK;
    if (slots > 0 && (status == MARKRING_OK || status == MARKRING_NOTHING_TO_DO)) {
        status = markring_node_sweep(node, slots, &answer);
        work->swept = status == MARKRING_OK;
        work->freed = status == MARKRING_OK ? answer.count : 0;
    }
    return status == MARKRING_NOTHING_TO_DO ? MARKRING_OK : status;
}

static void same_work(const markring_work *expected, const markring_work *work)
{
    EQUAL(expected->received, work->received);
    EQUAL(expected->scanned, work->scanned);
    EQUAL(expected->passed, work->passed);
    EQUAL(expected->swept, work->swept);
    EQUAL(expected->freed, work->freed);
    EQUAL(expected->more, work->more);
}

static void same_nodes(site *it)
{
    bytes node = shown(&it->node), twin = shown(&it->twin);
    HOLDS(same_bytes(&node, &twin));
    drop_bytes(&node);
    drop_bytes(&twin);
}

// ## Spaces

static void open_sites(int is_wide)
{
    const markring_shape plain = {SLOTS, 0, REGISTERS, NODES, 8, 0};
    const markring_shape wide = {SLOTS, 0, REGISTERS, NODES, PLACES, 1};
    for (uint8_t own = 0; own < NODES; own++) {
        OK(markring_node_make(&sites[own].node, is_wide ? &wide : &plain, own, 0));
        OK(markring_node_make(&sites[own].twin, is_wide ? &wide : &plain, own, 0));
    }
}

static void close_sites(void)
{
    for (int own = 0; own < NODES; own++) {
        OK(markring_node_free(&sites[own].node));
        OK(markring_node_free(&sites[own].twin));
    }
}

static int both(uint8_t own, const markring_event *event)
{
    markring_answer other;
    int status = markring_node_act(&sites[own].node, event, &answer);
    IS(status, markring_node_act(&sites[own].twin, event, &other));
    return status;
}

static void act(uint8_t own)
{
    static const uint8_t KINDS[] = {MARKRING_EVENT_ALLOC, MARKRING_EVENT_ALLOC,
        MARKRING_EVENT_COPY, MARKRING_EVENT_DROP, MARKRING_EVENT_LOAD, MARKRING_EVENT_STORE,
        MARKRING_EVENT_STORE, MARKRING_EVENT_GIVE, MARKRING_EVENT_GIVE, MARKRING_EVENT_ACCEPT,
        MARKRING_EVENT_PUT, MARKRING_EVENT_GET, MARKRING_EVENT_BEGIN};
    markring_event event;
    memset(&event, 0, sizeof event);
    event.kind = KINDS[below(&seed, sizeof KINDS)];
    event.node = (uint8_t)below(&seed, NODES);
    event.place = (uint8_t)below(&seed, PLACES + 1);
    event.reg = (uint16_t)below(&seed, REGISTERS);
    event.source = (uint16_t)below(&seed, REGISTERS);
    event.object = (uint16_t)below(&seed, REGISTERS);
    (void)both(own, &event);
}

static void give_frame(uint8_t to, const uint8_t *frame, size_t length)
{
    markring_answer other;
    int status = markring_node_take(&sites[to].node, frame, length, &answer);
    IS(status, markring_node_take(&sites[to].twin, frame, length, &other));
    HOLDS(status == MARKRING_OK || status == MARKRING_OUT_OF_ORDER);
    early += status == MARKRING_OK && answer.kind == MARKRING_ANSWER_EARLY;
}

// Saves a node, and sends its frames to another one, some of them from the last to the first.
static void send(uint8_t from, uint8_t to)
{
    uint8_t frame[48];
    size_t needed = 0;
    markring_link link;
    save(&sites[from].node);
    save(&sites[from].twin);
    OK(markring_node_link(&sites[from].node, to, &link));
    uint64_t count = link.released - link.acknowledged;
    count = count < 32 ? count : 32;
    int is_reversed = below(&seed, 3) > 0;
    for (uint64_t i = 0; i < count; i++) {
        uint8_t place = (uint8_t)(is_reversed ? count - 1 - i : i);
        OK(markring_node_frame_at(&sites[from].node, to, place, frame, sizeof frame, &needed));
        give_frame(to, frame, needed);
    }
    OK(markring_node_ack_for(&sites[from].node, to, frame, sizeof frame, &needed));
    give_frame(to, frame, needed);
}

// A turn: work of the node, the single calls at its twin.
static void turn(uint8_t own, uint32_t scans, uint32_t slots)
{
    site *it = &sites[own];
    markring_work work = blotted_work(), expected;
    int status = by_hand(&it->twin, own, scans, slots, &expected);
    expected.more = is_left(&it->twin);
    IS(status, markring_node_work(&it->node, scans, slots, &work));
    same_work(&expected, &work);
    same_nodes(it);
    scanned += work.scanned;
    passes += work.passed;
    freed += work.freed;
    unfinished += work.more;
}

static uint32_t live(void)
{
    uint32_t count = 0;
    for (int own = 0; own < NODES; own++) {
        markring_state state;
        OK(markring_node_state(&sites[own].node, &state));
        count += state.live;
    }
    return count;
}

// Turns of all nodes, of work and frames alone.
static void turns(int count)
{
    static const uint32_t SOME[] = {1, 2, 5, SLOTS, UINT32_MAX};
    for (int i = 0; i < count; i++) {
        for (uint8_t own = 0; own < NODES; own++) {
            turn(own, any(SOME, 5), any(SOME, 5));
            for (uint8_t to = 0; to < NODES; to++) {
                if (to != own) {
                    send(own, to);
                }
            }
        }
    }
}

static void drop_all(void)
{
    for (uint8_t own = 0; own < NODES; own++) {
        markring_event event = {0};
        event.kind = MARKRING_EVENT_ACCEPT;
        while (both(own, &event) == MARKRING_OK) {
        }
        event.kind = MARKRING_EVENT_DROP;
        for (event.reg = 0; event.reg < REGISTERS; event.reg++) {
            (void)both(own, &event);
        }
    }
}

// What a random program leaves goes once nobody holds it, rings over nodes included.
static void collects(int is_wide, unsigned long steps)
{
    markring_event begin = {0};
    begin.kind = MARKRING_EVENT_BEGIN;
    open_sites(is_wide);
    for (unsigned long i = 0; i < steps; i++) {
        uint8_t own = (uint8_t)below(&seed, NODES), to = (uint8_t)below(&seed, NODES);
        act(own);
        if (below(&seed, 4) == 0) {
            turn(own, any(MANY, 6), any(MANY, 6));
        }
        if (to != own && below(&seed, 3) == 0) {
            send(own, to);
        }
    }
    for (int i = 0; i < 4; i++) {
        turns(20);
        drop_all();
    }
    for (int cycle = 0; cycle < 2; cycle++) {
        turns(60);
        OK(both(0, &begin));
        turns(60);
    }
    EQUAL(0, live());
    close_sites();
}

// ## Limits

// Makes the node one of whose objects are all grey: 5 of them, without places.
static void make_grey(markring_node *node)
{
    OK(markring_node_new(node, 2, 8, 16, 0, 0));
    for (uint16_t reg = 0; reg < 5; reg++) {
        OK(markring_node_alloc(node, reg, 0, &answer));
    }
    OK(markring_node_begin(node, &answer));
}

static void expect_work(markring_node *node, uint32_t scans, uint32_t slots,
    markring_work expected)
{
    markring_work work = blotted_work();
    OK(markring_node_work(node, scans, slots, &work));
    same_work(&expected, &work);
}

static void limits(void)
{
    markring_node node = {0};
    markring_state state;
    uint8_t flag = 7;
    make_grey(&node);
    save(&node);
    // None of anything.
    expect_work(&node, 0, 0, (markring_work){.more = 1});
    OK(markring_node_unsaved(&node, &flag));
    EQUAL(0, flag);
    expect_work(&node, 0, UINT32_MAX, (markring_work){.more = 1});
    expect_work(&node, 1, 0, (markring_work){.scanned = 1, .more = 1});
    expect_work(&node, 3, 16, (markring_work){.scanned = 3, .more = 1});
    // As many scans as there are grey objects, or more: then the token is passed, if it is here.
    expect_work(&node, 1, 16, (markring_work){.scanned = 1});
    expect_work(&node, UINT32_MAX, UINT32_MAX, (markring_work){0});
    OK(markring_node_state(&node, &state));
    EQUAL(0, state.grey);
    OK(markring_node_free(&node));
    markring_work work = blotted_work(), before = blotted_work();
    IS(MARKRING_NO_HANDLE, markring_node_work(&node, 1, 1, &work));
    HOLDS(memcmp(&work, &before, sizeof work) == 0);
}

// A sweep that leaves slots leaves work; one of no slots isn't made.
static void sweeps(void)
{
    markring_node nodes[2] = {{0}};
    uint8_t frame[48];
    size_t needed = 0;
    for (uint8_t own = 0; own < 2; own++) {
        OK(markring_node_new(&nodes[own], 2, 8, 16, own, 0));
    }
    for (int i = 0; i < 5; i++) {
        OK(markring_node_alloc(&nodes[0], 0, 0, &answer));
    }
    OK(markring_node_begin(&nodes[0], &answer));
    for (int i = 0; i < 8; i++) {
        uint8_t own = i % 2, to = 1 - own;
        markring_work work;
        OK(markring_node_work(&nodes[own], 9, 0, &work));
        EQUAL(0, work.swept);
        EQUAL(0, work.freed);
        save(&nodes[own]);
        for (uint8_t place = 0; markring_node_frame_at(&nodes[own], to, place, frame, sizeof frame,
                                    &needed) == MARKRING_OK;
            place++) {
            OK(markring_node_take(&nodes[to], frame, needed, &answer));
        }
        OK(markring_node_ack_for(&nodes[own], to, frame, sizeof frame, &needed));
        OK(markring_node_take(&nodes[to], frame, needed, &answer));
    }
    // Four of five objects are garbage, in the first slots.
    expect_work(&nodes[0], 9, 0, (markring_work){.more = 1});
    expect_work(&nodes[0], 9, 1, (markring_work){.swept = 1, .freed = 1, .more = 1});
    expect_work(&nodes[0], 0, 2, (markring_work){.swept = 1, .freed = 2, .more = 1});
    expect_work(&nodes[0], 0, 2, (markring_work){.swept = 1, .freed = 1});
    expect_work(&nodes[0], 9, 2, (markring_work){0});
    OK(markring_node_free(&nodes[0]));
    OK(markring_node_free(&nodes[1]));
}

// ## Refusals and logs

// Gives node 2 the frame of a letter without a reference: the sender, the number, the stamp.
static int take_letter(markring_node *node, uint8_t from, uint64_t number, uint64_t stamp)
{
    bytes frame = {0};
    add_number(&frame, 0x45, 1);
    add_number(&frame, from, 1);
    add_number(&frame, 2, 1);
    add_number(&frame, number, 8);
    add_number(&frame, stamp, 8);
    add_number(&frame, 4, 1);
    add_number(&frame, 7, 4);
    add_number(&frame, 0, 1);
    int status = markring_node_take(node, frame.at, frame.length, &answer);
    drop_bytes(&frame);
    return status;
}

// An early message whose stamp no node can have yet is refused in its turn. What came before it is
// done and counted, what comes after it isn't tried; the next call goes on.
static void refused_message(void)
{
    markring_node node = {0};
    markring_work work = blotted_work();
    OK(markring_node_new(&node, 3, 4, 16, 2, 0));
    OK(markring_node_alloc(&node, 0, 0, &answer));
    for (uint64_t number = 4; number > 0; number--) {
        OK(take_letter(&node, 0, number, number == 1 ? 1 : 0));
        EQUAL(number == 1 ? MARKRING_ANSWER_RECEIVED : MARKRING_ANSWER_EARLY, answer.kind);
    }
    OK(take_letter(&node, 1, 2, 9));
    OK(take_letter(&node, 1, 3, 0));
    OK(take_letter(&node, 1, 1, 0));
    IS(MARKRING_WRONG_NODE, markring_node_work(&node, 9, 9, &work));
    markring_work expected = {.received = 3, .more = 1};
    same_work(&expected, &work);
    // The message is lost, and the one behind it has to wait for it.
    expect_work(&node, 9, 9, (markring_work){.scanned = 1});
    OK(take_letter(&node, 1, 2, 0));
    expect_work(&node, 9, 9, (markring_work){.received = 1});
    OK(markring_node_free(&node));
}

// What work did is in the node's log, event by event: a batch leads to the same node.
static void logged(void)
{
    static uint8_t image[4096], batch[4096];
    markring_node node = {0}, again = {0};
    size_t image_length = 0, batch_length = 0;
    uint64_t mark = 0;
    OK(markring_node_new(&node, 3, 4, 16, 2, 0));
    OK(markring_node_alloc(&node, 0, 0, &answer));
    OK(markring_node_alloc(&node, 1, 0, &answer));
    OK(markring_node_log(&node, 1));
    OK(markring_node_image(&node, image, sizeof image, &image_length, &mark));
    OK(markring_node_kept(&node, mark));
    OK(take_letter(&node, 0, 3, 0));
    OK(take_letter(&node, 0, 2, 0));
    OK(take_letter(&node, 0, 1, 1));
    expect_work(&node, 1, 9, (markring_work){.received = 2, .scanned = 1, .more = 1});
    expect_work(&node, 9, 9, (markring_work){.scanned = 1});
    OK(markring_node_batch(&node, batch, sizeof batch, &batch_length, &mark));
    OK(markring_node_from_batches(&again, image, image_length, batch, batch_length, 0));
    bytes expected = image_of(&node), found = image_of(&again);
    HOLDS(same_bytes(&expected, &found));
    drop_bytes(&expected);
    drop_bytes(&found);
    OK(markring_node_free(&node));
    OK(markring_node_free(&again));
}

// Memory is refused to each allocation of a scan in turn: what was scanned before is counted, and
// the next call scans the rest.
static void refused_memory(void)
{
    unsigned long cut = 0;
    for (unsigned long number = 1;; number++) {
        markring_node nodes[2] = {{0}};
        markring_work first = blotted_work(), rest = blotted_work();
        markring_state before, after;
        OK(markring_node_new(&nodes[1], 2, 8, 64, 1, 0));
        OK(markring_node_new(&nodes[0], 2, 8, 64, 0, 0));
        // Node 1 makes 12 objects for node 0, which keeps a reference to each in one of its own.
        for (int i = 0; i < 12; i++) {
            uint8_t frame[48];
            size_t needed = 0;
            OK(markring_node_alloc(&nodes[1], 0, 0, &answer));
            OK(markring_node_give(&nodes[1], 0, 1, 0, &answer));
            save(&nodes[1]);
            OK(markring_node_frame_at(&nodes[1], 0, (uint8_t)i, frame, sizeof frame, &needed));
            OK(markring_node_take(&nodes[0], frame, needed, &answer));
            OK(markring_node_accept(&nodes[0], 1, &answer));
            OK(markring_node_alloc(&nodes[0], 2, 2, &answer));
            OK(markring_node_store(&nodes[0], 2, 0, 1, &answer));
            if (i > 0) {
                OK(markring_node_store(&nodes[0], 2, 1, 0, &answer));
            }
            OK(markring_node_copy(&nodes[0], 0, 2, &answer));
        }
        OK(markring_node_drop(&nodes[0], 1, &answer));
        OK(markring_node_drop(&nodes[0], 2, &answer));
        OK(markring_node_begin(&nodes[0], &answer));
        OK(markring_node_state(&nodes[0], &before));
        requests = 0;
        refused_one = number;
        within = 1;
        int status = markring_node_work(&nodes[0], UINT32_MAX, 9, &first);
        within = 0;
        refused_one = 0;
        HOLDS(status == MARKRING_OK || status == MARKRING_MEMORY);
        OK(markring_node_state(&nodes[0], &after));
        EQUAL(after.grey > 0, first.more);
        HOLDS(status != MARKRING_OK || first.scanned == 12);
        if (status == MARKRING_MEMORY) {
            HOLDS(first.scanned < 12 && first.more == 1 && first.swept == 0);
            cut += first.scanned > 0;
        }
        OK(markring_node_work(&nodes[0], UINT32_MAX, 9, &rest));
        EQUAL(12, first.scanned + rest.scanned);
        EQUAL(0, rest.more);
        OK(markring_node_free(&nodes[0]));
        OK(markring_node_free(&nodes[1]));
        if (requests < number) {
            break;
        }
    }
    HOLDS(cut > 0);
}

// ## Cells

// A space of two cells with a ring between them. Its turns are receiving, work, saving and sending.
static void cells(void)
{
    static uint8_t image[1 << 14];
    markring_space space = {0};
    markring_cell both_cells[2] = {{0}};
    uint64_t freed_here = 0, scanned_here = 0, passed_here = 0;
    OK(markring_space_new(&space, 2, 4, 16, 0));
    OK(open_space(&space));
    for (uint8_t own = 0; own < 2; own++) {
        OK(markring_space_cell(&space, own, &both_cells[own]));
        OK(markring_cell_alloc(&both_cells[own], 0, 1, &answer));
        OK(markring_cell_give(&both_cells[own], 1 - own, 7, 0, &answer));
    }
    for (int i = 0; i < 200; i++) {
        uint8_t own = i % 2;
        markring_cell *cell = &both_cells[own];
        markring_work work = blotted_work();
        markring_state state;
        uint64_t mark = 0;
        size_t needed = 0;
        uint8_t sent = 0;
        while (markring_cell_receive(cell, 1 - own, &answer) == MARKRING_OK) {
        }
        if (i == 20 || i == 21) {
            OK(markring_cell_accept(cell, 1, &answer));
            OK(markring_cell_store(cell, 0, 0, 1, &answer));
            OK(markring_cell_drop(cell, 0, &answer));
            OK(markring_cell_drop(cell, 1, &answer));
        }
        if (i == 40) {
            OK(markring_cell_begin(cell, &answer));
        }
        OK(markring_cell_work(cell, 1, 1, &work));
        OK(markring_cell_state(cell, &state));
        EQUAL(0, work.received);
        EQUAL(state.grey > 0 || state.swept < state.ended, work.more);
        scanned_here += work.scanned;
        passed_here += work.passed;
        freed_here += work.freed;
        OK(markring_cell_image(cell, image, sizeof image, &needed, &mark));
        OK(markring_cell_save(cell, mark));
        OK(markring_cell_send(cell, 1 - own, &sent));
    }
    EQUAL(2, freed_here);
    HOLDS(passed_here >= 3);
    EQUAL(0, scanned_here);
    // Work of nothing, and of all that is grey.
    OK(markring_cell_alloc(&both_cells[0], 0, 0, &answer));
    OK(markring_cell_begin(&both_cells[0], &answer));
    markring_work work = blotted_work();
    OK(markring_cell_work(&both_cells[0], 0, 0, &work));
    same_work(&(markring_work){.more = 1}, &work);
    OK(markring_cell_work(&both_cells[0], UINT32_MAX, 0, &work));
    same_work(&(markring_work){.scanned = 1}, &work);
    for (int own = 0; own < 2; own++) {
        OK(markring_cell_free(&both_cells[own]));
        work = blotted_work();
        markring_work before = blotted_work();
        IS(MARKRING_NO_HANDLE, markring_cell_work(&both_cells[own], 1, 1, &work));
        HOLDS(memcmp(&work, &before, sizeof work) == 0);
    }
    OK(markring_space_free(&space));
}

int main(int count, char **words)
{
    unsigned long seeds = count > 1 ? strtoul(words[1], NULL, 10) : 1;
    unsigned long steps = count > 2 ? strtoul(words[2], NULL, 10) : 1000;
    limits();
    sweeps();
    refused_message();
    logged();
    refused_memory();
    cells();
    for (unsigned long i = 1; i <= seeds; i++) {
        seed = i * UINT64_C(0x9E3779B97F4A7C15);
        collects(i % 2 == 0, steps);
    }
    // The turns did some of everything.
    HOLDS(early > 0 && scanned > 0 && passes > 0 && freed > 0 && unfinished > 0);
    return report();
}
