// binary-trees of the Benchmarks Game on three heaps: node 0 of a space of two (MARKRING), malloc
// and free (MALLOC), and Boehm's collector (BOEHM). bench/library compiles it for each.
//
//     trees DEPTH
//
// The space ends with its process, so nodes are released, without images. A collection cycle runs
// whenever node 0 has no slot left. With RECLAIMS, the space is wide, and node 0 reclaims instead:
// the young, whenever YOUNG objects were made; and all, when there are twice as many as the last
// time left, and at least LEAST_LIVE.
#define _POSIX_C_SOURCE 200809L
#include <inttypes.h>
#include <stdint.h>
#include <stdio.h>
#include <stdlib.h>

enum { LEAST = 4, MOST = 20 };

#ifdef MARKRING

#include <markring.h>

enum { SLOTS = 1048576, REGISTERS = 64, SWEPT = 1048576, YOUNG = 16384, LEAST_LIVE = 524288 };

// The register of the long-lived tree, and the first of the others. A tree takes a register for
// each level.
enum { LONG_LIVED = 0, FIRST = 1 };

static markring_node nodes[2];
static unsigned long cycles, young_reclaims, reclaims, made, left;

static void must(int status, const char *call)
{
    if (status != MARKRING_OK) {
        fprintf(stderr, "trees: %s: %s\n", call, markring_status_text(status));
        exit(1);
    }
}

#define MUST(call) must((call), #call)

static void send(uint8_t from, uint8_t to)
{
    uint8_t frame[48];
    size_t needed = 0;
    markring_answer answer;
    for (uint8_t place = 0; place < 32; place++) {
        int status = markring_node_frame_at(&nodes[from], to, place, frame, sizeof frame, &needed);
        if (status == MARKRING_NOTHING) {
            break;
        }
        must(status, "markring_node_frame_at");
        MUST(markring_node_take(&nodes[to], frame, needed, &answer));
    }
    MUST(markring_node_ack_for(&nodes[from], to, frame, sizeof frame, &needed));
    MUST(markring_node_take(&nodes[to], frame, needed, &answer));
}

static int is_swept(void)
{
    markring_state zero, one;
    MUST(markring_node_state(&nodes[0], &zero));
    MUST(markring_node_state(&nodes[1], &one));
    return zero.swept == zero.cycle && one.swept == zero.cycle;
}

// Runs a whole cycle. It can begin once node 1 has reported the one before.
static void collect(void)
{
    markring_answer answer;
    markring_work work;
    int status;
    while ((status = markring_node_begin(&nodes[0], &answer)) == MARKRING_CYCLE_RUNNING) {
        MUST(markring_node_release(&nodes[1]));
        send(1, 0);
    }
    must(status, "markring_node_begin");
    cycles++;
    do {
        for (uint8_t node = 0; node < 2; node++) {
            MUST(markring_node_work(&nodes[node], UINT32_MAX, SWEPT, &work));
            MUST(markring_node_release(&nodes[node]));
            send(node, (uint8_t)(1 - node));
        }
    } while (!is_swept());
}

#ifdef RECLAIMS

static void make_room(void)
{
    markring_answer answer;
    markring_state state;
    if (++made < YOUNG) {
        return;
    }
    MUST(markring_node_reclaim_young(&nodes[0], &answer));
    MUST(markring_node_state(&nodes[0], &state));
    young_reclaims++;
    made = 0;
    if (state.live >= LEAST_LIVE && state.live >= 2 * left) {
        MUST(markring_node_reclaim(&nodes[0], &answer));
        MUST(markring_node_state(&nodes[0], &state));
        reclaims++;
        left = state.live;
    }
    MUST(markring_node_release(&nodes[0]));
}

#else

static void make_room(void)
{
    made++;
}

#endif

// Makes a tree in the register. The registers above it are used too.
static void make(uint16_t reg, int depth)
{
    markring_answer answer;
    make_room();
    int status = markring_node_alloc(&nodes[0], reg, 2, &answer);
    if (status == MARKRING_ARENA_FULL) {
        collect();
        status = markring_node_alloc(&nodes[0], reg, 2, &answer);
    }
    must(status, "markring_node_alloc");
    if (depth == 0) {
        return;
    }
    for (uint8_t place = 0; place < 2; place++) {
        make(reg + 1, depth - 1);
        MUST(markring_node_store(&nodes[0], reg, place, reg + 1, &answer));
    }
}

static uint64_t check(uint16_t reg)
{
    markring_answer answer;
    uint64_t sum = 1;
    for (uint8_t place = 0; place < 2; place++) {
        MUST(markring_node_load(&nodes[0], reg + 1, reg, place, &answer));
        if (!markring_ref_is_some(answer.reference)) {
            return sum;
        }
        sum += check(reg + 1);
    }
    return sum;
}

// Drops the registers that a tree took, from the given one on, with one more for its check.
static void drop_from(uint16_t reg, int depth)
{
    markring_answer answer;
    for (uint16_t end = reg + depth + 2; reg < end; reg++) {
        (void)markring_node_drop(&nodes[0], reg, &answer);
    }
}

static void begin(void)
{
#ifdef RECLAIMS
    enum { WIDE = 1 };
#else
    enum { WIDE = 0 };
#endif
    markring_shape shape = {SLOTS, 0, REGISTERS, 2, 8, WIDE};
    for (uint8_t own = 0; own < 2; own++) {
        MUST(markring_node_make(&nodes[own], &shape, own, 0));
    }
}

static uint64_t make_and_check(int depth)
{
    make(FIRST, depth);
    uint64_t sum = check(FIRST);
    drop_from(FIRST, depth);
    return sum;
}

static void make_long_lived(int depth)
{
    make(LONG_LIVED, depth);
    drop_from(LONG_LIVED + 1, depth);
}

static uint64_t check_long_lived(void)
{
    return check(LONG_LIVED);
}

static void end(void)
{
    fprintf(stderr, "%lu cycles, %lu reclaims of the young, %lu of all\n", cycles, young_reclaims,
        reclaims);
    MUST(markring_node_free(&nodes[0]));
    MUST(markring_node_free(&nodes[1]));
}

#else

#ifdef BOEHM
#include <gc/gc.h>
#define NEW(type) ((type *)GC_MALLOC(sizeof(type)))
#else
#define NEW(type) ((type *)malloc(sizeof(type)))
#endif

typedef struct tree {
    struct tree *left, *right;
} tree;

static tree *long_lived;

static tree *make(int depth)
{
    tree *it = NEW(tree);
    if (it == NULL) {
        exit(1);
    }
    it->left = depth > 0 ? make(depth - 1) : NULL;
    it->right = depth > 0 ? make(depth - 1) : NULL;
    return it;
}

static uint64_t check(const tree *it)
{
    return it->left == NULL ? 1 : 1 + check(it->left) + check(it->right);
}

static void drop(tree *it)
{
#ifdef BOEHM
    (void)it;
#else
    if (it->left != NULL) {
        drop(it->left);
        drop(it->right);
    }
    free(it);
#endif
}

static void begin(void)
{
#ifdef BOEHM
    GC_INIT();
#endif
}

static uint64_t make_and_check(int depth)
{
    tree *it = make(depth);
    uint64_t sum = check(it);
    drop(it);
    return sum;
}

static void make_long_lived(int depth)
{
    long_lived = make(depth);
}

static uint64_t check_long_lived(void)
{
    return check(long_lived);
}

static void end(void)
{
    drop(long_lived);
}

#endif

int main(int length, char **given)
{
    int depth = length > 1 ? atoi(given[1]) : 16;
    if (depth < LEAST + 2 || depth > MOST) {
        return 2;
    }
    begin();
    printf("stretch tree of depth %d\t check: %" PRIu64 "\n", depth + 1, make_and_check(depth + 1));
    make_long_lived(depth);
    for (int d = LEAST; d <= depth; d += 2) {
        uint64_t trees = UINT64_C(1) << (depth - d + LEAST), sum = 0;
        for (uint64_t i = 0; i < trees; i++) {
            sum += make_and_check(d);
        }
        printf("%" PRIu64 "\t trees of depth %d\t check: %" PRIu64 "\n", trees, d, sum);
    }
    printf("long lived tree of depth %d\t check: %" PRIu64 "\n", depth, check_long_lived());
    end();
    return 0;
}
