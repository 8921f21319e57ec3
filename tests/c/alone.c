// Three of four nodes do nothing. A program at the fourth one makes many more objects than its node
// has slots: lists, of which it keeps the last few. No cycle can end, so only reclaims make room:
// those of the young, and after four of these one of all.
//
//     alone OBJECTS
#include "check.h"

enum { NODES = 4, SLOTS = 100000, LISTS = 50, LENGTH = 20, FIRST = 2 };
// The most objects in lists, and how many reclaims of the young come before one of all.
enum { KEPT = (LISTS + 1) * LENGTH, TIMES = 4 };

static markring_node node;
static unsigned long reclaims, young_reclaims;
// Reclaims of the young since the last one of all.
static unsigned long since;

// Makes room in a full node. What the lists hold, and what was given away, stays. A reclaim of the
// young also leaves what was in lists at an earlier one; a reclaim of all doesn't.
static void make_room(void)
{
    markring_answer answer;
    markring_state state;
    int is_all = since == TIMES;
    OK(is_all ? markring_node_reclaim(&node, &answer)
              : markring_node_reclaim_young(&node, &answer));
    EQUAL(MARKRING_ANSWER_RECLAIMED, answer.kind);
    OK(markring_node_state(&node, &state));
    EQUAL(SLOTS, answer.count + state.live);
    HOLDS(state.live <= (is_all ? 1 : since + 2) * KEPT + 1);
    since = is_all ? 0 : since + 1;
    *(is_all ? &reclaims : &young_reclaims) += 1;
}

static void alloc(uint16_t reg, uint8_t places)
{
    markring_answer answer;
    int status = markring_node_alloc(&node, reg, places, &answer);
    if (status == MARKRING_ARENA_FULL) {
        make_room();
        status = markring_node_alloc(&node, reg, places, &answer);
    }
    OK(status);
}

// A list of objects with these numbers as words goes into a register.
static void make_list(uint16_t reg, unsigned long first)
{
    markring_answer answer;
    for (unsigned long i = 0; i < LENGTH; i++) {
        alloc(0, 1);
        OK(markring_node_set_word(&node, 0, first + i, &answer));
        if (i > 0) {
            OK(markring_node_store(&node, 0, 0, 1, &answer));
        }
        OK(markring_node_copy(&node, 1, 0, &answer));
    }
    OK(markring_node_copy(&node, reg, 1, &answer));
}

static void expect_list(uint16_t reg, unsigned long first)
{
    markring_answer answer;
    OK(markring_node_copy(&node, 0, reg, &answer));
    for (unsigned long i = LENGTH; i-- > 0;) {
        OK(markring_node_word(&node, 0, &answer));
        EQUAL(first + i, answer.number);
        OK(markring_node_load(&node, 0, 0, 0, &answer));
    }
    HOLDS(!markring_ref_is_some(answer.reference));
}

int main(int length, char **given)
{
    unsigned long objects = length > 1 ? strtoul(given[1], NULL, 10) : 200000;
    markring_shape shape = {SLOTS, 0, FIRST + LISTS, NODES, 1, 1};
    markring_answer answer;
    markring_state state;
    OK(markring_node_make(&node, &shape, 3, 0));
    alloc(0, 0);
    OK(markring_node_give(&node, 2, 7, 0, &answer));
    unsigned long lists = objects / LENGTH;
    for (unsigned long i = 0; i < lists; i++) {
        make_list((uint16_t)(FIRST + i % LISTS), i * LENGTH);
    }
    for (unsigned long i = lists - LISTS; i < lists; i++) {
        expect_list((uint16_t)(FIRST + i % LISTS), i * LENGTH);
    }
    OK(markring_node_state(&node, &state));
    EQUAL(0, state.cycle);
    HOLDS(reclaims + young_reclaims >= objects / SLOTS);
    HOLDS(young_reclaims > reclaims);
    // All that was never told goes; what was given away waits for a cycle.
    for (uint16_t reg = 0; reg < FIRST + LISTS; reg++) {
        (void)markring_node_drop(&node, reg, &answer);
    }
    OK(markring_node_reclaim(&node, &answer));
    OK(markring_node_state(&node, &state));
    EQUAL(1, state.live);
    IS(MARKRING_NOTHING_TO_DO, markring_node_reclaim(&node, &answer));
    OK(markring_node_free(&node));
    return report();
}
