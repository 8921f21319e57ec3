// The time of a reclaim, at node 0 of a wide space.
//
//     reclaims OBJECTS
//
// It makes lists of objects, and keeps all of them, half of them, or none. Then it reclaims. For
// each it prints how many nanoseconds a needed object and a freed one take, by the least of five
// times. Beside the lists that it keeps, it makes 1,000 and 100,000 more objects, in lists of which
// half stay, and reclaims the young.
#define _POSIX_C_SOURCE 200809L
#include <inttypes.h>
#include <markring.h>
#include <stdio.h>
#include <stdlib.h>
#include <time.h>

enum { LENGTH = 1000, TIMES = 5, REGISTERS = 2 };

static markring_node node;

static void must(int status, const char *call)
{
    if (status != MARKRING_OK) {
        fprintf(stderr, "reclaims: %s: %s\n", call, markring_status_text(status));
        exit(1);
    }
}

#define MUST(call) must((call), #call)

static double now(void)
{
    struct timespec it;
    clock_gettime(CLOCK_PROCESS_CPUTIME_ID, &it);
    return (double)it.tv_sec * 1e9 + (double)it.tv_nsec;
}

// Lists of LENGTH objects; of these, each list whose number `keeps` accepts stays, in a list of
// lists in register 0.
static void make(uint32_t objects, unsigned each)
{
    markring_answer answer;
    for (uint32_t i = 0; i < objects; i++) {
        int is_last = i % LENGTH == LENGTH - 1, is_kept = each > 0 && i / LENGTH % each == 0;
        MUST(markring_node_alloc(&node, 2, 2, &answer));
        if (i % LENGTH > 0) {
            MUST(markring_node_store(&node, 2, 0, 1, &answer));
        }
        MUST(markring_node_copy(&node, 1, 2, &answer));
        if (is_last && is_kept) {
            if (i / LENGTH >= each) {
                MUST(markring_node_store(&node, 1, 1, 0, &answer));
            }
            MUST(markring_node_copy(&node, 0, 1, &answer));
        }
    }
    MUST(markring_node_drop(&node, 1, &answer));
    MUST(markring_node_drop(&node, 2, &answer));
}

// The least time of a reclaim. One in `each` lists stays; none if it is 0.
static double least(uint32_t objects, unsigned each, uint32_t *freed)
{
    double found = 0;
    for (int times = 0; times < TIMES; times++) {
        markring_shape shape = {objects, 0, REGISTERS + 1, 2, 2, 1};
        markring_answer answer;
        MUST(markring_node_make(&node, &shape, 0, 0));
        make(objects, each);
        double began = now();
        MUST(markring_node_reclaim(&node, &answer));
        double took = now() - began;
        *freed = answer.count;
        found = times == 0 || took < found ? took : found;
        MUST(markring_node_free(&node));
    }
    return found;
}

// The least time of a reclaim of the young, when this many objects were made beside older ones. Half
// of them stay, as a list in register 0.
static double least_young(uint32_t objects, uint32_t made, uint32_t *freed)
{
    double found = 0;
    for (int times = 0; times < TIMES; times++) {
        markring_shape shape = {objects + made, 0, REGISTERS + 1, 2, 2, 1};
        markring_answer answer;
        MUST(markring_node_make(&node, &shape, 0, 0));
        make(objects, 1);
        MUST(markring_node_reclaim(&node, &answer));
        for (uint32_t i = 0; i < made; i++) {
            MUST(markring_node_alloc(&node, 2, 2, &answer));
            if (i % 2 == 0) {
                MUST(markring_node_store(&node, 2, 0, 0, &answer));
                MUST(markring_node_copy(&node, 0, 2, &answer));
            }
        }
        MUST(markring_node_drop(&node, 2, &answer));
        double began = now();
        MUST(markring_node_reclaim_young(&node, &answer));
        double took = now() - began;
        *freed = answer.count;
        found = times == 0 || took < found ? took : found;
        MUST(markring_node_free(&node));
    }
    return found;
}

int main(int length, char **given)
{
    uint32_t objects = length > 1 ? (uint32_t)strtoul(given[1], NULL, 10) : 1000000, freed;
    double all = least(objects, 1, &freed);
    printf("needed\tall of %" PRIu32 "\t%.1f ns each, %" PRIu32 " freed\n", objects,
        all / objects, freed);
    double half = least(objects, 2, &freed);
    printf("half\t%" PRIu32 " objects\t%.2f ms, %" PRIu32 " freed\n", objects, half / 1e6, freed);
    double none = least(objects, 0, &freed);
    printf("freed\tall of %" PRIu32 "\t%.1f ns each, %" PRIu32 " freed\n", objects,
        none / objects, freed);
    for (uint32_t made = 1000; made <= 100000; made *= 100) {
        double young = least_young(objects, made, &freed);
        printf("young\t%" PRIu32 " beside %" PRIu32 "\t%.1f us, %" PRIu32 " freed\n", made, objects,
            young / 1e3, freed);
    }
    return 0;
}
