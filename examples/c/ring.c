// Two objects on two nodes refer to each other. Once no program holds either, a collection cycle
// finds that out and frees both.
//
//     cc examples/c/ring.c $(pkg-config --cflags --libs markring) && ./a.out
#include <markring.h>

#include <stdio.h>
#include <stdlib.h>

static markring_node nodes[2];

// Ends the program unless the call succeeded.
static void must(int status, const char *call)
{
    if (status != MARKRING_OK) {
        fprintf(stderr, "%s: %s\n", call, markring_status_text(status));
        exit(1);
    }
}

#define MUST(call) must(call, #call)

// Saves a node, and moves what it sent to the other one. A real program stores the image, and
// sends frames over a network until they are acknowledged.
static void save_and_send(int from)
{
    static uint8_t image[4096];
    uint8_t frame[48], to = (uint8_t)(1 - from);
    size_t length;
    uint64_t mark;
    markring_answer answer;
    MUST(markring_node_image(&nodes[from], image, sizeof image, &length, &mark));
    MUST(markring_node_kept(&nodes[from], mark));
    for (uint8_t place = 0; place < 32; place++) {
        int status = markring_node_frame_at(&nodes[from], to, place, frame, sizeof frame, &length);
        if (status == MARKRING_NOTHING) {
            break;
        }
        must(status, "markring_node_frame_at");
        MUST(markring_node_take(&nodes[to], frame, length, &answer));
    }
    // The acknowledgement of what the other node has received and saved.
    MUST(markring_node_ack_for(&nodes[to], (uint8_t)from, frame, sizeof frame, &length));
    MUST(markring_node_take(&nodes[from], frame, length, &answer));
}

// Does the collector's share of a node's turn: at most 16 objects scanned, and 16 slots swept.
static void collect(int node)
{
    markring_work work;
    MUST(markring_node_work(&nodes[node], 16, 16, &work));
    if (work.freed > 0) {
        printf("node %d freed %u\n", node, (unsigned)work.freed);
    }
}

static unsigned objects(void)
{
    markring_state first, second;
    MUST(markring_node_state(&nodes[0], &first));
    MUST(markring_node_state(&nodes[1], &second));
    return first.live + second.live;
}

int main(void)
{
    markring_answer answer;
    // Two nodes, each with 4 registers and 16 slots.
    for (uint8_t own = 0; own < 2; own++) {
        MUST(markring_node_new(&nodes[own], 2, 4, 16, own, 0));
    }
    // Each makes an object with one place, and sends its reference to the other node.
    for (uint8_t own = 0; own < 2; own++) {
        MUST(markring_node_alloc(&nodes[own], 0, 1, &answer));
        MUST(markring_node_give(&nodes[own], 1 - own, 7, 0, &answer));
        save_and_send(own);
    }
    // Each puts what came into the place of its object, and drops both.
    for (int own = 0; own < 2; own++) {
        MUST(markring_node_accept(&nodes[own], 1, &answer));
        MUST(markring_node_store(&nodes[own], 0, 0, 1, &answer));
        MUST(markring_node_drop(&nodes[own], 0, &answer));
        MUST(markring_node_drop(&nodes[own], 1, &answer));
    }
    printf("%u objects in a ring that no program reaches\n", objects());
    MUST(markring_node_begin(&nodes[0], &answer));
    while (objects() > 0) {
        for (int own = 0; own < 2; own++) {
            collect(own);
            save_and_send(own);
        }
    }
    puts("none is left");
    MUST(markring_node_free(&nodes[0]));
    MUST(markring_node_free(&nodes[1]));
    return 0;
}
