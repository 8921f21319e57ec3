// The limits in markring.h are those of docs/RULES.md ("Limits") and docs/FORMATS.md, and those at
// which the library refuses. (limits.c has the greatest image.)
#include "check.h"

static markring_answer answer;

static void numbers(void)
{
    EQUAL(2, MARKRING_LEAST_NODES);
    EQUAL(64, MARKRING_MOST_NODES);
    EQUAL(256, MARKRING_PLAIN_REGISTERS);
    EQUAL(1048576, MARKRING_PLAIN_SLOTS);
    EQUAL(8, MARKRING_PLAIN_PLACES);
    EQUAL(65535, MARKRING_WIDE_REGISTERS);
    EQUAL(16777216, MARKRING_WIDE_SLOTS);
    EQUAL(255, MARKRING_WIDE_PLACES);
    EQUAL(16777216, MARKRING_WIDE_BYTES);
    EQUAL(65535, MARKRING_LETTER_BYTES);
    EQUAL(67108864, MARKRING_PLAIN_IMAGE);
    EQUAL(32, MARKRING_WINDOW);
    EQUAL(32 * (4 + 8 + 48), MARKRING_WINDOW_BYTES);
    EQUAL(48, MARKRING_FRAME_BYTES);
    EQUAL(1 + 1 + 1 + 8, MARKRING_ACK_BYTES);
    EQUAL(1048576, MARKRING_LOG_BYTES);
    EQUAL(UINT64_C(281474976710656), MARKRING_LAST_NUMBER);
}

static int made(markring_shape shape)
{
    markring_node node = {0};
    int status = markring_node_make(&node, &shape, 0, 0);
    IS(status == MARKRING_OK ? MARKRING_OK : MARKRING_NO_HANDLE, markring_node_free(&node));
    return status;
}

static void shapes(void)
{
    markring_shape plain = {MARKRING_PLAIN_SLOTS, 0, MARKRING_PLAIN_REGISTERS, MARKRING_MOST_NODES,
        MARKRING_PLAIN_PLACES, 0};
    markring_shape wide = {MARKRING_WIDE_SLOTS, MARKRING_WIDE_BYTES, MARKRING_WIDE_REGISTERS,
        MARKRING_MOST_NODES, MARKRING_WIDE_PLACES, 1};
    markring_shape both[] = {plain, wide};
    for (int i = 0; i < 2; i++) {
        markring_shape it = both[i];
        OK(made(it));
        it.nodes = MARKRING_LEAST_NODES;
        OK(made(it));
        it.nodes--;
        IS(MARKRING_BAD_ARGUMENT, made(it));
        it.nodes = MARKRING_MOST_NODES + 1;
        IS(MARKRING_BAD_ARGUMENT, made(it));
        it = both[i];
        it.slots++;
        IS(MARKRING_BAD_ARGUMENT, made(it));
        it = both[i];
        it.bytes++;
        IS(MARKRING_BAD_ARGUMENT, made(it));
        it = both[i];
        it.registers++;
        IS(MARKRING_BAD_ARGUMENT, made(it));
    }
    plain.places++;
    IS(MARKRING_BAD_ARGUMENT, made(plain));
}

// A window of the longest frames: each puts a reference into a place of another node's object.
static void window(void)
{
    markring_node zero = {0}, one = {0};
    uint8_t frame[MARKRING_FRAME_BYTES], bytes[MARKRING_WINDOW_BYTES];
    size_t length = 0, count = 0;
    OK(markring_node_new(&zero, 2, 2, 4, 0, 0));
    OK(markring_node_new(&one, 2, 2, 4, 1, 0));
    OK(markring_node_alloc(&one, 0, 8, &answer));
    OK(markring_node_give(&one, 0, 1, 0, &answer));
    OK(markring_node_release(&one));
    OK(markring_node_frame_at(&one, 0, 0, frame, sizeof frame, &length));
    OK(markring_node_take(&zero, frame, length, &answer));
    OK(markring_node_accept(&zero, 0, &answer));
    for (int i = 0; i < MARKRING_WINDOW + 1; i++) {
        OK(markring_node_put(&zero, 0, 7, 0, &answer));
    }
    OK(markring_node_release(&zero));
    for (uint8_t place = 0; place < MARKRING_WINDOW; place++) {
        OK(markring_node_frame_at(&zero, 1, place, frame, sizeof frame, &length));
        EQUAL(MARKRING_FRAME_BYTES, length);
    }
    IS(MARKRING_BAD_ARGUMENT,
        markring_node_frame_at(&zero, 1, MARKRING_WINDOW, frame, sizeof frame, &length));
    OK(markring_node_frames(&zero, 1, 0, bytes, sizeof bytes, &count, &length));
    EQUAL(MARKRING_WINDOW, count);
    EQUAL(MARKRING_WINDOW_BYTES, length);
    OK(markring_node_ack_for(&zero, 1, bytes, MARKRING_ACK_BYTES, &length));
    EQUAL(MARKRING_ACK_BYTES, length);
    OK(markring_node_free(&zero));
    OK(markring_node_free(&one));
}

// A batch has 8 bytes, and then those of the log. A SetWord has 11 (docs/FORMATS.md, "Events").
static void log_of_events(void)
{
    enum { HEAD = 8, EVENT = 11, MOST = MARKRING_LOG_BYTES / EVENT };
    markring_node node = {0};
    size_t size = 0;
    uint64_t mark = 0;
    OK(markring_node_new(&node, 2, 1, 1, 0, 0));
    OK(markring_node_alloc(&node, 0, 0, &answer));
    OK(markring_node_log(&node, 1));
    bytes image = image_of(&node);
    OK(markring_node_kept(&node, 1));
    for (size_t i = 0; i < MOST; i++) {
        if (markring_node_set_word(&node, 0, i, &answer) != MARKRING_OK) {
            HOLDS(0);
            break;
        }
    }
    OK(markring_node_batch_size(&node, &size));
    EQUAL(HEAD + EVENT * MOST, size);
    OK(markring_node_set_word(&node, 0, 0, &answer));
    IS(MARKRING_NO_LOG, markring_node_batch_size(&node, &size));
    IS(MARKRING_NO_LOG, markring_node_batch(&node, image.at, image.length, &size, &mark));
    drop_bytes(&image);
    OK(markring_node_free(&node));
}

// The image of a node 0 of two, with one slot, in this cycle, which sent this many messages.
static markring_node last(uint64_t cycle, uint64_t sent)
{
    markring_node node = {0};
    bytes image = {0};
    const uint8_t head[] = {0x4D, 0x52, 2, 2, 0, 0, 1, 0, 0, 0, 1}, nothing[64] = {0};
    add(&image, head, sizeof head);
    for (int i = 0; i < 3; i++) {
        add_number(&image, cycle, 8);
    }
    add(&image, nothing, 4 + 1 + 8 + 8 + 1);
    add_number(&image, cycle, 8);
    add(&image, nothing, 1 + 5 * 4);
    add_number(&image, sent, 8);
    add(&image, nothing, 4 + 8);
    OK(markring_node_from_image(&node, image.at, image.length, 0));
    drop_bytes(&image);
    return node;
}

static void numbers_of_messages_and_cycles(void)
{
    markring_node node = last(7, MARKRING_LAST_NUMBER - 1);
    OK(markring_node_give(&node, 1, 0, 0, &answer));
    EQUAL(MARKRING_LAST_NUMBER, answer.number);
    IS(MARKRING_LINK_SPENT, markring_node_give(&node, 1, 0, 0, &answer));
    OK(markring_node_free(&node));
    node = last(MARKRING_LAST_NUMBER - 1, 5);
    OK(markring_node_begin(&node, &answer));
    EQUAL(MARKRING_LAST_NUMBER, answer.number);
    OK(markring_node_free(&node));
    node = last(MARKRING_LAST_NUMBER, 5);
    IS(MARKRING_CYCLES_SPENT, markring_node_begin(&node, &answer));
    OK(markring_node_free(&node));
}

int main(void)
{
    numbers();
    shapes();
    window();
    log_of_events();
    numbers_of_messages_and_cycles();
    return report();
}
