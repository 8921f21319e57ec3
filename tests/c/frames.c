// Frames and images of nodes: what is released and when, marks, buffers, the window, early
// messages, and the limit of a link. What is expected comes from docs/RULES.md and docs/FORMATS.md.
#include "check.h"

static markring_node zero, one;
static markring_answer answer;

static void begin(uint64_t limit)
{
    OK(markring_node_new(&zero, 2, 4, 16, 0, limit));
    OK(markring_node_new(&one, 2, 4, 16, 1, 0));
}

static void end(void)
{
    OK(markring_node_free(&zero));
    OK(markring_node_free(&one));
}

// Node 0 gives a letter without a reference.
static void give(uint32_t label)
{
    OK(markring_node_give(&zero, 1, label, 3, &answer));
}

// The frame of such a letter: number, stamp 0, tag 4, label, no reference.
static bytes letter_frame(uint64_t number, uint32_t label)
{
    bytes frame = {0};
    add_number(&frame, 0x450001, 3);
    add_number(&frame, number, 8);
    add_number(&frame, 0, 8);
    add_number(&frame, 4, 1);
    add_number(&frame, label, 4);
    add_number(&frame, 0, 1);
    return frame;
}

static void take(uint64_t number, uint32_t label, int kind)
{
    bytes frame = letter_frame(number, label);
    if (OK(markring_node_take(&one, frame.at, frame.length, &answer))) {
        EQUAL((uint64_t)kind, answer.kind);
    }
    drop_bytes(&frame);
}

static void accept_label(uint32_t label)
{
    OK(markring_node_accept(&one, 0, &answer));
    EQUAL(label, answer.label);
}

// The place of the window of node 0 has this frame.
static void expect_frame(uint8_t place, uint64_t number, uint32_t label)
{
    uint8_t buffer[48];
    size_t needed = 0;
    bytes frame = letter_frame(number, label);
    OK(markring_node_frame_at(&zero, 1, place, buffer, sizeof buffer, &needed));
    HOLDS(needed == frame.length && memcmp(buffer, frame.at, needed) == 0);
    drop_bytes(&frame);
}

static void expect_link(uint64_t appended, uint64_t released, uint64_t acknowledged)
{
    markring_link link;
    OK(markring_node_link(&zero, 1, &link));
    EQUAL(appended, link.appended);
    EQUAL(released, link.released);
    EQUAL(acknowledged, link.acknowledged);
}

static void expect_unsaved(markring_node *node, uint8_t expected)
{
    uint8_t flag = 7;
    OK(markring_node_unsaved(node, &flag));
    EQUAL(expected, flag);
}

static int acknowledge(uint64_t number)
{
    bytes frame = {0};
    add_number(&frame, 0x420100, 3);
    add_number(&frame, number, 8);
    blot(&answer);
    int status = markring_node_take(&zero, frame.at, frame.length, &answer);
    HOLDS(status == MARKRING_OK ? answer.kind == MARKRING_ANSWER_DONE : is_blotted(&answer));
    drop_bytes(&frame);
    return status;
}

// An event after the image isn't released by `kept`, in both directions.
static void marks(void)
{
    uint8_t first[512], second[512], buffer[48];
    size_t first_length = 0, second_length = 0, needed = 0;
    uint64_t mark = 0, later = 0;
    markring_link link;
    begin(0);
    expect_unsaved(&zero, 0);
    IS(MARKRING_WRONG_MARK, markring_node_kept(&zero, 0));
    IS(MARKRING_WRONG_MARK, markring_node_kept(&zero, 1));
    give(1);
    expect_unsaved(&zero, 1);
    OK(markring_node_image(&zero, first, sizeof first, &first_length, &mark));
    EQUAL(1, mark);
    expect_unsaved(&zero, 1);
    give(2);
    IS(MARKRING_NOTHING, markring_node_frame_at(&zero, 1, 0, buffer, sizeof buffer, &needed));
    expect_link(2, 0, 0);
    IS(MARKRING_WRONG_MARK, markring_node_kept(&zero, mark + 1));
    IS(MARKRING_WRONG_MARK, markring_node_kept(&zero, 0));
    IS(MARKRING_WRONG_MARK, markring_node_kept(&zero, UINT64_MAX));
    expect_link(2, 0, 0);
    OK(markring_node_kept(&zero, mark));
    expect_link(2, 1, 0);
    expect_unsaved(&zero, 1);
    expect_frame(0, 1, 1);
    IS(MARKRING_NOTHING, markring_node_frame_at(&zero, 1, 1, buffer, sizeof buffer, &needed));
    IS(MARKRING_ACK_BEYOND, acknowledge(2));
    // Twice changes nothing.
    give(3);
    OK(markring_node_kept(&zero, mark));
    expect_link(3, 1, 0);
    // The mark of an older image is refused once there is a later one.
    OK(markring_node_image(&zero, second, sizeof second, &second_length, &later));
    EQUAL(2, later);
    IS(MARKRING_WRONG_MARK, markring_node_kept(&zero, mark));
    OK(markring_node_kept(&zero, later));
    expect_link(3, 3, 0);
    expect_unsaved(&zero, 0);
    expect_frame(2, 3, 3);

    // A crash: node 0 continues from its first image, which has one letter. Its marks begin again.
    OK(markring_node_free(&zero));
    OK(markring_node_from_image(&zero, first, first_length, 0));
    expect_link(1, 1, 0);
    expect_unsaved(&zero, 0);
    IS(MARKRING_WRONG_MARK, markring_node_kept(&zero, mark));
    OK(markring_node_image(&zero, second, sizeof second, &second_length, &later));
    EQUAL(1, later);
    HOLDS(first_length == second_length && memcmp(first, second, first_length) == 0);

    // What is received counts as saved in the same way.
    take(1, 1, MARKRING_ANSWER_RECEIVED);
    OK(markring_node_image(&one, first, sizeof first, &first_length, &mark));
    take(2, 2, MARKRING_ANSWER_RECEIVED);
    OK(markring_node_kept(&one, mark));
    OK(markring_node_link(&one, 0, &link));
    EQUAL(2, link.received);
    EQUAL(1, link.received_saved);
    OK(markring_node_ack_for(&one, 0, buffer, sizeof buffer, &needed));
    HOLDS(needed == 11 && memcmp(buffer, "\x42\1\0\0\0\0\0\0\0\0\1", 11) == 0);
    expect_unsaved(&one, 1);
    end();
}

// Without an image everything is released, and an older image's mark changes nothing afterwards.
static void releases(void)
{
    uint8_t bytes[512], buffer[48];
    size_t length = 0, needed = 0;
    uint64_t mark = 0;
    markring_link link;
    begin(0);
    OK(markring_node_release(&zero));
    expect_link(0, 0, 0);
    give(1);
    OK(markring_node_image(&zero, bytes, sizeof bytes, &length, &mark));
    give(2);
    expect_link(2, 0, 0);
    OK(markring_node_release(&zero));
    expect_link(2, 2, 0);
    expect_unsaved(&zero, 0);
    expect_frame(0, 1, 1);
    expect_frame(1, 2, 2);
    // The older image takes nothing back.
    OK(markring_node_kept(&zero, mark));
    expect_link(2, 2, 0);
    expect_unsaved(&zero, 0);
    IS(MARKRING_WRONG_MARK, markring_node_kept(&zero, mark + 1));
    take(1, 1, MARKRING_ANSWER_RECEIVED);
    expect_unsaved(&one, 1);
    OK(markring_node_release(&one));
    expect_unsaved(&one, 0);
    OK(markring_node_link(&one, 0, &link));
    EQUAL(1, link.received_saved);
    OK(markring_node_ack_for(&one, 0, buffer, sizeof buffer, &needed));
    HOLDS(needed == 11 && memcmp(buffer, "\x42\1\0\0\0\0\0\0\0\0\1", 11) == 0);
    end();
}

// What changes a node, and what doesn't.
static void unsaved(void)
{
    begin(0);
    OK(markring_node_alloc(&zero, 0, 1, &answer));
    save(&zero);
    expect_unsaved(&zero, 0);
    OK(markring_node_word(&zero, 0, &answer));
    IS(MARKRING_EMPTY_REGISTER, markring_node_drop(&zero, 1, &answer));
    IS(MARKRING_NOTHING_TO_DO, markring_node_scan(&zero, &answer));
    OK(acknowledge(0));
    expect_unsaved(&zero, 0);
    take(2, 2, MARKRING_ANSWER_EARLY);
    expect_unsaved(&one, 0);
    take(1, 1, MARKRING_ANSWER_RECEIVED);
    expect_unsaved(&one, 1);
    save(&one);
    take(1, 1, MARKRING_ANSWER_REPEAT);
    expect_unsaved(&one, 0);
    OK(markring_node_next(&one, 0, &answer));
    expect_unsaved(&one, 1);
    end();
}

// 40 letters: 32 are offered at a time. They come in every order and again and again, and are
// received in theirs.
static void window(void)
{
    uint8_t buffer[1920];
    size_t count = 0, needed = 0;
    begin(0);
    for (uint32_t label = 1; label <= 40; label++) {
        give(label);
    }
    IS(MARKRING_NOTHING, markring_node_frames(&zero, 1, 0, buffer, sizeof buffer, &count, &needed));
    save(&zero);
    expect_frame(0, 1, 1);
    expect_frame(31, 32, 32);
    IS(MARKRING_BAD_ARGUMENT, markring_node_frame_at(&zero, 1, 32, buffer, 48, &needed));
    IS(MARKRING_BAD_ARGUMENT, markring_node_frame_at(&zero, 7, 32, buffer, 48, &needed));
    IS(MARKRING_NO_NODE, markring_node_frame_at(&zero, 0, 31, buffer, 48, &needed));

    // Each frame has 25 bytes, its length 4 and its number 8.
    OK(markring_node_frames(&zero, 1, 0, buffer, sizeof buffer, &count, &needed));
    EQUAL(32, count);
    EQUAL(32 * 37, needed);
    for (uint64_t i = 0; i < count; i++) {
        bytes expected = {0}, frame = letter_frame(i + 1, (uint32_t)i + 1);
        add_number(&expected, frame.length, 4);
        add_number(&expected, i + 1, 8);
        add(&expected, frame.at, frame.length);
        HOLDS(memcmp(buffer + 37 * i, expected.at, 37) == 0);
        drop_bytes(&expected);
        drop_bytes(&frame);
    }
    OK(markring_node_frames(&zero, 1, 30, buffer, sizeof buffer, &count, &needed));
    EQUAL(2, count);
    EQUAL(74, needed);
    IS(MARKRING_NOTHING, markring_node_frames(&zero, 1, 32, buffer, 1920, &count, &needed));
    IS(MARKRING_NOTHING, markring_node_frames(&zero, 1, UINT64_MAX, buffer, 1920, &count, &needed));
    IS(MARKRING_NO_NODE, markring_node_frames(&zero, 2, 0, buffer, 1920, &count, &needed));
    // As many as fit.
    OK(markring_node_frames(&zero, 1, 0, buffer, 110, &count, &needed));
    EQUAL(2, count);
    EQUAL(32 * 37, needed);

    // From the last one to the first, twice.
    for (int twice = 0; twice < 2; twice++) {
        for (uint32_t label = 32; label > 1; label--) {
            take(label, label, MARKRING_ANSWER_EARLY);
        }
    }
    blot(&answer);
    bytes beyond = letter_frame(33, 33);
    IS(MARKRING_OUT_OF_ORDER, markring_node_take(&one, beyond.at, beyond.length, &answer));
    HOLDS(is_blotted(&answer));
    drop_bytes(&beyond);
    uint64_t number = 77;
    IS(MARKRING_NOTHING, markring_node_waiting(&one, 0, &number));
    IS(MARKRING_NO_NODE, markring_node_waiting(&one, 1, &number));
    IS(MARKRING_NOTHING_TO_DO, markring_node_next(&one, 0, &answer));
    take(1, 1, MARKRING_ANSWER_RECEIVED);
    for (uint64_t next = 2; next <= 32; next++) {
        OK(markring_node_waiting(&one, 0, &number));
        EQUAL(next, number);
        OK(markring_node_next(&one, 0, &answer));
        EQUAL(MARKRING_ANSWER_RECEIVED, answer.kind);
    }
    IS(MARKRING_NOTHING, markring_node_waiting(&one, 0, &number));
    take(32, 32, MARKRING_ANSWER_REPEAT);
    for (uint32_t label = 1; label <= 32; label++) {
        accept_label(label);
    }
    IS(MARKRING_NO_LETTER, markring_node_accept(&one, 0, &answer));

    // An acknowledgement moves the window; a lower one doesn't move it back.
    OK(acknowledge(32));
    OK(acknowledge(5));
    expect_link(40, 40, 32);
    expect_frame(0, 33, 33);
    expect_frame(7, 40, 40);
    IS(MARKRING_NOTHING, markring_node_frame_at(&zero, 1, 8, buffer, 48, &needed));
    IS(MARKRING_ACK_BEYOND, acknowledge(41));
    OK(acknowledge(40));
    IS(MARKRING_NOTHING, markring_node_frames(&zero, 1, 0, buffer, sizeof buffer, &count, &needed));
    end();
}

// Each length of each buffer.
static void buffers(void)
{
    uint8_t buffer[600], before[600];
    size_t needed, count, size = 0;
    uint64_t mark;
    begin(0);
    OK(markring_node_alloc(&zero, 0, 8, &answer));
    OK(markring_node_give(&zero, 1, 1, 0, &answer));
    give(2);
    save(&zero);
    OK(markring_node_image_size(&zero, &size));
    HOLDS(size < sizeof buffer);
    memset(before, 0x5A, sizeof before);
    for (size_t length = 0; length < sizeof buffer; length++) {
        memset(buffer, 0x5A, sizeof buffer);
        needed = 1;
        // A Give with a reference.
        int status = markring_node_frame_at(&zero, 1, 0, buffer, length, &needed);
        EQUAL(38, needed);
        IS(length < 38 ? MARKRING_SHORT_BUFFER : MARKRING_OK, status);
        HOLDS(memcmp(buffer, before, length < 38 ? 38 : 0) == 0);
        HOLDS(length < 38 || memcmp(buffer + 38, before, sizeof buffer - 38) == 0);

        memset(buffer, 0x5A, sizeof buffer);
        status = markring_node_ack_for(&zero, 1, buffer, length, &needed);
        EQUAL(11, needed);
        IS(length < 11 ? MARKRING_SHORT_BUFFER : MARKRING_OK, status);
        HOLDS(memcmp(buffer, before, length < 11 ? 11 : 0) == 0);
        HOLDS(length < 11 || memcmp(buffer + 11, before, sizeof buffer - 11) == 0);

        memset(buffer, 0x5A, sizeof buffer);
        count = 77;
        status = markring_node_frames(&zero, 1, 0, buffer, length, &count, &needed);
        EQUAL(50 + 37, needed);
        IS(length < 50 ? MARKRING_SHORT_BUFFER : MARKRING_OK, status);
        EQUAL(length < 50 ? 77 : length < 87 ? 1 : 2, count);
        size_t written = length < 50 ? 0 : length < 87 ? 50 : 87;
        HOLDS(memcmp(buffer + written, before, sizeof buffer - written) == 0);

        memset(buffer, 0x5A, sizeof buffer);
        mark = 77;
        status = markring_node_image(&zero, buffer, length, &needed, &mark);
        EQUAL(size, needed);
        IS(length < size ? MARKRING_SHORT_BUFFER : MARKRING_OK, status);
        // The image of `save` was the first one.
        EQUAL(length < size ? 77 : length - size + 2, mark);
        written = length < size ? 0 : size;
        HOLDS(memcmp(buffer + written, before, sizeof buffer - written) == 0);
    }
    end();
}

// At most two messages aren't acknowledged, except those of the collector.
static void limits(void)
{
    begin(2);
    OK(markring_node_alloc(&zero, 0, 1, &answer));
    give(1);
    give(2);
    blot(&answer);
    IS(MARKRING_CONGESTED, markring_node_give(&zero, 1, 3, 3, &answer));
    IS(MARKRING_CONGESTED, markring_node_give(&zero, 1, 3, 99, &answer));
    HOLDS(is_blotted(&answer));
    IS(MARKRING_NO_NODE, markring_node_give(&zero, 2, 3, 3, &answer));
    IS(MARKRING_SELF_SEND, markring_node_give(&zero, 0, 3, 3, &answer));
    // A put and a get of node 0's own object aren't for node 1.
    IS(MARKRING_LOCAL, markring_node_put(&zero, 0, 0, 3, &answer));
    OK(markring_node_begin(&zero, &answer));
    expect_link(4, 0, 0);
    save(&zero);
    IS(MARKRING_CONGESTED, markring_node_give(&zero, 1, 3, 3, &answer));
    OK(acknowledge(2));
    IS(MARKRING_CONGESTED, markring_node_give(&zero, 1, 3, 3, &answer));
    OK(acknowledge(3));
    give(3);
    IS(MARKRING_CONGESTED, markring_node_give(&zero, 1, 4, 3, &answer));

    // A remote object: its owner is node 1.
    bytes frame = {0}, image;
    add_number(&frame, 0x450100, 3);
    add_number(&frame, 1, 8);
    add_number(&frame, 0, 8);
    add_number(&frame, 4, 1);
    add_number(&frame, 7, 4);
    add_number(&frame, 0x0101, 2);
    add_number(&frame, 0, 4);
    add_number(&frame, 1, 8);
    OK(markring_node_take(&zero, frame.at, frame.length, &answer));
    OK(markring_node_accept(&zero, 1, &answer));
    HOLDS(answer.reference.node == 1 && answer.label == 7 && answer.node == 1);
    IS(MARKRING_CONGESTED, markring_node_put(&zero, 1, 0, 3, &answer));
    IS(MARKRING_CONGESTED, markring_node_put(&zero, 1, 99, 99, &answer));
    IS(MARKRING_CONGESTED, markring_node_get(&zero, 1, 0, 3, &answer));
    IS(MARKRING_EMPTY_REGISTER, markring_node_get(&zero, 3, 0, 3, &answer));

    // No image holds the limit.
    image = image_of(&zero);
    OK(markring_node_free(&zero));
    OK(markring_node_from_image(&zero, image.at, image.length, 0));
    OK(markring_node_put(&zero, 1, 0, 3, &answer));
    OK(markring_node_get(&zero, 1, 0, 3, &answer));
    OK(markring_node_free(&zero));
    OK(markring_node_from_image(&zero, image.at, image.length, 1));
    IS(MARKRING_CONGESTED, markring_node_put(&zero, 1, 0, 3, &answer));
    drop_bytes(&frame);
    drop_bytes(&image);
    end();
}

// The images of new nodes that docs/FORMATS.md spells out, and of them one byte less and more.
static void new_images(void)
{
    for (uint8_t own_number = 0; own_number < 2; own_number++) {
        markring_node node = {0}, again = {0};
        bytes expected = {0};
        size_t zeros = own_number == 0 ? 95 : 87;
        add_number(&expected, 0x4D5202, 3);
        add_number(&expected, 2, 1);
        add_number(&expected, own_number, 1);
        add_number(&expected, 1, 2);
        add_number(&expected, 2, 4);
        for (size_t i = 0; i < zeros; i++) {
            add_number(&expected, 0, 1);
        }
        OK(markring_node_new(&node, 2, 1, 2, own_number, 0));
        bytes image = image_of(&node);
        HOLDS(same_bytes(&expected, &image));
        OK(markring_node_from_image(&again, expected.at, expected.length, 0));
        OK(markring_node_free(&again));
        IS(MARKRING_BAD_IMAGE,
            markring_node_from_image(&again, expected.at, expected.length - 1, 0));
        add_number(&expected, 0, 1);
        IS(MARKRING_BAD_IMAGE, markring_node_from_image(&again, expected.at, expected.length, 0));
        HOLDS(again.at == NULL);
        OK(markring_node_free(&node));
        drop_bytes(&expected);
        drop_bytes(&image);
    }
}

int main(void)
{
    marks();
    releases();
    unsaved();
    window();
    buffers();
    limits();
    new_images();
    return report();
}
