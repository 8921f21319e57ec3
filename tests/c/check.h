// What the test programs of the C library share: checks that are counted, a copy of all that a node
// shows, random numbers, and bytes.
#ifndef CHECK_H
#define CHECK_H

#include "markring.h"

#include <inttypes.h>
#include <stdio.h>
#include <stdlib.h>
#include <string.h>

static unsigned long passed, failed;
// More failures than these aren't printed.
static const unsigned long SHOWN = 30;

__attribute__((unused)) static int check(int holds, const char *text, const char *file, int line)
{
    if (holds) {
        passed++;
        return 1;
    }
    if (failed++ < SHOWN) {
        printf("FAILED: %s:%d: %s\n", file, line, text);
    }
    return 0;
}

__attribute__((unused)) static int check_status(int expected, int status, const char *text,
    const char *file, int line)
{
    if (!check(status == expected, text, file, line) && failed <= SHOWN) {
        printf("  expected %d %s, but got %d %s\n", expected, markring_status_text(expected),
            status, markring_status_text(status));
    }
    return status == expected;
}

__attribute__((unused)) static void check_equal(uint64_t expected, uint64_t value, const char *text,
    const char *file, int line)
{
    if (!check(value == expected, text, file, line) && failed <= SHOWN) {
        printf("  expected %" PRIu64 ", but got %" PRIu64 "\n", expected, value);
    }
}

// The condition holds.
#define HOLDS(condition) check((condition) != 0, #condition, __FILE__, __LINE__)
// The call returns this status.
#define IS(status, call) check_status((status), (call), #call, __FILE__, __LINE__)
#define OK(call) IS(MARKRING_OK, call)
// The number is as expected.
#define EQUAL(expected, value) check_equal((expected), (value), #value, __FILE__, __LINE__)

// Prints the line that counts, and returns the program's status.
__attribute__((unused)) static int report(void)
{
    printf("%lu passed, %lu failed\n", passed, failed);
    return failed != 0 || passed == 0;
}

// Ends the program if memory of the tests' own is refused.
__attribute__((unused)) static void *own(void *block)
{
    if (block == NULL) {
        fputs("the test itself ran out of memory\n", stderr);
        exit(2);
    }
    return block;
}

// ## Spaces

// Opens a space. Unless its images are of different ages, nothing is written.
__attribute__((unused)) static int open_space(markring_space *space)
{
    uint8_t sender = 0x5A, receiver = 0xA5;
    int status = markring_space_open(space, &sender, &receiver);
    HOLDS(status == MARKRING_AGES ? sender < 64 && receiver < 64 && sender != receiver
                                  : sender == 0x5A && receiver == 0xA5);
    return status;
}

// ## Answers

// Fills an answer with bytes that no call writes, so that a write shows.
__attribute__((unused)) static void blot(markring_answer *answer)
{
    memset(answer, 0xA5, sizeof *answer);
}

__attribute__((unused)) static int is_blotted(const markring_answer *answer)
{
    const unsigned char *bytes = (const unsigned char *)answer;
    for (size_t i = 0; i < sizeof *answer; i++) {
        if (bytes[i] != 0xA5) {
            return 0;
        }
    }
    return 1;
}

__attribute__((unused)) static int same_ref(markring_ref a, markring_ref b)
{
    return a.node == b.node && a.slot == b.slot && a.generation == b.generation;
}

__attribute__((unused)) static int same_answer(const markring_answer *a, const markring_answer *b)
{
    return a->kind == b->kind && a->node == b->node && a->colour == b->colour && a->done == b->done
        && a->label == b->label && a->count == b->count && a->number == b->number
        && a->sum == b->sum && same_ref(a->reference, b->reference);
}

// ## What a node shows

// A growing row of bytes.
typedef struct bytes {
    uint8_t *at;
    size_t length, room;
} bytes;

__attribute__((unused)) static void add(bytes *to, const void *from, size_t length)
{
    if (to->room - to->length < length) {
        to->room = 2 * to->room + length + 64;
        to->at = (uint8_t *)own(realloc(to->at, to->room));
    }
    if (length > 0) {
        memcpy(to->at + to->length, from, length);
    }
    to->length += length;
}

// Adds a big-endian number of this many bytes.
__attribute__((unused)) static void add_number(bytes *to, uint64_t number, int length)
{
    while (length-- > 0) {
        uint8_t byte = (uint8_t)(number >> 8 * length);
        add(to, &byte, 1);
    }
}

__attribute__((unused)) static int same_bytes(const bytes *a, const bytes *b)
{
    return a->length == b->length && (a->length == 0 || memcmp(a->at, b->at, a->length) == 0);
}

__attribute__((unused)) static void drop_bytes(bytes *it)
{
    free(it->at);
    memset(it, 0, sizeof *it);
}

// The node's image. This changes its mark.
__attribute__((unused)) static bytes image_of(markring_node *node)
{
    bytes image = {0};
    size_t size = 0;
    uint64_t mark = 0;
    OK(markring_node_image_size(node, &size));
    image.at = (uint8_t *)own(malloc(size + 1));
    image.room = size + 1;
    OK(markring_node_image(node, image.at, size, &image.length, &mark));
    EQUAL(size, image.length);
    return image;
}

// Saves the node: nothing is stored, but what the image holds counts as saved.
__attribute__((unused)) static void save(markring_node *node)
{
    size_t size = 0;
    uint64_t mark = 0;
    OK(markring_node_image_size(node, &size));
    uint8_t *buffer = (uint8_t *)own(malloc(size + 1));
    if (OK(markring_node_image(node, buffer, size, &size, &mark))) {
        OK(markring_node_kept(node, mark));
    }
    free(buffer);
}

// Adds the frames that the node offers to another one.
__attribute__((unused)) static void add_window(bytes *to, markring_node *node, uint8_t peer)
{
    uint8_t none = 0;
    size_t count = 0, needed = 0;
    if (markring_node_frames(node, peer, 0, &none, 0, &count, &needed) == MARKRING_SHORT_BUFFER) {
        uint8_t *window = (uint8_t *)own(malloc(needed));
        OK(markring_node_frames(node, peer, 0, window, needed, &count, &needed));
        add(to, window, needed);
        free(window);
    }
}

// All that the node shows, in a row of bytes: its image, what it knows of its links, the frames
// that it offers, and what waits. The image's mark changes.
__attribute__((unused)) static bytes shown(markring_node *node)
{
    bytes all = image_of(node);
    markring_state state;
    uint8_t flag = 0;
    OK(markring_node_state(node, &state));
    OK(markring_node_unsaved(node, &flag));
    add_number(&all, flag, 1);
    for (uint8_t peer = 0; peer < state.nodes; peer++) {
        markring_link link;
        uint64_t number = 0;
        if (markring_node_link(node, peer, &link) != MARKRING_OK) {
            continue;
        }
        add_number(&all, link.released, 8);
        add_number(&all, link.received_saved, 8);
        add_window(&all, node, peer);
        add_number(&all, (uint64_t)markring_node_waiting(node, peer, &number), 1);
        add_number(&all, number, 8);
    }
    return all;
}

// ## Random numbers

// xorshift64*; the seed isn't 0.
__attribute__((unused)) static uint64_t draw(uint64_t *seed)
{
    *seed ^= *seed >> 12;
    *seed ^= *seed << 25;
    *seed ^= *seed >> 27;
    return *seed * UINT64_C(2685821657736338717);
}

// A number below this one.
__attribute__((unused)) static uint32_t below(uint64_t *seed, uint32_t limit)
{
    return (uint32_t)((draw(seed) >> 32) * limit >> 32);
}

#endif
