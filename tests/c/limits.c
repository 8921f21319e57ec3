// The greatest image of a plain space, larger ones of wide spaces, and a full arena of both: a node
// with as many objects as fit into 67,108,864 bytes, and then a message more. Sizes are those of
// docs/FORMATS.md ("Images").
#include "check.h"

// A new node 0 of two with one register has 11 + 95 bytes, each further register one more. In a wide
// space it has five more for the most places and bytes of an object, and each object four more for
// the length of its bytes.
enum { EMPTY = 11 + 95, REFERENCE = 13, SIZES = 1 + 4, LENGTH = 4 };
// A slot with an object, without its places; a place without and with a reference.
enum { OBJECT = 1 + 8 + 8 + 8 + 1, PLACE = 1, FULL_PLACE = 14 };
// A Give that waits, with its reference.
enum { MESSAGE = 8 + 1 + 4 + 14 };
enum { GREATEST = MARKRING_PLAIN_IMAGE };
_Static_assert(GREATEST == 67108864, "as docs/FORMATS.md says");

static const markring_shape PLAIN = {1048576, 0, 2, 2, 8, 0}, WIDE = {1048577, 0, 65535, 2, 255, 1};
// Its node has a larger image once all slots are used.
static const markring_shape MANY = {2600000, 0, 1, 2, 0, 1};

static markring_node node;
static markring_answer answer;

// Makes an object in register 1, whose places refer to itself.
static void make(uint8_t places, uint8_t filled)
{
    OK(markring_node_alloc(&node, 1, places, &answer));
    for (uint8_t place = 0; place < filled; place++) {
        OK(markring_node_store(&node, 1, place, 1, &answer));
    }
}

// Fills a node until its image has the greatest number of bytes that a plain space allows.
static void fill(const markring_shape *shape)
{
    // Two registers refer to objects at the end.
    size_t left = GREATEST - EMPTY - 2 * REFERENCE, size = 0;
    size_t object = OBJECT + shape->wide * (size_t)LENGTH;
    size_t large = object + shape->places * (size_t)FULL_PLACE;
    left -= shape->registers - 1 + shape->wide * (size_t)SIZES;
    OK(markring_node_make(&node, shape, 0, 0));
    for (; left > 10 * large; left -= large) {
        make(shape->places, shape->places);
    }
    // The rest is objects without places, and with one that is empty.
    size_t with_place = left % object, without = left / object - with_place;
    for (size_t i = 0; i < with_place; i++) {
        make(1, 0);
    }
    for (size_t i = 0; i < without; i++) {
        make(0, 0);
    }
    OK(markring_node_copy(&node, 0, 1, &answer));
    OK(markring_node_image_size(&node, &size));
    EQUAL(GREATEST, size);
}

// Saves the node, whose image has this many bytes. Returns the image.
static uint8_t *saved(size_t size)
{
    size_t needed = 0;
    uint64_t mark = 0;
    uint8_t *image = (uint8_t *)own(malloc(size));
    OK(markring_node_image_size(&node, &needed));
    EQUAL(size, needed);
    OK(markring_node_image(&node, image, size, &needed, &mark));
    EQUAL(size, needed);
    OK(markring_node_kept(&node, mark));
    return image;
}

// Saves the node, whose image has this many bytes, and reads it again.
static void read_again(size_t size)
{
    size_t needed = 0;
    uint64_t mark = 0;
    uint8_t *image = saved(size), *same = (uint8_t *)own(malloc(size));
    markring_node again = {0};
    OK(markring_node_from_image(&again, image, size, 0));
    OK(markring_node_image(&again, same, size, &needed, &mark));
    EQUAL(size, needed);
    EQUAL(0, memcmp(image, same, size));
    OK(markring_node_free(&again));
    free(same);
    free(image);
}

static void greatest_image(void)
{
    size_t needed = 77;
    uint64_t mark = 77;
    uint8_t buffer[64];
    fill(&PLAIN);
    read_again(GREATEST);

    // One letter more.
    OK(markring_node_give(&node, 1, 7, 0, &answer));
    IS(MARKRING_IMAGE_TOO_LARGE, markring_node_image_size(&node, &needed));
    IS(MARKRING_IMAGE_TOO_LARGE,
        markring_node_image(&node, buffer, sizeof buffer, &needed, &mark));
    HOLDS(needed == 77 && mark == 77);
    // The last mark is still that of the image before.
    OK(markring_node_kept(&node, 1));
    IS(MARKRING_NOTHING, markring_node_frame_at(&node, 1, 0, buffer, sizeof buffer, &needed));
    OK(markring_node_drop(&node, 0, &answer));
    IS(MARKRING_IMAGE_TOO_LARGE, markring_node_image_size(&node, &needed));
    OK(markring_node_free(&node));
}

// In a wide space a larger image is saved too, and the events after it.
static void larger_image(void)
{
    size_t size = GREATEST + MESSAGE, length = 0;
    uint64_t mark = 0;
    uint8_t buffer[64];
    fill(&WIDE);
    read_again(GREATEST);
    OK(markring_node_give(&node, 1, 7, 0, &answer));
    read_again(size);
    OK(markring_node_frame_at(&node, 1, 0, buffer, sizeof buffer, &length));

    OK(markring_node_log(&node, 1));
    uint8_t *image = saved(size);
    OK(markring_node_set_word(&node, 0, 7, &answer));
    OK(markring_node_batch(&node, buffer, sizeof buffer, &length, &mark));
    OK(markring_node_free(&node));
    OK(markring_node_from_batches(&node, image, size, buffer, length, 0));
    OK(markring_node_word(&node, 0, &answer));
    EQUAL(7, answer.number);
    OK(markring_node_free(&node));
    free(image);
}

// A cell, whose disk is in memory, with a larger image.
static void larger_cell(void)
{
    markring_space space = {0};
    markring_cell cell = {0};
    markring_state state;
    size_t size = 0, needed = 0;
    uint64_t mark = 0;
    OK(markring_space_make(&space, &MANY, 0));
    OK(open_space(&space));
    OK(markring_space_cell(&space, 0, &cell));
    for (uint32_t i = 0; i < MANY.slots; i++) {
        if (markring_cell_alloc(&cell, 0, 0, &answer) != MARKRING_OK) {
            HOLDS(0);
            break;
        }
    }
    OK(markring_cell_image_size(&cell, &size));
    HOLDS(size > GREATEST);
    uint8_t *image = (uint8_t *)own(malloc(size));
    OK(markring_cell_image(&cell, image, size, &needed, &mark));
    OK(markring_cell_save(&cell, mark));
    OK(markring_cell_reopen(&cell));
    OK(markring_cell_state(&cell, &state));
    EQUAL(MANY.slots, state.live);
    OK(markring_cell_free(&cell));
    OK(markring_space_free(&space));
    // A space continues from it.
    OK(markring_space_make(&space, &MANY, 0));
    OK(markring_space_disk(&space, 0, image, size));
    OK(open_space(&space));
    OK(markring_space_free(&space));
    free(image);
}

static void full_arena(const markring_shape *shape)
{
    markring_state state;
    OK(markring_node_make(&node, shape, 0, 0));
    for (uint32_t slot = 0; slot < shape->slots; slot++) {
        if (markring_node_alloc(&node, 0, 0, &answer) != MARKRING_OK
            || answer.reference.slot != slot) {
            HOLDS(0);
            break;
        }
    }
    IS(MARKRING_ARENA_FULL, markring_node_alloc(&node, 0, 0, &answer));
    OK(markring_node_state(&node, &state));
    EQUAL(shape->slots, state.live);
    OK(markring_node_free(&node));
}

int main(void)
{
    greatest_image();
    larger_image();
    larger_cell();
    full_arena(&PLAIN);
    full_arena(&WIDE);
    return report();
}
