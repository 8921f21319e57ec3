// Bad input: empty and freed handles, arguments out of range, damaged images and frames, images of
// other nodes. Each call returns the right status, and changes nothing.
//
//     hostile SEED IMAGES
#include "check.h"
#include "refuse.h"

// Bytes that no call writes.
static uint8_t buffer[4096], clean[4096];

static void blot_buffer(void)
{
    memset(buffer, 0xA5, sizeof buffer);
    memset(clean, 0xA5, sizeof clean);
}

// All calls of an empty handle, with pointers to one buffer, which isn't written to.
#define NONE(call) \
    do { \
        IS(MARKRING_NO_HANDLE, (call)); \
        HOLDS(memcmp(buffer, clean, sizeof buffer) == 0); \
        HOLDS(at->at == NULL); \
    } while (0)

#define TO(type) ((type *)(void *)(buffer + 1024))

// A reference that no answer shows.
static const markring_ref named = {0, 0, 1};

#define NONE_OF_BOTH(type) \
    NONE(markring_##type##_free(at)); \
    NONE(markring_##type##_alloc(at, 0, 0, answer)); \
    NONE(markring_##type##_copy(at, 0, 0, answer)); \
    NONE(markring_##type##_drop(at, 0, answer)); \
    NONE(markring_##type##_load(at, 0, 0, 0, answer)); \
    NONE(markring_##type##_store(at, 0, 0, 0, answer)); \
    NONE(markring_##type##_clear(at, 0, 0, answer)); \
    NONE(markring_##type##_word(at, 0, answer)); \
    NONE(markring_##type##_set_word(at, 0, 0, answer)); \
    NONE(markring_##type##_set_bytes(at, 0, clean, 1, answer)); \
    NONE(markring_##type##_patch(at, 0, 0, clean, 1, answer)); \
    NONE(markring_##type##_bytes(at, 0, 0, 1, buffer, 512, TO(size_t))); \
    NONE(markring_##type##_bytes_length(at, 0, TO(uint32_t))); \
    NONE(markring_##type##_give(at, 1, 0, 0, answer)); \
    NONE(markring_##type##_post(at, 1, 0, 0, 1, clean, 1, answer)); \
    NONE(markring_##type##_accept(at, 0, answer)); \
    NONE(markring_##type##_letter(at, answer)); \
    NONE(markring_##type##_letter_bytes(at, buffer, 512, TO(size_t))); \
    NONE(markring_##type##_accept_into(at, 0, buffer, 512, TO(size_t), answer + 1)); \
    NONE(markring_##type##_put(at, 0, 0, 0, answer)); \
    NONE(markring_##type##_get(at, 0, 0, 0, answer)); \
    NONE(markring_##type##_fetch(at, 0, 0, 0, 0, answer)); \
    NONE(markring_##type##_resolve(at, 0, &named, answer)); \
    NONE(markring_##type##_reclaim(at, answer)); \
    NONE(markring_##type##_reclaim_young(at, answer)); \
    NONE(markring_##type##_begin(at, answer)); \
    NONE(markring_##type##_scan(at, answer)); \
    NONE(markring_##type##_pass(at, answer)); \
    NONE(markring_##type##_sweep(at, 1, answer)); \
    NONE(markring_##type##_next(at, 1, answer)); \
    NONE(markring_##type##_work(at, 1, 1, TO(markring_work))); \
    NONE(markring_##type##_act(at, &event, answer)); \
    NONE(markring_##type##_image_size(at, TO(size_t))); \
    NONE(markring_##type##_image(at, buffer, 512, TO(size_t), TO(uint64_t) + 1)); \
    NONE(markring_##type##_state(at, TO(markring_state))); \
    NONE(markring_##type##_link(at, 1, TO(markring_link))); \
    NONE(markring_##type##_register(at, 0, TO(markring_ref))); \
    NONE(markring_##type##_slots(at, TO(uint32_t))); \
    NONE(markring_##type##_object(at, 0, TO(markring_object))); \
    NONE(markring_##type##_place(at, 0, 0, TO(markring_ref))); \
    NONE(markring_##type##_bytes_at(at, 0, 0, 1, buffer, 512, TO(size_t))); \
    NONE(markring_##type##_unsaved(at, buffer))

static void no_node(markring_node *at)
{
    markring_answer *answer = TO(markring_answer);
    markring_event event = {0};
    event.kind = MARKRING_EVENT_BEGIN;
    blot_buffer();
    NONE_OF_BOTH(node);
    NONE(markring_node_take(at, clean, 11, answer));
    NONE(markring_node_frame_at(at, 1, 0, buffer, 512, TO(size_t)));
    NONE(markring_node_ack_for(at, 1, buffer, 512, TO(size_t)));
    NONE(markring_node_frames(at, 1, 0, buffer, 512, TO(size_t), TO(size_t) + 1));
    NONE(markring_node_kept(at, 1));
    NONE(markring_node_release(at));
    NONE(markring_node_log(at, 1));
    NONE(markring_node_batch_size(at, TO(size_t)));
    NONE(markring_node_batch(at, buffer, 512, TO(size_t), TO(uint64_t) + 1));
    NONE(markring_node_waiting(at, 1, TO(uint64_t)));
}

static void no_cell(markring_cell *at)
{
    markring_answer *answer = TO(markring_answer);
    markring_event event = {0};
    event.kind = MARKRING_EVENT_BEGIN;
    blot_buffer();
    NONE_OF_BOTH(cell);
    NONE(markring_cell_receive(at, 1, answer));
    NONE(markring_cell_send(at, 1, buffer));
    NONE(markring_cell_save(at, 1));
    NONE(markring_cell_reopen(at));
    NONE(markring_cell_raise(at, TO(uint64_t)));
}

static void no_watch(markring_watch *at)
{
    blot_buffer();
    NONE(markring_watch_look(at, TO(uint64_t)));
    NONE(markring_watch_free(at));
}

static void no_space(markring_space *at)
{
    markring_cell cell = {0};
    markring_watch watch = {0};
    blot_buffer();
    NONE(markring_space_disk(at, 0, clean, 8));
    NONE(open_space(at));
    NONE(markring_space_cell(at, 0, &cell));
    NONE(markring_space_watch(at, &watch));
    NONE(markring_space_free(at));
    HOLDS(cell.at == NULL && watch.at == NULL);
}

static void empty_spaces(void)
{
    markring_space space = {0};
    markring_cell cell = {0};
    markring_watch watch = {0};
    for (int twice = 0; twice < 2; twice++) {
        no_space(&space);
        no_cell(&cell);
        no_watch(&watch);
        OK(markring_space_new(&space, 2, 1, 1, 1));
        OK(open_space(&space));
        OK(markring_space_cell(&space, 0, &cell));
        OK(markring_space_watch(&space, &watch));
        OK(markring_space_free(&space));
        OK(markring_cell_free(&cell));
        OK(markring_watch_free(&watch));
        HOLDS(space.at == NULL && cell.at == NULL && watch.at == NULL);
    }
}

// A space with the sizes of a node, which are tested in the same way.
static void space_of(uint8_t nodes, uint16_t registers, uint32_t slots, int status)
{
    markring_space space = {0};
    IS(status, markring_space_new(&space, nodes, registers, slots, 0));
    HOLDS((space.at != NULL) == (status == MARKRING_OK));
    if (space.at != NULL) {
        IS(MARKRING_IN_USE, markring_space_new(&space, 1, 1, 1, 0));
        OK(markring_space_free(&space));
    }
}

// Never filled, and freed.
static void empty_handles(void)
{
    markring_node node = {0};
    for (int twice = 0; twice < 2; twice++) {
        no_node(&node);
        OK(markring_node_new(&node, 2, 1, 1, 0, 0));
        OK(markring_node_free(&node));
        HOLDS(node.at == NULL);
    }
}

// Sizes of nodes and spaces, in the order of the tests, and handles that are full.
static void sizes(void)
{
    static const struct {
        uint8_t nodes;
        uint16_t registers;
        uint32_t slots;
        uint8_t own;
        int status;
    } CASES[] = {
        {0, 1, 1, 0, MARKRING_BAD_ARGUMENT},
        {1, 1, 1, 0, MARKRING_BAD_ARGUMENT},
        {65, 1, 1, 0, MARKRING_BAD_ARGUMENT},
        {255, 1, 1, 0, MARKRING_BAD_ARGUMENT},
        {2, 0, 1, 0, MARKRING_BAD_ARGUMENT},
        {2, 257, 1, 0, MARKRING_BAD_ARGUMENT},
        {2, 65535, 1, 0, MARKRING_BAD_ARGUMENT},
        {2, 1, 0, 0, MARKRING_BAD_ARGUMENT},
        {2, 1, 1048577, 0, MARKRING_BAD_ARGUMENT},
        {2, 1, UINT32_MAX, 0, MARKRING_BAD_ARGUMENT},
        {2, 1, 0, 9, MARKRING_BAD_ARGUMENT},
        {2, 1, 1, 2, MARKRING_NO_NODE},
        {64, 256, 1048576, 64, MARKRING_NO_NODE},
        {64, 256, 1048576, 255, MARKRING_NO_NODE},
        {64, 256, 1048576, 63, MARKRING_OK},
        {2, 1, 1, 1, MARKRING_OK},
    };
    for (size_t i = 0; i < sizeof CASES / sizeof *CASES; i++) {
        markring_node node = {0};
        IS(CASES[i].status, markring_node_new(&node, CASES[i].nodes, CASES[i].registers,
            CASES[i].slots, CASES[i].own, 0));
        HOLDS((node.at != NULL) == (CASES[i].status == MARKRING_OK));
        int status = CASES[i].status == MARKRING_NO_NODE ? MARKRING_OK : CASES[i].status;
        space_of(CASES[i].nodes, CASES[i].registers, CASES[i].slots, status);
        if (node.at != NULL) {
            void *before = node.at;
            IS(MARKRING_IN_USE, markring_node_new(&node, 1, 1, 1, 0, 0));
            IS(MARKRING_IN_USE, markring_node_from_image(&node, clean, 3, 0));
            IS(MARKRING_IN_USE, markring_node_from_batches(&node, clean, 3, clean, 3, 0));
            HOLDS(node.at == before);
            OK(markring_node_free(&node));
        }
    }
}

static void shapes_of_space(const markring_shape *shape, int status)
{
    markring_space space = {0};
    markring_cell cell = {0};
    IS(status, markring_space_make(&space, shape, 0));
    HOLDS((space.at != NULL) == (status == MARKRING_OK));
    if (space.at == NULL) {
        return;
    }
    markring_state state;
    IS(MARKRING_IN_USE, markring_space_make(&space, shape, 0));
    OK(open_space(&space));
    OK(markring_space_cell(&space, 1, &cell));
    OK(markring_cell_state(&cell, &state));
    HOLDS(state.slots == shape->slots && state.registers == shape->registers);
    HOLDS(state.places == shape->places && state.wide == shape->wide);
    HOLDS(state.bytes == shape->bytes);
    OK(markring_cell_free(&cell));
    OK(markring_space_free(&space));
}

// Shapes of both kinds at, below and above each limit, in the order of the tests.
static void shapes(void)
{
    // The fields of a shape in order, the node's number, and the status.
    static const struct {
        markring_shape shape;
        uint8_t own;
        int status;
    } CASES[] = {
        // plain: nodes, registers, slots, places
        {{1, 0, 1, 2, 8, 0}, 0, MARKRING_OK},
        {{1, 0, 1, 0, 8, 0}, 0, MARKRING_BAD_ARGUMENT},
        {{1, 0, 1, 1, 8, 0}, 0, MARKRING_BAD_ARGUMENT},
        {{1, 0, 1, 65, 8, 0}, 0, MARKRING_BAD_ARGUMENT},
        {{1, 0, 0, 2, 8, 0}, 0, MARKRING_BAD_ARGUMENT},
        {{1, 0, 257, 2, 8, 0}, 0, MARKRING_BAD_ARGUMENT},
        {{0, 0, 1, 2, 8, 0}, 0, MARKRING_BAD_ARGUMENT},
        {{1048577, 0, 1, 2, 8, 0}, 0, MARKRING_BAD_ARGUMENT},
        {{1, 0, 1, 2, 0, 0}, 0, MARKRING_BAD_ARGUMENT},
        {{1, 0, 1, 2, 7, 0}, 0, MARKRING_BAD_ARGUMENT},
        {{1, 0, 1, 2, 9, 0}, 0, MARKRING_BAD_ARGUMENT},
        {{1, 0, 1, 2, 255, 0}, 0, MARKRING_BAD_ARGUMENT},
        {{1048576, 0, 256, 64, 8, 0}, 63, MARKRING_OK},
        {{1048576, 0, 256, 64, 8, 0}, 64, MARKRING_NO_NODE},
        // wide
        {{1, 0, 1, 2, 0, 1}, 1, MARKRING_OK},
        {{1, 0, 1, 2, 0, 1}, 2, MARKRING_NO_NODE},
        {{1, 0, 1, 2, 8, 1}, 0, MARKRING_OK},
        {{1, 0, 1, 2, 9, 1}, 0, MARKRING_OK},
        {{1, 0, 1, 1, 9, 1}, 0, MARKRING_BAD_ARGUMENT},
        {{1, 0, 1, 65, 9, 1}, 0, MARKRING_BAD_ARGUMENT},
        {{1, 0, 0, 2, 9, 1}, 0, MARKRING_BAD_ARGUMENT},
        {{1, 0, 257, 2, 9, 1}, 0, MARKRING_OK},
        {{0, 0, 1, 2, 9, 1}, 0, MARKRING_BAD_ARGUMENT},
        {{1048577, 0, 1, 2, 9, 1}, 0, MARKRING_OK},
        {{16777217, 0, 1, 2, 9, 1}, 0, MARKRING_BAD_ARGUMENT},
        {{UINT32_MAX, 0, 1, 2, 9, 1}, 0, MARKRING_BAD_ARGUMENT},
        {{16777216, 0, 65535, 64, 255, 1}, 63, MARKRING_OK},
        {{16777216, 0, 65535, 64, 255, 1}, 64, MARKRING_NO_NODE},
        {{16777217, 0, 65535, 64, 255, 1}, 64, MARKRING_BAD_ARGUMENT},
        // no kind, and bytes
        {{1, 0, 1, 2, 8, 2}, 0, MARKRING_BAD_ARGUMENT},
        {{1, 0, 1, 2, 8, 255}, 0, MARKRING_BAD_ARGUMENT},
        {{1, 1, 1, 2, 8, 0}, 0, MARKRING_BAD_ARGUMENT},
        {{1, 1, 1, 2, 8, 1}, 0, MARKRING_OK},
        {{1, 16777216, 1, 2, 8, 1}, 0, MARKRING_OK},
        {{1, 16777217, 1, 2, 8, 1}, 0, MARKRING_BAD_ARGUMENT},
        {{1, UINT32_MAX, 1, 2, 8, 1}, 0, MARKRING_BAD_ARGUMENT},
    };
    for (size_t i = 0; i < sizeof CASES / sizeof *CASES; i++) {
        const markring_shape *shape = &CASES[i].shape;
        int status = CASES[i].status;
        markring_node node = {0};
        markring_state state;
        IS(status, markring_node_make(&node, shape, CASES[i].own, 0));
        HOLDS((node.at != NULL) == (status == MARKRING_OK));
        shapes_of_space(shape, status == MARKRING_NO_NODE ? MARKRING_OK : status);
        if (node.at != NULL) {
            static const markring_shape WRONG = {0};
            void *before = node.at;
            IS(MARKRING_IN_USE, markring_node_make(&node, &WRONG, 0, 0));
            HOLDS(node.at == before);
            OK(markring_node_state(&node, &state));
            HOLDS(state.nodes == shape->nodes && state.own == CASES[i].own);
            HOLDS(state.slots == shape->slots && state.registers == shape->registers);
            HOLDS(state.places == shape->places && state.wide == shape->wide);
            HOLDS(state.bytes == shape->bytes);
            OK(markring_node_free(&node));
        }
    }
}

// The image of a node of a wide space is read again, and has its shape; so is one with a log, by
// its batches.
static void wide_images(void)
{
    static const markring_shape SHAPE = {2000000, 0, 65535, 2, 255, 1};
    static const uint8_t none[1] = {0};
    markring_node node = {0}, again = {0};
    markring_answer answer;
    markring_state state;
    OK(markring_node_make(&node, &SHAPE, 0, 0));
    OK(markring_node_alloc(&node, 65534, 255, &answer));
    IS(MARKRING_NO_REGISTER, markring_node_alloc(&node, 65535, 255, &answer));
    OK(markring_node_store(&node, 65534, 254, 65534, &answer));
    IS(MARKRING_NO_FIELD, markring_node_store(&node, 65534, 255, 65534, &answer));
    for (int logs = 0; logs < 2; logs++) {
        OK(markring_node_log(&node, (uint8_t)logs));
        bytes image = image_of(&node);
        EQUAL(4 + (uint64_t)logs, image.at[2]);
        EQUAL(255, image.at[3]);
        if (logs) {
            IS(MARKRING_BAD_IMAGE,
                markring_node_from_image(&again, image.at, image.length, 0));
            OK(markring_node_from_batches(&again, image.at, image.length, none, 0, 0));
        } else {
            OK(markring_node_from_image(&again, image.at, image.length, 0));
        }
        OK(markring_node_state(&again, &state));
        HOLDS(state.slots == 2000000 && state.registers == 65535 && state.places == 255);
        HOLDS(state.wide == 1 && state.live == 1);
        OK(markring_node_load(&again, 0, 65534, 254, &answer));
        EQUAL(1, answer.reference.generation);
        OK(markring_node_free(&again));
        drop_bytes(&image);
    }
    OK(markring_node_free(&node));
}

// The calls with bytes, of a node or of a cell: of a wide space, whose objects have at most 10
// bytes, or of a plain one, whose objects have none. Register 0 has an object, 1 is empty, 2 refers
// to an object of the other node, and there is no register 3.
#define BYTES_OF(type) \
    static void bytes_of_##type(markring_##type *at, int is_wide) \
    { \
        static const int STATUS[] = {MARKRING_OK, MARKRING_EMPTY_REGISTER, MARKRING_REMOTE, \
            MARKRING_NO_REGISTER, MARKRING_NO_REGISTER}; \
        static const uint16_t REGISTER[] = {0, 1, 2, 3, 65535}; \
        const uint8_t *all = (const uint8_t *)"0123456789A"; \
        markring_answer answer; \
        uint32_t most = is_wide ? 10 : 0, length = 77; \
        int too_many = MARKRING_TOO_MANY_BYTES; \
        for (int i = 0; i < 5; i++) { \
            int status = STATUS[i]; \
            uint16_t reg = REGISTER[i]; \
            size_t needed = 77; \
            int written = status == MARKRING_OK && !is_wide ? too_many : status; \
            int beyond = status == MARKRING_OK ? MARKRING_NO_BYTES : status; \
            int too_short = status == MARKRING_OK && is_wide ? MARKRING_SHORT_BUFFER : beyond; \
            blot(&answer); \
            blot_buffer(); \
            IS(written == MARKRING_OK ? too_many : written, \
                markring_##type##_set_bytes(at, reg, all, 11, &answer)); \
            IS(beyond, markring_##type##_patch(at, reg, 8, all, 3, &answer)); \
            IS(beyond, markring_##type##_patch(at, reg, 11, all, 0, &answer)); \
            IS(beyond, markring_##type##_patch(at, reg, UINT32_MAX, all, 2, &answer)); \
            HOLDS(is_blotted(&answer)); \
            IS(written, markring_##type##_set_bytes(at, reg, all, 10, &answer)); \
            written = status == MARKRING_OK && !is_wide ? MARKRING_NO_BYTES : status; \
            IS(written, markring_##type##_patch(at, reg, 2, all, 8, &answer)); \
            IS(beyond, markring_##type##_bytes(at, reg, 0, most + 1, buffer, 9, &needed)); \
            IS(beyond, markring_##type##_bytes(at, reg, 11, 0, buffer, 9, &needed)); \
            IS(beyond, markring_##type##_bytes(at, reg, UINT32_MAX, 2, buffer, 9, &needed)); \
            EQUAL(77, needed); \
            IS(too_short, markring_##type##_bytes(at, reg, 0, 10, buffer, 9, &needed)); \
            EQUAL(too_short == MARKRING_SHORT_BUFFER ? 10 : 77, needed); \
            HOLDS(memcmp(buffer, clean, sizeof buffer) == 0); \
            IS(status, markring_##type##_bytes(at, reg, 0, most, buffer, most, &needed)); \
            HOLDS(memcmp(buffer, status == MARKRING_OK ? all : clean, most / 5) == 0); \
            HOLDS(memcmp(buffer + 2, status == MARKRING_OK ? all : clean, most - most / 5) == 0); \
            HOLDS(memcmp(buffer + most, clean, sizeof buffer - most) == 0); \
            length = 77; \
            IS(status, markring_##type##_bytes_length(at, reg, &length)); \
            EQUAL(status == MARKRING_OK ? most : 77, length); \
        } \
    }

BYTES_OF(node)
BYTES_OF(cell)

// A call about objects that is refused, and writes nothing.
#define REFUSED(status, call) \
    do { \
        IS((status), (call)); \
        HOLDS(memcmp(buffer, clean, sizeof buffer) == 0); \
    } while (0)

// Looks at the objects of that node or cell: one in slot 0, and no other slot was used. Its node
// then begins a cycle, after one more object was made, to which nothing refers.
#define OBJECTS_OF(type) \
    static void objects_of_##type(markring_##type *at, int is_wide) \
    { \
        static const uint32_t UNUSED[] = {1, 3, 4, 5, UINT32_MAX}; \
        const uint8_t *all = (const uint8_t *)"0101234567"; \
        markring_object it = {0}; \
        markring_ref held = {7, 7, 7}; \
        markring_answer answer; \
        uint32_t most = is_wide ? 10 : 0, slots = 77; \
        size_t needed = 77; \
        OK(markring_##type##_slots(at, &slots)); \
        EQUAL(1, slots); \
        OK(markring_##type##_set_word(at, 0, UINT64_MAX - 1, &answer)); \
        OK(markring_##type##_object(at, 0, &it)); \
        HOLDS(same_ref(it.reference, (markring_ref){0, 0, 1}) && it.word == UINT64_MAX - 1); \
        HOLDS(it.bytes == most && it.places == 1 && it.marked == 1 && it.shared == !is_wide); \
        EQUAL(is_wide ? MARKRING_YOUNG : MARKRING_OLD, it.age); \
        OK(markring_##type##_place(at, 0, 0, &held)); \
        HOLDS(same_ref(held, (markring_ref){0, 0, 0})); \
        OK(markring_##type##_store(at, 0, 0, 2, &answer)); \
        OK(markring_##type##_place(at, 0, 0, &held)); \
        HOLDS(same_ref(held, (markring_ref){1, 0, 1})); \
        blot_buffer(); \
        OK(markring_##type##_bytes_at(at, 0, 0, most, buffer, most, &needed)); \
        HOLDS(needed == most && memcmp(buffer, all, most) == 0); \
        HOLDS(memcmp(buffer + most, clean, sizeof buffer - most) == 0); \
        OK(markring_##type##_bytes_at(at, 0, most / 2, most / 5, buffer, 9, &needed)); \
        HOLDS(needed == most / 5 && memcmp(buffer, all + most / 2, most / 5) == 0); \
        blot_buffer(); \
        needed = 77; \
        for (int i = 0; i < 5; i++) { \
            REFUSED(MARKRING_NOTHING, \
                markring_##type##_object(at, UNUSED[i], TO(markring_object))); \
            REFUSED(MARKRING_NOTHING, \
                markring_##type##_place(at, UNUSED[i], 0, TO(markring_ref))); \
            REFUSED(MARKRING_NOTHING, \
                markring_##type##_bytes_at(at, UNUSED[i], 0, 0, buffer, 9, &needed)); \
        } \
        REFUSED(MARKRING_NO_FIELD, markring_##type##_place(at, 0, 1, TO(markring_ref))); \
        REFUSED(MARKRING_NO_FIELD, markring_##type##_place(at, 0, 255, TO(markring_ref))); \
        REFUSED(MARKRING_NO_BYTES, \
            markring_##type##_bytes_at(at, 0, 1, most, buffer, 9, &needed)); \
        REFUSED(MARKRING_NO_BYTES, \
            markring_##type##_bytes_at(at, 0, UINT32_MAX, 2, buffer, 9, &needed)); \
        EQUAL(77, needed); \
        if (is_wide) { \
            REFUSED(MARKRING_SHORT_BUFFER, \
                markring_##type##_bytes_at(at, 0, 0, 10, buffer, 9, &needed)); \
            EQUAL(10, needed); \
        } \
        OK(markring_##type##_alloc(at, 1, 0, &answer)); \
        OK(markring_##type##_drop(at, 1, &answer)); \
        OK(markring_##type##_begin(at, &answer)); \
        OK(markring_##type##_slots(at, &slots)); \
        EQUAL(2, slots); \
        for (uint32_t slot = 0; slot < 2; slot++) { \
            OK(markring_##type##_object(at, slot, &it)); \
            HOLDS(it.reference.slot == slot && it.marked == (slot == 0)); \
        } \
    }

OBJECTS_OF(node)
OBJECTS_OF(cell)

static void object_bytes(void)
{
    for (uint8_t is_wide = 0; is_wide < 2; is_wide++) {
        markring_shape shape = {4, is_wide ? 10 : 0, 3, 2, 8, is_wide};
        markring_node node = {0};
        markring_space space = {0};
        markring_cell cell = {0}, other = {0};
        markring_answer answer;
        uint8_t sent = 0;
        size_t needed = 0;
        uint64_t mark = 0;
        OK(markring_node_make(&node, &shape, 0, 0));
        OK(markring_node_alloc(&node, 0, 1, &answer));
        // A letter of node 1 with a reference to its object 1.0.1.
        static const uint8_t LETTER[38] = {0x45, 1, 0, 0, 0, 0, 0, 0, 0, 0, 1, 0, 0, 0, 0, 0, 0, 0,
            0, 4, 0, 0, 0, 7, 1, 1, 0, 0, 0, 0, 0, 0, 0, 0, 0, 0, 0, 1};
        OK(markring_node_take(&node, LETTER, sizeof LETTER, &answer));
        OK(markring_node_accept(&node, 2, &answer));
        bytes_of_node(&node, is_wide);
        objects_of_node(&node, is_wide);
        OK(markring_node_free(&node));
        OK(markring_space_make(&space, &shape, 0));
        OK(open_space(&space));
        OK(markring_space_cell(&space, 0, &cell));
        OK(markring_space_cell(&space, 1, &other));
        OK(markring_space_free(&space));
        OK(markring_cell_alloc(&cell, 0, 1, &answer));
        OK(markring_cell_alloc(&other, 0, 1, &answer));
        OK(markring_cell_give(&other, 0, 7, 0, &answer));
        OK(markring_cell_image(&other, buffer, sizeof buffer, &needed, &mark));
        OK(markring_cell_save(&other, mark));
        OK(markring_cell_send(&other, 0, &sent));
        OK(markring_cell_receive(&cell, 1, &answer));
        OK(markring_cell_accept(&cell, 2, &answer));
        bytes_of_cell(&cell, is_wide);
        objects_of_cell(&cell, is_wide);
        OK(markring_cell_free(&cell));
        OK(markring_cell_free(&other));
    }
}

// A frame, which is given to the node.
static void give_frame(markring_node *node, const char *hexadecimal)
{
    bytes frame = {0};
    unsigned byte;
    markring_answer answer;
    for (; sscanf(hexadecimal, "%2X", &byte) == 1; hexadecimal += 2) {
        add_number(&frame, byte, 1);
    }
    OK(markring_node_take(node, frame.at, frame.length, &answer));
    EQUAL(MARKRING_ANSWER_RECEIVED, answer.kind);
    drop_bytes(&frame);
}

// Node 1 of three in cycle 1, with objects, a grey one, letters, and messages to both others.
static void make_busy(markring_node *node)
{
    markring_answer answer;
    OK(markring_node_new(node, 3, 4, 8, 1, 0));
    OK(markring_node_alloc(node, 0, 8, &answer));
    OK(markring_node_alloc(node, 1, 2, &answer));
    OK(markring_node_store(node, 0, 3, 1, &answer));
    OK(markring_node_set_word(node, 1, UINT64_C(0x0123456789ABCDEF), &answer));
    OK(markring_node_give(node, 0, 7, 1, &answer));
    OK(markring_node_give(node, 2, 8, 3, &answer));
    // Letters of node 0: with the reference 2.5.9, and without one. Then a Begin of cycle 1.
    give_frame(node, "450001" "0000000000000001" "0000000000000000" "04" "00000007"
        "01" "02" "00000005" "0000000000000009");
    give_frame(node, "450001" "0000000000000002" "0000000000000000" "04" "00000008" "00");
    give_frame(node, "450001" "0000000000000003" "0000000000000001" "01");
    OK(markring_node_accept(node, 2, &answer));
    OK(markring_node_put(node, 2, 0, 1, &answer));
    OK(markring_node_get(node, 2, 1, 5, &answer));
    OK(markring_node_scan(node, &answer));
}

// Every event with every number out of range and at its edges.
static void events(void)
{
    static const uint16_t REGISTERS[] = {0, 1, 2, 3, 4, 255, 256, 65535};
    static const uint8_t PLACES[] = {0, 1, 2, 7, 8, 9, 255};
    static const uint8_t NODES[] = {0, 1, 2, 3, 63, 64, 255};
    markring_node node = {0};
    markring_event event;
    markring_answer answer;
    make_busy(&node);
    bytes before = shown(&node);
    for (int kind = 0; kind < 256; kind++) {
        if ((kind >= MARKRING_EVENT_ALLOC && kind <= MARKRING_EVENT_NEXT)
            || kind == MARKRING_EVENT_RECLAIM || kind == MARKRING_EVENT_RECLAIM_YOUNG
            || kind == MARKRING_EVENT_RESOLVE) {
            continue;
        }
        memset(&event, 0, sizeof event);
        event.kind = (uint8_t)kind;
        blot(&answer);
        IS(MARKRING_BAD_ARGUMENT, markring_node_act(&node, &event, &answer));
        HOLDS(is_blotted(&answer));
    }
    for (int i = 0; i < 19 * 8 * 8 * 7 * 7; i++) {
        // (no event has the kinds 18 and 19)
        int draw = i / 19, kind = i % 19 + 1;
        memset(&event, 0, sizeof event);
        event.kind = (uint8_t)(kind > MARKRING_EVENT_NEXT ? kind + 2 : kind);
        event.reg = REGISTERS[draw % 8];
        event.source = event.object = REGISTERS[draw / 8 % 8];
        event.place = PLACES[draw / 64 % 7];
        event.node = NODES[draw / 448 % 7];
        event.label = event.count = UINT32_MAX;
        event.word = UINT64_MAX;
        blot(&answer);
        int status = markring_node_act(&node, &event, &answer);
        HOLDS(status >= MARKRING_OK && status <= MARKRING_NOTHING_TO_DO);
        HOLDS(status != MARKRING_MEMORY);
        // A register, a node or a place out of range is refused.
        int uses_reg = strchr("\1\2\3\4\5\11\12\13", event.kind) != NULL;
        int uses_object = strchr("\2\4\5\6\7\10\13\14", event.kind) != NULL;
        int uses_place = strchr("\4\5\6\13\14", event.kind) != NULL;
        int uses_node = event.kind == MARKRING_EVENT_GIVE || event.kind == MARKRING_EVENT_NEXT;
        if ((uses_reg && event.reg >= 4) || (uses_object && event.object >= 4)) {
            HOLDS(status == MARKRING_NO_REGISTER || status == MARKRING_NO_NODE
                || status == MARKRING_SELF_SEND);
        }
        HOLDS(!(uses_place && event.place >= 8) || status != MARKRING_OK);
        HOLDS(!(event.kind == MARKRING_EVENT_ALLOC && event.place > 8) || status != MARKRING_OK);
        if (uses_node && event.node >= 3) {
            EQUAL(MARKRING_NO_NODE, (uint64_t)status);
        }
        if (status == MARKRING_OK) {
            // Back to the node as it was.
            OK(markring_node_free(&node));
            make_busy(&node);
        } else {
            HOLDS(is_blotted(&answer));
            if (i % 64 == 0) {
                bytes after = shown(&node);
                HOLDS(same_bytes(&before, &after));
                drop_bytes(&after);
            }
        }
    }
    OK(markring_node_free(&node));
    drop_bytes(&before);
}

// Changes some bytes, cuts some off, puts some in, or exchanges two parts.
static void damage(uint64_t *seed, bytes *it)
{
    for (uint32_t times = 1 + below(seed, 3); times > 0; times--) {
        size_t at = below(seed, (uint32_t)it->length);
        switch (below(seed, 6)) {
        case 0: it->at[at] ^= (uint8_t)(1 << below(seed, 8)); break;
        case 1: it->at[at] = (uint8_t)draw(seed); break;
        case 2: it->at[at] = below(seed, 2) != 0 ? 0xFF : 0; break;
        case 3: it->length = at + 1; break;
        case 4: {
            uint8_t byte = (uint8_t)draw(seed);
            add(it, &byte, 1);
            memmove(it->at + at + 1, it->at + at, it->length - at - 1);
            it->at[at] = byte;
            break;
        }
        default: {
            size_t other = below(seed, (uint32_t)it->length);
            size_t length = it->length - (at > other ? at : other);
            length = length > 8 ? 8 : length;
            memmove(it->at + at, it->at + other, length);
        }
        }
    }
}

// Node 0 of two of a wide space while it marks in cycle 1, with letters, messages, and objects that
// have bytes.
static void make_wide(markring_node *node)
{
    static const markring_shape SHAPE = {4, 20, 2, 2, 9, 1};
    markring_answer answer;
    OK(markring_node_make(node, &SHAPE, 0, 0));
    OK(markring_node_alloc(node, 0, 9, &answer));
    OK(markring_node_set_bytes(node, 0, (const uint8_t *)"0123456789", 10, &answer));
    OK(markring_node_alloc(node, 1, 1, &answer));
    OK(markring_node_store(node, 0, 8, 1, &answer));
    OK(markring_node_give(node, 1, 7, 0, &answer));
    OK(markring_node_begin(node, &answer));
    OK(markring_node_alloc(node, 0, 0, &answer));
    OK(markring_node_set_bytes(node, 0, (const uint8_t *)"\1\0", 2, &answer));
    give_frame(node, "450100" "0000000000000001" "0000000000000001" "04" "00000007"
        "01" "01" "00000003" "0000000000000009");
    // A letter with the reference 0.1.1, nothing, and 1.3.9, and the bytes 1 and 2.
    give_frame(node, "460100" "0000000000000002" "0000000000000001" "09" "00000008" "03"
        "01" "00" "00000001" "0000000000000001" "00"
        "01" "01" "00000003" "0000000000000009" "00000002" "0102");
    OK(markring_node_post(node, 1, 9, 0, 2, (const uint8_t *)"abc", 3, &answer));
}

static unsigned long spelled, unspelled;

// What reading these bytes as an image of this version gives: BAD_IMAGE, or the one node that they
// spell. It takes no more memory than for what is there, and for the first block of slots.
static void read_again(const bytes *it, size_t length, int version)
{
    enum { FOR_ALL = 1 << 17 };
    markring_node node = {0};
    // A block of this length, so that reading beyond it shows.
    uint8_t *exact = (uint8_t *)own(malloc(length + 1));
    memcpy(exact + 1, it->at, length);
    largest = 0;
    within = 1;
    int status = version == 4
        ? markring_node_from_image(&node, exact + 1, length, 0)
        : markring_node_from_batches(&node, exact + 1, length, clean, 0, 0);
    within = 0;
    HOLDS(largest < FOR_ALL);
    HOLDS(status == MARKRING_OK || status == MARKRING_BAD_IMAGE);
    HOLDS((node.at != NULL) == (status == MARKRING_OK));
    if (status == MARKRING_OK) {
        bytes again = image_of(&node);
        // (An image of version 4 is read, too, if there are no batches. The node then has a log.)
        exact[3] = version == 5 && exact[3] == 4 ? 5 : exact[3];
        HOLDS(again.length == length && memcmp(again.at, exact + 1, length) == 0);
        drop_bytes(&again);
        OK(markring_node_free(&node));
    }
    spelled += status == MARKRING_OK;
    unspelled += status != MARKRING_OK;
    free(exact);
}

// Images of both versions of a wide space with each byte changed to each other value (or, if there
// is little time, in each bit), cut at each length, and with a byte too many.
static void each_byte(int has_time)
{
    for (int version = 4; version <= 5; version++) {
        markring_node node = {0};
        make_wide(&node);
        OK(markring_node_log(&node, version == 5));
        bytes image = image_of(&node);
        EQUAL((uint64_t)version, image.at[2]);
        OK(markring_node_free(&node));
        spelled = unspelled = 0;
        read_again(&image, image.length, version);
        EQUAL(1, spelled);
        for (size_t at = 0; at < image.length; at++) {
            uint8_t right = image.at[at];
            for (int i = 1; i < 256; i = has_time ? i + 1 : 2 * i) {
                image.at[at] = (uint8_t)(right ^ i);
                read_again(&image, image.length, version);
            }
            image.at[at] = right;
        }
        // A word, for example, may have any value; a count may not.
        HOLDS(spelled > image.length && unspelled > image.length);
        unsigned long before = spelled;
        for (size_t length = 0; length < image.length; length++) {
            read_again(&image, length, version);
        }
        add_number(&image, 0, 1);
        read_again(&image, image.length, version);
        EQUAL(before, spelled);
        drop_bytes(&image);
    }
}

static bytes copy_of(const bytes *it)
{
    bytes copy = {0};
    add(&copy, it->at, it->length);
    return copy;
}

// Damaged images: each is an image of version 2, whose node has that image, or is refused.
static void images(uint64_t seed, unsigned long count)
{
    markring_node busy = {0}, node = {0};
    unsigned long read = 0;
    make_busy(&busy);
    bytes image = image_of(&busy);
    for (unsigned long i = 0; i < count; i++) {
        bytes given = copy_of(&image);
        damage(&seed, &given);
        int status = markring_node_from_image(&node, given.at, given.length, i % 3);
        HOLDS(status == MARKRING_OK || status == MARKRING_BAD_IMAGE);
        HOLDS((node.at != NULL) == (status == MARKRING_OK));
        if (status == MARKRING_OK) {
            markring_event event = {0};
            markring_answer answer;
            bytes again = image_of(&node);
            read++;
            HOLDS(same_bytes(&given, &again));
            drop_bytes(&again);
            // Whatever the node is, it takes any event.
            for (int events = 0; events < 40; events++) {
                event.kind = (uint8_t)(1 + below(&seed, 17));
                event.node = (uint8_t)below(&seed, 4);
                event.place = (uint8_t)below(&seed, 9);
                event.reg = (uint16_t)below(&seed, 5);
                event.source = event.object = (uint16_t)below(&seed, 5);
                event.count = below(&seed, 9);
                status = markring_node_act(&node, &event, &answer);
                HOLDS(status >= MARKRING_OK && status != MARKRING_MEMORY);
                HOLDS(status <= MARKRING_WRONG_NODE || status == MARKRING_CONGESTED);
            }
            OK(markring_node_free(&node));
        }
        drop_bytes(&given);
    }
    HOLDS(read > 0 && read < count);
    OK(markring_node_free(&busy));
    drop_bytes(&image);
}

// Damaged frames: each is refused, or the node changes as a frame makes it. After a refusal nothing
// has changed.
static void frames(uint64_t seed, unsigned long count)
{
    static const int STATUSES[] = {MARKRING_OK, MARKRING_BAD_FRAME, MARKRING_WRONG_NODE,
        MARKRING_OUT_OF_ORDER, MARKRING_ACK_BEYOND};
    unsigned long seen[5] = {0};
    markring_node node = {0};
    make_busy(&node);
    save(&node);
    bytes before = shown(&node);
    for (unsigned long i = 0; i < count; i++) {
        // The node's next message from node 0, with any body, or an acknowledgement.
        bytes frame = {0};
        markring_answer answer;
        add_number(&frame, 0x450001, 3);
        add_number(&frame, 4, 8);
        add_number(&frame, 1, 8);
        add_number(&frame, 1 + i % 8, 1);
        switch (1 + i % 8) {
        case 2: add_number(&frame, draw(&seed) & 1, 1); add_number(&frame, draw(&seed), 8); break;
        case 3: add_number(&frame, 1, 1); add_number(&frame, 0, 4); add_number(&frame, 1, 8); break;
        case 4: add_number(&frame, draw(&seed), 4); add_number(&frame, 0, 1); break;
        case 5:
        case 6:
            add_number(&frame, 1, 1);
            add_number(&frame, 0, 4);
            add_number(&frame, 1, 8);
            add_number(&frame, below(&seed, 8), 1);
            add_number(&frame, 0, 1 + i % 8 == 5 ? 1 : 4);
            break;
        default: break;
        }
        if (i % 5 == 0) {
            frame.length = 0;
            add_number(&frame, 0x420001, 3);
            add_number(&frame, below(&seed, 4), 8);
        }
        if (i % 3 != 0) {
            damage(&seed, &frame);
        }
        blot(&answer);
        int status = markring_node_take(&node, frame.at, frame.length, &answer);
        int known = 0;
        for (int k = 0; k < 5; k++) {
            known += status == STATUSES[k];
            seen[k] += status == STATUSES[k];
        }
        EQUAL(1, (uint64_t)known);
        if (status == MARKRING_OK) {
            OK(markring_node_free(&node));
            make_busy(&node);
            save(&node);
        } else {
            HOLDS(is_blotted(&answer));
            bytes after = shown(&node);
            HOLDS(same_bytes(&before, &after));
            drop_bytes(&after);
        }
        drop_bytes(&frame);
    }
    for (int k = 0; k < 5; k++) {
        HOLDS(seen[k] > 0);
    }
    OK(markring_node_free(&node));
    drop_bytes(&before);
}

// The same of a node of a wide space, with letters and fetches: each frame is refused, or the node
// reads the letter that it brings.
static void wide_frames(uint64_t seed, unsigned long count)
{
    unsigned long taken = 0, refused = 0;
    markring_node node = {0};
    make_wide(&node);
    bytes before = shown(&node);
    for (unsigned long i = 0; i < count; i++) {
        bytes frame = {0};
        markring_answer answer;
        uint8_t found[256];
        size_t needed = 0;
        add_number(&frame, 0x460100, 3);
        add_number(&frame, 3, 8);
        add_number(&frame, 1, 8);
        if (i % 3 == 0) {
            add_number(&frame, 10, 1);
            add_number(&frame, 0, 1);
            add_number(&frame, i % 2, 4);
            add_number(&frame, 1, 8);
            add_number(&frame, draw(&seed), 4);
            add_number(&frame, below(&seed, 12), 4);
            add_number(&frame, below(&seed, 12), 4);
        } else {
            uint32_t references = below(&seed, 4), length = below(&seed, 40);
            add_number(&frame, 9, 1);
            add_number(&frame, draw(&seed), 4);
            add_number(&frame, references, 1);
            for (; references > 0; references--) {
                add_number(&frame, below(&seed, 2), 1);
                if (frame.at[frame.length - 1] != 0) {
                    add_number(&frame, below(&seed, 2), 1);
                    add_number(&frame, below(&seed, 4), 4);
                    add_number(&frame, 1, 8);
                }
            }
            add_number(&frame, length, 4);
            for (; length > 0; length--) {
                add_number(&frame, draw(&seed) & 0xFF, 1);
            }
        }
        if (i % 4 != 0) {
            damage(&seed, &frame);
        }
        // A block of this length, so that reading beyond it shows.
        uint8_t *exact = (uint8_t *)own(malloc(frame.length + 1));
        memcpy(exact + 1, frame.at, frame.length);
        blot(&answer);
        int status = markring_node_take(&node, exact + 1, frame.length, &answer);
        HOLDS(status == MARKRING_OK || i % 4 != 0);
        HOLDS(status == MARKRING_OK || status == MARKRING_BAD_FRAME || status == MARKRING_WRONG_NODE
            || status == MARKRING_OUT_OF_ORDER || status == MARKRING_ACK_BEYOND);
        if (status == MARKRING_OK) {
            taken++;
            while (markring_node_letter(&node, &answer) == MARKRING_OK) {
                OK(markring_node_letter_bytes(&node, found, sizeof found, &needed));
                EQUAL(answer.number, needed);
                status = markring_node_accept(&node, 0, &answer);
                HOLDS(status == (answer.count <= 2 ? MARKRING_OK : MARKRING_NO_REGISTER));
                if (status != MARKRING_OK) {
                    break;
                }
            }
            OK(markring_node_free(&node));
            make_wide(&node);
        } else {
            refused++;
            HOLDS(is_blotted(&answer));
            if (i % 16 == 0) {
                bytes after = shown(&node);
                HOLDS(same_bytes(&before, &after));
                drop_bytes(&after);
            }
        }
        free(exact);
        drop_bytes(&frame);
    }
    HOLDS(taken > 0 && refused > 0);
    OK(markring_node_free(&node));
    drop_bytes(&before);
}

// Spaces on images of other nodes, of other shapes, and damaged ones. A space that isn't opened
// keeps its images, and opens once the wrong one is replaced.
static void disks(uint64_t seed, unsigned long count)
{
    bytes good[2], other = {0};
    markring_node node = {0};
    markring_space space = {0};
    markring_cell cell = {0};
    markring_watch watch = {0};
    for (uint8_t own_number = 0; own_number < 2; own_number++) {
        OK(markring_node_new(&node, 2, 3, 5, own_number, 0));
        good[own_number] = image_of(&node);
        OK(markring_node_free(&node));
    }
    OK(markring_space_new(&space, 2, 3, 5, 1));
    IS(MARKRING_NOTHING, markring_space_cell(&space, 0, &cell));
    IS(MARKRING_NO_NODE, markring_space_cell(&space, 2, &cell));
    IS(MARKRING_NOTHING, markring_space_watch(&space, &watch));
    IS(MARKRING_NO_NODE, markring_space_disk(&space, 2, good[0].at, good[0].length));
    OK(markring_space_disk(&space, 0, good[0].at, good[0].length));
    // Node 0's image for node 1, and then images of spaces of other shapes.
    OK(markring_space_disk(&space, 1, good[0].at, good[0].length));
    IS(MARKRING_WRONG_DISKS, open_space(&space));
    static const struct {
        uint8_t nodes;
        uint16_t registers;
        uint32_t slots;
    } SHAPES[] = {{3, 3, 5}, {2, 2, 5}, {2, 4, 5}, {2, 3, 4}, {2, 3, 6}};
    for (size_t i = 0; i < sizeof SHAPES / sizeof *SHAPES; i++) {
        OK(markring_node_new(&node, SHAPES[i].nodes, SHAPES[i].registers, SHAPES[i].slots, 1, 0));
        other = image_of(&node);
        OK(markring_space_disk(&space, 1, other.at, other.length));
        IS(MARKRING_WRONG_DISKS, open_space(&space));
        IS(MARKRING_NOTHING, markring_space_cell(&space, 0, &cell));
        OK(markring_node_free(&node));
        drop_bytes(&other);
    }
    // A wide space of the same sizes is another one.
    OK(markring_node_make(&node, &(markring_shape){5, 0, 3, 2, 8, 1}, 1, 0));
    other = image_of(&node);
    OK(markring_space_disk(&space, 1, other.at, other.length));
    IS(MARKRING_WRONG_DISKS, open_space(&space));
    OK(markring_node_free(&node));
    drop_bytes(&other);
    OK(markring_space_disk(&space, 1, clean, 0));
    IS(MARKRING_BAD_IMAGE, open_space(&space));
    for (unsigned long i = 0; i < count; i++) {
        bytes given = copy_of(&good[1]);
        markring_space another = {0};
        damage(&seed, &given);
        OK(markring_space_new(&another, 2, 3, 5, 0));
        OK(markring_space_disk(&another, 0, good[0].at, good[0].length));
        OK(markring_space_disk(&another, 1, given.at, given.length));
        int status = open_space(&another);
        int expected = markring_node_from_image(&node, given.at, given.length, 0);
        HOLDS(status == MARKRING_OK || status == MARKRING_BAD_IMAGE
            || status == MARKRING_WRONG_DISKS || status == MARKRING_AGES);
        HOLDS((expected == MARKRING_BAD_IMAGE) == (status == MARKRING_BAD_IMAGE));
        if (expected == MARKRING_OK) {
            OK(markring_node_free(&node));
        }
        OK(markring_space_free(&another));
        drop_bytes(&given);
    }
    OK(markring_space_disk(&space, 1, good[1].at, good[1].length));
    OK(open_space(&space));
    IS(MARKRING_IN_USE, open_space(&space));
    IS(MARKRING_IN_USE, markring_space_disk(&space, 1, good[1].at, good[1].length));
    OK(markring_space_cell(&space, 1, &cell));
    IS(MARKRING_IN_USE, markring_space_cell(&space, 0, &cell));
    OK(markring_space_watch(&space, &watch));
    IS(MARKRING_IN_USE, markring_space_watch(&space, &watch));
    markring_cell second = {0};
    IS(MARKRING_NOTHING, markring_space_cell(&space, 1, &second));
    // Without a node 0 that anyone runs, node 1 works alone.
    OK(markring_space_free(&space));
    markring_answer answer;
    uint8_t sent = 7;
    uint64_t cycle = 77;
    OK(markring_cell_alloc(&cell, 0, 0, &answer));
    blot(&answer);
    IS(MARKRING_NO_NODE, markring_cell_receive(&cell, 1, &answer));
    IS(MARKRING_NO_NODE, markring_cell_receive(&cell, 2, &answer));
    IS(MARKRING_NOTHING, markring_cell_receive(&cell, 0, &answer));
    HOLDS(is_blotted(&answer));
    IS(MARKRING_NO_NODE, markring_cell_send(&cell, 1, &sent));
    EQUAL(7, sent);
    OK(markring_cell_send(&cell, 0, &sent));
    EQUAL(1, sent);
    OK(markring_cell_send(&cell, 0, &sent));
    EQUAL(0, sent);
    IS(MARKRING_NOT_DIRECTOR, markring_cell_raise(&cell, &cycle));
    EQUAL(77, cycle);
    OK(markring_watch_look(&watch, &cycle));
    EQUAL(0, cycle);
    IS(MARKRING_WRONG_MARK, markring_cell_save(&cell, 0));
    IS(MARKRING_WRONG_MARK, markring_cell_save(&cell, 1));
    OK(markring_cell_free(&cell));
    OK(markring_watch_free(&watch));
    drop_bytes(&good[0]);
    drop_bytes(&good[1]);
}

int main(int length, char **given)
{
    uint64_t seed = length > 1 ? strtoull(given[1], NULL, 10) : 1;
    unsigned long count = length > 2 ? strtoul(given[2], NULL, 10) : 2000;
    empty_handles();
    empty_spaces();
    sizes();
    shapes();
    wide_images();
    object_bytes();
    events();
    each_byte(count >= 1000);
    images(seed, count);
    frames(seed, count);
    wide_frames(seed, count);
    disks(seed, count);
    return report();
}
