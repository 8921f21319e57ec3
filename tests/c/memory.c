// Refuses each allocation in turn. A call that is refused with MARKRING_MEMORY changed nothing, and
// the same call again succeeds; the end is the same as with ample memory. A call that takes no
// memory by its comment in the header allocates nothing. With its first object, with the first
// whose reference it sends, and for both when it is read, a wide node asks for flags that it can do
// without: its young reclaims then search all blocks of slots.
#include "check.h"
#include "refuse.h"

// What a call may not change when memory is refused: nodes or cells, and the answer.
static markring_node nodes[2];
static markring_answer answer;
static unsigned long refusals;
// Whether a request of this call was refused, and how many such calls succeeded, except those
// that lost their node's log.
#define WAS_REFUSED(requested) ((requested) < refused_one && refused_one <= requests)
static unsigned long spared;

static markring_cell cells[2];

// Adds the bytes of the objects of which registers of a node or of a cell hold the references.
#define ADD_OBJECT_BYTES(type) \
    static void add_bytes_of_##type(markring_##type *at, uint16_t registers, bytes *all) \
    { \
        for (uint16_t reg = 0; reg < registers; reg++) { \
            uint8_t found[128]; \
            uint32_t length = 0; \
            size_t needed = 0; \
            if (markring_##type##_bytes_length(at, reg, &length) == MARKRING_OK) { \
                OK(markring_##type##_bytes(at, reg, 0, length, found, sizeof found, &needed)); \
                add(all, found, needed); \
                add_number(all, length, 4); \
            } \
        } \
    }

ADD_OBJECT_BYTES(node)
ADD_OBJECT_BYTES(cell)

// Adds the oldest letter that waits, with its bytes.
#define ADD_LETTER(type) \
    static void add_letter_of_##type(markring_##type *at, bytes *all) \
    { \
        markring_answer letter; \
        uint8_t found[128]; \
        size_t needed = 0; \
        if (markring_##type##_letter(at, &letter) == MARKRING_OK) { \
            OK(markring_##type##_letter_bytes(at, found, sizeof found, &needed)); \
            add(all, found, needed); \
            add_number(all, letter.label, 4); \
            add_number(all, letter.count, 4); \
            add_number(all, letter.number, 8); \
            add_number(all, letter.reference.slot, 4); \
            add_number(all, letter.reference.generation, 8); \
        } \
    }

ADD_LETTER(node)
ADD_LETTER(cell)

static bytes cell_shown(markring_cell *cell)
{
    bytes all = {0};
    size_t size = 0;
    markring_state state;
    OK(markring_cell_image_size(cell, &size));
    add_number(&all, size, 8);
    OK(markring_cell_state(cell, &state));
    add_number(&all, state.live, 8);
    add_number(&all, state.cycle, 8);
    add_number(&all, state.grey, 8);
    add_number(&all, state.letters, 8);
    for (uint8_t peer = 0; peer < state.nodes; peer++) {
        markring_link link;
        if (markring_cell_link(cell, peer, &link) == MARKRING_OK) {
            add_number(&all, link.appended, 8);
            add_number(&all, link.released, 8);
            add_number(&all, link.received, 8);
            add_number(&all, link.received_saved, 8);
        }
    }
    for (uint16_t reg = 0; reg < state.registers; reg++) {
        markring_ref reference = {0};
        (void)markring_cell_register(cell, reg, &reference);
        add_number(&all, reference.slot, 4);
        add_number(&all, reference.generation, 8);
    }
    add_bytes_of_cell(cell, state.registers, &all);
    add_letter_of_cell(cell, &all);
    return all;
}

static void add_cell(bytes *all, int own_number)
{
    if (cells[own_number].at != NULL) {
        bytes one = cell_shown(&cells[own_number]);
        add(all, one.at, one.length);
        drop_bytes(&one);
    }
}

static bytes all_shown(void)
{
    bytes all = {0};
    for (int i = 0; i < 2; i++) {
        if (nodes[i].at != NULL) {
            // The images are those of copies, so that marks stay as they are.
            markring_link link;
            markring_state state;
            OK(markring_node_state(&nodes[i], &state));
            OK(markring_node_link(&nodes[i], (uint8_t)(1 - i), &link));
            add_number(&all, state.live, 8);
            add_number(&all, state.cycle, 8);
            add_number(&all, state.grey, 8);
            add_number(&all, state.letters, 8);
            add_number(&all, (uint64_t)state.earlier, 8);
            add_number(&all, (uint64_t)state.recent, 8);
            add_number(&all, link.appended, 8);
            add_number(&all, link.released, 8);
            add_number(&all, link.received, 8);
            size_t size = 0;
            OK(markring_node_image_size(&nodes[i], &size));
            add_number(&all, size, 8);
            for (uint16_t reg = 0; reg < state.registers; reg++) {
                markring_ref reference = {0};
                (void)markring_node_register(&nodes[i], reg, &reference);
                add_number(&all, reference.slot, 4);
                add_number(&all, reference.generation, 8);
            }
            add_bytes_of_node(&nodes[i], state.registers, &all);
            add_letter_of_node(&nodes[i], &all);
        }
        add_cell(&all, i);
    }
    return all;
}

// The disk of a cell is in memory: if that can't grow, it fails.
static int is_refusal(int status)
{
    return status == MARKRING_MEMORY || status == MARKRING_DISK;
}

// Makes a call, and makes it again if memory was refused to it. `spares` says that it may not have
// been refused.
#define MAKE(status, spares, call) \
    do { \
        bytes before = all_shown(); \
        unsigned long requested = requests; \
        blot(&answer); \
        within = 1; \
        int outcome = (call); \
        within = 0; \
        if (is_refusal(outcome)) { \
            bytes after = all_shown(); \
            HOLDS(!(spares)); \
            HOLDS(is_blotted(&answer)); \
            HOLDS(same_bytes(&before, &after)); \
            drop_bytes(&after); \
            refusals++; \
            within = 1; \
            outcome = (call); \
            within = 0; \
        } else { \
            HOLDS(!(spares) || requests == requested); \
            spared += WAS_REFUSED(requested); \
        } \
        IS((status), outcome); \
        drop_bytes(&before); \
    } while (0)

// May be refused memory; takes none.
#define MAY(call) MAKE(MARKRING_OK, 0, call)
#define SPARES(call) MAKE(MARKRING_OK, 1, call)

static uint8_t image[1 << 14], frame[256], window[1 << 12];
static size_t needed, count, size;
static uint64_t mark, number;
static uint8_t flag;
static markring_state state;
static markring_link link_;
static markring_ref reference;
static markring_object object;
static uint32_t slots;

// Whether frames need memory: those of letters with references or bytes do.
static int has_letters;

static void save_and_send(int from)
{
    uint8_t to = (uint8_t)(1 - from);
    MAY(markring_node_image_size(&nodes[from], &size));
    MAY(markring_node_image(&nodes[from], image, sizeof image, &needed, &mark));
    SPARES(markring_node_kept(&nodes[from], mark));
    for (uint8_t place = 0;; place++) {
        markring_link link;
        OK(markring_node_link(&nodes[from], to, &link));
        if (place >= link.released - link.acknowledged) {
            break;
        }
        MAKE(MARKRING_OK, !has_letters,
            markring_node_frame_at(&nodes[from], to, place, frame, sizeof frame, &needed));
        MAY(markring_node_take(&nodes[to], frame, needed, &answer));
    }
    SPARES(markring_node_release(&nodes[to]));
    SPARES(markring_node_ack_for(&nodes[to], (uint8_t)from, frame, sizeof frame, &needed));
    MAY(markring_node_take(&nodes[from], frame, needed, &answer));
}

// Goes on with a cycle that has begun, until it is swept.
static void finish_cycle(void)
{
    for (int round = 0; round < 8; round++) {
        int i = round % 2;
        OK(markring_node_state(&nodes[i], &state));
        while (state.grey > 0) {
            MAY(markring_node_scan(&nodes[i], &answer));
            OK(markring_node_state(&nodes[i], &state));
        }
        if (state.has_token) {
            MAY(markring_node_pass(&nodes[i], &answer));
        }
        OK(markring_node_state(&nodes[i], &state));
        if (state.swept < state.ended) {
            // (That is all if no slot was ever used.)
            MAY(markring_node_sweep(&nodes[i], 0, &answer));
        }
        if (state.swept < state.ended && !answer.done) {
            MAY(markring_node_sweep(&nodes[i], 100, &answer));
        }
        save_and_send(i);
    }
    OK(markring_node_state(&nodes[0], &state));
    EQUAL(1, state.swept);
}

// The images of both nodes, which are freed.
static bytes end_nodes(void)
{
    bytes all = image_of(&nodes[0]), rest = image_of(&nodes[1]);
    add(&all, rest.at, rest.length);
    drop_bytes(&rest);
    SPARES(markring_node_free(&nodes[0]));
    SPARES(markring_node_free(&nodes[1]));
    return all;
}

// A scenario over nodes: objects, letters, a put and a get, early messages, a cycle, an image.
static bytes over_nodes(void)
{
    markring_node *zero = &nodes[0], *one = &nodes[1];
    MAY(markring_node_new(zero, 2, 4, 64, 0, 0));
    MAY(markring_node_new(one, 2, 4, 64, 1, 0));
    for (int i = 0; i < 20; i++) {
        MAY(markring_node_alloc(zero, 0, (uint8_t)(i % 9), &answer));
        MAY(markring_node_give(zero, 1, (uint32_t)i, 0, &answer));
    }
    MAY(markring_node_alloc(zero, 1, 8, &answer));
    SPARES(markring_node_copy(zero, 2, 1, &answer));
    SPARES(markring_node_store(zero, 1, 0, 0, &answer));
    MAY(markring_node_load(zero, 2, 1, 0, &answer));
    SPARES(markring_node_clear(zero, 1, 7, &answer));
    SPARES(markring_node_set_word(zero, 1, 9, &answer));
    SPARES(markring_node_word(zero, 1, &answer));
    SPARES(markring_node_drop(zero, 2, &answer));
    SPARES(markring_node_state(zero, &state));
    SPARES(markring_node_link(zero, 1, &link_));
    SPARES(markring_node_register(zero, 0, &reference));
    SPARES(markring_node_slots(zero, &slots));
    SPARES(markring_node_object(zero, 0, &object));
    SPARES(markring_node_place(zero, 1, 0, &reference));
    SPARES(markring_node_unsaved(zero, &flag));
    // The frames come from the last one to the first, and then again.
    MAY(markring_node_image(zero, image, sizeof image, &needed, &mark));
    SPARES(markring_node_kept(zero, mark));
    SPARES(markring_node_frames(zero, 1, 0, window, sizeof window, &count, &needed));
    for (uint8_t place = 20; place-- > 0;) {
        SPARES(markring_node_frame_at(zero, 1, place, frame, sizeof frame, &needed));
        MAY(markring_node_take(one, frame, needed, &answer));
    }
    while (markring_node_waiting(one, 0, &number) == MARKRING_OK) {
        MAY(markring_node_next(one, 0, &answer));
    }
    MAKE(MARKRING_NOTHING, 1, markring_node_waiting(one, 0, &number));
    MAKE(MARKRING_NOTHING_TO_DO, 1, markring_node_next(one, 0, &answer));
    for (int i = 0; i < 20; i++) {
        SPARES(markring_node_accept(one, (uint16_t)(i % 4), &answer));
    }
    MAY(markring_node_alloc(one, 3, 1, &answer));
    MAY(markring_node_put(one, 0, 0, 3, &answer));
    MAY(markring_node_get(one, 1, 0, 5, &answer));
    save_and_send(1);
    save_and_send(0);
    SPARES(markring_node_accept(one, 0, &answer));
    SPARES(markring_node_drop(zero, 1, &answer));
    MAY(markring_node_begin(zero, &answer));
    finish_cycle();
    MAY(markring_node_image(zero, image, sizeof image, &needed, &mark));
    SPARES(markring_node_free(zero));
    MAY(markring_node_from_image(zero, image, needed, 0));
    return end_nodes();
}

// What objects get in a wide space.
enum { MOST = 100 };
static const markring_shape WIDE = {64, MOST, 4, 2, 20, 1};
static uint8_t given[MOST + 1], found[MOST];
static uint32_t length_of;

static void fill(uint8_t with)
{
    for (size_t i = 0; i < sizeof given; i++) {
        given[i] = (uint8_t)(with + 7 * i);
    }
}

// A scenario over nodes of a wide space: bytes that are set, patched and read, a cycle that frees
// objects with bytes, and an image.
static bytes with_bytes(void)
{
    markring_node *zero = &nodes[0], *one = &nodes[1];
    MAY(markring_node_make(zero, &WIDE, 0, 0));
    MAY(markring_node_make(one, &WIDE, 1, 0));
    for (uint8_t i = 0; i < 12; i++) {
        uint16_t reg = i % 3;
        fill(i);
        MAY(markring_node_alloc(zero, reg, (uint8_t)(i % 4 * 6), &answer));
        MAY(markring_node_set_bytes(zero, reg, given, (size_t)(9 * i), &answer));
        SPARES(markring_node_patch(zero, reg, i, given, (size_t)(8 * i), &answer));
        MAY(markring_node_set_bytes(zero, reg, given, (size_t)(MOST - 9 * i), &answer));
    }
    MAY(markring_node_set_bytes(zero, 0, given, 0, &answer));
    MAKE(MARKRING_TOO_MANY_BYTES, 0, markring_node_set_bytes(zero, 0, given, MOST + 1, &answer));
    MAKE(MARKRING_NO_BYTES, 1, markring_node_patch(zero, 0, 0, given, 1, &answer));
    SPARES(markring_node_bytes_length(zero, 1, &length_of));
    SPARES(markring_node_bytes(zero, 1, 3, length_of - 3, found, sizeof found, &needed));
    MAKE(MARKRING_NO_BYTES, 1,
        markring_node_bytes(zero, 1, 0, length_of + 1, found, sizeof found, &needed));
    SPARES(markring_node_bytes_at(zero, 0, 0, 1, found, sizeof found, &needed));
    MAKE(MARKRING_SHORT_BUFFER, 1, markring_node_bytes(zero, 1, 0, 2, found, 1, &needed));
    markring_ref kept;
    SPARES(markring_node_register(zero, 2, &kept));
    SPARES(markring_node_drop(zero, 2, &answer));
    SPARES(markring_node_resolve(zero, 2, &kept, &answer));
    SPARES(markring_node_drop(zero, 2, &answer));
    MAY(markring_node_begin(zero, &answer));
    MAKE(MARKRING_NOT_NOW, 1, markring_node_resolve(zero, 2, &kept, &answer));
    finish_cycle();
    MAKE(MARKRING_NO_FIELD, 1, markring_node_resolve(zero, 2, &kept, &answer));
    EQUAL(2, state.live);
    MAY(markring_node_image(zero, image, sizeof image, &needed, &mark));
    SPARES(markring_node_free(zero));
    MAY(markring_node_from_image(zero, image, needed, 0));
    return end_nodes();
}

// Reads and accepts all letters that wait at node 1; those with fewer bytes than two without them.
static void accept_letters(void)
{
    markring_node *one = &nodes[1];
    while (markring_node_letter(one, &answer) == MARKRING_OK) {
        uint16_t last = (uint16_t)(4 - answer.count);
        size_t length = (size_t)answer.number;
        SPARES(markring_node_letter(one, &answer));
        SPARES(markring_node_letter_bytes(one, found, sizeof found, &needed));
        EQUAL(length, needed);
        MAKE(MARKRING_NO_REGISTER, 1, markring_node_accept(one, last + 1, &answer));
        if (length < 2) {
            SPARES(markring_node_accept(one, last, &answer));
            continue;
        }
        MAKE(MARKRING_SHORT_BUFFER, 1,
            markring_node_accept_into(one, 0, found, length - 1, &needed, &answer));
        SPARES(markring_node_accept_into(one, 0, found, length, &needed, &answer));
    }
    MAKE(MARKRING_NO_LETTER, 1, markring_node_letter(one, &answer));
    MAKE(MARKRING_NO_LETTER, 1, markring_node_accept_into(one, 0, found, 0, &needed, &answer));
}

// A scenario over nodes of a wide space: letters with references and bytes, early ones too; fetches;
// a cycle in which letters wait; images.
static bytes with_letters(void)
{
    markring_node *zero = &nodes[0], *one = &nodes[1];
    MAY(markring_node_make(zero, &WIDE, 0, 0));
    MAY(markring_node_make(one, &WIDE, 1, 0));
    fill(6);
    for (uint16_t reg = 0; reg < 3; reg++) {
        MAY(markring_node_alloc(zero, reg, 1, &answer));
        MAY(markring_node_set_bytes(zero, reg, given, 20u * reg, &answer));
    }
    for (uint8_t i = 0; i < 6; i++) {
        fill(i);
        MAY(markring_node_post(zero, 1, i, 0, i % 5, given, 20u * i, &answer));
    }
    MAKE(MARKRING_NO_REGISTER, 0, markring_node_post(zero, 1, 0, 3, 2, given, 0, &answer));
    MAKE(MARKRING_TOO_MANY_BYTES, 0,
        markring_node_post(zero, 1, 0, 0, 4, given, MOST + 1, &answer));
    // The frames come from the last one to the first.
    MAY(markring_node_image(zero, image, sizeof image, &needed, &mark));
    SPARES(markring_node_kept(zero, mark));
    MAY(markring_node_frames(zero, 1, 0, window, sizeof window, &count, &needed));
    EQUAL(6, count);
    for (uint8_t place = 6; place-- > 0;) {
        MAY(markring_node_frame_at(zero, 1, place, frame, sizeof frame, &needed));
        MAY(markring_node_take(one, frame, needed, &answer));
    }
    while (markring_node_waiting(one, 0, &number) == MARKRING_OK) {
        MAY(markring_node_next(one, 0, &answer));
    }
    accept_letters();
    for (uint16_t reg = 1; reg < 3; reg++) {
        MAY(markring_node_fetch(one, reg, reg, 3, 10, &answer));
    }
    save_and_send(1);
    save_and_send(0);
    accept_letters();
    MAY(markring_node_post(zero, 1, 1, 0, 4, given, 90, &answer));
    save_and_send(0);
    MAY(markring_node_post(zero, 1, 2, 0, 3, given, 80, &answer));
    MAY(markring_node_begin(zero, &answer));
    finish_cycle();
    MAY(markring_node_post(zero, 1, 3, 1, 3, given, 70, &answer));
    MAY(markring_node_image(zero, image, sizeof image, &needed, &mark));
    SPARES(markring_node_free(zero));
    MAY(markring_node_from_image(zero, image, needed, 0));
    MAY(markring_node_image(one, image, sizeof image, &needed, &mark));
    SPARES(markring_node_free(one));
    MAY(markring_node_from_image(one, image, needed, 0));
    return end_nodes();
}

// What is stored of node 0: an image, and the batches behind it.
static bytes stored, behind;

static void store_image(void)
{
    MAY(markring_node_image(&nodes[0], image, sizeof image, &needed, &mark));
    SPARES(markring_node_kept(&nodes[0], mark));
    stored.length = behind.length = 0;
    add(&stored, image, needed);
}

// Saves node 0 by a batch; or by an image, if memory was refused to its log.
static void store_batch(void)
{
    unsigned long requested = requests;
    within = 1;
    int status = markring_node_batch_size(&nodes[0], &size);
    within = 0;
    HOLDS(requests == requested);
    if (status == MARKRING_NO_LOG) {
        refusals++;
        spared--;
        store_image();
        return;
    }
    OK(status);
    MAY(markring_node_batch(&nodes[0], image, sizeof image, &needed, &mark));
    EQUAL(size, needed);
    add(&behind, image, needed);
    SPARES(markring_node_kept(&nodes[0], mark));
}

// An event that needs memory for the log alone isn't refused.
#define LOGS(call) \
    do { \
        unsigned long requested = requests; \
        within = 1; \
        int outcome = (call); \
        within = 0; \
        IS(MARKRING_OK, outcome); \
        spared += WAS_REFUSED(requested); \
    } while (0)

// A scenario over nodes of which one is saved by batches. A log to which memory is refused is lost.
static bytes with_log(void)
{
    markring_node *zero = &nodes[0], *one = &nodes[1];
    MAY(markring_node_new(zero, 2, 4, 64, 0, 0));
    MAY(markring_node_new(one, 2, 4, 64, 1, 0));
    SPARES(markring_node_log(zero, 1));
    store_image();
    for (int round = 0; round < 6; round++) {
        MAY(markring_node_alloc(zero, 0, 8, &answer));
        LOGS(markring_node_set_word(zero, 0, (uint64_t)round, &answer));
        LOGS(markring_node_copy(zero, 1, 0, &answer));
        LOGS(markring_node_store(zero, 0, 1, 1, &answer));
        LOGS(markring_node_clear(zero, 0, 0, &answer));
        LOGS(markring_node_drop(zero, 1, &answer));
        SPARES(markring_node_word(zero, 0, &answer));
        MAY(markring_node_give(zero, 1, (uint32_t)round, 0, &answer));
        store_batch();
        SPARES(markring_node_frame_at(zero, 1, 0, frame, sizeof frame, &needed));
        MAY(markring_node_take(one, frame, needed, &answer));
        SPARES(markring_node_release(one));
        SPARES(markring_node_ack_for(one, 0, frame, sizeof frame, &needed));
        LOGS(markring_node_take(zero, frame, needed, &answer));
    }
    store_batch();
    SPARES(markring_node_free(zero));
    uint8_t *from = behind.length > 0 ? behind.at : frame;
    MAY(markring_node_from_batches(zero, stored.at, stored.length, from, behind.length, 0));
    bytes all = image_of(zero);
    SPARES(markring_node_free(zero));
    SPARES(markring_node_free(one));
    drop_bytes(&stored);
    drop_bytes(&behind);
    return all;
}

// The same with bytes of objects in a log.
static bytes with_logged_bytes(void)
{
    markring_node *zero = &nodes[0];
    MAY(markring_node_make(zero, &WIDE, 0, 0));
    SPARES(markring_node_log(zero, 1));
    store_image();
    for (uint8_t round = 0; round < 5; round++) {
        fill(round);
        MAY(markring_node_alloc(zero, 0, 1, &answer));
        MAY(markring_node_set_bytes(zero, 0, given, MOST - round, &answer));
        LOGS(markring_node_patch(zero, 0, round, given, 60, &answer));
        SPARES(markring_node_bytes(zero, 0, 0, 60, found, sizeof found, &needed));
        store_batch();
    }
    SPARES(markring_node_free(zero));
    uint8_t *from = behind.length > 0 ? behind.at : frame;
    MAY(markring_node_from_batches(zero, stored.at, stored.length, from, behind.length, 0));
    bytes all = image_of(zero);
    SPARES(markring_node_free(zero));
    drop_bytes(&stored);
    drop_bytes(&behind);
    return all;
}

// The same with letters, sent and received, and fetches.
static bytes with_logged_letters(void)
{
    markring_node *zero = &nodes[0], *one = &nodes[1];
    MAY(markring_node_make(zero, &WIDE, 0, 0));
    MAY(markring_node_make(one, &WIDE, 1, 0));
    SPARES(markring_node_log(zero, 1));
    store_image();
    MAY(markring_node_alloc(zero, 3, 1, &answer));
    for (uint8_t round = 0; round < 4; round++) {
        fill(round);
        MAY(markring_node_post(zero, 1, round, 0, 4, given, 25u * round, &answer));
        MAY(markring_node_post(one, 0, round, 0, round, given, 30u * round, &answer));
        if (round == 2) {
            MAY(markring_node_fetch(one, 3, round, 0, 0, &answer));
        }
        store_batch();
        MAY(markring_node_frame_at(zero, 1, 0, frame, sizeof frame, &needed));
        MAY(markring_node_take(one, frame, needed, &answer));
        SPARES(markring_node_release(one));
        for (uint8_t place = 0; markring_node_frame_at(one, 0, place, frame, sizeof frame, &needed)
             == MARKRING_OK;
             place++) {
            MAY(markring_node_take(zero, frame, needed, &answer));
        }
        SPARES(markring_node_ack_for(one, 0, frame, sizeof frame, &needed));
        LOGS(markring_node_take(zero, frame, needed, &answer));
        store_batch();
        SPARES(markring_node_ack_for(zero, 1, frame, sizeof frame, &needed));
        MAY(markring_node_take(one, frame, needed, &answer));
        SPARES(markring_node_accept(one, 0, &answer));
        LOGS(markring_node_accept(zero, 0, &answer));
    }
    store_batch();
    SPARES(markring_node_free(zero));
    uint8_t *from = behind.length > 0 ? behind.at : frame;
    MAY(markring_node_from_batches(zero, stored.at, stored.length, from, behind.length, 0));
    bytes all = image_of(zero);
    SPARES(markring_node_free(zero));
    SPARES(markring_node_free(one));
    drop_bytes(&stored);
    drop_bytes(&behind);
    return all;
}

// Saves a cell. No memory is refused to the save itself, see `saves`.
static void save_cell(int own_number)
{
    MAY(markring_cell_image_size(&cells[own_number], &size));
    MAY(markring_cell_image(&cells[own_number], image, sizeof image, &needed, &mark));
    OK(markring_cell_save(&cells[own_number], mark));
}

// Receives what was sent. If memory is refused, the frame is lost, and its sender offers it again.
static void receive(int to, uint8_t from)
{
    bytes before = all_shown();
    blot(&answer);
    within = 1;
    int status = markring_cell_receive(&cells[to], from, &answer);
    within = 0;
    if (is_refusal(status)) {
        bytes after = all_shown();
        HOLDS(is_blotted(&answer));
        HOLDS(same_bytes(&before, &after));
        drop_bytes(&after);
        refusals++;
        status = MARKRING_OK;
        IS(MARKRING_NOTHING, markring_cell_receive(&cells[to], from, &answer));
    }
    IS(MARKRING_OK, status);
    drop_bytes(&before);
}

// Sends from one cell to the other until nothing is left.
static void flush(int from)
{
    uint8_t sender = (uint8_t)from, receiver = (uint8_t)(1 - from);
    markring_link sent, received;
    do {
        MAY(markring_cell_send(&cells[from], receiver, &flag));
        receive(1 - from, sender);
        OK(markring_cell_link(&cells[from], receiver, &sent));
        OK(markring_cell_link(&cells[1 - from], sender, &received));
    } while (sent.released != received.received);
}

// Sends from one cell to the other until it has acknowledged all that the other one released.
static void acknowledge(int from)
{
    uint8_t sender = (uint8_t)from, receiver = (uint8_t)(1 - from);
    markring_link link;
    do {
        MAY(markring_cell_send(&cells[from], receiver, &flag));
        receive(1 - from, sender);
        OK(markring_cell_link(&cells[1 - from], sender, &link));
    } while (link.acknowledged != link.released);
}

// Nothing can be done with a closed cell except reopening and reading it.
static void expect_closed(markring_cell *cell)
{
    blot(&answer);
    IS(MARKRING_CLOSED, markring_cell_word(cell, 0, &answer));
    IS(MARKRING_CLOSED, markring_cell_alloc(cell, 99, 99, &answer));
    IS(MARKRING_CLOSED, markring_cell_receive(cell, 1, &answer));
    HOLDS(is_blotted(&answer));
    IS(MARKRING_CLOSED, markring_cell_send(cell, 1, &flag));
    IS(MARKRING_CLOSED, markring_cell_raise(cell, &number));
    OK(markring_cell_state(cell, &state));
}

// A reopening that is refused memory closes the cell, until another one succeeds.
static void reopen(markring_cell *cell)
{
    unsigned long requested = requests;
    within = 1;
    int status = markring_cell_reopen(cell);
    within = 0;
    if (is_refusal(status)) {
        refusals++;
        expect_closed(cell);
        status = markring_cell_reopen(cell);
    } else {
        spared += WAS_REFUSED(requested);
    }
    IS(MARKRING_OK, status);
}

// A scenario over cells, in one thread.
static bytes over_cells(void)
{
    markring_space space = {0};
    markring_watch watch = {0};
    bytes images[2] = {{0}, {0}};
    MAY(markring_space_new(&space, 2, 4, 64, 1));
    MAY(open_space(&space));
    SPARES(markring_space_cell(&space, 0, &cells[0]));
    SPARES(markring_space_cell(&space, 1, &cells[1]));
    SPARES(markring_space_watch(&space, &watch));
    SPARES(markring_space_free(&space));
    for (int i = 0; i < 10; i++) {
        MAY(markring_cell_alloc(&cells[0], 0, 2, &answer));
        MAY(markring_cell_give(&cells[0], 1, (uint32_t)i, 0, &answer));
    }
    save_cell(0);
    flush(0);
    for (int i = 0; i < 10; i++) {
        SPARES(markring_cell_accept(&cells[1], (uint16_t)(i % 4), &answer));
    }
    SPARES(markring_cell_unsaved(&cells[1], &flag));
    save_cell(1);
    MAY(markring_cell_begin(&cells[0], &answer));
    save_cell(0);
    flush(0);
    SPARES(markring_cell_raise(&cells[0], &number));
    SPARES(markring_watch_look(&watch, &number));
    MAY(markring_cell_set_word(&cells[0], 0, 5, &answer));
    reopen(&cells[0]);
    MAY(markring_cell_word(&cells[0], 0, &answer));
    EQUAL(0, answer.number);
    for (int i = 0; i < 2; i++) {
        MAY(markring_cell_image(&cells[i], image, sizeof image, &needed, &mark));
        add(&images[i], image, needed);
        SPARES(markring_cell_free(&cells[i]));
    }
    SPARES(markring_watch_free(&watch));
    MAY(markring_space_new(&space, 2, 4, 64, 0));
    MAY(markring_space_disk(&space, 0, images[0].at, images[0].length));
    MAY(markring_space_disk(&space, 1, images[1].at, images[1].length));
    MAY(open_space(&space));
    SPARES(markring_space_cell(&space, 1, &cells[1]));
    SPARES(markring_space_free(&space));
    MAY(markring_cell_image(&cells[1], image, sizeof image, &needed, &mark));
    bytes all = {0};
    add(&all, image, needed);
    HOLDS(same_bytes(&all, &images[1]));
    SPARES(markring_cell_free(&cells[1]));
    drop_bytes(&images[0]);
    drop_bytes(&images[1]);
    return all;
}

// Bytes of objects in a cell of a wide space, before and after a reopening.
static bytes in_cells(void)
{
    markring_space space = {0};
    MAY(markring_space_make(&space, &WIDE, 0));
    MAY(open_space(&space));
    SPARES(markring_space_cell(&space, 0, &cells[0]));
    SPARES(markring_space_free(&space));
    fill(1);
    MAY(markring_cell_alloc(&cells[0], 0, 2, &answer));
    MAY(markring_cell_set_bytes(&cells[0], 0, given, 50, &answer));
    SPARES(markring_cell_patch(&cells[0], 0, 10, given, 40, &answer));
    save_cell(0);
    MAY(markring_cell_set_bytes(&cells[0], 0, given, MOST, &answer));
    reopen(&cells[0]);
    SPARES(markring_cell_bytes_length(&cells[0], 0, &length_of));
    EQUAL(50, length_of);
    SPARES(markring_cell_bytes(&cells[0], 0, 0, 50, found, sizeof found, &needed));
    HOLDS(memcmp(found, given, 10) == 0 && memcmp(found + 10, given, 40) == 0);
    SPARES(markring_cell_slots(&cells[0], &slots));
    SPARES(markring_cell_object(&cells[0], 0, &object));
    SPARES(markring_cell_place(&cells[0], 0, 1, &reference));
    SPARES(markring_cell_bytes_at(&cells[0], 0, 0, 50, found, sizeof found, &needed));
    HOLDS(memcmp(found, given, 10) == 0 && memcmp(found + 10, given, 40) == 0);
    MAY(markring_cell_image(&cells[0], image, sizeof image, &needed, &mark));
    bytes all = {0};
    add(&all, image, needed);
    SPARES(markring_cell_free(&cells[0]));
    return all;
}

// Letters in cells of a wide space, before and after a reopening.
static bytes letters_in_cells(void)
{
    markring_space space = {0};
    MAY(markring_space_make(&space, &WIDE, 0));
    MAY(open_space(&space));
    SPARES(markring_space_cell(&space, 0, &cells[0]));
    SPARES(markring_space_cell(&space, 1, &cells[1]));
    SPARES(markring_space_free(&space));
    fill(1);
    MAY(markring_cell_alloc(&cells[0], 0, 2, &answer));
    MAY(markring_cell_post(&cells[0], 1, 7, 0, 3, given, 90, &answer));
    MAY(markring_cell_post(&cells[0], 1, 8, 0, 0, given, 0, &answer));
    save_cell(0);
    flush(0);
    save_cell(1);
    for (int times = 0; times < 2; times++) {
        SPARES(markring_cell_letter(&cells[1], &answer));
        SPARES(markring_cell_letter_bytes(&cells[1], found, sizeof found, &needed));
        HOLDS(needed == 90 && memcmp(found, given, 90) == 0);
        MAKE(MARKRING_NO_REGISTER, 1, markring_cell_accept(&cells[1], 2, &answer));
        SPARES(markring_cell_accept_into(&cells[1], 1, found, sizeof found, &needed, &answer));
        HOLDS(answer.label == 7 && answer.count == 3 && answer.number == 90);
        if (times == 0) {
            reopen(&cells[1]);
        }
    }
    MAY(markring_cell_fetch(&cells[1], 1, 9, 0, 0, &answer));
    save_cell(1);
    flush(1);
    save_cell(0);
    flush(0);
    acknowledge(0);
    SPARES(markring_cell_accept(&cells[1], 0, &answer));
    SPARES(markring_cell_accept_into(&cells[1], 0, found, 8, &needed, &answer));
    HOLDS(answer.label == 9 && needed == 8);
    MAY(markring_cell_image(&cells[1], image, sizeof image, &needed, &mark));
    bytes all = {0};
    add(&all, image, needed);
    SPARES(markring_cell_free(&cells[0]));
    SPARES(markring_cell_free(&cells[1]));
    return all;
}

// Saves a cell with a new object, and refuses an allocation of the save. After MEMORY the mark is
// still good. After DISK the cell is closed, and a reopening finds the old node or the new one.
// Returns whether the save made that allocation.
static int save_without(unsigned long one)
{
    markring_space space = {0};
    markring_cell *cell = &cells[0];
    OK(markring_space_new(&space, 2, 2, 4, 0));
    OK(open_space(&space));
    OK(markring_space_cell(&space, 0, cell));
    OK(markring_space_free(&space));
    OK(markring_cell_alloc(cell, 0, 1, &answer));
    OK(markring_cell_image(cell, image, sizeof image, &needed, &mark));
    requests = 0;
    refused_one = one;
    within = 1;
    int status = markring_cell_save(cell, mark);
    within = 0;
    int reached = requests >= one;
    HOLDS(is_refusal(status) == reached);
    if (status == MARKRING_MEMORY) {
        OK(markring_cell_unsaved(cell, &flag));
        EQUAL(1, flag);
        status = markring_cell_save(cell, mark);
    }
    if (status == MARKRING_DISK) {
        expect_closed(cell);
        IS(MARKRING_CLOSED, markring_cell_save(cell, mark));
        OK(markring_cell_reopen(cell));
        OK(markring_cell_state(cell, &state));
        HOLDS(state.live <= 1);
        if (state.live == 0) {
            OK(markring_cell_alloc(cell, 0, 1, &answer));
        }
        OK(markring_cell_image(cell, image, sizeof image, &needed, &mark));
        status = markring_cell_save(cell, mark);
    }
    IS(MARKRING_OK, status);
    OK(markring_cell_unsaved(cell, &flag));
    EQUAL(0, flag);
    OK(markring_cell_free(cell));
    return reached;
}

static void saves(void)
{
    unsigned long one = 1;
    while (save_without(one)) {
        one++;
    }
    printf("%lu allocations of a save refused\n", one - 1);
}

enum { LOST = 40 };
static const markring_shape LISTED = {64, 0, 4, 2, 1, 1};
static markring_freed entries[LOST + 1];

// Makes objects, of which the last stays in register 0, and frees the others by a reclaim, and what
// that register had before.
#define LOSE(type, at, had) \
    do { \
        for (uint64_t i = 0; i <= LOST; i++) { \
            MAY(markring_##type##_alloc(at, 0, 0, &answer)); \
            SPARES(markring_##type##_set_word(at, 0, i, &answer)); \
        } \
        MAY(markring_##type##_reclaim(at, &answer)); \
        EQUAL(LOST + (had), answer.count); \
        SPARES(markring_##type##_freed(at, entries, LOST + 1, &count)); \
        EQUAL(0, count); \
    } while (0)

// All of them are handed out, in order, some at first.
#define HAND_OUT(type, at) \
    do { \
        SPARES(markring_##type##_freed(at, entries, 3, &count)); \
        EQUAL(3, count); \
        SPARES(markring_##type##_freed(at, entries + 3, LOST + 1 - 3, &count)); \
        EQUAL(LOST - 3, count); \
        for (uint64_t i = 0; i < LOST; i++) { \
            EQUAL(i, entries[i].word); \
        } \
        SPARES(markring_##type##_freed(at, entries, LOST + 1, &count)); \
        EQUAL(0, count); \
    } while (0)

// A scenario in which a node and a cell list what they free.
static bytes with_lists(void)
{
    markring_space space = {0};
    MAY(markring_node_make(&nodes[0], &LISTED, 0, 0));
    SPARES(markring_node_track_freed(&nodes[0], 1));
    LOSE(node, &nodes[0], 0);
    MAY(markring_node_image(&nodes[0], image, sizeof image, &needed, &mark));
    SPARES(markring_node_kept(&nodes[0], mark));
    HAND_OUT(node, &nodes[0]);
    bytes all = image_of(&nodes[0]);
    SPARES(markring_node_free(&nodes[0]));
    MAY(markring_space_make(&space, &LISTED, 0));
    MAY(open_space(&space));
    SPARES(markring_space_cell(&space, 0, &cells[0]));
    SPARES(markring_space_free(&space));
    SPARES(markring_cell_track_freed(&cells[0], 1));
    LOSE(cell, &cells[0], 0);
    save_cell(0);
    HAND_OUT(cell, &cells[0]);
    // What is lost in a reopening is listed no more.
    LOSE(cell, &cells[0], 1);
    reopen(&cells[0]);
    save_cell(0);
    SPARES(markring_cell_freed(&cells[0], entries, LOST + 1, &count));
    EQUAL(0, count);
    bytes shown = cell_shown(&cells[0]);
    add(&all, shown.at, shown.length);
    drop_bytes(&shown);
    SPARES(markring_cell_free(&cells[0]));
    return all;
}

// `flags` is how many requests are for flags of wide nodes.
static void refuse_each(bytes (*scenario)(void), unsigned long flags)
{
    refused_one = requests = refusals = spared = 0;
    bytes expected = scenario();
    unsigned long total = requests;
    HOLDS(total > 0);
    for (unsigned long one = 1; one <= total; one++) {
        unsigned long before = spared;
        refused_one = one;
        requests = refusals = 0;
        bytes all = scenario();
        HOLDS(same_bytes(&expected, &all));
        EQUAL(1, refusals + (spared - before));
        drop_bytes(&all);
    }
    EQUAL(flags, spared);
    printf("%lu allocations refused\n", total);
    drop_bytes(&expected);
}

int main(void)
{
    refuse_each(over_nodes, 0);
    refuse_each(with_bytes, 2);
    has_letters = 1;
    refuse_each(with_letters, 4);
    has_letters = 0;
    refuse_each(with_log, 0);
    refuse_each(with_logged_bytes, 2);
    refuse_each(with_logged_letters, 4);
    refuse_each(over_cells, 0);
    refuse_each(in_cells, 2);
    refuse_each(letters_in_cells, 2);
    refuse_each(with_lists, 2);
    saves();
    return report();
}
