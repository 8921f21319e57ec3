// Letters with references and bytes, and fetches, between two nodes and between two cells of a wide
// space. What is expected comes from docs/RULES.md and docs/FORMATS.md. random.c has many of them.
#include "check.h"

enum { REGISTERS = 20, SLOTS = 40, PLACES = 8, LONGEST = MARKRING_LETTER_BYTES, ROUNDS = 40 };
static const markring_shape WIDE = {SLOTS, 70000, REGISTERS, 2, PLACES, 1};
static const markring_shape PLAIN = {SLOTS, 0, REGISTERS, 2, 8, 0};
static const markring_ref NOTHING;

static markring_answer answer;
static uint8_t given[LONGEST + 1], found[LONGEST + 2];

static void fill(uint32_t with)
{
    for (size_t i = 0; i < sizeof given; i++) {
        given[i] = (uint8_t)(with + 7 * i + i / 250);
    }
    memset(found, 0x5A, sizeof found);
}

// The bytes that a call found are the first ones given, and none more were written.
static int found_given(size_t length)
{
    return memcmp(found, given, length) == 0 && found[length] == 0x5A;
}

// The call is refused with this status, and there is no answer.
#define REFUSED(status, call) \
    do { \
        blot(&answer); \
        IS((status), (call)); \
        HOLDS(is_blotted(&answer)); \
    } while (0)

// The call is a message with this number on its link.
#define SENT(expected_number, call) \
    do { \
        markring_answer it = {0}; \
        it.kind = MARKRING_ANSWER_SENT; \
        it.number = (expected_number); \
        blot(&answer); \
        OK(call); \
        HOLDS(same_answer(&it, &answer)); \
    } while (0)

// ## Nodes

static markring_node nodes[2];

static void open_node(const markring_shape *shape)
{
    OK(markring_node_make(&nodes[0], shape, 0, 0));
    OK(markring_node_make(&nodes[1], shape, 1, 0));
}

static void close_node(void)
{
    OK(markring_node_free(&nodes[0]));
    OK(markring_node_free(&nodes[1]));
}

// The frame at this place of the window, which is longer than others if it has a letter.
static bytes frame_of(int from, uint8_t place)
{
    bytes frame = {0};
    uint8_t none = 0, to = (uint8_t)(1 - from);
    int status = markring_node_frame_at(&nodes[from], to, place, &none, 0, &frame.room);
    if (status == MARKRING_SHORT_BUFFER) {
        frame.at = (uint8_t *)own(malloc(frame.room));
        OK(markring_node_frame_at(&nodes[from], to, place, frame.at, frame.room, &frame.length));
        EQUAL(frame.room, frame.length);
    } else {
        IS(MARKRING_NOTHING, status);
    }
    return frame;
}

static void take_frame(int to, const bytes *frame, int kind)
{
    OK(markring_node_take(&nodes[to], frame->at, frame->length, &answer));
    EQUAL((uint64_t)kind, answer.kind);
}

// All that a node sent is received and acknowledged.
static void flush_node(int from)
{
    uint8_t ack[MARKRING_ACK_BYTES];
    size_t needed = 0;
    OK(markring_node_release(&nodes[from]));
    for (uint8_t place = 0; place < MARKRING_WINDOW; place++) {
        bytes frame = frame_of(from, place);
        if (frame.length > 0) {
            take_frame(1 - from, &frame, MARKRING_ANSWER_RECEIVED);
        }
        drop_bytes(&frame);
    }
    OK(markring_node_release(&nodes[1 - from]));
    OK(markring_node_ack_for(&nodes[1 - from], (uint8_t)from, ack, sizeof ack, &needed));
    OK(markring_node_take(&nodes[from], ack, needed, &answer));
}

// The node continues from its image. The image of the new node is the same.
static void reopen_node(int which)
{
    bytes image = image_of(&nodes[which]), again;
    OK(markring_node_free(&nodes[which]));
    OK(markring_node_from_image(&nodes[which], image.at, image.length, 0));
    again = image_of(&nodes[which]);
    HOLDS(same_bytes(&image, &again));
    drop_bytes(&image);
    drop_bytes(&again);
}

// ## Cells

static markring_cell cells[2];

static void open_cell(const markring_shape *shape)
{
    markring_space space = {0};
    OK(markring_space_make(&space, shape, 0));
    OK(open_space(&space));
    OK(markring_space_cell(&space, 0, &cells[0]));
    OK(markring_space_cell(&space, 1, &cells[1]));
    OK(markring_space_free(&space));
}

static void close_cell(void)
{
    OK(markring_cell_free(&cells[0]));
    OK(markring_cell_free(&cells[1]));
}

static void save_cell(int which)
{
    size_t size = 0;
    uint64_t mark = 0;
    OK(markring_cell_image_size(&cells[which], &size));
    uint8_t *image = (uint8_t *)own(malloc(size));
    OK(markring_cell_image(&cells[which], image, size, &size, &mark));
    OK(markring_cell_save(&cells[which], mark));
    free(image);
}

// Sends and receives until the sender knows that all it released was received and saved.
static void flush_cell(int from)
{
    uint8_t sender = (uint8_t)from, receiver = (uint8_t)(1 - from), sent = 0;
    markring_link link = {0}, back = {0};
    save_cell(from);
    OK(markring_cell_link(&cells[from], receiver, &link));
    for (int times = 0; back.received < link.released && HOLDS(times < ROUNDS); times++) {
        OK(markring_cell_send(&cells[from], receiver, &sent));
        OK(markring_cell_receive(&cells[1 - from], sender, &answer));
        OK(markring_cell_link(&cells[1 - from], sender, &back));
    }
    save_cell(1 - from);
    for (int times = 0; link.acknowledged < link.released && HOLDS(times < ROUNDS); times++) {
        OK(markring_cell_send(&cells[1 - from], sender, &sent));
        OK(markring_cell_receive(&cells[from], receiver, &answer));
        OK(markring_cell_link(&cells[from], receiver, &link));
    }
}

// The cell is saved, and goes back to that after it has accepted its letter.
static void reopen_cell(int which)
{
    save_cell(which);
    (void)markring_cell_accept(&cells[which], 0, &answer);
    OK(markring_cell_reopen(&cells[which]));
}

// ## What holds of both

#define PASTE(a, b, c) a##b##c
#define GLUE(a, b, c) PASTE(a, b, c)
#define CALL(name) GLUE(markring_, KIND, _##name)
#define OF(name) GLUE(name, _, KIND)
#define HANDLE GLUE(markring_, KIND, )
#define BOTH GLUE(KIND, s, )

#define KIND node
#include "letters_of.h"
#undef KIND
#define KIND cell
#include "letters_of.h"
#undef KIND

// ## What only nodes have

// A message with this tag, from node 1 to node 0, with stamp 0.
static bytes message(uint64_t number, uint8_t tag)
{
    bytes frame = {0};
    add_number(&frame, 0x460100, 3);
    add_number(&frame, number, 8);
    add_number(&frame, 0, 8);
    add_number(&frame, tag, 1);
    return frame;
}

static void add_ref(bytes *to, markring_ref it)
{
    add_number(to, it.node, 1);
    add_number(to, it.slot, 4);
    add_number(to, it.generation, 8);
}

// A Post with these references, of which nothing is one, and bytes.
static bytes post_frame(uint64_t number, uint32_t label, const markring_ref *sent, uint8_t count,
    size_t length)
{
    bytes frame = message(number, 9);
    add_number(&frame, label, 4);
    add_number(&frame, count, 1);
    for (uint8_t i = 0; i < count; i++) {
        add_number(&frame, markring_ref_is_some(sent[i]), 1);
        if (markring_ref_is_some(sent[i])) {
            add_ref(&frame, sent[i]);
        }
    }
    add_number(&frame, length, 4);
    add(&frame, given, length);
    return frame;
}

static bytes fetch_frame(uint64_t number, markring_ref object, uint32_t label, uint32_t offset,
    uint32_t count)
{
    bytes frame = message(number, 10);
    add_ref(&frame, object);
    add_number(&frame, label, 4);
    add_number(&frame, offset, 4);
    add_number(&frame, count, 4);
    return frame;
}

// The next frame of node 1 is this one, which node 0 receives.
static void expect_frame(bytes *expected)
{
    OK(markring_node_release(&nodes[1]));
    bytes frame = frame_of(1, 0);
    HOLDS(same_bytes(expected, &frame));
    flush_node(1);
    drop_bytes(&frame);
    drop_bytes(expected);
}

// Frames are spelled as docs/FORMATS.md says, whoever spells them.
static void frames(void)
{
    markring_ref sent[3] = {{0}};
    open_node(&WIDE);
    fill(3);
    OK(markring_node_alloc(&nodes[1], 3, 0, &answer));
    sent[1] = answer.reference;
    SENT(1, markring_node_post(&nodes[1], 0, 0xA1B2C3D4, 2, 3, given, 300, &answer));
    bytes expected = post_frame(1, 0xA1B2C3D4, sent, 3, 300);
    expect_frame(&expected);
    SENT(2, markring_node_post(&nodes[1], 0, 1, REGISTERS, 0, given, 0, &answer));
    expected = post_frame(2, 1, sent, 0, 0);
    expect_frame(&expected);
    // Node 0's object, of which node 1 asks for some bytes.
    OK(markring_node_alloc(&nodes[0], 0, 0, &answer));
    OK(markring_node_give(&nodes[0], 1, 4, 0, &answer));
    flush_node(0);
    OK(markring_node_accept(&nodes[1], 0, &answer));
    SENT(3, markring_node_fetch(&nodes[1], 0, 0xB1B2B3B4, 0x01020304, 0x0506, &answer));
    expected = fetch_frame(3, (markring_ref){0, 0, 1}, 0xB1B2B3B4, 0x01020304, 0x0506);
    expect_frame(&expected);
    // The example of the document.
    static const uint8_t EXAMPLE[] = {0x46, 0, 1, 0, 0, 0, 0, 0, 0, 0, 1, 0, 0, 0, 0, 0, 0, 0, 0, 9,
        0, 0, 0, 10, 1, 0, 0, 0, 0, 2, 0xBE, 0xEF};
    close_node();
    open_node(&WIDE);
    SENT(1, markring_node_post(&nodes[0], 1, 10, 0, 1, EXAMPLE + 30, 2, &answer));
    OK(markring_node_release(&nodes[0]));
    bytes frame = frame_of(0, 0);
    HOLDS(frame.length == sizeof EXAMPLE && memcmp(frame.at, EXAMPLE, frame.length) == 0);
    drop_bytes(&frame);
    close_node();
}

// Frames that aren't spelled rightly, or that this node can't receive.
static void wrong_frames(void)
{
    markring_ref sent[9] = {{1, 0, 1}, {0, 3, 9}, {0, 0, 0}};
    markring_shape small = {SLOTS, 10, REGISTERS, 2, 3, 1};
    fill(5);
    open_node(&small);
    bytes right = post_frame(1, 7, sent, 3, 10);
    for (size_t length = 0; length < right.length; length++) {
        REFUSED(MARKRING_BAD_FRAME, markring_node_take(&nodes[0], right.at, length, &answer));
    }
    add_number(&right, 0, 1);
    REFUSED(MARKRING_BAD_FRAME, markring_node_take(&nodes[0], right.at, right.length, &answer));
    right.length--;
    // A Post never begins with 45.
    right.at[0] = 0x45;
    REFUSED(MARKRING_BAD_FRAME, markring_node_take(&nodes[0], right.at, right.length, &answer));
    drop_bytes(&right);
    // More references than the space has, a slot that it hasn't, another node's object.
    const markring_ref far = {1, SLOTS, 1}, other = {1, 0, 1}, own_object = {0, 0, 1};
    bytes wrong[] = {post_frame(1, 7, sent, 4, 0), post_frame(1, 7, &far, 1, 0),
        fetch_frame(1, other, 7, 0, 0)};
    for (size_t i = 0; i < sizeof wrong / sizeof *wrong; i++) {
        REFUSED(MARKRING_WRONG_NODE,
            markring_node_take(&nodes[0], wrong[i].at, wrong[i].length, &answer));
        drop_bytes(&wrong[i]);
    }
    // One more byte than a letter or the answer to a Fetch can have.
    bytes longer = post_frame(1, 7, sent, 0, LONGEST + 1);
    REFUSED(MARKRING_BAD_FRAME, markring_node_take(&nodes[0], longer.at, longer.length, &answer));
    drop_bytes(&longer);
    longer = fetch_frame(1, own_object, 7, 0, LONGEST - 7);
    REFUSED(MARKRING_BAD_FRAME, markring_node_take(&nodes[0], longer.at, longer.length, &answer));
    drop_bytes(&longer);
    right = post_frame(1, 7, sent, 3, 10);
    take_frame(0, &right, MARKRING_ANSWER_RECEIVED);
    take_frame(0, &right, MARKRING_ANSWER_REPEAT);
    drop_bytes(&right);
    right = fetch_frame(2, own_object, 7, 0, LONGEST - 8);
    take_frame(0, &right, MARKRING_ANSWER_RECEIVED);
    close_node();
    // A plain space has neither.
    open_node(&PLAIN);
    bytes post = post_frame(1, 7, sent, 0, 0);
    REFUSED(MARKRING_WRONG_NODE, markring_node_take(&nodes[0], post.at, post.length, &answer));
    right.at[10] = 1;
    REFUSED(MARKRING_WRONG_NODE, markring_node_take(&nodes[0], right.at, right.length, &answer));
    drop_bytes(&post);
    drop_bytes(&right);
    close_node();
}

// A letter that comes before its turn waits, with all that it has.
static void early(void)
{
    bytes frames[3];
    markring_ref sent[2] = {{0}};
    uint64_t number = 0;
    open_node(&WIDE);
    OK(markring_node_alloc(&nodes[0], 0, 0, &answer));
    sent[0] = answer.reference;
    for (uint8_t i = 0; i < 3; i++) {
        fill(i);
        SENT(i + 1u, markring_node_post(&nodes[0], 1, i, 0, 2, given, 1000u * i, &answer));
    }
    OK(markring_node_release(&nodes[0]));
    for (uint8_t i = 0; i < 3; i++) {
        frames[i] = frame_of(0, i);
    }
    take_frame(1, &frames[2], MARKRING_ANSWER_EARLY);
    take_frame(1, &frames[1], MARKRING_ANSWER_EARLY);
    // The position is occupied.
    take_frame(1, &frames[2], MARKRING_ANSWER_EARLY);
    IS(MARKRING_NO_LETTER, markring_node_letter(&nodes[1], &answer));
    take_frame(1, &frames[0], MARKRING_ANSWER_RECEIVED);
    for (uint64_t i = 2; i <= 3; i++) {
        OK(markring_node_waiting(&nodes[1], 0, &number));
        EQUAL(i, number);
        OK(markring_node_next(&nodes[1], 0, &answer));
    }
    IS(MARKRING_NOTHING, markring_node_waiting(&nodes[1], 0, &number));
    for (uint8_t i = 0; i < 3; i++) {
        size_t needed = 0;
        fill(i);
        OK(markring_node_accept_into(&nodes[1], 4, found, sizeof found, &needed, &answer));
        HOLDS(answer.label == i && needed == 1000u * i && found_given(needed));
        HOLDS(same_ref(answer.reference, sent[0]) && answer.count == 2);
        drop_bytes(&frames[i]);
    }
    close_node();
}

// A node that is full of messages to the other one, and one whose link has no number left.
static void no_more(void)
{
    bytes image = {0};
    const uint8_t head[] = {0x4D, 0x52, 4, 1, 0, 0, 0, 9, 2, 0, 0, 2, 0, 0, 0, 1}, zeros[64] = {0};
    OK(markring_node_make(&nodes[0], &WIDE, 0, 2));
    OK(markring_node_make(&nodes[1], &WIDE, 1, 0));
    OK(markring_node_alloc(&nodes[1], 0, 0, &answer));
    OK(markring_node_give(&nodes[1], 0, 1, 0, &answer));
    flush_node(1);
    OK(markring_node_accept(&nodes[0], 0, &answer));
    SENT(1, markring_node_post(&nodes[0], 1, 0, 0, 1, given, 3, &answer));
    SENT(2, markring_node_fetch(&nodes[0], 0, 0, 0, 0, &answer));
    REFUSED(MARKRING_CONGESTED,
        markring_node_post(&nodes[0], 1, 0, 99, 99, given, LONGEST + 1, &answer));
    REFUSED(MARKRING_CONGESTED, markring_node_fetch(&nodes[0], 0, 0, 0, UINT32_MAX, &answer));
    REFUSED(MARKRING_EMPTY_REGISTER, markring_node_fetch(&nodes[0], 1, 0, 0, 0, &answer));
    // The answer to a Fetch is never refused.
    OK(markring_node_free(&nodes[1]));
    OK(markring_node_make(&nodes[1], &WIDE, 1, 1));
    SENT(1, markring_node_post(&nodes[1], 0, 0, 0, 0, given, 0, &answer));
    flush_node(0);
    markring_link link;
    OK(markring_node_link(&nodes[1], 0, &link));
    EQUAL(2, link.appended);
    close_node();
    // Node 0 of two, with two registers; the first one refers to 1.0.1.
    add(&image, head, sizeof head);
    add(&image, zeros, 3 * 8 + 4 + 1 + 8 + 8 + 1 + 8);
    add_number(&image, 1, 1);
    add_ref(&image, (markring_ref){1, 0, 1});
    add(&image, zeros, 1 + 5 * 4);
    add_number(&image, MARKRING_LAST_NUMBER - 1, 8);
    add(&image, zeros, 4 + 8);
    for (int is_fetch = 0; is_fetch < 2; is_fetch++) {
        OK(markring_node_from_image(&nodes[0], image.at, image.length, 0));
        REFUSED(MARKRING_TOO_MANY_BYTES,
            markring_node_post(&nodes[0], 1, 0, 0, 1, given, 10, &answer));
        if (is_fetch) {
            SENT(MARKRING_LAST_NUMBER, markring_node_fetch(&nodes[0], 0, 0, 0, 0, &answer));
        } else {
            SENT(MARKRING_LAST_NUMBER,
                markring_node_post(&nodes[0], 1, 0, 0, 1, given, 9, &answer));
        }
        REFUSED(MARKRING_LINK_SPENT, markring_node_post(&nodes[0], 1, 0, 0, 1, given, 9, &answer));
        REFUSED(MARKRING_LINK_SPENT, markring_node_fetch(&nodes[0], 0, 0, 0, 0, &answer));
        REFUSED(MARKRING_TOO_MANY_FIELDS,
            markring_node_post(&nodes[0], 1, 0, 0, 2, given, 10, &answer));
        OK(markring_node_free(&nodes[0]));
    }
    drop_bytes(&image);
}

// An object of another generation, which is gone, gives no byte.
static void gone(void)
{
    size_t needed = 77;
    open_node(&WIDE);
    OK(markring_node_alloc(&nodes[0], 0, 0, &answer));
    // Letters of node 0 with its object 0.0.1, and with 0.0.2 and 0.1.1, which never were.
    bytes frame = {0};
    const markring_ref sent[] = {{0, 0, 1}, {0, 0, 2}, {0, 1, 1}};
    frame = post_frame(1, 5, sent, 3, 0);
    frame.at[1] = 0;
    frame.at[2] = 1;
    take_frame(1, &frame, MARKRING_ANSWER_RECEIVED);
    OK(markring_node_accept(&nodes[1], 0, &answer));
    for (uint16_t reg = 0; reg < 3; reg++) {
        SENT(reg + 1u, markring_node_fetch(&nodes[1], reg, 40u + reg, 0, 0, &answer));
    }
    flush_node(1);
    drop_bytes(&frame);
    // The first frame to node 1 wasn't node 0's own.
    OK(markring_node_release(&nodes[0]));
    for (uint8_t place = 1; place < 3; place++) {
        frame = frame_of(0, place);
        take_frame(1, &frame, MARKRING_ANSWER_RECEIVED);
        drop_bytes(&frame);
    }
    for (uint32_t label = 41; label <= 42; label++) {
        OK(markring_node_accept_into(&nodes[1], 5, found, 0, &needed, &answer));
        HOLDS(answer.label == label && answer.number == 0 && needed == 0 && answer.count == 1);
    }
    close_node();
}

// The frames of a window with letters: as many as fit, and how many bytes all take.
static void window(void)
{
    enum { HEAD = 4 + 8, LENGTH = 20 + 4 + 1 + 4 };
    static uint8_t all[1 << 18];
    const size_t sizes[] = {HEAD + LENGTH + LONGEST, HEAD + LENGTH + 8 + 100, HEAD + 25,
        HEAD + LENGTH + LONGEST};
    size_t count = 77, needed = 77, total = 0, before = 0;
    open_node(&WIDE);
    fill(9);
    SENT(1, markring_node_post(&nodes[0], 1, 0, 0, 0, given, LONGEST, &answer));
    SENT(2, markring_node_post(&nodes[0], 1, 0, 0, 8, given, 100, &answer));
    SENT(3, markring_node_give(&nodes[0], 1, 0, 0, &answer));
    SENT(4, markring_node_post(&nodes[0], 1, 0, 0, 0, given, LONGEST, &answer));
    OK(markring_node_release(&nodes[0]));
    for (int i = 0; i < 4; i++) {
        total += sizes[i];
    }
    for (size_t i = 0; i < 4; i++) {
        const uint8_t *at = all + before;
        IS(before == 0 ? MARKRING_SHORT_BUFFER : MARKRING_OK,
            markring_node_frames(&nodes[0], 1, 0, all, before + sizes[i] - 1, &count, &needed));
        EQUAL(i == 0 ? 77 : i, count);
        EQUAL(total, needed);
        OK(markring_node_frames(&nodes[0], 1, 0, all, before + sizes[i], &count, &needed));
        EQUAL(i + 1, count);
        EQUAL(total, needed);
        bytes frame = frame_of(0, (uint8_t)i), expected = {0};
        add_number(&expected, sizes[i] - HEAD, 4);
        add_number(&expected, i + 1, 8);
        add(&expected, frame.at, frame.length);
        EQUAL(sizes[i], expected.length);
        HOLDS(memcmp(at, expected.at, expected.length) == 0);
        before += sizes[i];
        drop_bytes(&frame);
        drop_bytes(&expected);
    }
    OK(markring_node_frames(&nodes[0], 1, 3, all, sizeof all, &count, &needed));
    HOLDS(count == 1 && needed == sizes[3]);
    close_node();
}

// How many bytes these events take in a log.
static void logged(void)
{
    size_t size = 0;
    bytes image, batch = {0};
    uint64_t mark = 0;
    open_node(&WIDE);
    OK(markring_node_alloc(&nodes[1], 0, 0, &answer));
    OK(markring_node_give(&nodes[1], 0, 1, 0, &answer));
    flush_node(1);
    OK(markring_node_accept(&nodes[0], 2, &answer));
    OK(markring_node_log(&nodes[0], 1));
    image = image_of(&nodes[0]);
    OK(markring_node_kept(&nodes[0], 1));
    SENT(1, markring_node_post(&nodes[0], 1, 0xA1B2C3D4, 2, 1, (const uint8_t *)"ab", 2, &answer));
    SENT(2, markring_node_fetch(&nodes[0], 2, 5, 6, 7, &answer));
    static const uint8_t EVENTS[] = {0, 0, 0, 0, 0, 0, 0, 30, 0x16, 1, 0xA1, 0xB2, 0xC3, 0xD4, 0, 2,
        1, 0, 0, 0, 2, 'a', 'b', 0x17, 0, 2, 0, 0, 0, 5, 0, 0, 0, 6, 0, 0, 0, 7};
    OK(markring_node_batch_size(&nodes[0], &size));
    EQUAL(sizeof EVENTS, size);
    batch.at = (uint8_t *)own(malloc(size));
    OK(markring_node_batch(&nodes[0], batch.at, size, &batch.length, &mark));
    HOLDS(memcmp(batch.at, EVENTS, sizeof EVENTS) == 0);
    bytes expected = image_of(&nodes[0]), again;
    OK(markring_node_free(&nodes[0]));
    OK(markring_node_from_batches(&nodes[0], image.at, image.length, batch.at, size, 0));
    again = image_of(&nodes[0]);
    HOLDS(same_bytes(&expected, &again));
    drop_bytes(&image);
    drop_bytes(&batch);
    drop_bytes(&expected);
    drop_bytes(&again);
    close_node();
}

int main(void)
{
    both_node();
    both_cell();
    frames();
    wrong_frames();
    early();
    no_more();
    gone();
    window();
    logged();
    return report();
}
