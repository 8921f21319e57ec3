// Batches: the events of a node since its last image or batch. Nodes of a space do random events,
// and are saved by batches at random moments. Each has a twin that is given the same calls and is
// saved by images alone. After a crash a node is taken back from its image and its batches, and has
// to be what the image of its twin says. Then come damaged batches, short buffers, and logs that
// aren't there.
//
//     batches SEEDS STEPS
#include "check.h"

enum { NODES = 3, REGISTERS = 4, SLOTS = 40, MOST_PLACES = 20, BYTES = 50, NET = 48 };
// The most bytes of a frame: a letter with all registers and an object's word and bytes.
enum { FRAME = 20 + 4 + 1 + 14 * REGISTERS + 4 + 8 + BYTES };

typedef struct site {
    // The node with a log, and the one without.
    markring_node node, twin;
    // What is stored: an image and the batches behind it; and the image of the twin at that moment.
    bytes image, batches, reference;
    // The marks of what is stored and doesn't count as saved yet, or 0.
    uint64_t mark, twin_mark;
    // The end of each batch, and the twin's image then.
    bytes ends, references[256];
    size_t count;
} site;

typedef struct packet {
    uint8_t from, to;
    size_t length;
    uint8_t frame[FRAME];
} packet;

static int is_wide;
static site sites[NODES];
static packet net[NET];
static int in_net;
static uint64_t seed;
static unsigned long crashes, given, images, resumed, bad, good, written, posted, fetched;

static void copy(bytes *to, const bytes *from)
{
    to->length = 0;
    add(to, from->at, from->length);
}

// Images of a node with a log differ from others in the third byte, as do those of a wide space.
static int same_image(const bytes *logged, const bytes *plain)
{
    int version = is_wide ? 4 : 2;
    return logged->length == plain->length && logged->length > 3 && logged->at[2] == version + 1
        && plain->at[2] == version && memcmp(logged->at, plain->at, 2) == 0
        && memcmp(logged->at + 3, plain->at + 3, plain->length - 3) == 0;
}

static int take_back(markring_node *node, const bytes *image, const uint8_t *batches, size_t length)
{
    static const uint8_t none[1] = {0};
    return markring_node_from_batches(
        node, image->at, image->length, length > 0 ? batches : none, length, 0);
}

// ## Events, of a node and of its twin

static int both(site *it, const markring_event *event)
{
    markring_answer answer, other;
    blot(&answer);
    blot(&other);
    int status = markring_node_act(&it->node, event, &answer);
    IS(status, markring_node_act(&it->twin, event, &other));
    HOLDS(status == MARKRING_OK ? same_answer(&answer, &other)
                                : is_blotted(&answer) && is_blotted(&other));
    return status;
}

static void act(uint8_t own_number)
{
    markring_event event;
    memset(&event, 0, sizeof event);
    event.kind = (uint8_t)(1 + below(&seed, 17));
    // Objects and letters more often than the rest.
    if (below(&seed, 3) == 0) {
        event.kind = below(&seed, 2) != 0 ? MARKRING_EVENT_ALLOC : MARKRING_EVENT_GIVE;
    }
    event.node = (uint8_t)below(&seed, NODES);
    event.place = (uint8_t)below(&seed, is_wide ? MOST_PLACES + 2 : 4);
    event.reg = (uint16_t)below(&seed, REGISTERS);
    event.source = (uint16_t)below(&seed, REGISTERS);
    event.object = (uint16_t)below(&seed, REGISTERS);
    event.label = (uint32_t)draw(&seed);
    event.count = 1 + below(&seed, 30);
    event.word = draw(&seed);
    (void)both(&sites[own_number], &event);
}

// Writes bytes of an object; often too many, or over some that it hasn't.
static void write_bytes(uint8_t own_number)
{
    markring_answer answer, other;
    uint8_t all[BYTES + 1];
    site *it = &sites[own_number];
    uint16_t object = (uint16_t)below(&seed, REGISTERS);
    uint32_t length = below(&seed, BYTES + 2), offset = below(&seed, BYTES);
    int is_patch = below(&seed, 2) == 0, status, again;
    for (uint32_t i = 0; i < length; i++) {
        all[i] = (uint8_t)draw(&seed);
    }
    blot(&answer);
    blot(&other);
    if (is_patch) {
        length = below(&seed, length + 1);
        status = markring_node_patch(&it->node, object, offset, all, length, &answer);
        again = markring_node_patch(&it->twin, object, offset, all, length, &other);
    } else {
        status = markring_node_set_bytes(&it->node, object, all, length, &answer);
        again = markring_node_set_bytes(&it->twin, object, all, length, &other);
    }
    IS(status, again);
    HOLDS(status == MARKRING_OK ? same_answer(&answer, &other)
                                : is_blotted(&answer) && is_blotted(&other));
    written += status == MARKRING_OK && length > 0;
}

// Sends a letter with references and bytes, or asks for a word and bytes of another node's object.
static void post_or_fetch(uint8_t own_number)
{
    markring_answer answer, other;
    uint8_t all[BYTES + 1];
    site *it = &sites[own_number];
    int is_post = below(&seed, 2) == 0, status, again;
    uint8_t to = (uint8_t)below(&seed, NODES), count = (uint8_t)below(&seed, REGISTERS + 1);
    uint16_t reg = (uint16_t)below(&seed, REGISTERS - (is_post ? count - 1u : 0u) + 1u);
    uint32_t label = (uint32_t)draw(&seed), length = below(&seed, BYTES + 2);
    for (uint32_t i = 0; i < length; i++) {
        all[i] = (uint8_t)draw(&seed);
    }
    blot(&answer);
    blot(&other);
    if (is_post) {
        status = markring_node_post(&it->node, to, label, reg, count, all, length, &answer);
        again = markring_node_post(&it->twin, to, label, reg, count, all, length, &other);
    } else {
        status = markring_node_fetch(&it->node, reg, label, count, length, &answer);
        again = markring_node_fetch(&it->twin, reg, label, count, length, &other);
    }
    IS(status, again);
    HOLDS(status == MARKRING_OK ? same_answer(&answer, &other)
                                : is_blotted(&answer) && is_blotted(&other));
    posted += is_post && status == MARKRING_OK;
    fetched += !is_post && status == MARKRING_OK;
}

// Both have the same letter, with the same bytes.
static void compare_letters(site *it)
{
    markring_answer answer, other;
    uint8_t all[8 + BYTES] = {0}, twin[8 + BYTES] = {0};
    size_t needed = 0, length = 0;
    int status = markring_node_letter(&it->node, &answer);
    IS(status, markring_node_letter(&it->twin, &other));
    HOLDS(status != MARKRING_OK || same_answer(&answer, &other));
    IS(status, markring_node_letter_bytes(&it->node, all, sizeof all, &needed));
    IS(status, markring_node_letter_bytes(&it->twin, twin, sizeof twin, &length));
    HOLDS(needed == length && memcmp(all, twin, sizeof all) == 0);
}

static void take(const packet *it)
{
    markring_answer answer, other;
    site *to = &sites[it->to];
    blot(&answer);
    blot(&other);
    int status = markring_node_take(&to->node, it->frame, it->length, &answer);
    IS(status, markring_node_take(&to->twin, it->frame, it->length, &other));
    HOLDS(same_answer(&answer, &other));
    HOLDS(status == MARKRING_OK);
}

static void receive_waiting(uint8_t own_number, uint8_t from)
{
    uint64_t number;
    markring_event event;
    memset(&event, 0, sizeof event);
    event.kind = MARKRING_EVENT_NEXT;
    event.node = from;
    while (markring_node_waiting(&sites[own_number].node, from, &number) == MARKRING_OK) {
        OK(both(&sites[own_number], &event));
    }
}

// A node offers a frame of its window, or an acknowledgement. The twin offers the same.
static void offer(uint8_t from, uint8_t to, uint8_t place)
{
    packet it = {from, to, 0, {0}};
    uint8_t frame[FRAME] = {0};
    size_t needed = 0, other = 0;
    site *at = &sites[from];
    int status, again;
    if (place < 32) {
        status = markring_node_frame_at(&at->node, to, place, it.frame, FRAME, &needed);
        again = markring_node_frame_at(&at->twin, to, place, frame, FRAME, &other);
    } else {
        status = markring_node_ack_for(&at->node, to, it.frame, FRAME, &needed);
        again = markring_node_ack_for(&at->twin, to, frame, FRAME, &other);
    }
    HOLDS(status == again && needed == other && memcmp(frame, it.frame, FRAME) == 0);
    HOLDS(status == MARKRING_OK || status == MARKRING_NOTHING);
    if (status == MARKRING_OK) {
        it.length = needed;
        net[in_net < NET ? in_net++ : (int)below(&seed, NET)] = it;
    }
}

static void deliver_one(void)
{
    if (in_net == 0) {
        return;
    }
    int at = (int)below(&seed, (uint32_t)in_net);
    packet it = net[at];
    if (below(&seed, 8) != 0) {
        net[at] = net[--in_net];
    }
    take(&it);
    if (below(&seed, 2) != 0) {
        receive_waiting(it.to, it.from);
    }
}

// ## Saves and crashes

static void take_twin(site *it)
{
    size_t needed = 0, size = 0;
    OK(markring_node_image_size(&it->twin, &size));
    it->reference.length = 0;
    if (it->reference.room < size) {
        it->reference.at = (uint8_t *)own(realloc(it->reference.at, size));
        it->reference.room = size;
    }
    OK(markring_node_image(&it->twin, it->reference.at, size, &needed, &it->twin_mark));
    it->reference.length = needed;
}

// Stores a batch, if there is a log.
static int store_batch(site *it)
{
    size_t size = 0, needed = 0;
    uint64_t mark = 0;
    uint8_t flag = 0;
    int status = markring_node_batch_size(&it->node, &size);
    if (status != MARKRING_OK) {
        IS(MARKRING_NO_LOG, status);
        IS(MARKRING_NO_LOG, markring_node_batch(&it->node, &flag, 1, &needed, &mark));
        HOLDS(mark == 0 && needed == 0);
        return 0;
    }
    HOLDS(size >= 8);
    uint8_t *buffer = (uint8_t *)own(malloc(size));
    // One byte too few changes nothing.
    IS(MARKRING_SHORT_BUFFER,
        markring_node_batch(&it->node, buffer, size - 1, &needed, &mark));
    HOLDS(mark == 0 && needed == size);
    OK(markring_node_batch(&it->node, buffer, size, &needed, &it->mark));
    EQUAL(size, needed);
    add(&it->batches, buffer, needed);
    add_number(&it->ends, it->batches.length, 8);
    free(buffer);
    given++;
    return 1;
}

static void store_image(site *it)
{
    size_t needed = 0, size = 0;
    OK(markring_node_image_size(&it->node, &size));
    it->image.length = 0;
    if (it->image.room < size) {
        it->image.at = (uint8_t *)own(realloc(it->image.at, size));
        it->image.room = size;
    }
    OK(markring_node_image(&it->node, it->image.at, size, &needed, &it->mark));
    it->image.length = needed;
    it->batches.length = it->ends.length = 0;
    it->count = 0;
    images++;
}

// Stores a batch or an image; or says that what is stored counts.
static void store(uint8_t own_number)
{
    site *it = &sites[own_number];
    if (it->mark != 0) {
        OK(markring_node_kept(&it->node, it->mark));
        OK(markring_node_kept(&it->twin, it->twin_mark));
        it->mark = 0;
        return;
    }
    if (below(&seed, 40) == 0 || it->count == 255 || !store_batch(it)) {
        store_image(it);
    } else {
        it->count++;
    }
    take_twin(it);
    copy(&it->references[it->count], &it->reference);
}

static void crash(uint8_t own_number)
{
    site *it = &sites[own_number];
    OK(markring_node_free(&it->node));
    OK(markring_node_free(&it->twin));
    OK(markring_node_from_image(&it->twin, it->reference.at, it->reference.length, 0));
    OK(take_back(&it->node, &it->image, it->batches.at, it->batches.length));
    it->mark = 0;
    crashes++;
    bytes plain = shown(&it->twin), logged;
    if (below(&seed, 2) != 0) {
        // A copy shows the image, so that the log isn't begun again.
        markring_node other = {0};
        OK(take_back(&other, &it->image, it->batches.at, it->batches.length));
        logged = shown(&other);
        OK(markring_node_free(&other));
        resumed++;
    } else {
        // This image is stored nowhere, so the next save has to be an image.
        size_t size = 0;
        logged = shown(&it->node);
        IS(MARKRING_NO_LOG, markring_node_batch_size(&it->node, &size));
    }
    HOLDS(same_image(&logged, &plain));
    compare_letters(it);
    drop_bytes(&logged);
    drop_bytes(&plain);
}

static void step(void)
{
    uint8_t own_number = (uint8_t)below(&seed, NODES), other = (uint8_t)below(&seed, NODES - 1);
    other = (uint8_t)(other + (other >= own_number));
    uint32_t kind = below(&seed, 1000);
    if (kind < 60 && is_wide) {
        write_bytes(own_number);
    } else if (kind < 120 && is_wide) {
        post_or_fetch(own_number);
    } else if (kind < 400) {
        act(own_number);
    } else if (kind < 600) {
        deliver_one();
    } else if (kind < 750) {
        offer(own_number, other, (uint8_t)below(&seed, below(&seed, 2) != 0 ? 4 : 40));
    } else if (kind < 800) {
        receive_waiting(own_number, other);
    } else if (kind < 990) {
        store(own_number);
    } else {
        crash(own_number);
    }
}

// ## Damage

// A batch that is cut off isn't one, and what was stored before it is as it was.
static void cut(site *it)
{
    size_t start = 0;
    for (size_t i = 0; i < it->count; i++) {
        markring_node node = {0};
        size_t end = 0;
        for (int k = 0; k < 8; k++) {
            end = end << 8 | it->ends.at[8 * i + (size_t)k];
        }
        size_t at = start + 1 + below(&seed, (uint32_t)(end - start - 1));
        IS(MARKRING_BAD_IMAGE, take_back(&node, &it->image, it->batches.at, at));
        HOLDS(node.at == NULL);
        if (OK(take_back(&node, &it->image, it->batches.at, end))) {
            bytes image = image_of(&node);
            HOLDS(same_image(&image, &it->references[i + 1]));
            drop_bytes(&image);
            OK(markring_node_free(&node));
        }
        start = end;
    }
}

// Changed bytes are refused, or are read as a node that can be saved.
static void damage(site *it)
{
    bytes changed = {0};
    for (int times = 0; times < 40 && it->batches.length > 0; times++) {
        markring_node node = {0};
        copy(&changed, &it->batches);
        for (uint32_t i = 1 + below(&seed, 3); i-- > 0;) {
            changed.at[below(&seed, (uint32_t)changed.length)] = (uint8_t)draw(&seed);
        }
        int status = take_back(&node, &it->image, changed.at, changed.length);
        HOLDS(status == MARKRING_OK || status == MARKRING_BAD_IMAGE);
        HOLDS((node.at != NULL) == (status == MARKRING_OK));
        bad += status == MARKRING_BAD_IMAGE;
        good += status == MARKRING_OK;
        if (status == MARKRING_OK) {
            bytes image = image_of(&node);
            drop_bytes(&image);
            OK(markring_node_free(&node));
        }
    }
    drop_bytes(&changed);
}

// A node of a wide space, or of a plain one.
static int make(markring_node *node, uint8_t own_number)
{
    static const markring_shape SHAPE = {SLOTS, BYTES, REGISTERS, NODES, MOST_PLACES, 1};
    return is_wide ? markring_node_make(node, &SHAPE, own_number, 0)
                   : markring_node_new(node, NODES, REGISTERS, SLOTS, own_number, 0);
}

static void run(unsigned long steps)
{
    for (uint8_t node = 0; node < NODES; node++) {
        OK(make(&sites[node].node, node));
        OK(make(&sites[node].twin, node));
        OK(markring_node_log(&sites[node].node, 1));
        store(node);
        store(node);
    }
    for (unsigned long i = 0; i < steps && failed == 0; i++) {
        step();
    }
    in_net = 0;
    for (uint8_t node = 0; node < NODES; node++) {
        site *it = &sites[node];
        cut(it);
        damage(it);
        OK(markring_node_free(&it->node));
        OK(markring_node_free(&it->twin));
        drop_bytes(&it->image);
        drop_bytes(&it->batches);
        drop_bytes(&it->reference);
        drop_bytes(&it->ends);
        for (size_t i = 0; i < 256; i++) {
            drop_bytes(&it->references[i]);
        }
    }
    memset(sites, 0, sizeof sites);
}

// ## Logs that aren't there

static markring_answer answer;

static int batch_status(markring_node *node)
{
    size_t size = 0;
    return markring_node_batch_size(node, &size);
}

// Takes an image or a batch of at most this many bytes, and keeps it.
static void keep_batch(markring_node *node)
{
    static uint8_t buffer[1 << 21];
    size_t needed = 0;
    uint64_t mark = 0;
    OK(markring_node_batch(node, buffer, sizeof buffer, &needed, &mark));
    OK(markring_node_kept(node, mark));
}

static void without_log(void)
{
    markring_node node = {0};
    size_t size = 0;
    IS(MARKRING_NO_HANDLE, markring_node_log(&node, 1));
    IS(MARKRING_NO_HANDLE, markring_node_batch_size(&node, &size));
    OK(markring_node_new(&node, 2, 2, 8, 0, 0));
    IS(MARKRING_IN_USE, markring_node_from_batches(&node, (const uint8_t *)"", 0,
        (const uint8_t *)"", 0, 0));
    IS(MARKRING_NO_LOG, batch_status(&node));
    save(&node);
    IS(MARKRING_NO_LOG, batch_status(&node));
    // It begins with the next image, and is of use once that is kept.
    OK(markring_node_log(&node, 1));
    IS(MARKRING_NO_LOG, batch_status(&node));
    bytes image = image_of(&node);
    IS(MARKRING_NO_LOG, batch_status(&node));
    save(&node);
    OK(batch_status(&node));
    // To begin it again changes nothing.
    OK(markring_node_alloc(&node, 0, 0, &answer));
    OK(markring_node_log(&node, 1));
    OK(markring_node_batch_size(&node, &size));
    EQUAL(8 + 4, size);
    keep_batch(&node);
    OK(markring_node_batch_size(&node, &size));
    EQUAL(8, size);
    // A release loses it, and so does its end.
    OK(markring_node_release(&node));
    IS(MARKRING_NO_LOG, batch_status(&node));
    save(&node);
    OK(batch_status(&node));
    OK(markring_node_log(&node, 0));
    IS(MARKRING_NO_LOG, batch_status(&node));
    OK(markring_node_log(&node, 1));
    IS(MARKRING_NO_LOG, batch_status(&node));
    save(&node);
    OK(batch_status(&node));
    OK(markring_node_free(&node));
    drop_bytes(&image);
}

// Words that are read, repeats and acknowledgements that drop nothing take no room in a log.
static void quiet(void)
{
    markring_node zero = {0}, one = {0};
    uint8_t frame[48], ack[16];
    size_t length = 0, ack_length = 0, size = 0;
    OK(markring_node_new(&zero, 2, 2, 8, 0, 0));
    OK(markring_node_new(&one, 2, 2, 8, 1, 0));
    OK(markring_node_log(&zero, 1));
    OK(markring_node_alloc(&zero, 0, 0, &answer));
    OK(markring_node_give(&zero, 1, 7, 0, &answer));
    save(&zero);
    OK(markring_node_frame_at(&zero, 1, 0, frame, sizeof frame, &length));
    OK(markring_node_take(&one, frame, length, &answer));
    save(&one);
    OK(markring_node_ack_for(&one, 0, ack, sizeof ack, &ack_length));
    for (int times = 0; times < 5; times++) {
        OK(markring_node_word(&zero, 0, &answer));
        OK(markring_node_take(&zero, ack, ack_length, &answer));
        OK(markring_node_batch_size(&zero, &size));
        EQUAL(8 + 11, size);
    }
    keep_batch(&zero);
    for (int times = 0; times < 5; times++) {
        OK(markring_node_take(&zero, ack, ack_length, &answer));
        OK(markring_node_batch_size(&zero, &size));
        EQUAL(8, size);
    }
    OK(markring_node_free(&zero));
    OK(markring_node_free(&one));
}

// A log has at most 1,048,576 bytes.
static void long_log(void)
{
    markring_node node = {0}, other = {0};
    size_t size = 0, needed = 0;
    uint64_t mark = 0;
    OK(markring_node_new(&node, 2, 2, 8, 0, 0));
    OK(markring_node_log(&node, 1));
    OK(markring_node_alloc(&node, 0, 1, &answer));
    bytes image = image_of(&node);
    OK(markring_node_kept(&node, 1));
    // 11 bytes each: a tag, the register and the word.
    size_t events = (1048576 - 4) / 11;
    for (size_t i = 0; i < events; i++) {
        OK(markring_node_set_word(&node, 0, i, &answer));
    }
    OK(markring_node_copy(&node, 1, 0, &answer));
    OK(markring_node_batch_size(&node, &size));
    HOLDS(size <= 8 + 1048576 && size + 11 > 8 + 1048576);
    bytes batch = {0};
    batch.at = (uint8_t *)own(malloc(size));
    OK(markring_node_batch(&node, batch.at, size, &needed, &mark));
    OK(markring_node_kept(&node, mark));
    OK(take_back(&other, &image, batch.at, size));
    OK(markring_node_word(&other, 1, &answer));
    EQUAL(events - 1, answer.number);
    OK(markring_node_free(&other));
    for (size_t i = 0; i <= events + 1; i++) {
        OK(markring_node_set_word(&node, 0, i, &answer));
    }
    IS(MARKRING_NO_LOG, batch_status(&node));
    OK(markring_node_free(&node));
    drop_bytes(&image);
    drop_bytes(&batch);
}

// So has one with letters. Each takes 13 bytes more than those of the letter.
static void long_letters(void)
{
    enum { LENGTH = 65535, EACH = 13 + LENGTH, MOST = 1048576 / EACH };
    static const markring_shape SHAPE = {8, LENGTH, 2, 2, 1, 1};
    static uint8_t all[LENGTH];
    for (size_t more = 0; more < 2; more++) {
        markring_node node = {0}, other = {0};
        size_t size = 0, needed = 0, left = 1048576 - (size_t)MOST * EACH - 13 + more;
        uint64_t mark = 0;
        OK(markring_node_make(&node, &SHAPE, 0, 0));
        OK(markring_node_log(&node, 1));
        bytes image = image_of(&node), batch = {0};
        OK(markring_node_kept(&node, 1));
        for (uint32_t i = 0; i < MOST; i++) {
            OK(markring_node_post(&node, 1, i, 0, 0, all, LENGTH, &answer));
        }
        OK(markring_node_post(&node, 1, 0, 0, 1, all, left, &answer));
        if (more) {
            IS(MARKRING_NO_LOG, batch_status(&node));
        } else {
            OK(markring_node_batch_size(&node, &size));
            EQUAL(8 + 1048576, size);
            batch.at = (uint8_t *)own(malloc(size));
            OK(markring_node_batch(&node, batch.at, size, &needed, &mark));
            bytes now = image_of(&node), again = {0};
            OK(take_back(&other, &image, batch.at, size));
            again = image_of(&other);
            HOLDS(same_bytes(&now, &again));
            OK(markring_node_free(&other));
            drop_bytes(&now);
            drop_bytes(&again);
        }
        OK(markring_node_free(&node));
        drop_bytes(&image);
        drop_bytes(&batch);
    }
}

// So has one with bytes of objects. Setting them takes 7 bytes more than these.
static void long_bytes(void)
{
    enum { LENGTH = 1048576 - 7 };
    static const markring_shape SHAPE = {8, LENGTH + 1, 2, 2, 1, 1};
    static uint8_t all[LENGTH + 1];
    for (int more = 0; more < 2; more++) {
        markring_node node = {0}, other = {0};
        size_t size = 0, needed = 0;
        uint64_t mark = 0;
        OK(markring_node_make(&node, &SHAPE, 0, 0));
        OK(markring_node_log(&node, 1));
        OK(markring_node_alloc(&node, 0, 1, &answer));
        bytes image = image_of(&node), batch = {0};
        OK(markring_node_kept(&node, 1));
        memset(all, 1 + more, sizeof all);
        OK(markring_node_set_bytes(&node, 0, all, (size_t)LENGTH + (size_t)more, &answer));
        if (more) {
            IS(MARKRING_NO_LOG, batch_status(&node));
        } else {
            OK(markring_node_batch_size(&node, &size));
            EQUAL(8 + 1048576, size);
            batch.at = (uint8_t *)own(malloc(size));
            OK(markring_node_batch(&node, batch.at, size, &needed, &mark));
            OK(take_back(&other, &image, batch.at, size));
            memset(all, 0, sizeof all);
            OK(markring_node_bytes(&other, 0, 0, LENGTH, all, sizeof all, &needed));
            HOLDS(all[0] == 1 && all[LENGTH - 1] == 1 && all[LENGTH] == 0);
            OK(markring_node_free(&other));
            // A length that is larger than the bytes that are there.
            batch.at[8 + 3]++;
            IS(MARKRING_BAD_IMAGE, take_back(&other, &image, batch.at, size));
        }
        OK(markring_node_free(&node));
        drop_bytes(&image);
        drop_bytes(&batch);
    }
}

// The image of a node without a log has no batches, and its next save is an image.
static void plain_image(void)
{
    markring_node node = {0}, logged = {0};
    static const uint8_t empty_batch[8] = {0};
    OK(markring_node_new(&node, 2, 2, 8, 0, 0));
    bytes image = image_of(&node);
    OK(markring_node_free(&node));
    IS(MARKRING_BAD_IMAGE, take_back(&node, &image, empty_batch, 8));
    OK(take_back(&node, &image, empty_batch, 0));
    IS(MARKRING_NO_LOG, batch_status(&node));
    bytes other = image_of(&node);
    HOLDS(same_image(&other, &image));
    IS(MARKRING_BAD_IMAGE, markring_node_from_image(&logged, other.at, other.length, 0));
    OK(take_back(&logged, &other, empty_batch, 0));
    OK(batch_status(&logged));
    OK(markring_node_free(&logged));
    // An empty batch changes nothing.
    OK(take_back(&logged, &other, empty_batch, 8));
    OK(batch_status(&logged));
    OK(markring_node_free(&logged));
    IS(MARKRING_BAD_IMAGE, take_back(&logged, &other, empty_batch, 7));
    OK(markring_node_free(&node));
    drop_bytes(&image);
    drop_bytes(&other);
}

int main(int length, char **words)
{
    unsigned long seeds = length > 1 ? strtoul(words[1], NULL, 10) : 20;
    unsigned long steps = length > 2 ? strtoul(words[2], NULL, 10) : 2000;
    without_log();
    quiet();
    long_log();
    long_letters();
    long_bytes();
    plain_image();
    for (unsigned long i = 1; i <= seeds && failed == 0; i++) {
        seed = i * UINT64_C(0x9E3779B97F4A7C15) | 1;
        is_wide = i % 2 == 0;
        run(steps);
        if (failed != 0) {
            printf("seed %lu failed\n", i);
        }
    }
    HOLDS(crashes > 0 && given > 0 && images > 0 && resumed > 0 && bad > 0 && good > 0);
    HOLDS(written > 0 && posted > 0 && fetched > 0);
    printf("%lu batches, %lu images, %lu crashes, bytes written %lu times, %lu letters with "
           "references and bytes, %lu fetches, damaged ones: %lu bad, %lu good\n",
        given, images, crashes, written, posted, fetched, bad, good);
    return report();
}
