// Writes down the calls of the library that a host makes, for host/tests/runs: one line a call, into
// the file that the variable MARKRING_RECORD names. The linker puts it before the library (--wrap).
//
//     make HANDLE OWN NODES REGISTERS SLOTS PLACES BYTES WIDE
//     open HANDLE OWN IMAGE BATCH..
//     free HANDLE
//     event HANDLE STATUS LINE..
//     take HANDLE STATUS FROM TO NUMBER
//     work HANDLE SLOTS RECEIVED SCANNED PASSED SWEPT
//     image HANDLE IMAGE
//     batch HANDLE BATCH
//     state HANDLE LINE..
//
// HANDLE is what the handle points to. IMAGE is a sum of an image, BATCH of a batch. LINE is one of a
// script, without the node, or what a script's `state` prints.
#include <markring.h>

#include <inttypes.h>
#include <stdio.h>
#include <stdlib.h>

enum { EVERY = 16, ROOM = 1 << 16, DATA = 20 };

// ## Sums (FNV-1a)

static uint64_t sum_of(const uint8_t *bytes, size_t length)
{
    uint64_t sum = UINT64_C(0xcbf29ce484222325);
    for (size_t i = 0; i < length; i++) {
        sum = (sum ^ bytes[i]) * UINT64_C(0x100000001b3);
    }
    return sum;
}

static uint64_t number_at(const uint8_t *bytes)
{
    uint64_t number = 0;
    for (int i = 0; i < 8; i++) {
        number = number << 8 | bytes[i];
    }
    return number;
}

// ## The file

// (It is opened before any allocation is refused.)
__attribute__((constructor)) static FILE *out(void)
{
    static char room[ROOM];
    static FILE *file;
    if (file == NULL) {
        const char *name = getenv("MARKRING_RECORD");
        file = fopen(name != NULL ? name : "/dev/null", "w");
        if (file == NULL) {
            perror("recorder");
            exit(2);
        }
        setvbuf(file, room, _IOFBF, sizeof room);
    }
    return file;
}

static void state(const markring_node *node)
{
    markring_state it;
    markring_node copy = *node;
    if (markring_node_state(&copy, &it) != MARKRING_OK) {
        return;
    }
    fprintf(out(),
        "state %p cycle %" PRIu64 " ended %" PRIu64 " swept %" PRIu64 " colour %s old %" PRId64
        " cur %" PRId64 " grey %" PRIu64 " live %" PRIu32 " token %s letters %" PRIu64 "\n",
        node->at, it.cycle, it.ended, it.swept, it.colour == MARKRING_BLACK ? "black" : "white",
        it.earlier, it.recent, it.grey, it.live, it.has_token ? "yes" : "no", it.letters);
}

// The node may have changed: its state is written now and then.
static void called(const markring_node *node)
{
    static unsigned calls;
    if (++calls % EVERY == 0) {
        state(node);
    }
}

#define EVENT(status, ...) \
    do { \
        fprintf(out(), "event %p %d ", node->at, (status)); \
        fprintf(out(), __VA_ARGS__); \
        fputc('\n', out()); \
        called(node); \
    } while (0)

static void put_bytes(const uint8_t *bytes, size_t length)
{
    if (length == 0) {
        fputc('-', out());
    }
    for (size_t i = 0; i < length; i++) {
        fprintf(out(), "%02X", bytes[i]);
    }
}

// ## The calls

#define WRAPS(name, ...) \
    int __real_##name(__VA_ARGS__); \
    int __wrap_##name(__VA_ARGS__); \
    int __wrap_##name(__VA_ARGS__)

WRAPS(markring_node_make, markring_node *node, const markring_shape *shape, uint8_t own, uint64_t limit)
{
    int status = __real_markring_node_make(node, shape, own, limit);
    if (status == MARKRING_OK) {
        fprintf(out(), "make %p %d %d %d %" PRIu32 " %d %" PRIu32 " %d\n", node->at, own, shape->nodes,
            shape->registers, shape->slots, shape->places, shape->bytes, shape->wide);
    }
    return status;
}

WRAPS(markring_node_from_batches, markring_node *node, const uint8_t *image, size_t image_length,
    const uint8_t *batches, size_t length, uint64_t limit)
{
    int status = __real_markring_node_from_batches(node, image, image_length, batches, length, limit);
    markring_state it;
    if (status == MARKRING_OK && markring_node_state(node, &it) == MARKRING_OK) {
        fprintf(out(), "open %p %d %" PRIx64, node->at, it.own, sum_of(image, image_length));
        for (size_t at = 0; at < length; at += 8 + (size_t)number_at(batches + at)) {
            fprintf(out(), " %" PRIx64, sum_of(batches + at, 8 + (size_t)number_at(batches + at)));
        }
        fputc('\n', out());
    }
    return status;
}

WRAPS(markring_node_free, markring_node *node)
{
    if (node->at != NULL) {
        state(node);
        fprintf(out(), "free %p\n", node->at);
    }
    return __real_markring_node_free(node);
}

WRAPS(markring_node_image, markring_node *node, uint8_t *buffer, size_t length, size_t *needed, uint64_t *mark)
{
    int status = __real_markring_node_image(node, buffer, length, needed, mark);
    if (status == MARKRING_OK) {
        fprintf(out(), "image %p %" PRIx64 "\n", node->at, sum_of(buffer, *needed));
    }
    return status;
}

WRAPS(markring_node_batch, markring_node *node, uint8_t *buffer, size_t length, size_t *needed, uint64_t *mark)
{
    int status = __real_markring_node_batch(node, buffer, length, needed, mark);
    if (status == MARKRING_OK) {
        fprintf(out(), "batch %p %" PRIx64 "\n", node->at, sum_of(buffer, *needed));
    }
    return status;
}

WRAPS(markring_node_take, markring_node *node, const uint8_t *bytes, size_t length, markring_answer *answer)
{
    int status = __real_markring_node_take(node, bytes, length, answer);
    if (length >= DATA && (bytes[0] == 0x45 || bytes[0] == 0x46)) {
        fprintf(out(), "take %p %d %d %d %" PRIu64 "\n", node->at, status, bytes[1], bytes[2],
            number_at(bytes + 3));
        called(node);
    }
    return status;
}

WRAPS(markring_node_work, markring_node *node, uint32_t scans, uint32_t slots, markring_work *work)
{
    int status = __real_markring_node_work(node, scans, slots, work);
    fprintf(out(), "work %p %" PRIu32 " %" PRIu64 " %" PRIu64 " %d %d\n", node->at, slots, work->received,
        work->scanned, work->passed, work->swept);
    called(node);
    return status;
}

WRAPS(markring_node_act, markring_node *node, const markring_event *it, markring_answer *answer)
{
    int status = __real_markring_node_act(node, it, answer);
    switch (it->kind) {
    case MARKRING_EVENT_ALLOC: EVENT(status, "alloc %d %d", it->reg, it->place); break;
    case MARKRING_EVENT_COPY: EVENT(status, "copy %d %d", it->reg, it->source); break;
    case MARKRING_EVENT_DROP: EVENT(status, "drop %d", it->reg); break;
    case MARKRING_EVENT_LOAD: EVENT(status, "load %d %d %d", it->reg, it->object, it->place); break;
    case MARKRING_EVENT_STORE: EVENT(status, "store %d %d %d", it->object, it->place, it->reg); break;
    case MARKRING_EVENT_CLEAR: EVENT(status, "clear %d %d", it->object, it->place); break;
    case MARKRING_EVENT_WORD: break;
    case MARKRING_EVENT_SET_WORD: EVENT(status, "setword %d %" PRIu64, it->object, it->word); break;
    case MARKRING_EVENT_GIVE: EVENT(status, "give %d %" PRIu32 " %d", it->node, it->label, it->reg); break;
    case MARKRING_EVENT_ACCEPT: EVENT(status, "accept %d", it->reg); break;
    case MARKRING_EVENT_PUT: EVENT(status, "put %d %d %d", it->object, it->place, it->reg); break;
    case MARKRING_EVENT_GET: EVENT(status, "get %d %d %" PRIu32, it->object, it->place, it->label); break;
    case MARKRING_EVENT_BEGIN: EVENT(status, "begin"); break;
    case MARKRING_EVENT_SCAN: EVENT(status, "scan"); break;
    case MARKRING_EVENT_PASS: EVENT(status, "pass"); break;
    case MARKRING_EVENT_SWEEP: EVENT(status, "sweep %" PRIu32, it->count); break;
    case MARKRING_EVENT_NEXT: EVENT(status, "next %d", it->node); break;
    case MARKRING_EVENT_RECLAIM: EVENT(status, "reclaim"); break;
    case MARKRING_EVENT_RECLAIM_YOUNG: EVENT(status, "reclaim young"); break;
    case MARKRING_EVENT_RESOLVE:
        EVENT(status, "resolve %d %d.%" PRIu32 ".%" PRIu64, it->reg, it->node, it->count, it->word);
        break;
    default: EVENT(status, "an event that the recorder doesn't know: %d", it->kind); break;
    }
    return status;
}

WRAPS(markring_node_next, markring_node *node, uint8_t from, markring_answer *answer)
{
    int status = __real_markring_node_next(node, from, answer);
    EVENT(status, "next %d", from);
    return status;
}

WRAPS(markring_node_begin, markring_node *node, markring_answer *answer)
{
    int status = __real_markring_node_begin(node, answer);
    EVENT(status, "begin");
    return status;
}

WRAPS(markring_node_give, markring_node *node, uint8_t to, uint32_t label, uint16_t reg, markring_answer *answer)
{
    int status = __real_markring_node_give(node, to, label, reg, answer);
    EVENT(status, "give %d %" PRIu32 " %d", to, label, reg);
    return status;
}

WRAPS(markring_node_drop, markring_node *node, uint16_t reg, markring_answer *answer)
{
    int status = __real_markring_node_drop(node, reg, answer);
    EVENT(status, "drop %d", reg);
    return status;
}

WRAPS(markring_node_set_bytes, markring_node *node, uint16_t object, const uint8_t *bytes, size_t length,
    markring_answer *answer)
{
    int status = __real_markring_node_set_bytes(node, object, bytes, length, answer);
    fprintf(out(), "event %p %d setbytes %d ", node->at, status, object);
    put_bytes(bytes, length);
    fputc('\n', out());
    called(node);
    return status;
}

WRAPS(markring_node_patch, markring_node *node, uint16_t object, uint32_t offset, const uint8_t *bytes,
    size_t length, markring_answer *answer)
{
    int status = __real_markring_node_patch(node, object, offset, bytes, length, answer);
    fprintf(out(), "event %p %d patch %d %" PRIu32 " ", node->at, status, object, offset);
    put_bytes(bytes, length);
    fputc('\n', out());
    called(node);
    return status;
}

WRAPS(markring_node_post, markring_node *node, uint8_t to, uint32_t label, uint16_t first, uint8_t count,
    const uint8_t *bytes, size_t length, markring_answer *answer)
{
    int status = __real_markring_node_post(node, to, label, first, count, bytes, length, answer);
    fprintf(out(), "event %p %d post %d %" PRIu32 " %d %d ", node->at, status, to, label, first, count);
    put_bytes(bytes, length);
    fputc('\n', out());
    called(node);
    return status;
}

WRAPS(markring_node_fetch, markring_node *node, uint16_t object, uint32_t label, uint32_t offset, uint32_t count,
    markring_answer *answer)
{
    int status = __real_markring_node_fetch(node, object, label, offset, count, answer);
    EVENT(status, "fetch %d %" PRIu32 " %" PRIu32 " %" PRIu32, object, label, offset, count);
    return status;
}

WRAPS(markring_node_accept_into, markring_node *node, uint16_t reg, uint8_t *buffer, size_t length,
    size_t *needed, markring_answer *answer)
{
    int status = __real_markring_node_accept_into(node, reg, buffer, length, needed, answer);
    EVENT(status, "accept %d", reg);
    return status;
}
