// The calls of markring_packets.h: random values are written and read, and compared with a writer
// that is kept here, field by field from docs/FORMATS.md. Each is cut at each length, has bytes
// behind it, and has one byte changed. Bytes of any kind begin with a frame just as they say.
#include "check.h"

#include "markring_packets.h"

enum { ROUNDS = 2000, ROOM = 128 };

static uint64_t seed = 1;

static uint64_t any(void)
{
    return draw(&seed);
}

// The bytes that are expected.
static uint8_t expected[ROOM];
static size_t length_expected;

static void put(uint64_t number, size_t width)
{
    for (size_t i = width; i > 0; i--) {
        expected[length_expected++] = (uint8_t)(number >> 8 * (i - 1));
    }
}

static void put_reference(const markring_ref *it)
{
    put(it->node, 1);
    put(it->slot, 4);
    put(it->generation, 8);
}

static markring_ref any_reference(void)
{
    return (markring_ref){.node = (uint8_t)any(), .slot = (uint32_t)any(), .generation = any()};
}

// What was written is what is expected; and with less room, nothing is written.
#define WRITES(call, value) \
    do { \
        uint8_t to[ROOM]; \
        memset(to, 0xA5, sizeof to); \
        EQUAL(length_expected, call(to, sizeof to, value)); \
        HOLDS(memcmp(to, expected, length_expected) == 0 && to[length_expected] == 0xA5); \
        memset(to, 0xA5, sizeof to); \
        EQUAL(length_expected, call(to, length_expected, value)); \
        HOLDS(memcmp(to, expected, length_expected) == 0); \
        memset(to, 0xA5, sizeof to); \
        for (size_t room = 0; room < length_expected; room++) { \
            EQUAL(0, call(to, room, value)); \
        } \
        for (size_t i = 0; i < sizeof to; i++) { \
            HOLDS(to[i] == 0xA5); \
        } \
    } while (0)

static uint8_t again[ROOM]; // what was read, written once more

static size_t put_head(uint8_t *to, size_t room, const markring_packet_head *it)
{
    return markring_packets_put_head(to, room, it);
}

static markring_packet_head any_head(void)
{
    uint64_t run = 1 + any() % 1000;
    markring_packet_head it = {.space = any(),
        .from = (uint8_t)any(),
        .to = (uint8_t)any(),
        .sender = {any() | 1, run, run + any() % 3},
        .known_nonce = any(),
        .known_saves = any(),
        .live = (uint32_t)any(),
        .needs_cycle = any() & 1,
        .fits = any()};
    return it;
}

static void spell_head(const markring_packet_head *it)
{
    length_expected = 0;
    put(0x4D525001, 4);
    put(it->space, 8);
    put(it->from, 1);
    put(it->to, 1);
    put(it->sender.nonce, 8);
    put(it->sender.run, 8);
    put(it->sender.saves, 8);
    put(it->known_nonce, 8);
    put(it->known_saves, 8);
    put(it->live, 4);
    put(it->needs_cycle, 1);
    put(it->fits, 8);
}

// Whether bytes that are as long as a head are one, by the rules of the document.
static int is_head(const uint8_t *bytes)
{
    static const uint8_t magic[] = {0x4D, 0x52, 0x50, 0x01}, none[8] = {0};
    const uint8_t *nonce = bytes + 14, *run = bytes + 22, *saves = bytes + 30;
    return memcmp(bytes, magic, 4) == 0 && memcmp(nonce, none, 8) != 0 && memcmp(run, none, 8) != 0
        && memcmp(run, saves, 8) <= 0 && bytes[58] <= 1;
}

static void heads(void)
{
    markring_packet_head it = any_head(), read;
    spell_head(&it);
    EQUAL(MARKRING_PACKETS_HEAD, length_expected);
    WRITES(put_head, &it);
    memset(&read, 0, sizeof read);
    EQUAL(1, markring_packets_read_head(expected, length_expected, &read));
    EQUAL(length_expected, put_head(again, sizeof again, &read));
    HOLDS(memcmp(again, expected, length_expected) == 0);
    EQUAL(1, markring_packets_read_head(expected, length_expected + 7, &read));
    for (size_t length = 0; length < length_expected; length++) {
        EQUAL(0, markring_packets_read_head(expected, length, &read));
    }
    size_t at = any() % length_expected;
    expected[at] ^= (uint8_t)(1 + any() % 255);
    memset(&read, 0x5A, sizeof read);
    markring_packet_head before = read;
    EQUAL(is_head(expected), markring_packets_read_head(expected, length_expected, &read));
    if (is_head(expected)) {
        EQUAL(length_expected, put_head(again, sizeof again, &read));
        HOLDS(memcmp(again, expected, length_expected) == 0);
    } else {
        HOLDS(memcmp(&before, &read, sizeof read) == 0);
    }
}

// Each wrong field of a head by itself.
static void wrong_heads(void)
{
    markring_packet_head read, it = any_head();
    it.sender.nonce = 0;
    spell_head(&it);
    EQUAL(0, markring_packets_read_head(expected, length_expected, &read));
    it = any_head();
    it.sender.run = 0;
    spell_head(&it);
    EQUAL(0, markring_packets_read_head(expected, length_expected, &read));
    it = any_head();
    it.sender.saves = it.sender.run - 1;
    spell_head(&it);
    EQUAL(0, markring_packets_read_head(expected, length_expected, &read));
    it.sender.saves = it.sender.run;
    spell_head(&it);
    EQUAL(1, markring_packets_read_head(expected, length_expected, &read));
    it.needs_cycle = 2;
    spell_head(&it);
    EQUAL(0, markring_packets_read_head(expected, length_expected, &read));
}

static void requests(void)
{
    markring_request_head it = {(uint8_t)any(), (uint8_t)any(), any(), any(), (uint16_t)any()};
    markring_request_head read = {0};
    length_expected = 0;
    put(0x4D525101, 4);
    put(it.kind, 1);
    put(it.program, 1);
    put(it.session, 8);
    put(it.number, 8);
    put(it.count, 2);
    EQUAL(MARKRING_PACKETS_REQUEST, length_expected);
    for (size_t length = 0; length < length_expected; length++) {
        EQUAL(0, markring_packets_read_request(expected, length, &read));
    }
    EQUAL(1, markring_packets_read_request(expected, length_expected + 1, &read));
    HOLDS(read.kind == it.kind && read.program == it.program && read.session == it.session);
    HOLDS(read.number == it.number && read.count == it.count);
    expected[any() % 4] ^= (uint8_t)(1 + any() % 255);
    EQUAL(0, markring_packets_read_request(expected, length_expected, &read));
}

static void events(void)
{
    markring_event it = {.kind = (uint8_t)any(), .node = (uint8_t)any(), .place = (uint8_t)any(),
        .reg = (uint16_t)any(), .source = (uint16_t)any(), .object = (uint16_t)any(),
        .label = (uint32_t)any(), .count = (uint32_t)any(), .word = any()};
    markring_event read = {0};
    length_expected = 0;
    put(it.kind, 1);
    put(it.node, 1);
    put(it.place, 1);
    put(it.reg, 2);
    put(it.source, 2);
    put(it.object, 2);
    put(it.label, 4);
    put(it.count, 4);
    put(it.word, 8);
    EQUAL(MARKRING_PACKETS_EVENT, length_expected);
    for (size_t length = 0; length < length_expected; length++) {
        EQUAL(0, markring_packets_read_event(expected, length, &read));
    }
    EQUAL(1, markring_packets_read_event(expected, length_expected, &read));
    HOLDS(read.kind == it.kind && read.node == it.node && read.place == it.place);
    HOLDS(read.reg == it.reg && read.source == it.source && read.object == it.object);
    HOLDS(read.label == it.label && read.count == it.count && read.word == it.word);
}

static void answers(void)
{
    markring_answer_head it = {(uint8_t)any(), (uint8_t)any(), any(), any(), (uint8_t)any(),
        any(), any(), (uint8_t)any(), (uint8_t)any(), (uint16_t)any(), (uint32_t)any(),
        (uint16_t)any()};
    length_expected = 0;
    put(0x4D524101, 4);
    put(it.kind, 1);
    put(it.program, 1);
    put(it.session, 8);
    put(it.number, 8);
    put(it.verdict, 1);
    put(it.last, 8);
    put(it.round, 8);
    put(it.nodes, 1);
    put(it.own, 1);
    put(it.registers, 2);
    put(it.slots, 4);
    put(it.count, 2);
    EQUAL(MARKRING_PACKETS_ANSWER, length_expected);
    WRITES(markring_packets_put_answer, &it);
}

static uint16_t status;

static size_t put_result(uint8_t *to, size_t room, const markring_answer *it)
{
    return markring_packets_put_result(to, room, status, it);
}

static void results(void)
{
    markring_answer it = {.kind = (uint8_t)any(), .node = (uint8_t)any(),
        .colour = (uint8_t)any(), .done = (uint8_t)any(), .label = (uint32_t)any(),
        .count = (uint32_t)any(), .number = any(), .sum = (int64_t)any(),
        .reference = any_reference()};
    status = (uint16_t)any();
    length_expected = 0;
    put(status, 2);
    put(it.kind, 1);
    put(it.node, 1);
    put(it.colour, 1);
    put(it.done, 1);
    put(it.label, 4);
    put(it.count, 4);
    put(it.number, 8);
    put((uint64_t)it.sum, 8);
    put_reference(&it.reference);
    EQUAL(MARKRING_PACKETS_RESULT, length_expected);
    WRITES(put_result, &it);
}

static void records(void)
{
    markring_ref reference = any_reference(), read = {0};
    length_expected = 0;
    put_reference(&reference);
    EQUAL(MARKRING_PACKETS_REFERENCE, length_expected);
    WRITES(markring_packets_put_reference, &reference);
    EQUAL(0, markring_packets_read_reference(expected, length_expected - 1, &read));
    EQUAL(1, markring_packets_read_reference(expected, length_expected, &read));
    HOLDS(read.node == reference.node && read.slot == reference.slot);
    EQUAL(reference.generation, read.generation);
    markring_freed freed = {reference, any()};
    put(freed.word, 8);
    EQUAL(MARKRING_PACKETS_FREED, length_expected);
    WRITES(markring_packets_put_freed, &freed);
    markring_object object = {.reference = reference, .word = freed.word, .bytes = (uint32_t)any(),
        .places = (uint8_t)any(), .marked = (uint8_t)any(), .shared = (uint8_t)any(),
        .age = (uint8_t)any()};
    put(object.bytes, 4);
    put(object.places, 1);
    put(object.marked, 1);
    put(object.shared, 1);
    put(object.age, 1);
    EQUAL(MARKRING_PACKETS_OBJECT, length_expected);
    WRITES(markring_packets_put_object, &object);
}

static uint32_t long_size;

static size_t put_length(uint8_t *to, size_t room, const void *none)
{
    (void)none;
    return markring_packets_put_length(to, room, long_size);
}

static void lengths(void)
{
    static const uint32_t SIZES[] = {0, 1, 255, 256, 65534, 65535, 65536, 1 << 20, UINT32_MAX};
    static uint8_t frames[(1 << 20) + 16];
    for (size_t i = 0; i < sizeof SIZES / sizeof *SIZES; i++) {
        long_size = SIZES[i];
        length_expected = 0;
        if (long_size < 65535) {
            put(long_size, 2);
        } else {
            put(0xFFFF, 2);
            put(long_size, 4);
        }
        WRITES(put_length, NULL);
        if (long_size <= 1 << 20) {
            size_t start = 99;
            memcpy(frames, expected, length_expected);
            EQUAL(0, markring_packets_frame(frames, length_expected - 1, &start));
            EQUAL(99, start);
            if (long_size > 0) {
                EQUAL(0, markring_packets_frame(frames, length_expected + long_size - 1, &start));
            }
            EQUAL(99, start);
            EQUAL(length_expected + long_size, markring_packets_frame(frames, length_expected + long_size, &start));
            EQUAL(length_expected, start);
            EQUAL(length_expected + long_size, markring_packets_frame(frames, sizeof frames, &start));
        }
    }
    // A length that two bytes can say isn't in four.
    size_t start = 99;
    static const uint8_t odd[12] = {0xFF, 0xFF, 0, 0, 0, 4, 1, 2, 3, 4};
    EQUAL(0, markring_packets_frame(odd, sizeof odd, &start));
    EQUAL(99, start);
}

int main(void)
{
    for (int i = 0; i < ROUNDS; i++) {
        heads();
        requests();
        events();
        answers();
        results();
        records();
    }
    wrong_heads();
    lengths();
    return report();
}
