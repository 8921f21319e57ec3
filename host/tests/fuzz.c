// Bytes of any kind, given to a host as packets, requests and words, and to an opening as a value:
// valid ones with bytes changed, removed and added. Nothing but the compiler's checks of memory
// says whether that went well, and that what is refused changes nothing.
//
//     fuzz ROUNDS
#include "../inside.h"

#include <stdio.h>
#include <stdlib.h>

enum { MOST = 8192, SENT = 256, PACKET_ROOM = 1 << 15 };

static uint64_t seed = 88172645463325252u;
static uint8_t sent[SENT][PACKET_ROOM];
static size_t lengths[SENT];
static int sent_count;
static unsigned long passed, failed;

static uint32_t below(uint32_t limit)
{
    seed ^= seed << 13;
    seed ^= seed >> 7;
    seed ^= seed << 17;
    return (uint32_t)((seed >> 32) * limit >> 32);
}

static void on_send(void *context, uint8_t to, const uint8_t *bytes, size_t length)
{
    (void)context;
    (void)to;
    int at = sent_count < SENT ? sent_count++ : (int)below(SENT);
    if (length > PACKET_ROOM) {
        exit(2);
    }
    memcpy(sent[at], bytes, length);
    lengths[at] = length;
}

static void on_answer(void *context, const char *reply, const uint8_t *bytes, size_t length)
{
    unsigned long *sum = context;
    (void)reply;
    for (size_t i = 0; i < length; i++) {
        *sum += bytes[i];
    }
}

// A host, what it answered, and the last value with its entries.
typedef struct station {
    unsigned long answers;
    host *host;
    store_value stored;
} station;

static station stations[2];

// Adds an entry, as a store does.
static void add_entry(store_value *stored, const store_value *entry)
{
    size_t end = stored->end + 16 + entry->length + STORE_TAIL;
    stored->buffer = realloc(stored->buffer, end);
    writer to = writer_of(stored->buffer + stored->end, end - stored->end);
    write_number(&to, entry->length, 8);
    write_number(&to, 0, 8);
    write_bytes(&to, entry->buffer + STORE_HEAD, entry->length);
    write_number(&to, 0, STORE_TAIL);
    stored->end = stored->room = end;
}

// Keeps the last value with its entries, and says that it is stored.
static void on_save(void *context, store_value *value)
{
    store_value *stored = &((station *)context)->stored;
    if (value->is_entry) {
        add_entry(stored, value);
        return;
    }
    free(stored->buffer);
    *stored = *value;
    stored->end = stored->room = STORE_HEAD + value->length + STORE_TAIL;
    stored->buffer = malloc(stored->room);
    memcpy(stored->buffer, value->buffer, stored->room);
}

static void turn(host *it, uint64_t now)
{
    host_turn(it, now);
    host_saved(it, now, STORE_OK, now);
}

static bool is_wide;

static host *open_host(uint8_t own)
{
    static const host_options options = {.entries_least = 4096};
    host_calls calls = {&stations[own], on_send, on_answer, on_save, NULL};
    host_shape shape = {.name = "fuzz", .own = own, .nodes = 2, .registers = 8, .slots = 32,
        .wide = is_wide, .places = is_wide ? 20 : 0, .bytes = is_wide ? 30 : 0};
    store_value value = {NULL, 0, 0, false, 0, 0};
    host *it = NULL;
    if (host_create(&shape, &value) != MARKRING_OK
        || host_open(&it, &value, 1, 100u + own, &options, &calls, 1) != MARKRING_OK) {
        exit(2);
    }
    store_value *stored = &stations[own].stored;
    free(stored->buffer);
    *stored = value;
    return it;
}

// Changes, removes and adds some bytes. Returns the new length.
static size_t damage(uint8_t *bytes, size_t length, size_t room)
{
    for (uint32_t times = below(4); times > 0 && length > 0; times--) {
        size_t at = below((uint32_t)length);
        switch (below(4)) {
        case 0: bytes[at] = (uint8_t)below(256); break;
        case 1: bytes[at] ^= (uint8_t)(1u << below(8)); break;
        case 2: length = at; break;
        default:
            if (length < room) {
                memmove(bytes + at + 1, bytes + at, length - at);
                length++;
            }
        }
    }
    return length;
}

static void try_packet(host *it, uint64_t now)
{
    uint8_t *bytes = malloc(PACKET_ROOM + 8);
    int from = (int)below((uint32_t)sent_count);
    memcpy(bytes, sent[from], lengths[from]);
    size_t length = damage(bytes, lengths[from], PACKET_ROOM);
    // A block of exactly this length shows a read beyond it.
    uint8_t *exact = malloc(length > 0 ? length : 1);
    memcpy(exact, bytes, length);
    host_packet(it, now, (uint8_t)below(3), exact, length);
    free(exact);
    free(bytes);
}

// The kind of an event: any, now and then of those with letters.
static uint8_t any_kind(void)
{
    static const uint8_t kinds[] = {MARKRING_REMOTE_POST, MARKRING_REMOTE_FETCH,
        MARKRING_REMOTE_ACCEPT_INTO, MARKRING_REMOTE_ACCEPT_INTO};
    return below(3) == 0 ? kinds[below(sizeof kinds)] : (uint8_t)below(25);
}

// Whether programs may have registers for themselves: then nobody looks at objects.
static bool may_be_apart;

// What follows the head of a question about objects, mostly what the program has.
static void write_question(writer *to, uint8_t kind, const program *of)
{
    to->length = REQUEST_HEAD;
    to->start[REQUEST_HEAD - 1] = 1;
    if (kind == REQUEST_FREED) {
        write_number(to, below(9) == 0 ? below(UINT32_MAX) : of->list, 8);
        write_number(to, of->had + (below(9) == 0 ? UINT64_MAX : below(3)), 8);
    } else if (kind == REQUEST_PLACES) {
        write_number(to, below(2), 1);
        write_number(to, below(9) == 0 ? below(UINT32_MAX) : below(9), 4);
        write_number(to, 1 + below(3), 8);
    } else if (kind == REQUEST_OBJECTS) {
        write_number(to, below(9) == 0 ? below(UINT32_MAX) : below(9), 4);
    }
    if (kind == REQUEST_FREED || kind == REQUEST_OBJECTS) {
        write_number(to, below(9) == 0 ? UINT32_MAX : below(9), 4);
    }
}

static void try_request(host *it, uint64_t now)
{
    uint8_t bytes[REQUEST_BYTES + 512], data[40];
    uint16_t count = (uint16_t)below(6);
    writer to = writer_of(bytes, sizeof bytes - 64);
    program *program = &it->programs[0];
    uint8_t kind = (uint8_t)(1 + below(REQUEST_PLACES + 1));
    bool is_apart = kind == REQUEST_OPEN_APART || kind == REQUEST_OPEN_APART_LETTERS;
    if (is_apart && !may_be_apart) {
        is_apart = false;
        kind = REQUEST_PERFORM;
    }
    bool opens = is_apart || kind == REQUEST_OPEN || kind == REQUEST_OPEN_LETTERS;
    request_head head = {kind, (uint8_t)(below(9) == 0 ? below(256) : 0),
        below(2) ? program->now.session : 1 + below(3),
        opens ? program->now.round + 1 : program->now.number + below(3), count};
    write_request_head(&to, &head);
    if (is_apart) {
        write_number(&to, below(9), 2);
        write_number(&to, below(4), 2);
    }
    memset(data, (int)below(256), sizeof data);
    for (uint16_t i = 0; i < count && !opens; i++) {
        markring_event event = {any_kind(), (uint8_t)below(3), (uint8_t)below(9),
            (uint16_t)below(9), (uint16_t)below(9), (uint16_t)below(9), below(9),
            below(8) == 0 ? below(UINT32_MAX) : below(40), below(9)};
        write_remote_event(&to, &(markring_remote_event){event, data, below(sizeof data)});
    }
    if (kind == REQUEST_READ_BYTES && below(4) > 0) {
        // One object; offsets and counts of any size.
        to.length = REQUEST_HEAD;
        bytes[REQUEST_HEAD - 1] = 1;
        write_number(&to, below(9), 2);
        write_number(&to, below(5) == 0 ? below(UINT32_MAX) : below(9), 4);
        write_number(&to, below(5) == 0 ? below(UINT32_MAX) : below(32), 4);
    }
    if (kind >= REQUEST_TRACK_FREED && below(4) > 0) {
        write_question(&to, kind, program);
    }
    size_t length = below(3) == 0 ? damage(bytes, to.length, sizeof bytes) : to.length;
    uint8_t *exact = malloc(length > 0 ? length : 1);
    memcpy(exact, bytes, length);
    host_request(it, now, exact, length, below(50) == 0 ? "" : "reply");
    free(exact);
}

// Damages a value without entries, or changes bytes of the entries behind it.
static void damage_value(store_value *value)
{
    size_t start = STORE_HEAD + value->length + STORE_TAIL, at = 0, length = 0;
    if (value->end == start) {
        value->length = damage(value->buffer + STORE_HEAD, value->length, value->length + 32);
        value->end = STORE_HEAD + value->length + STORE_TAIL;
        return;
    }
    const uint8_t *entry = store_next(value, &at, &length);
    while (entry != NULL) {
        for (uint32_t times = below(3); times > 0 && length > 0; times--) {
            value->buffer[(size_t)(entry - value->buffer) + below((uint32_t)length)] ^=
                (uint8_t)(1u << below(8));
        }
        entry = store_next(value, &at, &length);
    }
}

// An opening of a damaged value succeeds or is refused; without damage it succeeds.
static void try_value(void)
{
    static const host_options options = {0};
    static station other;
    static const host_calls calls = {&other, on_send, on_answer, on_save, NULL};
    const store_value *stored = &stations[below(2)].stored;
    store_value value = *stored;
    host *it = NULL;
    if (stored->buffer == NULL) {
        return;
    }
    value.room = stored->room + 64;
    value.buffer = malloc(value.room);
    memcpy(value.buffer, stored->buffer, stored->room);
    damage_value(&value);
    int status = host_open(&it, &value, 5, 7, &options, &calls, 1);
    if (status == MARKRING_OK) {
        host_free(it);
    }
    bool is_same = value.end == stored->end
        && memcmp(value.buffer + STORE_HEAD, stored->buffer + STORE_HEAD, stored->end - STORE_HEAD)
            == 0;
    bool is_right = status == MARKRING_OK || (status == MARKRING_BAD_IMAGE && !is_same);
    passed += is_right;
    failed += !is_right;
    free(value.buffer);
}

// Two nodes of a plain or of a wide space.
static void fuzz(unsigned long rounds)
{
    stations[0].host = open_host(0);
    stations[1].host = open_host(1);
    for (uint64_t now = 2; now < rounds + 2; now++) {
        host *it = stations[below(2)].host;
        try_request(it, now);
        if (sent_count > 0) {
            try_packet(it, now);
        }
        turn(it, now);
        try_value();
        if (below(20) == 0) {
            static const char *const words[] = {"status", "begin", "forget 0"};
            const char *word = words[below(3)];
            host_control(it, now, word, below((uint32_t)strlen(word) + 1), "reply");
        }
        for (uint8_t i = 0; i < 2; i++) {
            // A forged packet may say that the folder is old. Then there is a new node.
            host **at = &stations[i].host;
            if (host_ended(*at) != HOST_RUNS) {
                failed += host_ended(*at) != HOST_OLDER;
                host_free(*at);
                *at = open_host(i);
            }
        }
    }
    for (int i = 0; i < 2; i++) {
        host_free(stations[i].host);
        free(stations[i].stored.buffer);
        stations[i].stored.buffer = NULL;
    }
}

int main(int count, char **given)
{
    unsigned long rounds = count > 1 ? strtoul(given[1], NULL, 10) : 100000;
    for (int way = 0; way < 4; way++) {
        is_wide = way % 2 == 1;
        may_be_apart = way >= 2;
        sent_count = 0;
        fuzz(rounds / 4);
    }
    printf("%lu passed, %lu failed\n", passed, failed);
    return failed != 0 || passed == 0;
}
