// Hosts whose packets, saves and time are the test's. (No test uses all of these.)
#ifndef STATION_H
#define STATION_H

#pragma GCC diagnostic ignored "-Wunused-function"

#include "../inside.h"
#include "check.h"

#include <stdlib.h>

enum { TURNS = 200, ROOM = LONGEST_ANSWER + 1, ENTRY_HEAD = 16 };

// ## The library

static size_t wrong_size;
static int looks; // at the size

int __real_markring_node_image_size(markring_node *node, size_t *size);
int __wrap_markring_node_image_size(markring_node *node, size_t *size);

int __wrap_markring_node_image_size(markring_node *node, size_t *size)
{
    int status = __real_markring_node_image_size(node, size);
    *size += wrong_size;
    looks++;
    return status;
}

// ## Memory

// The largest block that was asked for.
static size_t largest;
// The next block with exactly this size is refused; 0 for none.
static size_t refuse_size;

void *__real_malloc(size_t size);
void *__wrap_malloc(size_t size);

void *__wrap_malloc(size_t size)
{
    largest = size > largest ? size : largest;
    if (size == refuse_size && size > 0) {
        refuse_size = 0;
        return NULL;
    }
    return __real_malloc(size);
}

// ## A node

typedef struct station {
    host *host;
    uint64_t nonce; // of the next process
    uint64_t now, number;
    store_value *job;
    int saves;  // that the host began
    int wholes; // whole values that were saved
    // The value that was saved last, with the room around it, and entries behind it; up to `end`.
    uint8_t *stored;
    size_t length, end;
    bool has_entries; // saves may be entries
    int packets, answers;
    packet_head last; // of the last packet that was sent
    size_t told;      // bytes of the last answer, and these
    uint8_t text[ROOM];
    struct station *other; // the node 1 of node 0, or the other way round, if it takes packets
} station;

static host_options options;
// The shape of the next node, or of the next pair, if it isn't a plain one.
static host_shape next;
static uint64_t folder_limit, folder_byte_limit;
static const uint8_t SPACE[SPACE_ID] = {1, 2, 3, 4, 5, 6, 7, 8};
enum { NONCE = 77 };

static void on_send(void *context, uint8_t to, const uint8_t *bytes, size_t length)
{
    station *at = context;
    reader from = reader_of(bytes, length);
    HOLDS(read_packet_head(&from, &at->last) && at->last.to == to);
    at->packets++;
    if (at->other != NULL && to < 2) {
        host_packet(at->other->host, at->now, at->last.from, bytes, length);
    }
}

static void on_answer(void *context, const char *reply, const uint8_t *bytes, size_t length)
{
    station *at = context;
    HOLDS(reply[0] == 'r' && length < ROOM);
    at->told = length < ROOM ? length : 0;
    memcpy(at->text, bytes, at->told);
    at->answers++;
}

static void on_save(void *context, store_value *value)
{
    station *at = context;
    HOLDS(at->job == NULL);
    at->job = value;
    at->saves++;
}

// Whether hosts may ask for rewrites, and how often they did.
static bool rewrites;
static int asked;

static void on_rewrite(void *context)
{
    station *at = context;
    HOLDS(at->job == NULL);
    asked++;
}

// Opens what is stored.
static void open_host(station *at)
{
    store_value value = {
        at->stored, at->length, at->end, false, at->end, at->has_entries ? 0 : 1000000};
    host_calls calls = {at, on_send, on_answer, on_save, rewrites ? on_rewrite : NULL};
    int status = host_open(&at->host, &value, at->number, at->nonce, &options, &calls, at->now);
    HOLDS(status == MARKRING_OK);
}

// A space that has places for its objects is a wide one.
static void make_node(station *at, uint8_t own, uint8_t nodes, bool has_entries)
{
    store_value value = {NULL, 0, 0, false, 0, 0};
    host_shape shape = next;
    memcpy(shape.name, "test", 5);
    shape.own = own;
    shape.nodes = nodes;
    shape.registers = next.registers > 0 ? next.registers : 8;
    shape.slots = next.slots > 0 ? next.slots : 64;
    shape.limit = folder_limit;
    shape.byte_limit = folder_byte_limit;
    shape.wide = next.places > 0;
    memcpy(shape.space, SPACE, SPACE_ID);
    memset(at, 0, sizeof *at);
    at->nonce = NONCE;
    at->now = 1000;
    at->number = 10;
    HOLDS(host_create(&shape, &value) == MARKRING_OK);
    at->stored = value.buffer;
    at->length = value.length;
    at->end = STORE_HEAD + value.length + STORE_TAIL;
    at->has_entries = has_entries;
    open_host(at);
}

static void drop(station *at)
{
    host_free(at->host);
    at->host = NULL;
}

static void end(station *at)
{
    drop(at);
    free(at->stored);
}

// Stores what is being saved.
static void finish_save(station *at, store_status status)
{
    store_value *job = at->job;
    at->job = NULL;
    at->number++;
    if (status == STORE_OK && job->is_entry) {
        HOLDS(at->has_entries);
        size_t length = ENTRY_HEAD + job->length + STORE_TAIL;
        at->stored = realloc(at->stored, at->end + length);
        writer to = writer_of(at->stored + at->end, length);
        write_number(&to, job->length, 8);
        write_number(&to, at->number, 8);
        write_bytes(&to, job->buffer + STORE_HEAD, job->length);
        write_number(&to, 0, STORE_TAIL);
        HOLDS(to.ok);
        at->end += length;
    } else if (status == STORE_OK) {
        at->wholes++;
        free(at->stored);
        at->length = job->length;
        at->end = STORE_HEAD + job->length + STORE_TAIL;
        at->stored = calloc(1, at->end);
        memcpy(at->stored, job->buffer, STORE_HEAD + job->length);
    }
    host_saved(at->host, at->now, status, at->number);
}

static void turn(station *at, uint64_t time, store_status status)
{
    at->now += time;
    host_turn(at->host, at->now);
    if (at->job != NULL) {
        finish_save(at, status);
    }
}

static void turns(station *at, int count, uint64_t time)
{
    for (int i = 0; i < count; i++) {
        turn(at, time, STORE_OK);
    }
}

// Turns, until there is nothing to save; all saves end like this.
static void settle(station *at, store_status status)
{
    for (int i = 0; i < TURNS && host_ended(at->host) == HOST_RUNS; i++) {
        turn(at, 10, status);
    }
}

// A node of three, which has made its first save.
static void make(station *at, bool has_entries)
{
    make_node(at, 0, 3, has_entries);
    next = (host_shape){0};
    settle(at, STORE_OK);
}

static void open_again(station *at)
{
    drop(at);
    open_host(at);
    settle(at, STORE_OK);
}

// A packet of a node to node 0.
static void deliver_head(station *at, packet_head head)
{
    uint8_t bytes[PACKET_HEAD];
    writer to = writer_of(bytes, sizeof bytes);
    head.space = space_number(SPACE);
    write_packet_head(&to, &head);
    HOLDS(to.ok);
    host_packet(at->host, at->now, head.from, bytes, to.length);
}

// A packet of a process of node 1, of an earlier version, which knows this of node 0's process.
static void deliver(station *at, process sender, uint64_t known_nonce, uint64_t known_saves)
{
    deliver_head(at, (packet_head){0, 1, 0, sender, known_nonce, known_saves, 0, 0, 0});
}

static markring_state state_of(station *at)
{
    markring_state state = {0};
    HOLDS(markring_node_state(host_node(at->host), &state) == MARKRING_OK);
    return state;
}

static bool is_process(const process *it, uint64_t nonce, uint64_t run, uint64_t saves)
{
    return it->nonce == nonce && it->run == run && it->saves == saves;
}

// ## Requests

// Says a request, which makes objects or reads register 1; its first `length` bytes, or -1 for all.
static void say_request(station *at, request_head request, int length)
{
    uint8_t bytes[REQUEST_BYTES + EVENT_BYTES] = {0};
    writer to = writer_of(bytes, sizeof bytes);
    write_request_head(&to, &request);
    for (int i = 0; i < request.count; i++) {
        if (request.kind == REQUEST_PERFORM) {
            write_event(&to, &(markring_event){.kind = MARKRING_EVENT_ALLOC, .reg = 1, .place = 1});
        } else if (request.kind == REQUEST_READ) {
            write_number(&to, 1, 2);
        }
    }
    HOLDS(to.ok);
    host_request(at->host, at->now, bytes, length >= 0 ? (size_t)length : to.length, "r");
}

// Asks, and settles. Returns how many answers came; `*head` is that of the last one.
static int ask(station *at, request_head request, int length, answer_head *head)
{
    at->answers = 0;
    say_request(at, request, length);
    settle(at, STORE_OK);
    reader from = reader_of(at->text, at->told);
    if (at->answers > 0) {
        HOLDS(read_answer_head(&from, head) && from.left == head->count * (size_t)RESULT_BYTES);
        HOLDS(head->kind == request.kind && head->program == request.program);
        HOLDS(head->session == request.session && head->number == request.number);
    }
    return at->answers;
}

// The verdict of the only answer; -1 if none comes, or several.
static int judge(station *at, request_head request, answer_head *head)
{
    return ask(at, request, -1, head) == 1 ? head->verdict : -1;
}

static uint32_t live(station *at)
{
    return state_of(at).live;
}

// ## Programs with registers for themselves

// Says this to the host, and waits for an answer. Returns whether one came; `*head` is its.
static bool say(station *at, const writer *bytes, answer_head *head)
{
    HOLDS(bytes->ok);
    at->answers = 0;
    host_request(at->host, at->now, bytes->start, bytes->length, "r");
    for (int i = 0; i < TURNS && at->answers == 0 && host_ended(at->host) == HOST_RUNS; i++) {
        turn(at, 10, STORE_OK);
    }
    reader from = reader_of(at->text, at->told);
    return at->answers == 1 && read_answer_head(&from, head);
}

// Opens a program, with its next round. Returns the verdict.
static int open_apart(station *at, uint8_t number, uint64_t session, uint16_t first, uint16_t count)
{
    uint8_t bytes[REQUEST_HEAD + 4];
    writer to = writer_of(bytes, sizeof bytes);
    answer_head head = {0};
    uint64_t round = at->host->programs[number].now.round + 1;
    write_request_head(&to, &(request_head){REQUEST_OPEN_APART, number, session, round, 0});
    write_number(&to, first, 2);
    write_number(&to, count, 2);
    HOLDS(say(at, &to, &head) && head.kind == REQUEST_OPEN_APART && head.session == session);
    return head.verdict;
}

// What becomes of one event of a program, with its bytes.
static int perform_bytes(
    station *at, uint8_t number, uint64_t session, const markring_remote_event *event)
{
    static uint8_t bytes[LONGEST_REQUEST + EVENT_BYTES];
    writer to = writer_of(bytes, sizeof bytes);
    answer_head head = {0};
    uint64_t next = at->host->programs[number].now.number + 1;
    write_request_head(&to, &(request_head){REQUEST_PERFORM, number, session, next, 1});
    write_remote_event(&to, event);
    HOLDS(say(at, &to, &head));
    reader from = reader_of(at->text + ANSWER_HEAD, RESULT_BYTES);
    markring_result found;
    read_result(&from, &found);
    return head.verdict == VERDICT_DONE ? found.status : -1 - head.verdict;
}

static int perform_one(station *at, uint8_t number, uint64_t session, markring_event event)
{
    return perform_bytes(at, number, session, &(markring_remote_event){event, NULL, 0});
}

// A number of the status.
static unsigned long long number_of(station *at, const char *name)
{
    char word[32];
    int length = snprintf(word, sizeof word, "\"%s\": ", name);
    host_control(at->host, at->now, "status", 6, "r");
    at->text[at->told] = 0;
    const char *found = strstr((const char *)at->text, word);
    HOLDS(found != NULL);
    return found != NULL ? strtoull(found + length, NULL, 10) : 0;
}

// The byte at this place of what a test writes.
static uint8_t byte_of(uint32_t kind, uint32_t at)
{
    return (uint8_t)(kind + 7 * at + at / 256);
}

// They stay until the call after the next one.
static const uint8_t *bytes_of(uint32_t kind, uint32_t length)
{
    static uint8_t rooms[2][BYTES_MOST + 1];
    static int last;
    uint8_t *bytes = rooms[last = 1 - last];
    for (uint32_t i = 0; i < length; i++) {
        bytes[i] = byte_of(kind, i);
    }
    return bytes;
}

static int set_bytes(station *at, uint16_t object, uint32_t kind, uint32_t length)
{
    markring_remote_event event = {
        {.kind = MARKRING_REMOTE_SET_BYTES, .object = object}, bytes_of(kind, length), length};
    return perform_bytes(at, 3, 103, &event);
}

// ## Two nodes

static station pair[2];

static void open_pair(void)
{
    for (uint8_t own = 0; own < 2; own++) {
        make_node(&pair[own], own, 2, true);
        pair[own].other = &pair[1 - own];
    }
    next = (host_shape){0};
}

static void drop_pair(void)
{
    for (int own = 0; own < 2; own++) {
        end(&pair[own]);
    }
}

// Turns of both, of this many milliseconds, at the same time.
static void go_on(int turns, uint64_t time)
{
    for (int i = 0; i < turns; i++) {
        turn(&pair[0], time, STORE_OK);
        turn(&pair[1], time, STORE_OK);
    }
}

// Two nodes that have made their first saves.
static void make_pair(void)
{
    open_pair();
    go_on(20, 10);
}

static void give(int from, uint32_t label)
{
    markring_answer answer;
    markring_node *node = host_node(pair[from].host);
    int status = markring_node_give(node, (uint8_t)(1 - from), label, 0, &answer);
    HOLDS(status == MARKRING_OK);
    host_changed(pair[from].host);
}

static void give_many(int from, uint32_t count)
{
    for (uint32_t label = 0; label < count; label++) {
        give(from, label);
    }
}

// The last message to the other node that it has acknowledged.
static uint64_t acknowledged(int from)
{
    markring_link link = {0};
    markring_node *node = host_node(pair[from].host);
    HOLDS(markring_node_link(node, (uint8_t)(1 - from), &link) == MARKRING_OK);
    return link.acknowledged;
}

#endif
