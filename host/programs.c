// Requests of programs and words of the operator.
#include "inside.h"

#include <stdio.h>
#include <stdlib.h>

void fill_head(const host *it, const request_head *request, answer_head *head)
{
    memset(head, 0, sizeof *head);
    head->kind = request->kind;
    head->program = request->program;
    head->session = request->session;
    head->number = request->number;
    if (request->program < PROGRAMS) {
        head->last = it->programs[request->program].now.number;
        head->round = it->programs[request->program].now.round;
    }
    head->nodes = it->shape.nodes;
    head->own = it->shape.own;
    head->registers = it->shape.registers;
    head->slots = it->shape.slots;
}

void refuse(host *it, const request_head *request, verdict why, const char *reply)
{
    uint8_t bytes[ANSWER_HEAD];
    writer to = writer_of(bytes, sizeof bytes);
    answer_head head;
    fill_head(it, request, &head);
    head.verdict = (uint8_t)why;
    write_answer_head(&to, &head);
    it->counts.refused_requests++;
    hold_answer(it, due_image(it), reply, bytes, to.length);
}

// Makes the answer to the last request of a program, with this kind and number. The caller frees
// it. Returns NULL if there is no memory.
static uint8_t *make_last(
    const host *it, const request_head *request, bool has_letters, size_t *length)
{
    const program *at = &it->programs[request->program];
    size_t results = at->count * (size_t)RESULT_BYTES;
    size_t letters = has_letters ? at->letters_length : 0;
    uint8_t *bytes = malloc(ANSWER_HEAD + results + letters);
    if (bytes == NULL) {
        return NULL;
    }
    writer to = writer_of(bytes, ANSWER_HEAD + results + letters);
    answer_head head;
    fill_head(it, request, &head);
    head.verdict = VERDICT_DONE;
    head.count = at->count;
    write_answer_head(&to, &head);
    write_bytes(&to, at->results, results);
    write_bytes(&to, at->letters, letters);
    *length = to.length;
    return bytes;
}

bool give_registers(host *it, uint8_t number, uint16_t first, uint16_t count)
{
    if (first + count > it->shape.registers) {
        return false;
    }
    for (int reg = first; reg < first + count; reg++) {
        if (it->owners[reg] != 0) {
            return false;
        }
    }
    memset(it->owners + first, number + 1, count);
    it->programs[number].first_register = first;
    it->programs[number].registers = count;
    return true;
}

// What the library says of an opening or a request, as an answer says it.
static verdict verdict_of(int judged)
{
    switch (judged) {
    case MARKRING_PROGRAM_NEXT:
    case MARKRING_PROGRAM_REPEATED: return VERDICT_DONE;
    case MARKRING_PROGRAM_STALE: return VERDICT_STALE;
    case MARKRING_PROGRAM_AHEAD: return VERDICT_AHEAD;
    case MARKRING_PROGRAM_SUPERSEDED: return VERDICT_SUPERSEDED;
    default: return VERDICT_MALFORMED;
    }
}

// The program has changed.
static void note_program(host *it, program *at)
{
    markring_images_change(&it->images);
    at->due = due_image(it);
}

// Whether this may be an opening of the program now. Its registers are given at the first one;
// later ones may name the same.
static verdict judge_opening(host *it, const request_head *request, reader *from)
{
    const program *at = &it->programs[request->program];
    bool is_apart =
        request->kind == REQUEST_OPEN_APART || request->kind == REQUEST_OPEN_APART_LETTERS;
    uint16_t first = is_apart ? (uint16_t)read_number(from, 2) : 0;
    uint16_t count = is_apart ? (uint16_t)read_number(from, 2) : 0;
    verdict why = verdict_of(
        markring_program_judge_opening(&at->now, request->session, request->number));
    if (is_apart && (!from->ok || from->left > 0 || count == 0)) {
        return VERDICT_MALFORMED;
    }
    if (why != VERDICT_DONE) {
        return why;
    }
    bool is_right = !is_apart || (at->first_register == first && at->registers == count)
        || (at->now.round == 0 && give_registers(it, request->program, first, count));
    return is_right ? VERDICT_DONE : VERDICT_REGISTERS;
}

// A process begins to speak for a program: what an earlier one asks from now on is refused.
static void open_program(host *it, const request_head *request, reader *from, const char *reply)
{
    program *at = &it->programs[request->program];
    verdict why = judge_opening(it, request, from);
    if (why != VERDICT_DONE) {
        refuse(it, request, why, reply);
        return;
    }
    if (markring_program_open(&at->now, request->session, request->number)
        == MARKRING_PROGRAM_NEXT) {
        at->waits = false;
        note_program(it, at);
    }
    if (has_apart(it)) {
        end_lists(it);
    }
    bool has_letters =
        request->kind == REQUEST_OPEN_LETTERS || request->kind == REQUEST_OPEN_APART_LETTERS;
    size_t length = 0;
    uint8_t *bytes = make_last(it, request, has_letters, &length);
    if (bytes != NULL) {
        hold_answer(it, due_image(it), reply, bytes, length);
    } else {
        it->counts.dropped++;
    }
    free(bytes);
}

// ## Events

static bool is_of_program(uint8_t kind)
{
    return (kind >= MARKRING_EVENT_ALLOC && kind <= MARKRING_EVENT_GET) || has_bytes(kind)
        || kind == MARKRING_REMOTE_FETCH || kind == MARKRING_REMOTE_ACCEPT_INTO
        || kind == MARKRING_EVENT_RESOLVE;
}

static bool is_accept(uint8_t kind)
{
    return kind == MARKRING_EVENT_ACCEPT || kind == MARKRING_REMOTE_ACCEPT_INTO;
}

// How many bytes an event of a program adds to the image, at most, and how many of it may be gone:
// a reference has 13, a letter up to 19, an object without references up to 34. A new one has 30
// without its places, and the register's reference. Loading may add a request to mark.
typedef struct moves {
    uint8_t grown, gone;
} moves;

static moves moves_of(uint8_t kind)
{
    switch (kind) {
    case MARKRING_EVENT_ALLOC: return (moves){43, 0};
    case MARKRING_EVENT_COPY:
    case MARKRING_EVENT_RESOLVE: return (moves){16, 0};
    case MARKRING_EVENT_DROP: return (moves){0, 16};
    case MARKRING_EVENT_LOAD: return (moves){64, 0};
    case MARKRING_EVENT_STORE: return (moves){16, 0};
    case MARKRING_EVENT_CLEAR: return (moves){0, 16};
    case MARKRING_EVENT_GIVE: return (moves){32, 0};
    case MARKRING_EVENT_ACCEPT:
    case MARKRING_REMOTE_ACCEPT_INTO: return (moves){0, 32};
    case MARKRING_EVENT_PUT: return (moves){48, 0};
    case MARKRING_EVENT_GET: return (moves){32, 0};
    case MARKRING_REMOTE_POST:
    case MARKRING_REMOTE_FETCH: return (moves){48, 0};
    default: return (moves){0, 0};
    }
}

// How many bytes the places of a new object have: each has one.
static size_t new_places(const markring_event *event)
{
    return event->kind == MARKRING_EVENT_ALLOC ? event->place : 0;
}

// What a letter with bytes has in an image, about.
static size_t parcel_of(const markring_remote_event *post)
{
    return parcel_bytes(post->event.count, post->length);
}

// How many bytes the event adds to the image, at most. (What an object had before goes.)
static size_t growth_of(const markring_remote_event *event)
{
    uint8_t kind = event->event.kind;
    size_t bytes = kind == MARKRING_REMOTE_SET_BYTES ? event->length
        : kind == MARKRING_REMOTE_POST               ? parcel_of(event)
                                                     : 0;
    return moves_of(kind).grown + new_places(&event->event) + bytes;
}

// How many bytes the event replaces, if it replaces those of an object.
static size_t replaced_by(host *it, const markring_remote_event *event)
{
    uint32_t length = 0;
    if (event->event.kind == MARKRING_REMOTE_SET_BYTES) {
        (void)markring_node_bytes_length(&it->node, event->event.object, &length);
    }
    return length;
}

// Whether the program may use the register: it is its own, or is nobody's and the program has none.
// (The library refuses numbers that no register has.)
static bool may_use(const host *it, uint8_t number, uint16_t reg)
{
    int owner = it->programs[number].registers > 0 ? number + 1 : 0;
    return reg >= it->shape.registers || it->owners[reg] == owner;
}

// How many registers the event uses from `reg` on: those that a letter has references for, or one.
static uint32_t registers_of(host *it, const markring_event *event)
{
    uint8_t kind = event->kind;
    markring_answer letter;
    if (kind == MARKRING_REMOTE_POST) {
        return event->count;
    }
    if (is_accept(kind) && it->shape.wide
        && markring_node_letter(&it->node, &letter) == MARKRING_OK) {
        return letter.count;
    }
    return kind <= MARKRING_EVENT_STORE || kind == MARKRING_EVENT_GIVE || is_accept(kind)
        || kind == MARKRING_EVENT_PUT || kind == MARKRING_EVENT_RESOLVE;
}

// Whether the program may use all registers that the event uses.
static bool may_use_all(host *it, uint8_t number, const markring_event *event)
{
    uint8_t kind = event->kind;
    uint32_t count = registers_of(it, event);
    bool has_object = (kind >= MARKRING_EVENT_LOAD && kind <= MARKRING_EVENT_SET_WORD)
        || kind == MARKRING_EVENT_PUT || kind == MARKRING_EVENT_GET || kind == MARKRING_REMOTE_FETCH
        || kind == MARKRING_REMOTE_SET_BYTES || kind == MARKRING_REMOTE_PATCH;
    bool may = (!has_object || may_use(it, number, event->object))
        && (kind != MARKRING_EVENT_COPY || may_use(it, number, event->source));
    for (uint32_t i = 0; may && i < count && event->reg + i < it->shape.registers; i++) {
        may = may_use(it, number, (uint16_t)(event->reg + i));
    }
    return may;
}

// Accepts the oldest letter, and puts its bytes behind those before it, as those of the result with
// this number. If it has more bytes than the event has room for, the answer has their number.
static int accept_into(host *it, const markring_event *event, uint16_t result, growing *letters,
    markring_answer *answer)
{
    markring_answer letter;
    size_t needed = 0;
    int status = markring_node_letter(&it->node, &letter);
    if (status != MARKRING_OK) {
        return status;
    }
    if (letter.number > room_of(event)) {
        answer->number = letter.number;
        return MARKRING_SHORT_BUFFER;
    }
    size_t length = (size_t)letter.number;
    if (!make_more_room(letters, LETTER_HEAD + length)) {
        return MARKRING_MEMORY;
    }
    writer to = writer_of(letters->bytes + letters->length, LETTER_HEAD);
    write_letter_head(&to, result, length);
    status = markring_node_accept_into(&it->node, event->reg,
        letters->bytes + letters->length + LETTER_HEAD, length, &needed, answer);
    letters->length += status == MARKRING_OK ? LETTER_HEAD + length : 0;
    return status;
}

// Posts a letter, unless the letters for its receiver have too many bytes.
static int post(host *it, const markring_remote_event *event, markring_answer *answer)
{
    uint8_t to = event->event.node;
    queue *waiting = &it->peers[to < NODES ? to : it->shape.own].queue;
    if (is_over_byte_limit(it, to)) {
        return MARKRING_CONGESTED;
    }
    if (!make_room_in_queue(waiting)) {
        return MARKRING_MEMORY;
    }
    if (event->event.count > UINT8_MAX) {
        return MARKRING_TOO_MANY_FIELDS;
    }
    int status = markring_node_post(&it->node, to, event->event.label, event->event.reg,
        (uint8_t)event->event.count, event->bytes, event->length, answer);
    if (status == MARKRING_OK) {
        add_to_queue(waiting, answer->number, parcel_of(event));
    }
    return status;
}

static int act(host *it, const markring_remote_event *event, uint16_t result, growing *letters,
    markring_answer *answer)
{
    const markring_event *of = &event->event;
    switch (of->kind) {
    case MARKRING_REMOTE_SET_BYTES:
        return markring_node_set_bytes(&it->node, of->object, event->bytes, event->length, answer);
    case MARKRING_REMOTE_PATCH:
        return markring_node_patch(
            &it->node, of->object, of->count, event->bytes, event->length, answer);
    case MARKRING_REMOTE_POST: return post(it, event, answer);
    case MARKRING_REMOTE_FETCH:
        return of->word > UINT32_MAX
            ? MARKRING_BAD_ARGUMENT
            : markring_node_fetch(
                  &it->node, of->object, of->label, (uint32_t)of->word, of->count, answer);
    case MARKRING_REMOTE_ACCEPT_INTO: return accept_into(it, of, result, letters, answer);
    default: return markring_node_act(&it->node, of, answer);
    }
}

// About how many bytes a letter had in the image, besides what `moves_of` says.
static size_t letter_of(host *it, uint8_t kind, const markring_answer *answer)
{
    size_t bytes = is_accept(kind) && it->shape.wide
        ? REFERENCE_BYTES * (size_t)answer->count + (size_t)answer->number
        : 0;
    it->letter_bytes -= bytes < it->letter_bytes ? bytes : it->letter_bytes;
    return bytes;
}

// What is known better of some events once they are done: a new object took a slot that was freed,
// if there was one; and a register that is dropped wasn't empty.
static void note_done(host *it, uint8_t kind)
{
    if (kind == MARKRING_EVENT_ALLOC && it->spare > 0) {
        it->spare--;
        note_loss(it, FREED_BYTES);
    }
    if (kind == MARKRING_EVENT_DROP) {
        note_loss(it, DROPPED_BYTES);
    }
}

static int perform_event(host *it, uint8_t number, const markring_remote_event *event,
    uint16_t result, growing *letters, markring_answer *answer)
{
    uint8_t kind = event->event.kind;
    size_t growth = growth_of(event);
    if (!is_of_program(kind)) {
        return MARKRING_BAD_ARGUMENT;
    }
    if (kind == MARKRING_EVENT_RESOLVE && has_apart(it)) {
        return MARKRING_APART;
    }
    if (!may_use_all(it, number, &event->event)) {
        return MARKRING_NO_REGISTER;
    }
    if (growth > 0 && is_full(it)) {
        return MARKRING_IMAGE_TOO_LARGE;
    }
    // Answers to Get become letters here. If they aren't taken, they pile up at the other node.
    if ((kind == MARKRING_EVENT_GET || kind == MARKRING_REMOTE_FETCH) && !takes_messages(it)) {
        return MARKRING_CONGESTED;
    }
    size_t gone = moves_of(kind).gone + replaced_by(it, event);
    int status = act(it, event, result, letters, answer);
    if (status == MARKRING_ARENA_FULL && reclaim_if_full(it)) {
        status = act(it, event, result, letters, answer);
    }
    if (status == MARKRING_OK && kind != MARKRING_EVENT_WORD) {
        note_change(it, growth, gone + letter_of(it, kind, answer));
        note_done(it, kind);
    }
    if (status == MARKRING_ARENA_FULL) {
        ask_for_cycle(it);
    }
    return status;
}

// Performs the events up to the first one that is refused.
static void perform_events(
    host *it, const request_head *request, reader *from, writer *to, growing *letters)
{
    int status = MARKRING_OK;
    for (uint16_t i = 0; i < request->count; i++) {
        markring_remote_event event;
        markring_result done = {MARKRING_NOT_DONE, {0}};
        read_remote_event(from, &event);
        if (status == MARKRING_OK) {
            status = done.status =
                perform_event(it, request->program, &event, i, letters, &done.answer);
        }
        if (done.status != MARKRING_OK && done.status != MARKRING_SHORT_BUFFER) {
            memset(&done.answer, 0, sizeof done.answer);
        }
        write_result(to, &done);
    }
}

// The program's next request. Without memory for its answer it is dropped, and asked again.
static void perform(host *it, const request_head *request, reader *from)
{
    program *at = &it->programs[request->program];
    size_t length = request->count * (size_t)RESULT_BYTES;
    uint8_t *results = malloc(length + 1);
    growing letters = {NULL, 0, 0};
    if (results == NULL) {
        it->counts.dropped++;
        return;
    }
    writer to = writer_of(results, length);
    perform_events(it, request, from, &to, &letters);
    free(at->results);
    free(at->letters);
    at->results = results;
    at->letters = letters.bytes;
    at->letters_length = letters.length;
    at->count = request->count;
    (void)markring_program_perform(&at->now, request->session, request->number);
    note_program(it, at);
    it->counts.requests++;
}

bool speaks_for(const program *at, const request_head *request)
{
    return markring_program_speaks_for(&at->now, request->session) == 1;
}

// Whether the bytes are this many events, and nothing else. No event is performed before that is
// known of all.
static verdict judge_events(const request_head *request, reader from)
{
    size_t bytes = 0, room = 0;
    for (uint16_t i = 0; i < request->count; i++) {
        markring_remote_event event;
        read_remote_event(&from, &event);
        bytes += event.length;
        room += room_of(&event.event);
    }
    if (!from.ok || from.left > 0) {
        return VERDICT_MALFORMED;
    }
    return bytes > BYTES_MOST || room > BYTES_MOST ? VERDICT_TOO_LONG : VERDICT_DONE;
}

static void perform_once(host *it, uint64_t now, const request_head *request, reader *from,
    const char *reply)
{
    program *at = &it->programs[request->program];
    int judged = markring_program_judge_request(&at->now, request->session, request->number);
    verdict why = verdict_of(judged);
    if (why == VERDICT_DONE) {
        why = judge_events(request, *from);
    }
    if (why != VERDICT_DONE) {
        refuse(it, request, why, reply);
        return;
    }
    if (judged == MARKRING_PROGRAM_REPEATED) {
        it->counts.repeated_requests++;
    } else {
        perform(it, request, from);
        at->waits = false;
    }
    at->asked_at = at->waits ? at->asked_at : now;
    at->waits = at->now.number == request->number && copy_reply(at->reply, reply);
    at->kind = request->kind;
}

// What registers hold. The answer waits, too, until what it shows is stored.
static void read_registers(host *it, const request_head *request, reader *from, const char *reply)
{
    uint8_t bytes[ANSWER_BYTES];
    writer to = writer_of(bytes, sizeof bytes);
    answer_head head;
    if (from->left != request->count * (size_t)2) {
        refuse(it, request, VERDICT_MALFORMED, reply);
        return;
    }
    fill_head(it, request, &head);
    head.count = request->count;
    write_answer_head(&to, &head);
    for (uint16_t i = 0; i < request->count; i++) {
        markring_result found = {MARKRING_OK, {0}};
        uint16_t reg = (uint16_t)read_number(from, 2);
        found.status = may_use(it, request->program, reg)
            ? markring_node_register(&it->node, reg, &found.answer.reference)
            : MARKRING_NO_REGISTER;
        write_result(&to, &found);
    }
    hold_answer(it, due_image(it), reply, bytes, to.length);
}

// What a program asks to read of an object.
typedef struct bytes_wanted {
    uint16_t object;
    uint32_t offset, count;
} bytes_wanted;

static verdict judge_reading(const request_head *request, reader *from, bytes_wanted *wanted)
{
    wanted->object = (uint16_t)read_number(from, 2);
    wanted->offset = (uint32_t)read_number(from, 4);
    wanted->count = (uint32_t)read_number(from, 4);
    if (!from->ok || from->left > 0 || request->count != 1) {
        return VERDICT_MALFORMED;
    }
    return wanted->count > BYTES_MOST ? VERDICT_TOO_LONG : VERDICT_DONE;
}

// Whether the program may read that; and how many bytes the object has.
static int find_bytes(host *it, uint8_t number, const bytes_wanted *wanted, uint32_t *length)
{
    if (!may_use(it, number, wanted->object)) {
        return MARKRING_NO_REGISTER;
    }
    int status = markring_node_bytes_length(&it->node, wanted->object, length);
    bool has_all = wanted->offset <= *length && wanted->count <= *length - wanted->offset;
    return status == MARKRING_OK && !has_all ? MARKRING_NO_BYTES : status;
}

// Writes the answer: a result, and behind it the bytes. Returns its length, or 0.
static size_t write_object(host *it, const request_head *request, const bytes_wanted *wanted,
    const markring_result *found, uint8_t *bytes)
{
    writer to = writer_of(bytes, ANSWER_HEAD + RESULT_BYTES);
    answer_head head;
    size_t count = 0;
    fill_head(it, request, &head);
    head.count = 1;
    write_answer_head(&to, &head);
    write_result(&to, found);
    int status = found->status == MARKRING_OK
        ? markring_node_bytes(&it->node, wanted->object, wanted->offset, wanted->count,
              bytes + to.length, wanted->count, &count)
        : MARKRING_OK;
    return status == MARKRING_OK ? to.length + count : 0;
}

// The bytes of an object. The answer waits until what it shows is stored. It takes no more memory
// than for bytes that are there; without that it is dropped, and asked for again.
static void read_object(host *it, const request_head *request, reader *from, const char *reply)
{
    bytes_wanted wanted;
    uint32_t length = 0;
    markring_result found = {MARKRING_OK, {0}};
    verdict why = judge_reading(request, from, &wanted);
    if (why != VERDICT_DONE) {
        refuse(it, request, why, reply);
        return;
    }
    found.status = find_bytes(it, request->program, &wanted, &length);
    size_t count = found.status == MARKRING_OK ? wanted.count : 0;
    found.answer.number = found.status == MARKRING_OK ? length : 0;
    uint8_t *bytes = malloc(ANSWER_HEAD + RESULT_BYTES + count);
    size_t written = bytes != NULL ? write_object(it, request, &wanted, &found, bytes) : 0;
    if (written > 0) {
        hold_answer(it, due_image(it), reply, bytes, written);
    } else {
        it->counts.dropped++;
    }
    free(bytes);
}

// Each program has one such request at a time; a later one takes its place.
static void await_letter(host *it, const request_head *request, const char *reply)
{
    program *at = &it->programs[request->program];
    at->waiting = *request;
    at->awaits_letter = copy_reply(at->letter_reply, reply);
}

void host_request(host *it, uint64_t now, const uint8_t *bytes, size_t length, const char *reply)
{
    request_head head;
    reader from = reader_of(bytes, length);
    if (it->end != HOST_RUNS || it->stopping) {
        return;
    }
    if (!read_request_head(&from, &head) || strlen(reply) >= HOST_REPLY) {
        it->counts.foreign++;
        return;
    }
    if (head.program >= PROGRAMS || head.count > REQUEST_EVENTS) {
        refuse(it, &head, VERDICT_MALFORMED, reply);
        return;
    }
    switch (head.kind) {
    case REQUEST_OPEN:
    case REQUEST_OPEN_APART:
    case REQUEST_OPEN_LETTERS:
    case REQUEST_OPEN_APART_LETTERS: open_program(it, &head, &from, reply); break;
    case REQUEST_PERFORM:
    case REQUEST_PERFORM_RESOLVING: perform_once(it, now, &head, &from, reply); break;
    case REQUEST_READ: read_registers(it, &head, &from, reply); break;
    case REQUEST_READ_BYTES: read_object(it, &head, &from, reply); break;
    case REQUEST_TRACK_FREED: track_freed(it, &head, &from, reply); break;
    case REQUEST_FREED: read_freed(it, &head, &from, reply); break;
    case REQUEST_OBJECTS: read_objects(it, &head, &from, reply); break;
    case REQUEST_PLACES: read_places(it, &head, &from, reply); break;
    case REQUEST_WAIT: await_letter(it, &head, reply); break;
    default: refuse(it, &head, VERDICT_MALFORMED, reply);
    }
}

// ## Answers

// Says how many letters wait, to programs that wait for one.
static void announce_letters(host *it)
{
    markring_state state;
    if (markring_node_state(&it->node, &state) != MARKRING_OK || state.letters == 0) {
        return;
    }
    for (uint8_t i = 0; i < PROGRAMS; i++) {
        program *at = &it->programs[i];
        uint8_t bytes[ANSWER_HEAD + RESULT_BYTES];
        writer to = writer_of(bytes, sizeof bytes);
        markring_result letters = {MARKRING_OK, {.number = state.letters}};
        answer_head head;
        if (!at->awaits_letter) {
            continue;
        }
        fill_head(it, &at->waiting, &head);
        head.count = 1;
        write_answer_head(&to, &head);
        write_result(&to, &letters);
        hold_answer(it, due_image(it), at->letter_reply, bytes, to.length);
        at->awaits_letter = false;
    }
}

// Whether an answer may leave that shows what this image holds.
static bool may_leave(const host *it, uint64_t due)
{
    return markring_images_may_leave(&it->images, due) == 1;
}

static void answer_held(host *it)
{
    held **at = &it->first;
    while (*at != NULL) {
        held *answer = *at;
        if (!may_leave(it, answer->due)) {
            at = &answer->next;
            continue;
        }
        it->calls.answer(it->calls.context, answer->reply, answer->bytes, answer->length);
        *at = answer->next;
        it->held_count--;
        it->held_bytes -= answer->length;
        free(answer);
    }
    it->last = at;
}

void answer_programs(host *it, uint64_t now)
{
    announce_letters(it);
    answer_held(it);
    for (uint8_t i = 0; i < PROGRAMS; i++) {
        program *at = &it->programs[i];
        if (!at->waits || !may_leave(it, at->due)) {
            continue;
        }
        request_head request = {at->kind, i, at->now.session, at->now.number, at->count};
        size_t length = 0;
        uint8_t *bytes = make_last(it, &request, true, &length);
        if (bytes == NULL) {
            it->counts.dropped++;
            continue;
        }
        it->calls.answer(it->calls.context, at->reply, bytes, length);
        free(bytes);
        observe(&it->requests, now - at->asked_at);
        at->waits = false;
    }
}

// ## The operator

// Empties the registers of a program, and ends the rights of its process. The answer comes once
// that is stored.
static void forget_program(host *it, uint8_t number, const char *reply)
{
    char text[64];
    program *at = &it->programs[number];
    for (int i = 0; i < at->registers; i++) {
        markring_answer answer;
        uint16_t reg = (uint16_t)(at->first_register + i);
        if (markring_node_drop(&it->node, reg, &answer) == MARKRING_OK) {
            note_change(it, 0, moves_of(MARKRING_EVENT_DROP).gone);
        }
    }
    markring_program_forget(&at->now);
    at->waits = false;
    note_program(it, at);
    int length = snprintf(
        text, sizeof text, "{\"forgotten\": %d, \"registers\": %d}", number, at->registers);
    hold_answer(it, due_image(it), reply, (const uint8_t *)text, (size_t)length);
}

// The number of a program in `forget NUMBER`, or -1. It has registers for itself.
static int program_to_forget(const host *it, const char *word, size_t length)
{
    static const char begin[] = "forget ";
    size_t skip = sizeof begin - 1;
    int number = 0;
    if (length <= skip || length > skip + 2 || memcmp(word, begin, skip) != 0) {
        return -1;
    }
    for (size_t i = skip; i < length; i++) {
        if (word[i] < '0' || word[i] > '9') {
            return -1;
        }
        number = 10 * number + (word[i] - '0');
    }
    return number < PROGRAMS && it->programs[number].registers > 0 ? number : -1;
}

static bool is_word(const char *given, size_t length, const char *word)
{
    return length == strlen(word) && memcmp(given, word, length) == 0;
}

void host_control(host *it, uint64_t now, const char *word, size_t length, const char *reply)
{
    const char *text = "{\"error\": \"the words are status, begin, stop and, for a program with "
                       "registers of its own, forget NUMBER\"}";
    int forgotten = program_to_forget(it, word, length);
    if (it->end != HOST_RUNS) {
        return;
    }
    if (forgotten >= 0 && !it->stopping) {
        forget_program(it, (uint8_t)forgotten, reply);
        return;
    }
    if (is_word(word, length, "status")) {
        answer_status(it, now, reply);
        return;
    }
    if (is_word(word, length, "stop") && copy_reply(it->stop_reply, reply)) {
        host_leave(it);
        return;
    }
    if (is_word(word, length, "begin")) {
        it->asked = it->asked || it->shape.own == 0;
        it->has_work = true;
        text = it->asked ? "{\"asked\": true}" : "{\"error\": \"only node 0 begins cycles\"}";
    }
    it->calls.answer(it->calls.context, reply, (const uint8_t *)text, strlen(text));
}
