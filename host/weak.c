// What programs ask of objects that no register of theirs may name: the objects of the node, and
// what it freed. docs/PROCESSES.md ("Programs") says who may ask.
#include "inside.h"

#include <stdlib.h>

enum { LEAST_ROOM = 1024 }; // entries

bool has_apart(const host *it)
{
    for (int i = 0; i < PROGRAMS; i++) {
        const program *at = &it->programs[i];
        if (at->registers > 0 && at->now.session != MARKRING_PROGRAM_FORGOTTEN) {
            return true;
        }
    }
    return false;
}

// Writes the head of an answer with one result, and that.
static void write_one(
    host *it, const request_head *request, const markring_result *found, writer *to)
{
    answer_head head;
    fill_head(it, request, &head);
    head.count = 1;
    write_answer_head(to, &head);
    write_result(to, found);
}

// ## What was freed
//
// The library hands out an object once no crash can bring it back. It stays there until a program
// asks for it; then it is in this list until all programs that have one have it. Its entries are
// numbered, from 1 on, as long as the process lasts. The number of a program's list is another one
// for each process, and each time that the program begins one: so a place in an earlier list is
// never taken for one in a later list.

// How many objects the node has freed since the process began.
static uint64_t count_freed(const host *it)
{
    return it->counts.freed + it->counts.reclaimed;
}

static size_t count_entries(const freed_list *it)
{
    return it->end - it->first;
}

static uint64_t last_entry(const freed_list *it)
{
    return it->before + count_entries(it);
}

// The number of the last entry that all programs with a list have; UINT64_MAX if none has one.
static uint64_t least_had(const host *it)
{
    uint64_t least = UINT64_MAX;
    for (int i = 0; i < PROGRAMS; i++) {
        const program *at = &it->programs[i];
        least = at->list != 0 && at->had < least ? at->had : least;
    }
    return least;
}

static void free_if_empty(freed_list *it)
{
    if (count_entries(it) == 0) {
        free(it->entries);
        it->entries = NULL;
        it->first = it->end = it->room = 0;
    }
}

// Drops what all programs with a list have. If no program has a list, the node lists nothing more.
static void trim_list(host *it)
{
    freed_list *of = &it->freed;
    uint64_t least = least_had(it);
    if (least == UINT64_MAX) {
        (void)markring_node_track_freed(&it->node, 0);
        least = last_entry(of);
    }
    of->first += (size_t)(least - of->before);
    of->before = least;
    free_if_empty(of);
}

void end_lists(host *it)
{
    if (least_had(it) == UINT64_MAX) {
        return;
    }
    for (int i = 0; i < PROGRAMS; i++) {
        it->programs[i].list = 0;
    }
    trim_list(it);
}

// How many entries there are, with those that the library has. (Whoever is linked to the host may
// have freed more than is counted.)
static uint64_t count_listed(const host *it)
{
    uint64_t freed = count_freed(it), taken = it->freed.taken;
    return count_entries(&it->freed) + (freed > taken ? freed - taken : 0);
}

void bound_lists(host *it)
{
    for (uint64_t least = least_had(it);
         least != UINT64_MAX && count_listed(it) > it->freed.most; least = least_had(it)) {
        for (int i = 0; i < PROGRAMS; i++) {
            program *at = &it->programs[i];
            at->list = at->had == least ? 0 : at->list;
        }
        trim_list(it);
    }
}

// Begins a list for a program.
static int begin_list(host *it, program *at)
{
    freed_list *of = &it->freed;
    bool is_first = least_had(it) == UINT64_MAX;
    int status = is_first ? markring_node_track_freed(&it->node, 1) : MARKRING_OK;
    if (status == MARKRING_OK) {
        of->taken = is_first ? count_freed(it) : of->taken;
        of->lists++;
        // (0 is no list)
        of->lists += it->nonce + of->lists == 0;
        at->list = it->nonce + of->lists;
        at->had = last_entry(of);
        at->is_list_new = true;
    }
    return status;
}

// Makes room for another entry. Returns whether there is memory.
static bool make_entry_room(freed_list *it)
{
    size_t count = count_entries(it);
    if (it->end < it->room) {
        return true;
    }
    if (it->first > count) {
        memcpy(it->entries, it->entries + it->first, count * sizeof *it->entries);
        it->first = 0;
        it->end = count;
        return true;
    }
    size_t room = it->room > 0 ? 2 * it->room : LEAST_ROOM;
    markring_freed *entries = realloc(it->entries, room * sizeof *entries);
    if (entries == NULL) {
        return false;
    }
    it->entries = entries;
    it->room = room;
    return true;
}

// Takes what the library hands out, up to the entry with this number. Without memory it stays
// there.
static void take_entries(host *it, uint64_t last)
{
    freed_list *of = &it->freed;
    size_t taken = 1;
    while (taken > 0 && last_entry(of) < last && make_entry_room(of)) {
        size_t most = (size_t)(last - last_entry(of)), room = of->room - of->end;
        int status = markring_node_freed(
            &it->node, of->entries + of->end, most < room ? most : room, &taken);
        taken = status == MARKRING_OK ? taken : 0;
        of->end += taken;
        of->taken += taken;
    }
    free_if_empty(of);
}

static verdict judge_asker(const host *it, const request_head *request, bool is_whole)
{
    const program *at = &it->programs[request->program];
    return !is_whole || request->count != 1 ? VERDICT_MALFORMED
        : !speaks_for(at, request)          ? VERDICT_SUPERSEDED
        : has_apart(it)                     ? VERDICT_APART
                                            : VERDICT_DONE;
}

void track_freed(host *it, const request_head *request, reader *from, const char *reply)
{
    program *at = &it->programs[request->program];
    uint8_t bytes[ANSWER_HEAD + RESULT_BYTES];
    writer to = writer_of(bytes, sizeof bytes);
    verdict why = judge_asker(it, request, from->left == 0);
    if (why != VERDICT_DONE) {
        refuse(it, request, why, reply);
        return;
    }
    if (at->list == 0 && begin_list(it, at) != MARKRING_OK) {
        it->counts.dropped++;
        return;
    }
    markring_result found = {MARKRING_OK,
        {.number = at->had, .sum = (int64_t)at->list, .done = at->is_list_new}};
    write_one(it, request, &found, &to);
    hold_answer(it, at->due, reply, bytes, to.length);
}

// The program has all entries of its list up to one. Returns whether it has such a list.
static bool note_had(host *it, program *at, uint64_t list, uint64_t had)
{
    if (at->list == 0 || list != at->list || had < at->had || had > last_entry(&it->freed)) {
        return false;
    }
    at->had = had;
    at->is_list_new = false;
    trim_list(it);
    return true;
}

// The entries behind those that the program has. No crash takes them back, so the answer waits only
// until the numbers of the program in its head are stored.
static void write_entries(host *it, const request_head *request, uint32_t most, const char *reply)
{
    const program *at = &it->programs[request->program];
    const freed_list *of = &it->freed;
    take_entries(it, at->had + most);
    size_t count = (size_t)(last_entry(of) - at->had);
    count = count < most ? count : most;
    size_t length = ANSWER_HEAD + RESULT_BYTES + count * FREED_RECORD;
    uint8_t *bytes = malloc(length);
    if (bytes == NULL) {
        it->counts.dropped++;
        return;
    }
    writer to = writer_of(bytes, length);
    markring_result found = {MARKRING_OK,
        {.number = at->had + count, .sum = (int64_t)at->list, .count = (uint32_t)count}};
    write_one(it, request, &found, &to);
    const markring_freed *next = of->entries + of->first + (size_t)(at->had - of->before);
    for (size_t i = 0; i < count; i++) {
        write_freed_record(&to, &next[i]);
    }
    hold_answer(it, at->due, reply, bytes, to.length);
    free(bytes);
}

void read_freed(host *it, const request_head *request, reader *from, const char *reply)
{
    uint64_t list = read_number(from, 8), had = read_number(from, 8);
    uint32_t most = (uint32_t)read_number(from, 4);
    verdict why = judge_asker(it, request, from->ok && from->left == 0);
    if (why == VERDICT_DONE && !note_had(it, &it->programs[request->program], list, had)) {
        why = VERDICT_LOST;
    }
    if (why != VERDICT_DONE) {
        refuse(it, request, why, reply);
        return;
    }
    write_entries(it, request, most < FREED_IN_ANSWER ? most : FREED_IN_ANSWER, reply);
}

// ## The objects

static verdict judge_walk(const host *it, const request_head *request, const reader *from)
{
    return !from->ok || from->left > 0 || request->count != 1 ? VERDICT_MALFORMED
        : has_apart(it)                                       ? VERDICT_APART
                                                              : VERDICT_DONE;
}

// Writes objects of the slots from one on: at most this many, and of no more slots than one request
// looks at. Returns how many, and the next slot.
static uint32_t write_objects(host *it, uint32_t *slot, uint32_t slots, uint32_t most, writer *to)
{
    uint32_t count = 0, end = slots - *slot > OBJECTS_IN_ANSWER ? *slot + OBJECTS_IN_ANSWER : slots;
    for (; *slot < end && count < most; ++*slot) {
        markring_object object;
        if (markring_node_object(&it->node, *slot, &object) == MARKRING_OK) {
            write_object_record(to, &object);
            count++;
        }
    }
    return count;
}

// The answer waits until what it shows is stored.
void read_objects(host *it, const request_head *request, reader *from, const char *reply)
{
    uint32_t slot = (uint32_t)read_number(from, 4), most = (uint32_t)read_number(from, 4);
    uint32_t slots = 0;
    verdict why = judge_walk(it, request, from);
    if (why != VERDICT_DONE) {
        refuse(it, request, why, reply);
        return;
    }
    (void)markring_node_slots(&it->node, &slots);
    slot = slot < slots ? slot : slots;
    most = most < OBJECTS_IN_ANSWER ? most : OBJECTS_IN_ANSWER;
    most = most < slots - slot ? most : slots - slot;
    size_t head = ANSWER_HEAD + RESULT_BYTES, room = head + most * (size_t)OBJECT_RECORD;
    uint8_t *bytes = malloc(room);
    if (bytes == NULL) {
        it->counts.dropped++;
        return;
    }
    writer objects = writer_of(bytes + head, room - head), to = writer_of(bytes, head);
    uint32_t count = write_objects(it, &slot, slots, most, &objects);
    markring_result found = {
        MARKRING_OK, {.count = count, .label = slot, .done = slot == slots}};
    write_one(it, request, &found, &to);
    hold_answer(it, due_image(it), reply, bytes, head + objects.length);
    free(bytes);
}

// What the places of an object hold. The same.
void read_places(host *it, const request_head *request, reader *from, const char *reply)
{
    uint8_t bytes[ANSWER_HEAD + RESULT_BYTES + PLACES_IN_ANSWER * REFERENCE_RECORD];
    size_t head = ANSWER_HEAD + RESULT_BYTES;
    writer places = writer_of(bytes + head, sizeof bytes - head), to = writer_of(bytes, head);
    markring_ref wanted;
    markring_object object = {.places = 0};
    read_reference(from, &wanted);
    verdict why = judge_walk(it, request, from);
    if (why != VERDICT_DONE) {
        refuse(it, request, why, reply);
        return;
    }
    markring_result found = {MARKRING_REMOTE, {0}};
    if (wanted.node == it->shape.own) {
        bool is_there = markring_node_object(&it->node, wanted.slot, &object) == MARKRING_OK
            && object.reference.generation == wanted.generation;
        found.status = is_there ? MARKRING_OK : MARKRING_NO_FIELD;
    }
    for (uint8_t i = 0; found.status == MARKRING_OK && i < object.places; i++) {
        markring_ref place = {0};
        (void)markring_node_place(&it->node, wanted.slot, i, &place);
        write_reference(&places, &place);
        found.answer.count++;
    }
    write_one(it, request, &found, &to);
    hold_answer(it, due_image(it), reply, bytes, head + places.length);
}
