// Opening, turns and saves of a host.
#include "inside.h"

#include <stdarg.h>
#include <stdio.h>
#include <stdlib.h>

// What moves at least before the image is looked at; and as many messages as may be early. To look
// at an image with more bytes than LOOKED_AT takes longer than anybody should wait. So that is done
// only if it may exceed a limit; and not again before a PART of it may be new or gone, or
// LOOK_AGAIN milliseconds are over. A SHARE of it has come, at least, before a rewrite is asked for
// its size.
enum {
    LEAST_MOVED = 4096,
    EARLY = 32,
    LOOKED_AT = 1 << 20,
    PART = 64,
    SHARE = 16,
    LOOK_AGAIN = 1000
};

void end_with(host *it, host_end end, const char *format, ...)
{
    if (it->end != HOST_RUNS) {
        return;
    }
    va_list words;
    va_start(words, format);
    (void)vsnprintf(it->reason, sizeof it->reason, format, words);
    va_end(words);
    it->end = end;
}

uint64_t due_image(const host *it)
{
    return markring_images_due(&it->images);
}

bool copy_reply(char *to, const char *reply)
{
    size_t length = strlen(reply);
    if (length >= HOST_REPLY) {
        return false;
    }
    memcpy(to, reply, length + 1);
    return true;
}

void hold_answer(host *it, uint64_t due, const char *reply, const uint8_t *bytes, size_t length)
{
    bool has_room = it->held_count < HELD_ANSWERS && length <= HELD_BYTES - it->held_bytes;
    held *answer = has_room ? malloc(sizeof *answer + length) : NULL;
    if (answer == NULL || !copy_reply(answer->reply, reply)) {
        it->counts.dropped++;
        free(answer);
        return;
    }
    answer->next = NULL;
    answer->due = due;
    answer->length = length;
    memcpy(answer->bytes, bytes, length);
    *it->last = answer;
    it->last = &answer->next;
    it->held_count++;
    it->held_bytes += length;
}

// ## The size of the image

// Whether the image has a limit; or else nobody has to look at it.
static bool has_limit(const host *it)
{
    return it->options.image_most != SIZE_MAX || it->options.image_tight != SIZE_MAX;
}

// Looks at how many bytes the image has. That takes as long as writing it.
static void measure(host *it)
{
    size_t size = 0;
    if (markring_node_image_size(&it->node, &size) == MARKRING_OK) {
        it->measured = it->size = size;
    }
    it->is_measured = true;
    it->measured_at = it->turn_at;
    it->moved = 0;
}

static bool is_large(const host *it)
{
    return it->measured > LOOKED_AT;
}

// Whether it is worth its time to look at the image again.
static bool may_look(const host *it)
{
    bool is_due = it->moved > it->measured / PART || it->turn_at - it->measured_at >= LOOK_AGAIN;
    return !it->is_measured && (!is_large(it) || is_due);
}

// Whether the image may have more bytes than this.
static bool may_exceed(host *it, size_t most)
{
    if (it->size > most && may_look(it)) {
        measure(it);
    }
    return it->size > most;
}

// While little of a large image has moved, what was found last counts: no program is refused for an
// estimate.
bool is_full(host *it)
{
    size_t most = it->options.image_most;
    bool may_be = may_exceed(it, most);
    bool is_known = is_large(it) && it->moved <= it->measured / PART;
    return may_be && (it->measured > most || !is_known);
}

static void grow(host *it, size_t bytes)
{
    it->size += bytes;
    it->grown += bytes;
}

// How many bytes the image grows by, at most, if the node joins the next cycle.
static size_t growth_of_joining(const markring_state *state)
{
    return state->swept == state->cycle
        ? JOINING * ((size_t)state->letters + state->registers)
        : 0;
}

// The node may have joined a cycle since this was looked at. One message, and those that were
// early, may have brought letters before.
static void note_joining(host *it, const markring_state *state)
{
    size_t letters = it->letters + EARLY > state->letters ? it->letters + EARLY : state->letters;
    if (state->cycle != it->joined) {
        it->joined = state->cycle;
        grow(it, JOINING * (letters + state->registers));
        it->moved += JOINING * (letters + state->registers);
    }
    it->letters = state->letters;
}

bool is_tight(host *it)
{
    markring_state state;
    if (markring_node_state(&it->node, &state) != MARKRING_OK) {
        return true;
    }
    note_joining(it, &state);
    size_t joining = growth_of_joining(&state), most = it->options.image_tight;
    return may_exceed(it, joining < most ? most - joining : 0);
}

bool takes_messages(host *it)
{
    markring_state state;
    if (markring_node_state(&it->node, &state) != MARKRING_OK) {
        return false;
    }
    // (an estimate, which this corrects)
    it->letter_bytes = state.letters > 0 ? it->letter_bytes : 0;
    return state.letters < it->options.letters_most
        && it->letter_bytes < it->options.letter_bytes_most && !is_tight(it);
}

// A turn begins. A small image is looked at if half of it may be new or gone, so that this takes no
// more time than the events did.
static void begin_measuring(host *it, uint64_t now)
{
    it->turn_at = now;
    it->is_measured = it->moved == 0;
    if (!is_large(it) && it->moved > it->measured / 2 + LEAST_MOVED) {
        measure(it);
    }
}

void note_change(host *it, size_t grown, size_t gone)
{
    markring_images_change(&it->images);
    grow(it, grown);
    it->moved += 1 + grown + gone;
}

void note_loss(host *it, size_t bytes)
{
    it->size -= bytes < it->size ? bytes : it->size;
}

void host_changed(host *it)
{
    note_change(it, GROWTH, 0);
}

void host_wrote(host *it, size_t bytes)
{
    note_change(it, GROWTH + bytes, 0);
}

uint64_t limit_of(const host *it)
{
    return it->options.has_limit ? it->options.limit : it->shape.limit;
}

uint64_t byte_limit_of(const host *it)
{
    return it->options.has_byte_limit ? it->options.byte_limit : it->shape.byte_limit;
}

bool is_over_byte_limit(const host *it, uint8_t to)
{
    uint64_t limit = byte_limit_of(it);
    return limit > 0 && to < NODES && it->peers[to].queue.bytes >= limit;
}

// ## Opening

// Makes a value of all that lasts, in a buffer of its own.
static int make_value(host *it, store_value *value)
{
    size_t image = 0;
    int status = markring_node_image_size(&it->node, &image);
    if (status != MARKRING_OK) {
        return status;
    }
    value->is_entry = false;
    value->length = saved_size(it, image);
    value->room = value->end = STORE_HEAD + value->length + STORE_TAIL;
    value->whole = 0;
    value->buffer = malloc(value->room);
    if (value->buffer == NULL) {
        return MARKRING_MEMORY;
    }
    writer to = writer_of(value->buffer + STORE_HEAD, value->length);
    status = write_saved(it, &to, image);
    if (status != MARKRING_OK) {
        free(value->buffer);
        value->buffer = NULL;
    }
    return status;
}

int host_create(const host_shape *shape, store_value *value)
{
    host *it = calloc(1, sizeof *it);
    if (it == NULL) {
        return MARKRING_MEMORY;
    }
    it->shape = *shape;
    forget_line(it);
    markring_shape sizes = {.slots = shape->slots,
        .registers = shape->registers,
        .nodes = shape->nodes,
        .places = shape->wide ? shape->places : PLAIN_PLACES,
        .bytes = shape->bytes,
        .wide = shape->wide};
    int status = markring_node_make(&it->node, &sizes, shape->own, shape->limit);
    if (status == MARKRING_OK) {
        status = markring_node_log(&it->node, 1);
    }
    if (status == MARKRING_OK) {
        status = make_value(it, value);
    }
    host_free(it);
    return status;
}

int host_rename(host *it, const uint8_t *space, store_value *value)
{
    memcpy(it->shape.space, space, SPACE_ID);
    return make_value(it, value);
}

// What was heard of other nodes' processes is saved again only when they show themselves.
static void forget_processes(host *it)
{
    for (int i = 0; i < it->shape.nodes; i++) {
        it->peers[i].known = (process){0, 0, 0};
    }
}

// Nothing was sent by this process yet, and each node is told that it has begun.
static void begin_links(host *it)
{
    for (uint8_t to = 0; to < it->shape.nodes; to++) {
        markring_link link;
        if (to != it->shape.own && markring_node_link(&it->node, to, &link) == MARKRING_OK) {
            markring_sending_begin(
                &it->peers[to].sending, link.acknowledged, link.received_saved);
        }
    }
}

// Makes room for packets, which are longer in wide spaces.
static bool make_packets(host *it)
{
    bool is_wide = it->shape.wide;
    it->window_room = is_wide ? WIDE_WINDOW_BYTES : WINDOW_BYTES;
    it->packet_room = is_wide ? WIDE_PACKET_BYTES : PACKET_BYTES;
    it->window = malloc(it->window_room);
    it->packet = malloc(it->packet_room);
    return it->window != NULL && it->packet != NULL;
}

int host_open(host **opened, const store_value *value, uint64_t number, uint64_t nonce,
    const host_options *options, const host_calls *calls, uint64_t now)
{
    host *it = calloc(1, sizeof *it);
    if (it == NULL) {
        return MARKRING_MEMORY;
    }
    it->options = *options;
    if (options->letters_most == 0) {
        it->options.letters_most = LETTERS_MOST;
    }
    if (options->letter_bytes_most == 0) {
        it->options.letter_bytes_most = LETTER_BYTES_MOST;
    }
    if (options->entries_least == 0) {
        it->options.entries_least = ENTRIES_LEAST;
    }
    it->calls = *calls;
    it->last = &it->first;
    it->freed.most = FREED_MOST;
    it->nonce = nonce;
    it->stored = number;
    it->run = number + 1;
    it->cycle_at = now + options->cycle_every;
    it->objects_after = UINT64_MAX;
    // Each process begins with a save, whose number is its own.
    markring_images_change(&it->images);
    it->has_work = true;
    forget_line(it);
    int status = read_saved(it, value);
    if (status != MARKRING_OK) {
        host_free(it);
        return status;
    }
    // (only now it is known of which kind the space is)
    if (options->image_most == 0) {
        it->options.image_most = it->shape.wide ? SIZE_MAX : IMAGE_MOST;
    }
    if (options->image_tight == 0) {
        it->options.image_tight = it->shape.wide ? SIZE_MAX : IMAGE_TIGHT;
    }
    if (!make_packets(it)) {
        host_free(it);
        return MARKRING_MEMORY;
    }
    if (options->trusts_folder) {
        forget_processes(it);
        forget_line(it);
    }
    begin_line(it);
    begin_links(it);
    begin_notes(it, now);
    *opened = it;
    return MARKRING_OK;
}

void host_free(host *it)
{
    if (it == NULL) {
        return;
    }
    while (it->first != NULL) {
        held *next = it->first->next;
        free(it->first);
        it->first = next;
    }
    for (int i = 0; i < PROGRAMS; i++) {
        free(it->programs[i].results);
        free(it->programs[i].letters);
    }
    for (int i = 0; i < NODES; i++) {
        free(it->peers[i].queue.parcels);
    }
    free(it->freed.entries);
    free(it->window);
    free(it->packet);
    free(it->value.buffer);
    (void)markring_node_free(&it->node);
    free(it);
}

// ## Saves

// Room for a value of this length.
static bool make_room(host *it, size_t length)
{
    size_t room = STORE_HEAD + length + STORE_TAIL;
    if (it->value.room < room) {
        uint8_t *buffer = realloc(it->value.buffer, room + room / 4);
        if (buffer == NULL) {
            return false;
        }
        it->value.buffer = buffer;
        it->value.room = room + room / 4;
    }
    it->value.length = length;
    return true;
}

// Whether the entries behind the whole value have no more bytes than this many times what they may
// have, with one of this length. So twice the bytes of the entries are written in the long run, and
// an opening performs no more events than fit there.
static bool has_room(const host *it, size_t length, size_t times)
{
    size_t least = it->options.entries_least, most = it->whole > least ? it->whole : least;
    most *= times;
    return it->entries <= most && STORE_HEAD + length + STORE_TAIL <= most - it->entries;
}

// Whether half of the way to the next limit of the image is gone, as far as is known. A rewrite
// shows how many bytes it has, and nobody waits for that.
static bool is_size_due(const host *it)
{
    size_t most = it->measured < it->options.image_most ? it->options.image_most
                                                        : it->options.image_tight;
    if (!is_large(it) || it->measured >= most || it->size <= it->measured) {
        return false;
    }
    size_t half = (most - it->measured) / 2, least = it->measured / SHARE;
    return it->size - it->measured > (half > least ? half : least);
}

// Whether an entry of this length may be added. If there are many, a whole value takes their place,
// which the caller makes while more are added, if it can.
static bool may_add(host *it, size_t length)
{
    bool has_few = has_room(it, length, 1);
    if (has_few && !is_size_due(it)) {
        return true;
    }
    if (it->calls.rewrite == NULL || !has_room(it, length, 2)) {
        return has_few;
    }
    if (!it->rewriting && !it->rewrite_failed) {
        it->rewriting = true;
        it->grown_rewritten = it->grown_saved;
        it->calls.rewrite(it->calls.context);
    }
    return true;
}

// Takes a batch, with what else has changed; or returns MARKRING_NO_LOG if an image has to be
// taken. What is saved by batches may have to become an image at any time, so its size is looked
// at, if it has a limit.
static int take_batch(host *it)
{
    size_t batch = 0;
    if (it->whole_due > 0) {
        return MARKRING_NO_LOG;
    }
    int status = markring_node_batch_size(&it->node, &batch);
    if (status == MARKRING_OK && !it->shape.wide && it->size > IMAGE_LIMIT) {
        status = markring_node_image_size(&it->node, &it->measured);
        it->size = it->measured;
    }
    if (status != MARKRING_OK) {
        return status;
    }
    size_t length = entry_size(it, batch);
    if (!may_add(it, length)) {
        return MARKRING_NO_LOG;
    }
    if (!make_room(it, length)) {
        return MARKRING_MEMORY;
    }
    it->value.is_entry = true;
    writer to = writer_of(it->value.buffer + STORE_HEAD, length);
    return write_entry(it, &to, batch);
}

// Takes an image, with what else lasts.
static int take_image(host *it)
{
    size_t image = 0;
    int status = markring_node_image_size(&it->node, &image);
    if (status != MARKRING_OK) {
        return status;
    }
    if (!make_room(it, saved_size(it, image))) {
        return MARKRING_MEMORY;
    }
    it->value.is_entry = false;
    writer to = writer_of(it->value.buffer + STORE_HEAD, it->value.length);
    status = write_saved(it, &to, image);
    if (status == MARKRING_OK) {
        it->rewriting = it->rewrite_failed = false;
        it->measured = it->size = image;
        it->moved = 0;
    }
    return status;
}

static void save(host *it, uint64_t now)
{
    if (markring_images_may_begin(&it->images) == 0 || now < it->save_at) {
        return;
    }
    int status = take_batch(it);
    if (status == MARKRING_NO_LOG) {
        status = take_image(it);
    }
    if (status == MARKRING_IMAGE_TOO_LARGE) {
        end_with(it, HOST_TOO_LARGE,
            "the node's image exceeds 67,108,864 bytes, so nothing new can be saved; start it "
            "again, and let programs drop references and accept letters first");
        return;
    }
    if (status == MARKRING_MEMORY) {
        it->counts.failed_saves++;
        it->save_at = now + RETRY;
        return;
    }
    if (status != MARKRING_OK) {
        end_with(it, HOST_BROKEN, "the library gave no image or batch: %s",
            markring_status_text(status));
        return;
    }
    (void)markring_images_begin(&it->images);
    it->grown_saved = it->grown;
    it->save_began = now;
    it->calls.save(it->calls.context, &it->value);
}

static void end_unsure(host *it)
{
    end_with(it, HOST_UNSURE,
        "a sync of the saved node failed; when the disk is well, start it again");
}

// The value or the entry is stored.
static void note_length(host *it)
{
    if (it->value.is_entry) {
        it->entries += STORE_HEAD + it->value.length + STORE_TAIL;
    } else {
        it->whole = it->value.length;
        it->entries = 0;
        it->whole_due -= it->whole_due > 0;
    }
}

// A rewrite has made a value of this many bytes: the image had no more then, and since then has got
// at most what has come.
static void note_whole(host *it, size_t whole)
{
    size_t since = it->grown - it->grown_rewritten;
    if (is_large(it) || !has_limit(it)) {
        it->measured = whole;
        it->size = whole + since < it->size ? whole + since : it->size;
        it->moved = since < it->moved ? since : it->moved;
    }
}

void host_rewritten(host *it, store_status status, size_t whole, size_t entries)
{
    if (it->end != HOST_RUNS || !it->rewriting) {
        return;
    }
    it->rewriting = false;
    if (status == STORE_OK) {
        it->whole = whole;
        it->entries = entries;
        note_whole(it, whole);
    } else if (status == STORE_UNKNOWN) {
        end_unsure(it);
    } else {
        it->rewrite_failed = true;
    }
}

int host_rewrite(const store_value *stored, store_value *whole)
{
    host *it = calloc(1, sizeof *it);
    if (it == NULL) {
        return MARKRING_MEMORY;
    }
    it->run = UINT64_MAX; // (after all that ran)
    forget_line(it);
    int status = read_saved(it, stored);
    if (status == MARKRING_OK) {
        status = make_value(it, whole);
    }
    host_free(it);
    return status;
}

// Acknowledgements are due for what this save holds for the first time.
static void note_saved_links(host *it)
{
    for (uint8_t from = 0; from < it->shape.nodes; from++) {
        markring_link link;
        if (from != it->shape.own && markring_node_link(&it->node, from, &link) == MARKRING_OK) {
            markring_sending_received(&it->peers[from].sending, link.received_saved);
        }
    }
}

void host_taken(host *it)
{
    end_with(it, HOST_OLDER,
        "another process has taken this node over; nothing has left this one that isn't saved. "
        "Don't start it again while the other one runs");
}

void host_unreachable(host *it, uint64_t now, bool is_unreachable)
{
    bool was_so = it->unreachable_at != 0;
    it->unreachable_at = !is_unreachable ? 0 : was_so ? it->unreachable_at : now > 0 ? now : 1;
}

void host_saved(host *it, uint64_t now, store_status status, uint64_t number)
{
    if (it->end != HOST_RUNS || it->images.saving == 0) {
        return;
    }
    if (status == STORE_FAILED) {
        it->counts.failed_saves++;
        markring_images_failed(&it->images);
        it->save_at = now + RETRY;
    } else if (status == STORE_TAKEN) {
        host_taken(it);
    } else if (status != STORE_OK) {
        end_unsure(it);
    } else if (markring_node_kept(&it->node, it->mark) != MARKRING_OK) {
        end_with(it, HOST_BROKEN, "the library refused the mark of an image or a batch");
    } else {
        it->counts.saves++;
        markring_images_stored(&it->images);
        note_length(it);
        it->stored = number;
        it->saved_at = now;
        it->save_took = now - it->save_began;
        note_saved(it, now);
        note_saved_links(it);
    }
}

// ## Turns

// Whether all is saved and answered.
static bool is_settled(const host *it)
{
    return it->images.saving == 0 && it->images.changed == 0 && it->images.kept > 0;
}

// The other nodes hear of the last save before this one leaves.
static void tell_all(host *it)
{
    for (uint8_t to = 0; to < it->shape.nodes; to++) {
        markring_sending_tell(&it->peers[to].sending, it->stored);
    }
}

static void leave_if_settled(host *it)
{
    if (!it->stopping || !is_settled(it) || it->end != HOST_RUNS) {
        return;
    }
    if (it->stop_reply[0] != 0) {
        char text[64];
        int length = snprintf(text, sizeof text, "{\"stopped\": %d, \"save\": %llu}", it->shape.own,
            (unsigned long long)it->stored);
        it->calls.answer(it->calls.context, it->stop_reply, (const uint8_t *)text, (size_t)length);
    }
    end_with(it, HOST_LEFT, "all is saved");
}

void host_turn(host *it, uint64_t now)
{
    if (it->end != HOST_RUNS) {
        return;
    }
    begin_measuring(it, now);
    if (!it->stopping) {
        collect(it, now);
        bound_lists(it);
    }
    if (it->end == HOST_RUNS) {
        save(it, now);
    }
    // Before the first save, other nodes couldn't know this process from an earlier one.
    if (it->end == HOST_RUNS && it->images.kept > 0) {
        answer_programs(it, now);
        if (it->stopping && is_settled(it)) {
            tell_all(it);
        }
        send_packets(it, now);
        leave_if_settled(it);
    }
    if (it->end == HOST_RUNS) {
        note_turn(it, now);
    }
}

static uint64_t sooner(uint64_t wait, uint64_t now, uint64_t at)
{
    uint64_t until = at > now ? at - now : 0;
    return until < wait ? until : wait;
}

uint64_t host_wait(host *it, uint64_t now)
{
    uint64_t wait = 3600000;
    if (it->end != HOST_RUNS) {
        return 0;
    }
    if (it->has_work && !it->stopping) {
        wait = sooner(wait, now, it->work_at);
    }
    if (markring_images_may_begin(&it->images) == 1) {
        wait = sooner(wait, now, it->save_at);
    }
    if (it->options.cycle_every > 0 && it->shape.own == 0 && !it->asked) {
        wait = sooner(wait, now, it->cycle_at);
    }
    for (uint8_t to = 0; to < it->shape.nodes; to++) {
        wait = sooner(wait, now, markring_sending_until(&it->peers[to].sending));
    }
    return wait;
}

// What was heard of other nodes' processes doesn't count as a change before: it is saved with the
// next one, or now.
void host_leave(host *it)
{
    if (!it->stopping && knows_more(it)) {
        markring_images_change(&it->images);
    }
    it->stopping = true;
}

host_end host_ended(const host *it)
{
    return it->end;
}

const char *host_reason(const host *it)
{
    return it->reason;
}

const host_shape *host_is(const host *it)
{
    return &it->shape;
}

const host_counts *host_counted(const host *it)
{
    return &it->counts;
}

markring_node *host_node(host *it)
{
    return &it->node;
}
