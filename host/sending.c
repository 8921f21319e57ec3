// What goes to other nodes, and the steps of the collector.
#include "inside.h"

enum { ACKNOWLEDGEMENT = 11, WINDOW_LENGTH = 4, NUMBER = 8, LEAST_REPORT = 64 };

void host_connected(host *it, uint64_t now)
{
    (void)now;
    for (uint8_t to = 0; to < it->shape.nodes; to++) {
        if (to != it->shape.own) {
            markring_sending_again(&it->peers[to].sending);
        }
    }
}

static void write_head(host *it, uint8_t to, writer *packet)
{
    markring_state state = {0};
    packet_head head = {space_number(it->shape.space), it->shape.own, to, {it->nonce, it->run, it->stored},
        it->peers[to].known.nonce, it->peers[to].known.saves, 0, it->needs_cycle,
        it->peers[to].heard != 0 ? it->peers[to].heard : NO_WORD};
    if (markring_node_state(&it->node, &state) == MARKRING_OK) {
        head.live = state.live;
        it->told_live = to == 0 ? state.live : it->told_live;
    }
    write_packet_head(packet, &head);
}

static void write_acknowledgement(host *it, uint8_t to, writer *packet)
{
    uint8_t frame[ACKNOWLEDGEMENT];
    size_t needed = 0;
    if (markring_node_ack_for(&it->node, to, frame, sizeof frame, &needed) == MARKRING_OK) {
        write_frame(packet, frame, needed);
    }
}

// Copies frames from a window, without their numbers, as long as they may be sent. Returns how many.
static size_t write_frames(reader *window, size_t count, peer *at, writer *packet)
{
    for (size_t i = 0; i < count; i++) {
        size_t length = (size_t)read_number(window, WINDOW_LENGTH);
        uint64_t number = read_number(window, NUMBER);
        const uint8_t *frame = read_bytes(window, length);
        if (frame == NULL || !markring_sending_offer(&at->sending, number, (uint32_t)length)) {
            return i;
        }
        write_frame(packet, frame, length);
    }
    return count;
}

// Sends a packet, if there is something for it: the acknowledgement if one is due, and frames that
// weren't sent yet. Returns whether it has frames.
static bool send_packet(host *it, uint8_t to)
{
    peer *at = &it->peers[to];
    size_t count = 0, needed = 0, written = 0;
    bool is_due = markring_sending_is_due(&at->sending) != 0;
    bool has_frames = markring_sending_is_open(&at->sending) != 0
        && markring_node_frames(
               &it->node, to, at->sending.sent, it->window, it->window_room, &count, &needed)
            == MARKRING_OK;
    if (!has_frames && !is_due) {
        return false;
    }
    writer packet = writer_of(it->packet, it->packet_room);
    write_head(it, to, &packet);
    if (is_due) {
        write_acknowledgement(it, to, &packet);
    }
    if (has_frames) {
        reader frames = reader_of(it->window, it->window_room);
        written = write_frames(&frames, count, at, &packet);
    }
    if (packet.ok && (is_due || written > 0)) {
        markring_sending_left(&at->sending, it->stored);
        it->counts.frames_out += written;
        it->counts.packets_out++;
        it->counts.bytes_out += packet.length;
        it->calls.send(it->calls.context, to, it->packet, packet.length);
    }
    return written > 0;
}

// Sends all that may be sent: one packet in a plain space, whose windows are short.
static void send_window(host *it, uint8_t to)
{
    bool has_more = true;
    for (int i = 0; has_more && i < WINDOW; i++) {
        has_more = send_packet(it, to) && it->shape.wide;
    }
}

// Messages after this one were acknowledged, and are gone.
static void note_acknowledged(host *it, peer *at, uint64_t before)
{
    size_t count = (size_t)(at->sending.acknowledged - before), bytes = at->queue.bytes;
    trim_queue(&at->queue, at->sending.acknowledged);
    it->moved += MESSAGE_BYTES * count + bytes - at->queue.bytes;
    note_loss(it, LEAST_MESSAGE * count);
}

// What was acknowledged is gone, and what wasn't for too long is sent again.
static void look_at_link(host *it, peer *at, const markring_link *link, uint64_t now)
{
    uint64_t before = at->sending.acknowledged;
    if (markring_sending_turn(&at->sending, now, link->released, link->acknowledged, it->stored)) {
        it->counts.resends++;
    }
    note_acknowledged(it, at, before);
}

// Node 0 has to know roughly how many objects there are, and whether a node is full.
static void report_to_director(host *it)
{
    markring_state state;
    if (it->shape.own == 0 || markring_node_state(&it->node, &state) != MARKRING_OK) {
        return;
    }
    uint32_t apart =
        state.live > it->told_live ? state.live - it->told_live : it->told_live - state.live;
    uint32_t least = it->told_live / 4 > LEAST_REPORT ? it->told_live / 4 : LEAST_REPORT;
    if (apart > least) {
        markring_sending_owe(&it->peers[0].sending);
    }
    if (it->needs_cycle && state.cycle > it->needed_in) {
        it->needs_cycle = false;
        markring_sending_owe(&it->peers[0].sending);
    }
}

void send_packets(host *it, uint64_t now)
{
    report_to_director(it);
    for (uint8_t to = 0; to < it->shape.nodes; to++) {
        markring_link link;
        if (to == it->shape.own || markring_node_link(&it->node, to, &link) != MARKRING_OK) {
            continue;
        }
        look_at_link(it, &it->peers[to], &link, now);
        note_link(it, to, &link, now);
        send_window(it, to);
    }
}

// ## The collector

uint64_t count_objects(const host *it, uint32_t own_live)
{
    uint64_t objects = own_live;
    for (int node = 0; node < it->shape.nodes; node++) {
        objects += it->peers[node].live;
    }
    return objects;
}

// Whether node 0 should begin a cycle by itself.
static bool is_cycle_due(const host *it, uint64_t objects, uint64_t now)
{
    for (int node = 0; node < it->shape.nodes; node++) {
        if (it->peers[node].needs_cycle) {
            return true;
        }
    }
    if (it->options.cycle_every > 0 && now >= it->cycle_at && objects > 0) {
        return true;
    }
    uint64_t after = it->objects_after == UINT64_MAX ? 0 : it->objects_after;
    return it->options.cycle_objects > 0 && objects >= it->options.cycle_objects
        && objects >= 2 * after;
}

void ask_for_cycle(host *it)
{
    markring_state state;
    if (markring_node_state(&it->node, &state) == MARKRING_OK && !it->needs_cycle) {
        it->needs_cycle = true;
        it->needed_in = state.cycle;
        if (it->shape.own != 0) {
            markring_sending_owe(&it->peers[0].sending);
        }
    }
    it->asked = it->asked || it->shape.own == 0;
}

// Begins a cycle at node 0, if one is due. While another runs, it stays due. Returns whether the
// image has to become smaller first.
static bool begin_if_due(host *it, uint64_t now)
{
    markring_answer answer;
    markring_state state;
    if (it->shape.own != 0 || markring_node_state(&it->node, &state) != MARKRING_OK) {
        return false;
    }
    uint64_t objects = count_objects(it, state.live);
    if (state.swept == state.cycle && objects < it->objects_after) {
        it->objects_after = objects;
    }
    it->asked = it->asked || is_cycle_due(it, objects, now);
    if (it->options.cycle_every > 0 && now >= it->cycle_at) {
        it->cycle_at = now + it->options.cycle_every;
    }
    if (it->asked && state.swept == state.cycle && is_tight(it)) {
        return true;
    }
    if (it->asked && markring_node_begin(&it->node, &answer) == MARKRING_OK) {
        note_change(it, GROWTH, 0);
        it->asked = false;
        it->needs_cycle = false;
        it->objects_after = objects;
        it->cycle_at = now + it->options.cycle_every;
        for (int node = 0; node < it->shape.nodes; node++) {
            it->peers[node].needs_cycle = false;
        }
    }
    return false;
}

uint64_t count_unacknowledged(host *it)
{
    uint64_t count = 0;
    for (uint8_t to = 0; to < it->shape.nodes; to++) {
        markring_link link;
        if (markring_node_link(&it->node, to, &link) == MARKRING_OK) {
            count += link.appended - link.acknowledged;
        }
    }
    return count;
}

static size_t least_size(size_t a, size_t b)
{
    return a < b ? a : b;
}

// An object that is scanned may have more places than GROWTH is for; but most have few.
static size_t places_growth(const host *it)
{
    return it->shape.wide ? SCAN_GROWTH * (size_t)it->shape.places : 0;
}

// How many objects may be scanned in this turn; none if the image has to become smaller first.
// Requests to mark are messages: if they filled the images of two nodes, neither would take those
// of the other one.
static uint32_t scans_of(host *it)
{
    if (is_tight(it) || (count_unacknowledged(it) >= SCAN_MESSAGES && is_full(it))) {
        return 0;
    }
    size_t room = it->options.image_tight - least_size(it->size, it->options.image_tight);
    return (uint32_t)least_size(SCANS, room / (GROWTH + places_growth(it)) + 1);
}

// About how many bytes of the image are gone with these objects. Nobody counts the bytes of
// objects, so after the last step of a sweep, and after a reclaim, the image is looked at, if
// objects may have some.
static size_t freed_bytes(const host *it, uint32_t count, bool is_last)
{
    size_t bytes = it->shape.bytes > 0 && is_last ? it->measured : 0;
    return OBJECT_BYTES * (size_t)count + bytes;
}

// Objects were freed. `is_last`: the last ones of a sweep or a reclaim.
static void note_freed(host *it, uint32_t count, bool is_last)
{
    note_change(it, 0, freed_bytes(it, count, is_last));
    note_loss(it, FREED_BYTES * (size_t)count);
    it->spare += count;
}

static uint32_t least_of(uint32_t a, uint32_t b)
{
    return (uint32_t)least_size(a, b);
}

// Frees private garbage: all of it, or that of the young objects. Returns whether there was any.
static bool reclaim(host *it, uint8_t kind)
{
    markring_event event = {.kind = kind};
    markring_answer answer;
    markring_state state;
    bool any = markring_node_act(&it->node, &event, &answer) == MARKRING_OK && answer.count > 0;
    if (any) {
        note_freed(it, answer.count, true);
        it->counts.reclaimed += answer.count;
    }
    if (markring_node_state(&it->node, &state) == MARKRING_OK) {
        bool is_all = kind == MARKRING_EVENT_RECLAIM;
        it->objects_kept = state.live;
        it->objects_kept_by_all = is_all ? state.live : least_of(state.live, it->objects_kept_by_all);
    }
    return any;
}

bool reclaim_if_full(host *it)
{
    static const uint8_t KINDS[] = {MARKRING_EVENT_RECLAIM_YOUNG, MARKRING_EVENT_RECLAIM};
    bool any = false;
    while (it->options.reclaim_objects > 0 && it->full_reclaims < 2 && !any) {
        any = reclaim(it, KINDS[it->full_reclaims++]);
    }
    return any;
}

// Whether a cycle is to free what a reclaim of all would: nobody waits for a cycle, but it needs
// all nodes.
static bool is_for_cycle(const host *it, uint32_t live)
{
    for (int node = 0; node < it->shape.nodes; node++) {
        if (it->peers[node].notes.is_lost) {
            return false;
        }
    }
    return live > RECLAIM_MOST;
}

// Reclaims the young, if many objects were made since the last time. Then it reclaims all, or asks
// for a cycle, if there are twice as many as after the last time that it did.
static void reclaim_if_due(host *it)
{
    markring_state state;
    uint32_t least = it->options.reclaim_objects;
    it->full_reclaims = 0;
    if (least == 0 || markring_node_state(&it->node, &state) != MARKRING_OK) {
        return;
    }
    // (a sweep may have freed more since)
    it->objects_kept = least_of(state.live, it->objects_kept);
    it->objects_kept_by_all = least_of(state.live, it->objects_kept_by_all);
    if (state.live - it->objects_kept >= least) {
        (void)reclaim(it, MARKRING_EVENT_RECLAIM_YOUNG);
        state.live = it->objects_kept;
    }
    if (state.live < least || state.live / 2 < it->objects_kept_by_all) {
        return;
    }
    if (is_for_cycle(it, state.live)) {
        it->objects_kept_by_all = state.live;
        ask_for_cycle(it);
    } else {
        (void)reclaim(it, MARKRING_EVENT_RECLAIM);
    }
}

// What marking adds to: how many messages were ever appended, and how many objects are grey.
typedef struct progress {
    uint64_t appended, grey;
} progress;

static progress progress_of(host *it)
{
    markring_state state;
    progress found = {0, 0};
    for (uint8_t to = 0; to < it->shape.nodes; to++) {
        markring_link link;
        if (markring_node_link(&it->node, to, &link) == MARKRING_OK) {
            found.appended += link.appended;
        }
    }
    if (markring_node_state(&it->node, &state) == MARKRING_OK) {
        found.grey = state.grey;
    }
    return found;
}

// Objects were scanned since then.
static void note_marking(host *it, const progress *before)
{
    progress now = progress_of(it);
    size_t asked = SCAN_GROWTH * (size_t)(now.appended - before->appended);
    if (now.grey > before->grey) {
        note_change(it, asked + GREY_BYTES * (size_t)(now.grey - before->grey), 0);
    } else {
        note_change(it, asked, 0);
        note_loss(it, GREY_BYTES * (size_t)(before->grey - now.grey));
    }
}

// What the collector did has changed the image.
static void note_work(host *it, const markring_work *work, const progress *before)
{
    if (work->scanned > 0) {
        note_marking(it, before);
    }
    if (work->passed) {
        note_change(it, GROWTH, 0);
    }
    if (work->swept) {
        note_change(it, MESSAGE_BYTES, 0);
        note_freed(it, work->freed, !work->more);
        it->counts.freed += work->freed;
    }
}

void collect(host *it, uint64_t now)
{
    markring_work work = {0};
    reclaim_if_due(it);
    bool is_late = begin_if_due(it, now);
    // (the library would receive what was early too, and say nothing of its bytes)
    bool received = receive_all_early(it);
    uint32_t scans = scans_of(it);
    progress before = progress_of(it);
    int status =
        received ? markring_node_work(&it->node, scans, SWEEPS, &work) : MARKRING_MEMORY;
    note_work(it, &work, &before);
    bool is_stuck = scans == 0 && work.more && !work.swept;
    bool refused = is_late || is_stuck || status == MARKRING_MEMORY;
    it->has_work = refused || (status == MARKRING_OK && work.more);
    it->work_at = refused ? now + RETRY : now;
}
