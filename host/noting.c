// What a host notes for its operator: nodes that come and go, cycles, slow saves, limits. Each is
// noted when it begins, and when it is over.
#include "inside.h"

enum {
    // Milliseconds between two looks at what changes slowly.
    LOOK = 1000,
    MINUTE = 60000,
    // A save that takes this long is slow.
    SLOW = 1000
};

const uint32_t HOST_BOUND[HOST_BOUNDS] = {
    1, 2, 5, 10, 20, 50, 100, 200, 500, 1000, 2000, 5000, 10000, 30000, 60000, 300000};

void observe(host_times *it, uint64_t time)
{
    int at = 0;
    while (at < HOST_BOUNDS && time > HOST_BOUND[at]) {
        at++;
    }
    it->counts[at]++;
    it->sum += time;
}

void host_listen(host *it, void (*note)(void *context, const host_note *what), void *context)
{
    it->notes.note = note;
    it->notes.context = context;
}

static void note(host *it, host_note what)
{
    if (it->notes.note != NULL) {
        it->notes.note(it->notes.context, &what);
    }
}

void begin_notes(host *it, uint64_t now)
{
    markring_state state = {0};
    (void)markring_node_state(&it->node, &state);
    it->notes.cycle = state.cycle;
    it->notes.ended = state.ended;
    it->notes.swept = state.swept;
    it->notes.cycle_began = it->notes.looked_at = now;
    for (int i = 0; i < it->shape.nodes; i++) {
        it->peers[i].notes.heard_at = it->peers[i].notes.moved_at = now;
    }
}

// ## Other nodes

void note_heard(host *it, uint8_t from, uint64_t now)
{
    peer_notes *at = &it->peers[from].notes;
    at->heard_at = now;
    if (!at->is_seen) {
        at->is_seen = true;
        at->is_lost = false;
        note(it, (host_note){.kind = NOTE_PEER_SEEN, .node = from});
    }
}

bool is_late(const peer *it, uint64_t now)
{
    return it->notes.waits && now - it->notes.moved_at >= SILENCE;
}

// A limit that was reached counts as left when an eighth of it is free.
static bool is_left(uint64_t count, uint64_t most)
{
    return count < most - most / 8;
}

static void note_limit(host *it, bool *is_reached, uint64_t count, uint64_t most, host_note what)
{
    if (!*is_reached && count >= most) {
        *is_reached = true;
        what.kind = NOTE_LIMIT_REACHED;
        note(it, what);
    } else if (*is_reached && is_left(count, most)) {
        *is_reached = false;
        what.kind = NOTE_LIMIT_LEFT;
        note(it, what);
    }
}

void note_link(host *it, uint8_t to, const markring_link *link, uint64_t now)
{
    peer_notes *at = &it->peers[to].notes;
    bool waits = link->released != link->acknowledged;
    if (!at->waits || !waits || at->moved_to != link->acknowledged) {
        at->moved_to = link->acknowledged;
        at->moved_at = now;
    }
    at->waits = waits;
    uint64_t most = limit_of(it);
    if (most > 0) {
        note_limit(it, &at->is_congested, link->appended - link->acknowledged, most,
            (host_note){.limit = LIMIT_MESSAGES, .node = to});
    }
}

// A node counts as lost only while something waits for it: otherwise nobody expects an answer.
static void note_lost(host *it, uint64_t now)
{
    for (uint8_t i = 0; i < it->shape.nodes; i++) {
        peer_notes *at = &it->peers[i].notes;
        if (is_late(&it->peers[i], now) && now - at->heard_at >= SILENCE && !at->is_lost) {
            at->is_seen = false;
            at->is_lost = true;
            uint64_t since = at->heard_at > at->moved_at ? at->heard_at : at->moved_at;
            note(it, (host_note){.kind = NOTE_PEER_LOST, .node = i, .time = now - since});
        }
    }
}

// ## Cycles

static void note_cycle(host *it, const markring_state *state, uint64_t now)
{
    notes *at = &it->notes;
    if (state->cycle != at->cycle) {
        at->cycle = state->cycle;
        at->cycle_began = now;
        at->freed_before = it->counts.freed;
        note(it, (host_note){.kind = NOTE_CYCLE_BEGUN, .cycle = state->cycle});
    }
    uint64_t time = now - at->cycle_began;
    if (state->ended != at->ended) {
        at->ended = state->ended;
        note(it, (host_note){.kind = NOTE_CYCLE_ENDED, .cycle = state->ended, .time = time});
    }
    if (state->swept != at->swept) {
        at->swept = state->swept;
        observe(&it->cycles, time);
        note(it, (host_note){.kind = NOTE_CYCLE_SWEPT,
                     .cycle = state->swept,
                     .count = it->counts.freed - at->freed_before,
                     .time = time});
    }
}

// The node that has acknowledged nothing for the longest time, and for a minute; or this node.
static uint8_t latest_node(const host *it, uint64_t now)
{
    uint8_t found = it->shape.own;
    uint64_t longest = MINUTE;
    for (uint8_t i = 0; i < it->shape.nodes; i++) {
        const peer_notes *at = &it->peers[i].notes;
        if (at->waits && now - at->moved_at >= longest) {
            longest = now - at->moved_at + 1;
            found = i;
        }
    }
    return found;
}

// Node 0 knows that others haven't swept a cycle if the next one, which is due, can't begin.
static void note_waiting(host *it, const markring_state *state, uint64_t now)
{
    notes *at = &it->notes;
    uint64_t time = now - at->cycle_began;
    uint8_t node = latest_node(it, now), own = it->shape.own;
    bool is_under_way = state->swept != state->cycle || (own == 0 && it->asked);
    if (!is_under_way || time < MINUTE || (node == own && own != 0)
        || (at->waits_in == state->cycle && at->waits_for == node)) {
        return;
    }
    at->waits_in = state->cycle;
    at->waits_for = node;
    note(it,
        (host_note){.kind = node == own ? NOTE_CYCLE_STUCK : NOTE_CYCLE_WAITS,
            .cycle = state->cycle,
            .node = node,
            .time = time});
}

// ## Saves

static void note_slow(host *it, uint64_t time, uint64_t now)
{
    notes *at = &it->notes;
    at->slow_at = now;
    if (time > at->slowest) {
        at->slowest = time;
    }
    if (!at->is_slow) {
        at->is_slow = true;
        note(it, (host_note){.kind = NOTE_SAVE_SLOW, .time = time});
    }
}

void note_saved(host *it, uint64_t now)
{
    observe(&it->saves, it->save_took);
    if (it->save_took >= SLOW) {
        note_slow(it, it->save_took, now);
        it->notes.slow_count++;
    }
}

static void note_saving(host *it, uint64_t now)
{
    notes *at = &it->notes;
    if (it->images.saving != 0 && now - it->save_began >= SLOW) {
        note_slow(it, now - it->save_began, now);
    } else if (at->is_slow && now - at->slow_at >= MINUTE) {
        note(it, (host_note){
                     .kind = NOTE_SAVES_QUICK, .count = at->slow_count, .time = at->slowest});
        at->is_slow = false;
        at->slow_count = at->slowest = 0;
    }
}

// ## Turns

static void note_limits(host *it, const markring_state *state)
{
    notes *at = &it->notes;
    note_limit(it, &at->has_many_letters, state->letters, it->options.letters_most,
        (host_note){.limit = LIMIT_LETTERS});
    uint64_t most = it->options.image_most, beyond = most + (uint64_t)1;
    // (the size is an estimate, which this corrects)
    bool is_beyond = is_full(it);
    if (most < SIZE_MAX) {
        uint64_t size = !is_beyond && it->size > most ? most : it->size;
        note_limit(it, &at->is_full, size, beyond, (host_note){.limit = LIMIT_IMAGE});
    }
}

void note_turn(host *it, uint64_t now)
{
    markring_state state;
    if (markring_node_state(&it->node, &state) != MARKRING_OK) {
        return;
    }
    note_cycle(it, &state, now);
    if (now - it->notes.looked_at >= LOOK) {
        it->notes.looked_at = now;
        note_lost(it, now);
        note_waiting(it, &state, now);
        note_saving(it, now);
        note_limits(it, &state);
    }
}
