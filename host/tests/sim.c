// Several hosts in one thread, by seed, with their programs. The net loses, repeats and reorders
// packets. A quarter of the spaces are in a database, which loses connections before, during and after
// commits, and whose nodes are taken over while their processes go on. Calls of the disks fail, and their writes are lost or torn. Processes and machines stop
// at any call, allocations fail, and the clock jumps. Older folders and snapshots of machines are
// put back, nodes are stopped, and programs flood nodes. Each answer is compared with a model of
// the programs; at checkpoints, each node comes to have exactly the objects that the model reaches.
// A third of the spaces are wide: their programs use the last registers and places of many, bytes of
// objects, letters with bytes and several references, and what is fetched from other nodes.
//
// If no program has registers for itself, each keeps a weak table of all that it made, and resolves
// some of it. Entries go once, with their words, as the node hands out what it freed, or as a walk
// misses it. At checkpoints, just what the model reaches is left.
//
//     sim SEEDS [FIRST [STEPS [CHECKPOINTS]]]
#include "../inside.h"
#include "disk.h"
#include "models.h"
#include "rows.h"

#define XXH_INLINE_ALL
#include <xxhash.h>

enum {
    MOST = 4,  // nodes
    PARTS = 2, // programs a node
    REGISTERS = 8,
    FIRST = 5, // that many are those of program 0
    SLOTS = 96,
    PLACES = 4,
    LOCAL_PLACES = 2, // written by the owner's programs; the others by one program elsewhere
    OPERATIONS = 48,  // of a request
    NET = 512,
    CHECKPOINTS = 3,
    STARTS_MOST = 6,   // of an older folder, while the other nodes are away
    MIXED = 200,
    FLOOD = 150,       // requests
    // Milliseconds: how often a process shows that it holds its node, and how long it is sure of that.
    RENEW = 100,
    SURE_FOR = 300,
    TIGHT = 60000,     // bytes of an image that takes no messages
    // In wide spaces, the registers and places before those that are used.
    MORE_REGISTERS = 400,
    MORE_PLACES = 60,
    BYTES = 200, // of an object there, at most
    CARRIED = 3  // references in a letter there, at most
};

// ## Random numbers and checks

static uint64_t seed;
static unsigned long failures, run_seed;

static uint32_t below(uint32_t limit)
{
    return below_number(&seed, limit);
}

static uint64_t random_nonce(void)
{
    return ((uint64_t)below(UINT32_MAX) << 32 | below(UINT32_MAX)) + 1;
}

static bool check(bool holds, const char *text, int line)
{
    if (!holds && failures++ == 0) {
        printf("FAILED: seed %lu: sim.c:%d: %s\n", run_seed, line, text);
    }
    return holds;
}

#define HOLDS(condition) check((condition), #condition, __LINE__)

// ## Refused memory

// While a host works, the allocation with this number is refused; 0 for none.
static unsigned long refuse_in, refused;
static bool in_host;

void *__real_malloc(size_t size);
void *__real_calloc(size_t count, size_t size);
void *__real_realloc(void *block, size_t size);
void *__wrap_malloc(size_t size);
void *__wrap_calloc(size_t count, size_t size);
void *__wrap_realloc(void *block, size_t size);

static bool is_refused(void)
{
    if (!in_host || refuse_in == 0 || --refuse_in > 0) {
        return false;
    }
    refused++;
    return true;
}

void *__wrap_malloc(size_t size)
{
    return is_refused() ? NULL : __real_malloc(size);
}

void *__wrap_calloc(size_t count, size_t size)
{
    return is_refused() ? NULL : __real_calloc(count, size);
}

void *__wrap_realloc(void *block, size_t size)
{
    return is_refused() ? NULL : __real_realloc(block, size);
}

// ## The model

typedef struct object {
    markring_ref name;
    uint8_t owner, maker; // the node, and the program
    // For each program of its node: whether it was handed out as freed, or a walk has missed it; and
    // whether this walk has found it.
    bool is_gone[PARTS], is_listed[PARTS], is_seen[PARTS];
    uint32_t content[PLACES]; // as last written by a request that was answered; 0 for nothing
    uint8_t bytes[BYTES];     // the same of its bytes
    uint32_t length;
    // All that was ever written to a place, in order, beginning with nothing.
    uint32_t *history[PLACES];
    size_t lengths[PLACES], seen[PLACES];
    // The same of its bytes: each version after its length, a byte.
    uint8_t (*versions)[BYTES + 1];
    size_t version_count;
} object;

typedef struct letter {
    uint8_t from, to;
    bool is_get, accepted, given; // `given`: the Give or Get was answered Ok
    uint32_t content;             // of a Give: an object, or 0
    uint32_t about;               // of a Get: the object, its place, and since when
    uint8_t place;
    size_t since;
    // Of a letter of a wide space: its contents, how many it has, and its bytes.
    bool is_post, is_fetch;
    uint32_t carried[CARRIED];
    uint8_t count, bytes[BYTES];
    uint32_t length;
    uint32_t offset, wanted; // of a Fetch
} letter;

static object *objects;
static uint32_t object_count, object_room;
static letter *letters;
static uint32_t letter_count, letter_room;
static uint32_t last_label[MOST][MOST];

static bool same(markring_ref a, markring_ref b)
{
    return a.generation == b.generation && a.slot == b.slot && a.node == b.node;
}

static markring_ref name_of(uint32_t id)
{
    markring_ref nothing = {0, 0, 0};
    return id == 0 ? nothing : objects[id].name;
}

// The object with this name; 0 for nothing, and for one that isn't known.
static uint32_t known_object(markring_ref name)
{
    uint32_t id = name.generation != 0 ? object_count : 1;
    while (--id > 0 && !same(objects[id].name, name)) {
    }
    return id;
}

static uint32_t object_named(markring_ref name)
{
    uint32_t id = known_object(name);
    HOLDS(id != 0 || name.generation == 0); // (of an object that was made)
    return id;
}

static void remember(uint32_t id, uint8_t place, uint32_t content)
{
    object *it = &objects[id];
    size_t length = it->lengths[place]++;
    it->history[place] = resized(it->history[place], (length + 1) * sizeof(uint32_t));
    it->history[place][length] = content;
}

static void remember_bytes(uint32_t id, const uint8_t *bytes, uint32_t length)
{
    object *it = &objects[id];
    size_t count = it->version_count++;
    it->versions = resized(it->versions, (count + 1) * sizeof *it->versions);
    it->versions[count][0] = (uint8_t)length;
    memcpy(it->versions[count] + 1, bytes, length);
}

static uint32_t new_object(uint8_t owner, markring_ref name)
{
    if (object_count == object_room) {
        object_room = 2 * object_room + 64;
        objects = resized(objects, object_room * sizeof *objects);
    }
    HOLDS(object_count == 0 || object_count > 0);
    object *it = &objects[object_count];
    memset(it, 0, sizeof *it);
    it->owner = owner;
    it->name = name;
    for (uint8_t place = 0; place < PLACES; place++) {
        remember(object_count, place, 0);
    }
    remember_bytes(object_count, it->bytes, 0);
    return object_count++;
}

static uint32_t new_letter(letter it)
{
    if (letter_count == letter_room) {
        letter_room = 2 * letter_room + 64;
        letters = resized(letters, letter_room * sizeof *letters);
    }
    letters[letter_count] = it;
    return letter_count++;
}

// Whether the content was written to the place, not before this point of its history. The point
// moves there.
static bool was_written(uint32_t id, uint8_t place, uint32_t content, size_t *since)
{
    for (size_t at = *since; at < objects[id].lengths[place]; at++) {
        if (objects[id].history[place][at] == content) {
            *since = at;
            return true;
        }
    }
    return false;
}

// ## The space

typedef struct station {
    uint8_t node;
    disk disk;
    rows rows; // the database, in which the node is in its place
    rows_client client;
    database base;
    uint64_t renew_at;
    // It takes no requests of programs before and after these times: the process before may still
    // do so, or another one after it.
    uint64_t serves_at, sure_until;
    host *host;
    store store;
    store_value *job; // a save that is under way
    uint64_t job_ends;
    // It was asked for then, by a process that had the node in its database or hadn't.
    uint64_t asked_at;
    bool had_node;
    // A rewrite of what the folder has; from when on its long part is done.
    enum { REWRITE_NONE, REWRITE_ASKED, REWRITE_BEGUN, REWRITE_WRITTEN } stage;
    uint64_t rewrite_at;
    store_rewrite again;
    database_rewrite again_apart; // over another connection
    rows_client apart;
    bool has_rewritten; // the last save ended it
    bool is_rewritten;  // and its value counts
    uint64_t starts_at; // if it has no host
    bool touched;       // something came since the last turn
    uint64_t full_until; // its disk has no room
    disk copy;
    uint64_t copy_number;
    process copied; // that had the folder then
    bool has_copy;
    // It was asked to stop, and did. What it knew then is in its folder.
    bool has_left;
    process known[MOST];
} station;

// A program of a node, and the request that waits for its answer.
typedef struct part {
    uint8_t node, number;
    uint64_t session, last;
    bool opened, asks; // `asks`: a request waits for its answer
    uint64_t asked_at;
    markring_event events[OPERATIONS];
    uint8_t bytes[OPERATIONS][BYTES + 1]; // of events that have some
    uint16_t lengths[OPERATIONS];
    uint16_t count;
    uint32_t registers[REGISTERS];
    uint64_t round;          // the number of the next opening
    uint64_t reads, reading; // the last reading or waiting, and the one that waits for its answer
    uint16_t from_register;  // a reading of bytes
    uint32_t from_byte, wanted;
    // What was freed is listed for it, from there on. While it walks: the next slot, and how many
    // objects were known before. `is_done`: nothing more came. `heard`: the last place that came.
    markring_remote_since since, heard;
    bool is_tracking, is_walking, is_done;
    uint32_t slot, known;
} part;

typedef struct packet {
    uint64_t at;
    uint8_t kind, from,
        to; // kind: 0 a packet, 1 a request, 2 an answer; a program is 10 * node + number
    size_t length;
    uint8_t *bytes;
} packet;

static station stations[MOST];
// Processes whose nodes were taken over, and that don't know it yet.
static station ghosts[MOST];
static part parts[MOST][PARTS];
static uint8_t nodes;
static uint64_t now, limit;
static bool is_apart; // programs have registers for themselves
static bool is_wide;
static bool is_kept_in_database;
static unsigned long rewrites, rewrites_apart, fenced, rewrites_failed, takeovers, surprised, doubtful, overtaken, asked, heard;
static bool is_calm;  // no faults
static bool is_draining; // weak tables are being compared
static bool is_quick; // saves take a few milliseconds
static bool is_still; // nobody asks for cycles
static bool is_flood; // nobody accepts letters
static uint64_t byte_limit;
static packet net[NET];
static int in_net;
static unsigned long full, tight, readings, byte_readings, byte_events, posted, fetched, no_rooms;
static unsigned long resolved, unresolved, freed_entries, missed, lists_lost, refused_apart;
static uint64_t freed_most; // in a list
static unsigned long unseen; // snapshots that made as many saves again before they met a node
static unsigned long crashes, powers, cycles, answered, lost, requests, checkpoints, mixed,
    failed_saves, failed_calls, stops, stopped, barely, again, snapshots, floods, absences,
    congested;

static void drop_packet(int at)
{
    free(net[at].bytes);
    net[at] = net[--in_net];
}

static void put_in_net(uint8_t kind, uint8_t from, uint8_t to, const uint8_t *bytes, size_t length)
{
    uint32_t copies = is_calm || below(20) > 0 ? 1 : 2;
    for (uint32_t i = 0; i < copies; i++) {
        if (!is_calm && below(12) == 0) {
            lost++;
            continue;
        }
        if (in_net == NET) {
            drop_packet((int)below(NET));
        }
        uint64_t delay = is_calm ? 1
            : below(10) == 0     ? below(below(10) == 0 ? 20000 : 900)
                                 : below(8);
        packet it = {now + delay, kind, from, to, length, resized(NULL, length)};
        memcpy(it.bytes, bytes, length);
        net[in_net++] = it;
    }
}

static station *station_of(void *context)
{
    return context;
}

static bool is_dead(const station *at)
{
    return at->disk.dead || at->client.dead || at->apart.dead;
}

static void on_send(void *context, uint8_t to, const uint8_t *bytes, size_t length)
{
    station *at = station_of(context);
    if (!is_dead(at)) {
        put_in_net(0, at->node, to, bytes, length);
    }
}

static void on_answer(void *context, const char *reply, const uint8_t *bytes, size_t length)
{
    station *at = station_of(context);
    if (!is_dead(at) && reply[0] == 's') {
        // All is saved, and no save is under way.
        uint8_t unsaved = 1;
        HOLDS(at->job == NULL && at->host->images.changed == 0 && at->host->images.kept > 0);
        HOLDS(markring_node_unsaved(&at->host->node, &unsaved) == MARKRING_OK && unsaved == 0);
        stopped++;
    }
    if (!is_dead(at) && reply[0] == 'p') {
        put_in_net(2, at->node, (uint8_t)strtoul(reply + 1, NULL, 10), bytes, length);
    }
}

// Whether its process has the node in its database.
static bool is_holder(const station *at)
{
    return at->client.server->table.row.holder == at->base.row.holder;
}

static void on_save(void *context, store_value *value)
{
    station *at = station_of(context);
    // The value of a save that is under way is the caller's.
    HOLDS(at->job == NULL);
    at->job = value;
    at->job_ends = now + (is_quick ? below(10) : below(3) == 0 ? below(60) : 0);
    bool has_rewrite = at->stage == REWRITE_ASKED || at->stage == REWRITE_WRITTEN;
    if (is_kept_in_database && !has_rewrite && below(2) == 0 && database_can_ask(&at->base, value)) {
        at->had_node = is_holder(at);
        at->asked_at = now;
        at->client.silent = 300;
        (void)database_ask(&at->base, value);
    }
}

static void on_rewrite(void *context)
{
    station *at = station_of(context);
    HOLDS(at->stage == REWRITE_NONE && at->job == NULL);
    at->stage = REWRITE_ASKED;
}

// A process ends, and with it perhaps its machine.
static void stop(station *at, bool power)
{
    at->job = NULL;
    at->stage = REWRITE_NONE;
    if (is_kept_in_database) {
        bool has_left = at->host != NULL && host_ended(at->host) == HOST_LEFT;
        if (has_left && !at->client.dead && now >= at->serves_at) {
            database_close(&at->base);
        }
        rows_kill(&at->client);
        rows_kill(&at->apart);
    } else if (!at->disk.dead) {
        store_close(&at->store);
    }
    if (power) {
        disk_power_off(&at->disk);
        powers++;
    } else {
        disk_kill(&at->disk);
    }
    host_free(at->host);
    at->host = NULL;
    at->starts_at = now + (is_calm ? 0 : below(below(4) == 0 ? 4000 : 100));
    at->has_left = false;
    crashes++;
}

static void arm(station *at)
{
    bool wild = !is_calm && below(40) == 0;
    at->disk.failing = wild ? 1 + below(200) : 0;
    at->disk.without_memory = !is_calm && (now < at->full_until || below(60) == 0);
    at->disk.dies_in = !is_calm && below(400) == 0 ? 1 + below(6) : 0;
    at->client.losing = wild ? 1 + below(300) : is_calm ? 0 : below(20) == 0 ? 30 : 0;
    at->client.refusing = at->disk.without_memory ? 1000 : 0;
    at->client.dies_in = at->disk.dies_in;
    at->apart.losing = at->client.losing;
    at->apart.refusing = at->client.refusing;
    at->apart.dies_in = at->client.dies_in;
    refuse_in = !is_calm && below(60) == 0 ? 1 + below(12) : 0;
    in_host = true;
}

// What a call of a host left: it may have ended, or its process died in the call.
static void disarm(station *at)
{
    in_host = false;
    refuse_in = 0;
    at->disk.failing = at->client.losing = at->client.refusing = 0;
    at->apart.losing = at->apart.refusing = 0;
    at->disk.without_memory = false;
    if (is_dead(at)) {
        stop(at, below(2) == 0);
    } else {
        at->disk.dies_in = at->client.dies_in = at->apart.dies_in = 0;
    }
}

// The node whose folder is an older copy, and whether its process has ended for that.
static int mixed_node = -1;
static bool mixed_found;
static uint64_t mixed_nonces[MIXED]; // of the processes that ran on it
static int mixed_count;

static void expect_end(station *at)
{
    if (at->host == NULL || host_ended(at->host) == HOST_RUNS) {
        return;
    }
    if (at - stations == mixed_node && host_ended(at->host) == HOST_OLDER) {
        mixed_found = true;
        return;
    }
    if (!HOLDS(host_ended(at->host) == HOST_UNSURE || host_ended(at->host) == HOST_LEFT)) {
        printf("node %d: %s\n", (int)(at - stations), host_reason(at->host));
    }
    bool has_left = host_ended(at->host) == HOST_LEFT;
    for (uint8_t node = 0; node < nodes; node++) {
        at->known[node] = at->host->peers[node].known;
    }
    stop(at, has_left && below(2) == 0);
    at->has_left = has_left;
}

static host_options options;

// A node's place: its folder, or its database.

static store_status open_place(station *at, store_value *value)
{
    if (is_kept_in_database) {
        database_calls calls = rows_calls(&at->client);
        return database_open(&at->base, &calls, random_nonce() >> 1 | 1, value);
    }
    store_calls calls = disk_calls(&at->disk);
    return store_open(&at->store, &calls, "folder", value);
}

static void close_place(station *at)
{
    if (is_kept_in_database) {
        database_close(&at->base);
    } else {
        store_close(&at->store);
    }
}

static uint64_t number_of(const station *at)
{
    return is_kept_in_database ? at->base.number : at->store.state.number;
}

// The long part of a rewrite, which another thread does.
static store_status write_again(station *at)
{
    store_value stored = {NULL, 0, 0, false, 0, 0}, whole = stored;
    store_status status = is_kept_in_database ? database_rewrite_read(&at->again_apart, &stored)
                                              : store_rewrite_read(&at->again, &stored);
    if (status != STORE_OK) {
        return status;
    }
    int made = host_rewrite(&stored, &whole);
    HOLDS(made == MARKRING_OK || made == MARKRING_MEMORY);
    free(stored.buffer);
    status = made != MARKRING_OK     ? STORE_MEMORY
        : is_kept_in_database ? database_rewrite_write(&at->again_apart, &whole)
                              : store_rewrite_write(&at->again, &whole);
    free(whole.buffer);
    return status == STORE_OK && !is_kept_in_database && below(2) == 0
        ? store_rewrite_follow(&at->again, at->store.state.end)
        : status;
}

static void rewrite(station *at)
{
    if (at->host == NULL || at->stage != REWRITE_BEGUN || now < at->rewrite_at) {
        return;
    }
    arm(at);
    store_status status = write_again(at);
    at->stage = status == STORE_OK ? REWRITE_WRITTEN : REWRITE_NONE;
    if (status != STORE_OK && !is_dead(at)) {
        rewrites_failed++;
        host_rewritten(at->host, status, 0, 0);
    }
    at->touched = true;
    disarm(at);
    expect_end(at);
}

// A save in a folder, which may begin or end a rewrite.
static store_status save_in_folder(station *at, store_value *value)
{
    if (at->stage == REWRITE_ASKED && value->is_entry) {
        store_rewrite_begin(&at->store, &at->again);
        at->stage = REWRITE_BEGUN;
        at->rewrite_at = now + (below(2) == 0 ? below(200) : 0);
    }
    if (!value->is_entry) {
        at->stage = REWRITE_NONE;
    }
    if (at->stage != REWRITE_WRITTEN) {
        return store_save(&at->store, value);
    }
    at->stage = REWRITE_NONE;
    at->has_rewritten = true;
    return store_rewrite_end(&at->store, &at->again, value);
}

// A save in a database, which may begin or end a rewrite, unless it was asked for.
static store_status save_in_database(station *at, store_value *value)
{
    if (at->base.is_asked) {
        asked++;
        bool is_done = database_hear(&at->base, value) == NEWS_DONE;
        heard += is_done;
        return is_done ? STORE_OK : database_save(&at->base, value);
    }
    if (at->stage == REWRITE_ASKED && value->is_entry) {
        at->apart = (rows_client){.server = at->client.server};
        database_calls calls = rows_calls(&at->apart);
        database_rewrite_begin(&at->base, &calls, &at->again_apart);
        at->stage = REWRITE_BEGUN;
        at->rewrite_at = now + (below(2) == 0 ? below(2000) : 0);
    }
    if (!value->is_entry) {
        at->stage = REWRITE_NONE;
    }
    if (at->stage != REWRITE_WRITTEN) {
        return database_save(&at->base, value);
    }
    at->stage = REWRITE_NONE;
    at->has_rewritten = true;
    return database_rewrite_end(&at->base, &at->again_apart, value, &at->is_rewritten);
}

// A save of the holder counts, and no other one does.
static store_status save_in_place(station *at, store_value *value)
{
    if (!is_kept_in_database) {
        return save_in_folder(at, value);
    }
    const rows *in = at->client.server;
    bool has_node = is_holder(at), had_node = at->base.is_asked && at->had_node;
    uint64_t session = at->base.session, began = at->base.is_asked ? at->asked_at : now;
    store_status status = save_in_database(at, value);
    HOLDS(is_dead(at) || status != STORE_OK || has_node || had_node);
    HOLDS(is_dead(at) || status != STORE_OK || !has_node || in->table.row.number == at->base.number);
    HOLDS(is_dead(at) || !has_node || status != STORE_TAKEN);
    HOLDS(is_dead(at) || has_node || had_node || status == STORE_TAKEN);
    HOLDS(at->client.used_twice == 0 && at->client.misused == 0);
    doubtful += at->base.session != session;
    at->sure_until = status == STORE_OK ? began + SURE_FOR : at->sure_until;
    return status;
}

static int start(station *at)
{
    store_value value = {NULL, 0, 0, false, 0, 0};
    host_calls events = {at, on_send, on_answer, on_save, on_rewrite};
    arm(at);
    store_status status = open_place(at, &value);
    int opened = MARKRING_MEMORY;
    if (status == STORE_OK) {
        uint64_t nonce = random_nonce();
        opened = host_open(&at->host, &value, number_of(at), nonce, &options, &events, now);
        memset(at->client.seals, 0, sizeof at->client.seals);
        at->renew_at = now + RENEW;
        at->serves_at = is_kept_in_database && at->base.was_held ? now + SURE_FOR : now;
        at->sure_until = now + SURE_FOR;
        if (at - stations == mixed_node && mixed_count < MIXED) {
            mixed_nonces[mixed_count++] = nonce;
        }
        HOLDS(opened == MARKRING_OK || opened == MARKRING_MEMORY);
        if (opened == MARKRING_OK) {
            at->host->freed.most = freed_most;
        }
        for (uint8_t node = 0; node < nodes && at->has_left && opened == MARKRING_OK; node++) {
            const process *known = &at->host->peers[node].known, *left = &at->known[node];
            HOLDS(known->nonce == left->nonce && known->saves == left->saves);
        }
    } else if (!is_dead(at)) {
        HOLDS(status == STORE_MEMORY || status == STORE_FAILED || status == STORE_UNKNOWN
            || status == STORE_STALE);
    }
    free(value.buffer);
    if (status == STORE_OK && opened != MARKRING_OK) {
        close_place(at);
    }
    at->starts_at = now + 50;
    at->touched = true;
    disarm(at);
    return opened;
}

// The save with this status has ended a rewrite.
static void tell_rewritten(station *at, store_status status)
{
    const store *in = &at->store;
    size_t whole = (size_t)in->state.length;
    size_t entries = (size_t)in->state.end - STORE_HEAD - whole - STORE_TAIL;
    if (is_kept_in_database) {
        whole = at->again_apart.length;
        entries = at->base.added - at->again_apart.added;
        status = at->is_rewritten ? STORE_OK : STORE_FAILED;
        rewrites_apart += at->is_rewritten;
    }
    rewrites += status == STORE_OK;
    rewrites_failed += status != STORE_OK;
    host_rewritten(at->host, status, whole, entries);
}

static void finish_save(station *at)
{
    store_value *job = at->job;
    at->job = NULL;
    arm(at);
    store_status status = save_in_place(at, job);
    failed_saves += status != STORE_OK;
    bool has_rewritten = at->has_rewritten;
    at->has_rewritten = false;
    if (!is_dead(at)) {
        host_saved(at->host, now, status, number_of(at));
    }
    if (has_rewritten && !is_dead(at)) {
        tell_rewritten(at, status);
    }
    at->touched = true;
    disarm(at);
    expect_end(at);
}

// A process that holds its node says so.
static void renew(station *at)
{
    if (!is_kept_in_database || at->host == NULL || at->job != NULL || now < at->renew_at) {
        return;
    }
    at->renew_at = now + RENEW;
    arm(at);
    store_status status = database_renew(&at->base);
    at->sure_until = status == STORE_OK ? now + SURE_FOR : at->sure_until;
    if (status == STORE_TAKEN && !is_dead(at)) {
        host_taken(at->host);
    }
    disarm(at);
}

static void take_turn(station *at)
{
    if (at->host == NULL) {
        if (now >= at->starts_at) {
            (void)start(at);
        }
        return;
    }
    if (at->job != NULL && now >= at->job_ends) {
        finish_save(at);
    }
    rewrite(at);
    renew(at);
    if (at->host == NULL || (!at->touched && host_wait(at->host, now) > 0)) {
        return;
    }
    at->touched = false;
    arm(at);
    host_turn(at->host, now);
    disarm(at);
    expect_end(at);
    if (at->host != NULL && at->job != NULL && now >= at->job_ends) {
        finish_save(at);
    }
}

// ## Takeovers

// Another process takes a node over. The one before doesn't know, and goes on.
static void take_over(uint8_t node)
{
    station *at = &stations[node], *ghost = &ghosts[node];
    if (at->host == NULL || ghost->host != NULL || at->host->stopping) {
        return;
    }
    *ghost = (station){.node = node, .client = at->client, .base = at->base, .host = at->host,
        .job = at->job, .job_ends = now + below(500), .asked_at = at->asked_at,
        .had_node = at->had_node, .renew_at = at->renew_at,
        .serves_at = at->serves_at, .sure_until = at->sure_until, .stage = at->stage,
        .rewrite_at = now + below(500), .again_apart = at->again_apart, .apart = at->apart};
    ghost->disk.seed = &seed;
    ghost->host->calls.context = ghost;
    ghost->base.calls = rows_calls(&ghost->client);
    ghost->again_apart.calls = rows_calls(&ghost->apart);
    at->client = at->apart = (rows_client){.server = &at->rows};
    at->stage = REWRITE_NONE;
    at->host = NULL;
    at->job = NULL;
    at->starts_at = now;
    at->has_left = false;
    takeovers++;
}

static void end_ghost(station *ghost)
{
    host_free(ghost->host);
    ghost->host = NULL;
    rows_kill(&ghost->client);
    rows_kill(&ghost->apart);
}

// The other connection of a process that was taken over puts no pieces of a rewrite any more.
static void haunt_apart(station *ghost, bool has_node)
{
    const rows *in = ghost->client.server;
    size_t before = in->table.count;
    if (ghost->stage != REWRITE_BEGUN || now < ghost->rewrite_at) {
        return;
    }
    ghost->stage = REWRITE_NONE;
    store_status status = write_again(ghost);
    HOLDS(has_node || (status != STORE_OK && in->table.count == before));
    fenced += status == STORE_TAKEN;
    host_rewritten(ghost->host, status == STORE_OK ? STORE_FAILED : status, 0, 0);
}

// A turn of a process that was taken over. It ends as soon as it has to save or to renew.
static void haunt(station *ghost)
{
    if (ghost->host == NULL) {
        return;
    }
    bool has_node = is_holder(ghost);
    in_host = true;
    ghost->client.losing = is_calm ? 0 : below(3) == 0 ? 100 : 0;
    haunt_apart(ghost, has_node);
    if (ghost->job != NULL && now >= ghost->job_ends) {
        store_value *job = ghost->job;
        ghost->job = NULL;
        store_status status = save_in_place(ghost, job);
        host_saved(ghost->host, now, status, ghost->base.number);
    } else if (ghost->job == NULL && now >= ghost->renew_at) {
        ghost->renew_at = now + RENEW;
        if (database_renew(&ghost->base) == STORE_TAKEN) {
            host_taken(ghost->host);
        }
    }
    host_turn(ghost->host, now);
    in_host = false;
    if (host_ended(ghost->host) != HOST_RUNS) {
        HOLDS(host_ended(ghost->host) == HOST_OLDER && !has_node);
        surprised++;
        end_ghost(ghost);
    }
}

// Whether a process takes requests of programs now.
static bool is_sure(const station *at)
{
    return !is_kept_in_database || (now >= at->serves_at && now < at->sure_until);
}

// What comes to a node comes to its ghost, too.
static void haunt_with(station *ghost, const packet *it, const char *reply)
{
    if (ghost->host == NULL) {
        return;
    }
    in_host = true;
    if (it->kind == 0) {
        host_packet(ghost->host, now, it->from, it->bytes, it->length);
    } else if (is_sure(ghost)) {
        host_request(ghost->host, now, it->bytes, it->length, reply);
    }
    in_host = false;
}

// ## Requests

// The number of the register that is the model's register 0.
static uint16_t first_register(void)
{
    return is_wide ? MORE_REGISTERS : 0;
}

// An event of the model as the node knows it.
static markring_event placed(markring_event it)
{
    it.reg = (uint16_t)(it.reg + first_register());
    it.source = (uint16_t)(it.source + first_register());
    it.object = (uint16_t)(it.object + first_register());
    it.place = (uint8_t)(it.place + (is_wide ? MORE_PLACES : 0));
    return it;
}

static void send_bytes(part *it, const writer *to)
{
    HOLDS(to->ok);
    it->asked_at = now;
    put_in_net(1, (uint8_t)(10 * it->node + it->number), it->node, to->start, to->length);
}

static void send_request(part *it, uint8_t kind, uint64_t number)
{
    uint8_t bytes[REQUEST_BYTES + OPERATIONS * (4 + BYTES + 1)];
    writer to = writer_of(bytes, sizeof bytes);
    uint16_t count = is_performing(kind) ? it->count : 0;
    request_head head = {kind, it->number, it->session, number, count};
    write_request_head(&to, &head);
    if (kind == REQUEST_OPEN_APART || kind == REQUEST_OPEN_APART_LETTERS) {
        write_number(&to, first_register() + (it->number == 0 ? 0u : FIRST), 2);
        write_number(&to, it->number == 0 ? FIRST : REGISTERS - FIRST, 2);
    }
    for (uint16_t i = 0; i < count; i++) {
        markring_remote_event event = {placed(it->events[i]), it->bytes[i], it->lengths[i]};
        write_remote_event(&to, &event);
    }
    send_bytes(it, &to);
}

static bool is_opening(uint8_t kind)
{
    return kind == REQUEST_OPEN || kind == REQUEST_OPEN_APART || kind == REQUEST_OPEN_LETTERS
        || kind == REQUEST_OPEN_APART_LETTERS;
}

static bool has_letters(uint8_t kind)
{
    return kind == REQUEST_OPEN_LETTERS || kind == REQUEST_OPEN_APART_LETTERS
        || is_performing(kind);
}

static uint16_t random_register(const part *it)
{
    return (uint16_t)(it->number == 0 ? below(FIRST) : FIRST + below(REGISTERS - FIRST));
}

// What it asks of the bytes of an object.
static void write_reading(part *it, writer *to)
{
    for (int tries = 0; tries < 5; tries++) {
        it->from_register = random_register(it);
        const object *of = &objects[it->registers[it->from_register]];
        tries += of->owner == it->node && of->length > 0 ? 5 : 0;
    }
    uint32_t length = objects[it->registers[it->from_register]].length;
    it->from_byte = below(3) == 0 ? below(length + 2) : 0;
    it->wanted = below(4) > 0 && it->from_byte <= length ? length - it->from_byte : below(BYTES);
    write_number(to, (uint64_t)first_register() + it->from_register, 2);
    write_number(to, it->from_byte, 4);
    write_number(to, it->wanted, 4);
}

// Asks for the next step of its weak table: to begin a list, to walk, or for what was freed.
static void ask_about_freed(part *it)
{
    uint8_t bytes[REQUEST_HEAD + READ_FREED];
    writer to = writer_of(bytes, sizeof bytes);
    uint8_t kind = !it->is_tracking ? REQUEST_TRACK_FREED
        : it->is_walking            ? REQUEST_OBJECTS
                                    : REQUEST_FREED;
    write_request_head(&to, &(request_head){kind, it->number, it->session, ++it->reads, 1});
    if (kind == REQUEST_OBJECTS) {
        write_number(&to, it->slot, 4);
        write_number(&to, 1 + below(40), 4);
    } else if (kind == REQUEST_FREED) {
        write_number(&to, it->since.list, 8);
        write_number(&to, it->since.number, 8);
        write_number(&to, 1 + below(20), 4);
    }
    it->reading = it->reads;
    send_bytes(it, &to);
}

// Asks what all registers hold, or for bytes of an object, or waits for a letter.
static void read_something(part *it)
{
    static const uint8_t kinds[] = {
        REQUEST_WAIT, REQUEST_READ, REQUEST_READ, REQUEST_READ_BYTES, REQUEST_READ_BYTES};
    uint8_t bytes[REQUEST_HEAD + 2 * REGISTERS + READ_BYTES];
    writer to = writer_of(bytes, sizeof bytes);
    uint8_t kind = kinds[below(is_wide ? 5 : 3)];
    request_head head = {kind, it->number, it->session, ++it->reads,
        kind == REQUEST_WAIT ? 0 : kind == REQUEST_READ ? REGISTERS : 1};
    write_request_head(&to, &head);
    for (uint16_t reg = 0; reg < REGISTERS && kind == REQUEST_READ; reg++) {
        write_number(&to, (uint64_t)first_register() + reg, 2);
    }
    if (kind == REQUEST_READ_BYTES) {
        write_reading(it, &to);
    }
    it->reading = it->reads;
    send_bytes(it, &to);
}

static void ask(part *it)
{
    // (programs of earlier versions know no letters)
    bool knows = is_wide || below(2) == 0, resolves = false;
    for (uint16_t i = 0; i < it->count; i++) {
        resolves = resolves || it->events[i].kind == MARKRING_EVENT_RESOLVE;
    }
    uint8_t performing = resolves ? REQUEST_PERFORM_RESOLVING : REQUEST_PERFORM;
    uint8_t opening = is_apart ? (knows ? REQUEST_OPEN_APART_LETTERS : REQUEST_OPEN_APART)
                               : (knows ? REQUEST_OPEN_LETTERS : REQUEST_OPEN);
    send_request(it, it->opened ? performing : opening, it->opened ? it->last + 1 : it->round);
}

// Asks for the request that is planned.
static void ask_planned(part *it)
{
    it->asks = true;
    requests++;
    ask(it);
}

static void add_event(part *it, markring_event event)
{
    it->lengths[it->count] = 0;
    it->events[it->count++] = event;
}

// Adds an event that has bytes.
static void add_bytes(part *it, markring_event event, uint32_t length)
{
    for (uint32_t i = 0; i < length; i++) {
        it->bytes[it->count][i] = (uint8_t)below(256);
    }
    add_event(it, event);
    it->lengths[it->count - 1] = (uint16_t)length;
}

static void plan_gives(part *it, uint16_t reg)
{
    uint8_t to = (uint8_t)below(nodes - 1u);
    uint32_t count = below(4) == 0 ? 1 + below(OPERATIONS - 1) : 1 + below(3);
    to = (uint8_t)(to + (to >= it->node));
    for (uint32_t i = 0; i < count; i++) {
        letter given = {.from = it->node, .to = to, .content = it->registers[reg]};
        markring_event event = {.kind = MARKRING_EVENT_GIVE, .node = to, .reg = reg};
        event.label = new_letter(given);
        add_event(it, event);
    }
}

static void plan_get(part *it, uint16_t reg)
{
    uint32_t id = it->registers[reg];
    uint8_t place = (uint8_t)below(PLACES);
    letter got = {
        .from = objects[id].owner, .to = it->node, .is_get = true, .about = id, .place = place};
    markring_event event = {.kind = MARKRING_EVENT_GET, .object = reg, .place = place};
    event.label = new_letter(got);
    add_event(it, event);
}

static void plan_far(part *it, uint16_t reg, uint16_t value)
{
    uint32_t id = it->registers[reg];
    uint8_t place = (uint8_t)(LOCAL_PLACES + below(PLACES - LOCAL_PLACES));
    if ((objects[id].owner + 1) % nodes == it->node && below(2) == 0) {
        markring_event event = {
            .kind = MARKRING_EVENT_PUT, .object = reg, .place = place, .reg = value};
        remember(id, place, it->registers[value]);
        add_event(it, event);
        return;
    }
    plan_get(it, reg);
}

// Sends a letter with what some registers hold, and bytes; now and then as many as there may be.
static void plan_post(part *it)
{
    uint8_t to = (uint8_t)below(nodes - 1u), count = (uint8_t)below(CARRIED + 1);
    uint16_t first = (uint16_t)below(FIRST - CARRIED + 1);
    uint32_t length = below(below(3) == 0 ? BYTES + 1 : 20);
    to = (uint8_t)(to + (to >= it->node));
    letter given = {.from = it->node, .to = to, .is_post = true, .count = count, .length = length};
    for (uint8_t i = 0; i < count; i++) {
        given.carried[i] = it->registers[first + i];
    }
    markring_event event = {
        .kind = MARKRING_REMOTE_POST, .node = to, .reg = first, .count = count};
    uint16_t at = it->count;
    event.label = new_letter(given);
    add_bytes(it, event, length);
    memcpy(letters[event.label].bytes, it->bytes[at], length);
}

// A register with another node's object, one that has bytes if there is one; REGISTERS if none has.
static uint16_t register_of_another(const part *it)
{
    uint16_t first = it->number == 0 ? 0 : FIRST, behind = it->number == 0 ? FIRST : REGISTERS;
    uint16_t found = REGISTERS;
    for (uint16_t reg = first; reg < behind; reg++) {
        const object *at = &objects[it->registers[reg]];
        if (it->registers[reg] != 0 && at->owner != it->node && (found == REGISTERS || at->length > 0)) {
            found = reg;
        }
    }
    return found;
}

// Asks another node's object for its word and some of its bytes; now and then for more than it has.
static void plan_fetch(part *it, uint16_t reg)
{
    uint32_t id = it->registers[reg], length = objects[id].length;
    letter wants = {.from = objects[id].owner, .to = it->node, .is_fetch = true, .about = id};
    wants.offset = below(3) == 0 ? below(length + 2) : 0;
    wants.wanted = below(3) == 0 || wants.offset > length ? below(BYTES) : length - wants.offset;
    markring_event event = {.kind = MARKRING_REMOTE_FETCH,
        .object = reg,
        .count = wants.wanted,
        .word = wants.offset};
    event.label = new_letter(wants);
    add_event(it, event);
}

// Accepts a letter with its bytes, or without them; now and then with little room for them.
static void plan_accept(part *it, uint16_t reg)
{
    markring_event event = {.kind = MARKRING_EVENT_ACCEPT, .reg = reg};
    if (is_wide) {
        event.reg = (uint16_t)below(FIRST - CARRIED + 1);
        event.kind = below(4) == 0 ? MARKRING_EVENT_ACCEPT : MARKRING_REMOTE_ACCEPT_INTO;
        event.count = below(5) == 0 ? below(BYTES) : BYTES + 8;
    }
    add_event(it, event);
}

// What the bytes of an object will be after an event, if it is done.
static void foresee_bytes(part *it, uint16_t at, uint8_t *bytes, uint32_t *length)
{
    const markring_event *event = &it->events[at];
    bool sets = event->kind == MARKRING_REMOTE_SET_BYTES;
    uint32_t from = sets ? 0 : event->count, end = from + it->lengths[at];
    if (end > (sets ? BYTES : *length)) {
        return;
    }
    memcpy(bytes + from, it->bytes[at], it->lengths[at]);
    *length = sets ? end : *length;
    remember_bytes(it->registers[event->object], bytes, *length);
}

// Writes all bytes of an object, and overwrites some; now and then more than there may be.
static void plan_bytes(part *it, uint16_t reg)
{
    markring_event set = {.kind = MARKRING_REMOTE_SET_BYTES, .object = reg};
    markring_event patch = {.kind = MARKRING_REMOTE_PATCH, .object = reg};
    uint32_t most = below(4) == 0 ? BYTES + 2 : 1 + below(20), length = below(most);
    if (below(2) == 0) {
        add_bytes(it, set, length);
    } else {
        length = objects[it->registers[reg]].length;
    }
    patch.count = below(length + 1);
    add_bytes(it, patch, below(length - patch.count + (below(6) == 0) + 1) % (BYTES + 1));
    uint8_t bytes[BYTES];
    length = objects[it->registers[reg]].length;
    memcpy(bytes, objects[it->registers[reg]].bytes, BYTES);
    for (uint16_t at = 0; at < it->count; at++) {
        foresee_bytes(it, at, bytes, &length);
    }
}

static void plan_near(part *it, uint16_t reg, uint16_t value)
{
    uint8_t place = (uint8_t)below(LOCAL_PLACES);
    uint32_t id = it->registers[reg];
    markring_event event = {.object = reg, .reg = value, .place = place};
    switch (below(4)) {
    case 0:
        event.kind = MARKRING_EVENT_LOAD;
        event.place = (uint8_t)below(PLACES);
        break;
    case 1:
        event.kind = MARKRING_EVENT_STORE;
        if (it->registers[value] != 0) {
            remember(id, place, it->registers[value]);
        }
        break;
    case 2:
        event.kind = MARKRING_EVENT_CLEAR;
        remember(id, place, 0);
        break;
    default: event.kind = MARKRING_EVENT_WORD;
    }
    add_event(it, event);
}

static void plan_new(part *it, uint16_t reg)
{
    markring_event make = {.kind = MARKRING_EVENT_ALLOC, .reg = reg, .place = PLACES};
    markring_event name = {.kind = MARKRING_EVENT_SET_WORD, .object = reg};
    // The word is a number that no other object has: that of the request.
    name.word = ((uint64_t)it->node << 56) | ((uint64_t)it->number << 48) | (it->last + 1);
    add_event(it, make);
    add_event(it, name);
}

// An object that this program made, or one that is in a register of its own.
static uint32_t made_by(const part *it)
{
    uint32_t id = it->registers[random_register(it)];
    for (int tries = 0; tries < 20; tries++) {
        if (id != 0 && objects[id].owner == it->node && objects[id].maker == it->number) {
            return id;
        }
        id = object_count - 1 - below(object_count < 200 ? object_count : 200);
    }
    return 0;
}

static void plan_resolve(part *it, uint16_t reg, uint32_t id)
{
    markring_ref of = objects[id].name;
    add_event(it, (markring_event){.kind = MARKRING_EVENT_RESOLVE,
                      .reg = reg,
                      .node = of.node,
                      .count = of.slot,
                      .word = of.generation});
}

// Thinks of the next request.
static void plan(part *it)
{
    uint16_t reg = random_register(it), other = random_register(it);
    uint32_t id = it->registers[reg], kind = below(100);
    uint32_t back = below(is_apart ? 60 : 10) == 0 ? made_by(it) : 0;
    it->count = 0;
    if (back != 0) {
        plan_resolve(it, reg, back);
    } else if (is_wide && id != 0 && objects[id].owner == it->node && below(4) == 0) {
        plan_bytes(it, reg);
    } else if (is_wide && register_of_another(it) < REGISTERS && below(4) == 0) {
        plan_fetch(it, register_of_another(it));
    } else if (kind < 20) {
        plan_new(it, reg);
    } else if (kind < 30) {
        add_event(it, (markring_event){.kind = MARKRING_EVENT_COPY, .reg = reg, .source = other});
    } else if (kind < 45) {
        add_event(it, (markring_event){.kind = MARKRING_EVENT_DROP, .reg = reg});
    } else if (it->number == 0 && kind < (options.image_most > 0 ? 46 : 60)) {
        plan_accept(it, reg);
    } else if (it->number == 0 && is_wide && kind < 68) {
        plan_post(it);
    } else if (it->number == 0 && kind < 75) {
        plan_gives(it, reg);
    } else if (id != 0 && objects[id].owner != it->node) {
        plan_far(it, reg, other);
    } else if (id != 0) {
        plan_near(it, reg, other);
    } else {
        add_event(it, (markring_event){.kind = MARKRING_EVENT_LOAD, .object = reg, .reg = other});
    }
}

// ## Answers

static uint64_t words[1 << 20];

// Whether the bytes that were fetched are some that the object had, or its word alone, if it didn't
// have all of them.
static bool was_fetched(const letter *came, const uint8_t *bytes, uint64_t length)
{
    const object *of = &objects[came->about];
    bool is_whole = length == 8 + (uint64_t)came->wanted;
    for (size_t i = 0; i < of->version_count; i++) {
        const uint8_t *version = of->versions[i];
        bool has_all = came->offset + came->wanted <= version[0];
        bool is_same = bytes == NULL || (is_whole && has_all
            && memcmp(bytes + 8, version + 1 + came->offset, came->wanted) == 0);
        if ((is_whole && has_all && is_same) || (!has_all && length == 8)) {
            return true;
        }
    }
    return false;
}

// The bytes of a letter, if they came, and how many it had.
static void check_letter_bytes(const letter *came, const uint8_t *bytes, uint64_t length)
{
    if (came->is_fetch) {
        reader word = reader_of(bytes, bytes != NULL ? 8 : 0);
        HOLDS(length >= 8 && was_fetched(came, bytes, length));
        HOLDS(bytes == NULL || read_number(&word, 8) == words[came->about % (1 << 20)]);
        fetched += bytes != NULL && length > 8;
    } else {
        HOLDS(length == came->length
            && (bytes == NULL || memcmp(bytes, came->bytes, came->length) == 0));
        posted += bytes != NULL && length > 0;
    }
}

static void check_letter(
    part *it, const markring_event *event, const markring_answer *answer, const uint8_t *bytes)
{
    if (!HOLDS(answer->label < letter_count)) {
        return;
    }
    letter *came = &letters[answer->label];
    uint32_t id = object_named(answer->reference);
    HOLDS(came->to == it->node && came->from == answer->node && !came->accepted);
    came->accepted = true;
    HOLDS(answer->count == (came->count > 0 ? came->count : 1u));
    check_letter_bytes(came, bytes, answer->number);
    if (came->is_get) {
        HOLDS(was_written(came->about, came->place, id, &came->since));
    } else if (!came->is_fetch) {
        // Letters of a link come in order.
        HOLDS(id == (came->is_post ? came->carried[0] : came->content)
            && last_label[came->from][came->to] < answer->label + 1);
        last_label[came->from][came->to] = answer->label + 1;
    }
    it->registers[event->reg] = id;
    for (uint8_t i = 1; i < came->count; i++) {
        it->registers[event->reg + i] = came->carried[i];
    }
}

static void check_load(part *it, const markring_event *event, const markring_answer *answer)
{
    uint32_t id = it->registers[event->object], found = object_named(answer->reference);
    object *from = &objects[id];
    if (event->place < LOCAL_PLACES) {
        HOLDS(found == from->content[event->place]);
    } else {
        HOLDS(was_written(id, event->place, found, &from->seen[event->place]));
    }
    it->registers[event->reg] = found;
}

static void check_bytes_done(part *it, uint16_t at)
{
    const markring_event *event = &it->events[at];
    object *of = &objects[it->registers[event->object]];
    bool sets = event->kind == MARKRING_REMOTE_SET_BYTES;
    uint32_t from = sets ? 0 : event->count, length = it->lengths[at];
    HOLDS(from + length <= (sets ? BYTES : of->length));
    if (from + length <= BYTES) {
        memcpy(of->bytes + from, it->bytes[at], length);
        of->length = sets ? length : of->length;
    }
    byte_events++;
}

// The object that a Resolve names.
static uint32_t resolved_by(const markring_event *event)
{
    return object_named((markring_ref){event->node, event->count, event->word});
}

// What is gone for good doesn't come back.
static void check_resolved(part *it, const markring_event *event)
{
    uint32_t id = resolved_by(event);
    for (int i = 0; i < PARTS; i++) {
        HOLDS(!objects[id].is_gone[i]);
    }
    HOLDS(!is_apart);
    it->registers[event->reg] = id;
    resolved++;
}

// Whether one of the program's registers has the object.
static bool is_held(const part *it, uint32_t id)
{
    bool any = false;
    for (int reg = 0; reg < REGISTERS; reg++) {
        any = any || it->registers[reg] == id;
    }
    return any;
}

static void check_done(part *it, uint16_t at, const markring_answer *answer, const uint8_t *bytes)
{
    const markring_event *event = &it->events[at];
    uint32_t id = it->registers[event->object];
    switch (event->kind) {
    case MARKRING_REMOTE_SET_BYTES:
    case MARKRING_REMOTE_PATCH: check_bytes_done(it, at); break;
    case MARKRING_EVENT_ALLOC:
        HOLDS(answer->reference.node == it->node);
        it->registers[event->reg] = new_object(it->node, answer->reference);
        objects[object_count - 1].maker = it->number;
        words[(object_count - 1) % (1 << 20)] = 0;
        break;
    case MARKRING_EVENT_RESOLVE: check_resolved(it, event); break;
    case MARKRING_EVENT_SET_WORD: words[id % (1 << 20)] = event->word; break;
    case MARKRING_EVENT_WORD: HOLDS(answer->number == words[id % (1 << 20)]); break;
    case MARKRING_EVENT_COPY: it->registers[event->reg] = it->registers[event->source]; break;
    case MARKRING_EVENT_DROP: it->registers[event->reg] = 0; break;
    case MARKRING_EVENT_LOAD: check_load(it, event, answer); break;
    case MARKRING_EVENT_STORE: objects[id].content[event->place] = it->registers[event->reg]; break;
    case MARKRING_EVENT_CLEAR: objects[id].content[event->place] = 0; break;
    case MARKRING_EVENT_PUT: objects[id].content[event->place] = it->registers[event->reg]; break;
    case MARKRING_EVENT_ACCEPT:
    case MARKRING_REMOTE_ACCEPT_INTO: check_letter(it, event, answer, bytes); break;
    default: letters[event->label].given = true;
    }
}

// Whether the model says that an event is refused like this.
static bool is_right_refusal(const part *it, uint16_t at, int status)
{
    const markring_event *event = &it->events[at];
    bool is_tight = options.image_most > 0;
    bool asks = event->kind == MARKRING_EVENT_GET || event->kind == MARKRING_REMOTE_FETCH;
    bool accepts =
        event->kind == MARKRING_EVENT_ACCEPT || event->kind == MARKRING_REMOTE_ACCEPT_INTO;
    if (is_tight && status == MARKRING_CONGESTED && asks) {
        congested++;
        return true;
    }
    if (is_tight && status == MARKRING_IMAGE_TOO_LARGE && !accepts
        && event->kind != MARKRING_EVENT_DROP && event->kind != MARKRING_REMOTE_PATCH) {
        tight++;
        return true;
    }
    uint32_t held = it->registers[event->reg], id = it->registers[event->object];
    bool far_event = event->kind == MARKRING_EVENT_PUT || asks;
    switch (event->kind) {
    case MARKRING_EVENT_ALLOC: return status == MARKRING_ARENA_FULL;
    case MARKRING_EVENT_RESOLVE:
        unresolved += status == MARKRING_NO_FIELD;
        refused_apart += status == MARKRING_APART;
        return is_apart ? status == MARKRING_APART
                        : (status == MARKRING_NO_FIELD || status == MARKRING_NOT_NOW)
                && !is_held(it, resolved_by(event));
    case MARKRING_EVENT_COPY:
        return status == MARKRING_EMPTY_REGISTER && it->registers[event->source] == 0;
    case MARKRING_EVENT_DROP: return status == MARKRING_EMPTY_REGISTER && held == 0;
    case MARKRING_EVENT_ACCEPT: return status == MARKRING_NO_LETTER;
    case MARKRING_REMOTE_ACCEPT_INTO:
        no_rooms += status == MARKRING_SHORT_BUFFER;
        return status == MARKRING_NO_LETTER
            || (status == MARKRING_SHORT_BUFFER && event->count < BYTES + 8);
    case MARKRING_REMOTE_POST:
        return status == MARKRING_CONGESTED && (limit > 0 || byte_limit > 0);
    case MARKRING_EVENT_GIVE: return status == MARKRING_CONGESTED && limit > 0;
    case MARKRING_EVENT_STORE: return status == MARKRING_EMPTY_REGISTER && held == 0;
    case MARKRING_REMOTE_SET_BYTES:
        return status == MARKRING_TOO_MANY_BYTES && it->lengths[at] > BYTES;
    case MARKRING_REMOTE_PATCH:
        return status == MARKRING_NO_BYTES && event->count + it->lengths[at] > objects[id].length;
    default:
        return (status == MARKRING_EMPTY_REGISTER && id == 0)
            || (status == MARKRING_CONGESTED && limit > 0 && far_event);
    }
}

// The bytes of the letter that an event has accepted, if it asked for them and they came.
static const uint8_t *letter_of(
    const part *it, uint16_t at, const markring_answer *answer, bool come, reader *from)
{
    letter_bytes found = {0, 0, NULL};
    if (it->events[at].kind != MARKRING_REMOTE_ACCEPT_INTO || !come) {
        return NULL;
    }
    HOLDS(read_letter(from, &found) && found.result == at && found.length == answer->number
        && found.length <= it->events[at].count);
    return found.bytes;
}

// `come`: the answer has the letters, too.
static void check_results(part *it, reader *from, uint16_t count, bool come)
{
    bool stopped = false;
    reader behind = *from;
    HOLDS(count == it->count);
    HOLDS(read_bytes(&behind, count * (size_t)RESULT_BYTES) != NULL);
    for (uint16_t i = 0; i < count && failures == 0; i++) {
        markring_result found;
        read_result(from, &found);
        if (stopped) {
            HOLDS(found.status == MARKRING_NOT_DONE);
        } else if (found.status == MARKRING_OK) {
            check_done(it, i, &found.answer, letter_of(it, i, &found.answer, come, &behind));
        } else {
            stopped = true;
            HOLDS(found.status != MARKRING_SHORT_BUFFER
                || found.answer.number > it->events[i].count);
            HOLDS(found.status == MARKRING_MEMORY || is_right_refusal(it, i, found.status));
        }
    }
    HOLDS(from->ok && behind.ok && behind.left == 0);
    it->asks = false;
    it->last++;
    answered++;
}

// No request is under way, so the registers are as the model says.
static void check_reading(part *it, const answer_head *head, reader *from)
{
    for (uint16_t reg = 0; reg < head->count; reg++) {
        markring_result found;
        read_result(from, &found);
        if (head->kind == REQUEST_WAIT) {
            HOLDS(found.status == MARKRING_OK && found.answer.number > 0);
        } else if ((reg >= FIRST) != it->number) {
            HOLDS(!is_apart || found.status == MARKRING_NO_REGISTER);
        } else {
            uint32_t id = it->registers[reg];
            HOLDS(found.status == (id == 0 ? MARKRING_NOTHING : MARKRING_OK)
                && same(found.answer.reference, name_of(id)));
        }
    }
    HOLDS(
        from->ok && from->left == 0 && head->count == (head->kind == REQUEST_WAIT ? 1 : REGISTERS));
    it->reading = 0;
    readings++;
}

// The same of bytes: they are those that were written last.
static void check_bytes(part *it, const answer_head *head, reader *from)
{
    markring_result found;
    uint32_t id = it->registers[it->from_register];
    const object *of = &objects[id];
    bool is_own = id != 0 && of->owner == it->node;
    bool has_all = it->from_byte + it->wanted <= of->length;
    read_result(from, &found);
    HOLDS(head->verdict == VERDICT_DONE && head->count == 1 && from->ok);
    HOLDS(found.status
        == (id == 0        ? MARKRING_EMPTY_REGISTER
                : !is_own  ? MARKRING_REMOTE
                : !has_all ? MARKRING_NO_BYTES
                           : MARKRING_OK));
    HOLDS(from->left == (found.status == MARKRING_OK ? it->wanted : 0));
    HOLDS(found.status != MARKRING_OK
        || (found.answer.number == of->length
            && memcmp(from->at, of->bytes + it->from_byte, from->left) == 0));
    byte_readings += found.status == MARKRING_OK && it->wanted > 0;
    it->reading = 0;
    readings++;
}

// Whether a request of the node is under way, which may have made objects that nobody knows yet.
static bool may_make(uint8_t node)
{
    return parts[node][0].asks || parts[node][1].asks || !parts[node][0].opened
        || !parts[node][1].opened;
}

// An entry of the list of what was freed comes once, unless the program has forgotten that it came.
static bool is_new_entry(part *it, uint64_t number)
{
    if (it->heard.list == it->since.list && number <= it->heard.number) {
        return false;
    }
    it->heard = (markring_remote_since){it->since.list, number};
    return true;
}

// What was freed: each object once, with its word. It isn't there any more.
static void check_entries(part *it, const markring_answer *said, reader *from)
{
    HOLDS(from->left == said->count * (size_t)FREED_RECORD);
    HOLDS((uint64_t)said->sum == it->since.list);
    HOLDS(said->number == it->since.number + said->count);
    for (uint32_t i = 0; i < said->count; i++) {
        markring_freed entry;
        read_freed_record(from, &entry);
        uint32_t id = known_object(entry.reference);
        HOLDS(entry.reference.node == it->node && (id != 0 || may_make(it->node)));
        bool is_new = is_new_entry(it, it->since.number + i + 1);
        if (id != 0) {
            HOLDS(objects[id].is_listed[it->number] == !is_new && !is_held(it, id));
            HOLDS(entry.word == words[id % (1 << 20)]);
            objects[id].is_gone[it->number] = objects[id].is_listed[it->number] = true;
            freed_entries++;
        }
    }
    it->since.number = said->number;
    it->is_done = said->count == 0;
}

// What the node has. At the end of a walk, what was made before and wasn't found is gone.
static void check_walk(part *it, const markring_answer *said, reader *from)
{
    HOLDS(from->left == said->count * (size_t)OBJECT_RECORD && said->label >= it->slot);
    for (uint32_t i = 0; i < said->count; i++) {
        markring_object object;
        read_object_record(from, &object);
        uint32_t id = known_object(object.reference);
        HOLDS(object.reference.node == it->node && (id != 0 || may_make(it->node)));
        HOLDS(id == 0 || (!objects[id].is_gone[0] && !objects[id].is_gone[1]));
        objects[id].is_seen[it->number] = true;
    }
    it->slot = said->label;
    it->is_walking = said->done == 0;
    for (uint32_t id = 1; id < it->known && !it->is_walking; id++) {
        object *of = &objects[id];
        if (of->owner == it->node && !of->is_seen[it->number] && !of->is_gone[it->number]) {
            HOLDS(!is_held(it, id));
            of->is_gone[it->number] = true;
            missed++;
        }
    }
}

static void begin_walk(part *it, const markring_answer *said)
{
    it->since = (markring_remote_since){(uint64_t)said->sum, said->number};
    it->is_tracking = true;
    // (another process of the program may have named a place before)
    it->is_walking = said->done != 0 || it->slot == 0;
    it->slot = 0;
    it->known = object_count;
    for (uint32_t id = 0; id < object_count; id++) {
        objects[id].is_seen[it->number] &= objects[id].owner != it->node;
    }
}

// The next step of its weak table is answered.
static void check_table(part *it, const answer_head *head, reader *from)
{
    markring_result found;
    it->reading = 0;
    if (is_apart) {
        HOLDS(head->verdict == VERDICT_APART && head->count == 0);
        refused_apart++;
        return;
    }
    if (head->verdict == VERDICT_LOST) {
        HOLDS(head->kind == REQUEST_FREED);
        it->is_tracking = false;
        it->slot = 0;
        lists_lost++;
        return;
    }
    read_result(from, &found);
    HOLDS(head->verdict == VERDICT_DONE && head->count == 1 && found.status == MARKRING_OK);
    switch (head->kind) {
    case REQUEST_TRACK_FREED: begin_walk(it, &found.answer); break;
    case REQUEST_FREED: check_entries(it, &found.answer, from); break;
    default: check_walk(it, &found.answer, from);
    }
    HOLDS(from->ok && from->left == 0);
}

static void take_answer(part *it, const packet *came)
{
    answer_head head;
    reader from = reader_of(came->bytes, came->length);
    if (!HOLDS(read_answer_head(&from, &head)) || head.session != it->session) {
        return;
    }
    HOLDS(head.own == it->node && head.nodes == nodes
        && head.registers == first_register() + REGISTERS
        && head.slots == SLOTS && head.program == it->number);
    if (is_opening(head.kind)) {
        if (!it->opened && head.verdict == VERDICT_STALE && head.round >= it->round) {
            it->round = head.round + 1;
            ask(it);
        }
        if (it->opened || head.verdict != VERDICT_DONE) {
            return;
        }
        it->opened = true;
        HOLDS(head.last == it->last || (it->asks && head.last == it->last + 1));
        if (head.last == it->last + 1) {
            check_results(it, &from, head.count, has_letters(head.kind));
        } else if (below(2) == 0) {
            // It wasn't done. The program thinks of something else.
            it->asks = false;
        }
    } else if (!is_performing(head.kind)) {
        if (it->opened && head.number == it->reading) {
            bool is_of_bytes = head.kind == REQUEST_READ_BYTES;
            (head.kind >= REQUEST_TRACK_FREED ? check_table
                    : is_of_bytes             ? check_bytes
                                              : check_reading)(it, &head, &from);
        }
    } else if (it->opened && it->asks && head.number == it->last + 1) {
        if (HOLDS(head.verdict == VERDICT_DONE)) {
            check_results(it, &from, head.count, true);
        }
    }
}

static markring_state state_of(uint8_t node)
{
    markring_state state = {0};
    HOLDS(stations[node].host != NULL
        && markring_node_state(host_node(stations[node].host), &state) == MARKRING_OK);
    return state;
}

// A register of program 0 that may take a letter, with as many behind it as a letter may need.
static uint16_t last_to_accept(void)
{
    return is_wide ? FIRST - CARRIED : FIRST - 1;
}

// Accepts a letter in a quiet space, in a wide one mostly with its bytes.
static markring_event last_accept(void)
{
    markring_event event = {.kind = MARKRING_EVENT_ACCEPT, .reg = last_to_accept()};
    if (is_wide && below(4) != 0) {
        event.kind = MARKRING_REMOTE_ACCEPT_INTO;
        event.count = BYTES + 8;
    }
    return event;
}

static void work(part *it)
{
    if (!is_calm && below(1500) == 0) {
        // The program's process ends, and another one speaks for it.
        it->session = random_nonce();
        it->opened = false;
        // It may have stored how far it was, or asks for that; or nothing of its table.
        it->is_tracking = it->is_tracking && below(2) == 0;
        it->is_walking = it->is_walking && it->is_tracking;
        ask(it);
        return;
    }
    if (!it->opened || it->asks) {
        if (now >= it->asked_at + 300) {
            ask(it);
        }
    } else if (it->reading > 0) {
        bool is_late = (is_calm && !is_draining) || now >= it->asked_at + 100;
        it->reading = is_late ? 0 : it->reading;
    } else if (!is_calm && below(10) == 0) {
        read_something(it);
    } else if (!is_calm && below(10) == 0) {
        ask_about_freed(it);
    } else if (!is_calm && below(3) == 0) {
        plan(it);
        ask_planned(it);
    } else if (is_calm && !is_flood && it->number == 0 && options.image_most > 0
        && stations[it->node].host != NULL && state_of(it->node).letters > 0) {
        // A node with too many letters takes no messages until its program accepts some.
        it->count = 0;
        add_event(it, last_accept());
        it->asks = true;
        ask(it);
    }
}

// ## The net

static void deliver(const packet *it)
{
    char reply[HOST_REPLY];
    if (it->kind == 2) {
        take_answer(&parts[it->to / 10][it->to % 10], it);
        return;
    }
    station *to = &stations[it->to];
    snprintf(reply, sizeof reply, "p%d", it->from);
    haunt_with(&ghosts[it->to], it, reply);
    if (to->host == NULL) {
        return;
    }
    arm(to);
    if (it->kind == 0) {
        uint64_t before = host_counted(to->host)->full;
        host_packet(to->host, now, it->from, it->bytes, it->length);
        full += host_counted(to->host)->full - before;
        // A window and what was early may come beyond the limit.
        HOLDS(options.letters_most == 0 || state_of(it->to).letters <= options.letters_most + 64);
    } else if (is_sure(to)) {
        host_request(to->host, now, it->bytes, it->length, reply);
    }
    to->touched = true;
    disarm(to);
    expect_end(to);
}

static void deliver_due(void)
{
    int left = in_net;
    while (left-- > 0 && in_net > 0 && failures == 0) {
        int at = (int)below((uint32_t)in_net);
        if (net[at].at <= now) {
            packet it = net[at];
            net[at] = net[--in_net];
            deliver(&it);
            free(it.bytes);
        }
    }
}

// A frame that isn't of this space, or is damaged, changes nothing.
static void forge(void)
{
    station *to = &stations[below(nodes)];
    uint8_t bytes[200];
    size_t length = below(sizeof bytes);
    if (to->host == NULL || to->host->stopping) {
        return;
    }
    for (size_t i = 0; i < length; i++) {
        bytes[i] = (uint8_t)below(256);
    }
    if (length > 14 && below(2) == 0) {
        // A packet of another space.
        static const uint8_t magic[4] = {0x4D, 0x52, 0x50, 0x01};
        memcpy(bytes, magic, sizeof magic);
        bytes[12] = (uint8_t)((to - stations + 1) % nodes);
        bytes[13] = (uint8_t)(to - stations);
    }
    uint64_t before = host_counted(to->host)->foreign;
    host_packet(to->host, now, (uint8_t)((to - stations + 1) % nodes), bytes, length);
    HOLDS(host_counted(to->host)->foreign == before + 1);
}

static void step(void)
{
    now += is_calm ? 1 : below(4) == 0 ? below(20) : below(2);
    if (!is_calm && below(3000) == 0) {
        now += below(3600000);
    }
    deliver_due();
    for (uint8_t node = 0; node < nodes && failures == 0; node++) {
        for (uint8_t i = 0; i < PARTS; i++) {
            work(&parts[node][i]);
        }
        take_turn(&stations[node]);
        haunt(&ghosts[node]);
        if (is_kept_in_database && !is_calm && below(500) == 0) {
            take_over(node);
        }
        if (stations[node].host != NULL && !is_calm && below(900) == 0) {
            stop(&stations[node], below(2) == 0);
        }
        if (stations[node].host != NULL && !is_calm && below(1200) == 0) {
            // Perhaps its disk is full.
            stations[node].full_until = now + (below(3) == 0 ? below(2000) : 0);
            host_control(stations[node].host, now, "stop", 4, "s");
            stations[node].touched = true;
            stops++;
        }
    }
    if (!is_calm && below(50) == 0) {
        forge();
    }
    if (stations[0].host != NULL && !is_still && below(400) == 0) {
        host_control(stations[0].host, now, "begin", 5, "c");
        stations[0].touched = true;
    }
}

// ## Checkpoints

static bool is_quiet(void)
{
    for (uint8_t node = 0; node < nodes; node++) {
        uint8_t unsaved = 0;
        host *it = stations[node].host;
        // The host notices all changes that the library knows of.
        HOLDS(it == NULL || it->images.changed != 0 || it->images.saving != 0 || it->images.kept == 0
            || (markring_node_unsaved(&it->node, &unsaved) == MARKRING_OK && unsaved == 0));
        if (stations[node].host == NULL || stations[node].job != NULL
            || stations[node].host->images.changed != 0 || parts[node][0].asks || parts[node][1].asks
            || !parts[node][0].opened || !parts[node][1].opened) {
            return false;
        }
        for (uint8_t to = 0; to < nodes; to++) {
            markring_link link, back;
            if (to == node || stations[to].host == NULL) {
                continue;
            }
            if (markring_node_link(host_node(stations[node].host), to, &link) != MARKRING_OK
                || markring_node_link(host_node(stations[to].host), node, &back) != MARKRING_OK
                || link.acknowledged != link.appended || back.received != link.appended) {
                return false;
            }
        }
    }
    return true;
}

static bool settle(void)
{
    for (int i = 0; i < 30000 && failures == 0; i++) {
        step();
        if (in_net == 0 && is_quiet()) {
            return true;
        }
    }
    return HOLDS(!"everything comes to rest");
}

static bool ask_and_settle(part *it, markring_event event)
{
    it->count = 0;
    add_event(it, event);
    it->asks = true;
    ask(it);
    return settle();
}

// Programs accept all letters, and drop what is in them.
static void accept_all(void)
{
    for (uint8_t node = 0; node < nodes && failures == 0; node++) {
        part *it = &parts[node][0];
        while (failures == 0 && state_of(node).letters > 0) {
            if (!ask_and_settle(it, last_accept())) {
                return;
            }
        }
    }
    for (uint32_t label = 0; label < letter_count; label++) {
        if (letters[label].given != letters[label].accepted) {
            HOLDS(letters[label].given == letters[label].accepted);
            return;
        }
    }
}

static void reach(uint32_t id, uint8_t *seen, uint32_t *counts)
{
    if (id == 0 || seen[id]) {
        return;
    }
    seen[id] = 1;
    counts[objects[id].owner]++;
    for (int place = 0; place < PLACES; place++) {
        reach(objects[id].content[place], seen, counts);
    }
}

// Which objects the programs reach, and how many of each node.
static uint8_t *reach_all(uint32_t *counts)
{
    uint8_t *seen = resized(NULL, object_count);
    memset(seen, 0, object_count);
    for (uint8_t node = 0; node < nodes; node++) {
        for (int reg = 0; reg < REGISTERS; reg++) {
            reach(parts[node][reg >= FIRST].registers[reg], seen, counts);
        }
    }
    return seen;
}

static void expect_objects(void)
{
    uint32_t counts[MOST] = {0};
    free(reach_all(counts));
    for (uint8_t node = 0; node < nodes; node++) {
        for (int reg = 0; reg < REGISTERS; reg++) {
            markring_ref held = {0, 0, 0};
            uint32_t id = parts[node][reg >= FIRST].registers[reg];
            int status = markring_node_register(
                host_node(stations[node].host), (uint16_t)(first_register() + reg), &held);
            HOLDS(status == (id == 0 ? MARKRING_NOTHING : MARKRING_OK) && same(held, name_of(id)));
        }
    }
    bool equal = false;
    for (int i = 0; i < 5 && !equal && failures == 0; i++) {
        host_control(stations[0].host, now, "begin", 5, "c");
        stations[0].touched = true;
        cycles++;
        // The cycle is over once all is quiet again for a while.
        for (int quiet = 0; quiet < 3 && failures == 0; quiet++) {
            for (int k = 0; k < 100; k++) {
                step();
            }
            settle();
        }
        equal = true;
        for (uint8_t node = 0; node < nodes; node++) {
            equal = equal && state_of(node).live == counts[node];
            HOLDS(state_of(node).live >= counts[node]);
        }
    }
    if (!HOLDS(equal)) {
        for (uint8_t node = 0; node < nodes; node++) {
            printf("node %d: %u objects, %u reachable\n", node, state_of(node).live, counts[node]);
        }
    }
}

// All that was freed comes: what the model reaches is left in the weak tables, and nothing else.
static void expect_tables(void)
{
    uint32_t counts[MOST] = {0};
    uint8_t *seen = reach_all(counts);
    for (uint8_t at = 0; at < nodes * PARTS && !is_apart; at++) {
        part *it = &parts[at / PARTS][at % PARTS];
        it->is_done = false;
        is_draining = true;
        for (int i = 0; i < 2000 && !it->is_done && failures == 0; i++) {
            ask_about_freed(it);
            (void)settle();
        }
        is_draining = false;
        HOLDS(it->is_done);
        for (uint32_t id = 1; id < object_count; id++) {
            HOLDS(objects[id].owner != it->node || objects[id].is_gone[it->number] == !seen[id]);
        }
    }
    free(seen);
}

static void checkpoint(void)
{
    is_calm = true;
    if (settle()) {
        accept_all();
    }
    if (failures == 0) {
        expect_objects();
    }
    if (failures == 0) {
        expect_tables();
    }
    is_calm = false;
    checkpoints++;
}

// Everything is dropped: nothing is left.
static void drop_all(void)
{
    is_calm = true;
    accept_all();
    for (uint8_t node = 0; node < nodes && failures == 0; node++) {
        for (uint16_t reg = 0; reg < REGISTERS && failures == 0; reg++) {
            part *it = &parts[node][reg >= FIRST];
            if (it->registers[reg] != 0) {
                (void)ask_and_settle(it, (markring_event){.kind = MARKRING_EVENT_DROP, .reg = reg});
            }
        }
    }
    if (failures == 0) {
        expect_objects();
    }
    for (uint8_t node = 0; node < nodes && failures == 0; node++) {
        HOLDS(state_of(node).live == 0);
    }
}

// ## Time

// The clock goes on to the next thing that happens, and at most this long.
static void leap(uint64_t most)
{
    for (uint8_t node = 0; node < nodes; node++) {
        const station *at = &stations[node];
        uint64_t wait = most;
        if (at->host != NULL) {
            wait = at->touched || at->job != NULL ? 1 : host_wait(at->host, now);
        }
        most = wait < most ? wait : most;
    }
    most = in_net > 0 || most < 1 ? 1 : most;
    now += most - 1;
    step();
}

static void pass_time(uint64_t time)
{
    for (uint64_t end = now + time; now < end && failures == 0;) {
        leap(end - now);
    }
}

// ## Folders that are mixed up

// Whether each other node knows a save of this node that is later than the copy's.
static bool is_known(uint8_t node, uint64_t number)
{
    for (uint8_t other = 0; other < nodes; other++) {
        host *it = stations[other].host;
        if (other != node && (it == NULL || it->peers[node].known.saves <= number)) {
            return false;
        }
    }
    return true;
}

// Until the process has ended, a program could be told what no newer folder knows.
static void drop_requests(uint8_t node)
{
    for (int at = in_net; at-- > 0;) {
        if (net[at].kind == 1 && net[at].to == node) {
            drop_packet(at);
        }
    }
}

// The last save of a node that another one knows.
static uint64_t last_known(uint8_t node)
{
    uint64_t last = 0;
    for (uint8_t other = 0; other < nodes; other++) {
        host *it = stations[other].host;
        uint64_t saves = it != NULL && other != node ? it->peers[node].known.saves : 0;
        last = saves > last ? saves : last;
    }
    return last;
}

// No other node takes a process on the older folder for the latest one.
static void expect_unknown(uint8_t node)
{
    for (uint8_t other = 0; other < nodes; other++) {
        host *it = stations[other].host;
        for (int i = 0; i < mixed_count && it != NULL && other != node; i++) {
            HOLDS(it->peers[node].known.nonce != mixed_nonces[i]);
        }
    }
}

// The process of a copy works for a while. Packets to it and of it are lost.
static void work_alone(station *at, int changes)
{
    for (int i = 0; i < (changes < 0 ? 3 : 40) && failures == 0; i++) {
        now++;
        if (at->host != NULL && i % 4 == 3 && changes-- > 0) {
            host_changed(at->host);
        }
        at->touched = true;
        take_turn(at);
        while (in_net > 0) {
            drop_packet(0);
        }
    }
}

// While the others are away, processes begin on a copy of the folder, one after another, until one
// has made more saves than the others know of. Any of them may crash before its first save.
static void start_again(station *at)
{
    int starts = 1 + (int)below(STARTS_MOST);
    uint64_t last = last_known((uint8_t)(at - stations));
    for (int i = 0; i < starts || (at->store.state.number <= last && i < 100); i++) {
        if (at->host != NULL) {
            stop(at, false);
        }
        at->starts_at = now;
        work_alone(at, below(5) == 0 ? -1 : (int)below(10));
    }
    again++;
    if (below(2) == 0) {
        // The next process is the first to speak; else the others are.
        stop(at, false);
        at->starts_at = now;
        return;
    }
    for (uint8_t other = 0; other < nodes; other++) {
        if (&stations[other] != at && stations[other].host != NULL) {
            host_connected(stations[other].host, now);
            stations[other].touched = true;
        }
    }
}

// The process of the copy goes on as the one that the copy was made of.
static void restore_memory(station *at, const process *was)
{
    host *it = at->host;
    if (!HOLDS(it != NULL)) {
        return;
    }
    it->nonce = was->nonce;
    it->run = was->run;
    it->images = (markring_images){1, 1, 0, 0};
    it->line_count--;
    snapshots++;
}

typedef enum mixing { OLDER, OLDER_AGAIN, OLDER_MEMORY } mixing;

// All but the one station that is mixed up work; what programs ask of it is lost.
static void await_end(uint8_t node)
{
    for (int i = 0; i < 6000 && !mixed_found && failures == 0; i++) {
        now++;
        drop_requests(node);
        deliver_due();
        for (uint8_t other = 0; other < nodes && !mixed_found; other++) {
            take_turn(&stations[other]);
        }
    }
}

// An older copy of a node's folder takes its place, or an older state of its machine. The process
// has to end, and to say why; and no other node takes it for the latest. (A snapshot that has made
// as many saves as the others know of can't be found.)
static void mix_up(uint8_t node, mixing how)
{
    station *at = &stations[node];
    disk newest;
    memset(&newest, 0, sizeof newest);
    if (!at->has_copy || !is_known(node, at->copy_number) || is_kept_in_database) {
        return;
    }
    if (at->host != NULL) {
        stop(at, false);
    }
    disk_copy(&newest, &at->disk);
    disk_copy(&at->disk, &at->copy);
    disk_kill(&at->disk);
    at->has_left = false;
    is_calm = true;
    at->starts_at = now;
    mixed_node = node;
    mixed_found = false;
    mixed_count = 0;
    if (how == OLDER_AGAIN) {
        start_again(at);
    } else if (how == OLDER_MEMORY) {
        (void)start(at);
        restore_memory(at, &at->copied);
    }
    await_end(node);
    bool has_caught_up = how == OLDER_MEMORY && !mixed_found && at->host != NULL
        && at->host->stored >= last_known(node);
    HOLDS(mixed_found || has_caught_up);
    unseen += has_caught_up;
    expect_unknown(node);
    mixed_node = -1;
    is_calm = false;
    mixed++;
    stop(at, false);
    disk_copy(&at->disk, &newest);
    disk_kill(&at->disk);
    disk_free(&newest);
    at->has_copy = false;
}

static void keep_copy(uint8_t node)
{
    station *at = &stations[node];
    if (at->host != NULL && at->job == NULL && at->host->images.kept > 0) {
        disk_copy(&at->copy, &at->disk);
        at->copy_number = at->store.state.number;
        at->copied = (process){at->host->nonce, at->host->run, at->host->stored};
        at->has_copy = true;
    }
}

// A node's folder as it was before its last save, or before some more. Everything is at rest, so
// the others hear of the last one only because they are told within a second.
static void mix_up_at_rest(uint8_t node)
{
    station *at = &stations[node];
    uint32_t saves = below(2) == 0 ? 1 : 1 + below(30);
    is_calm = is_still = true;
    keep_copy(node);
    for (uint32_t i = 0; i < saves && at->host != NULL; i++) {
        at->host->images.changed = 1;
        pass_time(i + 1 == saves ? 1100 : 100);
    }
    HOLDS(at->host != NULL && at->has_copy && is_known(node, at->copy_number + saves - 1));
    barely += at->store.state.number == at->copy_number + 1;
    mix_up(node, (mixing)below(3));
    is_calm = true;
    settle();
    is_calm = is_still = false;
}

// ## What holds at rest

// What this node has sent again, what came again, and what came of earlier processes.
static uint64_t count_waste(uint8_t node)
{
    const host_counts *counts = host_counted(stations[node].host);
    return counts->resends + counts->repeats + counts->outdated;
}

// A program gives some letters.
static void give_letters(part *it)
{
    it->count = 0;
    plan_gives(it, random_register(it));
    ask_planned(it);
}

// Nothing is lost or late, so nothing is sent again.
static void expect_pace(void)
{
    uint64_t before[MOST];
    is_calm = is_quick = true;
    if (!settle()) {
        return;
    }
    for (uint8_t node = 0; node < nodes; node++) {
        before[node] = count_waste(node);
    }
    for (int i = 0; i < 20 && failures == 0; i++) {
        part *it = &parts[below(nodes)][0];
        if (!it->asks) {
            give_letters(it);
        }
        for (uint32_t steps = below(30); steps > 0; steps--) {
            step();
        }
    }
    settle();
    for (uint8_t node = 0; node < nodes && failures == 0; node++) {
        HOLDS(count_waste(node) == before[node]);
    }
    is_calm = is_quick = false;
}

static uint64_t resends_within(const station *at, uint64_t time)
{
    uint64_t before = host_counted(at->host)->resends;
    pass_time(time);
    return host_counted(at->host)->resends - before;
}

// A node is away, and another one has a letter for it: it sends it again, ever more rarely, but
// each 1.6 seconds at least.
static void expect_absence(void)
{
    uint8_t node = (uint8_t)below(nodes);
    station *away = &stations[node], *at = &stations[(node + 1) % nodes];
    part *it = &parts[(node + 1) % nodes][0];
    is_calm = is_quick = true;
    if (!settle()) {
        return;
    }
    stop(away, false);
    away->starts_at = now + 7200000;
    markring_answer answer;
    letter given = {.from = it->node, .to = node, .given = true};
    HOLDS(markring_node_give(host_node(at->host), node, new_letter(given),
              (uint16_t)(first_register() + REGISTERS - 1), &answer)
        == MARKRING_OK);
    letters[letter_count - 1].content = parts[it->node][1].registers[REGISTERS - 1];
    host_changed(at->host);
    at->touched = true;
    uint64_t soon = resends_within(at, 10000), later = resends_within(at, 3600000);
    HOLDS(soon >= 8 && soon <= 12);
    const uint64_t pause = MARKRING_SENDING_LONGEST_PAUSE;
    HOLDS(later >= 3600000 / (pause + 30) && later <= 3600000 / pause + 1);
    away->starts_at = now;
    settle();
    is_calm = is_quick = false;
    absences++;
}

// A register of a program that refers to another node's object, or -1.
static int far_register(const part *it)
{
    for (int reg = 0; reg < FIRST; reg++) {
        uint32_t id = it->registers[reg];
        if (id != 0 && objects[id].owner != it->node) {
            return reg;
        }
    }
    return -1;
}

// The next request of a flood: as many Gets as fit.
static void plan_flood(part *it, uint16_t reg)
{
    it->count = 0;
    while (it->count < OPERATIONS) {
        plan_get(it, reg);
    }
    ask_planned(it);
}

static void expect_small_images(void)
{
    for (uint8_t node = 0; node < nodes; node++) {
        size_t size = 0;
        host *it = stations[node].host;
        HOLDS(it == NULL || host_ended(it) == HOST_RUNS);
        HOLDS(it == NULL
            || (markring_node_image_size(&it->node, &size) == MARKRING_OK && size < TIGHT + 5000));
    }
}

// A program asks for what places hold, again and again, and accepts no answer.
static void flood(void)
{
    part *it = &parts[below(nodes)][0];
    int reg = far_register(it);
    if (reg < 0) {
        return;
    }
    is_calm = is_quick = is_flood = true;
    stations[it->node].host->options.image_most = IMAGE_MOST;
    for (int i = 0; i < FLOOD && !it->asks && failures == 0; i++) {
        plan_flood(it, (uint16_t)reg);
        for (int k = 0; k < 200 && it->asks && failures == 0; k++) {
            step();
        }
        expect_small_images();
    }
    floods++;
    is_flood = false;
    settle();
    is_calm = is_quick = false;
}

static void try_at_rest(void)
{
    if (failures == 0 && !is_kept_in_database) {
        mix_up_at_rest((uint8_t)below(nodes));
    }
    if (failures == 0 && options.letters_most > 0) {
        flood();
    } else if (failures == 0) {
        expect_pace();
    }
    if (failures == 0 && below(12) == 0) {
        expect_absence();
    }
}

// ## A run

// Removes bytes of a file.
static void cut(disk_file *file, size_t at, size_t count)
{
    file->seen_length -= count;
    memmove(file->seen + at, file->seen + at + count, file->seen_length - at);
}

// The image of a new node becomes one without a log.
static void make_image_old(disk_file *file, uint8_t node)
{
    uint8_t image[5] = {0x4D, 0x52, 3, nodes, node};
    size_t at = file->seen_length - sizeof image;
    while (at > 0 && memcmp(file->seen + at, image, sizeof image) != 0) {
        at--;
    }
    HOLDS(at > 0);
    file->seen[at + 2] = 2;
}

// Makes the value of a new node one of the second version, which has no limit of bytes; or of the
// first one, which doesn't know the processes that ran it; then perhaps the file, too.
static void make_old(disk *it, uint8_t node)
{
    disk_file *file = &it->files[0];
    size_t line = STORE_HEAD + 1 + 1 + strlen("sim") + SPACE_ID + 1 + 1 + 8 + nodes * (size_t)24;
    disk_rest(it);
    // Earlier versions left no marks.
    reader head = reader_of(file->seen + 4, 8);
    file->seen_length = STORE_HEAD + (size_t)read_number(&head, 8) + STORE_TAIL;
    cut(file, STORE_HEAD + 1 + 1 + strlen("sim") + SPACE_ID + 1 + 1 + 8, 8);
    if (below(3) == 0) {
        file->seen[STORE_HEAD] = 0x82;
    } else {
        cut(file, line, 2);
        cut(file, STORE_HEAD, 1);
        if (below(2) == 0) {
            file->seen[3] = 1;
            make_image_old(file, node);
        }
    }
    size_t length = file->seen_length - STORE_TAIL;
    writer to = writer_of(file->seen + 4, 8);
    write_number(&to, length - STORE_HEAD, 8);
    to = writer_of(file->seen + length, STORE_TAIL);
    write_number(&to, XXH3_64bits(file->seen, length), STORE_TAIL);
    memcpy(file->durable, file->seen, file->seen_length);
    file->durable_length = file->seen_length;
}

// A node is created in its database. Then it is there, or it was before.
static void create_in_database(station *at, store_value *value)
{
    store_status status = STORE_FAILED;
    while (status == STORE_FAILED && failures == 0) {
        database_calls calls = rows_calls(&at->client);
        at->client.losing = below(3) == 0 ? 200 : 0;
        status = database_create(&at->base, &calls, 1, value, 0);
        HOLDS(status == STORE_OK || status == STORE_FAILED || status == STORE_EXISTS);
        if (status == STORE_OK) {
            database_close(&at->base);
        }
    }
    at->client.losing = 0;
    free(value->buffer);
}

// A node is created; until that says that it is done, it may be broken off.
static void create(uint8_t node)
{
    station *at = &stations[node];
    host_shape shape;
    memset(&shape, 0, sizeof shape);
    memcpy(shape.name, "sim", 4);
    memset(shape.space, 7, sizeof shape.space);
    shape.own = node;
    shape.nodes = nodes;
    shape.registers = (uint16_t)(first_register() + REGISTERS);
    shape.wide = is_wide;
    shape.places = is_wide ? MORE_PLACES + PLACES : 0;
    shape.bytes = is_wide ? BYTES : 0;
    shape.slots = SLOTS;
    shape.limit = limit;
    shape.byte_limit = byte_limit;
    at->disk.seed = &seed;
    for (bool done = false; !done && failures == 0;) {
        store_value value = {NULL, 0, 0, false, 0, 0};
        store_calls calls = disk_calls(&at->disk);
        if (!HOLDS(host_create(&shape, &value) == MARKRING_OK)) {
            return;
        }
        if (is_kept_in_database) {
            create_in_database(at, &value);
            return;
        }
        at->disk.failing = below(4) == 0 ? 200 : 0;
        at->disk.dies_in = below(4) == 0 ? 1 + below(9) : 0;
        store_status status = store_create(&at->store, &calls, "folder", &value);
        free(value.buffer);
        done = status == STORE_OK && !at->disk.dead;
        at->disk.failing = 0;
        if (done) {
            store_close(&at->store);
        }
        if (below(2) == 0) {
            disk_power_off(&at->disk);
        } else {
            disk_kill(&at->disk);
        }
        // (Earlier versions had no wide spaces.)
        if (done && below(3) == 0 && !is_wide) {
            make_old(&at->disk, node);
        }
        if (!done) {
            // The operator removes what there is.
            disk_free(&at->disk);
            at->disk.has_folder = false;
        }
    }
}

static void open_parts(void)
{
    for (uint8_t node = 0; node < nodes; node++) {
        for (uint8_t number = 0; number < PARTS; number++) {
            part *it = &parts[node][number];
            memset(it, 0, sizeof *it);
            it->node = node;
            it->number = number;
            it->session = random_nonce();
            it->round = 1;
            ask(it);
        }
    }
}

static void forget_all(void)
{
    for (uint8_t node = 0; node < nodes; node++) {
        overtaken += stations[node].rows.overtaken;
        end_ghost(&ghosts[node]);
        rows_kill(&stations[node].client);
        rows_kill(&stations[node].apart);
        rows_free(&stations[node].rows);
        host_free(stations[node].host);
        disk_free(&stations[node].disk);
        disk_free(&stations[node].copy);
    }
    while (in_net > 0) {
        drop_packet(0);
    }
    for (uint32_t id = 0; id < object_count; id++) {
        for (int place = 0; place < PLACES; place++) {
            free(objects[id].history[place]);
        }
        free(objects[id].versions);
    }
    memset(stations, 0, sizeof stations);
    memset(ghosts, 0, sizeof ghosts);
    memset(last_label, 0, sizeof last_label);
    object_count = letter_count = 0;
}

// All processes end, others go on, and all that is under way is done.
static void restart_all(void)
{
    is_calm = is_still = true;
    for (uint8_t node = 0; node < nodes; node++) {
        if (stations[node].host != NULL) {
            stop(&stations[node], false);
        }
    }
    settle();
    is_calm = is_still = false;
}

// (Without checkpoints, nothing is compared at rest.)
static void run(unsigned long steps, unsigned long rests)
{
    nodes = (uint8_t)(2 + below(MOST - 1));
    limit = below(2) == 0 ? 0 : 8 + below(60);
    byte_limit = below(2) == 0 ? 0 : 100 + below(2000);
    is_apart = below(2) == 0;
    options = (host_options){.cycle_objects = 40};
    freed_most = below(3) == 0 ? 1 + below(30) : FREED_MOST;
    // Whole values now and then.
    options.entries_least = below(3) != 0 ? 1 + below(8000) : 0;
    if (below(3) == 0) {
        options.letters_most = 5 + below(60);
        options.letter_bytes_most = below(2) == 0 ? 100 + below(4000) : 0;
        options.image_most = 1500 + below(6000);
        options.image_tight = TIGHT;
    }
    now = 1000;
    is_calm = false;
    (void)new_object(0, (markring_ref){0, 0, 0});
    for (uint8_t node = 0; node < MOST; node++) {
        stations[node].node = node;
        stations[node].rows.seed = &seed;
        stations[node].client.server = stations[node].apart.server = &stations[node].rows;
    }
    for (uint8_t node = 0; node < nodes; node++) {
        create(node);
    }
    open_parts();
    for (unsigned long i = 1; i <= steps && failures == 0; i++) {
        step();
        if (below(300) == 0) {
            keep_copy((uint8_t)below(nodes));
        }
        if (below(600) == 0) {
            mix_up((uint8_t)below(nodes), (mixing)below(3));
        }
        if (rests > 0 && (i % (steps / rests + 1) == 0 || i == steps)) {
            checkpoint();
            try_at_rest();
        }
    }
    if (failures == 0) {
        rests > 0 ? drop_all() : restart_all();
    }
    for (uint8_t node = 0; node < nodes; node++) {
        failed_calls += stations[node].disk.failed;
    }
    forget_all();
}

int main(int count, char **given)
{
    unsigned long seeds = count > 1 ? strtoul(given[1], NULL, 10) : 40;
    unsigned long first = count > 2 ? strtoul(given[2], NULL, 10) : 1;
    unsigned long steps = count > 3 ? strtoul(given[3], NULL, 10) : 4000;
    unsigned long rests = count > 4 ? strtoul(given[4], NULL, 10) : CHECKPOINTS;
    for (run_seed = first; run_seed < first + seeds && failures == 0; run_seed++) {
        seed = run_seed * UINT64_C(0x9E3779B97F4A7C15) | 1;
        is_wide = run_seed % 3 == 0;
        is_kept_in_database = run_seed % 4 == 2;
        run(steps, rests);
    }
    printf("%lu seeds: %lu requests, %lu answers, %lu crashes, %lu of them with the machine, %lu "
           "failed saves, %lu failed calls, %lu refused allocations, %lu packets lost, %lu cycles "
           "asked for, %lu checkpoints, %lu folders mixed up, %lu frames not taken, %lu events "
           "refused by full nodes, %lu readings, %lu of bytes, %lu events with bytes, %lu letters with "
           "bytes, %lu objects fetched, %lu letters without room, %lu of %lu "
           "stops answered, %lu folders one save old, %lu started again, %lu snapshots (%lu "
           "unseen), %lu floods, %lu Gets refused, %lu absences, %lu takeovers, %lu noticed, %lu commits in "
           "doubt, %lu of them overtaken, %lu rewrites, %lu in databases, %lu given up, %lu of nodes "
           "that were taken over, %lu objects resolved, %lu not, %lu listed as freed, %lu found gone, "
           "%lu lists lost, %lu questions refused beside programs apart, %lu saves asked for, %lu of "
           "them done at once\n",
        run_seed - first, requests, answered, crashes, powers, failed_saves, failed_calls, refused,
        lost, cycles, checkpoints, mixed, full, tight, readings, byte_readings, byte_events, posted,
        fetched, no_rooms, stopped, stops, barely, again, snapshots, unseen, floods, congested, absences, takeovers, surprised, doubtful,
        overtaken, rewrites, rewrites_apart, rewrites_failed, fenced, resolved, unresolved,
        freed_entries, missed, lists_lost, refused_apart, asked, heard);
    bool all = failures == 0
        && (seeds < 40
            || (crashes && powers && failed_saves && refused && mixed && lost && full && tight
                && readings && byte_readings && byte_events && posted && fetched && no_rooms
                && stopped && barely && again
                && snapshots > 10 * unseen && floods && congested && absences && surprised && doubtful
                && overtaken && asked > heard && heard && rewrites && rewrites_apart && rewrites_failed && fenced
                && resolved && unresolved && freed_entries && missed && lists_lost && refused_apart));
    printf("%lu passed, %d failed\n", run_seed - first - (failures != 0), !all);
    free(objects);
    free(letters);
    return all ? 0 : 1;
}
