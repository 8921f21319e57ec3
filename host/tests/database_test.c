// A node in a database, over a model of the server. In each run one thing happens at one call: the
// connection is lost before it was done, after it, or so that it is done later; the server refuses;
// another process takes over; the process dies. Then the node is opened again. The same with saves
// that are asked for without waiting, and with a rewrite, whose value another connection puts there.
//
//     database_test
#include "check.h"
#include "rows.h"

#include <stdlib.h>
#include <string.h>

enum { SAVES = 7, LARGE = PIECE_MOST + 1000, MOST_CALLS = 80, HOLDER = 7, OTHER = 9, WHOLE = 99 };

static uint64_t seed = 88172645463325252u;

// The saves of a run: each a value or an entry, whose bytes are all its index.
typedef struct plan {
    bool is_entry;
    size_t length;
} plan;

static const plan PLANS[SAVES] = {{true, 100}, {true, 0}, {false, 50}, {true, 30},
    {false, LARGE}, {true, LARGE}, {true, 9}};

// What the node has after the first save, and after each of the others: the index of the value, and
// those of the entries behind it.
typedef struct content {
    int value, entries[SAVES];
    int count;
} content;

static content next_content(content it, int index)
{
    if (PLANS[index].is_entry) {
        it.entries[it.count++] = index + 1;
    } else {
        it.value = index + 1;
        it.count = 0;
    }
    return it;
}

static store_value value_of(bool is_entry, size_t length, int index)
{
    size_t room = STORE_HEAD + length + STORE_TAIL;
    store_value value = {malloc(room), length, room, is_entry, room, 0};
    memset(value.buffer, index, room);
    return value;
}

static bool is_filled(const uint8_t *bytes, size_t length, int index)
{
    for (size_t i = 0; i < length; i++) {
        if (bytes[i] != (uint8_t)index) {
            return false;
        }
    }
    return true;
}

static bool has_content(const store_value *value, const content *it)
{
    size_t at = 0, length = 0;
    if (!is_filled(value->buffer + STORE_HEAD, value->length, it->value)) {
        return false;
    }
    for (int i = 0; i < it->count; i++) {
        const uint8_t *entry = store_next(value, &at, &length);
        if (entry == NULL || length != PLANS[it->entries[i] - 1].length
            || !is_filled(entry, length, it->entries[i])) {
            return false;
        }
    }
    return store_next(value, &at, &length) == NULL;
}

// What came of a run: what surely counts, and what may count besides; of a rewrite, two things may.
typedef struct outcome {
    content sure, perhaps, rewritten;
    bool is_created, is_open, is_taken;
} outcome;

static store_status create(rows_client *client)
{
    database at;
    database_calls calls = rows_calls(client);
    store_value value = value_of(false, 40, 0);
    store_status status = database_create(&at, &calls, HOLDER, &value, 4);
    free(value.buffer);
    if (status == STORE_OK) {
        database_close(&at);
    }
    return status;
}

// How entries are saved: at once, or by asking, of which the answer is heard of or never is.
typedef enum saving { SAVES_AT_ONCE, SAVES_HEARD, SAVES_NEVER_HEARD, SAVINGS } saving;

static saving how;

static store_status save(database *at, rows_client *client, store_value *value)
{
    if (how != SAVES_AT_ONCE && database_can_ask(at, value)) {
        client->silent = how == SAVES_HEARD ? 0 : 1000;
        bool is_sent = database_ask(at, value);
        if (is_sent && database_hear(at, value) == NEWS_DONE) {
            return STORE_OK;
        }
    }
    return database_save(at, value);
}

static void save_all(database *at, rows_client *client, outcome *to)
{
    for (int i = 0; i < SAVES && !to->is_taken && !client->dead; i++) {
        store_value value = value_of(PLANS[i].is_entry, PLANS[i].length, i + 1);
        to->perhaps = next_content(to->sure, i);
        store_status status = save(at, client, &value);
        while (status == STORE_FAILED && !client->dead) {
            status = save(at, client, &value);
        }
        free(value.buffer);
        to->is_taken = status == STORE_TAKEN;
        HOLDS(status == STORE_OK || to->is_taken || client->dead);
        if (status == STORE_OK && !client->dead) {
            to->sure = to->perhaps;
        }
        if (i % 3 == 0 && status == STORE_OK && !client->dead) {
            status = database_renew(at);
            to->is_taken = to->is_taken || status == STORE_TAKEN;
            HOLDS(status == STORE_OK || status == STORE_FAILED || to->is_taken || client->dead);
        }
    }
}

// Creates the node, opens it, saves all. The fault is in the calls of the first process, or of the
// second.
static outcome run(rows *server, rows_client *maker, rows_client *client)
{
    outcome to = {{0, {0}, 0}, {0, {0}, 0}, {-1, {0}, 0}, false, false, false};
    store_value value = {NULL, 0, 0, false, 0, 0};
    database at;
    store_status created = create(maker);
    to.is_created = created == STORE_OK;
    HOLDS(to.is_created || created == STORE_FAILED);
    rows_kill(maker);
    if (!to.is_created) {
        rows_client again = {.server = server};
        created = create(&again);
        HOLDS(created == STORE_OK || created == STORE_EXISTS);
    }
    database_calls calls = rows_calls(client);
    store_status opened = database_open(&at, &calls, OTHER, &value);
    to.is_open = opened == STORE_OK;
    HOLDS(to.is_open || opened == STORE_FAILED || opened == STORE_TAKEN || client->dead);
    if (to.is_open) {
        HOLDS(has_content(&value, &to.sure));
        free(value.buffer);
        save_all(&at, client, &to);
        if (!client->dead && !to.is_taken) {
            database_close(&at);
        }
    }
    return to;
}

// Whatever happened: what was said to count does, and nothing else than what was being saved.
static void open_again(rows *server, const outcome *was)
{
    store_value value = {NULL, 0, 0, false, 0, 0};
    rows_client client = {.server = server};
    database at;
    database_calls calls = rows_calls(&client);
    HOLDS(database_open(&at, &calls, 11, &value) == STORE_OK);
    if (value.buffer == NULL) {
        return;
    }
    HOLDS(has_content(&value, &was->sure) || has_content(&value, &was->perhaps)
        || has_content(&value, &was->rewritten));
    free(value.buffer);
    for (size_t i = 0; i < server->table.count; i++) {
        const rows_piece *piece = &server->table.pieces[i];
        HOLDS(!piece->is_rewrite || piece->number == server->table.row.base);
    }
    // Nothing that is late changes what was opened.
    database_row row = server->table.row;
    size_t count = server->table.count;
    rows_arrive(server);
    HOLDS(memcmp(&row, &server->table.row, sizeof row) == 0 && count == server->table.count);
    store_value last = value_of(true, 5, 99);
    HOLDS(database_save(&at, &last) == STORE_OK && at.row.number == at.number);
    free(last.buffer);
    // The first save of a process has deleted what isn't part of the node any more.
    HOLDS(server->table.pieces[0].number == at.row.base);
    database_close(&at);
    HOLDS(server->table.row.holder == 0);
    rows_kill(&client);
}

static void test_each_call(rows_fault fault, bool in_maker)
{
    unsigned long calls = 0, taken = 0;
    // (the first run is one without a fault, which counts the calls)
    for (unsigned long at = 0; at <= calls; at++) {
        rows server = {.seed = &seed};
        rows_client maker = {.server = &server}, client = {.server = &server};
        rows_client *which = in_maker ? &maker : &client;
        which->fault = fault;
        which->fault_at = at;
        outcome was = run(&server, &maker, &client);
        calls = which->calls > calls ? which->calls : calls;
        HOLDS(!was.is_taken || fault == ROWS_TAKES);
        taken += was.is_taken;
        HOLDS(maker.used_twice == 0 && client.used_twice == 0 && client.misused == 0);
        rows_kill(&client);
        open_again(&server, &was);
        rows_free(&server);
    }
    HOLDS(calls > 5 && calls < MOST_CALLS);
    HOLDS((fault == ROWS_TAKES && !in_maker) == (taken > 0));
}

static void test_deaths(void)
{
    unsigned long calls = 0;
    for (unsigned long at = 0; at <= calls; at++) {
        for (int way = 0; way < 2; way++) {
            rows server = {.seed = &seed};
            rows_client maker = {.server = &server}, client = {.server = &server, .dies_in = at};
            outcome was = run(&server, &maker, &client);
            calls = client.calls > calls ? client.calls : calls;
            rows_kill(&client);
            open_again(&server, &was);
            rows_free(&server);
        }
    }
    HOLDS(calls > 5);
}

// A process that was taken over changes nothing any more, whatever it does.
TEST(test_taken)
{
    for (int way = 0; way < 4; way++) {
        rows server = {.seed = &seed};
        rows_client first = {.server = &server}, second = {.server = &server};
        database one, two;
        database_calls of_one = rows_calls(&first), of_two = rows_calls(&second);
        store_value value = {NULL, 0, 0, false, 0, 0};
        HOLDS(create(&first) == STORE_OK);
        HOLDS(database_open(&one, &of_one, HOLDER, &value) == STORE_OK);
        free(value.buffer);
        HOLDS(database_open(&two, &of_two, OTHER, &value) == STORE_OK);
        free(value.buffer);
        store_value next = value_of(way % 2 == 0, 20, 1);
        // It may have a connection, or have lost it.
        if (way >= 2) {
            first.is_connected = false;
        }
        HOLDS(database_save(&one, &next) == STORE_TAKEN);
        HOLDS(server.table.row.holder == OTHER && server.table.row.number == 5);
        HOLDS(server.table.count == 1);
        HOLDS(database_renew(&one) == STORE_TAKEN && database_save(&one, &next) == STORE_TAKEN);
        HOLDS(database_save(&two, &next) == STORE_OK && server.table.row.number == 6);
        // A row that was set back, as by an older dump, isn't one that this process left.
        server.table.row.number = 5;
        second.is_connected = false;
        HOLDS(database_renew(&two) == STORE_TAKEN);
        free(next.buffer);
        database_close(&one);
        HOLDS(server.table.row.holder == OTHER);
        rows_free(&server);
    }
}

// ## Rewrites

static void save_one(database *at, rows_client *client, outcome *to, int index)
{
    store_value value = value_of(true, PLANS[index - 1].length, index);
    if (to->is_taken || client->dead) {
        free(value.buffer);
        return;
    }
    to->perhaps = to->sure;
    to->perhaps.entries[to->perhaps.count++] = index;
    store_status status = save(at, client, &value);
    while (status == STORE_FAILED && !client->dead) {
        status = save(at, client, &value);
    }
    to->is_taken = status == STORE_TAKEN;
    HOLDS(status == STORE_OK || to->is_taken || client->dead);
    to->sure = status == STORE_OK && !client->dead ? to->perhaps : to->sure;
    free(value.buffer);
}

// The part of a rewrite that another thread does. Returns whether its value was written.
static bool write_apart(database_rewrite *again, rows_client *other, const content *before)
{
    store_value stored = {NULL, 0, 0, false, 0, 0}, whole = value_of(false, LARGE, WHOLE);
    store_status status = database_rewrite_read(again, &stored);
    HOLDS(status != STORE_OK || has_content(&stored, before));
    HOLDS((status == STORE_OK) == (stored.buffer != NULL));
    free(stored.buffer);
    if (status == STORE_OK) {
        status = database_rewrite_write(again, &whole);
    }
    free(whole.buffer);
    HOLDS(status == STORE_OK || other->lost || other->refused || other->dead || status == STORE_TAKEN
        || status == STORE_DAMAGED || status == STORE_MISSING);
    return status == STORE_OK;
}

// Ends a rewrite with an entry, which may count without it.
static bool end_rewrite(
    database *at, rows_client *client, const database_rewrite *again, outcome *to, int index)
{
    bool is_done = false;
    store_value value = value_of(true, PLANS[index - 1].length, index);
    to->perhaps = to->sure;
    to->perhaps.entries[to->perhaps.count++] = index;
    to->rewritten = (content){WHOLE, {0}, to->perhaps.count - 2};
    memcpy(to->rewritten.entries, to->perhaps.entries + 2, sizeof(int) * (SAVES - 2));
    store_status status = database_rewrite_end(at, again, &value, &is_done);
    to->is_taken = status == STORE_TAKEN;
    HOLDS(!is_done || status == STORE_OK);
    HOLDS(status == STORE_OK || status == STORE_FAILED || to->is_taken || client->dead);
    if (status == STORE_OK && !client->dead) {
        to->sure = is_done ? to->rewritten : to->perhaps;
        to->rewritten.value = -1;
    }
    free(value.buffer);
    return is_done && !client->dead;
}

// Two entries are rewritten while others are saved. Returns whether the rewrite counts.
static bool rewrite_all(rows *server, rows_client *client, rows_client *other, outcome *to)
{
    bool is_done = false;
    database at;
    database_rewrite again;
    database_calls calls = rows_calls(client), apart = rows_calls(other);
    store_value value = {NULL, 0, 0, false, 0, 0};
    rows_client maker = {.server = server};
    HOLDS(create(&maker) == STORE_OK);
    *to = (outcome){{0, {0}, 0}, {0, {0}, 0}, {-1, {0}, 0}, true, true, false};
    if (database_open(&at, &calls, OTHER, &value) != STORE_OK) {
        return false;
    }
    free(value.buffer);
    save_one(&at, client, to, 1);
    save_one(&at, client, to, 2);
    if (to->is_taken || client->dead) {
        return false;
    }
    content before = to->sure;
    database_rewrite_begin(&at, &apart, &again);
    save_one(&at, client, to, 3);
    bool is_written = write_apart(&again, other, &before);
    save_one(&at, client, to, 4);
    if (is_written && !to->is_taken && !client->dead) {
        is_done = end_rewrite(&at, client, &again, to, 5);
        HOLDS(again.length == LARGE);
    }
    save_one(&at, client, to, 6);
    if (is_done && !to->is_taken && !client->dead) {
        HOLDS(at.row.base == again.number && server->table.pieces[0].number == again.number);
        HOLDS(at.added - again.added > LARGE);
    }
    if (!client->dead && !to->is_taken) {
        database_close(&at);
    }
    return is_done;
}

// The fault is in the calls of the process, or in those of its other connection.
static void test_each_rewrite(rows_fault fault, bool in_other, bool dies)
{
    unsigned long calls = 0, done = 0;
    for (unsigned long at = 0; at <= calls; at++) {
        rows server = {.seed = &seed};
        rows_client client = {.server = &server}, other = {.server = &server};
        rows_client *which = in_other ? &other : &client;
        which->fault = fault;
        which->fault_at = dies ? 0 : at;
        which->dies_in = dies ? at : 0;
        outcome was;
        done += rewrite_all(&server, &client, &other, &was);
        calls = which->calls > calls ? which->calls : calls;
        HOLDS(client.used_twice == 0 && other.used_twice == 0 && client.misused == 0);
        HOLDS(!was.is_taken || fault == ROWS_TAKES);
        rows_kill(&client);
        rows_kill(&other);
        open_again(&server, &was);
        rows_free(&server);
    }
    HOLDS(calls > 5 && calls < MOST_CALLS);
    // (what is lost on the other connection is given up)
    HOLDS(done > 0 && (done <= calls || !in_other || (fault == ROWS_NO_FAULT && !dies)));
}

// The pieces of a rewrite that was broken off, of a process that was taken over, don't come any
// more; nor do those count that a server lost.
TEST(test_lost_pieces)
{
    for (int way = 0; way < 3; way++) {
        rows server = {.seed = &seed};
        rows_client client = {.server = &server}, other = client, next = client;
        database at, after;
        database_rewrite again;
        database_calls calls = rows_calls(&client), apart = rows_calls(&other), later = rows_calls(&next);
        store_value value = {NULL, 0, 0, false, 0, 0}, whole = value_of(false, 50, WHOLE);
        store_value entry = value_of(true, 100, 1);
        bool is_done = true;
        HOLDS(create(&client) == STORE_OK && database_open(&at, &calls, HOLDER, &value) == STORE_OK);
        free(value.buffer);
        database_rewrite_begin(&at, &apart, &again);
        HOLDS(database_rewrite_read(&again, &value) == STORE_OK);
        free(value.buffer);
        if (way == 0) {
            HOLDS(database_open(&after, &later, OTHER, &value) == STORE_OK);
            HOLDS(database_rewrite_write(&again, &whole) == STORE_TAKEN && server.table.count == 1);
            HOLDS(database_save(&after, &entry) == STORE_OK && server.table.count == 2);
            HOLDS(database_rewrite_end(&at, &again, &entry, &is_done) == STORE_TAKEN && !is_done);
        } else if (way == 1) {
            HOLDS(database_rewrite_write(&again, &whole) == STORE_OK && server.table.count == 3);
            HOLDS(database_open(&after, &later, OTHER, &value) == STORE_OK);
            HOLDS(server.table.count == 1);
            HOLDS(database_save(&after, &entry) == STORE_OK && server.table.count == 2);
        } else {
            HOLDS(database_rewrite_write(&again, &whole) == STORE_OK && server.table.count == 3);
            free(server.table.pieces[--server.table.count].bytes);
            HOLDS(database_rewrite_end(&at, &again, &entry, &is_done) == STORE_OK && !is_done);
            HOLDS(server.table.row.base == 5 && server.table.row.number == at.number);
            value.buffer = NULL;
        }
        free(value.buffer);
        free(whole.buffer);
        free(entry.buffer);
        rows_kill(&client);
        rows_kill(&other);
        rows_kill(&next);
        rows_free(&server);
    }
}

// ## Damage

// What can become of the pieces and the row of a node.
static void take_out(rows_table *at, size_t index)
{
    free(at->pieces[index].bytes);
    at->count--;
    memmove(&at->pieces[index], &at->pieces[index + 1], (at->count - index) * sizeof *at->pieces);
}

static void repeat(rows_table *at, size_t index)
{
    rows_piece *piece = &at->pieces[index];
    rows_piece copy = *piece;
    copy.bytes = malloc(copy.length);
    memcpy(copy.bytes, piece->bytes, copy.length);
    at->pieces = realloc(at->pieces, (at->count + 1) * sizeof *at->pieces);
    memmove(&at->pieces[index + 1], &at->pieces[index], (at->count - index) * sizeof *at->pieces);
    at->pieces[index] = copy;
    at->count++;
}

static void spoil(rows_table *at, int how, size_t index)
{
    rows_piece *piece = &at->pieces[index];
    switch (how) {
    case 0: take_out(at, index); break;
    case 1: repeat(at, index); break;
    case 2: piece->bytes[piece->length / 2] ^= 1; break;
    case 3: piece->length--; break;
    case 4: piece->is_entry = !piece->is_entry; break;
    case 5: piece->number++; break;
    case 6: piece->part++; break;
    case 7: at->row.number++; break;
    case 9: piece->is_rewrite = !piece->is_rewrite; break;
    default: at->row.number--;
    }
}

// A value in two pieces and two entries, of which one has two pieces.
static void make_node(rows *server)
{
    rows_client client = {.server = server};
    database at;
    database_calls calls = rows_calls(&client);
    store_value value = {NULL, 0, 0, false, 0, 0};
    HOLDS(create(&client) == STORE_OK);
    HOLDS(database_open(&at, &calls, HOLDER, &value) == STORE_OK);
    free(value.buffer);
    for (int i = 4; i < SAVES; i++) {
        value = value_of(PLANS[i].is_entry, PLANS[i].length, i + 1);
        HOLDS(database_save(&at, &value) == STORE_OK);
        free(value.buffer);
    }
    database_close(&at);
}

// A value of a rewrite in three pieces and two entries, of which one has two pieces.
static void make_rewritten_node(rows *server)
{
    rows_client client = {.server = server}, other = client;
    database at;
    database_rewrite again;
    database_calls calls = rows_calls(&client), apart = rows_calls(&other);
    store_value value = {NULL, 0, 0, false, 0, 0}, whole = value_of(false, LARGE, WHOLE);
    bool is_done = false;
    HOLDS(create(&client) == STORE_OK);
    HOLDS(database_open(&at, &calls, HOLDER, &value) == STORE_OK);
    free(value.buffer);
    database_rewrite_begin(&at, &apart, &again);
    HOLDS(database_rewrite_read(&again, &value) == STORE_OK);
    HOLDS(database_rewrite_write(&again, &whole) == STORE_OK);
    free(value.buffer);
    free(whole.buffer);
    value = value_of(true, LARGE, 6);
    HOLDS(database_save(&at, &value) == STORE_OK);
    free(value.buffer);
    value = value_of(true, 9, 7);
    HOLDS(database_rewrite_end(&at, &again, &value, &is_done) == STORE_OK && is_done);
    free(value.buffer);
    database_close(&at);
    rows_kill(&other);
}

// Whether a piece isn't in its place: it was taken out or has another number, or the row names a
// save that isn't there. A piece behind the last save doesn't count. An entry that passes for a
// piece of a rewrite isn't read.
static bool lacks_piece(int how, bool is_entry, bool is_last)
{
    return how == 0 || (how == 5 && !is_last) || how == 6 || how == 7 || (how == 9 && is_entry);
}

static void test_damage(bool is_rewritten)
{
    const size_t count = is_rewritten ? 6 : 5;
    for (int how = 0; how < 10; how++) {
        for (size_t index = 0; index < count; index++) {
            rows server = {.seed = &seed};
            rows_client client = {.server = &server};
            database at;
            database_calls calls = rows_calls(&client);
            store_value value = {NULL, 0, 0, false, 0, 0};
            if (is_rewritten) {
                make_rewritten_node(&server);
            } else {
                make_node(&server);
            }
            HOLDS(server.table.count == count);
            bool lacks = lacks_piece(how, server.table.pieces[index].is_entry, index == count - 1);
            spoil(&server.table, how, index);
            database_row before = server.table.row;
            bool is_harmless = how == 4 && !is_rewritten && (index == 1 || index == 3);
            store_status status = database_open(&at, &calls, OTHER, &value);
            store_status expected = lacks ? STORE_MISSING : STORE_DAMAGED;
            HOLDS(is_harmless || (status == expected && value.buffer == NULL));
            HOLDS(is_harmless || memcmp(&before, &server.table.row, sizeof before) == 0);
            free(value.buffer);
            rows_kill(&client);
            rows_free(&server);
        }
    }
}

// While the server is away, a save waits. It gives up if the process ends.
TEST(test_pauses)
{
    rows server = {.seed = &seed};
    rows_client client = {.server = &server, .pauses_most = 9};
    database at;
    database_calls calls = rows_calls(&client);
    store_value value = {NULL, 0, 0, false, 0, 0};
    HOLDS(create(&client) == STORE_OK);
    HOLDS(database_open(&at, &calls, HOLDER, &value) == STORE_OK);
    free(value.buffer);
    store_value next = value_of(true, 20, 1);
    client.is_connected = false;
    client.losing = 1000;
    HOLDS(database_save(&at, &next) == STORE_UNKNOWN && client.pauses == 9 && client.notes == 9);
    client.losing = 0;
    HOLDS(database_save(&at, &next) == STORE_OK);
    client.refusing = 1000;
    HOLDS(database_save(&at, &next) == STORE_FAILED);
    client.refusing = 0;
    uint64_t number = at.number;
    HOLDS(database_save(&at, &next) == STORE_OK && at.number == number + 1);
    HOLDS(client.used_twice == 0);
    free(next.buffer);
    database_close(&at);
    rows_free(&server);
}

// ## Saves without waiting

// A database with a node, which this process has, and nothing older in it.
static void open_made(database *at, rows_client *client)
{
    database_calls calls = rows_calls(client);
    store_value value = {NULL, 0, 0, false, 0, 0}, first = value_of(true, 100, 1);
    HOLDS(create(client) == STORE_OK);
    HOLDS(database_open(at, &calls, HOLDER, &value) == STORE_OK);
    free(value.buffer);
    HOLDS(!database_can_ask(at, &first));
    HOLDS(database_save(at, &first) == STORE_OK);
    free(first.buffer);
}

// What has to wait isn't asked for: a whole value, what is large, and all without a connection.
TEST(test_what_is_asked)
{
    rows server = {.seed = &seed};
    rows_client client = {.server = &server};
    database at;
    open_made(&at, &client);
    store_value whole = value_of(false, 50, 1), entry = value_of(true, ASKED_MOST, 2);
    HOLDS(!database_can_ask(&at, &whole) && database_can_ask(&at, &entry));
    entry.length++;
    HOLDS(!database_can_ask(&at, &entry));
    entry.length = 50;
    HOLDS(database_ask(&at, &entry) && database_hear(&at, &entry) == NEWS_DONE);
    HOLDS(!at.is_asked && at.row.number == 7 && at.number == 7);
    HOLDS(at.added == 2 * (size_t)(STORE_ENTRY_HEAD + STORE_TAIL) + 150);
    client.is_connected = false;
    at.is_connected = false;
    HOLDS(!database_can_ask(&at, &entry));
    HOLDS(database_save(&at, &entry) == STORE_OK && database_can_ask(&at, &entry));
    free(whole.buffer);
    free(entry.buffer);
    database_close(&at);
    rows_free(&server);
}

// The save that was asked for counts once, whoever comes to the end of it.
TEST(test_ends_of_asked)
{
    for (int way = 0; way < 3; way++) {
        rows server = {.seed = &seed};
        rows_client client = {.server = &server};
        database at;
        open_made(&at, &client);
        store_value entry = value_of(true, 30, 2);
        client.silent = 1000;
        HOLDS(database_ask(&at, &entry) && database_hear(&at, &entry) == NEWS_NONE && at.is_asked);
        if (way == 0) {
            HOLDS(database_save(&at, &entry) == STORE_OK && at.number == 7);
        } else if (way == 1) {
            rows_take(&server, &client);
            HOLDS(database_save(&at, &entry) == STORE_OK && at.number == 7);
            HOLDS(database_save(&at, &entry) == STORE_TAKEN);
        }
        HOLDS(server.table.row.number == 7 && server.table.count == 3);
        database_close(&at);
        HOLDS((server.table.row.holder == 0) == (way != 1) && server.table.row.number == 7);
        HOLDS(client.misused == 0 && client.used_twice == 0);
        free(entry.buffer);
        rows_free(&server);
    }
}

static void test_faults(void)
{
    static const rows_fault faults[] = {
        ROWS_NO_FAULT, ROWS_BEFORE, ROWS_AFTER, ROWS_LATER, ROWS_REFUSES, ROWS_TAKES};
    for (size_t i = 0; i < sizeof faults / sizeof *faults; i++) {
        test_each_call(faults[i], false);
        test_each_call(faults[i], true);
        test_each_rewrite(faults[i], false, false);
        test_each_rewrite(faults[i], true, false);
    }
    test_deaths();
    test_each_rewrite(ROWS_NO_FAULT, false, true);
    test_each_rewrite(ROWS_NO_FAULT, true, true);
}

int main(void)
{
    for (how = SAVES_AT_ONCE; how < SAVINGS; how++) {
        test_faults();
    }
    run_tests();
    test_damage(false);
    test_damage(true);
    return report_checks();
}
