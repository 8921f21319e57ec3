// The program markring-node over models of libnats and of a database: what saves its loop asks for,
// that it waits for nothing meanwhile, and what it leaves to the thread that saves.
//
//     asked_test
#include "running.h"
#include "rows.h"

enum { HOLDER = 7, SOON = 800, SHORT = 60 };

static pthread_t loop;

// ## The database, which two threads use, one at a time

static uint64_t seed = 88172645463325252u;
static rows server = {.seed = &seed};
static rows_client client = {.server = &server}, apart = {.server = &server};
static database_calls real;
static int news; // is readable once there may be an answer
// The server gives no answer; renewals take long; a part of a save isn't sent at once.
static atomic_bool is_held, is_slow, is_cut;
static atomic_int users, clashes;
static atomic_ulong asked, asked_by_saver, awaited, renewed;

static bool is_loop(void)
{
    return pthread_equal(pthread_self(), loop);
}

// One thread at a time is at work on the connection: that of the loop while it asks.
static void enter(void)
{
    clashes += users++ > 0;
    if (!is_loop()) {
        pthread_mutex_lock(&at.lock);
        clashes += at.asks;
        pthread_mutex_unlock(&at.lock);
    }
}

static bool ask(
    void *context, const database_row *from, const database_row *to, const database_piece *piece)
{
    enter();
    asked++;
    asked_by_saver += !is_loop();
    bool is_sent = real.ask(context, from, to, piece) && !is_cut;
    if (!is_held && is_sent) {
        (void)eventfd_write(news, 1);
    }
    users--;
    return is_sent;
}

static database_news hear(void *context)
{
    eventfd_t count;
    enter();
    (void)eventfd_read(news, &count);
    database_news came = is_held || is_cut ? NEWS_NONE : real.hear(context);
    users--;
    return came;
}

static int descriptor(void *context)
{
    (void)context;
    return news;
}

static database_status take_answer(void *context)
{
    enter();
    awaited += !is_loop();
    while (is_held) {
        (void)sleep_ms(1);
    }
    database_status status = real.answer(context);
    users--;
    return status;
}

static database_status move(void *context, const database_row *from, const database_row *to)
{
    enter();
    renewed++;
    if (is_slow) {
        (void)sleep_ms(SHORT);
    }
    database_status status = real.move(context, from, to);
    users--;
    return status;
}

// The server answers what it was asked for.
static void release(void)
{
    is_held = false;
    (void)eventfd_write(news, 1);
}

static database_calls watched_calls(void)
{
    database_calls calls = real = rows_calls(&client);
    calls.ask = ask;
    calls.hear = hear;
    calls.descriptor = descriptor;
    calls.answer = take_answer;
    calls.move = move;
    return calls;
}

// ## The node

static char heard[128];

static void on_published(const char *subject, const char *reply, const void *bytes, int length)
{
    (void)reply;
    (void)bytes;
    (void)length;
    if (strncmp(subject, "_INBOX.", 7) == 0) {
        snprintf(heard, sizeof heard, "%s", subject);
    }
}

static bool hears(const char *subject)
{
    GO_ON_UNTIL(strcmp(heard, subject) == 0 || host_ended(at.host) != HOST_RUNS);
    return strcmp(heard, subject) == 0;
}

// A request that needs a save.
static void request(const char *reply)
{
    static uint64_t session;
    heard[0] = 0;
    session++;
    ask_to_open(session, session, reply);
}

// A save that the loop has asked for, and of which no answer comes.
static void begin_held(const char *reply)
{
    is_held = true;
    request(reply);
    GO_ON_UNTIL(at.asks);
    HOLDS(at.asks && at.keeper.base.is_asked);
}

// What was saved counts, each number once; and no two threads were at work on the connection.
static void check_all(void)
{
    HOLDS(server.table.row.number == at.number && at.keeper.base.row.number == at.number);
    HOLDS(client.used_twice == 0 && client.misused == 0 && clashes == 0);
}

// ## Tests

// The loop asks for what is small; the first save after an opening also deletes what is older.
TEST(test_who_saves)
{
    request("_INBOX.first");
    HOLDS(hears("_INBOX.first") && asked_by_saver > 0);
    GO_ON_UNTIL(at.to_save == NULL);
    unsigned long before = asked, by_saver = asked_by_saver;
    for (int i = 0; i < 20; i++) {
        request("_INBOX.a");
        HOLDS(hears("_INBOX.a"));
    }
    HOLDS(asked - before >= 20 && asked_by_saver - by_saver <= 1);
    HOLDS(at.sure_at == at.asked_on || renewed > 0);
    check_all();
}

// Nobody is answered before the server has, and the loop does all else meanwhile.
TEST(test_waits)
{
    begin_held("_INBOX.a");
    uint64_t began = now_ms();
    ask_status("_INBOX.status");
    HOLDS(hears("_INBOX.status"));
    if (now_ms() - began < SOON) {
        (void)go_on(SHORT);
        HOLDS(strcmp(heard, "_INBOX.status") == 0);
    }
    release();
    HOLDS(hears("_INBOX.a"));
    check_all();
}

// What happens while the loop waits in its poll.
static bool is_answer; // else a message

static void *disturb(void *context)
{
    (void)context;
    for (bool polls = false; !polls;) {
        (void)sleep_ms(1);
        pthread_mutex_lock(&at.lock);
        polls = at.polls || !at.asks;
        pthread_mutex_unlock(&at.lock);
    }
    (void)sleep_ms(5);
    if (is_answer) {
        release();
    } else {
        ask_status("_INBOX.status");
    }
    return NULL;
}

// An answer, or a message, wakes the loop at once. Once is enough: a machine may be busy.
TEST(test_wakes)
{
    for (int i = 0; i < 2; i++) {
        bool was_soon = false;
        is_answer = i == 0;
        for (int attempt = 0; attempt < 5 && !was_soon; attempt++) {
            pthread_t other;
            begin_held("_INBOX.a");
            uint64_t began = now_ms();
            HOLDS(pthread_create(&other, NULL, disturb, NULL) == 0);
            pthread_mutex_lock(&at.lock);
            wait_for_work(&at, began + SOON);
            was_soon = now_ms() < began + SOON / 2 && (is_answer ? at.saved : at.first != NULL);
            HOLDS(!was_soon || !is_answer || at.sure_at == at.asked_on);
            pthread_mutex_unlock(&at.lock);
            pthread_join(other, NULL);
            release();
            HOLDS(hears("_INBOX.a"));
        }
        HOLDS(was_soon);
    }
    check_all();
}

static uint64_t used_ms(void)
{
    return clock_ms(CLOCK_THREAD_CPUTIME_ID);
}

// Once it was woken, the loop sleeps again.
TEST(test_sleeps)
{
    pthread_t other;
    is_answer = false;
    begin_held("_INBOX.a");
    HOLDS(pthread_create(&other, NULL, disturb, NULL) == 0);
    HOLDS(hears("_INBOX.status"));
    pthread_join(other, NULL);
    uint64_t before = used_ms();
    pthread_mutex_lock(&at.lock);
    wait_for_work(&at, now_ms() + SOON);
    pthread_mutex_unlock(&at.lock);
    HOLDS(used_ms() - before < SHORT);
    release();
    HOLDS(hears("_INBOX.a"));
    check_all();
}

// The answer is looked for also if more messages come all the time.
TEST(test_floods)
{
    request("_INBOX.a");
    for (int i = 0; i < 2000 && strcmp(heard, "_INBOX.a") != 0; i++) {
        model_deliver("markring.test.node.0.controls", NULL, "x", 1);
        (void)go_round(&at);
    }
    HOLDS(strcmp(heard, "_INBOX.a") == 0);
    check_all();
}

// After a while the saver waits, and the node is as sure as it was when the loop asked.
TEST(test_leaves)
{
    unsigned long asked_before = asked, awaited_before = awaited;
    uint64_t began = now_ms();
    begin_held("_INBOX.a");
    uint64_t asked_on = at.asked_on;
    GO_ON_UNTIL(!at.asks);
    HOLDS(!at.asks && now_ms() - began >= ASKED_FOR && awaited - awaited_before <= 1);
    (void)sleep_ms(SHORT);
    ask_status("_INBOX.status");
    HOLDS(hears("_INBOX.status") && awaited - awaited_before == 1);
    HOLDS(at.to_save != NULL && !at.saved);
    uint64_t number = at.keeper.base.to.number;
    release();
    HOLDS(hears("_INBOX.a") && asked - asked_before <= 2);
    HOLDS(at.number == number || asked - asked_before == 2);
    HOLDS(at.sure_at == asked_on || asked - asked_before == 2 || at.sure_at > now_ms() - SHORT / 2);
    check_all();
}

// What can't be sent at once is the saver's at once.
TEST(test_cut)
{
    is_cut = true;
    request("_INBOX.a");
    unsigned long before = asked, awaited_before = awaited;
    GO_ON_UNTIL(asked > before);
    HOLDS(!at.asks);
    HOLDS(hears("_INBOX.a") && awaited > awaited_before);
    is_cut = false;
    check_all();
}

// Who uses the connection isn't in the way of the other one.
TEST(test_renewals)
{
    // The saver doesn't renew while the loop waits: its time comes meanwhile.
    request("_INBOX.a");
    HOLDS(hears("_INBOX.a"));
    (void)sleep_ms(RENEW_EACH / 2);
    unsigned long before = renewed;
    begin_held("_INBOX.b");
    (void)go_on(SOON);
    HOLDS(!at.asks || renewed == before);
    release();
    HOLDS(hears("_INBOX.b"));
    // It renews when nothing else happens.
    GO_ON_UNTIL(at.to_save == NULL && !at.renews);
    before = renewed;
    uint64_t beat = server.table.row.beat, sure_at = at.sure_at;
    is_slow = true;
    for (int i = 0; i < 8 * RENEW_EACH && renewed == before; i++) {
        (void)sleep_ms(1);
    }
    HOLDS(renewed > before);
    // The loop doesn't ask meanwhile.
    request("_INBOX.c");
    HOLDS(hears("_INBOX.c"));
    is_slow = false;
    HOLDS(server.table.row.beat >= beat + 2 && at.sure_at > sure_at);
    check_all();
}

// Saves for a while. Returns the longest time between two of them.
static uint64_t save_for(uint64_t time)
{
    uint64_t began = now_ms(), last = began, longest = 0;
    while (last - began < time) {
        request("_INBOX.a");
        HOLDS(hears("_INBOX.a"));
        (void)sleep_ms(5);
        uint64_t now = now_ms();
        longest = now - last > longest ? now - last : longest;
        last = now;
    }
    return longest;
}

// Saves take the place of renewals. (A busy machine may stop them for too long.)
TEST(test_busy)
{
    for (int attempt = 0; attempt < 5; attempt++) {
        unsigned long before = renewed;
        if (save_for(2 * RENEW_EACH) < RENEW_EACH / 2) {
            HOLDS(renewed == before);
            break;
        }
    }
    check_all();
}

TEST(test_faults)
{
    static const rows_fault faults[] = {ROWS_BEFORE, ROWS_AFTER, ROWS_LATER, ROWS_REFUSES};
    for (size_t i = 0; i < sizeof faults / sizeof *faults; i++) {
        GO_ON_UNTIL(at.to_save == NULL && !at.renews);
        client.fault = faults[i];
        client.fault_at = client.calls + 1;
        request("_INBOX.a");
        HOLDS(hears("_INBOX.a"));
        HOLDS(client.calls > client.fault_at);
        check_all();
    }
    rows_arrive(&server);
    HOLDS(server.table.row.number == at.number);
}

// Puts the value of a rewrite there.
static void write_rewrite(void)
{
    store_value stored = {NULL, 0, 0, false, 0, 0}, whole = stored;
    database_calls other = rows_calls(&apart);
    GO_ON_UNTIL(at.to_save == NULL && !at.renews);
    at.again = (keeper_rewrite){.is_database = true};
    database_rewrite_begin(&at.keeper.base, &other, &at.again.base);
    HOLDS(database_rewrite_read(&at.again.base, &stored) == STORE_OK);
    HOLDS(host_rewrite(&stored, &whole) == MARKRING_OK);
    HOLDS(database_rewrite_write(&at.again.base, &whole) == STORE_OK);
    free(stored.buffer);
    free(whole.buffer);
}

// While the loop waits, a rewrite comes to this stage; then the saver comes to the end of the save,
// without it.
static void leave_at(rewrite_stage stage)
{
    begin_held("_INBOX.a");
    pthread_mutex_lock(&at.lock);
    at.stage = stage;
    pthread_mutex_unlock(&at.lock);
    GO_ON_UNTIL(!at.asks);
    release();
    bool is_over = false;
    for (uint64_t end = now_ms() + 20000; !is_over && now_ms() < end;) {
        (void)sleep_ms(1);
        pthread_mutex_lock(&at.lock);
        is_over = at.saved;
        pthread_mutex_unlock(&at.lock);
    }
    HOLDS(is_over && at.stage == stage);
    HOLDS(hears("_INBOX.a"));
}

// A save that was refused is the saver's at once, so it is tried again soon.
TEST(test_refusals)
{
    bool was_soon = false;
    for (int attempt = 0; attempt < 5 && !was_soon; attempt++) {
        GO_ON_UNTIL(at.to_save == NULL && !at.renews);
        uint64_t before = host_counted(at.host)->failed_saves, began = now_ms();
        client.fault = ROWS_REFUSES;
        client.fault_at = client.calls + 1;
        request("_INBOX.a");
        GO_ON_UNTIL(host_counted(at.host)->failed_saves > before);
        was_soon = now_ms() - began < SOON;
        HOLDS(hears("_INBOX.a"));
    }
    HOLDS(was_soon);
}

// A save that was asked for begins and ends no rewrite. The next one does, which the saver makes.
TEST(test_rewrites)
{
    write_rewrite();
    uint64_t number = at.again.base.number;
    unsigned long by_saver = asked;
    leave_at(REWRITE_WRITTEN);
    request("_INBOX.b");
    HOLDS(hears("_INBOX.b") && server.table.row.base == number && at.stage == REWRITE_NONE);
    HOLDS(asked >= by_saver + 1);
    leave_at(REWRITE_ASKED);
    by_saver = asked_by_saver;
    request("_INBOX.c");
    HOLDS(hears("_INBOX.c") && asked_by_saver > by_saver);
    check_all();
}

// A process that was taken over ends, and saves nothing any more.
TEST(test_takeover)
{
    GO_ON_UNTIL(at.to_save == NULL && !at.renews);
    uint64_t number = at.number;
    rows_take(&server, &client);
    request("_INBOX.a");
    GO_ON_UNTIL(host_ended(at.host) != HOST_RUNS);
    HOLDS(host_ended(at.host) == HOST_OLDER && strcmp(heard, "_INBOX.a") != 0);
    HOLDS(server.table.row.number == number && clashes == 0 && client.misused == 0);
}

// ## Beginning and end

static void make_node_in_rows(void)
{
    host_shape shape = {
        .name = "test", .own = 0, .nodes = 2, .registers = 8, .slots = 64, .limit = 100};
    store_value value = {NULL, 0, 0, false, 0, 0};
    database made;
    database_calls calls = rows_calls(&client);
    HOLDS(host_create(&shape, &value) == MARKRING_OK);
    HOLDS(database_create(&made, &calls, HOLDER, &value, 0) == STORE_OK);
    free(value.buffer);
    database_close(&made);
}

static void start(void)
{
    run_options options;
    store_value value = {NULL, 0, 0, false, 0, 0};
    memset(&options, 0, sizeof options);
    loop = pthread_self();
    news = eventfd(0, EFD_NONBLOCK);
    make_node_in_rows();
    (void)keeper_name(&at.keeper, "postgresql://nowhere/none#test/0");
    database_calls calls = watched_calls();
    HOLDS(database_open(&at.keeper.base, &calls, HOLDER, &value) == STORE_OK);
    HOLDS(use_node(&at, &value, &options.host, boot_ms()) == 0);
    name_node(&at);
    HOLDS(connect_node(&at, &carrier) == NATS_OK);
}

// A wrong node isn't tested any further.
static void after_each(void)
{
    if (failed > 1) {
        test_count = 0;
        release();
    }
}

int main(void)
{
    model.published = on_published;
    run_node(start, after_each);
    rows_free(&server);
    rows_kill(&client);
    rows_kill(&apart);
    return report_checks();
}
