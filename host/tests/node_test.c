// The program markring-node over a model of libnats and a real folder: what addresses it answers,
// what it makes of connections that end and come late, and of saves that fail.
//
//     node_test
#include "running.h"
#include "said.h"

#include <sys/stat.h>

enum { CYCLE = 10, HEARD = 64 };

// What was published since the last call of `listen`, except packets; and all of it.
static char heard[HEARD][SUBJECT];
static int heard_count;
static unsigned long published;
static bool is_slow; // to publish takes longer than a turn takes messages

static void on_published(const char *subject, const char *reply, const void *bytes, int length)
{
    (void)reply;
    (void)bytes;
    (void)length;
    published++;
    if (is_slow) {
        (void)sleep_ms(2);
    }
    if (strncmp(subject, "markring.", 9) != 0 && heard_count < HEARD) {
        snprintf(heard[heard_count++], SUBJECT, "%s", subject);
    }
}

static void listen(void)
{
    heard_count = 0;
}

static bool was_heard(const char *subject)
{
    for (int i = 0; i < heard_count; i++) {
        if (strcmp(heard[i], subject) == 0) {
            return true;
        }
    }
    return false;
}

// Rounds, until this was published. Returns whether it was.
static bool hears(const char *subject)
{
    GO_ON_UNTIL(was_heard(subject) || host_ended(at.host) != HOST_RUNS);
    return was_heard(subject);
}

// ## What the node prints

// What is printed goes to what is heard, from here on until the other call.
static int begin_prints(void)
{
    fflush(stdout);
    int out = dup(1);
    dup2(2, 1);
    return out;
}

static void end_prints(int out)
{
    fflush(stdout);
    dup2(out, 1);
    close(out);
}

// ## Tests

TEST(test_addresses)
{
    static const char *const wrong[] = {"_INBOX.", "_INBOX.a..b", "_INBOX.a.", "_INBOX..a",
        "_INBOX.*", "_INBOX.a.>", "_INBOX.*.a", "_INBOX", "_INBOXa.b", "_INBOX.a b", "_INBOX.a\tb",
        "_INBOX.a\x7f", "markring.test.node.1.from.0", "a.b", ""};
    static const char *const right[] = {"_INBOX.a", "_INBOX.a.b.c", "_INBOX.program.0123.1"};
    listen();
    ask_status(NULL);
    for (size_t i = 0; i < sizeof wrong / sizeof *wrong; i++) {
        ask_status(wrong[i]);
        (void)go_on(2 * CYCLE);
        HOLDS(heard_count == 0);
    }
    for (size_t i = 0; i < sizeof right / sizeof *right; i++) {
        ask_status(right[i]);
        HOLDS(hears(right[i]));
    }
    // Other subjects, and packets of nodes that there aren't.
    listen();
    model_deliver("markring.test.node.1.control", "_INBOX.a", "status", 6);
    model_deliver("markring.test.node.0.controls", "_INBOX.a", "status", 6);
    model_deliver("markring.test.node.0.from.64", "_INBOX.a", "x", 1);
    model_deliver("markring.test.node.0.from.", "_INBOX.a", "x", 1);
    (void)go_on(2 * CYCLE);
    HOLDS(heard_count == 0 && host_counted(at.host)->foreign == 0);
    model_deliver("markring.test.node.0.from.1", NULL, "x", 1);
    GO_ON_UNTIL(host_counted(at.host)->foreign > 0);
    HOLDS(host_counted(at.host)->foreign == 1);
}

TEST(test_denials)
{
    model.text = "Permissions Violation for Publish to \"_INBOX.a\"";
    model_error(model.last, NATS_NOT_PERMITTED);
    HOLDS(go_on(2 * CYCLE) == USABLE);
    model.text = "Permissions Violation for Subscription to \"markring.test.node.0.>\"";
    model_error(model.last, NATS_SLOW_CONSUMER);
    HOLDS(go_on(2 * CYCLE) == USABLE);
    model_error(model.last, NATS_CONNECTION_AUTH_FAILED);
    HOLDS(go_on(2 * CYCLE) == USABLE);
    model_error(model.last, NATS_NOT_PERMITTED);
    HOLDS(go_on(2 * CYCLE) == FORBIDDEN);
    at.forbidden = false;
    model.text = "Permissions Violation for Publish to \"markring.test.node.1.from.0\"";
    model_error(model.last, NATS_NOT_PERMITTED);
    HOLDS(go_on(2 * CYCLE) == FORBIDDEN);
    at.forbidden = false;
    model.text = NULL;
}

// What an earlier connection says late changes nothing.
TEST(test_late_calls)
{
    natsConnection *old = model.last;
    model_hold(old);
    disconnect_node(&at);
    HOLDS(connect_node(&at, &carrier) == NATS_OK && model.last != old);
    HOLDS(go_on(2 * CYCLE) == USABLE);
    model_close(old);
    model.text = "Permissions Violation for Subscription to \"markring.test.node.0.>\"";
    model_error(old, NATS_NOT_PERMITTED);
    HOLDS(go_on(2 * CYCLE) == USABLE);
    model.text = NULL;
    model_release(old);
    model_close(model.last);
    HOLDS(go_on(2 * CYCLE) == CLOSED);
    disconnect_node(&at);
    HOLDS(connect_node(&at, &carrier) == NATS_OK && go_on(2 * CYCLE) == USABLE);
    HOLDS(strcmp(model.subscribed, "markring.test.node.0.>") == 0);
}

static void refuse(natsStatus status, int count)
{
    model.attempts = 0;
    model.connects_count = count;
    for (int i = 0; i < count; i++) {
        model.connects[i] = status;
    }
}

// A server that refuses a connection for a while, for whatever reason.
TEST(test_refusals)
{
    static const natsStatus passing[] = {NATS_ERR, NATS_PROTOCOL_ERROR, NATS_IO_ERROR,
        NATS_CONNECTION_CLOSED, NATS_STALE_CONNECTION, NATS_SYS_ERROR, NATS_CONNECTION_AUTH_FAILED};
    begin_hearing();
    for (size_t i = 0; i < sizeof passing / sizeof *passing; i++) {
        refuse(passing[i], 40);
        HOLDS(connect_again(&at, &carrier) == NATS_OK && go_on(2 * CYCLE) == USABLE);
        disconnect_node(&at);
        refuse(passing[i], 40);
        HOLDS(connect_patiently(&at, &carrier) == NATS_OK && go_on(2 * CYCLE) == USABLE);
    }
    HOLDS(end_hearing("trying again") == 2 * sizeof passing / sizeof *passing);
    begin_hearing();
    refuse(NATS_CONNECTION_AUTH_FAILED, 64);
    HOLDS(connect_again(&at, &carrier) == NATS_CONNECTION_AUTH_FAILED);
    HOLDS(model.attempts == REFUSALS + 1 && at.connection == NULL);
    refuse(NATS_ERR, 64);
    HOLDS(connect_again(&at, &carrier) == NATS_ERR && model.attempts == REFUSALS + 1);
    model.text = "(conn.c:1): maximum connections exceeded";
    refuse(NATS_ERR, 64);
    HOLDS(connect_again(&at, &carrier) == NATS_OK && model.attempts == 65);
    model.text = NULL;
    refuse(NATS_SSL_ERROR, 1);
    HOLDS(connect_again(&at, &carrier) == NATS_SSL_ERROR && model.attempts == 1);
    // It can be asked to stop meanwhile.
    refuse(NATS_CONNECTION_AUTH_FAILED, 10);
    at.stop = true;
    HOLDS(connect_again(&at, &carrier) == NATS_OK && model.attempts == 1 && at.connection == NULL);
    at.stop = false;
    HOLDS(end_hearing("trying again") == 3);
    refuse(NATS_OK, 0);
    HOLDS(connect_again(&at, &carrier) == NATS_OK && go_on(2 * CYCLE) == USABLE);
}

// A server that doesn't take the longest answers: the node says so, once.
TEST(test_payload)
{
    for (int less = 1; less < 3; less++) {
        begin_hearing();
        for (int i = 0; i < 4; i++) {
            model.max_payload = i < 3 ? ANSWER_BYTES - less : ANSWER_BYTES;
            disconnect_node(&at);
            HOLDS(connect_node(&at, &carrier) == NATS_OK && go_on(2 * CYCLE) == USABLE);
        }
        HOLDS(end_hearing("max_payload") == 1);
    }
    model.max_payload = 1048576;
    // With bytes of letters, answers may be longer, and so may packets of wide spaces.
    for (uint32_t bytes = 0; bytes < 2000000; bytes = bytes < 4000 ? bytes + 1 : bytes * 2) {
        int64_t letters = bytes < 1000000 / 256 + 1 ? 256 * (int64_t)bytes : 1000000;
        int64_t answer = 49 + 256 * 43 + (bytes > 0 ? 256 * 6 + letters : 0);
        HOLDS(longest_message(&(host_shape){.bytes = bytes}) == answer);
        int64_t packet = 67 + 13 + 131072, wide = answer > packet ? answer : packet;
        HOLDS(longest_message(&(host_shape){.bytes = bytes, .wide = true}) == wide);
    }
}

// More messages than the loop takes: what finds no room is lost, and nothing else.
TEST(test_floods)
{
    published = 0;
    for (int i = 1; i < INBOX_MOST + 100; i++) {
        model_deliver("markring.test.node.0.control", "_INBOX.flood", "words", 5);
        HOLDS(at.waiting == (size_t)(i < INBOX_MOST ? i : INBOX_MOST));
    }
    (void)go_round(&at);
    HOLDS(at.waiting == INBOX_MOST - HOST_TAKES);
    listen();
    GO_ON_UNTIL(at.waiting == 0 && at.taken == NULL);
    (void)go_on(2 * CYCLE);
    HOLDS(at.waiting == 0 && published >= INBOX_MOST && published < INBOX_MOST + 100);
    HOLDS(model.kept_messages == INBOX_MOST && model.kept_bytes == INBOX_BYTES);
}

// Rounds, while messages wait of which each takes longer than a turn takes messages: each round takes
// one, and none is lost. Returns whether they took less time than if each had waited for a cycle. (On
// a busy machine they may take longer.)
static bool takes_in_turns(int messages)
{
    char reply[SUBJECT];
    listen();
    for (int i = 0; i < messages; i++) {
        snprintf(reply, sizeof reply, "_INBOX.turn.%d", i);
        model_deliver("markring.test.node.0.control", reply, "words", 5);
    }
    uint64_t began = now_ms();
    for (int i = 0; i < messages; i++) {
        (void)go_round(&at);
        HOLDS(heard_count == i + 1 && at.waiting == 0);
    }
    uint64_t took = now_ms() - began;
    for (int i = 0; i < messages; i++) {
        snprintf(reply, sizeof reply, "_INBOX.turn.%d", i);
        HOLDS(strcmp(heard[i], reply) == 0);
    }
    return took < (uint64_t)messages * CYCLE / 2;
}

TEST(test_turns)
{
    bool is_quick = false;
    is_slow = true;
    for (int i = 0; i < 10 && !is_quick; i++) {
        is_quick = takes_in_turns(5);
    }
    is_slow = false;
    HOLDS(is_quick && at.taken == NULL);
}

// Messages of the greatest size that a server takes: as many bytes as the node keeps, to the last.
TEST(test_long_messages)
{
    static uint8_t bytes[1 << 20];
    int most = INBOX_BYTES / (int)sizeof bytes;
    for (int round = 0; round < 2; round++) {
        for (int i = 0; i < most - 1; i++) {
            model_deliver("markring.test.node.0.program", "_INBOX.long", bytes, sizeof bytes);
        }
        model_deliver("markring.test.node.0.program", "_INBOX.long", bytes, sizeof bytes - 1);
        HOLDS(at.waiting == (size_t)most && at.waiting_bytes == INBOX_BYTES - 1);
        model_deliver("markring.test.node.0.program", "_INBOX.long", bytes, sizeof bytes);
        model_deliver("markring.test.node.0.program", "_INBOX.long", bytes, 2);
        HOLDS(at.waiting == (size_t)most);
        model_deliver("markring.test.node.0.program", "_INBOX.long", bytes, 1);
        HOLDS(at.waiting == (size_t)most + 1 && at.waiting_bytes == INBOX_BYTES);
        GO_ON_UNTIL(at.waiting == 0 && at.taken == NULL);
        HOLDS(at.waiting == 0 && at.waiting_bytes == 0);
    }
    listen();
    ask_status("_INBOX.after");
    HOLDS(hears("_INBOX.after") && model.kept_bytes == INBOX_BYTES);
}

// The statuses of folders that can't be used, and of failures that pass: a supervisor starts the
// node again after these alone.
TEST(test_openings)
{
    static const int passing[] = {EMFILE, ENFILE, EIO, ENOMEM, ENOSPC, EDQUOT, ENOLCK, EINTR};
    static const int staying[] = {EACCES, EPERM, EROFS, EISDIR, ELOOP, ENAMETOOLONG, EINVAL};
    begin_hearing();
    for (size_t i = 0; i < sizeof passing / sizeof *passing; i++) {
        HOLDS(explain_folder(STORE_FAILED, passing[i]) == LEAVE_SYSTEM);
        HOLDS(explain_folder(STORE_UNKNOWN, passing[i]) == LEAVE_SYSTEM);
    }
    for (size_t i = 0; i < sizeof staying / sizeof *staying; i++) {
        HOLDS(explain_folder(STORE_FAILED, staying[i]) == LEAVE_FOLDER);
    }
    HOLDS(explain_folder(STORE_MEMORY, 0) == LEAVE_SYSTEM);
    HOLDS(explain_folder(STORE_STALE, 0) == LEAVE_SYSTEM);
    HOLDS(explain_folder(STORE_ABSENT, EMFILE) == LEAVE_FOLDER);
    HOLDS(explain_folder(STORE_LOCKED, EMFILE) == LEAVE_FOLDER);
    HOLDS(explain_folder(STORE_DAMAGED, EMFILE) == LEAVE_FOLDER);
    HOLDS(end_hearing(": Too many open files\n") == 2);
}

// Those of databases; tests/database has the others, which need a server.
TEST(test_openings_of_databases)
{
    static const keeper at = {.is_database = true};
    begin_hearing();
    HOLDS(keeper_explain(&at, STORE_MEMORY) == LEAVE_SYSTEM);
    HOLDS(keeper_explain(&at, STORE_ABSENT) == LEAVE_ABSENT);
    HOLDS(keeper_explain(&at, STORE_EXISTS) == LEAVE_EXISTS);
    HOLDS(keeper_explain(&at, STORE_OTHER) == LEAVE_OTHER);
    HOLDS(keeper_explain(&at, STORE_DAMAGED) == LEAVE_DAMAGED);
    HOLDS(keeper_explain(&at, STORE_MISSING) == LEAVE_MISSING);
    HOLDS(keeper_explain(&at, STORE_TAKEN) == LEAVE_OLDER);
    HOLDS(end_hearing("from one dump\n") == 2);
    for (int status = LEAVE_USAGE; status <= LEAVE_MISSING; status++) {
        bool is_passing = status == LEAVE_SYSTEM || status == LEAVE_AWAY || status == LEAVE_READS
            || status == LEAVE_FULL || status == LEAVE_IN_USE;
        HOLDS(leave_may_pass(status) == is_passing);
    }
}

// Each word of `create` at its limit, and one past it.
TEST(test_words)
{
    static const struct {
        int at;
        const char *most, *more;
    } limits[] = {{1, "abcdefghijklmnopqrstuvwxyz012345", "abcdefghijklmnopqrstuvwxyz0123456"},
        {2, "0123456789abcdef", "0123456789abcdef0"}, {2, "0123456789abcdef", "0123456789abcde"},
        {3, "63", "64"}, {4, "64", "65"}, {5, "256", "257"}, {6, "1048576", "1048577"},
        {8, "18446744073709551615", "18446744073709551616"}};
    begin_hearing();
    for (size_t i = 0; i < sizeof limits / sizeof *limits; i++) {
        char folder[PATH + 16];
        snprintf(folder, sizeof folder, "%s/limit%d", place, (int)i);
        for (int past = 1; past >= 0; past--) {
            char *words[] = {folder, "test", "0123456789abcdef", "63", "64", "8", "64", "--limit", "1"};
            words[limits[i].at] = strdup(past ? limits[i].more : limits[i].most);
            HOLDS(create(limits[i].at > 6 ? 9 : 7, words) == (past ? LEAVE_USAGE : 0));
            HOLDS((access(folder, F_OK) == 0) == !past);
            free(words[limits[i].at]);
        }
    }
    HOLDS(end_hearing("usage:") == sizeof limits / sizeof *limits);
}

// The node that `create` made in this folder.
static host_shape shape_in(const char *folder)
{
    keeper it;
    host *node = NULL;
    host_shape shape = {0};
    if (keeper_begin(&it, folder) == 0 && open_folder(&it, &node, false) == 0) {
        shape = *host_is(node);
        host_free(node);
        keeper_close(&it);
    }
    return shape;
}

static int show_as(const char *folder)
{
    int out = begin_prints();
    int status = show(folder);
    end_prints(out);
    return status;
}

// The same for wide spaces.
TEST(test_wide_words)
{
    static const struct {
        char *option;
        int at;
        const char *good, *bad;
    } limits[] = {{"--places", 4, "64", "65"}, {"--places", 5, "257", "0"},
        {"--bytes", 5, "65535", "65536"}, {"--places", 6, "1048577", "0"},
        {"--bytes", 6, "16777216", "16777217"}, {"--places", 8, "0", "-1"},
        {"--places", 8, "255", "256"}, {"--bytes", 8, "0", "-1"},
        {"--bytes", 8, "16777216", "16777217"}};
    char folder[PATH + 16];
    begin_hearing();
    for (size_t i = 0; i < sizeof limits / sizeof *limits; i++) {
        snprintf(folder, sizeof folder, "%s/wide%d", place, (int)i);
        for (int is_bad = 1; is_bad >= 0; is_bad--) {
            char *words[] = {
                folder, "test", "0123456789abcdef", "63", "64", "8", "64", limits[i].option, "9"};
            bool is_bytes = strcmp(limits[i].option, "--bytes") == 0;
            words[limits[i].at] = strdup(is_bad ? limits[i].bad : limits[i].good);
            HOLDS(create(9, words) == (is_bad ? LEAVE_USAGE : 0));
            HOLDS((access(folder, F_OK) == 0) == !is_bad);
            if (!is_bad) {
                host_shape shape = shape_in(folder);
                HOLDS(shape.wide && shape.places == (is_bytes ? 8 : strtoul(words[8], NULL, 10)));
                HOLDS(shape.bytes == (is_bytes ? strtoul(words[8], NULL, 10) : 0));
                HOLDS(shape.registers == strtoul(words[5], NULL, 10));
                HOLDS(shape.slots == strtoul(words[6], NULL, 10));
            }
            free(words[limits[i].at]);
        }
    }
    // (Two of them come from the library.)
    HOLDS(end_hearing("usage:") == sizeof limits / sizeof *limits - 2);
}

// Each option of `create` comes at most once, with its number, in any order.
TEST(test_create_options)
{
    static char *const odd[][4] = {{"--places", "9", "--places", "9"},
        {"--limit", "1", "--limit", "1"}, {"--places", "9", "--limit", ""},
        {"--places", "", "--limit", "1"}, {"--place", "9", "--limit", "1"},
        {"9", "--places", "--limit", "1"}, {"--bytes", "9", "--bytes", "9"},
        {"--bytes", "", "--places", "1"}, {"--byte", "9", "--limit", "1"}};
    char folder[PATH + 16];
    begin_hearing();
    snprintf(folder, sizeof folder, "%s/odd", place);
    for (size_t i = 0; i < sizeof odd / sizeof *odd; i++) {
        char *words[] = {folder, "test", "0123456789abcdef", "1", "2", "8", "64", odd[i][0],
            odd[i][1], odd[i][2], odd[i][3]};
        HOLDS(create(11, words) == LEAVE_USAGE && create(10, words) == LEAVE_USAGE);
        HOLDS(create(8, words) == LEAVE_USAGE && access(folder, F_OK) != 0);
    }
    HOLDS(end_hearing("usage:") == 3 * sizeof odd / sizeof *odd);
    begin_hearing();
    for (int way = 0; way < 3; way++) {
        static char *const orders[3][3] = {{"--places", "--limit", "--bytes"},
            {"--bytes", "--places", "--limit"}, {"--limit", "--bytes", "--places"}};
        char *words[] = {folder, "test", "0123456789abcdef", "1", "2", "300", "64", orders[way][0],
            "20", orders[way][1], "20", orders[way][2], "20"};
        snprintf(folder, sizeof folder, "%s/all%d", place, way);
        HOLDS(create(13, words) == 0);
        host_shape shape = shape_in(folder);
        HOLDS(shape.wide && shape.places == 20 && shape.registers == 300 && shape.limit == 20);
        HOLDS(shape.bytes == 20 && show_as(folder) == 0);
    }
    HOLDS(end_hearing(", node 1 of 2, 300 registers, 64 slots, 20 places, 20 bytes, save ") == 3);
    snprintf(folder, sizeof folder, "%s/limit0", place);
    HOLDS(!shape_in(folder).wide && shape_in(folder).places == 8);
    begin_hearing();
    HOLDS(show_as(folder) == 0);
    HOLDS(end_hearing("8 registers, 64 slots, save ") == 1);
}

// The next round looks at the host.
static void look_soon(void)
{
    at.looked_at = 0;
    (void)go_on(2 * CYCLE);
}

// The node says once when the connection is lost and when it is there again, and when it is there
// again without having been seen as lost.
TEST(test_connection_lines)
{
    for (int i = 0; i < 2; i++) {
        begin_hearing();
        model.is_away = true;
        look_soon();
        look_soon();
        HOLDS(!at.is_connected && end_hearing("is lost") == 1);
        begin_hearing();
        model.is_away = false;
        model_connect(model.last);
        look_soon();
        look_soon();
        HOLDS(at.is_connected && end_hearing("there again") == 1);
        begin_hearing();
        model_connect(model.last);
        look_soon();
        HOLDS(at.is_connected && end_hearing("there again") == 1);
        // A look may see the connection before its event comes.
        model.is_away = true;
        look_soon();
        begin_hearing();
        model.is_away = false;
        look_soon();
        model_connect(model.last);
        look_soon();
        HOLDS(at.is_connected && end_hearing("there again") == 1);
    }
}

// However little there is to do, the node turns and shows how it is.
TEST(test_looks)
{
    HOLDS(at.service.is_ready && longest_wait(&at) <= LONGEST_WAIT);
    at.service.every = 1;
    for (int i = 0; i < 5; i++) {
        (void)go_round(&at);
        HOLDS(longest_wait(&at) <= 1);
    }
    at.service.every = 0;
    uint64_t before = now_ms();
    GO_ON_UNTIL(at.looked_at > before);
    HOLDS(at.looked_at > before && at.looked_at <= now_ms());
    // Also while the server refuses it.
    at.looked_at = 0;
    begin_hearing();
    refuse(NATS_CONNECTION_AUTH_FAILED, 2);
    HOLDS(connect_again(&at, &carrier) == NATS_OK && at.looked_at > before);
    refuse(NATS_OK, 0);
    HOLDS(go_on(2 * CYCLE) == USABLE && end_hearing("trying again") == 1);
}

// ## Words

static bool parses(run_options *to, const char *first, const char *second)
{
    char *words[] = {"folder", "url", strdup(first), strdup(second)};
    bool parsed = parse_options(4, words, to);
    free(words[2]);
    free(words[3]);
    return parsed;
}

TEST(test_options)
{
    run_options to;
    char *none[] = {"folder", "url"};
    HOLDS(parse_options(2, none, &to) && !to.host.has_limit && to.metrics == NULL);
    HOLDS(strcmp(to.log_format, "text") == 0);
    HOLDS(parses(&to, "--limit", "0") && to.host.has_limit && to.host.limit == 0);
    HOLDS(parses(&to, "--limit", "18446744073709551615") && to.host.limit == UINT64_MAX);
    HOLDS(!parses(&to, "--limit", "18446744073709551616") && !parses(&to, "--limit", "-1"));
    HOLDS(!parses(&to, "--limits", "1"));
    char *metrics[] = {"folder", "url", "--log-format", "json", "--metrics", "[::1]:1"};
    HOLDS(parse_options(6, metrics, &to) && to.metrics == metrics[5]);
    HOLDS(to.log_format == metrics[3]);
    HOLDS(!parse_options(5, metrics, &to));
}

// ## Restoring

static const char OTHER[] = "fedcba9876543210";

// Calls it, and returns its status. What it prints goes to what is heard.
static int restore_as(const char *folder, const char *id)
{
    int out = begin_prints();
    int status = restore(folder, id);
    end_prints(out);
    return status;
}

// Which of the folder's files have these bytes.
static int files_with(const char *folder, const char *id)
{
    static char bytes[1 << 16];
    uint8_t wanted[SPACE_ID];
    int found = 0;
    HOLDS(parse_id(id, wanted));
    for (int i = 0; i < 2; i++) {
        char path[PATH + 16];
        snprintf(path, sizeof path, "%s/%s", folder, i == 0 ? "a" : "b");
        int file = open(path, O_RDONLY);
        ssize_t length = read(file, bytes, sizeof bytes);
        close(file);
        found += length > 0 && memmem(bytes, (size_t)length, wanted, SPACE_ID) != NULL;
    }
    return found;
}

TEST(test_restore)
{
    char folder[PATH + 8];
    char *words[] = {folder, "test", "0123456789abcdef", "1", "2", "8", "64", "--limit", "5"};
    store used;
    store_value value;
    snprintf(folder, sizeof folder, "%s/copy", place);
    HOLDS(create(9, words) == 0 && files_with(folder, words[2]) == 1);
    begin_hearing();
    HOLDS(restore_as(folder, "0123") == LEAVE_USAGE);
    HOLDS(restore_as(at.keeper.place, OTHER) == LEAVE_FOLDER);
    HOLDS(restore_as(place, OTHER) == LEAVE_FOLDER);
    HOLDS(end_hearing("another process has this folder") == 1);
    HOLDS(store_open(&used, &STORE_SYSTEM, folder, &value) == STORE_OK);
    free(value.buffer);
    begin_hearing();
    HOLDS(restore_as(folder, OTHER) == LEAVE_FOLDER && files_with(folder, OTHER) == 0);
    store_close(&used);
    for (int i = 0; i < 2; i++) {
        HOLDS(restore_as(folder, OTHER) == 0);
        HOLDS(files_with(folder, OTHER) == 2 && files_with(folder, words[2]) == 0);
    }
    HOLDS(end_hearing("space test fedcba9876543210, node 1 of 2, 8 registers, 64 slots") == 2);
    host *it = NULL;
    keeper opened;
    HOLDS(keeper_begin(&opened, folder) == 0 && open_folder(&opened, &it, false) == 0);
    HOLDS(host_is(it)->own == 1 && host_is(it)->limit == 5 && keeper_number(&opened) == 5);
    host_free(it);
    keeper_close(&opened);
}

// ## Saves

static int write_error, sync_error;
static store_calls real;

static int64_t write_or_fail(
    void *context, int file, const uint8_t *bytes, size_t length, uint64_t offset)
{
    return write_error != 0 ? -write_error : real.write_at(context, file, bytes, length, offset);
}

static int sync_or_fail(void *context, int file)
{
    return sync_error != 0 ? -sync_error : real.sync(context, file);
}

// While saves fail, nobody is answered. A failed sync ends the node.
TEST(test_saves)
{
    real = at.keeper.folder.calls;
    at.keeper.folder.calls.write_at = write_or_fail;
    at.keeper.folder.calls.sync = sync_or_fail;
    listen();
    ask_to_open(1, 1, "_INBOX.one");
    HOLDS(hears("_INBOX.one"));
    for (int i = 0; i < 2; i++) {
        begin_hearing();
        write_error = ENOSPC;
        listen();
        ask_to_open(2 + (uint64_t)i, 2 + (uint64_t)i, "_INBOX.two");
        uint64_t failures = host_counted(at.host)->failed_saves;
        GO_ON_UNTIL(host_counted(at.host)->failed_saves >= failures + 2);
        HOLDS(host_counted(at.host)->failed_saves >= failures + 2 && !was_heard("_INBOX.two"));
        HOLDS(end_hearing("can't be saved: No space left on device") == 1);
        begin_hearing();
        write_error = 0;
        HOLDS(hears("_INBOX.two") && go_on(5 * CYCLE) == USABLE);
        HOLDS(end_hearing("is saved again") == 1);
    }
    sync_error = EIO;
    ask_to_open(4, 4, "_INBOX.three");
    GO_ON_UNTIL(host_ended(at.host) != HOST_RUNS);
    HOLDS(host_ended(at.host) == HOST_UNSURE && !was_heard("_INBOX.three"));
    begin_hearing();
    HOLDS(leave_with(&at) == LEAVE_UNSURE);
    HOLDS(end_hearing("start it again: Input/output error") == 1);
}

// A signal saves all and ends the node, also in the next process.
TEST(test_signal)
{
    run_options options;
    memset(&options, 0, sizeof options);
    options.host.cycle_every = CYCLE;
    host_free(at.host);
    keeper_close(&at.keeper);
    sync_error = 0;
    HOLDS(open_node(&at, &options.host) == 0 && go_on(5 * CYCLE) == USABLE);
    listen();
    ask_to_open(5, 4, "_INBOX.four");
    HOLDS(hears("_INBOX.four"));
    HOLDS(kill(getpid(), SIGTERM) == 0);
    GO_ON_UNTIL(host_ended(at.host) != HOST_RUNS);
    HOLDS(host_ended(at.host) == HOST_LEFT);
    HOLDS(leave_with(&at) == 0);
}

// ## Beginning and end

static void start(void)
{
    char *words[] = {place, "test", "0123456789abcdef", "0", "2", "8", "64"};
    run_options options;
    memset(&options, 0, sizeof options);
    options.host.cycle_every = CYCLE;
    char folder[PATH + 8];
    snprintf(folder, sizeof folder, "%s/node", place);
    words[0] = strdup(folder);
    HOLDS(create(7, words) == 0);
    HOLDS(keeper_begin(&at.keeper, words[0]) == 0);
    HOLDS(open_node(&at, &options.host) == 0);
    name_node(&at);
    HOLDS(connect_node(&at, &carrier) == NATS_OK);
    GO_ON_UNTIL(published > 0);
    HOLDS(go_on(5 * CYCLE) == USABLE && published > 0);
}

// The connection, and the subscription.
static void check_model(void)
{
    HOLDS(model.alive == 2);
}

int main(void)
{
    model.published = on_published;
    HOLDS(mkdtemp(place) != NULL);
    run_node(start, check_model);
    HOLDS(model.alive == 0);
    free((void *)(uintptr_t)at.keeper.place);
    remove_place();
    return report_checks();
}
