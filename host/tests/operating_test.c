// What an operator sees of a node: lines of the log, what systemd is told, metrics over HTTP.
//
//     operating_test
#include "../log.h"
#include "../metrics.h"
#include "../reports.h"
#include "../service.h"
#include "said.h"

#include <arpa/inet.h>
#include <errno.h>
#include <stdarg.h>
#include <sys/socket.h>
#include <sys/stat.h>
#include <sys/un.h>
#include <time.h>

enum { MINUTE = 60000, MOST = 64 };

// ## Lines

static bool ends_with(const char *text, const char *end)
{
    size_t length = strlen(text), tail = strlen(end);
    return length >= tail && strcmp(text + length - tail, end) == 0;
}

// `2026-11-28T17:39:26.123Z`, and a space.
static bool has_time(const char *text)
{
    static const char FORM[] = "0000-00-00T00:00:00.000Z";
    for (size_t i = 0; i < sizeof FORM - 1; i++) {
        if (FORM[i] == '0' ? text[i] < '0' || text[i] > '9' : text[i] != FORM[i]) {
            return false;
        }
    }
    return true;
}

static const char *say_as(log_form form, const char *folder, const char *text)
{
    log_begin(form, folder);
    begin_hearing();
    log_say(5, (log_line){LEVEL_WARNING, EVENT_PEER_LOST, {{"peer", 2}, {"seconds", 10.25}}}, "%s",
        text);
    HOLDS(end_hearing("\n") == 1);
    return said;
}

TEST(test_forms)
{
    HOLDS(strcmp(say_as(LOG_BARE, "a/b", "some text"), "markring-node: a/b: some text\n") == 0);
    HOLDS(strcmp(say_as(LOG_JOURNAL, "a/b", "some text"), "<4>a/b: some text\n") == 0);
    HOLDS(has_time(say_as(LOG_TIMED, "a/b", "some text")));
    HOLDS(strcmp(said + 24, " warning markring-node: a/b: some text\n") == 0);
    HOLDS(strncmp(say_as(LOG_JSON, "a/b", "some text"), "{\"time\": \"", 10) == 0);
    HOLDS(has_time(said + 10));
    HOLDS(strcmp(said + 34,
              "\", \"level\": \"warning\", \"event\": \"peer_lost\", \"folder\": \"a/b\", "
              "\"peer\": 2, \"seconds\": 10.25, \"text\": \"some text\"}\n")
        == 0);
    log_begin(LOG_JSON, "f");
    log_name("ring", 3);
    begin_hearing();
    log_say(5, (log_line){LEVEL_ERROR, EVENT_FAILED, {{0}}}, "%d", 7);
    HOLDS(end_hearing("\n") == 1 && strstr(said, "\"level\": \"error\", \"event\": \"failed\"") != NULL);
    HOLDS(ends_with(said, "\"f\", \"space\": \"ring\", \"node\": 3, \"text\": \"7\"}\n"));
}

// A text from elsewhere, such as a server's, is one line and in UTF-8, whatever it has.
TEST(test_odd_texts)
{
    HOLDS(ends_with(say_as(LOG_JOURNAL, "f", "a\n<3>b\r\x7f"), "f: a?<3>b??\n"));
    HOLDS(ends_with(say_as(LOG_JSON, "f\"", "\"\\\n\t"), "\"text\": \"\\\"\\\\??\"}\n"));
    HOLDS(strstr(said, "\"folder\": \"f\\\"\", ") != NULL);
    HOLDS(ends_with(say_as(LOG_JSON, "f", "\xc3\xa4\xe2\x82\xac\xf0\x9f\x98\x80"),
        "\"text\": \"\xc3\xa4\xe2\x82\xac\xf0\x9f\x98\x80\"}\n"));
    // Not UTF-8: cut, overlong, a surrogate, too large, a byte that begins nothing.
    HOLDS(ends_with(say_as(LOG_JSON, "f", "\xc3|\xc0\xaf|\xed\xa0\x80|\xf4\x90\x80\x80|\xff"),
        "\"text\": \"?|??|???|????|?\"}\n"));
    static char text[8192];
    memset(text, '"', sizeof text - 1);
    HOLDS(strlen(say_as(LOG_JSON, text, text)) < 4096 && ends_with(said, "\\\"\"}\n"));
    HOLDS(strlen(say_as(LOG_TIMED, text, text)) < 4096 && ends_with(said, "\"\"\n"));
}

TEST(test_form_names)
{
    log_form form;
    struct stat found;
    char stream[64];
    unsetenv("JOURNAL_STREAM");
    HOLDS(log_form_of("text", &form) && form == LOG_TIMED);
    HOLDS(log_form_of("json", &form) && form == LOG_JSON);
    HOLDS(!log_form_of("", &form) && !log_form_of("JSON", &form));
    HOLDS(fstat(2, &found) == 0);
    snprintf(
        stream, sizeof stream, "%ju:%ju", (uintmax_t)found.st_dev, (uintmax_t)found.st_ino);
    setenv("JOURNAL_STREAM", stream, 1);
    HOLDS(log_form_of("text", &form) && form == LOG_JOURNAL);
    HOLDS(log_form_of("json", &form) && form == LOG_JSON);
    snprintf(
        stream, sizeof stream, "%ju:%ju", (uintmax_t)found.st_dev, (uintmax_t)found.st_ino + 1);
    setenv("JOURNAL_STREAM", stream, 1);
    HOLDS(log_form_of("text", &form) && form == LOG_TIMED);
    unsetenv("JOURNAL_STREAM");
}

static void say(uint64_t now, log_event event)
{
    log_say(now, (log_line){LEVEL_INFO, event, {{0}}}, "x");
}

// Whatever comes and goes how often, the log has a bounded number of lines, and no begin without
// its end.
TEST(test_bounds)
{
    log_begin(LOG_JOURNAL, "f");
    begin_hearing();
    for (int i = 0; i < 1000; i++) {
        say(10, EVENT_SAVES_FAIL);
        say(10, EVENT_SAVES_AGAIN);
    }
    int lines = end_hearing("\n");
    HOLDS(lines >= 2 * MOST && lines <= 3 * MOST);
    begin_hearing();
    say(10, EVENT_CYCLE_ENDED);
    HOLDS(end_hearing("\n") == 1);
    // An hour of the same, ten times a second.
    begin_hearing();
    for (uint64_t time = 0; time < 60 * MINUTE; time += 100) {
        say(10 + time, time % 200 == 0 ? EVENT_SAVES_FAIL : EVENT_SAVES_AGAIN);
    }
    lines = end_hearing("\n");
    HOLDS(lines >= 110 && lines <= 125);
    HOLDS(strstr(said, "f: x (") != NULL);
    HOLDS(strstr(said, " lines like it were left out)\n") != NULL);
    // A begin that is logged has its end, also long after.
    log_begin(LOG_JOURNAL, "f");
    begin_hearing();
    for (int i = 0; i < 3 * MOST; i++) {
        say(20, EVENT_PEER_SEEN);
    }
    HOLDS(end_hearing("\n") == MOST);
    begin_hearing();
    for (int i = 0; i < 3 * MOST; i++) {
        say(20, EVENT_PEER_LOST);
    }
    for (int i = 0; i < 3 * MOST; i++) {
        say(20, EVENT_PEER_SEEN);
    }
    HOLDS(end_hearing("\n") == 2 * MOST);
    // Commands say everything.
    log_begin(LOG_BARE, "f");
    begin_hearing();
    for (int i = 0; i < 3 * MOST; i++) {
        say(20, EVENT_FAILED);
    }
    HOLDS(end_hearing("\n") == 3 * MOST);
}

// Each note is one line, which names what it is about.
TEST(test_reports)
{
    static const struct {
        host_note note;
        const char *line;
    } CASES[] = {
        {{.kind = NOTE_PEER_SEEN, .node = 3}, "<6>f: node 3 is there\n"},
        {{.kind = NOTE_PEER_LOST, .node = 3, .time = 10400},
            "<4>f: node 3 is lost: it hasn't answered for 10 s\n"},
        {{.kind = NOTE_CYCLE_BEGUN, .cycle = 5}, "<6>f: cycle 5 has begun\n"},
        {{.kind = NOTE_CYCLE_ENDED, .cycle = 5, .time = 12},
            "<6>f: marking of cycle 5 has ended after 0.012 s\n"},
        {{.kind = NOTE_CYCLE_SWEPT, .cycle = 5, .time = 1500, .count = 77},
            "<6>f: cycle 5 is swept after 1.500 s: 77 objects are freed\n"},
        {{.kind = NOTE_CYCLE_WAITS, .cycle = 5, .time = 60000, .node = 0},
            "<4>f: cycle 5 has been under way for 60 s: it waits for node 0, which acknowledges "
            "nothing\n"},
        {{.kind = NOTE_CYCLE_STUCK, .cycle = 5, .time = 60000, .node = 0},
            "<4>f: cycle 5 has been under way for 60 s: it waits for another node (markring-space "
            "says which)\n"},
        {{.kind = NOTE_SAVE_SLOW, .time = 1200},
            "<4>f: saves are slow: one has taken 1.2 s so far\n"},
        {{.kind = NOTE_SAVES_QUICK, .time = 1200, .count = 4},
            "<6>f: no save was slow for a minute; 4 were, the longest took 1.2 s\n"},
        {{.kind = NOTE_LIMIT_REACHED, .limit = LIMIT_MESSAGES, .node = 9},
            "<4>f: too many messages to node 9 are unacknowledged: programs can send it nothing "
            "(Congested)\n"},
        {{.kind = NOTE_LIMIT_LEFT, .limit = LIMIT_MESSAGES, .node = 9},
            "<6>f: programs can send messages to node 9 again\n"},
        {{.kind = NOTE_LIMIT_REACHED, .limit = LIMIT_LETTERS},
            "<4>f: too many letters wait for programs: the node takes no messages\n"},
        {{.kind = NOTE_LIMIT_LEFT, .limit = LIMIT_LETTERS},
            "<6>f: the node takes messages again\n"},
        {{.kind = NOTE_LIMIT_REACHED, .limit = LIMIT_IMAGE},
            "<4>f: the node's image is too large: programs can't let it grow (ImageTooLarge)\n"},
        {{.kind = NOTE_LIMIT_LEFT, .limit = LIMIT_IMAGE},
            "<6>f: programs can let the node's image grow again\n"},
    };
    log_begin(LOG_JOURNAL, "f");
    for (size_t i = 0; i < sizeof CASES / sizeof *CASES; i++) {
        begin_hearing();
        report(7, &CASES[i].note);
        HOLDS(end_hearing("\n") == 1 && strcmp(said, CASES[i].line) == 0);
    }
    log_begin(LOG_JSON, "f");
    for (size_t i = 0; i < sizeof CASES / sizeof *CASES; i++) {
        begin_hearing();
        report(7, &CASES[i].note);
        HOLDS(end_hearing("\n") == 1 && ends_with(said, "\"}\n"));
        HOLDS(CASES[i].note.cycle == 0 || strstr(said, "\"cycle\": 5, ") != NULL);
        HOLDS(CASES[i].note.node == 0 || strstr(said, "\"peer\": ") != NULL);
    }
}

// ## systemd

static int manager = -1;

// Makes a socket as that of systemd, with this name in the variable.
static void make_manager(const char *name)
{
    struct sockaddr_un at = {.sun_family = AF_UNIX};
    struct timeval wait = {0, 20000};
    socklen_t length = (socklen_t)(offsetof(struct sockaddr_un, sun_path) + strlen(name));
    memcpy(at.sun_path, name, strlen(name));
    if (name[0] == '@') {
        at.sun_path[0] = 0;
    }
    manager = socket(AF_UNIX, SOCK_DGRAM | SOCK_CLOEXEC, 0);
    HOLDS(bind(manager, (struct sockaddr *)&at, length) == 0);
    HOLDS(setsockopt(manager, SOL_SOCKET, SO_RCVTIMEO, &wait, sizeof wait) == 0);
    setenv("NOTIFY_SOCKET", name, 1);
}

// The next message, or "".
static const char *told(void)
{
    static char text[512];
    ssize_t length = recv(manager, text, sizeof text - 1, 0);
    text[length > 0 ? length : 0] = 0;
    return text;
}

// systemd doesn't read: nobody waits for it, and what matters is said again.
static void test_busy_manager(void)
{
    service it;
    char name[PATH + 16];
    host_view view = {.counts.saves = 1};
    snprintf(name, sizeof name, "@%s/busy", place);
    make_manager(name);
    setenv("WATCHDOG_USEC", "3000", 1);
    service_begin(&it);
    for (uint64_t now = 1; now <= 1000; now++) {
        service_turn(&it, now, &view, false);
    }
    service_turn(&it, 1001, &view, true);
    HOLDS(!it.is_ready && it.alive_at < 1000);
    while (told()[0] != 0) {
    }
    service_turn(&it, 1002, &view, true);
    HOLDS(it.is_ready && it.alive_at == 1002);
    HOLDS(strcmp(told(), "READY=1") == 0 && strcmp(told(), "WATCHDOG=1") == 0);
    unsetenv("WATCHDOG_USEC");
    close(manager);
}

// A process on standby is ready at once, and shows that it lives.
static void test_standby(void)
{
    service it;
    char name[PATH + 16];
    host_view view = {.counts.saves = 1};
    snprintf(name, sizeof name, "@%s/standby", place);
    make_manager(name);
    setenv("WATCHDOG_USEC", "3000000", 1);
    service_begin(&it);
    service_wait(&it, 1000);
    HOLDS(strcmp(told(), "READY=1\nSTATUS=on standby") == 0 && strcmp(told(), "WATCHDOG=1") == 0);
    service_wait(&it, 1999);
    HOLDS(strcmp(told(), "") == 0);
    service_wait(&it, 2000);
    HOLDS(strcmp(told(), "WATCHDOG=1") == 0);
    // It runs the node then, of which systemd hears how it is.
    service_turn(&it, 2001, &view, true);
    HOLDS(strncmp(told(), "STATUS=node 0", 13) == 0 && strcmp(told(), "") == 0);
    unsetenv("WATCHDOG_USEC");
    close(manager);
}

TEST(test_service)
{
    char name[PATH + 16];
    for (int way = 0; way < 2; way++) {
        service it;
        host_view view = {.space = "ring", .own = 2, .save = 5, .cycle = 7, .live = 9};
        snprintf(name, sizeof name, way == 0 ? "%s/notify" : "@%s/notify", place);
        make_manager(name);
        unsetenv("WATCHDOG_USEC");
        service_begin(&it);
        HOLDS(it.every == 0);
        service_turn(&it, 1000, &view, false);
        HOLDS(strcmp(told(),
                  "STATUS=node 2 of ring, not connected; save 5, cycle 7, 9 objects")
            == 0);
        // Connected, but no save is stored; then a save, but no connection.
        service_turn(&it, 2000, &view, true);
        view.counts.saves = 1;
        service_turn(&it, 3000, &view, false);
        HOLDS(strcmp(told(), "") == 0);
        service_turn(&it, 4000, &view, true);
        HOLDS(strcmp(told(), "READY=1") == 0);
        HOLDS(strcmp(told(), "STATUS=node 2 of ring, connected; save 5, cycle 7, 9 objects") == 0);
        service_turn(&it, 13999, &view, false);
        HOLDS(strcmp(told(), "") == 0);
        service_turn(&it, 14000, &view, false);
        HOLDS(strncmp(told(), "STATUS=node 2 of ring, not connected", 36) == 0);
        HOLDS(strcmp(told(), "") == 0);
        service_stop();
        HOLDS(strcmp(told(), "STOPPING=1") == 0);
        // A sign of life three times in the time that systemd gives.
        setenv("WATCHDOG_USEC", "3000000", 1);
        service_begin(&it);
        HOLDS(it.every == 1000);
        it.said_at = 5000;
        service_turn(&it, 5000, &view, false);
        HOLDS(strcmp(told(), "WATCHDOG=1") == 0);
        service_turn(&it, 5999, &view, false);
        HOLDS(strcmp(told(), "") == 0);
        service_turn(&it, 6000, &view, false);
        HOLDS(strcmp(told(), "WATCHDOG=1") == 0);
        // It isn't this process that systemd waits for.
        setenv("WATCHDOG_PID", "1", 1);
        service_begin(&it);
        HOLDS(it.every == 0);
        unsetenv("WATCHDOG_PID");
        unsetenv("WATCHDOG_USEC");
        close(manager);
    }
    test_busy_manager();
    test_standby();
    unsetenv("NOTIFY_SOCKET");
    service it;
    host_view view = {.counts.saves = 1};
    service_begin(&it);
    service_turn(&it, 1, &view, true);
    service_stop();
    HOLDS(it.is_ready && it.every == 0);
}

// ## Metrics

static uint64_t now_ms(void)
{
    struct timespec now;
    clock_gettime(CLOCK_MONOTONIC, &now);
    return (uint64_t)now.tv_sec * 1000 + (uint64_t)now.tv_nsec / 1000000;
}

static uint16_t port;
static metrics *served;

static int dial(void)
{
    struct sockaddr_in at = {.sin_family = AF_INET, .sin_port = htons(port)};
    struct timeval wait = {8, 0};
    at.sin_addr.s_addr = htonl(INADDR_LOOPBACK);
    int it = socket(AF_INET, SOCK_STREAM | SOCK_CLOEXEC, 0);
    HOLDS(setsockopt(it, SOL_SOCKET, SO_RCVTIMEO, &wait, sizeof wait) == 0);
    HOLDS(connect(it, (struct sockaddr *)&at, sizeof at) == 0);
    return it;
}

// What the server says to this, until it closes the connection.
static const char *ask(const char *request)
{
    static char answer[1 << 20];
    size_t done = 0;
    int it = dial();
    HOLDS(send(it, request, strlen(request), MSG_NOSIGNAL) == (ssize_t)strlen(request));
    for (;;) {
        ssize_t count = recv(it, answer + done, sizeof answer - 1 - done, 0);
        if (count <= 0) {
            break;
        }
        done += (size_t)count;
    }
    answer[done] = 0;
    close(it);
    return answer;
}

static const char *get(const char *path)
{
    char request[256];
    snprintf(
        request, sizeof request, "GET %s HTTP/1.1\r\nHost: x\r\nConnection: close\r\n\r\n", path);
    return ask(request);
}

static bool is_status(const char *answer, int status)
{
    return strncmp(answer, "HTTP/1.1 ", 9) == 0 && atoi(answer + 9) == status;
}

static host_view some_view(void)
{
    host_view view = {.space = "ring", .own = 1, .nodes = 3, .cycle = 7, .saved_ago = 1234};
    view.counts.saves = 42;
    view.peers[0] = (host_peer_view){true, false, 5};
    view.peers[2] = (host_peer_view){false, true, 6};
    view.saves.counts[0] = 3;
    view.saves.counts[2] = 2;
    view.saves.counts[HOST_BOUNDS] = 1;
    view.saves.sum = 400123;
    return view;
}

TEST(test_text)
{
    host_view view = some_view();
    char *text = NULL;
    size_t length = 0;
    FILE *to = open_memstream(&text, &length);
    metrics_write(to, &view, true);
    fclose(to);
    static const char *const lines[] = {
        "# TYPE markring_saves_total counter\nmarkring_saves_total{space=\"ring\",node=\"1\"} 42\n",
        "# TYPE markring_cycle gauge\nmarkring_cycle{space=\"ring\",node=\"1\"} 7\n",
        "\nmarkring_save_age_seconds{space=\"ring\",node=\"1\"} 1.234\n",
        "\nmarkring_connected{space=\"ring\",node=\"1\"} 1\n",
        "\nmarkring_peer_seen{space=\"ring\",node=\"1\",peer=\"0\"} 1\n"
        "markring_peer_seen{space=\"ring\",node=\"1\",peer=\"2\"} 0\n#",
        "\nmarkring_peer_late{space=\"ring\",node=\"1\",peer=\"2\"} 1\n",
        "peer_unacknowledged_messages{space=\"ring\",node=\"1\",peer=\"0\"} 5\n",
        "# TYPE markring_save_duration_seconds histogram\n"
        "markring_save_duration_seconds_bucket{space=\"ring\",node=\"1\",le=\"0.001\"} 3\n"
        "markring_save_duration_seconds_bucket{space=\"ring\",node=\"1\",le=\"0.002\"} 3\n"
        "markring_save_duration_seconds_bucket{space=\"ring\",node=\"1\",le=\"0.005\"} 5\n",
        "_bucket{space=\"ring\",node=\"1\",le=\"300\"} 5\n"
        "markring_save_duration_seconds_bucket{space=\"ring\",node=\"1\",le=\"+Inf\"} 6\n"
        "markring_save_duration_seconds_sum{space=\"ring\",node=\"1\"} 400.123\n"
        "markring_save_duration_seconds_count{space=\"ring\",node=\"1\"} 6\n"};
    for (size_t i = 0; i < sizeof lines / sizeof *lines; i++) {
        HOLDS(strstr(text, lines[i]) != NULL);
    }
    free(text);
}

TEST(test_opening_server)
{
    struct sockaddr_in at = {.sin_family = AF_INET};
    socklen_t length = sizeof at;
    char address[32];
    at.sin_addr.s_addr = htonl(INADDR_LOOPBACK);
    int it = socket(AF_INET, SOCK_STREAM, 0);
    HOLDS(bind(it, (struct sockaddr *)&at, sizeof at) == 0);
    HOLDS(getsockname(it, (struct sockaddr *)&at, &length) == 0);
    port = ntohs(at.sin_port);
    snprintf(address, sizeof address, "127.0.0.1:%d", port);
    // Somebody has the port.
    HOLDS(listen(it, 1) == 0);
    metrics *none = NULL;
    HOLDS(metrics_open(&none, address) == METRICS_FAILED && errno == EADDRINUSE && none == NULL);
    close(it);
    HOLDS(metrics_open(&served, address) == METRICS_OK);
}

TEST(test_metric_addresses)
{
    static const char *const wrong[] = {"", ":", "9464", ":9464", "127.0.0.1", "127.0.0.1:",
        "127.0.0.1:0", "127.0.0.1:65536", "127.0.0.1:99999999999", "127.0.0.1:94x", "127.0.0.1:-1",
        "127.0.0.1: 1", "localhost:9464", "::1:9464", "[::1:9464", "::1]:9464", "[]:9464",
        "[127.0.0.1]:9464", "256.0.0.1:9464",
        "1111111111111111111111111111111111111111111111111111111111111111111:9464"};
    metrics *none = NULL;
    for (size_t i = 0; i < sizeof wrong / sizeof *wrong; i++) {
        HOLDS(metrics_open(&none, wrong[i]) == METRICS_BAD_ADDRESS && none == NULL);
    }
    HOLDS(metrics_open(&none, "203.0.113.1:9464") == METRICS_FAILED && errno == EADDRNOTAVAIL);
}

TEST(test_health)
{
    host_view view = some_view();
    HOLDS(is_status(get("/healthz"), 503) && is_status(get("/readyz"), 503));
    HOLDS(!is_status(get("/metrics"), 200));
    metrics_show(served, &view, true, now_ms());
    HOLDS(is_status(get("/healthz"), 200) && is_status(get("/readyz"), 200));
    metrics_show(served, &view, false, now_ms());
    HOLDS(is_status(get("/healthz"), 200) && is_status(get("/readyz"), 503));
    HOLDS(strstr(get("/readyz"), "it isn't connected\n") != NULL);
    view.counts.saves = 0;
    metrics_show(served, &view, true, now_ms());
    HOLDS(is_status(get("/healthz"), 200) && is_status(get("/readyz"), 503));
    HOLDS(strstr(get("/readyz"), "its first save isn't stored\n") != NULL);
    metrics_show(served, &view, true, now_ms() - 9000);
    HOLDS(is_status(get("/healthz"), 200));
    metrics_show(served, &view, true, now_ms() - 10001);
    HOLDS(is_status(get("/healthz"), 503));
    HOLDS(strstr(get("/healthz"), "it doesn't turn\n") != NULL);
}

TEST(test_http)
{
    host_view view = some_view();
    metrics_show(served, &view, true, now_ms());
    const char *answer = get("/metrics");
    HOLDS(is_status(answer, 200));
    HOLDS(strstr(answer, "Content-Type: text/plain; version=0.0.4; charset=utf-8\r\n") != NULL);
    HOLDS(strstr(answer, "\nmarkring_saves_total{space=\"ring\",node=\"1\"} 42\n") != NULL);
    // What is shown is the last.
    view.counts.saves = 43;
    metrics_show(served, &view, true, now_ms());
    answer = get("/metrics");
    HOLDS(strstr(answer, "\nmarkring_saves_total{space=\"ring\",node=\"1\"} 43\n") != NULL);
    HOLDS(is_status(get("/"), 404) && is_status(get("/metrics/"), 404));
    HOLDS(is_status(get("/metrics?x=1"), 200));
    static const char *const methods[] = {
        "POST", "PUT", "DELETE", "OPTIONS", "TRACE", "PRI", "get"};
    for (size_t i = 0; i < sizeof methods / sizeof *methods; i++) {
        char request[256];
        snprintf(request, sizeof request,
            "%s /metrics HTTP/1.1\r\nHost: x\r\nConnection: close\r\nContent-Length: 3\r\n\r\nabc",
            methods[i]);
        answer = ask(request);
        HOLDS(is_status(answer, 405) && strstr(answer, "Allow: GET, HEAD\r\n") != NULL);
    }
    answer = ask("HEAD /metrics HTTP/1.1\r\nHost: x\r\nConnection: close\r\n\r\n");
    HOLDS(is_status(answer, 200) && ends_with(answer, "\r\n\r\n"));
    // A path and a line that are too long, and bytes that are no request.
    static char path[100000];
    memset(path, 'a', sizeof path - 1);
    path[0] = '/';
    static char request[sizeof path + 64];
    snprintf(request, sizeof request, "GET %s HTTP/1.1\r\nHost: x\r\n\r\n", path);
    answer = ask(request);
    HOLDS(strncmp(answer, "HTTP/1.1 4", 10) == 0 || answer[0] == 0);
    answer = ask("\x16\x03\x01\x02\r\n\r\n\r\n");
    HOLDS(!is_status(answer, 200));
    HOLDS(is_status(get("/healthz"), 200));
}

// How many of these connections the server hasn't closed.
static int count_open(const int *clients, int count)
{
    int open = 0;
    for (int i = 0; i < count; i++) {
        char byte;
        open += recv(clients[i], &byte, 1, MSG_DONTWAIT | MSG_PEEK) < 0 && errno == EAGAIN;
    }
    return open;
}

// Clients that say nothing, or half a request: the others are served again soon, and who shows the
// numbers never waits.
static void test_slow_clients(void)
{
    enum { CLIENTS = 40, SLOW = 40000 };
    int clients[CLIENTS];
    host_view view = some_view();
    for (int i = 0; i < CLIENTS; i++) {
        clients[i] = dial();
        (void)send(clients[i], "GET /metr", (i & 1) * 9u, MSG_NOSIGNAL);
    }
    uint64_t began = now_ms();
    for (int i = 0; i < 1000; i++) {
        metrics_show(served, &view, true, now_ms());
    }
    HOLDS(now_ms() - began < 4000);
    usleep(300000);
    int open = count_open(clients, CLIENTS);
    bool is_served = is_status(get("/healthz"), 200);
    // (After three seconds, on a machine that is busy, they may be gone.)
    HOLDS(now_ms() - began > 2500 || (open > 0 && open <= 16 && !is_served));
    while (!is_status(get("/healthz"), 200) && now_ms() - began < SLOW) {
        usleep(100000);
        metrics_show(served, &view, true, now_ms());
    }
    HOLDS(now_ms() - began < SLOW && count_open(clients, CLIENTS) == 0);
    HOLDS(is_status(get("/healthz"), 200));
    for (int i = 0; i < CLIENTS; i++) {
        close(clients[i]);
    }
}

int main(void)
{
    // Nothing here may wait for ever.
    alarm(100);
    HOLDS(mkdtemp(place) != NULL);
    run_tests();
    // (it takes seconds, which a wrong host needn't)
    if (failed < 2) {
        test_slow_clients();
    }
    metrics_close(served);
    remove_place();
    return report_checks();
}
